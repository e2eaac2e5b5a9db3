# What a line of the trace says in words. Every name is read from include/sscf.h, and the words for a state from docs/CODES.md, so that there is no second list of them.
# For host/names and host/ladder, which tell by `root` where the repository is and by `tool` who they are.

BEGIN {
    split("user SSCOP management timers", sides)
    families = split("EVENT SIGNAL STATUS SOURCE REPORT_LOWER REPORT_UPPER REPORT_REASON REFUSED", family)
    read_names(root "/include/sscf.h")
    read_states(root "/docs/CODES.md")
}

function fail(why) {
    print "host/" tool ": " why >"/dev/stderr"
    failed = 1
    exit 1
}

# 'SSCF_EVENT_START = 5' anywhere in the file makes START the name of event 5. Where a number has two names the first counts.
function read_names(file,    line, pair) {
    while ((getline line <file) > 0)
        while (match(line, /SSCF_[A-Z0-9_]+ *= *[0-9]+/)) {
            split(substr(line, RSTART + 5, RLENGTH - 5), pair, / *= */)
            line = substr(line, RSTART + RLENGTH)
            keep_name(pair[1], pair[2])
        }
    close(file)
}

function keep_name(name, number,    i, start) {
    for (i = 1; i <= families; i++) {
        start = family[i] "_"
        if (index(name, start) == 1 && !((family[i], number) in names))
            names[family[i], number] = substr(name, length(start) + 1)
    }
}

# '| 6 | 2/10/3 | Proving/Data Transfer Ready |'
function read_states(file,    line, cell) {
    while ((getline line <file) > 0)
        if (split(line, cell, / *\| */) >= 5 && cell[3] ~ /^[0-9]+\/[0-9]+\/[0-9]+$/) words[cell[3]] = cell[4]
    close(file)
}

# The name of a number, and the number itself where it has none.
function name_of(kind, number) {
    return (kind, number) in names ? names[kind, number] : number
}

function event_name(code, refusal) {
    if (refusal == 2) return "no event"
    return ("EVENT", code) in names ? names["EVENT", code] : "code " code
}

# Who says an event or is told a signal: document 01 gives each of the four a run of 16 codes. Nobody says a code that has no name.
function side(kind, code) {
    return (kind, code) in names ? sides[int(code / 16) + 1] : ""
}

function refusal_text(refusal) {
    return "refused: " name_of("REFUSED", refusal) " (" refusal ")"
}

function state_text(state) {
    if (state == "?") return "? ill-formed record"
    return state in words ? state " " words[state] : state
}

# What an event or a signal of this name carries, in words; "" for nothing. The number stands as three decimals, the message in hex or as "-".
function carried(name, parameter, number, message,    n, text, sum) {
    split(number, n, ".")
    sum = n[1] * 65536 + n[2] * 256 + n[3]
    if (name == "REPORT") return report(n[1], n[2], n[3], parameter)
    if (name ~ /^(ESTABLISH_.*|RELEASE_INDICATION|RELEASE_REQUEST)$/) text = " " (parameter == 0 ? "-" : name_of("STATUS", parameter))
    if (name == "RELEASE_INDICATION") text = text " by " name_of("SOURCE", sum)
    if (name == "CONGESTION" || name == "LINK_CONGESTED") text = " level " parameter
    if (name == "RETRIEVAL_REQUEST_AND_FSNC" || name == "BSNT") text = " " sum
    if (name == "DATA") text = " SN " sum
    if (name == "RETRIEVE_REQUEST") text = " RN " sum
    if (message != "-") text = text " " message_text(name, message)
    else if (name == "DATA" || name == "UNITDATA" || name == "RETRIEVE") text = text " empty"
    return substr(text, 2)
}

# An event that was refused for its code or its fields is shown field by field.
function event_carried(name, refusal, parameter, number, message) {
    if (refusal == 3 || refusal >= 10 && refusal <= 12) return "parameter " parameter ", number " number ", message " message
    return carried(name, parameter, number, message)
}

function report(lower, upper, reason, parameter,    text) {
    text = reported("LOWER", lower) "," reported("UPPER", upper) "," reported("REASON", reason)
    if (name_of("REPORT_REASON", reason) == "SSCOP_UU") text = text " " (parameter == 0 ? "-" : name_of("STATUS", parameter))
    return "{" text "}"
}

function reported(place, value) {
    return value == 0 ? "-" : name_of("REPORT_" place, value)
}

# Four octets between the two ends are a unit, which is called by its status. Other messages stand as text where every octet is a printable character, else in hex.
function message_text(name, hex,    octet, i, text) {
    if (name ~ /^(DATA|DATA_REQUEST|RETRIEVE)$/ && length(hex) == 8 && ("STATUS", octet_at(hex, 7)) in names)
        return names["STATUS", octet_at(hex, 7)] " unit"
    for (i = 1; i < length(hex); i += 2) {
        octet = octet_at(hex, i)
        if (octet < 32 || octet > 126) return hex
        text = text sprintf("%c", octet)
    }
    return "\"" text "\""
}

function octet_at(hex, i) {
    return 16 * index("123456789abcdef", substr(hex, i, 1)) + index("123456789abcdef", substr(hex, i + 1, 1))
}

# Every line is one of the trace's or of host/steps', and the links come last, unless there was no table.
!/^(T 1|E [0-9]+ [0-9]+ [0-9]+ ([0-9]|1[0-2]) [0-9]|[SC]( [0-9]+)+ [0-9]+\.[0-9]+\.[0-9]+ (-|[0-9a-f]+)|L [0-9]+ (\?|[0-9\/]+) [0-9]+)$/ {
    fail("line " NR " is none of the trace's: " substr($0, 1, 60))
}

{ last = $1 }

END {
    if (failed) exit 1
    if (last != "L" && last != "T") fail(NR ? "the trace ends before its L lines" : "no trace to read")
}
