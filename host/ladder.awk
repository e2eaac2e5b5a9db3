# The ladder chart of a trace as SVG: for each link that has an event, or for the one that `only` names, a chart of its own, one below the other.
# A step is an event and what follows from it: a row for each arrow, then the state where it has changed. What the trace does not tell is not drawn.

BEGIN {
    wide = 900
    columns = split("user SSCF SSCOP management", column)
    at["user"] = 90; at["SSCF"] = 370; at["SSCOP"] = 620; at["management"] = 840
    bar = 6 # half the breadth of the SSCF's lifeline, at whose edges arrows begin and end
    left = at["SSCF"] - bar - 1; right = at["SSCF"] + bar + 1
    heads = 48; lives = 74; top = 82 # the names of the columns, their lines, and where the first row begins
    row = 26 # from one arrow to the next
    # The letters that fit beside an arrow: all are of one breadth, so they can be counted.
    fits["user"] = 35; fits["SSCOP"] = 31; fits["management"] = 27; fits["timers"] = 23; fits[""] = 26
}

# Reading.

$1 == "T" { no_table = 1 }

$1 == "E" {
    put_event("")
    link = $3
    know(link)
    end_step(link)
    begin_step(link, $2)
    event = event_name($4, $5)
    from = $5 == 2 ? "" : side("EVENT", $4)
    refusal = $5
    pending = 1
    if (refusal == 0 && event == "STOP") told[link] = "out"
}

$1 == "C" { put_event(event_carried(event, refusal, $2, $3, $4)) }

$1 == "S" {
    put_event("")
    name = name_of("SIGNAL", $2)
    put_arrow(link, side("SIGNAL", $2), "out", name, carried(name, $3, $4, $5), "")
    signals[link]++
    if (name == "IN_SERVICE") told[link] = "in"
    if (name == "OUT_OF_SERVICE") told[link] = "out"
}

$1 == "L" {
    put_event("")
    if (!any_event) between = 1
    know($2)
    put_state($2, $3, $4)
}

# A chart is kept as its pieces, and y is how far down it has come.
function know(link) {
    if (link in y) return
    y[link] = top
    links[count++] = link
}

function draw(link, piece) { pieces[link, drawn[link]++] = piece }

function begin_step(link, ordinal) {
    any_event = 1
    events[link]++
    opened[link] = y[link]
    draw(link, text_at(14, y[link] + row - 6, "ordinal", "", ordinal))
}

# Every other step stands on a tinted ground.
function end_step(link) {
    settle(link)
    if (!(link in opened)) return
    y[link] += 10
    if (events[link] % 2) bands[link] = bands[link] "<rect class='band' y='" opened[link] "' width='" wide "' height='" (y[link] - opened[link]) "'/>\n"
    delete opened[link]
}

# An event waits for the line that tells what it carries, which a plain trace does not have.
function put_event(carries) {
    if (pending) put_arrow(link, from, "in", event, carries, refusal == 0 ? "" : refusal_text(refusal))
    pending = 0
}

# A row: an arrow to the SSCF or from it, named above it or beside it, and a refusal on the other side of the SSCF.
function put_arrow(link, who, way, name, carries, refused,    kind, near, far, here, text) {
    here = y[link] += row
    kind = way (refused == "" ? "" : " refused")
    near = who == "user" || who == "" ? left : right
    far = who == "timers" ? right + 42 : who == "" ? left - 63 : at[who]
    draw(link, "<path class='arrow " kind "' d='" (way == "in" ? arrow(far, near, here) : arrow(near, far, here)) "'/>")
    text = name (carries == "" ? "" : " " carries)
    if (who == "timers") {
        draw(link, "<path class='" kind "' d='M" (far + 3) " " (here - 6) timer(name) "'/>")
        put_label(link, far + 23, here + 4, kind, "", text, fits[who])
        y[link] += 4
    } else if (who == "") put_label(link, far - 8, here + 4, kind, "end", text, fits[who])
    else put_label(link, (far + (who == "management" ? at["SSCOP"] : near)) / 2, here - 6, kind, "middle", text, fits[who])
    if (refused != "" && near == left) draw(link, text_at(right + 8, here + 4, "refused", "", refused))
    if (refused != "" && near == right) draw(link, text_at(left - 8, here + 4, "refused", "end", refused))
}

# Where a label is shortened, a pointer that rests on it shows the whole.
function put_label(link, x, here, kind, anchor, text, letters) {
    if (length(text) <= letters) text = plain(text)
    else text = "<title>" plain(text) "</title>" plain(substr(text, 1, letters - 1)) "&#8230;"
    draw(link, text_at(x, here, kind, anchor, text))
}

# A line with an open head. Where it passes SSCOP's lifeline it makes an arch.
function arrow(start, stop, here,    s, d) {
    s = start < stop ? 1 : -1
    d = "M" start " " here
    if ((start - at["SSCOP"]) * (stop - at["SSCOP"]) < 0)
        d = d "H" (at["SSCOP"] - 6 * s) "a6 6 0 0 " (s > 0) " " 12 * s " 0"
    return d "H" stop "m" (-8 * s) " -4l" (8 * s) " 4l" (-8 * s) " 4"
}

# As ITU-T Z.120 draws timers: an hourglass for one that is set or expires, a cross for one that is reset.
function timer(name) { return name ~ /^RESET/ ? "l12 12m0 -12l-12 12" : "h12l-12 12h12z" }

# The state as an L line tells it, where it has changed; and C1 at the edge, where that has.
function put_state(link, state, c1,    text, half, here) {
    told[link] = state == "3/10/5" ? "in" : "out"
    here = y[link] + 4
    if (!(link in states) || states[link] != state) {
        text = state_text(state)
        half = length(text) * 3.4 + 12
        here = y[link] + 10
        draw(link, "<rect class='state " told[link] "' x='" (at["SSCF"] - half) "' y='" here "' width='" (2 * half) "' height='22' rx='11'/>")
        here += 15
        draw(link, text_at(at["SSCF"], here, "state", "middle", text))
        y[link] += 32
    }
    if (c1 != c1s[link] + 0) draw(link, text_at(14, here, "small", "", "C1 " c1))
    states[link] = state
    c1s[link] = c1
    settle(link)
}

# The register line begins and ends below what was drawn last. It goes by the state where that is told, and else by what the user was told and what it has asked for:
# IN_SERVICE, OUT_OF_SERVICE, and a STOP that was accepted.
function settle(link) {
    if (told[link] == "in" && !(link in since)) {
        since[link] = y[link] + 6
        draw(link, "<rect class='register' x='" (at["SSCF"] - 86) "' y='" since[link] "' width='172' height='22'/>")
        draw(link, text_at(at["SSCF"], since[link] + 15, "line", "middle", "Link " link ", in service"))
        y[link] += 28
    }
    if (told[link] == "out" && (link in since)) end_register(link, y[link])
    delete told[link]
}

function end_register(link, here) {
    registers[link] = registers[link] "<rect class='register' x='" (at["SSCF"] - bar) "' y='" since[link] "' width='" (2 * bar) "' height='" (here - since[link]) "'/>\n"
    delete since[link]
}

function plain(text) {
    gsub(/&/, "\\&amp;", text)
    gsub(/</, "\\&lt;", text)
    gsub(/>/, "\\&gt;", text)
    return text
}

function text_at(x, here, kind, anchor, text) {
    return "<text class='" kind "' x='" x "' y='" here "'" (anchor == "" ? "" : " text-anchor='" anchor "'") ">" text "</text>"
}

# Writing.

END {
    put_event("")
    for (i = 0; i < count; i++) {
        end_step(links[i])
        y[links[i]] += 20
        if (links[i] in since) end_register(links[i], y[links[i]])
        if (only == "" ? events[links[i]] > 0 : links[i] == only) chosen[charts++] = links[i]
    }
    if (only == "" && !charts && count) chosen[charts++] = links[0]
    if (only != "" && !charts) fail("no link " only " in this trace")

    for (i = 0; i < charts; i++) {
        above[i] = tall + 0
        tall += y[chosen[i]] + 20
    }
    tall += 44
    print_head()
    for (i = 0; i < charts; i++) print_chart(chosen[i], above[i])
    if (no_table) note = "T 1: there is no table of links, " refusal_text(1) "."
    else if (between) note = "At the left: the event's number in the trace, and C1, the proving units still to be sent, where it changes."
    else note = "At the left: the event's number in the trace. No state but the last is told in it: host/steps puts in those between."
    print text_at(14, tall - 18, "small", "", note)
    print "</svg>"
}

function print_head() {
    print "<?xml version='1.0' encoding='UTF-8'?>"
    print "<svg xmlns='http://www.w3.org/2000/svg' width='" wide "' height='" tall "' viewBox='0 0 " wide " " tall "' role='img'>"
    print "<title>Signalling links: what the SSCF was told, and what it said</title>"
    print "<style>"
    print "text { font: 12px 'DejaVu Sans Mono', Menlo, Consolas, 'Liberation Mono', monospace; fill: #243240 }"
    print "path { fill: none; stroke: #243240; stroke-width: 1.2 }"
    print "path.in { stroke-width: 2 } text.in { font-weight: bold }"
    print "path.refused { stroke: #b3261e } text.refused { fill: #b3261e }"
    print ".band { fill: #f3f5f8 } .life { fill: #ffffff; stroke: #9aa5b1 } .foot { stroke: #9aa5b1; stroke-width: 4 }"
    print "rect.head { fill: #243240 } text.head { fill: #ffffff; font-size: 13px; font-weight: bold }"
    print "rect.state { fill: #ffffff; stroke: #243240 } rect.in { stroke: #12743b; stroke-width: 2 } text.state { font-size: 11px }"
    print ".register { fill: #12743b } text.line { fill: #ffffff; font-weight: bold }"
    print ".title { font-size: 18px; font-weight: bold } .ordinal { font-weight: bold } .small { font-size: 11px; fill: #52606d }"
    print "</style>"
    print "<rect width='" wide "' height='" tall "' fill='#ffffff'/>"
}

function print_chart(link, above,    i) {
    print "<g transform='translate(0 " above ")'>"
    print text_at(14, 32, "title", "", "Link " link)
    print text_at(wide - 14, 32, "small", "end", counted(events[link], "event") ", " counted(signals[link], "signal"))
    printf "%s", bands[link]
    for (i = 1; i <= columns; i++) print_column(column[i], y[link])
    printf "%s", registers[link]
    for (i = 0; i < drawn[link]; i++) print pieces[link, i]
    print "</g>"
}

function counted(n, what) { return n + 0 " " what (n == 1 ? "" : "s") }

function print_column(name, bottom,    x) {
    x = at[name]
    if (name == "SSCF") print "<rect class='life' x='" (x - bar) "' y='" lives "' width='" (2 * bar) "' height='" (bottom - lives) "'/>"
    else print "<path class='life' d='M" x " " lives "V" bottom "'/>"
    print "<path class='foot' d='M" (x - 20) " " bottom "h40'/>"
    print "<rect class='head' x='" (x - 50) "' y='" heads "' width='100' height='26' rx='3'/>"
    print text_at(x, heads + 17, "head", "middle", name)
}
