# The lines of a trace with names for their numbers, line for line.

$1 == "T" { print "T no table, " refusal_text($2) }

$1 == "E" {
    event = event_name($4, $5)
    refusal = $5
    from = side("EVENT", $4)
    print "E " $2 ($5 == 2 ? "" : " link " $3) (from == "" ? "" : " from " from) ": " event ", " \
        ($5 == 0 ? "accepted, " $6 ($6 == 1 ? " signal" : " signals") : refusal_text($5))
}

$1 == "C" {
    text = event_carried(event, refusal, $2, $3, $4)
    print "C " (text == "" ? "-" : text)
}

$1 == "S" {
    name = name_of("SIGNAL", $2)
    text = carried(name, $3, $4, $5)
    print "S to " side("SIGNAL", $2) ": " name (text == "" ? "" : " " text)
}

$1 == "L" { print "L link " $2 ": " state_text($3) ($3 == "?" ? "" : ", C1 " $4) }
