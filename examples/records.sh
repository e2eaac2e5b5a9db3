# shellcheck shell=sh
# Records as octets on standard output, for scripts that write the trace program's input. Read it in with `.` from the repository's root.

# Any of the header's names without its SSCF_, as a number.
number() { sed -n "s/.*[ {]SSCF_$1 = \([0-9]*\).*/\1/p" include/sscf.h | grep . || {
    echo "no $1 in include/sscf.h" >&2
    exit 1
}; }

# Numbers as octets: each in one, or big-endian in two or three.
octets() { for octet; do printf %b "\\0$(printf %o "$octet")"; done; }
two() { octets $(($1 / 256)) $(($1 % 256)); }
three() { octets $(($1 / 65536)) $(($1 / 256 % 256)) $(($1 % 256)); }

# A record of a link that is out of service, with its n1.
fresh() { # N1
    printf LN
    octets 1 0 0 0 0 0 0 0 0 0 0 0
    two "$1"
    octets 0 0 0 0
}

# An event without its message: link, code, parameter, number, length of the message.
head() {
    printf EV
    two "$1"
    octets "$2" "$3"
    three "$4"
    octets 0
    two "$5"
}
