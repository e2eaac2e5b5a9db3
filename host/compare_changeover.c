/*
 * Runs the changeover calls of the library and of the second machine side by side on equal buffers,
 * as compare.c does the others: writing and reading at every field's limits, each octet and field
 * through its values, lengths, several things wrong at once, and random messages. What is accepted
 * goes round: both read what either wrote, and both write what was read. It ends at the first
 * difference.
 *
 *     compare_changeover [SEED [CALLS]]     CALLS is that of the random messages, each way
 */
#define _DEFAULT_SOURCE /* MAP_ANONYMOUS, MAP_NORESERVE */

#include <sscf.h>

#include "compare.h"
#include "second.h"

#include <stdio.h>
#include <stdlib.h>
#include <string.h>
#include <sys/mman.h>

enum { OCTETS = SSCF_CHANGEOVER_OCTETS, XCO = SSCF_CHANGEOVER_XCO, XCA = SSCF_CHANGEOVER_XCA };

/* Lengths that must be refused, of which a 16-bit number makes nine, and of the second a 32-bit one too. */
enum { LONG = 0x10000 + OCTETS };
#define LONGEST (UINT64_C(0x100000000) + OCTETS)

/* Where in the nine octets the service indicator stands, in the lower four bits, and the heading. */
enum { SERVICE_AT = 0, HEADING_AT = 5 };

/* One call as both are to get it; `octets` are the old ones of an output, or the input. */
struct call {
    struct sscf_changeover message;
    uint8_t octets[LONG];
    size_t count;
    int null; /* in place of a pointer */
};

static struct call call;

static unsigned long calls, round_trips;
static unsigned long write_refusals[NUMBERS], read_refusals[NUMBERS];

/*
 * The buffer of each side, a guard before it and another behind as many octets as are lent. What is
 * longer than LONG is lent from memory that is only reserved, and looked at in its first octets.
 */
static uint8_t *library, *second;

static uint8_t *reserve(void)
{
    uint8_t *memory = mmap(NULL, GUARD + LONGEST + GUARD, PROT_READ | PROT_WRITE,
                           MAP_PRIVATE | MAP_ANONYMOUS | MAP_NORESERVE, -1, 0);

    if (memory == MAP_FAILED) {
        perror("compare_changeover");
        exit(1);
    }
    return put_guard(memory);
}

static size_t looked_at(void)
{
    return call.count < LONG ? call.count : LONG;
}

static void lay_out(const uint8_t *octets)
{
    memcpy(library, octets, looked_at());
    memcpy(second, octets, looked_at());
    put_guard(library + call.count);
    put_guard(second + call.count);
}

static int wrote_beside(const uint8_t *buffer)
{
    return guard_broken(buffer - GUARD) || guard_broken(buffer + call.count);
}

/* Both hold the same, and these octets unless they are NULL. */
static int both_hold(const uint8_t *octets)
{
    return memcmp(library, second, looked_at()) == 0
        && (octets == NULL || memcmp(library, octets, looked_at()) == 0)
        && !wrote_beside(library) && !wrote_beside(second);
}

/* The second machine's structs have the library's fields. */

static struct second_changeover to_second(struct sscf_changeover m)
{
    struct second_changeover message;

    message.sub_service = m.sub_service;
    message.service = m.service;
    message.dpc = m.dpc;
    message.opc = m.opc;
    message.slc = m.slc;
    message.heading = m.heading;
    message.number = m.number;
    return message;
}

static struct sscf_changeover_answer from_second(struct second_changeover_answer s)
{
    struct sscf_changeover_answer answer;

    answer.refusal = s.refusal;
    answer.message.sub_service = s.message.sub_service;
    answer.message.service = s.message.service;
    answer.message.dpc = s.message.dpc;
    answer.message.opc = s.message.opc;
    answer.message.slc = s.message.slc;
    answer.message.heading = s.message.heading;
    answer.message.number = s.message.number;
    return answer;
}

static int same_message(struct sscf_changeover a, struct sscf_changeover b)
{
    return a.sub_service == b.sub_service && a.service == b.service && a.dpc == b.dpc && a.opc == b.opc
        && a.slc == b.slc && a.heading == b.heading && a.number == b.number;
}

static int same_answer(struct sscf_changeover_answer a, struct sscf_changeover_answer b)
{
    return a.refusal == b.refusal && same_message(a.message, b.message);
}

/* A difference is told with the call as C has it, and with the octets before and after it. */

static void print_message(struct sscf_changeover m)
{
    printf("{%u, %u, %u, %u, %u, 0x%02x, %lu}", m.sub_service, m.service, m.dpc, m.opc, m.slc, m.heading,
           (unsigned long)m.number);
}

static void print_octets(const char *name, const uint8_t *octets)
{
    printf("%s%s", name, call.count == 0 ? ": none\n" : call.count > 32 ? ", the first 32 octets: " : ": ");
    print_hex(octets, call.count > 32 ? 32 : call.count);
}

static void print_side(const char *name, struct sscf_changeover_answer answer, const uint8_t *buffer)
{
    printf("%s: refusal %lu, message ", name, (unsigned long)answer.refusal);
    print_message(answer.message);
    printf("\n");
    print_octets("    its buffer", buffer);
    if (wrote_beside(buffer))
        printf("    it writes beside its buffer\n");
}

/* A call of the writer has no message in its answer: there stands the one that was written. */
static void differ(const char *what, struct sscf_changeover_answer a, struct sscf_changeover_answer b)
{
    printf("compare_changeover: a difference, in call %lu: %s\n", calls, what);
    printf("%lu octets%s\n", (unsigned long)call.count, call.null ? " at NULL" : "");
    print_octets("the buffer before", call.octets);
    print_side("library", a, library);
    print_side("second", b, second);
    exit(1);
}

/* The two calls, each made on both sides, and the ways round. */

static struct sscf_changeover_answer library_writes(struct sscf_changeover message)
{
    struct sscf_changeover_answer answer;

    answer.refusal = sscf_changeover_write(call.null ? NULL : library, call.count, message);
    answer.message = message;
    return answer;
}

static struct sscf_changeover_answer second_writes(struct sscf_changeover message)
{
    struct sscf_changeover_answer answer;

    answer.refusal = second_changeover_write(call.null ? NULL : second, call.count, to_second(message));
    answer.message = message;
    return answer;
}

/* Each reads what it wrote itself and what the other wrote. */
static void read_back(void)
{
    const uint8_t *const written[] = { library, second };
    struct sscf_changeover_answer a, b;
    unsigned n;

    round_trips++;
    for (n = 0; n < 2; n++) {
        a = sscf_changeover_read(written[n], call.count);
        b = from_second(second_changeover_read(written[n], call.count));
        if (a.refusal != SSCF_ACCEPTED || !same_message(a.message, call.message) || !same_answer(a, b) || !both_hold(NULL))
            differ(n == 0 ? "reading what the library wrote" : "reading what the second machine wrote", a, b);
    }
}

/* Both write what both have read, over octets of which each is another. */
static void write_back(struct sscf_changeover message)
{
    struct sscf_changeover_answer a, b;
    uint8_t others[LONG];
    size_t n;

    round_trips++;
    for (n = 0; n < looked_at(); n++)
        others[n] = (uint8_t)~call.octets[n];
    lay_out(others);
    a = library_writes(message);
    b = second_writes(message);
    if (a.refusal != SSCF_ACCEPTED || b.refusal != SSCF_ACCEPTED || !both_hold(call.octets))
        differ("writing what was read", a, b);
}

static void try_write(void)
{
    struct sscf_changeover_answer a, b;

    calls++;
    lay_out(call.octets);
    a = library_writes(call.message);
    b = second_writes(call.message);
    if (a.refusal != b.refusal || !both_hold(a.refusal == SSCF_ACCEPTED ? NULL : call.octets))
        differ("writing", a, b);
    if (a.refusal < NUMBERS)
        write_refusals[a.refusal]++;
    if (a.refusal == SSCF_ACCEPTED)
        read_back();
}

static void try_read(void)
{
    struct sscf_changeover_answer a, b;

    calls++;
    lay_out(call.octets);
    a = sscf_changeover_read(call.null ? NULL : library, call.count);
    b = from_second(second_changeover_read(call.null ? NULL : second, call.count));
    if (!same_answer(a, b) || !both_hold(call.octets))
        differ("reading", a, b);
    if (a.refusal < NUMBERS)
        read_refusals[a.refusal]++;
    if (a.refusal == SSCF_ACCEPTED)
        write_back(a.message);
}

/* Messages and octets drawn, with nothing wrong, and what can be made wrong with them. */

static void lend(size_t count)
{
    call.count = count;
    call.null = count == 0;
}

static unsigned either_heading(void)
{
    return one_in(2) ? XCO : XCA;
}

/* The output's old octets are others each time, so that one that is written shows. */
static void sound_message(void)
{
    unsigned n;

    call.message.sub_service = (uint8_t)below(16);
    call.message.service = 0;
    call.message.dpc = (uint16_t)below(0x4000);
    call.message.opc = (uint16_t)below(0x4000);
    call.message.slc = (uint8_t)below(16);
    call.message.heading = (uint8_t)either_heading();
    call.message.number = draw() >> 8;
    for (n = 0; n < 2 * OCTETS; n++)
        call.octets[n] = (uint8_t)draw();
    lend(OCTETS);
}

static void sound_octets(void)
{
    unsigned n;

    for (n = 0; n < 2 * OCTETS; n++)
        call.octets[n] = (uint8_t)draw();
    call.octets[SERVICE_AT] &= 0xF0;
    call.octets[HEADING_AT] = (uint8_t)either_heading();
    lend(OCTETS);
}

enum { WRONG_LENGTH = 1, WRONG_HEADING = 2, WRONG_SERVICE = 4, ALL_WRONG = 7 };
enum { WIDE_SUB_SERVICE = 1, WIDE_DPC = 2, WIDE_OPC = 4, WIDE_SLC = 8, WIDE_NUMBER = 16, ALL_WIDE = 31 };

static unsigned wrong_heading(void)
{
    static const uint8_t near[] = { 0x13, 0x14, 0x21, 0x51, 0x30, 0x40, 0x32, 0x42, 0x33, 0x44, 0x71, 0xB1, 0xC1 };
    unsigned heading = draw() & 255;

    return heading == XCO || heading == XCA || one_in(2) ? near[below(sizeof near)] : heading;
}

static size_t wrong_length(void)
{
    unsigned count = below(2 * OCTETS);

    return count == OCTETS ? 0 : count;
}

static void spoil_message(unsigned wrong, unsigned wide)
{
    if (wrong & WRONG_LENGTH)
        lend(wrong_length());
    if (wrong & WRONG_HEADING)
        call.message.heading = (uint8_t)wrong_heading();
    if (wrong & WRONG_SERVICE)
        call.message.service = (uint8_t)(1 + below(255));
    if (wide & WIDE_SUB_SERVICE)
        call.message.sub_service |= (uint8_t)(0x10 << below(4));
    if (wide & WIDE_DPC)
        call.message.dpc |= (uint16_t)(0x4000 << below(2));
    if (wide & WIDE_OPC)
        call.message.opc |= (uint16_t)(0x4000 << below(2));
    if (wide & WIDE_SLC)
        call.message.slc |= (uint8_t)(0x10 << below(4));
    if (wide & WIDE_NUMBER)
        call.message.number |= (uint32_t)0x1000000 << below(8);
}

static void spoil_octets(unsigned wrong)
{
    if (wrong & WRONG_LENGTH)
        lend(wrong_length());
    if (wrong & WRONG_HEADING)
        call.octets[HEADING_AT] = (uint8_t)wrong_heading();
    if (wrong & WRONG_SERVICE)
        call.octets[SERVICE_AT] |= (uint8_t)(1 + below(15));
}

/* Part 1: every field at its limits, each with each. */

static void write_limits(void)
{
    static const uint8_t fours[] = { 0, 1, 15, 16, 255 };
    static const uint16_t codes[] = { 0, 1, 0x3FFF, 0x4000, 0xFFFF };
    static const uint8_t headings[] = { 0, XCO, XCA, XCA + 1, 255 };
    static const uint32_t numbers[] = { 0, 1, 0xFFFFFF, 0x1000000, 0xFFFFFFFF };
    unsigned long n;
    size_t count;

    for (n = 0; n < 5 * 5 * 5 * 5 * 5 * 5 * 5; n++) {
        for (count = OCTETS - 1; count <= OCTETS + 1; count++) {
            sound_message();
            call.message.sub_service = fours[n % 5];
            call.message.service = fours[n / 5 % 5];
            call.message.dpc = codes[n / 25 % 5];
            call.message.opc = codes[n / 125 % 5];
            call.message.slc = fours[n / 625 % 5];
            call.message.heading = headings[n / 3125 % 5];
            call.message.number = numbers[n / 15625];
            lend(count);
            try_write();
        }
    }
}

/* Fields that fit at their limits, as the second machine writes them, with each heading, service and length. */
static void read_limits(void)
{
    static const uint8_t fours[] = { 0, 1, 15 };
    static const uint16_t codes[] = { 0, 1, 0x3FFF };
    static const uint8_t headings[] = { 0, XCO, XCA, XCA + 1, 255 };
    static const uint32_t numbers[] = { 0, 1, 0xFFFFFF };
    unsigned n, m;

    for (n = 0; n < 3 * 3 * 3 * 3 * 3; n++) {
        for (m = 0; m < 5 * 3 * 3; m++) {
            sound_message();
            call.message.sub_service = fours[n % 3];
            call.message.dpc = codes[n / 3 % 3];
            call.message.opc = codes[n / 9 % 3];
            call.message.slc = fours[n / 27 % 3];
            call.message.number = numbers[n / 81];
            second_changeover_write(call.octets, OCTETS, to_second(call.message));
            call.octets[SERVICE_AT] |= fours[m % 3];
            call.octets[HEADING_AT] = headings[m / 3 % 5];
            lend(OCTETS - 1 + m / 15);
            try_read();
        }
    }
}

/* Octets at their own limits, whatever fields these are. */
static void read_octet_limits(void)
{
    static const uint8_t limits[] = { 0, 1, 0x80, 0xFF }, headings[] = { XCO, XCA, 0 };
    unsigned long n;
    unsigned m, at;

    for (n = 0; n < 1 << 2 * (OCTETS - 1); n++) {
        for (m = 0; m < 3; m++) {
            sound_octets();
            for (at = 0; at < OCTETS; at++)
                call.octets[at] = limits[n >> 2 * (at > HEADING_AT ? at - 1 : at) & 3];
            call.octets[HEADING_AT] = headings[m];
            try_read();
        }
    }
}

/*
 * Part 2: every value of each field and octet, by itself, but for the number, which has those about
 * each power of two; and every heading with every service.
 */

static void write_every_value(void)
{
    uint32_t value;
    unsigned bit;

    for (value = 0; value < 0x10000; value++) {
        sound_message();
        call.message.heading = (uint8_t)(value >> 8);
        call.message.service = (uint8_t)value;
        try_write();
        sound_message();
        call.message.dpc = (uint16_t)value;
        try_write();
        sound_message();
        call.message.opc = (uint16_t)value;
        try_write();
    }
    for (value = 0; value < 0x100; value++) {
        sound_message();
        call.message.sub_service = (uint8_t)value;
        try_write();
        sound_message();
        call.message.slc = (uint8_t)value;
        try_write();
    }
    for (bit = 0; bit < 32; bit++) {
        for (value = 0; value < 4; value++) {
            sound_message();
            call.message.number = ((uint32_t)1 << bit) - 2 + value;
            try_write();
        }
    }
}

static void read_every_value(void)
{
    unsigned value, at, n;

    for (value = 0; value < 0x10000; value++) {
        sound_octets();
        call.octets[HEADING_AT] = (uint8_t)(value >> 8);
        call.octets[SERVICE_AT] = (uint8_t)value;
        try_read();
    }
    for (at = 0; at < OCTETS; at++) {
        for (value = 0; value < 0x100; value++) {
            for (n = 0; n < 8; n++) {
                sound_octets();
                call.octets[at] = (uint8_t)value;
                try_read();
            }
        }
    }
}

/* Part 3: lengths, with messages that have anything else wrong, or nothing. */

static void try_length(size_t count, int null)
{
    unsigned n;

    for (n = 0; n < 64; n++) {
        sound_message();
        spoil_message(n & (WRONG_HEADING | WRONG_SERVICE), n & 8 ? 1 + below(ALL_WIDE) : 0);
        lend(count);
        call.null = null;
        try_write();
        sound_octets();
        spoil_octets(n & (WRONG_HEADING | WRONG_SERVICE));
        lend(count);
        call.null = null;
        try_read();
    }
}

static void lengths(void)
{
    static const uint64_t too_long[] = { 17, 18, 25, 127, 128, 255, 256, 256 + OCTETS, 4096, 0x8000 + OCTETS, 0xFFFF, 0x10000,
                                         LONG, 0x20000 + OCTETS, 0x80000000, 0x80000000 + OCTETS, 0xFFFFFFFF,
                                         UINT64_C(0x100000000), LONGEST };
    size_t count;
    unsigned n;

    try_length(0, 1);
    for (count = 0; count <= 12; count++)
        try_length(count, 0);
    for (n = 0; n < sizeof too_long / sizeof too_long[0]; n++)
        try_length((size_t)too_long[n], 0);
}

/* Part 4: each thing wrong with each other, so that it shows which of them is answered. */

static void several_wrong(void)
{
    unsigned wrong, wide, n;

    for (wrong = 0; wrong <= ALL_WRONG; wrong++) {
        for (n = 0; n < 64; n++) {
            for (wide = 0; wide <= ALL_WIDE; wide++) {
                sound_message();
                spoil_message(wrong, wide);
                try_write();
            }
            sound_octets();
            spoil_octets(wrong);
            try_read();
        }
    }
}

/* Part 5: random messages; a third of them sound, a third with one thing or more wrong, a third without any aim. */

/* Of any width, so that small numbers are as likely as great ones. */
static uint32_t any_number(void)
{
    unsigned bits = below(32);

    return draw() >> bits;
}

static void random_write(void)
{
    unsigned wrong = one_in(2) ? 0 : below(ALL_WRONG + 1), wide = one_in(2) ? 0 : below(ALL_WIDE + 1);

    sound_message();
    switch (below(3)) {
    case 0:
        break;
    case 1:
        spoil_message(wrong, wide);
        break;
    default:
        call.message.sub_service = (uint8_t)any_number();
        call.message.service = (uint8_t)any_number();
        call.message.dpc = (uint16_t)any_number();
        call.message.opc = (uint16_t)any_number();
        call.message.slc = (uint8_t)any_number();
        call.message.number = any_number();
        if (one_in(4))
            call.message.heading = (uint8_t)draw();
        if (one_in(2))
            call.message.service = 0;
    }
    try_write();
}

static void random_read(void)
{
    unsigned wrong = below(ALL_WRONG + 1);

    sound_octets();
    switch (below(3)) {
    case 0:
        break;
    case 1:
        spoil_octets(wrong);
        break;
    default:
        if (one_in(2))
            call.octets[HEADING_AT] = (uint8_t)draw();
        call.octets[SERVICE_AT] = (uint8_t)draw();
    }
    try_read();
}

int main(int argc, char **argv)
{
    unsigned long count = argc > 2 ? strtoul(argv[2], NULL, 0) : 300000, n;
    int failed;

    seed(argc > 1 ? strtoul(argv[1], NULL, 0) : 2210);
    library = reserve();
    second = reserve();
    write_limits();
    read_limits();
    read_octet_limits();
    write_every_value();
    read_every_value();
    lengths();
    several_wrong();
    for (n = 0; n < count; n++) {
        random_write();
        random_read();
    }
    failed = never_seen("changeover write", write_refusals, 0x1F);
    failed |= never_seen("changeover read", read_refusals, 0xF);
    printf("compare_changeover: %lu calls, %lu round trips, 0 differences\n", calls, round_trips);
    return failed;
}
