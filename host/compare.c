/*
 * Runs the library and the second machine side by side on equal buffers and holds their answers,
 * and every octet around them, against each other: each cell of Table 6 with each record, each
 * check alone and with the others, each code with all that its fields can hold, congested links on
 * both ways into proving, long random histories, and bursts of events, these also against the
 * library's own single calls. Some cases are held against the papers too. It ends at the first
 * difference.
 *
 *     compare [SEED [CALLS [BURSTS]]]     of the random histories
 */
#include <sscf_host.h>

#include "compare.h"
#include "second.h"

#include <stdio.h>
#include <stdlib.h>
#include <string.h>

enum { RECORD = SSCF_LINK_OCTETS, HEAD = SSCF_HEAD_OCTETS, UNIT = SSCF_UNIT_OCTETS };
enum { ROOM = SSCF_OUTPUT_OCTETS, LONGEST = SSCF_MESSAGE_OCTETS_MAX, LONGEST_TABLE = SSCF_TABLE_OCTETS_MAX };

enum { ALL_TIMERS = SSCF_TIMER_T1 | SSCF_TIMER_T2 | SSCF_TIMER_T3 };

enum { MANY = 0x11000 }; /* events of a burst, so many that a 16-bit number mistakes them */

/* Room for lengths that must be refused, those among them that only a 16-bit number mistakes. */
enum { TABLE_MAX = 0x10000 + 3 * RECORD, EVENT_MAX = HEAD * MANY, OUT_MAX = HEAD * MANY + ROOM };

/* One call as all are to get it. After it the table is what the call made of it. */
struct call {
    uint8_t table[TABLE_MAX];
    uint8_t event[EVENT_MAX]; /* of a burst all events, end to end */
    size_t table_octets, event_octets, out_octets;
    size_t places; /* of a burst's list */
};

static struct call call;

static unsigned long calls, into_service, out_of_service;
static unsigned long forgotten[3]; /* a known BSNT: by ESTABLISH_CONFIRM, by ESTABLISH_INDICATION, by anything else */
static unsigned long retrieved[2]; /* RETRIEVE_BSNT answered, without a number and with one */
static uint32_t most_signals; /* of one step */
static unsigned long step_refusals[NUMBERS], fresh_refusals[NUMBERS];

/* The fields that a refusal can name: of a step the first six, of a fresh table the last. */
static const struct { uint32_t refusal, place; } fields[] = {
    { SSCF_REFUSED_NOT_CARRIED, SSCF_PLACE_PARAMETER },
    { SSCF_REFUSED_NOT_CARRIED, SSCF_PLACE_NUMBER },
    { SSCF_REFUSED_NOT_CARRIED, SSCF_PLACE_LENGTH },
    { SSCF_REFUSED_RANGE, SSCF_PLACE_PARAMETER },
    { SSCF_REFUSED_RANGE, SSCF_PLACE_NUMBER },
    { SSCF_REFUSED_SHORT, SSCF_PLACE_LENGTH },
    { SSCF_REFUSED_RANGE, SSCF_PLACE_N1 }
};

enum { STEP_FIELDS = 6, FIELDS = sizeof fields / sizeof fields[0] };

static unsigned long told[FIELDS + 1]; /* times each was named; the last is for what cannot be */

/*
 * The buffers of one side: guard, list, guard, table, guard, event, guard, output, guard, close
 * together, so that an octet too many is seen. All sides hold the same octets before every call.
 */
enum { PLACE = sizeof(uint32_t) }; /* of a list */
enum { SIDE_MAX = PLACE * MANY + TABLE_MAX + EVENT_MAX + OUT_MAX + 5 * GUARD };

struct side {
    uint32_t memory[SIDE_MAX / PLACE + 1];
    uint32_t *list;
    uint8_t *table, *event, *out;
    size_t octets;
};

/* The last is for bursts alone: the events of one by the library's single calls. */
static struct side library, second, single;

static const char *name_of(const struct side *side)
{
    return side == &library ? "library" : side == &second ? "second" : "single calls";
}

/*
 * The old octets of the output change from call to call, so that one written as it was before does
 * not stay hidden: those that a call can reach each time, all of them now and then, for time.
 */
static size_t octets_to_fill(const struct call *c)
{
    size_t reach = 128 + c->event_octets;

    return reach > c->out_octets || calls % 64 == 0 ? c->out_octets : reach;
}

/* The list first, behind as many octets as keep it where numbers may stand. */
static void lay_out(struct side *side, const struct call *c, int fill, size_t filled)
{
    uint8_t *memory = (uint8_t *)side->memory, *list = put_guard(memory);

    side->list = side->memory + GUARD / PLACE;
    memset(list, fill, PLACE * c->places);
    side->table = put_guard(list + PLACE * c->places);
    memcpy(side->table, c->table, c->table_octets);
    side->event = put_guard(side->table + c->table_octets);
    memcpy(side->event, c->event, c->event_octets);
    side->out = put_guard(side->event + c->event_octets);
    memset(side->out, fill, filled);
    side->octets = (size_t)(put_guard(side->out + c->out_octets) - memory);
}

static int guards_broken(const struct side *side, const struct call *c)
{
    return guard_broken((const uint8_t *)side->memory)
        || guard_broken((const uint8_t *)(side->list + c->places))
        || guard_broken(side->table + c->table_octets)
        || guard_broken(side->event + c->event_octets)
        || guard_broken(side->out + c->out_octets);
}

static int same_memory(const struct call *c, const struct side *other)
{
    return memcmp(library.memory, other->memory, library.octets) == 0
        && memcmp(library.event, c->event, c->event_octets) == 0
        && !guards_broken(&library, c);
}

static void print_memory(const struct call *c, const struct side *other)
{
    const char *name = name_of(other);

    print_first_octet("list, four octets a number", name, (const uint8_t *)library.list,
                      (const uint8_t *)other->list, PLACE * c->places);
    print_first_octet("table", name, library.table, other->table, c->table_octets);
    print_first_octet("event", name, library.event, other->event, c->event_octets);
    print_first_octet("output", name, library.out, other->out, c->out_octets);
    if (guards_broken(&library, c))
        printf("library: writes beside its buffers\n");
    if (guards_broken(other, c))
        printf("%s: writes beside its buffers\n", name);
}

static void print_case(const struct call *c)
{
    size_t links = c->table_octets / RECORD;

    printf("the case for the trace program, to be fed by xxd -r -p | trace:\n");
    printf("%02x%02x\n", (unsigned)(links >> 8 & 255), (unsigned)(links & 255));
    print_hex(c->table, c->table_octets);
    print_hex(c->event, c->event_octets);
    if (links == 0 || c->table_octets > LONGEST_TABLE || c->table_octets % RECORD != 0
        || c->out_octets < ROOM)
        printf("(it gives the step its own lengths: a wrong one of table or output it cannot"
               " show)\n");
}

static void differ_in_step(const struct call *c, struct sscf_answer a, struct second_answer b)
{
    printf("compare: a difference, in call %lu\n", calls);
    printf("table %lu octets, event %lu, output %lu\n", (unsigned long)c->table_octets,
           (unsigned long)c->event_octets, (unsigned long)c->out_octets);
    printf("library: refusal %lu, octets %lu, signals %lu, place %lu\n", (unsigned long)a.refusal,
           (unsigned long)a.octets, (unsigned long)a.signals, (unsigned long)a.place);
    printf("second: refusal %lu, octets %lu, signals %lu, place %lu\n", (unsigned long)b.refusal,
           (unsigned long)b.octets, (unsigned long)b.signals, (unsigned long)b.place);
    print_memory(c, &second);
    print_case(c);
    exit(1);
}

static void differ_in_fresh(const struct call *c, unsigned n1, struct sscf_fresh_answer a,
                            struct second_fresh_answer b)
{
    printf("compare: a difference, in call %lu\n", calls);
    printf("fresh, table %lu octets, n1 %u\n", (unsigned long)c->table_octets, n1);
    printf("library: refusal %lu, place %lu\n", (unsigned long)a.refusal, (unsigned long)a.place);
    printf("second: refusal %lu, place %lu\n", (unsigned long)b.refusal, (unsigned long)b.place);
    print_memory(c, &second);
    printf("the table before it:\n");
    print_hex(c->table, c->table_octets);
    exit(1);
}

/* The two calls, each made on both sides. */

/* 10, 11 and 12 name one of the fields from `first` to before `end`, and no other answer does. */
static void count_field(unsigned first, unsigned end, uint32_t refusal, uint32_t place)
{
    unsigned n = first;

    if (place == SSCF_PLACE_NONE && (refusal < 10 || refusal > 12))
        return;
    while (n < end && (fields[n].refusal != refusal || fields[n].place != place))
        n++;
    told[n < end ? n : FIELDS]++;
}

static void count_service(const uint8_t *before, const uint8_t *after)
{
    if (before[SSCF_LINK_AT_STATE] == after[SSCF_LINK_AT_STATE])
        return;
    into_service += after[SSCF_LINK_AT_STATE] == SSCF_STATE_3_10_5;
    out_of_service += before[SSCF_LINK_AT_STATE] == SSCF_STATE_3_10_5;
}

static void count_bsnt(unsigned code, const uint8_t *before, const uint8_t *after)
{
    if (before[SSCF_LINK_AT_BSNT_KNOWN] == 1 && after[SSCF_LINK_AT_BSNT_KNOWN] == 0)
        forgotten[code == SSCF_EVENT_ESTABLISH_CONFIRM ? 0 : code == SSCF_EVENT_ESTABLISH_INDICATION ? 1 : 2]++;
    if (code == SSCF_EVENT_RETRIEVE_BSNT)
        retrieved[library.out[SSCF_HEAD_AT_CODE] == SSCF_SIGNAL_BSNT]++;
}

/*
 * Request 2026-07. The two ways into 2/10/3 from another state; on a congested link both go on to
 * 2/4/2 in the same step. Counted by MPS, UPS and the peer's field, since each decides the units.
 */
enum { BY_INDICATION, BY_CONFIRM, WAYS_IN };
enum { MODES = 3 * 2 * 2 };
static unsigned long two_cells[WAYS_IN][MODES];

static void count_two_cells(const uint8_t *event, const uint8_t *before, const uint8_t *after)
{
    unsigned code = event[SSCF_HEAD_AT_CODE], field = event[SSCF_HEAD_AT_PARAMETER];
    unsigned mode = (2 * before[SSCF_LINK_AT_MPS] + before[SSCF_LINK_AT_UPS]) * 2 + (field == SSCF_STATUS_EM);

    if (before[SSCF_LINK_AT_CONGESTED] == 0 || after[SSCF_LINK_AT_STATE] != SSCF_STATE_2_4_2
        || (field != SSCF_STATUS_NM && field != SSCF_STATUS_EM))
        return;
    if (code == SSCF_EVENT_ESTABLISH_INDICATION)
        two_cells[BY_INDICATION][mode]++;
    if (code == SSCF_EVENT_ESTABLISH_CONFIRM)
        two_cells[BY_CONFIRM][mode]++;
}

/* CONGESTION and its end that were accepted, by the flag before and the state; releases by field. */
static unsigned long flagged[2][2][8];
static unsigned long released[SSCF_STATUS_PNS + 1];

static void count_flag(unsigned code, const uint8_t *before)
{
    unsigned congested = before[SSCF_LINK_AT_CONGESTED], state = before[SSCF_LINK_AT_STATE];

    if (code == SSCF_EVENT_CONGESTION || code == SSCF_EVENT_CONGESTION_CEASED)
        flagged[code == SSCF_EVENT_CONGESTION_CEASED][congested][state - 1]++;
}

/* The field of the last RELEASE_REQUEST in these octets, or the one before. */
static unsigned last_field(const uint8_t *out, size_t octets, unsigned field)
{
    const uint8_t *signal;

    for (signal = sscf_first_record(out, octets); signal != NULL; signal = sscf_next_record(out, octets, signal)) {
        if (signal[SSCF_HEAD_AT_CODE] != SSCF_SIGNAL_RELEASE_REQUEST)
            continue;
        field = signal[SSCF_HEAD_AT_PARAMETER];
        released[field <= SSCF_STATUS_PNS ? field : 0]++;
    }
    return field;
}

/*
 * What the papers say of the last octets of a record, whatever the cell: an accepted 39 sets the
 * flag and an accepted 40 clears it, the last field is that of the last release, and two are zeros.
 */
static int end_as_due(unsigned code, const uint8_t *before, const uint8_t *after, const uint8_t *out, size_t octets)
{
    unsigned congested = code == 39 ? 1 : code == 40 ? 0 : before[16];

    return after[16] == congested && after[17] == last_field(out, octets, before[17])
        && after[18] == 0 && after[19] == 0;
}

/* What an accepted step did to its link. */
static void count(const struct call *c, struct sscf_answer answer)
{
    size_t at = RECORD * (size_t)sscf_get_16(c->event + SSCF_HEAD_AT_LINK);
    const uint8_t *before = c->table + at, *after = library.table + at;
    unsigned code = c->event[SSCF_HEAD_AT_CODE];

    count_service(before, after);
    count_bsnt(code, before, after);
    count_two_cells(c->event, before, after);
    count_flag(code, before);
    if (answer.signals > most_signals)
        most_signals = answer.signals;
    if (end_as_due(code, before, after, library.out, answer.octets))
        return;
    printf("compare: in call %lu both have octets 16 to 19 of the record otherwise than is due\n", calls);
    print_case(c);
    exit(1);
}

static struct sscf_answer step(struct call *c)
{
    struct sscf_answer a;
    struct second_answer b;
    int fill = (int)(draw() & 255);

    calls++;
    lay_out(&library, c, fill, octets_to_fill(c));
    lay_out(&second, c, fill, octets_to_fill(c));
    a = sscf_step(library.table, c->table_octets, library.event, c->event_octets, library.out, c->out_octets);
    b = second_step(second.table, c->table_octets, second.event, c->event_octets, second.out, c->out_octets);
    if (a.refusal != b.refusal || a.octets != b.octets || a.signals != b.signals
        || a.place != b.place || !same_memory(c, &second))
        differ_in_step(c, a, b);
    count_refusal(step_refusals, a.refusal);
    count_field(0, STEP_FIELDS, a.refusal, a.place);
    if (a.refusal == SSCF_ACCEPTED)
        count(c, a);
    memcpy(c->table, library.table, c->table_octets);
    return a;
}

static struct sscf_fresh_answer fresh(struct call *c, unsigned n1)
{
    struct sscf_fresh_answer a;
    struct second_fresh_answer b;

    calls++;
    c->event_octets = c->out_octets = 0;
    lay_out(&library, c, 0, 0);
    lay_out(&second, c, 0, 0);
    a = sscf_fresh(library.table, c->table_octets, (uint16_t)n1);
    b = second_fresh(second.table, c->table_octets, (uint16_t)n1);
    if (a.refusal != b.refusal || a.place != b.place || !same_memory(c, &second))
        differ_in_fresh(c, n1, a, b);
    count_refusal(fresh_refusals, a.refusal);
    count_field(STEP_FIELDS, FIELDS, a.refusal, a.place);
    memcpy(c->table, library.table, c->table_octets);
    return a;
}

/* Events. */

/* What an event carries; a status of 0 or more makes a message of four octets a unit of that status. */
struct kind {
    unsigned code, parameter;
    uint32_t number;
    size_t length;
    int status;
};

static void make_event(struct call *c, unsigned link, struct kind kind)
{
    uint8_t *event = c->event;
    size_t n;

    /* The length by itself, since it may be one that no event has. */
    sscf_put_event(event, HEAD, link, kind.code, kind.parameter, kind.number, NULL, 0);
    sscf_put_16(event + SSCF_HEAD_AT_LENGTH, (uint32_t)kind.length);
    for (n = 0; n < kind.length && n < 64; n++)
        event[HEAD + n] = (uint8_t)draw();
    /* The rest of a long message is what the last one left there, but for its end. */
    if (kind.length > 0)
        event[HEAD + kind.length - 1] = (uint8_t)draw();
    if (kind.status >= 0 && kind.length == UNIT)
        event[HEAD + 3] = (uint8_t)kind.status;
    c->event_octets = HEAD + kind.length;
}

static struct kind kinds[256];
static size_t kinds_made;

static void add(unsigned code, unsigned parameter, uint32_t number, size_t length, int status)
{
    struct kind kind = { code, parameter, number, length, status };

    if (kinds_made == sizeof kinds / sizeof kinds[0])
        abort();
    kinds[kinds_made++] = kind;
}

static const uint8_t codes[31] = { 1, 2, 3, 4, 5, 6, 7, 8, 9, 16, 17, 18, 19, 20, 21, 22, 23, 24, 25,
                                   32, 33, 34, 35, 36, 37, 38, 39, 40, 48, 49, 50 };

static int has_message(unsigned code)
{
    return code == SSCF_EVENT_MESSAGE_FOR_TRANSMISSION || code == SSCF_EVENT_DATA
        || code == SSCF_EVENT_UNITDATA || code == SSCF_EVENT_RETRIEVE;
}

/* Every status code that a field may have and two that it may not, by each source. */
static void add_connections(void)
{
    unsigned field;

    for (field = 0; field <= SSCF_STATUS_PNS + 1; field++) {
        add(SSCF_EVENT_ESTABLISH_INDICATION, field, 0, 0, -1);
        add(SSCF_EVENT_ESTABLISH_CONFIRM, field, 0, 0, -1);
        add(SSCF_EVENT_RELEASE_INDICATION, field, SSCF_SOURCE_USER, 0, -1);
        add(SSCF_EVENT_RELEASE_INDICATION, field, SSCF_SOURCE_SSCOP, 0, -1);
    }
    add(SSCF_EVENT_RELEASE_INDICATION, SSCF_STATUS_NM, 2, 0, -1);
    add(SSCF_EVENT_RELEASE_INDICATION, SSCF_STATUS_NM, 0x000100, 0, -1);
    add(SSCF_EVENT_RELEASE_INDICATION, SSCF_STATUS_NM, 0x010000, 0, -1);
}

/* Units of every named status and others, and messages that are none. */
static void add_messages(void)
{
    static const int statuses[] = { 0, 1, 2, 3, 4, 5, 6, 7, 8, 9, 10, 11, 19, 20, 131, 132, 255 };
    static const size_t lengths[] = { 0, 1, 2, 3, 5, 6, 273, 4095, 4096 };
    size_t n;

    for (n = 0; n < sizeof statuses / sizeof statuses[0]; n++)
        add(SSCF_EVENT_DATA, 0, draw() >> 8, UNIT, statuses[n]);
    for (n = 0; n < sizeof lengths / sizeof lengths[0]; n++) {
        add(SSCF_EVENT_DATA, 0, draw() >> 8, lengths[n], -1);
        add(SSCF_EVENT_RETRIEVE, 0, 0, lengths[n], -1);
    }
    add(SSCF_EVENT_DATA, 0, 0, 5, -1);
    add(SSCF_EVENT_DATA, 0, 0xFFFFFF, 4096, -1);
    add(SSCF_EVENT_RETRIEVE, 0, 0, UNIT, SSCF_STATUS_INS);
    add(SSCF_EVENT_UNITDATA, 0, 0, 0, -1);
    add(SSCF_EVENT_UNITDATA, 0, 0, UNIT, SSCF_STATUS_INS);
    add(SSCF_EVENT_UNITDATA, 0, 0, 90, -1);
    add(SSCF_EVENT_MESSAGE_FOR_TRANSMISSION, 0, 0, 4, -1);
    add(SSCF_EVENT_MESSAGE_FOR_TRANSMISSION, 0, 0, 5, -1);
    add(SSCF_EVENT_MESSAGE_FOR_TRANSMISSION, 0, 0, 300, -1);
    add(SSCF_EVENT_MESSAGE_FOR_TRANSMISSION, 0, 0, 4096, -1);
}

static void add_all_kinds(void)
{
    unsigned level;
    size_t n;

    add_connections();
    add_messages();
    add(SSCF_EVENT_RETRIEVAL_REQUEST_AND_FSNC, 0, 0x010203, 0, -1);
    add(SSCF_EVENT_RETRIEVAL_REQUEST_AND_FSNC, 0, 0xFFFFFF, 0, -1);
    for (level = 1; level <= 4; level++)
        add(SSCF_EVENT_CONGESTION, level, 0, 0, -1);
    for (n = 0; n < sizeof codes; n++)
        if (!has_message(codes[n]))
            add(codes[n], 0, 0, 0, -1);
    add(0, 0, 0, 0, -1);
    add(51, 0, 0, 0, -1);
}

/* Records. */

static uint8_t *record_of(struct call *c, unsigned link)
{
    return c->table + RECORD * link;
}

static void make_record(uint8_t *record, unsigned state, unsigned timers, unsigned c1, unsigned n1)
{
    memset(record, 0, RECORD);
    memcpy(record + SSCF_LINK_AT_MARK, "LN", 2);
    record[SSCF_LINK_AT_STATE] = (uint8_t)state;
    record[SSCF_LINK_AT_TIMERS] = (uint8_t)timers;
    sscf_put_16(record + SSCF_LINK_AT_C1, c1);
    sscf_put_16(record + SSCF_LINK_AT_N1, n1);
}

static void know_bsnt(uint8_t *record, uint32_t bsnt)
{
    record[SSCF_LINK_AT_BSNT_KNOWN] = 1;
    sscf_put_24(record + SSCF_LINK_AT_BSNT, bsnt);
}

/* Congested or not, and no field or one of the nine, whichever was sent. */
static void any_end(uint8_t *record)
{
    static const uint8_t fields_sent[] = { 0, SSCF_STATUS_OOS, SSCF_STATUS_PO, SSCF_STATUS_INS, SSCF_STATUS_NM,
                                           SSCF_STATUS_EM, SSCF_STATUS_ANS, SSCF_STATUS_MI, SSCF_STATUS_PE,
                                           SSCF_STATUS_PNS };

    record[SSCF_LINK_AT_CONGESTED] = (uint8_t)below(2);
    record[SSCF_LINK_AT_LAST_FIELD] = fields_sent[below(sizeof fields_sent)];
}

/* Three links, of which the two that are not meant hold anything at all: nobody may look. */
static unsigned make_table(struct call *c, const uint8_t *record)
{
    unsigned link = below(3);
    size_t n;

    for (n = 0; n < 3 * RECORD; n++)
        c->table[n] = (uint8_t)draw();
    memcpy(record_of(c, link), record, RECORD);
    c->table_octets = 3 * RECORD;
    c->out_octets = ROOM;
    return link;
}

/* Part 1: every kind of event with every record. */

static void try_kind(const uint8_t *record, struct kind kind)
{
    static const size_t too_short[] = { 0, 1, 11, 12, 96, 144, 4095, 4191, 4192, 4239 };
    unsigned link = make_table(&call, record);

    make_event(&call, link, kind);
    /* Whether the cell is legal hangs on the state alone, so few records need the short output. */
    if (record[SSCF_LINK_AT_MPS] == 0 && record[SSCF_LINK_AT_UPS] == 0
        && record[SSCF_LINK_AT_TIMERS] == ALL_TIMERS && record[SSCF_LINK_AT_BSNT_KNOWN] == 0) {
        call.out_octets = too_short[below(sizeof too_short / sizeof too_short[0])];
        step(&call);
        call.out_octets = ROOM + below(3);
    }
    step(&call);
}

/* By their cells, or by request 2026-07 behind them. */
static int asks_for_congestion(unsigned code)
{
    return code == SSCF_EVENT_ESTABLISH_INDICATION || code == SSCF_EVENT_ESTABLISH_CONFIRM
        || code == SSCF_EVENT_CONGESTION || code == SSCF_EVENT_CONGESTION_CEASED;
}

/* To the other events congestion is nothing, so that one value of it is enough for each record. */
static void try_kinds(uint8_t *record)
{
    size_t n;

    for (n = 0; n < kinds_made; n++) {
        any_end(record);
        try_kind(record, kinds[n]);
        if (asks_for_congestion(kinds[n].code)) {
            record[SSCF_LINK_AT_CONGESTED] ^= 1;
            try_kind(record, kinds[n]);
        }
    }
}

static void try_flags(unsigned state, unsigned timers, unsigned c1, unsigned n1)
{
    static const uint32_t bsnts[] = { 0, 1, 0x800000, 0xFFFFFF };
    uint8_t record[RECORD];
    unsigned n;

    for (n = 0; n < 4 * 3 * 2 * 2; n++) {
        make_record(record, state, timers, c1, n1);
        record[SSCF_LINK_AT_FLAGS] = (uint8_t)(n % 4);
        record[SSCF_LINK_AT_MPS] = (uint8_t)(n / 4 % 3);
        record[SSCF_LINK_AT_UPS] = (uint8_t)(n / 12 % 2);
        if (n >= 24)
            know_bsnt(record, one_in(2) ? draw() >> 8 : bsnts[below(4)]);
        try_kinds(record);
    }
}

static void every_cell(void)
{
    static const unsigned n1s[] = { 1, 3, 255, 256, 1000, 65535 };
    static const unsigned counts[] = { 0, 1, 2, 256 };
    unsigned state, timers, n, n1;

    for (state = 1; state <= 8; state++) {
        for (timers = 0; timers <= ALL_TIMERS; timers++) {
            for (n = 0; n < 5; n++) {
                n1 = n1s[below(6)];
                try_flags(state, timers, n < 4 ? counts[n] : n1, n1);
            }
        }
    }
}

/* Part 2: the checks, by octets of every value and by lengths about each bound. */

/* An event of this code that has nothing wrong with it. */
static struct kind plain(unsigned code)
{
    struct kind kind = { code, 0, 0, 0, -1 };

    if (has_message(code))
        kind.length = 5 + below(3);
    if (code == SSCF_EVENT_RETRIEVAL_REQUEST_AND_FSNC || code == SSCF_EVENT_DATA)
        kind.number = draw() >> 8;
    return kind;
}

/* A sound event for a sound record in any state, with all timers running. */
static unsigned sound(struct call *c, unsigned code)
{
    uint8_t record[RECORD];
    unsigned state = 1 + below(8), c1 = below(3), n1 = 1 + below(3), link;

    make_record(record, state, ALL_TIMERS, c1, n1);
    any_end(record);
    link = make_table(c, record);
    make_event(c, link, plain(code));
    return link;
}

static void every_event_octet(void)
{
    unsigned n, at, value;

    for (n = 0; n < sizeof codes; n++) {
        for (at = 0; at < HEAD; at++) {
            for (value = 0; value < 256; value++) {
                sound(&call, codes[n]);
                call.event[at] = (uint8_t)value;
                step(&call);
            }
        }
    }
}

static void every_record_octet(void)
{
    static const uint8_t everywhere_legal[] = { SSCF_EVENT_FLUSH_BUFFERS, SSCF_EVENT_UNITDATA, SSCF_EVENT_RELEASE,
                                                SSCF_EVENT_OUTAGE, SSCF_EVENT_FORCE_PROVING };
    unsigned n, at, value, link;

    for (n = 0; n < 16; n++) {
        for (at = 0; at < RECORD; at++) {
            for (value = 0; value < 256; value++) {
                link = sound(&call, everywhere_legal[below(5)]);
                record_of(&call, link)[SSCF_LINK_AT_STATE] = (uint8_t)(1 + n % 8);
                if (n >= 8)
                    know_bsnt(record_of(&call, link), one_in(4) ? 0 : draw() >> 8);
                record_of(&call, link)[at] = (uint8_t)value;
                step(&call);
            }
        }
    }
}

static void every_code_and_parameter(void)
{
    unsigned code, parameter;

    for (code = 0; code < 256; code++) {
        for (parameter = 0; parameter < 256; parameter++) {
            sound(&call, code);
            call.event[SSCF_HEAD_AT_PARAMETER] = (uint8_t)parameter;
            step(&call);
        }
    }
}

/* A message of the length that is written in the event, one octet more and one less. */
static void message_length(unsigned code, size_t length)
{
    struct kind kind = plain(code);
    unsigned link = sound(&call, code);

    kind.length = length;
    make_event(&call, link, kind);
    step(&call);
    call.event_octets++;
    step(&call);
    call.event_octets -= 2;
    step(&call);
}

static void event_lengths(void)
{
    static const size_t lengths[] = { 0, 1, 3, 4, 5, 6, 255, 256, 257, 4095, 4096, 4097, 4098, 8192, 65535, 65536,
                                      65540, 65536 + 4096 };
    size_t n, m, octets;

    for (n = 0; n < sizeof codes; n++) {
        for (m = 0; m < sizeof lengths / sizeof lengths[0]; m++)
            message_length(codes[n], lengths[m]);
        for (octets = 0; octets <= HEAD; octets++) {
            sound(&call, codes[n]);
            call.event_octets = octets;
            step(&call);
        }
    }
}

/* The first link of such a table, the last, and the two that are behind it. */
static void table_length(size_t octets)
{
    uint8_t record[RECORD];
    unsigned links = (unsigned)(octets / RECORD), n;

    for (n = 0; n < 4; n++) {
        unsigned link = n == 0 || links == 0 ? 0 : links - 2 + n;

        make_record(record, 1 + below(8), ALL_TIMERS, 0, 1);
        memset(call.table, 0, sizeof call.table);
        if (RECORD * (link + 1) <= TABLE_MAX)
            memcpy(record_of(&call, link), record, RECORD);
        make_event(&call, link, plain(SSCF_EVENT_FORCE_PROVING));
        call.table_octets = octets;
        call.out_octets = ROOM;
        step(&call);
    }
}

static void table_and_output_lengths(void)
{
    size_t n;
    unsigned m;

    for (n = 0; n <= 100; n++)
        table_length(n);
    for (n = LONGEST_TABLE - 2 * RECORD - 1; n <= LONGEST_TABLE + 2 * RECORD + 1; n++)
        table_length(n);
    /* Whole records by their lowest 16 bits alone, or below the limit by these alone. */
    for (n = 0x10000; n <= 0x10000 + 3 * RECORD; n++)
        table_length(n);
    for (n = 0; n <= 120; n++) {
        for (m = 0; m < sizeof codes; m++) {
            sound(&call, codes[m]);
            call.out_octets = n <= 60 ? n : n <= 118 ? ROOM - 90 + n : n == 119 ? 0x10000 : 0x10000 + ROOM;
            step(&call);
        }
    }
}

/*
 * Several things wrong at once: the first of them in the order of the checks must be answered. An
 * illegal cell is not among them, since every event meets every state here anyhow.
 */
enum { WRONG_TABLE = 1, WRONG_FRAME = 2, WRONG_CODE = 4, WRONG_FIELD = 8, WRONG_LINK = 16, WRONG_RECORD = 32,
       WRONG_TIMER = 64, WRONG_OUTPUT = 128, ALL_WRONG = 255 };

static void spoil_frame(struct call *c)
{
    unsigned bit = below(16);

    switch (below(5)) {
    case 0:
        c->event[bit / 8] ^= (uint8_t)(1 << bit % 8);
        break;
    case 1:
        c->event[SSCF_HEAD_AT_ZERO] = (uint8_t)(1 + bit);
        break;
    case 2:
        c->event[SSCF_HEAD_AT_LENGTH + 1]++;
        break;
    case 3:
        c->event_octets = below(HEAD);
        break;
    default:
        sscf_put_16(c->event + SSCF_HEAD_AT_LENGTH, LONGEST + 1);
        c->event_octets = HEAD + LONGEST + 1;
    }
}

static void spoil_field(struct call *c)
{
    unsigned octet = below(3), value = 2 + below(254);

    switch (below(3)) {
    case 0:
        c->event[SSCF_HEAD_AT_PARAMETER] = (uint8_t)(value | 0x10);
        break;
    case 1:
        c->event[SSCF_HEAD_AT_NUMBER + octet] = (uint8_t)value;
        break;
    default:
        if (c->event[SSCF_HEAD_AT_CODE] == SSCF_EVENT_MESSAGE_FOR_TRANSMISSION) {
            sscf_put_16(c->event + SSCF_HEAD_AT_LENGTH, value % 5);
            c->event_octets = HEAD + value % 5;
        } else if (c->event_octets == HEAD) {
            c->event[SSCF_HEAD_AT_LENGTH + 1] = (uint8_t)value;
            c->event_octets += value;
        }
    }
}

/* An octet of a record that has its highest bit in none that is well-formed. */
static unsigned place_to_spoil(void)
{
    static const uint8_t places[] = { SSCF_LINK_AT_MARK, SSCF_LINK_AT_MARK + 1, SSCF_LINK_AT_STATE, SSCF_LINK_AT_FLAGS,
                                      SSCF_LINK_AT_MPS, SSCF_LINK_AT_UPS, SSCF_LINK_AT_TIMERS,
                                      SSCF_LINK_AT_BSNT_KNOWN, SSCF_LINK_AT_ZERO, SSCF_LINK_AT_CONGESTED,
                                      SSCF_LINK_AT_LAST_FIELD, SSCF_LINK_AT_ZEROS, SSCF_LINK_AT_ZEROS + 1 };

    return places[below(sizeof places)];
}

static void spoil_records(struct call *c)
{
    unsigned at = place_to_spoil(), n;

    for (n = 0; n < 3; n++)
        record_of(c, n)[at] |= 0x80;
}

static void spoil(struct call *c, unsigned wrong)
{
    unsigned octet = below(2), bit = below(6), n;

    if (wrong & WRONG_FIELD)
        spoil_field(c);
    if (wrong & WRONG_FRAME)
        spoil_frame(c);
    if (wrong & WRONG_CODE)
        c->event[SSCF_HEAD_AT_CODE] = (uint8_t)(51 + below(205));
    if (wrong & WRONG_LINK)
        c->event[SSCF_HEAD_AT_LINK + octet] |= (uint8_t)(4 << bit);
    if (wrong & WRONG_RECORD)
        spoil_records(c);
    for (n = 0; n < 3 && wrong & WRONG_TIMER; n++)
        record_of(c, n)[SSCF_LINK_AT_TIMERS] &= (uint8_t)~ALL_TIMERS;
    if (wrong & WRONG_TABLE)
        c->table_octets = one_in(3) ? 0 : one_in(2) ? 3 * RECORD - 1 - below(RECORD - 1) : LONGEST_TABLE + RECORD;
    if (wrong & WRONG_OUTPUT)
        c->out_octets = one_in(2) ? ROOM - 1 : below(ROOM);
}

static void several_wrong(void)
{
    unsigned wrong, state, n, m;

    for (wrong = 0; wrong <= ALL_WRONG; wrong++) {
        for (state = 1; state <= 8; state++) {
            for (n = 0; n < sizeof codes; n++) {
                sound(&call, codes[n]);
                for (m = 0; m < 3; m++) {
                    make_record(record_of(&call, m), state, ALL_TIMERS, below(2), 1);
                    any_end(record_of(&call, m));
                }
                spoil(&call, wrong);
                step(&call);
            }
        }
    }
}

static void every_fresh_length(void)
{
    static const unsigned n1s[] = { 0, 1, 255, 256, 1000, 65535 };
    size_t octets, n;
    unsigned m;

    for (octets = 0; octets <= LONGEST_TABLE + 2 * RECORD; octets++) {
        for (m = 0; m < 6; m++) {
            /* A table of any octets at all is made anew; long ones only at their ends, for time. */
            for (n = 0; n < octets; n += n < 64 || n + 64 > octets ? 1 : 61)
                call.table[n] = (uint8_t)draw();
            call.table_octets = octets;
            fresh(&call, n1s[m]);
        }
    }
    call.table_octets = 0x10000 + RECORD;
    fresh(&call, 1);
}

/*
 * Part 3: every code with every parameter, with numbers set in each of their octets and messages
 * about each bound, in all combinations. What is wrong with a field goes before what is wrong with
 * the link or the output, so these are wrong too now and then.
 */

/* With SOUND nothing else is wrong, but the event may be illegal in the link's state. */
enum { SOUND, NO_LINK, BAD_RECORD, NO_TIMER, SHORT_OUTPUT, CIRCUMSTANCES };
static unsigned long met[CIRCUMSTANCES][NUMBERS];

/* The cases of an event: SOUND in each state, then each other circumstance in any state. */
enum { STATES = 8, CASES = STATES + CIRCUMSTANCES - 1 };

/* A link that a table of three does not have; the last would be one by its lower octet alone. */
static unsigned link_beyond(void)
{
    static const unsigned links[] = { 3, 4, 0xFFFF, 0x0100 };

    return links[below(4)];
}

static struct sscf_answer try_case(unsigned n, struct kind kind)
{
    unsigned circumstance = n < STATES ? SOUND : n - STATES + 1;
    unsigned state = 1 + (n < STATES ? n : below(STATES)), c1 = below(3), link;
    uint8_t record[RECORD];
    struct sscf_answer answer;

    make_record(record, state, circumstance == NO_TIMER ? 0 : ALL_TIMERS, c1, 3);
    any_end(record);
    if (circumstance == BAD_RECORD)
        record[place_to_spoil()] |= 0x80;
    link = make_table(&call, record);
    make_event(&call, circumstance == NO_LINK ? link_beyond() : link, kind);
    if (circumstance == SHORT_OUTPUT)
        call.out_octets = ROOM - 1;
    answer = step(&call);
    count_refusal(met[circumstance], answer.refusal);
    return answer;
}

static int is_known(unsigned code)
{
    return memchr(codes, (int)code, sizeof codes) != NULL;
}

/* Parameters that can be in range, and some that cannot, meet every case, the others one each. */
static void try_fields(struct kind kind)
{
    unsigned n;

    if (kind.parameter >= 16 || !is_known(kind.code)) {
        try_case(below(CASES), kind);
        return;
    }
    for (n = 0; n < CASES; n++)
        try_case(n, kind);
}

/*
 * Some of the numbers are a source, or are not set, by one of their octets alone; so is the length
 * of the longest message 0 by its lower octet.
 */
static void every_number_and_length(unsigned code, unsigned parameter)
{
    static const uint32_t numbers[] = { 0, 1, 2, 0x80, 0x000100, 0x010000, 0x000101, 0x010001,
                                        0x010100, 0x010101, 0x010203, 0xFFFFFF };
    static const size_t lengths[] = { 0, 1, 3, 4, 5, 6, 100, 4096 };
    size_t n, m;

    for (n = 0; n < sizeof numbers / sizeof numbers[0]; n++) {
        for (m = 0; m < sizeof lengths / sizeof lengths[0]; m++) {
            struct kind kind = { code, parameter, numbers[n], lengths[m], -1 };

            try_fields(kind);
        }
    }
}

static void every_field(void)
{
    unsigned code, parameter;

    for (code = 0; code < 256; code++)
        for (parameter = 0; parameter < 256; parameter++)
            every_number_and_length(code, parameter);
}

/*
 * Cases by name. What is due is written as the papers have it, in numbers that neither side has a
 * hand in: where both read the papers wrong in the same way, they do not differ.
 */

struct named {
    const char *name;
    struct kind kind;
    unsigned state; /* of an event that is accepted; one at fault is so in every case */
    uint32_t refusal, place;
};

static const struct named at_fault[] = {
    { "code 18, parameter 6 and a message", { 18, 6, 0, 5, -1 }, 0, 10, 10 },
    { "code 18, parameter 6, source 2 and a message", { 18, 6, 2, 5, -1 }, 0, 10, 10 },
    { "code 18, parameter 0 and source 256", { 18, 0, 256, 0, -1 }, 0, 11, 6 },
    { "code 18, parameter 6 and source 2", { 18, 6, 2, 0, -1 }, 0, 11, 5 },
    { "code 18, parameter 6 and source 1", { 18, 6, 1, 0, -1 }, 0, 11, 5 },
    { "code 18, parameter 11", { 18, 11, 0, 0, -1 }, 0, 11, 5 },
    { "code 16, parameter 6 and a number", { 16, 6, 1, 0, -1 }, 0, 10, 6 },
    { "code 17, parameter 4 and a message", { 17, 4, 0, 4, -1 }, 0, 10, 10 },
    { "code 17, parameter 255", { 17, 255, 0, 0, -1 }, 0, 11, 5 },
    { "code 20 and a parameter", { 20, 1, 1, 5, -1 }, 0, 10, 5 },
    { "code 23 and a parameter", { 23, 128, 0, 5, -1 }, 0, 10, 5 },
    { "code 24 and a number", { 24, 0, 1, 5, -1 }, 0, 10, 6 },
    { "code 4 and a message of 4 octets", { 4, 0, 0, 4, -1 }, 0, 10, 10 },
    { "code 5 and all fields", { 5, 1, 1, 1, -1 }, 0, 10, 5 },
    { "code 5, a number and a message", { 5, 0, 1, 1, -1 }, 0, 10, 6 },
    { "code 6 and a number in octet 6 alone", { 6, 0, 0x010000, 0, -1 }, 0, 10, 6 },
    { "code 49 and a number in octet 8 alone", { 49, 0, 0x000001, 0, -1 }, 0, 10, 6 },
    { "code 50 and the longest message", { 50, 0, 0, 4096, -1 }, 0, 10, 10 },
    { "code 7 and a message of 3 octets", { 7, 0, 1, 3, -1 }, 0, 10, 10 },
    { "code 1 without a message", { 1, 0, 0, 0, -1 }, 0, 12, 10 },
    { "code 1 and a message of 4 octets", { 1, 0, 0, 4, -1 }, 0, 12, 10 },
    { "code 1, a number and a message of 2 octets", { 1, 0, 1, 2, -1 }, 0, 10, 6 },
    { "code 1, a parameter and no message", { 1, 1, 0, 0, -1 }, 0, 10, 5 },
    { "code 39 with level 4", { 39, 4, 0, 0, -1 }, 0, 11, 5 },
    { "code 39 with level 4 and a number", { 39, 4, 1, 0, -1 }, 0, 10, 6 },
    { "code 51, which is none, and all fields", { 51, 6, 2, 3, -1 }, 0, 3, 0 }
};

static const struct named accepted[] = {
    { "code 1 and a message of 5 octets", { 1, 0, 0, 5, -1 }, 8, 0, 0 },
    { "code 7 and the highest number", { 7, 0, 0xFFFFFF, 0, -1 }, 1, 0, 0 },
    { "code 16 without a field", { 16, 0, 0, 0, -1 }, 3, 0, 0 },
    { "code 18, parameter 10 and source 1", { 18, 10, 1, 0, -1 }, 8, 0, 0 },
    { "code 20, the highest number and no message", { 20, 0, 0xFFFFFF, 0, -1 }, 8, 0, 0 },
    { "code 39 with level 3", { 39, 3, 0, 0, -1 }, 6, 0, 0 }
};

enum { AT_FAULT = sizeof at_fault / sizeof at_fault[0],
       ACCEPTED = sizeof accepted / sizeof accepted[0] };

static void hold_by_name(const char *name, uint32_t refusal, uint32_t place,
                         uint32_t due_number, uint32_t due_place)
{
    if (refusal == due_number && place == due_place)
        return;
    printf("compare: %s: refusal %lu, place %lu; due are %lu and %lu\n", name,
           (unsigned long)refusal, (unsigned long)place, (unsigned long)due_number,
           (unsigned long)due_place);
    exit(1);
}

static void hold_case(const struct named *named, unsigned n)
{
    struct sscf_answer answer = try_case(n, named->kind);

    hold_by_name(named->name, answer.refusal, answer.place, named->refusal, named->place);
}

static void hold_fresh(const char *name, size_t octets, unsigned n1, uint32_t refusal,
                       uint32_t place)
{
    struct sscf_fresh_answer answer;

    call.table_octets = octets;
    answer = fresh(&call, n1);
    hold_by_name(name, answer.refusal, answer.place, refusal, place);
}

static void cases_by_name(void)
{
    unsigned n, m;

    for (n = 0; n < AT_FAULT; n++)
        for (m = 0; m < CASES; m++)
            hold_case(&at_fault[n], m);
    for (n = 0; n < ACCEPTED; n++)
        hold_case(&accepted[n], accepted[n].state - 1);
    hold_fresh("a fresh table with n1 0", 2 * RECORD, 0, 11, 14);
    hold_fresh("a fresh table of no link with n1 0", 0, 0, 1, 0);
    hold_fresh("a fresh table of half a link with n1 0", RECORD / 2, 0, 1, 0);
    hold_fresh("a fresh table with n1 1", 2 * RECORD, 1, 0, 0);
}

/*
 * Part 4: request 2026-07. Links congested and not into 2/10/3 by both ways, with every parameter
 * under all that the cells ask; congestion of every level and its end in every state; and every
 * value of each of a record's last octets, also where other things are wrong.
 */

static void try_way_in(unsigned state, unsigned code, unsigned n)
{
    uint8_t record[RECORD];
    unsigned parameter, c1 = below(3), n1 = 1 + below(0xFFFF), link;

    for (parameter = 0; parameter < 256; parameter++) {
        struct kind kind = { code, parameter, 0, 0, -1 };

        make_record(record, state, n % 8, c1, n1);
        any_end(record);
        record[SSCF_LINK_AT_FLAGS] = (uint8_t)(n / 8 % 4);
        record[SSCF_LINK_AT_MPS] = (uint8_t)(n / 32 % 3);
        record[SSCF_LINK_AT_UPS] = (uint8_t)(n / 96 % 2);
        record[SSCF_LINK_AT_CONGESTED] = (uint8_t)(n / 192);
        if (one_in(2))
            know_bsnt(record, draw() >> 8);
        link = make_table(&call, record);
        make_event(&call, link, kind);
        step(&call);
    }
}

static void every_way_in(void)
{
    unsigned n;

    for (n = 0; n < 8 * 4 * 3 * 2 * 2; n++) {
        try_way_in(SSCF_STATE_2_1_2, SSCF_EVENT_ESTABLISH_INDICATION, n);
        try_way_in(SSCF_STATE_2_2_2, SSCF_EVENT_ESTABLISH_CONFIRM, n);
    }
}

static void every_level(void)
{
    unsigned n, parameter, link;

    for (n = 0; n < 2 * 2 * 8; n++) {
        for (parameter = 0; parameter < 256; parameter++) {
            link = sound(&call, n % 2 == 0 ? SSCF_EVENT_CONGESTION : SSCF_EVENT_CONGESTION_CEASED);
            record_of(&call, link)[SSCF_LINK_AT_CONGESTED] = (uint8_t)(n / 2 % 2);
            record_of(&call, link)[SSCF_LINK_AT_STATE] = (uint8_t)(1 + n / 4);
            call.event[SSCF_HEAD_AT_PARAMETER] = (uint8_t)parameter;
            step(&call);
        }
    }
}

/* The refusals given to records with one of their last octets anything at all. */
static unsigned long end_refusals[NUMBERS];

static void try_last_octet(unsigned code, unsigned at, unsigned value, unsigned wrong)
{
    unsigned link = sound(&call, code);

    record_of(&call, link)[at] = (uint8_t)value;
    spoil(&call, wrong & ~(unsigned)WRONG_RECORD);
    count_refusal(end_refusals, step(&call).refusal);
}

/* Values that can be right, and some that cannot, meet each other thing wrong, the rest some. */
static void every_last_octet(void)
{
    unsigned n, at, value, wrong;

    for (n = 0; n < sizeof codes; n++) {
        for (at = SSCF_LINK_AT_CONGESTED; at < RECORD; at++) {
            for (value = 0; value < 256; value++) {
                try_last_octet(codes[n], at, value, 0);
                for (wrong = 1; wrong < ALL_WRONG; wrong <<= 1)
                    if (value < 16 || one_in(8))
                        try_last_octet(codes[n], at, value, wrong);
            }
        }
    }
}

/* Part 5: histories, in which links come into service and leave. */

/* The event that leads a link on from its state, and now and then another that does. */
static unsigned likely_code(unsigned state)
{
    switch (state) {
    case SSCF_STATE_1_1_1:
        return SSCF_EVENT_START;
    case SSCF_STATE_1_4_1:
        return one_in(3) ? SSCF_EVENT_START : SSCF_EVENT_RELEASE_CONFIRM;
    case SSCF_STATE_2_1_2:
        return one_in(2) ? SSCF_EVENT_ESTABLISH_INDICATION : SSCF_EVENT_T1_EXPIRED;
    case SSCF_STATE_2_2_2:
        return SSCF_EVENT_ESTABLISH_CONFIRM;
    case SSCF_STATE_2_4_2:
        return SSCF_EVENT_RELEASE_CONFIRM;
    case SSCF_STATE_2_10_3:
        return one_in(3) ? SSCF_EVENT_DATA : SSCF_EVENT_T3_EXPIRED;
    case SSCF_STATE_2_10_4:
        return SSCF_EVENT_DATA;
    default:
        return one_in(2) ? SSCF_EVENT_DATA : SSCF_EVENT_MESSAGE_FOR_TRANSMISSION;
    }
}

static struct kind likely(unsigned state)
{
    struct kind kind = { 0, 0, 0, 0, -1 };

    kind.code = likely_code(state);
    if (kind.code == SSCF_EVENT_ESTABLISH_INDICATION || kind.code == SSCF_EVENT_ESTABLISH_CONFIRM)
        kind.parameter = one_in(3) ? SSCF_STATUS_EM : SSCF_STATUS_NM;
    if (kind.code == SSCF_EVENT_DATA)
        kind.number = draw() >> 8;
    if (kind.code == SSCF_EVENT_DATA && state != SSCF_STATE_3_10_5) {
        kind.length = UNIT;
        kind.status = one_in(2) ? SSCF_STATUS_INS : SSCF_STATUS_NM;
    } else if (has_message(kind.code)) {
        kind.length = 5 + below(one_in(16) ? LONGEST - 4 : 60);
    }
    return kind;
}

/* One that its state may well not have, or that its fields make no event at all. */
static struct kind any(void)
{
    struct kind kind = plain(codes[below(sizeof codes)]);

    if (one_in(8))
        kind = kinds[below((uint32_t)kinds_made)];
    if (kind.code == SSCF_EVENT_RELEASE_INDICATION)
        kind.number = below(2);
    return kind;
}

static void damage_event(struct call *c)
{
    unsigned at = below(HEAD);

    switch (below(4)) {
    case 0:
        c->event_octets = below((uint32_t)c->event_octets);
        break;
    case 1:
        c->event_octets += 1 + below(20);
        break;
    default:
        c->event[at] = (uint8_t)(one_in(2) ? below(60) : draw());
    }
}

static size_t wrong_table_length(size_t octets)
{
    static const size_t lengths[] = { 0, 1, 16, RECORD - 1, RECORD + 1, 4096, LONGEST_TABLE - 1, LONGEST_TABLE + 1,
                                      LONGEST_TABLE + RECORD };

    return one_in(4) ? octets / 2 : one_in(3) ? octets - 1 : lengths[below(9)];
}

static size_t output_length(void)
{
    static const size_t lengths[] = { 0, 12, 96, 4096, 4192, ROOM - 1, ROOM - 1, ROOM - 1, ROOM + 1, 8192 };

    return one_in(30) ? one_in(2) ? lengths[below(10)] : below(ROOM) : ROOM;
}

/* Most histories prove briefly, or no link would come into service in the time there is. */
static void fresh_in_between(struct call *c, size_t octets)
{
    c->table_octets = one_in(10) ? wrong_table_length(octets) : octets;
    fresh(c, one_in(10) ? 0 : one_in(5) ? 250 + below(10) : 1 + below(3));
}

/* Of many links a few come often, so that each of these gets somewhere. */
static unsigned any_link(size_t octets)
{
    unsigned links = (unsigned)(octets / RECORD);

    return links > 4 && !one_in(4) ? below(4) * 85 : below(links);
}

/* Congestion comes seldom, and ends before long, or few links would come into service. */
static void next_event(struct call *c, unsigned link)
{
    static const struct kind ceased = { SSCF_EVENT_CONGESTION_CEASED, 0, 0, 0, -1 };
    const uint8_t *record = record_of(c, link);

    if (record[SSCF_LINK_AT_CONGESTED] == 1 && one_in(8))
        make_event(c, link, ceased);
    else
        make_event(c, link, one_in(4) ? any() : likely(record[SSCF_LINK_AT_STATE]));
}

static void random_call(struct call *c, size_t octets)
{
    unsigned link = any_link(octets);
    uint8_t *octet = record_of(c, link) + below(RECORD), before = *octet;
    int damaged = one_in(40);

    next_event(c, link);
    if (one_in(30))
        damage_event(c);
    if (damaged)
        *octet = (uint8_t)(one_in(2) ? below(12) : draw());
    c->table_octets = one_in(60) ? wrong_table_length(octets) : octets;
    c->out_octets = output_length();
    /* A damaged octet that was taken is the link's from then on; one that was refused is mended. */
    if (step(c).refusal != SSCF_ACCEPTED && damaged)
        *octet = before;
}

static void histories(unsigned long count)
{
    static const size_t sizes[] = { 1, 2, 256 };
    unsigned long end = calls + count, next_history;
    unsigned n = 0;

    while (calls < end) {
        size_t octets = RECORD * sizes[n++ % 3];

        call.table_octets = octets;
        fresh(&call, 1 + below(3));
        for (next_history = calls + 4000; calls < next_history && calls < end;) {
            if (one_in(500))
                fresh_in_between(&call, octets);
            random_call(&call, octets);
        }
    }
}

/*
 * Part 6: bursts. To the library's and the second machine's come the library's single calls, made
 * one after the other on buffers of their own: this is what a burst has to equal.
 */

static struct call burst;
static unsigned long bursts, events_taken;
static unsigned long burst_refusals[NUMBERS], list_refusals[NUMBERS];
static unsigned long congested_proving; /* links that are, after a burst; by Note 7 of Table 6 there are none */

/* What ended the bursts, by what is asked, and by what would be asked next. */
enum { END_ROOM, END_FULL, FRAME_ROOM, FRAME_FULL, FULL_ACCEPTED, FULL_REFUSED, ENDS };
static unsigned long ends[ENDS];

/* Their lists, beside the sound frames: too short with no place at all, by one and by more. */
enum { NONE, ONE_SHORT, SHORTER, EXACT, LONGER, LISTS };
static unsigned long lists[LISTS];

/* What is wrong with a frame. */
enum { WRONG_CUT = 1, WRONG_MARK = 2, WRONG_ZERO = 4, WRONG_LONG = 8, WRONG_PAST = 16 };

static size_t frame_octets(const uint8_t *event)
{
    return HEAD + sscf_get_16(event + SSCF_HEAD_AT_LENGTH);
}

static unsigned wrong_with(const uint8_t *event, size_t left)
{
    if (left < HEAD)
        return WRONG_CUT;
    return (memcmp(event + SSCF_HEAD_AT_MARK, "EV", 2) != 0 ? WRONG_MARK : 0)
         | (event[SSCF_HEAD_AT_ZERO] != 0 ? WRONG_ZERO : 0)
         | (frame_octets(event) > HEAD + LONGEST ? WRONG_LONG : 0)
         | (frame_octets(event) > left ? WRONG_PAST : 0);
}

/* Up to the first broken one, or to the end. */
static size_t sound_frames(const struct call *c)
{
    const uint8_t *event = c->event;
    size_t left = c->event_octets, frames = 0;

    while (left > 0 && wrong_with(event, left) == 0) {
        left -= frame_octets(event);
        event += frame_octets(event);
        frames++;
    }
    return frames;
}

static uint32_t due_refusal(const struct call *c)
{
    if (c->table_octets == 0 || c->table_octets % RECORD != 0 || c->table_octets > LONGEST_TABLE)
        return SSCF_REFUSED_TABLE;
    return c->places < sound_frames(c) ? SSCF_REFUSED_LIST : SSCF_ACCEPTED;
}

/* One of the single calls. Its place is not the burst's to tell, but it is told here as ever. */
static struct sscf_answer one_step(const struct call *c, const uint8_t *event, size_t octets,
                                   uint8_t *out, size_t room)
{
    struct sscf_answer one = sscf_step(single.table, c->table_octets, event, octets, out, room);

    count_field(0, STEP_FIELDS, one.refusal, one.place);
    return one;
}

/* One that there is room for. A link that is not there has no record, and its event is refused. */
static struct sscf_answer counted_step(const struct call *c, const uint8_t *event, uint8_t *out)
{
    size_t at = RECORD * (size_t)sscf_get_16(event + SSCF_HEAD_AT_LINK);
    uint8_t before[RECORD] = { 0 };
    struct sscf_answer one;

    if (at < c->table_octets)
        memcpy(before, single.table + at, RECORD);
    one = one_step(c, event, frame_octets(event), out, ROOM);
    if (one.refusal == SSCF_ACCEPTED)
        count_two_cells(event, before, single.table + at);
    return one;
}

/*
 * Whether single calls go on, as the papers order what is asked. What ended them is asked of the
 * step, which refuses it and so changes nothing.
 */
static int goes_on(const struct call *c, struct sscf_burst_answer *answer)
{
    const uint8_t *event = single.event + answer->at;
    uint8_t *out = single.out + answer->octets;
    size_t left = c->event_octets - answer->at, room = c->out_octets - answer->octets;
    int full = room < ROOM;

    if (left == 0) {
        ends[full ? END_FULL : END_ROOM]++;
    } else if (wrong_with(event, left) != 0) {
        answer->broken = one_step(c, event, left, out, room).refusal;
        ends[full ? FRAME_FULL : FRAME_ROOM]++;
    } else if (full) {
        struct sscf_answer one = one_step(c, event, frame_octets(event), out, room);

        ends[one.refusal == SSCF_REFUSED_OUTPUT ? FULL_ACCEPTED : FULL_REFUSED]++;
    } else {
        return 1;
    }
    return 0;
}

/* A step writes to room of its own here, and what it tells is copied: the rest stays untouched. */
static struct sscf_burst_answer single_calls(const struct call *c)
{
    static uint8_t out[ROOM];
    struct sscf_burst_answer answer = { due_refusal(c), 0, 0, 0, 0, 0 };

    while (answer.refusal == SSCF_ACCEPTED && goes_on(c, &answer)) {
        const uint8_t *event = single.event + answer.at;
        struct sscf_answer one = counted_step(c, event, out);

        memcpy(single.out + answer.octets, out, one.octets);
        single.list[answer.taken++] = one.refusal;
        answer.at += frame_octets(event);
        answer.octets += one.octets;
        answer.signals += one.signals;
    }
    return answer;
}

static int same_answer(struct sscf_burst_answer a, struct sscf_burst_answer b)
{
    return a.refusal == b.refusal && a.broken == b.broken && a.taken == b.taken && a.at == b.at
        && a.octets == b.octets && a.signals == b.signals;
}

static void print_answer(const struct side *side, struct sscf_burst_answer answer)
{
    printf("%s: refusal %lu, broken %lu, taken %lu, at %lu, octets %lu, signals %lu\n",
           name_of(side), (unsigned long)answer.refusal, (unsigned long)answer.broken,
           (unsigned long)answer.taken, (unsigned long)answer.at, (unsigned long)answer.octets,
           (unsigned long)answer.signals);
}

static void hold_against(const struct call *c, const struct side *other,
                         struct sscf_burst_answer ours, struct sscf_burst_answer theirs)
{
    if (same_answer(ours, theirs) && same_memory(c, other))
        return;
    printf("compare: a difference, in burst %lu\n", bursts);
    printf("table %lu octets, events %lu, output %lu, list %lu places\n",
           (unsigned long)c->table_octets, (unsigned long)c->event_octets,
           (unsigned long)c->out_octets, (unsigned long)c->places);
    print_answer(&library, ours);
    print_answer(other, theirs);
    print_memory(c, other);
    print_case(c);
    exit(1);
}

/* Where there is nothing to point to, every second burst has no pointer either. */
static void *lent(void *buffer, size_t length)
{
    return length == 0 && bursts % 2 == 0 ? NULL : buffer;
}

static struct sscf_burst_answer by_library(const struct call *c)
{
    return sscf_burst(lent(library.table, c->table_octets), c->table_octets,
                      lent(library.event, c->event_octets), c->event_octets,
                      lent(library.out, c->out_octets), c->out_octets,
                      lent(library.list, c->places), c->places);
}

static struct sscf_burst_answer by_second(const struct call *c)
{
    struct second_burst_answer b =
        second_burst(lent(second.table, c->table_octets), c->table_octets,
                     lent(second.event, c->event_octets), c->event_octets,
                     lent(second.out, c->out_octets), c->out_octets,
                     lent(second.list, c->places), c->places);
    struct sscf_burst_answer answer = { b.refusal, b.broken, b.taken, b.at, b.octets, b.signals };

    return answer;
}

static void count_burst(const struct call *c, struct sscf_burst_answer answer)
{
    size_t sound = sound_frames(c), n;

    count_refusal(burst_refusals, answer.refusal);
    if (answer.refusal == SSCF_REFUSED_LIST)
        lists[c->places == 0 ? NONE : c->places + 1 == sound ? ONE_SHORT : SHORTER]++;
    if (answer.refusal != SSCF_ACCEPTED)
        return;
    lists[c->places == sound ? EXACT : LONGER]++;
    events_taken += answer.taken;
    for (n = 0; n < answer.taken; n++)
        count_refusal(list_refusals, library.list[n]);
    for (n = 0; n < c->table_octets; n += RECORD) {
        count_service(c->table + n, library.table + n);
        congested_proving += library.table[n + SSCF_LINK_AT_CONGESTED] == 1
                          && library.table[n + SSCF_LINK_AT_STATE] == SSCF_STATE_2_10_3;
    }
}

/* No number of a list is four octets alike but 0, with which none is filled. */
static struct sscf_burst_answer try_burst(struct call *c)
{
    struct sscf_burst_answer answer;
    int fill = 1 + (int)below(255);

    bursts++;
    lay_out(&library, c, fill, c->out_octets);
    lay_out(&second, c, fill, c->out_octets);
    lay_out(&single, c, fill, c->out_octets);
    answer = by_library(c);
    hold_against(c, &second, answer, by_second(c));
    hold_against(c, &single, answer, single_calls(c));
    count_burst(c, answer);
    memcpy(c->table, library.table, c->table_octets);
    return answer;
}

enum { PLANNED = 64 }; /* events of a random burst, at most */

/*
 * A burst in the making: where each of its events begins, and what single calls write before each
 * and in all. `call` has the table as these leave it, so that the next event can lead a link on.
 */
static struct {
    size_t made, begins[PLANNED], written[PLANNED + 1];
} plan;

static void begin_burst(size_t octets)
{
    memcpy(call.table, burst.table, octets);
    call.table_octets = octets;
    plan.made = burst.event_octets = 0;
}

static void add_to_burst(void)
{
    static uint8_t out[ROOM];
    struct sscf_answer answer = sscf_step(call.table, call.table_octets, call.event,
                                          call.event_octets, out, ROOM);

    memcpy(burst.event + burst.event_octets, call.event, call.event_octets);
    plan.begins[plan.made++] = burst.event_octets;
    plan.written[plan.made] = plan.written[plan.made - 1] + answer.octets;
    burst.event_octets += call.event_octets;
}

/* How a frame is broken, and which one of the burst's. */
enum { CUT, SIGNAL, MARK, ZERO, LONG, PAST_BY_ONE, PAST, WAYS };
enum { FIRST, BETWEEN, LAST, PLACES };

/* Counted are the frames that ended a burst and had nothing else wrong with them. */
static unsigned long broken[PLACES][WAYS];

static void count_broken(size_t at)
{
    static const unsigned ways[] = { [WRONG_CUT] = CUT, [WRONG_MARK] = MARK, [WRONG_ZERO] = ZERO,
                                     [WRONG_LONG] = LONG, [WRONG_PAST] = PAST };
    const uint8_t *event = burst.event + at;
    size_t left = burst.event_octets - at;
    unsigned wrong = wrong_with(event, left), way, place;

    if ((wrong & (wrong - 1)) != 0)
        return;
    way = ways[wrong];
    if (way == MARK && memcmp(event + SSCF_HEAD_AT_MARK, "SG", 2) == 0)
        way = SIGNAL;
    if (way == PAST && frame_octets(event) == left + 1)
        way = PAST_BY_ONE;
    place = at == 0 ? FIRST : way == CUT || at == plan.begins[plan.made - 1] ? LAST : BETWEEN;
    broken[place][way]++;
}

/* The octets of a message that is too long are there, mostly, be they the events behind it. */
static void make_too_long(uint8_t *event, size_t behind)
{
    size_t length = LONGEST + 1 + (one_in(2) ? 0 : below(one_in(8) ? 0x10000 - LONGEST - 1 : 200));

    sscf_put_16(event + SSCF_HEAD_AT_LENGTH, (uint32_t)length);
    if (behind < length && !one_in(8))
        burst.event_octets += length - behind;
}

static void break_frame(size_t frame, unsigned way)
{
    uint8_t *event = burst.event + plan.begins[frame];
    size_t behind = burst.event_octets - plan.begins[frame] - HEAD;
    unsigned bit = below(16);

    switch (way) {
    case CUT:
        burst.event_octets = plan.begins[frame] + 1 + below(HEAD - 1);
        plan.made = frame + 1;
        break;
    case SIGNAL:
        memcpy(event + SSCF_HEAD_AT_MARK, "SG", 2);
        break;
    case MARK:
        if (one_in(2))
            memcpy(event + SSCF_HEAD_AT_MARK, "LN", 2);
        else
            event[SSCF_HEAD_AT_MARK + bit / 8] ^= (uint8_t)(1 << bit % 8);
        break;
    case ZERO:
        event[SSCF_HEAD_AT_ZERO] = (uint8_t)(1 + below(255));
        break;
    case LONG:
        make_too_long(event, behind);
        break;
    default:
        sscf_put_16(event + SSCF_HEAD_AT_LENGTH,
                    (uint32_t)behind + (way == PAST_BY_ONE ? 1 : 2 + below(200)));
    }
}

/* Half of the bursts stay whole, a quarter has one frame broken, an eighth two, and so on. */
static void break_frames(void)
{
    while (plan.made > 0 && one_in(2)) {
        size_t last = plan.made - 1;
        size_t frame = one_in(8) ? 0 : one_in(4) ? last : below((uint32_t)plan.made);

        break_frame(frame, below(WAYS));
    }
}

/* Half of the outputs end by as much as a step asks for behind one of the events, or one less. */
static size_t burst_output(void)
{
    static const size_t lengths[] = { 0, 1, 12, 4096, 4192, ROOM - 1, ROOM, ROOM + 1, 8192 };
    size_t all = plan.written[plan.made], some = plan.written[below((uint32_t)plan.made + 1)];

    switch (below(8)) {
    case 0:
        return lengths[below(9)];
    case 1:
        return below(2 * ROOM);
    case 2: case 3:
        return some + ROOM;
    case 4: case 5:
        return some + ROOM - 1;
    default:
        return all + ROOM + below(64);
    }
}

static size_t list_length(void)
{
    size_t sound = sound_frames(&burst);

    switch (below(16)) {
    case 0:
        return 0;
    case 1:
        return sound > 0 ? sound - 1 : 0;
    case 2:
        return below((uint32_t)sound + 1);
    case 3: case 4: case 5:
        return sound + 1 + below(20);
    default:
        return sound;
    }
}

/* A spoiled record is refused and so stays as it is, until it is mended. */
static void random_burst(size_t octets)
{
    unsigned count = one_in(8) ? below(PLANNED + 1) : below(16);
    uint8_t *octet = record_of(&burst, any_link(octets)), spoiled = one_in(8) ? 0x80 : 0;
    struct sscf_burst_answer answer;

    octet += place_to_spoil();
    *octet |= spoiled;
    begin_burst(octets);
    while (count-- > 0) {
        next_event(&call, any_link(octets));
        if (one_in(12))
            spoil(&call, WRONG_CODE << below(3)); /* or the field, or the link */
        add_to_burst();
    }
    break_frames();
    burst.table_octets = one_in(30) ? wrong_table_length(octets) : octets;
    burst.out_octets = burst_output();
    burst.places = list_length();
    answer = try_burst(&burst);
    if (answer.broken != 0)
        count_broken(answer.at);
    *octet ^= spoiled;
}

static void burst_histories(unsigned long count)
{
    static const size_t sizes[] = { 1, 2, 256 };
    unsigned long n;
    size_t octets = 0;

    for (n = 0; n < count; n++) {
        if (n % 64 == 0) {
            octets = RECORD * sizes[n / 64 % 3];
            sscf_fresh(burst.table, octets, (uint16_t)(1 + below(3)));
        }
        random_burst(octets);
    }
}

/* More events and signals than 16 bits count, and lists too short if all bits are looked at. */
static void many_events(void)
{
    static const size_t places[] = { 0, MANY - 0x10000, MANY - 0x10000 + 1, MANY - 1, MANY };
    size_t n;

    sscf_fresh(burst.table, RECORD, 1);
    for (n = 0; n < MANY; n++)
        sscf_put_bare_event(burst.event + HEAD * n, HEAD, one_in(64) ? 1 : 0,
                            n + 1 < MANY ? SSCF_EVENT_RETRIEVE_BSNT : SSCF_EVENT_START);
    burst.table_octets = RECORD;
    burst.event_octets = HEAD * MANY;
    burst.out_octets = OUT_MAX;
    for (n = 0; n < sizeof places / sizeof places[0]; n++) {
        burst.places = places[n];
        try_burst(&burst);
    }
}

/* More octets than 16 bits count, in and out, with room that ends behind each of the events. */
static void many_octets(void)
{
    static const struct kind longest = { SSCF_EVENT_DATA, 0, 0, LONGEST, -1 };
    size_t n;

    make_record(burst.table, SSCF_STATE_3_10_5, 0, 0, 1);
    begin_burst(RECORD);
    for (n = 0; n < 20; n++) {
        make_event(&call, 0, longest);
        add_to_burst();
    }
    burst.table_octets = RECORD;
    burst.places = plan.made;
    for (n = 0; n <= plan.made; n++) {
        burst.out_octets = plan.written[n] + ROOM;
        try_burst(&burst);
        burst.out_octets--;
        try_burst(&burst);
    }
}

/*
 * Both ways into 2/10/3 on a congested link, the second with another link's event between, and what
 * follows when the congestion is over; with room that ends behind each of the events.
 */
static void congested_bursts(void)
{
    static const struct { unsigned link, code, parameter; } events[] = {
        { 1, SSCF_EVENT_START, 0 },
        { 1, SSCF_EVENT_CONGESTION, 2 },
        { 1, SSCF_EVENT_ESTABLISH_CONFIRM, SSCF_STATUS_NM },
        { 1, SSCF_EVENT_RELEASE_CONFIRM, 0 },
        { 0, SSCF_EVENT_START, 0 },
        { 1, SSCF_EVENT_ESTABLISH_INDICATION, SSCF_STATUS_EM },
        { 0, SSCF_EVENT_ESTABLISH_CONFIRM, SSCF_STATUS_EM },
        { 1, SSCF_EVENT_CONGESTION_CEASED, 0 },
        { 1, SSCF_EVENT_RELEASE_CONFIRM, 0 },
        { 1, SSCF_EVENT_ESTABLISH_INDICATION, SSCF_STATUS_NM },
        { 1, SSCF_EVENT_CONGESTION, 0 },
        { 1, SSCF_EVENT_T3_EXPIRED, 0 }
    };
    enum { EVENTS = sizeof events / sizeof events[0] };
    size_t n;

    for (n = 0; n < 2 * (EVENTS + 1); n++) {
        size_t m;

        sscf_fresh(burst.table, 2 * RECORD, 3);
        begin_burst(2 * RECORD);
        for (m = 0; m < EVENTS; m++) {
            struct kind kind = { events[m].code, events[m].parameter, 0, 0, -1 };

            make_event(&call, events[m].link, kind);
            add_to_burst();
        }
        burst.table_octets = 2 * RECORD;
        burst.places = EVENTS;
        burst.out_octets = plan.written[n / 2] + ROOM - n % 2;
        try_burst(&burst);
    }
}

/*
 * The cases by name that are at fault, all in one burst, every second one for a link that is not
 * there: the list takes the numbers alone.
 */
static void burst_by_name(void)
{
    unsigned n;

    make_record(burst.table, SSCF_STATE_3_10_5, ALL_TIMERS, 0, 1);
    begin_burst(RECORD);
    for (n = 0; n < AT_FAULT; n++) {
        make_event(&call, n % 2, at_fault[n].kind);
        add_to_burst();
    }
    burst.table_octets = RECORD;
    burst.out_octets = ROOM;
    burst.places = AT_FAULT;
    try_burst(&burst);
    for (n = 0; n < AT_FAULT; n++)
        hold_by_name(at_fault[n].name, library.list[n], 0, at_fault[n].refusal, 0);
}

/* The parts. */

static int named_otherwise(const char *name)
{
    if (told[FIELDS] != 0)
        printf("%s: a field was named that cannot be, or none where one is due\n", name);
    return told[FIELDS] != 0;
}

static int never_named(void)
{
    static const char *const names[FIELDS] = { "10 at 5", "10 at 6", "10 at 10", "11 at 5",
                                               "11 at 6", "12 at 10", "fresh 11 at 14" };

    return never_counted("fields", "each was named", names, told, FIELDS)
         | named_otherwise("fields");
}

/* What is told of the event comes whatever else is wrong, and of the rest only what is so. */
static int never_met(void)
{
    static const struct { const char *name; unsigned wanted; } circumstances[CIRCUMSTANCES] = {
        [SOUND] = { "fields, nothing else wrong", 1 << 0 | 1 << 8 },
        [NO_LINK] = { "fields, no such link", 1 << 5 },
        [BAD_RECORD] = { "fields, bad record", 1 << 6 },
        [NO_TIMER] = { "fields, no timer running", 1 << 0 | 1 << 7 | 1 << 8 },
        [SHORT_OUTPUT] = { "fields, output of 4,239", 1 << 8 | 1 << 9 }
    };
    unsigned of_the_event = 1 << 3 | 1 << 10 | 1 << 11 | 1 << 12, n;
    int failed = 0;

    for (n = 0; n < CIRCUMSTANCES; n++)
        failed |= never_seen(circumstances[n].name, met[n],
                             of_the_event | circumstances[n].wanted);
    return failed;
}

/* Both ways, each under every MPS, UPS and field of the peer, at least so often. */
static int two_cells_missed(const char *name, unsigned long least)
{
    unsigned long sums[WAYS_IN] = { 0 }, fewest = ~0ul;
    unsigned way, mode;

    for (way = 0; way < WAYS_IN; way++) {
        for (mode = 0; mode < MODES; mode++) {
            sums[way] += two_cells[way][mode];
            if (two_cells[way][mode] < fewest)
                fewest = two_cells[way][mode];
        }
    }
    printf("%s: two cells %lu times by an indication, %lu times by a confirm; under each MPS, UPS and field at"
           " least %lu times\n", name, sums[BY_INDICATION], sums[BY_CONFIRM], fewest);
    if (fewest < least)
        printf("%s: %lu times are due\n", name, least);
    memset(two_cells, 0, sizeof two_cells);
    return fewest < least;
}

/* Congestion is accepted with either flag in every state, and its end in all but 2/10/3. */
static int never_flagged(unsigned ended, unsigned congested, const char *what)
{
    static const char *const names[STATES] = { "1/1/1", "1/4/1", "2/1/2", "2/2/2", "2/4/2", "2/10/3", "2/10/4",
                                               "3/10/5" };
    const unsigned long *all = flagged[ended][congested];
    const char *legal_names[STATES];
    unsigned long legal[STATES];
    unsigned state, many = 0;
    int odd = 0;

    for (state = 1; state <= STATES; state++) {
        if (ended && state == SSCF_STATE_2_10_3) {
            odd = all[state - 1] != 0;
            continue;
        }
        legal_names[many] = names[state - 1];
        legal[many++] = all[state - 1];
    }
    return never_counted("congestion", what, legal_names, legal, many) | odd;
}

/* The fields of releases, which are six of the nine status codes and no other. */
static int never_released(void)
{
    static const char *const names[] = { "OOS", "PO", "ANS", "MI", "PE", "PNS" };
    static const unsigned fields_of[] = { SSCF_STATUS_OOS, SSCF_STATUS_PO, SSCF_STATUS_ANS, SSCF_STATUS_MI,
                                          SSCF_STATUS_PE, SSCF_STATUS_PNS };
    unsigned long counts[6];
    unsigned n;

    for (n = 0; n < 6; n++)
        counts[n] = released[fields_of[n]];
    return never_counted("last field", "it was made", names, counts, 6)
         | (released[0] + released[SSCF_STATUS_INS] + released[SSCF_STATUS_NM] + released[SSCF_STATUS_EM]
            + released[6] != 0);
}

/* The counts of the cells are those of every_cell and of every_way_in, the least there is of both. */
static int congestion(void)
{
    unsigned long before = calls;
    int failed;

    every_way_in();
    every_level();
    every_last_octet();
    printf("congestion: %lu calls\n", calls - before);
    failed = two_cells_missed("cells", 4 * 8 * 5 * 2 + 4 * 8);
    failed |= never_flagged(0, 0, "it began");
    failed |= never_flagged(0, 1, "it began again");
    failed |= never_flagged(1, 1, "it ended");
    failed |= never_flagged(1, 0, "it ended again");
    failed |= never_released();
    return failed | never_seen("last octets", end_refusals, 0x1FEF);
}

static int steps(unsigned long random_calls)
{
    unsigned long before;
    int failed;

    every_cell();
    printf("cells: %lu calls\n", calls);
    before = calls;
    every_event_octet();
    every_record_octet();
    every_code_and_parameter();
    event_lengths();
    table_and_output_lengths();
    several_wrong();
    every_fresh_length();
    printf("checks: %lu calls\n", calls - before);
    before = calls;
    cases_by_name();
    every_field();
    printf("fields: %lu calls\n", calls - before);
    failed = congestion();
    before = calls;
    failed |= forgotten[2] != 0;
    into_service = out_of_service = forgotten[0] = forgotten[1] = retrieved[0] = retrieved[1] = 0;
    histories(random_calls);
    printf("histories: %lu calls, links into service %lu times, out of it %lu times\n", calls - before,
           into_service, out_of_service);
    printf("BSNT: forgotten %lu times by a confirm, %lu times by a response; retrieved %lu times, %lu times not\n",
           forgotten[0], forgotten[1], retrieved[1], retrieved[0]);
    failed |= two_cells_missed("histories", random_calls / 200000);
    printf("signals of one step: at most %lu\n", (unsigned long)most_signals);
    failed |= most_signals != 8;
    /* No step is refused by 4, which is given no more, or by 13, which is a burst's. */
    failed |= never_seen("step", step_refusals, 0x1FEF);
    failed |= never_seen("fresh", fresh_refusals,
                         1 << SSCF_ACCEPTED | 1 << SSCF_REFUSED_TABLE | 1 << SSCF_REFUSED_RANGE);
    failed |= never_named();
    failed |= never_met();
    failed |= into_service == 0 || out_of_service == 0;
    failed |= forgotten[0] == 0 || forgotten[1] == 0 || forgotten[2] != 0 || retrieved[0] == 0 || retrieved[1] == 0;
    return failed;
}

static int never_so(void)
{
    static const char *const end_kinds[ENDS] = {
        "at the end with room", "at the end without", "at a broken frame with room",
        "at one without", "for want of room before an event else accepted",
        "before one else refused"
    };
    static const char *const list_kinds[LISTS] = { "none", "one too short", "shorter", "exact",
                                                    "longer" };
    static const char *const ways[WAYS] = { "under 12 octets", "SG", "another mark", "octet 9",
                                            "over 4,096", "one past the end", "more past it" };
    int failed = never_counted("burst", "it ended", end_kinds, ends, ENDS);

    failed |= never_counted("burst", "its first frame was broken by", ways, broken[FIRST], WAYS);
    /* What is cut off is the last, and no other. */
    failed |= never_counted("burst", "one between was", ways + 1, broken[BETWEEN] + 1, WAYS - 1);
    failed |= never_counted("burst", "its last was", ways, broken[LAST], WAYS);
    return failed | never_counted("burst", "its list was", list_kinds, lists, LISTS);
}

static int all_bursts(unsigned long random_bursts)
{
    int failed;

    into_service = out_of_service = 0;
    many_events();
    many_octets();
    congested_bursts();
    burst_by_name();
    burst_histories(random_bursts);
    printf("bursts: %lu calls, %lu events taken, links into service %lu times, out of it %lu"
           " times\n", bursts, events_taken, into_service, out_of_service);
    failed = never_so();
    failed |= two_cells_missed("bursts", random_bursts / 200000);
    printf("links congested in 2/10/3 after a burst: %lu\n", congested_proving);
    failed |= congested_proving != 0;
    failed |= never_seen("burst", burst_refusals, 1 << SSCF_ACCEPTED | 1 << SSCF_REFUSED_TABLE
                                                      | 1 << SSCF_REFUSED_LIST);
    /* No event is refused by 1, 2, 4 or 9, and the list takes no place beside a number. */
    failed |= never_seen("burst's list", list_refusals, 0x1DE9);
    failed |= named_otherwise("burst's single calls");
    return failed | (into_service == 0 || out_of_service == 0);
}

int main(int argc, char **argv)
{
    unsigned long random_calls = argc > 2 ? strtoul(argv[2], NULL, 0) : 1000000;
    unsigned long random_bursts = argc > 3 ? strtoul(argv[3], NULL, 0) : 200000;
    int failed;

    seed(argc > 1 ? strtoul(argv[1], NULL, 0) : 2140);
    add_all_kinds();
    failed = steps(random_calls);
    failed |= all_bursts(random_bursts);
    printf("compare: %lu calls, %lu bursts, 0 differences\n", calls, bursts);
    return failed;
}
