/*
 * What a call costs. Three machines make the same calls, an empty one, this library and the second
 * machine; a row of the table is one case over and over, or several kinds of step mixed, or many
 * events as one burst and as single calls. The script host/bench makes the table, of what this
 * program says when it is told to
 *
 *     check   see that both machines answer every call as they should, and name the rows
 *     count   make the calls between marks, for a counter of instructions
 *     time    take the time of the calls
 */
#define _POSIX_C_SOURCE 199309L /* clock_gettime */

#include <sscf_host.h>

#include "second.h"

#include <stdio.h>
#include <string.h>
#include <time.h>

/* bench_empty.c */
void bench_mark(void);
struct sscf_answer empty_step(uint8_t *table, size_t table_octets,
                              const uint8_t *event, size_t event_octets,
                              uint8_t *out, size_t out_octets);
struct sscf_burst_answer empty_burst(uint8_t *table, size_t table_octets,
                                     const uint8_t *events, size_t events_octets,
                                     uint8_t *out, size_t out_octets,
                                     uint32_t *refusals, size_t refusals_count);
uint32_t empty_write(uint8_t *out, size_t out_octets, struct sscf_changeover message);
struct sscf_changeover_answer empty_read(const uint8_t *octets, size_t count);
uint32_t empty_order(uint64_t *deadlines, size_t count, const uint64_t *periods, size_t links,
                     uint16_t link, uint8_t code, uint64_t time);
struct sscf_due_answer empty_due(uint64_t *deadlines, size_t count, const uint64_t *periods,
                                 size_t links, uint64_t time);

/*
 * What is called: sscf_step, sscf_burst, sscf_step for each event of a burst, sscf_changeover_write
 * or sscf_changeover_read, sscf_deadlines_order or sscf_deadlines_due.
 */
enum { STEP, BURST, SINGLES, WRITE, READ, TIMER_ORDER, DUE, CALLS };

/*
 * The cases of a step: a link, an event for it, and the answer that shows that it is the case
 * meant. A case is a row alone, or one of the kinds that are mixed, or both.
 */

enum { ALONE = 1, MIXED = 2, BOTH = ALONE | MIXED };

struct bench_case {
    const char *title;
    uint8_t rows;
    uint8_t state, flags, congested, timers;
    uint16_t c1;
    uint8_t code, parameter;
    uint32_t number;
    uint16_t length;
    uint32_t refusal, place, signals;
};

enum { ALIGNING = SSCF_TIMER_T1 | SSCF_TIMER_T2, PROVING = SSCF_TIMER_T2 | SSCF_TIMER_T3 };
enum { NO_EVENT = 10 }; /* a code that is none of SSCF_EVENT_... */

static const struct bench_case cases[] = {
    {"T3 expiry while proving", BOTH,
     SSCF_STATE_2_10_3, 0, 0, PROVING, 500, SSCF_EVENT_T3_EXPIRED, 0, 0, 0, SSCF_ACCEPTED, 0, 2},
    {"T3 expiry that ends it, in service at once", ALONE,
     SSCF_STATE_2_10_3, SSCF_FLAG_INS, 0, PROVING, 0, SSCF_EVENT_T3_EXPIRED, 0, 0, 0,
     SSCF_ACCEPTED, 0, 5},
    {"DATA of 273 octets in service", BOTH,
     SSCF_STATE_3_10_5, 0, 0, 0, 0, SSCF_EVENT_DATA, 0, 0, 273, SSCF_ACCEPTED, 0, 1},
    {"DATA of 4,096 octets in service", ALONE,
     SSCF_STATE_3_10_5, 0, 0, 0, 0, SSCF_EVENT_DATA, 0, 0, 4096, SSCF_ACCEPTED, 0, 1},
    {"user message of 273 octets in service", BOTH,
     SSCF_STATE_3_10_5, 0, 0, 0, 0, SSCF_EVENT_MESSAGE_FOR_TRANSMISSION, 0, 0, 273,
     SSCF_ACCEPTED, 0, 2},
    {"ESTABLISH-indication with NM in 2/1/2", BOTH,
     SSCF_STATE_2_1_2, 0, 0, ALIGNING, 0, SSCF_EVENT_ESTABLISH_INDICATION, SSCF_STATUS_NM, 0, 0,
     SSCF_ACCEPTED, 0, 4},
    {"ESTABLISH-indication with NM in 2/1/2, congested", ALONE, /* two cells */
     SSCF_STATE_2_1_2, 0, 1, ALIGNING, 0, SSCF_EVENT_ESTABLISH_INDICATION, SSCF_STATUS_NM, 0, 0,
     SSCF_ACCEPTED, 0, 8},
    {"EMERGENCY in 1/1/1", BOTH,
     SSCF_STATE_1_1_1, 0, 0, 0, 0, SSCF_EVENT_EMERGENCY, 0, 0, 0, SSCF_ACCEPTED, 0, 0},
    {"an unknown code, refused by 3", ALONE,
     SSCF_STATE_3_10_5, 0, 0, 0, 0, NO_EVENT, 0, 0, 0, SSCF_REFUSED_CODE, 0, 0},
    {"START with a parameter, refused by 10", ALONE,
     SSCF_STATE_3_10_5, 0, 0, 0, 0, SSCF_EVENT_START, 1, 0, 0,
     SSCF_REFUSED_NOT_CARRIED, SSCF_PLACE_PARAMETER, 0},
    {"RELEASE-indication with source 2, refused by 11", ALONE,
     SSCF_STATE_3_10_5, 0, 0, 0, 0, SSCF_EVENT_RELEASE_INDICATION, SSCF_STATUS_OOS, 2, 0,
     SSCF_REFUSED_RANGE, SSCF_PLACE_NUMBER, 0},
    {"user message of 4 octets, refused by 12", ALONE,
     SSCF_STATE_3_10_5, 0, 0, 0, 0, SSCF_EVENT_MESSAGE_FOR_TRANSMISSION, 0, 0, 4,
     SSCF_REFUSED_SHORT, SSCF_PLACE_LENGTH, 0},
    {"START in service, refused by 8", ALONE,
     SSCF_STATE_3_10_5, 0, 0, 0, 0, SSCF_EVENT_START, 0, 0, 0, SSCF_REFUSED_STATE, 0, 0},
    {"NM unit while proving", MIXED,
     SSCF_STATE_2_10_3, 0, 0, PROVING, 500, SSCF_EVENT_DATA, 0, 0, SSCF_UNIT_OCTETS,
     SSCF_ACCEPTED, 0, 0},
    {"CONGESTION in service", MIXED,
     SSCF_STATE_3_10_5, 0, 0, 0, 0, SSCF_EVENT_CONGESTION, 1, 0, 0, SSCF_ACCEPTED, 0, 2},
    {"RELEASE-indication in service", MIXED,
     SSCF_STATE_3_10_5, 0, 0, 0, 0, SSCF_EVENT_RELEASE_INDICATION, SSCF_STATUS_OOS, 0, 0,
     SSCF_ACCEPTED, 0, 2},
};

enum { CASES = sizeof cases / sizeof *cases };

/*
 * The cases of the changeover calls, each a row: a message and nine octets. Writing is handed the
 * one and reading the other; what is left is the answer, all 0 where it is refused.
 */

struct changeover_case {
    const char *title;
    unsigned call; /* WRITE or READ */
    struct sscf_changeover message;
    uint8_t octets[SSCF_CHANGEOVER_OCTETS];
    uint32_t refusal;
};

enum { NO_HEADING = 0x11 }; /* one that is neither SSCF_CHANGEOVER_XCO nor SSCF_CHANGEOVER_XCA */

static const struct changeover_case changeovers[] = {
    {"changeover order written", WRITE,
     {8, 0, 4660, 13602, 5, SSCF_CHANGEOVER_XCO, 0x030201},
     {0x80, 0x34, 0x92, 0x48, 0x5d, SSCF_CHANGEOVER_XCO, 0x01, 0x02, 0x03}, SSCF_ACCEPTED},
    {"changeover acknowledgement written", WRITE,
     {8, 0, 4660, 13602, 5, SSCF_CHANGEOVER_XCA, 0x030201},
     {0x80, 0x34, 0x92, 0x48, 0x5d, SSCF_CHANGEOVER_XCA, 0x01, 0x02, 0x03}, SSCF_ACCEPTED},
    {"changeover order read", READ,
     {8, 0, 4660, 13602, 5, SSCF_CHANGEOVER_XCO, 0x030201},
     {0x80, 0x34, 0x92, 0x48, 0x5d, SSCF_CHANGEOVER_XCO, 0x01, 0x02, 0x03}, SSCF_ACCEPTED},
    {"changeover acknowledgement read", READ,
     {8, 0, 4660, 13602, 5, SSCF_CHANGEOVER_XCA, 0x030201},
     {0x80, 0x34, 0x92, 0x48, 0x5d, SSCF_CHANGEOVER_XCA, 0x01, 0x02, 0x03}, SSCF_ACCEPTED},
    {"nine octets with another heading, refused by 2", READ,
     {0},
     {0x80, 0x34, 0x92, 0x48, 0x5d, NO_HEADING, 0x01, 0x02, 0x03}, SSCF_CHANGEOVER_REFUSED_HEADING},
};

enum { CHANGEOVERS = sizeof changeovers / sizeof *changeovers };

/*
 * The cases of the deadlines, each a row: a list of 256 links whose timers all run, so many of them
 * due, and an order for one link or the question what is due. Their deadlines are all different, in
 * no order.
 */

enum { TIMERS = 3 * SSCF_LINKS_MAX, NUMBERS = SSCF_DEADLINES(SSCF_LINKS_MAX) };

struct deadlines_case {
    const char *title;
    unsigned call; /* TIMER_ORDER or DUE */
    unsigned due;  /* timers */
    uint8_t code;  /* of the order, or of the event that is answered, 0 if nothing is due */
    uint16_t link;
};

static const struct deadlines_case keepers[] = {
    {"T3 of one link of 256 set", TIMER_ORDER, 0, SSCF_SIGNAL_SET_T3, 200},
    {"T2 of one link of 256 reset", TIMER_ORDER, 0, SSCF_SIGNAL_RESET_T2, 200},
    {"what is due of 768 timers: nothing", DUE, 0, 0, 0},
    {"what is due of 768 timers: one", DUE, 1, SSCF_EVENT_T2_EXPIRED, 200},
    {"what is due of 768 timers: all of them", DUE, TIMERS, SSCF_EVENT_T2_EXPIRED, 200},
};

enum { KEEPERS = sizeof keepers / sizeof *keepers };

/*
 * The rows: each case of a step that is one alone, behind them all that are mixed, then a burst and
 * its single calls, the changeover calls, and the deadlines. The mixed kinds are counted and timed
 * over the whole of their order. Of equal calls fewer are enough, and the shorter a stretch the likelier
 * that a busy machine leaves it in peace.
 */

enum { ORDER = 8192 }; /* see below; a multiple of the links of each table */
enum { COUNTED = 100, TIMED = 2048 };
enum { LINKS = 25, EVENTS = 4 * LINKS }; /* of a burst */
enum { EMPTY, OURS, SECOND, MACHINES };

static const unsigned tables[] = {1, SSCF_LINKS_MAX}; /* their links */
enum { TABLES = sizeof tables / sizeof *tables };

struct row {
    unsigned call;
    const struct bench_case *kinds[CASES];    /* of a step */
    const struct changeover_case *changeover; /* of a changeover call */
    const struct deadlines_case *keeper;      /* of deadlines */
    unsigned many;                            /* kinds */
    unsigned events;                          /* that a call takes, 1 but for a burst */
    unsigned tables;                          /* that it is counted on, the last ones */
    unsigned counted, timed;                  /* calls in a stretch */
    double least[MACHINES];                   /* nanoseconds of a call */
};

static struct row rows[CASES + 1 + 2 + CHANGEOVERS + KEEPERS];
static size_t rows_made;

/*
 * The mixed kinds, which are many calls for a slow counter, are counted on the large table only. A
 * burst has that one, and the calls behind it none.
 */
static void make_rows(void)
{
    struct row mixed = {.call = STEP, .events = 1, .tables = 1, .counted = ORDER, .timed = ORDER};
    struct row burst = {.call = BURST, .many = 1, .events = EVENTS,
                        .tables = 1, .counted = COUNTED / 10, .timed = TIMED / EVENTS};
    size_t i;

    for (i = 0; i < CASES; i++) {
        struct row alone = {.call = STEP, .kinds = {&cases[i]}, .many = 1, .events = 1,
                            .tables = TABLES, .counted = COUNTED, .timed = TIMED};

        if (cases[i].rows & ALONE)
            rows[rows_made++] = alone;
        if (cases[i].rows & MIXED)
            mixed.kinds[mixed.many++] = &cases[i];
    }
    rows[rows_made++] = mixed;
    rows[rows_made++] = burst;
    burst.call = SINGLES;
    rows[rows_made++] = burst;
    for (i = 0; i < CHANGEOVERS; i++) {
        struct row alone = {.call = changeovers[i].call, .changeover = &changeovers[i], .many = 1,
                            .events = 1, .tables = 1, .counted = COUNTED, .timed = TIMED};

        rows[rows_made++] = alone;
    }
    for (i = 0; i < KEEPERS; i++) {
        struct row alone = {.call = keepers[i].call, .keeper = &keepers[i], .many = 1,
                            .events = 1, .tables = 1, .counted = COUNTED, .timed = TIMED / 8};

        rows[rows_made++] = alone;
    }
}

/*
 * The steps of a row: its kinds in an order drawn at random, always the same one, which begins anew
 * at its end, and the links of the table in turn. Each call finds its link's record put back. The
 * order is long because a processor learns a short one by heart: in one of 1,024 the mixed kinds
 * took the second machine a fourth less time than in this one, in longer ones a hundredth more.
 */

struct kind {
    uint8_t start[SSCF_LINK_OCTETS]; /* a link's record as a call is to find it */
    uint8_t event[SSCF_HEAD_OCTETS + SSCF_MESSAGE_OCTETS_MAX];
    size_t event_octets;
};

static struct kind kinds[CASES];
static uint8_t order[ORDER];
static uint8_t table[SSCF_TABLE_OCTETS_MAX];
static uint8_t numbers[SSCF_LINKS_MAX][2]; /* of the links, as an event has them */
static size_t table_octets;
static unsigned last_link; /* links are a power of two, so that this is a mask too */

/*
 * What a single step writes begins a page. Where a linker lays it is chance, and a short message
 * that is copied over the end of a page takes either machine twice as long; one of 4,096 octets
 * always goes over it.
 */
static uint8_t out[SSCF_OUTPUT_OCTETS] __attribute__((aligned(4096)));

static void set_up_kind(struct kind *kind, const struct bench_case *c)
{
    uint8_t *message = kind->event + SSCF_HEAD_OCTETS;
    size_t i;

    memcpy(kind->start, table, sizeof kind->start);
    kind->start[SSCF_LINK_AT_STATE] = c->state;
    kind->start[SSCF_LINK_AT_FLAGS] = c->flags;
    kind->start[SSCF_LINK_AT_CONGESTED] = c->congested;
    kind->start[SSCF_LINK_AT_TIMERS] = c->timers;
    sscf_put_16(kind->start + SSCF_LINK_AT_C1, c->c1);

    for (i = 0; i < c->length; i++)
        message[i] = (uint8_t)(i * 7 + 1);
    if (c->length == SSCF_UNIT_OCTETS)
        message[SSCF_UNIT_OCTETS - 1] = SSCF_STATUS_NM;
    kind->event_octets = sscf_put_event(kind->event, sizeof kind->event, 0, c->code, c->parameter,
                                        c->number, message, c->length);
}

static void draw(unsigned many)
{
    uint32_t random = 2140;
    size_t i;

    if (many == 1) { /* quicker, and it is done very often */
        memset(order, 0, sizeof order);
        return;
    }
    for (i = 0; i < ORDER; i++) {
        random ^= random << 13; /* Marsaglia's xorshift */
        random ^= random >> 17;
        random ^= random << 5;
        order[i] = (uint8_t)((random >> 16) % many);
    }
}

static void set_up_steps(const struct row *row, unsigned links)
{
    size_t i;

    table_octets = (size_t)links * SSCF_LINK_OCTETS;
    last_link = links - 1;
    sscf_fresh(table, table_octets, SSCF_N1_DEFAULT);
    for (i = 0; i < links; i++)
        sscf_put_16(numbers[i], (uint32_t)i);
    for (i = 0; i < row->many; i++)
        set_up_kind(&kinds[i], row->kinds[i]);
    draw(row->many);
}

/* Makes the link of a step and its event what they are to be, and answers the kind. */
static inline const struct kind *ready(unsigned call)
{
    struct kind *kind = &kinds[order[call % ORDER]];
    unsigned link = call & last_link;

    memcpy(table + link * SSCF_LINK_OCTETS, kind->start, sizeof kind->start);
    memcpy(kind->event + SSCF_HEAD_AT_LINK, numbers[link], sizeof numbers[link]);
    return kind;
}

/* Whether both machines do what a step is meant for, and the same in every octet. */
static int step_agreed(const struct row *row, unsigned call)
{
    static uint8_t our_out[sizeof out], our_record[SSCF_LINK_OCTETS];
    const struct bench_case *due = row->kinds[order[call % ORDER]];
    const uint8_t *record = table + (call & last_link) * SSCF_LINK_OCTETS;
    const struct kind *kind;
    struct sscf_answer ours;
    struct second_answer second;

    memset(out, 0, sizeof out);
    kind = ready(call);
    ours = sscf_step(table, table_octets, kind->event, kind->event_octets, out, sizeof out);
    memcpy(our_out, out, sizeof out);
    memcpy(our_record, record, sizeof our_record);

    memset(out, 0, sizeof out);
    kind = ready(call);
    second = second_step(table, table_octets, kind->event, kind->event_octets, out, sizeof out);

    return ours.refusal == due->refusal && ours.place == due->place &&
           ours.signals == due->signals && second.refusal == ours.refusal &&
           second.place == ours.place && second.octets == ours.octets &&
           second.signals == ours.signals && memcmp(out, our_out, sizeof out) == 0 &&
           memcmp(record, our_record, sizeof our_record) == 0;
}

/*
 * The burst, a restart: START for each of some links that are no neighbours, then for each of them
 * the confirm, then the first expiry of T3, then a proving unit of the peer, all end to end. They
 * are those of a restart, but that no host has them at once: a confirm answers a signal of START.
 * The list has a place for every twelve octets of events, as sscf.h has it, so that they are not
 * counted beforehand; and each turn finds the table put back. A link's four events make three
 * signals, two, two and none; one of these carries a unit.
 */

enum { LINK_EVENTS = 4 * SSCF_HEAD_OCTETS + SSCF_UNIT_OCTETS, LINK_SIGNALS = 3 + 2 + 2 };
enum { LINK_OUT = LINK_SIGNALS * SSCF_HEAD_OCTETS + SSCF_UNIT_OCTETS };

static uint8_t events[LINKS * LINK_EVENTS], fresh[sizeof table];
static uint8_t burst_out[LINKS * LINK_OUT + SSCF_OUTPUT_OCTETS];
static uint32_t refusals[sizeof events / SSCF_HEAD_OCTETS];
static struct sscf_burst_answer latest;

static void set_up_burst(void)
{
    static const uint8_t unit[SSCF_UNIT_OCTETS] = {0, 0, 0, SSCF_STATUS_NM};
    static const struct {
        uint8_t code, parameter, length;
    } rounds[] = {
        {SSCF_EVENT_START, 0, 0},
        {SSCF_EVENT_ESTABLISH_CONFIRM, SSCF_STATUS_NM, 0},
        {SSCF_EVENT_T3_EXPIRED, 0, 0},
        {SSCF_EVENT_DATA, 0, sizeof unit},
    };
    size_t i, at = 0;
    uint32_t link;

    table_octets = sizeof table;
    sscf_fresh(fresh, sizeof fresh, SSCF_N1_DEFAULT);
    for (i = 0; i < sizeof rounds / sizeof *rounds; i++)
        for (link = 0; link < LINKS; link++)
            at += sscf_put_event(events + at, sizeof events - at, SSCF_LINKS_MAX / LINKS * link,
                                 rounds[i].code, rounds[i].parameter, 0, unit, rounds[i].length);
}

/* The answer is kept whole, to be looked at. */
static inline uint32_t keep(struct sscf_burst_answer answer)
{
    latest = answer;
    return answer.refusal;
}

/* Whether a burst, or its single calls, did what is meant: every event was accepted. */
static int burst_done(void)
{
    size_t i;

    for (i = 0; i < EVENTS; i++)
        if (refusals[i] != SSCF_ACCEPTED)
            return 0;
    return latest.refusal == SSCF_ACCEPTED && latest.broken == 0 && latest.taken == EVENTS &&
           latest.at == sizeof events && latest.octets == LINKS * LINK_OUT &&
           latest.signals == LINKS * LINK_SIGNALS;
}

/* The changeover calls of a row, all of one case. */

static const struct changeover_case *changeover;

/* A message, to make one of the other machine's type. */
#define FIELDS(m)                                                                              \
    {(m).sub_service, (m).service, (m).dpc, (m).opc, (m).slc, (m).heading, (m).number}

static int write_agreed(void)
{
    struct second_changeover message = FIELDS(changeover->message);
    uint8_t ours[sizeof changeover->octets] = {0}, second[sizeof changeover->octets] = {0};

    return sscf_changeover_write(ours, sizeof ours, changeover->message) == changeover->refusal &&
           second_changeover_write(second, sizeof second, message) == changeover->refusal &&
           memcmp(ours, changeover->octets, sizeof ours) == 0 &&
           memcmp(second, changeover->octets, sizeof second) == 0;
}

static int is_answer(uint32_t refusal, struct sscf_changeover message)
{
    const struct sscf_changeover *due = &changeover->message;

    return refusal == changeover->refusal && message.sub_service == due->sub_service &&
           message.service == due->service && message.dpc == due->dpc && message.opc == due->opc &&
           message.slc == due->slc && message.heading == due->heading &&
           message.number == due->number;
}

static int read_agreed(void)
{
    struct sscf_changeover_answer ours;
    struct second_changeover_answer second;

    ours = sscf_changeover_read(changeover->octets, sizeof changeover->octets);
    second = second_changeover_read(changeover->octets, sizeof changeover->octets);
    return is_answer(ours.refusal, ours.message) &&
           is_answer(second.refusal, (struct sscf_changeover)FIELDS(second.message));
}

/*
 * The deadlines of a row. The earliest is that of the case, and the others lie 1 to 767 behind it.
 * It is put back before every call, since a question alters it and nothing else; an order alters
 * what it has altered before, or it.
 */

static const struct deadlines_case *keeper;
static uint64_t deadlines[NUMBERS], periods[SSCF_LINKS_MAX];

enum { TIME = 1000000, EARLIEST = TIMERS * 200 / SSCF_LINKS_MAX + 1 }; /* of link 200, T2 */

static void set_up_deadlines(const struct deadlines_case *new_keeper)
{
    unsigned n, after;

    keeper = new_keeper;
    for (n = 0; n < SSCF_LINKS_MAX; n++)
        periods[n] = 1 + n;
    for (n = 0; n < TIMERS; n++) {
        after = (n + TIMERS - EARLIEST) * 331 % TIMERS; /* each from 0 to 767 once */
        deadlines[n] = TIME + 1 + after - keeper->due;
    }
    deadlines[TIMERS] = TIME;
}

static uint64_t *put_back(void)
{
    deadlines[EARLIEST] = TIME + 1 - keeper->due;
    return deadlines;
}

static int order_agreed(void)
{
    static uint64_t second[NUMBERS];

    memcpy(second, put_back(), sizeof second);
    return sscf_deadlines_order(deadlines, NUMBERS, periods, SSCF_LINKS_MAX, keeper->link,
                                keeper->code, TIME) == SSCF_ACCEPTED &&
           second_deadlines_order(second, NUMBERS, periods, SSCF_LINKS_MAX, keeper->link,
                                  keeper->code, TIME) == SSCF_ACCEPTED &&
           memcmp(deadlines, second, sizeof second) == 0;
}

static int due_agreed(void)
{
    static uint64_t second[NUMBERS];
    struct sscf_due_answer a;
    struct second_due_answer b;

    memcpy(second, put_back(), sizeof second);
    a = sscf_deadlines_due(deadlines, NUMBERS, periods, SSCF_LINKS_MAX, TIME);
    b = second_deadlines_due(second, NUMBERS, periods, SSCF_LINKS_MAX, TIME);
    return a.refusal == SSCF_ACCEPTED && a.expired == keeper->code && a.link == keeper->link &&
           b.refusal == SSCF_ACCEPTED && b.expired == keeper->code && b.link == keeper->link &&
           memcmp(deadlines, second, sizeof second) == 0;
}

/*
 * The loop of the calls, one and the same for each machine, written three times for each call since
 * the machines answer by different types. It stands between two marks, and the pointers to it are
 * volatile, so that the compiler cannot make one loop for few calls and another for many: what the
 * two stretches have in common falls out of their difference.
 */
#define TURNS(name, turn)                                                                      \
    static uint32_t name(unsigned calls)                                                       \
    {                                                                                          \
        uint32_t sum = 0;                                                                      \
        unsigned call;                                                                         \
                                                                                               \
        bench_mark();                                                                          \
        for (call = 0; call < calls; call++)                                                   \
            sum += turn(call);                                                                 \
        bench_mark();                                                                          \
        return sum;                                                                            \
    }

#define STEPS(name, type, step)                                                                \
    static inline uint32_t name##_turn(unsigned call)                                          \
    {                                                                                          \
        const struct kind *kind = ready(call);                                                 \
        type answer;                                                                           \
                                                                                               \
        answer = step(table, table_octets, kind->event, kind->event_octets, out, sizeof out);  \
        return answer.refusal + answer.octets + answer.signals + answer.place;                 \
    }                                                                                          \
    TURNS(name, name##_turn)

#define BURSTS(name, type, burst)                                                              \
    static inline uint32_t name##_turn(unsigned call)                                          \
    {                                                                                          \
        type all;                                                                              \
                                                                                               \
        (void)call;                                                                            \
        memcpy(table, fresh, sizeof table);                                                    \
        all = burst(table, table_octets, events, sizeof events, burst_out, sizeof burst_out,   \
                    refusals, sizeof refusals / sizeof *refusals);                             \
        return keep((struct sscf_burst_answer){all.refusal, all.broken, all.taken, all.at,     \
                                               all.octets, all.signals});                      \
    }                                                                                          \
    TURNS(name, name##_turn)

/* As a host goes from event to event. */
#define SINGLE_CALLS(name, type, step)                                                         \
    static inline uint32_t name##_turn(unsigned call)                                          \
    {                                                                                          \
        struct sscf_burst_answer all = {0, 0, 0, 0, 0, 0};                                     \
                                                                                               \
        (void)call;                                                                            \
        memcpy(table, fresh, sizeof table);                                                    \
        while (all.at < sizeof events) {                                                       \
            const uint8_t *event = events + all.at;                                            \
            size_t octets = SSCF_HEAD_OCTETS + sscf_get_16(event + SSCF_HEAD_AT_LENGTH);       \
            type one = step(table, table_octets, event, octets, burst_out + all.octets,        \
                            sizeof burst_out - all.octets);                                    \
                                                                                               \
            refusals[all.taken++] = one.refusal;                                               \
            all.at += octets;                                                                  \
            all.octets += one.octets;                                                          \
            all.signals += one.signals;                                                        \
        }                                                                                      \
        return keep(all);                                                                      \
    }                                                                                          \
    TURNS(name, name##_turn)

#define WRITES(name, type, write)                                                              \
    static inline uint32_t name##_turn(unsigned call)                                          \
    {                                                                                          \
        type message = FIELDS(changeover->message);                                            \
                                                                                               \
        (void)call;                                                                            \
        return write(out, SSCF_CHANGEOVER_OCTETS, message);                                    \
    }                                                                                          \
    TURNS(name, name##_turn)

#define READS(name, type, read)                                                                \
    static inline uint32_t name##_turn(unsigned call)                                          \
    {                                                                                          \
        type answer = read(changeover->octets, SSCF_CHANGEOVER_OCTETS);                        \
                                                                                               \
        (void)call;                                                                            \
        return answer.refusal + answer.message.number;                                         \
    }                                                                                          \
    TURNS(name, name##_turn)

#define TIMER_ORDERS(name, order)                                                              \
    static inline uint32_t name##_turn(unsigned call)                                          \
    {                                                                                          \
        (void)call;                                                                            \
        return order(put_back(), NUMBERS, periods, SSCF_LINKS_MAX, keeper->link,            \
                     keeper->code, TIME);                                                      \
    }                                                                                          \
    TURNS(name, name##_turn)

#define QUESTIONS(name, type, due)                                                             \
    static inline uint32_t name##_turn(unsigned call)                                          \
    {                                                                                          \
        type answer = due(put_back(), NUMBERS, periods, SSCF_LINKS_MAX, TIME);              \
                                                                                               \
        (void)call;                                                                            \
        return answer.refusal + answer.expired + answer.link;                                  \
    }                                                                                          \
    TURNS(name, name##_turn)

STEPS(empty_steps, struct sscf_answer, empty_step)
STEPS(our_steps, struct sscf_answer, sscf_step)
STEPS(second_steps, struct second_answer, second_step)
BURSTS(empty_bursts, struct sscf_burst_answer, empty_burst)
BURSTS(our_bursts, struct sscf_burst_answer, sscf_burst)
BURSTS(second_bursts, struct second_burst_answer, second_burst)
SINGLE_CALLS(empty_singles, struct sscf_answer, empty_step)
SINGLE_CALLS(our_singles, struct sscf_answer, sscf_step)
SINGLE_CALLS(second_singles, struct second_answer, second_step)
WRITES(empty_writes, struct sscf_changeover, empty_write)
WRITES(our_writes, struct sscf_changeover, sscf_changeover_write)
WRITES(second_writes, struct second_changeover, second_changeover_write)
READS(empty_reads, struct sscf_changeover_answer, empty_read)
READS(our_reads, struct sscf_changeover_answer, sscf_changeover_read)
READS(second_reads, struct second_changeover_answer, second_changeover_read)
TIMER_ORDERS(empty_orders, empty_order)
TIMER_ORDERS(our_orders, sscf_deadlines_order)
TIMER_ORDERS(second_orders, second_deadlines_order)
QUESTIONS(empty_questions, struct sscf_due_answer, empty_due)
QUESTIONS(our_questions, struct sscf_due_answer, sscf_deadlines_due)
QUESTIONS(second_questions, struct second_due_answer, second_deadlines_due)

static uint32_t (*volatile machines[CALLS][MACHINES])(unsigned) = {
    {empty_steps, our_steps, second_steps},
    {empty_bursts, our_bursts, second_bursts},
    {empty_singles, our_singles, second_singles},
    {empty_writes, our_writes, second_writes},
    {empty_reads, our_reads, second_reads},
    {empty_orders, our_orders, second_orders},
    {empty_questions, our_questions, second_questions},
};

/* Check, count, time. */

static void set_up(const struct row *row, unsigned links)
{
    if (row->call == STEP)
        set_up_steps(row, links);
    else if (row->call == BURST || row->call == SINGLES)
        set_up_burst();
    else if (row->call == TIMER_ORDER || row->call == DUE)
        set_up_deadlines(row->keeper);
    else
        changeover = row->changeover;
}

/* Whether both machines did, by bursts and by single calls, and the same in every octet. */
static int burst_agreed(unsigned call)
{
    static uint8_t first_table[sizeof table], first_out[sizeof burst_out];
    size_t k;

    for (k = OURS; k <= SECOND; k++) {
        memset(burst_out, 0, sizeof burst_out);
        memset(refusals, 0xff, sizeof refusals);
        machines[call][k](1);
        if (!burst_done())
            return 0;
        if (call == BURST && k == OURS) { /* before all others */
            memcpy(first_table, table, sizeof table);
            memcpy(first_out, burst_out, sizeof burst_out);
        }
        if (memcmp(table, first_table, sizeof table) != 0 ||
            memcmp(burst_out, first_out, sizeof burst_out) != 0)
            return 0;
    }
    return 1;
}

static int agreed(const struct row *row, unsigned call)
{
    if (row->call == STEP)
        return step_agreed(row, call);
    if (row->call == BURST || row->call == SINGLES)
        return burst_agreed(row->call);
    if (row->call == TIMER_ORDER || row->call == DUE)
        return row->call == DUE ? due_agreed() : order_agreed();
    return row->call == WRITE ? write_agreed() : read_agreed();
}

static const char *title(const struct row *row, unsigned call)
{
    if (row->call == STEP)
        return row->kinds[order[call]]->title;
    if (row->call == BURST)
        return "a burst of 100 events";
    if (row->call == SINGLES)
        return "its 100 single calls";
    return row->keeper != NULL ? row->keeper->title : row->changeover->title;
}

/*
 * A line for each row: the tables it is counted on, its kinds, the calls counted, the events that a
 * call takes, the title.
 */
static int check(void)
{
    size_t i, j;
    unsigned call;

    for (i = 0; i < rows_made; i++) {
        const struct row *row = &rows[i];

        for (j = 0; j < TABLES; j++) {
            set_up(row, tables[j]);
            for (call = 0; call < ORDER / row->events; call++) {
                if (!agreed(row, call)) {
                    printf("%s: not answered as it should be\n", title(row, call));
                    return 1;
                }
            }
        }
        printf("%u %u %u %u ", row->tables, row->many, row->counted, row->events);
        if (row->many == 1)
            printf("%s\n", title(row, 0));
        else
            printf("%u kinds in a fixed random order, %u links in turn (average)\n", row->many,
                   SSCF_LINKS_MAX);
    }
    return 0;
}

static int count(void)
{
    enum { FEW = 10 };
    size_t i, j, k;

    for (i = 0; i < rows_made; i++) {
        for (j = TABLES - rows[i].tables; j < TABLES; j++) {
            set_up(&rows[i], tables[j]);
            for (k = 0; k < MACHINES; k++) {
                machines[rows[i].call][k](FEW);
                machines[rows[i].call][k](FEW + rows[i].counted);
            }
        }
    }
    return 0;
}

static double now(void)
{
    struct timespec time;

    clock_gettime(CLOCK_MONOTONIC, &time);
    return (double)time.tv_sec * 1e9 + (double)time.tv_nsec;
}

/*
 * Nanoseconds of a call, with the stack moved. Where it lies is chance in each run, and at some
 * places, alike for every 4,096 octets, a call that copies a message takes a third longer.
 */
static double timed(const struct row *row, size_t machine, unsigned moved)
{
    volatile uint8_t room[1 + moved];
    double since;

    (void)(room[0] = 0); /* or there would be none */
    since = now();
    machines[row->call][machine](row->timed);
    return (now() - since) / row->timed;
}

/* One machine behind the other, in turn forwards and backwards, and both at every place. */
static void time_round(struct row *row, unsigned round)
{
    enum { PLACES = 64 };
    size_t i;

    set_up(row, SSCF_LINKS_MAX);
    for (i = 0; i < MACHINES; i++) {
        size_t k = round % 2 == 0 ? i : MACHINES - 1 - i;
        double call = timed(row, k, round / 2 % PLACES * (4096 / PLACES));

        if (round == 0 || call < row->least[k])
            row->least[k] = call;
    }
}

/*
 * A line for each row: nanoseconds of a call, ours and the second's, and what was taken off them.
 * All that a busy machine does to a call makes it longer, so the least of many rounds is nearest to
 * what it takes by itself; and the rounds of a row are spread over the whole run, so that no one
 * busy spell meets them all.
 */
static int time_all(void)
{
    enum { ROUNDS = 4096 };
    unsigned round;
    size_t i;

    for (round = 0; round < ROUNDS; round++)
        for (i = 0; i < rows_made; i++)
            time_round(&rows[i], round);
    for (i = 0; i < rows_made; i++) {
        const double *least = rows[i].least;

        printf("%.2f %.2f %.2f\n", least[OURS] - least[EMPTY], least[SECOND] - least[EMPTY],
               least[EMPTY]);
    }
    return 0;
}

int main(int argc, char **argv)
{
    make_rows();
    if (argc == 2 && strcmp(argv[1], "check") == 0)
        return check();
    if (argc == 2 && strcmp(argv[1], "count") == 0)
        return count();
    if (argc == 2 && strcmp(argv[1], "time") == 0)
        return time_all();
    fputs("usage: bench check|count|time\n", stderr);
    return 2;
}
