/*
 * A test of conformance: it makes the calls and checks every octet of what comes back, where all
 * is well and where it is not. What it expects is written down from Q.2140's Tables 5 and 6, from
 * Q.2210's figures for the changeover messages, and from the layouts and the refusals in sscf.h;
 * nothing of it is taken from the library, but that a burst of one event is held against its single
 * call.
 */
#include <sscf_host.h>

#include <stdio.h>
#include <string.h>

/* Checks: those that fail are named, the first few of them. */

static unsigned long checks, failures;
static unsigned long turn; /* which turn of a loop a failure belongs to */

static void check(int ok, const char *what, int line)
{
    checks++;
    if (ok)
        return;
    failures++;
    if (failures <= 20)
        fprintf(stderr, "conformance.c:%d: not so: %s (turn %lu)\n", line, what, turn);
}

#define CHECK(ok) check((ok) != 0, #ok, __LINE__)

/*
 * The buffers, with guard octets before and behind each. A call works on `now`. `want` is what all
 * of it should hold afterwards, so that comparing the two shows any octet that was changed and
 * should not have been, within a buffer or beside it. A burst has its events in `event`. Each of
 * them is a multiple of four octets, so that nothing lies between them.
 */
enum { GUARD = 64, PLACES = 10 };

struct memory {
    uint8_t guard_1[GUARD];
    uint8_t table[SSCF_TABLE_OCTETS_MAX + SSCF_LINK_OCTETS];
    uint8_t guard_2[GUARD];
    uint8_t event[5 * SSCF_HEAD_OCTETS + SSCF_MESSAGE_OCTETS_MAX + 4];
    uint8_t guard_3[GUARD];
    uint8_t out[SSCF_OUTPUT_OCTETS + 256];
    uint8_t guard_4[GUARD];
    uint32_t list[PLACES];
    uint8_t guard_5[GUARD];
};

static struct memory now, want;
static size_t table_octets, event_octets, out_octets, places; /* as lent to the library */
static size_t want_octets, want_signals;                      /* as it should answer */

/* Records */

/* Three octets as the number they stand for: a REPORT's values, or a number as people write it. */
static uint32_t three(unsigned first, unsigned second, unsigned third)
{
    return (uint32_t)first << 16 | (uint32_t)second << 8 | third;
}

/* A link with nothing forced, no haste, no BSNT, no congestion and no release sent. */
static void put_link(unsigned link, unsigned state, unsigned flags, unsigned timers, unsigned c1,
                     unsigned n1)
{
    uint8_t *record = now.table + SSCF_LINK_OCTETS * link;

    memset(record, 0, SSCF_LINK_OCTETS);
    memcpy(record, "LN", 2);
    record[SSCF_LINK_AT_STATE] = (uint8_t)state;
    record[SSCF_LINK_AT_FLAGS] = (uint8_t)flags;
    record[SSCF_LINK_AT_TIMERS] = (uint8_t)timers;
    sscf_put_16(record + SSCF_LINK_AT_C1, c1);
    sscf_put_16(record + SSCF_LINK_AT_N1, n1);
}

/* Its congestion and the field of its latest release, for a link that put_link has made. */
static void put_congestion(unsigned link, unsigned congested, unsigned last_field)
{
    uint8_t *record = now.table + SSCF_LINK_OCTETS * link;

    record[16] = (uint8_t)congested;
    record[17] = (uint8_t)last_field;
}

/* A new table of links out of service, amid octets that the calls must leave alone. */
static void set_up(unsigned links)
{
    static struct memory litter;
    unsigned link;

    if (litter.guard_1[1] == 0) {
        size_t i;
        for (i = 0; i < sizeof litter; i++)
            ((uint8_t *)&litter)[i] = (uint8_t)(i * 7 + 1);
    }
    now = litter;
    table_octets = SSCF_LINK_OCTETS * links;
    event_octets = 0;
    out_octets = SSCF_OUTPUT_OCTETS;
    places = PLACES;
    for (link = 0; link < links; link++)
        put_link(link, SSCF_STATE_1_1_1, 0, 0, 0, SSCF_N1_DEFAULT);
}

/* What is expected: until told otherwise, that nothing is written and nothing changes. */

static void want_nothing(void)
{
    want = now;
    want_octets = 0;
    want_signals = 0;
}

/* Behind those that are there. */
static void add_event(unsigned link, unsigned code, unsigned parameter, uint32_t number,
                      const uint8_t *message, size_t length)
{
    event_octets += sscf_put_event(now.event + event_octets, sizeof now.event - event_octets, link,
                                   code, parameter, number, message, length);
}

static void add_bare_event(unsigned link, unsigned code)
{
    add_event(link, code, 0, 0, NULL, 0);
}

static void put_event(unsigned link, unsigned code, unsigned parameter, uint32_t number,
                      const uint8_t *message, size_t length)
{
    event_octets = 0;
    add_event(link, code, parameter, number, message, length);
    want_nothing();
}

static void put_bare_event(unsigned link, unsigned code)
{
    put_event(link, code, 0, 0, NULL, 0);
}

/* A signal's record is an event's with another mark. The link keeps the field of a release. */
static void want_signal(unsigned link, unsigned code, unsigned parameter, uint32_t number,
                        const uint8_t *message, size_t length)
{
    uint8_t *signal = want.out + want_octets;

    want_octets += sscf_put_event(signal, sizeof want.out - want_octets, link, code, parameter,
                                  number, message, length);
    memcpy(signal + SSCF_HEAD_AT_MARK, "SG", 2);
    want_signals++;
    if (code == SSCF_SIGNAL_RELEASE_REQUEST)
        want.table[20 * link + 17] = (uint8_t)parameter;
}

static void want_bare_signal(unsigned link, unsigned code)
{
    want_signal(link, code, 0, 0, NULL, 0);
}

static void want_report(unsigned link, unsigned lower, unsigned upper, unsigned reason)
{
    want_signal(link, SSCF_SIGNAL_REPORT, 0, three(lower, upper, reason), NULL, 0);
}

static void want_link(unsigned link, unsigned state, unsigned flags, unsigned timers, unsigned c1)
{
    uint8_t *record = want.table + SSCF_LINK_OCTETS * link;

    record[SSCF_LINK_AT_STATE] = (uint8_t)state;
    record[SSCF_LINK_AT_FLAGS] = (uint8_t)flags;
    record[SSCF_LINK_AT_TIMERS] = (uint8_t)timers;
    sscf_put_16(record + SSCF_LINK_AT_C1, c1);
}

static void want_bsnt(unsigned link, uint32_t number)
{
    uint8_t *record = want.table + SSCF_LINK_OCTETS * link;

    record[SSCF_LINK_AT_BSNT_KNOWN] = 1;
    sscf_put_24(record + SSCF_LINK_AT_BSNT, number);
}

static void want_no_bsnt(unsigned link)
{
    memset(want.table + SSCF_LINK_OCTETS * link + SSCF_LINK_AT_BSNT_KNOWN, 0, 4);
}

static void want_congested(unsigned link, unsigned congested)
{
    want.table[20 * link + 16] = (uint8_t)congested;
}

/* The calls. A buffer of no octets is lent as a null pointer. */

static uint8_t *lent(uint8_t *buffer, size_t octets)
{
    return octets == 0 ? NULL : buffer;
}

static struct sscf_answer step(void)
{
    return sscf_step(lent(now.table, table_octets), table_octets, lent(now.event, event_octets),
                     event_octets, lent(now.out, out_octets), out_octets);
}

static void step_is(uint32_t refusal, uint32_t place, int line)
{
    struct sscf_answer answer = step();

    check(answer.refusal == refusal, "the refusal is the one expected", line);
    check(answer.octets == want_octets, "the octets are those expected", line);
    check(answer.signals == want_signals, "the signals are those expected", line);
    check(answer.place == place, "the place is the one expected", line);
    check(memcmp(&now, &want, sizeof now) == 0, "the buffers are as expected", line);
}

/* Where it is not told what is written. */
static void accepted_is(int line)
{
    struct sscf_answer answer = step();

    check(answer.refusal == SSCF_ACCEPTED, "it is accepted", line);
    check(answer.place == 0, "no field is at fault", line);
}

static void burst_is(uint32_t refusal, uint32_t broken, size_t taken, size_t at, int line)
{
    struct sscf_burst_answer answer =
        sscf_burst(lent(now.table, table_octets), table_octets, lent(now.event, event_octets),
                   event_octets, lent(now.out, out_octets), out_octets,
                   places == 0 ? NULL : now.list, places);

    check(answer.refusal == refusal, "the refusal is the one expected", line);
    check(answer.broken == broken, "a frame is broken as expected", line);
    check(answer.taken == taken, "the events taken are those expected", line);
    check(answer.at == at, "it stopped where expected", line);
    check(answer.octets == want_octets, "the octets are those expected", line);
    check(answer.signals == want_signals, "the signals are those expected", line);
    check(memcmp(&now, &want, sizeof now) == 0, "the buffers are as expected", line);
}

static void fresh_is(size_t octets, unsigned n1, uint32_t refusal, uint32_t place, int line)
{
    struct sscf_fresh_answer answer = sscf_fresh(lent(now.table, octets), octets, (uint16_t)n1);

    check(answer.refusal == refusal, "the refusal is the one expected", line);
    check(answer.place == place, "the place is the one expected", line);
    check(memcmp(&now, &want, sizeof now) == 0, "the buffers are as expected", line);
}

/* A place is told by STEP_AT and FRESH_AT; with every other answer it is 0. */
#define STEP(refusal) step_is((refusal), 0, __LINE__)
#define STEP_AT(refusal, place) step_is((refusal), (place), __LINE__)
#define ACCEPTED() accepted_is(__LINE__)
#define BURST(refusal, broken, taken, at)                                                          \
    burst_is((refusal), (broken), (taken), (at), __LINE__)
#define FRESH(octets, n1, refusal) fresh_is((octets), (n1), (refusal), 0, __LINE__)
#define FRESH_AT(octets, n1, refusal, place)                                                       \
    fresh_is((octets), (n1), (refusal), (place), __LINE__)

static const uint8_t nm_unit[SSCF_UNIT_OCTETS] = {0, 0, 0, SSCF_STATUS_NM};
static const uint8_t ins_unit[SSCF_UNIT_OCTETS] = {0, 0, 0, SSCF_STATUS_INS};
static uint8_t message[SSCF_MESSAGE_OCTETS_MAX];

enum { T1 = SSCF_TIMER_T1, T2 = SSCF_TIMER_T2, T3 = SSCF_TIMER_T3 };

/* The archive is of the header's version, and the header's number says what its text says. */
static void version(void)
{
    unsigned major, minor, patch;

    CHECK(sscf_version() == SSCF_VERSION_NUMBER);
    CHECK(sscanf(SSCF_VERSION, "%u.%u.%u", &major, &minor, &patch) == 3 &&
          SSCF_VERSION_NUMBER == 1000000 * major + 1000 * minor + patch);
}

/* sscf_fresh: as many octets as were lent, and no other. */
static void fresh_tables(void)
{
    static const uint8_t record[20] = {'L', 'N', 1, 0, 0, 0,    0,    0, 0, 0,
                                       0,   0,   0, 0, 3, 0xe8, 0,    0, 0, 0};
    static const uint16_t n1s[] = {1, 0xff, 0x100, 0xffff};
    size_t links, n1;

    for (links = 1; links <= SSCF_LINKS_MAX; links++) {
        size_t i;
        turn = links;
        set_up(0);
        want_nothing();
        for (i = 0; i < links; i++)
            memcpy(want.table + 20 * i, record, 20);
        FRESH(20 * links, 1000, 0);
    }
    for (n1 = 0; n1 < 4; n1++) {
        turn = n1;
        sscf_put_16(want.table + 14, n1s[n1]);
        FRESH(20, n1s[n1], 0);
    }
}

/* By 1 whatever n1 is, and by 11 at n1, which stands in octets 14 and 15 of a record. */
static void fresh_refusals(void)
{
    static const size_t tables[] = {0, 1, 10, 16, 19, 21, 30, 4096, 5110, 5119, 5121, 5140};
    size_t i;

    set_up(0);
    want_nothing();
    for (i = 0; i < sizeof tables / sizeof *tables; i++) {
        turn = i;
        FRESH(tables[i], 1000, 1);
        FRESH(tables[i], 0, 1);
    }
    for (i = 1; i <= SSCF_LINKS_MAX; i++) {
        turn = i;
        FRESH_AT(20 * i, 0, 11, 14);
    }
}

/* The first uses in sscf.h and in sscf_host.h, as they stand there. */
static void first_use(void)
{
    uint8_t table[4 * SSCF_LINK_OCTETS];
    uint8_t out[SSCF_OUTPUT_OCTETS];
    uint8_t start[SSCF_HEAD_OCTETS] = {'E', 'V', 0, 2, SSCF_EVENT_START};
    const uint8_t *signal = out;
    static const uint8_t codes[3] = {SSCF_SIGNAL_ESTABLISH_REQUEST, SSCF_SIGNAL_REPORT,
                                     SSCF_SIGNAL_SET_T2};
    struct sscf_answer answer;
    uint32_t n;

    CHECK(sscf_fresh(table, sizeof table, SSCF_N1_DEFAULT).refusal == SSCF_ACCEPTED);
    answer = sscf_step(table, sizeof table, start, sizeof start, out, sizeof out);
    CHECK(answer.refusal == SSCF_ACCEPTED);
    CHECK(answer.octets == 36);
    CHECK(answer.signals == 3);
    CHECK(answer.place == SSCF_PLACE_NONE);
    for (n = 0; n < answer.signals && n < 3; n++) {
        size_t length = (size_t)signal[10] << 8 | signal[11];
        turn = n;
        CHECK(signal[4] == codes[n]);
        signal += SSCF_HEAD_OCTETS + length;
    }
}

static void first_use_by_helpers(void)
{
    static const char *const names[] = {"AA-ESTABLISH-request", "MAAL-REPORT-indication", "Set T2",
                                        NULL};
    uint8_t table[4 * SSCF_LINK_OCTETS], out[SSCF_OUTPUT_OCTETS], event[SSCF_HEAD_OCTETS];
    size_t octets = sscf_put_bare_event(event, sizeof event, 2, SSCF_EVENT_START);
    struct sscf_answer answer;
    const uint8_t *signal;

    sscf_fresh(table, sizeof table, SSCF_N1_DEFAULT);
    answer = sscf_step(table, sizeof table, event, octets, out, sizeof out);
    CHECK(strcmp(sscf_refusal_name(answer.refusal), "accepted") == 0);
    CHECK(strcmp(sscf_place_name(answer.place), "-") == 0);
    for (signal = sscf_first_signal(out, answer); signal != NULL && names[turn] != NULL;
         signal = sscf_next_signal(out, answer, signal))
        CHECK(strcmp(sscf_signal_name(signal[SSCF_HEAD_AT_CODE]), names[turn++]) == 0);
    CHECK(signal == NULL && turn == 3);
}

/* The run that document 01 prints in whole: the last proving unit, then the INS unit where the
 * peer's has come already. In its numbers and not by name, so that the names are checked too. */
static void into_service(void)
{
    set_up(1);
    put_link(0, 6, 1, 2 + 4, 1, 1000);

    put_bare_event(0, 50);
    want_link(0, 6, 1, 2 + 4, 0);
    want_signal(0, 19, 0, 0, nm_unit, 4);
    want_signal(0, 50, 0, 0, NULL, 0);
    STEP(0);

    put_bare_event(0, 50);
    want_link(0, 8, 1, 0, 0);
    want_signal(0, 33, 0, 0, NULL, 0);
    want_signal(0, 19, 0, 0, ins_unit, 4);
    want_signal(0, 34, 0, three(0, 2, 0), NULL, 0);
    want_signal(0, 4, 0, 0, NULL, 0);
    want_signal(0, 57, 0, 0, NULL, 0);
    STEP(0);
}

/* What START comes to where nothing presses. */
static void want_start(unsigned link, unsigned c1)
{
    want_link(link, SSCF_STATE_2_2_2, 0, T2, c1);
    want_signal(link, SSCF_SIGNAL_ESTABLISH_REQUEST, SSCF_STATUS_NM, 0, NULL, 0);
    want_report(link, 0, SSCF_REPORT_UPPER_ALN, 0);
    want_bare_signal(link, SSCF_SIGNAL_SET_T2);
}

/* One life of link 1 among three. Links 0 and 2 must stay as they are, and that their records are
 * ill-formed is no concern of link 1. */

static void aligns(void)
{
    put_bare_event(1, SSCF_EVENT_START);
    want_start(1, 0);
    STEP(SSCF_ACCEPTED);

    /* the peer is not ready yet */
    put_event(1, SSCF_EVENT_RELEASE_INDICATION, SSCF_STATUS_OOS, SSCF_SOURCE_USER, NULL, 0);
    want_link(1, SSCF_STATE_2_1_2, 0, T1 + T2, 0);
    want_signal(1, SSCF_SIGNAL_REPORT, SSCF_STATUS_OOS,
                three(SSCF_REPORT_LOWER_RR, 0, SSCF_REPORT_REASON_SSCOP_UU), NULL, 0);
    want_bare_signal(1, SSCF_SIGNAL_SET_T1);
    STEP(SSCF_ACCEPTED);

    put_bare_event(1, SSCF_EVENT_T1_EXPIRED);
    want_link(1, SSCF_STATE_2_2_2, 0, T2, 0);
    want_signal(1, SSCF_SIGNAL_ESTABLISH_REQUEST, SSCF_STATUS_NM, 0, NULL, 0);
    STEP(SSCF_ACCEPTED);

    put_event(1, SSCF_EVENT_ESTABLISH_CONFIRM, SSCF_STATUS_NM, 0, NULL, 0);
    want_link(1, SSCF_STATE_2_10_3, 0, T2 + T3, 1000);
    want_bare_signal(1, SSCF_SIGNAL_START_PROVING);
    want_bare_signal(1, SSCF_SIGNAL_SET_T3);
    STEP(SSCF_ACCEPTED);
}

static void proves(void)
{
    unsigned left;

    /* a thousand units, neither 999 nor 1001 */
    for (left = 1000; left > 0; left--) {
        turn = left;
        put_bare_event(1, SSCF_EVENT_T3_EXPIRED);
        want_link(1, SSCF_STATE_2_10_3, 0, T2 + T3, left - 1);
        want_signal(1, SSCF_SIGNAL_DATA_REQUEST, 0, 0, nm_unit, sizeof nm_unit);
        want_bare_signal(1, SSCF_SIGNAL_SET_T3);
        STEP(SSCF_ACCEPTED);
    }
    put_bare_event(1, SSCF_EVENT_T3_EXPIRED);
    want_link(1, SSCF_STATE_2_10_4, 0, T2, 0);
    want_bare_signal(1, SSCF_SIGNAL_STOP_PROVING);
    want_signal(1, SSCF_SIGNAL_DATA_REQUEST, 0, 0, ins_unit, sizeof ins_unit);
    STEP(SSCF_ACCEPTED);

    /* the peer still proves, then says that it is ready; here the cell has REPORT second */
    put_event(1, SSCF_EVENT_DATA, 0, 998, nm_unit, sizeof nm_unit);
    want_bsnt(1, 998);
    STEP(SSCF_ACCEPTED);
    put_event(1, SSCF_EVENT_DATA, 0, 999, ins_unit, sizeof ins_unit);
    want_link(1, SSCF_STATE_3_10_5, 0, 0, 0);
    want_bsnt(1, 999);
    want_bare_signal(1, SSCF_SIGNAL_IN_SERVICE);
    want_report(1, 0, SSCF_REPORT_UPPER_INS, 0);
    want_bare_signal(1, SSCF_SIGNAL_RESET_T2);
    STEP(SSCF_ACCEPTED);
}

/* Out of service, the user fetches what it needs for a changeover. */
static void is_lost(void)
{
    const uint32_t bsnt = three(0x12, 0x34, 0x56), fsnc = three(0xab, 0xcd, 0xef);

    put_event(1, SSCF_EVENT_DATA, 0, bsnt, message, 4096);
    want_bsnt(1, bsnt);
    want_signal(1, SSCF_SIGNAL_RECEIVED_MESSAGE, 0, 0, message, 4096);
    STEP(SSCF_ACCEPTED);

    put_event(1, SSCF_EVENT_RELEASE_INDICATION, 0, SSCF_SOURCE_SSCOP, NULL, 0);
    want_link(1, SSCF_STATE_1_1_1, 0, 0, 0);
    want_bare_signal(1, SSCF_SIGNAL_OUT_OF_SERVICE);
    want_report(1, SSCF_REPORT_LOWER_SR, SSCF_REPORT_UPPER_OOS, 0);
    STEP(SSCF_ACCEPTED);

    put_bare_event(1, SSCF_EVENT_RETRIEVE_BSNT);
    want_signal(1, SSCF_SIGNAL_BSNT, 0, bsnt, NULL, 0);
    STEP(SSCF_ACCEPTED);
    put_event(1, SSCF_EVENT_RETRIEVAL_REQUEST_AND_FSNC, 0, fsnc, NULL, 0);
    want_signal(1, SSCF_SIGNAL_RETRIEVE_REQUEST, 0, fsnc, NULL, 0);
    STEP(SSCF_ACCEPTED);
    put_event(1, SSCF_EVENT_RETRIEVE, 0, 0, message, 5);
    want_signal(1, SSCF_SIGNAL_RETRIEVED_MESSAGES, 0, 0, message, 5);
    STEP(SSCF_ACCEPTED);
    put_event(1, SSCF_EVENT_RETRIEVE, 0, 0, nm_unit, sizeof nm_unit); /* never the user's */
    STEP(SSCF_ACCEPTED);
    put_bare_event(1, SSCF_EVENT_RETRIEVE_COMPLETE);
    want_bare_signal(1, SSCF_SIGNAL_RETRIEVAL_COMPLETE);
    STEP(SSCF_ACCEPTED);
}

static void one_life(void)
{
    set_up(3);
    put_link(0, 0, 0, 0, 0, 1000);
    put_congestion(0, 2, 6);
    put_link(2, SSCF_STATE_3_10_5, 0, 0, 0, 0);
    aligns();
    proves();
    is_lost();

    put_bare_event(0, SSCF_EVENT_START);
    STEP(SSCF_REFUSED_RECORD);
    put_bare_event(2, SSCF_EVENT_STOP);
    STEP(SSCF_REFUSED_RECORD);
}

/* Messages in service: not looked at, whatever their length, and never more than they are. */
static void messages(void)
{
    static const size_t lengths[] = {5, 273, 4096};
    size_t i;

    set_up(3);
    put_link(1, SSCF_STATE_3_10_5, SSCF_FLAG_INS, 0, 0, 1000);
    for (i = 0; i < 3; i++) {
        turn = i;
        put_event(1, SSCF_EVENT_MESSAGE_FOR_TRANSMISSION, 0, 0, message, lengths[i]);
        want_signal(1, SSCF_SIGNAL_DATA_REQUEST, 0, 0, message, lengths[i]);
        want_report(1, 0, 0, SSCF_REPORT_REASON_PDUT);
        STEP(SSCF_ACCEPTED);

        put_event(1, SSCF_EVENT_DATA, 0, 0xffffff, message, lengths[i]);
        want_bsnt(1, 0xffffff);
        want_signal(1, SSCF_SIGNAL_RECEIVED_MESSAGE, 0, 0, message, lengths[i]);
        STEP(SSCF_ACCEPTED);
    }
    /* what is no message and no unit that counts is dropped, but for its number */
    for (i = 0; i <= SSCF_UNIT_OCTETS; i++) {
        static const uint8_t unknown[SSCF_UNIT_OCTETS] = {0, 0, 0, 6};
        turn = i;
        put_event(1, SSCF_EVENT_DATA, 0, (uint32_t)i, unknown, i);
        want_bsnt(1, (uint32_t)i);
        STEP(SSCF_ACCEPTED);
    }
}

/* Resets come before sets and T1 before T2 and T3, whatever the order in the printed cell; and the
 * INS flag of an earlier connection is forgotten when a new one comes up. */
static void timer_orders(void)
{
    set_up(1);
    put_link(0, SSCF_STATE_2_1_2, SSCF_FLAG_INS, T1 + T2, 7, 1000);
    put_event(0, SSCF_EVENT_ESTABLISH_INDICATION, SSCF_STATUS_EM, 0, NULL, 0);
    want_link(0, SSCF_STATE_2_10_3, 0, T2 + T3, 0);
    want_signal(0, SSCF_SIGNAL_ESTABLISH_RESPONSE, SSCF_STATUS_NM, 0, NULL, 0);
    want_bare_signal(0, SSCF_SIGNAL_START_PROVING);
    want_bare_signal(0, SSCF_SIGNAL_RESET_T1);
    want_bare_signal(0, SSCF_SIGNAL_SET_T3);
    STEP(SSCF_ACCEPTED);

    put_event(0, SSCF_EVENT_RELEASE_INDICATION, SSCF_STATUS_PO, SSCF_SOURCE_SSCOP, NULL, 0);
    want_link(0, SSCF_STATE_2_1_2, 0, T1 + T2, 0);
    want_report(0, SSCF_REPORT_LOWER_SR, 0, 0);
    want_bare_signal(0, SSCF_SIGNAL_STOP_PROVING);
    want_bare_signal(0, SSCF_SIGNAL_RESET_T3);
    want_bare_signal(0, SSCF_SIGNAL_SET_T1);
    STEP(SSCF_ACCEPTED);

    put_bare_event(0, SSCF_EVENT_STOP);
    want_link(0, SSCF_STATE_1_1_1, 0, 0, 0);
    want_report(0, 0, SSCF_REPORT_UPPER_OOS, 0);
    want_bare_signal(0, SSCF_SIGNAL_RESET_T1);
    want_bare_signal(0, SSCF_SIGNAL_RESET_T2);
    STEP(SSCF_ACCEPTED);
}

/* Request 2026-02: the number of an earlier connection is forgotten when the next one comes up. */

static const uint32_t old_number = 0x123456;

/* Link 1 proves, and has received the old number. */
static void has_a_number(void)
{
    set_up(2);
    put_link(1, SSCF_STATE_2_10_3, 0, T2 + T3, 7, 1000);
    put_event(1, SSCF_EVENT_DATA, 0, old_number, nm_unit, sizeof nm_unit);
    want_bsnt(1, old_number);
    STEP(SSCF_ACCEPTED);
}

static void stops_proving(unsigned c1)
{
    put_bare_event(1, SSCF_EVENT_STOP);
    want_link(1, SSCF_STATE_1_4_1, 0, 0, c1);
    want_signal(1, SSCF_SIGNAL_RELEASE_REQUEST, SSCF_STATUS_OOS, 0, NULL, 0);
    want_report(1, SSCF_REPORT_LOWER_LR, SSCF_REPORT_UPPER_OOS, 0);
    want_bare_signal(1, SSCF_SIGNAL_STOP_PROVING);
    want_bare_signal(1, SSCF_SIGNAL_RESET_T2);
    want_bare_signal(1, SSCF_SIGNAL_RESET_T3);
    STEP(SSCF_ACCEPTED);
}

static void number_is(int known)
{
    put_bare_event(1, SSCF_EVENT_RETRIEVE_BSNT);
    if (known)
        want_signal(1, SSCF_SIGNAL_BSNT, 0, old_number, NULL, 0);
    else
        want_bare_signal(1, SSCF_SIGNAL_BSNT_NOT_RETRIEVABLE);
    STEP(SSCF_ACCEPTED);
}

/* By ESTABLISH_CONFIRM, whatever its field; not by the release, the START or the request before. */
static void forgets_by_confirm(void)
{
    unsigned field;

    for (field = 0; field <= SSCF_STATUS_PNS; field++) {
        unsigned c1 = field == SSCF_STATUS_EM ? 0 : 1000;

        if (field == 6) /* no status */
            continue;
        turn = field;
        has_a_number();
        stops_proving(7);
        number_is(1);
        put_bare_event(1, SSCF_EVENT_START);
        want_start(1, 7);
        STEP(SSCF_ACCEPTED);

        put_event(1, SSCF_EVENT_ESTABLISH_CONFIRM, field, 0, NULL, 0);
        want_no_bsnt(1);
        if (field == SSCF_STATUS_NM || field == SSCF_STATUS_EM) {
            want_link(1, SSCF_STATE_2_10_3, 0, T2 + T3, c1);
            want_bare_signal(1, SSCF_SIGNAL_START_PROVING);
            want_bare_signal(1, SSCF_SIGNAL_SET_T3);
            STEP(SSCF_ACCEPTED);
            stops_proving(c1);
        } else { /* and is released for its field */
            want_link(1, SSCF_STATE_2_4_2, 0, T2, c1);
            want_signal(1, SSCF_SIGNAL_RELEASE_REQUEST, SSCF_STATUS_PE, 0, NULL, 0);
            want_report(1, SSCF_REPORT_LOWER_LR, 0, SSCF_REPORT_REASON_PE);
            STEP(SSCF_ACCEPTED);
            put_bare_event(1, SSCF_EVENT_STOP);
            want_link(1, SSCF_STATE_1_4_1, 0, 0, c1);
            want_report(1, 0, SSCF_REPORT_UPPER_OOS, 0);
            want_bare_signal(1, SSCF_SIGNAL_RESET_T2);
            STEP(SSCF_ACCEPTED);
        }
        number_is(0);
    }
}

/* By ESTABLISH_RESPONSE; not by the far end's release, nor where its call is turned down. */
static void forgets_by_response(void)
{
    has_a_number();
    put_event(1, SSCF_EVENT_RELEASE_INDICATION, SSCF_STATUS_PO, SSCF_SOURCE_USER, NULL, 0);
    want_link(1, SSCF_STATE_2_1_2, 0, T1 + T2, 7);
    want_signal(1, SSCF_SIGNAL_REPORT, SSCF_STATUS_PO,
                three(SSCF_REPORT_LOWER_RR, 0, SSCF_REPORT_REASON_SSCOP_UU), NULL, 0);
    want_bare_signal(1, SSCF_SIGNAL_STOP_PROVING);
    want_bare_signal(1, SSCF_SIGNAL_RESET_T3);
    want_bare_signal(1, SSCF_SIGNAL_SET_T1);
    STEP(SSCF_ACCEPTED);

    put_event(1, SSCF_EVENT_ESTABLISH_INDICATION, SSCF_STATUS_INS, 0, NULL, 0);
    want_signal(1, SSCF_SIGNAL_RELEASE_REQUEST, SSCF_STATUS_PE, 0, NULL, 0);
    want_report(1, SSCF_REPORT_LOWER_LR, 0, SSCF_REPORT_REASON_PE);
    STEP(SSCF_ACCEPTED);

    put_event(1, SSCF_EVENT_ESTABLISH_INDICATION, SSCF_STATUS_NM, 0, NULL, 0);
    want_no_bsnt(1);
    want_link(1, SSCF_STATE_2_10_3, 0, T2 + T3, 1000);
    want_signal(1, SSCF_SIGNAL_ESTABLISH_RESPONSE, SSCF_STATUS_NM, 0, NULL, 0);
    want_bare_signal(1, SSCF_SIGNAL_START_PROVING);
    want_bare_signal(1, SSCF_SIGNAL_RESET_T1);
    want_bare_signal(1, SSCF_SIGNAL_SET_T3);
    STEP(SSCF_ACCEPTED);
    stops_proving(1000);
    number_is(0);
}

/* How many units a connection sends, with n1 of 1000 (Table 7), and what the peer is told
 * (Table 8), by MPS, UPS and what the peer asks for. */

static unsigned units(unsigned mps, unsigned ups, unsigned peer)
{
    int no_haste = ups == SSCF_UPS_NORMAL && peer == SSCF_STATUS_NM;

    return mps == SSCF_MPS_NORMAL || (mps == SSCF_MPS_NEUTRAL && no_haste) ? 1000 : 0;
}

static unsigned told(unsigned mps, unsigned ups)
{
    return mps == SSCF_MPS_EMERGENCY || (mps == SSCF_MPS_NEUTRAL && ups == SSCF_UPS_EMERGENCY)
               ? SSCF_STATUS_EM
               : SSCF_STATUS_NM;
}

static void haste(void)
{
    unsigned mps, ups, peer;

    for (mps = 0; mps <= 2; mps++)
        for (ups = 0; ups <= 1; ups++)
            for (peer = SSCF_STATUS_NM; peer <= SSCF_STATUS_EM; peer++) {
                turn = 100 * mps + 10 * ups + peer;
                set_up(1);
                now.table[SSCF_LINK_AT_MPS] = (uint8_t)mps;
                now.table[SSCF_LINK_AT_UPS] = (uint8_t)ups;
                put_bare_event(0, SSCF_EVENT_START);
                want_link(0, SSCF_STATE_2_2_2, 0, T2, 0);
                want_signal(0, SSCF_SIGNAL_ESTABLISH_REQUEST, told(mps, ups), 0, NULL, 0);
                want_report(0, 0, SSCF_REPORT_UPPER_ALN, 0);
                want_bare_signal(0, SSCF_SIGNAL_SET_T2);
                STEP(SSCF_ACCEPTED);

                put_event(0, SSCF_EVENT_ESTABLISH_CONFIRM, peer, 0, NULL, 0);
                want_link(0, SSCF_STATE_2_10_3, 0, T2 + T3, units(mps, ups, peer));
                want_bare_signal(0, SSCF_SIGNAL_START_PROVING);
                want_bare_signal(0, SSCF_SIGNAL_SET_T3);
                STEP(SSCF_ACCEPTED);
            }
}

/* Refusals 1, 5 and 9: the buffers' lengths and the link. */
static void broken_lengths(void)
{
    static const size_t tables[] = {0, 1, 10, 16, 19, 21, 30, 4096, 5110, 5119, 5121, 5140};
    size_t i;

    set_up(SSCF_LINKS_MAX);
    put_bare_event(255, SSCF_EVENT_EMERGENCY);
    want.table[255 * SSCF_LINK_OCTETS + SSCF_LINK_AT_UPS] = SSCF_UPS_EMERGENCY;
    STEP(SSCF_ACCEPTED);
    for (i = 0; i < sizeof tables / sizeof *tables; i++) {
        turn = i;
        table_octets = tables[i];
        STEP(SSCF_REFUSED_TABLE);
    }
    table_octets = 255 * SSCF_LINK_OCTETS;
    STEP(SSCF_REFUSED_LINK);
    table_octets = SSCF_TABLE_OCTETS_MAX;
    put_bare_event(256, SSCF_EVENT_CONTINUE);
    STEP(SSCF_REFUSED_LINK);
    put_bare_event(0xffff, SSCF_EVENT_CONTINUE);
    STEP(SSCF_REFUSED_LINK);

    /* room is asked for also where nothing would be written */
    put_bare_event(0, SSCF_EVENT_CONTINUE);
    out_octets = 0;
    STEP(SSCF_REFUSED_OUTPUT);
    out_octets = 4192;
    STEP(SSCF_REFUSED_OUTPUT);
    out_octets = 4239;
    STEP(SSCF_REFUSED_OUTPUT);
    out_octets = 4240;
    STEP(SSCF_ACCEPTED);
}

/* Refusal 2. The event would be accepted if its frame were sound. */
static void broken_frames(void)
{
    static const struct {
        uint8_t at, value; /* an octet of the head to write over */
        uint16_t length;   /* of the message as the head says */
        uint16_t octets;   /* lent */
    } frames[] = {
        {0, 'E', 0, 0},    {0, 'E', 0, 1},       {0, 'E', 0, 11},      {0, 'S', 0, 12},
        {0, 'L', 0, 12},   {1, 'G', 0, 12},      {1, 'v', 0, 12},      {9, 1, 0, 12},
        {9, 255, 0, 12},   {0, 'E', 1, 12},      {0, 'E', 0, 13},      {0, 'E', 10, 21},
        {0, 'E', 10, 23},  {0, 'E', 256, 13},    {0, 'E', 4096, 4107}, {0, 'E', 4096, 4109},
        {0, 'E', 4097, 12 + 4097},               {0, 'E', 0xffff, 12}
    };
    size_t i;

    for (i = 0; i < sizeof frames / sizeof *frames; i++) {
        turn = i;
        set_up(1);
        put_bare_event(0, SSCF_EVENT_UNITDATA);
        now.event[frames[i].at] = frames[i].value;
        sscf_put_16(now.event + SSCF_HEAD_AT_LENGTH, frames[i].length);
        event_octets = frames[i].octets;
        want_nothing();
        STEP(SSCF_REFUSED_FRAME);
    }
}

/*
 * Refusal 3, and those of request 2026-05: 10, 11 and 12, each at the first octet of the first
 * field at fault. Which fields an event carries stands in sscf.h beside its code.
 */

static int known(unsigned code)
{
    return (code >= 1 && code <= 9) || (code >= 16 && code <= 25) || (code >= 32 && code <= 40) ||
           (code >= 48 && code <= 50);
}

static int has_parameter(unsigned code)
{
    return (code >= 16 && code <= 18) || code == 39;
}

static int has_number(unsigned code)
{
    return code == 7 || code == 18 || code == 20;
}

static int has_message(unsigned code)
{
    return code == 1 || code == 20 || code == 23 || code == 24;
}

struct fault {
    uint32_t refusal, place;
};

/* The first thing wrong: 10 is asked of all fields, then 11, then 12. Two zeros for nothing. */
static struct fault first_fault(unsigned code, unsigned parameter, uint32_t number, size_t length)
{
    const struct {
        int wrong;
        struct fault fault;
    } asked[] = {
        {!known(code), {3, 0}},
        {parameter != 0 && !has_parameter(code), {10, 5}},
        {number != 0 && !has_number(code), {10, 6}},
        {length != 0 && !has_message(code), {10, 10}},
        {code == 39 ? parameter > 3 : parameter > 10 || parameter == 6, {11, 5}},
        {code == 18 && number > 1, {11, 6}},
        {code == 1 && length < 5, {12, 10}},
        {1, {0, 0}}
    };
    size_t i = 0;

    while (!asked[i].wrong)
        i++;
    return asked[i].fault;
}

/* The link is one too high, so that an event with nothing wrong is refused too, by 5 and whatever
 * the state. */
static void fields_are(unsigned code, unsigned parameter, uint32_t number, size_t length)
{
    struct fault fault = first_fault(code, parameter, number, length);

    put_event(1, code, parameter, number, message, length);
    if (fault.refusal == 0)
        STEP(SSCF_REFUSED_LINK);
    else
        STEP_AT(fault.refusal, fault.place);
}

/* Numbers and lengths with each octet set by itself; some end in the octet of a source. */
static const uint32_t tried_numbers[] = {0,        1,        2,        0x000100, 0x000101,
                                         0x010000, 0x010001, 0xffffff};
static const size_t tried_lengths[] = {0, 1, 3, 4, 5, 256, 4096};
enum {
    TRIED_NUMBERS = sizeof tried_numbers / sizeof *tried_numbers,
    TRIED_LENGTHS = sizeof tried_lengths / sizeof *tried_lengths
};

/* Every code, with one field at a time set; of a code that is known every parameter. */
static void broken_fields(void)
{
    unsigned code, i;

    set_up(1);
    for (code = 0; code < 256; code++) {
        const size_t least = code == 1 ? 5 : 0;
        turn = code;
        for (i = 0; i < 256; i += i < 16 || known(code) ? 1 : 239)
            fields_are(code, i, 0, least);
        for (i = 0; i < TRIED_NUMBERS; i++)
            fields_are(code, 0, tried_numbers[i], least);
        for (i = 0; i < TRIED_LENGTHS; i++)
            fields_are(code, 0, 0, tried_lengths[i]);
    }
}

/* Every code that is known, with the fields set together: the first fault is named. */
static void broken_fields_together(void)
{
    static const uint8_t parameters[] = {0, 1, 2, 3, 4, 5, 6, 7, 8, 9, 10, 11, 0x10, 0x84, 0xff};
    unsigned code, i, j, k;

    set_up(1);
    for (code = 0; code < 256; code++)
        for (i = 0; i < sizeof parameters && known(code); i++)
            for (j = 0; j < TRIED_NUMBERS; j++)
                for (k = 0; k < TRIED_LENGTHS; k++) {
                    turn = 1000 * code + parameters[i];
                    fields_are(code, parameters[i], tried_numbers[j], tried_lengths[k]);
                }
}

/* Events with a fault, each taken by itself from what sscf.h says of 10, 11 and 12. */
static const struct {
    uint8_t code, parameter;
    uint32_t number;
    uint16_t length;
    uint8_t refusal, place;
} faults[] = {
    /* a field that the code does not carry: whichever octet of it is set, its first is named */
    {SSCF_EVENT_START, 1, 0, 0, 10, 5},
    {SSCF_EVENT_START, 0x80, 0, 0, 10, 5},
    {SSCF_EVENT_START, 0, 0x000001, 0, 10, 6},
    {SSCF_EVENT_START, 0, 0x000100, 0, 10, 6},
    {SSCF_EVENT_START, 0, 0x010000, 0, 10, 6},
    {SSCF_EVENT_START, 0, 0, 1, 10, 10},
    {SSCF_EVENT_START, 0, 0, 5, 10, 10},
    {SSCF_EVENT_START, 0, 0, 256, 10, 10},
    /* of several such fields the first */
    {SSCF_EVENT_START, 1, 1, 0, 10, 5},
    {SSCF_EVENT_START, 1, 0, 1, 10, 5},
    {SSCF_EVENT_START, 0, 1, 1, 10, 6},
    {SSCF_EVENT_START, 1, 1, 1, 10, 5},
    /* beside fields that the code does carry, and that are right */
    {SSCF_EVENT_MESSAGE_FOR_TRANSMISSION, 1, 0, 5, 10, 5},
    {SSCF_EVENT_MESSAGE_FOR_TRANSMISSION, 0, 1, 5, 10, 6},
    {SSCF_EVENT_RETRIEVAL_REQUEST_AND_FSNC, 1, 7, 0, 10, 5},
    {SSCF_EVENT_RETRIEVAL_REQUEST_AND_FSNC, 0, 7, 5, 10, 10},
    {SSCF_EVENT_ESTABLISH_INDICATION, SSCF_STATUS_NM, 1, 0, 10, 6},
    {SSCF_EVENT_ESTABLISH_CONFIRM, SSCF_STATUS_NM, 0, 4, 10, 10},
    {SSCF_EVENT_RELEASE_INDICATION, SSCF_STATUS_OOS, SSCF_SOURCE_SSCOP, 4, 10, 10},
    {SSCF_EVENT_DATA, SSCF_STATUS_NM, 7, 4, 10, 5},
    {SSCF_EVENT_UNITDATA, 1, 0, 5, 10, 5},
    {SSCF_EVENT_UNITDATA, 0, 1, 5, 10, 6},
    {SSCF_EVENT_RETRIEVE, 1, 1, 5, 10, 5},
    {SSCF_EVENT_CONGESTION, 3, 1, 0, 10, 6},
    {SSCF_EVENT_CONGESTION, 3, 0, 1, 10, 10},
    /* also with a message that would be too short for a user's */
    {SSCF_EVENT_START, 0, 0, 4, 10, 10},
    {SSCF_EVENT_T3_EXPIRED, 0, 0, 4, 10, 10},
    /* a parameter that is no status code, a level above 3 */
    {SSCF_EVENT_ESTABLISH_INDICATION, 6, 0, 0, 11, 5},
    {SSCF_EVENT_ESTABLISH_CONFIRM, 11, 0, 0, 11, 5},
    {SSCF_EVENT_RELEASE_INDICATION, 6, 0, 0, 11, 5},
    {SSCF_EVENT_RELEASE_INDICATION, 255, 1, 0, 11, 5},
    {SSCF_EVENT_CONGESTION, 4, 0, 0, 11, 5},
    /* a source that is none, in each octet */
    {SSCF_EVENT_RELEASE_INDICATION, 0, 2, 0, 11, 6},
    {SSCF_EVENT_RELEASE_INDICATION, 0, 256, 0, 11, 6},
    {SSCF_EVENT_RELEASE_INDICATION, SSCF_STATUS_OOS, 0x000101, 0, 11, 6},
    {SSCF_EVENT_RELEASE_INDICATION, SSCF_STATUS_OOS, 0x010001, 0, 11, 6},
    /* of both the first */
    {SSCF_EVENT_RELEASE_INDICATION, 6, 2, 0, 11, 5},
    /* 10 goes before 11, also where its field stands behind */
    {SSCF_EVENT_RELEASE_INDICATION, 6, 0, 4, 10, 10},
    {SSCF_EVENT_RELEASE_INDICATION, 0, 256, 1, 10, 10},
    {SSCF_EVENT_RELEASE_INDICATION, 6, 2, 5, 10, 10},
    {SSCF_EVENT_ESTABLISH_INDICATION, 6, 1, 0, 10, 6},
    {SSCF_EVENT_ESTABLISH_CONFIRM, 11, 1, 1, 10, 6},
    {SSCF_EVENT_CONGESTION, 4, 1, 0, 10, 6},
    {SSCF_EVENT_CONGESTION, 4, 0, 1, 10, 10},
    /* a message for transmission that the peer would take for a unit, or drop */
    {SSCF_EVENT_MESSAGE_FOR_TRANSMISSION, 0, 0, 0, 12, 10},
    {SSCF_EVENT_MESSAGE_FOR_TRANSMISSION, 0, 0, 1, 12, 10},
    {SSCF_EVENT_MESSAGE_FOR_TRANSMISSION, 0, 0, 4, 12, 10},
    /* 10 goes before 12 */
    {SSCF_EVENT_MESSAGE_FOR_TRANSMISSION, 1, 0, 4, 10, 5},
    {SSCF_EVENT_MESSAGE_FOR_TRANSMISSION, 0, 1, 0, 10, 6},
    {SSCF_EVENT_MESSAGE_FOR_TRANSMISSION, 1, 1, 4, 10, 5}
};
enum { FAULTS = sizeof faults / sizeof *faults };

static void add_fault(unsigned link, size_t i)
{
    add_event(link, faults[i].code, faults[i].parameter, faults[i].number, message,
              faults[i].length);
}

static void put_fault(unsigned link, size_t i)
{
    event_octets = 0;
    add_fault(link, i);
    want_nothing();
}

#define FAULT(i) STEP_AT(faults[i].refusal, faults[i].place)

/* The numbers by their names, and the fields' places by where sscf_host.h has the fields. */
static void fault_names(void)
{
    CHECK(SSCF_REFUSED_NOT_CARRIED == 10);
    CHECK(SSCF_REFUSED_RANGE == 11);
    CHECK(SSCF_REFUSED_SHORT == 12);
    CHECK(SSCF_PLACE_NONE == 0);
    CHECK(SSCF_PLACE_PARAMETER == 5 && SSCF_HEAD_AT_PARAMETER == 5);
    CHECK(SSCF_PLACE_NUMBER == 6 && SSCF_HEAD_AT_NUMBER == 6);
    CHECK(SSCF_PLACE_LENGTH == 10 && SSCF_HEAD_AT_LENGTH == 10);
    CHECK(SSCF_PLACE_N1 == 14 && SSCF_LINK_AT_N1 == 14);
}

/* A fault is the event's alone: it does not matter in which state its link is, nor whether its
 * timers run or its record is sound. */
static void faults_in_every_state(void)
{
    size_t i;
    unsigned state, timers;

    for (i = 0; i < FAULTS; i++) {
        for (state = 0; state <= 9; state++)
            for (timers = 0; timers <= 7; timers += 7) {
                turn = 1000 * i + 10 * state + timers;
                set_up(2);
                put_link(1, state, SSCF_FLAG_INS, timers, 5, 1000);
                put_fault(1, i);
                FAULT(i);
            }
        set_up(2);
        memset(now.table, 0, table_octets);
        put_fault(1, i);
        FAULT(i);
    }
}

/* Nor how long the table is, so long as it is one, whether it has the link, or how much room there
 * is for signals. */
static void faults_on_every_table(void)
{
    static const unsigned tables[] = {1, 2, SSCF_LINKS_MAX};
    static const size_t rooms[] = {0, 1, 4239, 4240, sizeof now.out};
    size_t i, j, k;

    for (i = 0; i < FAULTS; i++)
        for (j = 0; j < sizeof tables / sizeof *tables; j++)
            for (k = 0; k < sizeof rooms / sizeof *rooms; k++) {
                turn = 100 * i + 10 * j + k;
                set_up(tables[j]);
                out_octets = rooms[k];
                put_fault(0, i);
                FAULT(i);
                put_fault(tables[j] - 1, i);
                FAULT(i);
                put_fault(tables[j], i);
                FAULT(i);
                put_fault(0xffff, i);
                FAULT(i);
            }
}

/* A table that is none, a broken frame and an unknown code go before, and name no field. */
static void faults_behind_others(void)
{
    static const size_t tables[] = {0, 19, 21, 5121, 5140};
    static const uint8_t codes[] = {0, 10, 51, 255};
    static const struct {
        uint8_t at, value;   /* an octet of the head to write over */
        uint8_t fewer, more; /* octets lent than it has */
    } frames[] = {{0, 'S', 0, 0}, {1, 'G', 0, 0}, {9, 1, 0, 0},
                  {0, 'E', 1, 0}, {0, 'E', 0, 1}, {10, 0x11, 0, 0}};
    size_t i, j;

    for (i = 0; i < FAULTS; i++) {
        for (j = 0; j < sizeof tables / sizeof *tables; j++) {
            turn = 100 * i + j;
            set_up(SSCF_LINKS_MAX);
            table_octets = tables[j];
            put_fault(0, i);
            STEP(SSCF_REFUSED_TABLE);
        }
        for (j = 0; j < sizeof frames / sizeof *frames; j++) {
            turn = 100 * i + 10 + j;
            set_up(1);
            put_fault(0, i);
            now.event[frames[j].at] = frames[j].value;
            event_octets = event_octets + frames[j].more - frames[j].fewer;
            want_nothing();
            STEP(SSCF_REFUSED_FRAME);
        }
        for (j = 0; j < sizeof codes; j++) {
            turn = 100 * i + 20 + j;
            set_up(1);
            put_fault(0, i);
            now.event[SSCF_HEAD_AT_CODE] = codes[j];
            want_nothing();
            STEP(SSCF_REFUSED_CODE);
        }
    }
}

/* Refusal 6, by every value of every octet of a record. */

static int well_formed(const uint8_t *record)
{
    int bsnt = record[8] != 0 || record[9] != 0 || record[10] != 0;

    return record[0] == 'L' && record[1] == 'N' && record[2] >= 1 && record[2] <= 8 &&
           record[3] <= 3 && record[4] <= 2 && record[5] <= 1 && record[6] <= 7 && record[7] <= 1 &&
           (record[7] == 1 || !bsnt) && record[11] == 0 && (record[14] != 0 || record[15] != 0) &&
           record[16] <= 1 && record[17] <= 10 && record[17] != 6 && record[18] == 0 &&
           record[19] == 0;
}

static void broken_records(void)
{
    unsigned set, octet, value;

    for (set = 0; set <= 1; set++) /* BSNT, congested and the last field */
        for (octet = 0; octet < 20; octet++)
            for (value = 0; value < 256; value++) {
                uint8_t *record = now.table + 20;
                turn = 1000 * octet + value;
                set_up(3);
                put_link(1, SSCF_STATE_2_10_4, 3, T2, 2, 1);
                put_congestion(1, set, 10 * set);
                record[7] = record[10] = (uint8_t)set;
                record[octet] = (uint8_t)value;
                put_bare_event(1, SSCF_EVENT_FLUSH_BUFFERS); /* ignored in every state */
                STEP(well_formed(record) ? SSCF_ACCEPTED : SSCF_REFUSED_RECORD);
            }
}

/* The states in which an event is legal, those listed in sscf.h beside it. */
static const struct {
    uint8_t first, last; /* codes */
    const char *legal;
} rows[] = {
    {1, 1, ".......8"},   {2, 3, "1234567."},   {4, 4, "..345678"},   {5, 7, "12......"},
    {8, 9, "12345678"},   {16, 16, "1.3....."}, {17, 17, "...4...."}, {18, 18, "...4.678"},
    {19, 19, ".2..5..."}, {20, 22, ".....678"}, {23, 23, "12345678"}, {24, 25, "12......"},
    {32, 32, ".....6.."}, {33, 34, "12345678"}, {35, 35, "123456.."}, {36, 39, "12345678"},
    {40, 40, "12345.78"}, {48, 48, "..3....."}, {49, 49, "..34567."}, {50, 50, ".....6.."}
};
enum { ROWS = sizeof rows / sizeof *rows };

/* Refusals 7 and 8: every event in every state, each timer running or not. */
static void states(void)
{
    unsigned row, code, state, timers;

    for (row = 0; row < ROWS; row++)
        for (code = rows[row].first; code <= rows[row].last; code++)
            for (state = 1; state <= 8; state++)
                for (timers = 0; timers <= 7; timers++) {
                    int stopped = code >= 48 && (timers >> (code - 48) & 1) == 0;
                    int illegal = rows[row].legal[state - 1] == '.';
                    uint32_t refusal = stopped ? 7 : illegal ? 8 : 0;

                    turn = 1000 * code + 10 * state + timers;
                    set_up(1);
                    put_link(0, state, 0, timers, timers & 1, 1);
                    put_event(0, code, 0, 0, message, code == 1 ? 5 : 0);
                    if (refusal != 0)
                        STEP(refusal);
                    else
                        ACCEPTED();
                }
}

/* Events that crossed, as sscf.h tells of them under the refusals: those that came too late are
 * refused, and the link takes what follows. A DATA brings the peer's INS unit. */
static void crossings(void)
{
    static const struct {
        uint8_t state, timers;
        struct {
            uint8_t code, parameter, refusal, state;
        } events[6];
    } runs[] = {
        /* expiries of timers just reset */
        {3, 1 + 2, {{SSCF_EVENT_ESTABLISH_INDICATION, SSCF_STATUS_NM, 0, 6},
                    {SSCF_EVENT_T1_EXPIRED, 0, 7, 6}}},
        {7, 2, {{SSCF_EVENT_DATA, 0, 0, 8}, {SSCF_EVENT_T2_EXPIRED, 0, 7, 8}}},
        {6, 2 + 4, {{SSCF_EVENT_RELEASE_INDICATION, SSCF_STATUS_OOS, 0, 3},
                    {SSCF_EVENT_T3_EXPIRED, 0, 7, 3}}},
        /* a release that is confirmed after the next START */
        {1, 0, {{SSCF_EVENT_START, 0, 0, 4},
                {SSCF_EVENT_STOP, 0, 0, 2},
                {SSCF_EVENT_START, 0, 0, 4},
                {SSCF_EVENT_RELEASE_CONFIRM, 0, 8, 4},
                {SSCF_EVENT_ESTABLISH_CONFIRM, SSCF_STATUS_NM, 0, 6}}},
        /* two ends that connect at once */
        {1, 0, {{SSCF_EVENT_START, 0, 0, 4},
                {SSCF_EVENT_ESTABLISH_INDICATION, SSCF_STATUS_NM, 8, 4},
                {SSCF_EVENT_ESTABLISH_CONFIRM, SSCF_STATUS_NM, 0, 6}}},
        {1, 0, {{SSCF_EVENT_START, 0, 0, 4},
                {SSCF_EVENT_ESTABLISH_INDICATION, SSCF_STATUS_NM, 8, 4},
                {SSCF_EVENT_T2_EXPIRED, 0, 0, 2}}},
        {1, 0, {{SSCF_EVENT_START, 0, 0, 4},
                {SSCF_EVENT_STOP, 0, 0, 2},
                {SSCF_EVENT_ESTABLISH_INDICATION, SSCF_STATUS_NM, 8, 2},
                {SSCF_EVENT_RELEASE_CONFIRM, 0, 0, 1}}},
        /* a call turned down: its caller gives it up, and SSCOP confirms what it should not */
        {1, 0, {{SSCF_EVENT_ESTABLISH_INDICATION, SSCF_STATUS_NM, 0, 1},
                {SSCF_EVENT_RELEASE_INDICATION, SSCF_STATUS_OOS, 8, 1},
                {SSCF_EVENT_RELEASE_CONFIRM, 0, 8, 1}}},
        {1, 0, {{SSCF_EVENT_START, 0, 0, 4},
                {SSCF_EVENT_RELEASE_INDICATION, SSCF_STATUS_OOS, 0, 3},
                {SSCF_EVENT_ESTABLISH_INDICATION, SSCF_STATUS_OOS, 0, 3},
                {SSCF_EVENT_RELEASE_INDICATION, SSCF_STATUS_OOS, 8, 3},
                {SSCF_EVENT_RELEASE_CONFIRM, 0, 8, 3}}},
        /* what SSCOP still says of a connection given up */
        {4, 2, {{SSCF_EVENT_STOP, 0, 0, 2},
                {SSCF_EVENT_ESTABLISH_CONFIRM, SSCF_STATUS_NM, 8, 2},
                {SSCF_EVENT_RELEASE_CONFIRM, 0, 0, 1}}},
        {8, 0, {{SSCF_EVENT_STOP, 0, 0, 2},
                {SSCF_EVENT_DATA, 0, 8, 2},
                {SSCF_EVENT_RESYNC, 0, 8, 2},
                {SSCF_EVENT_RECOVER, 0, 8, 2},
                {SSCF_EVENT_RELEASE_INDICATION, SSCF_STATUS_OOS, 8, 2},
                {SSCF_EVENT_RELEASE_CONFIRM, 0, 0, 1}}},
        {6, 2 + 4, {{SSCF_EVENT_CONGESTION, 1, 0, 5},
                    {SSCF_EVENT_DATA, 0, 8, 5},
                    {SSCF_EVENT_RESYNC, 0, 8, 5},
                    {SSCF_EVENT_RECOVER, 0, 8, 5},
                    {SSCF_EVENT_RELEASE_INDICATION, SSCF_STATUS_OOS, 8, 5},
                    {SSCF_EVENT_RELEASE_CONFIRM, 0, 0, 3}}},
        {4, 2, {{SSCF_EVENT_ESTABLISH_CONFIRM, 0, 0, 5}, /* without a field: given up by PE */
                {SSCF_EVENT_ESTABLISH_CONFIRM, SSCF_STATUS_NM, 8, 5},
                {SSCF_EVENT_RELEASE_CONFIRM, 0, 0, 3}}},
        /* users that have not heard yet */
        {8, 0, {{SSCF_EVENT_RELEASE_INDICATION, SSCF_STATUS_OOS, 0, 1},
                {SSCF_EVENT_MESSAGE_FOR_TRANSMISSION, 0, 8, 1},
                {SSCF_EVENT_STOP, 0, 8, 1}}},
        {1, 0, {{SSCF_EVENT_START, 0, 0, 4},
                {SSCF_EVENT_T2_EXPIRED, 0, 0, 2},
                {SSCF_EVENT_STOP, 0, 8, 2}}},
        {7, 2, {{SSCF_EVENT_DATA, 0, 0, 8},
                {SSCF_EVENT_EMERGENCY, 0, 8, 8},
                {SSCF_EVENT_EMERGENCY_CEASES, 0, 8, 8}}},
        /* management that has not heard yet */
        {6, 2 + 4, {{SSCF_EVENT_T3_EXPIRED, 0, 0, 7}, {SSCF_EVENT_PROVING_UNSUCCESSFUL, 0, 8, 7}}},
        {6, 2 + 4, {{SSCF_EVENT_STOP, 0, 0, 2}, {SSCF_EVENT_PROVING_UNSUCCESSFUL, 0, 8, 2}}},
        {1, 0, {{SSCF_EVENT_START, 0, 0, 4},
                {SSCF_EVENT_CONGESTION, 1, 0, 4},
                {SSCF_EVENT_ESTABLISH_CONFIRM, SSCF_STATUS_NM, 0, 5}, /* proving ends at once */
                {SSCF_EVENT_PROVING_UNSUCCESSFUL, 0, 8, 5},
                {SSCF_EVENT_CONGESTION_CEASED, 0, 0, 5},
                {SSCF_EVENT_RELEASE_CONFIRM, 0, 0, 3}}},
        /* a congestion that ends as the connection comes up, before it and behind it */
        {1, 0, {{SSCF_EVENT_CONGESTION, 0, 0, 1},
                {SSCF_EVENT_START, 0, 0, 4},
                {SSCF_EVENT_CONGESTION_CEASED, 0, 0, 4},
                {SSCF_EVENT_ESTABLISH_CONFIRM, SSCF_STATUS_NM, 0, 6},
                {SSCF_EVENT_CONGESTION_CEASED, 0, 8, 6}}}, /* a second end: the host's own fault */
        {3, 1 + 2, {{SSCF_EVENT_CONGESTION, 3, 0, 3},
                    {SSCF_EVENT_ESTABLISH_INDICATION, SSCF_STATUS_EM, 0, 5},
                    {SSCF_EVENT_CONGESTION_CEASED, 0, 0, 5},
                    {SSCF_EVENT_RELEASE_CONFIRM, 0, 0, 3},
                    {SSCF_EVENT_ESTABLISH_INDICATION, SSCF_STATUS_EM, 0, 6}}},
        /* a retrieval that goes on after the next START */
        {1, 0, {{SSCF_EVENT_RETRIEVAL_REQUEST_AND_FSNC, 0, 0, 1},
                {SSCF_EVENT_START, 0, 0, 4},
                {SSCF_EVENT_RETRIEVE, 0, 8, 4},
                {SSCF_EVENT_RETRIEVE_COMPLETE, 0, 8, 4}}},
        /* what must not be handed in late: it is taken for the present connection's */
        {1, 0, {{SSCF_EVENT_START, 0, 0, 4},
                {SSCF_EVENT_STOP, 0, 0, 2},
                {SSCF_EVENT_START, 0, 0, 4},
                {SSCF_EVENT_ESTABLISH_CONFIRM, SSCF_STATUS_NM, 0, 6}}},
        {8, 0, {{SSCF_EVENT_STOP, 0, 0, 2},
                {SSCF_EVENT_START, 0, 0, 4},
                {SSCF_EVENT_RELEASE_INDICATION, SSCF_STATUS_OOS, 0, 3}}},
        {1, 0, {{SSCF_EVENT_ESTABLISH_INDICATION, SSCF_STATUS_NM, 0, 1}, /* turned down */
                {SSCF_EVENT_START, 0, 0, 4},
                {SSCF_EVENT_STOP, 0, 0, 2},
                {SSCF_EVENT_RELEASE_CONFIRM, 0, 0, 1}}}
    };
    size_t run, i;

    for (run = 0; run < sizeof runs / sizeof *runs; run++) {
        set_up(1);
        put_link(0, runs[run].state, 0, runs[run].timers, 0, 1);
        for (i = 0; i < 6 && runs[run].events[i].code != 0; i++) {
            const unsigned code = runs[run].events[i].code;
            const uint32_t refusal = runs[run].events[i].refusal;
            const int longer = code == SSCF_EVENT_MESSAGE_FOR_TRANSMISSION ||
                               code == SSCF_EVENT_RETRIEVE;

            turn = 10 * run + i;
            put_event(0, code, runs[run].events[i].parameter, 0, longer ? message : ins_unit,
                      longer ? 5 : code == SSCF_EVENT_DATA ? 4 : 0);
            if (refusal != SSCF_ACCEPTED)
                STEP(refusal);
            else
                ACCEPTED();
            CHECK(now.table[SSCF_LINK_AT_STATE] == runs[run].events[i].state);
        }
    }
}

/*
 * Several things wrong at once: the first of sscf.h's list is answered. No one event can have all
 * of them wrong, so there are three, each wrong in 511 ways: only an expiry has a timer, only a
 * release of these has fields with a range, and only a user message can be too short.
 */
static const struct {
    uint8_t code, state, timers, length; /* accepted, but for what is wrong */
    uint8_t not_carried;                 /* the place of a field */
    uint8_t refusals[9];                 /* in the order of the list */
} several[] = {
    {SSCF_EVENT_T3_EXPIRED, SSCF_STATE_2_10_3, SSCF_TIMER_T2 + SSCF_TIMER_T3, 0,
     SSCF_PLACE_PARAMETER, {1, 2, 3, 10, 5, 6, 7, 8, 9}},
    {SSCF_EVENT_RELEASE_INDICATION, SSCF_STATE_2_10_3, SSCF_TIMER_T2 + SSCF_TIMER_T3, 0,
     SSCF_PLACE_LENGTH, {1, 2, 3, 10, 11, 5, 6, 8, 9}},
    {SSCF_EVENT_MESSAGE_FOR_TRANSMISSION, SSCF_STATE_3_10_5, 0, 5,
     SSCF_PLACE_NUMBER, {1, 2, 3, 10, 12, 5, 6, 8, 9}}
};

/* What the message is does not matter. */
static void set_length(size_t length)
{
    sscf_put_16(now.event + SSCF_HEAD_AT_LENGTH, (uint32_t)length);
    event_octets = SSCF_HEAD_OCTETS + length;
}

/* Makes the call wrong by one of the numbers, and answers the place that goes with it. A record is
 * ill-formed by one of its octets, the first or one of the last four: 6 is wrong in all of them. */
static uint32_t make_wrong(unsigned refusal, uint32_t not_carried, unsigned octet)
{
    uint8_t *record = now.table + SSCF_LINK_OCTETS;

    switch (refusal) {
    case 1:
        table_octets--;
        return 0;
    case 2:
        now.event[SSCF_HEAD_AT_ZERO] = 1;
        return 0;
    case 3:
        now.event[SSCF_HEAD_AT_CODE] = 51;
        return 0;
    case 10:
        if (not_carried == SSCF_PLACE_LENGTH)
            set_length(4);
        else
            now.event[not_carried] = 1;
        return not_carried;
    case 11:
        now.event[SSCF_HEAD_AT_PARAMETER] = 6;
        return 5;
    case 12:
        set_length(4);
        return 10;
    case 5:
        sscf_put_16(now.event + SSCF_HEAD_AT_LINK, 3);
        return 0;
    case 6:
        record[octet] = 6;
        return 0;
    case 7:
        record[SSCF_LINK_AT_TIMERS] = T2;
        return 0;
    case 8:
        record[SSCF_LINK_AT_STATE] = SSCF_STATE_1_1_1;
        return 0;
    default:
        out_octets = 4239;
        return 0;
    }
}

static void several_wrong_are(unsigned event, unsigned wrong, unsigned octet)
{
    uint32_t first = 0, place = 0;
    unsigned i;

    set_up(3);
    put_link(1, several[event].state, 0, several[event].timers, 5, 1000);
    put_event(1, several[event].code, 0, 0, message, several[event].length);
    for (i = 9; i-- > 0;) /* from the last, so that what stays is of the first */
        if (wrong >> i & 1) {
            first = several[event].refusals[i];
            place = make_wrong(first, several[event].not_carried, octet);
        }
    want_nothing();
    STEP_AT(first, place);
}

static void several_wrong(void)
{
    static const unsigned octets[] = {0, 16, 17, 18, 19};
    unsigned event, wrong, i;

    for (event = 0; event < sizeof several / sizeof *several; event++)
        for (wrong = 1; wrong < 1u << 9; wrong++)
            for (i = 0; i < sizeof octets / sizeof *octets; i++) {
                turn = 10000 * event + 10 * wrong + i;
                several_wrong_are(event, wrong, octets[i]);
            }
}

/*
 * Request 2026-04: a burst of events end to end. A START writes 36 octets of signals, so three of
 * them for links 0, 1 and 2 show how far a burst came.
 */

static void add_start(unsigned link)
{
    add_bare_event(link, SSCF_EVENT_START);
}

/* The number that the event taken as so many, counted from 0, has in the list. */
static void want_number(size_t place, uint32_t number)
{
    want.list[place] = number;
}

static void want_taken(unsigned starts)
{
    unsigned link;

    want_nothing();
    for (link = 0; link < starts; link++) {
        want_start(link, 0);
        want_number(link, SSCF_ACCEPTED);
    }
}

static void set_up_starts(unsigned starts)
{
    unsigned link;

    set_up(3);
    out_octets = sizeof now.out;
    for (link = 0; link < starts; link++)
        add_start(link);
}

/* No events: nothing is asked for, neither room nor a list. */
static void burst_of_none(void)
{
    static const size_t rooms[] = {0, 4239, 4240};
    size_t i;

    for (i = 0; i < 3; i++) {
        turn = i;
        set_up(1);
        want_nothing();
        out_octets = rooms[i];
        BURST(0, 0, 0, 0);
        places = 0;
        BURST(0, 0, 0, 0);
    }
}

/* The run of document 01 once more, its two events in one burst. */
static void burst_into_service(void)
{
    set_up(1);
    put_link(0, 6, 1, 2 + 4, 1, 1000);
    out_octets = 28 + 4240;
    places = 2;
    add_bare_event(0, 50);
    add_bare_event(0, 50);
    want_nothing();
    want_number(0, 0);
    want_number(1, 0);
    want_link(0, 8, 1, 0, 0);
    want_signal(0, 19, 0, 0, nm_unit, 4);
    want_signal(0, 50, 0, 0, NULL, 0);
    want_signal(0, 33, 0, 0, NULL, 0);
    want_signal(0, 19, 0, 0, ins_unit, 4);
    want_signal(0, 34, 0, three(0, 2, 0), NULL, 0);
    want_signal(0, 4, 0, 0, NULL, 0);
    want_signal(0, 57, 0, 0, NULL, 0);
    CHECK(want_octets == 92 && want_signals == 7);
    BURST(0, 0, 2, 24);
}

/* Two links of three, whose events come in turn: up, the first proving unit out and one in. */
static void burst_restart(void)
{
    unsigned link;

    set_up(3);
    out_octets = sizeof now.out;
    for (link = 0; link <= 2; link += 2)
        add_start(link);
    for (link = 0; link <= 2; link += 2)
        add_event(link, SSCF_EVENT_ESTABLISH_CONFIRM, SSCF_STATUS_NM, 0, NULL, 0);
    for (link = 0; link <= 2; link += 2)
        add_bare_event(link, SSCF_EVENT_T3_EXPIRED);
    for (link = 0; link <= 2; link += 2)
        add_event(link, SSCF_EVENT_DATA, 0, 500 + link, nm_unit, sizeof nm_unit);

    want_nothing();
    memset(want.list, 0, 8 * sizeof *want.list);
    for (link = 0; link <= 2; link += 2)
        want_start(link, 0);
    for (link = 0; link <= 2; link += 2) {
        want_bare_signal(link, SSCF_SIGNAL_START_PROVING);
        want_bare_signal(link, SSCF_SIGNAL_SET_T3);
    }
    for (link = 0; link <= 2; link += 2) {
        want_signal(link, SSCF_SIGNAL_DATA_REQUEST, 0, 0, nm_unit, sizeof nm_unit);
        want_bare_signal(link, SSCF_SIGNAL_SET_T3);
        want_link(link, SSCF_STATE_2_10_3, 0, T2 + T3, 999);
        want_bsnt(link, 500 + link);
    }
    CHECK(want_octets == 176 && want_signals == 14);
    BURST(0, 0, 8, 6 * 12 + 2 * 16);
}

/* An event that is refused, by each number that there is for one, is passed over. */
static void burst_refusals(void)
{
    static const uint8_t refusals[] = {0, 3, 10, 11, 12, 5, 6, 7, 8, 0};
    size_t i;

    set_up(3);
    out_octets = sizeof now.out;
    now.table[2 * SSCF_LINK_OCTETS] = 'X';
    add_start(0);
    add_bare_event(1, 51);
    add_event(1, SSCF_EVENT_START, 1, 0, NULL, 0);
    add_event(1, SSCF_EVENT_RELEASE_INDICATION, 0, 2, NULL, 0);
    add_event(1, SSCF_EVENT_MESSAGE_FOR_TRANSMISSION, 0, 0, message, 4);
    add_start(3);
    add_start(2);
    add_bare_event(1, SSCF_EVENT_T3_EXPIRED);
    add_bare_event(1, SSCF_EVENT_STOP);
    add_start(1);

    want_nothing();
    want_start(0, 0);
    want_start(1, 0);
    for (i = 0; i < sizeof refusals; i++)
        want_number(i, refusals[i]);
    BURST(0, 0, 10, 10 * 12 + 4);
}

/* Each fault between two STARTs: the list has its number alone, and sscf_step tells the place of
 * the same event afterwards. */
static void burst_faults(void)
{
    size_t i;

    for (i = 0; i < FAULTS; i++) {
        turn = i;
        set_up(3);
        out_octets = sizeof now.out;
        add_start(0);
        add_fault(1, i);
        add_start(2);
        want_nothing();
        want_start(0, 0);
        want_start(2, 0);
        want_number(0, 0);
        want_number(1, faults[i].refusal);
        want_number(2, 0);
        BURST(0, 0, 3, event_octets);
        put_fault(1, i);
        FAULT(i);
    }
}

/* Refusal 1, which comes before all else. */
static void burst_tables(void)
{
    static const size_t tables[] = {0, 21, 5140};
    size_t i;

    for (i = 0; i < 3; i++) {
        turn = i;
        set_up(SSCF_LINKS_MAX);
        table_octets = tables[i];
        want_nothing();
        BURST(1, 0, 0, 0);
        add_start(0);
        add_start(1);
        want_nothing();
        BURST(1, 0, 0, 0);
        places = 1;
        BURST(1, 0, 0, 0);
        out_octets = 4239;
        BURST(1, 0, 0, 0);
        now.event[SSCF_HEAD_AT_ZERO] = 1;
        want_nothing();
        BURST(1, 0, 0, 0);
    }
}

/* Refusal 13, whatever room there is: also where the list would do for the events that have it. */
static void burst_lists(void)
{
    size_t too_few;

    CHECK(SSCF_REFUSED_LIST == 13);
    for (too_few = 0; too_few < 3; too_few++) {
        turn = too_few;
        set_up_starts(3);
        places = too_few;
        want_nothing();
        BURST(13, 0, 0, 0);
        out_octets = 4240;
        BURST(13, 0, 0, 0);
        out_octets = 0;
        BURST(13, 0, 0, 0);
    }
    set_up_starts(3);
    places = 3;
    want_taken(3);
    BURST(0, 0, 3, 36);

    /* an event that is refused has a number too */
    set_up(1);
    add_bare_event(0, 51);
    places = 0;
    want_nothing();
    BURST(13, 0, 0, 0);
}

/* A list need not be longer for what stands behind a broken frame, nor for that frame. */
static void burst_list_before_a_broken_frame(void)
{
    size_t sound;

    for (sound = 0; sound < 3; sound++) {
        turn = sound;
        set_up_starts(3);
        now.event[12 * sound + SSCF_HEAD_AT_ZERO] = 1;
        want_nothing();
        if (sound > 0) {
            places = sound - 1;
            BURST(13, 0, 0, 0);
        }
        places = sound;
        want_taken((unsigned)sound);
        BURST(0, 2, sound, 12 * sound);
    }
}

/* Frames that are broken, in each way there is. Mended, they are a START. */
static const struct {
    uint16_t octets; /* there are of it; behind fewer than 12 stands nothing */
    char mark[3];
    uint8_t zero;
    uint16_t length; /* of its message, as its head says */
    uint16_t past;   /* the end: by so many octets, where it is not 0 */
} broken_starts[] = {
    {1, "EV", 0, 0, 0},       {2, "EV", 0, 0, 0},      {11, "EV", 0, 0, 0},
    {12, "SG", 0, 0, 0},      {12, "LN", 0, 0, 0},     {12, "EG", 0, 0, 0},
    {12, "SV", 0, 0, 0},      {12, "VE", 0, 0, 0},     {12, "ev", 0, 0, 0},
    {12, "EV", 1, 0, 0},      {12, "EV", 0x80, 0, 0},  {12, "EV", 255, 0, 0},
    {12 + 4097, "EV", 0, 4097, 0},                     {12, "EV", 0, 4097, 0},
    {12, "EV", 0, 0xffff, 0}, {12, "EV", 0, 0, 1},     {12, "EV", 0, 0, 12},
    {12, "EV", 0, 0, 4000},   {12 + 5, "EV", 0, 0, 1}, {12 + 5, "SG", 1, 0xffff, 0}
};

/* Such a frame in the place of one of the three STARTs. */
static void set_up_broken_start(unsigned which, unsigned sound)
{
    const size_t octets = broken_starts[which].octets, past = broken_starts[which].past;
    uint8_t *frame = now.event + 12 * sound;
    unsigned link;

    set_up_starts(sound + 1);
    event_octets = 12 * sound + octets;
    for (link = sound + 1; link < 3 && octets >= 12; link++)
        add_start(link);
    memcpy(frame + SSCF_HEAD_AT_MARK, broken_starts[which].mark, 2);
    frame[SSCF_HEAD_AT_ZERO] = broken_starts[which].zero;
    sscf_put_16(frame + SSCF_HEAD_AT_LENGTH,
                past == 0 ? broken_starts[which].length
                          : (uint32_t)(event_octets - 12 * sound - 12 + past));
}

/* First, in the middle and last: it ends the burst, and what was done before it stands. */
static void burst_broken_frames(void)
{
    unsigned i, sound;

    for (i = 0; i < sizeof broken_starts / sizeof *broken_starts; i++)
        for (sound = 0; sound < 3; sound++) {
            turn = 10 * i + sound;
            set_up_broken_start(i, sound);
            want_taken(sound);
            BURST(0, 2, sound, 12 * sound);
        }
}

/* A frame is looked at before the room, and no frame behind an event that has none. */
static void burst_broken_frames_without_room(void)
{
    size_t sound;

    for (sound = 0; sound < 3; sound++) {
        turn = sound;
        set_up_starts(3);
        memcpy(now.event + 12 * sound, "SG", 2);
        out_octets = 36 * sound + 4239;
        want_taken((unsigned)sound);
        BURST(0, 2, sound, 12 * sound);

        set_up_starts(3);
        event_octets += 11;
        out_octets = 36 * sound + 4239;
        want_taken((unsigned)sound);
        BURST(0, 0, sound, 12 * sound);
    }
}

/* Without 4,240 octets no event is taken: not one that writes nothing, nor one that is refused. */
static void burst_without_room(void)
{
    static const uint8_t codes[] = {SSCF_EVENT_START, SSCF_EVENT_CONTINUE, SSCF_EVENT_STOP, 51};
    static const uint32_t numbers[] = {0, 0, 8, 3};
    size_t i;

    for (i = 0; i < sizeof codes; i++) {
        turn = i;
        set_up(1);
        add_bare_event(0, codes[i]);
        add_start(1);
        want_nothing();
        out_octets = 0;
        BURST(0, 0, 0, 0);
        out_octets = 4192;
        BURST(0, 0, 0, 0);
        out_octets = 4239;
        BURST(0, 0, 0, 0);

        out_octets = 4240;
        if (i == 0)
            want_start(0, 0);
        want_number(0, numbers[i]);
        if (i != 0) /* nothing was written, and so there is room for the next, of no such link */
            want_number(1, SSCF_REFUSED_LINK);
        BURST(0, 0, i == 0 ? 1 : 2, i == 0 ? 12 : 24);
    }
}

/* Room for exactly one, two and three events, and an octet less. */
static void burst_rooms(void)
{
    unsigned starts;

    for (starts = 1; starts <= 3; starts++) {
        turn = starts;
        set_up_starts(3);
        out_octets = 36 * (starts - 1) + 4240;
        want_taken(starts);
        BURST(0, 0, starts, 12 * starts);

        set_up_starts(3);
        out_octets = 36 * (starts - 1) + 4239;
        want_taken(starts - 1);
        BURST(0, 0, starts - 1, 12 * (starts - 1));
    }
}

/* A message as long as it may be; and where the room ended a burst, the next goes on. */
static void burst_goes_on(void)
{
    set_up(2);
    put_link(0, SSCF_STATE_3_10_5, 0, 0, 0, 1000);
    add_event(0, SSCF_EVENT_DATA, 0, 7, message, 4096);
    add_start(1);
    want_nothing();
    want_number(0, 0);
    want_bsnt(0, 7);
    want_signal(0, SSCF_SIGNAL_RECEIVED_MESSAGE, 0, 0, message, 4096);
    BURST(0, 0, 1, 12 + 4096);

    memmove(now.event, now.event + 12 + 4096, 12);
    event_octets = 12;
    want_nothing();
    want_number(0, 0);
    want_start(1, 0);
    BURST(0, 0, 1, 12);
}

/* A burst of one event is its single call: every code in every state, with a message or none. */
static void bursts_of_one(void)
{
    static struct memory before;
    unsigned code, state, length;

    for (code = 0; code < 256; code++)
        for (state = 1; state <= 8; state++)
            for (length = 0; length <= 5; length += 5) {
                struct sscf_answer answer;

                turn = 100 * code + 10 * state + length;
                set_up(1);
                put_link(0, state, 0, T1 + T2 + T3, state & 1, 1);
                add_event(0, code, 0, 0, message, length);
                before = now;
                answer = step();
                want_nothing();
                want_number(0, answer.refusal);
                want_octets = answer.octets;
                want_signals = answer.signals;
                now = before;
                BURST(0, 0, 1, event_octets);
            }
}

/*
 * Request 2026-07: a congested link does not prove, and the record keeps the field of the latest
 * release. By numbers, as the request and Table 6 have them, so that the names are checked too.
 */

static void new_sizes(void)
{
    CHECK(SSCF_LINK_OCTETS == 20 && SSCF_TABLE_OCTETS_MAX == 5120 && SSCF_OUTPUT_OCTETS == 4240);
    CHECK(SSCF_LINK_OCTETS * SSCF_LINKS_MAX == SSCF_TABLE_OCTETS_MAX);
    CHECK(12 * SSCF_HEAD_OCTETS + SSCF_MESSAGE_OCTETS_MAX == SSCF_OUTPUT_OCTETS);
    CHECK(SSCF_SIGNALS_MAX == 8);
    CHECK(SSCF_LINK_AT_CONGESTED == 16 && SSCF_LINK_AT_LAST_FIELD == 17);
    CHECK(SSCF_LINK_AT_ZEROS == 18);
    set_up(2);
    put_congestion(1, 1, 10);
    CHECK(sscf_link_congested(now.table, 0) == 0 && sscf_link_congested(now.table, 1) == 1);
    CHECK(sscf_link_last_field(now.table, 0) == 0 && sscf_link_last_field(now.table, 1) == 10);
}

/* The two ways into 2/10/3 from another state, ESTABLISH-indication in 2/1/2 and ESTABLISH-confirm
 * in 2/2/2, and what their cells come to. */
enum way { BY_INDICATION, BY_CONFIRM };

static void put_way_in(enum way way, unsigned peer)
{
    put_event(1, way == BY_INDICATION ? 16 : 17, peer, 0, NULL, 0);
}

static void want_way_in(enum way way, unsigned told_peer)
{
    if (way == BY_INDICATION)
        want_signal(1, 17, told_peer, 0, NULL, 0);
    want_bare_signal(1, 32);
    if (way == BY_INDICATION)
        want_bare_signal(1, 56);
    want_bare_signal(1, 50);
}

/* Congestion in 2/10/3: a release with PNS, REPORT {LR,-,CD}, stop proving, reset T3. */
static void want_given_up(void)
{
    want_signal(1, 18, 10, 0, NULL, 0);
    want_signal(1, 34, 0, three(1, 0, 3), NULL, 0);
    want_bare_signal(1, 33);
    want_bare_signal(1, 58);
}

struct setting {
    unsigned mps, ups, flags, timers, congested, last_field;
};

/* Congested, the step goes on behind all signals of the first cell, its timer orders too, and ends
 * in 2/4/2; all else of the record is as that cell left it. */
static void comes_up(enum way way, struct setting s, unsigned peer)
{
    const unsigned timers = way == BY_INDICATION ? s.timers & ~1u : s.timers;
    uint8_t *record = now.table + 20;

    set_up(3);
    put_link(1, way == BY_INDICATION ? 3 : 4, s.flags, s.timers, 7, 1000);
    put_congestion(1, s.congested, s.last_field);
    record[4] = (uint8_t)s.mps;
    record[5] = (uint8_t)s.ups;
    record[7] = record[10] = 1; /* BSNT 1, of the connection before */
    put_way_in(way, peer);
    want_no_bsnt(1);
    want_way_in(way, told(s.mps, s.ups));
    if (s.congested) {
        want_given_up();
        want_link(1, 5, s.flags & 2, timers & ~4u, units(s.mps, s.ups, peer));
        CHECK(want_signals == (way == BY_INDICATION ? 8 : 6));
    } else {
        want_link(1, 6, s.flags & 2, timers | 4, units(s.mps, s.ups, peer));
    }
    STEP(SSCF_ACCEPTED);
}

/* The status codes, and 0 for no field. */
static const uint8_t status_codes[] = {0, 1, 2, 3, 4, 5, 7, 8, 9, 10};

/* Under every MPS, UPS and field of the peer, with all flags, timers and last fields. */
static void ways_in(void)
{
    unsigned n;

    for (n = 0; n < 3 * 2 * 4 * 8 * 2 * 10; n++) {
        struct setting s;

        turn = n;
        s.mps = n % 3;
        s.ups = n / 3 % 2;
        s.flags = n / 6 % 4;
        s.timers = n / 24 % 8;
        s.congested = n / 192 % 2;
        s.last_field = status_codes[n / 384];
        comes_up(BY_INDICATION, s, 4);
        comes_up(BY_INDICATION, s, 5);
        comes_up(BY_CONFIRM, s, 4);
        comes_up(BY_CONFIRM, s, 5);
    }
}

/* A connection with another field is released for that, by PE, and a call in 1/1/1 is turned down;
 * neither enters 2/10/3, and so congestion adds nothing. */
static void other_ways(void)
{
    unsigned n, congested;

    for (n = 0; n < sizeof status_codes; n++)
        for (congested = 0; congested <= 1; congested++) {
            const unsigned field = status_codes[n];

            turn = 10 * field + congested;
            set_up(2);
            put_congestion(1, congested, 8);
            put_event(1, 16, field, 0, NULL, 0);
            want_signal(1, 18, 1, 0, NULL, 0);
            STEP(SSCF_ACCEPTED);
            if (field == 4 || field == 5)
                continue;
            put_link(1, 3, 1, 1 + 2, 7, 1000);
            put_congestion(1, congested, 8);
            put_way_in(BY_INDICATION, field);
            want_signal(1, 18, 9, 0, NULL, 0);
            want_signal(1, 34, 0, three(1, 0, 4), NULL, 0);
            STEP(SSCF_ACCEPTED);
            put_link(1, 4, 0, 2, 7, 1000);
            put_congestion(1, congested, 8);
            put_way_in(BY_CONFIRM, field);
            want_link(1, 5, 0, 2, 1000);
            want_signal(1, 18, 9, 0, NULL, 0);
            want_signal(1, 34, 0, three(1, 0, 4), NULL, 0);
            STEP(SSCF_ACCEPTED);
        }
}

/* What congestion and its end come to in a state, the flag apart: Table 6. */

static void want_begun(unsigned state, unsigned level)
{
    if (state == 6) { /* its cell is performed once */
        want_given_up();
        want_link(1, 5, 1, 1 + 2, 7);
    } else if (state >= 7) {
        want_signal(1, 2, level, 0, NULL, 0);
        want_signal(1, 34, 0, three(0, 0, 3), NULL, 0);
    }
}

static void want_ended(unsigned state)
{
    if (state >= 7)
        want_bare_signal(1, 3);
    if (state >= 7 || state == 5)
        want_signal(1, 34, 0, three(0, 0, 2), NULL, 0);
}

/* In every state, congested before or not. An end that is refused leaves the flag. */
static void flags_set_and_cleared(void)
{
    unsigned state, congested, level;

    for (state = 1; state <= 8; state++)
        for (congested = 0; congested <= 1; congested++)
            for (level = 0; level <= 4; level++) {
                turn = 100 * state + 10 * congested + level;
                set_up(3);
                put_link(1, state, 1, 1 + 2 + 4, 7, 1000);
                put_congestion(1, congested, 7);
                if (level < 4) {
                    put_event(1, 39, level, 0, NULL, 0);
                    want_congested(1, 1);
                    want_begun(state, level);
                } else {
                    put_bare_event(1, 40);
                    if (state != 6)
                        want_congested(1, 0);
                    want_ended(state);
                }
                STEP(level == 4 && state == 6 ? SSCF_REFUSED_STATE : SSCF_ACCEPTED);
            }
}

/* A record made by hand, congested in 2/10/3, is well-formed: it proves on by T3, and comes into
 * service. */
static void congested_by_hand(void)
{
    set_up(2);
    put_link(1, 6, 0, 2 + 4, 1, 1000);
    put_congestion(1, 1, 3);
    put_bare_event(1, 50);
    want_link(1, 6, 0, 2 + 4, 0);
    want_signal(1, 19, 0, 0, nm_unit, 4);
    want_bare_signal(1, 50);
    STEP(SSCF_ACCEPTED);
    put_event(1, 20, 0, 5, nm_unit, 4);
    want_bsnt(1, 5);
    STEP(SSCF_ACCEPTED);
    put_bare_event(1, 50);
    want_link(1, 7, 0, 2, 0);
    want_bare_signal(1, 33);
    want_signal(1, 19, 0, 0, ins_unit, 4);
    STEP(SSCF_ACCEPTED);
    put_event(1, 20, 0, 6, ins_unit, 4);
    want_link(1, 8, 0, 0, 0);
    want_bsnt(1, 6);
    want_bare_signal(1, 4);
    want_signal(1, 34, 0, three(0, 2, 0), NULL, 0);
    want_bare_signal(1, 57);
    STEP(SSCF_ACCEPTED);
}

/* A link that is congested from before its START on: its connection comes up three times and is
 * given up each time, and when the congestion is over it proves. The last field was another's. */

static void tries_in_vain(enum way way)
{
    put_way_in(way, 4);
    want_way_in(way, 4);
    want_given_up();
    want_link(1, 5, 0, 2, 1000);
    STEP(SSCF_ACCEPTED);
    put_bare_event(1, 19);
    want_link(1, 3, 0, 1 + 2, 1000);
    want_bare_signal(1, 48);
    STEP(SSCF_ACCEPTED);
}

static void tries_again(void)
{
    put_bare_event(1, 48);
    want_link(1, 4, 0, 2, 1000);
    want_signal(1, 16, 4, 0, NULL, 0);
    STEP(SSCF_ACCEPTED);
}

static void congested_life(void)
{
    set_up(2);
    put_congestion(1, 0, 1);
    put_event(1, 39, 2, 0, NULL, 0);
    want_congested(1, 1);
    STEP(SSCF_ACCEPTED);
    put_bare_event(1, 5);
    want_start(1, 0);
    STEP(SSCF_ACCEPTED);
    tries_in_vain(BY_CONFIRM);
    tries_in_vain(BY_INDICATION);
    tries_again();
    tries_in_vain(BY_CONFIRM);
    put_bare_event(1, 40);
    want_congested(1, 0);
    STEP(SSCF_ACCEPTED);
    tries_again();
    put_way_in(BY_CONFIRM, 4);
    want_way_in(BY_CONFIRM, 4);
    want_link(1, 6, 0, 2 + 4, 1000);
    STEP(SSCF_ACCEPTED);
    CHECK(now.table[20 + 16] == 0 && now.table[20 + 17] == 10);
}

/* Every cell of Table 6 that sends a release, with its field. An event brings a field, or as a
 * message an INS unit, an NM unit or one of five octets; LPO is flag 2, and C1 is 0. */
static const struct {
    uint8_t state, code, field, flags;
    const uint8_t *message;
    uint8_t length, sent;
} releases[] = {
    {1, 16, 0, 0, NULL, 0, 1},       {1, 16, 4, 0, NULL, 0, 1},       {1, 16, 5, 1, NULL, 0, 1},
    {1, 16, 0, 2, NULL, 0, 2},       {1, 16, 4, 2, NULL, 0, 2},       {3, 16, 0, 0, NULL, 0, 9},
    {3, 16, 10, 2, NULL, 0, 9},      {4, 4, 0, 0, NULL, 0, 1},        {4, 17, 0, 0, NULL, 0, 9},
    {4, 17, 1, 2, NULL, 0, 9},       {4, 33, 0, 0, NULL, 0, 8},       {4, 49, 0, 0, NULL, 0, 7},
    {6, 4, 0, 0, NULL, 0, 1},        {6, 20, 0, 0, message, 5, 9},    {6, 21, 0, 0, NULL, 0, 9},
    {6, 22, 0, 0, NULL, 0, 9},       {6, 32, 0, 0, NULL, 0, 10},      {6, 33, 0, 0, NULL, 0, 8},
    {6, 39, 0, 0, NULL, 0, 10},      {6, 39, 3, 0, NULL, 0, 10},      {6, 49, 0, 0, NULL, 0, 7},
    {6, 50, 0, 2, NULL, 0, 2},       {6, 50, 0, 3, NULL, 0, 2},       {7, 4, 0, 0, NULL, 0, 1},
    {7, 20, 0, 0, message, 5, 9},    {7, 21, 0, 0, NULL, 0, 9},       {7, 33, 0, 0, NULL, 0, 8},
    {7, 34, 0, 0, NULL, 0, 2},       {7, 49, 0, 0, NULL, 0, 7},       {8, 4, 0, 0, NULL, 0, 1},
    {8, 20, 0, 0, ins_unit, 4, 9},   {8, 20, 0, 0, nm_unit, 4, 9},    {8, 21, 0, 0, NULL, 0, 9},
    {8, 33, 0, 0, NULL, 0, 8},       {8, 34, 0, 0, NULL, 0, 2}
};
enum { RELEASES = sizeof releases / sizeof *releases };

/* The field of the one release in what a step wrote; 0 if there is none. */
static unsigned field_sent(struct sscf_answer answer)
{
    const uint8_t *signal;

    for (signal = sscf_first_signal(now.out, answer); signal != NULL;
         signal = sscf_next_signal(now.out, answer, signal))
        if (signal[4] == 18)
            return signal[5];
    return 0;
}

/* What is sent is kept, and where nothing is sent what was kept before: by every field before it,
 * congested or not. Only 39 and 40 alter the flag. */
static void field_is_kept(unsigned state, unsigned flags, unsigned code, unsigned field,
                          const uint8_t *octets, size_t length, unsigned sent)
{
    unsigned n, congested;

    for (n = 0; n < sizeof status_codes; n++)
        for (congested = 0; congested <= 1; congested++) {
            const unsigned flag = code == 39 ? 1 : code == 40 ? 0 : congested;
            const unsigned kept = status_codes[n];
            struct sscf_answer answer;

            set_up(1);
            put_link(0, state, flags, 1 + 2 + 4, 0, 1000);
            put_congestion(0, congested, kept);
            put_event(0, code, field, 0, octets, length);
            answer = step();
            CHECK(answer.refusal == SSCF_ACCEPTED);
            CHECK(field_sent(answer) == sent);
            CHECK(now.table[16] == flag && now.table[17] == (sent != 0 ? sent : kept));
            CHECK(now.table[18] == 0 && now.table[19] == 0);
        }
}

static void last_fields(void)
{
    unsigned i;

    for (i = 0; i < RELEASES; i++) {
        turn = i;
        field_is_kept(releases[i].state, releases[i].flags, releases[i].code, releases[i].field,
                      releases[i].message, releases[i].length, releases[i].sent);
    }
}

/* Whether a bare event, or with a code that needs one a message of five octets, sends one. */
static unsigned bare_release(unsigned state, unsigned code)
{
    unsigned i;

    for (i = 0; i < RELEASES; i++)
        if (releases[i].state == state && releases[i].code == code && releases[i].field == 0 &&
            releases[i].flags == 0 && releases[i].length == 0)
            return releases[i].sent;
    return 0;
}

static void last_fields_kept(void)
{
    unsigned row, code, state;

    for (row = 0; row < ROWS; row++)
        for (code = rows[row].first; code <= rows[row].last; code++)
            for (state = 1; state <= 8; state++) {
                turn = 10 * code + state;
                if (rows[row].legal[state - 1] != '.')
                    field_is_kept(state, 0, code, 0, message, code == 1 ? 5 : 0,
                                  bare_release(state, code));
            }
}

/* Both ways in one burst, with a START of another link between them, and room that ends behind each
 * of the six events, or an octet before. */

static void add_congested_events(void)
{
    add_start(1);
    add_event(1, 39, 2, 0, NULL, 0);
    add_event(1, 17, 4, 0, NULL, 0);
    add_start(0);
    add_bare_event(1, 19);
    add_event(1, 16, 5, 0, NULL, 0);
}

static void want_congested_events(size_t taken)
{
    want_nothing();
    memset(want.list, 0, taken * sizeof *want.list);
    if (taken > 0)
        want_start(1, 0);
    if (taken > 1)
        want_congested(1, 1);
    if (taken > 2) {
        want_way_in(BY_CONFIRM, 4);
        want_given_up();
        want_link(1, 5, 0, 2, 1000);
    }
    if (taken > 3)
        want_start(0, 0);
    if (taken > 4) {
        want_bare_signal(1, 48);
        want_link(1, 3, 0, 1 + 2, 1000);
    }
    if (taken > 5) {
        want_way_in(BY_INDICATION, 4);
        want_given_up();
        want_link(1, 5, 0, 2, 0);
    }
}

static void burst_congested(void)
{
    /* the octets written before each event, and behind the last */
    static const size_t written[] = {0, 36, 36, 108, 144, 156, 252};
    size_t event, less, taken;

    for (event = 0; event < 6; event++)
        for (less = 0; less <= 1; less++) {
            turn = 10 * event + less;
            set_up(2);
            add_congested_events();
            out_octets = written[event] + 4240 - less;
            for (taken = 0; taken < 6 && out_octets - written[taken] >= 4240; taken++)
                ;
            want_congested_events(taken);
            CHECK(want_octets == written[taken]);
            BURST(0, 0, taken, 12 * taken);
        }
}

/*
 * Changeover messages: Q.2210's figure 3, with figure 2 and clause 9.6 for the order of octets and
 * bits. They are written to `out`, and read from `event`.
 */

static int same_fields(struct sscf_changeover a, struct sscf_changeover b)
{
    return a.sub_service == b.sub_service && a.service == b.service && a.dpc == b.dpc &&
           a.opc == b.opc && a.slc == b.slc && a.heading == b.heading && a.number == b.number;
}

/* Until told otherwise, nine octets are lent for either. */
static void set_up_changeover(void)
{
    set_up(0);
    out_octets = event_octets = SSCF_CHANGEOVER_OCTETS;
}

/* The octets are those that an accepted message comes to; refused, the output stays as it was. */
static void write_is(struct sscf_changeover fields, uint32_t refusal, const uint8_t *octets,
                     int line)
{
    uint32_t answer;

    want_nothing();
    if (refusal == SSCF_ACCEPTED)
        memcpy(want.out, octets, SSCF_CHANGEOVER_OCTETS);
    answer = sscf_changeover_write(lent(now.out, out_octets), out_octets, fields);
    check(answer == refusal, "the refusal is the one expected", line);
    check(memcmp(&now, &want, sizeof now) == 0, "the buffers are as expected", line);
}

/* The fields are those of an accepted message; refused, every field is 0. */
static void read_is(const uint8_t *octets, uint32_t refusal, struct sscf_changeover fields,
                    int line)
{
    static const struct sscf_changeover zeros;
    struct sscf_changeover_answer answer;

    memcpy(now.event, octets, SSCF_CHANGEOVER_OCTETS);
    want_nothing();
    answer = sscf_changeover_read(lent(now.event, event_octets), event_octets);
    check(answer.refusal == refusal, "the refusal is the one expected", line);
    check(same_fields(answer.message, refusal == SSCF_ACCEPTED ? fields : zeros),
          "the fields are those expected", line);
    check(memcmp(&now, &want, sizeof now) == 0, "the buffers are as expected", line);
}

static void both_ways_are(struct sscf_changeover fields, uint32_t refusal, const uint8_t *octets,
                          int line)
{
    write_is(fields, refusal, octets, line);
    read_is(octets, refusal, fields, line);
}

#define WRITE(fields, refusal, octets) write_is((fields), (refusal), (octets), __LINE__)
#define READ(octets, refusal, fields) read_is((octets), (refusal), (fields), __LINE__)
#define BOTH_WAYS(fields, refusal, octets) both_ways_are((fields), (refusal), (octets), __LINE__)

/* A message as Wireshark reads it, and with everything at its greatest. */
static const struct sscf_changeover xco = {8, 0, 4660, 13602, 5, 0x31, 197121};
static const uint8_t xco_octets[9] = {0x80, 0x34, 0x92, 0x48, 0x5d, 0x31, 0x01, 0x02, 0x03};
static const struct sscf_changeover xca = {15, 0, 16383, 16383, 15, 0x41, 16777215};
static const uint8_t xca_octets[9] = {0xf0, 0xff, 0xff, 0xff, 0xff, 0x41, 0xff, 0xff, 0xff};

static void changeovers(void)
{
    set_up_changeover();
    CHECK(SSCF_CHANGEOVER_OCTETS == 9);
    CHECK(SSCF_CHANGEOVER_XCO == 0x31 && SSCF_CHANGEOVER_XCA == 0x41);
    BOTH_WAYS(xco, 0, xco_octets);
    BOTH_WAYS(xca, 0, xca_octets);
}

enum field { SUB_SERVICE, DPC, OPC, SLC, NUMBER };

static struct sscf_changeover with(struct sscf_changeover fields, enum field field, uint32_t value)
{
    switch (field) {
    case SUB_SERVICE:
        fields.sub_service = (uint8_t)value;
        break;
    case DPC:
        fields.dpc = (uint16_t)value;
        break;
    case OPC:
        fields.opc = (uint16_t)value;
        break;
    case SLC:
        fields.slc = (uint8_t)value;
        break;
    default:
        fields.number = value;
    }
    return fields;
}

/* Each bit of the figure by itself, among zeros and as the one 0 among ones. */
static void changeover_bits(void)
{
    static const struct {
        enum field field;
        uint8_t from;       /* a bit of the field, 0 its lowest; more follow, upwards in both */
        uint8_t octet, bit; /* where the figure has it, counted from 1 as there */
        uint8_t bits;
    } parts[] = {
        {SUB_SERVICE, 0, 1, 5, 4}, {DPC, 0, 2, 1, 8},    {DPC, 8, 3, 1, 6},
        {OPC, 0, 3, 7, 2},         {OPC, 2, 4, 1, 8},    {OPC, 10, 5, 1, 4},
        {SLC, 0, 5, 5, 4},         {NUMBER, 0, 7, 1, 8}, {NUMBER, 8, 8, 1, 8},
        {NUMBER, 16, 9, 1, 8}
    };
    static const struct sscf_changeover none = {0, 0, 0, 0, 0, 0x31, 0};
    static const uint8_t none_octets[9] = {0, 0, 0, 0, 0, 0x31, 0, 0, 0};
    static const uint32_t greatest[] = {15, 16383, 16383, 15, 16777215};
    unsigned part, i;

    set_up_changeover();
    for (part = 0; part < sizeof parts / sizeof *parts; part++)
        for (i = 0; i < parts[part].bits; i++) {
            const enum field field = parts[part].field;
            const uint32_t value = (uint32_t)1 << (parts[part].from + i);
            const unsigned at = parts[part].octet - 1u;
            uint8_t octets[9];

            turn = 10 * part + i;
            memcpy(octets, none_octets, 9);
            octets[at] ^= (uint8_t)(1u << (parts[part].bit - 1 + i));
            BOTH_WAYS(with(none, field, value), 0, octets);
            memcpy(octets, xca_octets, 9);
            octets[at] ^= (uint8_t)(1u << (parts[part].bit - 1 + i));
            BOTH_WAYS(with(xca, field, greatest[field] - value), 0, octets);
        }
}

/* Refusal 4: each field one above its greatest, and at the greatest that its type has. */
static void changeover_widths(void)
{
    static const struct {
        enum field field;
        uint32_t greatest, most;
    } widths[] = {{SUB_SERVICE, 15, 0xff}, {DPC, 16383, 0xffff}, {OPC, 16383, 0xffff},
                  {SLC, 15, 0xff}, {NUMBER, 16777215, 0xffffffff}};
    unsigned i;

    set_up_changeover();
    for (i = 0; i < sizeof widths / sizeof *widths; i++) {
        turn = i;
        WRITE(with(xco, widths[i].field, widths[i].greatest + 1), 4, NULL);
        WRITE(with(xco, widths[i].field, widths[i].most), 4, NULL);
        WRITE(with(xca, widths[i].field, widths[i].greatest), 0, xca_octets);
    }
}

/* Refusal 1. The one below, the one above, none at all, and some that end in the octet of nine. */
static void changeover_lengths(void)
{
    static const size_t lengths[] = {0, 1, 2, 3, 4, 5, 6, 7, 8, 10, 11, 12, 18, 256 + 9, 4096 + 9};
    size_t i;

    set_up_changeover();
    for (i = 0; i < sizeof lengths / sizeof *lengths; i++) {
        turn = i;
        out_octets = event_octets = lengths[i];
        BOTH_WAYS(xco, 1, xco_octets);
    }
    out_octets = event_octets = 9;
    BOTH_WAYS(xco, 0, xco_octets);
}

/* Refusals 2 and 3: every heading and every service indicator, by itself. */
static void changeover_headings_and_services(void)
{
    unsigned value;

    for (value = 0; value < 256; value++) {
        struct sscf_changeover fields = xco;
        uint8_t octets[9];

        turn = value;
        set_up_changeover();
        memcpy(octets, xco_octets, 9);
        fields.heading = octets[5] = (uint8_t)value;
        BOTH_WAYS(fields, value == 0x31 || value == 0x41 ? 0 : 2, octets);

        fields = xco;
        fields.service = (uint8_t)value;
        set_up_changeover();
        WRITE(fields, value == 0 ? 0 : 3, xco_octets);
        memcpy(octets, xco_octets, 9);
        octets[0] = (uint8_t)value;
        fields.service = 0;
        fields.sub_service = (uint8_t)(value >> 4);
        READ(octets, value % 16 == 0 ? 0 : 3, fields);
    }
}

/* Reading refuses nothing else, and what was read is written as the same octets. */
static void every_changeover_octet(void)
{
    unsigned at, value;

    for (at = 0; at < 9; at++)
        for (value = 0; value < 256; value += at == 0 ? 16 : 1) {
            uint8_t octets[9];
            struct sscf_changeover_answer answer;

            if (at == 5 && value != 0x31 && value != 0x41)
                continue;
            turn = 1000 * at + value;
            set_up_changeover();
            memcpy(octets, xco_octets, 9);
            octets[at] = (uint8_t)value;
            answer = sscf_changeover_read(octets, 9);
            CHECK(answer.refusal == 0);
            WRITE(answer.message, 0, octets);
        }
}

/* Several things wrong at once, each of the fields in turn being too wide: the lowest number is
 * answered. A field too wide cannot be read. */
static void changeover_several_wrong(void)
{
    unsigned wrong, field, lowest;

    for (wrong = 1; wrong < 1u << 4; wrong++)
        for (field = SUB_SERVICE; field <= NUMBER; field++) {
            struct sscf_changeover fields = xco;
            uint8_t octets[9];

            turn = 10 * wrong + field;
            set_up_changeover();
            memcpy(octets, xco_octets, 9);
            if (wrong & 1u << 0)
                out_octets = event_octets = 8;
            if (wrong & 1u << 1)
                fields.heading = octets[5] = 0x13;
            if (wrong & 1u << 2)
                fields.service = octets[0] = 3;
            if (wrong & 1u << 3)
                fields = with(fields, (enum field)field, 0xffffffff);
            for (lowest = 1; (wrong >> (lowest - 1) & 1) == 0; lowest++)
                ;
            WRITE(fields, lowest, NULL);
            if (lowest != 4)
                READ(octets, lowest, fields);
        }
}

/*
 * Deadlines: a call works on `keeper`, and `due` is what all of it should hold afterwards, guards
 * among it. Table 5 has T1 at 5 seconds and T2 at 30.
 */

enum { SET_T1 = 48, SET_T2 = 49, SET_T3 = 50, RESET_T1 = 56, RESET_T2 = 57, RESET_T3 = 58 };
enum { MANY = 256, MANY_TIMERS = 3 * MANY };

static const uint64_t ones = UINT64_MAX;

struct deadlines {
    uint64_t guard_1[4];
    uint64_t deadlines[MANY_TIMERS + 4];
    uint64_t guard_2[4];
    uint64_t periods[MANY + 1];
    uint64_t guard_3[4];
};

static struct deadlines keeper, due;
static size_t count, links; /* as lent to the library */

/* A list of no running timers and so many links, all else filled with numbers that are neither. */
static void set_up_deadlines(size_t new_links)
{
    size_t n;

    links = new_links;
    count = 3 * links + 1;
    memset(&keeper, 0x5A, sizeof keeper);
    for (n = 0; n < 3 * links; n++)
        keeper.deadlines[n] = ones;
    keeper.deadlines[3 * links] = 0;
    for (n = 0; n < links; n++)
        keeper.periods[n] = 1 + 59999 * (n % 2); /* its limits by turns */
    due = keeper;
}

static int as_due(void)
{
    return memcmp(&keeper, &due, sizeof keeper) == 0;
}

static void order_is(unsigned link, unsigned code, uint64_t time, uint32_t refusal)
{
    CHECK(sscf_deadlines_order(keeper.deadlines, count, keeper.periods, links, (uint16_t)link, (uint8_t)code,
                               time) == refusal);
    CHECK(as_due());
}

static void due_is(uint64_t time, uint32_t refusal, uint32_t expired, uint32_t link)
{
    struct sscf_due_answer answer = sscf_deadlines_due(keeper.deadlines, count, keeper.periods, links, time);

    CHECK(answer.refusal == refusal && answer.expired == expired && answer.link == link);
    CHECK(as_due());
}

/* An accepted order has this deadline of its timer and this time. */
static void ordered(unsigned link, unsigned code, uint64_t time, uint64_t deadline)
{
    due.deadlines[3 * link + code % 8] = deadline;
    due.deadlines[3 * links] = time;
    order_is(link, code, time, SSCF_ACCEPTED);
}

/* A question that names a timer, 0 for T1; and one that finds nothing due. */
static void named(uint64_t time, unsigned link, unsigned timer)
{
    due.deadlines[3 * link + timer] = ones;
    due.deadlines[3 * links] = time;
    due_is(time, SSCF_ACCEPTED, 48 + timer, link);
}

static void nothing_due(uint64_t time)
{
    due.deadlines[3 * links] = time;
    due_is(time, SSCF_ACCEPTED, 0, 0);
}

static void fresh_deadlines(void)
{
    size_t n;

    for (n = 0; n <= MANY_TIMERS + 4; n++) {
        turn = n;
        set_up_deadlines(MANY);
        memset(keeper.deadlines, 0x5A, sizeof keeper.deadlines);
        due = keeper;
        if (n >= 4 && n <= MANY_TIMERS + 1 && n % 3 == 1) {
            memset(due.deadlines, 0xFF, (n - 1) * sizeof *due.deadlines);
            due.deadlines[n - 1] = 0;
            CHECK(sscf_deadlines_fresh(keeper.deadlines, n) == SSCF_ACCEPTED);
        } else {
            CHECK(sscf_deadlines_fresh(keeper.deadlines, n) == SSCF_DEADLINES_REFUSED_LISTS);
        }
        CHECK(as_due());
    }
    CHECK(sscf_deadlines_fresh(NULL, 0) == SSCF_DEADLINES_REFUSED_LISTS);
    /* beyond what sscf.h says: a count that is refused is not believed */
    CHECK(sscf_deadlines_fresh(keeper.deadlines, SIZE_MAX) == SSCF_DEADLINES_REFUSED_LISTS);
    CHECK(as_due());
}

/* The same with every timer running, each until another time. */
static void set_up_running(size_t new_links)
{
    size_t n;

    set_up_deadlines(new_links);
    for (n = 0; n < 3 * links; n++)
        keeper.deadlines[n] = due.deadlines[n] = 100 + n;
}

static void every_code(unsigned link)
{
    unsigned code;

    for (code = 0; code < 256; code++) {
        turn = 1000 * link + code;
        set_up_running(links);
        order_is((unsigned)links, code, 7, SSCF_DEADLINES_REFUSED_ORDER);
        order_is(0xFFFF, code, 7, SSCF_DEADLINES_REFUSED_ORDER);
        if (code == SET_T1 || code == SET_T2)
            ordered(link, code, 7, code == SET_T1 ? 5007 : 30007);
        else if (code == SET_T3)
            ordered(link, code, 7, link % 2 == 0 ? 8 : 60007);
        else if (code >= RESET_T1 && code <= RESET_T3)
            ordered(link, code, 7, ones);
        else
            order_is(link, code, 7, SSCF_DEADLINES_REFUSED_ORDER);
    }
}

/* Every code, for the first link, one between, the last and the one behind it, on lists of one, two and all. */
static void timer_orders_kept(void)
{
    static const size_t sizes[] = {1, 2, MANY};
    unsigned n;

    for (n = 0; n < 3; n++) {
        set_up_running(sizes[n]);
        every_code(0);
        every_code((unsigned)links / 2);
        every_code((unsigned)links - 1);
    }
}

/* Set, set afresh, reset, reset again; and a time that goes back, by an order and by a question. */
static void timers_set_and_reset(void)
{
    set_up_deadlines(2);
    ordered(1, SET_T2, 0, 30000);
    ordered(1, SET_T2, 100, 30100);
    ordered(0, SET_T2, 100, 30100);
    ordered(1, RESET_T2, 101, ones);
    ordered(1, RESET_T2, 101, ones);
    order_is(0, SET_T2, 100, SSCF_DEADLINES_REFUSED_TIME);
    order_is(0, RESET_T2, 100, SSCF_DEADLINES_REFUSED_TIME);
    due_is(100, SSCF_DEADLINES_REFUSED_TIME, 0, 0);
    nothing_due(101);
    nothing_due(30099);
    order_is(0, RESET_T2, 30098, SSCF_DEADLINES_REFUSED_TIME);
    named(30100, 0, 1);
    nothing_due(30100);
    nothing_due(ones);
    order_is(0, SET_T3, ones, SSCF_DEADLINES_REFUSED_DEADLINE);
    ordered(0, RESET_T3, ones, ones);
}

/* The earliest first, then the lower link, then the lower timer; what is late waits for its time. */
static void timers_due_in_order(void)
{
    set_up_deadlines(MANY);
    ordered(200, SET_T1, 1000, 6000);
    ordered(7, SET_T3, 1000, 61000);
    ordered(255, SET_T1, 1000, 6000);
    ordered(200, SET_T2, 1000, 31000);
    ordered(0, SET_T2, 1000, 31000);
    due.deadlines[3 * 200 + 2] = keeper.deadlines[3 * 200 + 2] = 6000;
    due.deadlines[3 * 100 + 2] = keeper.deadlines[3 * 100 + 2] = 5999;
    nothing_due(5998);
    named(60999, 100, 2);
    named(60999, 200, 0);
    named(60999, 200, 2);
    named(60999, 255, 0);
    named(60999, 0, 1);
    named(60999, 200, 1);
    nothing_due(60999);
    named(61000, 7, 2);
    nothing_due(61000);
}

/* Every place, alone, and with all before it due a millisecond later and all behind it at the same time. */
static void every_timer_due(void)
{
    unsigned n, k;

    for (n = 0; n < MANY_TIMERS; n++) {
        turn = n;
        set_up_deadlines(MANY);
        keeper.deadlines[n] = due.deadlines[n] = 5;
        nothing_due(4);
        named(5, n / 3, n % 3);
        for (k = 0; k < MANY_TIMERS; k++)
            keeper.deadlines[k] = due.deadlines[k] = 6 + (k < n);
        named(7, n / 3, n % 3);
    }
}

/* The last deadline there can be, and the first there cannot; all ones is due at no time. */
static void last_deadlines(void)
{
    set_up_deadlines(2);
    keeper.periods[1] = due.periods[1] = 10;
    ordered(1, SET_T3, ones - 11, ones - 1);
    order_is(1, SET_T3, ones - 10, SSCF_DEADLINES_REFUSED_DEADLINE);
    order_is(1, SET_T3, ones, SSCF_DEADLINES_REFUSED_DEADLINE);
    order_is(1, SET_T1, ones - 11, SSCF_DEADLINES_REFUSED_DEADLINE);
    order_is(1, SET_T2, ones - 11, SSCF_DEADLINES_REFUSED_DEADLINE);
    order_is(0, SET_T3, ones - 12, SSCF_DEADLINES_REFUSED_TIME);
    nothing_due(ones - 2);
    named(ones - 1, 1, 2);
    nothing_due(ones);
    set_up_deadlines(1);
    order_is(0, SET_T1, ones - 5000, SSCF_DEADLINES_REFUSED_DEADLINE);
    ordered(0, SET_T1, ones - 5001, ones - 1);
    set_up_deadlines(1);
    order_is(0, SET_T2, ones - 30000, SSCF_DEADLINES_REFUSED_DEADLINE);
    ordered(0, SET_T2, ones - 30001, ones - 1);
}

/* A period out of range at any place, whatever is asked of which link. */
static void bad_periods(void)
{
    static const uint64_t bad[] = {0, 60001, (uint64_t)1 << 32, UINT64_MAX};
    unsigned n;

    for (n = 0; n < 4 * MANY; n++) {
        turn = n;
        set_up_deadlines(MANY);
        keeper.periods[n / 4] = due.periods[n / 4] = bad[n % 4];
        order_is(0, RESET_T1, 9, SSCF_DEADLINES_REFUSED_PERIOD);
        order_is(255, SET_T3, 9, SSCF_DEADLINES_REFUSED_PERIOD);
        due_is(9, SSCF_DEADLINES_REFUSED_PERIOD, 0, 0);
    }
}

/* Beyond what sscf.h says: lists that are refused are not read, however long they are said to be. */
static void bad_lists(void)
{
    static const size_t counts[][2] = {{0, 0}, {1, 0}, {4, 0}, {3, 1}, {5, 1}, {4, 2}, {6, 2}, {8, 2}, {7, 1},
                                       {769, 255}, {768, 256}, {770, 256}, {772, 257}, {771, 257},
                                       {SIZE_MAX, SIZE_MAX}, {0, SIZE_MAX / 3 + 1}, {4, SIZE_MAX / 3 + 2}};
    unsigned n;

    for (n = 0; n < sizeof counts / sizeof *counts; n++) {
        turn = n;
        set_up_deadlines(MANY);
        count = counts[n][0];
        links = counts[n][1];
        order_is(0, SET_T1, 9, SSCF_DEADLINES_REFUSED_LISTS);
        due_is(9, SSCF_DEADLINES_REFUSED_LISTS, 0, 0);
    }
    CHECK(sscf_deadlines_order(NULL, 0, NULL, 0, 0, SET_T1, 0) == SSCF_DEADLINES_REFUSED_LISTS);
    CHECK(sscf_deadlines_due(NULL, 0, NULL, 0, 0).refusal == SSCF_DEADLINES_REFUSED_LISTS);
}

/* Each thing wrong with each other: the lowest number is answered. */
static void deadlines_several_wrong(void)
{
    unsigned n;

    for (n = 1; n < 32; n++) {
        uint32_t refusal = n & 1 ? 1 : n & 2 ? 2 : n & 4 ? 3 : n & 8 ? 4 : 5;
        uint64_t time = n & 16 ? ones - 3 : 1000; /* too late to set T1 */

        turn = n;
        set_up_deadlines(2);
        keeper.deadlines[6] = due.deadlines[6] = n & 8 ? time + 1 : time;
        if (n & 2)
            keeper.periods[1] = due.periods[1] = 0;
        if (n & 1)
            count = 6;
        order_is(n & 4 ? 2 : 0, SET_T1, time, refusal);
        if (n & 4)
            order_is(0, SET_T1 - 1, time, refusal);
        if (n & (1 | 2 | 8))
            due_is(time, n & 1 ? 1 : n & 2 ? 2 : 4, 0, 0);
    }
}

int main(void)
{
    static void (*const parts[])(void) = {
        version,       fresh_tables,   fresh_refusals, first_use,     first_use_by_helpers,
        into_service,  one_life,       messages,       timer_orders,  forgets_by_confirm,
        forgets_by_response, haste,
        broken_lengths, broken_frames, broken_fields,  broken_fields_together,
        fault_names,   faults_in_every_state, faults_on_every_table, faults_behind_others,
        broken_records, states,
        crossings,     several_wrong,  burst_of_none,  burst_into_service, burst_restart,
        burst_refusals, burst_faults,  burst_tables,   burst_lists,
        burst_list_before_a_broken_frame,
        burst_broken_frames, burst_broken_frames_without_room, burst_without_room, burst_rooms,
        burst_goes_on, bursts_of_one,
        new_sizes,     ways_in,        other_ways,     flags_set_and_cleared, congested_by_hand,
        congested_life, last_fields,   last_fields_kept, burst_congested,
        changeovers,    changeover_bits, changeover_widths,
        changeover_lengths, changeover_headings_and_services, every_changeover_octet,
        changeover_several_wrong,
        fresh_deadlines, timer_orders_kept, timers_set_and_reset, timers_due_in_order,
        every_timer_due, last_deadlines, bad_periods, bad_lists, deadlines_several_wrong
    };
    size_t i;

    for (i = 0; i < sizeof message; i++)
        message[i] = (uint8_t)(i * 13 + 5);
    for (i = 0; i < sizeof parts / sizeof *parts; i++) {
        turn = 0;
        parts[i]();
    }
    printf("conformance: %lu checks, %lu failed\n", checks, failures);
    return failures == 0 ? 0 : 1;
}
