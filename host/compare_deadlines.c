/*
 * Runs the calls on deadlines of the library and of the second machine side by side on equal lists,
 * as compare.c does the others: counts, codes, links, periods, times and deadlines about each bound,
 * several things wrong at once, lists that hold anything at all, and long random histories. What is
 * answered is also held against what the program knows by itself: the refusal for which a case was
 * made, the numbers that a call may change, and, where it asks at one time until nothing is due, the
 * names by a sort of its own. It ends at the first difference.
 *
 *     compare_deadlines [SEED [CALLS]]     CALLS is that of the random histories
 */
#include <sscf.h>

#include "compare.h"
#include "second.h"

#include <stdio.h>
#include <stdlib.h>
#include <string.h>

enum { TIMERS = 3, MOST = SSCF_LINKS_MAX, LONGEST = SSCF_DEADLINES(MOST) };

/* In milliseconds, by Q.2140's Table 5. */
enum { T1_PERIOD = 5000, T2_PERIOD = 30000 };

/* The numbers that a list has at most here: more than any that is good. */
enum { ROOM = LONGEST + 31 };

#define ALL_ONES SSCF_NOT_RUNNING

/* The latest time at which every timer can be set. */
#define LATEST (ALL_ONES - 1 - SSCF_PERIOD_MAX)

#define LENGTH(array) (sizeof(array) / sizeof(array)[0])

/* One call as both are to get it. After it the deadlines are what the call made of them. */
struct call {
    uint64_t deadlines[ROOM], periods[ROOM];
    size_t count, links;
    int null; /* in place of a list of no numbers, or of more than there are */
    uint16_t link;
    uint8_t code;
    uint64_t time;
};

static struct call call;

static unsigned long calls, orders, questions, rounds;
static unsigned long fresh_refusals[NUMBERS], order_refusals[NUMBERS], due_refusals[NUMBERS];

/*
 * The lists of one side: guard, deadlines, guard, periods, guard. A guard, read as a number, is no
 * period, and a deadline that is due at late times, so that reading too far shows as well. Both
 * sides hold the same numbers before every call.
 */
enum { NUMBER = sizeof(uint64_t) };

struct side {
    uint64_t memory[2 * ROOM + 3 * GUARD / NUMBER];
    uint64_t *deadlines, *periods;
    size_t octets;
};

static struct side library, second;

/* A list with a count above ROOM is refused unread, which is more than sscf.h says: it is lent no
 * more numbers than that. */
static size_t lent(size_t count)
{
    return count < ROOM ? count : ROOM;
}

static uint64_t *put_guard_at(uint64_t *at)
{
    put_guard((uint8_t *)at);
    return at + GUARD / NUMBER;
}

static void lay_out(struct side *side)
{
    uint64_t *end;

    side->deadlines = put_guard_at(side->memory);
    memcpy(side->deadlines, call.deadlines, NUMBER * lent(call.count));
    side->periods = put_guard_at(side->deadlines + lent(call.count));
    memcpy(side->periods, call.periods, NUMBER * lent(call.links));
    end = put_guard_at(side->periods + lent(call.links));
    side->octets = NUMBER * (size_t)(end - side->memory);
}

static uint64_t *list_or_null(uint64_t *list, size_t count)
{
    return call.null && (count == 0 || count > ROOM) ? NULL : list;
}

static int wrote_beside(const struct side *side)
{
    return guard_broken((const uint8_t *)side->memory)
        || guard_broken((const uint8_t *)(side->deadlines + lent(call.count)))
        || guard_broken((const uint8_t *)(side->periods + lent(call.links)));
}

static int periods_kept(const struct side *side)
{
    return memcmp(side->periods, call.periods, NUMBER * lent(call.links)) == 0;
}

static int both_hold_the_same(void)
{
    return memcmp(library.memory, second.memory, library.octets) == 0 && periods_kept(&library)
        && !wrote_beside(&library);
}

/* What an order says; of a code that is none this means nothing. */

static const uint8_t codes[] = { SSCF_SIGNAL_SET_T1, SSCF_SIGNAL_SET_T2, SSCF_SIGNAL_SET_T3,
                                 SSCF_SIGNAL_RESET_T1, SSCF_SIGNAL_RESET_T2, SSCF_SIGNAL_RESET_T3 };

enum { SETS = 3 }; /* of the codes, the first */

static int is_code(unsigned code)
{
    return memchr(codes, (int)code, sizeof codes) != NULL;
}

static int is_set(unsigned code)
{
    return code < SSCF_SIGNAL_RESET_T1;
}

/* T1 to T3 as 0 to 2. */
static unsigned timer_of(unsigned code)
{
    return code - (is_set(code) ? SSCF_SIGNAL_SET_T1 : SSCF_SIGNAL_RESET_T1);
}

static uint64_t period_of_order(void)
{
    unsigned timer = timer_of(call.code);

    return timer == 0 ? T1_PERIOD : timer == 1 ? T2_PERIOD : call.periods[call.link];
}

static size_t place_of(size_t link, unsigned timer)
{
    return TIMERS * link + timer;
}

/* What has to stand in the list after a call, by what the header says of it. */

static int good_counts(size_t count, size_t links)
{
    return links >= 1 && links <= MOST && count == SSCF_DEADLINES(links);
}

static int is_refused(struct sscf_due_answer a)
{
    return a.expired == 0 && a.link == 0
        && memcmp(library.deadlines, call.deadlines, NUMBER * lent(call.count)) == 0;
}

/* The last time is the one given, and all timers are as they were, but for the one in this place. */
static int others_kept(size_t place)
{
    size_t timers = call.count - 1, n;

    for (n = 0; n < timers; n++)
        if (n != place && library.deadlines[n] != call.deadlines[n])
            return 0;
    return library.deadlines[timers] == call.time;
}

static int is_ordered(struct sscf_due_answer a)
{
    size_t place = place_of(call.link, timer_of(call.code));

    (void)a;
    if (!good_counts(call.count, call.links) || call.link >= call.links || !is_code(call.code))
        return 0;
    return others_kept(place)
        && library.deadlines[place] == (is_set(call.code) ? call.time + period_of_order() : ALL_ONES);
}

static int is_named(struct sscf_due_answer a)
{
    unsigned timer = a.expired - SSCF_EVENT_T1_EXPIRED;

    if (!good_counts(call.count, call.links) || a.link >= call.links)
        return 0;
    if (a.expired == 0)
        return a.link == 0 && others_kept(call.count);
    return timer < TIMERS && others_kept(place_of(a.link, timer))
        && library.deadlines[place_of(a.link, timer)] == ALL_ONES;
}

static int is_fresh(struct sscf_due_answer a)
{
    size_t timers = call.count - 1, n;

    (void)a;
    if (!good_counts(call.count, call.count / TIMERS))
        return 0;
    for (n = 0; n < timers; n++)
        if (library.deadlines[n] != ALL_ONES)
            return 0;
    return library.deadlines[timers] == 0;
}

/* What the program knows of an answer by itself; an order and a fresh list have a refusal alone. */
enum { ANYTHING = -1 };

struct wanted {
    long refusal, expired, link;
};

static struct wanted wanted_answer(long refusal, long expired, long link)
{
    struct wanted answer = { refusal, expired, link };

    return answer;
}

static struct wanted wanted_refusal(long refusal)
{
    return wanted_answer(refusal, ANYTHING, ANYTHING);
}

static int is_wanted(struct sscf_due_answer a, struct wanted w)
{
    return (w.refusal == ANYTHING || a.refusal == (uint32_t)w.refusal)
        && (w.expired == ANYTHING || a.expired == (uint32_t)w.expired)
        && (w.link == ANYTHING || a.link == (uint32_t)w.link);
}

static int same_answer(struct sscf_due_answer a, struct sscf_due_answer b)
{
    return a.refusal == b.refusal && a.expired == b.expired && a.link == b.link;
}

static struct sscf_due_answer refusal_alone(uint32_t refusal)
{
    struct sscf_due_answer answer = { refusal, 0, 0 };

    return answer;
}

/* The second machine's struct has the library's fields. */
static struct sscf_due_answer from_second(struct second_due_answer s)
{
    struct sscf_due_answer answer;

    answer.refusal = s.refusal;
    answer.expired = s.expired;
    answer.link = s.link;
    return answer;
}

/* A difference is told with the call and the lists before it as C has them, and with what became of these. */

static void print_list(const char *name, const uint64_t *list, size_t count)
{
    size_t n;

    printf("uint64_t %s[%lu] = {", name, (unsigned long)count);
    for (n = 0; n < count; n++)
        printf("%s%lluU,", n % TIMERS == 0 ? "\n    " : " ", (unsigned long long)list[n]);
    printf("\n};\n");
}

static void print_call(void)
{
    printf("deadlines %lu%s, periods %lu%s, link %u, code %u, time %lluU\n", (unsigned long)call.count,
           list_or_null(call.deadlines, call.count) == NULL ? " at NULL" : "", (unsigned long)call.links,
           list_or_null(call.periods, call.links) == NULL ? " at NULL" : "", call.link, call.code,
           (unsigned long long)call.time);
    print_list("deadlines", call.deadlines, lent(call.count));
    print_list("periods", call.periods, lent(call.links));
}

static void print_changes(const char *name, const uint64_t *before, const uint64_t *after, size_t count)
{
    size_t n;

    for (n = 0; n < count; n++)
        if (before[n] != after[n])
            printf("    %s[%lu] is %lluU now\n", name, (unsigned long)n, (unsigned long long)after[n]);
}

static void print_side(const char *name, struct sscf_due_answer a, const struct side *side)
{
    printf("%s: refusal %lu, expired %lu, link %lu\n", name, (unsigned long)a.refusal, (unsigned long)a.expired,
           (unsigned long)a.link);
    print_changes("deadlines", call.deadlines, side->deadlines, lent(call.count));
    print_changes("periods", call.periods, side->periods, lent(call.links));
    if (wrote_beside(side))
        printf("    it writes beside its lists\n");
}

static void print_wanted(struct wanted w)
{
    printf("wanted, with %d for anything: refusal %ld, expired %ld, link %ld\n", ANYTHING, w.refusal, w.expired,
           w.link);
}

static void differ(const char *what, struct sscf_due_answer a, struct sscf_due_answer b, struct wanted w)
{
    printf("compare_deadlines: a difference, in call %lu: %s\n", calls, what);
    print_call();
    print_side("library", a, &library);
    print_side("second", b, &second);
    print_wanted(w);
    if (same_answer(a, b) && is_wanted(a, w) && both_hold_the_same())
        printf("the two are alike, but their lists are not what the header says\n");
    exit(1);
}

/* What was seen of accepted calls, and below of rounds, beside the refusals of the others. */
enum { SET_AT_REST, SET_RUNNING, RESET_RUNNING, RESET_AT_REST, NAMED_T1, NAMED_T2, NAMED_T3, NAMED_IN_TIME, NAMED_LATER,
       NAMED_AT_THE_END, NOTHING_DUE, NOTHING_AT_THE_END, TIE_OF_LINKS, TIE_OF_TIMERS, DUE_AND_ORDERED, KINDS };

static unsigned long seen[KINDS];

static void count_order(void)
{
    int running = call.deadlines[place_of(call.link, timer_of(call.code))] != ALL_ONES;

    if (is_set(call.code))
        seen[running ? SET_RUNNING : SET_AT_REST]++;
    else
        seen[running ? RESET_RUNNING : RESET_AT_REST]++;
}

static void count_due(struct sscf_due_answer a)
{
    unsigned timer = a.expired - SSCF_EVENT_T1_EXPIRED;
    int at_the_end = call.time == ALL_ONES;

    if (a.expired == 0) {
        seen[NOTHING_DUE]++;
        seen[NOTHING_AT_THE_END] += at_the_end;
        return;
    }
    seen[NAMED_T1 + timer]++;
    seen[call.deadlines[place_of(a.link, timer)] == call.time ? NAMED_IN_TIME : NAMED_LATER]++;
    seen[NAMED_AT_THE_END] += at_the_end;
}

/* The three calls, each made on both sides. */

static void begin_call(void)
{
    calls++;
    lay_out(&library);
    lay_out(&second);
}

/* `accepted` looks at the list where there was no refusal. */
static void hold(const char *what, struct sscf_due_answer a, struct sscf_due_answer b, struct wanted w,
                 int (*accepted)(struct sscf_due_answer))
{
    if (!same_answer(a, b) || !is_wanted(a, w) || !both_hold_the_same()
        || !(a.refusal == SSCF_ACCEPTED ? accepted(a) : is_refused(a)))
        differ(what, a, b, w);
}

static void end_call(void)
{
    memcpy(call.deadlines, library.deadlines, NUMBER * lent(call.count));
}

static void try_fresh(struct wanted w)
{
    struct sscf_due_answer a, b;

    begin_call();
    a = refusal_alone(sscf_deadlines_fresh(list_or_null(library.deadlines, call.count), call.count));
    b = refusal_alone(second_deadlines_fresh(list_or_null(second.deadlines, call.count), call.count));
    hold("a fresh list", a, b, w, is_fresh);
    count_refusal(fresh_refusals, a.refusal);
    end_call();
}

static uint32_t try_order(struct wanted w)
{
    struct sscf_due_answer a, b;

    orders++;
    begin_call();
    a = refusal_alone(sscf_deadlines_order(list_or_null(library.deadlines, call.count), call.count,
                                           list_or_null(library.periods, call.links), call.links,
                                           call.link, call.code, call.time));
    b = refusal_alone(second_deadlines_order(list_or_null(second.deadlines, call.count), call.count,
                                             list_or_null(second.periods, call.links), call.links,
                                             call.link, call.code, call.time));
    hold("an order", a, b, w, is_ordered);
    count_refusal(order_refusals, a.refusal);
    if (a.refusal == SSCF_ACCEPTED)
        count_order();
    end_call();
    return a.refusal;
}

static void try_due(struct wanted w)
{
    struct sscf_due_answer a, b;

    questions++;
    begin_call();
    a = sscf_deadlines_due(list_or_null(library.deadlines, call.count), call.count,
                           list_or_null(library.periods, call.links), call.links, call.time);
    b = from_second(second_deadlines_due(list_or_null(second.deadlines, call.count), call.count,
                                         list_or_null(second.periods, call.links), call.links, call.time));
    hold("a question", a, b, w, is_named);
    count_refusal(due_refusals, a.refusal);
    if (a.refusal == SSCF_ACCEPTED)
        count_due(a);
    end_call();
}

/* Numbers drawn, of all 64 bits, and the limits of what may be mistaken for them. */

static const uint64_t limits[] = {
    0, 1, 2, 0x7FFFFFFF, 0x80000000, 0xFFFFFFFF, UINT64_C(0x100000000), UINT64_C(0x100000001),
    UINT64_C(0x7FFFFFFFFFFFFFFF), UINT64_C(0x8000000000000000), ALL_ONES - 2, ALL_ONES - 1, ALL_ONES
};

enum { LIMITS = LENGTH(limits) };

static uint64_t draw_64(void)
{
    uint64_t upper = draw();

    return upper << 32 | draw();
}

/* Of any width, so that small numbers are as likely as great ones; many at either end. */
static uint64_t any_number(void)
{
    unsigned bits = below(64);

    switch (below(4)) {
    case 0:
        return limits[below(LIMITS)];
    case 1:
        return below(100000);
    case 2:
        return ALL_ONES - below(100000);
    default:
        return draw_64() >> bits;
    }
}

/* From 0 to `most`, often one of the two or close to them. */
static uint64_t up_to(uint64_t most)
{
    uint64_t few = below(8);

    if (few > most)
        few = most;
    switch (below(4)) {
    case 0:
        return most;
    case 1:
        return most - few;
    case 2:
        return few;
    default:
        return most == ALL_ONES ? draw_64() : draw_64() % (most + 1);
    }
}

/* Lists and orders drawn, with nothing wrong. */

/* Numbers of links, which every part tries. */
static const size_t sizes[] = { 1, 2, 3, 17, 128, 255, 256 };

static void lend(size_t count, size_t links)
{
    call.count = count;
    call.links = links;
    call.null = 0;
}

static uint64_t *last_time(void)
{
    return call.deadlines + call.count - 1;
}

static uint64_t any_period(void)
{
    static const uint64_t some[] = { 1, 2, 13, T1_PERIOD, T2_PERIOD, SSCF_PERIOD_MAX - 1, SSCF_PERIOD_MAX };

    return one_in(2) ? some[below(LENGTH(some))] : 1 + below(SSCF_PERIOD_MAX);
}

/* Deadlines by their sort. The calls believe them all, whether or not orders can have made them. */
enum { AT_REST, AT_THE_TIME, CLOSE, WITHIN_A_MINUTE, AT_A_LIMIT, ANY_DEADLINE, SORTS };

static uint64_t deadline_of(unsigned sort)
{
    switch (sort) {
    case AT_REST:
        return ALL_ONES;
    case AT_THE_TIME:
        return call.time;
    case CLOSE:
        return call.time + below(5) - 2;
    case WITHIN_A_MINUTE:
        return call.time + below(2 * SSCF_PERIOD_MAX + 1) - SSCF_PERIOD_MAX;
    case AT_A_LIMIT:
        return limits[below(LIMITS)];
    default:
        return draw_64();
    }
}

/* All of one sort, or each of any. */
static void draw_deadlines(void)
{
    unsigned sort = below(2 * SORTS);
    size_t n;

    for (n = 0; n < TIMERS * call.links; n++)
        call.deadlines[n] = deadline_of(sort < SORTS ? sort : below(SORTS));
    *last_time() = up_to(call.time);
}

static void draw_periods(void)
{
    size_t n;

    for (n = 0; n < call.links; n++)
        call.periods[n] = any_period();
}

static void draw_order(void)
{
    call.link = (uint16_t)below((uint32_t)call.links);
    call.code = codes[below(LENGTH(codes))];
}

static void sound_lists(size_t links, uint64_t time)
{
    lend(SSCF_DEADLINES(links), links);
    call.time = time;
    draw_deadlines();
    draw_periods();
    draw_order();
}

/* At a time at which no order is refused. */
static void sound(size_t links)
{
    uint64_t time = any_number();

    sound_lists(links, time > LATEST ? LATEST - (ALL_ONES - time) : time);
}

/*
 * Rounds: questions at one time until nothing is due. What is to be named is found beforehand, by a
 * sort: every timer that is due once, by its deadline, its link, its number.
 */

struct due {
    uint64_t deadline;
    unsigned link, timer;
    int gone; /* by an order meanwhile */
};

static struct due expected[TIMERS * MOST];
static size_t expecting;

static int by_place(const void *a, const void *b)
{
    const struct due *one = a, *other = b;

    if (one->deadline != other->deadline)
        return one->deadline < other->deadline ? -1 : 1;
    if (one->link != other->link)
        return one->link < other->link ? -1 : 1;
    return one->timer < other->timer ? -1 : one->timer > other->timer;
}

static void count_ties(void)
{
    size_t n;

    for (n = 1; n < expecting; n++) {
        if (expected[n - 1].deadline != expected[n].deadline)
            continue;
        seen[expected[n - 1].link == expected[n].link ? TIE_OF_TIMERS : TIE_OF_LINKS]++;
    }
}

/* Gathered in another order than that of the list. */
static void expect(void)
{
    unsigned link, timer;

    expecting = 0;
    for (timer = TIMERS; timer-- > 0; ) {
        for (link = 0; link < call.links; link++) {
            struct due due = { call.deadlines[place_of(link, timer)], link, timer, 0 };

            if (due.deadline != ALL_ONES && due.deadline <= call.time)
                expected[expecting++] = due;
        }
    }
    qsort(expected, expecting, sizeof expected[0], by_place);
    count_ties();
}

static void leave_out(unsigned link, unsigned timer)
{
    size_t n;

    for (n = 0; n < expecting; n++) {
        if (expected[n].link == link && expected[n].timer == timer) {
            seen[DUE_AND_ORDERED] += !expected[n].gone;
            expected[n].gone = 1;
        }
    }
}

/* Between two questions: an order at their time, or a question and an order at an earlier one, which are refused. */
static void meanwhile(void)
{
    uint64_t time = call.time;
    int too_early = time > 0 && one_in(4);

    draw_order();
    if (too_early) {
        call.time = up_to(time - 1);
        try_due(wanted_refusal(SSCF_DEADLINES_REFUSED_TIME));
    }
    if (try_order(wanted_refusal(too_early ? SSCF_DEADLINES_REFUSED_TIME : ANYTHING)) == SSCF_ACCEPTED)
        leave_out(call.link, timer_of(call.code));
    call.time = time;
}

static struct wanted wanted_name(const struct due *due)
{
    return wanted_answer(SSCF_ACCEPTED, SSCF_EVENT_T1_EXPIRED + (long)due->timer, (long)due->link);
}

/* What is set meanwhile is not due at this time, so that the round comes to its end. */
static void ask_all(int with_orders)
{
    size_t n;

    rounds++;
    expect();
    for (n = 0; n < expecting; n++) {
        if (with_orders && n > 0 && one_in(4))
            meanwhile();
        if (!expected[n].gone)
            try_due(wanted_name(expected + n));
    }
    try_due(wanted_answer(SSCF_ACCEPTED, 0, 0));
    try_due(wanted_answer(SSCF_ACCEPTED, 0, 0));
}

/*
 * What can be made wrong. A link and a code are one refusal, and not looked at by a question; nor is
 * the deadline.
 */
enum { WRONG_LISTS = 1, WRONG_PERIOD = 2, WRONG_LINK = 4, WRONG_CODE = 8, WRONG_TIME = 16, WRONG_DEADLINE = 32,
       ALL_WRONG = 63 };

static long refusal_of_order(unsigned wrong)
{
    return wrong & WRONG_LISTS ? SSCF_DEADLINES_REFUSED_LISTS
         : wrong & WRONG_PERIOD ? SSCF_DEADLINES_REFUSED_PERIOD
         : wrong & (WRONG_LINK | WRONG_CODE) ? SSCF_DEADLINES_REFUSED_ORDER
         : wrong & WRONG_TIME ? SSCF_DEADLINES_REFUSED_TIME
         : wrong & WRONG_DEADLINE ? SSCF_DEADLINES_REFUSED_DEADLINE : SSCF_ACCEPTED;
}

static long refusal_of_question(unsigned wrong)
{
    return refusal_of_order(wrong & (WRONG_LISTS | WRONG_PERIOD | WRONG_TIME));
}

static uint64_t wrong_period(void)
{
    static const uint64_t some[] = { 0, SSCF_PERIOD_MAX + 1, 0x10000, 0x10001, UINT64_C(0x100000000),
                                     UINT64_C(0x100000001), UINT64_C(0x8000000000000001), ALL_ONES };

    return one_in(8) ? SSCF_PERIOD_MAX + 1 + (draw_64() >> 1) : some[below(LENGTH(some))];
}

static unsigned wrong_link(void)
{
    unsigned links = (unsigned)call.links;

    return links + (one_in(2) ? below(3) : below(0x10000 - links));
}

static unsigned wrong_code(void)
{
    static const uint8_t near[] = { 0, 1, 46, 47, 51, 52, 53, 54, 55, 59, 60, 61, 62, 63, 112, 176, 178, 186 };
    unsigned code = draw() & 255;

    return is_code(code) || one_in(2) ? near[below(sizeof near)] : code;
}

/* One of the two counts does not go with the other, or they are those of no links, or of one too many. */
static void spoil_counts(void)
{
    size_t links = call.links, other = 1 + below(MOST - 1);

    if (other >= links)
        other++;
    switch (below(6)) {
    case 0:
        call.count += one_in(2) ? 1 : 2;
        break;
    case 1:
        call.count -= 1 + below(one_in(2) ? 2 : (uint32_t)call.count);
        break;
    case 2:
        call.links = one_in(2) ? links + 1 : links - 1;
        break;
    case 3:
        call.count = SSCF_DEADLINES(other);
        break;
    case 4:
        call.links = other;
        break;
    default:
        links = one_in(2) ? 0 : MOST + 1;
        lend(SSCF_DEADLINES(links), links);
    }
}

/* A time at which the order, which is then one to set, has no deadline. */
static void spoil_deadline(void)
{
    call.code = codes[below(SETS)];
    call.time = ALL_ONES - below((uint32_t)period_of_order() + 1);
    *last_time() = up_to(call.time);
}

/* The last time given comes after the time, which stays where it was, but for the very last. */
static void spoil_time(void)
{
    if (call.time == ALL_ONES)
        call.time--;
    *last_time() = call.time + 1 + up_to(ALL_ONES - call.time - 1);
}

static void spoil(unsigned wrong)
{
    size_t place = below((uint32_t)call.links);

    if (wrong & WRONG_DEADLINE)
        spoil_deadline();
    if (wrong & WRONG_TIME)
        spoil_time();
    if (wrong & WRONG_CODE)
        call.code = (uint8_t)wrong_code();
    if (wrong & WRONG_LINK)
        call.link = (uint16_t)wrong_link();
    if (wrong & WRONG_PERIOD)
        call.periods[place] = wrong_period();
    if (wrong & WRONG_LISTS)
        spoil_counts();
}

/* Part 1: every code, with the first links, those about the end, and more that are none. */

static void every_code(size_t links)
{
    const unsigned some[] = { 0, 1, (unsigned)links - 1, (unsigned)links, (unsigned)links + 1, 2 * (unsigned)links,
                              255, 256, 257, 511, 512, 0x7FFF, 0x8000, 0xFF00, 0xFFFF };
    unsigned code, n;

    for (code = 0; code < 256; code++) {
        for (n = 0; n < LENGTH(some); n++) {
            sound(links);
            call.code = (uint8_t)code;
            call.link = (uint16_t)some[n];
            try_order(wanted_refusal(is_code(code) && some[n] < links ? SSCF_ACCEPTED
                                                                      : SSCF_DEADLINES_REFUSED_ORDER));
        }
    }
}

/* All links up to twice the most, and some of those above, each by every code of an order, on one list. */
static void every_link(size_t links)
{
    unsigned link;
    size_t n;

    sound(links);
    for (link = 0; link < 0x10000; link += link < 2 * MOST ? 1 : 1 + below(256)) {
        for (n = 0; n < LENGTH(codes); n++) {
            call.code = codes[n];
            call.link = (uint16_t)link;
            try_order(wanted_refusal(link < links ? SSCF_ACCEPTED : SSCF_DEADLINES_REFUSED_ORDER));
        }
    }
}

/* Part 2: periods at their limits, in every place. */

static void try_period(size_t links, size_t place, uint64_t period)
{
    struct wanted w = wanted_refusal(period >= 1 && period <= SSCF_PERIOD_MAX ? SSCF_ACCEPTED
                                                                              : SSCF_DEADLINES_REFUSED_PERIOD);
    unsigned n;

    for (n = 0; n < 4; n++) {
        sound(links);
        call.periods[place] = period;
        if (n < 2)
            call.link = (uint16_t)place;
        if (n < 1)
            call.code = SSCF_SIGNAL_SET_T3;
        if (n < 3)
            try_order(w);
        else
            try_due(w);
    }
}

static void every_period(size_t links)
{
    static const uint64_t some[] = { 0, 1, 2, 255, 256, T1_PERIOD, T2_PERIOD, SSCF_PERIOD_MAX - 1, SSCF_PERIOD_MAX,
                                     SSCF_PERIOD_MAX + 1, 0xFFFF, 0x10000, 0x10001, 0xFFFFFFFF, UINT64_C(0x100000000),
                                     UINT64_C(0x100000001), UINT64_C(0x100000000) + SSCF_PERIOD_MAX,
                                     UINT64_C(0x7FFFFFFFFFFFFFFF), UINT64_C(0x8000000000000000),
                                     UINT64_C(0x8000000000000001), ALL_ONES - 1, ALL_ONES };
    size_t place, n;

    for (place = 0; place < links; place++)
        for (n = 0; n < LENGTH(some); n++)
            try_period(links, place, some[n]);
}

/* Part 3: times and deadlines at their limits. */

/* The time against the last one, and what would be all ones or pass 64 bits by the period. */
static long refusal_by_time(void)
{
    if (call.time < *last_time())
        return SSCF_DEADLINES_REFUSED_TIME;
    return is_set(call.code) && ALL_ONES - call.time <= period_of_order() ? SSCF_DEADLINES_REFUSED_DEADLINE
                                                                          : SSCF_ACCEPTED;
}

static void try_times(size_t links, uint64_t last, uint64_t time)
{
    size_t n;

    for (n = 0; n <= LENGTH(codes); n++) {
        sound_lists(links, time);
        *last_time() = last;
        if (n < LENGTH(codes)) {
            call.code = codes[n];
            try_order(wanted_refusal(refusal_by_time()));
        } else {
            try_due(wanted_refusal(time < last ? SSCF_DEADLINES_REFUSED_TIME : SSCF_ACCEPTED));
        }
    }
}

static void every_time(size_t links)
{
    uint64_t time;
    size_t n, m;

    for (n = 0; n < LIMITS; n++)
        for (m = 0; m < LIMITS; m++)
            try_times(links, limits[n], limits[m]);
    for (n = 0; n < 64; n++) {
        time = any_number();
        try_times(links, time, time);
        try_times(links, time, time + 1);
        try_times(links, time, time - 1);
    }
}

/* Orders of which the time and the period come to all ones, to a little less and to a little more than 64 bits. */
static void every_sum(size_t links)
{
    uint64_t sum;
    unsigned n;
    size_t m;

    for (n = 0; n < 64; n++) {
        for (sum = ALL_ONES - 3; sum != 4; sum++) {
            for (m = 0; m < LENGTH(codes); m++) {
                sound_lists(links, ALL_ONES);
                call.code = codes[m];
                call.time = sum - period_of_order();
                *last_time() = up_to(call.time);
                try_order(wanted_refusal(refusal_by_time()));
            }
        }
    }
}

/* One timer, in any place, with each deadline at each time. */
static void every_deadline(size_t links)
{
    size_t place, n;

    for (n = 0; n < LIMITS * LIMITS; n++) {
        for (place = 0; place < TIMERS * links; place += links <= 3 ? 1 : 1 + below(TIMERS * 32)) {
            sound_lists(links, limits[n % LIMITS]);
            memset(call.deadlines, 0xFF, NUMBER * TIMERS * links);
            call.deadlines[place] = limits[n / LIMITS];
            ask_all(0);
        }
    }
}

/* Part 4: rounds. */

/* Each timer before the time, at it, behind it or at rest, all with each other. */
static void every_tie_at(size_t links, uint64_t time)
{
    unsigned long n, all = 1UL << 2 * TIMERS * links;
    size_t place;

    for (n = 0; n < all; n++) {
        const uint64_t about[] = { time - 1, time, time + 1, ALL_ONES };

        sound_lists(links, time);
        for (place = 0; place < TIMERS * links; place++)
            call.deadlines[place] = about[n >> 2 * place & 3];
        ask_all(0);
    }
}

static void every_tie(size_t links)
{
    static const uint64_t times[] = { 0, 1, 1000, ALL_ONES - 2, ALL_ONES - 1, ALL_ONES };
    size_t n;

    for (n = 0; n < LENGTH(times); n++)
        every_tie_at(links, times[n]);
}

/* Two equals: each timer with the next one and with any other, the rest of them later or at rest. */
static void every_pair(size_t links)
{
    size_t place, other, n;

    for (place = 0; place < TIMERS * links; place++) {
        sound(links);
        other = one_in(2) && place > 0 ? place - 1 : below(TIMERS * (uint32_t)links);
        for (n = 0; n < TIMERS * links; n++)
            call.deadlines[n] = one_in(4) ? call.time + 1 + below(3) : ALL_ONES;
        call.deadlines[place] = call.deadlines[other] = up_to(call.time);
        ask_all(0);
    }
}

/* Of lists that hold anything, at any time, some with orders between. */
static void random_rounds(size_t links, unsigned count)
{
    while (count-- > 0) {
        sound_lists(links, any_number());
        ask_all(one_in(2));
    }
}

/* Part 5: each thing wrong with each other, so that it shows which of them is answered. */

static void several_wrong(size_t links)
{
    unsigned wrong, n;

    for (wrong = 0; wrong <= ALL_WRONG; wrong++) {
        for (n = 0; n < 64; n++) {
            sound(links);
            spoil(wrong);
            try_order(wanted_refusal(refusal_of_order(wrong)));
            sound(links);
            spoil(wrong);
            try_due(wanted_refusal(refusal_of_question(wrong)));
        }
    }
}

/* Part 6: counts, those of both lists with each other, with anything else wrong, or nothing. */

/*
 * Counts of which 16 or 32 bits are a good one, and counts whose octets, eight for each number, are
 * as many as those of a good one in 64 bits.
 */
#define ABOUT_GOOD(least, longest) \
    0x10000 + (least), 0x10000 + (longest), UINT64_C(0x100000000), UINT64_C(0x100000000) + (least), \
    UINT64_C(0x100000000) + (longest), UINT64_C(0x2000000000000000) + (least), \
    UINT64_C(0x2000000000000000) + (longest), UINT64_C(0x8000000000000000) + (least), ALL_ONES - 1, ALL_ONES

static const uint64_t some_counts[] = { 0, 1, 2, 3, 4, 5, 6, 7, 8, 9, 10, 11, 12, 384, 385, 386, 766, 767, 768, 769,
                                        770, 771, 772, ABOUT_GOOD(4, LONGEST) };

/* Behind a third of all ones, and behind two, three times as many begin at 0 again. */
static const uint64_t some_links[] = { 0, 1, 2, 3, 4, 5, 127, 128, 129, 254, 255, 256, 257, 258, ABOUT_GOOD(1, MOST),
                                       ALL_ONES / 3 - 1, ALL_ONES / 3, ALL_ONES / 3 + 1, ALL_ONES / 3 + 2,
                                       ALL_ONES / 3 * 2, ALL_ONES / 3 * 2 + 1, ALL_ONES / 3 * 2 + 2 };

static void try_counts(size_t count, size_t links, int null)
{
    int good = good_counts(count, links);
    unsigned n, wrong;

    for (n = 0; n < 4; n++) {
        sound(good ? links : MOST);
        wrong = n == 0 ? 0 : below(ALL_WRONG + 1) & ~(unsigned)WRONG_LISTS;
        spoil(wrong);
        wrong |= good ? 0 : WRONG_LISTS;
        lend(count, links);
        call.null = null;
        try_order(wanted_refusal(refusal_of_order(wrong)));
        /* Also where the order was accepted: its time is the last one then, and good once more. */
        try_due(wanted_refusal(refusal_of_question(wrong)));
    }
}

/* The links whose triple and one are the count in 64 bits, be the count any: 3 times this number is 1 there. */
static size_t links_by_product(size_t count)
{
    return (size_t)((count - 1) * UINT64_C(0xAAAAAAAAAAAAAAAB));
}

static void counts(void)
{
    size_t n, m;
    int null;

    for (n = 0; n < LENGTH(some_counts); n++) {
        for (null = 0; null < 2; null++) {
            for (m = 0; m < LENGTH(some_links); m++)
                try_counts((size_t)some_counts[n], (size_t)some_links[m], null);
            try_counts((size_t)some_counts[n], links_by_product((size_t)some_counts[n]), null);
        }
    }
    for (n = 0; n < ROOM; n++)
        for (m = 0; m < 3; m++)
            try_counts(n, n / TIMERS + m - (n < TIMERS ? 0 : 1), 0);
}

static void try_fresh_list(size_t count, int null)
{
    size_t n;

    for (n = 0; n < lent(count); n++)
        call.deadlines[n] = draw_64();
    lend(count, 0);
    call.null = null;
    try_fresh(wanted_refusal(good_counts(count, count / TIMERS) ? SSCF_ACCEPTED : SSCF_DEADLINES_REFUSED_LISTS));
}

static void fresh_lists(void)
{
    size_t n;

    for (n = 0; n <= ROOM; n++)
        try_fresh_list(n, 0);
    for (n = 0; n < LENGTH(some_counts); n++) {
        try_fresh_list((size_t)some_counts[n], 0);
        try_fresh_list((size_t)some_counts[n], 1);
    }
}

/* Part 7: long random histories on one list, which begins fresh. */

enum { IN_A_HISTORY = 5000 }; /* calls, at most */

/* The steps of a history's clock, at most: by the short ones many timers run at once, by the long ones few. */
static const uint32_t paces[] = { 1, 20, 1000, 6000, SSCF_PERIOD_MAX };

/* Half of the calls come at the time of the one before, and a few long afterwards. */
static uint64_t later(uint64_t time, uint32_t pace)
{
    unsigned bits = 8 + below(56);
    uint64_t step = one_in(512) ? draw_64() >> bits : one_in(2) ? 0 : 1 + below(pace);

    return step > ALL_ONES - time ? ALL_ONES : time + step;
}

/* More are set than reset, so that many run. */
static void next_order(void)
{
    draw_order();
    if (one_in(2))
        call.code = codes[below(SETS)];
}

/* One thing is wrong, for this call alone: with an order, while a question may have nothing to do with it. */
static void with_a_fault(void)
{
    size_t links = call.links, place = below((uint32_t)links);
    uint64_t period = call.periods[place];

    switch (below(5)) {
    case 0:
        spoil_counts();
        break;
    case 1:
        call.periods[place] = wrong_period();
        break;
    case 2:
        call.link = (uint16_t)wrong_link();
        break;
    case 3:
        call.code = (uint8_t)wrong_code();
        break;
    default:
        if (*last_time() > 0)
            call.time = up_to(*last_time() - 1);
    }
    if (one_in(2))
        try_due(wanted_refusal(ANYTHING));
    else
        try_order(wanted_refusal(ANYTHING));
    lend(SSCF_DEADLINES(links), links);
    call.periods[place] = period;
}

static void next_call(uint32_t pace)
{
    size_t place = below((uint32_t)call.links);

    call.time = later(*last_time(), pace);
    next_order();
    if (one_in(16))
        call.periods[place] = any_period();
    switch (below(16)) {
    case 0: case 1:
        with_a_fault();
        break;
    case 2: case 3: case 4:
        try_due(wanted_refusal(SSCF_ACCEPTED));
        break;
    case 5:
        ask_all(one_in(2));
        break;
    default:
        try_order(wanted_refusal(refusal_by_time()));
    }
}

/* A third of them begins at 0, one at any time, and one where it comes to the last time of all. */
static void history(size_t links, unsigned long count)
{
    unsigned long end = calls + count;
    uint32_t pace = paces[below(LENGTH(paces))];
    unsigned begin = below(3);

    sound(links);
    try_fresh(wanted_refusal(SSCF_ACCEPTED));
    if (begin > 0) {
        call.time = begin == 1 ? any_number() : ALL_ONES - below(1000 * pace);
        try_due(wanted_answer(SSCF_ACCEPTED, 0, 0));
    }
    while (calls < end && (*last_time() < ALL_ONES || !one_in(64)))
        next_call(pace);
}

static void histories(unsigned long count)
{
    unsigned long end = calls + count;
    size_t n;

    for (n = 0; calls < end; n++)
        history(sizes[n % LENGTH(sizes)], end - calls < IN_A_HISTORY ? end - calls : IN_A_HISTORY);
}

/* The parts. */

static void parts(size_t links)
{
    every_code(links);
    every_link(links);
    every_period(links);
    every_time(links);
    every_sum(links);
    every_deadline(links);
    if (links <= 2)
        every_tie(links);
    every_pair(links);
    random_rounds(links, links <= 3 ? 4000 : 10000 / (unsigned)links);
    several_wrong(links);
}

static int never_so(void)
{
    static const char *const names[KINDS] = {
        "set at rest", "set while running", "reset while running", "reset at rest", "T1 named", "T2 named", "T3 named",
        "named at the deadline", "named later", "named at the last time of all", "nothing due",
        "nothing at the last time of all", "ties of two links", "ties of two timers of a link",
        "due but ordered otherwise"
    };

    return never_counted("timers", "each was seen", names, seen, KINDS);
}

int main(int argc, char **argv)
{
    unsigned long count = argc > 2 ? strtoul(argv[2], NULL, 0) : 1000000;
    size_t n;
    int failed;

    seed(argc > 1 ? strtoul(argv[1], NULL, 0) : 202606);
    for (n = 0; n < LENGTH(sizes); n++)
        parts(sizes[n]);
    counts();
    fresh_lists();
    histories(count);
    failed = never_so();
    failed |= never_seen("fresh", fresh_refusals, 0x3);
    failed |= never_seen("order", order_refusals, 0x3F);
    failed |= never_seen("due", due_refusals, 0x17);
    printf("orders: %lu, questions: %lu\n", orders, questions);
    printf("compare_deadlines: %lu calls, %lu rounds, 0 differences\n", calls, rounds);
    return failed;
}
