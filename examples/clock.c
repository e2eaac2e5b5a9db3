/*
 * A host with a real clock, to copy: two links back to back in one process. sscf.h's calls keep the
 * deadlines of their timers, and the program sleeps until the next one. All else is as small as it
 * can be: examples/host.c has what a host does besides, messages and calls that cross among it.
 *
 *     clock [FACTOR]
 *
 * Both ends are started, prove and come into service, and one is stopped. With a FACTOR above 1 and
 * up to 1000 time runs so many times as fast as the real one, and a last part follows: the line is
 * cut, T1 makes another attempt, and T2 ends it. Else that part, 30 seconds by T2, is left out.
 *
 * examples/clock.txt is what it prints with a FACTOR, on a slow machine too, if only both ends are
 * in service within T2: in 3 real seconds with 10, in 30 real milliseconds with 1000.
 */
#define _POSIX_C_SOURCE 200112L /* for clock_gettime and poll */

#include <sscf_host.h>

#include <limits.h>
#include <poll.h>
#include <stdio.h>
#include <stdlib.h>
#include <time.h>

enum { LINKS = 2, DEADLINES = SSCF_DEADLINES(LINKS), N1 = 3, FACTOR_MAX = 1000 };

static uint8_t table[LINKS * SSCF_LINK_OCTETS];

static void fail(const char *what, const char *why)
{
    fprintf(stderr, "clock: %s: %s\n", what, why);
    exit(1);
}

/* The clock, in milliseconds. It is read once for each turn, and all that the turn does is done at
 * that time: two ends that begin to prove in one turn are in step from there on, however late the
 * program wakes up. */

static uint64_t factor = 1, now; /* now is the time of this turn */

static uint64_t time_now(void)
{
    struct timespec real;

    if (clock_gettime(CLOCK_MONOTONIC, &real) != 0)
        fail("clock_gettime", "no such clock");
    return (uint64_t)real.tv_sec * 1000 * factor + (uint64_t)real.tv_nsec * factor / 1000000;
}

/* Until a time has come, or not so long: who wakes early finds nothing due, and waits again. A host
 * whose SSCOP is behind a socket has poll look at that too. */
static void wait_until(uint64_t time)
{
    uint64_t at = time_now(), wait;

    if (at >= time)
        return;
    wait = (time - at - 1) / factor + 1;
    poll(NULL, 0, wait < INT_MAX ? (int)wait : INT_MAX);
}

/* The timers. T3 is for 64 kbit/s: every second cell a proving unit. */
static uint64_t deadlines[DEADLINES];
static const uint64_t periods[LINKS] = {13, 13};

/* A refusal is this host's own fault: as nothing is wrong with the lists, a time that went back. */
static void check_deadlines(uint32_t refusal)
{
    if (refusal != SSCF_ACCEPTED)
        fail("deadlines refused", sscf_deadlines_refusal_name(refusal));
}

/* The queue: what SSCOP has to say waits here until the last signal of a step is handed on. It is
 * empty again before a turn begins or a user acts, so that nothing SSCOP said of one connection can
 * come behind the call for the next. Other hosts take such events back, as examples/host.c does. */

static struct {
    uint8_t record[SSCF_HEAD_OCTETS + SSCF_UNIT_OCTETS]; /* users send no messages here */
    size_t octets;
} queue[8];
static unsigned waiting;

static void post(unsigned link, unsigned code, unsigned parameter, uint32_t number,
                 const void *message, size_t length)
{
    if (waiting == sizeof queue / sizeof *queue)
        fail("queue", "full");
    queue[waiting].octets = sscf_put_event(queue[waiting].record, sizeof queue->record, link, code,
                                           parameter, number, message, length);
    waiting++;
}

/* SSCOP: what one end asks for is an event at the other, but for calls over a line that is cut. */

static int cut, connected;
static uint32_t sent[LINKS]; /* messages, for their numbers */

static void sscop(unsigned link, unsigned cause, const uint8_t *signal)
{
    unsigned peer = 1 - link, field = signal[SSCF_HEAD_AT_PARAMETER];
    int turned_down = cause == SSCF_EVENT_ESTABLISH_INDICATION && !connected; /* no response yet */

    switch (signal[SSCF_HEAD_AT_CODE]) {
    case SSCF_SIGNAL_ESTABLISH_REQUEST:
        if (!cut)
            post(peer, SSCF_EVENT_ESTABLISH_INDICATION, field, 0, NULL, 0);
        break;
    case SSCF_SIGNAL_ESTABLISH_RESPONSE:
        connected = 1;
        sent[link] = sent[peer] = 0;
        post(peer, SSCF_EVENT_ESTABLISH_CONFIRM, field, 0, NULL, 0);
        break;
    case SSCF_SIGNAL_RELEASE_REQUEST:
        if (!turned_down) /* a call: that has no confirm */
            post(link, SSCF_EVENT_RELEASE_CONFIRM, 0, 0, NULL, 0);
        if (connected || turned_down)
            post(peer, SSCF_EVENT_RELEASE_INDICATION, field, SSCF_SOURCE_USER, NULL, 0);
        connected = 0;
        break;
    case SSCF_SIGNAL_DATA_REQUEST:
        post(peer, SSCF_EVENT_DATA, 0, sent[link]++, signal + SSCF_HEAD_OCTETS,
             sscf_get_16(signal + SSCF_HEAD_AT_LENGTH));
        break;
    }
}

/* A signal goes to whom it is for, with the code of the event that it follows from: to the timers,
 * resets too, or to SSCOP. There are no users and no layer management here to hear theirs. */
static void hand_on(unsigned link, unsigned cause, const uint8_t *signal)
{
    unsigned code = signal[SSCF_HEAD_AT_CODE];

    if (code >= SSCF_SIGNAL_SET_T1)
        check_deadlines(sscf_deadlines_order(deadlines, DEADLINES, periods, LINKS, (uint16_t)link,
                                             (uint8_t)code, now));
    else if (code >= SSCF_SIGNAL_ESTABLISH_REQUEST && code <= SSCF_SIGNAL_RETRIEVE_REQUEST)
        sscop(link, cause, signal);
}

/* The register: a line when a link has come into service, and one when it has left. */
static void keep_register(unsigned link)
{
    static int registered[LINKS];
    int in_service = sscf_link_state(table, link) == SSCF_STATE_IN_SERVICE;

    if (in_service != registered[link])
        printf("Link %u, %s\n", link, in_service ? "in service" : "out of service");
    registered[link] = in_service;
}

/* An event with the status that it brings, or that the unit in it has, and the state after it. */
static void print_event(unsigned link, const uint8_t *event, uint32_t refusal)
{
    unsigned code = event[SSCF_HEAD_AT_CODE];
    unsigned status = code == SSCF_EVENT_DATA ? event[SSCF_HEAD_OCTETS + SSCF_UNIT_OCTETS - 1]
                                              : event[SSCF_HEAD_AT_PARAMETER];

    printf("link %u  %-23s %-3s  %s\n", link, sscf_event_name(code),
           status != 0 ? sscf_status_name(status) : "",
           refusal == SSCF_ACCEPTED ? sscf_state_name(sscf_link_state(table, link)) : "dropped");
}

/* One event. What was overtaken is dropped; but no expiry of a timer that is not running comes from
 * a host that follows every reset, so that one ends the program. */
static void step(const uint8_t *event, size_t octets)
{
    static uint8_t out[SSCF_OUTPUT_OCTETS];
    struct sscf_answer answer = sscf_step(table, sizeof table, event, octets, out, sizeof out);
    unsigned link = sscf_get_16(event + SSCF_HEAD_AT_LINK), code = event[SSCF_HEAD_AT_CODE];
    const uint8_t *signal;

    if (answer.refusal != SSCF_ACCEPTED && answer.refusal != SSCF_REFUSED_STATE)
        fail(sscf_event_name(code), sscf_refusal_name(answer.refusal));
    print_event(link, event, answer.refusal);
    for (signal = sscf_first_signal(out, answer); signal != NULL;
         signal = sscf_next_signal(out, answer, signal))
        hand_on(link, code, signal);
    keep_register(link);
}

static void step_queue(void)
{
    unsigned n;

    for (n = 0; n < waiting; n++) /* a step may post more */
        step(queue[n].record, queue[n].octets);
    waiting = 0;
}

/* All that is due, each expiry as soon as it is named: the list no longer has it then. */
static void step_due(void)
{
    struct sscf_due_answer due;
    uint8_t event[SSCF_HEAD_OCTETS];

    while ((due = sscf_deadlines_due(deadlines, DEADLINES, periods, LINKS, now)).expired != 0)
        step(event, sscf_put_bare_event(event, sizeof event, due.link, due.expired));
    check_deadlines(due.refusal); /* which else would look like nothing due, for ever */
}

/* A turn: the time is read, and what is due by then comes first. */
static void turn(void)
{
    now = time_now();
    step_due();
    step_queue();
}

/* Turn after turn, until no timer runs. */
static void run(void)
{
    uint64_t next;

    while ((next = sscf_next_deadline(deadlines, DEADLINES)) != SSCF_NOT_RUNNING) {
        wait_until(next);
        turn();
    }
}

/* What a user does in the same turn, with all that follows at once. */
static void act(unsigned link, unsigned code)
{
    post(link, code, 0, 0, NULL, 0);
    step_queue();
}

int main(int words, char **word)
{
    char *end = NULL;

    if (words > 1)
        factor = strtoul(word[1], &end, 10);
    if (words > 2 || (end != NULL && *end != '\0') || factor < 1 || factor > FACTOR_MAX)
        fail("usage", "clock [FACTOR], 1 to 1000");
    if (sscf_version() != SSCF_VERSION_NUMBER)
        fail("header and library", "not of one version");
    if (sscf_fresh(table, sizeof table, N1).refusal != SSCF_ACCEPTED)
        fail("table", "refused");
    check_deadlines(sscf_deadlines_fresh(deadlines, DEADLINES));

    turn();
    act(0, SSCF_EVENT_START); /* too early: link 1 turns the call down, and T1 runs */
    act(1, SSCF_EVENT_START);
    run(); /* in service no timer runs */
    turn();
    act(1, SSCF_EVENT_STOP);
    if (factor > 1) {
        act(0, SSCF_EVENT_START);
        printf("The line is cut\n");
        cut = 1;
        run();
    }
    return 0;
}
