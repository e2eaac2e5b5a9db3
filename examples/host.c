/*
 * A host to copy: two links back to back in one process. It does what every host does: it queues
 * events and steps them, hands each signal on, runs the timers, and keeps the link register, which
 * here is the lines that begin with "Link". The SSCOP between the two ends is a toy that loses
 * nothing, and time is counted and not waited for. examples/host.txt is what it prints.
 */
#include <sscf_host.h>

#include <stdio.h>
#include <stdlib.h>
#include <string.h>

enum { LINKS = 2, N1 = 3 };

static uint8_t table[LINKS * SSCF_LINK_OCTETS];
static unsigned long now; /* milliseconds */

static void fail(const char *why)
{
    fprintf(stderr, "host: %s\n", why);
    exit(1);
}

/* By a refusal that is this host's own fault, with the field that was wrong, "-" for none. */
static void fail_by(uint32_t refusal, uint32_t place)
{
    fprintf(stderr, "host: refused: %s, %s\n", sscf_refusal_name(refusal), sscf_place_name(place));
    exit(1);
}

/* The queue: whatever the users, SSCOP and management have to say waits here for its turn. */

struct event {
    uint8_t record[SSCF_HEAD_OCTETS + SSCF_MESSAGE_OCTETS_MAX];
    size_t octets; /* 0 if it was taken back */
};

enum { QUEUE = 16 };
static struct event queue[QUEUE];
static unsigned first, waiting;

static void post(unsigned link, unsigned code, unsigned parameter, uint32_t number,
                 const void *message, size_t length)
{
    struct event *event = &queue[(first + waiting) % QUEUE];

    if (waiting == QUEUE)
        fail("the queue is full");
    event->octets = sscf_put_event(event->record, sizeof event->record, link, code, parameter,
                                   number, message, length);
    if (event->octets == 0)
        fail("an event that cannot be written");
    waiting++;
}

/* Takes back what SSCOP has said of a link's connection, which is given up. After the next START
 * it would be taken for the next connection's, as sscf.h warns. */
static void forget_connection(unsigned link)
{
    unsigned n;

    for (n = 0; n < waiting; n++) {
        struct event *event = &queue[(first + n) % QUEUE];
        unsigned code = event->record[SSCF_HEAD_AT_CODE];

        if (sscf_get_16(event->record + SSCF_HEAD_AT_LINK) == link &&
            code >= SSCF_EVENT_ESTABLISH_INDICATION && code <= SSCF_EVENT_RECOVER)
            event->octets = 0;
    }
}

/* The timers of every link: when each is due, 0 if it does not run. T1 and T2 are Q.2140's, and T3
 * is for 64 kbit/s: every second cell a proving unit. */

enum { T1, T2, T3, TIMERS };
static const unsigned long periods[TIMERS] = {5000, 30000, 13};
static unsigned long due[LINKS * TIMERS];

/* The timer that is due first, or -1. */
static int next_timer(void)
{
    int timer, next = -1;

    for (timer = 0; timer < LINKS * TIMERS; timer++)
        if (due[timer] != 0 && (next < 0 || due[timer] < due[next]))
            next = timer;
    return next;
}

/* SSCOP, as far as these links need it: what one end asks for is an event at the other. */

enum phase { IDLE, CALLING, CONNECTED };

static struct {
    enum phase phase;
    unsigned field; /* that the call carries */
    uint32_t sent;  /* messages, for their numbers */
} ends[LINKS];

static void connect_ends(void)
{
    unsigned end;

    for (end = 0; end < LINKS; end++) {
        ends[end].phase = CONNECTED;
        ends[end].sent = 0;
    }
}

static void sscop(unsigned link, int turned_down, const uint8_t *signal)
{
    unsigned peer = 1 - link, field = signal[SSCF_HEAD_AT_PARAMETER];

    switch (signal[SSCF_HEAD_AT_CODE]) {
    case SSCF_SIGNAL_ESTABLISH_REQUEST:
        ends[link].phase = CALLING;
        ends[link].field = field;
        if (ends[peer].phase == CALLING) { /* the calls cross: each confirms the other */
            connect_ends();
            post(peer, SSCF_EVENT_ESTABLISH_CONFIRM, field, 0, NULL, 0);
            post(link, SSCF_EVENT_ESTABLISH_CONFIRM, ends[peer].field, 0, NULL, 0);
        } else {
            post(peer, SSCF_EVENT_ESTABLISH_INDICATION, field, 0, NULL, 0);
        }
        break;
    case SSCF_SIGNAL_ESTABLISH_RESPONSE:
        if (ends[peer].phase == CALLING) {
            connect_ends();
            post(peer, SSCF_EVENT_ESTABLISH_CONFIRM, field, 0, NULL, 0);
        } else { /* the caller has given up meanwhile */
            post(link, SSCF_EVENT_RELEASE_INDICATION, 0, SSCF_SOURCE_SSCOP, NULL, 0);
        }
        break;
    case SSCF_SIGNAL_RELEASE_REQUEST:
        forget_connection(link);
        if (!turned_down) /* a call: that has no confirm */
            post(link, SSCF_EVENT_RELEASE_CONFIRM, 0, 0, NULL, 0);
        if (ends[peer].phase != IDLE)
            post(peer, SSCF_EVENT_RELEASE_INDICATION, field, SSCF_SOURCE_USER, NULL, 0);
        ends[link].phase = ends[peer].phase = IDLE;
        break;
    case SSCF_SIGNAL_DATA_REQUEST:
        if (ends[link].phase == CONNECTED)
            post(peer, SSCF_EVENT_DATA, 0, ends[link].sent++, signal + SSCF_HEAD_OCTETS,
                 sscf_get_16(signal + SSCF_HEAD_AT_LENGTH));
        break;
    }
}

/* A signal goes to whom it is for; SSCOP also knows whether it turns a call down. There is no layer
 * management here to hear its own. */
static void hand_on(unsigned link, int turned_down, const uint8_t *signal)
{
    unsigned code = signal[SSCF_HEAD_AT_CODE];

    if (code >= SSCF_SIGNAL_SET_T1 && code <= SSCF_SIGNAL_SET_T3)
        due[TIMERS * link + code - SSCF_SIGNAL_SET_T1] = now + periods[code - SSCF_SIGNAL_SET_T1];
    else if (code >= SSCF_SIGNAL_RESET_T1 && code <= SSCF_SIGNAL_RESET_T3)
        due[TIMERS * link + code - SSCF_SIGNAL_RESET_T1] = 0;
    else if (code >= SSCF_SIGNAL_ESTABLISH_REQUEST && code <= SSCF_SIGNAL_RETRIEVE_REQUEST)
        sscop(link, turned_down, signal);
    else if (code == SSCF_SIGNAL_RECEIVED_MESSAGE)
        printf("          received: %.*s\n", (int)sscf_get_16(signal + SSCF_HEAD_AT_LENGTH),
               (const char *)signal + SSCF_HEAD_OCTETS);
}

/* The register: a line when a link has come into service, and one when it has left. By the state
 * and not by the signals, since a user's own STOP is followed by none. */
static void keep_register(unsigned link)
{
    static int registered[LINKS];
    int in_service = sscf_link_state(table, link) == SSCF_STATE_IN_SERVICE;

    if (in_service != registered[link])
        printf("Link %u, %s\n", link, in_service ? "in service" : "out of service");
    registered[link] = in_service;
}

/* An event by its name, with the status that it brings or that the unit in it has. */
static void print_event(unsigned link, const uint8_t *event)
{
    unsigned code = event[SSCF_HEAD_AT_CODE], status = 0;

    if (code >= SSCF_EVENT_ESTABLISH_INDICATION && code <= SSCF_EVENT_RELEASE_INDICATION)
        status = event[SSCF_HEAD_AT_PARAMETER];
    else if (code == SSCF_EVENT_DATA &&
             sscf_get_16(event + SSCF_HEAD_AT_LENGTH) == SSCF_UNIT_OCTETS)
        status = event[SSCF_HEAD_OCTETS + SSCF_UNIT_OCTETS - 1];
    printf("%5lu ms  link %u  %s", now, link, sscf_event_name(code));
    if (status != 0)
        printf(" %s", sscf_status_name(status));
    printf("\n");
}

/* One event. What it posts waits behind the last of its signals, as sscf.h asks. A call is turned
 * down where its first answer is a release: one behind a response gives up a connection. */
static void step(const uint8_t *event, size_t octets)
{
    static uint8_t out[SSCF_OUTPUT_OCTETS];
    struct sscf_answer answer = sscf_step(table, sizeof table, event, octets, out, sizeof out);
    unsigned link = sscf_get_16(event + SSCF_HEAD_AT_LINK);
    int turned_down = event[SSCF_HEAD_AT_CODE] == SSCF_EVENT_ESTABLISH_INDICATION &&
                      out[SSCF_HEAD_AT_CODE] == SSCF_SIGNAL_RELEASE_REQUEST;
    const uint8_t *signal;

    print_event(link, event);
    if (answer.refusal == SSCF_REFUSED_TIMER || answer.refusal == SSCF_REFUSED_STATE)
        printf("          dropped: %s\n", sscf_refusal_name(answer.refusal)); /* it was overtaken */
    else if (answer.refusal != SSCF_ACCEPTED)
        fail_by(answer.refusal, answer.place);
    for (signal = sscf_first_signal(out, answer); signal != NULL;
         signal = sscf_next_signal(out, answer, signal))
        hand_on(link, turned_down, signal);
    keep_register(link);
}

/* An expiry is stepped at once: in the queue it could fall behind the reset and next set of its
 * timer, and nothing would tell it from the next expiry. */
static void expire(unsigned link, unsigned timer)
{
    uint8_t event[SSCF_HEAD_OCTETS];
    size_t octets = sscf_put_bare_event(event, sizeof event, link, SSCF_EVENT_T1_EXPIRED + timer);

    due[TIMERS * link + timer] = 0;
    step(event, octets);
}

/* What users and management do, and when. */
static const struct {
    unsigned long at;
    unsigned link, code;
    const char *message;
} story[] = {
    {0, 0, SSCF_EVENT_START, ""}, /* too early: link 1 is not started */
    {2000, 1, SSCF_EVENT_START, ""},
    {3000, 0, SSCF_EVENT_MESSAGE_FOR_TRANSMISSION, "IAM 4711"},
    {4000, 1, SSCF_EVENT_RELEASE, ""},
    {5000, 0, SSCF_EVENT_EMERGENCY, ""}, /* back without proving, and both at once */
    {5000, 0, SSCF_EVENT_START, ""},
    {5000, 1, SSCF_EVENT_START, ""},
    {6000, 1, SSCF_EVENT_STOP, ""},
    /* Link 1 is in haste when link 0 first calls, and no more when it calls again: what SSCOP said
     * of the first connection must not spare the second one its proving. */
    {7000, 1, SSCF_EVENT_EMERGENCY, ""},
    {7000, 0, SSCF_EVENT_START, ""},
    {7000, 1, SSCF_EVENT_START, ""},
    {7000, 0, SSCF_EVENT_STOP, ""},
    {7000, 1, SSCF_EVENT_EMERGENCY_CEASES, ""},
    {7000, 0, SSCF_EVENT_START, ""},
};

enum { ACTS = sizeof story / sizeof *story };

int main(void)
{
    struct sscf_fresh_answer made;
    unsigned act = 0;

    if (sscf_version() != SSCF_VERSION_NUMBER)
        fail("header and library are not of one version");
    made = sscf_fresh(table, sizeof table, N1);
    if (made.refusal != SSCF_ACCEPTED)
        fail_by(made.refusal, made.place);
    for (;;) { /* what waits, and then whatever comes first */
        int timer = next_timer();

        if (waiting > 0) {
            if (queue[first].octets != 0)
                step(queue[first].record, queue[first].octets);
            first = (first + 1) % QUEUE;
            waiting--;
        } else if (act < ACTS && (timer < 0 || story[act].at <= due[timer])) {
            now = story[act].at;
            for (; act < ACTS && story[act].at == now; act++)
                post(story[act].link, story[act].code, 0, 0, story[act].message,
                     strlen(story[act].message));
        } else if (timer >= 0) {
            now = due[timer];
            expire((unsigned)timer / TIMERS, (unsigned)timer % TIMERS);
        } else {
            return 0;
        }
    }
}
