/*
 * The second machine: the step and the fresh table, written by cases from the printed Table 6 of
 * Q.2140, the changeover messages, written from figure 3 of Q.2210, and the deadlines, written from
 * request 2026-06 and Table 5 of Q.2140, so that the library has something independent to be
 * compared with and a yardstick for its speed. It shares no table, constant or line with the library.
 */
#include "second.h"

#include <stdbool.h>
#include <string.h>

enum { RECORD = 20, HEADER = 12, LONGEST_TABLE = 5120, LONGEST_MESSAGE = 4096, ROOM = 12 * 12 + 4096 };

enum { UNIT = 4, SHORTEST_USER_MESSAGE = 5 };

/* The marks as numbers, so that each is read at one test. */
enum { LINK_MARK = 'L' << 8 | 'N', EVENT_MARK = 'E' << 8 | 'V' };

/* Where the fields of a link's record stand, and those of an event or a signal. */
enum { STATE = 2, FLAGS = 3, MPS = 4, UPS = 5, TIMERS = 6, KNOWN = 7, BSNT = 8, SPARE = 11, C1 = 12, N1 = 14,
       CONGESTED = 16, LAST_FIELD = 17 };
enum { LINK = 2, CODE = 4, PARAMETER = 5, NUMBER = 6, ZERO = 9, LENGTH = 10, MESSAGE = HEADER };

/* The states in the order of their codes, by their names in Table 6: upper, lower, management. */
enum { S_1_1_1 = 1, S_1_4_1, S_2_1_2, S_2_2_2, S_2_4_2, S_2_10_3, S_2_10_4, S_3_10_5 };

enum { INS_FLAG = 1, LPO = 2 };
enum { T1 = 1, T2 = 2, T3 = 4 };
enum { MPS_NEUTRAL, MPS_NORMAL, MPS_EMERGENCY };
enum { UPS_NORMAL, UPS_EMERGENCY };

/* Clause 10's status codes: what a unit says, and what the field of a connection signal says. */
enum { OOS = 1, PO = 2, INS = 3, NM = 4, EM = 5, ANS = 7, MI = 8, PE = 9, PNS = 10 };

/* Those and the 0 of no field, as a set of bits. */
enum { FIELDS = 1 << 0 | 1 << OOS | 1 << PO | 1 << INS | 1 << NM | 1 << EM | 1 << ANS | 1 << MI | 1 << PE
              | 1 << PNS };

enum { MESSAGE_FOR_TRANSMISSION = 1, EMERGENCY, EMERGENCY_CEASES, STOP, START, RETRIEVE_BSNT,
       RETRIEVAL_REQUEST_AND_FSNC, FLUSH_BUFFERS, CONTINUE };
enum { ESTABLISH_INDICATION = 16, ESTABLISH_CONFIRM, RELEASE_INDICATION, RELEASE_CONFIRM, DATA, RESYNC,
       RECOVER, UNITDATA, RETRIEVE, RETRIEVE_COMPLETE };
enum { PROVING_UNSUCCESSFUL = 32, MANAGEMENT_RELEASE, OUTAGE, RECOVERED, FORCE_PROVING, FORCE_EMERGENCY,
       CLEAR_FORCE_MODES, CONGESTION, CONGESTION_CEASED };
enum { T1_EXPIRED = 48, T2_EXPIRED, T3_EXPIRED };

enum { TO_USER_MESSAGE = 1, TO_USER_CONGESTED, TO_USER_CEASED, TO_USER_IN_SERVICE, TO_USER_OUT_OF_SERVICE,
       TO_USER_RETRIEVED, TO_USER_RETRIEVAL_COMPLETE, TO_USER_BSNT, TO_USER_BSNT_NOT_RETRIEVABLE };
enum { ESTABLISH_REQUEST = 16, ESTABLISH_RESPONSE, RELEASE_REQUEST, DATA_REQUEST, RECOVER_RESPONSE,
       RETRIEVE_REQUEST };
enum { START_PROVING = 32, STOP_PROVING, REPORT };
enum { SET_T1 = 48, SET_T2, SET_T3, RESET_T1 = 56, RESET_T2, RESET_T3 };

/* The three places of a report; 0 is its "-". Named apart from the status codes, which differ. */
enum { LR = 1, RR, SR };
enum { TO_OOS = 1, TO_INS, TO_ALN };
enum { FOR_ANS = 1, FOR_CC, FOR_CD, FOR_PE, FOR_SREC, FOR_UDR, FOR_PDUT, FOR_SSCOP_UU };

/* One event on its way through: the record it alters and the place where its next signal goes. */
struct step {
    uint8_t *link;
    const uint8_t *event;
    uint8_t *end;
    uint32_t length, signals;
};

static uint32_t two(const uint8_t *at)
{
    return (uint32_t)at[0] << 8 | at[1];
}

static uint32_t three(const uint8_t *at)
{
    return (uint32_t)at[0] << 16 | (uint32_t)at[1] << 8 | at[2];
}

static uint32_t four(const uint8_t *at)
{
    return (uint32_t)at[0] << 24 | (uint32_t)at[1] << 16 | (uint32_t)at[2] << 8 | at[3];
}

/* Signals. */

static void put(struct step *s, unsigned code, unsigned parameter, uint32_t number, uint32_t length)
{
    uint8_t *to = s->end;

    to[0] = 'S';
    to[1] = 'G';
    to[LINK] = s->event[LINK];
    to[LINK + 1] = s->event[LINK + 1];
    to[CODE] = (uint8_t)code;
    to[PARAMETER] = (uint8_t)parameter;
    to[NUMBER] = (uint8_t)(number >> 16);
    to[NUMBER + 1] = (uint8_t)(number >> 8);
    to[NUMBER + 2] = (uint8_t)number;
    to[ZERO] = 0;
    to[LENGTH] = (uint8_t)(length >> 8);
    to[LENGTH + 1] = (uint8_t)length;
    s->end = to + HEADER;
    s->signals++;
}

static void emit(struct step *s, unsigned code)
{
    put(s, code, 0, 0, 0);
}

static void pass_message_on(struct step *s, unsigned code)
{
    put(s, code, 0, 0, s->length);
    memcpy(s->end, s->event + MESSAGE, s->length);
    s->end += s->length;
}

static void send_unit(struct step *s, unsigned status)
{
    put(s, DATA_REQUEST, 0, 0, UNIT);
    s->end[0] = s->end[1] = s->end[2] = 0;
    s->end[3] = (uint8_t)status;
    s->end += UNIT;
}

/* The only place that sends one, so the record's last field is that of every release. */
static void release(struct step *s, unsigned status)
{
    s->link[LAST_FIELD] = (uint8_t)status;
    put(s, RELEASE_REQUEST, status, 0, 0);
}

static void report(struct step *s, unsigned lower, unsigned upper, unsigned reason)
{
    put(s, REPORT, 0, lower << 16 | upper << 8 | reason, 0);
}

/* Table 8. The buffer release parameter is always no, which is 0 in the number. */
static void establish(struct step *s, unsigned code)
{
    bool haste = s->link[MPS] == MPS_EMERGENCY
              || (s->link[MPS] == MPS_NEUTRAL && s->link[UPS] == UPS_EMERGENCY);

    put(s, code, haste ? EM : NM, 0, 0);
}

static void reset(struct step *s, unsigned timers)
{
    s->link[TIMERS] &= (uint8_t)~timers;
    if (timers & T1)
        emit(s, RESET_T1);
    if (timers & T2)
        emit(s, RESET_T2);
    if (timers & T3)
        emit(s, RESET_T3);
}

static void set(struct step *s, unsigned timer)
{
    s->link[TIMERS] |= (uint8_t)timer;
    emit(s, timer == T1 ? SET_T1 : timer == T2 ? SET_T2 : SET_T3);
}

/* How cells end: an illegal one by false, every other by one of the three that follow, which answer true. */

static const bool illegal = false;

static bool stay(void)
{
    return true;
}

static bool go(struct step *s, unsigned state)
{
    s->link[STATE] = (uint8_t)state;
    return true;
}

/* Every cell that gives a link back to the user also says "Set UPS = NM". */
static bool give_up(struct step *s, unsigned state)
{
    s->link[UPS] = UPS_NORMAL;
    return go(s, state);
}

/*
 * Table 7, the INS flag and BSNT: all belong to the moment when a connection comes up. A BSNT kept
 * longer would hand the changeover a number from the earlier connection; a release leaves it.
 */
static void connection_up(struct step *s)
{
    uint8_t *link = s->link;
    bool prove = link[MPS] == MPS_NORMAL
              || (link[MPS] == MPS_NEUTRAL && link[UPS] == UPS_NORMAL && s->event[PARAMETER] != EM);

    link[FLAGS] &= (uint8_t)~INS_FLAG;
    link[KNOWN] = 0;
    memset(link + BSNT, 0, 3);
    link[C1] = prove ? link[N1] : 0;
    link[C1 + 1] = prove ? link[N1 + 1] : 0;
}

/* Table 6, the user's events. The second half's columns are 2/4/2, 3/10/5, 2/10/3, 2/10/4. */

static bool user_start(struct step *s)
{
    switch (s->link[STATE]) {
    case S_1_1_1:
    case S_1_4_1:
        establish(s, ESTABLISH_REQUEST);
        report(s, 0, TO_ALN, 0);
        set(s, T2);
        return go(s, S_2_2_2);
    default:
        return illegal;
    }
}

static bool user_stop(struct step *s)
{
    switch (s->link[STATE]) {
    case S_2_1_2:
        report(s, 0, TO_OOS, 0);
        reset(s, T1 | T2);
        return give_up(s, S_1_1_1);
    case S_2_2_2:
        release(s, OOS);
        report(s, 0, TO_OOS, 0);
        reset(s, T2);
        return give_up(s, S_1_4_1);
    case S_2_4_2:
        report(s, 0, TO_OOS, 0);
        reset(s, T2);
        return give_up(s, S_1_4_1);
    case S_3_10_5:
        release(s, OOS);
        report(s, LR, TO_OOS, 0);
        return give_up(s, S_1_4_1);
    case S_2_10_3:
        release(s, OOS);
        report(s, LR, TO_OOS, 0);
        emit(s, STOP_PROVING);
        reset(s, T2 | T3);
        return give_up(s, S_1_4_1);
    case S_2_10_4:
        release(s, OOS);
        report(s, LR, TO_OOS, 0);
        reset(s, T2);
        return give_up(s, S_1_4_1);
    default:
        return illegal;
    }
}

static bool user_haste(struct step *s, unsigned ups)
{
    if (s->link[STATE] == S_3_10_5)
        return illegal;
    s->link[UPS] = (uint8_t)ups;
    return stay();
}

static bool user_message(struct step *s)
{
    if (s->link[STATE] != S_3_10_5)
        return illegal;
    pass_message_on(s, DATA_REQUEST);
    report(s, 0, 0, FOR_PDUT);
    return stay();
}

static bool user_retrieve_bsnt(struct step *s)
{
    switch (s->link[STATE]) {
    case S_1_1_1:
    case S_1_4_1:
        if (s->link[KNOWN])
            put(s, TO_USER_BSNT, 0, three(s->link + BSNT), 0);
        else
            emit(s, TO_USER_BSNT_NOT_RETRIEVABLE);
        return stay();
    default:
        return illegal;
    }
}

static bool user_retrieval(struct step *s)
{
    switch (s->link[STATE]) {
    case S_1_1_1:
    case S_1_4_1:
        put(s, RETRIEVE_REQUEST, 0, three(s->event + NUMBER), 0);
        return stay();
    default:
        return illegal;
    }
}

/* Table 6, SSCOP's events. */

static bool names_a_proving_mode(const struct step *s)
{
    return s->event[PARAMETER] == NM || s->event[PARAMETER] == EM;
}

/* A cell of management's row below, here since the cells that enter 2/10/3 go on with it. */
static bool congestion_while_proving(struct step *s)
{
    release(s, PNS);
    report(s, LR, 0, FOR_CD);
    emit(s, STOP_PROVING);
    reset(s, T3);
    return go(s, S_2_4_2);
}

/*
 * How the only two cells end that enter 2/10/3 from another state. By Note 7 of Table 6 it is not
 * entered while congestion lasts: then 2026-07 has the cell of congestion in 2/10/3 follow at once,
 * on what the first cell left and behind all its signals, its timer orders among them. A record that
 * is congested in 2/10/3 already was made by hand, and stays there.
 */
static bool enter_proving(struct step *s)
{
    return s->link[CONGESTED] ? congestion_while_proving(s) : go(s, S_2_10_3);
}

static bool establish_indication(struct step *s)
{
    switch (s->link[STATE]) {
    case S_1_1_1:
        release(s, s->link[FLAGS] & LPO ? PO : OOS);
        return stay();
    case S_2_1_2:
        /* No response is sent to another field, so no connection comes up. */
        if (!names_a_proving_mode(s)) {
            release(s, PE);
            report(s, LR, 0, FOR_PE);
            return stay();
        }
        establish(s, ESTABLISH_RESPONSE);
        emit(s, START_PROVING);
        connection_up(s);
        reset(s, T1);
        set(s, T3);
        return enter_proving(s);
    default:
        return illegal;
    }
}

static bool establish_confirm(struct step *s)
{
    if (s->link[STATE] != S_2_2_2)
        return illegal;
    /* With any field: a connection that is released at once has come up all the same. */
    connection_up(s);
    if (!names_a_proving_mode(s)) {
        release(s, PE);
        report(s, LR, 0, FOR_PE);
        return go(s, S_2_4_2);
    }
    emit(s, START_PROVING);
    set(s, T3);
    return enter_proving(s);
}

/* The far user's release hands its field on to management; that of SSCOP itself is discarded. */
static void report_release(struct step *s, unsigned upper_if_sscop)
{
    if (s->event[NUMBER + 2] == 0)
        put(s, REPORT, s->event[PARAMETER], RR << 16 | FOR_SSCOP_UU, 0);
    else
        report(s, SR, upper_if_sscop, 0);
}

static bool release_indication(struct step *s)
{
    switch (s->link[STATE]) {
    case S_2_2_2:
    case S_2_10_4:
        report_release(s, 0);
        set(s, T1);
        return go(s, S_2_1_2);
    case S_3_10_5:
        emit(s, TO_USER_OUT_OF_SERVICE);
        report_release(s, TO_OOS);
        return give_up(s, S_1_1_1);
    case S_2_10_3:
        report_release(s, 0);
        emit(s, STOP_PROVING);
        reset(s, T3);
        set(s, T1);
        return go(s, S_2_1_2);
    default:
        return illegal;
    }
}

static bool release_confirm(struct step *s)
{
    switch (s->link[STATE]) {
    case S_1_4_1:
        return go(s, S_1_1_1);
    case S_2_4_2:
        set(s, T1);
        return go(s, S_2_1_2);
    default:
        return illegal;
    }
}

/* The answers to a peer's error, which several rows print alike. */

static bool error_in_service(struct step *s)
{
    release(s, PE);
    emit(s, TO_USER_OUT_OF_SERVICE);
    report(s, LR, TO_OOS, FOR_PE);
    return give_up(s, S_1_4_1);
}

static bool error_while_proving(struct step *s)
{
    report(s, LR, 0, FOR_PE);
    release(s, PE);
    emit(s, STOP_PROVING);
    reset(s, T3);
    return go(s, S_2_4_2);
}

static bool data_for_user(struct step *s)
{
    switch (s->link[STATE]) {
    case S_3_10_5:
        pass_message_on(s, TO_USER_MESSAGE);
        return stay();
    case S_2_10_3:
        return error_while_proving(s);
    default: /* 2/10/4 */
        release(s, PE);
        report(s, LR, 0, FOR_PE);
        return go(s, S_2_4_2);
    }
}

static bool data_in_service_unit(struct step *s)
{
    switch (s->link[STATE]) {
    case S_3_10_5:
        return error_in_service(s);
    case S_2_10_3:
        s->link[FLAGS] |= INS_FLAG;
        return stay();
    default: /* 2/10/4 */
        emit(s, TO_USER_IN_SERVICE);
        report(s, 0, TO_INS, 0);
        reset(s, T2);
        return go(s, S_3_10_5);
    }
}

static bool data_normal_unit(struct step *s)
{
    return s->link[STATE] == S_3_10_5 ? error_in_service(s) : stay();
}

/* All four rows of DATA are legal in the same three states and take its number, whatever arrived. */
static bool data(struct step *s)
{
    if (s->link[STATE] != S_3_10_5 && s->link[STATE] != S_2_10_3 && s->link[STATE] != S_2_10_4)
        return illegal;
    s->link[KNOWN] = 1;
    memcpy(s->link + BSNT, s->event + NUMBER, 3);
    if (s->length > UNIT)
        return data_for_user(s);
    if (s->length == UNIT && s->event[MESSAGE + 3] == INS)
        return data_in_service_unit(s);
    if (s->length == UNIT && s->event[MESSAGE + 3] == NM)
        return data_normal_unit(s);
    return stay();
}

static bool resync(struct step *s)
{
    switch (s->link[STATE]) {
    case S_3_10_5:
        return error_in_service(s);
    case S_2_10_3:
        return error_while_proving(s);
    case S_2_10_4:
        report(s, LR, 0, FOR_PE);
        release(s, PE);
        return go(s, S_2_4_2);
    default:
        return illegal;
    }
}

static bool recover(struct step *s)
{
    switch (s->link[STATE]) {
    case S_3_10_5:
    case S_2_10_4:
        emit(s, RECOVER_RESPONSE);
        report(s, 0, 0, FOR_SREC);
        return stay();
    case S_2_10_3:
        return error_while_proving(s);
    default:
        return illegal;
    }
}

static bool unitdata(struct step *s)
{
    report(s, 0, 0, FOR_UDR);
    return stay();
}

static bool retrieve(struct step *s)
{
    switch (s->link[STATE]) {
    case S_1_1_1:
    case S_1_4_1:
        if (s->length > UNIT)
            pass_message_on(s, TO_USER_RETRIEVED);
        return stay();
    default:
        return illegal;
    }
}

static bool retrieve_complete(struct step *s)
{
    switch (s->link[STATE]) {
    case S_1_1_1:
    case S_1_4_1:
        emit(s, TO_USER_RETRIEVAL_COMPLETE);
        return stay();
    default:
        return illegal;
    }
}

/* Table 6, management's events. */

static bool proving_unsuccessful(struct step *s)
{
    if (s->link[STATE] != S_2_10_3)
        return illegal;
    release(s, PNS);
    reset(s, T3);
    return go(s, S_2_4_2);
}

static bool management_release(struct step *s)
{
    switch (s->link[STATE]) {
    case S_2_1_2:
        emit(s, TO_USER_OUT_OF_SERVICE);
        reset(s, T1 | T2);
        return give_up(s, S_1_1_1);
    case S_2_2_2:
    case S_2_10_4:
        release(s, MI);
        emit(s, TO_USER_OUT_OF_SERVICE);
        reset(s, T2);
        return give_up(s, S_1_4_1);
    case S_2_4_2:
        emit(s, TO_USER_OUT_OF_SERVICE);
        reset(s, T2);
        return give_up(s, S_1_4_1);
    case S_3_10_5:
        release(s, MI);
        emit(s, TO_USER_OUT_OF_SERVICE);
        return give_up(s, S_1_4_1);
    case S_2_10_3:
        release(s, MI);
        emit(s, TO_USER_OUT_OF_SERVICE);
        reset(s, T2 | T3);
        return give_up(s, S_1_4_1);
    default: /* 1/1/1 and 1/4/1: nothing to release */
        return stay();
    }
}

static bool outage(struct step *s)
{
    s->link[FLAGS] |= LPO;
    switch (s->link[STATE]) {
    case S_3_10_5:
        release(s, PO);
        emit(s, TO_USER_OUT_OF_SERVICE);
        return give_up(s, S_1_4_1);
    case S_2_10_4:
        /* Printed PS, which no table has: PO stands. */
        release(s, PO);
        emit(s, TO_USER_OUT_OF_SERVICE);
        reset(s, T2);
        return give_up(s, S_1_4_1);
    default:
        return stay();
    }
}

static bool recovered(struct step *s)
{
    if (s->link[STATE] == S_3_10_5 || s->link[STATE] == S_2_10_4)
        return illegal;
    s->link[FLAGS] &= (uint8_t)~LPO;
    return stay();
}

static bool force(struct step *s, unsigned mps)
{
    s->link[MPS] = (uint8_t)mps;
    return stay();
}

/* Legal in every state, so each one sets the flag, whatever its level; 40 clears it where it is legal. */
static bool congestion(struct step *s)
{
    s->link[CONGESTED] = 1;
    switch (s->link[STATE]) {
    case S_3_10_5:
    case S_2_10_4:
        put(s, TO_USER_CONGESTED, s->event[PARAMETER], 0, 0);
        report(s, 0, 0, FOR_CD);
        return stay();
    case S_2_10_3:
        return congestion_while_proving(s);
    default: /* implementation dependent: the flag is all of it */
        return stay();
    }
}

static bool congestion_ceased(struct step *s)
{
    if (s->link[STATE] == S_2_10_3)
        return illegal;
    s->link[CONGESTED] = 0;
    switch (s->link[STATE]) {
    case S_2_4_2:
        report(s, 0, 0, FOR_CC);
        return stay();
    case S_3_10_5:
    case S_2_10_4:
        emit(s, TO_USER_CEASED);
        report(s, 0, 0, FOR_CC);
        return stay();
    default: /* implementation dependent: the flag is all of it */
        return stay();
    }
}

/* Table 6, the timers. A timer that expires stops running without an order. */

static bool t1_expired(struct step *s)
{
    if (s->link[STATE] != S_2_1_2)
        return illegal;
    s->link[TIMERS] &= (uint8_t)~T1;
    establish(s, ESTABLISH_REQUEST);
    return go(s, S_2_2_2);
}

static bool t2_while_up(struct step *s)
{
    bool proving = s->link[STATE] == S_2_10_3;

    report(s, LR, TO_OOS, FOR_ANS);
    if (proving)
        emit(s, STOP_PROVING);
    emit(s, TO_USER_OUT_OF_SERVICE);
    release(s, ANS);
    if (proving)
        reset(s, T3);
    return give_up(s, S_1_4_1);
}

static bool t2_expired(struct step *s)
{
    unsigned state = s->link[STATE];

    if (state == S_1_1_1 || state == S_1_4_1 || state == S_3_10_5)
        return illegal;
    s->link[TIMERS] &= (uint8_t)~T2;
    switch (state) {
    case S_2_1_2:
        emit(s, TO_USER_OUT_OF_SERVICE);
        report(s, LR, TO_OOS, FOR_ANS);
        reset(s, T1);
        return give_up(s, S_1_1_1);
    case S_2_2_2:
        release(s, ANS);
        emit(s, TO_USER_OUT_OF_SERVICE);
        report(s, LR, TO_OOS, FOR_ANS);
        return give_up(s, S_1_4_1);
    case S_2_4_2:
        emit(s, TO_USER_OUT_OF_SERVICE);
        report(s, 0, TO_OOS, FOR_ANS);
        return give_up(s, S_1_4_1);
    default: /* 2/10/3 and 2/10/4 */
        return t2_while_up(s);
    }
}

static bool end_of_proving(struct step *s)
{
    if (s->link[FLAGS] & LPO) {
        release(s, PO);
        emit(s, TO_USER_OUT_OF_SERVICE);
        report(s, LR, TO_OOS, 0);
        emit(s, STOP_PROVING);
        reset(s, T2);
        return give_up(s, S_1_4_1);
    }
    emit(s, STOP_PROVING);
    send_unit(s, INS);
    if (!(s->link[FLAGS] & INS_FLAG))
        return go(s, S_2_10_4);
    report(s, 0, TO_INS, 0);
    emit(s, TO_USER_IN_SERVICE);
    reset(s, T2);
    return go(s, S_3_10_5);
}

static bool t3_expired(struct step *s)
{
    uint8_t *link = s->link;
    uint32_t c1 = two(link + C1);

    if (link[STATE] != S_2_10_3)
        return illegal;
    link[TIMERS] &= (uint8_t)~T3;
    if (c1 == 0)
        return end_of_proving(s);
    send_unit(s, NM);
    c1--;
    link[C1] = (uint8_t)(c1 >> 8);
    link[C1 + 1] = (uint8_t)c1;
    set(s, T3);
    return stay();
}

/* Takes a checked event for a well-formed record, and says whether its cell is legal. */
static bool take(struct step *s)
{
    switch (s->event[CODE]) {
    case MESSAGE_FOR_TRANSMISSION:   return user_message(s);
    case EMERGENCY:                  return user_haste(s, UPS_EMERGENCY);
    case EMERGENCY_CEASES:           return user_haste(s, UPS_NORMAL);
    case STOP:                       return user_stop(s);
    case START:                      return user_start(s);
    case RETRIEVE_BSNT:              return user_retrieve_bsnt(s);
    case RETRIEVAL_REQUEST_AND_FSNC: return user_retrieval(s);
    case ESTABLISH_INDICATION:       return establish_indication(s);
    case ESTABLISH_CONFIRM:          return establish_confirm(s);
    case RELEASE_INDICATION:         return release_indication(s);
    case RELEASE_CONFIRM:            return release_confirm(s);
    case DATA:                       return data(s);
    case RESYNC:                     return resync(s);
    case RECOVER:                    return recover(s);
    case UNITDATA:                   return unitdata(s);
    case RETRIEVE:                   return retrieve(s);
    case RETRIEVE_COMPLETE:          return retrieve_complete(s);
    case PROVING_UNSUCCESSFUL:       return proving_unsuccessful(s);
    case MANAGEMENT_RELEASE:         return management_release(s);
    case OUTAGE:                     return outage(s);
    case RECOVERED:                  return recovered(s);
    case FORCE_PROVING:              return force(s, MPS_NORMAL);
    case FORCE_EMERGENCY:            return force(s, MPS_EMERGENCY);
    case CLEAR_FORCE_MODES:          return force(s, MPS_NEUTRAL);
    case CONGESTION:                 return congestion(s);
    case CONGESTION_CEASED:          return congestion_ceased(s);
    case T1_EXPIRED:                 return t1_expired(s);
    case T2_EXPIRED:                 return t2_expired(s);
    case T3_EXPIRED:                 return t3_expired(s);
    default: /* FLUSH_BUFFERS and CONTINUE: ignored in every state, by Note 3 of Table 1 */
        return stay();
    }
}

/* The checks. */

static bool bad_table(size_t octets)
{
    return octets == 0 || octets > LONGEST_TABLE || octets % RECORD != 0;
}

static bool bad_frame(const uint8_t *event, size_t octets)
{
    return octets < HEADER || two(event) != EVENT_MARK || event[ZERO] != 0
        || octets > HEADER + LONGEST_MESSAGE || two(event + LENGTH) != octets - HEADER;
}

/* 0 says that no field came; 6 is no status code of clause 10. */
static bool bad_status(unsigned field)
{
    return field > PNS || field == 6;
}

/* What is wrong with the fields: the refusal and the place where its field begins, or 0 and 0. */
struct fault {
    uint32_t refusal, place;
};

static struct fault fault_at(uint32_t refusal, uint32_t place)
{
    struct fault fault = { refusal, place };

    return fault;
}

static struct fault no_fault(void)
{
    return fault_at(0, 0);
}

/* 10 for the first field that is set and not carried. One that the code carries is given as 0. */
static struct fault not_carried(unsigned parameter, uint32_t number, uint32_t length)
{
    /* All at one test, since nearly every event passes it. */
    if ((parameter | number | length) == 0)
        return no_fault();
    return fault_at(10, parameter != 0 ? PARAMETER : number != 0 ? NUMBER : LENGTH);
}

/* 11 for the first field out of its range. Of the numbers only a source has one. */
static struct fault out_of_range(bool parameter, bool source)
{
    return parameter ? fault_at(11, PARAMETER) : source ? fault_at(11, NUMBER) : no_fault();
}

/* 12: the peer would take so short a message for a unit. */
static struct fault too_short(uint32_t length)
{
    return length < SHORTEST_USER_MESSAGE ? fault_at(12, LENGTH) : no_fault();
}

/* The lower refusal goes first even if its field stands behind that of the higher. */
static struct fault either(struct fault lower, struct fault higher)
{
    return lower.refusal != 0 ? lower : higher;
}

/* Answers 3 without a place for an unknown code, 10, 11 or 12 for fields that do not suit it. */
static struct fault bad_fields(const uint8_t *event, uint32_t length)
{
    unsigned parameter = event[PARAMETER];
    uint32_t number = three(event + NUMBER);

    switch (event[CODE]) {
    case MESSAGE_FOR_TRANSMISSION:
        return either(not_carried(parameter, number, 0), too_short(length));
    case RETRIEVAL_REQUEST_AND_FSNC:
        return not_carried(parameter, 0, length);
    case ESTABLISH_INDICATION: case ESTABLISH_CONFIRM:
        return either(not_carried(0, number, length), out_of_range(bad_status(parameter), false));
    case RELEASE_INDICATION:
        return either(not_carried(0, 0, length), out_of_range(bad_status(parameter), number > 1));
    case DATA:
        return not_carried(parameter, 0, 0);
    case UNITDATA: case RETRIEVE:
        return not_carried(parameter, number, 0);
    case CONGESTION:
        return either(not_carried(0, number, length), out_of_range(parameter > 3, false));
    case EMERGENCY: case EMERGENCY_CEASES: case STOP: case START: case RETRIEVE_BSNT:
    case FLUSH_BUFFERS: case CONTINUE:
    case RELEASE_CONFIRM: case RESYNC: case RECOVER: case RETRIEVE_COMPLETE:
    case PROVING_UNSUCCESSFUL: case MANAGEMENT_RELEASE: case OUTAGE: case RECOVERED:
    case FORCE_PROVING: case FORCE_EMERGENCY: case CLEAR_FORCE_MODES: case CONGESTION_CEASED:
    case T1_EXPIRED: case T2_EXPIRED: case T3_EXPIRED:
        return not_carried(parameter, number, length);
    default:
        return fault_at(3, 0);
    }
}

/*
 * The octets that 2026-07 adds. All at one test, which leaves congested 0 or 1, the last field below
 * 16 and two zeros; then the field, for which the set is so wide enough.
 */
static bool bad_end(const uint8_t *link)
{
    return (four(link + CONGESTED) & 0xfef0ffff) != 0 || !(FIELDS >> link[LAST_FIELD] & 1);
}

static bool bad_record(const uint8_t *link)
{
    return two(link) != LINK_MARK
        || link[STATE] < S_1_1_1 || link[STATE] > S_3_10_5
        || link[FLAGS] > (INS_FLAG | LPO)
        || link[MPS] > MPS_EMERGENCY
        || link[UPS] > UPS_EMERGENCY
        || link[TIMERS] > (T1 | T2 | T3)
        || link[KNOWN] > 1
        || (link[KNOWN] == 0 && three(link + BSNT) != 0)
        || link[SPARE] != 0
        || two(link + N1) == 0
        || bad_end(link);
}

static bool not_running(const uint8_t *link, unsigned code)
{
    return code >= T1_EXPIRED && !(link[TIMERS] >> (code - T1_EXPIRED) & 1);
}

static struct second_answer refuse_at(uint32_t number, uint32_t place)
{
    struct second_answer answer = { number, 0, 0, place };

    return answer;
}

/* All refusals but 10, 11 and 12 name no field, and have place 0. */
static struct second_answer refuse(uint32_t number)
{
    return refuse_at(number, 0);
}

/* An illegal cell goes before a short output, so the cell is tried where nothing of it shows. */
static struct second_answer refuse_short_output(struct step s)
{
    uint8_t link[RECORD], out[ROOM];

    memcpy(link, s.link, RECORD);
    s.link = link;
    s.end = out;
    return refuse(take(&s) ? 9 : 8);
}

/*
 * All of a step but refusals 1 and 2, which a burst tests for itself. It takes second_step's own
 * arguments in their order, so that from there it costs a jump and no call.
 */
static struct second_answer step_sound_frame(uint8_t *table, size_t table_octets,
                                             const uint8_t *event, size_t event_octets,
                                             uint8_t *out, size_t out_octets)
{
    struct step s = { table, event, out, (uint32_t)event_octets - HEADER, 0 };
    struct second_answer answer = { 0, 0, 0, 0 };
    struct fault fault;
    uint32_t at;

    fault = bad_fields(event, s.length);
    if (fault.refusal != 0)
        return refuse_at(fault.refusal, fault.place);
    /* The table is whole records, so the link is in it if its first octet is: no division. */
    at = RECORD * two(event + LINK);
    if (at >= table_octets)
        return refuse(5);
    s.link += at;
    if (bad_record(s.link))
        return refuse(6);
    if (not_running(s.link, event[CODE]))
        return refuse(7);
    if (out_octets < ROOM)
        return refuse_short_output(s);
    if (!take(&s))
        return refuse(8);
    answer.octets = (uint32_t)(s.end - out);
    answer.signals = s.signals;
    return answer;
}

struct second_answer second_step(uint8_t *table, size_t table_octets,
                                 const uint8_t *event, size_t event_octets,
                                 uint8_t *out, size_t out_octets)
{
    uint32_t refusal = bad_table(table_octets) ? 1 : bad_frame(event, event_octets) ? 2 : 0;

    if (refusal != 0)
        return refuse(refusal);
    return step_sound_frame(table, table_octets, event, event_octets, out, out_octets);
}

/* A burst. */

/* How many of the octets left are the frame that they begin with, or 0 if it is broken. */
static size_t sound_frame(const uint8_t *event, size_t left)
{
    size_t octets;

    if (left < HEADER)
        return 0;
    octets = HEADER + two(event + LENGTH);
    return octets > left || bad_frame(event, octets) ? 0 : octets;
}

/* Whether more sound frames than the list has places stand before a broken one or the end. */
static bool bad_list(size_t places, const uint8_t *events, size_t octets)
{
    size_t at, frame;

    /* A list that would do for frames without messages does for any, and spares the walk. */
    if (places >= octets / HEADER)
        return false;
    for (at = 0; at < octets; at += frame) {
        frame = sound_frame(events + at, octets - at);
        if (frame == 0)
            return false;
        if (places == 0)
            return true;
        places--;
    }
    return false;
}

static struct second_burst_answer refuse_burst(uint32_t number)
{
    struct second_burst_answer answer = { number, 0, 0, 0, 0, 0 };

    return answer;
}

struct second_burst_answer second_burst(uint8_t *table, size_t table_octets,
                                        const uint8_t *events, size_t events_octets,
                                        uint8_t *out, size_t out_octets,
                                        uint32_t *refusals, size_t refusals_count)
{
    struct second_burst_answer answer = { 0, 0, 0, 0, 0, 0 };

    if (bad_table(table_octets))
        return refuse_burst(1);
    if (bad_list(refusals_count, events, events_octets))
        return refuse_burst(13);
    while (answer.at < events_octets) {
        const uint8_t *event = events + answer.at;
        size_t frame = sound_frame(event, events_octets - answer.at);
        size_t room = out_octets - answer.octets;
        struct second_answer one;

        if (frame == 0) {
            answer.broken = 2;
            break;
        }
        /* Asked of every event, also of one that the step would refuse: none is refused by 9. */
        if (room < ROOM)
            break;
        one = step_sound_frame(table, table_octets, event, frame, out + answer.octets, room);
        /* The number alone: the list has no room for a place. */
        refusals[answer.taken] = one.refusal;
        answer.taken++;
        answer.at += frame;
        answer.octets += one.octets;
        answer.signals += one.signals;
    }
    return answer;
}

/* A fresh table. */

static struct second_fresh_answer fresh_answer(uint32_t refusal, uint32_t place)
{
    struct second_fresh_answer answer = { refusal, place };

    return answer;
}

struct second_fresh_answer second_fresh(uint8_t *table, size_t table_octets, uint16_t n1)
{
    size_t at;

    if (bad_table(table_octets))
        return fresh_answer(1, 0);
    /* There is no event here: the place is that of n1 in a record. */
    if (n1 == 0)
        return fresh_answer(11, N1);
    for (at = 0; at < table_octets; at += RECORD) {
        uint8_t *link = table + at;

        memset(link, 0, RECORD);
        link[0] = 'L';
        link[1] = 'N';
        link[STATE] = S_1_1_1;
        link[N1] = (uint8_t)(n1 >> 8);
        link[N1 + 1] = (uint8_t)n1;
    }
    return fresh_answer(0, 0);
}

/*
 * Changeover messages, figure 3 of Q.2210. By clause 9.6 a field begins with its lowest bit, in the
 * lowest place of its first octet. So octets 2 to 9 are one number, low octet first, in which every
 * field is of one piece; on the right is where in that number it begins.
 *
 *     bit  8   7   6   5   4   3   2   1    octet
 *        |  sub-service  |    service    |    1
 *        |              DPC              |    2     DPC at 0
 *        |  OPC  |          DPC          |    3     OPC at 14
 *        |              OPC              |    4
 *        |      SLC      |      OPC      |    5     SLC at 28
 *        |      H1       |      H0       |    6     heading at 32
 *        |            number             |    7     number at 40
 *        |            number             |    8
 *        |            number             |    9
 */
enum { DPC_AT = 0, OPC_AT = 14, SLC_AT = 28, HEADING_AT = 32, NUMBER_AT = 40 };

/* The length, and where octet 1, octets 2 to 9 and octet 6 of the figure stand, counted from 0. */
enum { CHANGEOVER = 9, SERVICES = 0, REST = 1, HEADING = 5 };

/* The headings: H1 of the order and of its acknowledgement, above H0 = 1. */
enum { XCO = 0x31, XCA = 0x41 };

/* Ones in so many bits: the largest value of a field of that width, and its mask. */
enum { BITS_4 = 0xf, BITS_14 = 0x3fff, BITS_24 = 0xffffff };

/*
 * Low octet first, unlike the numbers in the records above. By way of an array, so that gcc stores
 * all eight at once and does not join seven of them to the octet before.
 */
static void put_eight(uint8_t *at, uint64_t number)
{
    uint8_t octets[8] = {
        (uint8_t)number, (uint8_t)(number >> 8), (uint8_t)(number >> 16), (uint8_t)(number >> 24),
        (uint8_t)(number >> 32), (uint8_t)(number >> 40), (uint8_t)(number >> 48), (uint8_t)(number >> 56),
    };

    memcpy(at, octets, sizeof octets);
}

static bool bad_heading(unsigned heading)
{
    return heading != XCO && heading != XCA;
}

static bool too_wide(struct second_changeover message)
{
    return message.sub_service > BITS_4 || message.dpc > BITS_14 || message.opc > BITS_14
        || message.slc > BITS_4 || message.number > BITS_24;
}

uint32_t second_changeover_write(uint8_t *out, size_t out_octets, struct second_changeover message)
{
    if (out_octets != CHANGEOVER)
        return 1;
    if (bad_heading(message.heading))
        return 2;
    if (message.service != 0)
        return 3;
    if (too_wide(message))
        return 4;
    out[SERVICES] = (uint8_t)(message.sub_service << 4 | message.service);
    put_eight(out + REST, (uint64_t)message.dpc << DPC_AT
                        | (uint64_t)message.opc << OPC_AT
                        | (uint64_t)message.slc << SLC_AT
                        | (uint64_t)message.heading << HEADING_AT
                        | (uint64_t)message.number << NUMBER_AT);
    return 0;
}

static struct second_changeover_answer refuse_message(uint32_t number)
{
    struct second_changeover_answer answer = { number, { 0, 0, 0, 0, 0, 0, 0 } };

    return answer;
}

struct second_changeover_answer second_changeover_read(const uint8_t *octets, size_t count)
{
    struct second_changeover_answer answer = { 0, { 0, 0, 0, 0, 0, 0, 0 } };
    uint64_t rest;

    if (count != CHANGEOVER)
        return refuse_message(1);
    if (bad_heading(octets[HEADING]))
        return refuse_message(2);
    if ((octets[SERVICES] & BITS_4) != 0)
        return refuse_message(3);
    rest = octets[1] | (uint64_t)octets[2] << 8 | (uint64_t)octets[3] << 16 | (uint64_t)octets[4] << 24
         | (uint64_t)octets[5] << 32 | (uint64_t)octets[6] << 40 | (uint64_t)octets[7] << 48
         | (uint64_t)octets[8] << 56;
    answer.message.sub_service = octets[SERVICES] >> 4;
    answer.message.dpc = rest >> DPC_AT & BITS_14;
    answer.message.opc = rest >> OPC_AT & BITS_14;
    answer.message.slc = rest >> SLC_AT & BITS_4;
    answer.message.heading = octets[HEADING];
    answer.message.number = (uint32_t)(rest >> NUMBER_AT);
    return answer;
}

/* Deadlines: T1, T2 and T3 of link 0, of link 1 and so on, then the last time given. */

enum { TIMERS_PER_LINK = 3, MOST_LINKS = 256 };

/* In milliseconds: T1 and T2 by Table 5, and the bounds of what the caller may choose for T3. */
enum { T1_PERIOD = 5000, T2_PERIOD = 30000, SHORTEST_T3_PERIOD = 1, LONGEST_T3_PERIOD = 60000 };

/* The deadline of a timer that does not run, and never one of a timer that does. */
static const uint64_t idle = UINT64_MAX;

/* The links go first: they keep the product from passing the end of a size_t. */
static bool bad_counts(size_t count, size_t links)
{
    return links < 1 || links > MOST_LINKS || count != TIMERS_PER_LINK * links + 1;
}

static bool bad_periods(const uint64_t *periods, size_t links)
{
    size_t at;

    for (at = 0; at < links; at++)
        if (periods[at] < SHORTEST_T3_PERIOD || periods[at] > LONGEST_T3_PERIOD)
            return true;
    return false;
}

/* 1 or 2, which are the first refusals of an order and of a question alike, or 0. */
static uint32_t bad_lists(size_t count, const uint64_t *periods, size_t links)
{
    return bad_counts(count, links) ? 1 : bad_periods(periods, links) ? 2 : 0;
}

static bool is_set_order(unsigned code)
{
    return code >= SET_T1 && code <= SET_T3;
}

static bool is_reset_order(unsigned code)
{
    return code >= RESET_T1 && code <= RESET_T3;
}

uint32_t second_deadlines_fresh(uint64_t *deadlines, size_t count)
{
    size_t at;

    if (bad_counts(count, count / TIMERS_PER_LINK))
        return 1;
    for (at = 0; at < count - 1; at++)
        deadlines[at] = idle;
    deadlines[count - 1] = 0;
    return 0;
}

uint32_t second_deadlines_order(uint64_t *deadlines, size_t count,
                                const uint64_t *periods, size_t links,
                                uint16_t link, uint8_t code, uint64_t time)
{
    uint32_t refusal = bad_lists(count, periods, links);
    uint64_t *timers;

    if (refusal != 0)
        return refusal;
    if (link >= links || !(is_set_order(code) || is_reset_order(code)))
        return 3;
    if (time < deadlines[count - 1])
        return 4;
    timers = deadlines + TIMERS_PER_LINK * (size_t)link;
    if (is_set_order(code)) {
        uint64_t period = code == SET_T1 ? T1_PERIOD : code == SET_T2 ? T2_PERIOD : periods[link];

        /* The sum may pass 64 bits; what is left up to all ones does not. */
        if (period >= idle - time)
            return 5;
        timers[code - SET_T1] = time + period;
    } else {
        timers[code - RESET_T1] = idle;
    }
    deadlines[count - 1] = time;
    return 0;
}

/* A timer by its place in the list. */
struct timer {
    uint64_t deadline;
    size_t at;
};

static struct timer timer_at(const uint64_t *deadlines, size_t at)
{
    struct timer timer = { deadlines[at], at };

    return timer;
}

/* Of equals the one at the lower place, which is the lower link or of one link the lower timer. */
static struct timer earlier(struct timer lower, struct timer higher)
{
    return higher.deadline < lower.deadline ? higher : lower;
}

/* One link's earliest, without regard to the links before: only one comparison a link waits for them. */
static struct timer earliest_of_link(const uint64_t *deadlines, size_t at)
{
    return earlier(earlier(timer_at(deadlines, at), timer_at(deadlines, at + 1)), timer_at(deadlines, at + 2));
}

/* Where the timer to name stands, or the count of the timers if none is due. */
static size_t first_due(const uint64_t *deadlines, size_t timers, uint64_t time)
{
    /* Due is what is below this: at or before the time, but never all ones. */
    struct timer first = { time < idle ? time + 1 : idle, timers };
    size_t at;

    for (at = 0; at < timers; at += TIMERS_PER_LINK)
        first = earlier(first, earliest_of_link(deadlines, at));
    return first.at;
}

static struct second_due_answer due_answer(uint32_t refusal, uint32_t expired, uint32_t link)
{
    struct second_due_answer answer = { refusal, expired, link };

    return answer;
}

struct second_due_answer second_deadlines_due(uint64_t *deadlines, size_t count,
                                              const uint64_t *periods, size_t links, uint64_t time)
{
    uint32_t refusal = bad_lists(count, periods, links);
    size_t timers = count - 1, first;

    if (refusal != 0)
        return due_answer(refusal, 0, 0);
    if (time < deadlines[timers])
        return due_answer(4, 0, 0);
    deadlines[timers] = time;
    first = first_due(deadlines, timers, time);
    if (first == timers)
        return due_answer(0, 0, 0);
    deadlines[first] = idle;
    return due_answer(0, (uint32_t)(T1_EXPIRED + first % TIMERS_PER_LINK),
                      (uint32_t)(first / TIMERS_PER_LINK));
}
