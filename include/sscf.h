/*
 * sscf.h: signalling links over ATM, the SSCF at the NNI of ITU-T Q.2140 (02/95).
 *
 * WHAT IT IS
 *
 * The SSCF stands between the user of a signalling link (MTP level 3) and SSCOP. It brings the link
 * into service and takes it out again: connection, proving, and the exchange of INS units with the
 * peer. This library is the SSCF for a table of 1 to 256 links, in three calls:
 *
 *     sscf_fresh    makes a table in which every link is out of service
 *     sscf_step     takes one event for one link, brings that link's record in the table up to
 *                   date, and writes the signals that follow from the event
 *     sscf_burst    takes many events at once, as at a restart: what sscf_step would do of each,
 *                   one after the other, in one call
 *
 * A fourth, sscf_version, tells the version. There are tools beside them, which know of no table:
 * sscf_changeover_write and sscf_changeover_read for the layer above (CHANGEOVER MESSAGES, below),
 * and sscf_deadlines_fresh, sscf_deadlines_order and sscf_deadlines_due, which keep the deadlines
 * of the timers for a host that has a clock (DEADLINES, at the end of this header).
 *
 * The host hands in as an event whatever the link's user, SSCOP, layer management or a timer has
 * to say, and hands the signals on to those they are for. SSCOP itself, the clocks, the monitoring
 * of errors during proving and the detection of congestion are the host's.
 *
 * The library is for x86-64 Linux. It allocates nothing, keeps nothing between calls and calls
 * nothing back; every call returns, whatever octets it is given. All it knows of the links stands
 * in the table, which is the host's: it may be copied, stored and carried to another process, where
 * one copy alone goes on, the latest, whole, and with it the list of its deadlines, if the calls of
 * DEADLINES keep them. What the calls promise, beside each of them below, is proved of the code,
 * for every table, every event, every message and every list.
 *
 * Of the C library it needs memmove, and for DEADLINES memset; a later version may also need
 * memcpy, memcmp or bcmp. A step or a burst takes at most 256 octets of stack, a call of DEADLINES
 * at most 24, but sscf_deadlines_order 32, without what memmove and memset take, and
 * sscf_changeover_write 16; the others take their return address alone.
 *
 * HOW A LINK COMES INTO SERVICE
 *
 * START has SSCOP establish a connection (state 4) and sets T2. Once SSCOP confirms it the link is
 * proving (state 6): at each expiry of T3 it sends a proving unit, as many as were decided when the
 * connection came up, and at the expiry after these its INS unit. If the peer's INS unit has come
 * by then the link is in service (state 8), else it waits for it (state 7). A connection that fails
 * on the way is tried again after T1 (state 3), unless the peer connects first; when T2 expires the
 * link is given up. A link that was given up, was stopped or has left service is out of service
 * (state 1, or 2 while SSCOP has still to confirm a release) until the next START.
 *
 * A link that is congested is not left proving (Q.2140, Note 7 of Table 6), also where no unit
 * would be sent. A connection with which it would prove is given up in the same step (state 5), as
 * CONGESTION gives one up in state 6. When SSCOP has confirmed the release T1 is set (state 3), and
 * at its expiry, or when the peer connects, the link tries again, until T2 expires.
 * CONGESTION_CEASED by itself starts no attempt.
 *
 * A link is in service in state 8 and in no other. The user is told by IN_SERVICE and
 * OUT_OF_SERVICE; its own STOP, once accepted, takes the link out of service with no
 * OUT_OF_SERVICE to follow.
 *
 * It is never in service too early. Take a table that sscf_fresh made and that nothing but the
 * three calls has written into since; each was lent the whole table, as its table, and no call had
 * any of it as out or as refusals. Where sscf_fresh makes it anew, all that was seen of it before
 * counts no more. After every sequence of such calls this is proved: a link is in service exactly
 * if its present connection came up and has not been released by either end or by SSCOP, as many
 * proving units as Q.2140's Table 7 decided for that connection were sent on it, its INS unit was
 * sent after them, and the peer's INS unit was received on that same connection. All of it held
 * already whenever IN_SERVICE was given. Where management had forced proving (FORCE_PROVING) when
 * the connection came up, these are n1 units; where it had forced emergency (FORCE_EMERGENCY), none
 * is ever sent. A burst counts as its single calls.
 *
 * Nor does a number for a changeover outlive the next connection that comes up. After every such
 * sequence of calls this is proved: where RETRIEVE_BSNT is accepted, it is answered by BSNT with
 * the number of the latest DATA that was accepted since the link's latest connection came up,
 * whether or not that connection has been released since, and by BSNT_NOT_RETRIEVABLE exactly if
 * there was none. A connection comes up when ESTABLISH_CONFIRM is accepted, whatever its field, or
 * when ESTABLISH_RESPONSE is given; one that was only asked for, or that was turned down in state 1
 * or 3, does not, and leaves the number as it was.
 *
 * Nor does a link prove while it is congested. After every such sequence of calls this is proved: a
 * link's record says congested exactly if there was a CONGESTION or CONGESTION_CEASED that was
 * accepted and the latest of them was CONGESTION; no link is congested in state 6; and no proving
 * unit is ever sent on a connection that came up while its link was congested. The last release
 * field (octet 17) is that of the link's latest RELEASE_REQUEST, and 0 if there was none.
 *
 * A FIRST USE
 *
 *     uint8_t table[4 * SSCF_LINK_OCTETS];
 *     uint8_t out[SSCF_OUTPUT_OCTETS];
 *     uint8_t start[SSCF_HEAD_OCTETS] = {'E', 'V', 0, 2, SSCF_EVENT_START};
 *     struct sscf_answer answer;
 *
 *     sscf_fresh(table, sizeof table, SSCF_N1_DEFAULT);
 *     answer = sscf_step(table, sizeof table, start, sizeof start, out, sizeof out);
 *
 * starts link 2 of four. The answer is {0, 36, 3, 0}: accepted, and three signals in the first 36
 * octets of out, which are ESTABLISH_REQUEST for SSCOP, a REPORT for layer management and SET_T2.
 * They are taken one behind the other:
 *
 *     const uint8_t *signal = out;
 *     uint32_t n;
 *
 *     for (n = 0; n < answer.signals; n++) {
 *         size_t length = (size_t)signal[10] << 8 | signal[11];
 *         hand_on(signal, length);
 *         signal += SSCF_HEAD_OCTETS + length;
 *     }
 *
 * sscf_host.h, beside this header, has inline functions for this and the names of all codes as
 * strings. A whole host to copy is examples/host.c of the sources.
 *
 * WHAT THE HOST SEES TO
 *
 * These are the only things that the library cannot test.
 *
 * - Each pointer is good for as many octets as the length beside it says, a burst's list for as
 *   many numbers; the table, the output and the list for writing too. A length of 0 may come with
 *   any pointer, NULL among them: nothing is read or written through it.
 * - The table, the event or the events, the output and a burst's list do not overlap.
 * - Nobody else touches these buffers during a call. There is no locking and no global state:
 *   calls on one table come one at a time, calls on different tables may run side by side.
 *
 * For the links to work as Q.2140 has it, the host also does the following.
 *
 * - It hands on every signal, in the order written. An event that arises on the way waits until
 *   the last signal has been handed on.
 * - It runs the timers, by itself or with the calls of DEADLINES, at the end of this header. A set
 *   order starts a timer afresh, also where it runs already; a reset order stops it. When a timer
 *   runs out the host hands in its expiry, which ends the timer's running by itself. An expiry that
 *   comes after its timer was reset is refused, does no harm and can be dropped; one from before a
 *   reset must not be handed in after the next set, since nothing tells the two apart.
 * - What SSCOP said before a RELEASE_REQUEST reached it is not handed in after the next
 *   ESTABLISH_REQUEST, by START or by T1. In state 4 an ESTABLISH_CONFIRM or RELEASE_INDICATION of
 *   the connection before would be taken for one of the present connection. A host with a queue
 *   takes SSCOP's events 16 to 22 of that link out of it as it hands the RELEASE_REQUEST on.
 * - SSCOP gives no RELEASE_CONFIRM for a RELEASE_REQUEST that is the first answer to
 *   ESTABLISH_INDICATION: this turns the peer's call down, and the link, in state 1 or 3, awaits
 *   none. Later, in state 2 or 5, it would be taken for another's. Behind ESTABLISH_RESPONSE, also
 *   of the same step, RELEASE_REQUEST gives up a connection, and is confirmed as ever.
 * - Nothing but sscf_fresh, sscf_step and sscf_burst writes into the table, and they only as their
 *   table. Each call is lent the whole of it, from the first record to the last, and no call, also
 *   one on another table, is given any octet of it as out or as refusals. A record that came there
 *   in another way is believed if it is well-formed, whatever it says.
 * - It tells of each link when local congestion begins and when it is over, by CONGESTION and
 *   CONGESTION_CEASED, in whatever state the link is, out of service too (in state 6 no link is
 *   congested, and CONGESTION_CEASED is Illegal). The record keeps it, and the library does the
 *   rest: nothing is to be handed in on START_PROVING. One CONGESTION_CEASED ends it, however often
 *   and at whatever levels CONGESTION came, and no other event does: level 0 too makes the link
 *   congested. Until then each connection with which the link would prove is given up.
 *
 * Where the stack is short: a step takes 120 octets and a burst 216, by the listing. glibc's
 * memmove takes none, but where it is bound lazily its first call runs the dynamic loader, which
 * took 3 KB with 0.1.1, on a painted stack; memset can be bound so too.
 */
#ifndef SSCF_H
#define SSCF_H

#include <stddef.h>
#include <stdint.h>

#ifdef __cplusplus
extern "C" {
#endif

/*
 * WHAT A HOST OF AN EARLIER VERSION CHANGES
 *
 * 0.7.0 keeps in a link's record whether it is congested, and the last release field sent. What a
 * host of 0.6.0 has to change:
 *
 * - A link record is 20 octets and its mark "LN", a table at most 5,120 octets; a step asks for
 *   4,240 octets of output, and a burst that 4,240 are left of out before each event.
 *   SSCF_LINK_OCTETS, SSCF_TABLE_OCTETS_MAX and SSCF_OUTPUT_OCTETS say so; look for a plain 16, for
 *   4192, for a 4096 that means a table (a message is still at most 4,096), and for "LK". All that
 *   calls the library is compiled again.
 * - A table that an earlier version has written is not one of this. Release the connections, make
 *   table and deadlines anew, and tell congestion that lasts. The old table's length (1), its mark
 *   (6) or its number of links (5) refuses nearly every call, but nothing promises it: a table of
 *   5, 10, ... links has a length that passes, and octets of it may read as a record.
 * - The beginning and the end of congestion are told when they come, in every state (the end not in
 *   6), see above. A host that told the end only of links in service now has links that stay
 *   congested. Level 0 too makes a link congested: the end is told by CONGESTION_CEASED alone.
 * - A host that tells both so need not hand CONGESTION in again on START_PROVING. Better take it
 *   out: handed in behind the CONGESTION_CEASED of that congestion, it makes the link congested
 *   anew.
 * - RELEASE_REQUEST can stand behind ESTABLISH_RESPONSE in one step, and is then confirmed. Look
 *   for what takes every RELEASE_REQUEST after ESTABLISH_INDICATION for a call turned down.
 * - Timer orders can stand before other signals of a step, SET_T3 before RESET_T3 and START_PROVING
 *   before STOP_PROVING: look for what stops at the first timer order, or does resets before sets.
 *
 * 0.6.0 has the calls of DEADLINES, and nothing else is altered: a host of 0.5.0 has nothing to
 * change.
 *
 * 0.5.0 tells which field of an event was wrong. What a host of 0.4.0 has to change:
 *
 * - sscf_fresh answers a struct sscf_fresh_answer and no longer a number: compare its `refusal`.
 * - What was SSCF_REFUSED_FIELD, 4, is 10, 11 or 12 now. A test for a plain 4 still compiles, and
 *   is never true.
 * - A step's refusals go up to 12, and 10 to 12 are no higher in the order of the checks: look at
 *   arrays of ten and at comparisons by < and >.
 * - struct sscf_answer has a fourth number at its end, so all that calls the library is compiled
 *   again. No linker sees where that was forgotten; sscf_version() held against
 *   SSCF_VERSION_NUMBER at the start shows a header and a library that are not of one version.
 *
 * All other numbers, 13 among them, and tables, events and signals are as in 0.4.0.
 */
#define SSCF_VERSION "0.7.0"
#define SSCF_VERSION_NUMBER 7000 /* 1,000,000 x 0 + 1,000 x 7 + 0 */

/* LIMITS */

#define SSCF_LINK_OCTETS 20            /* a link record */
#define SSCF_LINKS_MAX 256             /* links in a table; at least 1 */
#define SSCF_TABLE_OCTETS_MAX 5120     /* a table, 256 x 20 */
#define SSCF_HEAD_OCTETS 12            /* an event or a signal without its message */
#define SSCF_MESSAGE_OCTETS_MAX 4096   /* the message of an event or a signal */
#define SSCF_USER_MESSAGE_OCTETS_MIN 5 /* the peer takes four for a unit */
#define SSCF_UNIT_OCTETS 4             /* an SSCF unit */
#define SSCF_SIGNALS_MAX 8             /* signals from one event */
#define SSCF_OUTPUT_OCTETS 4240        /* what a step asks for, 12 x 12 + 4,096; more is fine. It
                                          is room for twelve signals and one message; a step
                                          writes at most eight */
#define SSCF_N1_DEFAULT 1000           /* proving units of normal proving, Q.2140's default */

/*
 * LINK RECORD
 *
 * A table is its link records one behind the other, link 0 first; link n begins at octet 20 x n.
 * Octets are counted from 0, and all numbers are big-endian, here and in every record.
 *
 *      0-1    "LN"
 *      2      state, SSCF_STATE_...
 *      3      flags, a sum of SSCF_FLAG_...
 *      4      MPS, what management forces, SSCF_MPS_...
 *      5      UPS, what the user wishes, SSCF_UPS_...
 *      6      the timers running, a sum of SSCF_TIMER_...
 *      7      1 if BSNT is known, else 0
 *      8-10   BSNT, 0 where not known: the number of the latest DATA accepted since the link's
 *             latest connection came up. All DATA counts, units, and what was dropped or was a
 *             protocol error, too. It is kept until the next DATA or the next connection that
 *             comes up; a release, RESYNC, RECOVER and START leave it
 *      11     0
 *      12-13  C1, the proving units still to be sent
 *      14-15  n1, the proving units of normal proving, at least 1
 *      16     1 if the link is congested, else 0: every CONGESTION that is accepted makes it 1,
 *             whatever its level, and every CONGESTION_CEASED 0; no other event alters it
 *      17     the last release field, SSCF_STATUS_...: that of the latest RELEASE_REQUEST, also of
 *             one that turned a call down; 0 if there was none. It is for the host to read: no
 *             event's signals or state depend on it; only the next RELEASE_REQUEST and sscf_fresh
 *             alter it
 *      18-19  0
 *
 * Anything else is ill-formed; octet 17 is 0 or any of the nine status codes. Each field is looked
 * at by itself: a C1 above n1, a timer that runs in state 1, or a link congested in state 6, is
 * well-formed. This last is never so where nothing but the calls has written into the table; made
 * by hand, such a link proves on. A fresh record has its mark, state 1 and n1, and 0 in every other
 * octet.
 */

/* Out of service are both 1 and 2, in service is 8 alone. */
enum sscf_state {
    SSCF_STATE_OUT_OF_SERVICE = 1,
    SSCF_STATE_OUT_OF_SERVICE_RELEASING = 2, /* SSCOP still to confirm a release */
    SSCF_STATE_ALIGNMENT_IDLE = 3,           /* until T1 expires or the peer connects */
    SSCF_STATE_ALIGNMENT_CONNECTING = 4,     /* SSCOP still to confirm the connection */
    SSCF_STATE_ALIGNMENT_RELEASING = 5,      /* SSCOP still to confirm a release */
    SSCF_STATE_PROVING = 6,
    SSCF_STATE_ALIGNED_READY = 7,            /* own INS unit sent, the peer's awaited */
    SSCF_STATE_IN_SERVICE = 8,

    /* The same by Q.2140's triples: as the user sees the link, as SSCOP does, as management. */
    SSCF_STATE_1_1_1 = 1,
    SSCF_STATE_1_4_1 = 2,
    SSCF_STATE_2_1_2 = 3,
    SSCF_STATE_2_2_2 = 4,
    SSCF_STATE_2_4_2 = 5,
    SSCF_STATE_2_10_3 = 6,
    SSCF_STATE_2_10_4 = 7,
    SSCF_STATE_3_10_5 = 8
};

enum sscf_flag {
    SSCF_FLAG_INS = 1, /* the peer's INS unit came during proving; 0 again with a new connection */
    SSCF_FLAG_LPO = 2  /* local processor outage */
};

/*
 * How many proving units a connection sends is decided once, when it comes up: under MPS_NORMAL
 * n1, under MPS_EMERGENCY none, under MPS_NEUTRAL n1 if both the user and the peer ask for Normal,
 * and else none. The peer is told NM or EM by MPS if that forces one of them, and else by UPS.
 * MPS stays until management changes it; UPS falls back to Normal when the link goes out of
 * service or the user stops it.
 */
enum sscf_mps { SSCF_MPS_NEUTRAL = 0, SSCF_MPS_NORMAL = 1, SSCF_MPS_EMERGENCY = 2 };
enum sscf_ups { SSCF_UPS_NORMAL = 0, SSCF_UPS_EMERGENCY = 1 };

/*
 * The times are Q.2140's defaults. T3 has no number there: it is to be "such that loading of the
 * signalling link is approximately 50% of its nominal cell rate" (Table 5). The other defaults are
 * for 64 kbit/s, which makes T3 some 13 ms: a proving unit is one cell, and a cell takes 6.6 ms.
 *
 * Proving takes one expiry of T3 for each unit decided, n1 or none, and one more for the INS unit.
 * These must fit into T2, which runs from START on, at both ends, with time left for the connection
 * itself. Else T2 ends every attempt: with n1 = 1000 and T2 of 30 seconds, a link that proves with
 * T3 of 31 ms is never in service, nor one with 30. What is left of T2 is also how far apart the
 * STARTs of the two ends may lie, since T2 of the first runs from its own: with T3 of 13 ms not
 * quite 17 seconds. Else the first is given up, and its user has to start it again.
 */
enum sscf_timer {
    SSCF_TIMER_T1 = 1, /* from a failed attempt at a connection to the next one: 5 seconds */
    SSCF_TIMER_T2 = 2, /* all of alignment, until the link is in service or given up: 30 seconds */
    SSCF_TIMER_T3 = 4  /* between proving units, so that they load the link to about one half */
};

/*
 * EVENT AND SIGNAL RECORD
 *
 *      0-1    "EV" for an event, "SG" for a signal
 *      2-3    link, counted from 0
 *      4      code, SSCF_EVENT_... or SSCF_SIGNAL_...
 *      5      parameter: a status code or a level
 *      6-8    number
 *      9      0
 *      10-11  length of the message, 0 to 4,096
 *      12-    the message
 *
 * A field that a code does not carry is 0. An event is exactly its 12 octets and its message.
 */

/*
 * STATUS CODES
 *
 * An SSCF unit is four octets, three reserved and the status. The library writes the reserved
 * octets 0 and does not look at those it reads. As a message a unit stands in whole. As the
 * SSCOP-UU field of SSCOP's ESTABLISH and RELEASE it stands in octet 5 by its status alone: of a
 * signal the host makes the field 0, 0, 0, status; of a field that came it hands in the status, and
 * 0 where no field came or its status is none of these.
 */
enum sscf_status {
    SSCF_STATUS_OOS = 1, /* Out of Service */
    SSCF_STATUS_PO = 2,  /* Processor Outage */
    SSCF_STATUS_INS = 3, /* In Service */
    SSCF_STATUS_NM = 4,  /* Normal; as a message, the proving unit */
    SSCF_STATUS_EM = 5,  /* Emergency */
    SSCF_STATUS_ANS = 7, /* Alignment Not Successful */
    SSCF_STATUS_MI = 8,  /* Management Initiated */
    SSCF_STATUS_PE = 9,  /* Protocol Error */
    SSCF_STATUS_PNS = 10 /* Proving Not Successful */
};

/*
 * EVENTS
 *
 * Beside each code stands what the record carries, and the states, by code, in which the event is
 * accepted; in the others it is Illegal (refusal 8). "field" is a status code or 0, in octet 5.
 *
 * The user starts a link (START) and stops it (STOP), asks for proving to be left out (EMERGENCY)
 * or no longer so (EMERGENCY_CEASES), and sends. For a changeover it asks, out of service, for the
 * number of the latest DATA on the latest connection that came up (RETRIEVE_BSNT), and for those of
 * its own messages that the peer has not accepted, FSNC being the last it has
 * (RETRIEVAL_REQUEST_AND_FSNC).
 */
enum sscf_event {
    /* From the user. */
    SSCF_EVENT_MESSAGE_FOR_TRANSMISSION = 1,   /* message, 5 to 4,096 octets      .......8 */
    SSCF_EVENT_EMERGENCY = 2,                  /*                                 1234567. */
    SSCF_EVENT_EMERGENCY_CEASES = 3,           /*                                 1234567. */
    SSCF_EVENT_STOP = 4,                       /*                                 ..345678 */
    SSCF_EVENT_START = 5,                      /*                                 12...... */
    SSCF_EVENT_RETRIEVE_BSNT = 6,              /*                                 12...... */
    SSCF_EVENT_RETRIEVAL_REQUEST_AND_FSNC = 7, /* number: FSNC                    12...... */
    SSCF_EVENT_FLUSH_BUFFERS = 8,              /*         (does nothing)          12345678 */
    SSCF_EVENT_CONTINUE = 9,                   /*         (does nothing)          12345678 */

    /* From SSCOP, its AA- signals. A call of the peer in state 1 is turned down by RELEASE_REQUEST
     * with OOS, or PO during an outage. DATA of five octets or more is a message for the user, of
     * four a unit of the peer; shorter ones are dropped, and so are units of another status than NM
     * and INS, and whatever of four octets or fewer comes with RETRIEVE. RECOVER is answered and
     * reported in states 7 and 8, UNITDATA is only reported. ESTABLISH in states 3 and 4 with NM or
     * EM leads to state 6; on a congested link the same step goes on as CONGESTION does there, to
     * state 5. These are protocol errors, for which the connection is released (PE): ESTABLISH in
     * states 3 and 4 with no field or one other than NM and EM; a message before service; an INS or
     * NM unit in service; RESYNC; and RECOVER in state 6. */
    SSCF_EVENT_ESTABLISH_INDICATION = 16,      /* field                           1.3..... */
    SSCF_EVENT_ESTABLISH_CONFIRM = 17,         /* field                           ...4.... */
    SSCF_EVENT_RELEASE_INDICATION = 18,        /* field; number: SSCF_SOURCE_...  ...4.678 */
    SSCF_EVENT_RELEASE_CONFIRM = 19,           /*                                 .2..5... */
    SSCF_EVENT_DATA = 20,                      /* message, 0 to 4,096; number: SN .....678 */
    SSCF_EVENT_RESYNC = 21,                    /*                                 .....678 */
    SSCF_EVENT_RECOVER = 22,                   /*                                 .....678 */
    SSCF_EVENT_UNITDATA = 23,                  /* message, 0 to 4,096             12345678 */
    SSCF_EVENT_RETRIEVE = 24,                  /* message, 0 to 4,096             12...... */
    SSCF_EVENT_RETRIEVE_COMPLETE = 25,         /*                                 12...... */

    /* From layer management. RELEASE takes the link out of service. OUTAGE does so in states 7 and
     * 8, and, while it lasts, to a link that ends proving. PROVING_UNSUCCESSFUL, and CONGESTION in
     * state 6, give up the connection, and the link tries again. From CONGESTION, of level 0 too,
     * to CONGESTION_CEASED the link is congested. In states 7 and 8 both are told to the user and
     * reported, the end is reported in state 5 and Illegal in 6, and else neither has a signal. So
     * not every REPORT of CD has its CC: octet 16 of the record is what to go by.
     * CONGESTION_CEASED is taken, and told, also where the link was not congested. FORCE_PROVING
     * sets MPS_NORMAL; a mode counts from the next connection that comes up on. */
    SSCF_EVENT_PROVING_UNSUCCESSFUL = 32,      /*                                 .....6.. */
    SSCF_EVENT_RELEASE = 33,                   /*                                 12345678 */
    SSCF_EVENT_OUTAGE = 34,                    /* local processor outage          12345678 */
    SSCF_EVENT_RECOVERED = 35,                 /* local processor recovered       123456.. */
    SSCF_EVENT_FORCE_PROVING = 36,             /*                                 12345678 */
    SSCF_EVENT_FORCE_EMERGENCY = 37,           /*                                 12345678 */
    SSCF_EVENT_CLEAR_FORCE_MODES = 38,         /*                                 12345678 */
    SSCF_EVENT_CONGESTION = 39,                /* level, 0 to 3, in octet 5       12345678 */
    SSCF_EVENT_CONGESTION_CEASED = 40,         /*                                 12345.78 */

    /* From the host's clocks. The timer must be marked running (refusal 7). */
    SSCF_EVENT_T1_EXPIRED = 48,                /*                                 ..3..... */
    SSCF_EVENT_T2_EXPIRED = 49,                /*                                 ..34567. */
    SSCF_EVENT_T3_EXPIRED = 50                 /*                                 .....6.. */
};

/* Who released the connection, the number of RELEASE_INDICATION. */
enum sscf_source { SSCF_SOURCE_USER = 0, SSCF_SOURCE_SSCOP = 1 };

/*
 * SIGNALS
 *
 * They come in the order of Q.2140's Table 6, the timer orders last, but for the step below: resets
 * before sets, T1 first. All signals of a step are for the link of its event. A step that goes on
 * from ESTABLISH to what CONGESTION does writes all signals of the one, its timer orders too, and
 * then those of the other:
 *
 *     ESTABLISH_RESPONSE, START_PROVING, RESET_T1, SET_T3,   of ESTABLISH_INDICATION, or
 *     START_PROVING, SET_T3,                                 of ESTABLISH_CONFIRM, then
 *     RELEASE_REQUEST with PNS, REPORT {LR,-,CD}, STOP_PROVING, RESET_T3
 *
 * which are eight signals by ESTABLISH_INDICATION, six by ESTABLISH_CONFIRM. No step writes more
 * than eight.
 */
enum sscf_signal {
    /* To the user. A congestion that came in state 7 holds on past IN_SERVICE; a link that goes out
     * of service gives no CONGESTION_CEASED for it. */
    SSCF_SIGNAL_RECEIVED_MESSAGE = 1,      /* message, 5 to 4,096 octets */
    SSCF_SIGNAL_LINK_CONGESTED = 2,        /* octet 5: the level, 0 to 3 */
    SSCF_SIGNAL_CONGESTION_CEASED = 3,
    SSCF_SIGNAL_IN_SERVICE = 4,            /* the link carries messages from here on */
    SSCF_SIGNAL_OUT_OF_SERVICE = 5,        /* no more until the next IN_SERVICE */
    SSCF_SIGNAL_RETRIEVED_MESSAGES = 6,    /* message, 5 to 4,096 octets */
    SSCF_SIGNAL_RETRIEVAL_COMPLETE = 7,
    SSCF_SIGNAL_BSNT = 8,                  /* number: BSNT, octets 8-10 of the link record */
    SSCF_SIGNAL_BSNT_NOT_RETRIEVABLE = 9,  /* no DATA since the latest connection came up */

    /* To SSCOP. Octet 8 of ESTABLISH is the buffer release parameter, 1 for yes, 0 for no. */
    SSCF_SIGNAL_ESTABLISH_REQUEST = 16,    /* octet 5: NM or EM; octet 8: 0 */
    SSCF_SIGNAL_ESTABLISH_RESPONSE = 17,   /* octet 5: NM or EM; octet 8: 0 */
    SSCF_SIGNAL_RELEASE_REQUEST = 18,      /* octet 5: OOS, PO, ANS, MI, PE or PNS */
    SSCF_SIGNAL_DATA_REQUEST = 19,         /* message: a unit, NM or INS, or the user's message */
    SSCF_SIGNAL_RECOVER_RESPONSE = 20,
    SSCF_SIGNAL_RETRIEVE_REQUEST = 21,     /* number: RN, the FSNC of the event; from RN + 1 on */

    /* To layer management, which monitors errors from START_PROVING to STOP_PROVING. Two events in
     * state 6 end proving with no STOP_PROVING, PROVING_UNSUCCESSFUL and RELEASE: they come from
     * layer management itself. */
    SSCF_SIGNAL_START_PROVING = 32,        /* MAAL-PROVING; also where no unit is to be sent */
    SSCF_SIGNAL_STOP_PROVING = 33,
    SSCF_SIGNAL_REPORT = 34,               /* octets 6, 7 and 8: SSCF_REPORT_..., see below */

    /* Timer orders. */
    SSCF_SIGNAL_SET_T1 = 48,
    SSCF_SIGNAL_SET_T2 = 49,
    SSCF_SIGNAL_SET_T3 = 50,
    SSCF_SIGNAL_RESET_T1 = 56,
    SSCF_SIGNAL_RESET_T2 = 57,
    SSCF_SIGNAL_RESET_T3 = 58
};

/* A REPORT has a value in each of octets 6, 7 and 8; 0 is Q.2140's "-", nothing to report. */
enum sscf_report_lower { /* octet 6, towards SSCOP */
    SSCF_REPORT_LOWER_LR = 1, /* Local Release */
    SSCF_REPORT_LOWER_RR = 2, /* Remote Release */
    SSCF_REPORT_LOWER_SR = 3  /* SSCOP Release */
};

enum sscf_report_upper { /* octet 7, towards the user */
    SSCF_REPORT_UPPER_OOS = 1, /* Out Of Service */
    SSCF_REPORT_UPPER_INS = 2, /* In Service */
    SSCF_REPORT_UPPER_ALN = 3  /* Alignment */
};

enum sscf_report_reason { /* octet 8 */
    SSCF_REPORT_REASON_ANS = 1,     /* Alignment Not Successful */
    SSCF_REPORT_REASON_CC = 2,      /* Congestion Ceased */
    SSCF_REPORT_REASON_CD = 3,      /* Congestion Detected */
    SSCF_REPORT_REASON_PE = 4,      /* Protocol Error */
    SSCF_REPORT_REASON_SREC = 5,    /* SSCOP Recover */
    SSCF_REPORT_REASON_UDR = 6,     /* UNITDATA Received */
    SSCF_REPORT_REASON_PDUT = 7,    /* PDU Transmitted */
    SSCF_REPORT_REASON_SSCOP_UU = 8 /* the peer's: its status code, or 0 for none, is octet 5 */
};

/*
 * REFUSALS
 *
 * Each is given exactly where it is listed, and the checks are made in the order of the list, which
 * is not that of the numbers: 10, 11 and 12 stand between 3 and 5. Where several things are wrong
 * the first is answered. sscf_burst alone gives 13; it tells 2 in `broken` and never in its list,
 * and gives no 9. No call on a table gives 4.
 *
 * With 10, 11 and 12 a step names the field of the event that is at fault by its place, which is
 * that of the field's first octet: event + place is where it begins. 10 is asked of all fields,
 * then 11, then 12; where several are at fault for the number that is answered, the one at the
 * lowest place is named. So RELEASE_INDICATION with parameter 6, which is no status code, and with
 * a message is 10 at the length; without the message it is 11 at the parameter; and with parameter
 * 0 and a source of 256 it is 11 at the number. MESSAGE_FOR_TRANSMISSION with four octets or with
 * none is 12 at the length; with a code that carries no message, one of 1 octet or more is 10
 * there. These refusals are of the event alone: on every table that is not refused itself, and with
 * any output, the same event gets the same number and place. sscf_fresh answers 11 at the place
 * that n1 has in a record; what is 0 there is its argument, and no octet of the table, which is as
 * it was. Every other answer has place 0.
 *
 * 1 to 3, 5, 6 and 9 to 13 are faults of the host: a wrong length, an event written wrong, a record
 * that something else wrote into. The same call is refused again, so they are to be logged and
 * mended. After 6 the link is lost. A copy of its record brings it back if it was taken after the
 * last event that was accepted for the link; an older one may say in service of a connection that
 * is gone. Without one, release the connections and make the table anew. Of a table that something
 * else wrote into, what is proved of sequences of calls no longer speaks, until the next
 * sscf_fresh.
 *
 * 7 and 8 can be its faults too, as when it starts a link twice, or has a congestion cease in state
 * 6, where no link is congested. But they also come where there is none, from events that crossed:
 * one was on its way when another, or a signal, overtook it. Such an event is dropped, and the link
 * goes on. Q.2140 assumes of the boundary with SSCOP, and of no other, that nothing crosses there
 * (8.2 c, clause 12 item 3). Seen with this library:
 *
 * - A timer's expiry, as the timer is reset (7): T1's as the peer connects, T2's as the link comes
 *   into service, T3's as the connection is given up.
 * - START, STOP, START before SSCOP has confirmed the release: RELEASE_CONFIRM comes in state 4.
 *   The ESTABLISH_CONFIRM that follows is accepted.
 * - Two ends that connect at once: ESTABLISH_INDICATION comes in state 4. SSCOP's ESTABLISH_CONFIRM
 *   is accepted after it; should none come, the link waits until T2 expires.
 * - What SSCOP still has to say when the link, in state 2 or 5, has given the connection up:
 *   ESTABLISH_CONFIRM, RELEASE_INDICATION, DATA, RESYNC, RECOVER; in state 2 also the peer's call,
 *   ESTABLISH_INDICATION, that was on its way at START and STOP. RELEASE_CONFIRM is accepted after
 *   it.
 * - A call that the link turned down, in state 1 or 3, as the peer gave it up: RELEASE_INDICATION,
 *   before the next ESTABLISH_REQUEST. A RELEASE_CONFIRM there is SSCOP's fault, see above.
 * - What the user asks before it has heard: MESSAGE_FOR_TRANSMISSION as the link leaves service,
 *   STOP as it does so or is given up by T2, EMERGENCY and EMERGENCY_CEASES as it comes into
 *   service. A message that is refused has not been sent, and is still the user's.
 * - PROVING_UNSUCCESSFUL from layer management, as proving ends.
 * - RETRIEVE and RETRIEVE_COMPLETE after the next START. These messages are lost to the user, which
 *   had better wait for RETRIEVAL_COMPLETE.
 */
enum sscf_refusal {
    SSCF_ACCEPTED = 0,
    SSCF_REFUSED_TABLE = 1,  /* table empty, not a multiple of 20 octets, or over 5,120 */
    SSCF_REFUSED_FRAME = 2,  /* event under 12 octets, its mark not "EV", octet 9 not 0, length
                                over 4,096 or not equal to the octets that follow */
    SSCF_REFUSED_CODE = 3,   /* unknown event code */

    /* Then these three, which name a field of the event. A field is set if it is not 0. */
    SSCF_REFUSED_NOT_CARRIED = 10, /* a field set that the code does not carry, the length too */
    SSCF_REFUSED_RANGE = 11,       /* a parameter or source out of its range (a far end's status
                                      that is none of ours goes in as 0); of sscf_fresh, n1 0 */
    SSCF_REFUSED_SHORT = 12,       /* MESSAGE_FOR_TRANSMISSION with 0 to 4 octets */

    /* Then the others. */
    SSCF_REFUSED_LINK = 5,   /* link number not below the number of records */
    SSCF_REFUSED_RECORD = 6, /* that link's record ill-formed */
    SSCF_REFUSED_TIMER = 7,  /* expiry of a timer that is not marked running */
    SSCF_REFUSED_STATE = 8,  /* the event is Illegal in the link's state */
    SSCF_REFUSED_OUTPUT = 9, /* output shorter than 4,240 octets, whatever the event would write */
    SSCF_REFUSED_LIST = 13   /* of a burst as a whole: its list is too short */
};

/* Where the fields that 10, 11 and 12 name begin: the first three in an event, n1 in a link record.
 * SSCF_HEAD_AT_... and SSCF_LINK_AT_N1 of sscf_host.h are the same numbers. */
enum sscf_place {
    SSCF_PLACE_NONE = 0,
    SSCF_PLACE_PARAMETER = 5, /* one octet */
    SSCF_PLACE_NUMBER = 6,    /* three; of RELEASE_INDICATION, the source */
    SSCF_PLACE_LENGTH = 10,   /* two */
    SSCF_PLACE_N1 = 14        /* two; of sscf_fresh alone */
};

/* What sscf_fresh answers. */
struct sscf_fresh_answer {
    uint32_t refusal; /* SSCF_ACCEPTED, SSCF_REFUSED_TABLE or SSCF_REFUSED_RANGE */
    uint32_t place;   /* SSCF_PLACE_N1 with SSCF_REFUSED_RANGE, else 0 */
};

/*
 * Makes a fresh table: every record of the table_octets / 20 becomes out of service, with nothing
 * forced, no timer running, no BSNT, not congested and no last release field, and with n1 proving
 * units for normal proving, 1 to 65,535. C cuts a larger number before the call sees it: 65,537
 * arrives as 1. Links with another n1 want a table of their own. Congestion that lasts is told
 * again.
 *
 * Answers SSCF_ACCEPTED, or SSCF_REFUSED_TABLE, or else SSCF_REFUSED_RANGE at SSCF_PLACE_N1 if n1
 * is 0. A refusal leaves the table as it was.
 */
struct sscf_fresh_answer sscf_fresh(uint8_t *table, size_t table_octets, uint16_t n1);

/* What a step answers. */
struct sscf_answer {
    uint32_t refusal; /* SSCF_ACCEPTED or SSCF_REFUSED_... */
    uint32_t octets;  /* octets written to the output, from its beginning; 0 if refused */
    uint32_t signals; /* signal records in them, one behind the other; 0 if refused */
    uint32_t place;   /* SSCF_PLACE_... of the field at fault with 10, 11 and 12, else 0 */
};

/*
 * Takes one event for one link of the table.
 *
 * Accepted, it brings the record of that link up to date and writes the signals to the beginning
 * of out. An accepted event may well have none: octets and signals are then 0. No octet changes
 * but in that link's record and in the first `octets` octets of out. The record stays well-formed.
 *
 * Refused, it answers the number of the refusal, no octets and no signals, and with 10, 11 and 12
 * the place, and no octet of table or out changes: it is as if the call had not been made.
 *
 * The event is only read. What out held before does not matter.
 */
struct sscf_answer sscf_step(uint8_t *table, size_t table_octets,
                             const uint8_t *event, size_t event_octets,
                             uint8_t *out, size_t out_octets);

/*
 * A BURST
 *
 * Takes events that stand end to end in one buffer, for any links of the table: hundreds at a
 * restart, in one crossing into the library. Each is done as sscf_step would do it, one after the
 * other, on the table that the one before left and with the rest of the output. So the signals of
 * all stand in out, one behind the other in the order of their events, and refusals[n], counted
 * from 0, is the refusal that sscf_step would have answered for event n: 0 if it was accepted, else
 * 3, 5 to 8 or 10 to 12. An event that is refused is passed over, and the burst goes on with the
 * next. The place of 10, 11 and 12 is not told. sscf_step with the same event and an out of NULL
 * and 0 tells it at any time: without output it accepts nothing.
 *
 * An event is sound here, accepted or not, if its frame is not broken; and a frame is broken if
 * fewer than 12 octets are left, the mark is not "EV", octet 9 is not 0, or the length is over
 * 4,096 or passes the end.
 *
 * Before anything is written the burst as a whole may be refused: as SSCF_REFUSED_TABLE, or else as
 * SSCF_REFUSED_LIST if refusals has fewer places than there are sound events before the end or the
 * first broken frame, also where there will be no room for all. Then every other field of the
 * answer is 0, and no octet of table and out and no number of refusals changes.
 *
 * Else `refusal` is SSCF_ACCEPTED, and the burst stops where the first of these is met, which is
 * `at`:
 *
 * - The end of the events.
 * - A broken frame, which is told, and asks for no room: `broken` is SSCF_REFUSED_FRAME. It has no
 *   number in refusals, and neither it nor anything behind it is taken. Nothing in it tells where
 *   the next event begins. It alone is refused: what stands before it is done, and not to be handed
 *   in again.
 * - An event, to be accepted or refused, for which fewer than SSCF_OUTPUT_OCTETS are left of out.
 *   So none is refused as SSCF_REFUSED_OUTPUT. The host goes on there, with out empty again.
 *
 * What was done before stands. refusals is as it was past the first `taken` of its numbers, and out
 * past its first `octets` octets; so is every record of a link that no event taken names. A burst
 * of no events, events_octets 0, is accepted with 0 in every field.
 *
 * How large the buffers are to be. An out of SSCF_OUTPUT_OCTETS and twelve times the octets of the
 * events always has room for all of them. With less the burst may have to stop: with just
 * SSCF_OUTPUT_OCTETS behind the first event that has a signal; and with fewer it takes none and is
 * accepted all the same, so a loop has to look at `taken`. Of refusals
 * events_octets / SSCF_HEAD_OCTETS places are always enough; where it has so many, the events are
 * not counted beforehand, which saves time.
 *
 * What may stand in one buffer. The signals are handed on when the burst has returned, so no event
 * can be an answer to one of them, and meanwhile the table is as the last event taken left it. One
 * event for each link is always right. Of several for one link two things that the host sees to, of
 * late expiries and of what SSCOP said before a RELEASE_REQUEST, become these rules of the whole
 * buffer, also where want of room splits it:
 *
 * - No expiry stands behind an event that sets its timer anew, so never two of T3.
 * - No event 16 to 22 stands behind two others of which the first gives RELEASE_REQUEST and a later
 *   one ESTABLISH_REQUEST.
 *
 * At a restart, with the events and their octets in a buffer of the host's:
 *
 *     size_t begin = 0;
 *
 *     while (begin < octets) {
 *         struct sscf_burst_answer answer;
 *
 *         answer = sscf_burst(table, sizeof table, events + begin, octets - begin, out, sizeof out,
 *                             refusals, sizeof refusals / sizeof *refusals);
 *         if (answer.refusal != SSCF_ACCEPTED)
 *             return give_up(answer.refusal);
 *         hand_on_burst(out, answer.octets);
 *         look_at_refusals(events + begin, answer.at, refusals);
 *         begin += answer.at;
 *         if (answer.broken != 0)
 *             return give_up(answer.broken);
 *         if (answer.taken == 0)
 *             return give_up(SSCF_REFUSED_OUTPUT);
 *     }
 *
 * sscf_host.h has functions that go through events and signals end to end.
 */

/* What a burst answers. */
struct sscf_burst_answer {
    uint32_t refusal; /* SSCF_ACCEPTED, SSCF_REFUSED_TABLE or SSCF_REFUSED_LIST */
    uint32_t broken;  /* SSCF_REFUSED_FRAME if a broken frame ended the burst, else 0 */
    size_t taken;     /* events that were taken: as many numbers stand in refusals */
    size_t at;        /* where the burst stopped, in octets of the events */
    size_t octets;    /* octets written to the output, from its beginning */
    size_t signals;   /* signal records in them, one behind the other */
};

struct sscf_burst_answer sscf_burst(uint8_t *table, size_t table_octets,
                                    const uint8_t *events, size_t events_octets,
                                    uint8_t *out, size_t out_octets,
                                    uint32_t *refusals, size_t refusals_count);

/*
 * Answers the version of the library that the program was linked with, in the way of
 * SSCF_VERSION_NUMBER. If the two differ, the header is not the one that belongs to the library.
 */
uint32_t sscf_version(void);

/*
 * CHANGEOVER MESSAGES
 *
 * For the user of the links, MTP level 3 by ITU-T Q.2210 (07/96). When a link fails, its two ends
 * tell each other over another link the number of the last message that each accepted: by an
 * extended changeover order, XCO, and its acknowledgement, XCA. Each then sends again, over another
 * link, what the other has not accepted. Links over SSCOP count messages with 24 bits, and so do
 * these two messages, of clause 9.8.1. They are nine octets, which is level 3's whole message, as
 * MESSAGE_FOR_TRANSMISSION and RECEIVED_MESSAGE carry it:
 *
 *     bit  8   7   6   5   4   3   2   1
 *        |  sub-service  |  service = 0  |  octet 1, the SIO
 *        |              DPC              |  octet 2
 *        |  OPC  |          DPC          |  octet 3
 *        |              OPC              |  octet 4
 *        |      SLC      |      OPC      |  octet 5
 *        |  H1 = 3 or 4  |    H0 = 1     |  octet 6, the heading
 *        |            number             |  octet 7
 *        |            number             |  octet 8
 *        |            number             |  octet 9
 *
 * Unlike the records above, a field that goes over several octets has its lowest bits in the first
 * of them: 197121 is 01 02 03 here, and 03 02 01 in a signal.
 *
 * The number is one and the same by three names: the FSN of the last message accepted, the BSNT of
 * the end that sends it, the FSNC of the end that gets it. When to send which:
 *
 * - A link that was in service is out of service, states 1 and 2, by OUT_OF_SERVICE or by a STOP of
 *   the user's own, and its traffic is to go another way. Hand in RETRIEVE_BSNT. The number of BSNT
 *   goes into an XCO, with the SLC of that link, the point code of its far end as DPC and that of
 *   this end as OPC.
 * - The XCA that comes back has the far end as its OPC. Hand its number in as the FSNC of
 *   RETRIEVAL_REQUEST_AND_FSNC. SSCOP gives back what it was to send after the message with that
 *   number; all that then comes as RETRIEVED_MESSAGES, until RETRIEVAL_COMPLETE, is sent again, in
 *   its order.
 * - An XCO that comes says that the link has failed for the far end. In states 3 to 8 STOP it, once
 *   all DATA that SSCOP has given is handed in: behind the STOP it would be refused, and not be
 *   counted. Then RETRIEVE_BSNT, an XCA with that number, DPC and OPC exchanged, and the XCO's own
 *   number as FSNC. Where two orders cross, each brings what the acknowledgement would: the number
 *   is handed in once.
 * - START waits until all this is over: from state 3 on RETRIEVE_BSNT and the FSNC are refused, and
 *   the first connection that comes up after it takes the number away for good. Until then nothing
 *   but sscf_fresh does. An order that comes about the connection before finds no number of it
 *   then: what is answered is the later connection's, or none.
 * - After BSNT_NOT_RETRIEVABLE there is no number to send: no DATA was accepted since the latest
 *   connection came up, or none ever came up. A link that was in service has received the peer's
 *   INS unit, and has a number until the next connection comes up. Q.704 has an emergency
 *   changeover for an end without one. It is not written here, and there is no FSNC for "unknown".
 *
 * How long to wait for an XCA, and whether a number can be right, is level 3's to know.
 *
 * Link 2 is out of service. An XCO is to go to 4660 from 13602, where the link's SLC is 5; the
 * sub-service field is 8, network indicator 2 in its upper two bits:
 *
 *     uint8_t ask[SSCF_HEAD_OCTETS] = {'E', 'V', 0, 2, SSCF_EVENT_RETRIEVE_BSNT};
 *     struct sscf_changeover order = {8, 0, 4660, 13602, 5, SSCF_CHANGEOVER_XCO, 0};
 *     uint8_t xco[SSCF_CHANGEOVER_OCTETS];
 *
 *     answer = sscf_step(table, sizeof table, ask, sizeof ask, out, sizeof out);
 *     if (answer.refusal == SSCF_ACCEPTED && out[4] == SSCF_SIGNAL_BSNT) {
 *         order.number = (uint32_t)out[6] << 16 | (uint32_t)out[7] << 8 | out[8];
 *         if (sscf_changeover_write(xco, sizeof xco, order) == SSCF_ACCEPTED)
 *             send_over_another_link(xco, sizeof xco);
 *     }
 *
 * With BSNT 197121 these are sent: 80 34 92 48 5d 31 01 02 03. And when a message of level 3 comes:
 *
 *     struct sscf_changeover_answer came = sscf_changeover_read(message, length);
 *
 *     if (came.refusal == SSCF_ACCEPTED && came.message.heading == SSCF_CHANGEOVER_XCA &&
 *         came.message.opc == order.dpc && came.message.slc == order.slc) {
 *         uint8_t fetch[SSCF_HEAD_OCTETS] = {'E', 'V', 0, 2};
 *
 *         fetch[4] = SSCF_EVENT_RETRIEVAL_REQUEST_AND_FSNC;
 *         fetch[6] = (uint8_t)(came.message.number >> 16);
 *         fetch[7] = (uint8_t)(came.message.number >> 8);
 *         fetch[8] = (uint8_t)came.message.number;
 *         answer = sscf_step(table, sizeof table, fetch, sizeof fetch, out, sizeof out);
 *         hand_on_signals(out, answer);
 *     }
 *
 * The two calls keep nothing and know of no table. A program that makes no other call links nothing
 * else of the library. As with a step, the pointer is good for the length beside it, nobody else
 * touches the octets during the call, and a length of 0 may come with any pointer. Proved, for
 * every message and all octets: what was written is read as the same fields, and what was read is
 * written as the same nine octets.
 */

#define SSCF_CHANGEOVER_OCTETS 9

/* The heading, octet 6 whole: H1 in its upper four bits, H0 = 1 in its lower. */
enum sscf_changeover_heading {
    SSCF_CHANGEOVER_XCO = 0x31, /* extended changeover order */
    SSCF_CHANGEOVER_XCA = 0x41  /* extended changeover acknowledgement */
};

/*
 * The refusals of these two calls, which are not those of a step: each is given exactly where it is
 * listed, and where several things are wrong the lowest number is answered. A refusal changes
 * nothing. What is refused on reading is no XCO and no XCA, and may be another message of level 3;
 * what is refused on writing is the host's fault. sscf_changeover_refusal_name of sscf_host.h has
 * them as strings.
 */
enum sscf_changeover_refusal {
    SSCF_CHANGEOVER_REFUSED_LENGTH = 1,  /* the output, or the input, is not nine octets long */
    SSCF_CHANGEOVER_REFUSED_HEADING = 2, /* the heading is neither XCO nor XCA */
    SSCF_CHANGEOVER_REFUSED_SERVICE = 3, /* the service indicator is not 0 */
    SSCF_CHANGEOVER_REFUSED_FIELD = 4    /* writing only: sub_service, dpc, opc, slc or number is
                                            above its range */
};

/* A changeover message. */
struct sscf_changeover {
    uint8_t sub_service; /* sub-service field, SSF, 0 to 15 */
    uint8_t service;     /* service indicator, SI, 0: signalling network management */
    uint16_t dpc, opc;   /* point codes of destination and origin, 0 to 16,383 */
    uint8_t slc;         /* signalling link code, 0 to 15 */
    uint8_t heading;     /* SSCF_CHANGEOVER_XCO or SSCF_CHANGEOVER_XCA */
    uint32_t number;     /* FSN of the last message accepted, 0 to 16,777,215 */
};

/* What the reader answers. */
struct sscf_changeover_answer {
    uint32_t refusal;               /* SSCF_ACCEPTED or SSCF_CHANGEOVER_REFUSED_... */
    struct sscf_changeover message; /* 0 in every field if refused */
};

/*
 * Writes a message into an output of exactly nine octets, all of which it writes, and answers
 * SSCF_ACCEPTED; or answers SSCF_CHANGEOVER_REFUSED_... and leaves the output as it was.
 */
uint32_t sscf_changeover_write(uint8_t *out, size_t out_octets, struct sscf_changeover message);

/*
 * Reads a message of nine octets, the SIO first; a longer one is refused, not cut. It never answers
 * SSCF_CHANGEOVER_REFUSED_FIELD: every nine octets with one of the two headings and a service
 * indicator of 0 are a message. The octets are only read.
 */
struct sscf_changeover_answer sscf_changeover_read(const uint8_t *octets, size_t count);

/*
 * DEADLINES
 *
 * A step orders timers set and reset, and a host with a timer wheel of its own follows the orders
 * there. Or it leaves that to these three calls, and has only to know the time: they keep for every
 * link when T1, T2 and T3 are due, in a list that is the host's, follow an order as of a given
 * time, and name what is due by a given time, one timer for each call. Times are milliseconds of a
 * clock that never goes back, counted from any moment: CLOCK_MONOTONIC will do.
 *
 * The list has 3n + 1 numbers for n links, 1 to 256:
 *
 *      3 x link      the deadline of T1, or SSCF_NOT_RUNNING
 *      3 x link + 1  the deadline of T2, or SSCF_NOT_RUNNING
 *      3 x link + 2  the deadline of T3, or SSCF_NOT_RUNNING
 *      3 x n         the last time given to a call that was accepted, at first 0
 *
 * A timer that is set is due its period after the time of the order, whether it ran already or not:
 * T1 after 5 seconds and T2 after 30, by Q.2140's Table 5, always. T3 has a period for each link,
 * in a list of n numbers, 1 to 60,000, which the host may alter between calls; what runs keeps its
 * deadline. A link so fast that its T3 should be shorter has 1. A timer is due when its deadline is
 * at or before the time.
 *
 * What is left to the host:
 *
 * - the clock, and waking up. The least of the first 3n numbers is the time at which to ask next,
 *   SSCF_NOT_RUNNING if no timer runs: sscf_next_deadline of sscf_host.h finds it, anew after every
 *   order. A timer that is set runs from the time given with its order, not from when it should
 *   have been named. So whatever the host wakes up late is added to each T3, and all of proving
 *   must still fit into T2.
 * - to follow every timer order of an accepted step or burst, resets too, in the order written. One
 *   time is read for a turn, and every order and question of the turn is given at it: behind an
 *   order at a later time the next question at the first one is refused.
 * - to hand in at once what was named, before any other event and before the next question: it is
 *   marked not running here with the answer, and in the record with the expiry's own step. An
 *   expiry that is kept back may be that of a timer that was stopped meanwhile, and is refused by
 *   7, as T3's behind T2's where both were due and named; or of one that was set anew since, and
 *   nothing tells the two apart.
 * - to ask until nothing is due, whether events that came of the expiries are stepped in between or
 *   behind. Asked again and again at one time, with no order between, every timer that is due is
 *   named exactly once: the earliest deadline first, of equal ones the lower link's, and of one
 *   link's T1 before T2 before T3. What an order sets meanwhile is due later than its time.
 * - to look at the refusals. A question that is refused answers no expiry, as if nothing were due,
 *   and an order that is refused is lost: its timer would never be set, or never stopped.
 * - to keep the list beside its table: both are made fresh together, and a copy of one goes with a
 *   copy of the other. The calls believe the deadlines and the last time that they find. These are
 *   of one clock: where the list goes on by another, as CLOCK_MONOTONIC of another machine is or of
 *   this one started anew, the host first moves every deadline that runs by what the two clocks
 *   differ, one that would fall below 0 to 0, and puts 0 in the place of the last time.
 *
 * A host of four links, with sscf_host.h. table, of 80 octets, and out are its own, and so are
 * time_now, its clock in milliseconds, hand_on_signals, which leaves out the timer orders, fail,
 * and wait_until. This waits for a time, or with SSCF_NOT_RUNNING without end, and for what SSCOP,
 * the users and management have for the links: it steps that, with follow behind each step or
 * burst, by the octets that this answered, and comes back at once, since an order may have set an
 * earlier deadline.
 *
 *     static uint64_t deadlines[SSCF_DEADLINES(4)], periods[4] = {13, 13, 13, 13};
 *
 *     static void follow(size_t octets, uint64_t time)
 *     {
 *         const uint8_t *signal;
 *         uint32_t refusal;
 *
 *         for (signal = sscf_first_record(out, octets); signal != NULL;
 *              signal = sscf_next_record(out, octets, signal)) {
 *             uint8_t code = signal[SSCF_HEAD_AT_CODE];
 *
 *             if (code < SSCF_SIGNAL_SET_T1)
 *                 continue;
 *             refusal = sscf_deadlines_order(deadlines, SSCF_DEADLINES(4), periods, 4,
 *                                            (uint16_t)sscf_get_16(signal + SSCF_HEAD_AT_LINK),
 *                                            code, time);
 *             if (refusal != SSCF_ACCEPTED)
 *                 fail(sscf_deadlines_refusal_name(refusal));
 *         }
 *     }
 *
 *     static void hand_in_due(uint64_t time)
 *     {
 *         struct sscf_due_answer due;
 *         uint8_t expiry[SSCF_HEAD_OCTETS];
 *         struct sscf_answer answer;
 *
 *         while ((due = sscf_deadlines_due(deadlines, SSCF_DEADLINES(4), periods, 4, time))
 *                    .expired != 0) {
 *             sscf_put_bare_event(expiry, sizeof expiry, due.link, due.expired);
 *             answer = sscf_step(table, sizeof table, expiry, sizeof expiry, out, sizeof out);
 *             if (answer.refusal != SSCF_ACCEPTED)
 *                 fail(sscf_refusal_name(answer.refusal));
 *             hand_on_signals(out, answer);
 *             follow(answer.octets, time);
 *         }
 *         if (due.refusal != SSCF_ACCEPTED)
 *             fail(sscf_deadlines_refusal_name(due.refusal));
 *     }
 *
 *     static void run(void)
 *     {
 *         sscf_fresh(table, sizeof table, SSCF_N1_DEFAULT);
 *         sscf_deadlines_fresh(deadlines, SSCF_DEADLINES(4));
 *         for (;;) {
 *             wait_until(sscf_next_deadline(deadlines, SSCF_DEADLINES(4)));
 *             hand_in_due(time_now());
 *         }
 *     }
 *
 * examples/clock.c of the sources is a whole host with a real clock.
 *
 * The calls keep nothing. A program that makes no other call links nothing else of the library. As
 * with a step, each pointer is good for as many numbers as the count beside it says and aligned for
 * them, the deadlines for writing too; the two lists do not overlap, nobody else touches them
 * during a call, and a count of 0 may come with any pointer. What is said here of the answers and
 * of the list is proved of the code, for all numbers in both lists.
 */

/* The numbers of a list of deadlines, by the number of links. */
#define SSCF_DEADLINES(links) (3 * (links) + 1)

/* All ones, for a deadline: the timer does not run. It is never due, also at this time. */
#define SSCF_NOT_RUNNING (~(uint64_t)0)

/* The longest period of a T3, in milliseconds. */
#define SSCF_PERIOD_MAX 60000

/*
 * The refusals of these calls, which are not those of a step: each is given exactly where it is
 * listed, and where several things are wrong the lowest number is answered. A refusal changes
 * nothing. sscf_deadlines_refusal_name of sscf_host.h has them as strings.
 */
enum sscf_deadlines_refusal {
    SSCF_DEADLINES_REFUSED_LISTS = 1,   /* not 3n + 1 deadlines and n periods, n from 1 to 256 */
    SSCF_DEADLINES_REFUSED_PERIOD = 2,  /* a period, of any link, is 0 or above 60,000 */
    SSCF_DEADLINES_REFUSED_ORDER = 3,   /* an order only: no such link, or no timer order's code */
    SSCF_DEADLINES_REFUSED_TIME = 4,    /* the time is before the last one in the list */
    SSCF_DEADLINES_REFUSED_DEADLINE = 5 /* a set order only: it would be due at 2^64 - 1 or later */
};

/*
 * Makes a list in which no timer runs, with a last time of 0, and answers SSCF_ACCEPTED. Answers
 * SSCF_DEADLINES_REFUSED_LISTS where the count is not 3n + 1 for an n from 1 to 256.
 */
uint32_t sscf_deadlines_fresh(uint64_t *deadlines, size_t count);

/*
 * Follows a timer order for one link, given at this time: the code is that of a signal,
 * SSCF_SIGNAL_SET_T1 to SSCF_SIGNAL_RESET_T3. Answers SSCF_ACCEPTED; that timer's deadline and the
 * last time are then new, and all other numbers as they were. A reset of a timer that does not run
 * is accepted. C cuts a larger link or code before the call sees it: link 65,536 arrives as 0.
 */
uint32_t sscf_deadlines_order(uint64_t *deadlines, size_t count, const uint64_t *periods,
                              size_t links, uint16_t link, uint8_t code, uint64_t time);

/* What is due. */
struct sscf_due_answer {
    uint32_t refusal; /* SSCF_ACCEPTED or SSCF_DEADLINES_REFUSED_LISTS, _PERIOD or _TIME */
    uint32_t expired; /* SSCF_EVENT_T1_EXPIRED to SSCF_EVENT_T3_EXPIRED, the event to hand in; 0 if
                         nothing is due or refused */
    uint32_t link;    /* the link to hand it in for; 0 if nothing is due or refused */
};

/*
 * Names the earliest timer that is due at this time and marks it not running, or says that none is
 * due, which it says exactly if none is. Either way the time is then the last one in the list, and
 * all other numbers are as they were.
 */
struct sscf_due_answer sscf_deadlines_due(uint64_t *deadlines, size_t count,
                                          const uint64_t *periods, size_t links, uint64_t time);

#ifdef __cplusplus
}
#endif

#endif
