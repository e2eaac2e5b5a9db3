/*
 * sscf_host.h: small help for a host of sscf.h, which is the manual.
 *
 * The places of a record's fields by name, a link's state, congestion and last field, events
 * written, signals taken one by one, the next deadline, and every code as a string. All of it is
 * inline, in C99 and in C++: there is nothing to link, nothing is allocated or kept, and of the C
 * library only memmove is called. The library does not need it, and nothing here is part of what is
 * proved.
 *
 *     uint8_t event[SSCF_HEAD_OCTETS];
 *     size_t octets = sscf_put_bare_event(event, sizeof event, 2, SSCF_EVENT_START);
 *     struct sscf_answer answer = sscf_step(table, sizeof table, event, octets, out, sizeof out);
 *     const uint8_t *signal;
 *
 *     if (answer.refusal != SSCF_ACCEPTED)
 *         printf("refused: %s, %s\n", sscf_refusal_name(answer.refusal),
 *                sscf_place_name(answer.place));
 *     for (signal = sscf_first_signal(out, answer); signal != NULL;
 *          signal = sscf_next_signal(out, answer, signal))
 *         printf("%s\n", sscf_signal_name(signal[SSCF_HEAD_AT_CODE]));
 *
 * starts link 2 and prints "AA-ESTABLISH-request", "MAAL-REPORT-indication" and "Set T2".
 */
#ifndef SSCF_HOST_H
#define SSCF_HOST_H

#include "sscf.h"

#include <stddef.h>
#include <stdint.h>
#include <string.h>

/* PLACES: where each field of a record begins, in octets from the record's own beginning. */

enum sscf_link_at {
    SSCF_LINK_AT_MARK = 0, /* "LN" */
    SSCF_LINK_AT_STATE = 2,
    SSCF_LINK_AT_FLAGS = 3,
    SSCF_LINK_AT_MPS = 4,
    SSCF_LINK_AT_UPS = 5,
    SSCF_LINK_AT_TIMERS = 6,
    SSCF_LINK_AT_BSNT_KNOWN = 7,
    SSCF_LINK_AT_BSNT = 8, /* three octets */
    SSCF_LINK_AT_ZERO = 11,
    SSCF_LINK_AT_C1 = 12,  /* two octets */
    SSCF_LINK_AT_N1 = 14,  /* two octets */
    SSCF_LINK_AT_CONGESTED = 16,
    SSCF_LINK_AT_LAST_FIELD = 17,
    SSCF_LINK_AT_ZEROS = 18 /* two octets */
};

enum sscf_head_at { /* of events and signals; the message is at SSCF_HEAD_OCTETS */
    SSCF_HEAD_AT_MARK = 0,   /* "EV" or "SG" */
    SSCF_HEAD_AT_LINK = 2,   /* two octets */
    SSCF_HEAD_AT_CODE = 4,
    SSCF_HEAD_AT_PARAMETER = 5,
    SSCF_HEAD_AT_NUMBER = 6, /* three octets; in a REPORT these are its values */
    SSCF_HEAD_AT_LOWER = 6,
    SSCF_HEAD_AT_UPPER = 7,
    SSCF_HEAD_AT_REASON = 8,
    SSCF_HEAD_AT_ZERO = 9,
    SSCF_HEAD_AT_LENGTH = 10 /* two octets */
};

/* NUMBERS: big-endian, of two octets or three. Of a value too large the lowest bits are written. */

static inline uint32_t sscf_get_16(const uint8_t *at)
{
    return (uint32_t)at[0] << 8 | at[1];
}

static inline uint32_t sscf_get_24(const uint8_t *at)
{
    return (uint32_t)at[0] << 16 | (uint32_t)at[1] << 8 | at[2];
}

static inline void sscf_put_16(uint8_t *at, uint32_t value)
{
    at[0] = (uint8_t)(value >> 8);
    at[1] = (uint8_t)value;
}

static inline void sscf_put_24(uint8_t *at, uint32_t value)
{
    at[0] = (uint8_t)(value >> 16);
    sscf_put_16(at + 1, value);
}

/* LINKS */

/*
 * The state of a link, SSCF_STATE_..., as its record in the table says it: SSCF_STATE_IN_SERVICE
 * exactly if the link is in service. The link is one of the table's. No other octet is looked at:
 * of a record that sscf_step refuses as ill-formed it tells nothing.
 */
static inline uint32_t sscf_link_state(const uint8_t *table, uint32_t link)
{
    return table[SSCF_LINK_OCTETS * link + SSCF_LINK_AT_STATE];
}

/* The same of congestion, 1 if the link is congested and else 0. */
static inline uint32_t sscf_link_congested(const uint8_t *table, uint32_t link)
{
    return table[SSCF_LINK_OCTETS * link + SSCF_LINK_AT_CONGESTED];
}

/*
 * The same of the last release field, SSCF_STATUS_..., that of the latest RELEASE_REQUEST; 0 for
 * none. sscf_status_name has no name for 0.
 */
static inline uint32_t sscf_link_last_field(const uint8_t *table, uint32_t link)
{
    return table[SSCF_LINK_OCTETS * link + SSCF_LINK_AT_LAST_FIELD];
}

/* EVENTS */

/*
 * Writes an event to the beginning of a buffer of `room` octets: a head with these fields, and a
 * copy of the message behind it. The caller gives 0 for what the code does not carry. The message
 * may lie in the buffer, also where it is to stand; with a length of 0 it may be NULL.
 *
 * Answers the event's octets, SSCF_HEAD_OCTETS + length, for sscf_step. If a value is too large for
 * its field, or the event for the room, it answers 0 and writes nothing; an event of 0 octets is
 * refused as SSCF_REFUSED_FRAME, with no place. In a buffer for sscf_burst it is simply not there:
 * test for 0.
 * Whether the fields are right for the code sscf_step and sscf_burst say.
 */
static inline size_t sscf_put_event(uint8_t *event, size_t room, uint32_t link, uint32_t code,
                                    uint32_t parameter, uint32_t number,
                                    const void *message, size_t length)
{
    if (link > 0xffff || code > 0xff || parameter > 0xff || number > 0xffffff ||
        length > SSCF_MESSAGE_OCTETS_MAX || room < SSCF_HEAD_OCTETS + length)
        return 0;
    if (length > 0)
        memmove(event + SSCF_HEAD_OCTETS, message, length);
    event[SSCF_HEAD_AT_MARK] = 'E';
    event[SSCF_HEAD_AT_MARK + 1] = 'V';
    sscf_put_16(event + SSCF_HEAD_AT_LINK, link);
    event[SSCF_HEAD_AT_CODE] = (uint8_t)code;
    event[SSCF_HEAD_AT_PARAMETER] = (uint8_t)parameter;
    sscf_put_24(event + SSCF_HEAD_AT_NUMBER, number);
    event[SSCF_HEAD_AT_ZERO] = 0;
    sscf_put_16(event + SSCF_HEAD_AT_LENGTH, (uint32_t)length);
    return SSCF_HEAD_OCTETS + length;
}

/* The same for an event that carries nothing, as most do. */
static inline size_t sscf_put_bare_event(uint8_t *event, size_t room, uint32_t link, uint32_t code)
{
    return sscf_put_event(event, room, link, code, 0, 0, NULL, 0);
}

/* RECORDS END TO END */

/*
 * Of signals that a step or a burst wrote, or of a burst's events: the first one in so many octets,
 * and the one behind another: a pointer into the buffer, or NULL if there is none. A record is
 * SSCF_HEAD_OCTETS and a message, whose length is sscf_get_16(record + SSCF_HEAD_AT_LENGTH).
 * Neither function looks at more than these octets, or asks whether a record is sound.
 */
static inline const uint8_t *sscf_first_record(const uint8_t *buffer, size_t octets)
{
    return octets >= SSCF_HEAD_OCTETS ? buffer : NULL;
}

static inline const uint8_t *sscf_next_record(const uint8_t *buffer, size_t octets,
                                              const uint8_t *record)
{
    size_t length = SSCF_HEAD_OCTETS + sscf_get_16(record + SSCF_HEAD_AT_LENGTH);
    size_t left = octets - (size_t)(record - buffer);

    return left >= length + SSCF_HEAD_OCTETS ? record + length : NULL;
}

/* The same of the signals that a step answered. */
static inline const uint8_t *sscf_first_signal(const uint8_t *out, struct sscf_answer answer)
{
    return sscf_first_record(out, answer.octets);
}

static inline const uint8_t *sscf_next_signal(const uint8_t *out, struct sscf_answer answer,
                                              const uint8_t *signal)
{
    return sscf_next_record(out, answer.octets, signal);
}

/*
 * DEADLINES
 *
 * The earliest of a list, when to ask next what is due; SSCF_NOT_RUNNING if no timer runs. The last
 * number, the last time, is none of them.
 */
static inline uint64_t sscf_next_deadline(const uint64_t *deadlines, size_t count)
{
    uint64_t next = SSCF_NOT_RUNNING;
    size_t n;

    for (n = 0; n + 1 < count; n++)
        if (deadlines[n] < next)
            next = deadlines[n];
    return next;
}

/*
 * NAMES
 *
 * Each code as Q.2140 has it, a changeover's heading as Q.2210 has it, refusals in a few words, and
 * the field that a place stands for; "?" if there is no such code. Status codes and a REPORT's
 * values are Table 6's abbreviations, so that its {LR,OOS,-} can be printed as it stands there: 0
 * in a REPORT is "-". The trace's scripts, host/names and host/ladder of the sources, print the
 * shorter names of sscf.h's constants instead: what is START_PROVING there is
 * MAAL-PROVING-indication here.
 */

static inline const char *sscf_state_name(uint32_t state)
{
    switch (state) {
    case SSCF_STATE_OUT_OF_SERVICE: return "Out Of Service/Idle";
    case SSCF_STATE_OUT_OF_SERVICE_RELEASING:
        return "Out Of Service/Outgoing Disconnection Pending";
    case SSCF_STATE_ALIGNMENT_IDLE: return "Alignment/Idle";
    case SSCF_STATE_ALIGNMENT_CONNECTING: return "Alignment/Outgoing Connection Pending";
    case SSCF_STATE_ALIGNMENT_RELEASING: return "Alignment/Outgoing Disconnection Pending";
    case SSCF_STATE_PROVING: return "Proving/Data Transfer Ready";
    case SSCF_STATE_ALIGNED_READY: return "Aligned Ready/Data Transfer Ready";
    case SSCF_STATE_IN_SERVICE: return "In Service/Data Transfer Ready";
    default: return "?";
    }
}

static inline const char *sscf_status_name(uint32_t status)
{
    switch (status) {
    case SSCF_STATUS_OOS: return "OOS";
    case SSCF_STATUS_PO: return "PO";
    case SSCF_STATUS_INS: return "INS";
    case SSCF_STATUS_NM: return "NM";
    case SSCF_STATUS_EM: return "EM";
    case SSCF_STATUS_ANS: return "ANS";
    case SSCF_STATUS_MI: return "MI";
    case SSCF_STATUS_PE: return "PE";
    case SSCF_STATUS_PNS: return "PNS";
    default: return "?";
    }
}

static inline const char *sscf_event_name(uint32_t code)
{
    switch (code) {
    case SSCF_EVENT_MESSAGE_FOR_TRANSMISSION: return "AAL-MESSAGE_FOR_TRANSMISSION-request";
    case SSCF_EVENT_EMERGENCY: return "AAL-EMERGENCY-request";
    case SSCF_EVENT_EMERGENCY_CEASES: return "AAL-EMERGENCY_CEASES-request";
    case SSCF_EVENT_STOP: return "AAL-STOP-request";
    case SSCF_EVENT_START: return "AAL-START-request";
    case SSCF_EVENT_RETRIEVE_BSNT: return "AAL-RETRIEVE_BSNT-request";
    case SSCF_EVENT_RETRIEVAL_REQUEST_AND_FSNC: return "AAL-RETRIEVAL_REQUEST_AND_FSNC-request";
    case SSCF_EVENT_FLUSH_BUFFERS: return "AAL-FLUSH_BUFFERS-request";
    case SSCF_EVENT_CONTINUE: return "AAL-CONTINUE-request";

    case SSCF_EVENT_ESTABLISH_INDICATION: return "AA-ESTABLISH-indication";
    case SSCF_EVENT_ESTABLISH_CONFIRM: return "AA-ESTABLISH-confirm";
    case SSCF_EVENT_RELEASE_INDICATION: return "AA-RELEASE-indication";
    case SSCF_EVENT_RELEASE_CONFIRM: return "AA-RELEASE-confirm";
    case SSCF_EVENT_DATA: return "AA-DATA-indication";
    case SSCF_EVENT_RESYNC: return "AA-RESYNC-indication";
    case SSCF_EVENT_RECOVER: return "AA-RECOVER-indication";
    case SSCF_EVENT_UNITDATA: return "AA-UNITDATA-indication";
    case SSCF_EVENT_RETRIEVE: return "AA-RETRIEVE-indication";
    case SSCF_EVENT_RETRIEVE_COMPLETE: return "AA-RETRIEVE_COMPLETE-indication";

    case SSCF_EVENT_PROVING_UNSUCCESSFUL: return "MAAL-PROVING_UNSUCCESSFUL-response";
    case SSCF_EVENT_RELEASE: return "MAAL-RELEASE-request";
    case SSCF_EVENT_OUTAGE: return "MAAL-LOCAL_PROCESSOR_OUTAGE-request";
    case SSCF_EVENT_RECOVERED: return "MAAL-LOCAL_PROCESSOR_RECOVERED-request";
    case SSCF_EVENT_FORCE_PROVING: return "MAAL-FORCE_PROVING-request";
    case SSCF_EVENT_FORCE_EMERGENCY: return "MAAL-FORCE_EMERGENCY-request";
    case SSCF_EVENT_CLEAR_FORCE_MODES: return "MAAL-CLEAR_FORCE_MODES-request";
    case SSCF_EVENT_CONGESTION: return "Local Congestion";
    case SSCF_EVENT_CONGESTION_CEASED: return "Local Congestion Ceased";

    case SSCF_EVENT_T1_EXPIRED: return "T1 expires";
    case SSCF_EVENT_T2_EXPIRED: return "T2 expires";
    case SSCF_EVENT_T3_EXPIRED: return "T3 expires";
    default: return "?";
    }
}

static inline const char *sscf_signal_name(uint32_t code)
{
    switch (code) {
    case SSCF_SIGNAL_RECEIVED_MESSAGE: return "AAL-RECEIVED_MESSAGE-indication";
    case SSCF_SIGNAL_LINK_CONGESTED: return "AAL-LINK_CONGESTED-indication";
    case SSCF_SIGNAL_CONGESTION_CEASED: return "AAL-LINK_CONGESTION_CEASED-indication";
    case SSCF_SIGNAL_IN_SERVICE: return "AAL-IN_SERVICE-indication";
    case SSCF_SIGNAL_OUT_OF_SERVICE: return "AAL-OUT_OF_SERVICE-indication";
    case SSCF_SIGNAL_RETRIEVED_MESSAGES: return "AAL-RETRIEVED_MESSAGES-indication";
    case SSCF_SIGNAL_RETRIEVAL_COMPLETE: return "AAL-RETRIEVAL_COMPLETE-indication";
    case SSCF_SIGNAL_BSNT: return "AAL-BSNT-confirm";
    case SSCF_SIGNAL_BSNT_NOT_RETRIEVABLE: return "AAL-BSNT_NOT_RETRIEVABLE-confirm";

    case SSCF_SIGNAL_ESTABLISH_REQUEST: return "AA-ESTABLISH-request";
    case SSCF_SIGNAL_ESTABLISH_RESPONSE: return "AA-ESTABLISH-response";
    case SSCF_SIGNAL_RELEASE_REQUEST: return "AA-RELEASE-request";
    case SSCF_SIGNAL_DATA_REQUEST: return "AA-DATA-request";
    case SSCF_SIGNAL_RECOVER_RESPONSE: return "AA-RECOVER-response";
    case SSCF_SIGNAL_RETRIEVE_REQUEST: return "AA-RETRIEVE-request";

    case SSCF_SIGNAL_START_PROVING: return "MAAL-PROVING-indication";
    case SSCF_SIGNAL_STOP_PROVING: return "MAAL-STOP_PROVING-indication";
    case SSCF_SIGNAL_REPORT: return "MAAL-REPORT-indication";

    case SSCF_SIGNAL_SET_T1: return "Set T1";
    case SSCF_SIGNAL_SET_T2: return "Set T2";
    case SSCF_SIGNAL_SET_T3: return "Set T3";
    case SSCF_SIGNAL_RESET_T1: return "Reset T1";
    case SSCF_SIGNAL_RESET_T2: return "Reset T2";
    case SSCF_SIGNAL_RESET_T3: return "Reset T3";
    default: return "?";
    }
}

/* The three values of a REPORT. */

static inline const char *sscf_report_lower_name(uint32_t value)
{
    switch (value) {
    case 0: return "-";
    case SSCF_REPORT_LOWER_LR: return "LR";
    case SSCF_REPORT_LOWER_RR: return "RR";
    case SSCF_REPORT_LOWER_SR: return "SR";
    default: return "?";
    }
}

static inline const char *sscf_report_upper_name(uint32_t value)
{
    switch (value) {
    case 0: return "-";
    case SSCF_REPORT_UPPER_OOS: return "OOS";
    case SSCF_REPORT_UPPER_INS: return "INS";
    case SSCF_REPORT_UPPER_ALN: return "ALN";
    default: return "?";
    }
}

static inline const char *sscf_report_reason_name(uint32_t value)
{
    switch (value) {
    case 0: return "-";
    case SSCF_REPORT_REASON_ANS: return "ANS";
    case SSCF_REPORT_REASON_CC: return "CC";
    case SSCF_REPORT_REASON_CD: return "CD";
    case SSCF_REPORT_REASON_PE: return "PE";
    case SSCF_REPORT_REASON_SREC: return "SREC";
    case SSCF_REPORT_REASON_UDR: return "UDR";
    case SSCF_REPORT_REASON_PDUT: return "PDUT";
    case SSCF_REPORT_REASON_SSCOP_UU: return "SSCOP-UU";
    default: return "?";
    }
}

static inline const char *sscf_refusal_name(uint32_t refusal)
{
    switch (refusal) {
    case SSCF_ACCEPTED: return "accepted";
    case SSCF_REFUSED_TABLE: return "bad table";
    case SSCF_REFUSED_FRAME: return "bad frame";
    case SSCF_REFUSED_CODE: return "unknown code";
    case SSCF_REFUSED_NOT_CARRIED: return "field not carried";
    case SSCF_REFUSED_RANGE: return "field out of range";
    case SSCF_REFUSED_SHORT: return "user message too short";
    case SSCF_REFUSED_LINK: return "no such link";
    case SSCF_REFUSED_RECORD: return "bad record";
    case SSCF_REFUSED_TIMER: return "timer not running";
    case SSCF_REFUSED_STATE: return "illegal in this state";
    case SSCF_REFUSED_OUTPUT: return "output too short";
    case SSCF_REFUSED_LIST: return "list too short";
    default: return "?";
    }
}

/* Of the place beside a refusal, the field that begins there. */
static inline const char *sscf_place_name(uint32_t place)
{
    switch (place) {
    case SSCF_PLACE_NONE: return "-";
    case SSCF_PLACE_PARAMETER: return "parameter";
    case SSCF_PLACE_NUMBER: return "number";
    case SSCF_PLACE_LENGTH: return "length";
    case SSCF_PLACE_N1: return "n1";
    default: return "?";
    }
}

/* Of changeover messages, whose two calls have refusals of their own. */

static inline const char *sscf_changeover_heading_name(uint32_t heading)
{
    switch (heading) {
    case SSCF_CHANGEOVER_XCO: return "XCO";
    case SSCF_CHANGEOVER_XCA: return "XCA";
    default: return "?";
    }
}

static inline const char *sscf_changeover_refusal_name(uint32_t refusal)
{
    switch (refusal) {
    case SSCF_ACCEPTED: return "accepted";
    case SSCF_CHANGEOVER_REFUSED_LENGTH: return "bad length";
    case SSCF_CHANGEOVER_REFUSED_HEADING: return "bad heading";
    case SSCF_CHANGEOVER_REFUSED_SERVICE: return "bad service indicator";
    case SSCF_CHANGEOVER_REFUSED_FIELD: return "field too wide";
    default: return "?";
    }
}

/* Of deadlines, whose three calls have refusals of their own. */

static inline const char *sscf_deadlines_refusal_name(uint32_t refusal)
{
    switch (refusal) {
    case SSCF_ACCEPTED: return "accepted";
    case SSCF_DEADLINES_REFUSED_LISTS: return "bad lists";
    case SSCF_DEADLINES_REFUSED_PERIOD: return "period out of range";
    case SSCF_DEADLINES_REFUSED_ORDER: return "unknown link or order";
    case SSCF_DEADLINES_REFUSED_TIME: return "time before the last";
    case SSCF_DEADLINES_REFUSED_DEADLINE: return "deadline too late";
    default: return "?";
    }
}

#endif
