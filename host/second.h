/*
 * The second machine: the calls of the library once more in plain C, to compare it with and to
 * measure it by. The arguments and answers mean what they mean there.
 */
#ifndef SECOND_H
#define SECOND_H

#include <stddef.h>
#include <stdint.h>

/*
 * What a step answers: the number of the refusal, or 0, the octets written, the signals in them and
 * a place. With 10, 11 and 12 that is where in the event the first field at fault begins, parameter
 * 5, number 6 or length 10; with all others, and with 0, it is 0.
 */
struct second_answer {
    uint32_t refusal, octets, signals, place;
};

/* What the maker of a table answers: the number of the refusal, or 0; with 11 place 14, else 0. */
struct second_fresh_answer {
    uint32_t refusal, place;
};

/*
 * Makes every link of the table anew with n1, not congested and without a last release field;
 * refuses by 1 or 11 and leaves the table alone. A table is 1 to 256 records of 20 octets.
 */
struct second_fresh_answer second_fresh(uint8_t *table, size_t table_octets, uint16_t n1);

/*
 * Takes one event for one link, and needs 4,240 octets of output. On a congested link an event that
 * would enter proving goes on at once with what congestion does there. The buffers are valid for
 * their lengths and do not overlap.
 */
struct second_answer second_step(uint8_t *table, size_t table_octets,
                                 const uint8_t *event, size_t event_octets,
                                 uint8_t *out, size_t out_octets);

/*
 * What a burst answers: the number of the refusal, or 0; 2 if a broken frame ended it, or 0; the
 * events taken, where in their octets it stopped, the octets written and the signals in them.
 */
struct second_burst_answer {
    uint32_t refusal, broken;
    size_t taken, at, octets, signals;
};

/*
 * Takes events that stand end to end, as so many steps would, and puts the number of each refusal,
 * or 0, into the list, without a place. Stops at a broken frame, and at an event for which the
 * output has no room. Refuses by 1 or 13 with nothing written. The buffers are valid for their
 * lengths and do not overlap.
 */
struct second_burst_answer second_burst(uint8_t *table, size_t table_octets,
                                        const uint8_t *events, size_t events_octets,
                                        uint8_t *out, size_t out_octets,
                                        uint32_t *refusals, size_t refusals_count);

/* A changeover message. Its heading is octet 6 whole, 0x31 for XCO and 0x41 for XCA; its service is 0. */
struct second_changeover {
    uint8_t sub_service, service;
    uint16_t dpc, opc;
    uint8_t slc, heading;
    uint32_t number;
};

/* What a reading answers: the number of the refusal and a message of zeros, or 0 and the message. */
struct second_changeover_answer {
    uint32_t refusal;
    struct second_changeover message;
};

/* Writes the nine octets of a message; answers 0, or 1 to 4 and leaves the output alone. */
uint32_t second_changeover_write(uint8_t *out, size_t out_octets, struct second_changeover message);

/* Reads the nine octets of a message; refuses by 1 to 3. */
struct second_changeover_answer second_changeover_read(const uint8_t *octets, size_t count);

/*
 * What the question for a timer that is due answers: the number of the refusal, or 0; the code of
 * the event to hand in, 48 to 50 for T1 to T3, or 0 if nothing is due; and the link to hand it in
 * for, 0 with a refusal and if nothing is due.
 */
struct second_due_answer {
    uint32_t refusal, expired, link;
};

/*
 * Makes a list of 3n + 1 deadlines, n from 1 to 256, in which no timer runs and the last time is 0;
 * answers 0, or 1 for another count and leaves the list alone.
 */
uint32_t second_deadlines_fresh(uint64_t *deadlines, size_t count);

/*
 * Sets or resets one timer of one link, by the code of a step's timer order, 48 to 50 or 56 to 58,
 * and makes the time the last one; answers 0, or 1 to 5 and leaves the list alone. The periods are
 * those of T3, one for each link. The lists are valid for their counts and do not overlap.
 */
uint32_t second_deadlines_order(uint64_t *deadlines, size_t count,
                                const uint64_t *periods, size_t links,
                                uint16_t link, uint8_t code, uint64_t time);

/*
 * Names the timer that is due first, ties by lower link and then lower timer, marks it not running
 * and makes the time the last one, also if nothing is due. Refuses by 1, 2 or 4 and leaves the list
 * alone. The lists are valid for their counts and do not overlap.
 */
struct second_due_answer second_deadlines_due(uint64_t *deadlines, size_t count,
                                              const uint64_t *periods, size_t links, uint64_t time);

#endif
