/*
 * For bench.c: a machine that does nothing, so that the cost of calling one can be taken off, and the
 * mark that parts one stretch of calls from the next. They stand in a file of their own so that
 * the compiler, which knows what they do, cannot leave the calls out.
 */
#include <sscf.h>

void bench_mark(void);
struct sscf_answer empty_step(uint8_t *table, size_t table_octets,
                              const uint8_t *event, size_t event_octets,
                              uint8_t *out, size_t out_octets);
struct sscf_burst_answer empty_burst(uint8_t *table, size_t table_octets,
                                     const uint8_t *events, size_t events_octets,
                                     uint8_t *out, size_t out_octets,
                                     uint32_t *refusals, size_t refusals_count);
uint32_t empty_write(uint8_t *out, size_t out_octets, struct sscf_changeover message);
struct sscf_changeover_answer empty_read(const uint8_t *octets, size_t count);
uint32_t empty_order(uint64_t *deadlines, size_t count, const uint64_t *periods, size_t links,
                     uint16_t link, uint8_t code, uint64_t time);
struct sscf_due_answer empty_due(uint64_t *deadlines, size_t count, const uint64_t *periods,
                                 size_t links, uint64_t time);

void bench_mark(void)
{
}

struct sscf_answer empty_step(uint8_t *table, size_t table_octets,
                              const uint8_t *event, size_t event_octets,
                              uint8_t *out, size_t out_octets)
{
    struct sscf_answer nothing = {SSCF_ACCEPTED, 0, 0, SSCF_PLACE_NONE};

    (void)table, (void)table_octets, (void)event, (void)event_octets, (void)out, (void)out_octets;
    return nothing;
}

struct sscf_burst_answer empty_burst(uint8_t *table, size_t table_octets,
                                     const uint8_t *events, size_t events_octets,
                                     uint8_t *out, size_t out_octets,
                                     uint32_t *refusals, size_t refusals_count)
{
    struct sscf_burst_answer nothing = {SSCF_ACCEPTED, 0, 0, 0, 0, 0};

    (void)table, (void)table_octets, (void)events, (void)events_octets, (void)out, (void)out_octets;
    (void)refusals, (void)refusals_count;
    return nothing;
}

uint32_t empty_write(uint8_t *out, size_t out_octets, struct sscf_changeover message)
{
    (void)out, (void)out_octets, (void)message;
    return SSCF_ACCEPTED;
}

struct sscf_changeover_answer empty_read(const uint8_t *octets, size_t count)
{
    struct sscf_changeover_answer nothing = {SSCF_ACCEPTED, {0, 0, 0, 0, 0, 0, 0}};

    (void)octets, (void)count;
    return nothing;
}

uint32_t empty_order(uint64_t *deadlines, size_t count, const uint64_t *periods, size_t links,
                     uint16_t link, uint8_t code, uint64_t time)
{
    (void)deadlines, (void)count, (void)periods, (void)links, (void)link, (void)code, (void)time;
    return SSCF_ACCEPTED;
}

struct sscf_due_answer empty_due(uint64_t *deadlines, size_t count, const uint64_t *periods,
                                 size_t links, uint64_t time)
{
    struct sscf_due_answer nothing = {SSCF_ACCEPTED, 0, 0};

    (void)deadlines, (void)count, (void)periods, (void)links, (void)time;
    return nothing;
}
