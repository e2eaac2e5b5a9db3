/*
 * What the programs share that run the library and the second machine side by side: numbers drawn,
 * guards, and how a difference is told and refusals are counted.
 */
#ifndef COMPARE_H
#define COMPARE_H

#include <stddef.h>
#include <stdint.h>
#include <stdio.h>
#include <string.h>

/*
 * Numbers drawn: the same ones from the same seed on every machine (xorshift64*), for which no
 * expression draws two of them without an order.
 */

static uint64_t drawn;

/* xorshift never leaves 0. */
static inline void seed(uint64_t number)
{
    drawn = number * UINT64_C(0x9E3779B97F4A7C15) | 1;
}

static inline uint32_t draw(void)
{
    drawn ^= drawn >> 12;
    drawn ^= drawn << 25;
    drawn ^= drawn >> 27;
    return (uint32_t)(drawn * UINT64_C(2685821657736338717) >> 32);
}

static inline uint32_t below(uint32_t end)
{
    return draw() % end;
}

static inline int one_in(uint32_t n)
{
    return below(n) == 0;
}

/* Guards, the octets beside a buffer, of which none may change. */

enum { GUARD = 16 };

static inline uint8_t *put_guard(uint8_t *at)
{
    memset(at, 0xC3, GUARD);
    return at + GUARD;
}

static inline int guard_broken(const uint8_t *at)
{
    static const uint8_t whole[GUARD] = { 0xC3, 0xC3, 0xC3, 0xC3, 0xC3, 0xC3, 0xC3, 0xC3,
                                          0xC3, 0xC3, 0xC3, 0xC3, 0xC3, 0xC3, 0xC3, 0xC3 };

    return memcmp(at, whole, GUARD) != 0;
}

/* A difference is told so that it can be seen again. */

static inline void print_hex(const uint8_t *at, size_t octets)
{
    size_t n;

    for (n = 0; n < octets; n++)
        printf("%02x%s", at[n], n + 1 == octets || n % 32 == 31 ? "\n" : "");
}

/* `other` is the name of what the library is held against. */
static inline void print_first_octet(const char *name, const char *other, const uint8_t *a,
                                     const uint8_t *b, size_t octets)
{
    size_t n;

    for (n = 0; n < octets; n++) {
        if (a[n] != b[n]) {
            printf("%s, octet %lu: library %u, %s %u\n", name, (unsigned long)n, a[n], other, b[n]);
            return;
        }
    }
}

/* The refusals of all calls are below the last of these, at which whatever is none is counted. */
enum { NUMBERS = 15 };

static inline void count_refusal(unsigned long *refusals, uint32_t refusal)
{
    refusals[refusal < NUMBERS ? refusal : NUMBERS - 1]++;
}

/*
 * That there is no difference says little of an answer that was never given. `wanted` has a bit for
 * each refusal that the call can answer, 0 among them; any other is one too many.
 */
static inline int never_seen(const char *name, const unsigned long *refusals, unsigned wanted)
{
    const char *between = "";
    int missing = 0, odd = 0;
    unsigned n;

    printf("%s, times each refusal was answered:", name);
    for (n = 0; n < NUMBERS; n++) {
        if (!(wanted >> n & 1)) {
            odd |= refusals[n] != 0;
            continue;
        }
        printf("%s %u: %lu", between, n, refusals[n]);
        between = ",";
        missing |= refusals[n] == 0;
    }
    printf("\n");
    if (missing)
        printf("%s: one was never seen\n", name);
    if (odd)
        printf("%s: one was seen that cannot be\n", name);
    return missing | odd;
}

/* All kinds of a thing must have been there, or it says little that they did not differ. */
static inline int never_counted(const char *name, const char *what, const char *const *kinds,
                                const unsigned long *counts, unsigned many)
{
    int missing = 0;
    unsigned n;

    printf("%s, times %s:", name, what);
    for (n = 0; n < many; n++) {
        printf("%s %s: %lu", n > 0 ? "," : "", kinds[n], counts[n]);
        missing |= counts[n] == 0;
    }
    printf("\n");
    if (missing)
        printf("%s: one was never seen\n", name);
    return missing;
}

#endif
