/* Truth tables, 2,048 states at once in a row of 32 words. */
#include "guard.h"
#include <string.h>

enum { WORDS = 32, INSIDE = 11 }; /* the last eleven flags choose a state inside a row */

typedef uint64_t row[WORDS];

static const uint64_t pattern[6] = { 0xaaaaaaaaaaaaaaaa, 0xcccccccccccccccc, 0xf0f0f0f0f0f0f0f0,
                                     0xff00ff00ff00ff00, 0xffff0000ffff0000, 0xffffffff00000000 };

/* the row of a flag that is bit `bit` of a state, in the rows from `state` on */
static void flag_row(uint64_t *to, unsigned bit, uint64_t state)
{
    for (unsigned w = 0; w < WORDS; w++) {
        if (bit < 6)
            to[w] = pattern[bit];
        else if (bit < INSIDE)
            to[w] = -(uint64_t)(w >> (bit - 6) & 1);
        else
            to[w] = -(state >> bit & 1);
    }
}

static inline void evaluate(row *rows, const uint16_t *t, unsigned count, unsigned words)
{
    for (unsigned j = 0; j < count; j++, t += 3) {
        const uint64_t *y = rows[t[1] >> 1], *z = rows[t[2] >> 1];
        uint64_t *restrict x = rows[FIRST + j]; /* operands stand before it */
        uint64_t not_y = -(uint64_t)(t[1] & 1), not_z = -(uint64_t)(t[2] & 1);
        if (t[0] == 0)
            for (unsigned w = 0; w < words; w++)
                x[w] = (y[w] ^ ~not_y) | (z[w] ^ not_z);
        else
            for (unsigned w = 0; w < words; w++)
                x[w] = ~(y[w] ^ z[w] ^ not_y ^ not_z);
    }
}

/* a full row has a number of words that the compiler knows, and a row of one word needs no loop */
static void evaluate_row(row *rows, const struct guard *g, unsigned words)
{
    if (words == WORDS)
        evaluate(rows, g->triplets, g->count, WORDS);
    else if (words == 1)
        evaluate(rows, g->triplets, g->count, 1);
    else
        evaluate(rows, g->triplets, g->count, words);
}

/* word w of the gaps in a row that has been evaluated; with under six flags only the first states exist */
static uint64_t gap_word(const struct guard *g, row *rows, unsigned w)
{
    uint64_t gaps = ~(rows[g->root >> 1][w] ^ -(uint64_t)(g->root & 1));
    return g->flags < 6 ? gaps & ((1ull << (1u << g->flags)) - 1) : gaps;
}

static unsigned words_of(const struct guard *g)
{
    if (g->flags >= INSIDE)
        return WORDS;
    return g->flags <= 6 ? 1 : 1u << (g->flags - 6);
}

/* true and the flags that choose a state inside a row: the same in every row */
static void rows_start(const struct guard *g, row *rows)
{
    memset(rows[0], 0xff, sizeof rows[0]);
    for (unsigned i = 1; i <= g->flags; i++)
        if (g->flags - i < INSIDE)
            flag_row(rows[i], g->flags - i, 0);
}

/* the other flags, in the row that has the state */
static void rows_move(const struct guard *g, row *rows, uint64_t state)
{
    for (unsigned i = 1; i + INSIDE <= g->flags; i++)
        flag_row(rows[i], g->flags - i, state);
}

uint64_t gaps_list(const struct guard *g, uint64_t start, uint32_t *out, size_t room, uint64_t *next)
{
    static row rows[VARIABLES];
    size_t written = 0;
    uint64_t states = 1ull << g->flags;
    unsigned words = words_of(g);
    rows_start(g, rows);
    for (uint64_t base = start >> INSIDE << INSIDE; base < states; base += 1u << INSIDE) {
        rows_move(g, rows, base);
        evaluate_row(rows, g, words);
        for (unsigned w = 0; w < words; w++) {
            uint64_t first = base + 64 * w, gaps = gap_word(g, rows, w);
            if (start >= first + 64)
                continue;
            if (start > first)
                gaps &= ~0ull << (start - first);
            for (; gaps; gaps &= gaps - 1) {
                uint64_t state = first + (unsigned)__builtin_ctzll(gaps);
                if (written == room) {
                    *next = state;
                    return written;
                }
                out[written++] = (uint32_t)state;
            }
        }
    }
    *next = states;
    return written;
}

/* Three-valued truth: bit 0 may be false, bit 1 may be true. */
static unsigned may(const uint8_t *value, unsigned l)
{
    unsigned v = value[l >> 1];
    return l & 1 ? (v >> 1 | v << 1) & 3 : v;
}

static unsigned sketch(const struct guard *g, uint8_t *value)
{
    const uint16_t *t = g->triplets;
    for (unsigned j = 0; j < g->count; j++, t += 3) {
        unsigned y = may(value, t[1]), z = may(value, t[2]), yes, no;
        if (t[0] == 0) {
            yes = (y & 1) | (z >> 1);
            no = (y >> 1) & (z & 1);
        } else {
            yes = ((y & z) | (y & z) >> 1) & 1;
            no = ((y & 1) & (z >> 1)) | ((y >> 1) & (z & 1));
        }
        value[FIRST + j] = (uint8_t)(yes << 1 | no);
    }
    return may(value, g->root);
}

/* the first gap among the states whose first `fixed` flags are those of `state`, or 2^n */
static uint64_t split(const struct guard *g, uint8_t *value, unsigned fixed, uint64_t state)
{
    static row rows[VARIABLES];
    unsigned truth = sketch(g, value);
    if (truth == 2)
        return 1ull << g->flags;
    if (truth == 1)
        return state;
    if (g->flags - fixed <= INSIDE) {
        rows_start(g, rows);
        rows_move(g, rows, state);
        evaluate_row(rows, g, words_of(g));
        for (unsigned w = 0; w < words_of(g); w++) {
            uint64_t gaps = gap_word(g, rows, w);
            if (gaps)
                return state + 64 * w + (unsigned)__builtin_ctzll(gaps);
        }
        return 1ull << g->flags;
    }
    for (unsigned side = 0; side < 2; side++) {
        value[fixed + 1] = side ? 2 : 1;
        uint64_t found = split(g, value, fixed + 1, state | (uint64_t)side << (g->flags - 1 - fixed));
        if (found >> g->flags == 0)
            return found;
    }
    value[fixed + 1] = 3;
    return 1ull << g->flags;
}

uint64_t gaps_first(const struct guard *g)
{
    uint8_t value[VARIABLES];
    memset(value, 3, sizeof value);
    value[0] = 2;
    return split(g, value, 0, 0);
}
