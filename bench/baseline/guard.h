/* A guard as triplets, for the plain C programs that the project is measured against. */
#ifndef BENCH_GUARD_H
#define BENCH_GUARD_H
#include <stddef.h>
#include <stdint.h>

enum { FLAGS = 24, CONNECTIVES = 255, FIRST = FLAGS + 1, VARIABLES = FIRST + CONNECTIVES };

struct guard {
    unsigned number, place; /* the refusal; number 0 where the text is a guard */
    unsigned flags, count;
    uint16_t start[FLAGS], length[FLAGS];
    uint16_t triplets[3 * CONNECTIVES];
    uint16_t root;
};

void guard_read(struct guard *g, const uint8_t *text, size_t len);

static inline uint64_t guard_refusal(const struct guard *g)
{
    return 3ull << 32 | (uint64_t)g->number << 16 | g->place;
}

static inline uint64_t refusal(unsigned number, unsigned place)
{
    return 3ull << 32 | (uint64_t)number << 16 | place;
}

/* bits.c */
uint64_t gaps_first(const struct guard *g);                                                 /* the state, or 2^n */
uint64_t gaps_list(const struct guard *g, uint64_t start, uint32_t *out, size_t room, uint64_t *next);

/* saturate.c */
uint64_t saturation_answer(const struct guard *g, unsigned depth);

#endif
