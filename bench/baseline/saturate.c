/* Saturation as one writes it down: a relation as an array, a table of steps, and copies at each split. */
#include "guard.h"
#include <stdlib.h>
#include <string.h>

struct problem {
    const struct guard *g;
    unsigned size; /* the variables in use are those below it */
};

/* Each variable has the literal of the lowest variable of its class. Contradictory: variable 0 has literal 1. */
typedef uint16_t relation[VARIABLES];

static uint8_t table[2][3][5][7][3]; /* the names of x, y and z after a step; in the first 255 for contradiction */

static unsigned named(unsigned name, unsigned x, unsigned y, unsigned z)
{
    unsigned literals[7] = { 1, 0, x, x ^ 1, y, y ^ 1, z };
    return literals[name];
}

static unsigned truth(unsigned name, unsigned v)
{
    unsigned x = v >> 2 & 1, y = v >> 1 & 1, z = v & 1;
    unsigned values[7] = { 0, 1, x, !x, y, !y, z };
    return values[name];
}

static unsigned fits(unsigned kind, const unsigned *names, unsigned v)
{
    unsigned x = v >> 2 & 1, y = v >> 1 & 1, z = v & 1;
    return x == (kind ? y == z : (!y || z)) && x == truth(names[0], v) && y == truth(names[1], v) && z == truth(names[2], v);
}

static void fill(unsigned kind, unsigned a, unsigned b, unsigned c)
{
    /* own names are the last of each list: x is 2, y is 4 and z is 6 */
    unsigned names[3] = { a, b, c }, own[3] = { 2, 4, 6 };
    uint8_t *entry = table[kind][a][b][c];
    unsigned any = 0;
    for (unsigned v = 0; v < 8; v++)
        any |= fits(kind, names, v);
    if (!any) {
        entry[0] = 255;
        return;
    }
    for (unsigned i = 0; i < 3; i++) {
        for (unsigned name = 0; name <= own[i]; name++) {
            unsigned always = 1;
            for (unsigned v = 0; v < 8; v++)
                always &= !fits(kind, names, v) || truth(own[i], v) == truth(name, v);
            if (always) {
                entry[i] = (uint8_t)name;
                break;
            }
        }
    }
}

__attribute__((constructor)) static void fill_all(void)
{
    for (unsigned i = 0; i < 210; i++)
        fill(i / 105, i / 35 % 3, i / 7 % 5, i % 7);
}

static inline unsigned lead(const uint16_t *of, unsigned l)
{
    return of[l >> 1] ^ (l & 1);
}

/* answers whether l = m was new */
static unsigned join(uint16_t *of, unsigned size, unsigned l, unsigned m)
{
    unsigned a = lead(of, l), b = lead(of, m);
    if (of[0] == 1 || a == b)
        return 0;
    if ((a ^ b) == 1) {
        of[0] = 1;
        return 1;
    }
    if (a > b) {
        unsigned c = a;
        a = b;
        b = c;
    }
    for (unsigned v = b >> 1; v < size; v++)
        if (of[v] >> 1 == b >> 1)
            of[v] = (uint16_t)(a ^ ((of[v] ^ b) & 1));
    return 1;
}

static unsigned step(uint16_t *of, unsigned size, unsigned kind, unsigned x, unsigned y, unsigned z)
{
    unsigned a = lead(of, x), b = lead(of, y), c = lead(of, z), i, j, k;
    i = a < 2 ? 1 - a : 2;
    j = b < 2 ? 1 - b : (a ^ b) < 2 ? 2 + (a ^ b) : 4;
    k = c < 2 ? 1 - c : (a ^ c) < 2 ? 2 + (a ^ c) : (b ^ c) < 2 ? 4 + (b ^ c) : 6;
    const uint8_t *entry = table[kind][i][j][k];
    if (entry[0] == 255)
        return join(of, size, 0, 1);
    if (entry[0] == i && entry[1] == j && entry[2] == k)
        return 0;
    unsigned news = join(of, size, x, named(entry[0], x, y, z));
    news |= join(of, size, y, named(entry[1], x, y, z));
    return news | join(of, size, z, named(entry[2], x, y, z));
}

static void rest(uint16_t *of, const uint16_t *triplets, unsigned count)
{
    unsigned news;
    do {
        news = 0;
        for (unsigned j = 0; j < count && of[0] != 1; j++)
            news |= step(of, FIRST + count, triplets[3 * j], 2 * (FIRST + j), triplets[3 * j + 1], triplets[3 * j + 2]);
    } while (news);
}

/* what one and other share, into one; neither is contradictory */
static void share(uint16_t *one, const uint16_t *other, unsigned size)
{
    /* the variables whose literal in one is of the same variable, in a chain from the lowest on */
    uint16_t chain[VARIABLES], last[VARIABLES];
    relation shared;
    for (unsigned v = 0; v < size; v++) {
        unsigned leader = one[v] >> 1, u;
        if (leader == v) {
            last[v] = (uint16_t)v;
            chain[v] = 0;
            shared[v] = (uint16_t)(2 * v);
            if (v)
                continue;
        }
        for (u = leader;; u = chain[u]) {
            unsigned sign = (one[u] ^ one[v]) & 1;
            if (other[v] == (other[u] ^ sign)) {
                shared[v] = (uint16_t)(shared[u] ^ sign);
                break;
            }
            if (u == last[leader]) {
                shared[v] = (uint16_t)(2 * v);
                break;
            }
        }
        if (v != leader) {
            chain[last[leader]] = (uint16_t)v;
            last[leader] = (uint16_t)v;
        }
    }
    memcpy(one, shared, size * sizeof *one);
}

static void saturate(const struct problem *p, uint16_t *of, unsigned depth)
{
    unsigned news = 1;
    rest(of, p->g->triplets, p->g->count);
    while (depth && news) {
        news = 0;
        for (unsigned f = 1; f <= p->g->flags && of[0] != 1; f++) {
            if (of[f] < 2)
                continue;
            relation no, yes;
            memcpy(no, of, p->size * sizeof *of);
            memcpy(yes, of, p->size * sizeof *of);
            join(no, p->size, 2 * f, 1);
            join(yes, p->size, 2 * f, 0);
            saturate(p, no, depth - 1);
            saturate(p, yes, depth - 1);
            if (no[0] == 1)
                memcpy(no, yes, p->size * sizeof *of);
            else if (yes[0] != 1)
                share(no, yes, p->size);
            if (memcmp(of, no, p->size * sizeof *of)) {
                memcpy(of, no, p->size * sizeof *of);
                rest(of, p->g->triplets, p->g->count);
                news = 1;
            }
        }
    }
}

uint64_t saturation_answer(const struct guard *g, unsigned depth)
{
    struct problem p = { g, FIRST + g->count };
    relation of, tried;
    uint64_t state = 0;
    for (unsigned v = 0; v < p.size; v++)
        of[v] = (uint16_t)(2 * v);
    join(of, p.size, g->root, 1);
    saturate(&p, of, depth);
    if (of[0] == 1)
        return 0;
    for (unsigned f = 1; f <= g->flags; f++) {
        if (of[f] < 2) {
            state = 2 * state + (of[f] == 0);
            continue;
        }
        memcpy(tried, of, sizeof of);
        join(tried, p.size, 2 * f, 1);
        saturate(&p, tried, depth);
        unsigned truth_of = tried[0] == 1;
        if (truth_of) {
            memcpy(tried, of, sizeof of);
            join(tried, p.size, 2 * f, 0);
            saturate(&p, tried, depth);
            if (tried[0] == 1)
                return 2ull << 32;
        }
        memcpy(of, tried, sizeof of);
        state = 2 * state + truth_of;
    }
    return 1ull << 32 | state;
}
