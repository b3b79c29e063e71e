/* A second reading of guards, plain and slow, which shares nothing with the services: text to tree, truth by the tree, and
 * saturation with a relation as a table of pairs. */
#ifndef NAIVE_H
#define NAIVE_H

#include <stddef.h>
#include <stdint.h>

enum { MOST_TEXT = 4096, MOST_CODE = 12, MOST_BRACKETS = 32, MOST_FLAGS = 24, MOST_SIGNS = 255, MOST_DEPTH = 24 };

/* One node of a tree: a flag (counted from 1), a constant, `!`, or a sign with two operands. */
struct node {
    char kind; /* 'f', '0', '1', '!', '=', '>', '|', '&' */
    int flag;
    int left, right;
};

struct guard {
    int refusal; /* 0, or the refusal's number with its place */
    size_t place;
    int flags, signs, root;
    size_t at[MOST_FLAGS + 1], len[MOST_FLAGS + 1]; /* where each flag's code first stands */
    int nodes;
    struct node node[2 * MOST_TEXT];
};

void naive_read(const uint8_t *text, size_t len, struct guard *g);
int naive_value(const struct guard *g, uint64_t state);

enum naive_answer { NAIVE_COVERED, NAIVE_GAP, NAIVE_UNDECIDED };
/* For small guards only. The order of the rules is taken from `seed`. */
enum naive_answer naive_check(const struct guard *g, int depth, uint64_t seed, uint64_t *gap);

#endif
