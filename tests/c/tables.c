/* The services beside truth tables: random guards, sound and damaged, from fixed seeds, each answer compared with a second
 * reading that shares no code with the services (naive.c). Prints how many comparisons were made and how many disagreed; the
 * first disagreement is printed in full. */
#include "../../include/trestulan.h"
#include "guards.h"
#include "naive.h"

#include <inttypes.h>
#include <stdio.h>
#include <stdlib.h>
#include <string.h>

static unsigned long compared, wrong;
static struct guard g;

static void same(const char *what, uint64_t number, uint64_t got, uint64_t want) {
    size_t i;
    compared++;
    if (got == want || wrong++ > 0) return;
    printf("disagreement: %s(%" PRIu64 ") answers %" PRIx64 ", not %" PRIx64 ", for the text [", what, number, got, want);
    for (i = 0; i < len; i++) printf(text[i] >= 32 && text[i] < 127 ? "%c" : "\\x%02x", text[i]);
    printf("]\n");
}

/* ---- comparisons ---- */

static uint64_t refusal(int number, size_t place) {
    return (uint64_t)3 << 32 | (uint64_t)number << 16 | place;
}

static void compare_refused(void) {
    uint32_t out[4] = {7, 7, 7, 7};
    same("evaluate", 0, trestulan_evaluate(text, len, 0), refusal(g.refusal, g.place));
    same("list", 0, trestulan_list(text, len, 0, out, 4), refusal(g.refusal, g.place));
    same("check", 0, trestulan_check(text, len, 0), refusal(g.refusal, g.place));
    same("check", 25, trestulan_check(text, len, 25), g.refusal == 1 ? refusal(1, MOST_TEXT) : refusal(2, 0));
    same("entries kept", 0, out[0] == 7 && out[1] == 7 && out[2] == 7 && out[3] == 7, 1);
}

static void compare_states(void) {
    uint64_t states = (uint64_t)1 << g.flags;
    unsigned i, many = states < 64 ? (unsigned)states : 64;
    for (i = 0; i < many; i++) {
        uint64_t s = states <= 64 ? i : draw((unsigned)states);
        same("evaluate", s, trestulan_evaluate(text, len, s), (uint64_t)naive_value(&g, s));
    }
    same("evaluate", states, trestulan_evaluate(text, len, states), refusal(9, 0));
    same("evaluate", UINT64_MAX, trestulan_evaluate(text, len, UINT64_MAX), refusal(9, 0));
}

/* The list from a start on, where few enough states follow that each can be tried. */
static void compare_list(uint64_t start, size_t room) {
    static uint32_t out[5000], want[5000];
    uint64_t states = (uint64_t)1 << g.flags, s, answer;
    size_t m = 0, i;
    int more = 0;
    for (i = 0; i < 5000; i++) out[i] = want[i] = 7777777;
    for (s = start; s < states && !more; s++) {
        if (naive_value(&g, s)) continue;
        if (m == room) {
            more = 1;
            break;
        }
        want[m++] = (uint32_t)s;
    }
    answer = more ? (uint64_t)1 << 32 | s : m;
    same("list", start, trestulan_list(text, len, start, out, room), answer);
    same("slice of list", start, (uint64_t)memcmp(out, want, sizeof out), 0);
}

static void compare_lists(void) {
    uint64_t states = (uint64_t)1 << g.flags;
    uint32_t out[1] = {7};
    if (states <= 4096) {
        compare_list(0, 4096);
        compare_list(0, 0);
        compare_list(0, 1);
        compare_list(draw((unsigned)states), draw(20));
    }
    compare_list(states - 1 - (states > 4000 ? draw(4000) : draw((unsigned)states)), draw(5000));
    same("list", states, trestulan_list(text, len, states, out, 1), refusal(9, 0));
    same("entry kept", states, out[0], 7);
}

static uint64_t first_gap(void) {
    uint64_t states = (uint64_t)1 << g.flags, s;
    for (s = 0; s < states && naive_value(&g, s); s++) {}
    return s;
}

/* Covered only where there is no gap, a gap is the first, nothing is undecided from n up, and greater depth keeps an answer. */
static void compare_depths(void) {
    uint64_t states = (uint64_t)1 << g.flags, first = first_gap(), before = (uint64_t)2 << 32;
    uint64_t truth = first == states ? 0 : (uint64_t)1 << 32 | first;
    int k;
    for (k = 0; k <= g.flags + 1 && k <= MOST_DEPTH; k++) {
        uint64_t answer = trestulan_check(text, len, (uint64_t)k);
        int undecided = answer == (uint64_t)2 << 32;
        same("check", (uint64_t)k, undecided ? truth : answer, truth);
        same("undecided at enough depth", (uint64_t)k, undecided && k >= g.flags, 0);
        same("decided before, undecided at", (uint64_t)k, undecided && before == truth, 0);
        before = answer;
    }
}

static void compare_saturation(int depth) {
    static const uint64_t kind[] = {0, 1, 2};
    uint64_t gap = 0;
    enum naive_answer a = naive_check(&g, depth, seed, &gap);
    same("check", (uint64_t)depth, trestulan_check(text, len, (uint64_t)depth), kind[a] << 32 | (a == NAIVE_GAP ? gap : 0));
}

static void make(unsigned flags, unsigned signs, int damaged) {
    random_text(flags, signs);
    if (damaged) damage();
    naive_read(text, len, &g);
}

int main(void) {
    int i;
    seed = 20251;
    for (i = 0; i < 12000; i++) {
        make(1 + draw(6), draw(12), i % 2);
        if (g.refusal) {
            compare_refused();
            continue;
        }
        compare_states();
        compare_lists();
        compare_depths();
    }
    for (i = 0; i < 1500; i++) {
        make(1 + draw(24), draw(256), i % 4 == 0);
        if (g.refusal) {
            compare_refused();
            continue;
        }
        compare_states();
        compare_lists();
    }
    for (i = 0; i < 4000; i++) {
        make(1 + draw(4), draw(8), 0);
        compare_saturation(0);
        compare_saturation(1);
        if (i % 4 == 0) compare_saturation(2);
    }
    /* a naive split costs a copy of all pairs: the greater the depth, the smaller the guards */
    for (i = 0; i < 3000; i++) {
        make(1 + draw(4), draw(5), 0);
        compare_saturation(2);
        compare_saturation(3);
    }
    printf("%lu comparisons, %lu disagreements\n", compared, wrong);
    return wrong != 0;
}
