/* How much stack the entries take: each call runs on a stack of the size that the header promises, with a page behind it that must not
 * be touched, and the deepest byte that it changed is printed. A call that needs more ends the program by a fault.
 *
 * Reading is tried on the worst texts of every kind: chains of each sign, nests, nests with chains at each level, refusals at the deepest
 * place, and random texts; searching and saturating on guards that no simple rule decides. */
#define _GNU_SOURCE
#include "../../include/trestulan.h"

#include <signal.h>
#include <stdio.h>
#include <stdlib.h>
#include <string.h>
#include <sys/mman.h>
#include <sys/wait.h>
#include <ucontext.h>
#include <unistd.h>

enum { PAGE = 4096, PAINT = 0xa5, CUT = 5, RANDOM = 400 };

enum service { CHECK, EVALUATE, LIST, READ, NAME };

struct call {
    const char *name;
    enum service service;
    uint64_t number;
    size_t most; /* bytes of stack */
};

/* What the header promises of each entry. */
static const struct call promised[] = {
    {"check at depth 0", CHECK, 0, TRESTULAN_STACK_CHECK_2}, {"check at depth 1", CHECK, 1, TRESTULAN_STACK_CHECK_2},
    {"check at depth 2", CHECK, 2, TRESTULAN_STACK_CHECK_2}, {"check at depth 24", CHECK, 24, TRESTULAN_STACK_CHECK},
    {"evaluate", EVALUATE, 0, TRESTULAN_STACK_EVALUATE},     {"list", LIST, 0, TRESTULAN_STACK_LIST},
    {"read", READ, 0, TRESTULAN_STACK_READ},                 {"name", NAME, 1, TRESTULAN_STACK_NAME},
};
enum { ENTRIES = sizeof promised / sizeof promised[0] };

static char text[TRESTULAN_MAX_TEXT + 1];
static size_t len;
static ucontext_t here, there;
static const struct call *now;
static uint8_t *stack;
static uint32_t states[16];
static uint16_t room[TRESTULAN_MAX_ROOM];

/* ---- texts */

static void put(const char *more) {
    while (*more && len < TRESTULAN_MAX_TEXT) text[len++] = *more++;
}

static void put_many(const char *more, int times) {
    while (times-- > 0) put(more);
}

/* Operands joined by a sign, so many signs. */
static void chain(const char *sign, int signs) {
    put("A");
    while (signs-- > 0) {
        put(sign);
        put("A");
    }
}

/* So many brackets, with a piece in front of each; then what stands innermost. */
static void nest(const char *piece, int brackets, const char *inmost) {
    int i;
    for (i = 0; i < brackets; i++) {
        put(piece);
        put("(");
    }
    put(inmost);
    put_many(")", brackets);
}

static const char *const signs[] = {"=", ">", "|", "&"};

/* Pieces with at most seven signs, so that 32 of them are within the ceiling. */
static const char *const pieces[] = {
    "", "!", "A>", "A=", "A|", "A&", "A=A>A|A&", "A>A>A>A>A>A>A>", "A=A=A=A=A=A=A=", "A|A|A|A|A|A|A|", "A&A&A&A&A&A&A&", "A=A>A>A>A>A|A&!!",
};

/* What stands at the deepest place: a guard, and each refusal of a token. */
static const char *const inmost[] = {"A", "#1", "A>A", "-", "ABCDEFGHIJKLM", ">", "", "(A)", "#2", "!!!!A"};

enum { PIECES = sizeof pieces / sizeof pieces[0], INMOST = sizeof inmost / sizeof inmost[0] };

static uint32_t seed = 1;

static uint32_t below(uint32_t n) {
    seed = seed * 1664525u + 1013904223u;
    return (seed >> 8) % n;
}

/* Mostly brackets and signs, deep and long. */
static void random_text(void) {
    int brackets = 0, left = TRESTULAN_MAX_TRIPLETS;
    uint32_t deep = 1 + below(7), joins = 1 + below(9);
    while (len < 3000) {
        while (brackets < 32 && below(8) < deep) {
            put("(");
            brackets++;
        }
        put(below(5) ? "A" : "!B");
        while (brackets > 0 && below(9) == 0) {
            put(")");
            brackets--;
        }
        if (left-- == 0 || below(300) == 0) break;
        put(signs[below(10) < joins ? 1 : below(4)]);
    }
    if (below(3)) put_many(")", brackets);
}

/* Text i of the worst kinds, or -1 where there is none. */
static int make(int i) {
    int nests = PIECES * INMOST;
    len = 0;
    if (i < 4) return chain(signs[i], 255), 0;
    if ((i -= 4) < 4) return put_many("(", 32), chain(signs[i], 255), put_many(")", 32), 0;
    if ((i -= 4) < 4) return put_many("(", 32), chain(signs[i], 254), put(signs[i]), 0;
    if ((i -= 4) < 4) return chain(signs[i], 222), put(signs[i]), nest("", 32, "A"), 0;
    if ((i -= 4) < 1) return put_many("!", 4095), put("A"), 0;
    if ((i -= 1) < nests) return nest(pieces[i / INMOST], 32, inmost[i % INMOST]), 0;
    if ((i -= nests) < PIECES) return nest(pieces[i], 33, "A"), 0;
    if ((i -= PIECES) < RANDOM) return random_text(), 0;
    return -1;
}

/* ---- calls */

static void run(void) {
    switch (now->service) {
    case CHECK: trestulan_check(text, len, now->number); break;
    case EVALUATE: trestulan_evaluate(text, len, now->number); break;
    case LIST: trestulan_list(text, len, now->number, states, 16); break;
    case READ: trestulan_read(text, len, room, TRESTULAN_MAX_ROOM); break;
    case NAME: trestulan_name(text, len, now->number); break;
    }
}

static size_t deepest(void) {
    size_t i;
    for (i = 0; i < now->most && stack[i] == PAINT; i++) {}
    return now->most - i;
}

/* The bytes that a call takes of a stack of its own. */
static size_t measured(const struct call *c) {
    static uint8_t *all;
    if (!all) {
        all = mmap(NULL, TRESTULAN_STACK + PAGE, PROT_READ | PROT_WRITE, MAP_PRIVATE | MAP_ANONYMOUS, -1, 0);
        if (all == MAP_FAILED || mprotect(all, PAGE, PROT_NONE) != 0) _exit(1);
    }
    now = c;
    stack = all + PAGE + TRESTULAN_STACK - c->most;
    memset(stack, PAINT, c->most);
    if (c->most < TRESTULAN_STACK) mprotect(all, (size_t)(stack - all) & ~(size_t)(PAGE - 1), PROT_NONE);
    getcontext(&there);
    there.uc_stack.ss_sp = stack;
    there.uc_stack.ss_size = c->most;
    there.uc_link = &here;
    makecontext(&there, run, 0);
    swapcontext(&here, &there);
    return deepest();
}

/* An entry on every text of the worst kinds: the worst is told. */
static int on_texts(const struct call *c) {
    static char worst[sizeof text];
    size_t most = 0, length = 0;
    int i;
    for (i = 0; make(i) == 0; i++) {
        size_t bytes = measured(c);
        if (bytes > most) {
            most = bytes;
            length = len;
            memcpy(worst, text, len);
        }
    }
    printf("%s, %d texts: %zu of %zu bytes, most for '%.*s'%s\n", c->name, i, most, c->most, (int)(length < 40 ? length : 40), worst,
        length > 40 ? " .." : "");
    return 0;
}

/* ---- guards that no simple rule decides */

static void leave(int sig) {
    (void)sig;
    printf("%s, undecided by simple rules: %zu of %zu bytes, left after its deepest level\n", now->name, deepest(), now->most);
    fflush(stdout);
    _exit(0);
}

/* A chain over so many flags with so many connectives. */
static void undecided(int flags, int many) {
    static const char sign[] = "=|=&>";
    int i;
    len = 0;
    for (i = 0; i <= many; i++) {
        if (i > 0) text[len++] = sign[i * 7 % 5];
        if (i * 5 % 3 == 1) text[len++] = '!';
        text[len++] = (char)('A' + i % flags);
    }
}

/* The call is left after some seconds: its deepest level comes first. */
static int on_undecided(const struct call *c) {
    static uint8_t other[65536];
    stack_t alt = {.ss_sp = other, .ss_size = sizeof other};
    struct sigaction act;
    sigaltstack(&alt, NULL);
    memset(&act, 0, sizeof act);
    act.sa_handler = leave;
    act.sa_flags = SA_ONSTACK;
    sigaction(SIGALRM, &act, NULL);
    alarm(CUT);
    undecided(24, 255);
    printf("%s, undecided by simple rules: %zu of %zu bytes\n", c->name, measured(c), c->most);
    return 0;
}

/* 1 where the call, in a process of its own, ended by a fault. */
static int faulty(int (*try)(const struct call *), const struct call *c) {
    int status;
    pid_t child;
    fflush(stdout);
    child = fork();
    if (child == 0) {
        status = try(c);
        fflush(stdout);
        _exit(status);
    }
    if (child > 0 && waitpid(child, &status, 0) == child && WIFEXITED(status) && WEXITSTATUS(status) == 0) return 0;
    printf("%s: FAILED within %zu bytes\n", c->name, c->most);
    return 1;
}

int main(void) {
    static const struct call deep = {"check at depth 23", CHECK, 23, TRESTULAN_STACK};
    int i, tried = 0, wrong = 0;
    for (i = 0; i < ENTRIES; i++, tried += 2)
        wrong += faulty(on_texts, &promised[i]) + faulty(on_undecided, &promised[i]);
    wrong += faulty(on_undecided, &deep);
    printf("%d stacks, %d too small\n", tried + 1, wrong);
    return wrong != 0;
}
