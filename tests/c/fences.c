/* Every entry on memory with fences: the text is lent read-only between two forbidden pages, once ending at the second and once
 * starting at the first; so is each slice, with canaries on its other side. Asked are the outline's examples, each ceiling and one
 * past it, all texts of one and two bytes, and a million random and damaged texts. Nothing outside may be touched, the two places
 * must answer alike, a refusal must change nothing, and what is refused, and where, must be what a second reading says (naive.c).
 * Prints how many calls were made and how many were wrong, with the first of these in full. */
#define _GNU_SOURCE
#include "../../include/trestulan.h"
#include "guards.h"
#include "naive.h"

#include <inttypes.h>
#include <signal.h>
#include <stdio.h>
#include <stdlib.h>
#include <string.h>
#include <sys/mman.h>
#include <unistd.h>

enum { FENCE = 65536, ROOM = 65536, CANARIES = 64, CANARY = 0xc5 };

static unsigned long calls, wrong;
static const char *entry = "none";
static uint64_t number;
static struct guard g;

static void tell(const char *what) {
    size_t i;
    printf("%s: %s(%" PRIu64 ") for the text [", what, entry, number);
    for (i = 0; i < len; i++) printf(text[i] >= 32 && text[i] < 127 ? "%c" : "\\x%02x", text[i]);
    printf("]\n");
}

static void expect(int holds, const char *what) {
    if (!holds && wrong++ == 0) tell(what);
}

static void fault(int sig) {
    (void)sig;
    tell("touched a fence");
    fflush(stdout);
    _exit(1);
}

/* ---- lent memory ---- */

static uint8_t *text_written, *text_lent, *slice_lent;

static uint8_t *between_fences(void) {
    uint8_t *all = mmap(NULL, ROOM + 2 * FENCE, PROT_NONE, MAP_PRIVATE | MAP_ANONYMOUS, -1, 0);
    if (all == MAP_FAILED) exit(2);
    return all + FENCE;
}

/* The text has two views: one that the harness writes, and one between fences that nobody can write. */
static void make_memory(void) {
    FILE *file = tmpfile();
    if (file == NULL || ftruncate(fileno(file), ROOM) != 0) exit(2);
    text_lent = between_fences();
    text_written = mmap(NULL, ROOM, PROT_READ | PROT_WRITE, MAP_SHARED, fileno(file), 0);
    if (text_written == MAP_FAILED) exit(2);
    if (mmap(text_lent, ROOM, PROT_READ, MAP_SHARED | MAP_FIXED, fileno(file), 0) != text_lent) exit(2);
    slice_lent = between_fences();
    if (mprotect(slice_lent, ROOM, PROT_READ | PROT_WRITE) != 0) exit(2);
}

static const uint8_t *lend_text(int last) {
    size_t from = last ? ROOM - len : 0;
    memcpy(text_written + from, text, len);
    return text_lent + from;
}

/* A slice of so many bytes, all canaries, with further canaries on the side that has no fence. */
static uint8_t *lend_slice(size_t bytes, int last) {
    uint8_t *slice = slice_lent + (last ? ROOM - bytes : 0);
    memset(last ? slice - CANARIES : slice, CANARY, bytes + CANARIES);
    return slice;
}

static int all_canaries(const uint8_t *from, size_t bytes) {
    while (bytes > 0 && from[bytes - 1] == CANARY) bytes--;
    return bytes == 0;
}

/* Of a lent slice only the first bytes may have changed. */
static void kept(const uint8_t *slice, size_t bytes, size_t changed, int last) {
    expect(changed <= bytes, "more written than there is room for");
    expect(all_canaries(slice + changed, bytes - changed), "wrote behind what it answered");
    expect(all_canaries(last ? slice - CANARIES : slice + bytes, CANARIES), "wrote outside the slice");
}

/* ---- calls ---- */

static void begin(const char *name, uint64_t with) {
    entry = name;
    number = with;
    calls += 2;
}

/* An entry that lends the text alone. */
static uint64_t ask(const char *name, uint64_t (*call)(const void *, size_t, uint64_t), uint64_t with) {
    uint64_t first, second;
    begin(name, with);
    first = call(lend_text(0), len, with);
    second = call(lend_text(1), len, with);
    expect(first == second, "answers by what stands beside the text");
    return first;
}

static uint64_t ask_check(uint64_t depth) {
    return ask("check", trestulan_check, depth);
}

static uint64_t ask_evaluate(uint64_t state) {
    return ask("evaluate", trestulan_evaluate, state);
}

static uint64_t ask_name(uint64_t flag) {
    return ask("name", trestulan_name, flag);
}

static uint64_t ask_list(uint64_t start, size_t room) {
    uint64_t answer[2];
    int last;
    begin("list", start);
    for (last = 0; last < 2; last++) {
        uint8_t *slice = lend_slice(4 * room, last);
        answer[last] = trestulan_list(lend_text(last), len, start, (uint32_t *)(void *)slice, room);
        kept(slice, 4 * room, 4 * trestulan_list_written(answer[last], room), last);
    }
    expect(answer[0] == answer[1], "answers by what stands beside the text");
    return answer[0];
}

static uint64_t ask_read(size_t room) {
    uint64_t answer[2];
    int last;
    begin("read", room);
    for (last = 0; last < 2; last++) {
        uint8_t *slice = lend_slice(2 * room, last);
        answer[last] = trestulan_read(lend_text(last), len, (uint16_t *)(void *)slice, room);
        kept(slice, 2 * room, trestulan_is_refused(answer[last]) ? 0 : 6 * trestulan_read_triplets(answer[last]), last);
    }
    expect(answer[0] == answer[1], "answers by what stands beside the text");
    return answer[0];
}

/* ---- what must be answered ---- */

static uint64_t refusal(uint32_t number_, size_t place) {
    return (uint64_t)TRESTULAN_REFUSED << 32 | (uint64_t)number_ << 16 | place;
}

static void answers(uint64_t got, uint64_t want) {
    if (got != want && wrong == 0) printf("answered %" PRIx64 ", not %" PRIx64 "\n", got, want);
    expect(got == want, "wrong answer");
}

static void refused_everywhere(void) {
    uint64_t want = refusal((uint32_t)g.refusal, g.place);
    answers(ask_check(draw(3)), want);
    answers(ask_evaluate(draw(3)), want);
    answers(ask_list(draw(3), draw(5)), want);
    answers(ask_read(draw(7)), want);
    answers(ask_name(draw(3)), want);
}

static void read_and_named(void) {
    size_t room = draw(30);
    uint64_t answer = ask_read(room);
    uint32_t flag = draw((unsigned)g.flags + 3);
    if (room < 3 * (size_t)g.signs) {
        answers(answer, refusal(TRESTULAN_ROOM_TOO_SMALL, 0));
    } else {
        expect(trestulan_kind(answer) == TRESTULAN_FOUND && trestulan_read_flags(answer) == (uint32_t)g.flags &&
                   trestulan_read_triplets(answer) == (uint32_t)g.signs,
            "flags or triplets miscounted");
    }
    if (flag < 1 || flag > (uint32_t)g.flags)
        answers(ask_name(flag), refusal(TRESTULAN_NO_SUCH_FLAG, 0));
    else
        answers(ask_name(flag), (uint64_t)g.at[flag] << 16 | g.len[flag]);
}

static void evaluated_and_listed(void) {
    uint64_t states = (uint64_t)1 << g.flags, state = draw((unsigned)states + 2), listed;
    uint64_t none = refusal(TRESTULAN_NO_SUCH_STATE, 0);
    answers(ask_evaluate(state), state < states ? (uint64_t)naive_value(&g, state) : none);
    listed = ask_list(state, draw(9));
    expect((state < states) == !trestulan_is_refused(listed), "a start that is no state");
    if (state >= states) answers(listed, none);
}

static void checked(void) {
    static const uint64_t depths[] = {0, 1, 2, 24, 25, UINT64_MAX};
    uint64_t depth = depths[draw(6)], answer = ask_check(depth);
    if (depth > TRESTULAN_MAX_DEPTH) answers(answer, refusal(TRESTULAN_DEPTH_TOO_LARGE, 0));
    else if (trestulan_kind(answer) == TRESTULAN_GAP) expect(!naive_value(&g, trestulan_payload(answer)), "a gap that is none");
    else expect(trestulan_kind(answer) != TRESTULAN_REFUSED && trestulan_payload(answer) == 0, "a kind or payload that is none");
}

static void ask_all(void) {
    naive_read(text, len, &g);
    if (g.refusal) {
        refused_everywhere();
        return;
    }
    read_and_named();
    evaluated_and_listed();
    checked();
}

/* ---- texts ---- */

static void take_text(const char *s) {
    len = strlen(s);
    memcpy(text, s, len);
}

/* A part so many times, from a place on. */
static void repeat(const char *part, size_t times) {
    while (times-- > 0) {
        memcpy(text + len, part, strlen(part));
        len += strlen(part);
    }
}

static const struct {
    const char *text;
    uint64_t depth, answer;
} outline[] = {
    {"A|!A", 0, 0},
    {"A>B", 0, UINT64_C(1) << 32 | 2},
    {"(p>q)=(!q>!p)", 0, UINT64_C(2) << 32},
    {"(p>q)=(!q>!p)", 1, 0},
    {"3E5|!300000", 0, UINT64_C(1) << 32 | 1},
    {"A&", 0, UINT64_C(3) << 32 | 5 << 16 | 2},
    {"#0", 0, UINT64_C(1) << 32},
    {"(A&B)|(!A|!B)", 0, 0},
    {"!a&((p>q)=(!q>!p))", 0, UINT64_C(2) << 32},
    {"!a&((p>q)=(!q>!p))", 1, UINT64_C(1) << 32 | 4},
    {"(((p>p)>p)>(p>q))>(((p>q)>p)>q)", 0, 0},
    {"", 0, UINT64_C(3) << 32 | 5 << 16},
    {"A B", 0, UINT64_C(3) << 32 | 5 << 16 | 2},
    {"A)", 0, UINT64_C(3) << 32 | 5 << 16 | 1},
    {"(A", 0, UINT64_C(3) << 32 | 5 << 16 | 2},
    {"#2", 0, UINT64_C(3) << 32 | 3 << 16},
};

static const struct {
    const char *text;
    uint64_t start;
    size_t room;
    uint64_t answer;
    uint32_t first, second;
} lists[] = {
    {"A=B", 0, 4, 2, 1, 2},
    {"A&B", 0, 2, UINT64_C(1) << 32 | 2, 0, 1},
    {"#0", 0, 1, 1, 0, 0},
    {"#1", 0, 1, 0, 0, 0},
    {"A=B", 0, 1, UINT64_C(1) << 32 | 2, 1, 0},
    {"A=B", 2, 2, 1, 2, 0},
    {"A=B", 4, 2, UINT64_C(3) << 32 | 9 << 16, 0, 0},
    {"!a&((p>q)=(!q>!p))", 0, 2, UINT64_C(1) << 32 | 6, 4, 5},
};

static void ask_examples(void) {
    size_t i;
    for (i = 0; i < sizeof outline / sizeof outline[0]; i++) {
        take_text(outline[i].text);
        answers(ask_check(outline[i].depth), outline[i].answer);
        ask_all();
    }
    for (i = 0; i < sizeof lists / sizeof lists[0]; i++) {
        uint32_t got[2];
        size_t written;
        take_text(lists[i].text);
        answers(ask_list(lists[i].start, lists[i].room), lists[i].answer);
        written = trestulan_list_written(lists[i].answer, lists[i].room);
        memcpy(got, slice_lent + ROOM - 4 * lists[i].room, written > 2 ? 8 : 4 * written);
        expect(written < 1 || got[0] == lists[i].first, "first gap");
        expect(written < 2 || got[1] == lists[i].second, "second gap");
    }
    take_text("A>B>C");
    answers(ask_read(6), (uint64_t)3 << 24 | 2 << 16 | 52);
    expect(memcmp(slice_lent + ROOM - 12, (const uint16_t[]){0, 4, 6, 0, 2, 50}, 12) == 0, "the triplets of A>B>C");
    answers(ask_read(5), refusal(TRESTULAN_ROOM_TOO_SMALL, 0));
}

/* Each ceiling is reached, and one past it is refused at its place. */
static void ask_ceilings(void) {
    size_t i, over;
    for (over = 0; over < 2; over++) {
        len = 0;
        repeat(" ", TRESTULAN_MAX_TEXT - 1 + over);
        repeat("A", 1);
        answers(ask_check(0), over ? refusal(TRESTULAN_TEXT_TOO_LONG, 4096) : (uint64_t)TRESTULAN_GAP << 32);
        take_text("A|!A");
        answers(ask_check(TRESTULAN_MAX_DEPTH + over), over ? refusal(TRESTULAN_DEPTH_TOO_LARGE, 0) : 0);
        take_text("!");
        repeat("B", TRESTULAN_MAX_CODE + over);
        answers(ask_evaluate(0), over ? refusal(TRESTULAN_CODE_TOO_LONG, 1) : 1);
        len = 0;
        repeat("(", TRESTULAN_MAX_BRACKETS + over);
        repeat("A", 1);
        repeat(")", TRESTULAN_MAX_BRACKETS + over);
        answers(ask_evaluate(1), over ? refusal(TRESTULAN_TOO_MANY_BRACKETS, 32) : 1);
        len = 0;
        for (i = 0; i < TRESTULAN_MAX_FLAGS + over; i++) {
            text[len++] = (uint8_t)('A' + i);
            text[len++] = '|';
        }
        len--;
        answers(ask_check(24), over ? refusal(TRESTULAN_TOO_MANY_FLAGS, 48) : (uint64_t)TRESTULAN_GAP << 32);
        answers(ask_evaluate((1u << 24) - 1), over ? refusal(TRESTULAN_TOO_MANY_FLAGS, 48) : 1);
        len = 0;
        repeat("A|", TRESTULAN_MAX_TRIPLETS + over);
        repeat("A", 1);
        answers(ask_read(TRESTULAN_MAX_ROOM) >> 32, over ? TRESTULAN_REFUSED : TRESTULAN_FOUND);
        answers(ask_name(1), over ? refusal(TRESTULAN_TOO_MANY_SIGNS, 511) : 1);
        take_text("A&B&C");
        answers(ask_evaluate(7 + over), over ? refusal(TRESTULAN_NO_SUCH_STATE, 0) : 1);
        answers(ask_list(7 + over, 3), over ? refusal(TRESTULAN_NO_SUCH_STATE, 0) : 0);
        answers(ask_read(6 - over) >> 32, over ? TRESTULAN_REFUSED : TRESTULAN_FOUND);
        answers(ask_name(3 + over), over ? refusal(TRESTULAN_NO_SUCH_FLAG, 0) : (uint64_t)4 << 16 | 1);
    }
    answers(ask_name(0), refusal(TRESTULAN_NO_SUCH_FLAG, 0));
    len = 0;
    repeat("!", 4095);
    repeat("A", 1);
    answers(ask_check(24), (uint64_t)TRESTULAN_GAP << 32 | 1);
}

static void ask_short_texts(void) {
    unsigned a, b;
    for (a = 0; a < 256; a++) {
        text[0] = (uint8_t)a;
        len = 1;
        ask_all();
        for (b = 0; b < 256; b++) {
            text[1] = (uint8_t)b;
            len = 2;
            ask_all();
        }
    }
}

static void random_bytes(const char *among, unsigned many) {
    size_t i;
    len = draw(40);
    for (i = 0; i < len; i++) text[i] = (uint8_t)(among ? among[draw(many)] : (int)draw(256));
}

static void ask_random_texts(void) {
    static const char bytes[] = "AB3.#01!&|>=() ";
    long i;
    for (i = 0; i < 1000000; i++) {
        if (i % 8 == 0) random_bytes(NULL, 0);
        else if (i % 8 < 4) random_bytes(bytes, sizeof bytes - 1);
        else random_text(1 + draw(8), draw(8));
        if (i % 8 > 5) damage();
        ask_all();
    }
}

int main(void) {
    struct sigaction act;
    memset(&act, 0, sizeof act);
    act.sa_handler = fault;
    sigaction(SIGSEGV, &act, NULL);
    sigaction(SIGBUS, &act, NULL);
    make_memory();
    seed = 6;
    ask_examples();
    ask_ceilings();
    ask_short_texts();
    ask_random_texts();
    printf("%lu calls, %lu wrong\n", calls, wrong);
    return wrong != 0;
}
