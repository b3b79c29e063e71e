#include "guards.h"

#include <string.h>

uint64_t seed;
uint8_t text[MOST_MADE];
size_t len;

unsigned draw(unsigned below) {
    seed = seed * 6364136223846793005u + 1442695040888963407u;
    return (unsigned)(seed >> 33) % below;
}

static void put(const char *s) {
    while (*s != 0 && len < MOST_MADE) text[len++] = (uint8_t)*s++;
}

static void spaces(void) {
    if (draw(8) == 0) put(" ");
}

static void random_code(unsigned flags) {
    static const char *const codes[] = {"A", "B", "3E5", "300000", "3e5", "a.b", "_x", "C", "LONG.CODE_12", "d", "E1", "F_",
        "g", "H.", "i9", "J", "K0", "l", "M", "n", "O", "p", "Q_Q", "r"};
    put(codes[draw(flags)]);
}

/* A guard with that many two-sided signs. */
static void random_guard(unsigned flags, unsigned signs, int brackets) {
    static const char *const sign[] = {"=", ">", "|", "&"};
    int bracketed;
    spaces();
    while (draw(4) == 0) put("!");
    if (signs == 0) {
        if (flags == 0 || draw(12) == 0)
            put(draw(2) ? "#1" : "#0");
        else
            random_code(flags);
        spaces();
        return;
    }
    bracketed = brackets > 0 && draw(3) > 0;
    if (bracketed) put("(");
    {
        unsigned left = draw(signs);
        random_guard(flags, left, brackets - bracketed);
        put(sign[draw(4)]);
        random_guard(flags, signs - 1 - left, brackets - bracketed);
    }
    if (bracketed) put(")");
    spaces();
}

void damage(void) {
    static const char bytes[] = "AB0#!&|>=() ()\t\n-$\x80";
    unsigned times = 1 + draw(3);
    while (times-- > 0 && len > 0) {
        size_t at = draw((unsigned)len);
        unsigned how = draw(3);
        if (how == 0) text[at] = (uint8_t)bytes[draw(sizeof bytes)];
        if (how == 1) memmove(text + at, text + at + 1, --len - at);
        if (how == 2 && len < MOST_MADE) {
            memmove(text + at + 1, text + at, len++ - at);
            text[at] = (uint8_t)bytes[draw(sizeof bytes)];
        }
    }
}

void random_text(unsigned flags, unsigned signs) {
    len = 0;
    random_guard(flags, signs, 20);
}
