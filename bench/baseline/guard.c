/* Reads a text by recursive descent, one token ahead. */
#include "guard.h"

enum { END = 0, CODE = 'a', CONSTANT = '#' };

struct reader {
    struct guard *g;
    const uint8_t *text;
    size_t len, at, after; /* the token ahead starts at `at`, and what follows it at `after` */
    int ahead;             /* END, CODE, CONSTANT or the byte itself */
    unsigned brackets, signs;
};

static const uint8_t is_code[256] = {
    ['.'] = 1, ['_'] = 1,
    ['0'] = 1, ['1'] = 1, ['2'] = 1, ['3'] = 1, ['4'] = 1, ['5'] = 1, ['6'] = 1, ['7'] = 1, ['8'] = 1, ['9'] = 1,
    ['A'] = 1, ['B'] = 1, ['C'] = 1, ['D'] = 1, ['E'] = 1, ['F'] = 1, ['G'] = 1, ['H'] = 1, ['I'] = 1, ['J'] = 1,
    ['K'] = 1, ['L'] = 1, ['M'] = 1, ['N'] = 1, ['O'] = 1, ['P'] = 1, ['Q'] = 1, ['R'] = 1, ['S'] = 1, ['T'] = 1,
    ['U'] = 1, ['V'] = 1, ['W'] = 1, ['X'] = 1, ['Y'] = 1, ['Z'] = 1,
    ['a'] = 1, ['b'] = 1, ['c'] = 1, ['d'] = 1, ['e'] = 1, ['f'] = 1, ['g'] = 1, ['h'] = 1, ['i'] = 1, ['j'] = 1,
    ['k'] = 1, ['l'] = 1, ['m'] = 1, ['n'] = 1, ['o'] = 1, ['p'] = 1, ['q'] = 1, ['r'] = 1, ['s'] = 1, ['t'] = 1,
    ['u'] = 1, ['v'] = 1, ['w'] = 1, ['x'] = 1, ['y'] = 1, ['z'] = 1,
};

static const uint8_t is_sign[256] = { ['!'] = 1, ['&'] = 1, ['|'] = 1, ['>'] = 1, ['='] = 1, ['('] = 1, [')'] = 1 };

/* the first refusal stays; no token is ahead any more, so that every level ends */
static void refuse(struct reader *r, unsigned number, size_t place)
{
    if (!r->g->number) {
        r->g->number = number;
        r->g->place = (unsigned)place;
    }
    r->ahead = END;
}

static void advance(struct reader *r)
{
    size_t at = r->after;
    while (at < r->len && r->text[at] == ' ')
        at++;
    r->at = at;
    r->after = at + 1;
    r->ahead = END;
    if (at == r->len)
        return;
    uint8_t byte = r->text[at];
    if (is_code[byte]) {
        while (r->after < r->len && is_code[r->text[r->after]])
            r->after++;
        r->ahead = CODE;
        if (r->after - at > 12)
            refuse(r, 4, at);
    } else if (byte == '#') {
        r->ahead = CONSTANT;
        r->after = at + 2;
        if (at + 1 == r->len || (r->text[at + 1] != '0' && r->text[at + 1] != '1'))
            refuse(r, 3, at);
    } else if (is_sign[byte]) {
        r->ahead = byte;
    } else {
        refuse(r, 3, at);
    }
}

/* codes that differ mostly do so in their last bytes; a call of memcmp costs more than the comparison */
static int same_code(const uint8_t *one, const uint8_t *other, unsigned length)
{
    while (length && one[length - 1] == other[length - 1])
        length--;
    return !length;
}

static unsigned flag(struct reader *r)
{
    struct guard *g = r->g;
    unsigned length = (unsigned)(r->after - r->at);
    for (unsigned i = 0; i < g->flags; i++)
        if (g->length[i] == length && same_code(r->text + g->start[i], r->text + r->at, length))
            return 2 * (i + 1);
    if (g->flags == FLAGS) {
        refuse(r, 7, r->at);
        return 0;
    }
    g->start[g->flags] = (uint16_t)r->at;
    g->length[g->flags] = (uint16_t)length;
    return 2 * ++g->flags;
}

/* whether the sign is ahead; then it is counted and taken */
static int taken(struct reader *r, int sign)
{
    if (r->ahead != sign)
        return 0;
    if (r->signs == CONNECTIVES) {
        refuse(r, 8, r->at);
        return 0;
    }
    r->signs++;
    advance(r);
    return 1;
}

static unsigned triplet(struct reader *r, unsigned kind, unsigned y, unsigned z)
{
    struct guard *g = r->g;
    if (g->number)
        return 0;
    uint16_t *t = g->triplets + 3 * g->count;
    t[0] = (uint16_t)kind;
    t[1] = (uint16_t)y;
    t[2] = (uint16_t)z;
    return 2 * (FIRST + g->count++);
}

static unsigned same(struct reader *r);

static unsigned bracketed(struct reader *r)
{
    if (r->brackets == 32) {
        refuse(r, 6, r->at);
        return 0;
    }
    r->brackets++;
    advance(r);
    unsigned l = same(r);
    if (r->ahead != ')')
        refuse(r, 5, r->at);
    else
        advance(r);
    r->brackets--;
    return l;
}

static unsigned operand(struct reader *r)
{
    unsigned sign = 0, l = 0;
    for (; r->ahead == '!'; advance(r))
        sign ^= 1;
    if (r->ahead == CODE) {
        l = flag(r);
        if (!r->g->number)
            advance(r);
    } else if (r->ahead == CONSTANT) {
        l = r->text[r->at + 1] == '0';
        advance(r);
    } else if (r->ahead == '(') {
        l = bracketed(r);
    } else {
        refuse(r, 5, r->at);
    }
    return l ^ sign;
}

static unsigned conjunction(struct reader *r)
{
    unsigned l = operand(r);
    while (taken(r, '&')) {
        unsigned m = operand(r);
        l = triplet(r, 0, l, m ^ 1) ^ 1;
    }
    return l;
}

static unsigned disjunction(struct reader *r)
{
    unsigned l = conjunction(r);
    while (taken(r, '|')) {
        unsigned m = conjunction(r);
        l = triplet(r, 0, l ^ 1, m);
    }
    return l;
}

static unsigned implication(struct reader *r)
{
    unsigned l = disjunction(r);
    if (taken(r, '>')) {
        unsigned m = implication(r);
        l = triplet(r, 0, l, m);
    }
    return l;
}

static unsigned same(struct reader *r)
{
    unsigned l = implication(r);
    while (taken(r, '=')) {
        unsigned m = implication(r);
        l = triplet(r, 1, l, m);
    }
    return l;
}

void guard_read(struct guard *g, const uint8_t *text, size_t len)
{
    g->number = g->place = g->flags = g->count = 0;
    g->root = 0;
    if (len > 4096) {
        g->number = 1;
        g->place = 4096;
        return;
    }
    struct reader r = { .g = g, .text = text, .len = len };
    advance(&r);
    g->root = (uint16_t)same(&r);
    if (r.ahead != END)
        refuse(&r, 5, r.at);
}
