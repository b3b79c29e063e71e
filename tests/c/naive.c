#include "naive.h"

#include <stdlib.h>
#include <string.h>

/* ---- text to tree ---- */

struct reader {
    const uint8_t *text;
    size_t len, next; /* the byte after the token ahead */
    size_t start;     /* the token ahead */
    int kind;         /* its first byte, 'c' for a code, '0' or '1' for a constant, 0 at the end, -n for refusal n */
    int brackets;
    struct guard *g;
};

static int is_code(int b) {
    return (b >= 'A' && b <= 'Z') || (b >= 'a' && b <= 'z') || (b >= '0' && b <= '9') || b == '_' || b == '.';
}

static void cut(struct reader *r) {
    size_t i = r->next;
    while (i < r->len && r->text[i] == ' ') i++;
    r->start = i;
    r->next = i + 1;
    if (i == r->len) {
        r->kind = 0;
        r->next = i;
    } else if (is_code(r->text[i])) {
        while (r->next < r->len && is_code(r->text[r->next])) r->next++;
        r->kind = r->next - i > MOST_CODE ? -4 : 'c';
    } else if (r->text[i] == '#') {
        int digit = i + 1 < r->len ? r->text[i + 1] : 0;
        r->kind = digit == '0' || digit == '1' ? digit : -3;
        r->next = i + 2;
    } else {
        r->kind = r->text[i] != 0 && strchr("!&|>=()", r->text[i]) ? r->text[i] : -3;
    }
}

static int refuse(struct reader *r, int number) {
    if (r->g->refusal == 0) {
        r->g->refusal = r->kind < 0 ? -r->kind : number;
        r->g->place = r->start;
    }
    return -1;
}

static int make(struct reader *r, char kind, int flag, int left, int right) {
    struct node n = {kind, flag, left, right};
    r->g->node[r->g->nodes] = n;
    return r->g->nodes++;
}

static int flag_of(struct reader *r) {
    struct guard *g = r->g;
    size_t len = r->next - r->start;
    int i;
    for (i = 1; i <= g->flags; i++)
        if (g->len[i] == len && memcmp(r->text + g->at[i], r->text + r->start, len) == 0) return i;
    if (g->flags == MOST_FLAGS) return refuse(r, 7);
    g->flags++;
    g->at[g->flags] = r->start;
    g->len[g->flags] = len;
    return g->flags;
}

static int whole(struct reader *r, int level);

static int operand(struct reader *r) {
    int turns = 0, at, i;
    while (r->kind == '!') {
        turns++;
        cut(r);
    }
    if (r->kind == 'c') {
        int flag = flag_of(r);
        if (flag < 0) return -1;
        at = make(r, 'f', flag, 0, 0);
        cut(r);
    } else if (r->kind == '0' || r->kind == '1') {
        at = make(r, (char)r->kind, 0, 0, 0);
        cut(r);
    } else if (r->kind == '(') {
        if (r->brackets == MOST_BRACKETS) return refuse(r, 6);
        r->brackets++;
        cut(r);
        at = whole(r, 0);
        if (at < 0) return -1;
        if (r->kind != ')') return refuse(r, 5);
        r->brackets--;
        cut(r);
    } else {
        return refuse(r, 5);
    }
    for (i = 0; i < turns; i++) at = make(r, '!', 0, at, 0);
    return at;
}

/* Levels from loosest to tightest: `=`, `>`, `|`, `&`. */
static int whole(struct reader *r, int level) {
    static const char signs[] = "=>|&";
    int left, right;
    if (level == 4) return operand(r);
    left = whole(r, level + 1);
    while (left >= 0 && r->kind == signs[level]) {
        if (r->g->signs == MOST_SIGNS) return refuse(r, 8);
        r->g->signs++;
        cut(r);
        right = signs[level] == '>' ? whole(r, level) : whole(r, level + 1);
        if (right < 0) return -1;
        left = make(r, signs[level], 0, left, right);
    }
    return left;
}

void naive_read(const uint8_t *text, size_t len, struct guard *g) {
    struct reader r = {text, len, 0, 0, 0, 0, g};
    g->refusal = 0;
    g->place = 0;
    g->flags = g->signs = g->nodes = 0;
    if (len > MOST_TEXT) {
        g->refusal = 1;
        g->place = MOST_TEXT;
        return;
    }
    cut(&r);
    g->root = whole(&r, 0);
    if (g->root >= 0 && r.kind != 0) refuse(&r, 5);
}

/* ---- truth ---- */

static int value_at(const struct guard *g, int at, uint64_t state) {
    const struct node *n = &g->node[at];
    int a, b;
    if (n->kind == 'f') return (int)(state >> (g->flags - n->flag) & 1);
    if (n->kind == '0') return 0;
    if (n->kind == '1') return 1;
    a = value_at(g, n->left, state);
    if (n->kind == '!') return !a;
    b = value_at(g, n->right, state);
    if (n->kind == '=') return a == b;
    if (n->kind == '>') return !a || b;
    if (n->kind == '|') return a || b;
    return a && b;
}

int naive_value(const struct guard *g, uint64_t state) { return value_at(g, g->root, state); }

/* ---- saturation ---- */

enum { MOST_LITERALS = 64 };

struct relation {
    int literals, broken;
    uint8_t same[MOST_LITERALS][MOST_LITERALS];
};

struct triplet {
    int kind, x, y, z;
};

struct problem {
    int flags, count, root;
    struct triplet triplet[MOST_LITERALS / 2];
    uint64_t seed;
};

static unsigned draw(struct problem *p, unsigned below) {
    p->seed = p->seed * 6364136223846793005u + 1442695040888963407u;
    return (unsigned)(p->seed >> 33) % below;
}

/* Adds l = m with all that follows by equivalence and by negating both sides. */
static int add(struct relation *r, int l, int m) {
    int a, b;
    if (r->broken || r->same[l][m]) return 0;
    for (a = 0; a < r->literals; a++)
        for (b = 0; b < r->literals; b++)
            if (r->same[a][l] && r->same[b][m])
                r->same[a][b] = r->same[b][a] = r->same[a ^ 1][b ^ 1] = r->same[b ^ 1][a ^ 1] = 2;
    for (a = 0; a < r->literals; a++)
        if (r->same[a][a ^ 1]) r->broken = 1;
    if (r->broken) memset(r->same, 1, sizeof r->same);
    return 1;
}

static int step(struct relation *r, const struct triplet *t) {
    int name[8] = {0, 1, t->x, t->x ^ 1, t->y, t->y ^ 1, t->z, t->z ^ 1};
    int fits[8], some = 0, changed = 0, v, i, j;
    if (r->broken) return 0;
    for (v = 0; v < 8; v++) {
        int x = v & 1, y = v >> 1 & 1, z = v >> 2 & 1;
        int value[8] = {1, 0, x, !x, y, !y, z, !z};
        fits[v] = x == (t->kind == 0 ? !y || z : y == z);
        for (i = 0; i < 8; i++)
            for (j = 0; j < 8; j++)
                if (r->same[name[i]][name[j]] && value[i] != value[j]) fits[v] = 0;
        some |= fits[v];
    }
    if (!some) return add(r, 0, 1);
    for (i = 0; i < 8; i++)
        for (j = 0; j < 8; j++) {
            int always = 1;
            for (v = 0; v < 8; v++) {
                int x = v & 1, y = v >> 1 & 1, z = v >> 2 & 1;
                int value[8] = {1, 0, x, !x, y, !y, z, !z};
                if (fits[v] && value[i] != value[j]) always = 0;
            }
            if (always) changed |= add(r, name[i], name[j]);
        }
    return changed;
}

static void saturate(struct problem *p, struct relation *r, int depth);

static int split(struct problem *p, struct relation *r, int flag, int depth) {
    struct relation on = *r, off = *r;
    int changed = 0, a, b;
    add(&on, 2 * flag, 0);
    add(&off, 2 * flag, 1);
    saturate(p, &on, depth - 1);
    saturate(p, &off, depth - 1);
    for (a = 0; a < r->literals; a++)
        for (b = 0; b < r->literals; b++)
            if (on.same[a][b] && off.same[a][b]) changed |= add(r, a, b);
    return changed;
}

/* Tries the rules in random order until each has been tried in vain since the last change. */
static void saturate(struct problem *p, struct relation *r, int depth) {
    int rules = p->count + (depth > 0 ? p->flags : 0), changed = 1;
    while (changed && !r->broken) {
        int order[MOST_LITERALS], i;
        changed = 0;
        for (i = 0; i < rules; i++) order[i] = i;
        for (i = rules - 1; i > 0; i--) {
            int j = (int)draw(p, (unsigned)i + 1), keep = order[i];
            order[i] = order[j];
            order[j] = keep;
        }
        for (i = 0; i < rules && !r->broken; i++) {
            if (order[i] < p->count)
                changed |= step(r, &p->triplet[order[i]]);
            else
                changed |= split(p, r, order[i] - p->count + 1, depth);
        }
    }
}

/* The literal of a node; its triplets follow those of its operands. */
static int literal_of(const struct guard *g, int at, struct problem *p) {
    const struct node *n = &g->node[at];
    int a, b, x;
    struct triplet t;
    if (n->kind == 'f') return 2 * n->flag;
    if (n->kind == '1') return 0;
    if (n->kind == '0') return 1;
    a = literal_of(g, n->left, p);
    if (n->kind == '!') return a ^ 1;
    b = literal_of(g, n->right, p);
    x = 2 * (p->flags + 1 + p->count);
    t.kind = n->kind == '=';
    t.x = x;
    t.y = n->kind == '|' ? a ^ 1 : a;
    t.z = n->kind == '&' ? b ^ 1 : b;
    p->triplet[p->count++] = t;
    return n->kind == '&' ? x + 1 : x;
}

enum naive_answer naive_check(const struct guard *g, int depth, uint64_t seed, uint64_t *gap) {
    struct problem p;
    struct relation r;
    int i;
    memset(&p, 0, sizeof p);
    memset(&r, 0, sizeof r);
    p.flags = g->flags;
    p.seed = seed;
    p.root = literal_of(g, g->root, &p);
    r.literals = 2 * (1 + p.flags + p.count);
    if (r.literals > MOST_LITERALS) abort();
    for (i = 0; i < r.literals; i++) r.same[i][i] = 1;
    add(&r, p.root, 1);
    saturate(&p, &r, depth);
    if (r.broken) return NAIVE_COVERED;
    *gap = 0;
    for (i = 1; i <= p.flags; i++) {
        struct relation off = r;
        add(&off, 2 * i, 1);
        saturate(&p, &off, depth);
        *gap *= 2;
        if (!off.broken) {
            r = off;
            continue;
        }
        *gap += 1;
        add(&r, 2 * i, 0);
        saturate(&p, &r, depth);
    }
    return r.broken ? NAIVE_UNDECIDED : NAIVE_GAP;
}
