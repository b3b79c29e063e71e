/* Checks line packs and says what is wrong with each.
 *
 *     packs [-d DEPTH] FILE..
 *
 * The depth is 24 unless -d says another. Exit status: 0 where every pack is covered and no two of its variants can stand together, 1 where
 * one is not, 2 where a file cannot be read or the call is wrong. */
#include <trestulan.h>

#include <stdio.h>
#include <stdlib.h>
#include <string.h>

/* More than a pack can have: an id, a rule, and 16 variants with their texts, each of at most 65,538 bytes. */
enum { MOST = 34 * 65538 + 1 };

static const char *in_words(uint32_t number) {
    switch (number) {
    case TRESTULAN_DEPTH_TOO_LARGE: return "the depth is over 24";
    case TRESTULAN_TOO_MANY_SIGNS: return "too many two-sided connectives in a guard or in a question";
    case TRESTULAN_BROKEN_PACK: return "this field is out of order, unknown or cut short, or one is missing";
    case TRESTULAN_VARIANTS: return "no variant, or a 17th";
    case TRESTULAN_ID_LENGTH: return "the id has no byte or over 16";
    default: return "a guard is refused here";
    }
}

/* An answer that is not covered. */
static void print_answer(const char *file, const char *what, uint64_t kind, uint64_t state) {
    if (kind == TRESTULAN_GAP) printf("%s: %s: state %lu\n", file, what, (unsigned long)state);
    else printf("%s: %s: undecided at this depth\n", file, what);
}

/* 1 where all is well with the pack. */
static int check(const char *file, const unsigned char *pack, size_t length, uint64_t depth) {
    uint64_t answers[TRESTULAN_PACK_ANSWERS], refusal = trestulan_check_pack(pack, length, depth, answers);
    char pair[80];
    if (refusal != 0) {
        printf("%s: byte %lu: %s (refusal %u)\n", file, (unsigned long)trestulan_long_refusal_place(refusal),
            in_words(trestulan_long_refusal_number(refusal)), (unsigned)trestulan_long_refusal_number(refusal));
        return 0;
    }
    if (answers[TRESTULAN_WHOLE_KIND] != TRESTULAN_COVERED)
        print_answer(file, "no variant is there", answers[TRESTULAN_WHOLE_KIND], answers[TRESTULAN_WHOLE_STATE]);
    if (answers[TRESTULAN_PAIR_FIRST] != 0) {
        snprintf(pair, sizeof pair, "variants %u and %u stand together", (unsigned)answers[TRESTULAN_PAIR_FIRST],
            (unsigned)answers[TRESTULAN_PAIR_SECOND]);
        print_answer(file, pair, answers[TRESTULAN_PAIR_KIND], answers[TRESTULAN_PAIR_STATE]);
    }
    return answers[TRESTULAN_WHOLE_KIND] == TRESTULAN_COVERED && answers[TRESTULAN_PAIR_FIRST] == 0;
}

int main(int argc, char **argv) {
    static unsigned char pack[MOST];
    uint64_t depth = TRESTULAN_MAX_DEPTH;
    int i = 1, status = 0;
    if (argc > 2 && strcmp(argv[1], "-d") == 0) {
        char *end;
        depth = strtoull(argv[2], &end, 10);
        i = *end == 0 && end != argv[2] ? 3 : argc;
    }
    if (i >= argc) {
        fprintf(stderr, "usage: packs [-d DEPTH] FILE..\n");
        return 2;
    }
    for (; i < argc; i++) {
        FILE *in = fopen(argv[i], "rb");
        size_t length = in ? fread(pack, 1, MOST, in) : 0;
        if (in == NULL || ferror(in)) {
            perror(argv[i]);
            return 2;
        }
        fclose(in);
        if (!check(argv[i], pack, length, depth)) status = 1;
    }
    return status;
}
