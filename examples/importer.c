/* A small importer: reads files with one guard a line, checks each, and says what is wrong in the form file:line:column: message.
 *
 *     importer [-d DEPTH] FILE..
 *
 * The depth is 24 unless -d says another. Empty lines are passed over. Exit status: 0 where every guard is covered, 1 where one is
 * not, 2 where a file cannot be read or the call is wrong. */
#include <trestulan.h>

#include <stdio.h>
#include <stdlib.h>
#include <string.h>

/* One byte more than a guard may have: a longer line is still refused as too long, and its rest is passed over. */
enum { LINE = TRESTULAN_MAX_TEXT + 1 };

static const char *in_words(uint32_t number) {
    switch (number) {
    case TRESTULAN_TEXT_TOO_LONG: return "the guard is longer than 4,096 bytes";
    case TRESTULAN_DEPTH_TOO_LARGE: return "the depth is over 24";
    case TRESTULAN_STRAY_BYTE: return "this byte belongs to no token, or '#' has no 0 or 1 after it";
    case TRESTULAN_CODE_TOO_LONG: return "this code is longer than 12 bytes";
    case TRESTULAN_MISPLACED: return "this cannot stand here, or the guard ends too early";
    case TRESTULAN_TOO_MANY_BRACKETS: return "more than 32 brackets are open here";
    case TRESTULAN_TOO_MANY_FLAGS: return "this is the 25th flag";
    case TRESTULAN_TOO_MANY_SIGNS: return "this is the 256th two-sided connective";
    default: return "refused";
    }
}

/* A state with the value of each flag, by its code. */
static void print_state(const char *guard, size_t length, uint32_t state) {
    uint32_t flags = 0, i;
    while (!trestulan_is_refused(trestulan_name(guard, length, flags + 1))) flags++;
    for (i = 1; i <= flags; i++) {
        uint64_t code = trestulan_name(guard, length, i);
        printf(" %.*s=%u", (int)trestulan_name_length(code), guard + trestulan_name_start(code),
            (unsigned)trestulan_flag_value(state, flags, i));
    }
}

/* 1 where the guard is covered. */
static int check_line(const char *file, unsigned long line, const char *guard, size_t length, uint64_t depth) {
    uint64_t answer = trestulan_check(guard, length, depth);
    switch (trestulan_kind(answer)) {
    case TRESTULAN_COVERED:
        return 1;
    case TRESTULAN_GAP:
        printf("%s:%lu:1: not covered in the state", file, line);
        print_state(guard, length, trestulan_payload(answer));
        printf("\n");
        return 0;
    case TRESTULAN_UNDECIDED:
        printf("%s:%lu:1: undecided at depth %lu\n", file, line, (unsigned long)depth);
        return 0;
    default:
        printf("%s:%lu:%lu: %s (refusal %u)\n", file, line, (unsigned long)trestulan_refusal_place(answer) + 1,
            in_words(trestulan_refusal_number(answer)), (unsigned)trestulan_refusal_number(answer));
        return 0;
    }
}

/* Reads a line, without its LF; -1 at the end of the file. Bytes past the buffer are passed over. */
static long next_line(FILE *in, char *guard) {
    long length = 0;
    int byte = getc(in);
    if (byte == EOF) return -1;
    for (; byte != EOF && byte != '\n'; byte = getc(in))
        if (length < LINE) guard[length++] = (char)byte;
    return length;
}

/* The exit status for a file. */
static int check_file(const char *file, uint64_t depth) {
    static char guard[LINE];
    unsigned long line = 0;
    long length;
    int status = 0;
    FILE *in = fopen(file, "rb");
    if (in == NULL) {
        perror(file);
        return 2;
    }
    while ((length = next_line(in, guard)) >= 0) {
        line++;
        if (length > 0 && !check_line(file, line, guard, (size_t)length, depth)) status = 1;
    }
    if (ferror(in)) {
        perror(file);
        status = 2;
    }
    fclose(in);
    return status;
}

int main(int argc, char **argv) {
    uint64_t depth = TRESTULAN_MAX_DEPTH;
    int first = 1, status = 0, i;
    if (argc > 2 && strcmp(argv[1], "-d") == 0) {
        char *end;
        depth = strtoull(argv[2], &end, 10);
        first = *end == 0 && end != argv[2] ? 3 : argc;
    }
    if (first >= argc) {
        fprintf(stderr, "usage: importer [-d DEPTH] FILE..\n");
        return 2;
    }
    for (i = first; i < argc; i++) {
        int one = check_file(argv[i], depth);
        if (one > status) status = one;
    }
    return status;
}
