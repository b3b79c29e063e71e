/* driver MODE CORPUS [DEPTH]: calls one entry on each guard of a corpus, and prints the number of guards and a sum over the answers.
   The mode `nothing` reads the corpus and calls nothing: what it costs is taken off what the others cost. */
#include "../include/trestulan.h"
#include <stdio.h>
#include <stdlib.h>
#include <string.h>

enum { ROOM = 1 << 24 };

static uint32_t states[ROOM];
static uint16_t numbers[765];

static uint64_t mixed(uint64_t sum, uint64_t answer)
{
    return (sum ^ answer) * 0x9e3779b97f4a7c15u + (sum >> 29);
}

static uint64_t answer_of(const char *mode, unsigned flags, const uint8_t *text, size_t len, uint64_t depth)
{
    if (!strcmp(mode, "check"))
        return trestulan_check(text, len, depth == 99 ? flags : depth);
    if (!strcmp(mode, "evaluate"))
        return trestulan_evaluate(text, len, 0x5a5a5a5a & ((1u << flags) - 1));
    if (!strcmp(mode, "list"))
        return trestulan_list(text, len, 0, states, ROOM);
    if (!strcmp(mode, "read"))
        return trestulan_read(text, len, numbers, 765);
    if (!strcmp(mode, "name"))
        return trestulan_name(text, len, flags);
    return 0;
}

int main(int argc, char **argv)
{
    static char line[8192];
    uint64_t sum = 0, depth = argc > 3 ? strtoull(argv[3], 0, 10) : 0;
    unsigned guards = 0;
    FILE *corpus = argc > 2 ? fopen(argv[2], "r") : 0;
    if (!corpus) {
        fprintf(stderr, "usage: driver MODE CORPUS [DEPTH]\n");
        return 2;
    }
    for (; fgets(line, sizeof line, corpus); guards++) {
        char *text;
        unsigned flags = (unsigned)strtoul(line, &text, 10);
        text++;
        sum = mixed(sum, answer_of(argv[1], flags, (const uint8_t *)text, strcspn(text, "\n"), depth));
    }
    printf("%u %016llx\n", guards, (unsigned long long)sum);
    return 0;
}
