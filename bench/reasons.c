/* reasons MODE CORPUS: what why costs, beside the searches that it may cost. The corpus has only guards with a gap, which the mode `gaps`
   prints of any corpus. `gap` asks list for the first gap, `why` asks the same and then why it is one; `searches` and `reads` ask list for
   the first gap, and read, once for each flag; `read` reads once; `nothing` calls nothing. Prints the number of guards and a sum. */
#include "../include/trestulan.h"
#include <stdio.h>
#include <stdlib.h>
#include <string.h>

static uint16_t numbers[TRESTULAN_MAX_ROOM];

static uint64_t mixed(uint64_t sum, uint64_t answer)
{
    return (sum ^ answer) * 0x9e3779b97f4a7c15u + (sum >> 29);
}

/* The first gap, or UINT64_MAX where there is none. */
static uint64_t first_gap(const char *text, size_t len)
{
    uint32_t state;
    return trestulan_list_written(trestulan_list(text, len, 0, &state, 1), 1) ? state : UINT64_MAX;
}

static uint64_t reason(const char *text, size_t len)
{
    uint64_t kept = 0;
    trestulan_why(text, len, first_gap(text, len), &kept);
    return kept;
}

static uint64_t answer_of(const char *mode, unsigned flags, const char *text, size_t len)
{
    uint64_t sum = 0;
    unsigned times = !strcmp(mode, "searches") || !strcmp(mode, "reads") ? flags : 1;
    if (!strcmp(mode, "nothing"))
        return 0;
    if (!strcmp(mode, "why"))
        return reason(text, len);
    for (; times > 0; times--)
        sum += mode[0] == 'r' ? trestulan_read(text, len, numbers, TRESTULAN_MAX_ROOM) : first_gap(text, len);
    return sum;
}

int main(int argc, char **argv)
{
    static char line[8192];
    uint64_t sum = 0;
    unsigned guards = 0;
    FILE *corpus = argc > 2 ? fopen(argv[2], "r") : 0;
    if (!corpus) {
        fprintf(stderr, "usage: reasons MODE CORPUS\n");
        return 2;
    }
    for (; fgets(line, sizeof line, corpus); guards++) {
        char *text;
        unsigned flags = (unsigned)strtoul(line, &text, 10);
        size_t len = strcspn(++text, "\n");
        if (!strcmp(argv[1], "gaps") && first_gap(text, len) != UINT64_MAX)
            fputs(line, stdout);
        else
            sum = mixed(sum, answer_of(argv[1], flags, text, len));
    }
    if (strcmp(argv[1], "gaps"))
        printf("%u %016llx\n", guards, (unsigned long long)sum);
    return 0;
}
