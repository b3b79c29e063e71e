/* The entries over a pipe, for a program in another language. A request is one byte (c check, e evaluate, l list, r read, n name),
 * the number that goes with the text (8 bytes), the room of the lent slice (4 bytes), the text's length (4 bytes) and the text;
 * numbers have their lowest byte first. The answer is the entry's number (8 bytes) and the whole slice as it then is, 4 bytes an
 * element of list, 2 of read. A slice is lent filled with zeros. */
#include "../../include/trestulan.h"

#include <stdio.h>
#include <string.h>

enum { MOST_TEXT = 1 << 16, MOST_ROOM = 4096 };

static uint8_t text[MOST_TEXT];
static uint32_t states[MOST_ROOM];
static uint16_t numbers[MOST_ROOM];

static int take(void *into, size_t bytes) {
    return fread(into, 1, bytes, stdin) == bytes;
}

static int give(const void *from, size_t bytes) {
    return fwrite(from, 1, bytes, stdout) == bytes;
}

static int answer_one(char service, uint64_t number, uint32_t room, uint32_t len) {
    uint64_t answer;
    memset(states, 0, sizeof states);
    memset(numbers, 0, sizeof numbers);
    switch (service) {
    case 'c': answer = trestulan_check(text, len, number); break;
    case 'e': answer = trestulan_evaluate(text, len, number); break;
    case 'l': answer = trestulan_list(text, len, number, states, room); break;
    case 'r': answer = trestulan_read(text, len, numbers, room); break;
    case 'n': answer = trestulan_name(text, len, number); break;
    default: return 0;
    }
    return give(&answer, sizeof answer) && (service != 'l' || give(states, 4 * (size_t)room)) &&
           (service != 'r' || give(numbers, 2 * (size_t)room)) && fflush(stdout) == 0;
}

int main(void) {
    char service;
    uint64_t number;
    uint32_t room, len;
    while (take(&service, 1)) {
        if (!take(&number, sizeof number) || !take(&room, sizeof room) || !take(&len, sizeof len)) return 2;
        if (room > MOST_ROOM || len > MOST_TEXT || !take(text, len)) return 2;
        if (!answer_one(service, number, room, len)) return 2;
    }
    return 0;
}
