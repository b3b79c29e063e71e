/* The entries, by the plain C programs. */
#include "../../include/trestulan.h"
#include "guard.h"
#include <string.h>

uint64_t trestulan_check(const void *text, size_t len, uint64_t depth)
{
    struct guard g;
    if (len > 4096)
        return refusal(1, 4096);
    if (depth > 24)
        return refusal(2, 0);
    guard_read(&g, text, len);
    if (g.number)
        return guard_refusal(&g);
    if (depth < g.flags)
        return saturation_answer(&g, (unsigned)depth);
    uint64_t first = gaps_first(&g);
    return first >> g.flags ? 0 : 1ull << 32 | first;
}

uint64_t trestulan_evaluate(const void *text, size_t len, uint64_t state)
{
    struct guard g;
    uint8_t value[VARIABLES];
    guard_read(&g, text, len);
    if (g.number)
        return guard_refusal(&g);
    if (state >> g.flags)
        return refusal(9, 0);
    value[0] = 1;
    for (unsigned i = 1; i <= g.flags; i++)
        value[i] = state >> (g.flags - i) & 1;
    const uint16_t *t = g.triplets;
    for (unsigned j = 0; j < g.count; j++, t += 3) {
        unsigned y = value[t[1] >> 1] ^ (t[1] & 1), z = value[t[2] >> 1] ^ (t[2] & 1);
        value[FIRST + j] = (uint8_t)(t[0] ? y == z : (y ^ 1) | z);
    }
    return value[g.root >> 1] ^ (g.root & 1u);
}

uint64_t trestulan_list(const void *text, size_t len, uint64_t start, uint32_t *out, size_t room)
{
    struct guard g;
    uint64_t next;
    guard_read(&g, text, len);
    if (g.number)
        return guard_refusal(&g);
    if (start >> g.flags)
        return refusal(9, 0);
    uint64_t written = gaps_list(&g, start, out, room, &next);
    return next >> g.flags ? written : 1ull << 32 | next;
}

uint64_t trestulan_read(const void *text, size_t len, uint16_t *out, size_t room)
{
    struct guard g;
    guard_read(&g, text, len);
    if (g.number)
        return guard_refusal(&g);
    if (room < 3 * g.count)
        return refusal(10, 0);
    memcpy(out, g.triplets, 6 * g.count);
    return (uint64_t)g.flags << 24 | (uint64_t)g.count << 16 | g.root;
}

uint64_t trestulan_name(const void *text, size_t len, uint64_t flag)
{
    struct guard g;
    guard_read(&g, text, len);
    if (g.number)
        return guard_refusal(&g);
    if (flag == 0 || flag > g.flags)
        return refusal(11, 0);
    return (uint64_t)g.start[flag - 1] << 16 | g.length[flag - 1];
}
