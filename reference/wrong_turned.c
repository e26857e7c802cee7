/* The batch program with an entry that tells another density of some channels where they are turned over: a net counts
 * only if TOP has a pin of it. The test of the comparison compiles it, and small channels have to tell it from the
 * proved entry. */
#include <stdbool.h>
#include <stddef.h>

#include "channel.h"

static bool has_pin(uint32_t net, const uint32_t *row, size_t length)
{
    for (size_t i = 0; i < length; i++)
        if (row[i] == net)
            return true;
    return false;
}

static uint64_t wrong_bounds(const uint32_t *top, size_t top_length, const uint32_t *bot, size_t bot_length)
{
    uint32_t seen[CABJIRT_ROW];
    if (top_length != bot_length || top_length > CABJIRT_ROW)
        return cabjirt_bounds(top, top_length, bot, bot_length);
    for (size_t i = 0; i < bot_length; i++)
        seen[i] = has_pin(bot[i], top, top_length) ? bot[i] : 0;
    return cabjirt_bounds(top, top_length, seen, bot_length);
}

#define cabjirt_bounds wrong_bounds
#include "batch.c"
