/* The batch program with one entry that gets parked pins wrong. The test of the comparison compiles it once for each of
 * these names, defined on the compiler's command line, and the cases drawn have to tell each from the proved entries:
 *
 *     BLOCKS   a net above a parked pin waits for it, and the channel is refused as tangled
 *     DRAWS    a parked net is drawn as a straight one
 *     COUNTS   a parked net counts in the density
 *     SKIPS    the judge sees no parked pins
 */
#include <stdbool.h>
#include <stddef.h>

#include "channel.h"

static size_t pins_of(uint32_t net, const uint32_t *row, size_t length)
{
    size_t pins = 0;
    for (size_t i = 0; i < length; i++)
        pins += row[i] == net;
    return pins;
}

static bool is_parked(uint32_t net, const uint32_t *top, const uint32_t *bot, size_t width)
{
    return net != 0 && pins_of(net, top, width) + pins_of(net, bot, width) == 1;
}

#if defined BLOCKS
static uint64_t wrong_route(const uint32_t *top, size_t top_length, const uint32_t *bot, size_t bot_length,
                            uint32_t *ring, size_t ring_length, uint8_t *board, size_t board_length)
{
    uint64_t answer = cabjirt_route(top, top_length, bot, bot_length, ring, ring_length, board, board_length);
    for (size_t i = 0; cabjirt_number(answer) == 0 && i < top_length; i++)
        if (top[i] != 0 && !is_parked(top[i], top, bot, top_length) && is_parked(bot[i], top, bot, top_length)) {
            ring[0] = top[i];
            ring[1] = (uint32_t)i + 1;
            return (uint64_t)7 << 32 | 1;
        }
    return answer;
}
#define cabjirt_route wrong_route

#elif defined DRAWS
/* Puts the branch of a column over all rows behind so many pieces. */
static void put_branch(uint8_t *board, uint32_t pieces, uint32_t column, uint32_t tracks)
{
    uint32_t word = 1u << 30 | column << 20 | (tracks + 1), count = (pieces + 1) << 1;
    for (int k = 0; k < 4; k++)
        board[4 + 4 * pieces + (uint32_t)k] = (uint8_t)(word >> (24 - 8 * k));
    board[2] = (uint8_t)((board[2] & 0xE0u) | count >> 8);
    board[3] = (uint8_t)count;
}

static uint64_t wrong_route(const uint32_t *top, size_t top_length, const uint32_t *bot, size_t bot_length,
                            uint32_t *ring, size_t ring_length, uint8_t *board, size_t board_length)
{
    uint64_t answer = cabjirt_route(top, top_length, bot, bot_length, ring, ring_length, board, board_length);
    if (cabjirt_number(answer) != 0)
        return answer;
    uint32_t pieces = cabjirt_value(answer) >> 16, tracks = cabjirt_value(answer) & 0xFFFF;
    for (uint32_t i = 0; i < top_length; i++)
        if (is_parked(top[i], top, bot, top_length) || is_parked(bot[i], top, bot, top_length))
            put_branch(board, pieces++, i + 1, tracks);
    return (uint64_t)pieces << 16 | tracks;
}
#define cabjirt_route wrong_route

#elif defined COUNTS
static uint64_t wrong_bounds(const uint32_t *top, size_t top_length, const uint32_t *bot, size_t bot_length)
{
    uint64_t answer = cabjirt_bounds(top, top_length, bot, bot_length);
    for (size_t i = 0; cabjirt_number(answer) == 0 && i < top_length; i++)
        if (is_parked(top[i], top, bot, top_length) || is_parked(bot[i], top, bot, top_length))
            return answer + 0x10000;
    return answer;
}
#define cabjirt_bounds wrong_bounds

#elif defined SKIPS
static uint64_t wrong_judge(const uint32_t *top, size_t top_length, const uint32_t *bot, size_t bot_length,
                            const uint8_t *board, size_t board_length, uint32_t *scratch, size_t scratch_length)
{
    uint32_t tops[CABJIRT_ROW], bots[CABJIRT_ROW];
    if (top_length != bot_length || top_length > CABJIRT_ROW)
        return cabjirt_judge(top, top_length, bot, bot_length, board, board_length, scratch, scratch_length);
    for (size_t i = 0; i < top_length; i++) {
        tops[i] = is_parked(top[i], top, bot, top_length) ? 0 : top[i];
        bots[i] = is_parked(bot[i], top, bot, top_length) ? 0 : bot[i];
    }
    return cabjirt_judge(tops, top_length, bots, bot_length, board, board_length, scratch, scratch_length);
}
#define cabjirt_judge wrong_judge

#else
#error "one of BLOCKS, DRAWS, COUNTS and SKIPS has to be defined"
#endif

#include "batch.c"
