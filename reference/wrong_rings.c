/* The batch program with an entry that gets the ring with the fewest nets wrong. The test of the comparison compiles it
 * once with WRONG defined as each of these names, on the compiler's command line; the cases drawn or made by hand have
 * to tell each from the proved entry, and all but the last two so have all rings of small channels:
 *
 *     WALK            the ring that the router's walk shows, which is the first that it finds
 *     HIGHEST_COLUMN  of as many nets the highest column between two nets
 *     HIGHEST_NET     of as many nets the ring whose highest net is the highest
 *     NO_PAIR         none is answered for a ring of two nets
 *     TURNED          the ring begins at its second net
 *     ENDS            a pair has the net below in place of the net above
 *     LONGER          one pair more is counted
 *     TOUCHED         the ring buffer is written where there is none
 *     ROOM            a buffer of 1,021 numbers is long enough
 *     LATE            refusal 1 comes after 3 to 5
 *     NOTHING         nothing is wrong, so that each of the others is found for its own slip
 */
#include <stddef.h>
#include <string.h>

#include "channel.h"

enum { WALK, HIGHEST_COLUMN, HIGHEST_NET, NO_PAIR, TURNED, ENDS, LONGER, TOUCHED, ROOM, LATE, NOTHING };
enum { HIGHEST = 511, PAIR = 2 };

/* The router's ring, which is there exactly if the channel is tangled. */
static uint64_t walked(const uint32_t *top, const uint32_t *bot, size_t width, uint32_t *ring)
{
    static uint8_t board[CABJIRT_BOARD];
    uint64_t answer = cabjirt_route(top, width, bot, width, ring, CABJIRT_RING, board, sizeof board);
    return cabjirt_number(answer) == 7 ? cabjirt_value(answer) : 0;
}

/* The columns of a ring replaced by the highest that put the same net above the same. */
static void raise_columns(const uint32_t *top, const uint32_t *bot, size_t width, uint32_t *ring, size_t pairs)
{
    for (size_t i = 0; i < pairs; i++) {
        size_t at = ring[PAIR * i + 1] - 1;
        for (size_t c = at; c < width; c++)
            if (top[c] == top[at] && bot[c] == bot[at])
                ring[PAIR * i + 1] = (uint32_t)c + 1;
    }
}

/* Begins a ring at its pair of index `first`. */
static void turn(uint32_t *ring, size_t pairs, size_t first)
{
    uint32_t kept[CABJIRT_RING];
    memcpy(kept, ring, PAIR * pairs * sizeof *ring);
    for (size_t i = 0; i < pairs; i++)
        memcpy(ring + PAIR * i, kept + PAIR * ((first + i) % pairs), PAIR * sizeof *ring);
}

static uint32_t mirrored(uint32_t net) { return net == 0 ? 0 : HIGHEST + 1 - net; }

/* The ring of the channel with its nets numbered from the highest down, begun at its lowest net. */
static uint64_t highest_ring(const uint32_t *top, const uint32_t *bot, size_t width, uint32_t *ring)
{
    uint32_t upper[CABJIRT_ROW], lower[CABJIRT_ROW];
    size_t lowest = 0;
    for (size_t c = 0; c < width; c++) {
        upper[c] = mirrored(top[c]);
        lower[c] = mirrored(bot[c]);
    }
    uint64_t pairs = cabjirt_fewest_ring(upper, width, lower, width, ring, CABJIRT_RING);
    for (size_t i = 0; i < pairs; i++) {
        ring[PAIR * i] = mirrored(ring[PAIR * i]);
        if (ring[PAIR * i] < ring[PAIR * lowest])
            lowest = i;
    }
    if (pairs != 0)
        turn(ring, pairs, lowest);
    return pairs;
}

/* What is wrong with a ring that is right. */
static uint64_t spoilt(const uint32_t *top, const uint32_t *bot, size_t width, uint32_t *ring, uint64_t pairs)
{
    if (WRONG == HIGHEST_COLUMN)
        raise_columns(top, bot, width, ring, pairs);
    if (WRONG == TURNED && pairs != 0)
        turn(ring, pairs, 1);
    for (size_t i = 0; WRONG == ENDS && i < pairs; i++)
        ring[PAIR * i] = bot[ring[PAIR * i + 1] - 1];
    if (WRONG == TOUCHED && pairs == 0)
        ring[0] = 0;
    return WRONG == LONGER && pairs != 0 ? pairs + 1 : pairs;
}

static uint64_t wrong_fewest_ring(const uint32_t *top, size_t top_length, const uint32_t *bot, size_t bot_length,
                                  uint32_t *ring, size_t ring_length)
{
    uint32_t own[CABJIRT_RING];
    uint64_t answer = cabjirt_fewest_ring(top, top_length, bot, bot_length, own, CABJIRT_RING);
    if (WRONG == LATE && cabjirt_number(answer) != 0)
        return answer;
    if (ring_length < CABJIRT_RING - (WRONG == ROOM) || cabjirt_number(answer) != 0)
        return cabjirt_fewest_ring(top, top_length, bot, bot_length, ring, ring_length);
    if (WRONG == ROOM && ring_length < CABJIRT_RING) {
        memcpy(ring, own, PAIR * cabjirt_value(answer) * sizeof *ring);
        return answer;
    }
    if (WRONG == WALK)
        return walked(top, bot, top_length, ring);
    if (WRONG == HIGHEST_NET)
        return highest_ring(top, bot, top_length, ring);
    if (WRONG == NO_PAIR && answer == PAIR)
        return 0;
    answer = cabjirt_fewest_ring(top, top_length, bot, bot_length, ring, ring_length);
    return spoilt(top, bot, top_length, ring, answer);
}

#define cabjirt_fewest_ring wrong_fewest_ring
#include "batch.c"
