/* The batch program with a judge of its own that sweeps lines and gets one thing wrong. The test of the comparison
 * compiles it once with WRONG defined as each of these names, on the compiler's command line, and the cases drawn have
 * to tell each but the first from the proved entries:
 *
 *     NOTHING    nothing is wrong
 *     FORGETS    the furthest reach is forgotten when a shorter range follows
 *     TRUNKS     a trunk does not meet what stands at its end
 *     BRANCHES   a branch does not meet what stands at its upper end
 *     BESIDE     ranges end to end are joined, though they have no place in common
 *     STARTS     of the ranges that start at one place only one is joined to others
 *     CONTACTS   a contact lies on its track alone
 *     POINTS     contacts at one point are not joined to each other
 *     EDGE       the row of the TOP pins is not swept
 *     BARE       a place without a pin is as good as a pin, for copper that would float
 *     LAST       a class has the net of its last pin
 */
#include <stdbool.h>
#include <stddef.h>
#include <stdlib.h>

#include "channel.h"

enum { NOTHING, FORGETS, TRUNKS, BRANCHES, BESIDE, STARTS, CONTACTS, POINTS, EDGE, BARE, LAST };
enum { ELEMENTS = 2 * CABJIRT_ROW + 4095 };

/* An element's places on a line, ends included; line 0 is none. */
struct range {
    uint32_t line, start, end, element;
};

static uint32_t parents[ELEMENTS];

static uint32_t root_of(uint32_t i)
{
    while (parents[i] != i)
        i = parents[i] = parents[parents[i]];
    return i;
}

static int by_line(const void *a, const void *b)
{
    const struct range *x = a, *y = b;
    if (x->line != y->line)
        return x->line < y->line ? -1 : 1;
    if (x->start != y->start)
        return x->start < y->start ? -1 : 1;
    return x->element < y->element ? -1 : x->element > y->element;
}

static void sweep(struct range *ranges, size_t count, uint32_t tracks, bool across)
{
    qsort(ranges, count, sizeof *ranges, by_line);
    const struct range *furthest = NULL, *before = NULL;
    for (size_t i = 0; i < count; i++) {
        const struct range *r = &ranges[i];
        if (r->line == 0 || (WRONG == EDGE && !across && r->start == tracks + 1))
            continue;
        bool same = furthest != NULL && furthest->line == r->line;
        bool skipped = WRONG == STARTS && before != NULL && before->line == r->line && before->start == r->start;
        skipped |= WRONG == POINTS && same && furthest->start == furthest->end && r->start == r->end;
        if (same && !skipped && r->start <= furthest->end + (WRONG == BESIDE))
            parents[root_of(r->element)] = root_of(furthest->element);
        if (!same || WRONG == FORGETS || r->end > furthest->end)
            furthest = r;
        before = r;
    }
}

static struct range piece_on(uint32_t word, uint32_t element, bool across)
{
    uint32_t kind = word >> 30, line = word >> 20 & 1023, from = word >> 10 & 1023, to = word & 1023;
    if (kind == 2)
        return across ? (struct range){from, line, line, element}
                      : (struct range){WRONG == CONTACTS ? 0 : line, from, from, element};
    if (across != (kind == 0))
        return (struct range){0, 0, 0, element};
    bool cut = (kind == 0 && WRONG == TRUNKS) || (kind == 1 && WRONG == BRANCHES);
    return (struct range){line, from, to - cut, element};
}

static void join(const uint32_t *const rows[2], uint32_t width, const uint8_t *board, uint32_t count, uint32_t tracks)
{
    static struct range ranges[ELEMENTS];
    for (uint32_t i = 0; i < 2 * width + count; i++)
        parents[i] = i;
    for (int across = 0; across < 2; across++) {
        for (uint32_t i = 0; i < 2 * width; i++) {
            uint32_t row = i < width ? tracks + 1 : 0, net = rows[i / width][i % width];
            bool there = net != 0 || WRONG == BARE;
            ranges[i] = (struct range){there && !across ? i % width + 1 : 0, row, row, i};
        }
        for (uint32_t i = 0; i < count; i++) {
            const uint8_t *at = board + 4 + 4 * i;
            uint32_t word = (uint32_t)at[0] << 24 | (uint32_t)at[1] << 16 | (uint32_t)at[2] << 8 | at[3];
            ranges[2 * width + i] = piece_on(word, 2 * width + i, across);
        }
        sweep(ranges, 2 * width + count, tracks, across);
    }
}

static uint64_t find_fault(const uint32_t *const rows[2], uint32_t width, uint32_t count)
{
    static uint32_t owners[ELEMENTS];
    uint32_t firsts[512] = {0};
    for (uint32_t i = 0; i < 2 * width + count; i++)
        owners[i] = 0;
    for (uint32_t i = 0; i < 2 * width; i++) {
        uint32_t net = rows[i / width][i % width], *owner = &owners[root_of(i)];
        if (WRONG != LAST && net != 0 && *owner != 0 && *owner != net)
            return (uint64_t)11 << 32 | (i + 1);
        if (net != 0)
            *owner = net;
        else if (WRONG == BARE && *owner == 0)
            *owner = 512;
    }
    for (uint32_t i = 0; i < 2 * width; i++) {
        uint32_t net = rows[i / width][i % width];
        if (net != 0 && firsts[net] != 0 && firsts[net] != root_of(i) + 1)
            return (uint64_t)12 << 32 | (i + 1);
        if (net != 0 && firsts[net] == 0)
            firsts[net] = root_of(i) + 1;
    }
    for (uint32_t i = 0; i < count; i++)
        if (owners[root_of(2 * width + i)] == 0)
            return (uint64_t)13 << 32 | (i + 1);
    return 0;
}

static uint64_t wrong_judge(const uint32_t *top, size_t top_length, const uint32_t *bot, size_t bot_length,
                            const uint8_t *board, size_t board_length, uint32_t *scratch, size_t scratch_length)
{
    uint64_t answer = cabjirt_judge(top, top_length, bot, bot_length, board, board_length, scratch, scratch_length);
    uint32_t number = cabjirt_number(answer);
    if (number != 0 && (number < 11 || number > 13))
        return answer;
    const uint32_t *const rows[2] = {top, bot};
    uint32_t width = (uint32_t)top_length, tracks = (board[1] & 63u) << 3 | board[2] >> 5;
    uint32_t count = (uint32_t)(board_length / 4 - 1);
    join(rows, width, board, count, tracks);
    uint64_t fault = find_fault(rows, width, count);
    return fault != 0 ? fault : tracks;
}
#define cabjirt_judge wrong_judge

#include "batch.c"
