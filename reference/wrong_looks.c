/* The batch program with one entry that gets looks or their ceiling wrong. The test of the comparison compiles it once
 * with WRONG defined as each of these names, on the compiler's command line, and the cases drawn have to tell each from
 * the proved entries:
 *
 *     LAST       the looks leave out the last scan of a tangled channel, which places no net
 *     PLACED     a look is counted only where it places a net
 *     STRAIGHT   straight nets are among the n of the ceiling
 *     PARKED     parked nets are among them
 *     SQUARE     the ceiling is n times n
 */
#include <stdbool.h>
#include <stddef.h>
#include <string.h>

#include "channel.h"

enum { LAST, PLACED, STRAIGHT, PARKED, SQUARE };
enum { NUMBERS = 512 };

/* How many nets of a channel have a span, are straight, are parked, and are left when the fill is stuck. */
struct nets {
    uint32_t spanning, straight, parked, stuck;
};

/* How many of the nets left are on a ring or above one: those with no net left below them go, time after time. */
static uint32_t count_stuck(const uint32_t *top, const uint32_t *bot, size_t width, bool left[NUMBERS])
{
    uint32_t count = NUMBERS, before;
    do {
        bool above[NUMBERS] = {false};
        before = count;
        count = 0;
        for (size_t i = 0; i < width; i++)
            above[top[i]] |= left[top[i]] && left[bot[i]] && top[i] != bot[i];
        memcpy(left, above, sizeof above);
        for (size_t net = 1; net < NUMBERS; net++)
            count += left[net];
    } while (count != before);
    return count;
}

/* No refusal fits the rows, so no number passes 511. */
static struct nets count_nets(const uint32_t *top, const uint32_t *bot, size_t width)
{
    uint32_t pins[NUMBERS] = {0}, columns[NUMBERS] = {0};
    bool several[NUMBERS] = {false};
    struct nets nets = {0, 0, 0, 0};
    for (size_t i = 0; i < width; i++) {
        pins[top[i]]++;
        pins[bot[i]]++;
        columns[top[i]]++;
        columns[bot[i]] += top[i] != bot[i];
    }
    for (size_t net = 1; net < NUMBERS; net++) {
        several[net] = pins[net] > 1;
        nets.spanning += columns[net] > 1;
        nets.straight += several[net] && columns[net] == 1;
        nets.parked += pins[net] == 1;
    }
    nets.stuck = count_stuck(top, bot, width, several);
    return nets;
}

static uint64_t wrong_looks(const uint32_t *top, size_t top_length, const uint32_t *bot, size_t bot_length)
{
    uint64_t answer = cabjirt_looks(top, top_length, bot, bot_length);
    if (cabjirt_number(answer) != 0 || (WRONG != LAST && WRONG != PLACED))
        return answer;
    struct nets nets = count_nets(top, bot, top_length);
    return WRONG == LAST ? answer - nets.stuck : nets.spanning - nets.stuck;
}

static uint64_t wrong_ceiling(const uint32_t *top, size_t top_length, const uint32_t *bot, size_t bot_length)
{
    uint64_t answer = cabjirt_ceiling(top, top_length, bot, bot_length);
    if (cabjirt_number(answer) != 0 || WRONG == LAST || WRONG == PLACED)
        return answer;
    struct nets nets = count_nets(top, bot, top_length);
    uint64_t n = nets.spanning + (WRONG == STRAIGHT ? nets.straight : 0) + (WRONG == PARKED ? nets.parked : 0);
    return WRONG == SQUARE ? n * n : n * (n + 1) / 2;
}

#define cabjirt_looks wrong_looks
#define cabjirt_ceiling wrong_ceiling
#include "batch.c"
