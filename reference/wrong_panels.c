/* The batch program with an entry that gets two lists on one panel wrong. The test of the comparison compiles it once
 * with WRONG defined as each of these names, on the compiler's command line; the cases drawn or made by hand have to
 * tell each from the proved entry, and so have the checks of the request's words:
 *
 *     COUNT        numbers are raised by how many nets the first list has
 *     TOP_ALONE    by the highest number of its TOP
 *     UNPARKED     by the highest number that is not parked
 *     ZEROS        0 is raised too
 *     BEFORE       the second list's columns come first
 *     TANGLED      a tangled list is refused with 7
 *     SECOND_FIRST the second list is checked before the first
 *     THROUGH      the place of the second list's 5 counts through both lists
 *     LATE_WIDE    the columns together are checked after 18
 *     EARLY_WIDE   they are checked before the second list is
 *     COLUMNS      the place of 3 for them is their number
 *     NARROW       512 columns are too wide
 *     FIRST_MET    the place of 18 is the first raised number over 511
 *     LAST_MET     it is the last
 *     POSITION     it is a pin position
 *     LOW          a raised number of 511 is refused
 *     HIGH         one of 512 is not
 *     WRITTEN      the rows are written under 18
 *     CLEARED      what is behind the joined rows is cleared
 *     ROOM         rows of 511 numbers are long enough
 *     LATE         refusal 1 comes after the others
 *     NOTHING      nothing is wrong, so that each of the others is found for its own slip
 */
#include <stdbool.h>
#include <stddef.h>

#include "channel.h"

enum { COUNT, TOP_ALONE, UNPARKED, ZEROS, BEFORE, TANGLED, SECOND_FIRST, THROUGH, LATE_WIDE, EARLY_WIDE, COLUMNS,
       NARROW, FIRST_MET, LAST_MET, POSITION, LOW, HIGH, WRITTEN, CLEARED, ROOM, LATE, NOTHING };
enum { NETS = 512 };

struct list {
    const uint32_t *top, *bot;
    size_t top_length, bot_length;
};

static uint64_t refused(uint64_t number, uint64_t place) { return number << 32 | place; }

/* 0, or the refusal that a list has alone. */
static uint64_t check(const struct list *list)
{
    uint64_t answer = cabjirt_bounds(list->top, list->top_length, list->bot, list->bot_length);
    return cabjirt_number(answer) == 0 ? 0 : answer;
}

static bool is_tangled(const struct list *list)
{
    static uint32_t ring[CABJIRT_RING];
    static uint8_t board[CABJIRT_BOARD];
    return cabjirt_number(cabjirt_route(list->top, list->top_length, list->bot, list->bot_length, ring, CABJIRT_RING,
                                        board, CABJIRT_BOARD)) == 7;
}

/* What the second list's numbers are raised by. */
static uint32_t raise_by(const struct list *list)
{
    uint32_t pins[NETS] = {0}, nets = 0, most = 0;
    for (size_t i = 0; i < list->top_length; i++) {
        pins[list->top[i]]++;
        pins[list->bot[i]] += WRONG != TOP_ALONE;
    }
    for (uint32_t net = 1; net < NETS; net++)
        if (pins[net] > (WRONG == UNPARKED)) {
            nets++;
            most = net;
        }
    return WRONG == COUNT ? nets : most;
}

static uint32_t raised(uint32_t net, uint32_t by) { return net == 0 && WRONG != ZEROS ? 0 : net + by; }

/* 0, or refusal 18. */
static uint64_t check_numbers(const struct list *list, uint32_t by)
{
    uint64_t place = 0, position = 0;
    for (size_t i = 0; i < 2 * list->top_length; i++) {
        uint32_t net = raised(i < list->top_length ? list->top[i] : list->bot[i - list->top_length], by);
        if (net <= 511 + (WRONG == HIGH) - (WRONG == LOW))
            continue;
        if (place == 0 || WRONG == LAST_MET || (net < place && WRONG != FIRST_MET)) {
            place = net;
            position = i + 1;
        }
    }
    return place == 0 ? 0 : refused(18, WRONG == POSITION ? position : place);
}

/* 0, or refusal 3 for the columns together. */
static uint64_t check_columns(const struct list *first, const struct list *second)
{
    size_t columns = first->top_length + second->top_length;
    return columns <= CABJIRT_ROW - (WRONG == NARROW) ? 0 : refused(3, WRONG == COLUMNS ? columns : CABJIRT_ROW + 1);
}

/* 0, or the first refusal of the two lists alone. */
static uint64_t check_lists(const struct list *first, const struct list *second)
{
    uint64_t one = check(first), two = check(second);
    if (WRONG == THROUGH && cabjirt_number(two) == 5)
        two += 2 * first->top_length;
    if (WRONG == SECOND_FIRST && two != 0)
        return two;
    if (WRONG == EARLY_WIDE && one == 0 && check_columns(first, second) != 0)
        return check_columns(first, second);
    return one != 0 ? one : two;
}

/* 0, or the first refusal of the panel. */
static uint64_t check_panel(const struct list *first, const struct list *second)
{
    uint64_t wide = check_columns(first, second), full = check_numbers(second, raise_by(first));
    if (WRONG == LATE_WIDE && full != 0)
        return full;
    if (WRONG == TANGLED && (is_tangled(first) || is_tangled(second)))
        return refused(7, 2);
    return wide != 0 ? wide : full;
}

static void put(const struct list *list, uint32_t by, size_t behind, uint32_t *top, uint32_t *bot)
{
    for (size_t i = 0; i < list->top_length; i++) {
        top[behind + i] = by == 0 ? list->top[i] : raised(list->top[i], by);
        bot[behind + i] = by == 0 ? list->bot[i] : raised(list->bot[i], by);
    }
}

static void put_both(const struct list *first, const struct list *second, uint32_t *top, uint32_t *bot)
{
    put(first, 0, WRONG == BEFORE ? second->top_length : 0, top, bot);
    put(second, raise_by(first), WRONG == BEFORE ? 0 : first->top_length, top, bot);
}

static uint64_t wrong_join(const uint32_t *top1, size_t top1_length, const uint32_t *bot1, size_t bot1_length,
                           const uint32_t *top2, size_t top2_length, const uint32_t *bot2, size_t bot2_length,
                           uint32_t *top, size_t top_length, uint32_t *bot, size_t bot_length)
{
    struct list first = {top1, bot1, top1_length, bot1_length}, second = {top2, bot2, top2_length, bot2_length};
    size_t needed = CABJIRT_ROW - (WRONG == ROOM), columns = top1_length + top2_length;
    bool is_short = top_length < needed || bot_length < needed;
    uint64_t refusal = is_short && WRONG != LATE ? refused(1, CABJIRT_ROW) : check_lists(&first, &second);
    if (refusal == 0) {
        refusal = check_panel(&first, &second);
        if (WRONG == WRITTEN && cabjirt_number(refusal) == 18)
            put_both(&first, &second, top, bot);
    }
    if (refusal == 0 && is_short)
        refusal = refused(1, CABJIRT_ROW);
    if (refusal != 0 || columns > top_length || columns > bot_length)
        return refusal != 0 ? refusal : refused(3, CABJIRT_ROW + 1);
    put_both(&first, &second, top, bot);
    for (size_t i = columns; WRONG == CLEARED && i < CABJIRT_ROW; i++)
        top[i] = bot[i] = 0;
    return columns;
}

#define cabjirt_join wrong_join
#include "batch.c"
