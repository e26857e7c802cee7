/* Two lists on one panel: both are checked whole before a joined row is written. */
#include "plain.h"

/* The lowest of `lowest` and the numbers of a row that are over a limit. */
static uint32_t lowest_over(const uint32_t *row, size_t width, uint32_t limit, uint32_t lowest)
{
    for (size_t i = 0; i < width; i++)
        if (limit < row[i] && row[i] < lowest)
            lowest = row[i];
    return lowest;
}

/* Puts the numbers of a row, raised by so much, into another; 0 means no pin and stays. */
static void put_raised(const uint32_t *row, size_t width, uint32_t by, uint32_t *to)
{
    for (size_t i = 0; i < width; i++)
        to[i] = row[i] == 0 ? 0 : by + row[i];
}

/* Joins two lists that each escape refusals 3 to 5 into rows that are long enough, or refuses them together. */
static uint64_t join_checked(const struct plain_rows *first, const struct plain_rows *second, uint32_t *top,
                             uint32_t *bot)
{
    size_t width = first->width + second->width;
    if (width > PLAIN_COLUMNS)
        return plain_refused(3, PLAIN_COLUMNS + 1);
    uint32_t highest = plain_highest(first), limit = 511 - highest; /* a number over this is over 511 when raised */
    uint32_t lowest = lowest_over(second->bot, second->width, limit,
                                  lowest_over(second->top, second->width, limit, 512));
    if (lowest < 512)
        return plain_refused(18, highest + lowest);
    put_raised(first->top, first->width, 0, top);
    put_raised(first->bot, first->width, 0, bot);
    put_raised(second->top, second->width, highest, top + first->width);
    put_raised(second->bot, second->width, highest, bot + first->width);
    return width;
}

uint64_t plain_join(const uint32_t *top1, size_t top1_length, const uint32_t *bot1, size_t bot1_length,
                    const uint32_t *top2, size_t top2_length, const uint32_t *bot2, size_t bot2_length, uint32_t *top,
                    size_t top_length, uint32_t *bot, size_t bot_length)
{
    if (top_length < PLAIN_COLUMNS || bot_length < PLAIN_COLUMNS)
        return plain_refused(1, PLAIN_COLUMNS);
    uint64_t refusal = plain_check(top1, top1_length, bot1, bot1_length);
    if (refusal == 0)
        refusal = plain_check(top2, top2_length, bot2, bot2_length);
    if (refusal != 0)
        return refusal;
    struct plain_rows first = {top1, bot1, top1_length}, second = {top2, bot2, top2_length};
    return join_checked(&first, &second, top, bot);
}
