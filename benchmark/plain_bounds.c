/* The bounds of a channel: its density and its chain, of its nets with spans. */
#include "plain.h"

uint64_t plain_bounds(const uint32_t *top, size_t top_length, const uint32_t *bot, size_t bot_length)
{
    uint64_t refusal = plain_check(top, top_length, bot, bot_length);
    if (refusal != 0)
        return refusal;
    struct plain_rows whole = {top, bot, top_length};
    struct plain_copy copy;
    struct plain_rows rows = plain_has_parked(&whole) ? plain_leave_parked(&whole, &copy) : whole;
    struct plain_spans spans;
    plain_find_spans(&rows, &spans);
    uint32_t items[PLAIN_NETS];
    size_t count = plain_spanning(&rows, &spans, items);
    struct plain_steps steps;
    plain_link_steps(&rows, &steps);
    uint64_t density = plain_density(items, count, &spans, rows.width);
    return density << 16 | plain_chain(&rows, &steps, items, count);
}
