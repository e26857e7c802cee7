/* How many looks the fill of a channel takes, and the most that it can take. */
#include "plain.h"

/* What both go by: rows without their parked pins, and the columns of the nets in them. */
struct nets {
    struct plain_copy copy;
    struct plain_rows rows;
    struct plain_spans spans;
};

/* 0 and the nets, or the first of refusals 3 to 5 that applies. */
static uint64_t find_nets(const uint32_t *top, size_t top_length, const uint32_t *bot, size_t bot_length,
                          struct nets *nets)
{
    uint64_t refusal = plain_check(top, top_length, bot, bot_length);
    if (refusal != 0)
        return refusal;
    struct plain_rows whole = {top, bot, top_length};
    nets->rows = plain_leave_parked(&whole, &nets->copy);
    plain_find_spans(&nets->rows, &nets->spans);
    return 0;
}

uint64_t plain_looks(const uint32_t *top, size_t top_length, const uint32_t *bot, size_t bot_length)
{
    struct nets nets;
    uint32_t tracks[PLAIN_NETS], ring[PLAIN_RING];
    size_t looks = 0;
    uint64_t refusal = find_nets(top, top_length, bot, bot_length, &nets);
    if (refusal != 0)
        return refusal;
    plain_fill(&nets.rows, &nets.spans, tracks, ring, &looks);
    return looks;
}

uint64_t plain_ceiling(const uint32_t *top, size_t top_length, const uint32_t *bot, size_t bot_length)
{
    struct nets nets;
    uint32_t items[PLAIN_NETS];
    uint64_t refusal = find_nets(top, top_length, bot, bot_length, &nets);
    if (refusal != 0)
        return refusal;
    uint64_t n = plain_spanning(&nets.rows, &nets.spans, items);
    return n * (n + 1) / 2;
}
