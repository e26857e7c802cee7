/* Second lists, to be joined to an input's own: the same once more, and random ones. */
#include <string.h>

#include "inputs.h"

void same_second(struct input *in)
{
    memcpy(in->top2, in->top, sizeof in->top2);
    memcpy(in->bot2, in->bot, sizeof in->bot2);
    in->top2_length = in->top_length;
    in->bot2_length = in->bot_length;
}

/* The highest number of the first list, as far as it may be one of a list. */
static uint32_t highest_first(const struct input *in)
{
    uint32_t highest = 0;
    for (size_t i = 0; i < in->top_length && i < in->bot_length; i++) {
        uint32_t higher = in->top[i] < in->bot[i] ? in->bot[i] : in->top[i];
        if (highest < higher && higher < 512)
            highest = higher;
    }
    return highest;
}

/* So many columns whose numbers are at most as high as given, pins in some places or in most. */
static void draw_second(struct input *in, uint32_t columns, uint32_t highest)
{
    uint32_t full = 1 + below(4);
    memset(in->top2, 0, sizeof in->top2);
    memset(in->bot2, 0, sizeof in->bot2);
    in->top2_length = in->bot2_length = columns;
    for (uint32_t i = 0; i < columns; i++) {
        in->top2[i] = below(4) < full ? below(highest + 1) : 0;
        in->bot2[i] = below(4) < full ? below(highest + 1) : 0;
    }
}

/* A slip in the second list that is refused. */
static void spoil_second(struct input *in)
{
    uint32_t i = below((uint32_t)in->top2_length);
    switch (below(4)) {
    case 0:
        in->top2[i] = below(2) ? 512 + below(9) : UINT32_MAX;
        break;
    case 1:
        in->bot2[i] = below(2) ? 512 + below(9) : UINT32_MAX;
        break;
    case 2:
        in->bot2_length = below(ROW + 8);
        break;
    default:
        in->top2_length = below(ROW + 8);
    }
}

void random_second(struct input *in)
{
    uint32_t left = in->top_length < ROW ? ROW - (uint32_t)in->top_length : 0, over = highest_first(in);
    uint32_t columns = below(6) == 0 ? left + below(3) : 1 + below(14);
    uint32_t highest = below(3) == 0 ? 511 - over + below(4) : 1 + below(20);
    draw_second(in, columns == 0 ? 1 : columns, highest > 511 ? 511 : highest);
    if (below(8) == 0)
        spoil_second(in);
}
