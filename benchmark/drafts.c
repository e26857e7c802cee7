/* Drafts: of the nets that an input's rows have, and random ones with a net that is to come or go. */
#include <string.h>

#include "inputs.h"

/* Numbers at the bounds of nets and columns and beyond, some with the lower bits of one that is within. */
static const uint32_t odd[] = {0, 1, 2, 63, 64, 511, 512, 513, 600, 65537, 2147483650, UINT32_MAX};
enum { ODD = sizeof odd / sizeof *odd, EIGHT = DRAFT / ROW };

/* Marks a net in each column from one to another, counted from 0. */
static void mark(struct input *in, uint32_t net, size_t from, size_t to)
{
    for (size_t i = from; i <= to; i++)
        in->draft[i * EIGHT + net / 64] |= (uint64_t)1 << net % 64;
}

void draft_of_rows(struct input *in)
{
    memset(in->draft, 0, sizeof in->draft);
    for (uint32_t net = 1; net < 512; net++) {
        size_t first = ROW, last = 0;
        for (size_t i = 0; i < in->top_length && i < ROW; i++)
            if (in->top[i] == net || in->bot[i] == net) {
                first = first < i ? first : i;
                last = i;
            }
        if (first < last)
            mark(in, net, first, last);
    }
    in->number = 256;
    in->first = 256;
    in->last = 257;
}

static uint32_t draw_column(void)
{
    return below(8) == 0 ? odd[below(ODD)] : below(4) == 0 ? below(515) : 1 + below(512);
}

/* Marks of some nets in columns side by side, or in any. */
static void draw_nets(struct input *in, uint32_t nets)
{
    for (; nets > 0; nets--) {
        uint32_t net = 1 + below(511), first = below(ROW - 1);
        mark(in, net, first, first + 1 + below(ROW - 1 - first));
        if (below(8) == 0)
            mark(in, below(512), first, first);
    }
}

void random_draft(struct input *in)
{
    uint32_t kind = below(8);
    memset(in->draft, kind == 0 ? 0xFF : 0, sizeof in->draft);
    if (kind == 1)
        for (size_t i = 0; i < DRAFT; i++)
            in->draft[i] = (uint64_t)below(UINT32_MAX) << 32 | below(UINT32_MAX);
    else
        draw_nets(in, kind == 2 ? 300 + below(200) : below(40));
    in->number = below(6) == 0 ? odd[below(ODD)] : below(4) == 0 ? below(515) : 1 + below(511);
    in->first = draw_column();
    in->last = below(2) ? in->first + 1 + below(8) : draw_column();
}
