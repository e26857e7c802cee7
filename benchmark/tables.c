/* Tables of blanks: the stock, and random ones, with the tracks that they are asked for. */
#include <string.h>

#include "inputs.h"

/* Numbers at the bounds of an entry and beyond, some with the lower bits of one that is within. */
static const uint32_t odd[] = {0, 1, 2, 511, 512, 513, 65536, 65544, 2147483656, UINT32_MAX};
enum { ODD = sizeof odd / sizeof *odd };

void stock_table(struct input *in)
{
    static const uint32_t stock[] = {8, 12, 16, 24, 32, 48, 64, 96, 128, 192, 256, 512};
    memcpy(in->table, stock, sizeof stock);
    in->table_length = sizeof stock / sizeof *stock;
    in->tracks = 511;
}

/* Tracks about an entry, any that some entry holds or nearly, or odd ones. */
static void draw_tracks(struct input *in)
{
    if (in->table_length > 0 && below(2))
        in->tracks = in->table[below((uint32_t)in->table_length)] + below(3) - 1;
    else
        in->tracks = below(8) ? below(520) : odd[below(ODD)];
}

/* So many of the numbers 1 to 512: each in turn is taken with the chance of those still wanted among those left. */
static void draw_rising(struct input *in, uint32_t wanted)
{
    in->table_length = 0;
    for (uint32_t number = 1; wanted > 0; number++)
        if (below(513 - number) < wanted) {
            in->table[in->table_length++] = number;
            wanted--;
        }
}

void random_table(struct input *in)
{
    uint32_t kind = below(8);
    draw_rising(in, kind == 0 ? 64 + below(TABLE_LIMIT - 64) : kind < 4 ? 1 + below(5) : 1 + below(64));
    draw_tracks(in);
}

void damage_table(struct input *in)
{
    uint32_t length = (uint32_t)in->table_length, i = below(length), j = below(length), entry = in->table[i];
    switch (below(5)) {
    case 0:
        in->table[i] = odd[below(ODD)];
        break;
    case 1:
        in->table[i] = below(520);
        break;
    case 2:
        in->table[i] = in->table[j];
        in->table[j] = entry;
        break;
    case 3:
        memmove(in->table + i + 1, in->table + i, (length - i) * sizeof entry);
        in->table_length++;
        break;
    default:
        in->table_length = i;
    }
    draw_tracks(in);
}
