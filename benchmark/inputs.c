/* The channels and boards that are measured. */
#include "inputs.h"

#include <stdio.h>
#include <string.h>

#include "text.h"

const char *const shape_names[SHAPES] = {
    "example-B", "dense", "padded", "chain", "fullest", "ring-255", "ring-511", "ring-pairs", "ring-layers",
    "panel-dense", "panel-full", "file-4095", "file-4095-mixed", "one-column", "one-track", "one-point",
};

/* Nets one inside the other, no two in a column: the density is half the width. */
static void make_dense(struct input *in, uint32_t width)
{
    for (uint32_t i = 0; i < width; i++)
        in->top[i] = i < width / 2 ? i + 1 : width - i;
}

/* Net k above net k + 1 in column k + 1: width - 1 nets, each on a track of its own. */
static void make_chain(struct input *in, uint32_t width)
{
    for (uint32_t i = 0; i < width; i++) {
        in->top[i] = i == 0 ? 1 : i + 1 < width ? i : 0;
        in->bot[i] = i == 0 ? 0 : i + 1 < width ? i + 1 : width - 1;
    }
}

/* The chain with its two free places given to its last and its first net: no channel of this width has more pieces. */
static void make_fullest(struct input *in, uint32_t width)
{
    make_chain(in, width);
    in->bot[0] = width - 1;
    in->top[width - 1] = 1;
}

/* Net k above net k + 1 and the last above the first; the columns behind them stay free. */
static void make_ring(struct input *in, uint32_t nets)
{
    for (uint32_t i = 0; i < nets; i++) {
        in->top[i] = i + 1;
        in->bot[i] = i + 1 < nets ? i + 2 : 1;
    }
}

/* As many rings of two nets as there are columns and numbers for, and no other step. */
static void make_pairs(struct input *in, uint32_t width)
{
    for (uint32_t i = 0; i + 1 < width && i + 2 < 512; i += 2) {
        in->top[i] = in->bot[i + 1] = i + 1;
        in->top[i + 1] = in->bot[i] = i + 2;
    }
}

/* Layers of two nets, each above both of the next layer, and those of the last above those of the first: of L layers
 * 2 to the power L rings, all of L nets. */
static void make_layers(struct input *in, uint32_t width)
{
    uint32_t layers = width / 4;
    for (uint32_t i = 0; i < 4 * layers; i++) {
        uint32_t layer = i / 4, next = (layer + 1) % layers;
        in->top[i] = 2 * layer + 1 + i % 4 / 2;
        in->bot[i] = 2 * next + 1 + i % 2;
    }
}

static bool is_panel(enum shape shape)
{
    return shape == PANEL_DENSE || shape == PANEL_FULL;
}

static void make_rows(enum shape shape, size_t width, struct input *in)
{
    static const uint32_t top[] = {0, 1, 6, 1, 2, 3, 5}, bot[] = {6, 3, 5, 4, 0, 2, 4};
    memset(in->top, 0, sizeof in->top);
    memset(in->bot, 0, sizeof in->bot);
    if (is_panel(shape)) /* two lists share the columns */
        width /= 2;
    in->top_length = in->bot_length = shape == EXAMPLE_B ? 7 : width;
    switch (shape) {
    case EXAMPLE_B:
        memcpy(in->top, top, sizeof top);
        memcpy(in->bot, bot, sizeof bot);
        break;
    case DENSE:
    case PADDED:
    case PANEL_DENSE:
        make_dense(in, (uint32_t)width);
        break;
    case CHAIN:
        make_chain(in, (uint32_t)width);
        break;
    case RING_255:
        make_ring(in, 255);
        break;
    case RING_511:
        make_ring(in, 511);
        break;
    case RING_PAIRS:
        make_pairs(in, (uint32_t)width);
        break;
    case RING_LAYERS:
        make_layers(in, (uint32_t)width);
        break;
    default:
        make_fullest(in, (uint32_t)width);
    }
}

/* Repeats the pieces of a board file until it holds 4,095. */
static void fill_file(struct input *in)
{
    size_t drawn = pieces_of(in);
    for (size_t i = drawn; i < 4095; i++)
        memcpy(in->file + 4 + 4 * i, in->file + 4 + 4 * (i - drawn), 4);
    uint32_t count = 4095u << 1;
    in->file[2] = (uint8_t)((in->file[2] & 0xE0) | count >> 8);
    in->file[3] = (uint8_t)count;
    in->file_length = FILE_LIMIT;
}

static void shuffle_file(struct input *in)
{
    seed(4095);
    for (uint32_t i = 4094; i > 0; i--) {
        uint8_t kept[4], *a = in->file + 4 + 4 * i, *b = in->file + 4 + 4 * below(i + 1);
        memcpy(kept, a, 4);
        memcpy(a, b, 4);
        memcpy(b, kept, 4);
    }
}

/* The pieces of a full file are random ones of one line, or one contact. */
static void crowd_line(enum shape shape, struct input *in)
{
    seed(shape);
    uint32_t tracks = tracks_of(in), middle = tracks / 2 + 1, width = (uint32_t)in->top_length;
    for (uint32_t i = 0; i < 4095; i++) {
        uint32_t low = below(tracks + 1), first = 1 + below(width - 1);
        if (shape == ONE_COLUMN)
            put_piece(in, i, 1, width / 2, low, low + 1 + below(tracks + 1 - low));
        else if (shape == ONE_TRACK)
            put_piece(in, i, 0, middle, first, first + 1 + below(width - first));
        else
            put_piece(in, i, 2, width / 2, middle, middle);
    }
}

void write_shape(enum shape shape, struct input *in)
{
    if (shape == PADDED)
        write_spaced_text(in, 3, "\r\n", "\r\n");
    else
        write_text(in);
}

void make_input(enum shape shape, size_t width, struct input *in)
{
    make_rows(shape, width, in);
    write_shape(shape, in);
    draw_file(in);
    if (shape >= FULL_FILE)
        fill_file(in);
    if (shape == MIXED_FILE)
        shuffle_file(in);
    if (shape >= ONE_COLUMN)
        crowd_line(shape, in);
    same_second(in);
    stock_table(in);
    draft_of_rows(in);
}

bool measured_on(enum operation operation, enum shape shape)
{
    if (operation >= DRAFT_WIDE && operation <= DRAFT_GREATEST) /* nets 1 and 256 are the wide and the short one */
        return shape == DENSE || shape == FULLEST;
    if (operation == JOIN || is_panel(shape))
        return operation == JOIN && (shape == EXAMPLE_B || is_panel(shape));
    if (shape == PADDED) /* the other operations take rows */
        return operation == READ;
    if (shape == RING_PAIRS || shape == RING_LAYERS) /* many rings of one length */
        return operation == FEWEST_RING;
    return operation == JUDGE ? shape < RING_255 || shape >= FULL_FILE : shape < FULL_FILE;
}

uint32_t tracks_of(const struct input *in)
{
    return (in->file[1] & 63u) << 3 | in->file[2] >> 5;
}

size_t pieces_of(const struct input *in)
{
    return in->file_length / 4 - 1;
}
