/* Random channels, boards and texts, from a seeded row of numbers. */
#include <string.h>

#include "inputs.h"
#include "text.h"

static uint64_t state;

void seed(uint64_t first)
{
    state = first * 0x9E3779B97F4A7C15u + 1;
}

uint32_t below(uint32_t n)
{
    state ^= state << 13;
    state ^= state >> 7;
    state ^= state << 17;
    return (uint32_t)((state >> 32) % n);
}

/* Rows of a random width, many with parked pins; one in three has no two nets in a column. */
static void random_rows(struct input *in)
{
    uint32_t width = below(20) == 0 ? 1 + below(512) : 1 + below(14);
    uint32_t nets = 1 + below(width < 511 ? width : 511), full = 1 + below(4);
    bool unconstrained = below(3) == 0;
    memset(in->top, 0, sizeof in->top);
    memset(in->bot, 0, sizeof in->bot);
    in->top_length = in->bot_length = width;
    for (uint32_t i = 0; i < width; i++) {
        in->top[i] = below(4) < full ? 1 + below(nets) : 0;
        in->bot[i] = unconstrained ? (below(2) ? in->top[i] : 0) : below(4) < full ? 1 + below(nets) : 0;
    }
}

void park_pins(struct input *in, uint32_t count)
{
    bool used[512] = {false};
    for (size_t i = 0; i < in->top_length; i++)
        used[in->top[i]] = used[in->bot[i]] = true;
    for (uint32_t net = 511; net > 0 && count > 0; net--)
        if (!used[net]) {
            uint32_t *row = below(2) ? in->top : in->bot;
            row[below((uint32_t)in->top_length)] = net;
            count--;
        }
}

/* A slip in the rows that is refused. */
static void spoil_rows(struct input *in)
{
    uint32_t i = below((uint32_t)in->top_length);
    switch (below(4)) {
    case 0:
        in->top[i] = 512 + below(9);
        break;
    case 1:
        in->bot[i] = 512 + below(9);
        break;
    case 2:
        in->bot_length = below(ROW + 8);
        break;
    default:
        in->top_length = below(ROW + 8);
    }
}

/* Puts a byte into the text, before the one of index i. No random text comes near the limit. */
static void put_byte(struct input *in, size_t i, char byte)
{
    memmove(in->text + i + 1, in->text + i, in->text_length - i);
    in->text[i] = (uint8_t)byte;
    in->text_length++;
}

/* Some runs of spaces get longer. */
static void lengthen_runs(struct input *in)
{
    for (uint32_t tries = below(40); tries > 0; tries--) {
        size_t i = below((uint32_t)in->text_length);
        for (uint32_t more = in->text[i] == ' ' ? 1 + below(9) : 0; more > 0; more--)
            put_byte(in, i, ' ');
    }
}

/* The rows as a text: plain, or in columns of a width, at times with some longer runs of spaces; each line ends in one
 * byte or in two. */
static void random_text(struct input *in)
{
    static const char *const ends[] = {"\n", "\r\n"};
    if (below(3) == 0) {
        write_text(in);
        return;
    }
    const char *top_end = ends[below(2)], *bot_end = ends[below(2)];
    write_spaced_text(in, 1 + (int)below(6), top_end, bot_end);
    if (below(2))
        lengthen_runs(in);
}

void put_piece(struct input *in, uint32_t i, uint32_t kind, uint32_t line, uint32_t from, uint32_t to)
{
    uint32_t v = kind << 30 | (line & 1023) << 20 | (from & 1023) << 10 | (to & 1023);
    for (int k = 0; k < 4; k++)
        in->file[4 + 4 * i + (uint32_t)k] = (uint8_t)(v >> (24 - 8 * k));
}

/* Moves an end of the piece of index i by one; a contact moves whole. */
static void nudge_piece(struct input *in, uint32_t i)
{
    const uint8_t *at = in->file + 4 + 4 * i;
    uint32_t v = (uint32_t)at[0] << 24 | (uint32_t)at[1] << 16 | (uint32_t)at[2] << 8 | at[3];
    uint32_t kind = v >> 30, by = below(2) ? 1 : UINT32_MAX, which = below(2);
    uint32_t from = v >> 10 & 1023, to = v & 1023;
    put_piece(in, i, kind, v >> 20 & 1023, from + (which || kind == 2 ? by : 0), to + (!which || kind == 2 ? by : 0));
}

/* Puts any piece of the grid in the place of the piece of index i. */
static void replace_piece(struct input *in, uint32_t i)
{
    uint32_t width = (uint32_t)in->top_length, tracks = tracks_of(in);
    uint32_t low = below(tracks + 1), first = 1 + below(width), track = 1 + below(tracks + 1);
    switch (below(3)) {
    case 0:
        put_piece(in, i, 0, track, first, first + 1 + below(width));
        break;
    case 1:
        put_piece(in, i, 1, first, low, low + 1 + below(tracks + 1));
        break;
    default:
        put_piece(in, i, 2, first, track, track);
    }
}

/* The header's count of pieces changes by so many, and the length of the file with it. */
static void add_count(struct input *in, int by)
{
    uint32_t count = ((in->file[2] & 31u) << 8 | in->file[3]) + 2u * (uint32_t)by;
    in->file[2] = (uint8_t)((in->file[2] & 0xE0u) | (count >> 8 & 31u));
    in->file[3] = (uint8_t)count;
    in->file_length = 4 * (pieces_of(in) + 1 + (size_t)by);
}

/* Takes the piece of index i out of the file. */
static void remove_piece(struct input *in, uint32_t i)
{
    uint8_t *at = in->file + 4 + 4 * i;
    memmove(at, at + 4, in->file_length - 8 - 4 * i);
    add_count(in, -1);
}

/* Puts one more branch into the file, from an edge of some column: it floats, makes a short, lies on copper of its net,
 * or lies on a parked pin alone and is good. */
static void add_branch(struct input *in)
{
    uint32_t width = (uint32_t)in->top_length, tracks = tracks_of(in);
    if (width == 0)
        return;
    uint32_t i = (uint32_t)pieces_of(in), row = below(tracks + 1), column = 1 + below(width);
    bool upper = below(2) == 0;
    put_piece(in, i, 1, column, upper ? row : 0, upper ? tracks + 1 : row + 1);
    add_count(in, 1);
}

/* One of many slips in a board file: a bit, a cut, a piece added, changed, repeated, replaced or missing. */
static void damage_file(struct input *in)
{
    uint32_t pieces = (uint32_t)pieces_of(in), slip = below(26);
    if (slip == 0) {
        in->file_length = below((uint32_t)in->file_length + 1);
    } else if (slip <= 2) {
        in->file[below((uint32_t)in->file_length)] ^= (uint8_t)(1u << below(8));
    } else if (slip <= 8) {
        add_branch(in);
    } else if (pieces == 0) {
        return;
    } else if (slip <= 10) {
        memmove(in->file + 4 + 4 * below(pieces), in->file + 4 + 4 * below(pieces), 4);
    } else if (slip <= 14) {
        remove_piece(in, below(pieces));
    } else if (slip <= 20) {
        nudge_piece(in, below(pieces));
    } else {
        replace_piece(in, below(pieces));
    }
}

/* A piece on one of few lines of a grid, with its ends among few places. */
static void put_crowded(struct input *in, uint32_t i, uint32_t width, uint32_t tracks)
{
    uint32_t columns = width < 3 ? width : 3, lines = tracks < 3 ? tracks : 3, kind = below(3);
    uint32_t low = below(tracks + 1), first = 1 + below(width), row = 1 + below(lines == 0 ? 1 : lines);
    if (kind == 0 && tracks > 0 && first < width)
        put_piece(in, i, 0, row, first, first + 1 + below(width - first));
    else if (kind == 2 && tracks > 0)
        put_piece(in, i, 2, 1 + below(columns), row, row);
    else
        put_piece(in, i, 1, 1 + below(columns), low, low + 1 + below(tracks + 1 - low));
}

void crowd_file(struct input *in)
{
    uint32_t width = (uint32_t)in->top_length, tracks = below(8) == 0 ? 0 : 1 + below(9), count = below(40);
    if (width == 0 || width > 512)
        return;
    uint32_t head = width << 22 | tracks << 13 | count << 1;
    for (int k = 0; k < 4; k++)
        in->file[k] = (uint8_t)(head >> (24 - 8 * k));
    for (uint32_t i = 0; i < count; i++)
        put_crowded(in, i, width, tracks);
    in->file_length = 4 + 4 * count;
}

void random_input(struct input *in)
{
    random_rows(in);
    if (below(3) == 0)
        park_pins(in, 1 + below((uint32_t)in->top_length));
    if (below(8) == 0)
        spoil_rows(in);
    random_text(in);
    draw_file(in);
    for (uint32_t slips = below(3); slips > 0 && in->file_length >= 4; slips--)
        damage_file(in);
    random_second(in);
    random_table(in);
    random_draft(in);
}

void garble(struct input *in)
{
    static const char likely[] = "TOPBOT 0123456789 \n\n  \r\r\r\t\t\xA0";
    size_t i = below((uint32_t)in->text_length);
    char byte = likely[below(sizeof likely - 1)];
    uint32_t slip = below(6);
    if (slip < 2) {
        in->text_length = i;
    } else if (slip < 4) {
        in->text[i] = (uint8_t)byte;
    } else if (slip < 5) {
        put_byte(in, i, byte);
    } else { /* about the end of the first line */
        const uint8_t *end = memchr(in->text, '\n', in->text_length);
        put_byte(in, (size_t)(end - in->text) - 1 + below(3), byte);
    }
}
