/* The check of two rows, refusals 3 to 5, the rows without parked pins, and the spans of the nets in them. */
#include <string.h>

#include "plain.h"

/* The place, from 1, of the first number over 511 in a row, or 0. */
static size_t first_high(const uint32_t *row, size_t length)
{
    for (size_t i = 0; i < length; i++)
        if (row[i] > 511)
            return i + 1;
    return 0;
}

uint64_t plain_check(const uint32_t *top, size_t top_length, const uint32_t *bot, size_t bot_length)
{
    if (top_length > PLAIN_COLUMNS || bot_length > PLAIN_COLUMNS)
        return plain_refused(3, PLAIN_COLUMNS + 1);
    if (top_length != bot_length || top_length == 0)
        return plain_refused(4, (top_length < bot_length ? top_length : bot_length) + 1);
    size_t high = first_high(top, top_length);
    if (high != 0)
        return plain_refused(5, high);
    high = first_high(bot, bot_length);
    return high != 0 ? plain_refused(5, top_length + high) : 0;
}

static void count_pins(const uint32_t *row, size_t width, uint32_t counts[PLAIN_NETS])
{
    for (size_t i = 0; i < width; i++)
        counts[row[i]]++;
}

static void count_rows(const struct plain_rows *rows, uint32_t counts[PLAIN_NETS])
{
    count_pins(rows->top, rows->width, counts);
    count_pins(rows->bot, rows->width, counts);
}

/* A number of a row is counted just once. */
static bool any_once(const uint32_t *row, size_t width, const uint32_t counts[PLAIN_NETS])
{
    for (size_t i = 0; i < width; i++)
        if (counts[row[i]] == 1)
            return true;
    return false;
}

bool plain_has_parked(const struct plain_rows *rows)
{
    uint32_t counts[PLAIN_NETS] = {0};
    count_rows(rows, counts);
    counts[0] = 0;
    return any_once(rows->top, rows->width, counts) || any_once(rows->bot, rows->width, counts);
}

/* Copies a row; a net that is counted just once is parked, and its pin is left out. */
static void copy_nets(const uint32_t *row, size_t width, const uint32_t counts[PLAIN_NETS], uint32_t *nets)
{
    for (size_t i = 0; i < width; i++)
        nets[i] = counts[row[i]] == 1 ? 0 : row[i];
}

struct plain_rows plain_leave_parked(const struct plain_rows *rows, struct plain_copy *copy)
{
    uint32_t counts[PLAIN_NETS] = {0};
    count_rows(rows, counts);
    copy_nets(rows->top, rows->width, counts, copy->top);
    copy_nets(rows->bot, rows->width, counts, copy->bot);
    return (struct plain_rows){copy->top, copy->bot, rows->width};
}

/* Notes a pin of net n in column c, which is no earlier than the columns noted so far. */
static inline void note(struct plain_spans *spans, uint32_t n, uint32_t c)
{
    if (spans->first[n] == 0)
        spans->first[n] = c;
    spans->last[n] = c;
}

void plain_find_spans(const struct plain_rows *rows, struct plain_spans *spans)
{
    memset(spans, 0, sizeof *spans);
    for (size_t i = 0; i < rows->width; i++) {
        note(spans, rows->top[i], (uint32_t)i + 1);
        note(spans, rows->bot[i], (uint32_t)i + 1);
    }
}
