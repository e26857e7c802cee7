/* Opening a board file of any bytes. */
#include "plain.h"

static bool word_right(const struct plain_header *header, uint32_t v)
{
    uint32_t width = header->width, tracks = header->tracks;
    uint32_t line = v >> 20 & 1023, from = v >> 10 & 1023, to = v & 1023;
    switch (v >> 30) {
    case PLAIN_TRUNK:
        return 1 <= line && line <= tracks && 1 <= from && from < to && to <= width;
    case PLAIN_BRANCH:
        return 1 <= line && line <= width && from < to && to <= tracks + 1;
    case PLAIN_CONTACT:
        return 1 <= line && line <= width && 1 <= from && from <= tracks && from == to;
    default:
        return false;
    }
}

uint64_t plain_open(const uint8_t *board, size_t length, struct plain_header *header)
{
    if (length < 4)
        return plain_refused(8, 4);
    uint32_t head = plain_word(board);
    header->width = head >> 22;
    header->tracks = head >> 13 & 511;
    header->count = head >> 1 & 4095;
    size_t due = 4 + 4 * (size_t)header->count;
    if (length != due)
        return plain_refused(8, due);
    if (header->width < 1 || header->width > PLAIN_COLUMNS || (head & 1) != 0)
        return plain_refused(9, 0);
    for (uint32_t i = 1; i <= header->count; i++)
        if (!word_right(header, plain_word(board + 4 * i)))
            return plain_refused(9, i);
    return 0;
}
