/* Reading a pin list: the whole text is checked before a row is written. */
#include <string.h>

#include "plain.h"

struct text {
    const uint8_t *bytes;
    size_t length;
};

/* Moves *at behind a run of spaces, reads the number there and moves *at behind it; a number over 511 is read as 512.
 * Answers whether there is one. */
static bool read_number(const struct text *text, size_t *at, uint32_t *value)
{
    while (*at < text->length && text->bytes[*at] == ' ')
        ++*at;
    size_t next = *at;
    if (next >= text->length)
        return false;
    uint8_t digit = text->bytes[next];
    if (digit < '0' || digit > '9')
        return false;
    next++;
    uint32_t number = digit - '0';
    while (number != 0 && next < text->length) {
        digit = text->bytes[next];
        if (digit < '0' || digit > '9')
            break;
        number = number * 10 + (digit - '0');
        if (number > 511)
            number = 512;
        next++;
    }
    *value = number;
    *at = next;
    return true;
}

/* Reads the line feed that is due behind a carriage return at *at, and moves *at behind it or to the byte that does not
 * belong. Answers whether the line is whole; *count then gets how many numbers it has. */
static bool ends_line(const struct text *text, size_t *at, size_t numbers, size_t *count)
{
    ++*at;
    if (*at >= text->length || text->bytes[*at] != '\n')
        return false;
    ++*at;
    *count = numbers;
    return true;
}

/* Reads a line that begins at *at and moves *at behind it, or to the byte that does not belong. Answers whether the
 * line is whole; *count gets how many numbers it has, of which the row keeps the first 512. */
static bool read_line(const struct text *text, size_t *at, const char *word, uint32_t row[PLAIN_COLUMNS], size_t *count)
{
    for (size_t i = 0; i < 4; i++, ++*at)
        if (*at >= text->length || text->bytes[*at] != (uint8_t)word[i])
            return false;
    size_t numbers = 0;
    for (;; ++*at) {
        uint32_t value;
        if (!read_number(text, at, &value))
            return false;
        if (numbers < PLAIN_COLUMNS)
            row[numbers] = value;
        numbers++;
        if (*at >= text->length)
            return false;
        if (text->bytes[*at] == '\n')
            break;
        if (text->bytes[*at] == '\r')
            return ends_line(text, at, numbers, count);
        if (text->bytes[*at] != ' ')
            return false;
    }
    ++*at;
    *count = numbers;
    return true;
}

uint64_t plain_read(const uint8_t *text, size_t text_length, uint32_t *top, size_t top_length, uint32_t *bot,
                    size_t bot_length)
{
    if (top_length < PLAIN_COLUMNS || bot_length < PLAIN_COLUMNS)
        return plain_refused(1, PLAIN_COLUMNS);
    struct text all = {text, text_length};
    uint32_t tops[PLAIN_COLUMNS], bots[PLAIN_COLUMNS];
    size_t at = 0, a, b;
    if (!read_line(&all, &at, "TOP ", tops, &a) || !read_line(&all, &at, "BOT ", bots, &b) || at < text_length)
        return plain_refused(2, at);
    uint64_t refusal = plain_check(tops, a, bots, b);
    if (refusal != 0)
        return refusal;
    memcpy(top, tops, a * sizeof *top);
    memcpy(bot, bots, b * sizeof *bot);
    return a;
}
