#include "pin_text.h"

#include <string.h>

const char *const row_names[ROWS] = {"TOP", "BOT"};
static const char *const labels[ROWS] = {"TOP ", "BOT "};

bool row_insert(struct row_text *row, size_t cell, uint8_t byte)
{
    if (row->length >= ROW_LIMIT || cell > row->length)
        return false;
    memmove(row->bytes + cell + 1, row->bytes + cell, row->length - cell);
    row->bytes[cell] = byte;
    row->length++;
    return true;
}

/* A carriage return that stands last, with the line feed after it, is part of the line's end. One more is not. */
static void take_return(struct row_text *row)
{
    if (row->returns || row->length == 0 || row->bytes[row->length - 1] != '\r')
        return;
    row->length--;
    row->returns = true;
}

bool row_remove(struct row_text *row, size_t cell)
{
    if (cell >= row->length)
        return false;
    row->length--;
    memmove(row->bytes + cell, row->bytes + cell + 1, row->length - cell);
    take_return(row);
    return true;
}

bool row_set(struct row_text *row, const uint8_t *bytes, size_t length)
{
    if (length > ROW_LIMIT)
        return false;
    memcpy(row->bytes, bytes, length);
    row->length = length;
    return true;
}

/* The word that begins at a cell. */
static struct word word_from(const struct row_text *row, size_t column, size_t first)
{
    size_t number = first;
    while (number < row->length && row->bytes[number] == ' ')
        number++;
    const uint8_t *space = memchr(row->bytes + number, ' ', row->length - number);
    return (struct word){column, first, number, space == NULL ? row->length : (size_t)(space - row->bytes)};
}

bool row_next_word(const struct row_text *row, struct word *word)
{
    if (word->end >= row->length)
        return false;
    *word = word_from(row, word->column + 1, word->end + 1);
    return true;
}

struct word row_word_at(const struct row_text *row, size_t cell)
{
    struct word word = word_from(row, 1, 0);
    while (word.end < cell && row_next_word(row, &word))
        continue;
    return word;
}

bool row_word_of(const struct row_text *row, size_t column, struct word *word)
{
    *word = word_from(row, 1, 0);
    while (word->column < column && row_next_word(row, word))
        continue;
    return word->column == column;
}

void row_find_numbers(const struct row_text *row, struct row_numbers *numbers)
{
    struct word word = row_word_at(row, 0);
    numbers->count = 0;
    do {
        bool found = word.number < word.end;
        if (found && numbers->count < NUMBERS_MOST) {
            numbers->first[numbers->count] = word.number;
            numbers->last[numbers->count] = word.end - 1;
        }
        numbers->count += found;
    } while (row_next_word(row, &word));
}

static const char *line_end(const struct row_text *row)
{
    return row->returns ? "\r\n" : "\n";
}

size_t pin_text_compose(const struct pin_text *pins, uint8_t text[TEXT_MOST])
{
    size_t length = 0;
    for (int r = 0; r < ROWS; r++) {
        const struct row_text *row = &pins->rows[r];
        memcpy(text + length, labels[r], ROW_LABEL);
        memcpy(text + length + ROW_LABEL, row->bytes, row->length);
        length += ROW_LABEL + row->length;
        for (const char *byte = line_end(row); *byte != '\0'; byte++)
            text[length++] = (uint8_t)*byte;
    }
    return length;
}

bool pin_text_take(struct pin_text *pins, const uint8_t *text, size_t length)
{
    const uint8_t *lines[ROWS];
    size_t lengths[ROWS], at = 0;
    for (int r = 0; r < ROWS; r++) {
        const uint8_t *feed = at < length ? memchr(text + at, '\n', length - at) : NULL;
        if (feed == NULL || (size_t)(feed - (text + at)) < ROW_LABEL || memcmp(text + at, labels[r], ROW_LABEL) != 0)
            return false;
        lines[r] = text + at + ROW_LABEL;
        lengths[r] = (size_t)(feed - lines[r]);
        at = (size_t)(feed - text) + 1;
    }
    if (at != length || lengths[TOP_ROW] > ROW_LIMIT || lengths[BOT_ROW] > ROW_LIMIT)
        return false;
    for (int r = 0; r < ROWS; r++) {
        row_set(&pins->rows[r], lines[r], lengths[r]);
        pins->rows[r].returns = false;
        take_return(&pins->rows[r]);
    }
    return true;
}

void pin_text_turn(struct pin_text *pins)
{
    struct row_text top = pins->rows[TOP_ROW];
    pins->rows[TOP_ROW] = pins->rows[BOT_ROW];
    pins->rows[BOT_ROW] = top;
}

static bool row_same(const struct row_text *one, const struct row_text *other)
{
    return one->length == other->length && memcmp(one->bytes, other->bytes, one->length) == 0 &&
           one->returns == other->returns;
}

bool pin_text_same(const struct pin_text *one, const struct pin_text *other)
{
    return row_same(&one->rows[TOP_ROW], &other->rows[TOP_ROW]) && row_same(&one->rows[BOT_ROW], &other->rows[BOT_ROW]);
}

bool pin_text_empty(const struct pin_text *pins)
{
    return pins->rows[TOP_ROW].length == 0 && pins->rows[BOT_ROW].length == 0;
}

struct text_place pin_text_place(const struct pin_text *pins, size_t offset)
{
    size_t lengths[ROWS] = {pins->rows[TOP_ROW].length, pins->rows[BOT_ROW].length};
    size_t second = ROW_LABEL + lengths[TOP_ROW] + strlen(line_end(&pins->rows[TOP_ROW]));
    struct text_place place = {offset < second ? TOP_ROW : BOT_ROW, offset < second ? offset : offset - second};
    place.cell = place.cell < ROW_LABEL ? 0 : place.cell - ROW_LABEL;
    if (place.cell > lengths[place.row])
        place.cell = lengths[place.row];
    return place;
}
