#include "refusals.h"

#include <stdio.h>
#include <string.h>

#include "refusals_table.h"

static const struct refusal_text *entry_of(uint32_t number)
{
    static const struct refusal_text unknown = {-1, "refused", "the library refused this at %p", ""};
    for (size_t i = 0; i < REFUSALS_COUNT; i++)
        if (refusals_table[i].number == (int)number)
            return &refusals_table[i];
    return &unknown;
}

const char *refusal_word(uint32_t number)
{
    return entry_of(number)->word;
}

/* Copies a text of the table, the place put in for %p. */
static void put_place(char words[WORDS_MOST], const char *text, uint32_t place)
{
    char digits[16];
    size_t length = 0, count = (size_t)snprintf(digits, sizeof digits, "%u", place);
    while (*text != '\0' && length + 1 < WORDS_MOST) {
        if (text[0] == '%' && text[1] == 'p' && length + count < WORDS_MOST) {
            memcpy(words + length, digits, count);
            length += count;
            text += 2;
        } else {
            words[length++] = *text++;
        }
    }
    words[length] = '\0';
}

static void add_mark(struct marks *marks, int row, size_t column, size_t first, size_t last)
{
    if (marks->count < MARKS_MOST)
        marks->at[marks->count++] = (struct mark){row, column, first, last};
}

static void mark_number(struct marks *marks, const struct row_numbers *numbers, int row, size_t column)
{
    if (column >= 1 && column <= numbers[row].count && column <= NUMBERS_MOST)
        add_mark(marks, row, column, numbers[row].first[column - 1], numbers[row].last[column - 1]);
}

/* What stands at a row's end does not belong there if a number is due, or if it is a second carriage return. */
static void find_garbled(const struct pin_text *pins, uint32_t offset, struct finding *finding)
{
    struct text_place at = pin_text_place(pins, offset);
    const struct row_text *row = &pins->rows[at.row];
    size_t column = row_word_at(row, at.cell).column;
    bool after_return = at.cell > 0 && row->bytes[at.cell - 1] == '\r';
    add_mark(&finding->marks, at.row, column, at.cell, at.cell);
    if (at.cell == row->length && !after_return)
        snprintf(finding->where, WORDS_MOST, "%s column %zu: the row ends where a number is due", row_names[at.row],
                 column);
    else
        snprintf(finding->where, WORDS_MOST, "%s column %zu, character %zu of the row%s", row_names[at.row], column,
                 at.cell + 1, after_return ? ", after a carriage return" : "");
}

static void find_too_wide(const struct row_numbers *numbers, uint32_t column, struct finding *finding)
{
    snprintf(finding->where, WORDS_MOST, "TOP has %zu, BOT %zu", numbers[TOP_ROW].count, numbers[BOT_ROW].count);
    mark_number(&finding->marks, numbers, TOP_ROW, column);
    mark_number(&finding->marks, numbers, BOT_ROW, column);
}

static void find_uneven(const struct pin_text *pins, const struct row_numbers *numbers, uint32_t column,
                        struct finding *finding)
{
    int shorter = numbers[TOP_ROW].count < numbers[BOT_ROW].count ? TOP_ROW : BOT_ROW;
    size_t end = pins->rows[shorter].length;
    snprintf(finding->where, WORDS_MOST, "TOP has %zu, BOT %zu", numbers[TOP_ROW].count, numbers[BOT_ROW].count);
    add_mark(&finding->marks, shorter, column, end, end);
    mark_number(&finding->marks, numbers, 1 - shorter, column);
}

/* Marks a pin position. The rows are even wherever a position is given. */
static void find_position(const struct row_numbers *numbers, uint32_t position, struct finding *finding)
{
    size_t width = numbers[TOP_ROW].count;
    int row = position <= width ? TOP_ROW : BOT_ROW;
    size_t column = row == TOP_ROW ? position : position - width;
    snprintf(finding->where, WORDS_MOST, "%s column %zu", row_names[row], column);
    mark_number(&finding->marks, numbers, row, column);
}

/* Marks the two numbers of each column of a ring. */
static void mark_ring(struct marks *marks, const struct row_numbers *numbers, const uint32_t *ring, uint32_t count)
{
    for (int r = 0; r < ROWS; r++)
        for (uint32_t i = 0; i < count && i < CABJIRT_RING / 2; i++)
            mark_number(marks, numbers, r, ring[2 * i + 1]);
}

static void find_rings(const struct row_numbers *numbers, const struct answer *answer, struct finding *finding)
{
    mark_ring(&finding->marks, numbers, answer->ring, answer->verdict.place);
    if (answer->fewest.whole && !answer_fewest_is_walk(answer))
        mark_ring(&finding->fewest, numbers, answer->fewest.ring, answer->fewest.count);
}

void ring_words(const uint32_t *ring, uint32_t count, uint32_t pair, char words[WORDS_MOST])
{
    uint32_t next = pair + 1 < count ? pair + 1 : 0;
    snprintf(words, WORDS_MOST, "net %u above net %u in column %u", ring[2 * pair], ring[2 * next], ring[2 * pair + 1]);
}

bool fewest_words(const struct answer *answer, char words[WORDS_MOST])
{
    const struct fewest_ring *fewest = &answer->fewest;
    bool other = fewest->whole && !answer_fewest_is_walk(answer);
    if (fewest->whole)
        snprintf(words, WORDS_MOST, "the fewest wires to move: %u nets%s", fewest->count,
                 other ? "" : ", the same ring");
    else
        snprintf(words, WORDS_MOST, "the fewest wires to move are not known: the library answered number %u, value %u, "
                 "which is no ring of this list", fewest->number, fewest->count);
    return other;
}

static void find_place(const struct pin_text *pins, const struct answer *answer, const struct verdict *verdict,
                       struct finding *finding)
{
    struct row_numbers numbers[ROWS];
    for (int r = 0; r < ROWS; r++)
        row_find_numbers(&pins->rows[r], &numbers[r]);
    switch (verdict->number) {
    case 2: find_garbled(pins, verdict->place, finding); break;
    case 3: find_too_wide(numbers, verdict->place, finding); break;
    case 4: find_uneven(pins, numbers, verdict->place, finding); break;
    case 5: case 11: case 12: find_position(numbers, verdict->place, finding); break;
    case 7: find_rings(numbers, answer, finding); break;
    case 10: snprintf(finding->where, WORDS_MOST, "which is %u wide", answer->width); break;
    default: break;
    }
}

void refusal_explain(const struct pin_text *pins, const struct answer *answer, const struct verdict *verdict,
                     struct finding *finding)
{
    finding->marks.count = finding->fewest.count = 0;
    finding->meaning[0] = finding->where[0] = finding->remedy[0] = '\0';
    if (!verdict->refused)
        return;
    const struct refusal_text *entry = entry_of(verdict->number);
    put_place(finding->meaning, entry->meaning, verdict->place);
    put_place(finding->remedy, entry->remedy, verdict->place);
    find_place(pins, answer, verdict, finding);
}
