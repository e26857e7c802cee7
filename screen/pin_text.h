/* pin_text.h: a pin list as it is typed: two rows of bytes, the text that they make, and where each number stands. */
#ifndef CABJIRT_PIN_TEXT_H
#define CABJIRT_PIN_TEXT_H

#include <stdbool.h>
#include <stddef.h>
#include <stdint.h>

enum {
    TOP_ROW,
    BOT_ROW,
    ROWS,
    ROW_LABEL = 4,     /* "TOP " and "BOT ", which nobody edits */
    ROW_LIMIT = 65536, /* bytes that a row may hold after its label */
    ROW_END = 2,       /* CR LF, the longer line end */
    TEXT_MOST = ROWS * (ROW_LABEL + ROW_LIMIT + ROW_END), /* bytes of the longest text that two rows make */
    NUMBERS_MOST = 513 /* numbers whose cells are noted: with the first that is too many */
};

/* What stands after a label, up to the line's end. A cell is an index into the bytes; that at `length` is the end. */
struct row_text {
    uint8_t bytes[ROW_LIMIT];
    size_t length;
    bool returns; /* the line ends in CR LF, else in LF */
};

struct pin_text {
    struct row_text rows[ROWS];
};

/* A cell of one of the rows. */
struct text_place {
    int row;
    size_t cell;
};

/* Cells first to last of a row, which hold the number of a column, or for a garbled text one character. */
struct mark {
    int row;
    size_t column, first, last;
};

/* Where the numbers of a row stand: number k at cells first[k - 1] to last[k - 1]. */
struct row_numbers {
    size_t count;
    size_t first[NUMBERS_MOST], last[NUMBERS_MOST];
};

extern const char *const row_names[ROWS];

/* Each of these answers whether it could: a full row takes no byte, and a cell past the end has none. The line's end
 * stays as it is, unless a removed byte leaves a carriage return before its line feed. */
bool row_insert(struct row_text *row, size_t cell, uint8_t byte);
bool row_remove(struct row_text *row, size_t cell);
bool row_set(struct row_text *row, const uint8_t *bytes, size_t length);

/* What stands in a column. The label, or the first space after the column before, parts it from that; further spaces are
 * its pads, cells `first` up to `number`; from there its number goes, be it nothing, up to `end`, where the next space
 * or the row's end is. */
struct word {
    size_t column, first, number, end;
};

/* The word that a cell belongs to or ends, as far as spaces tell; and the word of a column, if the row goes so far.
 * Every row has a first word, and only the last one may lack a number. */
struct word row_word_at(const struct row_text *row, size_t cell);
bool row_word_of(const struct row_text *row, size_t column, struct word *word);

/* Steps to the next word; answers whether there is one. */
bool row_next_word(const struct row_text *row, struct word *word);

/* Notes the cells of the first NUMBERS_MOST numbers, in a row that is well formed; `count` counts them all. */
void row_find_numbers(const struct row_text *row, struct row_numbers *numbers);

/* Writes the text of both rows, as a program would get it; answers its length. */
size_t pin_text_compose(const struct pin_text *pins, uint8_t text[TEXT_MOST]);

/* Takes both rows from a text of two labelled lines. Any other text is not taken, and no such text is a pin list. */
bool pin_text_take(struct pin_text *pins, const uint8_t *text, size_t length);

/* Exchanges the rows, each with its pads and its line's end. Done twice, it gives the same list again. */
void pin_text_turn(struct pin_text *pins);

bool pin_text_same(const struct pin_text *one, const struct pin_text *other);
bool pin_text_empty(const struct pin_text *pins);

/* The cell that a byte of the text stands in. */
struct text_place pin_text_place(const struct pin_text *pins, size_t offset);

#endif
