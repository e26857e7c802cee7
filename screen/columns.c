#include "columns.h"

/* Widens the columns to the words of a row, with one cell before each. */
static void note_words(struct columns *columns, const struct row_text *row)
{
    struct word word = row_word_at(row, 0);
    do {
        size_t cells = ((word.end - word.first) / COLUMN_CELLS + 1) * COLUMN_CELLS;
        if (word.column > columns->count || cells > columns->edge[word.column])
            columns->edge[word.column] = cells;
        if (word.column > columns->count)
            columns->count = word.column;
    } while (row_next_word(row, &word));
}

void columns_lay(struct columns *columns, const struct pin_text *pins)
{
    columns->count = 0;
    for (int r = 0; r < ROWS; r++)
        note_words(columns, &pins->rows[r]);
    columns->edge[0] = 0;
    for (size_t k = columns->count + 1; k <= COLUMNS_LEAST; k++)
        columns->edge[k] = COLUMN_CELLS;
    for (size_t k = 1; k <= columns->count || k <= COLUMNS_LEAST; k++)
        columns->edge[k] += columns->edge[k - 1];
}

size_t columns_x(const struct columns *columns, const struct row_text *row, size_t cell)
{
    struct word word = row_word_at(row, cell);
    return columns->edge[word.column] - (word.end - cell);
}
