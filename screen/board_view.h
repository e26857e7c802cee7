/* board_view.h: a board drawn in characters, from the bytes of its file.
 *
 * Columns run across, `pitch` cells each or as `edge` has them, the copper of a column in the last of its cells. Row r
 * of the grid (t + 1 for the TOP pins, 0 for the BOT pins) is line 2 * (t + 1 - r); the lines between show whether a
 * branch goes on from one row to the next, and the cells between two columns whether a trunk does. So what is joined
 * can be seen. */
#ifndef CABJIRT_BOARD_VIEW_H
#define CABJIRT_BOARD_VIEW_H

#include <stdbool.h>
#include <stddef.h>
#include <stdint.h>

enum {
    GUTTER = 5,          /* cells before the drawing, for "TOP", the track numbers and "BOT" */
    PIECE_WORDS = 96,
    DRAWING_MOST = 2560  /* cells that are drawn of a line: as many as the widest drawing of one pitch has, or more */
};

enum look {
    LOOK_BLANK, LOOK_TRUNK, LOOK_BRANCH, LOOK_CROSSING, LOOK_CONTACT, LOOK_PIN, LOOK_PARKED, LOOK_NO_PIN, LOOK_COLUMN
};

struct board_cell {
    char ascii;
    uint8_t look;
    bool marked;
};

struct board_view {
    const uint8_t *bytes;
    uint32_t width, tracks, pieces; /* as the header has them; of the pieces, those that the file holds */
    const uint32_t *top, *bot;      /* the pins, or NULL where the board is of another width than the list */
    const bool *top_parked, *bot_parked; /* which of them are parked, or NULL for none */
    uint32_t marked_piece, marked_position; /* 0 for none */
    uint32_t pitch;
    const size_t *edge; /* the cell after each column, from edge[1] on; or NULL where all have one pitch */
};

/* Opens a view without pins and marks. Answers false where the header has no width that a drawing could have. */
bool board_view_open(struct board_view *view, const uint8_t *bytes, size_t length);
void board_view_pins(struct board_view *view, const uint32_t *top, const uint32_t *bot);

/* A parked pin is drawn with a p before its number. */
void board_view_parked(struct board_view *view, const bool *top, const bool *bot);

/* The size of the drawing. */
size_t board_view_cells(const struct board_view *view);
size_t board_view_lines(const struct board_view *view);

/* The last cell of a column, which has its copper; the column of a cell, or the last if it is after all; the line of a
 * row. */
size_t board_view_cell_of(const struct board_view *view, size_t column);
size_t board_view_column_at(const struct board_view *view, size_t cell);
size_t board_view_line_of(const struct board_view *view, size_t row);

/* Cells `from` up to `from + count` of a line, and of the line of column numbers that stands above the drawing. */
void board_view_line(const struct board_view *view, size_t line, size_t from, size_t count, struct board_cell *cells);
void board_view_ruler(const struct board_view *view, size_t from, size_t count, struct board_cell *cells);

/* What stands before a line. */
void board_view_gutter(const struct board_view *view, size_t line, char gutter[GUTTER + 1]);

/* A piece of the file, by number from 1: in words, and the line and the column where it begins at the top left. */
void board_view_piece_words(const struct board_view *view, uint32_t number, char words[PIECE_WORDS]);
void board_view_piece_place(const struct board_view *view, uint32_t number, size_t *line, size_t *column);

#endif
