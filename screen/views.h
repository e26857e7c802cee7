/* views.h: the parts of the screen: their lines, and how each is painted. */
#ifndef CABJIRT_VIEWS_H
#define CABJIRT_VIEWS_H

#include "paint.h"
#include "screen.h"

/* The lines of the screen from above; the drawing takes what is left over two lines at the bottom. Ruler, rows, bars of
 * density and drawing have the same columns, and scroll together. */
enum {
    LINE_TITLE, LINE_VERDICT, LINE_RULER = LINE_VERDICT + 3, LINE_TOP_MARKS, LINE_TOP, LINE_BOT, LINE_BOT_MARKS,
    LINE_DENSITY, LINE_DRAWING, BOTTOM_LINES = 2
};

/* The lines of the drawing; the cells of rows and drawing, in fours as columns are: half a number would be another
 * number. The cell after them is kept for a sign that a row goes on. */
size_t view_lines(void);
size_t view_cells(void);

/* Whether a board is there to be drawn; its columns are as wide as those of the rows. */
bool view_board_of(const struct screen *screen, struct board_view *view);

/* The cells of rows and drawing in all. */
size_t view_whole(const struct screen *screen, const struct board_view *view);

/* A scroll that leaves no empty space at the end. */
size_t view_cut(size_t scroll, size_t whole, size_t shown);

/* Puts a glyph at a cell of rows and drawing, if it is among those shown. */
void view_glyph(const struct screen *screen, int y, size_t x, wchar_t glyph, enum style style);

/* Signs beside the cells shown, that what goes from cell `first` to `last` goes on there. */
void view_signs(const struct screen *screen, int y, size_t first, size_t last, enum style style);

/* Each part. The view is NULL where no board is drawn. */
void view_title(const struct screen *screen, const struct board_view *view);
void view_keys(void);
void view_verdict(const struct screen *screen, const struct board_view *view);
void view_ruler(const struct screen *screen, const struct board_view *view);
void view_row(const struct screen *screen, int row, int y, int marks_y);
void view_density(const struct screen *screen);
void view_drawing(const struct screen *screen, const struct board_view *view);
void view_ring(const struct screen *screen);
void view_hints(const struct screen *screen);
void view_choices(const struct screen *screen);

/* The lines of the walk's ring and of the ring with the fewest nets, which stand beside each other if there is room,
 * and of the words after them. */
size_t view_ring_lines(const struct order *order);

/* The help from an entry on; answers the entry that the next page begins with, or 0 if there is none. */
size_t view_help(size_t first);
void view_too_small(const struct screen *screen);

/* The line of the drawing that stands in the i-th line of its place. Where not all fit, the pins stay in sight. */
size_t view_line_shown(const struct screen *screen, const struct board_view *view, size_t i);

/* A question with its answer so far; or what came of the last command, and the bar of looks in the room that is left.
 * Answers the cell in which a question's answer goes on. */
int view_message(const struct screen *screen);

#endif
