/* paint.h: styles, and texts put into the window. ncurses sends what changed. */
#ifndef CABJIRT_PAINT_H
#define CABJIRT_PAINT_H

#include <stdbool.h>
#include <stddef.h>
#include <wchar.h>

enum style {
    STYLE_PLAIN, STYLE_DIM, STYLE_STRONG, STYLE_BAR, STYLE_TRUNK, STYLE_BRANCH, STYLE_CONTACT, STYLE_CROSSING,
    STYLE_PIN, STYLE_PARKED, STYLE_GOOD, STYLE_BAD, STYLE_MARK, STYLE_FEWEST, STYLE_FEWEST_MARK, STYLES
};

/* Takes up the terminal's colours, unless NO_COLOR is set. */
void paint_colours(void);

/* Whether the locale is UTF-8; else only ASCII is shown. */
bool paint_has_utf8(void);

int paint_rows(void);
int paint_across(void);

/* Puts a glyph; outside the window it is dropped. */
void paint_glyph(int y, int x, wchar_t glyph, enum style style);

/* Puts a text at x, up to the cell before `end`; answers the cell after it. A character that is not one cell wide is
 * shown as ?. */
int paint_text(int y, int x, int end, const char *text, enum style style);

/* Puts a text into lines y up to `end`, from cell x on, broken between words; answers the line after it. */
int paint_lines(int y, int end, int x, const char *text, enum style style);

/* The same, but the lines before `first` are left as they are. */
int paint_lines_from(int first, int y, int end, int x, const char *text, enum style style);

/* Fills a line with a style. */
void paint_bar(int y, enum style style);

#endif
