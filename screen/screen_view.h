/* screen_view.h: how the screen is painted, and how it scrolls. */
#ifndef CABJIRT_SCREEN_VIEW_H
#define CABJIRT_SCREEN_VIEW_H

#include "screen.h"

enum { ROWS_LEAST = 14, ACROSS_LEAST = 40 }; /* a smaller window shows nothing but that it is too small */

bool screen_fits(void);

/* Paints everything; ncurses sends what changed. Scrolls that go too far are cut to what there is. */
void screen_paint(struct screen *screen);

/* Scrolls: to the cursor, to the place of a fault, by part of a page. */
void screen_follow_cursor(struct screen *screen);
void screen_follow_fault(struct screen *screen);
void screen_scroll(struct screen *screen, int key);

/* Whether the cursor is among the cells shown. */
bool screen_shows_cursor(const struct screen *screen);

#endif
