/* columns.h: where the typed rows are shown. Words of the same column stand under each other, each at the right of its
 * column, so that a pin stands over its copper in a drawing of the same columns. A list that is padded into columns of
 * four is shown as it is typed. */
#ifndef CABJIRT_COLUMNS_H
#define CABJIRT_COLUMNS_H

#include "pin_text.h"

enum {
    COLUMN_CELLS = 4,    /* a space and three cells of pads and digits; a longer word takes as many fours as needed */
    COLUMNS_LEAST = 512, /* laid also after the rows: a board that is judged may be wider than they are */
    COLUMNS_MOST = ROW_LIMIT / 2 + 1 /* the words of a row of digits that has a space after each */
};

/* Column k takes the cells of the screen from edge[k - 1] up to edge[k]. */
struct columns {
    size_t count;                  /* the words of the longer row */
    size_t edge[COLUMNS_MOST + 1]; /* up to the count, and at least up to COLUMNS_LEAST */
};

void columns_lay(struct columns *columns, const struct pin_text *pins);

/* Where a cell of a row is shown. The space after a word stands at the right edge of its column. */
size_t columns_x(const struct columns *columns, const struct row_text *row, size_t cell);

#endif
