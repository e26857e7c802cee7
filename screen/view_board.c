#include "views.h"

size_t view_lines(void)
{
    int lines = paint_rows() - BOTTOM_LINES - LINE_DRAWING;
    return lines > 0 ? (size_t)lines : 0;
}

size_t view_cells(void)
{
    int cells = paint_across() - GUTTER - 1;
    return cells < COLUMN_CELLS ? 0 : (size_t)cells / COLUMN_CELLS * COLUMN_CELLS;
}

bool view_board_of(const struct screen *screen, struct board_view *view)
{
    if (!order_view(screen->order, view))
        return false;
    view->edge = screen->columns.edge;
    return true;
}

size_t view_whole(const struct screen *screen, const struct board_view *view)
{
    size_t rows = screen->columns.edge[screen->columns.count] + COLUMN_CELLS; /* the cursor stands after the last */
    size_t drawing = view == NULL ? 0 : board_view_cells(view);
    return rows > drawing ? rows : drawing;
}

size_t view_cut(size_t scroll, size_t whole, size_t shown)
{
    size_t most = whole > shown ? whole - shown : 0;
    return scroll < most ? scroll : most;
}

size_t view_line_shown(const struct screen *screen, const struct board_view *view, size_t i)
{
    size_t lines = board_view_lines(view), shown = view_lines();
    if (shown < 3 || shown >= lines)
        return i + screen->scroll_down;
    return i == 0 ? 0 : i == shown - 1 ? lines - 1 : i + screen->scroll_down;
}

static void put_board_cell(int y, int x, const struct board_cell *cell)
{
    static const wchar_t glyphs[] = {
        [LOOK_TRUNK] = 0x2500, [LOOK_BRANCH] = 0x2502, [LOOK_CROSSING] = 0x253C, [LOOK_CONTACT] = 0x25CF,
    };
    static const enum style styles[] = {
        [LOOK_BLANK] = STYLE_PLAIN, [LOOK_TRUNK] = STYLE_TRUNK, [LOOK_BRANCH] = STYLE_BRANCH,
        [LOOK_CROSSING] = STYLE_CROSSING, [LOOK_CONTACT] = STYLE_CONTACT, [LOOK_PIN] = STYLE_PIN,
        [LOOK_PARKED] = STYLE_PARKED, [LOOK_NO_PIN] = STYLE_DIM, [LOOK_COLUMN] = STYLE_DIM,
    };
    bool copper = cell->look >= LOOK_TRUNK && cell->look <= LOOK_CONTACT;
    paint_glyph(y, x, copper && paint_has_utf8() ? glyphs[cell->look] : (wchar_t)(unsigned char)cell->ascii,
                cell->marked ? STYLE_MARK : styles[cell->look]);
}

void view_drawing(const struct screen *screen, const struct board_view *view)
{
    struct board_cell cells[DRAWING_MOST];
    char gutter[GUTTER + 1];
    size_t whole = board_view_cells(view), lines = view_lines();
    size_t count = whole > screen->scroll_across ? whole - screen->scroll_across : 0;
    count = count < view_cells() ? count : view_cells();
    lines = lines < board_view_lines(view) ? lines : board_view_lines(view);
    for (size_t i = 0; i < lines; i++) {
        size_t line = view_line_shown(screen, view, i);
        int y = LINE_DRAWING + (int)i;
        board_view_gutter(view, line, gutter);
        paint_text(y, 0, GUTTER, gutter, STYLE_DIM);
        board_view_line(view, line, screen->scroll_across, count, cells);
        for (size_t x = 0; x < count && x < DRAWING_MOST; x++)
            put_board_cell(y, GUTTER + (int)x, &cells[x]);
    }
}
