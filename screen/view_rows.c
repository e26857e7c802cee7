#include "views.h"

void view_glyph(const struct screen *screen, int y, size_t x, wchar_t glyph, enum style style)
{
    if (x >= screen->scroll_across && x - screen->scroll_across < view_cells())
        paint_glyph(y, GUTTER + (int)(x - screen->scroll_across), glyph, style);
}

/* The mark that holds a cell of a row, or NULL. */
static const struct mark *mark_at(const struct mark *marks, size_t count, int row, size_t cell)
{
    for (size_t i = 0; i < count; i++)
        if (marks[i].row == row && cell >= marks[i].first && cell <= marks[i].last)
            return &marks[i];
    return NULL;
}

/* An empty list is not refused before anything is typed: it has no marks. */
static bool has_marks(const struct order *order)
{
    return order->judged.shown || !pin_text_empty(&order->pins);
}

static bool is_marked(const struct order *order, const struct marks *marks, int row, size_t cell)
{
    return has_marks(order) && mark_at(marks->at, marks->count, row, cell) != NULL;
}

static void put_cell(const struct screen *screen, int row, int y, int marks_y, size_t cell, size_t x)
{
    const struct order *order = screen->order;
    const struct row_text *text = &order->pins.rows[row];
    const struct mark *parked = mark_at(order->parked.marks, order->parked.count, row, cell);
    uint8_t byte = cell < text->length ? text->bytes[cell] : ' ';
    bool marked = is_marked(order, &order->finding.marks, row, cell);
    bool fewest = is_marked(order, &order->finding.fewest, row, cell), shows = byte >= 0x20 && byte <= 0x7E;
    enum style style = parked != NULL ? STYLE_PARKED : shows ? STYLE_PLAIN : STYLE_BAD;
    view_glyph(screen, y, x, shows ? byte : L'?', marked ? STYLE_MARK : fewest ? STYLE_FEWEST_MARK : style);
    if (fewest)
        view_glyph(screen, marks_y, x, marked ? L'F' : L'f', STYLE_FEWEST);
    else if (marked)
        view_glyph(screen, marks_y, x, row == TOP_ROW ? L'v' : L'^', STYLE_BAD);
    else if (parked != NULL && cell == parked->last)
        view_glyph(screen, marks_y, x, L'p', STYLE_PARKED);
}

/* The cells of a word that are in sight, and the space or the row's end after it, at the right edge of its column. */
static void put_word(const struct screen *screen, int row, int y, int marks_y, const struct word *word)
{
    size_t edge = screen->columns.edge[word->column], left = screen->scroll_across;
    size_t cell = word->first, x = edge - (word->end - word->first);
    if (x < left) {
        cell += left - x;
        x = left;
    }
    for (; cell <= word->end && x - left < view_cells(); cell++, x++)
        put_cell(screen, row, y, marks_y, cell, x);
}

void view_signs(const struct screen *screen, int y, size_t first, size_t last, enum style style)
{
    if (first < screen->scroll_across)
        paint_glyph(y, GUTTER - 1, L'<', style);
    if (last >= screen->scroll_across + view_cells())
        paint_glyph(y, GUTTER + (int)view_cells(), L'>', style);
}

static void put_mark_signs(const struct screen *screen, const struct mark *marks, size_t count, int row, int marks_y,
                           enum style style)
{
    const struct row_text *text = &screen->order->pins.rows[row];
    for (size_t i = 0; i < count; i++)
        if (marks[i].row == row) {
            size_t x = columns_x(&screen->columns, text, marks[i].first);
            view_signs(screen, marks_y, x, x, style);
        }
}

void view_row(const struct screen *screen, int row, int y, int marks_y)
{
    const struct order *order = screen->order;
    const struct row_text *text = &order->pins.rows[row];
    struct word word = row_word_at(text, 0);
    size_t end = screen->scroll_across + view_cells();
    paint_text(y, 0, GUTTER, row_names[row], STYLE_STRONG);
    do
        put_word(screen, row, y, marks_y, &word);
    while (screen->columns.edge[word.column] < end && row_next_word(text, &word));
    if (text->length > 0)
        view_signs(screen, y, columns_x(&screen->columns, text, 0), columns_x(&screen->columns, text, text->length - 1),
                  STYLE_DIM);
    put_mark_signs(screen, order->parked.marks, order->parked.count, row, marks_y, STYLE_PARKED);
    if (!has_marks(order))
        return;
    const struct marks *marks = &order->finding.marks, *fewest = &order->finding.fewest;
    /* over those of parked pins */
    put_mark_signs(screen, fewest->at, fewest->count, row, marks_y, STYLE_FEWEST);
    put_mark_signs(screen, marks->at, marks->count, row, marks_y, STYLE_BAD);
}

/* The number of a column at its right. Numbers of more than three digits stand over every other column. */
static void put_column(const struct screen *screen, size_t column, size_t edge, enum style style)
{
    if (column > 999 && column % 2 == 1)
        return;
    for (size_t x = edge, number = column; number > 0 && x > 0; number /= 10)
        view_glyph(screen, LINE_RULER, --x, (wchar_t)(L'0' + (int)(number % 10)), style);
}

void view_ruler(const struct screen *screen, const struct board_view *view)
{
    const struct editor *editor = &screen->editor;
    const struct columns *columns = &screen->columns;
    size_t here = row_word_at(&screen->order->pins.rows[editor->row], editor->cell).column;
    size_t end = screen->scroll_across + view_cells(), last = columns->count;
    if (view != NULL && view->width > last)
        last = view->width;
    paint_text(LINE_RULER, 0, GUTTER, "col", STYLE_DIM);
    for (size_t k = 1; k <= last && columns->edge[k - 1] < end + 2 * COLUMN_CELLS; k++)
        if (columns->edge[k] > screen->scroll_across)
            put_column(screen, k, columns->edge[k], k == here ? STYLE_BAR : STYLE_DIM);
}
