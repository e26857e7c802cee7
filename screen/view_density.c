#include "views.h"

#include <stdio.h>

enum { NAME_GAP = 2 };

/* The cell of a column's bar, under the last digit of its pins and over its copper. */
static size_t bar_cell(const struct screen *screen, size_t column)
{
    return screen->columns.edge[column] - 1;
}

/* The bar itself: in eighths of a cell; or a sign, in ASCII at the greatest count alone. */
static wchar_t bar_glyph(const struct draft *draft, size_t column)
{
    static const wchar_t lowest = 0x2581; /* one eighth; the next seven glyphs are each one higher */
    uint32_t eighths = draft_eighths(draft, column);
    if (eighths == 0)
        return L'.';
    return paint_has_utf8() ? lowest + (wchar_t)eighths - 1 : eighths == DRAFT_EIGHTHS ? L'#' : L' ';
}

/* The bar of a column, and before it the count, bold at the greatest. */
static void put_column(const struct screen *screen, size_t column)
{
    const struct draft *draft = &screen->order->draft;
    uint32_t count = draft->counts[column - 1];
    enum style style = count == draft->greatest ? STYLE_STRONG : STYLE_PLAIN;
    size_t x = bar_cell(screen, column);
    view_glyph(screen, LINE_DENSITY, x, bar_glyph(draft, column), count == 0 ? STYLE_DIM : STYLE_TRUNK);
    for (; count > 0 && x > 0; count /= 10)
        view_glyph(screen, LINE_DENSITY, --x, (wchar_t)(L'0' + (int)(count % 10)), style);
}

/* What the bars are, after the last of them, if there is room. */
static void put_name(const struct screen *screen)
{
    const struct draft *draft = &screen->order->draft;
    char name[DRAFT_WORDS];
    size_t end = screen->columns.edge[draft->columns], room = (size_t)paint_across();
    size_t length = (size_t)snprintf(name, sizeof name, "density %u", draft->greatest);
    if (end < screen->scroll_across || GUTTER + (end - screen->scroll_across) + NAME_GAP + length > room)
        return;
    paint_text(LINE_DENSITY, GUTTER + (int)(end - screen->scroll_across) + NAME_GAP, (int)room, name, STYLE_DIM);
}

/* Of a list without anything in its rows there is nothing to show. */
void view_density(const struct screen *screen)
{
    const struct draft *draft = &screen->order->draft;
    char words[DRAFT_WORDS];
    if (draft->wrong) {
        draft_wrong_words(draft, (size_t)paint_across(), words);
        paint_text(LINE_DENSITY, 0, paint_across(), words, STYLE_BAD);
        return;
    }
    if (draft->columns == 0)
        return;
    paint_text(LINE_DENSITY, 0, GUTTER, "dens", STYLE_DIM);
    for (size_t column = 1; column <= draft->columns; column++)
        put_column(screen, column);
    view_signs(screen, LINE_DENSITY, bar_cell(screen, 1), bar_cell(screen, draft->columns), STYLE_DIM);
    put_name(screen);
}
