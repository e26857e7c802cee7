#include "screen_view.h"

#include <ncurses.h>

#include "keys.h"
#include "views.h"

bool screen_fits(void)
{
    return paint_rows() >= ROWS_LEAST && paint_across() >= ACROSS_LEAST;
}

/* The cell of rows and drawing that the cursor stands in. */
static size_t cursor_x(const struct screen *screen)
{
    const struct editor *editor = &screen->editor;
    return columns_x(&screen->columns, &screen->order->pins.rows[editor->row], editor->cell);
}

bool screen_shows_cursor(const struct screen *screen)
{
    size_t x = cursor_x(screen);
    return x >= screen->scroll_across && x - screen->scroll_across < view_cells();
}

static void cut_scrolls(struct screen *screen, const struct board_view *view)
{
    bool ring = order_verdict(screen->order)->number == 7;
    size_t words = ring ? view_ring_lines(screen->order) : 0;
    size_t whole = view != NULL ? board_view_lines(view) : words;
    screen->scroll_across = view_cut(screen->scroll_across, view_whole(screen, view), view_cells());
    screen->scroll_across = screen->scroll_across / COLUMN_CELLS * COLUMN_CELLS;
    screen->scroll_down = view_cut(screen->scroll_down, whole, view_lines());
}

/* The place below the rows: the board, the rings of a tangled list, or words. */
static void paint_below(const struct screen *screen, const struct board_view *view)
{
    const struct order *order = screen->order;
    if (screen->prompt.choices[0] != '\0')
        view_choices(screen);
    else if (view != NULL)
        view_drawing(screen, view);
    else if (!order->judged.shown && order->answer.verdict.number == 7)
        view_ring(screen);
    else
        view_hints(screen);
}

static void put_cursor(const struct screen *screen, int asked)
{
    bool asks = screen->prompt.kind != PROMPT_NONE;
    curs_set(asks || screen_shows_cursor(screen));
    if (asks)
        move(paint_rows() - BOTTOM_LINES, asked < paint_across() ? asked : paint_across() - 1);
    else if (screen_shows_cursor(screen))
        move(screen->editor.row == TOP_ROW ? LINE_TOP : LINE_BOT,
             GUTTER + (int)(cursor_x(screen) - screen->scroll_across));
}

static void paint_order(struct screen *screen)
{
    struct board_view board;
    const struct board_view *view = view_board_of(screen, &board) ? &board : NULL;
    cut_scrolls(screen, view);
    view_title(screen, view);
    view_verdict(screen, view);
    view_ruler(screen, view);
    view_row(screen, TOP_ROW, LINE_TOP, LINE_TOP_MARKS);
    view_row(screen, BOT_ROW, LINE_BOT, LINE_BOT_MARKS);
    view_density(screen);
    paint_below(screen, view);
    view_keys();
    put_cursor(screen, view_message(screen));
}

void screen_paint(struct screen *screen)
{
    erase();
    if (screen_fits() && !screen->helps) {
        paint_order(screen);
    } else {
        curs_set(0);
        if (screen->helps && screen_fits())
            screen->help_next = view_help(screen->help_page);
        else
            view_too_small(screen);
    }
    refresh();
}

/* Scrolls across until cells first to last are shown, as far as they fit. */
static void bring_in(struct screen *screen, size_t first, size_t last)
{
    size_t shown = view_cells();
    if (last >= screen->scroll_across + shown)
        screen->scroll_across = (last - shown) / COLUMN_CELLS * COLUMN_CELLS + COLUMN_CELLS;
    if (first < screen->scroll_across)
        screen->scroll_across = first / COLUMN_CELLS * COLUMN_CELLS;
}

void screen_follow_cursor(struct screen *screen)
{
    size_t x = cursor_x(screen);
    if (screen_fits())
        bring_in(screen, x, x);
}

void screen_follow_fault(struct screen *screen)
{
    struct board_view view;
    size_t line = 0, column = 0, shown = view_lines();
    screen->scroll_down = screen->scroll_across = 0;
    if (!view_board_of(screen, &view) || !screen_fits())
        return;
    if (view.marked_position != 0)
        column = (view.marked_position - 1) % view.width + 1;
    else if (view.marked_piece != 0)
        board_view_piece_place(&view, view.marked_piece, &line, &column);
    if (column >= 1 && column <= view.width) {
        size_t copper = board_view_cell_of(&view, column);
        bring_in(screen, copper + 1 - COLUMN_CELLS, copper);
    }
    screen->scroll_down = line > shown / 2 ? line - shown / 2 : 0;
}

void screen_scroll(struct screen *screen, int key)
{
    size_t page = view_lines() > 4 ? view_lines() - 4 : 1;
    size_t side = view_cells() / 2 / COLUMN_CELLS * COLUMN_CELLS + COLUMN_CELLS;
    size_t *down = &screen->scroll_down, *across = &screen->scroll_across;
    switch (key) {
    case K_PAGE_UP: *down -= *down < page ? *down : page; break;
    case K_PAGE_DOWN: *down += page; break;
    case K_SCROLL_UP: *down -= *down > 0; break;
    case K_SCROLL_DOWN: *down += 1; break;
    case K_SCROLL_LEFT: *across -= *across < side ? *across : side; break;
    case K_SCROLL_RIGHT: *across += side; break;
    default: break;
    }
}
