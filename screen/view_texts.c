#include "views.h"

#include <stdio.h>
#include <string.h>

#include "screen_view.h"

/* The keys in the bottom line: as many as fit. */
void view_keys(void)
{
    static const char *const keys[] = {
        "F1 help", "^Q quit", "^O load", "^S save board", "^W save list", "^G judge", "F5 undo", "F6 redo",
        "F8 turn over", "F9 laminate",
    };
    int y = paint_rows() - 1, x = 1;
    paint_bar(y, STYLE_BAR);
    for (size_t i = 0; i < sizeof keys / sizeof *keys; i++)
        if (x + (int)strlen(keys[i]) < paint_across())
            x = paint_text(y, x, paint_across(), keys[i], STYLE_BAR) + 2;
}

/* The tracks in sight, where not all lines of the board are: between the pins, or with them where these scroll too. */
static void tracks_words(const struct screen *screen, const struct board_view *view, char words[WORDS_MOST])
{
    size_t lines = view_lines(), pins = lines > 2 ? 1 : 0;
    words[0] = '\0';
    if (lines >= board_view_lines(view) || view->tracks == 0)
        return;
    size_t high = view->tracks + 1 - (view_line_shown(screen, view, pins) + 1) / 2;
    size_t low = view->tracks + 1 - view_line_shown(screen, view, lines - 1 - pins) / 2;
    high = high < view->tracks ? high : view->tracks;
    low = low > 1 ? low : 1;
    if (high > low)
        snprintf(words, WORDS_MOST, ", tracks %zu to %zu of %u", high, low, view->tracks);
    else if (high == low)
        snprintf(words, WORDS_MOST, ", track %zu of %u", high, view->tracks);
    else
        snprintf(words, WORDS_MOST, ", no track of %u", view->tracks);
}

/* Where only part of the board is in sight, which: at the right of the title, or in its place. */
static void put_part(const struct screen *screen, const struct board_view *view, int title_end)
{
    char text[2 * WORDS_MOST], tracks[WORDS_MOST];
    size_t cells = view_cells();
    if (cells >= board_view_cells(view) && view_lines() >= board_view_lines(view))
        return;
    size_t left = board_view_column_at(view, screen->scroll_across);
    size_t right = board_view_column_at(view, screen->scroll_across + cells - 1);
    tracks_words(screen, view, tracks);
    int length = snprintf(text, sizeof text, "  columns %zu to %zu of %u%s ", left, right, view->width, tracks);
    int x = paint_across() - length;
    if (x < title_end)
        paint_bar(LINE_TITLE, STYLE_BAR);
    paint_text(LINE_TITLE, x > 0 ? x : 0, paint_across(), text, STYLE_BAR);
}

void view_title(const struct screen *screen, const struct board_view *view)
{
    paint_bar(LINE_TITLE, STYLE_BAR);
    int x = paint_text(LINE_TITLE, 0, paint_across(), " Cabjirt order screen", STYLE_BAR);
    if (order_is_unsaved(screen->order))
        x = paint_text(LINE_TITLE, x, paint_across(), ": list not saved", STYLE_BAR);
    if (view != NULL)
        put_part(screen, view, x);
}

/* The marked piece of a board that is judged and faulty, and what to do. Answers the line after it. */
static int put_fault(const struct order *order, const struct board_view *view, int y)
{
    char text[MESSAGE_MOST], words[PIECE_WORDS];
    board_view_piece_words(view, view->marked_piece, words);
    y = paint_lines(y, LINE_RULER, 0, words, STYLE_PLAIN);
    order_remedy(order, text);
    return paint_lines(y, LINE_RULER, 0, text, STYLE_PLAIN);
}

/* Why a laminate is refused, and what to do; then its name, cut at the window's edge: as far as there are lines.
 * Answers the line after it. */
static int put_own(const struct order *order, int y, int end)
{
    char text[MESSAGE_MOST], remedy[MESSAGE_MOST];
    if (order_own_refusal(order, text, remedy)) {
        y = paint_lines(y, end, 0, text, STYLE_BAD);
        y = paint_lines(y, end, 0, remedy, STYLE_PLAIN);
    }
    if (y < end && order_own_name(order, text))
        paint_text(y++, 0, paint_across(), text, STYLE_PLAIN);
    return y;
}

/* The verdict, broken between words, the laminate, and the parked pins, for which a line is kept; but a fault is told
 * first. An empty list is greeted and not refused. */
void view_verdict(const struct screen *screen, const struct board_view *view)
{
    char text[MESSAGE_MOST], parked[PARKED_WORDS];
    const struct order *order = screen->order;
    bool refused = order_verdict(order)->refused, faulty = refused && order->judged.shown;
    if (pin_text_empty(&order->pins) && !order->judged.shown) {
        paint_lines(LINE_VERDICT, LINE_RULER, 0,
                    "Type the TOP row's net numbers, Tab, then the BOT row's. F1 shows all keys.",
                    STYLE_STRONG);
        return;
    }
    int end = order->parked.count > 0 && !faulty ? LINE_RULER - 1 : LINE_RULER;
    order_summary(order, text);
    int y = paint_lines(LINE_VERDICT, end, 0, text, refused ? STYLE_BAD : STYLE_GOOD);
    if (faulty && view != NULL)
        y = put_fault(order, view, y);
    y = put_own(order, y, end);
    parked_words(&order->parked, (size_t)paint_across(), parked);
    paint_lines(y, LINE_RULER, 0, parked, STYLE_PARKED);
}

/* What to do about a refusal; and what a pin list is, while it has no board. */
void view_hints(const struct screen *screen)
{
    static const char *const hints[] = {
        "A pin list has two rows of the same length, of up to 512 columns.",
        "Each number is the net of a pin, 1 to 511, or 0 where there is no pin.",
        "A space parts two numbers; more of them pad a number into its column.",
        "A number that stands just once parks its pin, which gets no copper.",
    };
    char text[MESSAGE_MOST];
    const struct order *order = screen->order;
    int y = LINE_DRAWING, end = LINE_DRAWING + (int)view_lines();
    if (order->judged.shown || !pin_text_empty(&order->pins)) {
        order_remedy(order, text);
        y = paint_lines(y, end, 2, text, STYLE_PLAIN) + 1;
    }
    for (size_t i = 0; i < sizeof hints / sizeof *hints && !order->judged.shown; i++)
        y = paint_lines(y, end, 2, hints[i], STYLE_DIM);
}

void view_choices(const struct screen *screen)
{
    paint_lines(LINE_DRAWING, LINE_DRAWING + (int)view_lines(), 2, screen->prompt.choices, STYLE_PLAIN);
}

/* The bar of looks, from cell x on. The filled part is bold; where a terminal shows none, its signs tell it from the
 * rest. */
static void put_looks(const struct order *order, int y, int x)
{
    struct looks_bar bar;
    int across = paint_across();
    order_looks(order, x < across ? (size_t)(across - x) : 0, &bar);
    paint_text(y, x, across, bar.text, STYLE_PLAIN);
    for (size_t i = bar.filled; i < bar.filled_end; i++)
        paint_glyph(y, x + (int)i, (wchar_t)bar.text[i], STYLE_STRONG);
}

int view_message(const struct screen *screen)
{
    const struct prompt *prompt = &screen->prompt;
    const struct order *order = screen->order;
    int y = paint_rows() - BOTTOM_LINES, across = paint_across();
    if (prompt->kind == PROMPT_NONE) {
        int end = paint_text(y, 0, across, order->message, screen->message_is_bad ? STYLE_BAD : STYLE_PLAIN);
        put_looks(order, y, end > 0 ? end + 2 : 0);
        return 0;
    }
    int x = paint_text(y, 0, across, prompt_question(prompt), STYLE_STRONG);
    if (!prompt_wants_name(prompt))
        return x;
    const char *name = prompt->text;
    size_t room = across > x + 1 ? (size_t)(across - x - 1) : 0;
    if (prompt->length > room) /* of a long name its end is shown, from a whole character on */
        name += prompt->length - room;
    while (((unsigned char)*name & 0xC0) == 0x80)
        name++;
    return paint_text(y, x, across, name, STYLE_PLAIN);
}

void view_too_small(const struct screen *screen)
{
    char text[120];
    snprintf(text, sizeof text, "Too small a window: %d by %d cells are needed, here are %d by %d.", ACROSS_LEAST,
             ROWS_LEAST, paint_across(), paint_rows());
    int y = paint_lines(0, paint_rows(), 0, text, STYLE_STRONG);
    if (screen->prompt.kind == PROMPT_DISCARD_AND_QUIT)
        paint_lines(y, paint_rows(), 0, prompt_question(&screen->prompt), STYLE_STRONG);
}
