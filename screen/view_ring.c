#include "views.h"

#include <limits.h>

enum {
    RING_X = 2,
    FEWEST_X = 40,     /* after the longest pair of the walk's ring, "net 511 above net 510 in column 512" */
    ACROSS_BESIDE = 76 /* a narrower window has no room for two rings side by side */
};

static bool stand_beside(void)
{
    return paint_across() >= ACROSS_BESIDE;
}

/* The lines of the ring with the fewest nets: a heading and its pairs; none where it is the walk's own or not known. */
static size_t fewest_lines(const struct answer *answer)
{
    char heading[WORDS_MOST];
    return fewest_words(answer, heading) ? answer->fewest.count + 1 : 0;
}

static void put_fewest(const struct answer *answer, size_t line, int y, int x)
{
    char words[WORDS_MOST];
    if (line == 0)
        fewest_words(answer, words);
    else
        ring_words(answer->fewest.ring, answer->fewest.count, (uint32_t)line - 1, words);
    paint_text(y, x, paint_across(), words, line == 0 ? STYLE_FEWEST : STYLE_PLAIN);
}

static size_t ring_lines(const struct answer *answer)
{
    size_t walk = answer->verdict.place, fewest = fewest_lines(answer);
    return !stand_beside() ? walk + fewest : fewest > walk ? fewest : walk;
}

/* A line of both rings: beside each other, or the fewest after the walk's. */
static void put_line(const struct answer *answer, size_t line, int y)
{
    char words[WORDS_MOST];
    size_t walk = answer->verdict.place, before = stand_beside() ? 0 : walk;
    if (line < walk) {
        ring_words(answer->ring, (uint32_t)walk, (uint32_t)line, words);
        paint_text(y, RING_X, paint_across(), words, STYLE_PLAIN);
    }
    if (line >= before && line - before < fewest_lines(answer))
        put_fewest(answer, line - before, y, stand_beside() ? FEWEST_X : RING_X);
}

/* The words after the rings, from line y on: that both are one, or that the fewest is not known, and what to do. Those
 * before the line `first` are not painted. Answers the line after them. */
static int put_words(const struct order *order, int first, int y, int end)
{
    char words[WORDS_MOST], remedy[MESSAGE_MOST];
    const struct answer *answer = &order->answer;
    if (!fewest_words(answer, words))
        y = paint_lines_from(first, y, end, RING_X, words, answer->fewest.whole ? STYLE_FEWEST : STYLE_BAD);
    order_remedy(order, remedy);
    return paint_lines_from(first, y + 1, end, RING_X, remedy, STYLE_PLAIN);
}

size_t view_ring_lines(const struct order *order)
{
    return ring_lines(&order->answer) + (size_t)put_words(order, INT_MAX, 0, INT_MAX);
}

void view_ring(const struct screen *screen)
{
    const struct answer *answer = &screen->order->answer;
    size_t lines = ring_lines(answer);
    int above = LINE_DRAWING - (int)screen->scroll_down, end = LINE_DRAWING + (int)view_lines();
    for (size_t line = screen->scroll_down; line < lines && above + (int)line < end; line++)
        put_line(answer, line, above + (int)line);
    put_words(screen->order, LINE_DRAWING, above + (int)lines, end);
}
