/* Routing: the fill, then the pieces straight into the board file, nets in rising number. */
#include "plain.h"

/* A board that is being drawn: where the next piece goes. */
struct pen {
    const struct plain_rows *rows;
    uint32_t t;
    uint8_t *at;
};

static inline void put_word(uint8_t *at, uint32_t v)
{
    at[0] = (uint8_t)(v >> 24);
    at[1] = (uint8_t)(v >> 16);
    at[2] = (uint8_t)(v >> 8);
    at[3] = (uint8_t)v;
}

static inline void put(struct pen *pen, uint32_t kind, uint32_t line, uint32_t from, uint32_t to)
{
    put_word(pen->at, kind << 30 | line << 20 | from << 10 | to);
    pen->at += 4;
}

/* The trunk of net n on track k from its first to its last column, then branch and contact of each pin column. */
static void draw_span(struct pen *pen, uint32_t n, uint32_t k, uint32_t first, uint32_t last)
{
    const uint32_t *tops = pen->rows->top, *bots = pen->rows->bot;
    put(pen, PLAIN_TRUNK, k, first, last);
    for (uint32_t c = first; c <= last; c++) {
        bool top = tops[c - 1] == n, bot = bots[c - 1] == n;
        if (top || bot) {
            put(pen, PLAIN_BRANCH, c, bot ? 0 : k, top ? pen->t + 1 : k);
            put(pen, PLAIN_CONTACT, c, k, k);
        }
    }
}

uint32_t plain_draw(const struct plain_rows *rows, const struct plain_spans *spans, const uint32_t tracks[PLAIN_NETS],
                    uint32_t t, uint8_t *board)
{
    struct pen pen = {rows, t, board + 4};
    uint32_t highest = plain_highest(rows);
    for (uint32_t n = 1; n <= highest; n++) {
        uint32_t first = spans->first[n], last = spans->last[n];
        if (first < last)
            draw_span(&pen, n, tracks[n], first, last);
        else if (first != 0)
            put(&pen, PLAIN_BRANCH, first, 0, t + 1);
    }
    uint32_t count = (uint32_t)(pen.at - board) / 4 - 1;
    put_word(board, (uint32_t)rows->width << 22 | t << 13 | count << 1);
    return count;
}

uint64_t plain_route(const uint32_t *top, size_t top_length, const uint32_t *bot, size_t bot_length, uint32_t *ring,
                     size_t ring_length, uint8_t *board, size_t board_length)
{
    if (ring_length < PLAIN_RING)
        return plain_refused(1, PLAIN_RING);
    if (board_length < PLAIN_BOARD)
        return plain_refused(1, PLAIN_BOARD);
    uint64_t refusal = plain_check(top, top_length, bot, bot_length);
    if (refusal != 0)
        return refusal;
    struct plain_rows whole = {top, bot, top_length};
    struct plain_copy copy;
    struct plain_rows rows = plain_leave_parked(&whole, &copy);
    struct plain_spans spans;
    uint32_t tracks[PLAIN_NETS];
    size_t looks; /* counted, and not told here */
    plain_find_spans(&rows, &spans);
    int filled = plain_fill(&rows, &spans, tracks, ring, &looks);
    if (filled < 0)
        return plain_refused(7, (size_t)-filled);
    uint64_t pieces = plain_draw(&rows, &spans, tracks, (uint32_t)filled, board);
    return pieces << 16 | (uint32_t)filled;
}
