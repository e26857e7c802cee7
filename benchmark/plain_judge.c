/* The judge: the elements of a board, its pin places and pieces, are joined where their ranges overlap on a column or
 * on a track, in a union-find with one number for each; and the faults are read off the classes. */
#include "plain.h"

/* A number in two halves: of an element, its parent and the next one on its line, or of a root the net of its class; of
 * a range, its element and the first place past it. */
enum { HALF = 8192, LINES = PLAIN_COLUMNS + 1 };

/* The board that is judged. */
struct judged {
    const struct plain_rows *rows;
    const uint8_t *board;
    uint32_t tracks;
};

/* The places of a line that an element covers: the line, 0 for none; the first place, and the first place past it. */
struct range {
    uint32_t line, start, past;
};

static inline uint32_t find(uint32_t *forest, uint32_t i)
{
    uint32_t up = forest[i] % HALF;
    while (up != i) {
        uint32_t higher = forest[up] % HALF;
        forest[i] = higher + forest[i] / HALF * HALF;
        i = higher;
        up = forest[i] % HALF;
    }
    return i;
}

static inline void join(uint32_t *forest, uint32_t a, uint32_t b)
{
    uint32_t x = find(forest, a), y = find(forest, b);
    if (x < y)
        forest[y] = x + forest[y] / HALF * HALF;
    else
        forest[x] = y + forest[x] / HALF * HALF;
}

static inline struct range pin_range(uint32_t net, uint32_t column, uint32_t row)
{
    return (struct range){net != 0 ? column : 0, row, row + 1};
}

/* The rows that element i covers in its column, or across, the columns on its track. */
static inline struct range range_on(const struct judged *in, bool across, size_t i)
{
    size_t width = in->rows->width, pins = width + width;
    if (across && i < pins)
        return (struct range){0, 0, 1};
    if (i < width)
        return pin_range(in->rows->top[i], (uint32_t)i + 1, in->tracks + 1);
    if (i < pins)
        return pin_range(in->rows->bot[i - width], (uint32_t)(i - width) + 1, 0);
    uint32_t v = plain_word(in->board + 4 + 4 * (i - pins));
    uint32_t kind = v >> 30, line = v >> 20 & 1023, from = v >> 10 & 1023, to = v & 1023;
    bool trunk = kind == PLAIN_TRUNK, branch = kind == PLAIN_BRANCH;
    if (across)
        return (struct range){branch ? 0 : trunk ? line : from, trunk ? from : line, (trunk ? to : line) + 1};
    return (struct range){trunk ? 0 : line, trunk ? line : from, (trunk ? line : branch ? to : from) + 1};
}

/* Of two ranges, the second of which starts at `start` and the first not later: joins them if they overlap, and answers
 * the one that reaches further. */
static inline uint32_t meet(uint32_t *forest, uint32_t first, uint32_t start, uint32_t second)
{
    if (start < first / HALF)
        join(forest, first % HALF, second % HALF);
    return first < second ? second : first;
}

/* Enters the ranges of the elements on a line, which its chain holds. */
static void enter_line(const struct judged *in, bool across, uint32_t head, uint32_t *starts, uint32_t *forest)
{
    for (uint32_t after = head; after != 0; after = forest[after - 1] / HALF) {
        struct range r = range_on(in, across, after - 1);
        starts[r.start] = meet(forest, starts[r.start], r.start, after - 1 + HALF * r.past);
    }
}

static void sweep(uint32_t *starts, size_t places, uint32_t *forest)
{
    uint32_t furthest = 0;
    for (size_t start = 0; start < places; start++) {
        uint32_t range = starts[start];
        if (range != 0) {
            starts[start] = 0;
            furthest = meet(forest, furthest, (uint32_t)start, range);
        }
    }
}

/* Joins the elements whose ranges overlap on a line; `starts` is blank, and is left so. */
static void join_on(const struct judged *in, bool across, size_t lines, size_t places, uint32_t *starts,
                    uint32_t *forest, size_t n)
{
    uint32_t heads[LINES] = {0};
    for (size_t i = 0; i < n; i++) {
        uint32_t line = range_on(in, across, i).line;
        forest[i] = forest[i] % HALF + HALF * heads[line];
        heads[line] = (uint32_t)i + 1;
    }
    for (size_t line = 1; line < lines; line++) {
        enter_line(in, across, heads[line], starts, forest);
        sweep(starts, places, forest);
    }
}

static inline uint32_t net_at(const struct plain_rows *rows, size_t i)
{
    return i < rows->width ? rows->top[i] : rows->bot[i - rows->width];
}

/* A pin claims its class for its net: it may if the class has no net yet, or that one. */
static inline bool claim_class(uint32_t *forest, size_t i, uint32_t net)
{
    uint32_t *root = &forest[forest[i] % HALF];
    if (*root / HALF == 0)
        *root += HALF * net;
    return *root / HALF == net;
}

/* The same of a place of a table. */
static inline bool claim(uint32_t *place, uint32_t value)
{
    if (*place == 0)
        *place = value;
    return *place == value;
}

/* 0, or the first fault in rising number of the n elements. `firsts`, a blank table by net, gets for each net the class
 * of its first pin, counted from 1. */
static uint64_t find_fault(const struct plain_rows *rows, uint32_t *forest, size_t n, uint32_t *firsts)
{
    size_t pins = 2 * rows->width;
    for (size_t i = 0; i < pins; i++) {
        uint32_t net = net_at(rows, i);
        if (net != 0 && !claim_class(forest, i, net))
            return plain_refused(11, i + 1);
    }
    for (size_t i = 0; i < pins; i++) {
        uint32_t net = net_at(rows, i);
        if (net != 0 && !claim(&firsts[net], forest[i] % HALF + 1))
            return plain_refused(12, i + 1);
    }
    for (size_t i = pins; i < n; i++)
        if (forest[forest[i] % HALF] / HALF == 0)
            return plain_refused(13, i - pins + 1);
    return 0;
}

uint64_t plain_judgeable(const uint32_t *top, size_t top_length, const uint32_t *bot, size_t bot_length,
                         const uint8_t *board, size_t board_length, size_t scratch_length,
                         struct plain_header *header)
{
    if (scratch_length < PLAIN_SCRATCH)
        return plain_refused(1, PLAIN_SCRATCH);
    uint64_t refusal = plain_check(top, top_length, bot, bot_length);
    if (refusal == 0)
        refusal = plain_open(board, board_length, header);
    if (refusal == 0 && header->width != top_length)
        refusal = plain_refused(10, header->width);
    return refusal;
}

uint64_t plain_judge(const uint32_t *top, size_t top_length, const uint32_t *bot, size_t bot_length,
                     const uint8_t *board, size_t board_length, uint32_t *scratch, size_t scratch_length)
{
    struct plain_header header;
    uint64_t refusal = plain_judgeable(top, top_length, bot, bot_length, board, board_length, scratch_length, &header);
    if (refusal != 0)
        return refusal;
    struct plain_rows rows = {top, bot, top_length};
    struct judged in = {&rows, board, header.tracks};
    size_t n = 2 * rows.width + header.count;
    for (size_t i = 0; i < n; i++)
        scratch[i] = (uint32_t)i;
    uint32_t table[LINES] = {0};
    join_on(&in, false, rows.width + 1, header.tracks + 2, table, scratch, n);
    join_on(&in, true, header.tracks + 1, rows.width + 1, table, scratch, n);
    for (size_t i = 0; i < n; i++)
        scratch[i] = scratch[scratch[i] % HALF] % HALF;
    uint64_t fault = find_fault(&rows, scratch, n, table);
    return fault != 0 ? fault : header.tracks;
}
