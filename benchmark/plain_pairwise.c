/* A judge that compares each piece with all before it: what the judge of plain_judge.c, which gives the same answers,
 * is measured beside. Classes of joined pins and pieces are marked in one number for each, and the faults are read off
 * the marks. */
#include "plain.h"

/* The box of grid points that a piece covers. */
struct cover {
    uint32_t kind, left, right, low, high;
};

static inline struct cover cover_of(uint32_t v)
{
    uint32_t kind = v >> 30, line = v >> 20 & 1023, from = v >> 10 & 1023, to = v & 1023;
    bool trunk = kind == PLAIN_TRUNK, branch = kind == PLAIN_BRANCH;
    return (struct cover){
        .kind = trunk ? PLAIN_TRUNK : branch ? PLAIN_BRANCH : PLAIN_CONTACT,
        .left = trunk ? from : line,
        .right = trunk ? to : line,
        .low = trunk ? line : from,
        .high = trunk ? line : branch ? to : from,
    };
}

static inline bool covers_touch(struct cover a, struct cover b)
{
    return a.left <= b.right && b.left <= a.right && a.low <= b.high && b.low <= a.high &&
           (a.kind == b.kind || a.kind == PLAIN_CONTACT || b.kind == PLAIN_CONTACT);
}

/* Every element of class `old` among the first n joins class `new`. */
static void relabel(uint32_t *marks, size_t n, uint32_t old, uint32_t new)
{
    for (size_t i = 0; i < n; i++)
        if (marks[i] == old)
            marks[i] = new;
}

/* The new element, of mark m or 0 if it has touched none so far, touches element i of the first n: its mark then. */
static inline uint32_t join(uint32_t *marks, size_t n, size_t i, uint32_t m)
{
    if (m == 0)
        return marks[i];
    if (marks[i] != m)
        relabel(marks, n, marks[i], m);
    return m;
}

/* The mark of a new piece from the pins that it touches: only a branch touches pins, those of its column at its
 * ends. */
static uint32_t join_pins(const struct plain_rows *rows, uint32_t tracks, const struct cover *c, uint32_t *marks,
                          size_t n)
{
    uint32_t m = 0;
    if (c->kind != PLAIN_BRANCH)
        return m;
    size_t i = c->left - 1;
    if (c->high > tracks && rows->top[i] != 0)
        m = join(marks, n, i, m);
    if (c->low == 0 && rows->bot[i] != 0)
        m = join(marks, n, rows->width + i, m);
    return m;
}

static void mark_classes(const struct plain_rows *rows, uint32_t tracks, const uint32_t *words, size_t count,
                         uint32_t *marks)
{
    size_t base = 2 * rows->width;
    for (size_t i = 0; i < base; i++)
        marks[i] = (uint32_t)i + 1;
    for (size_t j = 0; j < count; j++) {
        struct cover c = cover_of(words[j]);
        uint32_t m = join_pins(rows, tracks, &c, marks, base + j);
        for (size_t i = 0; i < j; i++)
            if (covers_touch(cover_of(words[i]), c))
                m = join(marks, base + j, base + i, m);
        marks[base + j] = m != 0 ? m : (uint32_t)(base + j) + 1;
    }
}

static inline uint32_t net_at(const struct plain_rows *rows, size_t i)
{
    return i < rows->width ? rows->top[i] : rows->bot[i - rows->width];
}

/* A pin claims a place of a table for its value: it may if the place is free, which is 0, or has that value. */
static inline bool claim(uint32_t *place, uint32_t value)
{
    if (*place == 0)
        *place = value;
    return *place == value;
}

/* 0, or the first fault in rising number of the marks of all pin places and `count` pieces. */
static uint64_t find_fault(const struct plain_rows *rows, const uint32_t *marks, size_t count)
{
    size_t base = 2 * rows->width;
    uint32_t owners[2 * PLAIN_COLUMNS + PLAIN_PIECES + 1] = {0}; /* for each mark the net of its pins */
    uint32_t firsts[PLAIN_NETS] = {0};                           /* for each net the mark of its first pin */
    for (size_t i = 0; i < base; i++) {
        uint32_t net = net_at(rows, i);
        if (net != 0 && !claim(&owners[marks[i]], net))
            return plain_refused(11, i + 1);
    }
    for (size_t i = 0; i < base; i++) {
        uint32_t net = net_at(rows, i);
        if (net != 0 && !claim(&firsts[net], marks[i]))
            return plain_refused(12, i + 1);
    }
    for (size_t j = 0; j < count; j++)
        if (owners[marks[base + j]] == 0)
            return plain_refused(13, j + 1);
    return 0;
}

uint64_t plain_pairwise(const uint32_t *top, size_t top_length, const uint32_t *bot, size_t bot_length,
                        const uint8_t *board, size_t board_length, uint32_t *scratch, size_t scratch_length)
{
    struct plain_header header;
    uint64_t refusal = plain_judgeable(top, top_length, bot, bot_length, board, board_length, scratch_length, &header);
    if (refusal != 0)
        return refusal;
    struct plain_rows rows = {top, bot, top_length};
    uint32_t words[PLAIN_PIECES];
    for (size_t i = 0; i < header.count; i++)
        words[i] = plain_word(board + 4 + 4 * i);
    mark_classes(&rows, header.tracks, words, header.count, scratch);
    uint64_t fault = find_fault(&rows, scratch, header.count);
    return fault != 0 ? fault : header.tracks;
}
