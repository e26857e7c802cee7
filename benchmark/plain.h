/* plain.h: the channel in plain C11: the entries of screen/channel.h under other names, with the same answers.
 *
 * The algorithms, tables and loops are those of the Rattle code, so that a difference in speed is one of the language
 * and its compiler. Nothing here is proved; ./bench compares its answers with the library's before it measures. */
#ifndef PLAIN_H
#define PLAIN_H

#include <stdbool.h>
#include <stddef.h>
#include <stdint.h>

/* Nets are 1 to 511, so that a table by net number has 512 places; a row has at most 512 columns. */
enum {
    PLAIN_NETS = 512,
    PLAIN_COLUMNS = 512,
    PLAIN_RING = 1022,
    PLAIN_BOARD = 10240,
    PLAIN_SCRATCH = 5119,
    PLAIN_PIECES = 4095,
    PLAIN_DRAFT = 4096
};

uint64_t plain_read(const uint8_t *text, size_t text_length, uint32_t *top, size_t top_length, uint32_t *bot,
                    size_t bot_length);

uint64_t plain_bounds(const uint32_t *top, size_t top_length, const uint32_t *bot, size_t bot_length);

uint64_t plain_route(const uint32_t *top, size_t top_length, const uint32_t *bot, size_t bot_length, uint32_t *ring,
                     size_t ring_length, uint8_t *board, size_t board_length);

uint64_t plain_judge(const uint32_t *top, size_t top_length, const uint32_t *bot, size_t bot_length,
                     const uint8_t *board, size_t board_length, uint32_t *scratch, size_t scratch_length);

/* The same answers from a judge that compares each piece with all before it. */
uint64_t plain_pairwise(const uint32_t *top, size_t top_length, const uint32_t *bot, size_t bot_length,
                        const uint8_t *board, size_t board_length, uint32_t *scratch, size_t scratch_length);

uint64_t plain_looks(const uint32_t *top, size_t top_length, const uint32_t *bot, size_t bot_length);

uint64_t plain_ceiling(const uint32_t *top, size_t top_length, const uint32_t *bot, size_t bot_length);

uint64_t plain_fewest_ring(const uint32_t *top, size_t top_length, const uint32_t *bot, size_t bot_length,
                           uint32_t *ring, size_t ring_length);

uint64_t plain_own_blank(const uint32_t *table, size_t table_length, uint32_t tracks);

uint64_t plain_join(const uint32_t *top1, size_t top1_length, const uint32_t *bot1, size_t bot1_length,
                    const uint32_t *top2, size_t top2_length, const uint32_t *bot2, size_t bot2_length, uint32_t *top,
                    size_t top_length, uint32_t *bot, size_t bot_length);

uint64_t plain_draft_clear(uint64_t *words, size_t words_length);

uint64_t plain_draft_arrive(uint64_t *words, size_t words_length, uint32_t number, uint32_t first, uint32_t last);

uint64_t plain_draft_leave(uint64_t *words, size_t words_length, uint32_t number);

uint64_t plain_draft_count(const uint64_t *words, size_t words_length, uint32_t column);

uint64_t plain_draft_greatest(const uint64_t *words, size_t words_length);

/* What the parts of the plain version share. */

/* A refusal or fault and its place, in one number. */
static inline uint64_t plain_refused(uint32_t number, size_t place)
{
    uint64_t shown = place > UINT32_MAX ? UINT32_MAX : place;
    return (uint64_t)number << 32 | shown;
}

/* Two rows of one width that escape refusals 3 to 5. */
struct plain_rows {
    const uint32_t *top, *bot;
    size_t width;
};

/* Room for a copy of two rows. */
struct plain_copy {
    uint32_t top[PLAIN_COLUMNS], bot[PLAIN_COLUMNS];
};

/* The first and the last pin column of each net by its number; 0 where a number has no pin. */
struct plain_spans {
    uint32_t first[PLAIN_NETS], last[PLAIN_NETS];
};

/* The kinds of pieces, as the board file numbers them. */
enum { PLAIN_TRUNK, PLAIN_BRANCH, PLAIN_CONTACT };

/* What a board file's header says. */
struct plain_header {
    uint32_t width, tracks, count;
};

/* 0, or the first of refusals 3 to 5 that applies to two rows of any lengths and numbers. */
uint64_t plain_check(const uint32_t *top, size_t top_length, const uint32_t *bot, size_t bot_length);

/* Some pin is parked. */
bool plain_has_parked(const struct plain_rows *rows);

/* The rows with 0 in place of each parked pin, in the room of a copy: what the router works on, and bounds where some
 * pin is parked. */
struct plain_rows plain_leave_parked(const struct plain_rows *rows, struct plain_copy *copy);

void plain_find_spans(const struct plain_rows *rows, struct plain_spans *spans);

/* The highest number of the rows. */
uint32_t plain_highest(const struct plain_rows *rows);

/* The nets with spans, in rising number; answers how many there are. */
size_t plain_spanning(const struct plain_rows *rows, const struct plain_spans *spans, uint32_t items[PLAIN_NETS]);

/* Sorts items that rise by first column, then number; what `next` then holds is free. */
void plain_sort(uint32_t *items, size_t count, const uint32_t first[PLAIN_NETS], size_t width,
                uint16_t next[PLAIN_COLUMNS + 1]);

/* The steps of rows: for each item the lowest column in which it stands below another, for each such column the next
 * one of the same item, 0 where there is none; and for each item how many steps below it lead to unplaced ones. */
struct plain_steps {
    uint16_t head[PLAIN_NETS], next[PLAIN_COLUMNS + 1], under[PLAIN_NETS];
};

void plain_link_steps(const struct plain_rows *rows, struct plain_steps *steps);

uint32_t plain_density(const uint32_t *items, size_t count, const struct plain_spans *spans, size_t width);

/* The most items on a path down, 0 where one returns to its start. */
uint32_t plain_chain(const struct plain_rows *rows, struct plain_steps *steps, const uint32_t *items, size_t count);

/* Fills the tracks: the track of each net by its number in `tracks`, which is zeroed first, and in *looks how many
 * unplaced nets were looked at, once per track scan. Answers the number of tracks; or, where the channel is tangled,
 * minus the number of pairs put at the front of `ring`. */
int plain_fill(const struct plain_rows *rows, const struct plain_spans *spans, uint32_t tracks[PLAIN_NETS],
               uint32_t *ring, size_t *looks);

/* Draws a filled channel of t tracks into a board; answers the number of pieces. */
uint32_t plain_draw(const struct plain_rows *rows, const struct plain_spans *spans, const uint32_t tracks[PLAIN_NETS],
                    uint32_t t, uint8_t *board);

/* The 32 bits at a place of a board file, most significant first. */
static inline uint32_t plain_word(const uint8_t *at)
{
    return (uint32_t)at[0] << 24 | (uint32_t)at[1] << 16 | (uint32_t)at[2] << 8 | at[3];
}

/* Opens a board file of any bytes: 0 and its header, or refusal 8 or 9. */
uint64_t plain_open(const uint8_t *board, size_t length, struct plain_header *header);

/* What a judge is given: 0 and the header of a board that can be judged, or the first refusal that applies. */
uint64_t plain_judgeable(const uint32_t *top, size_t top_length, const uint32_t *bot, size_t bot_length,
                         const uint8_t *board, size_t board_length, size_t scratch_length,
                         struct plain_header *header);

#endif
