/* Entries that write just beside what they may: the batch program has to tell each such byte. The test of the
 * comparison links them in place of the proved ones. */
#include <stddef.h>

#include "channel.h"

/* Changes the byte at an offset that may lie outside a buffer. */
static void spoil(void *start, ptrdiff_t offset) { ((uint8_t *)start)[offset] ^= 0xFF; }

static uint64_t told(uint32_t number, uint32_t value) { return (uint64_t)number << 32 | value; }

/* One column, and the byte after BOT. */
uint64_t cabjirt_read(const uint8_t *text, size_t text_length, uint32_t *top, size_t top_length, uint32_t *bot,
                      size_t bot_length)
{
    (void)text, (void)text_length, (void)top_length;
    top[0] = bot[0] = 0;
    spoil(bot, (ptrdiff_t)(bot_length * sizeof *bot));
    return told(0, 1);
}

/* A changed row. */
uint64_t cabjirt_bounds(const uint32_t *top, size_t top_length, const uint32_t *bot, size_t bot_length)
{
    (void)bot, (void)top_length, (void)bot_length;
    spoil((uint32_t *)top, 0);
    return told(0, 0);
}

/* A ring of one pair with a third number, and the byte before the board. */
uint64_t cabjirt_route(const uint32_t *top, size_t top_length, const uint32_t *bot, size_t bot_length, uint32_t *ring,
                       size_t ring_length, uint8_t *board, size_t board_length)
{
    (void)top, (void)top_length, (void)bot, (void)bot_length, (void)ring_length, (void)board_length;
    ring[0] = 1;
    ring[1] = 2;
    spoil(ring, 8);
    spoil(board, -1);
    return told(7, 1);
}

/* The byte after scratch. */
uint64_t cabjirt_judge(const uint32_t *top, size_t top_length, const uint32_t *bot, size_t bot_length,
                       const uint8_t *board, size_t board_length, uint32_t *scratch, size_t scratch_length)
{
    (void)top, (void)top_length, (void)bot, (void)bot_length, (void)board, (void)board_length;
    spoil(scratch, (ptrdiff_t)(scratch_length * sizeof *scratch));
    return told(0, 2);
}

uint64_t cabjirt_blank(uint32_t tracks) { return told(14, tracks); }

/* A changed BOT. */
uint64_t cabjirt_looks(const uint32_t *top, size_t top_length, const uint32_t *bot, size_t bot_length)
{
    (void)top, (void)top_length;
    spoil((uint32_t *)bot, (ptrdiff_t)(bot_length * sizeof *bot) - 1);
    return told(0, 1);
}

/* A changed TOP. */
uint64_t cabjirt_ceiling(const uint32_t *top, size_t top_length, const uint32_t *bot, size_t bot_length)
{
    (void)bot, (void)bot_length;
    spoil((uint32_t *)top, (ptrdiff_t)(top_length * sizeof *top) - 1);
    return told(0, 3);
}

/* A ring of one pair with a third number. */
uint64_t cabjirt_fewest_ring(const uint32_t *top, size_t top_length, const uint32_t *bot, size_t bot_length,
                             uint32_t *ring, size_t ring_length)
{
    (void)top, (void)top_length, (void)bot, (void)bot_length, (void)ring_length;
    ring[0] = 3;
    ring[1] = 4;
    spoil(ring, 8);
    return told(0, 1);
}

/* One column, the number behind it in TOP, and the last byte of the second list's BOT. */
uint64_t cabjirt_join(const uint32_t *top1, size_t top1_length, const uint32_t *bot1, size_t bot1_length,
                      const uint32_t *top2, size_t top2_length, const uint32_t *bot2, size_t bot2_length,
                      uint32_t *top, size_t top_length, uint32_t *bot, size_t bot_length)
{
    (void)top1, (void)top1_length, (void)bot1, (void)bot1_length, (void)top2, (void)top2_length, (void)top_length;
    (void)bot_length;
    top[0] = bot[0] = 5;
    spoil(top, 4);
    spoil((uint32_t *)bot2, (ptrdiff_t)(bot2_length * sizeof *bot2) - 1);
    return told(0, 1);
}

/* A changed table. */
uint64_t cabjirt_own_blank(const uint32_t *table, size_t table_length, uint32_t tracks)
{
    spoil((uint32_t *)table, (ptrdiff_t)(table_length * sizeof *table) - 1);
    return told(16, tracks);
}

/* A draft cleared by the byte after its words. */
uint64_t cabjirt_draft_clear(uint64_t *words, size_t words_length)
{
    spoil(words, (ptrdiff_t)(words_length * sizeof *words));
    return told(0, 0);
}

/* Two words of one column and one of the next. */
uint64_t cabjirt_draft_arrive(uint64_t *words, size_t words_length, uint32_t number, uint32_t first, uint32_t last)
{
    (void)words_length, (void)first, (void)last;
    words[0] = words[1] = words[8] = 255;
    return told(0, number);
}

/* A changed word under a refusal. */
uint64_t cabjirt_draft_leave(uint64_t *words, size_t words_length, uint32_t number)
{
    spoil(words, (ptrdiff_t)(words_length * sizeof *words) - 1);
    return told(23, number);
}

/* A changed draft. */
uint64_t cabjirt_draft_count(const uint64_t *words, size_t words_length, uint32_t column)
{
    (void)words_length;
    spoil((uint64_t *)words, 0);
    return told(0, column);
}

/* The same. */
uint64_t cabjirt_draft_greatest(const uint64_t *words, size_t words_length)
{
    (void)words_length;
    spoil((uint64_t *)words, 8);
    return told(0, 1);
}
