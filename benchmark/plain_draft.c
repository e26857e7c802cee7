/* A draft: eight words of marks for each column, a bit for each net. A net is on the draft where some column has its
 * mark, so that arriving and leaving look at one word of each column. Where a net has no mark, taking its marks off
 * changes nothing. */
#include "plain.h"

enum { EIGHT = PLAIN_DRAFT / PLAIN_COLUMNS };

static bool is_net(uint32_t number)
{
    return 1 <= number && number < PLAIN_NETS;
}

static bool is_marked(const uint64_t *words, uint32_t number)
{
    uint64_t mark = UINT64_C(1) << number % 64;
    for (size_t i = number / 64; i < PLAIN_DRAFT; i += EIGHT)
        if (words[i] & mark)
            return true;
    return false;
}

/* The bits that are set in a word: in twos, fours and bytes side by side, whose sum comes out on top. */
static uint32_t bits_of(uint64_t word)
{
    word -= word >> 1 & UINT64_C(0x5555555555555555);
    word = (word & UINT64_C(0x3333333333333333)) + (word >> 2 & UINT64_C(0x3333333333333333));
    word = (word + (word >> 4)) & UINT64_C(0x0F0F0F0F0F0F0F0F);
    return (uint32_t)(word * UINT64_C(0x0101010101010101) >> 56);
}

static uint32_t count_of(const uint64_t *column)
{
    uint32_t count = 0;
    for (size_t i = 0; i < EIGHT; i++)
        count += bits_of(column[i]);
    return count;
}

uint64_t plain_draft_clear(uint64_t *words, size_t words_length)
{
    if (words_length < PLAIN_DRAFT)
        return plain_refused(1, PLAIN_DRAFT);
    for (size_t i = 0; i < PLAIN_DRAFT; i++)
        words[i] = 0;
    return 0;
}

uint64_t plain_draft_arrive(uint64_t *words, size_t words_length, uint32_t number, uint32_t first, uint32_t last)
{
    if (words_length < PLAIN_DRAFT)
        return plain_refused(1, PLAIN_DRAFT);
    if (!is_net(number) || first < 1 || last <= first || PLAIN_COLUMNS < last)
        return plain_refused(21, number);
    if (is_marked(words, number))
        return plain_refused(22, number);
    for (size_t column = first - 1; column < last; column++)
        words[column * EIGHT + number / 64] |= UINT64_C(1) << number % 64;
    return 0;
}

uint64_t plain_draft_leave(uint64_t *words, size_t words_length, uint32_t number)
{
    if (words_length < PLAIN_DRAFT)
        return plain_refused(1, PLAIN_DRAFT);
    if (!is_net(number))
        return plain_refused(21, number);
    uint64_t mark = UINT64_C(1) << number % 64, found = 0;
    for (size_t i = number / 64; i < PLAIN_DRAFT; i += EIGHT) {
        found |= words[i] & mark;
        words[i] &= ~mark;
    }
    return found != 0 ? 0 : plain_refused(23, number);
}

uint64_t plain_draft_count(const uint64_t *words, size_t words_length, uint32_t column)
{
    if (words_length < PLAIN_DRAFT)
        return plain_refused(1, PLAIN_DRAFT);
    return 1 <= column && column <= PLAIN_COLUMNS ? count_of(words + (size_t)(column - 1) * EIGHT) : 0;
}

uint64_t plain_draft_greatest(const uint64_t *words, size_t words_length)
{
    uint32_t greatest = 0;
    if (words_length < PLAIN_DRAFT)
        return plain_refused(1, PLAIN_DRAFT);
    for (size_t i = 0; i < PLAIN_DRAFT; i += EIGHT) {
        uint32_t count = count_of(words + i);
        if (greatest < count)
            greatest = count;
    }
    return greatest;
}
