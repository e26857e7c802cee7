/* The batch program with entries that get a draft wrong. The test of the comparison compiles it once with WRONG defined
 * as each of these names, on the compiler's command line; the cases drawn or made by hand have to tell each from the
 * proved entries, and so have the checks of the request's words:
 *
 *     ONE_COLUMN   leave clears the first marked column alone
 *     UNMARKED     leave stops at the first column without the mark
 *     GAP          leave stops at the first such column behind a marked one, which only words of any kind show
 *     WHOLE_WORD   leave clears all marks of the net's words
 *     OVER         a net that is here arrives again
 *     IN_SPAN      a net is looked for only in the columns where it would come
 *     AT_START     a net is looked for only in the first of those columns
 *     PARTLY       a net that is here is marked up to the first marked column before it is refused
 *     LAST_WORD    the count forgets the last word
 *     BYTE         the count has eight bits
 *     NO_ZERO      the mark of number 0 is not counted, which only words of any kind show
 *     FIRST_OFF    the greatest forgets column 1, which only words of any kind show: a net there is in column 2 too
 *     LAST_OFF     it forgets column 512, likewise
 *     EQUAL        first and last column may be the same
 *     FALLING      the last may be below the first
 *     FROM_0       columns from 0 on are taken
 *     TO_513       columns up to 513 are taken
 *     TO_511       column 512 is not
 *     CUT_COLUMN   columns are taken for their lower 16 bits
 *     NET_0        number 0 is taken
 *     NET_512      number 512 is taken
 *     NO_511       number 511 is not
 *     CUT_NUMBER   a number is taken for its lower 16 bits
 *     LATE_21      22 goes before 21
 *     FAR_LEAVE    a number over 511 that leaves is refused with 23
 *     CUT_PLACE    the place of 21 has 16 bits
 *     NO_PLACE     the place of 21 is 0
 *     COLUMN_PLACE the place of 21 is the first column
 *     FIRST_WORD   all marks are in a column's first word
 *     SHIFT_32     a mark is shifted by at most 31 bits
 *     BESIDE       a net's bit is that of the number before
 *     ACROSS       the words of a net lie side by side, not those of a column
 *     OUTSIDE      a column that is none is refused with 21
 *     BEHIND       the count of column 513 is that of the words behind
 *     NEAREST      the count of a column that is none is that of the nearest
 *     CLEAR_SHORT  clear leaves the last word
 *     CLEAR_ALL    clear clears all words that are lent
 *     ASK_WRITES   asking for the greatest changes the mark of number 0 in column 1
 *     ROOM         4,095 words are enough
 *     MORE_ROOM    4,096 words are not
 *     LATE         refusal 1 comes after 21
 *     ASKS_FREE    asks of a short draft answer 0
 *     NOTHING      nothing is wrong, so that each of the others is found for its own slip
 */
#include <stdbool.h>
#include <stddef.h>

#include "channel.h"

enum { ONE_COLUMN, UNMARKED, GAP, WHOLE_WORD, OVER, IN_SPAN, AT_START, PARTLY, LAST_WORD, BYTE, NO_ZERO, FIRST_OFF,
       LAST_OFF, EQUAL, FALLING, FROM_0, TO_513, TO_511, CUT_COLUMN, NET_0, NET_512, NO_511, CUT_NUMBER, LATE_21,
       FAR_LEAVE, CUT_PLACE, NO_PLACE, COLUMN_PLACE, FIRST_WORD, SHIFT_32, BESIDE, ACROSS, OUTSIDE, BEHIND, NEAREST,
       CLEAR_SHORT, CLEAR_ALL, ASK_WRITES, ROOM, MORE_ROOM, LATE, ASKS_FREE, NOTHING };
enum { EIGHT = CABJIRT_DRAFT / CABJIRT_ROW, COLUMNS = CABJIRT_ROW };

static uint64_t refused(uint64_t number, uint64_t place) { return number << 32 | place; }

static bool is_short(size_t length) { return length < CABJIRT_DRAFT + (size_t)(WRONG == MORE_ROOM) - (WRONG == ROOM); }

/* Refusal 21 of a number. */
static uint64_t bad(uint32_t number, uint32_t first)
{
    if (WRONG == COLUMN_PLACE)
        return refused(21, first);
    return refused(21, WRONG == NO_PLACE ? 0 : WRONG == CUT_PLACE ? (uint16_t)number : number);
}

static uint32_t number_taken(uint32_t number) { return WRONG == CUT_NUMBER ? (uint16_t)number : number; }

static bool is_net(uint32_t number)
{
    return number <= 511u + (WRONG == NET_512) - (WRONG == NO_511) && (number > 0 || WRONG == NET_0);
}

static bool is_span(uint32_t first, uint32_t last)
{
    uint32_t lowest = WRONG != FROM_0, highest = COLUMNS + (uint32_t)(WRONG == TO_513) - (WRONG == TO_511);
    if (first < lowest || last < lowest || first > highest || last > highest)
        return false;
    return WRONG == FALLING || (WRONG == EQUAL ? first <= last : first < last);
}

static size_t word_of(uint32_t number, uint32_t column)
{
    size_t word = WRONG == FIRST_WORD ? 0 : number / 64;
    return WRONG == ACROSS ? word * COLUMNS + column - 1 : (size_t)(column - 1) * EIGHT + word;
}

static uint64_t mark_of(uint32_t number)
{
    if (WRONG == BESIDE)
        return UINT64_C(1) << (number + 63) % 64;
    return UINT64_C(1) << number % (WRONG == SHIFT_32 ? 32 : 64);
}

static bool is_marked(const uint64_t *words, uint32_t number, uint32_t column)
{
    return (words[word_of(number, column)] & mark_of(number)) != 0;
}

/* The lowest column from one to another in which a net is marked, or 0. */
static uint32_t lowest_marked(const uint64_t *words, uint32_t number, uint32_t from, uint32_t to)
{
    for (uint32_t column = from; column <= to && column <= COLUMNS; column++)
        if (column > 0 && is_marked(words, number, column))
            return column;
    return 0;
}

/* Where an arriving net is marked, or 0. */
static uint32_t found_at(const uint64_t *words, uint32_t number, uint32_t first, uint32_t last)
{
    bool within = WRONG == IN_SPAN || WRONG == AT_START;
    return lowest_marked(words, number, within ? first : 1, WRONG == AT_START ? first : within ? last : COLUMNS);
}

static void mark(uint64_t *words, uint32_t number, uint32_t first, uint32_t last)
{
    for (uint32_t column = first == 0 ? 1 : first; column <= last; column++)
        words[word_of(number, column)] |= mark_of(number);
}

static uint64_t wrong_arrive(uint64_t *words, size_t length, uint32_t given, uint32_t first, uint32_t last)
{
    uint32_t number = number_taken(given), at;
    if (WRONG == CUT_COLUMN) {
        first = (uint16_t)first;
        last = (uint16_t)last;
    }
    bool good = is_net(number) && is_span(first, last);
    if (is_short(length))
        return WRONG == LATE && !good ? bad(given, first) : refused(1, CABJIRT_DRAFT);
    if (WRONG == LATE_21 && is_net(number) && lowest_marked(words, number, 1, COLUMNS))
        return refused(22, given);
    if (!good)
        return bad(given, first);
    at = found_at(words, number, first, last);
    if (at != 0 && WRONG != OVER) {
        if (WRONG == PARTLY)
            mark(words, number, first, at < last ? at : last);
        return refused(22, given);
    }
    mark(words, number, first, last);
    return 0;
}

static void unmark(uint64_t *words, uint32_t number)
{
    bool met = false;
    for (uint32_t column = 1; column <= COLUMNS; column++) {
        if (!is_marked(words, number, column)) {
            if (WRONG == UNMARKED || (WRONG == GAP && met))
                return;
            continue;
        }
        met = true;
        words[word_of(number, column)] &= WRONG == WHOLE_WORD ? 0 : ~mark_of(number);
        if (WRONG == ONE_COLUMN)
            return;
    }
}

static uint64_t wrong_leave(uint64_t *words, size_t length, uint32_t given)
{
    uint32_t number = number_taken(given);
    if (is_short(length))
        return WRONG == LATE && !is_net(number) ? bad(given, 0) : refused(1, CABJIRT_DRAFT);
    if (!is_net(number))
        return WRONG == FAR_LEAVE && number > 511 ? refused(23, given) : bad(given, 0);
    if (lowest_marked(words, number, 1, COLUMNS) == 0)
        return refused(23, given);
    unmark(words, number);
    return 0;
}

static uint64_t wrong_clear(uint64_t *words, size_t length)
{
    if (is_short(length))
        return refused(1, CABJIRT_DRAFT);
    size_t all = WRONG == CLEAR_ALL || WRONG == ROOM ? length : CABJIRT_DRAFT;
    for (size_t i = 0; i < all - (WRONG == CLEAR_SHORT); i++)
        words[i] = 0;
    return 0;
}

static uint32_t marks_in(const uint64_t *words, uint32_t column)
{
    uint32_t count = 0;
    for (size_t i = 0; i < EIGHT - (size_t)(WRONG == LAST_WORD); i++)
        for (uint32_t bit = WRONG == NO_ZERO && i == 0; bit < 64; bit++)
            count += words[(size_t)(column - 1) * EIGHT + i] >> bit & 1;
    return WRONG == BYTE ? (uint8_t)count : count;
}

static uint64_t wrong_count(const uint64_t *words, size_t length, uint32_t column)
{
    if (WRONG == CUT_COLUMN)
        column = (uint16_t)column;
    if (is_short(length))
        return WRONG == ASKS_FREE ? 0 : refused(1, CABJIRT_DRAFT);
    if (WRONG == NEAREST)
        column = column == 0 ? 1 : column > COLUMNS ? COLUMNS : column;
    if (column == 0 || column > COLUMNS + (uint32_t)(WRONG == BEHIND))
        return WRONG == OUTSIDE ? refused(21, column) : 0;
    return marks_in(words, column);
}

static uint64_t wrong_greatest(const uint64_t *words, size_t length)
{
    uint32_t most = 0;
    if (is_short(length))
        return WRONG == ASKS_FREE ? 0 : refused(1, CABJIRT_DRAFT);
    for (uint32_t column = 1 + (WRONG == FIRST_OFF); column <= COLUMNS - (uint32_t)(WRONG == LAST_OFF); column++) {
        uint32_t count = marks_in(words, column);
        most = count > most ? count : most;
    }
    if (WRONG == ASK_WRITES)
        *(uint64_t *)words ^= 1;
    return most;
}

#define cabjirt_draft_clear wrong_clear
#define cabjirt_draft_arrive wrong_arrive
#define cabjirt_draft_leave wrong_leave
#define cabjirt_draft_count wrong_count
#define cabjirt_draft_greatest wrong_greatest
#include "batch.c"
