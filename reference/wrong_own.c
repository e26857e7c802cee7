/* The batch program with an entry that gets a customer's own blanks wrong. The test of the comparison compiles it once
 * with WRONG defined as each of these names, on the compiler's command line; the cases drawn or made by hand have to
 * tell each from the proved entry, and so have the checks of the request's words:
 *
 *     EQUAL      an entry may be equal to the one before
 *     FALLING    an entry may be below the one before
 *     ZERO       an entry 0 is taken
 *     HIGH       an entry 513 is taken
 *     CUT        an entry is taken for its lower 16 bits
 *     CUT_TRACKS the tracks are taken for their lower 16 bits
 *     LONG       a table of 65 entries is taken
 *     SHORT      a table of 64 entries is not
 *     NONE       a table without entries is refused at place 1
 *     FROM_0     the place of a bad entry counts from 0
 *     LATER      the place is the last bad entry
 *     LARGEST    the last entry that holds the tracks is chosen
 *     ABOVE      an entry does not hold as many tracks as its number
 *     BAD_FIRST  15 goes before 14
 *     BARE_FIRST 16 goes before 15
 *     LAST       the place of 16 is the last entry
 *     NO_TRACKS  a table that is asked for 0 tracks is not checked
 *     NOTHING    nothing is wrong, so that each of the others is found for its own slip
 */
#include <stdbool.h>
#include <stddef.h>

#include "channel.h"

enum { EQUAL, FALLING, ZERO, HIGH, CUT, CUT_TRACKS, LONG, SHORT, NONE, FROM_0, LATER, LARGEST, ABOVE, BAD_FIRST,
       BARE_FIRST, LAST, NO_TRACKS, NOTHING };

static uint64_t refused(uint64_t number, uint64_t place) { return number << 32 | place; }

static uint32_t entry_at(const uint32_t *table, size_t i) { return WRONG == CUT ? (uint16_t)table[i] : table[i]; }

static bool is_bad(const uint32_t *table, size_t i)
{
    uint32_t entry = entry_at(table, i), before = i == 0 ? 0 : entry_at(table, i - 1);
    if ((entry == 0 && WRONG != ZERO) || entry > (WRONG == HIGH ? 513 : 512))
        return true;
    if (i == 0 || WRONG == FALLING)
        return false;
    return WRONG == EQUAL ? entry < before : entry <= before;
}

/* 0 if a table passes, else refusal 15. */
static uint64_t check(const uint32_t *table, size_t length, uint32_t tracks)
{
    uint64_t bad = 0;
    if (length == 0 || length > 64 + (WRONG == LONG) - (WRONG == SHORT))
        return refused(15, WRONG == NONE && length == 0);
    if (WRONG == NO_TRACKS && tracks == 0)
        return 0;
    for (size_t i = 0; i < length; i++)
        if (is_bad(table, i) && (bad == 0 || WRONG == LATER))
            bad = refused(15, i + (WRONG != FROM_0));
    return bad;
}

/* The entry chosen, or refusal 16. */
static uint64_t choose(const uint32_t *table, size_t length, uint32_t tracks)
{
    uint64_t chosen = refused(16, WRONG == LAST && length > 0 ? table[length - 1] : tracks);
    for (size_t i = length; i > 0; i--) {
        uint32_t entry = entry_at(table, i - 1);
        if ((WRONG == ABOVE ? entry > tracks : entry >= tracks) && (WRONG != LARGEST || chosen >> 32))
            chosen = entry;
    }
    return chosen;
}

static uint64_t wrong_own_blank(const uint32_t *table, size_t length, uint32_t asked)
{
    uint32_t tracks = WRONG == CUT_TRACKS ? (uint16_t)asked : asked;
    uint64_t bad = check(table, length, tracks), chosen = choose(table, length, tracks);
    if (WRONG == BAD_FIRST && bad != 0)
        return bad;
    if (tracks > 512)
        return refused(14, tracks);
    if (WRONG == BARE_FIRST && chosen >> 32)
        return chosen;
    return bad != 0 ? bad : chosen;
}

#define cabjirt_own_blank wrong_own_blank
#include "batch.c"
