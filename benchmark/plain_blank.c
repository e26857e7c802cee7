/* The choice of a blank from a customer's own table. */
#include "plain.h"

/* The most entries of a table, and the most tracks of an entry. */
enum { MOST_ENTRIES = 64, MOST_TRACKS = 512 };

/* The place, from 1, of the first entry that is not 1 to 512 or not above the entry before it; 0 if there is none. */
static size_t first_bad(const uint32_t *table, size_t length)
{
    uint32_t before = 0;
    for (size_t i = 0; i < length; i++) {
        if (table[i] <= before || table[i] > MOST_TRACKS)
            return i + 1;
        before = table[i];
    }
    return 0;
}

/* The place, from 0, of the first entry that holds the tracks; the length of the table if none does. */
static size_t first_that_holds(const uint32_t *table, size_t length, uint32_t tracks)
{
    size_t i = 0;
    while (i < length && table[i] < tracks)
        i++;
    return i;
}

uint64_t plain_own_blank(const uint32_t *table, size_t table_length, uint32_t tracks)
{
    if (tracks > MOST_TRACKS)
        return plain_refused(14, tracks);
    if (table_length == 0 || table_length > MOST_ENTRIES)
        return plain_refused(15, 0);
    size_t bad = first_bad(table, table_length);
    if (bad != 0)
        return plain_refused(15, bad);
    size_t i = first_that_holds(table, table_length, tracks);
    return i == table_length ? plain_refused(16, tracks) : table[i];
}
