/* looks_bar.h: how many looks the routing of a list took, beside their ceiling: in words and as a bar, all in ASCII. */
#ifndef CABJIRT_LOOKS_BAR_H
#define CABJIRT_LOOKS_BAR_H

#include <stddef.h>
#include <stdint.h>

enum { LOOKS_WORDS = 256 };

/* "looks 18 of at most 21 [#################   ]"; from `filled` up to `filled_end` the bar is filled. */
struct looks_bar {
    char text[LOOKS_WORDS];
    size_t filled, filled_end;
};

/* Makes the text in at most so many cells. It is the words alone where the ceiling is 0 or the bar has too little room,
 * and nothing where the words have: half a number would be another number. */
void looks_bar(uint32_t looks, uint32_t ceiling, size_t across, struct looks_bar *bar);

#endif
