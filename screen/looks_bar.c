#include "looks_bar.h"

#include <stdio.h>
#include <string.h>

enum {
    CELLS_LEAST = 5, /* a shorter bar tells no more than the words do */
    BEFORE_CELLS = 2, AFTER_CELLS = 1 /* a space and the brackets */
};

/* Rounded down, so that the bar is full at the ceiling and not before it; but one look is seen. */
static size_t filled_cells(uint32_t looks, uint32_t ceiling, size_t cells)
{
    size_t filled = looks < ceiling ? (size_t)((uint64_t)looks * cells / ceiling) : cells;
    return looks > 0 && filled == 0 ? 1 : filled;
}

void looks_bar(uint32_t looks, uint32_t ceiling, size_t across, struct looks_bar *bar)
{
    size_t most = across < LOOKS_WORDS ? across : LOOKS_WORDS - 1;
    size_t words = (size_t)snprintf(bar->text, LOOKS_WORDS, "looks %u of at most %u", looks, ceiling);
    bar->filled = bar->filled_end = 0;
    if (words > most)
        bar->text[0] = '\0';
    if (ceiling == 0 || most < words + BEFORE_CELLS + CELLS_LEAST + AFTER_CELLS)
        return;
    size_t cells = most - words - BEFORE_CELLS - AFTER_CELLS;
    bar->filled = words + BEFORE_CELLS;
    bar->filled_end = bar->filled + filled_cells(looks, ceiling, cells);
    memcpy(bar->text + words, " [", BEFORE_CELLS);
    memset(bar->text + bar->filled, ' ', cells);
    memset(bar->text + bar->filled, '#', bar->filled_end - bar->filled);
    memcpy(bar->text + bar->filled + cells, "]", AFTER_CELLS + 1);
}
