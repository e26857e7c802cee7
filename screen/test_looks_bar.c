/* Makes a bar for each line of looks, ceiling and cells; prints where its filled part begins and ends, and its text. */
#include <inttypes.h>
#include <stdio.h>

#include "looks_bar.h"

int main(void)
{
    uint32_t looks, ceiling;
    size_t across;
    struct looks_bar bar;
    while (scanf("%" SCNu32 " %" SCNu32 " %zu", &looks, &ceiling, &across) == 3) {
        looks_bar(looks, ceiling, across, &bar);
        printf("%zu %zu %s\n", bar.filled, bar.filled_end, bar.text);
    }
    return 0;
}
