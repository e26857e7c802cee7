#include "parked.h"

#include <stdio.h>
#include <string.h>

enum { NETS = PARKED_MOST + 1 };

static void count_numbers(const struct answer *answer, uint32_t counts[NETS])
{
    memset(counts, 0, NETS * sizeof *counts);
    for (int r = 0; r < ROWS; r++)
        for (uint32_t c = 0; c < answer->width; c++)
            if (answer->rows[r][c] < NETS)
                counts[answer->rows[r][c]]++;
}

/* Notes the pins of a row whose number was counted once; in rows that have an answer the numbers stand as typed. */
static void note_row(const struct row_text *typed, const struct answer *answer, int row, const uint32_t counts[NETS],
                     struct parked *parked)
{
    struct row_numbers numbers;
    row_find_numbers(typed, &numbers);
    for (uint32_t c = 0; c < answer->width; c++) {
        uint32_t net = answer->rows[row][c];
        if (net == 0 || net >= NETS || counts[net] != 1)
            continue;
        parked->pins[row][c] = true;
        parked->marks[parked->count++] = (struct mark){row, c + 1, numbers.first[c], numbers.last[c]};
    }
}

void parked_find(const struct pin_text *pins, const struct answer *answer, struct parked *parked)
{
    uint32_t counts[NETS];
    size_t nets = 0;
    memset(parked, 0, sizeof *parked);
    if (!answer_has_rows(answer))
        return;
    count_numbers(answer, counts);
    for (int r = 0; r < ROWS; r++)
        note_row(&pins->rows[r], answer, r, counts, parked);
    for (uint32_t net = 1; net < NETS; net++)
        if (counts[net] == 1)
            parked->nets[nets++] = net;
}

void parked_words(const struct parked *parked, size_t most, char words[PARKED_WORDS])
{
    const char *plural = parked->count == 1 ? "" : "s";
    char net[16], more[32];
    words[0] = '\0';
    if (parked->count == 0)
        return;
    most = most < PARKED_WORDS ? most : PARKED_WORDS - 1;
    size_t length = (size_t)snprintf(words, PARKED_WORDS, "%zu pin%s parked: net%s", parked->count, plural, plural);
    for (size_t i = 0; i < parked->count; i++) {
        size_t left = parked->count - i - 1;
        size_t next = (size_t)snprintf(net, sizeof net, "%s%u", i == 0 ? " " : ", ", parked->nets[i]);
        size_t after = left == 0 ? 0 : (size_t)snprintf(more, sizeof more, " and %zu more", left);
        if (i > 0 && length + next + after > most) {
            snprintf(words + length, PARKED_WORDS - length, " and %zu more", left + 1);
            return;
        }
        memcpy(words + length, net, next + 1);
        length += next;
    }
}
