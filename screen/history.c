#include "history.h"

#include <stdlib.h>
#include <string.h>

/* In one row, from a cell on, old bytes that gave way to new ones; and how its line ended, and ends. */
struct patch {
    size_t at, old_length, new_length;
    bool old_returns, new_returns;
};

struct change {
    struct change *next; /* the older one in the past, the later one in the future */
    struct patch patches[ROWS];
    size_t size;
    uint8_t bytes[]; /* of each row the old and the new bytes */
};

static size_t size_of(const struct patch patches[ROWS])
{
    size_t size = 0;
    for (int r = 0; r < ROWS; r++)
        size += patches[r].old_length + patches[r].new_length;
    return size;
}

static void forget_all(struct change **changes)
{
    while (*changes != NULL) {
        struct change *next = (*changes)->next;
        free(*changes);
        *changes = next;
    }
}

void history_forget(struct history *history)
{
    forget_all(&history->past);
    forget_all(&history->future);
}

static bool changes_end(const struct patch *patch)
{
    return patch->old_returns != patch->new_returns;
}

static bool changes_row(const struct patch *patch)
{
    return patch->old_length + patch->new_length > 0 || changes_end(patch);
}

/* The least patch: what two rows share at both ends stays out. */
static struct patch patch_of(const struct row_text *before, const struct row_text *after)
{
    size_t shorter = before->length < after->length ? before->length : after->length, start = 0, end = 0;
    while (start < shorter && before->bytes[start] == after->bytes[start])
        start++;
    while (end < shorter - start && before->bytes[before->length - 1 - end] == after->bytes[after->length - 1 - end])
        end++;
    return (struct patch){start, before->length - start - end, after->length - start - end, before->returns,
                          after->returns};
}

/* Whether a change is nothing but bytes put into one row. */
static bool only_types(const struct change *change, int row)
{
    const struct patch *patches = change->patches;
    return change->size > 0 && change->size == patches[row].new_length && !changes_end(&patches[TOP_ROW]) &&
           !changes_end(&patches[BOT_ROW]);
}

/* Adds a digit to the change before it if that only typed, and ends just there. Answers whether it did. */
static bool join(struct history *history, const struct change *digit, int row)
{
    struct change *last = history->past;
    if (last == NULL || !only_types(last, row) || !only_types(digit, row) || digit->size > 1 || digit->bytes[0] == ' ')
        return false;
    const struct patch *typed = &last->patches[row];
    if (typed->at + typed->new_length != digit->patches[row].at)
        return false;
    struct change *longer = realloc(last, sizeof *last + last->size + 1);
    if (longer == NULL)
        return false;
    longer->bytes[longer->size++] = digit->bytes[0];
    longer->patches[row].new_length++;
    history->past = longer;
    return true;
}

/* Keeps the past within its limits. */
static void cut_past(struct history *history)
{
    struct change **link = &history->past;
    size_t bytes = 0;
    for (int n = 0; *link != NULL && n < CHANGES_MOST; n++) {
        bytes += (*link)->size;
        if (bytes > CHANGE_BYTES_MOST)
            break;
        link = &(*link)->next;
    }
    forget_all(link);
}

static struct change *change_of(const struct pin_text *before, const struct pin_text *after)
{
    struct patch patches[ROWS];
    for (int r = 0; r < ROWS; r++)
        patches[r] = patch_of(&before->rows[r], &after->rows[r]);
    struct change *change = malloc(sizeof *change + size_of(patches));
    if (change == NULL)
        return NULL;
    change->size = 0;
    for (int r = 0; r < ROWS; r++) {
        const struct patch *patch = &patches[r];
        change->patches[r] = *patch;
        memcpy(change->bytes + change->size, before->rows[r].bytes + patch->at, patch->old_length);
        change->size += patch->old_length;
        memcpy(change->bytes + change->size, after->rows[r].bytes + patch->at, patch->new_length);
        change->size += patch->new_length;
    }
    return change;
}

void history_note(struct history *history, const struct pin_text *before, const struct pin_text *after)
{
    if (pin_text_same(before, after))
        return;
    struct change *change = change_of(before, after);
    if (change == NULL) {
        history_forget(history);
        return;
    }
    forget_all(&history->future);
    if (join(history, change, TOP_ROW) || join(history, change, BOT_ROW)) {
        free(change);
        return;
    }
    change->next = history->past;
    history->past = change;
    cut_past(history);
}

/* Puts bytes in the place of those from a cell on. What a row held before fits into it again. */
static void swap_bytes(struct row_text *row, size_t at, size_t gone, const uint8_t *bytes, size_t length)
{
    size_t rest = row->length - at - gone;
    memmove(row->bytes + at + length, row->bytes + at + gone, rest);
    memcpy(row->bytes + at, bytes, length);
    row->length = at + length + rest;
}

/* Applies a change, forwards or backwards; answers the end of what changed. */
static struct text_place apply(const struct change *change, struct pin_text *pins, bool forwards)
{
    struct text_place where = {TOP_ROW, 0};
    const uint8_t *bytes = change->bytes;
    for (int r = ROWS - 1; r >= 0; r--)
        if (changes_row(&change->patches[r]))
            where.row = r;
    for (int r = 0; r < ROWS; r++) {
        const struct patch *patch = &change->patches[r];
        const uint8_t *old_bytes = bytes, *new_bytes = bytes + patch->old_length;
        size_t gone = forwards ? patch->old_length : patch->new_length;
        size_t length = forwards ? patch->new_length : patch->old_length;
        swap_bytes(&pins->rows[r], patch->at, gone, forwards ? new_bytes : old_bytes, length);
        pins->rows[r].returns = forwards ? patch->new_returns : patch->old_returns;
        if (r == where.row)
            where.cell = patch->at + length;
        bytes = new_bytes + patch->new_length;
    }
    return where;
}

/* Takes the first change of one list to the other. */
static struct change *carry(struct change **from, struct change **to)
{
    struct change *change = *from;
    *from = change->next;
    change->next = *to;
    *to = change;
    return change;
}

bool history_undo(struct history *history, struct pin_text *pins, struct text_place *where)
{
    if (history->past == NULL)
        return false;
    *where = apply(carry(&history->past, &history->future), pins, false);
    return true;
}

bool history_redo(struct history *history, struct pin_text *pins, struct text_place *where)
{
    if (history->future == NULL)
        return false;
    *where = apply(carry(&history->future, &history->past), pins, true);
    return true;
}
