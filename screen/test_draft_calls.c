/* Stands between the order screen and the entries of a draft: notes in the file CALLS which nets come and go, and gives
 * in place of one answer that of WRONG, "arrive 2 22 5": at the second arrival number 22, value 5. */
#include <inttypes.h>
#include <stdio.h>
#include <stdlib.h>
#include <string.h>

#include "channel.h"

#define WRAPPED(name, ...) uint64_t __real_##name(__VA_ARGS__); uint64_t __wrap_##name(__VA_ARGS__)

WRAPPED(cabjirt_draft_clear, uint64_t *words, size_t length);
WRAPPED(cabjirt_draft_arrive, uint64_t *words, size_t length, uint32_t number, uint32_t first, uint32_t last);
WRAPPED(cabjirt_draft_leave, uint64_t *words, size_t length, uint32_t number);
WRAPPED(cabjirt_draft_count, const uint64_t *words, size_t length, uint32_t column);
WRAPPED(cabjirt_draft_greatest, const uint64_t *words, size_t length);

enum { CLEAR, ARRIVE, LEAVE, COUNT, GREATEST, ENTRIES };

static const char *const names[ENTRIES] = {"clear", "arrive", "leave", "count", "greatest"};

/* Counts a call, and answers whether this is the one to answer wrong. */
static int is_wrong(int entry, uint64_t *answer)
{
    static unsigned long calls[ENTRIES];
    char name[16];
    unsigned long call;
    uint32_t number, value;
    const char *wrong = getenv("WRONG");
    calls[entry]++;
    if (wrong == NULL || sscanf(wrong, "%15s %lu %" SCNu32 " %" SCNu32, name, &call, &number, &value) != 4)
        return 0;
    *answer = (uint64_t)number << 32 | value;
    return strcmp(name, names[entry]) == 0 && call == calls[entry];
}

static void note(const char *call, uint32_t number, uint32_t first, uint32_t last)
{
    const char *path = getenv("CALLS");
    FILE *file = path == NULL ? NULL : fopen(path, "a");
    if (file == NULL)
        return;
    fprintf(file, "%s %" PRIu32 " %" PRIu32 " %" PRIu32 "\n", call, number, first, last);
    fclose(file);
}

uint64_t __wrap_cabjirt_draft_clear(uint64_t *words, size_t length)
{
    uint64_t answer;
    note("clear", 0, 0, 0);
    return is_wrong(CLEAR, &answer) ? answer : __real_cabjirt_draft_clear(words, length);
}

uint64_t __wrap_cabjirt_draft_arrive(uint64_t *words, size_t length, uint32_t number, uint32_t first, uint32_t last)
{
    uint64_t answer;
    note("arrive", number, first, last);
    return is_wrong(ARRIVE, &answer) ? answer : __real_cabjirt_draft_arrive(words, length, number, first, last);
}

uint64_t __wrap_cabjirt_draft_leave(uint64_t *words, size_t length, uint32_t number)
{
    uint64_t answer;
    note("leave", number, 0, 0);
    return is_wrong(LEAVE, &answer) ? answer : __real_cabjirt_draft_leave(words, length, number);
}

uint64_t __wrap_cabjirt_draft_count(const uint64_t *words, size_t length, uint32_t column)
{
    uint64_t answer;
    return is_wrong(COUNT, &answer) ? answer : __real_cabjirt_draft_count(words, length, column);
}

uint64_t __wrap_cabjirt_draft_greatest(const uint64_t *words, size_t length)
{
    uint64_t answer;
    return is_wrong(GREATEST, &answer) ? answer : __real_cabjirt_draft_greatest(words, length);
}
