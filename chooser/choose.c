/* choose: asks the proved entries which blank holds so many tracks, for the command, which is no C program.
 *
 *     choose stock TRACKS           the stock blank
 *     choose own TRACKS ENTRY..     the blank of a customer's own table: none, one or many entries, whatever they are
 *
 * Prints one line, as the proved programs do: BLANK and the tracks that it holds, or REFUSED with number and place. The
 * exit status is 0 for both; 2 for wrong use, or where the line can't be written. */
#include <stdbool.h>
#include <stdio.h>
#include <stdlib.h>
#include <string.h>

#include "../screen/channel.h"

enum { FAILED = 2, FIRST_ENTRY = 3 };

static int failed(const char *why, const char *word)
{
    fprintf(stderr, "choose: %s%s\n", why, word);
    return FAILED;
}

/* Reads a word as a number of 32 bits: digits alone, without a leading zero. */
static bool number_of(const char *word, uint32_t *number)
{
    uint64_t value = 0;
    if (*word == '\0' || (word[0] == '0' && word[1] != '\0'))
        return false;
    for (; *word != '\0'; word++) {
        if (*word < '0' || *word > '9')
            return false;
        value = 10 * value + (uint64_t)(*word - '0');
        if (value > UINT32_MAX)
            return false;
    }
    *number = (uint32_t)value;
    return true;
}

/* Prints an answer, down to the file: one that was not written whole is none. */
static int print(uint64_t answer)
{
    uint32_t number = cabjirt_number(answer), value = cabjirt_value(answer);
    int printed = number == 0 ? printf("BLANK %u\n", (unsigned)value)
                              : printf("REFUSED %u %u\n", (unsigned)number, (unsigned)value);
    if (printed < 0 || fflush(stdout) != 0 || fclose(stdout) != 0)
        return failed("cannot write standard output", "");
    return 0;
}

static int choose_own(uint32_t tracks, char **words, size_t count)
{
    uint32_t *table = count == 0 ? NULL : calloc(count, sizeof *table);
    if (count != 0 && table == NULL)
        return failed("there is no memory for the table", "");
    for (size_t i = 0; i < count; i++)
        if (!number_of(words[i], &table[i])) {
            free(table);
            return failed("this is no number of 32 bits: ", words[i]);
        }
    uint64_t answer = cabjirt_own_blank(table, count, tracks);
    free(table);
    return print(answer);
}

int main(int argc, char **argv)
{
    uint32_t tracks;
    bool own = argc >= FIRST_ENTRY && strcmp(argv[1], "own") == 0;
    bool stock = argc == FIRST_ENTRY && strcmp(argv[1], "stock") == 0;
    if (!own && !stock)
        return failed("usage: choose stock TRACKS, or choose own TRACKS ENTRY..", "");
    if (!number_of(argv[2], &tracks))
        return failed("this is no number of 32 bits: ", argv[2]);
    if (stock)
        return print(cabjirt_blank(tracks));
    return choose_own(tracks, argv + FIRST_ENTRY, (size_t)(argc - FIRST_ENTRY));
}
