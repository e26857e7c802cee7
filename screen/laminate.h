/* laminate.h: a customer's own laminate: a table of track counts, as a file has it. Whether a table is good is asked of
 * the library at each choice of a blank, and not known here. */
#ifndef CABJIRT_LAMINATE_H
#define CABJIRT_LAMINATE_H

#include "answer.h"
#include "files.h"

enum {
    ENTRIES_MOST = INPUT_LIMIT / 2, /* in the longest file that is read: each of one digit, with a space after it */
    STRAY_WORDS = 48
};

/* All zero is none. */
struct laminate {
    bool loaded;
    char path[PATH_LIMIT];
    size_t count;
    uint32_t entries[ENTRIES_MOST];
};

/* The offset of the first byte that does not belong in a table of numbers; `length` where all do. Numbers are parted by
 * spaces and line ends, LF or CR LF, which may also stand before the first and after the last; none has a leading
 * zero. A text without any number is a table without entries. */
size_t laminate_stray(const uint8_t *text, size_t length);

/* What stands at such an offset: "'x'", "a tab". */
void laminate_stray_words(const uint8_t *text, size_t length, size_t stray, char words[STRAY_WORDS]);

/* Takes all entries of a text of at most INPUT_LIMIT bytes that has no stray byte. A number over 4,294,967,295 is taken
 * as that: as bad an entry in the same place. */
void laminate_take(struct laminate *laminate, const char *path, const uint8_t *text, size_t length);

#endif
