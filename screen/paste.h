/* paste.h: a pasted text, collected until its end comes, and what it does to the rows. */
#ifndef CABJIRT_PASTE_H
#define CABJIRT_PASTE_H

#include "editor.h"

enum { PASTE_MOST = TEXT_MOST + 64 };

struct paste {
    bool open; /* its end has not come yet */
    bool too_long;
    uint8_t bytes[PASTE_MOST];
    size_t length;
};

void paste_begin(struct paste *paste);

/* Takes a byte of the text; ends at its end, or at an Escape. */
void paste_key(struct paste *paste, int key);

/* Puts the text into the rows. How its lines end, LF, CR or CR LF, is the terminal's choice and changes no row's end; a
 * tab counts as a space. Two lines, with their labels or without, replace both rows; one with a label replaces its row;
 * one without is typed at the cursor. */
enum edit paste_into_rows(struct paste *paste, struct editor *editor, struct pin_text *pins);

/* The text up to its first line end, as a string. */
const char *paste_first_line(struct paste *paste);

#endif
