/* editor.h: the cursor in the two rows, and what keys do to them. */
#ifndef CABJIRT_EDITOR_H
#define CABJIRT_EDITOR_H

#include "parked.h"
#include "refusals.h"

struct editor {
    int row;
    size_t cell; /* at most the row's length */
};

/* NONE is a key that means nothing here. FULL: the row has no room. NO_CHARACTER: a byte that no pin list has.
 * TOO_MANY_LINES: of a pasted text. Under the last three nothing has changed. */
enum edit { EDIT_NONE, EDIT_MOVED, EDIT_CHANGED, EDIT_FULL, EDIT_NO_CHARACTER, EDIT_TOO_MANY_LINES };

enum edit editor_key(struct editor *editor, struct pin_text *pins, int key);

/* Puts the cursor into the rows again after they were replaced. */
void editor_clamp(struct editor *editor, const struct pin_text *pins);

/* Goes to the next mark after the cursor, of a refusal, a ring or a parked pin, or to the first of all. */
void editor_to_mark(struct editor *editor, const struct finding *finding, const struct parked *parked);

#endif
