/* history.h: the changes of the two rows, also of how their lines end, so that each can be undone and done again. */
#ifndef CABJIRT_HISTORY_H
#define CABJIRT_HISTORY_H

#include "pin_text.h"

enum {
    CHANGES_MOST = 1000,         /* older ones are forgotten, */
    CHANGE_BYTES_MOST = 16 << 20 /* and those that take more bytes than these in all */
};

struct change;

/* All zero is a history without changes. */
struct history {
    struct change *past, *future; /* the newest first; the next first */
};

/* Notes what changed. Digits typed one after another are one change. Where memory is short, all is forgotten. */
void history_note(struct history *history, const struct pin_text *before, const struct pin_text *after);

/* Each answers whether there was a change, and the place where it ended. */
bool history_undo(struct history *history, struct pin_text *pins, struct text_place *where);
bool history_redo(struct history *history, struct pin_text *pins, struct text_place *where);

void history_forget(struct history *history);

#endif
