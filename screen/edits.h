/* edits.h: what the full screen does to the rows, and what follows from it: history, answer, message, scrolling. */
#ifndef CABJIRT_EDITS_H
#define CABJIRT_EDITS_H

#include "screen.h"

/* What comes of an edit; `before` has the rows as they were. */
void edit_done(struct screen *screen, enum edit edit);

/* Answers the list if it was edited. Done before anything asks for the answer: keys typed ahead cost one answer. */
void edit_settle(struct screen *screen);

/* The end of a pasted text: it goes into the rows, or into a file name. */
void edit_paste(struct screen *screen);

/* Undoes, or does again. */
void edit_step(struct screen *screen, bool back);

/* Turns the list over; `before` has the rows as they were. The cursor goes with its row. */
void edit_turn(struct screen *screen);

/* From a judged board back to the list's own. */
void edit_show_list(struct screen *screen);

void edit_to_mark(struct screen *screen);

#endif
