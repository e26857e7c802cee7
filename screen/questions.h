/* questions.h: the questions of the full screen, and what comes of their answers: files read and written, the end. */
#ifndef CABJIRT_QUESTIONS_H
#define CABJIRT_QUESTIONS_H

#include "screen.h"

/* Asks for a file name; not for a board that is not there. */
void question_ask(struct screen *screen, enum prompt_kind kind);

/* Quits; asks first if the list is not saved. */
void question_quit(struct screen *screen);

/* Takes a key for a question that a name answers, and for one that y or n answers. */
void question_name_key(struct screen *screen, int key);
void question_choice_key(struct screen *screen, int key);

#endif
