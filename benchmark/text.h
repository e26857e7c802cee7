/* text.h: what an input's text and board file are made of: its rows. */
#ifndef TEXT_H
#define TEXT_H

#include "sides.h"

/* Writes the rows of an input as its text: each number with a space before it, and more where it has fewer digits than
 * the width; each line with its own end. */
void write_spaced_text(struct input *input, int width, const char *top_end, const char *bot_end);

/* The same with nothing padded, and a line feed at the end of each line. */
void write_text(struct input *input);

/* Routes the rows of an input and keeps the board file; a board of no pieces and no tracks if they are refused. */
void draw_file(struct input *input);

#endif
