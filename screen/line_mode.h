/* line_mode.h: the order screen for scripts: commands are lines of standard input, answers plain text. */
#ifndef CABJIRT_LINE_MODE_H
#define CABJIRT_LINE_MODE_H

#include "commands.h"

/* Runs until `quit` or the end of input. Answers the exit status: 1 if any command was refused, 2 if the answers could
 * not be written, else 0. */
int line_mode(struct order *order, bool refused_already);

#endif
