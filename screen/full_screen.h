/* full_screen.h: the order screen in a terminal. */
#ifndef CABJIRT_FULL_SCREEN_H
#define CABJIRT_FULL_SCREEN_H

#include "commands.h"

/* Runs until the customer quits, or hangs up, which is exit status 1. The order's message, if any, is shown first. */
int full_screen(struct order *order, bool message_is_bad);

#endif
