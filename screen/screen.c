#include "screen.h"

#include <ncurses.h>
#include <stdio.h>

void screen_hush(struct screen *screen)
{
    screen->order->message[0] = '\0';
    screen->message_is_bad = false;
}

void screen_refuse(struct screen *screen, const char *why)
{
    beep();
    snprintf(screen->order->message, sizeof screen->order->message, "%s", why);
    screen->message_is_bad = true;
}

void screen_told(struct screen *screen, enum outcome outcome)
{
    screen->message_is_bad = outcome != OUTCOME_DONE;
    if (screen->message_is_bad)
        beep();
}
