/* screen.h: the full screen as it stands. */
#ifndef CABJIRT_SCREEN_H
#define CABJIRT_SCREEN_H

#include "columns.h"
#include "commands.h"
#include "editor.h"
#include "history.h"
#include "paste.h"
#include "prompt.h"

struct screen {
    struct order *order;
    struct editor editor;
    struct history history;
    struct prompt prompt;
    struct paste paste;
    struct columns columns;            /* of the rows, when they were answered last */
    struct pin_text before;            /* the rows before the key at hand */
    size_t scroll_across, scroll_down; /* cells of rows and drawing, lines of the drawing, before those shown */
    size_t scroll_chosen;              /* across, by keys and not by the size of the window */
    bool resized, cursor_was_shown;
    bool message_is_bad, helps;
    size_t help_page, help_next; /* entries of the help: the first that is shown, and of the next page or 0 */
    bool answer_is_due, follows_cursor; /* what is left to do after keys, before the next painting */
    int last_key;
    bool ends;
};

/* Takes the message away; or puts one that says why a key did nothing, with a beep. */
void screen_hush(struct screen *screen);
void screen_refuse(struct screen *screen, const char *why);

/* Shows the message that a command left; beeps where it was not done. */
void screen_told(struct screen *screen, enum outcome outcome);

#endif
