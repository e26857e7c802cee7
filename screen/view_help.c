#include "views.h"

#include <limits.h>

static const char *const help[] = {
    "Digits, space   the net of each pin, spaces between two; 0 for no pin",
    "Tab Enter Up Dn the other row, same column",
    "Left Right Home End Backspace Delete   in the row;  ^U clears it",
    "F5 or ^_ undo   F6 or ^Y redo",
    "F8 or ^T        turn the list over: exchange TOP and BOT",
    "F2 or ^O        load a pin list from a file",
    "F9 or ^B        load a laminate's table",
    "F3 or ^S        save the board file",
    "F7 or ^W        save the pin list",
    "F4 or ^G        judge a board file;  Esc back to the list's own board",
    "^N              to the next mark",
    "PgUp PgDn       scroll the drawing;  Ctrl-arrows rows and drawing",
    "Tab             in a file name: complete it",
    "^L redraw   ^Z stop   F10 ^Q or ^C quit",
    "A paste of two lines fills both rows.",
    "o is a joint, + a crossing without it.",
    "p marks a parked pin: its number stands just once, and it gets no copper.",
    "v ^ mark what is refused, f the ring with the fewest nets, F both rings.",
    "dens: how many nets lie over a column.",
    "The bar: looks that the routing took, of the most that so many nets take.",
    "For each track the router looks once at every net that is not placed yet.",
};

/* The line after an entry that stands from line y on. */
static int entry_end(const char *entry, int y)
{
    return paint_lines_from(INT_MAX, y, INT_MAX, 1, entry, STYLE_PLAIN);
}

size_t view_help(size_t first)
{
    size_t next = first, count = sizeof help / sizeof *help;
    int y = LINE_TITLE + 2, end = paint_rows() - 1;
    for (; next < count && entry_end(help[next], y) <= end; next++)
        y = paint_lines(y, end, 1, help[next], STYLE_PLAIN);
    paint_bar(LINE_TITLE, STYLE_BAR);
    paint_text(LINE_TITLE, 0, paint_across(),
               next < count ? " Keys; any key shows more." : " Keys; any key goes back to the list.", STYLE_BAR);
    view_keys();
    return next < count ? next : 0;
}
