/* The order screen: a customer types or loads a pin list and sees at once what the shop would answer.
 *
 *   order [PINS]
 *
 * In a terminal it fills the screen; where input or output is something else, or the terminal can show no full screen,
 * it takes commands as lines. */
#include <locale.h>
#include <signal.h>
#include <stdio.h>
#include <stdlib.h>
#include <unistd.h>

#include "full_screen.h"
#include "line_mode.h"
#include "window.h"

/* A refused list is something to look at; a file that cannot be read is a mistake. */
static int run(struct order *order, const char *path)
{
    enum outcome outcome = path == NULL ? OUTCOME_DONE : order_load(order, path);
    if (outcome == OUTCOME_FAILED) {
        fprintf(stderr, "order: %s\n", order->message);
        return 2;
    }
    bool refused = outcome == OUTCOME_REFUSED;
    if (window_can_open())
        return full_screen(order, refused);
    if (refused)
        fprintf(stderr, "order: %s\n", order->message);
    if (isatty(STDIN_FILENO))
        fprintf(stderr, "order: no full screen here; type commands as lines (help lists them)\n");
    return line_mode(order, refused);
}

int main(int count, char **words)
{
    if (count > 2 || (count == 2 && words[1][0] == '-')) {
        fprintf(stderr, "order: usage: order [PINS]\n");
        return 2;
    }
    struct order *order = calloc(1, sizeof *order);
    if (order == NULL) {
        fprintf(stderr, "order: there is too little memory\n");
        return 2;
    }
    setlocale(LC_CTYPE, "");
    signal(SIGXFSZ, SIG_IGN); /* a file that may not grow is a failed write, with a message */
    order_begin(order);
    int status = run(order, count == 2 ? words[1] : NULL);
    free(order);
    return status;
}
