/* window.h: the terminal as ncurses takes it over, given back however the program ends. */
#ifndef CABJIRT_WINDOW_H
#define CABJIRT_WINDOW_H

#include <signal.h>
#include <stdbool.h>

/* Whether input and output are a terminal that a full screen can be shown in. */
bool window_can_open(void);

bool window_open(void);
void window_close(void);

/* Gives the terminal back to the shell until that lets the program go on. */
void window_suspend(void);

/* The signals that are held back but while waiting for a key: so none cuts a file short. */
sigset_t window_waiting_mask(void);

#endif
