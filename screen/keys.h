/* keys.h: the keys of the order screen, as ncurses puts them together. */
#ifndef CABJIRT_KEYS_H
#define CABJIRT_KEYS_H

#include <stdbool.h>

/* A byte that is a key by itself is that key: characters, and control keys as CONTROL('A') to CONTROL('_'). */
#define CONTROL(letter) ((letter) - 64)

enum key {
    K_TAB = 9, K_LINE_FEED = 10, K_ENTER = 13, K_ESCAPE = 27, K_BACKSPACE = 127,
    K_UP = 256, K_DOWN, K_RIGHT, K_LEFT, K_HOME, K_END, K_DELETE, K_PAGE_UP, K_PAGE_DOWN,
    K_SCROLL_UP, K_SCROLL_DOWN, K_SCROLL_RIGHT, K_SCROLL_LEFT, /* the arrows with Ctrl, Alt or Shift */
    K_PASTE_BEGIN, K_PASTE_END,
    K_F1, K_F2, K_F3, K_F4, K_F5, K_F6, K_F7, K_F8, K_F9, K_F10,
    K_UNKNOWN, K_RESIZE, K_NONE, K_HANG_UP
};

/* Tells ncurses of keys that its descriptions of terminals lack. To be called once it has the terminal. */
void keys_define(void);

/* The next key. Where `wait` is false and nothing was typed, K_NONE. K_HANG_UP at the end of input. */
int keys_next(bool wait);

/* The next key if it comes within the time that the keys of a paste come in, else K_NONE. */
int keys_soon(void);

#endif
