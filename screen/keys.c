#include "keys.h"

#include <errno.h>
#include <ncurses.h>
#include <stdio.h>
#include <sys/select.h>
#include <unistd.h>

#include "window.h"

/* The codes that ncurses is told to give; its own end at KEY_MAX. */
enum { OWN_CODES = KEY_MAX + 1, SOON_MILLISECONDS = 50 };

/* Keys as terminals send them by default: some do so although their description says otherwise. */
static void define_plain_keys(void)
{
    static const struct {
        const char *bytes;
        int code;
    } plain[] = {
        {"\033[A", KEY_UP}, {"\033[B", KEY_DOWN}, {"\033[C", KEY_RIGHT}, {"\033[D", KEY_LEFT},
        {"\033[H", KEY_HOME}, {"\033[F", KEY_END}, {"\033[1~", KEY_HOME}, {"\033[4~", KEY_END},
        {"\033[7~", KEY_HOME}, {"\033[8~", KEY_END}, {"\033[3~", KEY_DC},
        {"\033[5~", KEY_PPAGE}, {"\033[6~", KEY_NPAGE},
        {"\033[11~", KEY_F(1)}, {"\033[12~", KEY_F(2)}, {"\033[13~", KEY_F(3)}, {"\033[14~", KEY_F(4)},
        {"\033[200~", OWN_CODES + K_PASTE_BEGIN}, {"\033[201~", OWN_CODES + K_PASTE_END},
    };
    for (size_t i = 0; i < sizeof plain / sizeof *plain; i++)
        if (key_defined(plain[i].bytes) <= 0)
            define_key(plain[i].bytes, plain[i].code);
}

void keys_define(void)
{
    static const int scrolls[] = {K_SCROLL_UP, K_SCROLL_DOWN, K_SCROLL_RIGHT, K_SCROLL_LEFT};
    char bytes[32];
    define_plain_keys();
    for (int modifier = 2; modifier <= 8; modifier++)
        for (int i = 0; i < 4; i++) {
            snprintf(bytes, sizeof bytes, "\033[1;%d%c", modifier, 'A' + i);
            define_key(bytes, OWN_CODES + scrolls[i]);
        }
}

static int special_key(int code)
{
    if (code >= KEY_F(1) && code <= KEY_F(10))
        return K_F1 + code - KEY_F(1);
    if (code >= OWN_CODES)
        return code <= OWN_CODES + K_HANG_UP ? code - OWN_CODES : K_UNKNOWN;
    switch (code) {
    case KEY_UP: return K_UP;
    case KEY_DOWN: return K_DOWN;
    case KEY_RIGHT: return K_RIGHT;
    case KEY_LEFT: return K_LEFT;
    case KEY_HOME: return K_HOME;
    case KEY_END: return K_END;
    case KEY_DC: return K_DELETE;
    case KEY_PPAGE: return K_PAGE_UP;
    case KEY_NPAGE: return K_PAGE_DOWN;
    case KEY_BACKSPACE: return K_BACKSPACE;
    case KEY_ENTER: return K_ENTER;
    case KEY_RESIZE: return K_RESIZE;
    default: return K_UNKNOWN;
    }
}

/* An Escape by itself, also before another key; or the bytes of a key that nobody knows, which are dropped. */
static int escape_key(void)
{
    int code = getch();
    if (code == ERR)
        return K_ESCAPE;
    if (code == K_ESCAPE || code >= 256) {
        ungetch(code);
        return K_ESCAPE;
    }
    if (code == '[' || code == 'O')
        do
            code = getch();
        while (code >= 0x20 && code <= 0x3F);
    return K_UNKNOWN;
}

static int key_of(int code)
{
    if (code == 8)
        return K_BACKSPACE;
    if (code == K_ESCAPE)
        return escape_key();
    return code < 256 ? code : special_key(code);
}

/* Waits until a byte or a signal is there. Answers whether a byte, or the end of input, is. */
static bool wait_for_input(void)
{
    fd_set keyboard;
    sigset_t mask = window_waiting_mask();
    FD_ZERO(&keyboard);
    FD_SET(STDIN_FILENO, &keyboard);
    return pselect(STDIN_FILENO + 1, &keyboard, NULL, NULL, NULL, &mask) > 0 || errno != EINTR;
}

int keys_next(bool wait)
{
    bool input = false;
    int code = getch();
    while (code == ERR && wait && !input) {
        input = wait_for_input();
        code = getch();
    }
    if (code == ERR)
        return wait ? K_HANG_UP : K_NONE;
    return key_of(code);
}

int keys_soon(void)
{
    timeout(SOON_MILLISECONDS);
    int code = getch();
    timeout(0);
    return code == ERR ? K_NONE : key_of(code);
}
