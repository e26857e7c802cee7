#include "full_screen.h"

#include <ncurses.h>
#include <stdio.h>
#include <stdlib.h>

#include "edits.h"
#include "keys.h"
#include "questions.h"
#include "screen_view.h"
#include "window.h"

static void show_help(struct screen *screen, size_t page)
{
    screen->helps = true;
    screen->help_page = page;
}

static void command_key(struct screen *screen, int key)
{
    edit_settle(screen);
    switch (key) {
    case K_F1: show_help(screen, 0); break;
    case CONTROL('O'): case K_F2: question_ask(screen, PROMPT_LOAD); break;
    case CONTROL('S'): case K_F3: question_ask(screen, PROMPT_SAVE_BOARD); break;
    case CONTROL('G'): case K_F4: question_ask(screen, PROMPT_JUDGE); break;
    case CONTROL('_'): case K_F5: edit_step(screen, true); break;
    case CONTROL('Y'): case K_F6: edit_step(screen, false); break;
    case CONTROL('W'): case K_F7: question_ask(screen, PROMPT_SAVE_PINS); break;
    case CONTROL('T'): case K_F8: edit_turn(screen); break;
    case CONTROL('B'): case K_F9: question_ask(screen, PROMPT_LAMINATE); break;
    case CONTROL('N'): edit_to_mark(screen); break;
    case K_ESCAPE: edit_show_list(screen); break;
    default: screen_scroll(screen, key); break;
    }
}

/* A new size shows what was shown before it, as far as it can; the cursor stays in sight. */
static void resize(struct screen *screen)
{
    clearok(curscr, TRUE); /* terminals differ in what they keep */
    screen->resized = true;
    screen->scroll_across = screen->scroll_chosen;
    screen->follows_cursor = screen->cursor_was_shown;
}

/* A label comes from a paste, which this terminal does not mark: the bytes that come with it are taken as one text. */
static void unmarked_paste(struct screen *screen, int key)
{
    paste_begin(&screen->paste);
    for (; key < K_UP && screen->paste.open; key = keys_soon())
        paste_key(&screen->paste, key);
    screen->paste.open = false;
    edit_paste(screen);
    if (key == K_RESIZE)
        resize(screen);
}

static bool begins_label(int key)
{
    return key == row_names[TOP_ROW][0] || key == row_names[BOT_ROW][0];
}

static void row_key(struct screen *screen, int key)
{
    screen->before = screen->order->pins;
    enum edit edit = editor_key(&screen->editor, &screen->order->pins, key);
    edit_done(screen, edit);
    if (edit == EDIT_NONE)
        command_key(screen, key);
}

static void one_key(struct screen *screen, int key)
{
    if (screen->paste.open) {
        paste_key(&screen->paste, key);
        if (!screen->paste.open)
            edit_paste(screen);
    } else if (key == K_PASTE_BEGIN) {
        screen->helps = false;
        paste_begin(&screen->paste);
    } else if (screen->helps) {
        show_help(screen, screen->help_next);
        screen->helps = screen->help_page > 0 && key != K_ESCAPE;
    } else if (prompt_wants_name(&screen->prompt)) {
        question_name_key(screen, key);
    } else if (screen->prompt.kind != PROMPT_NONE) {
        question_choice_key(screen, key);
    } else if (begins_label(key)) {
        unmarked_paste(screen, key);
    } else {
        row_key(screen, key);
    }
}

/* While the window is too small, keys do nothing but leave. */
static bool is_shut(const struct screen *screen)
{
    return !screen_fits() && screen->prompt.kind != PROMPT_DISCARD_AND_QUIT;
}

/* Takes the keys that mean the same everywhere. Answers the key that is left to be taken. */
static int window_key(struct screen *screen, int key)
{
    int last = screen->last_key;
    screen->last_key = key;
    if (key == K_RESIZE)
        resize(screen);
    else if (screen->paste.open)
        return key;
    else if (key == CONTROL('C') || key == CONTROL('Q') || key == K_F10)
        question_quit(screen);
    else if (key == CONTROL('L'))
        clearok(curscr, TRUE);
    else if (key == CONTROL('Z'))
        window_suspend();
    else if (key == K_LINE_FEED)
        return last == K_ENTER || is_shut(screen) ? K_NONE : K_ENTER; /* CR LF is one Enter */
    else
        return is_shut(screen) ? K_NONE : key;
    return K_NONE;
}

/* Takes keys until none waits: what was typed ahead, or a held key, is painted once. Answers whether input goes on. */
static bool take_keys(struct screen *screen)
{
    for (int key = keys_next(true); key != K_NONE && !screen->ends; key = keys_next(false)) {
        if (key == K_HANG_UP)
            return false;
        key = window_key(screen, key);
        if (key != K_NONE)
            one_key(screen, key);
    }
    return true;
}

static bool run(struct screen *screen)
{
    bool goes_on = true;
    while (goes_on && !screen->ends) {
        edit_settle(screen);
        screen_paint(screen);
        if (screen_fits())
            screen->cursor_was_shown = screen_shows_cursor(screen);
        if (!screen->resized)
            screen->scroll_chosen = screen->scroll_across;
        screen->resized = false;
        goes_on = take_keys(screen);
    }
    return goes_on;
}

int full_screen(struct order *order, bool message_is_bad)
{
    struct screen *screen = calloc(1, sizeof *screen);
    if (screen == NULL || !window_open()) {
        fprintf(stderr, "order: the terminal cannot be set up\n");
        free(screen);
        return 2;
    }
    screen->order = order;
    screen->message_is_bad = message_is_bad;
    columns_lay(&screen->columns, &order->pins);
    bool quit_by_key = run(screen);
    window_close();
    history_forget(&screen->history);
    free(screen);
    return quit_by_key ? 0 : 1;
}
