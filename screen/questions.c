#include "questions.h"

#include <ncurses.h>
#include <stdio.h>

#include "keys.h"
#include "screen_view.h"

static void load(struct screen *screen)
{
    screen->before = screen->order->pins;
    enum outcome outcome = order_load(screen->order, screen->prompt.text);
    screen_told(screen, outcome);
    if (outcome != OUTCOME_DONE)
        return;
    history_note(&screen->history, &screen->before, &screen->order->pins);
    screen->editor = (struct editor){TOP_ROW, 0};
    screen->scroll_across = screen->scroll_down = 0;
    screen->answer_is_due = screen->follows_cursor = true;
}

static void judge(struct screen *screen)
{
    struct order *order = screen->order;
    enum outcome outcome = order_judge(order, screen->prompt.text);
    screen_told(screen, outcome);
    if (outcome != OUTCOME_DONE)
        return;
    snprintf(order->message, sizeof order->message, "this is the file's board; Esc goes back to the list's own");
    screen_follow_fault(screen);
}

/* An empty name drops the laminate, if one is loaded. */
static void laminate(struct screen *screen)
{
    struct order *order = screen->order;
    if (screen->prompt.length > 0)
        screen_told(screen, order_load_laminate(order, screen->prompt.text));
    else if (order->laminate.loaded)
        screen_told(screen, order_drop_laminate(order));
}

static void save(struct screen *screen, enum prompt_kind what, bool replace)
{
    bool board = what == PROMPT_SAVE_BOARD;
    enum outcome outcome = board ? order_save_board(screen->order, screen->prompt.text, replace)
                                 : order_save_pins(screen->order, screen->prompt.text, replace);
    if (outcome == OUTCOME_EXISTS)
        prompt_open(&screen->prompt, board ? PROMPT_REPLACE_BOARD : PROMPT_REPLACE_PINS);
    else
        screen_told(screen, outcome);
}

void question_choice_key(struct screen *screen, int key)
{
    enum prompt_kind kind = screen->prompt.kind;
    bool yes = key == 'y' || key == 'Y', no = key == 'n' || key == 'N' || key == K_ESCAPE;
    if (!yes && !no)
        return;
    prompt_close(&screen->prompt);
    if (no && (kind == PROMPT_REPLACE_BOARD || kind == PROMPT_REPLACE_PINS))
        screen_refuse(screen, "not saved");
    if (no)
        return;
    switch (kind) {
    case PROMPT_REPLACE_BOARD: save(screen, PROMPT_SAVE_BOARD, true); break;
    case PROMPT_REPLACE_PINS: save(screen, PROMPT_SAVE_PINS, true); break;
    case PROMPT_DISCARD_AND_LOAD: load(screen); break;
    case PROMPT_DISCARD_AND_QUIT: screen->ends = true; break;
    default: break;
    }
}

void question_name_key(struct screen *screen, int key)
{
    enum prompt_kind kind = screen->prompt.kind;
    if (key != K_ENTER && key != K_ESCAPE) {
        if (!prompt_key(&screen->prompt, key))
            beep();
        return;
    }
    prompt_close(&screen->prompt);
    if (key == K_ESCAPE)
        return;
    if (kind == PROMPT_LAMINATE || kind == PROMPT_OTHER_LAMINATE)
        laminate(screen);
    else if (screen->prompt.length == 0)
        return;
    else if (kind == PROMPT_LOAD && order_is_unsaved(screen->order))
        prompt_open(&screen->prompt, PROMPT_DISCARD_AND_LOAD);
    else if (kind == PROMPT_LOAD)
        load(screen);
    else if (kind == PROMPT_JUDGE)
        judge(screen);
    else
        save(screen, kind, false);
}

void question_ask(struct screen *screen, enum prompt_kind kind)
{
    const struct answer *answer = &screen->order->answer;
    screen_hush(screen);
    if (kind == PROMPT_SAVE_BOARD && answer->verdict.refused)
        screen_refuse(screen, "there is no board to save: the pin list is refused");
    else if (kind == PROMPT_JUDGE && !answer_has_rows(answer))
        screen_refuse(screen, "no board is judged: the pin list is refused");
    else if (kind == PROMPT_LAMINATE && screen->order->laminate.loaded)
        prompt_open(&screen->prompt, PROMPT_OTHER_LAMINATE);
    else
        prompt_open(&screen->prompt, kind);
}

void question_quit(struct screen *screen)
{
    screen->helps = false;
    if (order_is_unsaved(screen->order))
        prompt_open(&screen->prompt, PROMPT_DISCARD_AND_QUIT);
    else
        screen->ends = true;
}
