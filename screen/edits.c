#include "edits.h"

#include "screen_view.h"

void edit_done(struct screen *screen, enum edit edit)
{
    if (edit == EDIT_NONE)
        return;
    screen_hush(screen);
    if (edit == EDIT_FULL)
        screen_refuse(screen, "the row is full: it holds 65536 bytes");
    if (edit == EDIT_NO_CHARACTER)
        screen_refuse(screen, "a pin list has digits and spaces only");
    if (edit == EDIT_TOO_MANY_LINES)
        screen_refuse(screen, "a pin list has two lines: the pasted text was not taken");
    if (edit == EDIT_CHANGED) {
        history_note(&screen->history, &screen->before, &screen->order->pins);
        screen->answer_is_due = true;
    }
    screen->follows_cursor = true;
}

void edit_settle(struct screen *screen)
{
    if (screen->answer_is_due) {
        order_changed(screen->order);
        columns_lay(&screen->columns, &screen->order->pins);
    }
    if (screen->follows_cursor)
        screen_follow_cursor(screen);
    screen->answer_is_due = screen->follows_cursor = false;
}

void edit_paste(struct screen *screen)
{
    if (prompt_wants_name(&screen->prompt)) {
        for (const char *byte = paste_first_line(&screen->paste); *byte != '\0'; byte++)
            if (*byte != '\t')
                prompt_key(&screen->prompt, (unsigned char)*byte);
    } else if (screen->prompt.kind == PROMPT_NONE) {
        screen->before = screen->order->pins;
        edit_done(screen, paste_into_rows(&screen->paste, &screen->editor, &screen->order->pins));
    }
}

void edit_step(struct screen *screen, bool back)
{
    struct text_place where;
    struct pin_text *pins = &screen->order->pins;
    screen_hush(screen);
    if (!(back ? history_undo : history_redo)(&screen->history, pins, &where)) {
        screen_refuse(screen, back ? "there is nothing to undo" : "there is nothing to do again");
        return;
    }
    screen->editor = (struct editor){where.row, where.cell};
    screen->answer_is_due = screen->follows_cursor = true;
}

void edit_turn(struct screen *screen)
{
    enum outcome outcome = order_turn(screen->order);
    screen_told(screen, outcome);
    if (outcome != OUTCOME_DONE)
        return;
    history_note(&screen->history, &screen->before, &screen->order->pins);
    screen->editor.row = 1 - screen->editor.row;
    screen->answer_is_due = screen->follows_cursor = true;
}

void edit_show_list(struct screen *screen)
{
    screen_hush(screen);
    order_changed(screen->order);
}

void edit_to_mark(struct screen *screen)
{
    editor_to_mark(&screen->editor, &screen->order->finding, &screen->order->parked);
    screen->follows_cursor = true;
}
