#include "prompt.h"

#include "complete.h"
#include "keys.h"

bool prompt_wants_name(const struct prompt *prompt)
{
    return prompt->kind >= PROMPT_LOAD && prompt->kind <= PROMPT_JUDGE;
}

void prompt_open(struct prompt *prompt, enum prompt_kind kind)
{
    prompt->kind = kind;
    prompt->choices[0] = '\0';
    if (!prompt_wants_name(prompt))
        return;
    prompt->length = 0;
    prompt->text[0] = '\0';
}

void prompt_close(struct prompt *prompt)
{
    prompt->kind = PROMPT_NONE;
    prompt->choices[0] = '\0';
}

const char *prompt_question(const struct prompt *prompt)
{
    static const char *const questions[] = {
        [PROMPT_NONE] = "",
        [PROMPT_LOAD] = "Load the pin list from file: ",
        [PROMPT_SAVE_BOARD] = "Save the board as file: ",
        [PROMPT_SAVE_PINS] = "Save the pin list as file: ",
        [PROMPT_LAMINATE] = "Load the laminate from file: ",
        [PROMPT_OTHER_LAMINATE] = "Laminate file (none: drop it): ",
        [PROMPT_JUDGE] = "Judge the board file: ",
        [PROMPT_REPLACE_BOARD] = "This file exists. Replace (y or n)? ",
        [PROMPT_REPLACE_PINS] = "This file exists. Replace (y or n)? ",
        [PROMPT_DISCARD_AND_LOAD] = "List not saved. Load anyway (y or n)? ",
        [PROMPT_DISCARD_AND_QUIT] = "List not saved. Quit anyway (y or n)? ",
    };
    return questions[prompt->kind];
}

/* Erases a character: the bytes that only continue it in UTF-8 go with it. */
static bool erase(struct prompt *prompt)
{
    if (prompt->length == 0)
        return false;
    do
        prompt->length--;
    while (prompt->length > 0 && ((unsigned char)prompt->text[prompt->length] & 0xC0) == 0x80);
    return true;
}

bool prompt_key(struct prompt *prompt, int key)
{
    bool done = true;
    prompt->choices[0] = '\0';
    if (key == K_TAB)
        return complete_name(prompt->text, &prompt->length, prompt->choices, CHOICES_MOST);
    if (key == K_BACKSPACE) {
        done = erase(prompt);
    } else if (key == CONTROL('U')) {
        prompt->length = 0;
    } else if (key >= ' ' && key < K_UP) {
        done = prompt->length + 1 < PATH_LIMIT;
        if (done)
            prompt->text[prompt->length++] = (char)key;
    }
    prompt->text[prompt->length] = '\0';
    return done;
}
