/* prompt.h: a question in the line above the keys, and its answer as far as it is typed. */
#ifndef CABJIRT_PROMPT_H
#define CABJIRT_PROMPT_H

#include "files.h"

enum prompt_kind {
    PROMPT_NONE,
    PROMPT_LOAD, PROMPT_SAVE_BOARD, PROMPT_SAVE_PINS, PROMPT_LAMINATE, PROMPT_OTHER_LAMINATE,
    PROMPT_JUDGE, /* up to here answered by a file name */
    PROMPT_REPLACE_BOARD, PROMPT_REPLACE_PINS, PROMPT_DISCARD_AND_LOAD, PROMPT_DISCARD_AND_QUIT /* by y or n */
};

enum { CHOICES_MOST = 2000 };

struct prompt {
    enum prompt_kind kind;
    char text[PATH_LIMIT]; /* the file name; a question about it keeps it */
    size_t length;
    char choices[CHOICES_MOST]; /* the names that a Tab could have meant */
};

/* Asks. A question that is answered by a name begins with an empty one. */
void prompt_open(struct prompt *prompt, enum prompt_kind kind);
void prompt_close(struct prompt *prompt);

bool prompt_wants_name(const struct prompt *prompt);
const char *prompt_question(const struct prompt *prompt);

/* Edits the name; a Tab completes it. Answers false where the key could do nothing: no room, or no such file. */
bool prompt_key(struct prompt *prompt, int key);

#endif
