/* commands.h: an order as it stands, and what loading, turning over, saving and judging do to it; the same for keys and
 * for words. */
#ifndef CABJIRT_COMMANDS_H
#define CABJIRT_COMMANDS_H

#include "answer.h"
#include "board_view.h"
#include "draft.h"
#include "files.h"
#include "laminate.h"
#include "looks_bar.h"
#include "parked.h"
#include "refusals.h"

enum { MESSAGE_MOST = PATH_LIMIT + 3 * WORDS_MOST };

enum outcome { OUTCOME_DONE, OUTCOME_REFUSED, OUTCOME_EXISTS, OUTCOME_FAILED };

/* The board file that was judged last. */
struct judged {
    bool shown; /* until the list changes */
    struct verdict verdict;
    uint32_t tracks;
    uint8_t bytes[INPUT_LIMIT];
    size_t length;
};

/* What the shop answers to a laminate that is loaded, for the board of the list. */
struct own_blank {
    bool asked; /* not where no laminate is loaded, or the list has no board */
    struct verdict verdict;
    uint32_t entry;
    struct finding finding;
};

struct order {
    struct pin_text pins;
    struct pin_text kept; /* the list as a file has it: as it was loaded or saved last */
    struct answer answer;
    struct laminate laminate;
    struct own_blank own;
    struct parked parked;
    struct draft draft;
    struct judged judged;
    struct finding finding;     /* of the verdict that is shown: the judge's, or else the router's */
    char message[MESSAGE_MOST]; /* what came of the last command, in one line */
};

/* Begins an order, all of it zero, with an empty list. */
void order_begin(struct order *order);

/* Answers the list anew, chooses from the laminate, and lets the draft follow; to be called after every change of the
 * list. */
void order_changed(struct order *order);

/* Whether the list was changed since a file had it. */
bool order_is_unsaved(const struct order *order);

/* The verdict that is shown, and whether a board is there to be drawn for it. */
const struct verdict *order_verdict(const struct order *order);
bool order_view(const struct order *order, struct board_view *view);

/* Width, tracks, blank, density, chain and pieces of a list that was not refused, and after the blank the laminate's
 * entry or its refusal; or the tracks of a good board; or the list's refusal with its meaning and its place in the
 * rows. */
void order_summary(const struct order *order, char summary[MESSAGE_MOST]);

/* "What to do: .." about the refusal that is shown, or nothing. */
void order_remedy(const struct order *order, char remedy[MESSAGE_MOST]);

/* Beside a summary that has a blank, where a laminate is loaded: why it is refused and what to do, or nothing; and how
 * many entries it has, with its file. Each answers whether there is something to say. */
bool order_own_refusal(const struct order *order, char meaning[MESSAGE_MOST], char remedy[MESSAGE_MOST]);
bool order_own_name(const struct order *order, char words[MESSAGE_MOST]);

/* The looks of the list's routing and their ceiling, in at most so many cells; or nothing, where the list has no rows
 * or the board that is shown is not its own. */
void order_looks(const struct order *order, size_t across, struct looks_bar *bar);

/* Each of these leaves its message. FAILED is the system's doing, REFUSED the shop's. */

/* Takes a pin list from a file. A file that two typed rows cannot show is refused and changes nothing. */
enum outcome order_load(struct order *order, const char *path);

/* Takes a customer's own laminate from a file, good or not, in place of the one before, and tells how many entries it
 * has; any other file is refused and changes nothing. Or drops it; REFUSED where none is loaded. The list, and a judged
 * board, stay as they are. */
enum outcome order_load_laminate(struct order *order, const char *path);
enum outcome order_drop_laminate(struct order *order);

/* Turns the list over, refused or not: its rows are exchanged. Tells its tracks, and those before, if it has a board.
 * REFUSED where both rows are empty. */
enum outcome order_turn(struct order *order);

/* Writes the board file of the list, or the list itself, refused or not; EXISTS where a file is there that is not to be
 * replaced. */
enum outcome order_save_board(struct order *order, const char *path, bool replace);
enum outcome order_save_pins(struct order *order, const char *path, bool replace);

/* Judges a board file against the list, and shows it, whatever the verdict. Refused where the list is, before the board
 * is read. */
enum outcome order_judge(struct order *order, const char *path);

#endif
