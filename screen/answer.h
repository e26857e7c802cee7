/* answer.h: what the shop answers: to a pin list, and to a board file against it. Only here the entries of channel.h
 * are called, but for those of a draft. */
#ifndef CABJIRT_ANSWER_H
#define CABJIRT_ANSWER_H

#include "channel.h"
#include "pin_text.h"

enum { INPUT_LIMIT = 65536 }; /* bytes of an input that is handed to the library; a longer one is refusal 0 */

/* Good, or a refusal or fault of the shop's table with its place. */
struct verdict {
    bool refused;
    uint32_t number, place;
};

/* What is answered of the ring with the fewest nets. It is whole if the pairs (net, column) are a ring of the rows that
 * begins at its lowest net and has no more nets than the walk's; a tangled list has no other answer. */
struct fewest_ring {
    bool whole;
    uint32_t number, count; /* the halves of the answer: 0, and the pairs of the ring */
    uint32_t ring[CABJIRT_RING];
};

/* The answer to a pin list. Under refusal 7 the rows, the width, the bounds, the looks with their ceiling, the ring of
 * the walk and the ring with the fewest nets hold; under another refusal none of them does. */
struct answer {
    struct verdict verdict;
    uint32_t width, tracks, pieces, blank, density, chain;
    uint32_t looks, ceiling; /* the looks of the routing, and the most that so many nets take */
    uint32_t rows[ROWS][CABJIRT_ROW];
    uint32_t ring[CABJIRT_RING];
    struct fewest_ring fewest;
    uint8_t board[CABJIRT_BOARD];
};

void answer_pins(const struct pin_text *pins, struct answer *answer);

/* Whether an answer has rows: its list was not refused, or only as tangled. */
bool answer_has_rows(const struct answer *answer);

/* Whether the ring with the fewest nets of a tangled list is whole and the walk's own: the same pairs, of which the
 * walk may have begun at another. */
bool answer_fewest_is_walk(const struct answer *answer);

/* The bytes of the board file of a list that was not refused. */
size_t answer_board_length(const struct answer *answer);

/* Chooses the entry of a customer's own table on which the board of a list that was not refused goes. The table, of any
 * length and numbers, is checked at each choice. */
struct verdict answer_own_blank(const struct answer *answer, const uint32_t *table, size_t count, uint32_t *entry);

/* Reads a text that two rows cannot show, which is none of the form, for the place where it leaves it. */
struct verdict answer_text(const uint8_t *text, size_t length);

/* Judges a board file against the rows of an answer that has them. The tracks are those of a good board. */
struct verdict answer_judge(const struct answer *answer, const uint8_t *board, size_t length, uint32_t *tracks);

#endif
