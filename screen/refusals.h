/* refusals.h: the shop's refusals and faults in the words of the one table, and the cells of the typed rows that they
 * speak of. */
#ifndef CABJIRT_REFUSALS_H
#define CABJIRT_REFUSALS_H

#include "answer.h"

enum {
    MARKS_MOST = CABJIRT_RING, /* the longest ring marks the two numbers of each of its columns */
    WORDS_MOST = 256
};

struct marks {
    struct mark at[MARKS_MOST];
    size_t count;
};

struct finding {
    char meaning[WORDS_MOST], remedy[WORDS_MOST]; /* as the table has them, with the place */
    char where[WORDS_MOST];                       /* the place in the rows, or nothing */
    struct marks marks;
    struct marks fewest; /* of the ring with the fewest nets, where it is another than the one that is marked already */
};

/* The table's word for a number, 0 included. */
const char *refusal_word(uint32_t number);

/* Says a refusal of the list, or a fault of a board judged against it, in words and marks. Where nothing is refused
 * there are none. */
void refusal_explain(const struct pin_text *pins, const struct answer *answer, const struct verdict *verdict,
                     struct finding *finding);

/* "net 1 above net 2 in column 1", for each pair of a ring of so many, counted from 0. */
void ring_words(const uint32_t *ring, uint32_t count, uint32_t pair, char words[WORDS_MOST]);

/* "the fewest wires to move: 2 nets" of a tangled list, and answers whether the pairs of that ring are to follow: not
 * where it is the walk's own, which the words then say, nor where the library's answer is no ring. */
bool fewest_words(const struct answer *answer, char words[WORDS_MOST]);

#endif
