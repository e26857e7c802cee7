/* parked.h: the pins whose net number stands just once in a list. Such a pin is parked: the router leaves it bare. A
 * slip of the pen parks a pin too, so the screen shows which are. */
#ifndef CABJIRT_PARKED_H
#define CABJIRT_PARKED_H

#include "answer.h"

enum {
    PARKED_MOST = 511, /* each has a number of its own */
    PARKED_WORDS = 256
};

struct parked {
    size_t count;
    uint32_t nets[PARKED_MOST];     /* in rising number */
    struct mark marks[PARKED_MOST]; /* where the numbers are typed: TOP from the left, then BOT */
    bool pins[ROWS][CABJIRT_ROW];   /* whether the pin of a column is parked, from column 1 on */
};

/* Finds the parked pins of a list. There are none where its answer has no rows. */
void parked_find(const struct pin_text *pins, const struct answer *answer, struct parked *parked);

/* "2 pins parked: nets 3, 17" in at most so many characters, 40 or more: nets without room are only counted. Nothing
 * where no pin is parked. */
void parked_words(const struct parked *parked, size_t most, char words[PARKED_WORDS]);

#endif
