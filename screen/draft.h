/* draft.h: the density of the typed rows, column by column, while nets come and go. It stands in a draft of the
 * library: after an edit just the nets whose span changed leave it and arrive, and it is never made anew from the whole
 * list. Only here the entries of a draft are called. */
#ifndef CABJIRT_DRAFT_H
#define CABJIRT_DRAFT_H

#include "channel.h"
#include "pin_text.h"

enum {
    DRAFT_COLUMNS = CABJIRT_ROW,
    DRAFT_NETS = 512, /* the numbers from 0 up to 511, of which 0 is no net */
    DRAFT_EIGHTHS = 8,
    DRAFT_WORDS = 80
};

/* The first and last column of a net with pins in more than one column; any other net has none, 0 and 0. */
struct span {
    uint32_t first, last;
};

struct draft {
    uint64_t words[CABJIRT_DRAFT];
    struct span spans[DRAFT_NETS];  /* of the nets that are on the draft, by number */
    size_t columns;                 /* the last one in which a row has something, at most DRAFT_COLUMNS */
    uint32_t counts[DRAFT_COLUMNS]; /* as the draft answers them, from column 1 on */
    uint32_t greatest;
    bool wrong; /* the library gave an answer that is none of a draft: these are its halves, and no more is asked */
    uint32_t number, value;
};

/* Clears the draft: once, before anything is typed. */
void draft_begin(struct draft *draft);

/* Follows an edit of the rows, which may be uneven or refused for any reason. What stands in columns 1 to 512 of either
 * row and is a number from 1 to 511 counts, and nothing else does. */
void draft_follow(struct draft *draft, const struct pin_text *pins);

/* The height of a column's bar, 0 to 8 eighths: full at the greatest count and not before it, and none just at 0. */
uint32_t draft_eighths(const struct draft *draft, size_t column);

/* Of a draft that is wrong, that and the halves of the answer, in at most so many cells, 40 or more. */
void draft_wrong_words(const struct draft *draft, size_t across, char words[DRAFT_WORDS]);

#endif
