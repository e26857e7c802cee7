/* sides.h: the sides that are compared, the operations, and what an operation is given and lent. */
#ifndef SIDES_H
#define SIDES_H

#include <stddef.h>
#include <stdint.h>

enum { ROW = 512, RING = 1022, BOARD = 10240, SCRATCH = 5119, DRAFT = 4096 };

/* The longest text and board file that an input has, and the most entries of a table. */
enum { TEXT_LIMIT = 65536, FILE_LIMIT = 4 + 4 * 4095, TABLE_LIMIT = 72 };

/* Those from bounds on are measured on fewer columns too. A net of a draft leaves it and arrives again, a wide one over
 * all columns or a short one over two, so that the draft is then as before. Looks, ceiling, own blank and the three
 * calls that change a draft are compared and not measured: the first two are parts of routing, a choice of a blank
 * looks at 64 numbers at most, and a draft cannot be changed twice in the same way. */
enum operation {
    READ,
    JOIN,
    DRAFT_WIDE,
    DRAFT_SHORT,
    DRAFT_COUNT,
    DRAFT_GREATEST,
    BOUNDS,
    ROUTE,
    JUDGE,
    FEWEST_RING,
    LOOKS,
    CEILING,
    OWN_BLANK,
    DRAFT_CLEAR,
    DRAFT_ARRIVE,
    DRAFT_LEAVE,
    OPERATIONS,
    MEASURED = LOOKS
};

/* What an operation is given: a pin list as text, the same as rows, the rows of a second list that is joined to it, a
 * board file, a table of blanks with the tracks wanted, the words of a draft with a net that comes or goes; a count is
 * asked for the first column of that net. Rows over 512 and tables over 64 are there to be refused. */
struct input {
    uint8_t text[TEXT_LIMIT];
    size_t text_length;
    uint32_t top[ROW + 8], bot[ROW + 8];
    size_t top_length, bot_length;
    uint32_t top2[ROW + 8], bot2[ROW + 8];
    size_t top2_length, bot2_length;
    uint8_t file[FILE_LIMIT];
    size_t file_length;
    uint32_t table[TABLE_LIMIT];
    size_t table_length;
    uint32_t tracks;
    uint64_t draft[DRAFT];
    uint32_t number, first, last;
};

/* What an operation is lent to write into, and how much of each; behind a draft is a column more, which it has not. */
struct lent {
    uint32_t top[ROW], bot[ROW], ring[RING], scratch[SCRATCH];
    uint8_t board[BOARD];
    uint64_t words[DRAFT + 8];
    size_t top_length, bot_length, ring_length, board_length, scratch_length, words_length;
};

/* Rattle's library; plain C with the same algorithms; and for the judge alone, plain C that compares each piece with
 * all before it. */
enum side { RATTLE, PLAIN_C, PAIRWISE, SIDES };

extern const char *const operation_names[OPERATIONS];
extern const char *const side_names[SIDES];

/* How many sides have an operation. */
enum side sides_of(enum operation operation);

/* Fills all that is lent with one pattern, at full lengths, and puts the input's draft into the words. */
void lend(struct lent *lent, const struct input *input);

uint64_t call(enum side side, enum operation operation, const struct input *input, struct lent *lent);

#endif
