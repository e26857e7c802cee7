/* inputs.h: the channels and boards that are measured, and random ones; tables of blanks; drafts. */
#ifndef INPUTS_H
#define INPUTS_H

#include <stdbool.h>

#include "sides.h"

/* What is measured. The padded one is the dense one as another text, panels are two lists of half the width; those from
 * the full file on are boards alone. */
enum shape {
    EXAMPLE_B,
    DENSE,
    PADDED,
    CHAIN,
    FULLEST,
    RING_255,
    RING_511,
    RING_PAIRS,
    RING_LAYERS,
    PANEL_DENSE,
    PANEL_FULL,
    FULL_FILE,
    MIXED_FILE,
    ONE_COLUMN,
    ONE_TRACK,
    ONE_POINT,
    SHAPES
};

extern const char *const shape_names[SHAPES];

/* Makes an input of a shape on so many columns (example B has its own width). Its file is the board that the router
 * draws; the shapes that are boards alone have 4,095 pieces: the fullest board's, repeated; the same shuffled; branches
 * of one column; trunks of one track; or one contact again and again. Its second list is the same as the first, its
 * table is the stock, its draft has the nets of its rows. */
void make_input(enum shape shape, size_t width, struct input *input);

/* Writes the rows of an input as the text that a shape has: the padded one in columns of four, with a carriage return
 * before each line feed. */
void write_shape(enum shape shape, struct input *input);

/* Whether an operation is measured on a shape. */
bool measured_on(enum operation operation, enum shape shape);

/* The tracks and the number of pieces of an input's board file. */
uint32_t tracks_of(const struct input *input);

size_t pieces_of(const struct input *input);

/* Puts a piece's word in the place of the piece of index i of an input's board file. */
void put_piece(struct input *input, uint32_t i, uint32_t kind, uint32_t line, uint32_t from, uint32_t to);

/* A number below n, from a seeded row of numbers. */
uint32_t below(uint32_t n);

void seed(uint64_t state);

/* Gives so many places of the rows, drawn one by one, a number that no pin has yet, as far as numbers last; what stood
 * there goes. */
void park_pins(struct input *input, uint32_t count);

/* The second list of an input, to be joined: its first once more. */
void same_second(struct input *input);

/* A random second list: as a rule one that fits behind the first, or nearly so, by its columns and numbers; at times
 * one that is refused alone. */
void random_second(struct input *input);

/* The stock as a table of blanks, and the most tracks that a board has. */
void stock_table(struct input *input);

/* A random table of blanks that rises strictly within 1 to 512, one in nine or so with over 64 entries; and tracks to
 * ask it for. */
void random_table(struct input *input);

/* The draft of the nets that an input's rows have, over the columns that they span; and net 256, which in some shapes
 * is over columns 256 and 257. */
void draft_of_rows(struct input *input);

/* A random draft, one in four or so of words that no nets make; and a net with its columns, often one that is
 * refused. */
void random_draft(struct input *input);

/* A random channel with its text, sometimes one that is refused; its board is drawn if it can be routed, and then
 * damaged more often than not. More often than not the text has runs of spaces, or carriage returns where lines end.
 * Its second list, its table and its draft are random ones. */
void random_input(struct input *input);

/* Puts pieces crowded on few lines in place of an input's board file: ranges one in the other, equal ones, ones that
 * end where the next starts, contacts at their ends, branches to both rows of pins; one in eight has no track. */
void crowd_file(struct input *input);

/* Changes or cuts the text of an input: spaces, carriage returns and tabs come where they belong and where they do
 * not. */
void garble(struct input *input);

/* Changes an entry of an input's table, doubles it or cuts the table there, or exchanges two; and draws the tracks
 * anew. */
void damage_table(struct input *input);

#endif
