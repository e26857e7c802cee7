/* line_print.h: an order printed as plain ASCII lines. */
#ifndef CABJIRT_LINE_PRINT_H
#define CABJIRT_LINE_PRINT_H

#include "commands.h"

/* A byte as it may be printed. */
char printable(uint8_t byte);

/* The list with its marks and the density of its columns, the verdict, what is told of a laminate, looks and parked
 * pins, what to do, and the rings or the board. Answers whether nothing is refused, and the density is known. */
bool print_order(const struct order *order);

/* A line that says which pins are parked, if any are. */
void print_parked(const struct order *order);

#endif
