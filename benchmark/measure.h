/* measure.h: how long an operation takes on each side. */
#ifndef MEASURE_H
#define MEASURE_H

#include "inputs.h"

/* The most inputs that are timed by turns. */
enum { SERIES = 4 };

/* Times an operation on some inputs, Rattle's side and C's by turns, for about so many seconds; medians in nanoseconds
 * a call. */
void measure(enum operation operation, const struct input *inputs, size_t count, double seconds,
             double medians[][PAIRWISE]);

/* The same of the pairwise side, on one input and by itself: it takes so much longer that turns would not help. */
double measure_pairwise(enum operation operation, const struct input *input);

/* Calls an operation. Its name is what valgrind is told to count within. */
uint64_t measured(enum side side, enum operation operation, const struct input *input, struct lent *lent);

#endif
