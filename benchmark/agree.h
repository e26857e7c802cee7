/* agree.h: whether both sides answer alike. */
#ifndef AGREE_H
#define AGREE_H

#include <stdbool.h>

/* Compares answers and lent memory on all inputs that are measured, on the same with parked pins, and on so many random
 * ones with second lists, tables of blanks and drafts; says what differs, and how much was compared. */
bool agree(unsigned long rounds);

#endif
