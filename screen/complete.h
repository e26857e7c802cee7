/* complete.h: file names completed from what is in their folder. */
#ifndef CABJIRT_COMPLETE_H
#define CABJIRT_COMPLETE_H

#include "files.h"

/* Completes a name as far as all files agree whose names begin so; a folder's gets a slash. Where there are several,
 * their names are listed in `choices`, as many as there is room for. Answers false where there is none. */
bool complete_name(char name[PATH_LIMIT], size_t *length, char *choices, size_t room);

#endif
