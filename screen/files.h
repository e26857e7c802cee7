/* files.h: whole files, read up to the limit of an input, and written whole or not at all. */
#ifndef CABJIRT_FILES_H
#define CABJIRT_FILES_H

#include <stdbool.h>
#include <stddef.h>
#include <stdint.h>

enum { PATH_LIMIT = 4096 }; /* bytes of a file name, with the one that ends it */

enum file_outcome { FILE_DONE, FILE_TOO_LONG, FILE_EXISTS, FILE_FAILED };

/* Reads a regular file of at most `limit` bytes. Under FILE_FAILED, *why says what the system said. */
enum file_outcome file_read(const char *path, uint8_t *bytes, size_t limit, size_t *length, const char **why);

/* Puts a file in its place, once all its bytes are on the disk. One that is there is replaced only if `replace` says so
 * and it is a regular file; of a symbolic link the target is. Where anything fails, what was there stays, and nothing
 * else is left; *why says what the system said. */
enum file_outcome file_write(const char *path, const uint8_t *bytes, size_t length, bool replace, const char **why);

#endif
