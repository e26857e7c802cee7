#include "files.h"

#include <errno.h>
#include <fcntl.h>
#include <string.h>
#include <sys/stat.h>
#include <unistd.h>

/* Reads until the end, or until one byte more than the limit is known to be there. */
static enum file_outcome read_all(int fd, uint8_t *bytes, size_t limit, size_t *length)
{
    uint8_t extra;
    *length = 0;
    for (;;) {
        bool full = *length == limit;
        ssize_t got = full ? read(fd, &extra, 1) : read(fd, bytes + *length, limit - *length);
        if (got < 0 && errno == EINTR)
            continue;
        if (got < 0)
            return FILE_FAILED;
        if (got == 0)
            return FILE_DONE;
        if (full)
            return FILE_TOO_LONG;
        *length += (size_t)got;
    }
}

enum file_outcome file_read(const char *path, uint8_t *bytes, size_t limit, size_t *length, const char **why)
{
    struct stat found;
    /* Without O_NONBLOCK, opening a pipe that nobody writes to would never come back. */
    int fd = open(path, O_RDONLY | O_NONBLOCK | O_NOCTTY);
    if (fd < 0 || fstat(fd, &found) != 0) {
        *why = strerror(errno);
        if (fd >= 0)
            close(fd);
        return FILE_FAILED;
    }
    enum file_outcome outcome = FILE_FAILED;
    if (!S_ISREG(found.st_mode)) {
        *why = "not a regular file";
    } else {
        outcome = read_all(fd, bytes, limit, length);
        *why = strerror(errno);
    }
    close(fd);
    return outcome;
}
