#include "files.h"

#include <errno.h>
#include <fcntl.h>
#include <stdio.h>
#include <string.h>
#include <sys/stat.h>
#include <unistd.h>

enum { LINKS_MOST = 40, TRIES_MOST = 100 };

/* The file to be replaced: its own path, and what is there now. */
struct target {
    char path[PATH_LIMIT];
    bool exists;
    struct stat now;
};

/* The length of the folder's part of a path, its last slash included. */
static size_t folder_length(const char *path)
{
    const char *slash = strrchr(path, '/');
    return slash == NULL ? 0 : (size_t)(slash - path) + 1;
}

/* Puts the path that a link holds in the place of the link's own. */
static bool step_along(struct target *target)
{
    char held[PATH_LIMIT];
    ssize_t length = readlink(target->path, held, sizeof held);
    if (length < 0)
        return false;
    size_t folder = held[0] == '/' ? 0 : folder_length(target->path);
    if (folder + (size_t)length >= PATH_LIMIT) {
        errno = ENAMETOOLONG;
        return false;
    }
    memcpy(target->path + folder, held, (size_t)length);
    target->path[folder + (size_t)length] = '\0';
    return true;
}

/* Follows links to the file itself, which need not be there. */
static bool find_target(struct target *target, const char *path)
{
    if (strlen(path) >= PATH_LIMIT) {
        errno = ENAMETOOLONG;
        return false;
    }
    strcpy(target->path, path);
    for (int links = 0; links <= LINKS_MOST; links++) {
        target->exists = lstat(target->path, &target->now) == 0;
        if (!target->exists)
            return errno == ENOENT;
        if (!S_ISLNK(target->now.st_mode))
            return true;
        if (!step_along(target))
            return false;
    }
    errno = ELOOP;
    return false;
}

/* Opens a new file in the folder of the target, under a name that nothing has. */
static int open_beside(const struct target *target, char beside[PATH_LIMIT])
{
    size_t folder = folder_length(target->path);
    for (int n = 0; n < TRIES_MOST; n++) {
        int length = snprintf(beside, PATH_LIMIT, "%.*s.order-%ld-%d", (int)folder, target->path, (long)getpid(), n);
        if (length >= PATH_LIMIT) {
            errno = ENAMETOOLONG;
            return -1;
        }
        int fd = open(beside, O_WRONLY | O_CREAT | O_EXCL | O_NOCTTY, 0666);
        if (fd >= 0 || errno != EEXIST)
            return fd;
    }
    return -1;
}

static bool write_all(int fd, const uint8_t *bytes, size_t length)
{
    while (length > 0) {
        ssize_t put = write(fd, bytes, length);
        if (put < 0 && errno == EINTR)
            continue;
        if (put < 0)
            return false;
        bytes += put;
        length -= (size_t)put;
    }
    return true;
}

/* Gives the new file the owner and the mode of the old one. Another's file may change hands: only its mode has to. */
static bool keep_mode(int fd, const struct target *target)
{
    if (!target->exists)
        return true;
    if (fchown(fd, target->now.st_uid, target->now.st_gid) != 0 && errno != EPERM)
        return false;
    return fchmod(fd, target->now.st_mode & 07777) == 0;
}

static bool fill(int fd, const struct target *target, const uint8_t *bytes, size_t length)
{
    bool filled = write_all(fd, bytes, length) && keep_mode(fd, target) && fsync(fd) == 0;
    int error = errno;
    bool closed = close(fd) == 0;
    if (!filled)
        errno = error;
    return filled && closed;
}

/* Moves the new file into its place. Unasked it takes no name that something has: a link does not either. */
static bool put_in_place(const char *beside, const struct target *target, bool replace)
{
    struct stat found;
    if (replace)
        return rename(beside, target->path) == 0;
    if (link(beside, target->path) == 0)
        return unlink(beside) == 0;
    if (errno != EPERM && errno != ENOTSUP && errno != ENOSYS)
        return false;
    if (lstat(target->path, &found) == 0) { /* on a file system without links */
        errno = EEXIST;
        return false;
    }
    return rename(beside, target->path) == 0;
}

/* The name is on the disk too. A file system that cannot say so is no failure: the file is in its place. */
static void settle_folder(const struct target *target)
{
    char folder[PATH_LIMIT];
    size_t length = folder_length(target->path);
    snprintf(folder, sizeof folder, "%.*s.", (int)length, target->path);
    int fd = open(folder, O_RDONLY | O_DIRECTORY);
    if (fd < 0)
        return;
    fsync(fd);
    close(fd);
}

static enum file_outcome write_beside(const struct target *target, const uint8_t *bytes, size_t length, bool replace)
{
    char beside[PATH_LIMIT];
    int fd = open_beside(target, beside);
    if (fd < 0)
        return FILE_FAILED;
    if (!fill(fd, target, bytes, length) || !put_in_place(beside, target, replace)) {
        int error = errno;
        unlink(beside);
        errno = error;
        return error == EEXIST && !replace ? FILE_EXISTS : FILE_FAILED;
    }
    settle_folder(target);
    return FILE_DONE;
}

enum file_outcome file_write(const char *path, const uint8_t *bytes, size_t length, bool replace, const char **why)
{
    struct target target;
    struct stat found;
    if (!replace && lstat(path, &found) == 0)
        return FILE_EXISTS;
    if (!find_target(&target, path)) {
        *why = strerror(errno);
        return FILE_FAILED;
    }
    if (target.exists && !S_ISREG(target.now.st_mode)) {
        *why = "not a regular file";
        return FILE_FAILED;
    }
    if (target.exists && access(target.path, W_OK) != 0) {
        *why = strerror(errno);
        return FILE_FAILED;
    }
    enum file_outcome outcome = write_beside(&target, bytes, length, replace);
    *why = strerror(errno);
    return outcome;
}
