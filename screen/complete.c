#include "complete.h"

#include <dirent.h>
#include <stdio.h>
#include <stdlib.h>
#include <string.h>
#include <sys/stat.h>

/* Whether a name begins so. Those that begin with a dot are meant only if the dot was typed. */
static bool begins(const char *name, const char *start)
{
    if (strcmp(name, ".") == 0 || strcmp(name, "..") == 0 || (name[0] == '.' && start[0] != '.'))
        return false;
    return strncmp(name, start, strlen(start)) == 0;
}

/* Cuts `shared` to what a name has in common with it, between two characters of UTF-8. */
static void cut_to_shared(char *shared, const char *name)
{
    size_t length = 0;
    while (shared[length] != '\0' && shared[length] == name[length])
        length++;
    while (length > 0 && ((unsigned char)shared[length] & 0xC0) == 0x80)
        length--;
    shared[length] = '\0';
}

static void list_choice(char *choices, size_t room, const char *name)
{
    size_t length = strlen(choices);
    if (length + strlen(name) + 3 < room)
        snprintf(choices + length, room - length, "%s%s", length > 0 ? "  " : "", name);
}

/* Of the entries that begin so: what they share, how many they are, and their names. */
static size_t match(struct dirent **entries, int count, const char *start, char shared[PATH_LIMIT], char *choices,
                    size_t room)
{
    size_t matches = 0;
    for (int i = 0; i < count; i++) {
        const char *name = entries[i]->d_name;
        if (!begins(name, start))
            continue;
        if (matches++ == 0)
            snprintf(shared, PATH_LIMIT, "%s", name);
        else
            cut_to_shared(shared, name);
        list_choice(choices, room, name);
    }
    return matches;
}

static void add_slash(char name[PATH_LIMIT], size_t *length)
{
    struct stat found;
    if (stat(name, &found) != 0 || !S_ISDIR(found.st_mode) || *length + 1 >= PATH_LIMIT)
        return;
    name[(*length)++] = '/';
    name[*length] = '\0';
}

bool complete_name(char name[PATH_LIMIT], size_t *length, char *choices, size_t room)
{
    char folder[PATH_LIMIT + 1], shared[PATH_LIMIT];
    struct dirent **entries;
    const char *slash = strrchr(name, '/');
    size_t before = slash == NULL ? 0 : (size_t)(slash - name) + 1;
    snprintf(folder, sizeof folder, "%.*s.", (int)before, name);
    choices[0] = '\0';
    int count = scandir(folder, &entries, NULL, alphasort);
    if (count < 0)
        return false;
    size_t matches = match(entries, count, name + before, shared, choices, room);
    for (int i = 0; i < count; i++)
        free(entries[i]);
    free(entries);
    if (matches == 0 || before + strlen(shared) >= PATH_LIMIT)
        return false;
    strcpy(name + before, shared);
    *length = strlen(name);
    if (matches == 1) {
        choices[0] = '\0';
        add_slash(name, length);
    }
    return true;
}
