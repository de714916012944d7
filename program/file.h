/* Files, read whole. */
#ifndef FILE_H
#define FILE_H

#include <stdbool.h>
#include <stddef.h>
#include <stdint.h>

struct text {
    uint8_t *bytes;
    size_t len;
};

/* Joins a folder and a name; a complaint where the path is too long. */
#define PATH_ROOM 4096
bool join_path(char *path, const char *folder, const char *name);

/* Whether two paths lead to one file or folder that is there. */
bool is_same_file(const char *one, const char *other);

/* Reads a file, or standard input where the path is -: the whole of it, or most + 1 bytes where it is longer. */
bool read_file(const char *path, size_t most, struct text *text);

#endif
