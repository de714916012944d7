/* Files, written whole or not at all. */
#ifndef OUTPUT_H
#define OUTPUT_H

#include <stdbool.h>
#include <stddef.h>
#include <stdint.h>

/* May a file be written here: nothing is there, or a regular file. */
bool may_write(const char *path);

/* Whether a file that is to be written is the one that was read: from a path, or from standard input where that is -. */
bool is_input(const char *path, const char *from);

/* Writes a file whole or not at all, and keeps the mode and owner of one that it replaces: the bytes go to a temporary file beside it,
 * which takes its place once it is on disk. A signal removes the temporary file. */
bool write_file(const char *path, const uint8_t *bytes, size_t len);

/* Two files, both or neither: both are on disk before the first takes its place, and where the second can't, the first is as it was. */
bool write_two(const char *path, const uint8_t *bytes, size_t len, const char *other, const uint8_t *other_bytes, size_t other_len);

/* The same for files of one folder, some of them in a folder within it. A folder that is not there yet appears with all of its files at
 * once; in one that is there, all are on disk before the first takes its place. */
#define FILES_MOST 68
struct file {
    const char *within; /* the name of the folder within, or NULL */
    const char *name;
    const uint8_t *bytes;
    size_t len;
};
bool write_folder(const char *folder, const struct file *files, size_t count);

#endif
