/* A folder of tables, read as a section five. */
#include <dirent.h>
#include <errno.h>
#include <stdio.h>
#include <stdlib.h>
#include <string.h>
#include <sys/stat.h>
#include "gate.h"
#include "message.h"
#include "station.h"
#include "table.h"

/* The most files that are looked at, so that those over the limit of 64 can be told. */
#define FILES_READ 1024

static int compare_files(const void *a, const void *b) {
    return strcmp(*(char *const *)a, *(char *const *)b);
}

static bool failed(const char *path, const char *why) {
    complain("gate", "%s: %s", shown(path), why);
    return false;
}

/* The names of its files; false where it can't be read, or holds too many. */
static bool list_files(const char *folder, char **names, size_t *count) {
    DIR *open = opendir(folder);
    const struct dirent *entry;
    bool good = open != NULL;
    if (!good)
        complain_errno(folder);
    for (errno = 0; good && (entry = readdir(open)); errno = 0) {
        if (entry->d_name[0] == '.')
            continue;
        if (*count == FILES_READ)
            good = failed(folder, "holds over 1024 files: a station has at most 64 tables, and this folder holds nothing else");
        else if (!(names[(*count)++] = strdup(entry->d_name)))
            good = failed(folder, strerror(errno));
    }
    if (good && errno)
        good = failed(folder, strerror(errno));
    if (open)
        closedir(open);
    return good;
}

static bool add_bytes(struct text *five, const void *bytes, size_t len) {
    uint8_t *longer = realloc(five->bytes, five->len + len + 1);
    if (!longer)
        return failed("a folder of tables", strerror(errno));
    if (len)
        memcpy(longer + five->len, bytes, len);
    *five = (struct text){longer, five->len + len};
    return true;
}

static bool add_count(struct text *five, size_t number, size_t width) {
    uint8_t bytes[4];
    for (size_t i = 0; i < width; i++)
        bytes[i] = (uint8_t)(number >> 8 * (width - 1 - i));
    return add_bytes(five, bytes, width);
}

/* A file system's name has at most 255 bytes, which a count of one byte holds. */
static bool add_table(struct text *five, const char *folder, const char *name) {
    char path[PATH_ROOM];
    struct stat there;
    struct text text = {NULL, 0};
    if (!join_path(path, folder, name))
        return false;
    if (stat(path, &there))
        return failed(path, strerror(errno));
    if (!S_ISREG(there.st_mode))
        return failed(path, "is no file: a table is a file, and a folder of tables holds nothing else");
    bool good = read_file(path, TEXT_MOST, &text) && add_count(five, strlen(name), 1) && add_bytes(five, name, strlen(name)) &&
                add_count(five, text.len, 4) && add_bytes(five, text.bytes, text.len);
    free(text.bytes);
    return good;
}

bool read_tables_folder(const char *folder, struct text *five) {
    static char *names[FILES_READ];
    size_t count = 0;
    *five = (struct text){NULL, 0};
    bool good = list_files(folder, names, &count) && add_count(five, count, 2);
    qsort(names, count, sizeof *names, compare_files);
    for (size_t i = 0; i < count; i++) {
        good = good && add_table(five, folder, names[i]);
        free(names[i]);
    }
    return good;
}
