#include <errno.h>
#include <fcntl.h>
#include <stdio.h>
#include <stdlib.h>
#include <string.h>
#include <sys/stat.h>
#include <unistd.h>
#include "file.h"
#include "message.h"

bool join_path(char *path, const char *folder, const char *name) {
    size_t len = strlen(folder);
    const char *slash = len && folder[len - 1] == '/' ? "" : "/";
    int written = snprintf(path, PATH_ROOM, "%s%s%s", folder, slash, name);
    if (written > 0 && written < PATH_ROOM)
        return true;
    complain("gate", "%s: the path is too long", shown(folder));
    return false;
}

bool is_same_file(const char *one, const char *other) {
    struct stat a, b;
    return !stat(one, &a) && !stat(other, &b) && a.st_dev == b.st_dev && a.st_ino == b.st_ino;
}

static bool read_all(int fd, size_t room, struct text *text) {
    ssize_t count = 1;
    while (count > 0 && text->len < room) {
        count = read(fd, text->bytes + text->len, room - text->len);
        if (count > 0)
            text->len += (size_t)count;
        else if (count < 0 && errno == EINTR)
            count = 1;
    }
    return count >= 0;
}

bool read_file(const char *path, size_t most, struct text *text) {
    bool standard = !strcmp(path, "-");
    int fd = standard ? STDIN_FILENO : open(path, O_RDONLY | O_CLOEXEC);
    text->len = 0;
    text->bytes = malloc(most + 1);
    bool good = fd >= 0 && text->bytes && read_all(fd, most + 1, text);
    int error = errno;
    if (!good)
        complain_errno(standard ? "standard input" : path);
    if (fd >= 0 && !standard)
        close(fd);
    errno = error;
    return good;
}
