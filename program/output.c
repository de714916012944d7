#include <errno.h>
#include <fcntl.h>
#include <signal.h>
#include <stdio.h>
#include <stdlib.h>
#include <string.h>
#include <sys/stat.h>
#include <unistd.h>
#include "file.h"
#include "message.h"
#include "output.h"

#define NOTHING_CHANGED "nothing was written, and what was there is as it was"

/* Temporary files and folders, by their paths, so that a signal can remove them. */

static char temporaries[FILES_MOST + 2][PATH_ROOM];
static volatile sig_atomic_t temporaries_count;
static const int signals[] = {SIGHUP, SIGINT, SIGTERM};
#define SIGNALS (sizeof signals / sizeof *signals)

/* A folder comes before what it holds, and goes behind it. */
static void remove_temporaries(void) {
    for (int i = (int)temporaries_count - 1; i >= 0; i--) {
        if (unlink(temporaries[i]))
            rmdir(temporaries[i]);
    }
    temporaries_count = 0;
}

static void interrupted(int number) {
    remove_temporaries();
    signal(number, SIG_DFL);
    raise(number);
}

/* A signal that is ignored stays so. A file over the size limit of the process is an error of the write, no signal. */
static void watch_signals(void) {
    struct sigaction watch, before;
    memset(&watch, 0, sizeof watch);
    watch.sa_handler = interrupted;
    sigemptyset(&watch.sa_mask);
    for (size_t i = 0; i < SIGNALS; i++) {
        if (!sigaction(signals[i], NULL, &before) && before.sa_handler != SIG_IGN)
            sigaction(signals[i], &watch, NULL);
    }
    signal(SIGXFSZ, SIG_IGN);
}

/* While a temporary file comes or goes, signals wait: its path is either listed or not there. */
static void hold_signals(sigset_t *before) {
    sigset_t held;
    sigemptyset(&held);
    for (size_t i = 0; i < SIGNALS; i++)
        sigaddset(&held, signals[i]);
    sigprocmask(SIG_BLOCK, &held, before);
}

static void release_signals(const sigset_t *before) {
    int error = errno;
    sigprocmask(SIG_SETMASK, before, NULL);
    errno = error;
}

/* The folder of a path, with its slash; empty for the current one. */
static int folder_len(const char *path) {
    const char *slash = strrchr(path, '/');
    return slash ? (int)(slash - path) + 1 : 0;
}

/* The next slot, holding the path of a temporary file or folder beside path; or path itself. */
static char *new_slot(const char *path, bool beside) {
    char *slot = temporaries[temporaries_count];
    int len = beside ? folder_len(path) : (int)strlen(path);
    int written = snprintf(slot, PATH_ROOM, "%.*s%s", len, path, beside ? ".gate-XXXXXX" : "");
    if (written > 0 && written < PATH_ROOM)
        return slot;
    errno = ENAMETOOLONG;
    return NULL;
}

/* Lists and creates a file: a temporary one beside path, or path itself, in a temporary folder. */
static int create_listed(const char *path, bool beside) {
    sigset_t before;
    char *slot = new_slot(path, beside);
    if (!slot)
        return -1;
    hold_signals(&before);
    int fd = beside ? mkstemp(slot) : open(slot, O_WRONLY | O_CREAT | O_EXCL | O_CLOEXEC, 0600);
    if (fd >= 0)
        temporaries_count++;
    release_signals(&before);
    return fd;
}

/* The same for a folder. */
static bool create_folder(const char *path, bool beside) {
    sigset_t before;
    char *slot = new_slot(path, beside);
    if (!slot)
        return false;
    hold_signals(&before);
    bool good = beside ? mkdtemp(slot) != NULL : !mkdir(slot, 0700);
    if (good)
        temporaries_count++;
    release_signals(&before);
    return good;
}

static bool write_all(int fd, const uint8_t *bytes, size_t len) {
    while (len) {
        ssize_t count = write(fd, bytes, len);
        if (count < 0 && errno != EINTR)
            return false;
        if (count > 0) {
            bytes += count;
            len -= (size_t)count;
        }
    }
    return true;
}

static mode_t without_umask(mode_t mode) {
    mode_t mask = umask(0);
    umask(mask);
    return mode & ~mask;
}

/* Mode and owner of the file that is replaced, the owner where the system allows it; for a new file 0644 less the umask. */
static bool set_mode(int fd, const char *replaced) {
    struct stat there;
    if (!replaced || stat(replaced, &there))
        return !fchmod(fd, without_umask(0644));
    if (fchown(fd, there.st_uid, there.st_gid) && errno != EPERM)
        return false;
    return !fchmod(fd, there.st_mode & 0777);
}

/* The bytes on disk: in a temporary file beside path, or at path itself, in a temporary folder. */
static bool write_listed(const char *path, bool beside, const uint8_t *bytes, size_t len) {
    int fd = create_listed(path, beside);
    if (fd < 0)
        return false;
    bool good = set_mode(fd, beside ? path : NULL) && write_all(fd, bytes, len) && !fsync(fd);
    int error = errno;
    if (close(fd) && good)
        return false;
    errno = error;
    return good;
}

/* A file system that can't do this for folders says EINVAL. */
static bool sync_folder(const char *folder) {
    int fd = open(*folder ? folder : ".", O_RDONLY | O_CLOEXEC);
    bool good = fd >= 0 && (!fsync(fd) || errno == EINVAL);
    if (!good)
        complain("gate", "%s: written, but perhaps not on disk yet: %s", *folder ? shown(folder) : ".", strerror(errno));
    if (fd >= 0)
        close(fd);
    return good;
}

static bool sync_folder_of(const char *path) {
    char folder[PATH_ROOM];
    snprintf(folder, sizeof folder, "%.*s", folder_len(path), path);
    return sync_folder(folder);
}

/* The temporary file or folder in the first slot takes its place. */
static bool take_place(const char *path) {
    sigset_t before;
    hold_signals(&before);
    bool good = !rename(temporaries[0], path);
    if (good)
        temporaries_count = 0;
    release_signals(&before);
    return good;
}

static bool failed(const char *path) {
    complain("gate", "%s: %s; " NOTHING_CHANGED, shown(path), strerror(errno));
    remove_temporaries();
    return false;
}

bool may_write(const char *path) {
    struct stat there;
    const char *what = NULL;
    if (!*path)
        what = "no path: give the name of a file";
    else if (lstat(path, &there))
        return errno == ENOENT ? true : failed(path);
    else if (S_ISLNK(there.st_mode))
        what = "is a symbolic link: give the file that it leads to";
    else if (S_ISDIR(there.st_mode))
        what = "is a folder: give the name of a file";
    else if (!S_ISREG(there.st_mode))
        what = "is no regular file: give another name";
    if (what)
        complain("gate", "%s: %s", shown(path), what);
    return !what;
}

bool is_input(const char *path, const char *from) {
    struct stat read, there;
    return !(strcmp(from, "-") ? stat(from, &read) : fstat(STDIN_FILENO, &read)) && !stat(path, &there) && read.st_dev == there.st_dev &&
           read.st_ino == there.st_ino;
}

bool write_file(const char *path, const uint8_t *bytes, size_t len) {
    watch_signals();
    if (!write_listed(path, true, bytes, len) || !take_place(path))
        return failed(path);
    return sync_folder_of(path);
}

/* Two files */

enum { FIRST, SECOND, REPLACED };

/* What is at path gets a temporary name besides; nothing to do where nothing is there. */
static bool keep_listed(const char *path) {
    struct stat there;
    if (stat(path, &there))
        return errno == ENOENT;
    int fd = create_listed(path, true);
    if (fd < 0)
        return false;
    close(fd);
    return !unlink(temporaries[REPLACED]) && !link(path, temporaries[REPLACED]);
}

/* Signals wait until both files have their names, or the first is as it was. */
static bool name_two(const char *path, const char *other) {
    sigset_t before;
    bool was_there = temporaries_count > REPLACED;
    hold_signals(&before);
    bool first = !rename(temporaries[FIRST], path), good = first && !rename(temporaries[SECOND], other);
    int error = errno;
    if (first && !good && (was_there ? rename(temporaries[REPLACED], path) : unlink(path)))
        complain("gate", "%s: is the new file, and could not be put back: %s", shown(path), strerror(errno));
    remove_temporaries();
    release_signals(&before);
    errno = error;
    return good || (first ? failed(other) : failed(path));
}

bool write_two(const char *path, const uint8_t *bytes, size_t len, const char *other, const uint8_t *other_bytes, size_t other_len) {
    watch_signals();
    if (!write_listed(path, true, bytes, len))
        return failed(path);
    if (!write_listed(other, true, other_bytes, other_len))
        return failed(other);
    if (!keep_listed(path))
        return failed(path);
    return name_two(path, other) && sync_folder_of(path) && sync_folder_of(other);
}

/* Folders */

/* What takes its place at the end: the temporary file or folder in a slot, and where it goes. */
struct move {
    int slot;
    char path[PATH_ROOM];
};

/* Files on their way into a folder that is there, or into a new one, which is temporary itself. */
struct filling {
    const char *folder;
    bool is_new;
    bool within_is_new;
    char within[PATH_ROOM]; /* the path of the folder within, where a file went into it; else empty */
    struct move moves[FILES_MOST + 1];
    size_t count;
};

static bool is_there(const char *path) {
    struct stat there;
    return !stat(path, &there);
}

static void add_move(struct filling *f, const char *path) {
    struct move *move = &f->moves[f->count++];
    move->slot = (int)temporaries_count - 1;
    snprintf(move->path, sizeof move->path, "%s", path);
}

/* A folder within a folder that is there is made beside its place; within a new one it is made at it. */
static bool open_within(struct filling *f, const char *name) {
    char path[PATH_ROOM];
    if (*f->within)
        return true;
    if (!join_path(path, f->folder, name))
        return false;
    f->within_is_new = f->is_new || !is_there(path);
    if (f->within_is_new && !create_folder(path, !f->is_new))
        return failed(path);
    if (f->within_is_new && !f->is_new)
        add_move(f, path);
    snprintf(f->within, sizeof f->within, "%s", f->within_is_new ? temporaries[temporaries_count - 1] : path);
    return true;
}

/* One file on disk, under a temporary name or, in a folder that is new, under its own. */
static bool put_file(struct filling *f, const struct file *file) {
    char path[PATH_ROOM];
    if (file->within && !open_within(f, file->within))
        return false;
    bool beside = !(file->within ? f->within_is_new : f->is_new);
    if (!join_path(path, file->within ? f->within : f->folder, file->name))
        return false;
    if (!write_listed(path, beside, file->bytes, file->len))
        return failed(path);
    if (beside)
        add_move(f, path);
    return true;
}

static bool put_files(struct filling *f, const struct file *files, size_t count) {
    for (size_t i = 0; i < count; i++) {
        if (!put_file(f, &files[i])) {
            remove_temporaries();
            return false;
        }
    }
    if (*f->within && f->within_is_new && (chmod(f->within, without_umask(0755)) || !sync_folder(f->within)))
        return failed(f->within);
    return true;
}

static bool name_files(const struct filling *f) {
    for (size_t i = 0; i < f->count; i++) {
        if (rename(temporaries[f->moves[i].slot], f->moves[i].path)) {
            complain("gate", "%s: %s; %zu of %zu are in place", shown(f->moves[i].path), strerror(errno), i, f->count);
            remove_temporaries();
            return false;
        }
    }
    temporaries_count = 0;
    return true;
}

/* Signals wait until all files have their names. */
static bool fill_folder(struct filling *f, const struct file *files, size_t count) {
    sigset_t before;
    if (!put_files(f, files, count))
        return false;
    hold_signals(&before);
    bool good = name_files(f);
    release_signals(&before);
    return good && (!*f->within || f->within_is_new || sync_folder(f->within)) && sync_folder(f->folder);
}

static bool new_folder(struct filling *f, const char *folder, const struct file *files, size_t count) {
    if (!create_folder(folder, true))
        return failed(folder);
    f->folder = temporaries[0];
    if (!put_files(f, files, count))
        return false;
    if (chmod(temporaries[0], without_umask(0755)) || !sync_folder(temporaries[0]) || !take_place(folder))
        return failed(folder);
    return sync_folder_of(folder);
}

bool write_folder(const char *folder, const struct file *files, size_t count) {
    static struct filling filling;
    memset(&filling, 0, sizeof filling);
    filling.folder = folder;
    filling.is_new = !is_there(folder);
    watch_signals();
    return filling.is_new ? new_folder(&filling, folder, files, count) : fill_folder(&filling, files, count);
}
