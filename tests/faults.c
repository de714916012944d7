/* Stands before the C library in a program that is run: at the call whose name and turn the environment gives, a signal comes or the
 * call fails. FAULT_CALL is write, fsync, rename or mkdir, FAULT_TURN counts from 1; FAULT_SIGNAL or FAULT_ERRNO is a number. */
#define _GNU_SOURCE
#include <errno.h>
#include <fcntl.h>
#include <signal.h>
#include <stdio.h>
#include <stdlib.h>
#include <string.h>
#include <sys/stat.h>
#include <sys/syscall.h>
#include <unistd.h>

/* Whether the call fails now. */
static int fails(const char *call) {
    static int turn;
    const char *named = getenv("FAULT_CALL"), *number = getenv("FAULT_SIGNAL");
    if (!named || strcmp(named, call) || ++turn != atoi(getenv("FAULT_TURN")))
        return 0;
    if (number)
        kill(getpid(), atoi(number));
    else
        errno = atoi(getenv("FAULT_ERRNO"));
    return !number;
}

ssize_t write(int fd, const void *bytes, size_t len) {
    return fails("write") ? -1 : syscall(SYS_write, fd, bytes, len);
}

int fsync(int fd) {
    return fails("fsync") ? -1 : (int)syscall(SYS_fsync, fd);
}

int mkdir(const char *path, mode_t mode) {
    return fails("mkdir") ? -1 : (int)syscall(SYS_mkdirat, AT_FDCWD, path, mode);
}

int rename(const char *from, const char *to) {
    return fails("rename") ? -1 : renameat(AT_FDCWD, from, AT_FDCWD, to);
}
