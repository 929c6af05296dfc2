// Loaded before the C library, it writes a line to the file that LOG names for each call of fsync and of rename: what was
// asked and of which file. The calls themselves are those of the system.
#define _GNU_SOURCE
#include <fcntl.h>
#include <stdio.h>
#include <stdlib.h>
#include <string.h>
#include <sys/syscall.h>
#include <unistd.h>

static void tell(const char *asked, const char *first, const char *second) {
    const char *name = getenv("LOG");
    char line[8500];
    int length = snprintf(line, sizeof line, "%s %s%s%s\n", asked, first, *second ? " " : "", second);
    int log = name ? open(name, O_WRONLY | O_APPEND | O_CREAT, 0600) : -1;
    if (log < 0 || write(log, line, (size_t)length) != length || close(log) != 0) {
        _exit(99);
    }
}

static void synced(const char *asked, int file) {
    char link[64], path[4096];
    snprintf(link, sizeof link, "/proc/self/fd/%d", file);
    ssize_t length = readlink(link, path, sizeof path - 1);
    path[length < 0 ? 0 : length] = 0;
    tell(asked, path, "");
}

int fsync(int file) {
    synced("fsync", file);
    return (int)syscall(SYS_fsync, file);
}

int fdatasync(int file) {
    synced("fdatasync", file);
    return (int)syscall(SYS_fdatasync, file);
}

int rename(const char *from, const char *to) {
    tell("rename", from, to);
    return (int)syscall(SYS_renameat, AT_FDCWD, from, AT_FDCWD, to);
}

int renameat(int folder, const char *from, int other, const char *to) {
    tell("rename", from, to);
    return (int)syscall(SYS_renameat, folder, from, other, to);
}
