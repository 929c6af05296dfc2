// Loaded before the C library, it sees what a program asks of the system about files. It writes each call as a line to the
// file that LOG names: its number from 1, its kind, the file, the other file of a rename or a link, the file's inode, a
// number (the flags, the size asked for, or the offset of a write), the result, the error, and in hex what was written.
//
// FAIL is the number of a call that fails, or `each`. HOW is the error that it ends with, and the system never sees it; but a
// close that fails has closed. Where HOW is 0 a read or a write moves half of its bytes only. With `each`, every read and
// write moves one byte, or every second call that a signal may interrupt ends with the error.
#define _GNU_SOURCE
#include <errno.h>
#include <fcntl.h>
#include <stdarg.h>
#include <stdio.h>
#include <stdlib.h>
#include <string.h>
#include <sys/stat.h>
#include <sys/syscall.h>
#include <sys/uio.h>
#include <unistd.h>

// How a call ends: as the system lets it, or with fewer bytes; else with an error.
enum { LEFT = -1, SHORT = 0 };

// The descriptor of the log, beyond those that a program takes.
enum { LOG_FILE = 700 };

static long calls;

__attribute__((constructor)) static void begin(void) {
    const char *name = getenv("LOG");
    if (name) {
        int file = (int)syscall(SYS_openat, AT_FDCWD, name, O_WRONLY | O_APPEND | O_CREAT, 0600);
        if (file < 0 || syscall(SYS_dup3, file, LOG_FILE, O_CLOEXEC) != LOG_FILE) {
            _exit(99);
        }
        syscall(SYS_close, file);
    }
}

// Counts a call, and decides how it ends.
static int ending(int interruptible) {
    const char *which = getenv("FAIL"), *how = getenv("HOW");
    calls += 1;
    if (!which || !how) {
        return LEFT;
    }
    if (strcmp(which, "each") != 0) {
        return calls == atol(which) ? atoi(how) : LEFT;
    }
    return atoi(how) == SHORT || (interruptible && calls % 2) ? atoi(how) : LEFT;
}

static long failed(int error) {
    errno = error;
    return -1;
}

static size_t shortened(size_t count, int ends) {
    const char *which = getenv("FAIL");
    if (ends != SHORT || count < 2) {
        return count;
    }
    return strcmp(which, "each") == 0 ? 1 : count / 2;
}

static void put(const char *text, size_t length) {
    if (syscall(SYS_write, LOG_FILE, text, length) != (long)length) {
        _exit(99);
    }
}

static void put_hex(const unsigned char *bytes, long count) {
    char text[2048];
    while (count > 0) {
        size_t length = 0;
        for (; count > 0 && length < sizeof text; count -= 1, bytes += 1) {
            text[length++] = "0123456789abcdef"[*bytes >> 4];
            text[length++] = "0123456789abcdef"[*bytes & 15];
        }
        put(text, length);
    }
}

// A call, but for its number.
struct call {
    const char *kind, *name, *other;
    int file;
    long value, result;
    const void *bytes;
};

// Writes the line of a call; the error stays. A file that is open has the name that the system knows it by.
static long tell(struct call call) {
    int error = errno;
    char line[9000], link[64], path[4096] = "";
    struct stat found = {0};
    if (!getenv("LOG")) {
        return call.result;
    }
    if (call.file >= 0) {
        syscall(SYS_newfstatat, call.file, "", &found, AT_EMPTY_PATH);
        snprintf(link, sizeof link, "/proc/self/fd/%d", call.file);
        syscall(SYS_readlinkat, AT_FDCWD, link, path, sizeof path - 1);
    }
    int length = snprintf(line, sizeof line, "%ld\t%s\t%s\t%s\t%lu\t%ld\t%ld\t%d\t", calls, call.kind, call.name ? call.name : path,
                          call.other ? call.other : "", (unsigned long)found.st_ino, call.value, call.result, call.result < 0 ? error : 0);
    put(line, (size_t)length);
    put_hex(call.bytes, call.bytes && call.result > 0 ? call.result : 0);
    put("\n", 1);
    errno = error;
    return call.result;
}

static int opened(int folder, const char *name, int flags, mode_t mode) {
    int ends = ending(1);
    long file = ends > 0 ? failed(ends) : syscall(SYS_openat, folder, name, flags, mode);
    return (int)tell((struct call){.kind = "open", .name = name, .file = (int)file, .value = flags, .result = file});
}

static mode_t mode_of(int flags, va_list rest) {
    return flags & (O_CREAT | O_TMPFILE) ? va_arg(rest, mode_t) : 0;
}

int open(const char *name, int flags, ...) {
    va_list rest;
    va_start(rest, flags);
    mode_t mode = mode_of(flags, rest);
    va_end(rest);
    return opened(AT_FDCWD, name, flags, mode);
}

int openat(int folder, const char *name, int flags, ...) {
    va_list rest;
    va_start(rest, flags);
    mode_t mode = mode_of(flags, rest);
    va_end(rest);
    return opened(folder, name, flags, mode);
}

int open64(const char *name, int flags, ...) __attribute__((alias("open")));
int openat64(int folder, const char *name, int flags, ...) __attribute__((alias("openat")));

ssize_t read(int file, void *bytes, size_t count) {
    int ends = ending(file != STDIN_FILENO);
    long got = ends > 0 ? failed(ends) : syscall(SYS_read, file, bytes, shortened(count, ends));
    return tell((struct call){.kind = "read", .file = file, .value = (long)count, .result = got});
}

ssize_t write(int file, const void *bytes, size_t count) {
    int ends = ending(1);
    long place = syscall(SYS_lseek, file, 0, SEEK_CUR);
    long got = ends > 0 ? failed(ends) : syscall(SYS_write, file, bytes, shortened(count, ends));
    return tell((struct call){.kind = "write", .file = file, .value = place, .result = got, .bytes = bytes});
}

// The parts are written one by one, as many as are taken whole.
ssize_t writev(int file, const struct iovec *parts, int count) {
    long all = 0;
    for (int k = 0; k < count; k += 1) {
        long got = parts[k].iov_len ? write(file, parts[k].iov_base, parts[k].iov_len) : 0;
        if (got < 0) {
            return all > 0 ? all : got;
        }
        all += got;
        if (got < (long)parts[k].iov_len) {
            break;
        }
    }
    return all;
}

ssize_t pread(int file, void *bytes, size_t count, off_t place) {
    int ends = ending(1);
    long got = ends > 0 ? failed(ends) : syscall(SYS_pread64, file, bytes, shortened(count, ends), place);
    return tell((struct call){.kind = "read", .file = file, .value = (long)count, .result = got});
}

ssize_t pwrite(int file, const void *bytes, size_t count, off_t place) {
    int ends = ending(1);
    long got = ends > 0 ? failed(ends) : syscall(SYS_pwrite64, file, bytes, shortened(count, ends), place);
    return tell((struct call){.kind = "write", .file = file, .value = place, .result = got, .bytes = bytes});
}

int ftruncate(int file, off_t length) {
    int ends = ending(1);
    long got = ends > 0 ? failed(ends) : syscall(SYS_ftruncate, file, length);
    return (int)tell((struct call){.kind = "truncate", .file = file, .value = length, .result = got});
}

int fsync(int file) {
    int ends = ending(1);
    long got = ends > 0 ? failed(ends) : syscall(SYS_fsync, file);
    return (int)tell((struct call){.kind = "sync", .file = file, .result = got});
}

int fdatasync(int file) {
    int ends = ending(1);
    long got = ends > 0 ? failed(ends) : syscall(SYS_fdatasync, file);
    return (int)tell((struct call){.kind = "sync", .file = file, .result = got});
}

int flock(int file, int operation) {
    int ends = ending(1);
    long got = ends > 0 ? failed(ends) : syscall(SYS_flock, file, operation);
    return (int)tell((struct call){.kind = "lock", .file = file, .value = operation, .result = got});
}

int fchmod(int file, mode_t mode) {
    int ends = ending(0);
    long got = ends > 0 ? failed(ends) : syscall(SYS_fchmod, file, mode);
    return (int)tell((struct call){.kind = "mode", .file = file, .value = mode, .result = got});
}

int close(int file) {
    int ends = ending(0);
    tell((struct call){.kind = "close", .file = file});
    long got = syscall(SYS_close, file);
    return (int)(ends > 0 ? failed(ends) : got);
}

static int renamed(int folder, const char *from, int other, const char *to, unsigned flags) {
    int ends = ending(0);
    long got = ends > 0 ? failed(ends) : syscall(SYS_renameat2, folder, from, other, to, flags);
    return (int)tell((struct call){.kind = "rename", .name = from, .other = to, .file = -1, .value = flags, .result = got});
}

int rename(const char *from, const char *to) {
    return renamed(AT_FDCWD, from, AT_FDCWD, to, 0);
}

int renameat(int folder, const char *from, int other, const char *to) {
    return renamed(folder, from, other, to, 0);
}

int renameat2(int folder, const char *from, int other, const char *to, unsigned flags) {
    return renamed(folder, from, other, to, flags);
}

int unlinkat(int folder, const char *name, int flags) {
    int ends = ending(0);
    long got = ends > 0 ? failed(ends) : syscall(SYS_unlinkat, folder, name, flags);
    return (int)tell((struct call){.kind = "unlink", .name = name, .file = -1, .value = flags, .result = got});
}

int unlink(const char *name) {
    return unlinkat(AT_FDCWD, name, 0);
}

int linkat(int folder, const char *from, int other, const char *to, int flags) {
    int ends = ending(0);
    long got = ends > 0 ? failed(ends) : syscall(SYS_linkat, folder, from, other, to, flags);
    return (int)tell((struct call){.kind = "link", .name = from, .other = to, .file = -1, .value = flags, .result = got});
}

int link(const char *from, const char *to) {
    return linkat(AT_FDCWD, from, AT_FDCWD, to, 0);
}

int mkdirat(int folder, const char *name, mode_t mode) {
    int ends = ending(0);
    long got = ends > 0 ? failed(ends) : syscall(SYS_mkdirat, folder, name, mode);
    return (int)tell((struct call){.kind = "mkdir", .name = name, .file = -1, .value = mode, .result = got});
}

int mkdir(const char *name, mode_t mode) {
    return mkdirat(AT_FDCWD, name, mode);
}

ssize_t readlink(const char *name, char *target, size_t size) {
    int ends = ending(0);
    long got = ends > 0 ? failed(ends) : syscall(SYS_readlinkat, AT_FDCWD, name, target, size);
    return tell((struct call){.kind = "target", .name = name, .file = -1, .value = (long)size, .result = got});
}

// What is asked of an open file has its name, and of another the name that was given.
int statx(int folder, const char *restrict name, int flags, unsigned mask, struct statx *restrict found) {
    int ends = ending(0), open = folder >= 0 && !*name;
    long got = ends > 0 ? failed(ends) : syscall(SYS_statx, folder, name, flags, mask, found);
    return (int)tell((struct call){.kind = "stat", .name = open ? NULL : name, .file = open ? folder : -1, .value = flags, .result = got});
}

int fstatat(int folder, const char *restrict name, struct stat *restrict found, int flags) {
    int ends = ending(0), open = folder >= 0 && !*name;
    long got = ends > 0 ? failed(ends) : syscall(SYS_newfstatat, folder, name, found, flags);
    return (int)tell((struct call){.kind = "stat", .name = open ? NULL : name, .file = open ? folder : -1, .value = flags, .result = got});
}

int fstat(int file, struct stat *found) {
    return fstatat(file, "", found, AT_EMPTY_PATH);
}

int stat(const char *restrict name, struct stat *restrict found) {
    return fstatat(AT_FDCWD, name, found, 0);
}

int lstat(const char *restrict name, struct stat *restrict found) {
    return fstatat(AT_FDCWD, name, found, AT_SYMLINK_NOFOLLOW);
}
