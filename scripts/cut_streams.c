/* Preloaded before a program: cuts one of its streams. CUT_FD is its descriptor, or CUT_PATH the path by which the program
   opens it and CUT_OPEN which of the times it does (the first); CUT_CALL is read, write or sync. The stream moves at most
   CUT_STEP bytes a call and CUT_AFTER bytes in all. Then, as CUT_THEN says, each call fails, or each moves none (a reader
   has ended, a writer takes nothing), or one moves none and the next ones go on (pause). Of a file that is read and written both
   count. A sync that is cut fails, once CUT_AFTER of them were done.
   CUT_COUNT names a file to which the number of the stream's calls and that of the bytes that they moved are written when the
   program ends. */
#define _GNU_SOURCE
#include <errno.h>
#include <fcntl.h>
#include <stdarg.h>
#include <stdio.h>
#include <stdlib.h>
#include <string.h>
#include <sys/syscall.h>
#include <unistd.h>

enum { READ, WRITE, SYNC };

static const char *path, *then = "fail", *count_file;
static int stream = -1, direction;
static long opens, wanted_open = 1, step = -1, left = -1;
static unsigned long calls, moved;

static long number(const char *name, long otherwise) {
    const char *text = getenv(name);
    return text && *text ? strtol(text, NULL, 10) : otherwise;
}

__attribute__((constructor)) static void arm(void) {
    const char *call = getenv("CUT_CALL");
    direction = call && !strcmp(call, "read") ? READ : call && !strcmp(call, "sync") ? SYNC : WRITE;
    path = getenv("CUT_PATH");
    if (path && !*path) path = NULL;
    stream = (int)number("CUT_FD", -1);
    wanted_open = number("CUT_OPEN", 1);
    step = number("CUT_STEP", -1);
    left = number("CUT_AFTER", -1);
    if (getenv("CUT_THEN")) then = getenv("CUT_THEN");
    count_file = getenv("CUT_COUNT");
}

__attribute__((destructor)) static void tell(void) {
    if (!count_file) return;
    char text[64];
    int length = snprintf(text, sizeof text, "%lu %lu\n", calls, moved);
    int to = (int)syscall(SYS_openat, AT_FDCWD, count_file, O_WRONLY | O_CREAT | O_TRUNC, 0644);
    if (to < 0 || syscall(SYS_write, to, text, (size_t)length) != length) _exit(99);
    syscall(SYS_close, to);
}

/* How many bytes a call may move; -1 if it fails. */
static long allowed(size_t size) {
    long most = size > 0x7ffff000 ? 0x7ffff000 : (long)size;
    calls += 1;
    if (step >= 0 && most > step) most = step;
    if (left < 0 || most == 0) return most;
    if (left == 0) {
        if (!strcmp(then, "fail")) {
            errno = EIO;
            return -1;
        }
        if (!strcmp(then, "pause")) left = -1;
        return 0;
    }
    return most < left ? most : left;
}

static long taken(long count) {
    if (count > 0) {
        moved += (unsigned long)count;
        if (left > 0) left -= count;
    }
    return count;
}

static int is_cut(int fd, int way) { return fd == stream && direction == way && fd >= 0; }

ssize_t read(int fd, void *to, size_t size) {
    if (!is_cut(fd, READ)) return syscall(SYS_read, fd, to, size);
    long most = allowed(size);
    return most <= 0 ? most : taken(syscall(SYS_read, fd, to, (size_t)most));
}

ssize_t write(int fd, const void *from, size_t size) {
    if (!is_cut(fd, WRITE)) return syscall(SYS_write, fd, from, size);
    long most = allowed(size);
    return most <= 0 ? most : taken(syscall(SYS_write, fd, from, (size_t)most));
}

int fsync(int fd) {
    if (!is_cut(fd, SYNC)) return (int)syscall(SYS_fsync, fd);
    calls += 1;
    if (left > 0) {
        left -= 1;
        return (int)syscall(SYS_fsync, fd);
    }
    errno = EIO;
    return -1;
}

int fdatasync(int fd) { return is_cut(fd, SYNC) ? fsync(fd) : (int)syscall(SYS_fdatasync, fd); }

int open(const char *name, int flags, ...) {
    va_list rest;
    va_start(rest, flags);
    int mode = flags & O_CREAT ? va_arg(rest, int) : 0;
    va_end(rest);
    int fd = (int)syscall(SYS_openat, AT_FDCWD, name, flags, mode);
    int access = flags & O_ACCMODE, is_fit = access == O_RDWR || (access == O_RDONLY) == (direction == READ);
    if (fd >= 0 && path && !strcmp(name, path) && is_fit) {
        opens += 1;
        if (opens == wanted_open) stream = fd;
    }
    return fd;
}

int close(int fd) {
    if (path && fd == stream) stream = -1;
    return (int)syscall(SYS_close, fd);
}
