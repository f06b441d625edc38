/* Preloaded before a program: the file that RAW_PATH names is reported to be a character device, as raw flash is. */
#define _GNU_SOURCE
#include <stdlib.h>
#include <string.h>
#include <sys/stat.h>
#include <sys/syscall.h>
#include <unistd.h>

int statx(int folder, const char *restrict path, int flags, unsigned mask, struct statx *restrict told) {
    int answer = (int)syscall(SYS_statx, folder, path, flags, mask, told);
    const char *raw = getenv("RAW_PATH");
    if (!answer && raw && !strcmp(path, raw)) {
        told->stx_mode = (told->stx_mode & ~(unsigned)S_IFMT) | S_IFCHR;
        told->stx_rdev_major = 90;
    }
    return answer;
}
