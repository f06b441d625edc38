/* Runs the program PROGRAM of another processor through QEMU, under the name and with the arguments that this one is called by. What
   would be preloaded before this is preloaded before TWIN, which then runs in its place: the same program, but linked so that a
   library can be preloaded. */
#include <stdio.h>
#include <stdlib.h>
#include <string.h>
#include <unistd.h>

int main(int count, char **words) {
    const char *preload = getenv("LD_PRELOAD");
    char *call[count + 8], **next = call, setting[4200];
    *next++ = QEMU;
    *next++ = "-0";
    *next++ = words[0];
    if (preload) {
        snprintf(setting, sizeof setting, "LD_PRELOAD=%s", preload);
        unsetenv("LD_PRELOAD");
        *next++ = "-L";
        *next++ = LIBRARIES;
        *next++ = "-E";
        *next++ = setting;
    }
    *next++ = preload ? TWIN : PROGRAM;
    memcpy(next, words + 1, (size_t)count * sizeof *words);
    execvp(call[0], call);
    perror(call[0]);
    return 127;
}
