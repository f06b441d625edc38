/* Runs a command with this process's streams and writes four numbers to a file: the nanoseconds that it took, the most
   memory that it had at a time, in KiB, the nanoseconds that processors worked for it, in the program and in the kernel, and
   its page faults without input or output.
   Usage: measure FILE COMMAND [WORDS]. Answers the command's exit status. */
#include <stdio.h>
#include <sys/resource.h>
#include <sys/wait.h>
#include <time.h>
#include <unistd.h>

static long long nanoseconds(struct timeval time) {
    return time.tv_sec * 1000000000LL + time.tv_usec * 1000LL;
}

int main(int count, char **words) {
    struct timespec start, end;
    struct rusage used;
    int status;
    if (count < 3) return 2;
    clock_gettime(CLOCK_MONOTONIC, &start);
    pid_t child = fork();
    if (child == 0) {
        execvp(words[2], words + 2);
        _exit(127);
    }
    if (child < 0 || wait4(child, &status, 0, &used) < 0) return 2;
    clock_gettime(CLOCK_MONOTONIC, &end);
    FILE *file = fopen(words[1], "w");
    if (!file) return 2;
    fprintf(file, "%lld %ld %lld %ld\n", (end.tv_sec - start.tv_sec) * 1000000000LL + end.tv_nsec - start.tv_nsec, used.ru_maxrss,
            nanoseconds(used.ru_utime) + nanoseconds(used.ru_stime), used.ru_minflt);
    if (fclose(file) != 0) return 2;
    return WIFEXITED(status) ? WEXITSTATUS(status) : 1;
}
