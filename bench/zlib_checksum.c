/* zlib's crc32 over 64 MiB: prints its name, the sum and the nanoseconds of each round. bench/checksum's program has the
   same bytes. */
#include <stdint.h>
#include <stdio.h>
#include <stdlib.h>
#include <time.h>
#include <zlib.h>

enum { LEN = 67108864, ROUNDS = 10 };

int main(void) {
    unsigned char *bytes = malloc(LEN);
    uint32_t x = 1;
    if (!bytes) return 1;
    for (size_t i = 0; i < LEN; i++) {
        x = x * 1664525u + 1013904223u;
        bytes[i] = (unsigned char)(x >> 24);
    }
    for (int round = 0; round < ROUNDS; round++) {
        struct timespec start, end;
        clock_gettime(CLOCK_MONOTONIC, &start);
        unsigned long sum = crc32(0, bytes, LEN);
        clock_gettime(CLOCK_MONOTONIC, &end);
        long long taken = (end.tv_sec - start.tv_sec) * 1000000000LL + end.tv_nsec - start.tv_nsec;
        printf("zlib %08lx %lld\n", sum, taken);
    }
    return 0;
}
