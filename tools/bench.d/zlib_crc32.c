/* zlib_crc32: times zlib's crc32 over the pattern that `tests_libraries checksum` makes, in bytes a second, the best of 21 turns. */
#include <stdio.h>
#include <time.h>
#include <zlib.h>

enum { SIZE = 1 << 20 };
static unsigned char data[SIZE];

static double now(void) {
    struct timespec time;
    clock_gettime(CLOCK_MONOTONIC, &time);
    return (double)time.tv_sec + (double)time.tv_nsec / 1e9;
}

int main(void) {
    double best = 1e9;
    unsigned long found = 0;
    for (int at = 0; at < SIZE; at++) {
        data[at] = (unsigned char)(at * 31 + (at >> 8));
    }
    for (int turn = 0; turn < 21; turn++) {
        double start = now();
        found = crc32(0, data, SIZE);
        double time = now() - start;
        best = time < best ? time : best;
    }
    printf("%.0f %08lx\n", SIZE / best, found);
    return 0;
}
