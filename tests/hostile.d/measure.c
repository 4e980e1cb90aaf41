/* measure SECONDS PROGRAM WORD..: runs the program, with nothing on its standard input, for at most so many seconds,
 * passes on what it prints, and writes a line with its processor time in milliseconds and its memory in KiB to the file
 * that MEASURED names. The status is the program's, or 99 where a signal ended it. */
#include "common.h"
#include <stdio.h>
#include <stdlib.h>
#include <unistd.h>

static void pass_on(int file, const struct bytes *bytes) {
    size_t at = 0;
    while (at < bytes->length) {
        ssize_t count = write(file, bytes->data + at, bytes->length - at);
        if (count <= 0) {
            give_up("write");
        }
        at += (size_t)count;
    }
}

int main(int argc, char **argv) {
    static struct ran ran;
    const char *path = getenv("MEASURED");
    if (argc < 3 || path == NULL) {
        fprintf(stderr, "usage: MEASURED=FILE measure SECONDS PROGRAM WORD..\n");
        return 2;
    }
    struct start start = {argv[2], argv + 2, NULL, NULL, 1 << 30, atof(argv[1]), 0};
    run(&start, &ran);
    pass_on(1, &ran.out);
    pass_on(2, &ran.err);
    FILE *file = fopen(path, "w");
    if (file == NULL || fprintf(file, "%.1f %ld\n", ran.cpu * 1000, ran.kib) < 0 || fclose(file) != 0) {
        give_up(path);
    }
    return ran.status < 0 ? 99 : ran.status;
}
