/* image SIZE FLAG: writes an image of SIZE bytes with the entries NAME=VALUE on standard input, a line each, and with the
 * flag where it is not below 0. */
#include "common.h"
#include <stdio.h>
#include <stdlib.h>
#include <unistd.h>

int main(int argc, char **argv) {
    struct bytes body = {0}, image = {0};
    int byte;
    if (argc != 3) {
        fprintf(stderr, "usage: image SIZE FLAG\n");
        return 2;
    }
    while ((byte = getchar()) != EOF) {
        append_byte(&body, byte == '\n' ? 0 : byte);
    }
    append_byte(&body, 0);
    make_image(&image, &body, strtoul(argv[1], NULL, 0), atoi(argv[2]), 0, false);
    return write(1, image.data, image.length) == (ssize_t)image.length ? 0 : 1;
}
