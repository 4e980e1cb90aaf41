/* Runs a program for 64-bit ARM by qemu-aarch64, with the words and the name that this is called by. The program has the
   path of this one with `.arm64` after it, or is the one that -DPROGRAM names, if no file has that path. A library that
   LD_PRELOAD names is one for ARM: the program loads it, and qemu does not. -DQEMU and -DSYSROOT name qemu and the folder
   that has lib/ld-linux-aarch64.so.1. */
#define _GNU_SOURCE
#include <limits.h>
#include <stdio.h>
#include <stdlib.h>
#include <string.h>
#include <unistd.h>

int main(int argc, char **argv)
{
    char beside[PATH_MAX + sizeof ".arm64"];
    char **words = calloc((size_t)argc + 10, sizeof *words), *preload, *given = getenv("LD_PRELOAD");
    ssize_t length = readlink("/proc/self/exe", beside, PATH_MAX);
    int n = 0;
    if (length < 0 || !words || (given && asprintf(&preload, "LD_PRELOAD=%s", given) < 0)) {
        return 127;
    }
    strcpy(beside + length, ".arm64");
    words[n++] = QEMU;
    words[n++] = "-0";
    words[n++] = argc ? argv[0] : "";
    words[n++] = "-L";
    words[n++] = SYSROOT;
    if (given) {
        words[n++] = "-E";
        words[n++] = preload;
        unsetenv("LD_PRELOAD");
    }
    words[n++] = access(beside, F_OK) == 0 ? beside : PROGRAM;
    for (int i = 1; i < argc; i++) {
        words[n++] = argv[i];
    }
    execv(QEMU, words);
    perror(QEMU);
    return 127;
}
