/* power PROGRAM SHIM FOLDER COUNT [JOBS]: a change of a redundant pair is broken off COUNT times, and each time the pair
 * must load as the environment before it or as the new one, by `ubtool printenv` and, where it is installed, by
 * libubootenv's fw_printenv. The ways, in turn:
 *   - SIGKILL after a random time;
 *   - SIGKILL after a random number of bytes written, by the shim of tools/refuse_io.c;
 *   - some blocks of the new copy alone, of 1 to 512 bytes each, as a device may leave them. Here a whole change comes
 *     before: blocks of two broken changes could make up the first of them, which no checksum can tell.
 * The numbers come from a fixed seed. The pair is changed on in the state that it was left in. */
#include "common.h"
#include <errno.h>
#include <stdio.h>
#include <stdlib.h>
#include <string.h>
#include <sys/stat.h>
#include <sys/wait.h>
#include <unistd.h>

enum { SEED = 4, SIZE = 2048 };
static const char *program, *other = "/usr/bin/fw_printenv";
static char shim[4096];

/* How often the change was broken off in each way, and what loaded then. */
struct tally {
    size_t old, new;
};

static void change(const char *value, double kill_after, long cut, struct ran *ran) {
    char *words[] = {(char *)program, "setenv", "-c", "config", "--", "changed", (char *)value, NULL};
    char number[64], preload[sizeof shim + 16];
    char *environment[] = {preload, number, "ASAN_OPTIONS=verify_asan_link_order=0", NULL};
    struct start start = {program, words, cut >= 0 ? environment : NULL, NULL, 1 << 27, 60, kill_after};
    snprintf(preload, sizeof preload, "LD_PRELOAD=%s", shim);
    snprintf(number, sizeof number, "KILL_AFTER=%ld", cut);
    run(&start, ran);
}

static bool load(const char *by, bool is_ours, struct bytes *value) {
    static struct ran ran;
    char *ours[] = {(char *)by, "printenv", "-c", "config", "-n", "changed", NULL};
    char *theirs[] = {(char *)by, "-c", "config", "-n", "changed", NULL};
    struct start start = {by, is_ours ? ours : theirs, NULL, NULL, 1 << 27, 60, 0};
    run(&start, &ran);
    set_bytes(value, &ran.out);
    return ran.status == 0 && ran.err.length == 0 && ends_with(value, "\n") && value->length-- > 0;
}

/* A new value; now and then one so long that it fills the image. */
static void make_value(struct random *random, size_t number, char *value) {
    size_t length = one_in(random, 4) ? SIZE - 100 : below(random, 400);
    int front = snprintf(value, SIZE, "%zu.", number);
    memset(value + front, 'a' + (int)below(random, 26), length);
    value[(size_t)front + length] = 0;
}

/* Leaves some blocks of the new bytes among the old ones. */
static void mix_blocks(struct random *random, const char *path, const struct bytes *old) {
    static struct bytes new;
    size_t block = (size_t)1 << below(random, 10);
    read_file(path, &new);
    for (size_t at = 0; at < new.length; at += block) {
        size_t size = block < new.length - at ? block : new.length - at;
        if (one_in(random, 2)) {
            memcpy(new.data + at, old->data + at, size);
        }
    }
    write_file(path, &new);
}

/* Breaks a change to the value off in one of the ways. */
static void break_off(struct random *random, size_t number, const char *value, double usual, struct bytes *old) {
    static struct ran ran;
    static struct bytes first, second;
    switch (number % 3) {
    case 0: change(value, usual * 1.2 * (double)below(random, 1000) / 1000 + 1e-5, -1, &ran); break;
    case 1: change(value, 0, (long)below(random, SIZE + 1), &ran); break;
    default:
        change("whole", 0, -1, &ran);
        clear(old);
        append_text(old, "whole");
        read_file("first", &first);
        read_file("second", &second);
        change(value, 0, -1, &ran);
        mix_blocks(random, "first", &first);
        mix_blocks(random, "second", &second);
    }
}

static bool is_right(const struct bytes *old, const char *new, const struct bytes *found) {
    struct bytes value = {(unsigned char *)new, strlen(new), 0};
    return are_same(found, old) || are_same(found, &value);
}

/* How long a whole change takes. */
static double usual_time(struct bytes *old) {
    static struct ran ran;
    double longest = 0;
    for (int turn = 0; turn < 5; turn++) {
        change("begin", 0, -1, &ran);
        longest = ran.seconds > longest ? ran.seconds : longest;
    }
    clear(old);
    append_text(old, "begin");
    return longest;
}

static void make_pair(void) {
    struct bytes body = {0}, image = {0}, config = {0};
    append(&body, "changed=old\0other=x\0\0", 21);
    append_text(&config, "first 0 0x800\nsecond 0 0x800\n");
    make_image(&image, &body, SIZE, 1, 0, false);
    write_file("first", &image);
    make_image(&image, &body, SIZE, 0, 0, false);
    write_file("second", &image);
    write_file("config", &config);
}

static int work(const char *folder, size_t job, size_t jobs, size_t count, struct tally *tally) {
    static struct bytes old, ours, theirs;
    static char value[SIZE * 2];
    char path[4200];
    snprintf(path, sizeof path, "%s/%zu", folder, job);
    if ((mkdir(path, 0755) != 0 && errno != EEXIST) || chdir(path) != 0) {
        give_up(path);
    }
    make_pair();
    double usual = usual_time(&old);
    for (size_t number = job; number < count; number += jobs) {
        struct random random = random_of(SEED, number);
        make_value(&random, number, value);
        break_off(&random, number, value, usual, &old);
        if (!load(program, true, &ours) || !is_right(&old, value, &ours)) {
            printf("FAILED: change %zu, by ubtool: %.40s, old %.40s, new %.40s\n", number, text_of(&ours), text_of(&old), value);
            return 1;
        }
        if (other != NULL && (!load(other, false, &theirs) || !are_same(&ours, &theirs))) {
            printf("FAILED: change %zu, by fw_printenv\n", number);
            return 1;
        }
        *(are_same(&ours, &old) ? &tally->old : &tally->new) += 1;
        set_bytes(&old, &ours);
    }
    printf("changes broken off by process %zu: %zu left the old environment, %zu the new one\n", job, tally->old, tally->new);
    fflush(stdout);
    return 0;
}

int main(int argc, char **argv) {
    if (argc < 5 || realpath(argv[2], shim) == NULL) {
        fprintf(stderr, "usage: power PROGRAM SHIM FOLDER COUNT [JOBS]\n");
        return 2;
    }
    size_t count = strtoul(argv[4], NULL, 10), jobs = argc > 5 ? strtoul(argv[5], NULL, 10) : 1;
    int failed = 0, ended;
    program = realpath(argv[1], NULL);
    if (access(other, X_OK) != 0) {
        printf("left out: pairs loaded by fw_printenv, which is not installed\n");
        other = NULL;
    }
    fflush(stdout);
    for (size_t job = 0; job < jobs; job++) {
        if (fork() == 0) {
            struct tally tally = {0, 0};
            int answer = work(argv[3], job, jobs, count, &tally);
            fflush(stdout);
            _exit(answer);
        }
    }
    for (size_t job = 0; job < jobs; job++) {
        wait(&ended);
        failed |= ended;
    }
    printf("%zu changes of a pair broken off%s\n", count, failed ? ", which FAILED" : "");
    return failed != 0;
}
