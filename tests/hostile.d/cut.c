/* cut FOLDER JOBS PROGRAM WORD..: the program's output, a listing, is broken off after each number of bytes, by a limit
 * on the size of its file. Each time the program must end with status 1 and the line `ubtool: output failed`, and what
 * there is a prefix of that length. From the last whole record of it the listing is gone on with by `--after WORD`, or
 * anew where no record is whole: the kept part and the rest must be the whole listing. JOBS processes share the work. */
#include "common.h"
#include <stdio.h>
#include <stdlib.h>
#include <sys/wait.h>
#include <unistd.h>

enum { MOST_WORDS = 24 };
static char **given;
static size_t given_count;
static const char *program;

static void list(const char *after, off_t room, struct ran *ran) {
    char *words[MOST_WORDS + 4] = {(char *)program};
    struct start start = {program, words, NULL, NULL, room, 60, 0};
    for (size_t at = 0; at < given_count; at++) {
        words[at + 1] = given[at];
    }
    if (after != NULL) {
        words[given_count + 1] = "--after";
        words[given_count + 2] = (char *)after;
    }
    run(&start, ran);
}

static bool is_failed_output(const struct ran *ran) {
    return ran->status == 1 && begins_with(&ran->err, "ubtool: output failed\n") && ran->err.length == 22;
}

/* Whether all is right if the listing is broken off after so many bytes. */
static bool is_right(const struct bytes *whole, size_t room) {
    static struct ran broken, rest;
    static struct bytes word;
    size_t length = 0;
    list(NULL, (off_t)room, &broken);
    struct bytes front = {whole->data, room, room};
    if (!is_failed_output(&broken) || !are_same(&broken.out, &front)) {
        return false;
    }
    bool is_found = find_resume_point(&broken.out, &word, &length);
    list(is_found ? text_of(&word) : NULL, 1 << 30, &rest);
    broken.out.length = is_found ? length : 0;
    append(&broken.out, rest.out.data, rest.out.length);
    return rest.status == 0 && rest.err.length == 0 && are_same(&broken.out, whole);
}

static int work(const struct bytes *whole, size_t job, size_t jobs) {
    for (size_t room = job; room < whole->length; room += jobs) {
        if (!is_right(whole, room)) {
            printf("FAILED: a listing that was broken off after %zu bytes\n", room);
            fflush(stdout);
            return 1;
        }
    }
    return 0;
}

int main(int argc, char **argv) {
    static struct ran whole;
    size_t jobs = argc > 4 ? strtoul(argv[2], NULL, 10) : 0, records = 0;
    int failed = 0, ended;
    program = argc > 4 ? realpath(argv[3], NULL) : NULL;
    if (program == NULL || argc > MOST_WORDS || chdir(argv[1]) != 0) {
        fprintf(stderr, "usage: cut FOLDER JOBS PROGRAM WORD..\n");
        return 2;
    }
    given = argv + 4;
    given_count = (size_t)argc - 4;
    list(NULL, 1 << 30, &whole);
    for (size_t at = 0; at + 4 < whole.out.length; at++) {
        struct bytes line = {whole.out.data + at, whole.out.length - at, 0};
        records += begins_with(&line, "run ") && (at == 0 || whole.out.data[at - 1] == '\n');
    }
    if (whole.status != 0 || records == 0) {
        printf("FAILED: no listing to break off\n");
        return 1;
    }
    for (size_t job = 0; job < jobs; job++) {
        if (fork() == 0) {
            _exit(work(&whole.out, job, jobs));
        }
    }
    for (size_t job = 0; job < jobs; job++) {
        wait(&ended);
        failed |= ended;
    }
    printf("a listing of %zu bytes and %zu records: broken off at each byte, and gone on with%s\n", whole.out.length, records,
        failed ? ", which FAILED" : "");
    return failed != 0;
}
