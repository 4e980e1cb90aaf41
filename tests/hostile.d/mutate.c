/* mutate PROGRAM SEEDS FOLDER COUNT [FIRST [JOBS [SECONDS]]]: feeds the program COUNT hostile inputs, from number FIRST on,
 * by JOBS processes at a time: mutated images, configurations, scripts, device lists, boot scripts and words. The seeds
 * are the files of SEEDS; number N is the same input on every machine. Of each run:
 *   - no signal ends it, it takes less than SECONDS (10 where none are given), and its status is 0, 1 or 2;
 *   - nothing is on the error output if the status is 0; one line `ubtool: ..` if it is 1, or of printenv a
 *     line `## Error: "NAME" not defined` for some of its names, in their order, and no other; one line `ubtool: ..`
 *     or the lines of wrong words where it is 2;
 *   - no file is changed but the copy that a setenv with status 0 writes, and its size stays;
 *   - if the status is 2, and after each refusal but for a failed output or lack of memory, nothing was printed.
 * Some runs are followed by a second one: a variable that was set is printed, and a listing is broken off and gone on
 * with. Of many inputs, some of each kind must end with status 0. The input of a run that fails one of these stays in
 * FOLDER/failed-N, and the status is then 1. */
#include "mutate.h"
#include <dirent.h>
#include <errno.h>
#include <stdio.h>
#include <stdlib.h>
#include <string.h>
#include <sys/mman.h>
#include <sys/stat.h>
#include <sys/wait.h>
#include <unistd.h>

enum { SEED = 19, MOST_WORDS = 24, MOST_SEEDS = 32 };
enum kind { INPUT, PRINT, SET, SCRIPT, REHEARSE, KINDS };
static const char *const kind_names[KINDS] = {"image on standard input", "printenv", "setenv", "setenv -s", "rehearse"};
enum file { CONFIG, FIRST, SECOND, EXTRA, FILES };
static const char *const file_names[FILES] = {"config", "first", "second", "extra"};

struct seeds {
    struct bytes items[MOST_SEEDS];
    size_t count;
};
static struct seeds environments, devices, changes;

/* One input: the files, and the words of the command line. */
struct input {
    size_t number;
    enum kind kind;
    bool is_pair, is_big_endian;
    struct bytes files[FILES];
    struct bytes words[MOST_WORDS];
    size_t word_count, first_name;
};

/* What is reported at the end, shared by the processes. */
struct tally {
    size_t statuses[KINDS][3], followed[KINDS], failed;
    double longest;
};
static struct tally *tallies;
static const char *program;
static double seconds = 10;

static void read_seeds(const char *folder, const char *name, struct seeds *seeds) {
    char path[4096];
    struct dirent **entries;
    snprintf(path, sizeof path, "%s/%s", folder, name);
    int count = scandir(path, &entries, NULL, alphasort);
    for (int at = 0; at < count; at++) {
        snprintf(path, sizeof path, "%s/%s/%s", folder, name, entries[at]->d_name);
        if (entries[at]->d_name[0] != '.' && seeds->count < MOST_SEEDS && read_file(path, &seeds->items[seeds->count])) {
            seeds->count++;
        }
    }
    if (seeds->count == 0) {
        give_up(path);
    }
}

static const struct bytes *some_seed(struct random *random, const struct seeds *seeds) {
    return &seeds->items[below(random, seeds->count)];
}

static void add_word(struct input *input, const char *word) {
    if (input->word_count < MOST_WORDS - 1) {
        struct bytes *place = &input->words[input->word_count++];
        clear(place);
        append_text(place, word);
    }
}

static void add_number(struct random *random, struct input *input, const char *option, size_t bound) {
    char number[32];
    snprintf(number, sizeof number, "%zu", below(random, bound));
    add_word(input, option);
    add_word(input, number);
}

/* Puts the script in the place of the value of bootcmd. */
static void put_script(struct bytes *environment, const struct bytes *script) {
    for (size_t at = 0; at + 8 < environment->length; at++) {
        if (memcmp(environment->data + at, "bootcmd=", 8) == 0 && (at == 0 || environment->data[at - 1] == 0)) {
            size_t length = strlen((char *)environment->data + at + 8);
            replace(environment, at + 8, length, script->data, script->length);
            return;
        }
    }
}

/* A script that is made by the grammar, or that of a seed, mostly mutated. */
static void choose_script(struct random *random, const struct bytes *environment, struct bytes *script) {
    clear(script);
    if (one_in(random, 3)) {
        make_script(random, script, 4);
        while (one_in(random, 2)) {
            append_text(script, "; ");
            make_script(random, script, 4);
        }
    } else {
        const char *at = memmem(environment->data, environment->length, "bootcmd=", 8);
        append_text(script, at == NULL ? "load a || load b" : at + 8);
    }
    if (!one_in(random, 4)) {
        mutate(random, script, script_words);
    }
    for (size_t at = 0; at < script->length; at++) {
        if (script->data[at] == 0) {
            script->data[at] = 'n';
        }
    }
}

/* The entries of an environment, each ended by NUL, and a last NUL. */
static void make_body(struct random *random, const struct input *input, struct bytes *body) {
    static struct bytes script;
    set_bytes(body, some_seed(random, &environments));
    for (size_t at = 0; at < body->length; at++) {
        if (body->data[at] == '\n') {
            body->data[at] = 0;
        }
    }
    append(body, "", 0);
    text_of(body);
    if (input->kind == REHEARSE) {
        choose_script(random, body, &script);
        put_script(body, &script);
        append_byte(body, 0);
        return;
    }
    append_byte(body, 0);
    if (one_in(random, 3)) {
        mutate(random, body, script_words);
    }
}

static void make_images(struct random *random, struct input *input, struct bytes *body) {
    size_t size = body->length + 5 + below(random, one_in(random, 3) ? 4096 : 64);
    int fill = one_in(random, 4) ? 0xff : 0, flag = (int)below(random, 256);
    bool big_endian = one_in(random, 30) ? !input->is_big_endian : input->is_big_endian;
    size = size < 1048576 ? size : 1048576;
    make_image(&input->files[FIRST], body, size, input->is_pair ? flag : -1, fill, big_endian);
    if (input->is_pair) {
        if (one_in(random, 2)) {
            mutate(random, body, change_words);
        }
        flag = one_in(random, 2) ? flag + 1 : one_in(random, 2) ? flag - 1 : (int)below(random, 256);
        make_image(&input->files[SECOND], body, size, flag & 255, fill, big_endian);
    }
    if (one_in(random, input->kind == REHEARSE ? 16 : 6)) {
        mutate(random, &input->files[one_in(random, 2) && input->is_pair ? SECOND : FIRST], script_words);
    }
}

static void make_config(struct random *random, struct input *input) {
    char text[256];
    size_t size = input->files[FIRST].length, front = one_in(random, 4) ? below(random, 600) : 0;
    struct bytes *config = &input->files[CONFIG];
    snprintf(text, sizeof text, "# device offset size\nfirst 0x%zx 0x%zx\n", front, size);
    append_text(config, text);
    if (input->is_pair) {
        snprintf(text, sizeof text, "second\t%zu %zx\n", front, size);
        append_text(config, text);
    }
    if (one_in(random, input->kind == REHEARSE ? 16 : 6)) {
        mutate(random, config, config_words);
    }
    for (enum file file = FIRST; file <= SECOND; file++) {
        for (size_t at = 0; at < front && input->files[file].length > 0; at++) {
            replace(&input->files[file], 0, 0, "f", 1);
        }
    }
}

static void make_extra(struct random *random, struct input *input) {
    bool is_list = input->kind == REHEARSE;
    set_bytes(&input->files[EXTRA], some_seed(random, is_list ? &devices : &changes));
    if (one_in(random, is_list ? 4 : 2)) {
        mutate(random, &input->files[EXTRA], is_list ? device_words : change_words);
    }
}

static void add_names(struct random *random, struct input *input, size_t count) {
    static const char *const names[] = {"bootcmd", "bootargs", "a", "b", "slot", "loadaddr", "filesize", "missing", "", "x y", "é"};
    add_word(input, "--");
    input->first_name = input->word_count;
    for (; count > 0; count--) {
        add_word(input, names[below(random, sizeof names / sizeof names[0])]);
    }
}

static void make_words(struct random *random, struct input *input) {
    static const char *const verbs[] = {"", "printenv", "setenv", "setenv", "rehearse"};
    static const char *const starts[] = {".", "0", "00", "1", "10", "0000", "2", ""};
    if (input->kind == INPUT) {
        return;
    }
    add_word(input, verbs[input->kind]);
    add_word(input, "-c");
    add_word(input, "config");
    if (input->is_big_endian) {
        add_word(input, "--big-endian");
    }
    if (input->kind == PRINT && one_in(random, 4)) {
        add_word(input, "-n");
        add_names(random, input, 1);
    } else if (input->kind == PRINT) {
        add_names(random, input, one_in(random, 2) ? below(random, 5) : 0);
    } else if (input->kind == SET) {
        add_names(random, input, 1 + below(random, 4));
    } else if (input->kind == SCRIPT) {
        add_word(input, "-s");
        add_word(input, "extra");
    } else {
        add_word(input, "-d");
        add_word(input, "extra");
        add_number(random, input, "--devices", 8);
        add_number(random, input, "--steps", one_in(random, 4) ? 3000 : 200);
        add_number(random, input, "--limit", 40);
        if (one_in(random, 8)) {
            add_word(input, "--after");
            add_word(input, starts[below(random, sizeof starts / sizeof starts[0])]);
        }
        add_names(random, input, below(random, 3));
    }
}

/* Bytes in the words, or words left out or put twice; but the words `-c config` stay, so that no configuration of the
 * machine is ever read. */
static void spoil_words(struct random *random, struct input *input) {
    size_t at = below(random, input->word_count - 2);
    at = at == 0 ? 0 : at + 2;
    switch (below(random, 4)) {
    case 0:
        memmove(&input->words[at], &input->words[at + 1], (input->word_count - at - 1) * sizeof input->words[0]);
        input->word_count--;
        memset(&input->words[input->word_count], 0, sizeof input->words[0]);
        break;
    case 1: add_word(input, text_of(&input->words[at])); break;
    default:
        mutate(random, &input->words[at], config_words);
        if (input->words[at].length > 20000) {
            input->words[at].length = 20000;
        }
    }
}

static enum kind kind_of(size_t number) {
    static const enum kind turns[10] = {REHEARSE, PRINT, REHEARSE, SCRIPT, REHEARSE, SET, REHEARSE, PRINT, INPUT, REHEARSE};
    return turns[number % 10];
}

static void make_input(struct input *input, size_t number) {
    static struct bytes body;
    struct random random = random_of(SEED, number);
    for (enum file file = CONFIG; file < FILES; file++) {
        clear(&input->files[file]);
    }
    input->number = number;
    input->kind = kind_of(number);
    input->word_count = input->first_name = 0;
    input->is_pair = input->kind != INPUT && one_in(&random, 2);
    input->is_big_endian = input->kind != INPUT && one_in(&random, 8);
    make_body(&random, input, &body);
    make_images(&random, input, &body);
    make_config(&random, input);
    make_extra(&random, input);
    make_words(&random, input);
    if (input->word_count > 0 && one_in(&random, 20)) {
        spoil_words(&random, input);
        input->first_name = 0;
    }
}

static void write_input(const struct input *input) {
    for (enum file file = CONFIG; file < FILES; file++) {
        write_file(file_names[file], &input->files[file]);
    }
}

static void run_words(struct bytes *words, size_t count, bool has_input, struct ran *ran) {
    char *pointers[MOST_WORDS + 4] = {(char *)program};
    struct start start = {program, pointers, NULL, has_input ? "first" : NULL, 1 << 27, seconds, 0};
    for (size_t at = 0; at < count; at++) {
        pointers[at + 1] = (char *)text_of(&words[at]);
    }
    run(&start, ran);
}

/* One line that starts so, and nothing after it. */
static bool is_line(const struct bytes *text, const char *front) {
    const unsigned char *end = text->length == 0 ? NULL : memchr(text->data, '\n', text->length);
    return begins_with(text, front) && end == text->data + text->length - 1;
}

/* Lines for some of the names, in their order. */
static bool tells_missing(const struct input *input, const struct bytes *err) {
    size_t at = 0;
    static struct bytes line;
    for (size_t word = input->first_name; word < input->word_count && input->first_name > 0; word++) {
        clear(&line);
        append_text(&line, "## Error: \"");
        append(&line, input->words[word].data, input->words[word].length);
        append_text(&line, "\" not defined\n");
        if (err->length - at >= line.length && memcmp(err->data + at, line.data, line.length) == 0) {
            at += line.length;
        }
    }
    return at > 0 && at == err->length;
}

/* NULL where the error output is right for the status. */
static const char *fault_of_errors(const struct input *input, const struct ran *ran) {
    bool is_told = is_line(&ran->err, "ubtool: ");
    switch (ran->status) {
    case 0: return ran->err.length == 0 ? NULL : "an error output with status 0";
    case 1:
        if (is_told) {
            bool may_print = is_line(&ran->err, "ubtool: output failed") || is_line(&ran->err, "ubtool: out of memory");
            return may_print || ran->out.length == 0 ? NULL : "an output beside a refusal";
        }
        if (input->first_name == 0 && begins_with(&ran->err, "## Error: \"")) {
            return NULL;
        }
        return input->kind == PRINT && tells_missing(input, &ran->err) ? NULL : "no line for status 1";
    case 2:
        if (ran->out.length > 0) {
            return "an output beside wrong words";
        }
        return is_told || (begins_with(&ran->err, "error: ") && ends_with(&ran->err, "\n")) ? NULL : "no line for status 2";
    default: return "another status";
    }
}

static const char *fault_of_files(const struct input *input, const struct ran *ran) {
    static struct bytes found;
    bool may_change = (input->kind == SET || input->kind == SCRIPT) && ran->status == 0;
    size_t changed = 0;
    for (enum file file = CONFIG; file < FILES; file++) {
        if (!read_file(file_names[file], &found)) {
            return "a file is gone";
        }
        if (!are_same(&found, &input->files[file])) {
            changed++;
            if (found.length != input->files[file].length) {
                return "a file of another size";
            }
        }
    }
    return changed <= (may_change ? 1 : 0) ? NULL : "a file was changed";
}

/* A variable that was set is printed: the words, joined by one space, and a newline. */
static const char *fault_of_setting(struct input *input, const struct ran *first) {
    static struct ran ran;
    static struct bytes wanted, words[MOST_WORDS];
    size_t count = 0, name = input->first_name;
    (void)first;
    clear(&wanted);
    for (size_t at = name + 1; at < input->word_count; at++) {
        append_text(&wanted, at > name + 1 ? " " : "");
        append(&wanted, input->words[at].data, input->words[at].length);
    }
    for (size_t at = 0; at <= name; at++) {
        set_bytes(&words[count++], &input->words[at]);
    }
    clear(&words[0]);
    append_text(&words[0], "printenv");
    clear(&words[count]);
    set_bytes(&words[count], &words[count - 1]);
    set_bytes(&words[count - 1], &words[count - 2]);
    clear(&words[count - 2]);
    append_text(&words[count - 2], "-n");
    run_words(words, count + 1, false, &ran);
    if (wanted.length == 0) {
        return ran.status == 1 && ran.out.length == 0 ? NULL : "a variable that was deleted is printed";
    }
    append_text(&wanted, "\n");
    return ran.status == 0 && are_same(&ran.out, &wanted) ? NULL : "a variable that was set is not printed";
}

/* A whole listing, broken off at some byte, is continued after its last whole record. */
static const char *fault_of_resuming(struct input *input, const struct ran *first) {
    static struct ran ran;
    static struct bytes kept, word, words[MOST_WORDS];
    struct random random = random_of(SEED + 1, input->number);
    size_t count = 0, length;
    clear(&kept);
    append(&kept, first->out.data, below(&random, first->out.length));
    if (!find_resume_point(&kept, &word, &length)) {
        return NULL;
    }
    kept.length = length;
    for (size_t at = 0; at < input->word_count; at++) {
        if (strcmp(text_of(&input->words[at]), "--after") == 0) {
            at++;
        } else if (strcmp(text_of(&input->words[at]), "--") == 0 && count + 3 < MOST_WORDS) {
            clear(&words[count]);
            append_text(&words[count++], "--after");
            set_bytes(&words[count++], &word);
            set_bytes(&words[count++], &input->words[at]);
        } else if (count < MOST_WORDS) {
            set_bytes(&words[count++], &input->words[at]);
        }
    }
    run_words(words, count, false, &ran);
    append(&kept, ran.out.data, ran.out.length);
    return ran.status == 0 && are_same(&kept, &first->out) ? NULL : "a listing that was broken off does not go on";
}

static const char *fault_of_following(struct input *input, const struct ran *ran, struct tally *tally) {
    bool is_whole = input->first_name > 0 && ran->status == 0;
    if (is_whole && input->kind == SET && input->number % 3 == 0) {
        tally->followed[SET]++;
        return fault_of_setting(input, ran);
    }
    if (is_whole && input->kind == REHEARSE && input->number % 3 == 0 && ends_with(&ran->out, "\ndone\n")) {
        tally->followed[REHEARSE]++;
        return fault_of_resuming(input, ran);
    }
    return NULL;
}

static const char *fault_of(struct input *input, const struct ran *ran, struct tally *tally) {
    const char *fault = NULL;
    if (ran->is_late) {
        return "too late";
    }
    if (ran->signal != 0) {
        return "a signal";
    }
    fault = fault_of_errors(input, ran);
    if (fault == NULL) {
        fault = fault_of_files(input, ran);
    }
    return fault != NULL ? fault : fault_of_following(input, ran, tally);
}

/* Keeps what a run was given, and what came of it. */
static void keep(const struct input *input, const struct ran *ran, const char *fault) {
    static struct bytes words;
    char folder[64], path[128];
    snprintf(folder, sizeof folder, "../failed-%zu", input->number);
    mkdir(folder, 0755);
    for (enum file file = CONFIG; file < FILES; file++) {
        snprintf(path, sizeof path, "%s/%s", folder, file_names[file]);
        write_file(path, &input->files[file]);
    }
    clear(&words);
    for (size_t at = 0; at < input->word_count; at++) {
        append(&words, input->words[at].data, input->words[at].length);
        append_text(&words, "\n");
    }
    snprintf(path, sizeof path, "%s/words", folder);
    write_file(path, &words);
    snprintf(path, sizeof path, "%s/error", folder);
    write_file(path, &ran->err);
    printf("FAILED: input %zu, %s: %s (status %d, signal %d)\n", input->number, kind_names[input->kind], fault, ran->status,
        ran->signal);
    fflush(stdout);
}

static void work(const char *folder, size_t job, size_t jobs, size_t first, size_t count) {
    static struct input input;
    static struct ran ran;
    struct tally *tally = &tallies[job];
    char path[4096];
    snprintf(path, sizeof path, "%s/%zu", folder, job);
    if ((mkdir(path, 0755) != 0 && errno != EEXIST) || chdir(path) != 0) {
        give_up(path);
    }
    for (size_t number = first + job; number < first + count; number += jobs) {
        make_input(&input, number);
        write_input(&input);
        run_words(input.words, input.word_count, input.kind == INPUT, &ran);
        if (ran.seconds > tally->longest) {
            tally->longest = ran.seconds;
        }
        const char *fault = fault_of(&input, &ran, tally);
        if (ran.status >= 0 && ran.status <= 2) {
            tally->statuses[input.kind][ran.status]++;
        }
        if (fault != NULL) {
            tally->failed++;
            keep(&input, &ran, fault);
        }
    }
}

static size_t tell(size_t jobs, size_t count) {
    struct tally sum = {0};
    for (size_t job = 0; job < jobs; job++) {
        for (enum kind kind = INPUT; kind < KINDS; kind++) {
            for (int status = 0; status < 3; status++) {
                sum.statuses[kind][status] += tallies[job].statuses[kind][status];
            }
            sum.followed[kind] += tallies[job].followed[kind];
        }
        sum.failed += tallies[job].failed;
        sum.longest = tallies[job].longest > sum.longest ? tallies[job].longest : sum.longest;
    }
    for (enum kind kind = INPUT; kind < KINDS; kind++) {
        printf("%s: %zu with status 0, %zu with 1, %zu with 2; %zu followed by a second run\n", kind_names[kind],
            sum.statuses[kind][0], sum.statuses[kind][1], sum.statuses[kind][2], sum.followed[kind]);
        if (count >= 1000 && sum.statuses[kind][0] < count / 200) {
            printf("FAILED: too few inputs were taken\n");
            sum.failed++;
        }
    }
    printf("%zu hostile inputs, %zu failed, the longest run %.3f s\n", count, sum.failed, sum.longest);
    return sum.failed;
}

int main(int argc, char **argv) {
    if (argc < 5) {
        fprintf(stderr, "usage: mutate PROGRAM SEEDS FOLDER COUNT [FIRST [JOBS [SECONDS]]]\n");
        return 2;
    }
    program = realpath(argv[1], NULL);
    size_t count = strtoul(argv[4], NULL, 10), first = argc > 5 ? strtoul(argv[5], NULL, 10) : 0;
    size_t jobs = argc > 6 ? strtoul(argv[6], NULL, 10) : 1, lost = 0;
    seconds = argc > 7 ? strtod(argv[7], NULL) : seconds;
    read_seeds(argv[2], "environments", &environments);
    read_seeds(argv[2], "devices", &devices);
    read_seeds(argv[2], "changes", &changes);
    tallies = mmap(NULL, jobs * sizeof *tallies, PROT_READ | PROT_WRITE, MAP_SHARED | MAP_ANONYMOUS, -1, 0);
    if (program == NULL || tallies == MAP_FAILED) {
        give_up("mutate");
    }
    for (size_t job = 0; job < jobs; job++) {
        if (fork() == 0) {
            work(argv[3], job, jobs, first, count);
            _exit(0);
        }
    }
    for (size_t job = 0; job < jobs; job++) {
        int ended;
        wait(&ended);
        lost += ended != 0;
    }
    return tell(jobs, count) + lost == 0 ? 0 : 1;
}
