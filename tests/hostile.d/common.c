/* See common.h. */
#include "common.h"
#include <errno.h>
#include <fcntl.h>
#include <poll.h>
#include <signal.h>
#include <stdio.h>
#include <stdlib.h>
#include <string.h>
#include <sys/mman.h>
#include <sys/resource.h>
#include <sys/syscall.h>
#include <sys/time.h>
#include <sys/wait.h>
#include <time.h>
#include <unistd.h>

void give_up(const char *what) {
    perror(what);
    exit(2);
}

uint64_t next_number(struct random *random) {
    uint64_t mixed = random->state += 0x9e3779b97f4a7c15u;
    mixed = (mixed ^ (mixed >> 30)) * 0xbf58476d1ce4e5b9u;
    mixed = (mixed ^ (mixed >> 27)) * 0x94d049bb133111ebu;
    return mixed ^ (mixed >> 31);
}

struct random random_of(uint64_t seed, uint64_t number) {
    struct random random = {seed};
    random.state = next_number(&random) + number;
    random.state = next_number(&random);
    return random;
}

size_t below(struct random *random, size_t bound) {
    return bound == 0 ? 0 : next_number(random) % bound;
}

bool one_in(struct random *random, size_t count) {
    return below(random, count) == 0;
}

static void make_room(struct bytes *bytes, size_t room) {
    if (room <= bytes->room) {
        return;
    }
    bytes->room = room * 2 + 64;
    bytes->data = realloc(bytes->data, bytes->room);
    if (bytes->data == NULL) {
        give_up("memory");
    }
}

void clear(struct bytes *bytes) {
    bytes->length = 0;
}

void append(struct bytes *bytes, const void *data, size_t length) {
    make_room(bytes, bytes->length + length + 1);
    if (length > 0) {
        memcpy(bytes->data + bytes->length, data, length);
    }
    bytes->length += length;
}

void append_text(struct bytes *bytes, const char *text) {
    append(bytes, text, strlen(text));
}

void append_byte(struct bytes *bytes, int byte) {
    unsigned char value = (unsigned char)byte;
    append(bytes, &value, 1);
}

void set_bytes(struct bytes *bytes, const struct bytes *from) {
    clear(bytes);
    append(bytes, from->data, from->length);
}

void replace(struct bytes *bytes, size_t at, size_t count, const void *data, size_t length) {
    size_t behind = bytes->length - at - count;
    make_room(bytes, bytes->length + length + 1);
    memmove(bytes->data + at + length, bytes->data + at + count, behind);
    if (length > 0) {
        memcpy(bytes->data + at, data, length);
    }
    bytes->length = at + length + behind;
}

bool are_same(const struct bytes *one, const struct bytes *other) {
    return one->length == other->length && (one->length == 0 || memcmp(one->data, other->data, one->length) == 0);
}

bool begins_with(const struct bytes *bytes, const char *text) {
    size_t length = strlen(text);
    return bytes->length >= length && memcmp(bytes->data, text, length) == 0;
}

bool ends_with(const struct bytes *bytes, const char *text) {
    size_t length = strlen(text);
    return bytes->length >= length && memcmp(bytes->data + bytes->length - length, text, length) == 0;
}

const char *text_of(struct bytes *bytes) {
    make_room(bytes, bytes->length + 1);
    bytes->data[bytes->length] = 0;
    return (const char *)bytes->data;
}

void write_file(const char *path, const struct bytes *bytes) {
    int file = open(path, O_WRONLY | O_CREAT | O_TRUNC | O_CLOEXEC, 0644);
    if (file < 0 || write(file, bytes->data, bytes->length) != (ssize_t)bytes->length || close(file) != 0) {
        give_up(path);
    }
}

static void read_all(int file, struct bytes *bytes) {
    ssize_t count;
    do {
        make_room(bytes, bytes->length + 65536);
        count = read(file, bytes->data + bytes->length, 65536);
        if (count > 0) {
            bytes->length += (size_t)count;
        }
    } while (count > 0);
}

bool read_file(const char *path, struct bytes *bytes) {
    int file = open(path, O_RDONLY | O_CLOEXEC);
    clear(bytes);
    if (file < 0) {
        return false;
    }
    read_all(file, bytes);
    close(file);
    return true;
}

uint32_t crc_of(const unsigned char *data, size_t length) {
    static uint32_t table[256];
    uint32_t crc = 0xffffffffu;
    if (table[1] == 0) {
        for (uint32_t byte = 0; byte < 256; byte++) {
            uint32_t value = byte;
            for (int bit = 0; bit < 8; bit++) {
                value = (value >> 1) ^ ((value & 1) != 0 ? 0xedb88320u : 0);
            }
            table[byte] = value;
        }
    }
    for (size_t at = 0; at < length; at++) {
        crc = (crc >> 8) ^ table[(crc ^ data[at]) & 0xff];
    }
    return ~crc;
}

void make_image(struct bytes *image, const struct bytes *body, size_t size, int flag, int fill, bool big_endian) {
    size_t start = flag < 0 ? 4 : 5;
    uint32_t crc;
    clear(image);
    append(image, "\0\0\0\0", 4);
    if (flag >= 0) {
        append_byte(image, flag);
    }
    append(image, body->data, body->length);
    while (image->length < size) {
        append_byte(image, fill);
    }
    image->length = size;
    crc = crc_of(image->data + start, size - start);
    for (int at = 0; at < 4; at++) {
        image->data[big_endian ? 3 - at : at] = (unsigned char)(crc >> (8 * at));
    }
}

static volatile pid_t running;

static void end_late(int signal) {
    (void)signal;
    if (running > 0) {
        kill(running, SIGKILL);
    }
}

static double now(void) {
    struct timespec time;
    clock_gettime(CLOCK_MONOTONIC, &time);
    return (double)time.tv_sec + (double)time.tv_nsec / 1e9;
}

static void set_timer(double seconds) {
    struct itimerval timer = {{0, 0}, {0, 0}};
    timer.it_value.tv_sec = (time_t)seconds;
    timer.it_value.tv_usec = (suseconds_t)((seconds - (double)timer.it_value.tv_sec) * 1e6);
    if (seconds > 0 && timer.it_value.tv_sec == 0 && timer.it_value.tv_usec == 0) {
        timer.it_value.tv_usec = 1;
    }
    setitimer(ITIMER_REAL, &timer, NULL);
}

/* The output goes to a file in memory, the error output to a pipe, both of which a process keeps for further runs. */
static int out_file, err_pipe[2], null_file;
static pid_t owner;

static void prepare(void) {
    struct sigaction action = {0};
    owner = getpid();
    out_file = memfd_create("out", MFD_CLOEXEC);
    null_file = open("/dev/null", O_RDONLY | O_CLOEXEC);
    if (out_file < 0 || null_file < 0 || pipe2(err_pipe, O_CLOEXEC) != 0) {
        give_up("files of a run");
    }
    fcntl(err_pipe[1], F_SETPIPE_SZ, 1 << 20);
    fcntl(err_pipe[0], F_SETFL, O_NONBLOCK);
    action.sa_handler = end_late;
    sigaction(SIGALRM, &action, NULL);
    signal(SIGXFSZ, SIG_IGN);
}

static pid_t begin(const struct start *start, int input) {
    static char *none[] = {NULL};
    char **environment = start->environment != NULL ? start->environment : none;
    struct rlimit room = {(rlim_t)start->room, (rlim_t)start->room}, no_core = {0, 0};
    pid_t child = vfork();
    if (child != 0) {
        return child;
    }
    if (dup2(input, 0) >= 0 && dup2(out_file, 1) >= 0 && dup2(err_pipe[1], 2) >= 0 &&
        setrlimit(RLIMIT_FSIZE, &room) == 0 && setrlimit(RLIMIT_CORE, &no_core) == 0) {
        execve(start->program, start->words, environment);
    }
    _exit(127);
}

static void wait_for(pid_t child, struct ran *ran) {
    struct rusage usage;
    int ended;
    while (wait4(child, &ended, 0, &usage) < 0) {
        if (errno != EINTR) {
            give_up("wait4");
        }
    }
    ran->status = WIFEXITED(ended) ? WEXITSTATUS(ended) : -1;
    ran->signal = WIFSIGNALED(ended) ? WTERMSIG(ended) : 0;
    ran->cpu = (double)(usage.ru_utime.tv_sec + usage.ru_stime.tv_sec) +
               (double)(usage.ru_utime.tv_usec + usage.ru_stime.tv_usec) / 1e6;
    ran->kib = usage.ru_maxrss;
}

void run(const struct start *start, struct ran *ran) {
    int input;
    double limit = start->kill_after > 0 ? start->kill_after : start->seconds;
    if (owner != getpid()) {
        prepare();
    }
    input = start->input != NULL ? open(start->input, O_RDONLY | O_CLOEXEC) : null_file;
    if (input < 0 || ftruncate(out_file, 0) != 0 || lseek(out_file, 0, SEEK_SET) != 0) {
        give_up("a run");
    }
    ran->seconds = now();
    running = begin(start, input);
    if (running < 0) {
        give_up("vfork");
    }
    set_timer(limit);
    wait_for(running, ran);
    running = 0;
    set_timer(0);
    ran->seconds = now() - ran->seconds;
    ran->is_late = ran->seconds >= start->seconds;
    if (input != null_file) {
        close(input);
    }
    clear(&ran->out);
    clear(&ran->err);
    lseek(out_file, 0, SEEK_SET);
    read_all(out_file, &ran->out);
    read_all(err_pipe[0], &ran->err);
}

static bool line_begins(const unsigned char *line, size_t length, const char *text) {
    return length >= strlen(text) && memcmp(line, text, strlen(text)) == 0;
}

bool find_resume_point(const struct bytes *written, struct bytes *word, size_t *length) {
    struct bytes begun = {0};
    bool is_begun = false, is_found = false;
    size_t at = 0;
    while (at < written->length) {
        const unsigned char *line = written->data + at;
        const unsigned char *end = memchr(line, '\n', written->length - at);
        size_t size;
        if (end == NULL) {
            break;
        }
        size = (size_t)(end - line);
        at += size + 1;
        if (line_begins(line, size, "end ") || line_begins(line, size, "cut ") || line_begins(line, size, "stop ") ||
            line_begins(line, size, "booted ") || line_begins(line, size, "restarted ") ||
            line_begins(line, size, "halted ")) {
            if (is_begun) {
                set_bytes(word, &begun);
                *length = at;
                is_found = true;
            }
        } else if (line_begins(line, size, "run ")) {
            clear(&begun);
            append(&begun, line + 4, size - 4);
            is_begun = true;
        }
    }
    free(begun.data);
    return is_found;
}
