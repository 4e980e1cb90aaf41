/* What the programs of tests/hostile share: random numbers from a seed, bytes that grow, images of environments, and
 * a program that is run. */
#ifndef COMMON_H
#define COMMON_H

#define _GNU_SOURCE
#include <stdbool.h>
#include <stddef.h>
#include <stdint.h>
#include <sys/types.h>

/* Random numbers: the same seed gives the same numbers on every machine. */
struct random {
    uint64_t state;
};
struct random random_of(uint64_t seed, uint64_t number);
uint64_t next_number(struct random *random);
size_t below(struct random *random, size_t bound);
bool one_in(struct random *random, size_t count);

/* Bytes that grow. */
struct bytes {
    unsigned char *data;
    size_t length, room;
};
void clear(struct bytes *bytes);
void append(struct bytes *bytes, const void *data, size_t length);
void append_text(struct bytes *bytes, const char *text);
void append_byte(struct bytes *bytes, int byte);
void set_bytes(struct bytes *bytes, const struct bytes *from);
void replace(struct bytes *bytes, size_t at, size_t count, const void *data, size_t length);
bool are_same(const struct bytes *one, const struct bytes *other);
bool begins_with(const struct bytes *bytes, const char *text);
bool ends_with(const struct bytes *bytes, const char *text);
const char *text_of(struct bytes *bytes);

/* Files. Each ends the program where it fails. */
void write_file(const char *path, const struct bytes *bytes);
bool read_file(const char *path, struct bytes *bytes);
void give_up(const char *what);

/* Images: a checksum, a flag where it is not below 0, and a body that is filled up to the size. */
uint32_t crc_of(const unsigned char *data, size_t length);
void make_image(struct bytes *image, const struct bytes *body, size_t size, int flag, int fill, bool big_endian);

/* How a program is run. */
struct start {
    const char *program;
    char **words;
    char **environment;   /* NULL: none */
    const char *input;    /* NULL: /dev/null */
    off_t room;           /* a file, the output too, takes no more bytes than this */
    double seconds;       /* the program is ended after this time */
    double kill_after;    /* if above 0, SIGKILL after this time */
};

/* How it ended. */
struct ran {
    int status;           /* -1 where a signal ended it */
    int signal;
    bool is_late;
    double seconds, cpu;
    long kib;
    struct bytes out, err;
};
void run(const struct start *start, struct ran *ran);

/* Where a listing that was broken off goes on: the word of its last whole record and the length up to it. */
bool find_resume_point(const struct bytes *written, struct bytes *word, size_t *length);

#endif
