/* See mutate.h. */
#include "mutate.h"
#include <stdlib.h>
#include <string.h>

/* A text is not made longer than this. */
enum { LONGEST = 200000 };

const char *const script_words[] = {
    "if ", "then ", "elif ", "else ", "fi", "while ", "until ", "for ", "in ", "do ", "done", "; ", "\n", " && ", " || ",
    "&", "|", "#", "'", "\"", "\\", "\\\n", "$", "${", "}", "$?", "${?}", "$x$x", "$a", "\"$a\"", "''", "${bootcmd}",
    "setenv ", "setenv a ", "run ", "run self;", "run bootcmd", "test ", "test -e mmc 0:1 /a", "echo ", "echo -n ",
    "true", "false", "exit ", "exit 300", "exit -1", "load ", "bootm", "mmc dev 1", "dhcp", "-e ", "-n ", "-z ", "-a ",
    "-o ", "! ", " = ", " != ", " < ", " > ", " -eq ", " -lt ", "0x", "0x10", "08", "99999999999999999999", "x=", "a=$a$a ",
    "while true; do true; done", "if true; then ", "; fi", "setenv -x 1", "setenv bootcmd", NULL};
const char *const device_words[] = {"final ", "load", "echo", "test", "setenv", "=", "a=", "a=b", " -x=1", "\n", "\r\n", "#",
    "\t", " ", "bootm", "dhcp", "bootcmd=run self", NULL};
const char *const change_words[] = {"=", " ", "\n", "\r\n", "#", "\t", "bootcmd ", "bootcmd", "a=", "a ", "\n\n", "0123456789abcdef",
    NULL};
const char *const config_words[] = {"first", "second", "missing", ".", " ", "\t", "\n", "#", "0", "0x", "0x0", "08", "010", "-1",
    "0x100000", "100001", "9223372036854775807", "9223372036854775808", "18446744073709551616", "/dev/null", "5", "6", NULL};

static const char odd_bytes[] = {0, 1, '\n', '\r', '\t', ' ', '!', '"', '#', '$', '&', '\'', '-', '=', '\\', '{', '}', '|', 0x7f,
    (char)0x80, (char)0xc3, (char)0xff};

static size_t place_in(struct random *random, const struct bytes *bytes) {
    return below(random, bytes->length + 1);
}

/* Some bytes of the text from a place on, mostly few. */
static size_t some_from(struct random *random, const struct bytes *bytes, size_t at) {
    size_t count = below(random, one_in(random, 8) ? bytes->length + 1 : 24);
    return count < bytes->length - at ? count : bytes->length - at;
}

static void put_word(struct random *random, struct bytes *bytes, const char *const *words, bool in_place) {
    size_t count = 0, at = place_in(random, bytes);
    while (words[count] != NULL) {
        count++;
    }
    const char *word = words[below(random, count)];
    replace(bytes, at, in_place ? some_from(random, bytes, at) : 0, word, strlen(word));
}

static void change_byte(struct random *random, struct bytes *bytes) {
    size_t at = below(random, bytes->length);
    if (bytes->length == 0) {
        return;
    }
    switch (below(random, 3)) {
    case 0: bytes->data[at] ^= (unsigned char)(1u << below(random, 8)); break;
    case 1: bytes->data[at] = (unsigned char)next_number(random); break;
    default: bytes->data[at] = (unsigned char)odd_bytes[below(random, sizeof odd_bytes)];
    }
}

/* Puts a part of the text somewhere else, once or many times. */
static void copy_part(struct random *random, struct bytes *bytes) {
    size_t from = place_in(random, bytes), count = some_from(random, bytes, from);
    size_t turns = one_in(random, 6) ? 1 + below(random, 200) : 1;
    unsigned char *part = malloc(count + 1);
    if (part == NULL) {
        give_up("memory");
    }
    memcpy(part, bytes->data + from, count);
    size_t at = place_in(random, bytes);
    for (size_t turn = 0; turn < turns && bytes->length + count < LONGEST; turn++) {
        replace(bytes, at, 0, part, count);
    }
    free(part);
}

static void mutate_once(struct random *random, struct bytes *bytes, const char *const *words) {
    size_t at = place_in(random, bytes);
    switch (below(random, 10)) {
    case 0: case 1: change_byte(random, bytes); break;
    case 2: replace(bytes, at, some_from(random, bytes, at), "", 0); break;
    case 3: case 4: copy_part(random, bytes); break;
    case 5: case 6: case 7: put_word(random, bytes, words, false); break;
    case 8: put_word(random, bytes, words, true); break;
    default:
        if (one_in(random, 4)) {
            bytes->length = at;
        } else {
            char byte = odd_bytes[below(random, sizeof odd_bytes)];
            replace(bytes, at, 0, &byte, 1);
        }
    }
}

void mutate(struct random *random, struct bytes *bytes, const char *const *words) {
    size_t turns = 1 + below(random, one_in(random, 5) ? 30 : 4);
    append(bytes, "", 0);
    for (size_t turn = 0; turn < turns && bytes->length < LONGEST; turn++) {
        mutate_once(random, bytes, words);
    }
}

static void pick(struct random *random, struct bytes *script, const char *const *from, size_t count) {
    append_text(script, from[below(random, count)]);
}
#define PICK(random, script, from) pick(random, script, from, sizeof(from) / sizeof(from)[0])

static const char *const some_words[] = {"a", "$a", "\"$a b\"", "'c  d'", "''", "$?", "${x}", "$x$y", "\\;", "0x1f", "-n", "-z", "=",
    "!", "-a", "-eq", "12", "\"${a}'\"", "$i", "-", "run", "x=1"};
static const char *const simple_heads[] = {"load", "load mmc 0:1", "bootm", "dhcp", "mmc dev", "echo", "echo -n", "true", "false",
    "exit", "setenv a", "setenv b", "setenv x", "setenv bootcmd", "run deeper", "run t", "run self", "test a =", "test -n", "test !",
    "test 3 -gt", "test -e mmc 0:1", "x=1", "y=$x", "x=$x$x", "$a", "nothing", "setenv t 'load; exit 2;'"};

static void make_simple(struct random *random, struct bytes *script) {
    PICK(random, script, simple_heads);
    for (size_t words = below(random, 4); words > 0; words--) {
        append_byte(script, ' ');
        PICK(random, script, some_words);
    }
}

static void make_block(struct random *random, struct bytes *script, int depth) {
    static const char *const joins[] = {"; ", "; ", "\n", " && ", " || ", ";; \n", " ||\n"};
    for (size_t commands = below(random, 3); commands > 0; commands--) {
        make_script(random, script, depth);
        PICK(random, script, joins);
    }
    make_script(random, script, depth);
    append_text(script, "; ");
}

static void make_if(struct random *random, struct bytes *script, int depth) {
    append_text(script, "if ");
    make_block(random, script, depth);
    append_text(script, "then ");
    make_block(random, script, depth);
    if (one_in(random, 3)) {
        append_text(script, "elif ");
        make_block(random, script, depth);
        append_text(script, "then ");
        make_block(random, script, depth);
    }
    if (one_in(random, 2)) {
        append_text(script, "else ");
        make_block(random, script, depth);
    }
    append_text(script, "fi");
}

void make_script(struct random *random, struct bytes *script, int depth) {
    size_t kind = depth <= 0 || script->length > 3000 ? 9 : below(random, 10);
    if (kind >= 4) {
        make_simple(random, script);
    } else if (kind >= 2) {
        make_if(random, script, depth - 1);
    } else {
        static const char *const heads[] = {"while ", "until "};
        if (kind == 1) {
            append_text(script, "for i in a \"$a\" $a");
            append_text(script, "; ");
        } else {
            PICK(random, script, heads);
            make_block(random, script, depth - 1);
        }
        append_text(script, "do ");
        make_block(random, script, depth - 1);
        append_text(script, "done");
    }
}
