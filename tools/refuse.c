/* Put before libc by LD_PRELOAD, this refuses one growth of memory: the call of malloc, calloc or realloc that has
 * the number in REFUSE, counted from 1. Without REFUSE none is refused. At the end of the process a line on the file
 * that REFUSE_MET names says whether the number was met, and one on the file that GROWTHS names how many growths were
 * asked for. */
#define _GNU_SOURCE
#include <dlfcn.h>
#include <errno.h>
#include <fcntl.h>
#include <stddef.h>
#include <stdio.h>
#include <stdlib.h>
#include <string.h>
#include <unistd.h>

static unsigned long count;
static unsigned long refused = (unsigned long)-1;
static int ready;

/* Memory that dlsym asks for while the real functions are looked up. */
static char early[4096];
static size_t early_used;

static void *(*real_malloc)(size_t);
static void *(*real_calloc)(size_t, size_t);
static void *(*real_realloc)(void *, size_t);
static void (*real_free)(void *);

__attribute__((constructor)) static void prepare(void) {
    const char *number = getenv("REFUSE");
    real_malloc = dlsym(RTLD_NEXT, "malloc");
    real_calloc = dlsym(RTLD_NEXT, "calloc");
    real_realloc = dlsym(RTLD_NEXT, "realloc");
    real_free = dlsym(RTLD_NEXT, "free");
    if (number != NULL) {
        refused = strtoul(number, NULL, 10);
    }
    ready = 1;
}

/* Writes a line to the file that a variable names, if it is set. */
static void tell_in(const char *variable, const char *line) {
    const char *path = getenv(variable);
    int file = path == NULL ? -1 : open(path, O_WRONLY | O_CREAT | O_TRUNC, 0644);
    if (file >= 0) {
        ssize_t done = write(file, line, strlen(line));
        (void)done;
        close(file);
    }
}

__attribute__((destructor)) static void tell(void) {
    const char *met = count >= refused ? "met\n" : "not met\n";
    char line[32];
    snprintf(line, sizeof line, "%lu\n", count);
    tell_in("REFUSE_MET", met);
    tell_in("GROWTHS", line);
}

static int is_refused(void) {
    if (!ready) {
        return 0;
    }
    count++;
    if (count == refused) {
        errno = ENOMEM;
        return 1;
    }
    return 0;
}

static void *early_memory(size_t size) {
    size_t start = (early_used + 15) / 16 * 16;
    if (start + size > sizeof early) {
        return NULL;
    }
    early_used = start + size;
    return early + start;
}

static int is_early(void *place) {
    return (char *)place >= early && (char *)place < early + sizeof early;
}

void *malloc(size_t size) {
    if (real_malloc == NULL) {
        return early_memory(size);
    }
    return is_refused() ? NULL : real_malloc(size);
}

void *calloc(size_t number, size_t size) {
    if (real_calloc == NULL) {
        return early_memory(number * size);
    }
    return is_refused() ? NULL : real_calloc(number, size);
}

void *realloc(void *place, size_t size) {
    if (real_realloc == NULL || is_early(place)) {
        return NULL;
    }
    return is_refused() ? NULL : real_realloc(place, size);
}

void free(void *place) {
    if (real_free != NULL && !is_early(place)) {
        real_free(place);
    }
}
