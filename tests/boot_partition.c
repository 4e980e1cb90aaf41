/* A shim before the C library in the place of the kernel's switch of an eMMC boot partition, for tests/boot_partition. A digit
 * that is written to a file force_ro makes the device DEVICE read-only (1) or not (0), and is noted in the file SWITCHED.
 * REFUSED says which call fails, each the first of its kind: a write to the `device`, or one that turns the switch `off` or
 * `on`; or an open of the switch, to `look` at it, to write it (`open`), or to write it once more (`reopen`). */
#define _GNU_SOURCE
#include <dlfcn.h>
#include <errno.h>
#include <fcntl.h>
#include <stdarg.h>
#include <linux/fs.h>
#include <stdio.h>
#include <stdlib.h>
#include <string.h>
#include <sys/ioctl.h>
#include <sys/stat.h>
#include <sys/syscall.h>
#include <unistd.h>

static ssize_t (*real_write)(int, const void *, size_t);

/* Whether this write is the one that fails. */
static int is_refused(const char *kind) {
    static int has_failed;
    const char *refused = getenv("REFUSED");
    if (has_failed || refused == NULL || strcmp(refused, kind) != 0) {
        return 0;
    }
    has_failed = 1;
    errno = EIO;
    return 1;
}

/* Makes the device read-only or not, and notes the digit. */
static void turn(char digit) {
    int read_only = digit == '1';
    int device = open(getenv("DEVICE"), O_RDONLY);
    int note = open(getenv("SWITCHED"), O_WRONLY | O_APPEND | O_CREAT, 0644);
    if (device < 0 || note < 0 || ioctl(device, BLKROSET, &read_only) != 0 || real_write(note, &digit, 1) != 1) {
        perror("boot_partition");
        _exit(9);
    }
    close(device);
    close(note);
}

static int open_file(int folder, const char *path, int how, mode_t mode) {
    static int opened;
    const char *name = strrchr(path, '/');
    if (name != NULL && strcmp(name, "/force_ro") == 0) {
        const char *kind = (how & O_ACCMODE) == O_RDONLY ? "look" : opened++ == 0 ? "open" : "reopen";
        if (is_refused(kind)) {
            return -1;
        }
    }
    return (int)syscall(SYS_openat, folder, path, how, mode);
}

static mode_t mode_of(int how, va_list rest) {
    return (how & O_CREAT) != 0 ? va_arg(rest, mode_t) : 0;
}

int open(const char *path, int how, ...) {
    va_list rest;
    va_start(rest, how);
    mode_t mode = mode_of(how, rest);
    va_end(rest);
    return open_file(AT_FDCWD, path, how, mode);
}

int open64(const char *path, int how, ...) {
    va_list rest;
    va_start(rest, how);
    mode_t mode = mode_of(how, rest);
    va_end(rest);
    return open_file(AT_FDCWD, path, how, mode);
}

int openat(int folder, const char *path, int how, ...) {
    va_list rest;
    va_start(rest, how);
    mode_t mode = mode_of(how, rest);
    va_end(rest);
    return open_file(folder, path, how, mode);
}

ssize_t write(int file, const void *bytes, size_t size) {
    char link[64], path[4096];
    struct stat known;
    real_write = (ssize_t(*)(int, const void *, size_t))dlsym(RTLD_NEXT, "write");
    snprintf(link, sizeof link, "/proc/self/fd/%d", file);
    ssize_t length = readlink(link, path, sizeof path - 1);
    path[length < 0 ? 0 : length] = '\0';
    const char *name = strrchr(path, '/');
    if (name != NULL && strcmp(name, "/force_ro") == 0 && size > 0) {
        char digit = *(const char *)bytes;
        if (is_refused(digit == '1' ? "on" : "off")) {
            return -1;
        }
        turn(digit);
    } else if (fstat(file, &known) == 0 && S_ISBLK(known.st_mode) && is_refused("device")) {
        return -1;
    }
    return real_write(file, bytes, size);
}
