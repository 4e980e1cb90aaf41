/* Put before libc by LD_PRELOAD, this refuses one call on files, or lets each move one byte, and reports each call.
 *   REFUSE_CALL=read|write|lseek|open|fsync|close|flock|chmod|chown|rename|unlink, REFUSE_NUMBER=N: the Nth call of that
 *       kind, counted from 1, fails with the error REFUSE_ERROR=EIO|ENOSPC|EINTR|EINVAL|EBUSY|EPERM. A close that is
 *       refused has closed the file.
 *   MOVE_ONE=1: each read and write moves at most one byte.
 *   KILL_AFTER=N: after N bytes that were written to files (no standard output) the process is ended by SIGKILL.
 *   TELL_CALLS=PATH: a line `KIND FILE` for each call in its order, and `refused KIND FILE` for the refused one. FILE is
 *       the path that was opened, with `<` for reading and `>` for writing before it, or the number of the descriptor; of
 *       a rename the new path.
 * So pwrite and pread, which are written on in `write` and `read`, fdatasync in `fsync`, openat in `open`, fchmod in
 * `chmod` and fchown in `chown`. */
#define _GNU_SOURCE
#include <dlfcn.h>
#include <errno.h>
#include <fcntl.h>
#include <signal.h>
#include <stdarg.h>
#include <stdio.h>
#include <stdlib.h>
#include <string.h>
#include <sys/syscall.h>
#include <unistd.h>

enum { FILES = 64, PATH = 200 };
static char names[FILES][PATH];
static const char *refused_call;
static unsigned long refused_number, calls;
static int refused_error, moves_one, tells = -1;
static long left = -1;

static int error_of(const char *name) {
    static const struct {
        const char *name;
        int error;
    } errors[] = {{"ENOSPC", ENOSPC}, {"EINTR", EINTR}, {"EINVAL", EINVAL}, {"EBUSY", EBUSY}, {"EPERM", EPERM}};
    for (size_t i = 0; i < sizeof errors / sizeof *errors; i++) {
        if (strcmp(name, errors[i].name) == 0) {
            return errors[i].error;
        }
    }
    return EIO;
}

__attribute__((constructor)) static void prepare(void) {
    const char *number = getenv("REFUSE_NUMBER"), *error = getenv("REFUSE_ERROR"), *path = getenv("TELL_CALLS");
    refused_call = getenv("REFUSE_CALL");
    refused_number = number != NULL ? strtoul(number, NULL, 10) : 0;
    refused_error = error_of(error != NULL ? error : "EIO");
    moves_one = getenv("MOVE_ONE") != NULL;
    if (getenv("KILL_AFTER") != NULL) {
        left = atol(getenv("KILL_AFTER"));
    }
    if (path != NULL) {
        int file = (int)syscall(SYS_openat, AT_FDCWD, path, O_WRONLY | O_CREAT | O_TRUNC | O_CLOEXEC, 0644);
        tells = (int)syscall(SYS_fcntl, file, F_DUPFD_CLOEXEC, 500);
        syscall(SYS_close, file);
    }
}

/* Tells of a call on a file, and whether it is refused. */
static int is_refused(const char *call, const char *name) {
    int refuses = refused_call != NULL && strcmp(call, refused_call) == 0 && ++calls == refused_number;
    if (tells >= 0) {
        char line[PATH + 64];
        int length = snprintf(line, sizeof line, "%s%s %s\n", refuses ? "refused " : "", call, name);
        syscall(SYS_write, tells, line, (size_t)length);
    }
    if (refuses) {
        errno = refused_error;
    }
    return refuses;
}

static const char *name_of(int file) {
    static char number[16];
    if (file >= 0 && file < FILES && names[file][0] != 0) {
        return names[file];
    }
    snprintf(number, sizeof number, "%d", file);
    return number;
}

static int open_file(int folder, const char *path, int how, mode_t mode) {
    char name[PATH];
    int file;
    snprintf(name, sizeof name, "%s%s", (how & O_ACCMODE) == O_RDONLY ? "<" : ">", path);
    if (is_refused("open", name)) {
        return -1;
    }
    file = (int)syscall(SYS_openat, folder, path, how, mode);
    if (file >= 0 && file < FILES) {
        memcpy(names[file], name, PATH);
    }
    return file;
}

static mode_t mode_of(int how, va_list rest) {
    return (how & (O_CREAT | O_TMPFILE)) != 0 ? va_arg(rest, mode_t) : 0;
}

int open(const char *path, int how, ...) {
    va_list rest;
    va_start(rest, how);
    mode_t mode = mode_of(how, rest);
    va_end(rest);
    return open_file(AT_FDCWD, path, how, mode);
}

int open64(const char *path, int how, ...) {
    va_list rest;
    va_start(rest, how);
    mode_t mode = mode_of(how, rest);
    va_end(rest);
    return open_file(AT_FDCWD, path, how, mode);
}

int openat(int folder, const char *path, int how, ...) {
    va_list rest;
    va_start(rest, how);
    mode_t mode = mode_of(how, rest);
    va_end(rest);
    return open_file(folder, path, how, mode);
}

static size_t moved(size_t size) {
    return moves_one && size > 1 ? 1 : size;
}

ssize_t read(int file, void *to, size_t size) {
    return is_refused("read", name_of(file)) ? -1 : syscall(SYS_read, file, to, moved(size));
}

ssize_t pread(int file, void *to, size_t size, off_t at) {
    return is_refused("read", name_of(file)) ? -1 : syscall(SYS_pread64, file, to, moved(size), at);
}

/* Takes what is written to a file from what may still be written, and ends the process after it. */
static size_t cut(int file, size_t size) {
    return left >= 0 && file > 2 && size > (size_t)left ? (size_t)left : size;
}

static ssize_t written(int file, ssize_t count) {
    if (left >= 0 && file > 2 && count >= 0) {
        left -= count;
        if (left == 0) {
            kill(getpid(), SIGKILL);
        }
    }
    return count;
}

ssize_t write(int file, const void *from, size_t size) {
    if (is_refused("write", name_of(file))) {
        return -1;
    }
    return written(file, syscall(SYS_write, file, from, cut(file, moved(size))));
}

ssize_t pwrite(int file, const void *from, size_t size, off_t at) {
    if (is_refused("write", name_of(file))) {
        return -1;
    }
    return written(file, syscall(SYS_pwrite64, file, from, cut(file, moved(size)), at));
}

off_t lseek(int file, off_t by, int from) {
    return is_refused("lseek", name_of(file)) ? -1 : syscall(SYS_lseek, file, by, from);
}

off_t lseek64(int file, off_t by, int from) {
    return lseek(file, by, from);
}

int fsync(int file) {
    return is_refused("fsync", name_of(file)) ? -1 : (int)syscall(SYS_fsync, file);
}

int fdatasync(int file) {
    return is_refused("fsync", name_of(file)) ? -1 : (int)syscall(SYS_fdatasync, file);
}

int flock(int file, int how) {
    return is_refused("flock", name_of(file)) ? -1 : (int)syscall(SYS_flock, file, how);
}

int fchmod(int file, mode_t mode) {
    return is_refused("chmod", name_of(file)) ? -1 : (int)syscall(SYS_fchmod, file, mode);
}

int fchown(int file, uid_t owner, gid_t group) {
    return is_refused("chown", name_of(file)) ? -1 : (int)syscall(SYS_fchown, file, owner, group);
}

int rename(const char *from, const char *to) {
    return is_refused("rename", to) ? -1 : (int)syscall(SYS_renameat2, AT_FDCWD, from, AT_FDCWD, to, 0);
}

int unlink(const char *path) {
    return is_refused("unlink", path) ? -1 : (int)syscall(SYS_unlinkat, AT_FDCWD, path, 0);
}

int close(int file) {
    int refuses = is_refused("close", name_of(file));
    int ended = (int)syscall(SYS_close, file);
    if (file >= 0 && file < FILES) {
        names[file][0] = 0;
    }
    if (refuses) {
        errno = refused_error;
        return -1;
    }
    return ended;
}
