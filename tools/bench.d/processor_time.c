/* processor_time TURNS PROGRAM WORD..: runs the program so many times, with nothing on its standard input and its outputs
 * thrown away, and prints the least processor time of a run in microseconds, and the most memory of one in KiB. Where
 * BENCH_RESTORE names a shell command, it is run before each turn. The status is 1 where a run did not end with 0. */
#include <fcntl.h>
#include <stdio.h>
#include <stdlib.h>
#include <sys/resource.h>
#include <sys/wait.h>
#include <unistd.h>

static long microseconds(struct timeval time) {
    return time.tv_sec * 1000000L + time.tv_usec;
}

static void become(char **words) {
    int nothing = open("/dev/null", O_RDWR);
    if (nothing < 0 || dup2(nothing, 0) < 0 || dup2(nothing, 1) < 0 || dup2(nothing, 2) < 0) {
        _exit(127);
    }
    execv(words[0], words);
    _exit(127);
}

int main(int argc, char **argv) {
    if (argc < 3) {
        fprintf(stderr, "usage: processor_time TURNS PROGRAM WORD..\n");
        return 2;
    }
    const char *restore = getenv("BENCH_RESTORE");
    long best = -1;
    long most = 0;
    for (int turns = atoi(argv[1]); turns > 0; turns--) {
        if (restore != NULL && system(restore) != 0) {
            return 1;
        }
        pid_t child = fork();
        if (child < 0) {
            return 1;
        }
        if (child == 0) {
            become(argv + 2);
        }
        int status;
        struct rusage used;
        if (wait4(child, &status, 0, &used) < 0 || !WIFEXITED(status) || WEXITSTATUS(status) != 0) {
            return 1;
        }
        long time = microseconds(used.ru_utime) + microseconds(used.ru_stime);
        best = best < 0 || time < best ? time : best;
        most = used.ru_maxrss > most ? used.ru_maxrss : most;
    }
    printf("%ld %ld\n", best, most);
    return 0;
}
