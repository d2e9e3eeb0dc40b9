/* Two clocks for tools/program/long.sh, each printing user seconds, system seconds and peak kilobytes on one line.
   long run PROGRAM FILE     the program with FILE as standard input and its samples to /dev/null; what it says goes through
   long whole FILE           qoa_decode_all on FILE, which is in memory, into memory that is lent: the call alone */
#include <fcntl.h>
#include <stdio.h>
#include <stdlib.h>
#include <string.h>
#include <sys/resource.h>
#include <sys/wait.h>
#include <unistd.h>
#include "tromvask.h"

static double seconds(struct timeval t) { return t.tv_sec + t.tv_usec / 1e6; }

static void print(struct rusage before, struct rusage after) {
    printf("%.3f %.3f %ld\n", seconds(after.ru_utime) - seconds(before.ru_utime), seconds(after.ru_stime) - seconds(before.ru_stime), after.ru_maxrss);
}

/* The child has this small process's peak at least, as Linux hands it on; so the figure is never too low. */
static int run(const char *program, const char *file) {
    struct rusage none, used;
    int status;
    pid_t child = fork();
    memset(&none, 0, sizeof none);
    if (child == 0) {
        dup2(open(file, O_RDONLY), 0);
        dup2(open("/dev/null", O_WRONLY), 1);
        execl(program, program, (char *)NULL);
        _exit(127);
    }
    if (child < 0 || wait4(child, &status, 0, &used) != child || status != 0) return 1;
    print(none, used);
    return 0;
}

static int whole(const char *file) {
    struct rusage before, after;
    int fd = open(file, O_RDONLY);
    off_t length = lseek(fd, 0, SEEK_END);
    uint8_t *bytes = malloc(length);
    off_t have = 0;
    lseek(fd, 0, SEEK_SET);
    while (have < length) {
        ssize_t got = read(fd, bytes + have, length - have);
        if (got <= 0) return 1;
        have += got;
    }
    int64_t need = qoa_decode_need(bytes, length);
    if (need < 0) return 1;
    int16_t *samples = malloc(need * sizeof *samples);
    getrusage(RUSAGE_SELF, &before);
    if (qoa_decode_all(bytes, length, samples, need) != need) return 1;
    getrusage(RUSAGE_SELF, &after);
    print(before, after);
    return 0;
}

int main(int count, char **words) {
    if (count == 4 && !strcmp(words[1], "run")) return run(words[2], words[3]);
    if (count == 3 && !strcmp(words[1], "whole")) return whole(words[2]);
    return 2;
}
