/* Delivers texts of 2,048 bytes to a Maildir as a plain loop does: each is written to a file of
   `tmp`, flushed, and renamed into `new`; with a third word `new` is flushed after each rename too.
   Prints the microseconds of the clock and of the processor. */
#include <fcntl.h>
#include <stdio.h>
#include <stdlib.h>
#include <string.h>
#include <time.h>
#include <unistd.h>

static long micros(clockid_t clock)
{
    struct timespec now;
    clock_gettime(clock, &now);
    return now.tv_sec * 1000000L + now.tv_nsec / 1000;
}

int main(int argc, char **argv)
{
    char text[2048], from[4096], to[4096], folder[4096];
    int count, k, file;
    long wall, processor;
    if (argc < 3)
        return 2;
    memset(text, 'x', sizeof text);
    count = atoi(argv[2]);
    snprintf(folder, sizeof folder, "%s/new", argv[1]);
    wall = micros(CLOCK_MONOTONIC);
    processor = micros(CLOCK_PROCESS_CPUTIME_ID);
    for (k = 1; k <= count; k++) {
        snprintf(from, sizeof from, "%s/tmp/plain-%05d", argv[1], k);
        snprintf(to, sizeof to, "%s/new/plain-%05d", argv[1], k);
        file = open(from, O_WRONLY | O_CREAT | O_TRUNC, 0666);
        if (file < 0 || write(file, text, sizeof text) != sizeof text || fsync(file) || close(file))
            return 1;
        if (rename(from, to))
            return 1;
        if (argc > 3) {
            file = open(folder, O_RDONLY);
            if (file < 0 || fsync(file) || close(file))
                return 1;
        }
    }
    processor = micros(CLOCK_PROCESS_CPUTIME_ID) - processor;
    wall = micros(CLOCK_MONOTONIC) - wall;
    printf("%d %ld %ld\n", count, wall, processor);
    return 0;
}
