/* Lets a program wait for a part of the time that it asks for, or until the test says that time passes, and writes down
   what it asked for.

       cc -O1 -shared -fPIC -o hurry.so hurry.c -ldl
       HURRY=60 HURRY_NOTE=note LD_PRELOAD=./hurry.so PROGRAM ..

   Its monotonic clock goes 60 times as fast, here; a poll, a sleep of a second or more, and a read or a write of a socket
   whose waits it has bounded, last the 60th part. Each bound or sleep adds a line to the file `note`: `poll`, `sleep`,
   `read` or `write` and the milliseconds that were asked for. `nodelay 1` says that what is written to a socket is to go
   out at once. With HURRY_REFUSED=read, or =write, that bound of a socket answers -1 with EINVAL; with =idle, each bound
   of ten minutes or more.

       HURRY_TIME=pipe HURRY_NOTE=note LD_PRELOAD=./hurry.so PROGRAM ..

   Each octet in the named pipe, which the test has open, is a second. The program takes it while it waits in a poll, or for
   a socket that isn't ready and has a bound: so much less is left of the bound, and the monotonic clock is so much later.
   A sleep of a second or more is over at once, and the clock is later by that; this alone with an empty HURRY_TIME. With
   HURRY_NAPS=1 it is a shorter sleep that takes the seconds, all that there are, and no wait does. */

#include "preloaded.h"
#include <netinet/in.h>
#include <netinet/tcp.h>
#include <poll.h>
#include <sys/socket.h>
#include <sys/time.h>
#include <time.h>

enum { MOST_ASKED = 8 };

static long speed = 1;

/* The milliseconds that have passed beside those of the clock, and where more come from. */
static long passed = 0;
static int time_pipe = -1;
static int has_no_sleep = 0;
static int has_naps = 0;

__attribute__((constructor)) static void begin(void)
{
    const char *pipe = getenv("HURRY_TIME");

    speed = number_in("HURRY", 1);
    open_note("HURRY_NOTE");
    has_no_sleep = pipe != NULL;
    has_naps = getenv("HURRY_NAPS") != NULL;
    if (pipe && *pipe)
        time_pipe = open(pipe, O_RDONLY | O_NONBLOCK | O_CLOEXEC);
}

int clock_gettime(clockid_t clock, struct timespec *now)
{
    NEXT(clock_gettime);
    int answer = next(clock, now);

    if (answer == 0 && clock == CLOCK_MONOTONIC) {
        __int128 nanoseconds = ((__int128)now->tv_sec * 1000000000 + now->tv_nsec) * speed + (__int128)passed * 1000000;
        now->tv_sec = (time_t)(nanoseconds / 1000000000);
        now->tv_nsec = (long)(nanoseconds % 1000000000);
    }
    return answer;
}

/* Takes as many seconds as are left, or as there are. */
static void take_time(long *left)
{
    char seconds[1024];
    long wanted = (*left + 999) / 1000;
    long taken = read(time_pipe, seconds, wanted < (long)sizeof seconds ? wanted : (long)sizeof seconds);

    if (taken > 0) {
        passed += taken * 1000;
        *left -= taken * 1000;
    }
}

/* Waits as poll does, and takes time meanwhile from what is left; a negative bound is none. */
static int wait_for(struct pollfd *asked, nfds_t count, long *left)
{
    NEXT(poll);
    struct pollfd all[MOST_ASKED];
    int ready;

    if (count >= MOST_ASKED)
        abort();
    memcpy(all, asked, count * sizeof *asked);
    all[count] = (struct pollfd){*left < 0 || has_naps ? -1 : time_pipe, POLLIN, 0};
    do {
        ready = next(all, count + 1, (int)*left);
        if (ready > 0 && all[count].revents)
            ready--;
        if (ready != 0 || !all[count].revents)
            break;
        take_time(left);
    } while (*left > 0);
    memcpy(asked, all, count * sizeof *asked);
    return ready;
}

int poll(struct pollfd *asked, nfds_t count, int milliseconds)
{
    NEXT(poll);
    long left = milliseconds;

    write_down("poll %d\n", milliseconds);
    if (time_pipe >= 0)
        return wait_for(asked, count, &left);
    return next(asked, count, milliseconds > 0 ? (int)(milliseconds / speed) + 1 : milliseconds);
}

/* The bound of a socket, in milliseconds; negative if it has none. */
static long bound_of(int socket, int name)
{
    struct timeval bound;
    socklen_t size = sizeof bound;

    if (getsockopt(socket, SOL_SOCKET, name, &bound, &size) || (bound.tv_sec == 0 && bound.tv_usec == 0))
        return -1;
    return bound.tv_sec * 1000 + bound.tv_usec / 1000;
}

ssize_t recv(int socket, void *octets, size_t count, int flags)
{
    NEXT(recv);
    struct pollfd asked = {socket, POLLIN, 0};
    long left = bound_of(socket, SO_RCVTIMEO);
    int ready = time_pipe < 0 || flags & MSG_DONTWAIT ? 1 : wait_for(&asked, 1, &left);

    return ready > 0 ? next(socket, octets, count, flags) : ready < 0 ? -1 : refused(EAGAIN);
}

ssize_t send(int socket, const void *octets, size_t count, int flags)
{
    NEXT(send);
    struct pollfd asked = {socket, POLLOUT, 0};
    long left = bound_of(socket, SO_SNDTIMEO);
    ssize_t sent = 0, piece;

    if (time_pipe < 0 || flags & MSG_DONTWAIT || count == 0)
        return next(socket, octets, count, flags);
    do {
        piece = next(socket, (const char *)octets + sent, count - sent, flags | MSG_DONTWAIT);
        if (piece > 0)
            sent += piece;
        else if (errno != EAGAIN || wait_for(&asked, 1, &left) <= 0)
            return sent ? sent : -1;
    } while (sent < (ssize_t)count);
    return sent;
}

int nanosleep(const struct timespec *asked, struct timespec *left)
{
    NEXT(nanosleep);
    long milliseconds = asked->tv_sec * 1000 + asked->tv_nsec / 1000000;
    struct timespec part = {milliseconds / speed / 1000, milliseconds / speed % 1000 * 1000000};
    long all = LONG_MAX - 999;

    if (asked->tv_sec == 0) {
        if (has_naps)
            take_time(&all);
        return next(asked, left);
    }
    write_down("sleep %ld\n", milliseconds);
    if (!has_no_sleep)
        return next(&part, left);
    passed += milliseconds;
    return 0;
}

int setsockopt(int socket, int level, int name, const void *value, socklen_t size)
{
    NEXT(setsockopt);
    const char *word = name == SO_RCVTIMEO ? "read" : "write";
    struct timeval wait;

    if (level == IPPROTO_TCP && name == TCP_NODELAY && size == sizeof(int))
        write_down("nodelay %d\n", *(const int *)value);
    if (level != SOL_SOCKET || (name != SO_RCVTIMEO && name != SO_SNDTIMEO) || size != sizeof wait)
        return next(socket, level, name, value, size);
    memcpy(&wait, value, sizeof wait);
    if (is_named(word, "HURRY_REFUSED") || (is_named("idle", "HURRY_REFUSED") && wait.tv_sec >= 600))
        return refused(EINVAL);
    write_down("%s %ld\n", word, wait.tv_sec * 1000 + wait.tv_usec / 1000);
    wait.tv_usec = (wait.tv_sec % speed * 1000000 + wait.tv_usec) / speed;
    wait.tv_sec /= speed;
    return next(socket, level, name, &wait, sizeof wait);
}
