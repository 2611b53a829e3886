/* Lets a program meet a server that takes nothing any more.

       cc -O1 -shared -fPIC -o fill_socket.so fill_socket.c -ldl
       FILL_BEFORE=3 LD_PRELOAD=./fill_socket.so PROGRAM ..

   Before the third send of the program its socket is filled, up to the last octet that the server's side and its own
   take. If the server reads nothing, that send waits as long as the program's bound on it lasts; with FILL_PART=600
   that is the 600th part of what the program has set. */

#include "preloaded.h"
#include <sys/socket.h>
#include <sys/time.h>

static const useconds_t SETTLED = 20000;

/* What the program's side holds goes over to the server's while there is room, so that it takes more a moment later. */
static void fill(int socket)
{
    NEXT(send);
    static const char octets[65536];
    int refused = 0;

    while (refused < 5) {
        if (next(socket, octets, sizeof octets, MSG_DONTWAIT | MSG_NOSIGNAL) > 0) {
            refused = 0;
        } else {
            refused++;
            usleep(SETTLED);
        }
    }
}

/* Shortens the bound on what is sent; none stays none. */
static void shorten(int socket, long part)
{
    struct timeval bound;
    socklen_t size = sizeof bound;
    long microseconds;

    if (getsockopt(socket, SOL_SOCKET, SO_SNDTIMEO, &bound, &size))
        abort();
    microseconds = (bound.tv_sec * 1000000 + bound.tv_usec) / part;
    bound = (struct timeval){microseconds / 1000000, microseconds % 1000000};
    if (setsockopt(socket, SOL_SOCKET, SO_SNDTIMEO, &bound, sizeof bound))
        abort();
}

ssize_t send(int socket, const void *octets, size_t count, int flags)
{
    NEXT(send);
    static long sends = 0;

    if (++sends == number_in("FILL_BEFORE", 0)) {
        fill(socket);
        if (getenv("FILL_PART"))
            shorten(socket, number_in("FILL_PART", 1));
    }
    return next(socket, octets, count, flags);
}
