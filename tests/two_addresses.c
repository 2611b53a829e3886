/* Gives every host name two addresses, in this order: 127.0.0.2 and 127.0.0.1.

       cc -O1 -shared -fPIC -o two_addresses.so two_addresses.c -ldl
       LD_PRELOAD=./two_addresses.so PROGRAM .. */

#include "preloaded.h"
#include <netdb.h>

int getaddrinfo(const char *host, const char *service, const struct addrinfo *hints, struct addrinfo **found)
{
    NEXT(getaddrinfo);
    struct addrinfo *last;
    int fault;

    (void)host;
    fault = next("127.0.0.2", service, hints, found);
    if (fault)
        return fault;
    for (last = *found; last->ai_next; last = last->ai_next)
        ;
    return next("127.0.0.1", service, hints, &last->ai_next);
}
