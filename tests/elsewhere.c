/* Gives every host name the address 192.0.2.1, which no machine has, and connects to 127.0.0.1 in its place.

       cc -O1 -shared -fPIC -o elsewhere.so elsewhere.c -ldl
       LD_PRELOAD=./elsewhere.so PROGRAM .. */

#include "preloaded.h"
#include <arpa/inet.h>
#include <netdb.h>
#include <netinet/in.h>
#include <sys/socket.h>

int getaddrinfo(const char *host, const char *service, const struct addrinfo *hints, struct addrinfo **found)
{
    NEXT(getaddrinfo);

    (void)host;
    return next("192.0.2.1", service, hints, found);
}

int connect(int socket, const struct sockaddr *address, socklen_t size)
{
    NEXT(connect);
    struct sockaddr_in here = *(const struct sockaddr_in *)address;

    if (here.sin_family != AF_INET || here.sin_addr.s_addr != inet_addr("192.0.2.1"))
        return next(socket, address, size);
    here.sin_addr.s_addr = htonl(INADDR_LOOPBACK);
    return next(socket, (const struct sockaddr *)&here, sizeof here);
}
