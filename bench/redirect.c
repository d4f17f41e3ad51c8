/* Connections to a port further on: adds what the environment variable PORT_SHIFT has to the port of each connection that a
   program makes over IPv4, so that a relay can stand between nodes whose job names the ports at which they listen. Built and
   used by relay.py. */
#define _GNU_SOURCE
#include <arpa/inet.h>
#include <dlfcn.h>
#include <netinet/in.h>
#include <stdlib.h>
#include <string.h>
#include <sys/socket.h>

int connect(int socket, const struct sockaddr *address, socklen_t size) {
    int (*next)(int, const struct sockaddr *, socklen_t) = (int (*)(int, const struct sockaddr *, socklen_t))dlsym(RTLD_NEXT, "connect");
    const char *shift = getenv("PORT_SHIFT");
    struct sockaddr_in moved;
    if (!shift || address->sa_family != AF_INET || size < sizeof moved)
        return next(socket, address, size);
    memcpy(&moved, address, sizeof moved);
    moved.sin_port = htons((in_port_t)(ntohs(moved.sin_port) + atoi(shift)));
    return next(socket, (const struct sockaddr *)&moved, sizeof moved);
}
