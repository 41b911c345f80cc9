/* Addresses, sockets and time of nameserver.c. */
#ifndef ADDRESSES_H
#define ADDRESSES_H

#include <netinet/in.h>
#include <stdbool.h>
#include <stdint.h>
#include <sys/socket.h>

/* what a time is that doesn't come */
#define NEVER INT64_MAX

/* An address of IPv4 or IPv6; the first has zero bytes after its four. */
struct address {
    sa_family_t family;
    uint8_t bytes[16];
};

/* An address and a port, as the system has them. */
union place {
    struct sockaddr any;
    struct sockaddr_in four;
    struct sockaddr_in6 six;
};

bool read_address(const char *text, struct address *address);
bool is_same(const struct address *one, const struct address *other);
struct address address_of(const union place *place);
uint16_t port_of(const union place *place);

/* Fills in a place, and answers how many bytes it has. */
socklen_t place_of(const struct address *address, uint16_t port, union place *place);

/* A socket that waits for nothing, bound to a place; or -1. */
int bound_socket(const union place *place, socklen_t len, int kind);

/* Has the calls for a socket wait for nothing. */
bool unblock(int file);

/* Whether the last call found that it would wait. */
bool would_wait(void);

/* The time in milliseconds, which no clock that is set changes. */
int64_t now(void);

#endif
