#define _POSIX_C_SOURCE 200809L
#include "addresses.h"
#include "journal.h"

#include <arpa/inet.h>
#include <errno.h>
#include <fcntl.h>
#include <string.h>
#include <time.h>
#include <unistd.h>

bool read_address(const char *text, struct address *address)
{
    *address = (struct address){strchr(text, ':') ? AF_INET6 : AF_INET, {0}};
    return inet_pton(address->family, text, address->bytes) == 1;
}

bool is_same(const struct address *one, const struct address *other)
{
    return one->family == other->family && memcmp(one->bytes, other->bytes, sizeof one->bytes) == 0;
}

struct address address_of(const union place *place)
{
    struct address address = {place->any.sa_family, {0}};
    if (address.family == AF_INET)
        memcpy(address.bytes, &place->four.sin_addr, sizeof place->four.sin_addr);
    else
        memcpy(address.bytes, &place->six.sin6_addr, sizeof place->six.sin6_addr);
    return address;
}

uint16_t port_of(const union place *place)
{
    return ntohs(place->any.sa_family == AF_INET ? place->four.sin_port : place->six.sin6_port);
}

socklen_t place_of(const struct address *address, uint16_t port, union place *place)
{
    memset(place, 0, sizeof *place);
    place->any.sa_family = address->family;
    if (address->family == AF_INET) {
        place->four.sin_port = htons(port);
        memcpy(&place->four.sin_addr, address->bytes, sizeof place->four.sin_addr);
        return sizeof place->four;
    }
    place->six.sin6_port = htons(port);
    memcpy(&place->six.sin6_addr, address->bytes, sizeof place->six.sin6_addr);
    return sizeof place->six;
}

int bound_socket(const union place *place, socklen_t len, int kind)
{
    int on = 1, file = socket(place->any.sa_family, kind, 0);
    /* so that no address of IPv4 is spelled in another way than it is named */
    bool is_bound = file >= 0 && unblock(file) &&
                    (place->any.sa_family != AF_INET6 || setsockopt(file, IPPROTO_IPV6, IPV6_V6ONLY, &on, sizeof on) == 0) &&
                    (kind != SOCK_STREAM || setsockopt(file, SOL_SOCKET, SO_REUSEADDR, &on, sizeof on) == 0) &&
                    bind(file, &place->any, len) == 0;
    if (is_bound || file < 0)
        return file;
    int why = errno;
    if (close(file) != 0)
        warn("a socket isn't closed: %s", strerror(errno));
    errno = why;
    return -1;
}

bool unblock(int file)
{
    int flags = fcntl(file, F_GETFL);
    return flags >= 0 && fcntl(file, F_SETFL, flags | O_NONBLOCK) == 0;
}

bool would_wait(void)
{
    return errno == EAGAIN || errno == EWOULDBLOCK || errno == EINTR;
}

int64_t now(void)
{
    struct timespec time;
    if (clock_gettime(CLOCK_MONOTONIC, &time) != 0)
        stop("no clock: %s", strerror(errno));
    return (int64_t)time.tv_sec * 1000 + time.tv_nsec / 1000000;
}
