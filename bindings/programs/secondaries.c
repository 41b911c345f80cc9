#define _DEFAULT_SOURCE /* getentropy, beside POSIX */
#include "secondaries.h"
#include "answers.h"

#include <errno.h>
#include <string.h>
#include <unistd.h>

/* how often a secondary is told of a change, how many milliseconds lie between the first two times, each later time twice
 * as many, and between changes that it is told of (RFC 1996, 3.6) */
enum { TRIES = 6, AGAIN = 2000, PAUSE = 1000 };

bool secondary_open(struct secondary *it, const struct address *source)
{
    union place here, there;
    socklen_t here_len = place_of(source, 0, &here), there_len = place_of(&it->address, it->port, &there);
    if (it->address.family != source->family) {
        errno = EAFNOSUPPORT;
        return false;
    }
    it->file = bound_socket(&here, here_len, SOCK_DGRAM);
    /* connected, so that the system hands on nothing from elsewhere */
    return it->file >= 0 && connect(it->file, &there.any, there_len) == 0;
}

void secondary_tell(struct secondary *it)
{
    if (getentropy(&it->id, sizeof it->id) != 0)
        stop("no random number: %s", strerror(errno));
    it->tries = 0;
    int64_t at_once = now(), later = it->told + PAUSE;
    it->due = at_once > later ? at_once : later;
}

void secondary_send(struct secondary *it, const struct held_zone *held)
{
    uint8_t message[ASKING];
    size_t needed;
    int64_t len = fuzsbanel_build_notify(it->id, TEXT(held->origin), message, sizeof message, &needed);
    it->told = now();
    it->due = it->tries < TRIES - 1 ? it->told + ((int64_t)AGAIN << it->tries) : NEVER;
    it->tries++;
    if (len >= 0)
        (void)send(it->file, message, (size_t)len, 0); /* what is lost is told again, as of what the network loses */
}

void secondary_hear(struct secondary *it)
{
    static uint8_t message[MOST];
    struct fuzsbanel_header header;
    ssize_t len = recv(it->file, message, sizeof message, 0);
    if (len < 0 || fuzsbanel_header(message, (size_t)len, &header) < 0)
        return;
    if (header.response && header.opcode == NOTIFY && header.id == it->id)
        it->due = NEVER;
}
