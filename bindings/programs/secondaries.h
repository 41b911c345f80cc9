/* The secondaries of nameserver.c, which are told of changes by NOTIFY until they say that they heard (RFC 1996, 3). */
#ifndef SECONDARIES_H
#define SECONDARIES_H

#include "addresses.h"
#include "held_zone.h"

struct secondary {
    struct address address;
    uint16_t port, id;
    int file, tries;
    int64_t told, due; /* when it was told last, and is told next */
};

/* Opens its socket, from this address. False where that can't be done. */
bool secondary_open(struct secondary *it, const struct address *source);

/* Has it told of a change, at once or when the last one is some time ago. */
void secondary_tell(struct secondary *it);

/* Tells it once, and says when next. */
void secondary_send(struct secondary *it, const struct held_zone *held);

/* Takes what it sent. */
void secondary_hear(struct secondary *it);

#endif
