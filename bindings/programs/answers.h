/* What nameserver.c sends for a message. */
#ifndef ANSWERS_H
#define ANSWERS_H

#include "held_zone.h"

/* operations (RFC 1035, 4.1.1; RFC 1996; RFC 2136) */
enum { QUERY = 0, STATUS = 2, NOTIFY = 4, UPDATE = 5 };

/* Messages one after the other, each after its length of two bytes. */
struct frames {
    uint8_t *at;
    size_t len, room;
};

/* What a client may have, by its address and by how its message came. */
struct rights {
    bool by_stream, may_update, may_transfer;
};

/* Carries out what a message asks, and makes what is sent for it: one message or, of a transfer, several, all of one zone.
 * False where nothing is sent: for what isn't meant for a server, and where the library refuses. The message is changed. */
bool respond(struct held_zone *held, uint8_t *message, size_t len, struct rights rights, struct frames *frames);

#endif
