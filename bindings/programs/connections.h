/* The connections of nameserver.c. */
#ifndef CONNECTIONS_H
#define CONNECTIONS_H

#include "addresses.h"
#include "answers.h"

/* A connection: what came and isn't answered, and what is to be sent. */
struct connection {
    int file; /* -1 where there is none */
    struct address peer;
    struct rights rights;
    bool is_ended; /* by its client */
    int64_t end;   /* when its time is over */
    uint8_t received[2 + MOST];
    size_t begin, len; /* where what isn't answered begins there, and how much there is */
    struct frames sending;
    size_t sent, frame; /* how much of that is sent, and where the message begins that is sent now */
};

void connection_open(struct connection *it, int file, const struct address *peer, struct rights rights);

/* Takes a connection one step further: sends, or receives, and answers one message at most. False where it is to be
 * closed. */
bool connection_turn(struct connection *it, struct held_zone *held);

/* Whether it waits to send, and not for its client. */
bool connection_has_work(const struct connection *it);

void connection_close(struct connection *it);

#endif
