#define _POSIX_C_SOURCE 200809L
#include "connections.h"

#include <errno.h>
#include <stdlib.h>
#include <string.h>
#include <unistd.h>

/* how many milliseconds a message and a silence may take */
enum { TIME = 10000 };

/* Time is given anew where a message was begun, taken or sent: more bytes of one give it none. */
static void give_time(struct connection *it)
{
    it->end = now() + TIME;
}

static bool is_sending(const struct connection *it)
{
    return it->sent < it->sending.len;
}

/* Whether a message came whole. */
static bool has_message(const struct connection *it)
{
    return it->len >= 2 && it->len - 2 >= two_at(it->received + it->begin);
}

bool connection_has_work(const struct connection *it)
{
    return is_sending(it) || has_message(it);
}

void connection_open(struct connection *it, int file, const struct address *peer, struct rights rights)
{
    it->file = file;
    it->peer = *peer;
    it->rights = rights;
    it->is_ended = false;
    it->begin = it->len = it->sent = it->frame = 0;
    it->sending = (struct frames){0};
    give_time(it);
}

void connection_close(struct connection *it)
{
    free(it->sending.at);
    it->sending = (struct frames){0};
    if (close(it->file) != 0)
        warn("a connection isn't closed: %s", strerror(errno));
    it->file = -1;
}

/* Receives where no message came whole, so that there is room. */
static bool receive(struct connection *it)
{
    memmove(it->received, it->received + it->begin, it->len);
    it->begin = 0;
    ssize_t got = recv(it->file, it->received + it->len, sizeof it->received - it->len, 0);
    if (got < 0)
        return would_wait();
    if (got > 0 && it->len == 0)
        give_time(it);
    it->is_ended = got == 0;
    it->len += (size_t)got;
    return true;
}

/* Answers the first message of those that came whole. What gets no answer isn't meant for a server. */
static bool answer(struct connection *it, struct held_zone *held)
{
    size_t len = two_at(it->received + it->begin);
    uint8_t *message = it->received + it->begin + 2;
    it->begin += 2 + len;
    it->len -= 2 + len;
    it->sent = it->frame = 0;
    if (!respond(held, message, len, it->rights, &it->sending))
        return false;
    give_time(it);
    return true;
}

/* Sends of one message what the system takes. */
static bool send_some(struct connection *it)
{
    size_t end = it->frame + 2 + two_at(it->sending.at + it->frame);
    ssize_t sent = send(it->file, it->sending.at + it->sent, end - it->sent, MSG_NOSIGNAL);
    if (sent < 0)
        return would_wait();
    it->sent += (size_t)sent;
    if (it->sent == end) {
        it->frame = end;
        give_time(it);
    }
    if (!is_sending(it)) {
        free(it->sending.at);
        it->sending = (struct frames){0};
        it->sent = it->frame = 0;
    }
    return true;
}

bool connection_turn(struct connection *it, struct held_zone *held)
{
    bool is_well = is_sending(it) ? send_some(it) : has_message(it) || receive(it);
    if (is_well && !is_sending(it) && has_message(it))
        is_well = answer(it, held) && send_some(it);
    return is_well && !(it->is_ended && !connection_has_work(it));
}
