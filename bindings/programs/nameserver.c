/* Answers queries about one zone, and updates it, as its authoritative server, over UDP and TCP: nameserver.py in C, whose
 * head says what it does. The words are the same, and a journal of one goes on in the other.
 *
 * nameserver ZONE_FILE ORIGIN ADDRESS PORT JOURNAL
 *     [--update-from ADDRESS].. [--transfer-to ADDRESS].. [--notify ADDRESS[#PORT]]..
 *
 * One thread, which never waits but for all of its sockets. No memory grows with what clients send: of each of few
 * connections there is one message, and what is sent for it. */
#define _POSIX_C_SOURCE 200809L
#include "connections.h"
#include "secondaries.h"

#include <arpa/inet.h>
#include <errno.h>
#include <poll.h>
#include <signal.h>
#include <stdio.h>
#include <stdlib.h>
#include <string.h>
#include <sys/resource.h>
#include <unistd.h>

/* how many connections there are in all and of one address */
enum { CONNECTIONS = 128, OF_ONE_ADDRESS = 16 };
/* how many datagrams may be answered before each connection has a message answered */
enum { DATAGRAMS = 16 };
/* how many bytes the system may hold for a client that doesn't read */
enum { ROOM = 1 << 17 };
/* how many files are open beside those that are polled, and a few more */
enum { OTHER_FILES = 16 };
/* the first places that are polled; after them come secondaries, and connections */
enum { ENDING, UDP, TCP, FIRST };

/* The addresses that a word names. */
struct named {
    struct address *at;
    size_t count;
};

struct server {
    const char *zone_file, *origin, *journal;
    struct address address;
    uint16_t port;
    struct named update_from, transfer_to;
    struct secondary *secondaries;
    size_t secondary_count;
    struct held_zone held;
    int udp, tcp;
    struct pollfd *polled;
    struct frames datagram;
    struct connection connections[CONNECTIONS];
};

static struct server server;

/* what a signal writes to, so that it ends the server between two messages, and never within one */
static int ending[2];

static void be_ending(int number)
{
    (void)number;
    int why = errno;
    if (write(ending[1], "", 1) < 0)
        (void)0; /* it is full, and so the server ends */
    errno = why;
}

static void hear_signals(void)
{
    struct sigaction end = {.sa_handler = be_ending, .sa_flags = SA_RESTART}, ignore = {.sa_handler = SIG_IGN};
    bool is_heard = pipe(ending) == 0 && unblock(ending[1]) && sigaction(SIGTERM, &end, NULL) == 0 &&
                    sigaction(SIGINT, &end, NULL) == 0;
    /* a full disk and a client that is gone are told by the calls that meet them */
    if (!is_heard || sigaction(SIGPIPE, &ignore, NULL) != 0 || sigaction(SIGXFSZ, &ignore, NULL) != 0)
        stop("no signals: %s", strerror(errno));
}

static void *array_of(size_t count, size_t size)
{
    void *array = calloc(count ? count : 1, size);
    if (!array)
        stop("no memory");
    return array;
}

/* Asks for as many open files as there may be: a connection that can't be taken would be tried again without end. */
static void need_files(size_t count)
{
    struct rlimit files;
    if (getrlimit(RLIMIT_NOFILE, &files) != 0 || files.rlim_cur < count)
        stop("it may not have %zu open files", count);
}

/* Opens the sockets, of one port for datagrams and connections, and those to the secondaries. */
static void open_sockets(struct server *it)
{
    union place place;
    socklen_t len = place_of(&it->address, it->port, &place);
    it->udp = bound_socket(&place, len, SOCK_DGRAM);
    if (it->udp < 0 || getsockname(it->udp, &place.any, &len) != 0)
        stop("port %d: %s", it->port, strerror(errno));
    it->port = port_of(&place);
    it->tcp = bound_socket(&place, len, SOCK_STREAM);
    if (it->tcp < 0 || listen(it->tcp, CONNECTIONS) != 0)
        stop("port %d: %s", it->port, strerror(errno));
    for (size_t i = 0; i < it->secondary_count; i++) {
        if (!secondary_open(&it->secondaries[i], &it->address))
            stop("a secondary: %s", strerror(errno));
        secondary_tell(&it->secondaries[i]);
    }
    for (size_t i = 0; i < CONNECTIONS; i++)
        it->connections[i].file = -1;
    it->polled = array_of(FIRST + it->secondary_count + CONNECTIONS, sizeof *it->polled);
}

static bool is_among(const struct named *named, const struct address *address)
{
    for (size_t i = 0; i < named->count; i++)
        if (is_same(&named->at[i], address))
            return true;
    return false;
}

static void take_datagrams(struct server *it)
{
    static uint8_t message[MOST];
    for (int count = 0; count < DATAGRAMS; count++) {
        union place source;
        socklen_t source_len = sizeof source;
        ssize_t len = recvfrom(it->udp, message, sizeof message, 0, &source.any, &source_len);
        if (len < 0 && would_wait())
            return;
        if (len < 0)
            continue;
        /* no update: anybody may forge where a datagram comes from */
        struct address peer = address_of(&source);
        struct rights rights = {false, false, is_among(&it->transfer_to, &peer)};
        if (respond(&it->held, message, (size_t)len, rights, &it->datagram))
            /* where it can't be sent it is as one that the network loses */
            (void)sendto(it->udp, it->datagram.at + 2, it->datagram.len - 2, 0, &source.any, source_len);
    }
}

/* A place for one more connection of an address, if it may have one. */
static struct connection *free_place(struct server *it, const struct address *peer)
{
    struct connection *found = NULL;
    size_t of_one = 0;
    for (struct connection *at = it->connections; at < it->connections + CONNECTIONS; at++) {
        if (at->file < 0)
            found = at;
        else
            of_one += is_same(&at->peer, peer);
    }
    return of_one < OF_ONE_ADDRESS ? found : NULL;
}

static void accept_one(struct server *it)
{
    union place source;
    socklen_t len = sizeof source;
    int room = ROOM, file = accept(it->tcp, &source.any, &len);
    if (file < 0)
        return;
    struct address peer = address_of(&source);
    struct connection *place = free_place(it, &peer);
    if (place && unblock(file) && setsockopt(file, SOL_SOCKET, SO_SNDBUF, &room, sizeof room) == 0)
        connection_open(place, file, &peer,
                        (struct rights){true, is_among(&it->update_from, &peer), is_among(&it->transfer_to, &peer)});
    else if (close(file) != 0)
        warn("a connection isn't closed: %s", strerror(errno));
}

/* Says what is waited for, and for how many milliseconds at most, -1 for any. */
static int watch(struct server *it)
{
    struct pollfd *next = it->polled + FIRST;
    int64_t end = NEVER;
    it->polled[ENDING] = (struct pollfd){ending[0], POLLIN, 0};
    it->polled[UDP] = (struct pollfd){it->udp, POLLIN, 0};
    it->polled[TCP] = (struct pollfd){it->tcp, POLLIN, 0};
    for (size_t i = 0; i < it->secondary_count; i++) {
        *next++ = (struct pollfd){it->secondaries[i].file, POLLIN, 0};
        end = it->secondaries[i].due < end ? it->secondaries[i].due : end;
    }
    for (size_t i = 0; i < CONNECTIONS; i++) {
        struct connection *at = &it->connections[i];
        bool is_there = at->file >= 0; /* what is less than 0 isn't polled */
        *next++ = (struct pollfd){at->file, is_there && connection_has_work(at) ? POLLOUT : POLLIN, 0};
        end = is_there && at->end < end ? at->end : end;
    }
    if (end == NEVER)
        return -1;
    int64_t left = end - now();
    return left < 0 ? 0 : left > 1000000 ? 1000000 : (int)left;
}

static void turn_connections(struct server *it)
{
    const struct pollfd *polled = it->polled + FIRST + it->secondary_count;
    for (size_t i = 0; i < CONNECTIONS; i++)
        if (polled[i].revents && !connection_turn(&it->connections[i], &it->held))
            connection_close(&it->connections[i]);
}

/* Does what is due by now. */
static void keep_time(struct server *it)
{
    int64_t time = now();
    for (size_t i = 0; i < CONNECTIONS; i++)
        if (it->connections[i].file >= 0 && it->connections[i].end <= time)
            connection_close(&it->connections[i]);
    for (size_t i = 0; i < it->secondary_count; i++)
        if (it->secondaries[i].due <= time)
            secondary_send(&it->secondaries[i], &it->held);
}

static void run(struct server *it)
{
    for (;;) {
        uint32_t serial = it->held.serial;
        int time = watch(it);
        if (poll(it->polled, FIRST + it->secondary_count + CONNECTIONS, time) < 0) {
            if (errno != EINTR)
                stop("poll: %s", strerror(errno));
            continue;
        }
        if (it->polled[ENDING].revents)
            return;
        if (it->polled[UDP].revents)
            take_datagrams(it);
        for (size_t i = 0; i < it->secondary_count; i++)
            if (it->polled[FIRST + i].revents)
                secondary_hear(&it->secondaries[i]);
        turn_connections(it);
        if (it->polled[TCP].revents)
            accept_one(it);
        for (size_t i = 0; it->held.serial != serial && i < it->secondary_count; i++)
            secondary_tell(&it->secondaries[i]);
        keep_time(it);
    }
}

/* Says which words there are, and which are wrong, if any are. */
static _Noreturn void wrong_words(const char *words)
{
    FILE *out = words ? stderr : stdout;
    int wrote = fputs("usage: nameserver ZONE_FILE ORIGIN ADDRESS PORT JOURNAL\n"
                      "    [--update-from ADDRESS].. [--transfer-to ADDRESS].. [--notify ADDRESS[#PORT]]..\n", out);
    if (words && wrote >= 0)
        warn("not understood: %s", words);
    exit(words ? 2 : 0);
}

static bool read_port(const char *text, uint16_t *port)
{
    char *end;
    if (*text < '0' || *text > '9')
        return false;
    errno = 0;
    unsigned long number = strtoul(text, &end, 10);
    *port = (uint16_t)number;
    return errno == 0 && *end == 0 && number <= UINT16_MAX;
}

/* Reads the address of a secondary, and the port after a `#` if there is one. */
static bool read_secondary(const char *text, struct secondary *it)
{
    char address[INET6_ADDRSTRLEN];
    size_t len = strcspn(text, "#");
    *it = (struct secondary){.port = 53, .due = NEVER, .file = -1};
    if (len >= sizeof address)
        return false;
    memcpy(address, text, len);
    address[len] = 0;
    return read_address(address, &it->address) && (text[len] == 0 || read_port(text + len + 1, &it->port));
}

/* What a word that begins with `--` is given, behind `=` or as the next one. */
static const char *value_of(const char *word, const char *wanted, char **next, int *taken)
{
    size_t len = strlen(wanted);
    if (strncmp(word, wanted, len) != 0 || (word[len] && word[len] != '='))
        return NULL;
    if (word[len])
        return word + len + 1;
    if (!*next)
        wrong_words(word);
    *taken = 1;
    return *next;
}

static void read_named(struct server *it, char **words, int *taken)
{
    const char *value;
    bool is_read = false;
    if ((value = value_of(words[0], "--update-from", words + 1, taken)))
        is_read = read_address(value, &it->update_from.at[it->update_from.count++]);
    else if ((value = value_of(words[0], "--transfer-to", words + 1, taken)))
        is_read = read_address(value, &it->transfer_to.at[it->transfer_to.count++]);
    else if ((value = value_of(words[0], "--notify", words + 1, taken)))
        is_read = read_secondary(value, &it->secondaries[it->secondary_count++]);
    if (!is_read)
        wrong_words(value ? value : words[0]);
}

static void read_words(struct server *it, int count, char **words)
{
    char *places[5] = {0};
    size_t place = 0;
    it->update_from.at = array_of((size_t)count, sizeof *it->update_from.at);
    it->transfer_to.at = array_of((size_t)count, sizeof *it->transfer_to.at);
    it->secondaries = array_of((size_t)count, sizeof *it->secondaries);
    for (int i = 1; i < count; i++) {
        int taken = 0;
        if (strcmp(words[i], "--help") == 0 || strcmp(words[i], "-h") == 0)
            wrong_words(NULL);
        else if (words[i][0] == '-')
            read_named(it, words + i, &taken);
        else if (place < 5)
            places[place++] = words[i];
        else
            wrong_words(words[i]);
        i += taken;
    }
    if (place < 5)
        wrong_words("too few words");
    it->zone_file = places[0];
    it->origin = places[1];
    it->journal = places[4];
    if (!read_address(places[2], &it->address))
        wrong_words(places[2]);
    if (!read_port(places[3], &it->port))
        wrong_words(places[3]);
}

int main(int count, char **words)
{
    char address[INET6_ADDRSTRLEN];
    read_words(&server, count, words);
    hear_signals();
    need_files(FIRST + server.secondary_count + CONNECTIONS + OTHER_FILES);
    held_open(&server.held, server.zone_file, server.origin, server.journal);
    open_sockets(&server);
    if (!inet_ntop(server.address.family, server.address.bytes, address, sizeof address))
        stop("%s", strerror(errno));
    warn("%s with serial %lu at %s port %d", server.origin, (unsigned long)server.held.serial, address, server.port);
    run(&server);
    for (size_t i = 0; i < CONNECTIONS; i++)
        if (server.connections[i].file >= 0)
            connection_close(&server.connections[i]);
    held_close(&server.held);
    return 0;
}
