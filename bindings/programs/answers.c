#include "answers.h"

#include <stdlib.h>
#include <string.h>

enum { TYPE_SIG = 24, TYPE_TSIG = 250, TYPE_IXFR = 251, TYPE_AXFR = 252, TYPE_ANY = 255, AUTHORITY = 2 };
/* how many bytes of a datagram pass any network (RFC 9715, 3) */
enum { PAYLOAD = 1232 };
/* how many questions and records a message may have that is no update of one who may: the question, the SOA of IXFR, OPT
 * and a signature */
enum { FEW = 8 };
/* how many a message has room for: none has fewer than five bytes */
enum { ITEMS = MOST / 5 };

/* A message that came. */
struct asked {
    struct held_zone *held;
    uint8_t *message;
    size_t len, items;
    struct rights rights;
};

/* its questions and records, and the message that is made for it */
static struct fuzsbanel_item items[ITEMS];
static uint8_t names[ITEMS * LONGEST_NAME], made[MOST];

static void set_operation(uint8_t *message, uint8_t operation)
{
    message[2] = (uint8_t)((message[2] & 0x87) | operation << 3);
}

static uint8_t code_of(const uint8_t *message)
{
    return message[3] & 15;
}

static void set_code(uint8_t *message, int code)
{
    message[3] = (uint8_t)((message[3] & 0xF0) | (code & 15));
}

/* Puts another type into the question of a message, if it has one. */
static bool set_type(uint8_t *message, size_t len, uint16_t type)
{
    struct fuzsbanel_header header;
    struct fuzsbanel_query query;
    if (fuzsbanel_header(message, len, &header) < 0)
        return false;
    if (header.queries != 1)
        return true;
    int64_t end = fuzsbanel_query(message, len, HEADER, &query);
    if (end < HEADER + 4)
        return false;
    put_two(message + end - 4, type);
    return true;
}

static bool add_frame(struct frames *frames, const uint8_t *message, size_t len)
{
    if (len > MOST || frames->len > SIZE_MAX / 2 - 2 - MOST)
        return false;
    size_t wanted = frames->len + 2 + len;
    if (wanted > frames->room) {
        /* what is a transfer grows by as much as it has */
        size_t room = frames->len ? 2 * wanted : wanted;
        uint8_t *larger = realloc(frames->at, room);
        if (!larger)
            return false;
        frames->at = larger;
        frames->room = room;
    }
    put_two(frames->at + frames->len, (uint16_t)len);
    memcpy(frames->at + frames->len + 2, message, len);
    frames->len = wanted;
    return true;
}

/* The functions below answer how many bytes of `made` are sent, 0 where nothing else is, and less where the library
 * refuses. */

static int64_t answered(const struct asked *it, bool by_stream)
{
    size_t needed;
    return fuzsbanel_zone_answer(&it->held->zone, it->message, it->len, by_stream ? MOST : PAYLOAD, by_stream, made,
                                 sizeof made, &needed);
}

/* The response that has a code and nothing else: what the library answers to an operation that it doesn't know, with the
 * code in the place of NotImp. What it refuses for another reason, it refuses. */
static int64_t code_alone(const struct asked *it, int code)
{
    uint8_t operation = it->message[2] >> 3 & 15;
    set_operation(it->message, operation ? operation : STATUS);
    int64_t len = answered(it, false);
    set_operation(it->message, operation);
    if (len < HEADER)
        return len;
    set_operation(made, operation);
    if (code_of(made) == NOT_IMP)
        set_code(made, code);
    return len;
}

/* The same for a header with counts of 0: what comes after it isn't read. */
static int64_t code_for_header(struct asked *it, int code)
{
    memset(it->message + 4, 0, HEADER - 4);
    it->len = HEADER;
    return code_alone(it, code);
}

/* Carries out an update. The response is made and has its memory first, so that nothing can fail afterwards. */
static int64_t updated(const struct asked *it, struct frames *frames)
{
    int64_t len = code_alone(it, SERV_FAIL);
    if (len < HEADER || code_of(made) != SERV_FAIL)
        return len;
    int64_t end = fuzsbanel_check(it->message, it->len);
    if (end < 0 || !add_frame(frames, made, (size_t)len))
        return -1;
    set_code(frames->at + 2, (size_t)end == it->len ? held_update(it->held, it->message, it->len) : FORM_ERR);
    return 0;
}

/* What a datagram has for ANY: the first set of the whole answer (RFC 8482, 4.1). */
static int64_t one_set(const struct asked *it)
{
    struct fuzsbanel_record first;
    int64_t len = answered(it, true);
    if (len < 0 || !first_answer(made, (size_t)len, &first))
        return len < 0 ? len : answered(it, false);
    if (!set_type(it->message, it->len, first.record_type))
        return -1;
    len = answered(it, false);
    return len < 0 || !set_type(made, (size_t)len, TYPE_ANY) ? -1 : len;
}

/* The SOA alone, for IXFR where nothing is newer, or where a datagram asks, which says that TCP should be used (RFC 1995,
 * 2). */
static int64_t soa_alone(const struct asked *it)
{
    if (!set_type(it->message, it->len, TYPE_SOA))
        return -1;
    int64_t len = answered(it, it->rights.by_stream);
    return len < 0 || !set_type(made, (size_t)len, TYPE_IXFR) ? -1 : len;
}

/* Adds all messages of a transfer. */
static int64_t whole_zone(const struct asked *it, uint16_t type, struct frames *frames)
{
    struct fuzsbanel_transfer_place place = {0};
    int64_t len = set_type(it->message, it->len, TYPE_AXFR) ? 1 : -1;
    while (len > 0) {
        size_t needed;
        len = fuzsbanel_zone_serve_transfer(&it->held->zone, it->message, it->len, &place, made, sizeof made, &needed);
        if (len > 0 && (!set_type(made, (size_t)len, type) || !add_frame(frames, made, (size_t)len)))
            len = -1;
    }
    return len;
}

static bool is_for_zone(const struct asked *it)
{
    uint8_t owner[LONGEST_NAME];
    size_t len = items[0].name_len;
    lower(owner, names + items[0].name, len);
    return len == it->held->name_len && memcmp(owner, it->held->name, len) == 0;
}

/* How many SOAs of a zone IXFR names as those that its client knows, and the serial of the last (RFC 1995, 3). */
static size_t serials_known(const struct asked *it, uint32_t *serial)
{
    size_t count = 0;
    for (size_t i = 0; i < it->items; i++)
        count += items[i].section == AUTHORITY && serial_of(it->message, it->len, &items[i].record, serial);
    return count;
}

static int64_t transfer(const struct asked *it, uint16_t type, struct frames *frames)
{
    if (type == TYPE_IXFR && is_for_zone(it)) {
        uint32_t known = 0;
        if (serials_known(it, &known) != 1)
            return code_alone(it, FORM_ERR);
        /* this serial or a greater one (RFC 1982, 3.2) */
        bool is_current = (uint32_t)(known - it->held->serial) < UINT32_C(1) << 31;
        if (is_current || !it->rights.by_stream)
            return soa_alone(it);
    }
    return it->rights.by_stream ? whole_zone(it, type, frames) : code_alone(it, REFUSED);
}

static bool is_signed(const struct asked *it)
{
    for (size_t i = 0; i < it->items; i++) {
        uint16_t type = items[i].record.record_type;
        if (items[i].section != FUZSBANEL_QUESTION && (type == TYPE_SIG || type == TYPE_TSIG))
            return true;
    }
    return false;
}

static int64_t made_for(struct asked *it, const struct fuzsbanel_header *header, struct frames *frames)
{
    struct fuzsbanel_room room;
    uint32_t counted = (uint32_t)header->queries + header->answers + header->authorities + header->additionals;
    bool is_update = header->opcode == UPDATE;
    if (counted > FEW && !(is_update && it->rights.may_update))
        return code_for_header(it, is_update ? REFUSED : FORM_ERR);
    int64_t end = fuzsbanel_walk(it->message, it->len, items, ITEMS, names, sizeof names, &room);
    if (end < 0)
        return end == -FUZSBANEL_MEMORY ? end : answered(it, it->rights.by_stream);
    it->items = room.items;
    if (is_signed(it))
        return code_alone(it, NOT_AUTH);
    if (is_update)
        return it->rights.may_update ? updated(it, frames) : code_alone(it, REFUSED);
    uint16_t type = header->opcode == QUERY && header->queries == 1 ? items[0].record.record_type : 0;
    if (type == TYPE_IXFR || type == TYPE_AXFR)
        return it->rights.may_transfer ? transfer(it, type, frames) : code_alone(it, REFUSED);
    if (type == TYPE_ANY && !it->rights.by_stream)
        return one_set(it);
    return answered(it, it->rights.by_stream);
}

bool respond(struct held_zone *held, uint8_t *message, size_t len, struct rights rights, struct frames *frames)
{
    struct fuzsbanel_header header;
    frames->len = 0;
    if (len < HEADER || fuzsbanel_header(message, len, &header) < 0 || header.response)
        return false;
    struct asked it = {held, message, len, 0, rights};
    int64_t made_len = made_for(&it, &header, frames);
    return made_len >= 0 && (made_len == 0 || add_frame(frames, made, (size_t)made_len)) && frames->len > 0;
}
