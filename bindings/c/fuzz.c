/* Damages messages, and asks of each what the calls promise of one another: what checks is cut, or has no room; a cut
 * checks to its end, fits its limit, and is cut again to the same bytes; a walk ends where the check does; what doesn't
 * check is refused with the same number by each call; a buffer that is too small stays, and what is needed is said. A
 * walk of the whole says what the calls for one place say. Each message, and each buffer of just enough room, ends where
 * a page begins that can't be touched, so that a byte read or written past the end ends the program.
 *
 * fuzz CASES [SEED] < messages in hexadecimal, one a line */
#define _GNU_SOURCE
#include "fuzsbanel.h"

#include <inttypes.h>
#include <stdio.h>
#include <stdlib.h>
#include <string.h>
#include <sys/mman.h>
#include <unistd.h>

#define MESSAGES 1024
#define LONGEST 2048
#define LONGEST_TEXT 1004
/* more than stand in the longest message, of which a question takes 5 bytes */
#define ITEMS 512

static struct { size_t len; uint8_t *bytes; } messages[MESSAGES];
static size_t count;
static uint64_t state;
static uint64_t bad;
static uint8_t *message_edge, *small_edge;

static uint64_t any(void)
{
    state ^= state << 13;
    state ^= state >> 7;
    state ^= state << 17;
    return state;
}

static void hold(const char *what, int holds)
{
    if (!holds && bad++ < 10)
        fprintf(stderr, "fuzz: %s\n", what);
}

/* Bytes before a page that can't be touched. */
static uint8_t *edge_after(size_t room)
{
    size_t page = (size_t)sysconf(_SC_PAGESIZE), size = (room + page - 1) / page * page;
    uint8_t *start = mmap(NULL, size + page, PROT_READ | PROT_WRITE, MAP_PRIVATE | MAP_ANONYMOUS, -1, 0);
    if (start == MAP_FAILED || mprotect(start + size, page, PROT_NONE) != 0) {
        perror("fuzz");
        exit(2);
    }
    return start + size;
}

static void load(void)
{
    static char line[4 * LONGEST];
    static uint8_t bytes[LONGEST];
    while (count < MESSAGES && fgets(line, sizeof line, stdin)) {
        const char *rest = line;
        size_t len = 0;
        unsigned byte;
        while (len < LONGEST) {
            rest += strspn(rest, " \t\r\n");
            if (sscanf(rest, "%2x", &byte) != 1)
                break;
            bytes[len++] = (uint8_t)byte;
            rest += 2;
        }
        if (len == 0)
            continue;
        messages[count].len = len;
        messages[count].bytes = malloc(len);
        memcpy(messages[count++].bytes, bytes, len);
    }
}

/* The items that the header counts, found one by one; answers the place after them, or the first refusal. */
static int64_t walked(const uint8_t *message, size_t len, struct fuzsbanel_item *items)
{
    struct fuzsbanel_header header;
    struct fuzsbanel_query query;
    int64_t place = fuzsbanel_header(message, len, &header);
    if (place < 0)
        return place;
    unsigned counts[] = {header.queries, header.answers, header.authorities, header.additionals};
    for (unsigned section = 0; section < 4; section++) {
        for (unsigned i = 0; place >= 0 && i < counts[section]; i++) {
            struct fuzsbanel_item item = {.section = (uint8_t)section};
            if (section == FUZSBANEL_QUESTION) {
                place = fuzsbanel_query(message, len, (size_t)place, &query);
                item.record = (struct fuzsbanel_record){
                    .name = query.name, .data = (size_t)place, .record_type = query.query_type, .class_ = query.class_};
            } else {
                place = fuzsbanel_record(message, len, (size_t)place, &item.record);
            }
            if (place >= 0) {
                hold("data lies within its record",
                     item.record.data + item.record.data_len == (size_t)place && (size_t)place <= len);
                *items++ = item;
            }
        }
    }
    return place;
}

static int same_record(const struct fuzsbanel_record *a, const struct fuzsbanel_record *b)
{
    return a->name == b->name && a->data == b->data && a->ttl == b->ttl && a->record_type == b->record_type
           && a->class_ == b->class_ && a->data_len == b->data_len;
}

/* A walk of the whole says what the calls for one place say; answers what it does. */
static int64_t walked_whole(const uint8_t *message, size_t len)
{
    static struct fuzsbanel_item alone[ITEMS], items[ITEMS];
    static uint8_t names[255 * ITEMS], text[LONGEST_TEXT], other[LONGEST_TEXT];
    struct fuzsbanel_room needed;
    size_t more;
    int64_t place = walked(message, len, alone);
    int64_t end = fuzsbanel_walk(message, len, items, ITEMS, names, sizeof names, &needed);
    hold("a walk of the whole ends where one by places does", end == place);
    if (end < 0) {
        hold("a refused walk needs nothing", needed.items == 0 && needed.names == 0);
        return end;
    }
    size_t place_of_name = 0;
    for (size_t i = 0; i < needed.items; i++) {
        hold("an item is what its place has",
             items[i].section == alone[i].section && same_record(&items[i].record, &alone[i].record));
        hold("names stand one after another", items[i].name == place_of_name);
        place_of_name += items[i].name_len;
        int64_t whole = fuzsbanel_name(names, place_of_name, items[i].name, text, sizeof text, &more);
        int64_t there = fuzsbanel_name(message, len, items[i].record.name, other, sizeof other, &more);
        hold("a name is that of its place", whole > 0 && whole == there && memcmp(text, other, (size_t)whole) == 0);
    }
    hold("the names take what is needed", place_of_name == needed.names);
    if (needed.items > 0) {
        names[0] = 0xA5;
        items[0].section = 0xA5;
        hold("a walk without room", fuzsbanel_walk(message, len, items, needed.items - 1, names, sizeof names, &needed)
                                        == FUZSBANEL_NO_ROOM
                                        && fuzsbanel_walk(message, len, items, ITEMS, names, needed.names - 1, &needed)
                                               == FUZSBANEL_NO_ROOM
                                        && names[0] == 0xA5 && items[0].section == 0xA5);
        uint8_t *edge = small_edge - needed.names;
        hold("a walk with just room",
             fuzsbanel_walk(message, len, items, needed.items, edge, needed.names, &needed) == end);
    }
    return end;
}

static void one(const uint8_t *message, size_t len, uint64_t *read)
{
    static uint8_t first[65536], again[65536];
    size_t needed = 0, more = 0;
    uint16_t limit = (uint16_t)(any() % 4 ? any() % 700 : 65535);
    int64_t end = fuzsbanel_check(message, len);
    int64_t cut = fuzsbanel_cut(message, len, limit, first, sizeof first, &needed);
    int64_t place = walked_whole(message, len);
    if (end < 0) {
        hold("a cut is refused as the check is", cut == end && needed == 0);
        hold("a refusal has a number", end >= -13);
        return;
    }
    ++*read;
    hold("a message ends within its bytes", end >= 12 && (size_t)end <= len);
    hold("a walk ends where the check does", place == end);
    if (cut < 0) {
        hold("a limit without room", cut == -FUZSBANEL_LIMIT ? limit < 12 : cut == -FUZSBANEL_QUESTIONS);
        return;
    }
    hold("a cut fits", cut <= limit && needed == (size_t)cut);
    hold("a cut is read to its end", fuzsbanel_check(first, (size_t)cut) == cut);
    int64_t second = fuzsbanel_cut(first, (size_t)cut, limit, again, sizeof again, &more);
    hold("a cut is cut to itself", second == cut && memcmp(first, again, (size_t)cut) == 0);
    if (any() % 16 == 0 && cut > 0) {
        uint8_t *small = small_edge - cut;
        memset(small, 0xA5, (size_t)cut);
        hold("no room", fuzsbanel_cut(message, len, limit, small, (size_t)cut - 1, &more) == FUZSBANEL_NO_ROOM
                            && more == (size_t)cut && small[0] == 0xA5 && small[cut - 1] == 0xA5);
        hold("just room", fuzsbanel_cut(message, len, limit, small, (size_t)cut, &more) == cut
                              && memcmp(first, small, (size_t)cut) == 0);
    }
    if (any() % 16 == 0)
        hold("a text", fuzsbanel_text(message, len, again, sizeof again, &more) >= 0 || more > sizeof again);
}

int main(int argc, char **argv)
{
    uint64_t cases = argc > 1 ? strtoull(argv[1], NULL, 10) : 100000, read = 0;
    state = argc > 2 ? strtoull(argv[2], NULL, 10) | 1 : 88172645463325252u;
    load();
    if (count == 0)
        return 2;
    message_edge = edge_after(LONGEST);
    small_edge = edge_after(sizeof(uint8_t[255 * ITEMS]));
    for (uint64_t i = 0; i < cases; i++) {
        size_t which = any() % count, len = messages[which].len;
        size_t kept = any() % 4 ? len : any() % (len + 1);
        uint8_t *message = message_edge - kept;
        memcpy(message, messages[which].bytes, kept);
        for (uint64_t damage = any() % 4; damage > 0 && kept > 0; damage--)
            message[any() % kept] = (uint8_t)(any() % 3 ? any() : 0xC0 | any() % 64);
        one(message, kept, &read);
    }
    printf("cases %" PRIu64 " read %" PRIu64 " bad %" PRIu64 "\n", cases, read, bad);
    return bad ? 1 : 0;
}
