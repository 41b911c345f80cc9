/* Refuses each growth of a call on a zone that is held, one after the other: the call answers that memory ran out, and
 * the zone is what it was; one that another handle shares stays so there in any case. The library takes memory by the
 * three functions below, in place of those over `malloc`. */
#include "fuzsbanel.h"

#include <inttypes.h>
#include <stdio.h>
#include <stdlib.h>
#include <string.h>

#define ORIGIN "example."
/* a text, as a pointer and a length */
#define TEXT(text) (const uint8_t *)(text), strlen(text)

/* how many growths there is memory for; less than 0: for all */
static long growths = -1;

static struct rattle_block block(void *found)
{
    static char none;
    return (struct rattle_block){found != NULL, found ? found : (void *)&none};
}

static bool is_refused(void)
{
    return growths == 0 || (growths > 0 && growths-- == 0);
}

struct rattle_block rattle_alloc(size_t size, size_t align)
{
    (void)align; /* 16 at most, as malloc's */
    return block(is_refused() ? NULL : malloc(size));
}

struct rattle_block rattle_realloc(void *old, size_t kept, size_t size, size_t align)
{
    (void)kept, (void)align;
    return block(is_refused() ? NULL : realloc(old, size));
}

void rattle_dealloc(void *old)
{
    free(old);
}

static const char first_zone[] = "@ 3600 SOA ns hostmaster 1 2 3 4 5\n@ 3600 NS ns\nns 60 A 192.0.2.1\n"
                                 "a.long.label.that.has.its.own.memory 60 TXT \"some text\"\nwww 300 A 192.0.2.9\n"
                                 "@ 60 MX 10 a.mail.host.of.more.than.thirty.bytes\n@ 60 MX 20 www\n"
                                 "a.mail.host.of.more.than.thirty.bytes 60 A 192.0.2.8\n";
static const char other_zone[] = "@ 60 NS ns.of.a.name.of.more.than.thirty.bytes\n$INCLUDE mail.hosts\n";
static const char faulty_zone[] = "$INCLUDE mail.hosts\nwww 300 A 192.0.2\n";
/* a text that zone text may include, after its name, and how long both are */
#define NAME "mail.hosts"
static const char hosts[] = NAME "@ 60 MX 1 mail\n";
static const struct fuzsbanel_included included[] = {{sizeof NAME - 1, sizeof hosts - sizeof NAME}};
#define INCLUDED included, 1, TEXT(hosts)
static uint8_t updates[4][512];
static int64_t lengths[4];

enum call { OPEN, OPEN_FAULTY, UPDATE, ANSWER, WRITE, SHARE, UPDATE_SHARED, RAISE_SHARED };

/* the mail hosts of example., which have addresses, with EDNS */
static const uint8_t query[] = "\0\x09\1\0\0\1\0\0\0\0\0\1\7example\0\0\x0f\0\1\0\0\x29\4\xd0\0\0\0\0\0\0";

static char shown[1024];

static int64_t text_of(struct fuzsbanel_zone_handle *zone)
{
    size_t needed;
    memset(shown, 0, sizeof shown);
    return fuzsbanel_zone_text(zone, (uint8_t *)shown, sizeof shown - 1, &needed);
}

static int64_t open_at(struct fuzsbanel_zone_handle *zone, const char *text)
{
    uint8_t name[64], words[128];
    struct fuzsbanel_fault fault;
    int64_t answer = fuzsbanel_zone_open(TEXT(ORIGIN), TEXT(text), INCLUDED, zone, name, sizeof name, words,
                                         sizeof words, &fault);
    /* a fault that is told is what was asked for */
    return fault.line ? 0 : answer;
}

static int64_t made(enum call call, int i, struct fuzsbanel_zone_handle *zone, struct fuzsbanel_zone_handle *other)
{
    switch (call) {
    case OPEN:
        return open_at(zone, other_zone);
    case OPEN_FAULTY:
        return open_at(zone, faulty_zone);
    case UPDATE:
    case UPDATE_SHARED: {
        bool is_changed;
        return fuzsbanel_zone_update(zone, updates[i], (size_t)lengths[i], &is_changed);
    }
    case ANSWER: {
        uint8_t out[512];
        size_t needed;
        return fuzsbanel_zone_answer(zone, query, sizeof query - 1, 512, false, out, sizeof out, &needed);
    }
    case SHARE:
        return fuzsbanel_zone_share(zone, other);
    case RAISE_SHARED:
        return fuzsbanel_zone_raise_serial(zone);
    default:
        return text_of(zone);
    }
}

/* Refuses each growth of a call in turn, up to a run that meets none. Answers how many there are, or ends. */
static long refused_in_turn(const char *what, enum call call, int i)
{
    char before[sizeof shown];
    for (long count = 0;; count++) {
        struct fuzsbanel_zone_handle zone = {0}, other = {0};
        growths = -1;
        if (open_at(&zone, first_zone) != 0 || text_of(&zone) < 0)
            exit(1);
        strcpy(before, shown);
        bool is_shared = call == UPDATE_SHARED || call == RAISE_SHARED;
        if (is_shared && fuzsbanel_zone_share(&zone, &other) != 0)
            exit(1);
        growths = count;
        int64_t answer = made(call, i, &zone, &other);
        growths = -1;
        int64_t after = text_of(&zone);
        bool is_same = strcmp(before, shown) == 0;
        fuzsbanel_zone_close(&zone);
        if (is_shared && (text_of(&other) < 0 || strcmp(before, shown) != 0)) {
            printf("%s, growth %ld: what is shared is another zone\n", what, count);
            exit(1);
        }
        fuzsbanel_zone_close(&other);
        if (answer >= 0)
            return count;
        if (answer != -FUZSBANEL_MEMORY || after < 0 || !is_same) {
            printf("%s, growth %ld: answered %" PRId64 ", the zone is %s\n", what, count, answer,
                   is_same ? "the same" : "another");
            exit(1);
        }
    }
}

int main(void)
{
    size_t needed;
    lengths[0] = fuzsbanel_create(1, TEXT(ORIGIN), TEXT("new.name.that.needs.more.than.thirty.bytes 9 A 192.0.2.3"), true,
                                  updates[0], sizeof updates[0], &needed);
    lengths[1] = fuzsbanel_compare_and_swap(2, TEXT(ORIGIN), TEXT("www 300 A 192.0.2.9"), TEXT("www 60 A 192.0.2.4"), false,
                                            updates[1], sizeof updates[1], &needed);
    lengths[2] = fuzsbanel_delete_all(3, TEXT(ORIGIN), TEXT("ns"), false, updates[2], sizeof updates[2], &needed);
    lengths[3] = fuzsbanel_append(4, TEXT(ORIGIN), TEXT("a.long.label.that.has.its.own.memory 9 TXT more"), true, false,
                                  updates[3], sizeof updates[3], &needed);
    long sum = refused_in_turn("open", OPEN, 0) + refused_in_turn("text", WRITE, 0) + refused_in_turn("answer", ANSWER, 0);
    sum += refused_in_turn("open at a text with a fault", OPEN_FAULTY, 0);
    sum += refused_in_turn("share", SHARE, 0) + refused_in_turn("raised serial of a shared zone", RAISE_SHARED, 0);
    for (int i = 0; i < 4; i++) {
        if (lengths[i] < 0)
            return 1;
        sum += refused_in_turn("update", UPDATE, i) + refused_in_turn("update of a shared zone", UPDATE_SHARED, i);
    }
    printf("%ld growths refused\n", sum);
    return sum < 80;
}
