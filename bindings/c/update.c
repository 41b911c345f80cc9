/* Updates the zone of a text, by each kind of update in turn: it is built, as a client would, and applied, as a server
 * would, and the zone that it leaves is the next one's. A buffer that is too small is grown to what was needed. */
#include "fuzsbanel.h"

#include <inttypes.h>
#include <stdio.h>
#include <stdlib.h>
#include <string.h>

#define ORIGIN "example."
#define TYPE_A 1
/* a text, as a pointer and a length */
#define TEXT(text) (const uint8_t *)(text), strlen(text)

static const char first_zone[] = "@ 3600 SOA ns hostmaster 1 2 3 4 5\n@ 3600 NS ns\nns 60 A 192.0.2.1\n";
static const char www[] = "www 300 A 192.0.2.2\n";
static const char two[] = "www 300 A 192.0.2.2\nwww 300 A 192.0.2.3\n";

enum kind {
    CREATE,
    APPEND,
    SWAP,
    CREATE_AGAIN,
    APPEND_OTHER,
    APPEND_GENERIC,
    CREATE_EMPTY,
    DELETE_DATA,
    DELETE_SET,
    DELETE_ALL,
    KINDS
};

static int64_t built(enum kind kind, uint8_t *out, size_t cap, size_t *needed)
{
    switch (kind) {
    case CREATE:
    case CREATE_AGAIN:
        return fuzsbanel_create(1, TEXT(ORIGIN), TEXT(www), false, out, cap, needed);
    case APPEND:
        return fuzsbanel_append(2, TEXT(ORIGIN), TEXT("www 300 A 192.0.2.3\n"), true, false, out, cap, needed);
    case SWAP:
        return fuzsbanel_compare_and_swap(3, TEXT(ORIGIN), TEXT(two), TEXT("www 60 A 192.0.2.4\n"), true, out, cap, needed);
    case APPEND_OTHER:
        return fuzsbanel_append(4, TEXT(ORIGIN), TEXT("ftp 300 A 192.0.2.5\n"), false, true, out, cap, needed);
    case APPEND_GENERIC: /* CAA, 0 issue "ca", in the generic form (RFC 3597, 5; RFC 8659, 4) */
        return fuzsbanel_append(8, TEXT(ORIGIN), TEXT("www 300 TYPE257 \\# 9 000569737375656361\n"), false, false, out, cap,
                                needed);
    case CREATE_EMPTY:
        return fuzsbanel_create(9, TEXT(ORIGIN), TEXT("e 300 A \\# 0\n"), false, out, cap, needed);
    case DELETE_DATA:
        return fuzsbanel_delete_by_rdata(5, TEXT(ORIGIN), TEXT("www 0 A 192.0.2.4\n"), false, out, cap, needed);
    case DELETE_SET:
        return fuzsbanel_delete_rrset(6, TEXT(ORIGIN), TEXT("ftp"), TYPE_A, false, out, cap, needed);
    default:
        return fuzsbanel_delete_all(7, TEXT(ORIGIN), TEXT("ns.example."), true, out, cap, needed);
    }
}

/* Prints what an update makes of the zone of a text, and answers that text, or nothing where it refuses. */
static char *applied(const uint8_t *update, size_t len, const char *zone)
{
    size_t needed, room = 0;
    uint8_t *out = malloc(1);
    for (;;) {
        int64_t answer = fuzsbanel_apply(update, len, TEXT(ORIGIN), TEXT(zone), out, room, &needed);
        if (answer >= 0) {
            fwrite(out, 1, (size_t)answer, stdout);
            out[answer] = 0;
            return (char *)out;
        }
        free(out);
        if (answer != FUZSBANEL_NO_ROOM) {
            fprintf(stderr, "refused %" PRId64 "\n", -answer);
            return NULL;
        }
        room = needed;
        out = malloc(room + 1);
        if (!out)
            return NULL;
    }
}

int main(void)
{
    uint8_t update[512];
    size_t needed;
    const char *zone = first_zone;
    char *kept = NULL;
    for (enum kind kind = CREATE; kind < KINDS; kind++) {
        int64_t len = built(kind, update, sizeof update, &needed);
        if (len < 0) {
            fprintf(stderr, "refused %" PRId64 "\n", -len);
            return 1;
        }
        char *answer = applied(update, (size_t)len, zone);
        free(kept);
        if (!answer)
            return 1;
        kept = answer;
        zone = strchr(answer, '\n') + 1; /* after the line with the code */
    }
    free(kept);
    int64_t len = fuzsbanel_zone_transfer(7, TEXT(ORIGIN), TEXT(""), update, sizeof update, &needed);
    for (int64_t i = 0; i < len; i++)
        printf("%02x", update[i]);
    uint8_t out[512];
    len = fuzsbanel_zone(TEXT(ORIGIN), TEXT(www), out, sizeof out, &needed);
    printf("\n%.*s", (int)len, (const char *)out);
    return len < 0;
}
