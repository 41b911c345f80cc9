/* Holds a zone from call to call, as a server does: it is opened at a text, updated where it is, its serial raised, and all of
 * it sent; another handle shares it, and keeps it as it was; its text at the end is what it is opened at again. */
#include "fuzsbanel.h"

#include <inttypes.h>
#include <stdio.h>
#include <stdlib.h>
#include <string.h>

#define ORIGIN "example."
#define TYPE_A 1
/* a text, as a pointer and a length */
#define TEXT(text) (const uint8_t *)(text), strlen(text)

_Static_assert(sizeof(struct fuzsbanel_zone_handle) == 16, "a handle has 16 bytes");
_Static_assert(sizeof(struct fuzsbanel_transfer_place) == 272, "a place has 272 bytes");

static const char first_zone[] = "@ 3600 SOA ns hostmaster 1 2 3 4 5\n@ 3600 NS ns\n$INCLUDE hosts\n";
/* a text that zone text may include, after its name, and how long both are */
#define NAME "hosts"
static const char hosts[] = NAME "ns 60 A 192.0.2.1\n";
static const struct fuzsbanel_included included[] = {{sizeof NAME - 1, sizeof hosts - sizeof NAME}};
#define INCLUDED included, 1, TEXT(hosts)

/* Opens the handle at a text, or tells why not. */
static int64_t open_at(struct fuzsbanel_zone_handle *zone, const char *text)
{
    uint8_t name[64], words[128];
    struct fuzsbanel_fault fault;
    int64_t answer = fuzsbanel_zone_open(TEXT(ORIGIN), TEXT(text), INCLUDED, zone, name, sizeof name, words,
                                         sizeof words, &fault);
    size_t len = fault.words_len < sizeof words ? fault.words_len : sizeof words;
    if (answer < 0)
        printf("refused %" PRId64 ": line %zu, column %zu: %.*s\n", -answer, fault.line, fault.column, (int)len,
               (const char *)words);
    return answer;
}

/* Carries out an update of so many bytes, or tells why there is none. */
static void update(struct fuzsbanel_zone_handle *zone, const uint8_t *bytes, int64_t len)
{
    bool is_changed = false;
    int64_t code = len < 0 ? len : fuzsbanel_zone_update(zone, bytes, (size_t)len, &is_changed);
    if (code < 0)
        printf("refused %" PRId64 "\n", -code);
    else
        printf("code %" PRId64 "%s\n", code, is_changed ? ", changed" : "");
}

/* The text of the zone, for the caller to free, or nothing where there is none. */
static char *text_of(struct fuzsbanel_zone_handle *zone)
{
    size_t needed, room = 0;
    for (;;) {
        uint8_t *out = malloc(room + 1);
        if (!out)
            return NULL;
        int64_t answer = fuzsbanel_zone_text(zone, out, room, &needed);
        if (answer >= 0) {
            out[answer] = 0;
            return (char *)out;
        }
        free(out);
        if (answer != FUZSBANEL_NO_ROOM) {
            printf("refused %" PRId64 "\n", -answer);
            return NULL;
        }
        room = needed;
    }
}

/* Prints how many answers each message of the zone's transfer has (RFC 5936, 2.2). */
static void transfer(struct fuzsbanel_zone_handle *zone)
{
    static const uint8_t query[] = "\0\x09\0\0\0\1\0\0\0\0\0\0\7example\0\0\xfc\0\1";
    static uint8_t message[65535];
    struct fuzsbanel_transfer_place place = {0};
    size_t needed;
    int64_t len;
    while ((len = fuzsbanel_zone_serve_transfer(zone, query, sizeof query - 1, &place, message, sizeof message, &needed)) > 0)
        printf("%" PRId64 " bytes, %d answers\n", len, message[6] << 8 | message[7]);
    if (len < 0)
        printf("refused %" PRId64 "\n", -len);
}

int main(void)
{
    struct fuzsbanel_zone_handle zone = {0};
    uint8_t bytes[512] = {0};
    size_t needed;
    update(&zone, bytes, 0); /* a closed handle */
    if (open_at(&zone, first_zone) != 0)
        return 1;
    const char *www = "www 300 A 192.0.2.2\n";
    for (int i = 0; i < 2; i++) /* the second finds the set */
        update(&zone, bytes, fuzsbanel_create(1, TEXT(ORIGIN), TEXT(www), false, bytes, sizeof bytes, &needed));
    for (int i = 0; i < 2; i++) /* the second changes nothing */
        update(&zone, bytes,
               fuzsbanel_append(2, TEXT(ORIGIN), TEXT("www 60 A 192.0.2.3\n"), true, false, bytes, sizeof bytes, &needed));
    update(&zone, bytes,
           fuzsbanel_delete_rrset(3, TEXT(ORIGIN), TEXT("ns"), TYPE_A, false, bytes, sizeof bytes, &needed));
    update(&zone, bytes, 11); /* cut off within its header */
    /* refused: the handle holds what it held */
    if (open_at(&zone, "www 300 A") >= 0)
        return 1;
    /* www.example., an address: the answer to what a client sends in a datagram */
    static const uint8_t query[] = "\0\x09\1\0\0\1\0\0\0\0\0\0\3www\7example\0\0\1\0\1";
    uint8_t answer[512];
    int64_t len = fuzsbanel_zone_answer(&zone, query, sizeof query - 1, 512, false, answer, sizeof answer, &needed);
    if (len < 0)
        return 1;
    for (int64_t i = 0; i < len; i++)
        printf("%02x%s", answer[i], i + 1 == len ? "\n" : "");
    printf("serial %" PRId64 "\n", fuzsbanel_zone_raise_serial(&zone));
    transfer(&zone);
    struct fuzsbanel_zone_handle reader = {0};
    if (fuzsbanel_zone_share(&zone, &reader) != 0)
        return 1;
    update(&zone, bytes,
           fuzsbanel_create(4, TEXT(ORIGIN), TEXT("ftp 60 A 192.0.2.4\n"), false, bytes, sizeof bytes, &needed));
    char *text = text_of(&zone), *kept = text_of(&reader);
    if (!text || !kept)
        return 1;
    printf("%s", text);
    printf("%s\n", strstr(kept, "ftp") ? "shared with its changes" : "shared as it was");
    free(kept);
    fuzsbanel_zone_close(&reader);
    int64_t opened = open_at(&zone, text); /* what it held is freed */
    char *again = opened == 0 ? text_of(&zone) : NULL;
    printf("%s\n", again && strcmp(text, again) == 0 ? "the same again" : "another zone");
    free(text);
    free(again);
    fuzsbanel_zone_close(&zone);
    fuzsbanel_zone_close(&zone); /* nothing is done */
    text = text_of(&zone);
    return text != NULL;
}
