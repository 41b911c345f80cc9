/* Asks, listens and answers: prints the query for a name, what a response to it says, as a resolver wants to know, the NOTIFY
 * and the response that a server builds, a name and data in wire form, and mnemonics. */
#include "fuzsbanel.h"

#include <inttypes.h>
#include <stdio.h>
#include <string.h>

#define PAYLOAD 1232
/* a text, as a pointer and a length */
#define TEXT(text) (const uint8_t *)(text), strlen(text)

/* NXDomain for `www.example.`, with an SOA whose TTL is 60 and whose MINIMUM is 5 */
static const uint8_t denied[] = "\0\x09\x81\x03\0\x01\0\0\0\x01\0\0\x03www\x07" "example\0\0\x01\0\x01"
                                "\xc0\x10\0\x06\0\x01\0\0\0\x3c\0\x18\xc0\x0c\xc0\x0c"
                                "\0\0\0\x01\0\0\0\x02\0\0\0\x03\0\0\0\x04\0\0\0\x05";

/* Prints what a response of so many bytes says, or why that is not known. */
static void print_response(const uint8_t *message, size_t len)
{
    struct fuzsbanel_response response;
    int64_t answers = fuzsbanel_response(message, len, &response);
    if (answers < 0) {
        printf("refused %" PRId64 "\n", -answers);
        return;
    }
    printf("%s, and %" PRIu16 " bytes are taken", answers ? "answered" : "not answered", response.max_payload);
    if (response.has_negative_ttl)
        printf("; not before %" PRIu32 " seconds", response.negative_ttl);
    printf("\n");
}

/* Prints the bytes of a message, or why there are none; answers whether there are. */
static bool print_bytes(const uint8_t *message, int64_t len)
{
    if (len < 0)
        printf("refused %" PRId64, -len);
    for (int64_t i = 0; i < len; i++)
        printf("%02x", message[i]);
    printf("\n");
    return len >= 0;
}

/* Prints what a number is called, of a call that wrote so many bytes. */
static void print_text(const uint8_t *text, int64_t len)
{
    printf("%.*s\n", len < 0 ? 0 : (int)len, (const char *)text);
}

int main(void)
{
    uint8_t query[512], reply[512];
    size_t needed;
    int64_t type = fuzsbanel_type_number(TEXT("a")), class_ = fuzsbanel_class_number(TEXT("IN"));
    int64_t code = fuzsbanel_code_number(TEXT("NXDOMAIN"));
    if (fuzsbanel_version() != FUZSBANEL_VERSION || type < 0 || class_ < 0 || code < 0)
        return 1;
    int64_t len = fuzsbanel_build_query(9, TEXT("www.example"), (uint16_t)type, (uint16_t)class_, true, PAYLOAD, query,
                                        sizeof query, &needed);
    if (!print_bytes(query, len))
        return 1;
    print_response(query, (size_t)len);
    int64_t notify_len = fuzsbanel_build_notify(9, TEXT("example"), reply, sizeof reply, &needed);
    if (!print_bytes(reply, notify_len))
        return 1;
    print_response(denied, sizeof denied - 1);
    int64_t reply_len =
        fuzsbanel_build_response(query, (size_t)len, (uint16_t)code, true, false, TEXT(""),
                                 TEXT("example 60 SOA ns.example hostmaster.example 1 2 3 4 5"), TEXT(""), PAYLOAD, false,
                                 reply, sizeof reply, &needed);
    if (!print_bytes(reply, reply_len))
        return 1;
    print_response(reply, (size_t)reply_len);
    len = fuzsbanel_name_wire(TEXT("www.example"), query, sizeof query, &needed);
    if (!print_bytes(query, len))
        return 1;
    len = fuzsbanel_data_wire((uint16_t)type, TEXT("192.0.2.1"), query, sizeof query, &needed);
    if (!print_bytes(query, len))
        return 1;
    print_text(reply, fuzsbanel_wire_text((uint16_t)type, query, (size_t)len, reply, sizeof reply, &needed));
    print_text(reply, fuzsbanel_type_text((uint16_t)type, reply, sizeof reply, &needed));
    print_text(reply, fuzsbanel_class_text((uint16_t)class_, reply, sizeof reply, &needed));
    print_text(reply, fuzsbanel_code_text((uint16_t)code, reply, sizeof reply, &needed));
    return 0;
}
