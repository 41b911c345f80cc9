/* Calls the library for C on the message on its input again and again, so that the cost can be counted:
 * `archive check|walk|whole|cut TIMES`. Prints the sum of what was answered. */
#include "fuzsbanel.h"

#include <inttypes.h>
#include <stdio.h>
#include <stdlib.h>
#include <string.h>

/* What a client takes that doesn't say. */
#define LIMIT 512

/* more than stand in 65,536 bytes, of which a question takes 5 */
#define ITEMS 16384

static uint8_t message[65536], names[255 * ITEMS];
static struct fuzsbanel_item items[ITEMS];

/* Finds each question and record, and answers the place after them; or what refuses. */
static int64_t walk(size_t len)
{
    struct fuzsbanel_header header;
    struct fuzsbanel_query query;
    struct fuzsbanel_record record;
    int64_t place = fuzsbanel_header(message, len, &header);
    for (unsigned i = 0; place >= 0 && i < header.queries; i++)
        place = fuzsbanel_query(message, len, (size_t)place, &query);
    unsigned records = (unsigned)header.answers + header.authorities + header.additionals;
    for (unsigned i = 0; place >= 0 && i < records; i++)
        place = fuzsbanel_record(message, len, (size_t)place, &record);
    return place;
}

/* The same by one call, which tells each one's name too. */
static int64_t whole(size_t len)
{
    struct fuzsbanel_room needed;
    return fuzsbanel_walk(message, len, items, ITEMS, names, sizeof names, &needed);
}

static int64_t cut(size_t len)
{
    uint8_t out[LIMIT];
    size_t needed;
    return fuzsbanel_cut(message, len, LIMIT, out, sizeof out, &needed);
}

int main(int argc, char **argv)
{
    if (argc != 3)
        return 2;
    size_t len = fread(message, 1, sizeof message, stdin);
    int64_t sum = 0;
    for (long times = atol(argv[2]); times > 0; times--) {
        if (strcmp(argv[1], "check") == 0)
            sum += fuzsbanel_check(message, len);
        else if (strcmp(argv[1], "walk") == 0)
            sum += walk(len);
        else if (strcmp(argv[1], "whole") == 0)
            sum += whole(len);
        else
            sum += cut(len);
    }
    printf("%" PRId64 "\n", sum);
    return 0;
}
