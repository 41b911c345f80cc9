/* The zone of nameserver.c and its journal. */
#ifndef HELD_ZONE_H
#define HELD_ZONE_H

#include "fuzsbanel.h"
#include "journal.h"

#include <string.h>

/* codes of RFC 1035, 4.1.1, and of RFC 2136, 2.2 */
enum { FORM_ERR = 1, SERV_FAIL = 2, NOT_IMP = 4, REFUSED = 5, NOT_AUTH = 9 };
/* how many bytes a header has, and a name at most, and a query for the zone's SOA */
enum { HEADER = 12, LONGEST_NAME = 255, ASKING = HEADER + LONGEST_NAME + 4 };
enum { TYPE_SOA = 6, CLASS_IN = 1 };
/* a text, as a pointer and a length */
#define TEXT(text) (const uint8_t *)(text), strlen(text)

struct held_zone {
    struct fuzsbanel_zone_handle zone;
    struct journal journal;
    const char *origin;
    uint32_t serial;
    uint8_t asking[ASKING]; /* the query for the SOA */
    size_t asking_len;
    uint8_t name[LONGEST_NAME]; /* of the zone, in wire form and lower case */
    size_t name_len;
};

/* Opens the zone of a file and of those that it includes, and carries out the updates of the journal again; or stops the
 * server. */
void held_open(struct held_zone *held, const char *path, const char *origin, const char *journal);

/* The code of an update. With NoError it is carried out, and stands in the journal if it changed anything; with another, or
 * where it finds no room or no memory, neither. So a replay comes to the same zone. */
int held_update(struct held_zone *held, const uint8_t *update, size_t len);

void held_close(struct held_zone *held);

/* Writes a name in lower case. */
void lower(uint8_t *out, const uint8_t *name, size_t len);

/* The serial of an SOA, whose data ends in five numbers (RFC 1035, 3.3.13); false for a record of another type. */
bool serial_of(const uint8_t *message, size_t len, const struct fuzsbanel_record *record, uint32_t *serial);

/* Finds the first answer of a message with one question, if it has any. */
bool first_answer(const uint8_t *message, size_t len, struct fuzsbanel_record *record);

#endif
