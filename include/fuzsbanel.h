/* DNS messages, zone text and updates, called from C11 and C++: the exports of crates/capi, each proved to meet its
 * contract there. docs/CALLING.md has how to build the archive, and docs/REFUSALS.md what each number means.
 *
 * Answers. Each call answers a length or a place in bytes, 0 or more; or minus the number of a refusal; or
 * FUZSBANEL_NO_ROOM where the caller's buffer is too small. A call with a buffer `out` of `cap` bytes sets `*needed`:
 * to how many bytes the answer takes, also where there is no room, and to 0 where it refuses. It writes the answer at
 * the front of `out` and nothing after it; of FUZSBANEL_NO_ROOM and of a refusal it writes nothing. So a caller may ask
 * with a `cap` of 0 first. No text ends in a zero byte. Beside the refusals that it names, any call may refuse with 3.
 *
 * Who owns what. The caller owns every buffer, and no call keeps one or hands one out: what a call allocates, it frees
 * before it returns, but for what an open zone handle holds. The caller owes this, which nothing checks:
 *   - no pointer is null, not even beside a length of 0, and as many bytes as are said stand there, fewer than 2^63, at
 *     a place that is aligned for their type;
 *   - what a call writes to (`out`, `needed`, what is found) overlaps nothing else that the call is handed, and no
 *     other thread reads or writes it before the call returns; what a call reads no thread writes before that, though
 *     others may read it;
 *   - a `bool` is 0 or 1;
 *   - `malloc`, `realloc` and `free` are of one allocator, and align to 16 bytes; or else the program defines
 *     `rattle_alloc`, `rattle_realloc` and `rattle_dealloc` itself, which are declared at the end;
 *   - 32 KiB of stack are left; 2 to 10 were seen to be taken;
 *   - no call comes from a signal handler, or from the forked child of a process with threads.
 * Calls share nothing but a handle that both are handed, so threads may call at once. The archive is for Linux on
 * x86-64. */
#ifndef FUZSBANEL_H
#define FUZSBANEL_H

#include <stdbool.h>
#include <stddef.h>
#include <stdint.h>

#ifdef __cplusplus
extern "C" {
#endif

/* What is answered where `out` has no room. */
#define FUZSBANEL_NO_ROOM (-100)

/* The numbers of refusals (docs/REFUSALS.md). A call answers minus the number. */
enum fuzsbanel_refusal {
    FUZSBANEL_LIMIT = 1,              /* the limit has no room for the header */
    FUZSBANEL_QUESTIONS = 2,          /* the limit has no room for the questions */
    FUZSBANEL_MEMORY = 3,             /* memory ran out */
    FUZSBANEL_SHORT = 4,              /* the bytes end inside a field, or before the place */
    FUZSBANEL_BAD_NAME = 5,           /* a name that is spelled wrongly */
    FUZSBANEL_OPT_OWNER = 6,          /* an OPT record whose owner isn't the root */
    FUZSBANEL_DATA_LENGTH = 7,        /* RDLENGTH says more bytes than are left */
    FUZSBANEL_BAD_DATA = 8,           /* data that its type doesn't read */
    FUZSBANEL_EMPTY_DATA = 10,        /* empty data outside an update */
    FUZSBANEL_AFTER_SIGNATURE = 11,   /* a record after the signature */
    FUZSBANEL_MISPLACED = 12,         /* OPT, SIG or TSIG outside the additional section */
    FUZSBANEL_SECOND_OPT = 13,        /* a second OPT record */
    FUZSBANEL_NOT_A_RESPONSE = 16,    /* a query, where a response is asked for */
    FUZSBANEL_UNEXPECTED_TOKEN = 17,  /* zone text: a token that has no place there */
    FUZSBANEL_LEXER = 18,             /* zone text: a character or bracket that no token has */
    FUZSBANEL_ENTRY = 19,             /* zone text: an entry that can't be carried out */
    FUZSBANEL_NO_INCLUDE = 20,        /* zone text: an included text, and none is handed in */
    FUZSBANEL_UNKNOWN_TYPE = 21,      /* zone text: no record type */
    FUZSBANEL_UNSUPPORTED_TYPE = 22,  /* zone text: a type without a text form */
    FUZSBANEL_BAD_TEXT = 23,          /* zone text: items that are no data, name or TTL */
    FUZSBANEL_NOT_UTF8 = 24,          /* a text that isn't UTF-8 */
    FUZSBANEL_CLASS = 25,             /* a record that isn't of the class IN */
    FUZSBANEL_NO_ORIGIN = 26,         /* an empty origin, where a zone has to be named, or an empty name */
    FUZSBANEL_NOT_ONE_SET = 27,       /* the text of a set without a record, or with several owners or types */
    FUZSBANEL_OUTSIDE = 28,           /* an owner outside the zone */
    FUZSBANEL_TYPE = 29,              /* a type that no update here is of: SOA, query and meta types, SIG, WKS, 0 */
    FUZSBANEL_NOT_SOA = 30,           /* a record that isn't the zone's SOA */
    FUZSBANEL_NOT_ON_WIRE = 31,       /* what no message says: a relative name in data, OPT, a code without bits */
    FUZSBANEL_TOO_LONG = 32,          /* an update, question or record that no message of 65,535 bytes holds */
    FUZSBANEL_TWO_ANAMES = 33,        /* an update that leaves an owner two ANAME records, which no zone text says */
    FUZSBANEL_CLOSED = 34,            /* a zone handle that isn't open */
    FUZSBANEL_NO_SOA = 35,            /* a zone that hasn't exactly one record as its SOA */
    FUZSBANEL_NO_PLACE = 36,          /* a place of a transfer that no call left */
    FUZSBANEL_NO_MNEMONIC = 37,       /* a text that names no class, or no response code */
    FUZSBANEL_NOT_A_QUERY = 38        /* a response, where a query is asked for */
};

/* The version that this header declares, and that of the archive, which is to be the same: a thousand for each minor
 * version, and a million for each major one. */
#define FUZSBANEL_VERSION 1000
uint32_t fuzsbanel_version(void);

/* ---- numbers and their mnemonics, in letters of either case
 *
 * The `.._number` calls answer the number of a text, and refuse with 24 what isn't UTF-8. The others write the text of
 * any number, of 15 bytes at most. */

/* Of record types (RFC 1035, 3.2.2 and 3.2.3), also as `TYPE` and the number, as `TYPE257` (RFC 3597, 5), which is what
 * is written where a type has no mnemonic here. Refuses with 21. */
int64_t fuzsbanel_type_number(const uint8_t *text, size_t len);
int64_t fuzsbanel_type_text(uint16_t record_type, uint8_t *out, size_t cap, size_t *needed);

/* Of classes (RFC 1035, 3.2.4 and 3.2.5), `*` for ANY, also as `CLASS` and the number. Refuses with 37. */
int64_t fuzsbanel_class_number(const uint8_t *text, size_t len);
int64_t fuzsbanel_class_text(uint16_t class_, uint8_t *out, size_t cap, size_t *needed);

/* Of response codes (RFC 6895, 2.3), as `NXDomain`, also as the number in decimal, which is what is written where a
 * code has no name. 16 is written BADSIG, and read of BADVERS too. Refuses with 37. */
int64_t fuzsbanel_code_number(const uint8_t *text, size_t len);
int64_t fuzsbanel_code_text(uint16_t code, uint8_t *out, size_t cap, size_t *needed);

/* ---- messages (RFC 1035, 4.1) */

/* How many bytes the message takes that `message` begins with: 12 or more. Bytes after it aren't looked at. Refuses
 * with the message's first fault: 4 to 13. */
int64_t fuzsbanel_check(const uint8_t *message, size_t len);

/* Writes that message again in at most `limit` bytes, names compressed: what doesn't fit is left out, and TC says so
 * (RFC 2181, 9). The parts are written in their order, and each is cut by itself, EDNS too: a cut answer may have no
 * OPT record, though RFC 6891, 7 wants one in the response to a query that has it. Where TC comes with no OPT, send the
 * header and the questions with an OPT record, and no answers. Any limit from 12 bytes and the questions on has room;
 * `cap` may be less than `limit`. Refuses as fuzsbanel_check does, and with 1 or 2 for a limit without room. */
int64_t fuzsbanel_cut(const uint8_t *message, size_t len, uint16_t limit, uint8_t *out, size_t cap, size_t *needed);

/* Writes the text of that message: a line for the header, one for EDNS if there is any, and one for each question; of a
 * response or an update also one for each section, and under it one for each record but a signature. Refuses as
 * fuzsbanel_check does. */
int64_t fuzsbanel_text(const uint8_t *message, size_t len, uint8_t *out, size_t cap, size_t *needed);

/* The fields of a header (RFC 1035, 4.1.1; RFC 4035, 3.1.6). */
struct fuzsbanel_header {
    uint16_t id;
    uint16_t queries;     /* how many questions, answers, authorities and additional records are counted */
    uint16_t answers;
    uint16_t authorities;
    uint16_t additionals;
    uint8_t opcode;       /* 0 to 15 */
    uint8_t rcode;        /* the header's four bits */
    bool response;
    bool authoritative;
    bool truncated;
    bool recursion_desired;
    bool recursion_available;
    bool authentic_data;
    bool checking_disabled;
};

/* Fills in the header that `message` begins with, and answers 12. Refuses with 4, and `*header` stays. What comes after
 * the header isn't looked at. */
int64_t fuzsbanel_header(const uint8_t *message, size_t len, struct fuzsbanel_header *header);

/* What a response says (RFC 2308, 5; RFC 6891, 6.2.3). */
struct fuzsbanel_response {
    uint32_t negative_ttl; /* for how many seconds an absence may be kept; 0 without an SOA that says so */
    uint16_t max_payload;  /* how many bytes its sender takes, 512 at least */
    bool has_negative_ttl;
};

/* Fills in what the response says that `message` begins with, and answers 1 where it answers some question, else 0: for
 * type ANY any record of its name does, for SOA an SOA in whose zone the name lies, for another type any answer, or a
 * record of that name and type in any section. Refuses as fuzsbanel_check does, and a query with 16; `*response`
 * stays. */
int64_t fuzsbanel_response(const uint8_t *message, size_t len, struct fuzsbanel_response *response);

/* Writes a query with one question (RFC 1035, 4.1.1 and 4.1.2). The name is taken as absolute, with a dot at its end or
 * without. `recursion` is RD. With a `payload` other than 0 the query has EDNS, which says that answers of so many
 * bytes are taken, and of 512 at least (RFC 6891, 6.2.3). Refuses with 26 for a name of no bytes, 24, and 23 for no
 * name. */
int64_t fuzsbanel_build_query(uint16_t id, const uint8_t *name, size_t name_len, uint16_t record_type, uint16_t class_,
                              bool recursion, uint16_t payload, uint8_t *out, size_t cap, size_t *needed);

/* Writes the NOTIFY that tells a secondary that the SOA of the zone `origin` may have changed: AA is set, and the
 * question is that SOA, of the class IN (RFC 1996, 3). A secondary that heard it answers with its id and operation, 4,
 * and QR. Refuses as fuzsbanel_build_query does. */
int64_t fuzsbanel_build_notify(uint16_t id, const uint8_t *origin, size_t origin_len, uint8_t *out, size_t cap,
                               size_t *needed);

/* Writes the response to the query that `query` begins with, with this response code, AA and RA: it has the query's id,
 * operation, RD and CD, its questions, and where it has EDNS, EDNS of version 0 and 512 bytes with its DO (RFC 6895, 2;
 * RFC 6891, 6.1.1; RFC 3225, 3). The records of its sections are those of three zone texts, read as fuzsbanel_zone
 * reads one under the root, so that `www.example 300 A 192.0.2.1` is of `www.example.`: records of type CNAME stand
 * first, and all in the order of owners and types. A datagram has at most as many bytes as `most` and the query's EDNS
 * say, and 512 at least; with `by_stream` there may be 65,535. What has no room is left out as fuzsbanel_cut leaves it
 * out. Refuses as fuzsbanel_check does, with 38, with 31 for a code above 15 where the query has no EDNS and for any
 * above 4,095, as fuzsbanel_zone does, and with 2. */
int64_t fuzsbanel_build_response(const uint8_t *query, size_t query_len, uint16_t code, bool authoritative,
                                 bool recursion_available, const uint8_t *answers, size_t answers_len,
                                 const uint8_t *authorities, size_t authorities_len, const uint8_t *additionals,
                                 size_t additionals_len, uint16_t most, bool by_stream, uint8_t *out, size_t cap,
                                 size_t *needed);

/* ---- a message walked where it stands: no data is copied, and places count from the first byte of `message`
 *
 * fuzsbanel_walk tells at once of all questions and records, and costs what the message's bytes cost. The other calls
 * tell of one place each, and know nothing of what was read before: of names by many pointers each follows them all
 * again. */

/* A question: the place of its name, QTYPE, and the class field with its top bit (RFC 1035, 4.1.2; RFC 6762, 5.4). */
struct fuzsbanel_query {
    size_t name;
    uint16_t query_type;
    uint16_t class_;
};

/* A record: the places of its owner and of its data, the TTL in seconds, the type, the class field with its top bit,
 * and how many bytes the data has (RFC 1035, 4.1.3; of an OPT record RFC 6891, 6.1.2). */
struct fuzsbanel_record {
    size_t name;
    size_t data;
    uint32_t ttl;
    uint16_t record_type;
    uint16_t class_;
    uint16_t data_len;
};

/* An EDNS option: the place of its data, the code, and how many bytes the data has (RFC 6891, 6.1.2). */
struct fuzsbanel_option {
    size_t data;
    uint16_t code;
    uint16_t data_len;
};

/* A question or a record of a message that is walked whole: where it stands and its fields, where its name stands in
 * wire form in `names` (RFC 1035, 3.1: each label after its length, and a zero byte), and its section. A question has a
 * TTL of 0 and no data, at the place after it. */
struct fuzsbanel_item {
    struct fuzsbanel_record record;
    size_t name;
    uint8_t name_len;     /* 1 to 255 */
    uint8_t section;
};

/* The sections of a message (RFC 1035, 4.1). */
enum fuzsbanel_section {
    FUZSBANEL_QUESTION = 0,
    FUZSBANEL_ANSWER = 1,
    FUZSBANEL_AUTHORITY = 2,
    FUZSBANEL_ADDITIONAL = 3
};

/* How much a walk takes: how many items, and how many bytes of names. */
struct fuzsbanel_room {
    size_t items;
    size_t names;
};

/* Walks the message that `message` begins with: fills in an item for each question and each record that its header
 * counts, in their order, writes the names, and answers the place after the last. OPT records and signatures are
 * records like others, wherever they stand. `items` has room for `items_len` items, `names` for `names_len` bytes;
 * where either has too little, FUZSBANEL_NO_ROOM is answered. `*needed` is set as above; 255 bytes a name always
 * suffice. Refuses with 4 to 8, and both stay. fuzsbanel_name reads a name of `names` as it does one of a message. */
int64_t fuzsbanel_walk(const uint8_t *message, size_t len, struct fuzsbanel_item *items, size_t items_len,
                       uint8_t *names, size_t names_len, struct fuzsbanel_room *needed);

/* Finds the question at `place`, and answers the place after it. The first stands at 12, and each other one after the
 * one before; the header counts them. Refuses with 4 or 5, and `*query` stays. */
int64_t fuzsbanel_query(const uint8_t *message, size_t len, size_t place, struct fuzsbanel_query *query);

/* Finds the record at `place`, and answers the place after it. The first stands after the last question. Refuses with 4
 * to 8, and `*record` stays. */
int64_t fuzsbanel_record(const uint8_t *message, size_t len, size_t place, struct fuzsbanel_record *record);

/* Finds the option at `place`, and answers the place after it. The first stands where the data of the OPT record does;
 * `len` is where that data ends: `data + data_len`. Refuses with 4, and `*option` stays. */
int64_t fuzsbanel_option(const uint8_t *message, size_t len, size_t place, struct fuzsbanel_option *option);

/* Writes the text of the name at `place` (RFC 1035, 5.1): 1,004 bytes at most. A name within the data of a record
 * stands at a place like others. Refuses with 4 or 5. */
int64_t fuzsbanel_name(const uint8_t *message, size_t len, size_t place, uint8_t *out, size_t cap, size_t *needed);

/* Writes the text of the data of the record at `place`, as fuzsbanel_text has it: where its type has a text form, what
 * stands for it in zone text (RFC 1035, 5.1). Refuses with 4 to 8. */
int64_t fuzsbanel_data_text(const uint8_t *message, size_t len, size_t place, uint8_t *out, size_t cap, size_t *needed);

/* ---- names and data alone, in wire form */

/* Writes the name of a text in wire form: each label after its length, and a zero byte (RFC 1035, 3.1), 255 bytes at
 * most. The name is taken as absolute. fuzsbanel_name reads it again, at place 0. Refuses with 26 for a name of no
 * bytes, 24, and 23 for no name. */
int64_t fuzsbanel_name_wire(const uint8_t *name, size_t name_len, uint8_t *out, size_t cap, size_t *needed);

/* Writes the data of a type that a text is, as `10 mail.example.` of type MX: what stands after the type in zone text,
 * below. Names in it end in the root, and are written without compression. Refuses with 17 to 24, with 25 or 27 for a
 * text that goes on with other records, and with 32 for data of more than 65,535 bytes. */
int64_t fuzsbanel_data_wire(uint16_t record_type, const uint8_t *text, size_t text_len, uint8_t *out, size_t cap,
                            size_t *needed);

/* Writes the text of such data, as fuzsbanel_data_text does of what stands in a message; it can be read again. A
 * pointer in a name of it leads to a place of the data itself. Refuses with 8, and with 32 for more than 65,535
 * bytes. */
int64_t fuzsbanel_wire_text(uint16_t record_type, const uint8_t *octets, size_t len, uint8_t *out, size_t cap,
                            size_t *needed);

/* ---- zone text (RFC 1035, 5.1), UTF-8
 *
 * `origin` is the text of a name, as `example.`; of no bytes, there is none, and the text has to have an `$ORIGIN`. A
 * record has to have a TTL, on its line or any before it, or by `$TTL`. What lacks these is refused with 19. A type may
 * stand as `TYPE` and its number, and data of any type in the generic form, as `\# 4 C0000201` (RFC 3597, 5): the
 * number of bytes, and their hexadecimal digits, which blanks may part; `\# 0` is a record without data, as an update
 * may add one. */

/* Writes the zone of a text as zone text: `$ORIGIN`, and each record on a line of its own, in the order of owners and
 * types, its names absolute: types without a name, data without a form of its own and records without data stand in the
 * generic form. So what is written can be read again. No text is there to be included. Refuses with 17 to 24, and with
 * 31 for a relative name in data. */
int64_t fuzsbanel_zone(const uint8_t *origin, size_t origin_len, const uint8_t *text, size_t text_len, uint8_t *out,
                       size_t cap, size_t *needed);

/* A text that zone text may include by `$INCLUDE`: how many bytes its name has, and how many it. */
struct fuzsbanel_included {
    size_t name_len;
    size_t text_len;
};

/* Where zone text is refused: the line and the column, from 1, the column in bytes; how many bytes the name of the
 * included text has, 0 where the fault stands in the text itself; and how many bytes the words have. */
struct fuzsbanel_fault {
    size_t line;
    size_t column;
    size_t name_len;
    size_t words_len;
};

/* Says where the text of a zone is refused, and for what, as a zone checker does; answers 0 where it isn't. The texts
 * that may be included stand in `bytes` one after the other, each after its name, and `included` says how long they
 * are, and no byte after `bytes_len` is read; of texts of one name the last stands. Of a fault in a text, the place of
 * the first token that makes it is filled in, of data that is none of its type that of the type; `name` gets the name
 * of the included text that it stands in, and `words` the reason, as `invalid data for type A`, each cut where it has
 * no room: `*fault` says how long they are. Of any other answer both stay, and `*fault` is 0 throughout. Refuses with
 * 17 to 24. 20 has the words `no text named NAME to include`, so a caller may read that text, and ask again. */
int64_t fuzsbanel_zone_check(const uint8_t *origin, size_t origin_len, const uint8_t *text, size_t text_len,
                             const struct fuzsbanel_included *included, size_t included_len, const uint8_t *bytes,
                             size_t bytes_len, uint8_t *name, size_t name_cap, uint8_t *words, size_t words_cap,
                             struct fuzsbanel_fault *fault);

/* Writes what the server of the zone `origin` makes of an update message and the zone's text: a line with its code, as
 * `NoError` or `YXRRSet`, and the zone then, as fuzsbanel_zone has it (RFC 2136, 3), which is the text of the next
 * call. Of any code but `NoError` the zone is as it was. An `$ORIGIN` of the text says how its names end, and never
 * which zone it is. Two things are the caller's: the SOA's serial stays as it was, since RFC 2136, 3.6 leaves it to the
 * server when it is raised; and an update with a record of type SOA, or of another type that the updates below refuse
 * with 29, is answered `NotImp` as a whole. Refuses with the update's first fault, with 26, as fuzsbanel_zone does,
 * with 25 for a zone of another class than IN, and with 33. */
int64_t fuzsbanel_apply(const uint8_t *update, size_t update_len, const uint8_t *origin, size_t origin_len,
                        const uint8_t *text, size_t text_len, uint8_t *out, size_t cap, size_t *needed);

/* ---- a zone that is held from call to call
 *
 * A handle begins closed, as `struct fuzsbanel_zone_handle zone = {0};`, and is open between fuzsbanel_zone_open and
 * fuzsbanel_zone_close. Its fields are the library's: a caller reads and writes none. It may be moved (the bytes
 * copied, if the old place isn't used again), never copied: of two copies the second that is used is a use of freed
 * memory. One call at a time uses a handle, one that only reads too; it may go to another thread where a lock, the
 * thread's start or join, or a seq_cst atomic orders that. Each open handle is closed once, or its memory is lost.
 * `malloc` and `free` are the same from open to close. */
struct fuzsbanel_zone_handle {
    void *at;
    bool is_open;
};

/* Opens the handle at the zone `origin`, whose records are those of the text, and answers 0; what the handle held
 * before is freed. An `$ORIGIN` of the text says how its names end, and never which zone it is. The texts that it may
 * include are handed in as to fuzsbanel_zone_check, and the fault of a text that is refused is told as that tells it:
 * `*fault`, `name` and `words`. Refuses as fuzsbanel_zone does, with 26, and with 25 for a zone of another class than
 * IN; the handle then holds what it held. */
int64_t fuzsbanel_zone_open(const uint8_t *origin, size_t origin_len, const uint8_t *text, size_t text_len,
                            const struct fuzsbanel_included *included, size_t included_len, const uint8_t *bytes,
                            size_t bytes_len, struct fuzsbanel_zone_handle *handle, uint8_t *name, size_t name_cap,
                            uint8_t *words, size_t words_cap, struct fuzsbanel_fault *fault);

/* Carries out an update message in the zone, and answers the code of RFC 2136, 2.2: 0 is NoError, and the update is
 * carried out (RFC 2136, 3). With any other code, and where it refuses, each record stays as it was. `*is_changed` is
 * set by every answer, a refusal too: to true exactly where some set is another than before, in any field, so that an
 * update that adds what is there, or undoes what it does, changes nothing. What it costs depends on what the update
 * names, and not on the zone's size. Whether the message is an update, whoever sent it, is the caller's to ask, and so
 * is the SOA's serial, which stays: a server raises it where the zone is changed (RFC 2136, 3.6). Refuses with 34, and
 * as fuzsbanel_check does. */
int64_t fuzsbanel_zone_update(struct fuzsbanel_zone_handle *handle, const uint8_t *update, size_t update_len,
                              bool *is_changed);

/* Writes the zone as fuzsbanel_zone writes one: a handle opened at this text, with the same origin, holds the same
 * records. Refuses with 34, and with 33 where updates left an owner with two ANAME records. */
int64_t fuzsbanel_zone_text(struct fuzsbanel_zone_handle *handle, uint8_t *out, size_t cap, size_t *needed);

/* Writes the bytes that an authoritative server of the zone sends for those that it received: the answer to a query
 * (RFC 1034, 4.3.2; RFC 2308; RFC 4592), or a code alone, as FormErr for bytes that are no message. 0 bytes are written
 * where nothing is sent: for a response, or for less than a header. A datagram has at most as many bytes as `most` and
 * the query's EDNS say, and 512 at least; TC says where records are left out. With `by_stream` there may be 65,535.
 * Updates are answered NotImp, and so are zone transfers, which fuzsbanel_zone_serve_transfer has. Refuses with 34. */
int64_t fuzsbanel_zone_answer(struct fuzsbanel_zone_handle *handle, const uint8_t *received, size_t received_len,
                              uint16_t most, bool by_stream, uint8_t *out, size_t cap, size_t *needed);

/* Raises the serial of the zone's SOA by one, modulo 2^32 (RFC 1982, 3.1), as a server does after an update (RFC 2136,
 * 3.6), and answers the new serial. It takes no memory, and so never refuses with 3, but for a zone that another handle
 * holds too. After fuzsbanel_zone_open, after an update that was answered with a code, and after this call, none does
 * until fuzsbanel_zone_share. Refuses with 34, and with 35 for a zone that hasn't exactly one record as its SOA. */
int64_t fuzsbanel_zone_raise_serial(struct fuzsbanel_zone_handle *handle);

/* Where the next message of a zone transfer begins. It begins as `struct fuzsbanel_transfer_place place = {0};`, at the
 * transfer's start; its fields are the library's, and any bytes in it are safe. It may be copied, and kept for as long
 * as the caller likes: it holds nothing of the zone's. */
struct fuzsbanel_transfer_place {
    size_t index;
    uint16_t record_type;
    uint8_t kind, is_unknown, is_absolute, name_len;
    uint8_t name[255];
};

/* Writes the next message of a zone transfer (RFC 5936, 2.2), and moves the place after it; 0 bytes where nothing is
 * sent: after the last message, and for a response. `query` is what the client sent, of type AXFR; one for anything
 * else, or for another zone, is answered by one message with a code alone, and so is one that asks a zone without an
 * SOA. A message has 65,535 bytes at most, so `out` with as many always has room. The zone has to stay as it is until
 * the last message: after a change what is left is that of the changed zone. Where it refuses, or has no room, the
 * place stays. Refuses with 34, as fuzsbanel_check does, with 36 for a place that no call left, and with 32 for a
 * record that no message holds. */
int64_t fuzsbanel_zone_serve_transfer(struct fuzsbanel_zone_handle *handle, const uint8_t *query, size_t query_len,
                                      struct fuzsbanel_transfer_place *place, uint8_t *out, size_t cap, size_t *needed);

/* Opens `other` at the zone that `handle` holds, and answers 0: both hold it then, and no record is copied; what
 * `other` held before is freed. Each may go to a thread of its own, and one thread reads by one while another reads or
 * changes by the other. Any update, and raising the serial, of a zone that another handle holds too copies it first,
 * also an update that is refused or changes nothing, and the other keeps it as it was: it then costs what the zone's
 * size does, and the next one what it names. Refuses with 34; `other` then holds what it held. */
int64_t fuzsbanel_zone_share(struct fuzsbanel_zone_handle *handle, struct fuzsbanel_zone_handle *other);

/* Closes the handle, and frees what it held. A closed handle stays closed. */
void fuzsbanel_zone_close(struct fuzsbanel_zone_handle *handle);

/* ---- updates (RFC 2136, 2)
 *
 * Each writes the bytes of a message with this id, all of it: one that has no room in 65,535 bytes is refused with 32,
 * and never cut. `origin` is the text of the zone's name, as `example.`; a set is the zone text of its records, as `www
 * 300 A 192.0.2.1`: all of one owner, in the zone, of one type and of the class IN. With `use_edns` the message takes
 * answers of up to 1232 bytes. Each refuses with 17 to 29, 31 and 32. */

/* Creates a set, if the zone has none of that owner and type (2.4.3). */
int64_t fuzsbanel_create(uint16_t id, const uint8_t *origin, size_t origin_len, const uint8_t *set, size_t set_len,
                         bool use_edns, uint8_t *out, size_t cap, size_t *needed);

/* Adds records to a set, which is made where there is none; with `must_exist`, if the zone has one of that owner and
 * type (2.4.1). */
int64_t fuzsbanel_append(uint16_t id, const uint8_t *origin, size_t origin_len, const uint8_t *set, size_t set_len,
                         bool must_exist, bool use_edns, uint8_t *out, size_t cap, size_t *needed);

/* Puts a set in the place of another, if the zone has exactly that (2.4.2). */
int64_t fuzsbanel_compare_and_swap(uint16_t id, const uint8_t *origin, size_t origin_len, const uint8_t *current,
                                   size_t current_len, const uint8_t *next, size_t next_len, bool use_edns,
                                   uint8_t *out, size_t cap, size_t *needed);

/* Takes the data of a set out of the zone (2.5.4). */
int64_t fuzsbanel_delete_by_rdata(uint16_t id, const uint8_t *origin, size_t origin_len, const uint8_t *set,
                                  size_t set_len, bool use_edns, uint8_t *out, size_t cap, size_t *needed);

/* Takes the set of an owner and a type out of the zone (2.5.2). `owner` is the text of a name, which ends in the origin
 * where it is relative. */
int64_t fuzsbanel_delete_rrset(uint16_t id, const uint8_t *origin, size_t origin_len, const uint8_t *owner,
                               size_t owner_len, uint16_t record_type, bool use_edns, uint8_t *out, size_t cap,
                               size_t *needed);

/* Takes all sets of an owner out of the zone; at the origin SOA and NS stay (2.5.3). */
int64_t fuzsbanel_delete_all(uint16_t id, const uint8_t *origin, size_t origin_len, const uint8_t *owner,
                             size_t owner_len, bool use_edns, uint8_t *out, size_t cap, size_t *needed);

/* Asks for all of a zone (RFC 5936, 2.1), or for what changed since an SOA (RFC 1995, 3): zone text of one record at
 * the origin, as `@ 300 SOA ns hostmaster 1 7200 3600 1209600 300`; `last_soa_len` of 0 asks for all. Refuses as the
 * updates do, with 30 where 29 would come. */
int64_t fuzsbanel_zone_transfer(uint16_t id, const uint8_t *origin, size_t origin_len, const uint8_t *last_soa,
                                size_t last_soa_len, uint8_t *out, size_t cap, size_t *needed);

/* ---- memory
 *
 * What the library takes memory by. libfuzsbanel.a has them over `malloc`, `realloc` and `free`, and a program that
 * defines all three itself links its own in their place (bindings/c/arena.c). `align` is a power of two up to 16. Where
 * there is no memory, `ok` is false, `block` is still not null, and the old block stays. */
struct rattle_block {
    bool ok;
    void *block;
};

/* A block of `size` bytes, aligned to `align`. */
struct rattle_block rattle_alloc(size_t size, size_t align);

/* The block with `size` bytes, whose first `kept` bytes are as they were. */
struct rattle_block rattle_realloc(void *block, size_t kept, size_t size, size_t align);

/* The block is free again. */
void rattle_dealloc(void *block);

#ifdef __cplusplus
}
#endif

#endif
