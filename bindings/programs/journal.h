/* The journal of nameserver.c, in the format of journal.py: each update is synced to it before it is carried out. */
#ifndef JOURNAL_H
#define JOURNAL_H

#include "sha256.h"

#include <stdbool.h>
#include <stddef.h>
#include <stdint.h>
#include <sys/types.h>

/* the most bytes of a message */
#define MOST 65535

/* A number of two bytes, and of four, in the order of the network. */
uint16_t two_at(const uint8_t *bytes);
uint32_t four_at(const uint8_t *bytes);
void put_two(uint8_t *bytes, uint16_t number);

/* Says something to who started the server, if that can be done. */
void warn(const char *format, ...) __attribute__((format(printf, 1, 2)));

/* Says why the server can't start or go on, and ends it. */
_Noreturn void stop(const char *format, ...) __attribute__((format(printf, 1, 2)));

struct journal {
    const char *path;
    int file;
    off_t end, next;        /* where the entries end that were kept, and where the one after them */
    uint32_t sum, next_sum; /* the checksums there */
};

/* Opens the journal, and puts one without entries there if there is none. It has to have begun at this digest. */
void journal_open(struct journal *journal, const char *path, const uint8_t began_at[SHA256_BYTES]);

/* Reads the entry after those that were kept, and whether it is the last; false at the end, where a torn one is cut off. */
bool journal_next(struct journal *journal, uint8_t update[MOST], size_t *len, bool *is_last);

/* Writes an entry after those that were kept, and syncs it. */
bool journal_append(struct journal *journal, const uint8_t *update, size_t len);

/* Each of the entries above is kept then, or cut off, one that failed to be written too. */
void journal_keep(struct journal *journal);
void journal_cut(struct journal *journal);

void journal_close(struct journal *journal);

#endif
