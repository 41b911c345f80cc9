/* A journal has a head, which says what its updates began at, and entries: the length of an update, the same with each bit
 * turned, so that a damaged length isn't taken for a torn entry, a checksum of the update and of all before it, and the
 * update. */
#define _DEFAULT_SOURCE /* flock, beside POSIX */
#include "journal.h"

#include <errno.h>
#include <fcntl.h>
#include <libgen.h>
#include <limits.h>
#include <stdarg.h>
#include <stdio.h>
#include <stdlib.h>
#include <string.h>
#include <sys/file.h>
#include <sys/stat.h>
#include <unistd.h>

#define NAME "fuzsbanel log 1\n"
enum { NAME_BYTES = sizeof NAME - 1, HEAD = NAME_BYTES + SHA256_BYTES, ENTRY = 8 };

uint16_t two_at(const uint8_t *bytes)
{
    return (uint16_t)(bytes[0] << 8 | bytes[1]);
}

uint32_t four_at(const uint8_t *bytes)
{
    return (uint32_t)two_at(bytes) << 16 | two_at(bytes + 2);
}

void put_two(uint8_t *bytes, uint16_t number)
{
    bytes[0] = (uint8_t)(number >> 8);
    bytes[1] = (uint8_t)number;
}

/* Where nobody listens, nothing is to be done about it. */
static void say(const char *format, va_list words)
{
    (void)(fputs("nameserver: ", stderr) >= 0 && vfprintf(stderr, format, words) >= 0 && fputc('\n', stderr));
}

void warn(const char *format, ...)
{
    va_list words;
    va_start(words, format);
    say(format, words);
    va_end(words);
}

void stop(const char *format, ...)
{
    va_list words;
    va_start(words, format);
    say(format, words);
    va_end(words);
    exit(1);
}

/* The checksum of zlib's crc32: of bytes that come after those of another sum. */
static uint32_t summed(uint32_t sum, const uint8_t *bytes, size_t len)
{
    sum = ~sum;
    for (size_t i = 0; i < len; i++) {
        sum ^= bytes[i];
        for (int bit = 0; bit < 8; bit++)
            sum = sum >> 1 ^ (sum & 1 ? 0xEDB88320 : 0);
    }
    return ~sum;
}

static bool write_all(int file, const uint8_t *bytes, size_t len, off_t place)
{
    for (size_t done = 0; done < len;) {
        ssize_t wrote = pwrite(file, bytes + done, len - done, place + (off_t)done);
        if (wrote <= 0)
            return false;
        done += (size_t)wrote;
    }
    return true;
}

/* Reads so many bytes, or those that there are. */
static size_t read_all(const struct journal *journal, uint8_t *bytes, size_t len, off_t place)
{
    size_t done = 0;
    for (ssize_t got = 1; done < len && got > 0; done += (size_t)got) {
        got = pread(journal->file, bytes + done, len - done, place + (off_t)done);
        if (got < 0)
            stop("%s: %s", journal->path, strerror(errno));
    }
    return done;
}

/* Syncs the folder that a file stands in, and so the files' names. */
static bool sync_folder(char *name)
{
    int folder = open(dirname(name), O_RDONLY | O_CLOEXEC);
    if (folder < 0)
        return false;
    bool is_synced = fsync(folder) == 0;
    return close(folder) == 0 && is_synced;
}

/* Puts a journal without entries there at once, so that a head is never torn, and never in the place of another's. */
static void begin(const char *path, const uint8_t head[HEAD])
{
    char name[PATH_MAX];
    int len = snprintf(name, sizeof name, "%s.XXXXXX", path);
    if (len < 0 || (size_t)len >= sizeof name)
        stop("the journal's path is too long");
    int file = mkstemp(name);
    if (file < 0)
        stop("%s: %s", path, strerror(errno));
    bool is_there = write_all(file, head, HEAD, 0) && fsync(file) == 0 && link(name, path) == 0;
    int why = errno;
    if (unlink(name) != 0 || close(file) != 0)
        warn("%s: %s", name, strerror(errno));
    if (!is_there)
        stop("%s: %s", path, strerror(why));
    if (!sync_folder(name))
        stop("%s: its folder isn't synced: %s", path, strerror(errno));
}

void journal_open(struct journal *journal, const char *path, const uint8_t began_at[SHA256_BYTES])
{
    uint8_t wanted[HEAD], head[HEAD];
    memcpy(wanted, NAME, NAME_BYTES);
    memcpy(wanted + NAME_BYTES, began_at, SHA256_BYTES);
    if (access(path, F_OK) != 0)
        begin(path, wanted);
    *journal = (struct journal){path, open(path, O_RDWR | O_CLOEXEC), HEAD, HEAD, summed(0, wanted, HEAD), 0};
    if (journal->file < 0)
        stop("%s: %s", path, strerror(errno));
    if (flock(journal->file, LOCK_EX | LOCK_NB) != 0)
        stop("%s: another server has this journal", path);
    if (read_all(journal, head, HEAD, 0) < HEAD || memcmp(head, NAME, NAME_BYTES) != 0)
        stop("%s: no journal, or its head is damaged", path);
    if (memcmp(head, wanted, HEAD) != 0)
        stop("%s: this journal began with another zone file or origin", path);
}

static off_t size_of(const struct journal *journal)
{
    struct stat about;
    if (fstat(journal->file, &about) != 0)
        stop("%s: %s", journal->path, strerror(errno));
    return about.st_size;
}

bool journal_next(struct journal *journal, uint8_t update[MOST], size_t *len, bool *is_last)
{
    uint8_t fields[ENTRY];
    off_t size = size_of(journal);
    if (read_all(journal, fields, ENTRY, journal->end) == ENTRY) {
        *len = two_at(fields);
        size_t there = read_all(journal, update, *len, journal->end + ENTRY);
        journal->next = journal->end + ENTRY + (off_t)*len;
        journal->next_sum = summed(journal->sum, update, there);
        if (two_at(fields + 2) != (*len ^ 0xFFFF) || (there == *len && journal->next_sum != four_at(fields + 4)))
            stop("%s: the entry at byte %jd is damaged", journal->path, (intmax_t)journal->end);
        *is_last = journal->next == size;
        if (there == *len)
            return true;
    }
    if (size > journal->end) {
        warn("%s: a torn entry at byte %jd is cut off", journal->path, (intmax_t)journal->end);
        journal_cut(journal);
    }
    return false;
}

bool journal_append(struct journal *journal, const uint8_t *update, size_t len)
{
    static uint8_t entry[ENTRY + MOST];
    if (len > MOST)
        return false;
    uint32_t sum = summed(journal->sum, update, len);
    put_two(entry, (uint16_t)len);
    put_two(entry + 2, (uint16_t)(len ^ 0xFFFF));
    put_two(entry + 4, (uint16_t)(sum >> 16));
    put_two(entry + 6, (uint16_t)sum);
    memcpy(entry + ENTRY, update, len);
    journal->next = journal->end + ENTRY + (off_t)len;
    journal->next_sum = sum;
    return write_all(journal->file, entry, ENTRY + len, journal->end) && fdatasync(journal->file) == 0;
}

void journal_keep(struct journal *journal)
{
    journal->end = journal->next;
    journal->sum = journal->next_sum;
}

void journal_cut(struct journal *journal)
{
    if (ftruncate(journal->file, journal->end) != 0 || fdatasync(journal->file) != 0)
        stop("%s: an entry can't be cut off: %s", journal->path, strerror(errno));
}

void journal_close(struct journal *journal)
{
    if (close(journal->file) != 0)
        warn("%s: %s", journal->path, strerror(errno));
}
