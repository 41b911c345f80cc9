#include "held_zone.h"
#include "zone_files.h"

#include <errno.h>
#include <inttypes.h>
#include <string.h>

/* how many bytes the five numbers of an SOA have */
enum { NUMBERS = 20 };

void lower(uint8_t *out, const uint8_t *name, size_t len)
{
    for (size_t i = 0; i < len; i++)
        out[i] = name[i] >= 'A' && name[i] <= 'Z' ? (uint8_t)(name[i] - 'A' + 'a') : name[i];
}

bool serial_of(const uint8_t *message, size_t len, const struct fuzsbanel_record *record, uint32_t *serial)
{
    bool is_soa = record->record_type == TYPE_SOA && record->data_len >= NUMBERS && record->data <= len &&
                  record->data_len <= len - record->data;
    if (is_soa)
        *serial = four_at(message + record->data + record->data_len - NUMBERS);
    return is_soa;
}

bool first_answer(const uint8_t *message, size_t len, struct fuzsbanel_record *record)
{
    struct fuzsbanel_header header;
    struct fuzsbanel_query query;
    if (fuzsbanel_header(message, len, &header) < 0 || header.queries != 1 || header.answers == 0)
        return false;
    int64_t place = fuzsbanel_query(message, len, HEADER, &query);
    return place >= 0 && fuzsbanel_record(message, len, (size_t)place, record) >= 0;
}

/* Stops the server for a zone that was refused, with the place of the fault if it has one. */
static _Noreturn void stop_for(const char *path, const struct zone_files *files, int64_t answer)
{
    if (files->fault.line == 0)
        stop("%s: refused with %" PRId64, path, -answer);
    stop("%s: line %zu, column %zu: %s", *files->name ? files->name : path, files->fault.line, files->fault.column,
         files->words);
}

/* Opens the zone of the files, and reads those that they include. */
static int64_t open_zone(struct held_zone *held, struct zone_files *files)
{
    int64_t answer;
    do
        answer = zone_files_open(files, held->origin, &held->zone);
    while (answer == -FUZSBANEL_NO_INCLUDE && zone_files_add(files));
    return answer;
}

static bool find_serial(struct held_zone *held)
{
    static uint8_t answer[MOST];
    struct fuzsbanel_record soa;
    size_t needed;
    int64_t len = fuzsbanel_zone_answer(&held->zone, held->asking, held->asking_len, MOST, true, answer, sizeof answer,
                                        &needed);
    return len >= 0 && first_answer(answer, (size_t)len, &soa) && serial_of(answer, (size_t)len, &soa, &held->serial);
}

/* Keeps the entry of an update that changed the zone, and raises the serial. */
static void keep(struct held_zone *held)
{
    journal_keep(&held->journal);
    int64_t serial = fuzsbanel_zone_raise_serial(&held->zone);
    if (serial < 0)
        stop("the serial isn't raised: refused with %" PRId64, -serial);
    held->serial = (uint32_t)serial;
}

/* Carries out the updates of the journal. One that isn't kept may be the last alone: the server ended before it cut that
 * off. */
static void replay(struct held_zone *held)
{
    static uint8_t update[MOST];
    size_t len;
    bool is_last;
    while (journal_next(&held->journal, update, &len, &is_last)) {
        bool is_changed;
        int64_t code = fuzsbanel_zone_update(&held->zone, update, len, &is_changed);
        if (code < 0)
            stop("an update of the journal is refused with %" PRId64, -code);
        if (is_changed)
            keep(held);
        else if (is_last)
            journal_cut(&held->journal);
        else
            stop("an update of the journal changes nothing, with the code %" PRId64 ": it isn't of this zone", code);
    }
}

void held_open(struct held_zone *held, const char *path, const char *origin, const char *journal)
{
    struct sha256 hash;
    uint8_t digest[SHA256_BYTES];
    struct zone_files files;
    size_t needed;
    *held = (struct held_zone){.origin = origin};
    if (!zone_files_read(&files, path))
        stop("%s: %s", path, strerror(errno));
    int64_t answer = fuzsbanel_build_query(0, TEXT(origin), TYPE_SOA, CLASS_IN, false, 0, held->asking, ASKING, &needed);
    if (answer >= 0) {
        held->asking_len = (size_t)answer;
        /* after its header a query has the name, the type and the class */
        held->name_len = held->asking_len - HEADER - 4;
        lower(held->name, held->asking + HEADER, held->name_len);
        answer = open_zone(held, &files);
    }
    if (answer < 0)
        stop_for(path, &files, answer);
    if (!find_serial(held))
        stop("%s: the zone has no SOA", path);
    sha256_begin(&hash);
    sha256_add(&hash, held->name, held->name_len);
    sha256_add(&hash, files.text, files.len - 1);
    sha256_add(&hash, files.bytes, files.bytes_len);
    sha256_end(&hash, digest);
    zone_files_free(&files);
    journal_open(&held->journal, journal, digest);
    replay(held);
}

int held_update(struct held_zone *held, const uint8_t *update, size_t len)
{
    bool is_written = journal_append(&held->journal, update, len);
    int why = errno;
    bool is_changed = false;
    int64_t code = is_written ? fuzsbanel_zone_update(&held->zone, update, len, &is_changed) : -1;
    if (is_changed)
        keep(held);
    else
        journal_cut(&held->journal);
    if (!is_written)
        warn("an update is not carried out: %s", strerror(why));
    else if (code < 0)
        warn("an update is not carried out: refused with %" PRId64, -code);
    return code < 0 ? SERV_FAIL : (int)code;
}

void held_close(struct held_zone *held)
{
    journal_close(&held->journal);
    fuzsbanel_zone_close(&held->zone);
}
