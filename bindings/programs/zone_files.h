/* A zone file and the files that it includes, each read by its name as it stands. */
#ifndef ZONE_FILES_H
#define ZONE_FILES_H

#include "fuzsbanel.h"

/* Their texts, each with a line's end after it, since a last line without one would be passed over, if it is no record. */
struct zone_files {
    uint8_t *text;
    size_t len;
    struct fuzsbanel_included *included;
    size_t count;
    uint8_t *bytes; /* of those that are included, each after its name */
    size_t bytes_len;
    struct fuzsbanel_fault fault; /* what was told last, and the name of its text and its words */
    char *name, *words;
};

/* Reads the zone file, and none that it includes; or says by errno why not. */
bool zone_files_read(struct zone_files *files, const char *path);

/* What fuzsbanel_zone_check answers; name and words end in a zero byte. */
int64_t zone_files_check(struct zone_files *files, const char *origin);

/* The same of fuzsbanel_zone_open. */
int64_t zone_files_open(struct zone_files *files, const char *origin, struct fuzsbanel_zone_handle *handle);

/* Reads the file that the last of these asked for, which answered FUZSBANEL_NO_INCLUDE; false where it can't be read. */
bool zone_files_add(struct zone_files *files);

void zone_files_free(struct zone_files *files);

#endif
