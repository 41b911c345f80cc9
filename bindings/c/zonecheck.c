/* Checks zone text: zonecheck ORIGIN FILE.. prints `FILE:LINE:COLUMN: words` for each file that is refused, where ORIGIN
 * is the text of a name, or - for none. A file that another one includes is read when it is asked for, by its name as it
 * stands. Status 0 where no file is refused, 1 where one is, 2 where one can't be read. */
#include "../programs/zone_files.h"

#include <inttypes.h>
#include <stdio.h>
#include <string.h>

/* Checks a file, and prints its fault. */
static int check(const char *origin, const char *path)
{
    struct zone_files files;
    int status = 1;
    if (!zone_files_read(&files, path)) {
        perror(path);
        status = 2;
    } else {
        int64_t answer;
        do
            answer = zone_files_check(&files, origin);
        while (answer == -FUZSBANEL_NO_INCLUDE && zone_files_add(&files));
        if (answer == 0)
            status = 0;
        else if (files.fault.line == 0)
            printf("%s: refused %" PRId64 "\n", path, -answer);
        else
            printf("%s:%zu:%zu: %s\n", *files.name ? files.name : path, files.fault.line, files.fault.column,
                   files.words);
    }
    zone_files_free(&files);
    return status;
}

int main(int argc, char **argv)
{
    if (argc < 3) {
        fputs("usage: zonecheck ORIGIN FILE..\n", stderr);
        return 2;
    }
    const char *origin = strcmp(argv[1], "-") == 0 ? "" : argv[1];
    int status = 0;
    for (int i = 2; i < argc; i++) {
        int found = check(origin, argv[i]);
        if (found > status)
            status = found;
    }
    return status;
}
