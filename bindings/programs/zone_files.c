#include "zone_files.h"

#include <errno.h>
#include <stdio.h>
#include <stdlib.h>
#include <string.h>

/* what the words of refusal 20 say before and after the name of a text */
#define BEFORE_NAME "no text named "
#define AFTER_NAME " to include"

/* Has a block so many bytes; or errno says that there is no memory. */
static bool grow(void **block, size_t size)
{
    void *larger = realloc(*block, size ? size : 1);
    if (larger)
        *block = larger;
    else
        errno = ENOMEM;
    return larger != NULL;
}

/* Adds the bytes of a file and a line's end to a text. */
static bool add_file(const char *path, uint8_t **text, size_t *len)
{
    FILE *file = fopen(path, "rb");
    void *block = *text;
    size_t end = *len, room = end, got = 1;
    bool is_read = file != NULL;
    while (is_read && got > 0) {
        if (room - end < 2) {
            room = 2 * room + 65536;
            is_read = grow(&block, room);
            *text = block;
        }
        got = is_read ? fread(*text + end, 1, room - end - 1, file) : 0;
        end += got;
        is_read = is_read && !ferror(file);
    }
    int why = errno;
    if (file && fclose(file) != 0 && is_read)
        return false;
    errno = why;
    if (is_read) {
        (*text)[end++] = '\n';
        *len = end;
    }
    return is_read;
}

bool zone_files_read(struct zone_files *files, const char *path)
{
    *files = (struct zone_files){0};
    void *included = NULL, *bytes = NULL;
    /* no pointer that is handed to the library is null */
    bool has_memory = grow(&included, 0) && grow(&bytes, 0);
    files->included = included;
    files->bytes = bytes;
    return has_memory && add_file(path, &files->text, &files->len);
}

/* What one of the two calls answers, made again until all that it tells has room. */
static int64_t told(struct zone_files *files, const char *origin, struct fuzsbanel_zone_handle *handle)
{
    size_t name_cap = 0, words_cap = 0;
    for (;;) {
        void *name = files->name, *words = files->words;
        bool has_memory = grow(&name, name_cap + 1);
        files->name = name;
        has_memory = has_memory && grow(&words, words_cap + 1);
        files->words = words;
        if (!has_memory) {
            files->fault = (struct fuzsbanel_fault){0};
            return -FUZSBANEL_MEMORY;
        }
        const uint8_t *zone = (const uint8_t *)origin;
        uint8_t *told_name = name, *told_words = words;
        int64_t answer =
            handle ? fuzsbanel_zone_open(zone, strlen(origin), files->text, files->len, files->included, files->count,
                                         files->bytes, files->bytes_len, handle, told_name, name_cap, told_words,
                                         words_cap, &files->fault)
                   : fuzsbanel_zone_check(zone, strlen(origin), files->text, files->len, files->included, files->count,
                                          files->bytes, files->bytes_len, told_name, name_cap, told_words, words_cap,
                                          &files->fault);
        if (files->fault.name_len <= name_cap && files->fault.words_len <= words_cap) {
            files->name[files->fault.name_len] = files->words[files->fault.words_len] = 0;
            return answer;
        }
        name_cap = files->fault.name_len;
        words_cap = files->fault.words_len;
    }
}

int64_t zone_files_check(struct zone_files *files, const char *origin)
{
    return told(files, origin, NULL);
}

int64_t zone_files_open(struct zone_files *files, const char *origin, struct fuzsbanel_zone_handle *handle)
{
    return told(files, origin, handle);
}

bool zone_files_add(struct zone_files *files)
{
    size_t before = strlen(BEFORE_NAME), start = files->bytes_len;
    size_t len = files->fault.words_len - before - strlen(AFTER_NAME);
    char *name = files->words + before;
    void *bytes = files->bytes, *included = files->included;
    /* no file has a zero byte in its name */
    if (memchr(name, 0, len) || !grow(&bytes, start + len))
        return false;
    files->bytes = bytes;
    memcpy(files->bytes + start, name, len);
    if (!grow(&included, (files->count + 1) * sizeof *files->included))
        return false;
    files->included = included;
    size_t end = start + len;
    char after = name[len];
    name[len] = 0;
    bool is_read = add_file(name, &files->bytes, &end);
    name[len] = after;
    if (is_read) {
        files->included[files->count++] = (struct fuzsbanel_included){len, end - start - len};
        files->bytes_len = end;
    }
    return is_read;
}

void zone_files_free(struct zone_files *files)
{
    free(files->text);
    free(files->included);
    free(files->bytes);
    free(files->name);
    free(files->words);
}
