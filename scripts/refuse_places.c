// The heap of a program of tests, in which each growth that comes through one of some places is refused. A place is a
// return address, as its distance from the program's first byte. Linked in place of the C library's malloc and realloc
// in a build that keeps frame pointers.
//
// With RECORD, the file that it names gets the places that growths came through; with REFUSE, the places of the file
// that it names are refused. With neither, the program leaves a copy of itself in the file KEEP.
#define _GNU_SOURCE
#include <dlfcn.h>
#include <errno.h>
#include <stdint.h>
#include <stdio.h>
#include <stdlib.h>

enum { SEEN = 1 << 16, DEEPEST = 512 };

extern const char __executable_start[], etext[];

static uintptr_t seen[SEEN], refused[SEEN];
static int is_recording, is_refusing;

// The slot of a place in a table, which is that place or none.
static uintptr_t *slot_of(uintptr_t *table, uintptr_t place) {
    uintptr_t at = place * 2654435761u % SEEN;
    while (table[at] && table[at] != place) at = (at + 1) % SEEN;
    return &table[at];
}

static void copy(FILE *from, FILE *to) {
    char piece[4096];
    size_t len;
    while (from && to && (len = fread(piece, 1, sizeof piece, from))) fwrite(piece, 1, len, to);
    if (from) fclose(from);
    if (to) fclose(to);
}

__attribute__((constructor)) static void begin(void) {
    const char *record = getenv("RECORD"), *refuse = getenv("REFUSE");
    is_recording = record != NULL;
    is_refusing = refuse != NULL;
    Dl_info self;
    if (!record && !refuse && dladdr(__executable_start, &self)) copy(fopen(self.dli_fname, "rb"), fopen(KEEP, "wb"));
    FILE *file = refuse ? fopen(refuse, "r") : NULL;
    unsigned long place;
    while (file && fscanf(file, "%lx", &place) == 1) *slot_of(refused, place) = place;
    if (file) fclose(file);
}

__attribute__((destructor)) static void end(void) {
    FILE *file = is_recording ? fopen(getenv("RECORD"), "w") : NULL;
    for (int at = 0; file && at < SEEN; at++)
        if (seen[at]) fprintf(file, "%lx\n", (unsigned long)seen[at]);
    if (file) fclose(file);
}

// Whether a growth came through a refused place. Notes the places that it came through.
static int is_refused(void) {
    if (!is_recording && !is_refusing) return 0;
    void **frame = __builtin_frame_address(0);
    for (int depth = 0; depth < DEEPEST; depth++) {
        uintptr_t place = (uintptr_t)frame[1];
        void **outer = frame[0];
        if (place < (uintptr_t)__executable_start || place >= (uintptr_t)etext) return 0;
        place -= (uintptr_t)__executable_start;
        if (is_refusing && *slot_of(refused, place) == place) {
            errno = ENOMEM;
            return 1;
        }
        if (is_recording) *slot_of(seen, place) = place;
        if (outer <= frame) return 0;
        frame = outer;
    }
    return 0;
}

void *place_malloc(size_t size) { return is_refused() ? NULL : malloc(size); }

void *place_realloc(void *memory, size_t size) { return is_refused() ? NULL : realloc(memory, size); }
