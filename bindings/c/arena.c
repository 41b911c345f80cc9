/* The caller's own allocator: the library takes its memory from an arena of fixed size, and not from malloc. It asks for
 * the three functions that stand at the end of fuzsbanel.h, which a program may define itself in the place of those that
 * the archive has over malloc. Here blocks are laid one after the other, and all are free when none is left, as after each
 * call. */
#include "fuzsbanel.h"

#include <inttypes.h>
#include <stdio.h>
#include <string.h>

#define SIZE 4096

static _Alignas(16) unsigned char arena[SIZE];
static unsigned char none;
static size_t used, blocks, most;
/* how many blocks are still given out */
static size_t left = SIZE_MAX;

struct rattle_block rattle_alloc(size_t size, size_t align)
{
    size_t start = (used + align - 1) & ~(align - 1);
    if (size == 0)
        size = 1;
    if (left == 0 || start > SIZE || size > SIZE - start)
        return (struct rattle_block){false, &none};
    used = start + size;
    left--;
    blocks++;
    if (used > most)
        most = used;
    return (struct rattle_block){true, arena + start};
}

struct rattle_block rattle_realloc(void *block, size_t kept, size_t size, size_t align)
{
    struct rattle_block grown = rattle_alloc(size, align);
    if (grown.ok) {
        memcpy(grown.block, block, kept < size ? kept : size);
        rattle_dealloc(block);
    }
    return grown;
}

void rattle_dealloc(void *block)
{
    (void)block;
    if (--blocks == 0)
        used = 0;
}

/* A question for the address of example. */
static const uint8_t query[] = {0, 1, 1, 0, 0, 1, 0, 0, 0, 0, 0, 0, 7, 'e', 'x', 'a', 'm', 'p', 'l', 'e', 0, 0, 1, 0, 1};

/* Whether a walk writes nothing where memory runs out, at each block in turn that it asks for. */
static bool walk_is_all_or_nothing(void)
{
    struct fuzsbanel_item items[2];
    uint8_t names[16];
    struct fuzsbanel_room room;
    int64_t answer;
    bool holds = true;
    size_t allowed = 0;
    do {
        memset(items, 0xA5, sizeof items);
        memset(names, 0xA5, sizeof names);
        left = allowed++;
        answer = fuzsbanel_walk(query, sizeof query, items, 2, names, sizeof names, &room);
        if (answer == -FUZSBANEL_MEMORY)
            holds = holds && names[0] == 0xA5 && items[0].section == 0xA5 && room.items == 0 && blocks == 0;
    } while (answer == -FUZSBANEL_MEMORY);
    left = SIZE_MAX;
    return holds && allowed > 1 && answer == (int64_t)sizeof query && room.items == 1 && room.names == 9;
}

int main(void)
{
    uint8_t out[512];
    size_t needed;
    int64_t text = fuzsbanel_text(query, sizeof query, out, sizeof out, &needed);
    if (text < 0) {
        printf("refused %" PRId64 "\n", -text);
        return 1;
    }
    fwrite(out, 1, (size_t)text, stdout);
    printf("blocks left %zu, within %d bytes: %s\n", blocks, SIZE, most <= SIZE ? "yes" : "no");

    /* a zone of 200 records is more than the arena holds: memory runs out, and all of it comes back */
    static char zone[200 * 32];
    size_t len = 0;
    for (int i = 0; i < 200; i++)
        len += (size_t)sprintf(zone + len, "h%d 300 A 192.0.2.%d\n", i, i);
    int64_t answer = fuzsbanel_zone((const uint8_t *)"example.", 8, (const uint8_t *)zone, len, out, sizeof out, &needed);
    printf("a large zone: %" PRId64 ", blocks left %zu\n", answer, blocks);
    bool walks = walk_is_all_or_nothing();
    printf("a walk without memory writes nothing: %s\n", walks ? "yes" : "no");
    return answer == -FUZSBANEL_MEMORY && blocks == 0 && walks ? 0 : 1;
}
