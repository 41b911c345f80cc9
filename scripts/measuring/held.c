/* Hands the messages on its input again and again to one zone that is held, so that the cost can be counted:
 * `held update TIMES ZONE` or `held answer TIMES ZONE`. ZONE is the zone text of `example.`; a message stands on a line, in
 * hexadecimal. Prints the sum of the codes, or of the lengths of the answers. */
#include "fuzsbanel.h"

#include <inttypes.h>
#include <stdbool.h>
#include <stdio.h>
#include <stdlib.h>
#include <string.h>

#define ORIGIN "example."
#define MESSAGES 4
#define LONGEST 4096
#define DATAGRAM 512

static uint8_t messages[MESSAGES][LONGEST];
static size_t lengths[MESSAGES];

/* Reads the messages, and answers how many they are. */
static size_t read_messages(void)
{
    static char line[2 * LONGEST + 2];
    size_t count = 0;
    while (count < MESSAGES && fgets(line, sizeof line, stdin)) {
        unsigned byte;
        for (size_t at = 0; sscanf(line + 2 * at, "%2x", &byte) == 1; at++) {
            messages[count][at] = (uint8_t)byte;
            lengths[count] = at + 1;
        }
        count++;
    }
    return count;
}

/* Hands one message to the zone, and answers the code, or how long the answer is. */
static int64_t handed(bool is_update, struct fuzsbanel_zone_handle *zone, size_t i)
{
    static uint8_t out[LONGEST];
    size_t needed;
    bool is_changed;
    if (is_update)
        return fuzsbanel_zone_update(zone, messages[i], lengths[i], &is_changed);
    return fuzsbanel_zone_answer(zone, messages[i], lengths[i], DATAGRAM, false, out, sizeof out, &needed);
}

int main(int argc, char **argv)
{
    struct fuzsbanel_zone_handle zone = {0};
    static const struct fuzsbanel_included none[1];
    FILE *file = argc == 4 ? fopen(argv[3], "rb") : NULL;
    if (!file || fseek(file, 0, SEEK_END) != 0)
        return 2;
    size_t len = (size_t)ftell(file);
    uint8_t *text = malloc(len + 1);
    rewind(file);
    if (!text || fread(text, 1, len, file) != len)
        return 2;
    fclose(file);
    struct fuzsbanel_fault fault;
    uint8_t words[1];
    int64_t sum = fuzsbanel_zone_open((const uint8_t *)ORIGIN, strlen(ORIGIN), text, len, none, 0, text, 0, &zone,
                                      words, 0, words, 0, &fault);
    size_t count = read_messages();
    bool is_update = strcmp(argv[1], "update") == 0;
    for (long times = atol(argv[2]); times > 0; times--)
        for (size_t i = 0; i < count; i++)
            sum += handed(is_update, &zone, i);
    printf("%" PRId64 "\n", sum);
    fuzsbanel_zone_close(&zone);
    free(text);
    return 0;
}
