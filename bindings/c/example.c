/* Reads messages in hexadecimal, one a line, and prints what each call of fuzsbanel.h makes of them. */
#include "fuzsbanel.h"

#include <inttypes.h>
#include <stdio.h>
#include <stdlib.h>
#include <string.h>

#define ROOM 131072
#define LONGEST_NAME 1004
#define TYPE_MX 15
#define TYPE_OPT 41
/* more than stand in 65,536 bytes, of which a question takes 5 */
#define ITEMS 16384

static uint8_t message[65536], out[ROOM], names[255 * ITEMS];
static struct fuzsbanel_item items[ITEMS];

static size_t from_hexadecimal(const char *line)
{
    size_t len = 0;
    unsigned byte;
    while (len < sizeof message) {
        line += strspn(line, " \t\r\n");
        if (sscanf(line, "%2x", &byte) != 1)
            break;
        message[len++] = (uint8_t)byte;
        line += 2;
    }
    return len;
}

static void print_hexadecimal(const uint8_t *bytes, int64_t len)
{
    for (int64_t i = 0; i < len; i++)
        printf("%02x", bytes[i]);
    putchar('\n');
}

/* Prints the name at a place of these bytes: of the message, or of the names that a walk wrote. */
static void print_name(const uint8_t *bytes, size_t len, size_t place)
{
    uint8_t name[LONGEST_NAME];
    size_t needed;
    int64_t answer = fuzsbanel_name(bytes, len, place, name, sizeof name, &needed);
    printf("%.*s", answer < 0 ? 0 : (int)answer, (const char *)name);
}

static void print_question(size_t len, const struct fuzsbanel_item *item)
{
    struct fuzsbanel_query query;
    printf("question ");
    print_name(names, sizeof names, item->name);
    printf(" type %u class %u\n", item->record.record_type, item->record.class_);
    if (fuzsbanel_query(message, len, item->record.name, &query) != (int64_t)item->record.data
        || query.query_type != item->record.record_type || query.class_ != item->record.class_)
        printf("not found alone\n");
}

/* Prints a record, the text of its data, and where a name stands within it. */
static void print_record(size_t len, const struct fuzsbanel_item *item)
{
    const struct fuzsbanel_record *record = &item->record;
    struct fuzsbanel_record alone;
    struct fuzsbanel_option option;
    size_t needed, end = record->data + record->data_len;
    printf("record ");
    print_name(names, sizeof names, item->name);
    printf(" type %u class %u ttl %" PRIu32 " data ", record->record_type, record->class_, record->ttl);
    print_hexadecimal(message + record->data, record->data_len);
    if (fuzsbanel_record(message, len, record->name, &alone) != (int64_t)end || alone.data != record->data
        || alone.ttl != record->ttl)
        printf("not found alone\n");
    if (record->record_type == TYPE_OPT) {
        for (int64_t at = (int64_t)record->data; at >= 0 && (size_t)at < end;) {
            at = fuzsbanel_option(message, end, (size_t)at, &option);
            if (at >= 0) {
                printf("option %u ", option.code);
                print_hexadecimal(message + option.data, option.data_len);
            }
        }
        return;
    }
    int64_t text = fuzsbanel_data_text(message, len, record->name, out, sizeof out, &needed);
    printf("text %.*s\n", text < 0 ? 0 : (int)text, (const char *)out);
    if (record->record_type == TYPE_MX) {
        printf("exchange ");
        print_name(message, len, record->data + 2);
        putchar('\n');
    }
}

/* Prints the questions, the records, and the options of OPT records. */
static void walk(size_t len)
{
    struct fuzsbanel_room needed;
    struct fuzsbanel_header header;
    int64_t end = fuzsbanel_walk(message, len, items, ITEMS, names, sizeof names, &needed);
    if (end < 0 || fuzsbanel_header(message, len, &header) != 12)
        return;
    for (size_t i = 0; i < needed.items; i++) {
        if (i < header.queries)
            print_question(len, &items[i]);
        else
            print_record(len, &items[i]);
    }
}

int main(void)
{
    static char line[3 * sizeof message];
    while (fgets(line, sizeof line, stdin)) {
        size_t needed, len = from_hexadecimal(line);
        int64_t end = fuzsbanel_check(message, len);
        if (end < 0) {
            printf("refused %" PRId64 "\n", -end);
            continue;
        }
        int64_t text = fuzsbanel_text(message, len, out, sizeof out, &needed);
        if (text >= 0)
            fwrite(out, 1, (size_t)text, stdout);
        walk((size_t)end);
        int64_t cut = fuzsbanel_cut(message, len, 512, out, sizeof out, &needed);
        if (cut < 0)
            printf("refused %" PRId64 "\n", -cut);
        else
            print_hexadecimal(out, cut);
    }
    return 0;
}
