/* What measure.rt.txt does with a message, by the least that it takes: `limit read|write TIMES`.
 *
 * Reading notes offsets alone: of each label of each name, its pointers followed, and of each record's data. Writing
 * looks each name up from its last label to its first, in one table. Nothing is tested, so a message that isn't one
 * may do anything: it says what the limit is, and is no decoder. */
#include <stdint.h>
#include <stdio.h>
#include <stdlib.h>
#include <string.h>

enum { A_QUESTION = 4, A_RECORD = 10, LABELS = 127, SLOTS = 4096, FAR = 0x4000, WORD = 8,
       NS = 2, CNAME = 5, SOA = 6, PTR = 12, MX = 15, SRV = 33 };

/* A name: where the offsets of its labels stand in the list of all. */
struct name {
    uint32_t first;
    uint32_t count;
};

/* A question, or a record: where what follows its owner stands, its data, and the names there. */
struct item {
    struct name owner, named[2];
    uint16_t fixed, data, len, type;
};

struct message {
    const uint8_t *bytes;
    struct item *items;
    uint16_t *labels;
    size_t questions, count, used, room;
};

static uint16_t number(const uint8_t *at) {
    return (uint16_t)(at[0] << 8 | at[1]);
}

/* Notes the labels of the name at a place, and answers the place after it. */
static size_t read_name(struct message *m, size_t at, struct name *name) {
    if (m->used + LABELS > m->room) {
        m->room = 2 * m->room + LABELS;
        m->labels = realloc(m->labels, m->room * sizeof *m->labels);
    }
    size_t end = 0, used = m->used;
    name->first = (uint32_t)used;
    for (uint8_t len; (len = m->bytes[at]) != 0;) {
        if (len >= 0xC0) {
            end = end ? end : at + 2;
            at = number(m->bytes + at) & 0x3FFF;
        } else {
            m->labels[used++] = (uint16_t)at;
            at += 1 + len;
        }
    }
    name->count = (uint32_t)(used - m->used);
    m->used = used;
    return end ? end : at + 1;
}

/* How many bytes stand before the names in data of a type, and how many names there are. */
static int names_in(uint16_t type, size_t *before) {
    *before = type == MX ? 2 : type == SRV ? 6 : 0;
    return type == SOA ? 2 : type == NS || type == CNAME || type == PTR || type == MX || type == SRV;
}

static struct message read_message(const uint8_t *bytes) {
    size_t count = 0, before, at = 12;
    for (int i = 0; i < 4; i++)
        count += number(bytes + 4 + 2 * i);
    struct message m = {bytes, malloc(count * sizeof(struct item)), NULL, number(bytes + 4), count, 0, 4 * count};
    m.labels = malloc((m.room + LABELS) * sizeof *m.labels);
    m.room += LABELS;
    for (size_t i = 0; i < count; i++) {
        struct item *item = m.items + i;
        item->fixed = (uint16_t)(at = read_name(&m, at, &item->owner));
        item->type = number(bytes + at);
        at += A_QUESTION;
        if (i < m.questions)
            continue;
        at += A_RECORD - A_QUESTION;
        item->data = (uint16_t)at;
        item->len = number(bytes + at - 2);
        size_t within = at;
        int names = item->len ? names_in(item->type, &before) : 0;
        within += names ? before : 0;
        for (int k = 0; k < names; k++)
            within = read_name(&m, within, &item->named[k]);
        at += item->len;
    }
    return m;
}

static void let_go(struct message *m) {
    free(m->items);
    free(m->labels);
}

/* A suffix that is written: where it stands, where the one after its first label does, and in which message. */
struct suffix {
    uint16_t at, rest, message;
};

/* What stands in the slots of an earlier message counts for none, so that they needn't be cleared. */
struct writer {
    uint8_t *out;
    size_t len;
    uint16_t message;
    struct suffix slots[SLOTS];
};

/* The first eight bytes of a label, its length among them; those after a shorter one are cleared. */
static uint64_t front_of(const uint8_t *label) {
    uint64_t front;
    memcpy(&front, label, WORD);
    return label[0] < WORD - 1 ? front & (((uint64_t)1 << 8 * (label[0] + 1)) - 1) : front;
}

/* Its last eight bytes, of a longer one. */
static uint64_t back_of(const uint8_t *label) {
    uint64_t back;
    memcpy(&back, label + label[0] - (WORD - 1), WORD);
    return back;
}

static int is_same(const uint8_t *a, const uint8_t *b) {
    if (front_of(a) != front_of(b))
        return 0;
    return a[0] < WORD || (back_of(a) == back_of(b) && (a[0] < 2 * WORD || !memcmp(a, b, 1 + a[0])));
}

/* The slot of a label before a suffix: the one that has it, or an empty one. */
static struct suffix *slot_of(struct writer *w, const uint8_t *label, uint16_t rest) {
    uint64_t hash = (front_of(label) ^ (label[0] < WORD ? 0 : back_of(label)) ^ (uint64_t)rest << 48) * 0x9E3779B97F4A7C15u;
    for (size_t i = hash >> 52;; i = (i + 1) % SLOTS) {
        struct suffix *slot = w->slots + i;
        if (slot->message != w->message || (slot->rest == rest && is_same(w->out + slot->at, label)))
            return slot;
    }
}

/* Writes a name, its longest suffix that is written already as a pointer. */
static void write_name(struct writer *w, const struct message *m, struct name name, int compressed) {
    const uint16_t *labels = m->labels + name.first;
    uint16_t rest = 0;
    size_t left = name.count, at;
    while (compressed && left) {
        const struct suffix *slot = slot_of(w, m->bytes + labels[left - 1], rest);
        if (slot->message != w->message)
            break;
        rest = slot->at;
        left--;
    }
    at = w->len;
    for (size_t i = 0; i < left; i++) {
        const uint8_t *label = m->bytes + labels[i];
        for (int k = 0; k <= label[0]; k += WORD)
            memcpy(w->out + w->len + k, label + k, WORD);
        w->len += 1 + label[0];
    }
    size_t end = w->len;
    if (rest) {
        w->out[w->len++] = (uint8_t)(0xC0 | rest >> 8);
        w->out[w->len++] = (uint8_t)rest;
    } else {
        w->out[w->len++] = 0;
    }
    for (size_t i = left; i-- > 0; rest = (uint16_t)end) {
        const uint8_t *label = m->bytes + labels[i];
        end -= 1 + label[0];
        if (end >= FAR || end < at)
            break;
        struct suffix *slot = slot_of(w, label, rest);
        if (slot->message != w->message)
            *slot = (struct suffix){(uint16_t)end, rest, w->message};
    }
}

/* Copies bytes of the message that was read. */
static inline void copy(struct writer *w, const uint8_t *from, size_t count) {
    memcpy(w->out + w->len, from, count);
    w->len += count;
}

static size_t write_message(struct writer *w, const struct message *m) {
    w->message++;
    w->out = malloc(65536 + WORD);
    w->len = 0;
    copy(w, m->bytes, 12);
    for (size_t i = 0; i < m->count; i++) {
        const struct item *item = m->items + i;
        write_name(w, m, item->owner, 1);
        if (i < m->questions) {
            copy(w, m->bytes + item->fixed, A_QUESTION);
            continue;
        }
        copy(w, m->bytes + item->fixed, A_RECORD);
        size_t before = 0, start = w->len;
        int names = item->len ? names_in(item->type, &before) : 0;
        if (!names) {
            copy(w, m->bytes + item->data, item->len);
            continue;
        }
        copy(w, m->bytes + item->data, before);
        for (int k = 0; k < names; k++)
            write_name(w, m, item->named[k], item->type != SRV);
        if (item->type == SOA)
            copy(w, m->bytes + item->data + item->len - 20, 20);
        w->out[start - 2] = (uint8_t)((w->len - start) >> 8);
        w->out[start - 1] = (uint8_t)(w->len - start);
    }
    free(w->out);
    return w->len;
}

int main(int count, char **words) {
    static uint8_t bytes[65536 + WORD];
    static struct writer writer;
    if (count != 3 || !fread(bytes, 1, sizeof bytes - WORD, stdin))
        return 2;
    size_t sum = 0;
    struct message message = read_message(bytes);
    for (long times = atol(words[2]); times > 0; times--) {
        if (words[1][0] == 'w') {
            sum += write_message(&writer, &message);
        } else {
            struct message read = read_message(bytes);
            sum += read.questions + 1;
            let_go(&read);
        }
    }
    let_go(&message);
    printf("%zu\n", sum);
    return 0;
}
