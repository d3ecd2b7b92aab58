/* A reader of EEPROM dumps in plain C, written from documents 01 and 02 (5/13): the yardstick of bench/count's rows on dumps.
   Its input is a request of the probe's letter D, and its answer is the probe's (docs/PROBE.md). */
#include "device.h"
#include <string.h>

enum { FMMU = 40, SYNC_MANAGER = 41, TX_PDO = 50, RX_PDO = 51, END_MARK = 0xffff };
enum { HEAD_BYTES = 28, MOST_BYTES = 20480 };
enum { MANAGER_BYTES = 8, PDO_BYTES = 8, ENTRY_BYTES = 8, SHEET_PDO_BYTES = 7 };

/* What a dump doesn't say. */
struct head {
    uint8_t flags;
    uint16_t receive, send;
};

/* Where a category's content stands in the dump; at 0 where there is no such category. */
struct content {
    size_t at, length;
};

struct contents {
    struct content usages, managers, inputs, outputs;
    bool second; /* there is a second one of a type */
};

static unsigned word(const uint8_t *at)
{
    return at[0] | (unsigned)at[1] << 8;
}

static struct content *content_of(struct contents *found, unsigned type)
{
    switch (type) {
    case FMMU:
        return &found->usages;
    case SYNC_MANAGER:
        return &found->managers;
    case TX_PDO:
        return &found->inputs;
    case RX_PDO:
        return &found->outputs;
    default:
        return NULL;
    }
}

/* Goes over the categories up to the end mark and notes the four; false where one runs past the dump, or there is no mark. */
static bool find(const uint8_t *dump, size_t length, struct contents *found)
{
    size_t at = 0;
    while (length - at >= 2) {
        unsigned type = word(dump + at);
        if (type == END_MARK)
            return true;
        if (length - at < 4)
            return false;
        size_t bytes = 2 * (size_t)word(dump + at + 2);
        at += 4;
        if (length - at < bytes)
            return false;
        struct content *content = content_of(found, type);
        if (content) {
            found->second |= content->at > 0;
            *content = (struct content){at, bytes};
        }
        at += bytes;
    }
    return false;
}

/* Adds the PDO records of a content to a count; false where they don't end with it. */
static bool count_pdos(const uint8_t *dump, struct content content, size_t *count)
{
    const uint8_t *at = dump + content.at, *end = at + content.length;
    while (at < end) {
        if (end - at < PDO_BYTES || end - at < PDO_BYTES + ENTRY_BYTES * at[2])
            return false;
        at += PDO_BYTES + ENTRY_BYTES * at[2];
        ++*count;
    }
    return true;
}

/* Writes whole PDO records as a sheet has them, and answers where they end. */
static uint8_t *put_pdos(uint8_t *to, const uint8_t *dump, struct content content, uint8_t kind)
{
    const uint8_t *at = dump + content.at, *end = at + content.length;
    while (at < end) {
        *to++ = kind;
        *to++ = at[3];
        to = put_pair(to, word(at));
        *to++ = 2;
        const uint8_t *next = at + PDO_BYTES + ENTRY_BYTES * at[2];
        unsigned bits = 0;
        for (at += PDO_BYTES; at < next; at += ENTRY_BYTES)
            bits += at[5];
        to = put_pair(to, bits);
    }
    return to;
}

/* Reads a dump, its PDO records written into room of so many bytes; or answers the number of its refusal with no byte written. */
static __attribute__((noinline)) int read_dump(const uint8_t *dump, size_t length, const struct head *head, uint8_t *room,
                                               size_t size, struct device_data *data)
{
    struct contents found = {0};
    if (!find(dump, length, &found))
        return 16;
    size_t p = 0;
    if (found.second || found.managers.length % MANAGER_BYTES || !count_pdos(dump, found.inputs, &p) ||
        !count_pdos(dump, found.outputs, &p))
        return 17;

    data->n = found.managers.length / MANAGER_BYTES;
    data->f = found.usages.length;
    if (head->flags > (MAILBOX | COE | COMPLETE_ACCESS) || data->n > MANAGERS || data->f > ENTRIES || p > MOST_PDOS)
        return 4;
    bool unnamed = false;
    const uint8_t *at = dump + found.managers.at;
    for (size_t k = 0; k < data->n; k++, at += MANAGER_BYTES) {
        if (at[7] > DATA_READ)
            return 4;
        unnamed |= (at[4] & UNNAMED) != 0;
        set_manager(&data->managers[k], (uint16_t)word(at), at[4], at[6] & 1, at[7]);
    }
    at = dump + found.usages.at;
    for (size_t k = 0; k < data->f; k++) {
        data->usages[k] = at[k] == 0xff ? 0 : at[k];
        if (data->usages[k] > STATUS)
            return 4;
    }
    if (unnamed)
        return 5;
    if (size < SHEET_PDO_BYTES * p)
        return 12;

    data->mailbox = head->flags & MAILBOX;
    data->coe = head->flags & COE;
    data->complete_access = head->flags & COMPLETE_ACCESS;
    data->receive = head->receive;
    data->send = head->send;
    data->pdos = 0;
    data->p = (uint8_t)p;
    if (found.inputs.at < found.outputs.at) {
        room = put_pdos(room, dump, found.inputs, EEPROM_READ);
        put_pdos(room, dump, found.outputs, EEPROM_WRITE);
    } else {
        room = put_pdos(room, dump, found.outputs, EEPROM_WRITE);
        put_pdos(room, dump, found.inputs, EEPROM_READ);
    }
    return 0;
}

/* ---- the answer */

static void say_device(const struct device_data *data)
{
    printf("%d %d %d %u %u managers", data->mailbox, data->coe, data->complete_access, data->receive, data->send);
    for (size_t k = 0; k < data->n; k++) {
        const struct manager_data *manager = &data->managers[k];
        printf(" %u/%02x/%d/%u", manager->start, control_of(manager), manager->enable, manager->usage);
    }
    printf(" usages");
    for (size_t k = 0; k < data->f; k++)
        printf(" %u", data->usages[k]);
    printf(" pdos %u", data->p);
}

/* The device data and its PDO records, or the refusal; and how many bytes more of the room, filled with 0xff at first, changed. */
static void say(int number, const struct device_data *data, const uint8_t *room, size_t size)
{
    size_t written = number ? 0 : (size_t)SHEET_PDO_BYTES * data->p, changed = 0;
    if (number)
        printf("refused %d", number);
    else
        say_device(data);
    if (written)
        say_bytes(room, written);
    else if (!number)
        printf(" -");
    for (size_t k = written; k < size; k++)
        changed += room[k] != 0xff;
    printf(" %zu\n", changed);
}

/* ---- the input */

static uint8_t input[HEAD_BYTES + MOST_BYTES + 1];
static uint8_t room[MOST_BYTES];
static struct device_data data;

static bool is_request(size_t length)
{
    return length >= HEAD_BYTES && length < sizeof input && input[0] == 'D' && pair(input + 2) <= MOST_BYTES &&
           pair(input + 20) == length - HEAD_BYTES;
}

int main(void)
{
    size_t length = fread(input, 1, sizeof input, stdin);
    if (!is_request(length)) {
        fprintf(stderr, "dump: the input isn't one request of the letter D, with a dump alone\n");
        return 2;
    }
    const struct head head = {input[1], pair(input + 8), pair(input + 10)};
    size_t size = pair(input + 2);
    uint32_t left = (uint32_t)pair(input + 4) << 16 | pair(input + 6);
    int number;
    memset(room, 0xff, size);
    do {
        number = read_dump(input + HEAD_BYTES, length - HEAD_BYTES, &head, room, size, &data);
        /* each time it is read anew: the compiler may keep nothing of the time before */
        __asm__ volatile("" ::: "memory");
    } while (left-- > 1);
    say(number, &data, room, size);
    return 0;
}
