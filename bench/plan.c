/* A planner in plain C, written from documents 01 and 02: the yardstick that bench/count holds the others to.
   Input and answer are those of README.md. A plan reads the sheet READINGS times: once, or for the mailboxes and for the call, as entry
   points do that take a sheet, or for the mailboxes, the inputs and the outputs. Where PORTION isn't 0, nothing is planned: the sheet is
   taken into room in portions of so many bytes (document 02, 1/13), and read at the end. Where WRITE isn't 0, nothing is planned either:
   the sheet is read once, and its device data is written as a sheet over and over (document 02, 2/13). Inputs and outputs are planned by
   one call (7/13), which is the default's: it clears the old entries of both first (3/13). Where USED isn't 0, each plan starts from an
   FMMU area that stands in the input. Where PAIRED isn't 0, the EEPROM path finds its entries by a list of pairs (6/13) that stands in the
   input. Where CALLS isn't 0, nothing is planned: calls are made one by one, as the probe is asked for them. */
#include "device.h"
#include <string.h>

#ifndef READINGS
#define READINGS 1
#endif
#ifndef PORTION
#define PORTION 0
#endif
#ifndef WRITE
#define WRITE 0
#endif
#ifndef USED
#define USED 0
#endif
#ifndef PAIRED
#define PAIRED 0
#endif
#ifndef CALLS
#define CALLS 0
#endif

enum {
    MOST_RECORDS = 256,
    MOST_PAIRS = 256,
    MOST_FOLLOWING = 16384,
    MOST_BITS = 65528,
    MOST_LENGTH = 65535,
};
enum { READ_BIT = 1, WRITE_BIT = 2, BOTH_BITS = 3 };
/* places of what each direction has of its own */
enum { TO_READ = 0, TO_WRITE = 1, DIRECTIONS = 2 };

struct manager {
    uint16_t start;
    uint8_t control;
    bool enable;
    uint8_t usage;
};

struct pdo {
    uint8_t kind;
    uint8_t manager;
    uint16_t index;
    uint8_t count;
    const uint8_t *lengths; /* where they stand in the sheet */
};

struct device {
    uint8_t flags;
    uint16_t receive, send;
    unsigned n, f, p;
    struct manager managers[MANAGERS];
    uint8_t usages[ENTRIES];
    struct pdo pdos[MOST_PDOS];
    bool coe;
};

struct record {
    uint16_t index;
    uint8_t multiplier;
};

struct fmmu_pair {
    uint8_t fmmu, manager;
};

struct pairs {
    struct fmmu_pair list[MOST_PAIRS];
    unsigned count;
};

struct input {
    uint8_t bytes[4 + 2 + 3 * MOST_RECORDS + 16 * ENTRIES * USED + (2 + 2 * MOST_PAIRS) * (PAIRED || CALLS) + 2 + MOST_FOLLOWING + 1];
    struct record table[MOST_RECORDS];
    unsigned records;
    const uint8_t *fmmus;
    const uint8_t *sheet;
    size_t length;
    struct pairs pairs;
};

struct areas {
    uint8_t fmmus[16 * ENTRIES];
    uint8_t channels[8 * MANAGERS];
};

struct mailbox {
    bool exists;
    uint16_t address, size;
    uint8_t number;
};

struct config {
    struct mailbox read, write;
    bool coe, complete_access;
};

struct segment {
    uint32_t start, end;
};

/* What a call is lent beside the sheet and the areas, and how it is made. */
struct lent {
    const struct record *table;
    unsigned records;
    const struct pairs *pairs;
};

struct settings {
    uint32_t group;
    bool after_inputs; /* where the outputs start; else at their own offset */
};

/* ---- the sheet */

static bool has_usage(const struct device *device, uint8_t usage)
{
    for (unsigned k = 0; k < device->n; k++)
        if (device->managers[k].usage == usage)
            return true;
    return false;
}

/* Reads a sheet, or answers the number of its refusal. */
static int read_sheet(const uint8_t *sheet, size_t length, struct device *device)
{
    if (length < 2 || length != (size_t)pair(sheet) + 2 || pair(sheet) < 9 || pair(sheet) > MOST_FOLLOWING)
        return 2;
    if (sheet[2] != 1)
        return 3;
    device->flags = sheet[3];
    device->receive = pair(sheet + 4);
    device->send = pair(sheet + 6);
    device->n = sheet[8];
    device->f = sheet[9];
    device->p = sheet[10];
    if (device->flags > 7 || device->n > MANAGERS || device->f > ENTRIES)
        return 4;

    const uint8_t *at = sheet + 11, *end = sheet + length;
    if ((size_t)(end - at) < 5 * device->n + device->f)
        return 4;
    bool unnamed = false;
    for (unsigned k = 0; k < device->n; k++, at += 5) {
        struct manager *manager = &device->managers[k];
        manager->start = pair(at);
        manager->control = at[2];
        manager->enable = at[3] & 1;
        manager->usage = at[4];
        if (manager->usage > DATA_READ)
            return 4;
        if (manager->control & UNNAMED)
            unnamed = true;
    }
    for (unsigned k = 0; k < device->f; k++) {
        device->usages[k] = *at++;
        if (device->usages[k] > STATUS)
            return 4;
    }
    for (unsigned k = 0; k < device->p; k++) {
        struct pdo *pdo = &device->pdos[k];
        if (end - at < 5)
            return 4;
        pdo->kind = at[0];
        pdo->manager = at[1];
        pdo->index = pair(at + 2);
        pdo->count = at[4];
        pdo->lengths = at + 5;
        if (pdo->kind > EEPROM_WRITE || (pdo->kind != COE_PDO && pdo->count != 2))
            return 4;
        if (end - pdo->lengths < pdo->count)
            return 4;
        at = pdo->lengths + pdo->count;
    }
    if (at != end)
        return 4;
    if (unnamed)
        return 5;
    device->coe = device->flags & MAILBOX && device->flags & COE && device->send > 0 && has_usage(device, MAILBOX_READ);
    return 0;
}

/* ---- the images */

static void put16(uint8_t *at, unsigned value)
{
    at[0] = value & 0xff;
    at[1] = value >> 8 & 0xff;
}

static void put32(uint8_t *at, uint32_t value)
{
    put16(at, value & 0xffff);
    put16(at + 2, value >> 16);
}

static void write_channel(uint8_t *image, const struct manager *manager, unsigned size)
{
    put16(image, manager->start);
    put16(image + 2, size);
    image[4] = manager->control & 0x7f;
    image[5] = 0;
    image[6] = manager->enable && size > 0;
    image[7] = 0;
}

static bool entry_enabled(const uint8_t *image)
{
    return image[12] & 1;
}

static unsigned entry_length(const uint8_t *image)
{
    return image[4] | image[5] << 8;
}

/* An entry that is enabled was made in this call, and grows; any other is made. */
static void write_entry(uint8_t *image, uint32_t offset, unsigned size, uint16_t start, bool write)
{
    if (entry_enabled(image)) {
        put16(image + 4, entry_length(image) + size);
        return;
    }
    put32(image, offset);
    put16(image + 4, size);
    image[6] = 0;
    image[7] = 7;
    put16(image + 8, start);
    image[10] = 0;
    image[11] = write ? WRITE_BIT : READ_BIT;
    image[12] = 1;
    image[13] = image[14] = image[15] = 0;
}

/* The enabled entries that carry one direction's bit alone, a bit for each; and whether an entry is in the call's way: one enabled
   with both bits, or a wanted one enabled otherwise. */
static unsigned old_entries(const uint8_t *fmmus, unsigned wanted, bool *in_the_way)
{
    unsigned old = 0;
    for (unsigned k = 0; k < ENTRIES; k++) {
        const uint8_t *image = fmmus + 16 * k;
        if (!entry_enabled(image))
            continue;
        unsigned bits = image[11] & BOTH_BITS;
        if (bits == READ_BIT || bits == WRITE_BIT)
            old |= 1u << k;
        else
            *in_the_way |= bits == BOTH_BITS || (wanted >> k & 1);
    }
    return old;
}

/* ---- the mailboxes */

static struct config mailbox_pass(const struct device *device, uint8_t *channels)
{
    struct config config = {0};
    if (!(device->flags & MAILBOX))
        return config;
    for (unsigned k = 0; k < device->n; k++) {
        const struct manager *manager = &device->managers[k];
        if (manager->usage == MAILBOX_WRITE) {
            write_channel(channels + 8 * k, manager, device->receive);
            config.write = (struct mailbox){true, manager->start, device->receive, (uint8_t)k};
        } else if (manager->usage == MAILBOX_READ) {
            write_channel(channels + 8 * k, manager, device->send);
            config.read = (struct mailbox){true, manager->start, device->send, (uint8_t)k};
        }
    }
    config.coe = device->coe;
    config.complete_access = device->flags & COMPLETE_ACCESS;
    return config;
}

/* ---- inputs and outputs */

/* At most 65,535: 255 mappings of 255 bits, or one number of 16. */
static unsigned pdo_bits(const struct pdo *pdo)
{
    if (pdo->kind != COE_PDO)
        return pair(pdo->lengths);
    const uint8_t *at = pdo->lengths, *end = at + pdo->count;
    unsigned bits = 0;
    while (at < end)
        bits += *at++;
    return bits;
}

static unsigned multiplier(const struct record *table, unsigned records, uint16_t index)
{
    for (unsigned k = 0; k < records; k++)
        if (table[k].index == index)
            return table[k].multiplier;
    return 1;
}

/* The entry of each sync manager: the first pair for it decides, so they are taken from the last; none means its own number. False
   where a number is above 15. */
static bool choose_entries(const struct pairs *pairs, uint8_t *entries)
{
    for (unsigned k = 0; k < MANAGERS; k++)
        entries[k] = (uint8_t)k;
    for (unsigned k = pairs->count; k-- > 0;) {
        const struct fmmu_pair *pair = &pairs->list[k];
        if (pair->fmmu >= ENTRIES || pair->manager >= MANAGERS)
            return false;
        entries[pair->manager] = pair->fmmu;
    }
    return true;
}

/* The entries of a usage's sync managers with bits, a bit for each; and whether one is left for another and used again. */
static unsigned used_entries(const struct device *device, uint8_t usage, const uint32_t *bits, const uint8_t *entries, bool *again)
{
    unsigned used = 0, last = 0;
    for (unsigned k = 0; k < device->n; k++) {
        if (device->managers[k].usage != usage || bits[k] == 0)
            continue;
        unsigned entry = 1u << entries[k];
        *again |= entry != last && used & entry;
        used |= entry;
        last = entry;
    }
    return used;
}

/* Chooses the entries by the pairs. False where they can't be planned by. */
static bool by_pairs(const struct device *device, const struct pairs *pairs, const uint32_t *bits, uint8_t *entries)
{
    if (!choose_entries(pairs, entries))
        return false;
    bool again = false;
    unsigned used = used_entries(device, DATA_READ, bits, entries, &again);
    return !(used & used_entries(device, DATA_WRITE, bits, entries, &again)) && !again;
}

/* Adds up the exact bits of the sync managers with process data, over the PDOs of the kind that counts for each. A sum stays below
   2^32: 255 PDOs of 65,535 bits, each 255 times. */
static void sum_bits(const struct device *device, const struct lent *lent, uint32_t *bits)
{
    const uint8_t kind_read = device->coe ? COE_PDO : EEPROM_READ, kind_write = device->coe ? COE_PDO : EEPROM_WRITE;
    for (unsigned k = 0; k < device->p; k++) {
        const struct pdo *pdo = &device->pdos[k];
        if (pdo->manager >= device->n)
            continue;
        const uint8_t usage = device->managers[pdo->manager].usage;
        if (usage == DATA_READ ? pdo->kind == kind_read : usage == DATA_WRITE && pdo->kind == kind_write)
            bits[pdo->manager] += pdo_bits(pdo) * multiplier(lent->table, lent->records, pdo->index);
    }
}

/* The first entry with a usage; as many as there are where none has it. */
static unsigned first_entry(const struct device *device, uint8_t usage)
{
    unsigned entry = 0;
    while (entry < device->f && device->usages[entry] != usage)
        entry++;
    return entry;
}

/* Plans inputs and outputs and moves each offset to its direction's end; or answers the number of the refusal, with nothing written. It
   is a call: the compiler may not fit it to the offsets and the settings of its one caller. */
static __attribute__((noipa)) int configure(const struct device *device, const struct lent *lent, const struct settings *settings,
                                            struct areas *areas, uint32_t *offsets, struct segment *segments)
{
    uint32_t bits[MANAGERS] = {0};
    sum_bits(device, lent, bits);
    uint8_t entries[MANAGERS];
    if (PAIRED && !device->coe && !by_pairs(device, lent->pairs, bits, entries))
        return 18;

    bool too_many = false;
    unsigned sizes[MANAGERS] = {0}, totals[DIRECTIONS] = {0};
    for (unsigned k = 0; k < device->n; k++) {
        too_many |= bits[k] > MOST_BITS;
        sizes[k] = (bits[k] + 7) / 8;
        totals[device->managers[k].usage == DATA_WRITE] += sizes[k];
    }
    if (too_many)
        return 6;

    unsigned first[DIRECTIONS] = {0};
    if (device->coe) {
        first[TO_READ] = first_entry(device, INPUTS);
        first[TO_WRITE] = first_entry(device, OUTPUTS);
        if ((totals[TO_READ] && first[TO_READ] == device->f) || (totals[TO_WRITE] && first[TO_WRITE] == device->f))
            return 7;
    }

    uint32_t grown[ENTRIES] = {0};
    unsigned wanted = 0;
    bool too_long = false;
    for (unsigned k = 0; k < device->n; k++) {
        const uint8_t usage = device->managers[k].usage;
        if (usage < DATA_WRITE || ((device->coe || PAIRED) && sizes[k] == 0))
            continue;
        unsigned entry = device->coe ? first[usage == DATA_WRITE] : PAIRED ? entries[k] : k;
        grown[entry] += sizes[k];
        wanted |= 1u << entry;
        too_long |= grown[entry] > MOST_LENGTH;
    }
    if (too_long)
        return 8;
    const uint64_t middle = (uint64_t)offsets[TO_READ] + totals[TO_READ];
    const uint64_t start = settings->after_inputs ? middle : offsets[TO_WRITE];
    if (middle > UINT32_MAX || start + totals[TO_WRITE] > UINT32_MAX)
        return 9;
    if (offsets[TO_READ] < settings->group || start < settings->group)
        return 10;
    bool in_the_way = false;
    unsigned old = old_entries(areas->fmmus, wanted, &in_the_way);
    if (in_the_way)
        return 15;

    for (unsigned k = 0; old >> k; k++)
        if (old >> k & 1)
            memset(areas->fmmus + 16 * k, 0, 16);
    offsets[TO_WRITE] = (uint32_t)start;
    for (unsigned d = 0; d < DIRECTIONS; d++)
        segments[d] = (struct segment){offsets[d] - settings->group, offsets[d] + totals[d] - settings->group};
    for (unsigned k = 0; k < device->n; k++) {
        const struct manager *manager = &device->managers[k];
        if (manager->usage < DATA_WRITE)
            continue;
        const bool write = manager->usage == DATA_WRITE;
        write_channel(areas->channels + 8 * k, manager, sizes[k]);
        if (!(device->coe || PAIRED) || sizes[k] > 0)
            write_entry(areas->fmmus + 16 * (device->coe ? first[write] : PAIRED ? entries[k] : k), offsets[write], sizes[k],
                        manager->start, write);
        offsets[write] += sizes[k];
    }
    return 0;
}

/* ---- the answer */

static void say_mailbox(const struct mailbox *mailbox)
{
    if (mailbox->exists)
        printf(" %u/%u/%u", mailbox->address, mailbox->size, mailbox->number);
    else
        printf(" none");
}

static void say_mailboxes(int number, const struct config *config, const struct areas *areas)
{
    if (number) {
        printf("refused %d", number);
    } else {
        printf("ok");
        say_mailbox(&config->read);
        say_mailbox(&config->write);
        printf(" %d %d", config->coe, config->complete_access);
    }
    say_bytes(areas->channels, sizeof areas->channels);
    putchar('\n');
}

static void say_call(int number, const struct segment *segments, const uint32_t *offsets, const struct areas *areas)
{
    if (number)
        printf("refused %d", number);
    else
        printf("ok %u %u %u %u", segments[TO_READ].start, segments[TO_READ].end, segments[TO_WRITE].start, segments[TO_WRITE].end);
    printf(" %u %u", offsets[TO_READ], offsets[TO_WRITE]);
    say_bytes(areas->fmmus, sizeof areas->fmmus);
    say_bytes(areas->channels, sizeof areas->channels);
    putchar('\n');
}

/* ---- the plan */

static struct input input;
static struct device device;
static struct areas areas;

/* One plan over areas of zeros, or over the FMMU area of the input; the last one is said. */
static __attribute__((noinline)) void plan(bool last)
{
    memset(&areas, 0, sizeof areas);
    if (USED)
        memcpy(areas.fmmus, input.fmmus, sizeof areas.fmmus);
    struct config config = {0};
    int number = read_sheet(input.sheet, input.length, &device);
    if (!number)
        config = mailbox_pass(&device, areas.channels);
    if (last)
        say_mailboxes(number, &config, &areas);
    for (int more = 1; more < READINGS && !number; more++)
        number = read_sheet(input.sheet, input.length, &device);
    if (number)
        return;
    const struct lent lent = {input.table, input.records, &input.pairs};
    const struct settings settings = {.group = 0, .after_inputs = true};
    uint32_t offsets[DIRECTIONS] = {0};
    struct segment segments[DIRECTIONS];
    number = configure(&device, &lent, &settings, &areas, offsets, segments);
    if (last)
        say_call(number, segments, offsets, &areas);
}

/* ---- the sheet in portions */

static struct {
    uint8_t room[2 + MOST_FOLLOWING];
    size_t held;
    bool surplus;
} arrival;

static __attribute__((noinline)) void take(const uint8_t *portion, size_t length)
{
    size_t left = sizeof arrival.room - arrival.held;
    size_t n = length < left ? length : left;
    memcpy(arrival.room + arrival.held, portion, n);
    arrival.held += n;
    arrival.surplus |= n < length;
}

/* The whole sheet once, from its first portion; the last time its end is said. */
static void arrive(bool last)
{
    arrival.held = 0;
    arrival.surplus = false;
    for (size_t at = 0; at < input.length; at += PORTION)
        take(input.sheet + at, input.length - at < PORTION ? input.length - at : PORTION);
    int number = arrival.surplus ? 2 : read_sheet(arrival.room, arrival.held, &device);
    if (last)
        printf(number ? "r%d\n" : "ok\n", number);
}

/* ---- the sheet written again */

/* How long p PDO records are, by their counts, of which one past the bytes is 0; and whether they break a rule. */
static size_t pdos_length(const uint8_t *records, size_t length, unsigned p, bool *broken)
{
    size_t at = 0;
    for (unsigned k = 0; k < p; k++) {
        uint8_t kind = COE_PDO, count = 0;
        if (at + 5 <= length) {
            kind = records[at];
            count = records[at + 4];
        }
        *broken |= kind > EEPROM_WRITE || (kind != COE_PDO && count != 2);
        at += 5 + count;
    }
    *broken |= at > length;
    return at;
}

/* 4 where a usage has no name; else 5 where a mode or a direction is the case with a number; else 0. */
static int unnamed(const struct device_data *data)
{
    bool control = false;
    for (size_t k = 0; k < data->n; k++) {
        const struct manager_data *manager = &data->managers[k];
        if (manager->usage > DATA_READ)
            return 4;
        control |= manager->mode.unnamed | manager->direction.unnamed;
    }
    for (size_t k = 0; k < data->f; k++)
        if (data->usages[k] > STATUS)
            return 4;
    return control ? 5 : 0;
}

static uint8_t *put_manager(uint8_t *at, const struct manager_data *manager)
{
    at = put_pair(at, manager->start);
    *at++ = control_of(manager);
    *at++ = manager->enable;
    *at++ = manager->usage;
    return at;
}

/* Writes device data as a sheet into room of so many bytes, or answers the number of its refusal with nothing written. */
static __attribute__((noinline)) int write_sheet(const struct device_data *data, const uint8_t *lent, size_t length, uint8_t *at,
                                                 size_t size, size_t *total)
{
    size_t left = data->pdos < length ? length - data->pdos : 0;
    const uint8_t *records = lent + (length - left);
    bool broken = data->n > MANAGERS || data->f > ENTRIES;
    size_t pdos = pdos_length(records, left, data->p, &broken);
    size_t following = 9 + 5 * data->n + data->f + pdos;
    if (data->n > MOST_FOLLOWING || data->f > MOST_FOLLOWING || following > MOST_FOLLOWING)
        return 2;
    int number = broken ? 4 : unnamed(data);
    if (number)
        return number;
    *total = 2 + following;
    if (size < *total)
        return 12;

    at = put_pair(at, (unsigned)following);
    *at++ = 1;
    *at++ = (uint8_t)(data->mailbox | data->coe << 1 | data->complete_access << 2);
    at = put_pair(at, data->receive);
    at = put_pair(at, data->send);
    *at++ = (uint8_t)data->n;
    *at++ = (uint8_t)data->f;
    *at++ = data->p;
    for (size_t k = 0; k < data->n; k++)
        at = put_manager(at, &data->managers[k]);
    memcpy(at, data->usages, data->f);
    memcpy(at + data->f, records, pdos);
    return 0;
}

static struct device_data data;
static uint8_t room[2 + MOST_FOLLOWING];

/* The device data of the sheet, or the number of its refusal. */
static int read_data(void)
{
    int number = read_sheet(input.sheet, input.length, &device);
    if (number)
        return number;
    data.mailbox = device.flags & MAILBOX;
    data.coe = device.flags & COE;
    data.complete_access = device.flags & COMPLETE_ACCESS;
    data.receive = device.receive;
    data.send = device.send;
    data.n = device.n;
    data.f = device.f;
    data.pdos = 11 + 5 * data.n + data.f;
    data.p = (uint8_t)device.p;
    memcpy(data.usages, device.usages, sizeof data.usages);
    for (unsigned k = 0; k < device.n; k++) {
        const struct manager *manager = &device.managers[k];
        set_manager(&data.managers[k], manager->start, manager->control, manager->enable, manager->usage);
    }
    return 0;
}

/* One sheet into room of the sheet's own length, behind which nothing can change; the last one is said. */
static void write_again(bool last)
{
    size_t total;
    int number = write_sheet(&data, input.sheet, input.length, room, input.length, &total);
    if (!last)
        return;
    if (number) {
        printf("refused %d 0\n", number);
        return;
    }
    printf("%zu", total);
    say_bytes(room, total);
    printf(" 0\n");
}

/* ---- the input */

static void read_table(const uint8_t *records)
{
    for (unsigned k = 0; k < input.records; k++) {
        const uint8_t *at = records + 3 * k;
        input.table[k] = (struct record){pair(at), at[2]};
    }
}

static void read_pairs(const uint8_t *pairs)
{
    for (unsigned k = 0; k < input.pairs.count; k++) {
        const uint8_t *at = pairs + 2 * k;
        input.pairs.list[k] = (struct fmmu_pair){at[0], at[1]};
    }
}

/* The pairs before the sheet, which then stands behind them. */
static bool split_pairs(void)
{
    if (input.length < 2)
        return false;
    input.pairs.count = pair(input.sheet);
    size_t length = 2 + 2 * input.pairs.count;
    if (input.pairs.count > MOST_PAIRS || input.length < length)
        return false;
    read_pairs(input.sheet + 2);
    input.sheet += length;
    input.length -= length;
    return true;
}

static uint32_t quad(const uint8_t *at)
{
    return (uint32_t)pair(at) << 16 | pair(at + 2);
}

/* How often to plan, from the head of the input; the table, the pairs and the sheet are set. */
static bool read_input(uint32_t *times)
{
    size_t length = fread(input.bytes, 1, sizeof input.bytes, stdin);
    if (length < 6)
        return false;
    *times = quad(input.bytes);
    input.records = pair(input.bytes + 4);
    if (input.records > MOST_RECORDS || length - 6 < 3 * input.records + sizeof areas.fmmus * USED)
        return false;
    read_table(input.bytes + 6);
    input.fmmus = input.bytes + 6 + 3 * input.records;
    input.sheet = input.fmmus + sizeof areas.fmmus * USED;
    input.length = length - (size_t)(input.sheet - input.bytes);
    return PAIRED ? split_pairs() : true;
}

/* ---- calls, as the probe is asked for them */

enum { AFTER_INPUTS = 1, BY_PAIRS = 4 }; /* of what byte 1 is a sum */

/* Answers a request of the letter p (docs/PROBE.md), whose head was read. False unless it is for a call in the default, by pairs or by
   own numbers as this program is built, over whole areas. */
static bool answer(const uint8_t *head)
{
    input.length = pair(head + 20);
    input.records = pair(head + 22);
    input.pairs.count = pair(head + 2);
    size_t length = input.length + 3 * input.records + 2 * input.pairs.count;
    if (head[0] != 'p' || (head[1] & ~AFTER_INPUTS) != (PAIRED ? BY_PAIRS : 0))
        return false;
    if (input.records > MOST_RECORDS || input.pairs.count > MOST_PAIRS)
        return false;
    if (pair(head + 24) != 2 * input.pairs.count + sizeof areas.fmmus || pair(head + 26) != sizeof areas.channels)
        return false;
    if (length > sizeof input.bytes || fread(input.bytes, 1, length, stdin) < length || !fread(&areas, sizeof areas, 1, stdin))
        return false;
    read_table(input.bytes + input.length);
    read_pairs(input.bytes + input.length + 3 * input.records);

    const struct lent lent = {input.table, input.records, &input.pairs};
    const struct settings settings = {quad(head + 8), head[1] & AFTER_INPUTS};
    uint32_t offsets[DIRECTIONS] = {quad(head + 4), quad(head + 12)};
    struct segment segments[DIRECTIONS];
    int number = read_sheet(input.bytes, input.length, &device);
    if (!number)
        number = configure(&device, &lent, &settings, &areas, offsets, segments);
    say_call(number, segments, offsets, &areas);
    return true;
}

/* Answers one request after another; the exit status. */
static int answer_all(void)
{
    uint8_t head[28];
    size_t length;
    while ((length = fread(head, 1, sizeof head, stdin)) == sizeof head && answer(head))
        ;
    if (length == 0)
        return 0;
    fprintf(stderr, "plan: a request is cut short, or isn't for such a call\n");
    return 2;
}

int main(void)
{
    if (CALLS)
        return answer_all();
    uint32_t times;
    if (!read_input(&times)) {
        fprintf(stderr, "plan: the input is cut short, or its table or list of pairs is too long\n");
        return 2;
    }
    int number = WRITE ? read_data() : 0;
    if (number) {
        printf("refused %d\n", number);
        return 0;
    }
    while (times-- > 0) {
        if (WRITE)
            write_again(times == 0);
        else if (PORTION)
            arrive(times == 0);
        else
            plan(times == 0);
        /* each plan is made anew: the compiler may keep nothing of the one before */
        __asm__ volatile("" ::: "memory");
    }
    return 0;
}
