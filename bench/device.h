/* A device's data, as plan.c writes it as a sheet and dump.c reads it from a dump; and what both do with bytes. */
#include <stdbool.h>
#include <stddef.h>
#include <stdint.h>
#include <stdio.h>

enum { MANAGERS = 16, ENTRIES = 16, MOST_PDOS = 255 };
enum { MAILBOX = 1, COE = 2, COMPLETE_ACCESS = 4 };
enum { MAILBOX_WRITE = 1, MAILBOX_READ = 2, DATA_WRITE = 3, DATA_READ = 4 };
enum { OUTPUTS = 1, INPUTS = 2, STATUS = 3 };
enum { COE_PDO = 0, EEPROM_READ = 1, EEPROM_WRITE = 2 };
/* bits of a control byte: modes 1 and 3 and directions 2 and 3 have no name */
enum { UNNAMED_MODE = 0x01, UNNAMED_DIRECTION = 0x08, UNNAMED = UNNAMED_MODE | UNNAMED_DIRECTION };

/* A mode or a direction: one that has a name, held as the name's number, or the case with a number, which may be any. */
struct choice {
    bool unnamed;
    uint8_t number;
};

struct manager_data {
    uint16_t start;
    struct choice mode, direction;
    bool ecat_event, dls_user_event, watchdog;
    bool enable;
    uint8_t usage;
};

struct device_data {
    bool mailbox, coe, complete_access;
    uint16_t receive, send;
    size_t n, f;
    struct manager_data managers[MANAGERS];
    uint8_t usages[ENTRIES];
    size_t pdos; /* where their records stand in the lent bytes */
    uint8_t p;
};

/* A sync manager of any control byte; its bit 7 is dropped. */
static inline void set_manager(struct manager_data *manager, uint16_t start, uint8_t control, bool enable, uint8_t usage)
{
    manager->start = start;
    manager->mode.unnamed = control & UNNAMED_MODE;
    manager->mode.number = control & 3;
    manager->direction.unnamed = control & UNNAMED_DIRECTION;
    manager->direction.number = control >> 2 & 3;
    manager->ecat_event = control & 0x10;
    manager->dls_user_event = control & 0x20;
    manager->watchdog = control & 0x40;
    manager->enable = enable;
    manager->usage = usage;
}

/* The control byte; of a number its low two bits. */
static inline uint8_t control_of(const struct manager_data *manager)
{
    return (uint8_t)((manager->mode.number & 3) | (manager->direction.number & 3) << 2 | manager->ecat_event << 4 |
                     manager->dls_user_event << 5 | manager->watchdog << 6);
}

static inline uint16_t pair(const uint8_t *at)
{
    return (uint16_t)(at[0] << 8 | at[1]);
}

static inline uint8_t *put_pair(uint8_t *at, unsigned value)
{
    *at++ = value >> 8 & 0xff;
    *at++ = value & 0xff;
    return at;
}

static inline void say_bytes(const uint8_t *bytes, size_t count)
{
    putchar(' ');
    for (size_t k = 0; k < count; k++)
        printf("%02x", bytes[k]);
}
