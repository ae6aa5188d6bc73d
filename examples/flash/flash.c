/* A serial flash chip of the W25X10 kind. */
#include "flash.h"

#include <string.h>

enum {
    PAGE_PROGRAM = 0x02,
    READ = 0x03,
    WRITE_DISABLE = 0x04,
    READ_STATUS = 0x05,
    WRITE_ENABLE = 0x06,
    ERASE_SECTOR = 0x20,
    ERASE_CHIP = 0x60,
    IDENTIFY = 0x9F,
    ERASE_CHIP_TOO = 0xC7,
    ERASE_BLOCK = 0xD8
};

enum { STATUS_BUSY = 1, STATUS_WRITE_ENABLED = 2 };
enum { BUSY_BYTES = 1 };

static const uint8_t identity[] = {0xEF, 0x30, 0x11};

void flash_power_up(struct flash *f)
{
    memset(f, 0, sizeof *f);
    memset(f->bytes, 0xFF, sizeof f->bytes);
    f->cs = true;
}

/* ---- what it is told ---------------------------------------------------- */

/* CS falls. */
static void selected(struct flash *f)
{
    f->bits = 0;
    f->taken = 0;
    f->address = 0;
    memset(f->page, 0xFF, sizeof f->page);
}

/* A whole byte has come in. More data than a page holds begins at its start
 * again, and the last byte of a place counts. */
static void take(struct flash *f, uint8_t byte)
{
    if (f->taken == 0)
        f->instruction = byte;
    else if (f->taken < 4)
        f->address = (f->address << 8 | byte) % FLASH_SIZE;
    else
        f->page[(f->address + f->taken - 4) % FLASH_PAGE] = byte;
    if (f->taken > 0 && f->instruction == READ_STATUS && f->busy > 0 &&
        --f->busy == 0)
        f->write_enabled = false;
    f->taken++;
}

/* SCK rises. */
static void take_bit(struct flash *f)
{
    f->shift = (uint8_t)(f->shift << 1 | f->si);
    if (++f->bits == 8) {
        f->bits = 0;
        take(f, f->shift);
    }
}

/* ---- what it tells ------------------------------------------------------ */

/* The byte to show behind those that were taken in; -1 if there is none. */
static int answer(const struct flash *f)
{
    if (f->taken >= 1 && f->instruction == READ_STATUS)
        return (f->busy > 0 ? STATUS_BUSY : 0) |
               (f->write_enabled ? STATUS_WRITE_ENABLED : 0);
    if (f->busy > 0)
        return -1;
    if (f->taken >= 4 && f->instruction == READ)
        return f->bytes[(f->address + f->taken - 4) % FLASH_SIZE];
    if (f->taken >= 1 && f->instruction == IDENTIFY)
        return identity[(f->taken - 1) % sizeof identity];
    return -1;
}

/* SCK falls. */
static void show_bit(struct flash *f)
{
    int byte = answer(f);

    f->driven = byte >= 0;
    f->so = f->driven && (byte >> (7 - f->bits) & 1);
}

/* ---- what it does ------------------------------------------------------- */

/* Sets the part that holds the address to FF. */
static void erase(struct flash *f, uint32_t size)
{
    memset(f->bytes + f->address / size * size, 0xFF, size);
}

/* Programming sets bits to 0 and none to 1. */
static void program(struct flash *f)
{
    uint8_t *page = f->bytes + f->address / FLASH_PAGE * FLASH_PAGE;

    for (unsigned i = 0; i < FLASH_PAGE; i++)
        page[i] &= f->page[i];
}

/* Does a write or an erase that is whole; false if it is neither. */
static bool change(struct flash *f)
{
    if (f->instruction == PAGE_PROGRAM && f->taken > 4)
        program(f);
    else if (f->instruction == ERASE_SECTOR && f->taken == 4)
        erase(f, FLASH_SECTOR);
    else if (f->instruction == ERASE_BLOCK && f->taken == 4)
        erase(f, FLASH_BLOCK);
    else if ((f->instruction == ERASE_CHIP ||
              f->instruction == ERASE_CHIP_TOO) &&
             f->taken == 1)
        erase(f, FLASH_SIZE);
    else
        return false;
    return true;
}

/* CS rises: SO is let go, and what was told is done. */
static void deselected(struct flash *f)
{
    f->driven = false;
    if (f->bits != 0 || f->taken == 0 || f->busy > 0)
        return;
    if (f->instruction == WRITE_ENABLE && f->taken == 1) {
        f->write_enabled = true;
    } else if (f->instruction == WRITE_DISABLE && f->taken == 1) {
        f->write_enabled = false;
    } else if (f->write_enabled && change(f)) {
        f->busy = BUSY_BYTES;
    }
}

void flash_pins(struct flash *f, bool cs, bool sck, bool si)
{
    if (cs && !f->cs)
        deselected(f);
    else if (!cs && f->cs)
        selected(f);
    else if (!cs && sck && !f->sck)
        take_bit(f);
    else if (!cs && !sck && f->sck)
        show_bit(f);
    f->cs = cs;
    f->sck = sck;
    f->si = si;
}
