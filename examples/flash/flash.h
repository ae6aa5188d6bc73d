/* A serial flash chip of the W25X10 kind at its pins: 128 KiB in pages of 256
 * bytes, sectors of 4 KiB and blocks of 64 KiB. It sees levels and nothing
 * else. It speaks SPI modes 0 and 3, highest bit first: it takes SI in as SCK
 * rises and moves SO as SCK falls.
 *
 * Known instructions: write enable 06 and disable 04, read status 05, read 03,
 * page program 02, sector erase 20, block erase D8, chip erase C7 or 60, and
 * the JEDEC identification 9F. An instruction that changes something is done
 * as CS rises behind a whole byte, and if it was write enabled before.
 *
 * The chip has no clock. After a change it is busy for a number of status bytes
 * that are read whole, and until then it heeds the instruction 05 alone. */
#ifndef FLASH_H
#define FLASH_H

#include <stdbool.h>
#include <stdint.h>

#define FLASH_SIZE 0x20000u
#define FLASH_BLOCK 0x10000u
#define FLASH_SECTOR 0x1000u
#define FLASH_PAGE 0x100u

struct flash {
    uint8_t bytes[FLASH_SIZE];
    bool cs, sck, si;         /* the levels last seen */
    unsigned bits;            /* bits taken in of the byte under way, 0 to 7 */
    uint8_t shift;            /* these bits, the last one lowest */
    uint32_t taken;           /* whole bytes taken in since selected */
    uint8_t instruction;      /* the first of them */
    uint32_t address;         /* the next three */
    uint8_t page[FLASH_PAGE]; /* what 02 brings, by its place in the page */
    bool write_enabled;       /* 06 was the last of 06, 04 and a change */
    unsigned busy;            /* status bytes that will still show it busy */
    bool driven, so;          /* is SO driven, and to which level? */
};

/* Every byte FF, deselected, not write enabled. */
void flash_power_up(struct flash *f);

/* Shows levels to the pins; an SCK level unlike the last is an edge, and CS
 * selects when low. SI is taken in as it stood before the edge, so a wrong mode
 * does not go unnoticed. */
void flash_pins(struct flash *f, bool cs, bool sck, bool si);

#endif
