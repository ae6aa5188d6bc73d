/* A serial EEPROM of the 25LC kind at its pins, as far as reading goes: the
 * cartridge's memory. It speaks SPI mode 0, highest bit first. Selected, it
 * takes in the instruction READ and an address of 16 bits; then it shows the
 * bytes from there on, one after the other, until it is deselected. */
#ifndef EEPROM_H
#define EEPROM_H

#include <stdbool.h>
#include <stdint.h>

#define EEPROM_SIZE 8192u
#define EEPROM_READ 0x03u

struct eeprom {
    const uint8_t *bytes; /* EEPROM_SIZE of them */
    bool sck, si;         /* the levels last seen */
    unsigned taken;       /* bits taken in since selected, 24 at most */
    uint32_t command;     /* these bits: instruction, then address */
    uint32_t next;        /* the bit to show next, of the whole memory */
    bool driven, so;      /* is SO driven, and to which level? */
};

void eeprom_power_up(struct eeprom *e, const uint8_t *bytes);

/* Shows levels to the pins; an SCK level unlike the last is an edge. SI is
 * taken in as it stood before the edge, so a wrong mode does not go
 * unnoticed. */
void eeprom_pins(struct eeprom *e, bool cs, bool sck, bool si);

#endif
