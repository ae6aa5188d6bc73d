/* A serial EEPROM of the 25LC kind, as far as reading goes. */
#include "eeprom.h"

#define COMMAND_BITS 24u

void eeprom_power_up(struct eeprom *e, const uint8_t *bytes)
{
    *e = (struct eeprom){.bytes = bytes};
}

/* CS is high: whatever was going on ends, and SO is let go. */
static void deselect(struct eeprom *e)
{
    e->taken = 0;
    e->command = 0;
    e->driven = false;
}

/* SCK rises: one more bit of the command. */
static void take(struct eeprom *e)
{
    if (e->taken == COMMAND_BITS)
        return;
    e->command = e->command << 1 | e->si;
    e->taken++;
    e->next = (e->command & 0xFFFFu) % EEPROM_SIZE * 8;
}

/* SCK falls: the next bit, if the command is whole and is READ. */
static void show(struct eeprom *e)
{
    if (e->taken < COMMAND_BITS || e->command >> 16 != EEPROM_READ)
        return;
    e->driven = true;
    e->so = e->bytes[e->next / 8] >> (7 - e->next % 8) & 1;
    e->next = (e->next + 1) % (EEPROM_SIZE * 8);
}

void eeprom_pins(struct eeprom *e, bool cs, bool sck, bool si)
{
    if (cs)
        deselect(e);
    else if (sck && !e->sck)
        take(e);
    else if (!sck && e->sck)
        show(e);
    e->sck = sck;
    e->si = si;
}
