/* The TI module in plain C, written for speed as a port would write it. */
#ifndef PLAIN_TI_H
#define PLAIN_TI_H

#include <stdint.h>

struct plain_ti {
    uint8_t reset, master, talk, polarity, phase, length;
    uint8_t waits, busy, zeros, unread, overrun; /* what is held, and the flag */
    uint8_t edges, sck, select, sdo;
    uint16_t waiting, bits, received, arrived;
};

void plain_ti_power_up(struct plain_ti *m);
void plain_ti_enter_reset(struct plain_ti *m);
void plain_ti_leave_reset(struct plain_ti *m);
uint32_t plain_ti_set_mode(struct plain_ti *m, uint32_t master, uint32_t talk,
                           uint32_t polarity, uint32_t phase);
uint32_t plain_ti_set_length(struct plain_ti *m, uint32_t length);
uint32_t plain_ti_write(struct plain_ti *m, uint32_t value);
uint32_t plain_ti_read(struct plain_ti *m);
uint32_t plain_ti_tick(struct plain_ti *m, uint32_t sdi);
uint32_t plain_ti_pins(struct plain_ti *m, uint32_t sck, uint32_t sdi,
                       uint32_t select);
uint32_t plain_ti_status(const struct plain_ti *m);
uint32_t plain_ti_levels(const struct plain_ti *m);

#endif
