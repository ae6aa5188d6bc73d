/* A board with one SPI module of the library as host and a flash chip at its
 * pins, and the firmware that moves bytes between them. */
#ifndef PORT_H
#define PORT_H

#include "flash.h"
#include "thurafeqa.h"

#include <stdbool.h>
#include <stddef.h>
#include <stdint.h>
#include <stdio.h>

struct port {
    thurafeqa spi;
    struct flash chip;
    bool cs;             /* a port pin, which selects the chip when low */
    uint16_t con1;       /* the mode, without the prescalers */
    bool enhanced;       /* SPIBEN: words wait ahead */
    bool whole;          /* a word is one call, not one call an edge */
    uint32_t half_bit;   /* the time between two edges, in nanoseconds */
    uint64_t time;       /* since power-up, in nanoseconds */
    FILE *pins;          /* where the pins are written down, or null */
    int written;         /* the levels last written there, -1 at first, */
    uint64_t written_at; /* and when */
    unsigned most;       /* words that were under way at once */
    unsigned long operations, words, edges; /* made; all four may be cleared */
};

/* SPI mode 0 to 3, of which the chip speaks 0 and 3; standard operation for the
 * depth 0, else enhanced operation of a part with buffers of that depth; whole
 * words, or edge by edge. `pins` is null, or a file for the levels of the pins
 * as a VCD. */
void port_power_up(struct port *p, unsigned mode, unsigned depth, bool whole,
                   FILE *pins);

/* Sets the clock to the highest rate that is not above `hertz`, or to the
 * lowest that there is, and tells it. */
uint32_t port_rate(struct port *p, uint32_t hertz);

/* One operation: the chip is selected, `count` words go out and as many come
 * back, and it is deselected. */
void port_operation(struct port *p, const uint8_t *out, uint8_t *in,
                    size_t count);

/* A while passes in which nothing happens; what was written of the pins is in
 * the file then. */
void port_rest(struct port *p);

#endif
