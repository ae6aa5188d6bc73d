/* A second model of the TI module (request Ten of document 02), written from
 * that request and from source document 002 without its FIFO, and from nothing
 * else. Bits go one by one through lists, so that it can be read beside the
 * manual's figures. */
#ifndef TI_H
#define TI_H

#include <stdint.h>

#define TI_NO_EDGE (-1)
#define TI_UNDRIVEN 2

/* A place for one character: the bits of its word, the first to go out first. */
struct ti_place {
    int held;
    char bit[16];
};

struct ti {
    int reset;                          /* software reset */
    int master, talk, polarity, phase;  /* SPICCR and SPICTL */
    int length;                         /* character length, 1 to 16 */

    struct ti_place tx;    /* SPITXBUF: a character that waits */
    struct ti_place shift; /* SPIDAT: the character that goes out */
    int zeros;             /* what goes out was never written */
    int edges;             /* the edges that it has had */
    int in_count;          /* bits that have come in meanwhile */
    char in_bit[16];       /* these bits, in the order they came */
    struct ti_place rx;    /* SPIRXBUF: the bits of an unread character */

    int overrun, interrupt; /* SPISTS 7 and 6; 5 is tx.held */

    int sck, ste, sdo; /* levels: clock, select, and behind the output pin */
};

/* Each answers 0 or a refusal number: 2, 3, 5, 6, 7 or 24. A tick may also
 * answer TI_NO_EDGE. */
void ti_power_up(struct ti *m);
void ti_enter_reset(struct ti *m);
void ti_leave_reset(struct ti *m);
int ti_set_length(struct ti *m, uint32_t length);
int ti_set_mode(struct ti *m, int master, int talk, int polarity, int phase);
int ti_write(struct ti *m, unsigned value);
int ti_read(struct ti *m, unsigned *value);
int ti_tick(struct ti *m, int sdi);
int ti_pins(struct ti *m, int sck, int sdi, int ste);
void ti_clear_overrun(struct ti *m);

/* What is seen without changing anything: SPISTS, and the output pin, 0, 1 or
 * TI_UNDRIVEN. */
unsigned ti_status(const struct ti *m);
int ti_sdo(const struct ti *m);

/* The bit rate of a master. */
double ti_rate(uint32_t spibrr, uint32_t lspclk);

#endif
