/* The SPI module of documents 01 and 02 in plain C, written for speed and with
 * no proof: what the proved library is measured against. A call answers like
 * the library's: the refusal number times 65,536, or else the value read, the
 * edges made by a tick (0 or 1), or the edges used by a linked run. */
#ifndef PLAIN_SPI_H
#define PLAIN_SPI_H

#include <stdint.h>

/* A ring of words: the CPU's position, the SPI engine's, and the words held. */
struct plain_ring {
    uint16_t word[16];
    uint8_t cpu, spi;
    uint8_t count;
};

struct plain_spi {
    uint16_t stat; /* the stored bits: SPIEN, SPISIDL, SPIROV, SISEL */
    uint16_t con1, con2;
    uint16_t out; /* bits still to be sent, the next one at bit 15 */
    uint16_t in;  /* bits received, the latest one at bit 0 */
    struct plain_ring tx; /* words to be sent, their top bit at bit 15 */
    struct plain_ring rx;

    /* worked out when a STAT write enables */
    uint8_t clock;  /* none if disabled, its own, or the pin; framed or not */
    uint8_t select; /* a client that obeys SS */
    uint8_t host;
    uint8_t cke, ckp;
    uint8_t last;   /* the edges of a word */
    uint8_t spare;  /* 16 less the width */
    uint8_t depth;  /* 1 in standard operation, else as power-up chose */
    uint8_t raises; /* SISEL; 8 in standard operation */
    uint8_t frame;  /* framed: pulses before words, with them, from outside */
    uint8_t active; /* the level of a pulse */

    uint8_t loaded; /* the shift register holds an accepted word */
    uint8_t filler; /* what a client that obeys SS has begun is a filler */
    uint8_t edges;  /* of the begun word; 0 if none has begun */
    uint8_t sck, ss, sdo;
    uint8_t flag;
    uint8_t pulse; /* a frame host gives one; a frame client has sampled one */
    uint8_t marked; /* a word was lost in enhanced operation since enabled */
    uint8_t chosen; /* the depth in enhanced operation: 4, 8 or 16 */
};

/* A clock report in numbers: the refusal number; 1 for internal, 2 for
 * external, 0 for none; and the floats that go with it. */
struct plain_clock {
    uint32_t number, kind;
    double rate, bittime, below;
};

void plain_power_up(struct plain_spi *m); /* with the depth 8 */
uint32_t plain_power_up_with(struct plain_spi *m, uint32_t depth);
uint32_t plain_read(struct plain_spi *m, uint32_t reg);
uint32_t plain_write(struct plain_spi *m, uint32_t reg, uint32_t value);
uint32_t plain_tick(struct plain_spi *m, uint32_t sdi, uint32_t ss);
uint32_t plain_pins(struct plain_spi *m, uint32_t sck, uint32_t sdi,
                    uint32_t ss);
/* Bits as plain_levels has them, and bit 6 if there was no edge. */
uint32_t plain_clock_step(struct plain_spi *m, uint32_t sck, uint32_t sdi,
                          uint32_t ss);
void plain_clear(struct plain_spi *m);
uint32_t plain_linked(struct plain_spi *host, struct plain_spi *client,
                      uint32_t limit);

/* Bit 0 the interrupt flag, bit 1 SCK, bit 2 the SDO level, bit 3 SDO driven,
 * bit 4 the SS level, bit 5 SS driven. */
uint32_t plain_levels(const struct plain_spi *m);

struct plain_clock plain_report(const struct plain_spi *m, uint32_t rate);

#endif
