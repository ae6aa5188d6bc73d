/* Request Nine's audio card, written from document 02, from document 000's
 * audio sentences (4.0, 4.1, 4.3, 4.5, 4.6.1, 4.8) and from the readings of
 * docs/DECISIONS.md, before the proved definitions were. It knows the number of
 * the clock since the card was enabled, and asks of each clock whose bit it has:
 * there is no counter that turns and no sample with edges of its own. */
#ifndef CARD_H
#define CARD_H

#include <stdint.h>

enum { CARD_I2S, CARD_LEFT, CARD_RIGHT, CARD_PCM };

enum { CARD_SAMPLES = 8 };

struct card {
    int enabled;
    int protocol;
    int data, frame;
    uint32_t sending[CARD_SAMPLES], received[CARD_SAMPLES];
    int waiting, unread;
    int underrun, overflow;
    int sck, lrck, sdo;
    uint64_t edges;    /* since enabling */
    uint32_t going;    /* the sample on SDO, zeros if there was none */
    uint32_t coming;   /* the bits of SDI so far */
};

void card_power_up(struct card *c);

/* Each gives a refusal number, 0 if the call is done. */
int card_set_protocol(struct card *c, unsigned protocol);
int card_set_format(struct card *c, unsigned data, unsigned frame);
int card_enable(struct card *c);
int card_disable(struct card *c);
int card_write(struct card *c, uint32_t sample);
int card_read(struct card *c, uint32_t *sample);
int card_edge(struct card *c, int sdi);
void card_clear_underrun(struct card *c);
void card_clear_overflow(struct card *c);

/* The level at SDO: 0, 1, or 2 if it is not driven. */
int card_sdo(const struct card *c);

/* Which channel takes a sample next: 0 left, 1 right; of a disabled card, the
 * one that would be first. */
int card_next_channel(const struct card *c);

#endif
