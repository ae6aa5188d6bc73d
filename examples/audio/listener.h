/* A codec at the card's pins, written from the sentences of document 000, 4.5,
 * alone: it knows the clock, LRCK and data lines and nothing of the card. It
 * hears what comes on SDO, and sends each sample back on SDI one frame later. */
#ifndef LISTENER_H
#define LISTENER_H

#include <stdint.h>

enum { LISTEN_I2S, LISTEN_LEFT, LISTEN_RIGHT, LISTEN_PCM };

struct listener {
    int protocol, bits, frame;
    int sck, lrck;      /* as last seen */
    int clock;          /* clocks since LRCK's last edge that counts, or -1 */
    int channel;        /* 0 left, 1 right */
    uint32_t hearing;   /* the bits of the sample that comes in */
    uint32_t sending;   /* the sample that goes back */
    uint32_t heard[2];  /* of either channel, the last whole sample */
    int sdi;
    void (*whole)(void *to, int channel, uint32_t sample);
    void *to;
};

/* The levels at rest, before the first edge. */
void listener_start(struct listener *l, int protocol, int bits, int frame,
                    int sck, int lrck);

/* The levels after an edge. */
void listener_see(struct listener *l, int sck, int lrck, int sdo);

#endif
