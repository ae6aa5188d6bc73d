/* The audio card in plain C, as one would write it by hand: the numbers of a
 * frame are worked out once, at enabling. */
#ifndef PLAIN_CARD_H
#define PLAIN_CARD_H

#include <stdint.h>

struct plain_ring {
    uint32_t sample[8];
    uint8_t read, count;
};

struct plain_card {
    uint8_t enabled, protocol, bits, frame;
    uint8_t first, second, lead, last, turn, active, rest; /* in edges */
    uint8_t place;
    uint8_t busy, zeros, edges;
    uint8_t sck, lrck, sdo, underrun, overflow;
    uint32_t word, received;
    struct plain_ring sending, unread;
};

void plain_card_power_up(struct plain_card *c);
uint64_t plain_card_set_protocol(struct plain_card *c, uint32_t protocol);
uint64_t plain_card_set_length(struct plain_card *c, uint32_t bits,
                               uint32_t frame);
uint64_t plain_card_enable(struct plain_card *c);
uint64_t plain_card_write(struct plain_card *c, uint32_t sample);
uint64_t plain_card_read(struct plain_card *c);
uint64_t plain_card_edge(struct plain_card *c, uint32_t sdi);
uint32_t plain_card_pins(const struct plain_card *c);

#endif
