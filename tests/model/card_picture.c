/* Draws the pictures of docs/AUDIO.md from the pins of the second model: the
 * first frame of each protocol with 16 bits in 64 clocks, and the clock behind
 * it. Which bit a clock has is found by sending samples of one bit each.
 *
 * usage: card_picture N: the picture of protocol number N */
#include "card.h"

#include <stdio.h>
#include <stdlib.h>

enum { CLOCKS = 65, BITS = 16 };

static char lrck[CLOCKS + 1], sck[CLOCKS + 1], sdo[2][CLOCKS + 1];

static void draw(unsigned protocol, int channel, int bit)
{
    struct card c;
    int k;

    card_power_up(&c);
    card_set_protocol(&c, protocol);
    card_set_format(&c, BITS, 64);
    card_enable(&c);
    for (k = 0; k < 4; k++)
        card_write(&c, k % 2 == channel ? 1u << bit : 0);
    for (k = 0; k < CLOCKS; k++) {
        card_edge(&c, 0);
        sck[k] = c.sck ? '/' : '\\';
        lrck[k] = c.lrck ? '"' : '_';
        if (c.sdo)
            sdo[channel][k] = "0123456789ABCDEF"[bit];
        card_edge(&c, 0);
    }
}

int main(int argc, char **argv)
{
    unsigned protocol = argc > 1 ? (unsigned)atoi(argv[1]) : 0;
    int channel, bit, k;

    for (channel = 0; channel < 2; channel++) {
        for (k = 0; k < CLOCKS; k++)
            sdo[channel][k] = '.';
        for (bit = 0; bit < BITS; bit++)
            draw(protocol, channel, bit);
    }
    printf("    SCK    %s\n    LRCK   %s\n    left   %s\n    right  %s\n", sck,
           lrck, sdo[0], sdo[1]);
    return 0;
}
