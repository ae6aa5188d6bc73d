/* An edge of the audio card, the proved library's and plain C's, in turn and
 * many short rounds; both must show the same pins and read the same samples.
 * It prints a line for each protocol and length as bench.c does, and then what
 * a second of 48 kHz stereo takes: the library's edges, and the sample calls.
 *
 * usage: card [rounds]
 */
#define _POSIX_C_SOURCE 199309L
#include "plain_card.h"
#include "thurafeqa_card.h"

#include <stdio.h>
#include <stdlib.h>
#include <time.h>

struct outcome {
    uint32_t units, sum;
};

static double seconds(void)
{
    struct timespec t;

    clock_gettime(CLOCK_PROCESS_CPUTIME_ID, &t);
    return (double)t.tv_sec + (double)t.tv_nsec / 1e9;
}

/* So many frames: both samples are written before each, and both that came in
 * are read after it. SDI is the level of a number that turns. */
#define PLAY(name, card, start, write, read, edge, pins)                       \
    static struct outcome name(uint32_t protocol, uint32_t bits,              \
                               uint32_t frame, uint32_t times)                \
    {                                                                          \
        struct outcome o = {0, 0};                                             \
        uint32_t level = 0x9E3779B9u, i, k;                                    \
        card c;                                                                \
                                                                               \
        start;                                                                 \
        for (i = 0; i < times; i++) {                                          \
            write(&c, level * (2 * i + 1));                                    \
            write(&c, level ^ i << 8);                                         \
            for (k = 0; k < 2 * frame; k++) {                                  \
                level = level << 1 | level >> 31;                              \
                edge(&c, level & 1u);                                          \
            }                                                                  \
            o.units += 2 * frame;                                              \
            o.sum = o.sum * 31 + (uint32_t)pins(&c);                           \
            o.sum = o.sum * 31 + (uint32_t)read(&c);                           \
            o.sum = o.sum * 31 + (uint32_t)read(&c);                           \
        }                                                                      \
        return o;                                                              \
    }

static uint32_t library_pins(const thurafeqa_card *c)
{
    return thurafeqa_card_look(c) & 0x37u;
}

PLAY(library_play, thurafeqa_card,
     (thurafeqa_card_power_up(&c), thurafeqa_card_set_protocol(&c, protocol),
      thurafeqa_card_set_length(&c, bits, frame), thurafeqa_card_enable(&c)),
     thurafeqa_card_write, thurafeqa_card_read, thurafeqa_card_edge,
     library_pins)

PLAY(plain_play, struct plain_card,
     (plain_card_power_up(&c), plain_card_set_protocol(&c, protocol),
      plain_card_set_length(&c, bits, frame), plain_card_enable(&c)),
     plain_card_write, plain_card_read, plain_card_edge, plain_card_pins)

int main(int argc, char **argv)
{
    static const char *const protocol[] = {"I2S", "left justified",
                                           "right justified", "PCM/DSP"};
    static const uint32_t bits[] = {16, 24}, frame[] = {32, 64};
    int rounds = argc > 1 ? atoi(argv[1]) : 50, r, s, p, f;
    double second = 0;

    if (rounds < 1)
        rounds = 1;
    for (p = 0; p < 4; p++)
        for (f = 0; f < 2; f++) {
            struct outcome o[2] = {{0, 0}, {0, 0}};
            double best[2] = {0, 0};

            for (r = 0; r < rounds; r++)
                for (s = 0; s < 2; s++) {
                    double took = seconds();
                    o[s] = (s ? plain_play : library_play)(
                        (uint32_t)p, bits[f], frame[f], 1000);
                    took = seconds() - took;
                    if (r == 0 || took < best[s])
                        best[s] = took;
                }
            if (o[0].units != o[1].units || o[0].sum != o[1].sum) {
                fprintf(stderr, "card, %s: FAILED: the sides differ\n",
                        protocol[p]);
                return 1;
            }
            printf("card, %s, %u in %u\tedge\t%.4f\t%.4f\tlibrary\tplain C\n",
                   protocol[p], (unsigned)bits[f], (unsigned)frame[f],
                   best[0] * 1e9 / o[0].units, best[1] * 1e9 / o[1].units);
            if (p == 0 && f == 1)
                second = best[0] * 48;
        }
    printf("a second of 48 kHz stereo, I2S, 24 in 64, takes %.4f s: %.0f "
           "times real time\n",
           second, 1 / second);
    return 0;
}
