/* A TI master sends characters, and its wire is written down as a logic
 * analyser would see it: one byte a sample, bit 0 the clock, bit 1 the master's
 * output, bit 2 what it receives, bit 3 select. What was written and what was
 * read go to standard output, one word a line: "out XX", "in XX".
 *
 *   ti_wave FILE LENGTH POLARITY PHASE */
#include <stdio.h>
#include <stdlib.h>

#include "thurafeqa.h"

static FILE *wave;
static thurafeqa_ti m;

static void sample(unsigned miso, unsigned select)
{
    uint32_t levels = thurafeqa_ti_levels(&m);
    int i;

    for (i = 0; i < 4; i++)
        putc((levels & THURAFEQA_TI_SCK ? 1 : 0) |
                 (levels & THURAFEQA_TI_SDO ? 2 : 0) | (miso ? 4 : 0) |
                 (select ? 8 : 0),
             wave);
}

int main(int argc, char **argv)
{
    unsigned length, polarity, phase, seed = 12345, n;

    if (argc != 5 || !(wave = fopen(argv[1], "wb")))
        return 2;
    length = (unsigned)atoi(argv[2]);
    polarity = (unsigned)atoi(argv[3]);
    phase = (unsigned)atoi(argv[4]);
    thurafeqa_ti_power_up(&m);
    thurafeqa_ti_set_length(&m, length);
    thurafeqa_ti_set_mode(&m, 1, 1, polarity, phase);
    thurafeqa_ti_leave_reset(&m);
    sample(0, 1);
    for (n = 0; n < 40; n++) {
        unsigned out, in = 0, miso = 0, edge;

        seed = seed * 1103515245u + 12345u;
        out = seed >> 16 & 0xFFFFu;
        printf("out %X\n", out >> (16 - length));
        if (thurafeqa_ti_write(&m, out))
            return 1;
        sample(miso, 0);
        for (edge = 1; edge <= 2 * length; edge++) {
            /* the other end moves its level between two samples */
            if ((edge % 2 == 1) == (phase == 1)) {
                seed = seed * 1103515245u + 12345u;
                miso = seed >> 20 & 1;
                in = in << 1 | miso;
                sample(miso, 0);
            }
            if (thurafeqa_ti_tick(&m, miso) != 1)
                return 1;
            sample(miso, 0);
        }
        printf("in %X\n", in);
        if (thurafeqa_ti_read(&m) != in)
            return 1;
    }
    sample(0, 1);
    return fclose(wave) != 0;
}
