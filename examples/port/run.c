/* A shift register on a host's wire, clocked by thurafeqa_run: what the host
 * sends comes back a word later. What is refused is told in words. */
#include "thurafeqa.h"

#include <stdio.h>

/* It takes a bit in as SCK rises and shows the oldest of eight as SCK falls:
 * SPI mode 0. The bit that it takes stood there before the edge. */
struct shifter {
    uint32_t sck, si, bits, so;
};

static uint32_t shifter_sees(void *context, uint32_t levels)
{
    struct shifter *s = context;
    uint32_t sck = (levels & THURAFEQA_LEVELS_SCK) != 0;

    if (sck && !s->sck)
        s->bits = (s->bits << 1 | s->si) & 0xFF;
    else if (!sck && s->sck)
        s->so = s->bits >> 7;
    s->sck = sck;
    s->si = (levels & THURAFEQA_LEVELS_SDO) != 0;
    return s->so;
}

/* What a call told; a refusal is printed. */
static uint16_t told(const char *what, uint32_t answer)
{
    uint16_t number = thurafeqa_refusal(answer);

    if (number != 0)
        printf("%s: refusal %d: %s\n", what, number,
               thurafeqa_refusal_text(number));
    return thurafeqa_value(answer);
}

/* One word there and back, in runs of at most so many edges. */
static void exchange(thurafeqa *m, struct shifter *s, uint8_t word,
                     uint32_t most)
{
    uint16_t edges;

    told("BUF write", thurafeqa_write(m, THURAFEQA_BUF, word));
    do {
        edges = told("run", thurafeqa_run(m, shifter_sees, s, most));
        printf("%d edges\n", edges);
    } while (edges == most);
    printf("sent %02X, received %02X\n", word,
           told("BUF read", thurafeqa_read(m, THURAFEQA_BUF)));
}

int main(void)
{
    struct shifter s = {0, 0, 0, 0};
    thurafeqa m;

    thurafeqa_power_up(&m);
    told("run", thurafeqa_run(&m, shifter_sees, &s, 544));
    told("CON1 write",
         thurafeqa_write(&m, THURAFEQA_CON1,
                         THURAFEQA_CON1_MSTEN | THURAFEQA_CON1_CKE));
    told("STAT write", thurafeqa_write(&m, THURAFEQA_STAT,
                                       THURAFEQA_STAT_SPIEN));
    exchange(&m, &s, 0xA5, 544);
    exchange(&m, &s, 0x3C, 10);
    exchange(&m, &s, 0x00, 544);
    told("BUF read", thurafeqa_read(&m, THURAFEQA_BUF));
    return 0;
}
