/* Makes a short WAV file, plays it through an audio card's pins to a codec that
 * was written from document 000 alone (listener.c), which sends every sample
 * back, and compares: what the codec heard is what was sent, and what the card
 * received is what the codec heard, one frame later. Every protocol, length and
 * frame is played.
 *
 * usage: audio WAV [PINS]
 *
 * PINS is a VCD file (IEEE 1364) for the levels of I2S with 16 bits in 32
 * clocks: SCK, LRCK, SDO and SDI, and each edge is one step of time, for a
 * viewer of waves or for sigrok. Exit 0: all samples agree. */
#include "listener.h"
#include "thurafeqa_card.h"

#include <stdio.h>
#include <stdlib.h>
#include <string.h>

#define FRAMES 480 /* a hundredth of a second at 48 kHz */

/* ---- the sound --------------------------------------------------------- */

static void put(FILE *f, uint32_t v, int bytes)
{
    for (; bytes > 0; bytes--, v >>= 8)
        fputc((int)(v & 0xFFu), f);
}

/* Two saw-tooth waves, one a channel. */
static int16_t sound(int frame, int channel)
{
    return (int16_t)(frame * (channel ? 911 : 457) % 24000 - 12000);
}

static int make_wav(const char *name)
{
    FILE *f = fopen(name, "wb");
    int i;

    if (!f)
        return 0;
    fputs("RIFF", f);
    put(f, 36 + FRAMES * 4, 4);
    fputs("WAVEfmt ", f);
    put(f, 16, 4);
    put(f, 1, 2);
    put(f, 2, 2);
    put(f, 48000, 4);
    put(f, 48000 * 4, 4);
    put(f, 4, 2);
    put(f, 16, 2);
    fputs("data", f);
    put(f, FRAMES * 4, 4);
    for (i = 0; i < FRAMES * 2; i++)
        put(f, (uint16_t)sound(i / 2, i % 2), 2);
    return fclose(f) == 0;
}

/* The samples of the file, left and right in turn. */
static int read_wav(const char *name, uint32_t *sample)
{
    FILE *f = fopen(name, "rb");
    int i;

    if (!f || fseek(f, 44, SEEK_SET) != 0)
        return 0;
    for (i = 0; i < FRAMES * 2; i++) {
        int low = fgetc(f), high = fgetc(f);
        if (high == EOF)
            return 0;
        sample[i] = (uint32_t)(low | high << 8);
    }
    return fclose(f) == 0;
}

/* ---- the pins as a waveform --------------------------------------------- */

static void begin_pins(FILE *pins)
{
    fprintf(pins, "$version Thurafeqa $end\n$timescale 1 us $end\n"
                  "$scope module card $end\n$var wire 1 c sck $end\n"
                  "$var wire 1 l lrck $end\n$var wire 1 o sdo $end\n"
                  "$var wire 1 i sdi $end\n$upscope $end\n"
                  "$enddefinitions $end\n");
}

/* The levels at a time: those that are others than before, at time 0 all. The
 * low bits of `levels` are SCK, LRCK, SDO and SDI. */
static void put_pins(FILE *pins, unsigned long time, unsigned levels)
{
    static const char letter[] = "cloi";
    static unsigned before;
    int i;

    fprintf(pins, time == 0 ? "#0\n$dumpvars\n" : "#%lu\n", time);
    for (i = 0; i < 4; i++)
        if (time == 0 || ((levels ^ before) >> i & 1u))
            fprintf(pins, "%u%c\n", levels >> i & 1u, letter[i]);
    if (time == 0)
        fprintf(pins, "$end\n");
    before = levels;
}

/* ---- played ------------------------------------------------------------ */

static uint32_t heard[FRAMES * 2 + 8];
static int hears;

static void one_heard(void *to, int channel, uint32_t sample)
{
    (void)to;
    if (hears % 2 != channel)
        hears = FRAMES * 2 + 8; /* the channels do not take turns */
    if (hears < FRAMES * 2 + 8)
        heard[hears++] = sample;
}

static int play(const uint32_t *wav, uint32_t protocol, uint32_t bits,
                uint32_t frame, FILE *pins)
{
    static uint32_t back[FRAMES * 2 + 8];
    thurafeqa_card c;
    struct listener l;
    uint32_t look, clock;
    unsigned long time = 0;
    int written = 0, reads = 0, i;

    thurafeqa_card_power_up(&c);
    thurafeqa_card_set_protocol(&c, protocol);
    thurafeqa_card_set_length(&c, bits, frame);
    thurafeqa_card_enable(&c);
    look = thurafeqa_card_look(&c);
    listener_start(&l, (int)protocol, (int)bits, (int)frame, look & 1u,
                   look >> 1 & 1u);
    l.whole = one_heard;
    hears = 0;
    if (pins) {
        begin_pins(pins);
        put_pins(pins, time++, (look & 7u) + 8u * (unsigned)l.sdi);
    }
    for (clock = 0; clock < FRAMES * frame + 2; clock++) {
        int edge;

        while (written < FRAMES * 2 &&
               thurafeqa_card_refusal(thurafeqa_card_write(
                   &c, wav[written] << (bits - 16))) == 0)
            written++;
        for (edge = 0; edge < 2; edge++) {
            thurafeqa_card_edge(&c, (uint32_t)l.sdi);
            look = thurafeqa_card_look(&c);
            if (pins)
                put_pins(pins, time++, (look & 7u) + 8u * (unsigned)l.sdi);
            listener_see(&l, look & 1u, look >> 1 & 1u, look >> 2 & 1u);
        }
        for (;;) {
            uint64_t answer = thurafeqa_card_read(&c);
            if (thurafeqa_card_refusal(answer) || reads == FRAMES * 2 + 8)
                break;
            back[reads++] = thurafeqa_card_sample(answer);
        }
    }
    if (pins)
        fprintf(pins, "#%lu\n", time);
    if (hears < FRAMES * 2 || reads < FRAMES * 2)
        return 0;
    for (i = 0; i < FRAMES * 2; i++)
        if (heard[i] != wav[i] << (bits - 16) ||
            back[i] != (i < 2 ? 0 : heard[i - 2]))
            return 0;
    return 1;
}

int main(int argc, char **argv)
{
    static const char *const protocol[] = {"I2S", "left justified",
                                           "right justified", "PCM/DSP"};
    static const uint32_t bits[] = {16, 16, 24, 32}, frame[] = {32, 64, 64, 64};
    static uint32_t wav[FRAMES * 2];
    FILE *pins = NULL;
    int p, k, bad = 0;

    if (argc < 2 || argc > 3) {
        fprintf(stderr, "usage: audio WAV [PINS]\n");
        return 2;
    }
    if (!make_wav(argv[1]) || !read_wav(argv[1], wav)) {
        fprintf(stderr, "audio: %s cannot be written and read\n", argv[1]);
        return 1;
    }
    if (argc > 2 && !(pins = fopen(argv[2], "wb")))
        return 1;
    for (p = 0; p < 4; p++)
        for (k = 0; k < 4; k++) {
            int same = play(wav, (uint32_t)p, bits[k], frame[k],
                            p == 0 && k == 0 ? pins : NULL);
            printf("%s, %u bits in %u clocks: %s\n", protocol[p],
                   (unsigned)bits[k], (unsigned)frame[k],
                   same ? "960 samples there and back" : "DIFFERENT");
            bad |= !same;
        }
    if (pins && fclose(pins) != 0)
        return 1;
    return bad;
}
