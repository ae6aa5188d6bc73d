#include "card.h"

#include <string.h>

/* What a clock has, counted from 0 since enabling: the channel, an even one
 * being a left one; whether its sample is taken here; and the bit, 0 being the
 * highest, or -1 if the clock has none. */
struct place {
    uint64_t channel;
    int first;
    int bit;
};

static const struct place open_clock = {0, 0, -1};

static int a_bit(int i, int data)
{
    return i >= 0 && i < data ? i : -1;
}

/* 4.5.1: the top bit follows LRCK's edge by one clock. */
static struct place i2s_place(uint64_t clock, int data, int half)
{
    struct place p;
    int i;

    if (clock == 0)
        return open_clock;
    i = (int)((clock - 1) % (unsigned)half);
    p.channel = (clock - 1) / (unsigned)half;
    p.first = i == 0;
    p.bit = a_bit(i, data);
    return p;
}

/* 4.5.2: the top bit comes with LRCK's edge. 4.5.3: the lowest bit lies in the
 * last clock before LRCK's next edge; the sample is taken at the edge itself. */
static struct place justified_place(uint64_t clock, int data, int half,
                                    int right)
{
    struct place p;
    int i = (int)(clock % (unsigned)half);

    p.channel = clock / (unsigned)half;
    p.first = i == 0;
    p.bit = a_bit(right ? i - (half - data) : i, data);
    return p;
}

/* 4.5.4: the left top bit follows the pulse by one clock, the right sample
 * stands directly behind the left one. */
static struct place pcm_place(uint64_t clock, int data, int frame)
{
    struct place p;
    int i;

    if (clock == 0)
        return open_clock;
    i = (int)((clock - 1) % (unsigned)frame);
    p.channel = (clock - 1) / (unsigned)frame * 2;
    if (i >= data) {
        i -= data;
        p.channel++;
    }
    p.first = i == 0;
    p.bit = a_bit(i, data);
    return p;
}

static struct place place_of(const struct card *c, uint64_t clock)
{
    int half = c->frame / 2;

    switch (c->protocol) {
    case CARD_I2S: return i2s_place(clock, c->data, half);
    case CARD_LEFT: return justified_place(clock, c->data, half, 0);
    case CARD_RIGHT: return justified_place(clock, c->data, half, 1);
    default: return pcm_place(clock, c->data, c->frame);
    }
}

/* The clock idles high for I2S alone, whose LRCK is low for the left channel;
 * for the others LRCK is active high. */
static int idles_high(const struct card *c)
{
    return c->protocol == CARD_I2S;
}

static int lrck_in(const struct card *c, uint64_t clock)
{
    int i = (int)(clock % (unsigned)c->frame);
    int active = c->protocol == CARD_PCM ? i == 0 : i < c->frame / 2;

    return c->protocol == CARD_I2S ? !active : active;
}

static void empty(struct card *c)
{
    memset(c->sending, 0, sizeof c->sending);
    memset(c->received, 0, sizeof c->received);
    c->waiting = 0;
    c->unread = 0;
    c->edges = 0;
    c->going = 0;
    c->coming = 0;
}

void card_power_up(struct card *c)
{
    memset(c, 0, sizeof *c);
    c->protocol = CARD_I2S;
    c->data = 16;
    c->frame = 32;
}

int card_set_protocol(struct card *c, unsigned protocol)
{
    if (c->enabled)
        return 3;
    c->protocol = (int)(protocol & 3u);
    return 0;
}

int card_set_format(struct card *c, unsigned data, unsigned frame)
{
    if (c->enabled)
        return 3;
    if (!(data == 16 && frame == 32) &&
        !(frame == 64 && (data == 16 || data == 24 || data == 32)))
        return 23;
    c->data = (int)data;
    c->frame = (int)frame;
    return 0;
}

int card_enable(struct card *c)
{
    if (c->enabled)
        return 0;
    empty(c);
    c->enabled = 1;
    c->sck = idles_high(c);
    c->lrck = c->protocol == CARD_I2S;
    c->sdo = 0;
    return 0;
}

int card_disable(struct card *c)
{
    if (!c->enabled)
        return 0;
    empty(c);
    c->enabled = 0;
    return 0;
}

int card_write(struct card *c, uint32_t sample)
{
    if (!c->enabled)
        return 2;
    if (c->waiting == CARD_SAMPLES)
        return 5;
    c->sending[c->waiting++] =
        c->data == 32 ? sample : sample & (((uint32_t)1 << c->data) - 1);
    return 0;
}

int card_read(struct card *c, uint32_t *sample)
{
    int i;

    if (!c->enabled)
        return 2;
    if (c->unread == 0)
        return 6;
    *sample = c->received[0];
    c->unread--;
    for (i = 0; i < c->unread; i++)
        c->received[i] = c->received[i + 1];
    return 0;
}

static void take_sample(struct card *c)
{
    int i;

    c->coming = 0;
    c->going = 0;
    if (c->waiting == 0) {
        c->underrun = 1;
        return;
    }
    c->going = c->sending[0];
    c->waiting--;
    for (i = 0; i < c->waiting; i++)
        c->sending[i] = c->sending[i + 1];
}

int card_edge(struct card *c, int sdi)
{
    uint64_t clock = c->edges / 2;
    struct place p;

    if (!c->enabled)
        return 2;
    p = place_of(c, clock);
    if (c->edges % 2 == 0) {
        if (p.first)
            take_sample(c);
        c->lrck = lrck_in(c, clock);
        c->sdo = p.bit >= 0 && c->going >> (c->data - 1 - p.bit) & 1u;
    } else if (p.bit >= 0) {
        c->coming = c->coming << 1 | (sdi != 0);
        if (p.bit == c->data - 1) {
            if (c->unread == CARD_SAMPLES)
                c->overflow = 1;
            else
                c->received[c->unread++] = c->coming;
        }
    }
    c->sck = !c->sck;
    c->edges++;
    return 0;
}

void card_clear_underrun(struct card *c)
{
    c->underrun = 0;
}

void card_clear_overflow(struct card *c)
{
    c->overflow = 0;
}

int card_sdo(const struct card *c)
{
    return c->enabled ? c->sdo : 2;
}

/* The next clock whose first edge has not been made is looked for from here. */
int card_next_channel(const struct card *c)
{
    uint64_t clock = (c->edges + 1) / 2;

    while (!place_of(c, clock).first)
        clock++;
    return (int)(place_of(c, clock).channel & 1u);
}
