#include "listener.h"

void listener_start(struct listener *l, int protocol, int bits, int frame,
                    int sck, int lrck)
{
    l->protocol = protocol;
    l->bits = bits;
    l->frame = frame;
    l->sck = sck;
    l->lrck = lrck;
    l->clock = -1;
    l->channel = 1;
    l->hearing = l->sending = l->heard[0] = l->heard[1] = 0;
    l->sdi = 0;
}

/* I2S moves data on the falling edge, the others on the rising one. */
static int moves(const struct listener *l, int sck)
{
    return l->protocol == LISTEN_I2S ? !sck : sck;
}

/* Which bit the clock has, 0 being the highest; -1 if it has none. In I2S the
 * top bit is sampled at the second edge after LRCK's, so the lowest bit of a
 * sample that fills its half comes after LRCK's next edge; left justified, it
 * comes with LRCK's edge; right justified, the lowest bit is in the half's last
 * clock; in PCM/DSP the left top bit comes one clock behind the pulse, and the
 * right one directly behind the left sample. */
static int bit_now(const struct listener *l)
{
    int i = l->clock;

    if (i < 0)
        return -1;
    switch (l->protocol) {
    case LISTEN_I2S: i -= 1; break;
    case LISTEN_RIGHT: i -= l->frame / 2 - l->bits; break;
    case LISTEN_PCM:
        i -= 1;
        if (i >= l->bits)
            i -= l->bits;
        break;
    default: break;
    }
    return i >= 0 && i < l->bits ? i : -1;
}

/* A clock begins. In I2S and PCM/DSP the clock of LRCK's edge may still have
 * the lowest bit of the sample before, so it counts as the last one there. */
static void next_clock(struct listener *l, int lrck)
{
    int pcm = l->protocol == LISTEN_PCM;
    int late = pcm || l->protocol == LISTEN_I2S;
    int last = pcm ? l->frame : l->frame / 2;

    if (pcm ? lrck && !l->lrck : lrck != l->lrck)
        l->clock = late && l->clock >= 0 ? last : 0;
    else if (l->clock >= 0)
        l->clock = late && l->clock == last ? 1 : l->clock + 1;
}

void listener_see(struct listener *l, int sck, int lrck, int sdo)
{
    int bit;

    if (sck == l->sck)
        return;
    if (moves(l, sck)) {
        next_clock(l, lrck);
        bit = bit_now(l);
        if (bit == 0) {
            if (l->protocol == LISTEN_PCM)
                l->channel = l->clock > l->bits;
            else
                l->channel = lrck == (l->protocol == LISTEN_I2S);
            l->hearing = 0;
            l->sending = l->heard[l->channel];
        }
        l->sdi = bit >= 0 && (l->sending >> (l->bits - 1 - bit) & 1u);
    } else {
        bit = bit_now(l);
        if (bit >= 0) {
            l->hearing = l->hearing << 1 | (uint32_t)sdo;
            if (bit == l->bits - 1) {
                l->heard[l->channel] = l->hearing;
                l->whole(l->to, l->channel, l->hearing);
            }
        }
    }
    l->sck = sck;
    l->lrck = lrck;
}
