/* The TI module. A comment gives the section of document 002, or the sentence
 * of request Ten, that the code below it follows, in other words. */
#include "ti.h"

#include <string.h>

static void put_down(struct ti_place *p)
{
    memset(p, 0, sizeof *p);
}

/* ---- software reset ---------------------------------------------------- */

/* 2.1.1: the flags are cleared, and the clock of a master goes back to the
 * level that it has at rest. Request Ten: both buffers and the shift register
 * are emptied. */
static void to_rest(struct ti *m)
{
    put_down(&m->tx);
    put_down(&m->shift);
    put_down(&m->rx);
    m->zeros = 0;
    m->edges = 0;
    m->in_count = 0;
    memset(m->in_bit, 0, sizeof m->in_bit);
    m->overrun = 0;
    m->interrupt = 0;
    m->sck = m->polarity;
    m->ste = 1;
    m->sdo = 0;
}

/* 1.4.4: in reset, a slave, talk off, data latched on the falling edge, one
 * bit a character. */
void ti_power_up(struct ti *m)
{
    memset(m, 0, sizeof *m);
    m->reset = 1;
    m->length = 1;
    to_rest(m);
}

void ti_enter_reset(struct ti *m)
{
    if (m->reset)
        return;
    m->reset = 1;
    to_rest(m);
}

void ti_leave_reset(struct ti *m)
{
    if (!m->reset)
        return;
    m->reset = 0;
    to_rest(m);
}

/* ---- settings ---------------------------------------------------------- */

/* Only in reset, which is asked first, also of a length that is no length. */
int ti_set_length(struct ti *m, uint32_t length)
{
    if (!m->reset)
        return 3;
    if (length == 0 || length > 16)
        return 24;
    m->length = (int)length;
    return 0;
}

/* Out of reset TALK alone may change. */
int ti_set_mode(struct ti *m, int master, int talk, int polarity, int phase)
{
    if (!m->reset && (m->master != master || m->polarity != polarity ||
                      m->phase != phase))
        return 3;
    m->master = master;
    m->talk = talk;
    m->polarity = polarity;
    m->phase = phase;
    if (m->reset)
        m->sck = polarity;
    return 0;
}

/* ---- a character out --------------------------------------------------- */

/* SPICTL.3: with CLOCK PHASE the first bit is there before the first edge. */
static void show_first(struct ti *m)
{
    if (m->phase && m->edges == 0)
        m->sdo = m->shift.held ? m->shift.bit[0] : 0;
}

/* 1.3.2.2: what is written while nothing is being transmitted goes to SPIDAT
 * at once, and else waits. 1.4.2: it is left-justified. */
int ti_write(struct ti *m, unsigned value)
{
    struct ti_place *p;
    int i;

    if (m->reset)
        return 2;
    if (m->tx.held)
        return 5;
    p = m->shift.held ? &m->tx : &m->shift;
    put_down(p);
    p->held = 1;
    for (i = 0; i < m->length; i++)
        p->bit[i] = (value >> (15 - i)) & 1u;
    if (p == &m->shift)
        show_first(m);
    return 0;
}

/* ---- a character in ---------------------------------------------------- */

/* 1.4.2: it is right-justified; request Ten: what is above it is 0. 1.4.1.2:
 * reading takes the flag down. */
int ti_read(struct ti *m, unsigned *value)
{
    unsigned v = 0;
    int i;

    if (m->reset)
        return 2;
    if (!m->rx.held)
        return 6;
    for (i = 0; i < m->length; i++)
        v = v << 1 | (unsigned)m->rx.bit[i];
    put_down(&m->rx);
    m->interrupt = 0;
    *value = v;
    return 0;
}

/* 1.3.2.1, the events once the last bit is through: SPIDAT goes to SPIRXBUF,
 * over a character that was not read (1.4.1.4), the flag is set, and what waits
 * comes next. */
static void finish(struct ti *m)
{
    if (m->rx.held)
        m->overrun = 1;
    put_down(&m->rx);
    m->rx.held = 1;
    memcpy(m->rx.bit, m->in_bit, sizeof m->rx.bit);
    m->interrupt = 1;

    m->shift = m->tx;
    put_down(&m->tx);
    m->zeros = 0;
    m->edges = 0;
    m->in_count = 0;
    memset(m->in_bit, 0, sizeof m->in_bit);
    show_first(m);
}

/* ---- one edge ---------------------------------------------------------- */

/* 2.1.1, CLOCK POLARITY, with figures 2-13 to 2-16. Phase 0: a bit goes out on
 * each edge away from rest, and one comes in on each edge back. Phase 1: one
 * comes in on each edge away from rest, and the next goes out on each edge
 * back. The first edge of a character leads away from rest. */
static void edge(struct ti *m, int sdi)
{
    int away = m->edges % 2 == 0;
    int pair = m->edges / 2; /* the clock of the character, from 0 */

    m->edges++;
    if (away == m->phase)
        m->in_bit[m->in_count++] = (char)sdi;
    else if (away)
        m->sdo = m->shift.bit[pair];
    else if (pair + 1 < m->length)
        m->sdo = m->shift.bit[pair + 1];
    if (m->edges == 2 * m->length)
        finish(m);
}

/* A master makes its own edges, as long as it has something to send. */
int ti_tick(struct ti *m, int sdi)
{
    if (m->reset)
        return 2;
    if (!m->master)
        return 7;
    if (!m->shift.held)
        return TI_NO_EDGE;
    m->sck = !m->sck;
    edge(m, sdi);
    return 0;
}

/* 1.3.2.2: a slave whose SPISTE is high stands still. What it has under way
 * goes on where it was: an edge that leads the wrong way for that is only
 * remembered. With nothing written zeros go out. */
int ti_pins(struct ti *m, int sck, int sdi, int ste)
{
    int changed = sck != m->sck;
    int away = sck != m->polarity;

    if (m->reset)
        return 2;
    if (m->master)
        return 7;
    m->sck = sck;
    m->ste = ste;
    if (!changed || ste || away != (m->edges % 2 == 0))
        return 0;
    if (!m->shift.held) {
        put_down(&m->shift);
        m->shift.held = 1;
        m->zeros = 1;
    }
    edge(m, sdi);
    return 0;
}

/* ---- flags and pins ---------------------------------------------------- */

void ti_clear_overrun(struct ti *m)
{
    m->overrun = 0;
}

/* 2.1.3. */
unsigned ti_status(const struct ti *m)
{
    return (m->overrun ? 1u << 7 : 0) | (m->interrupt ? 1u << 6 : 0) |
           (m->tx.held ? 1u << 5 : 0);
}

/* TALK off, and for a slave SPISTE high, leave the pin to others; so does
 * reset. */
int ti_sdo(const struct ti *m)
{
    if (m->reset || !m->talk || (!m->master && m->ste))
        return TI_UNDRIVEN;
    return m->sdo;
}

/* Equation 1-1. SPIBRR has seven bits (2.1.4). */
double ti_rate(uint32_t spibrr, uint32_t lspclk)
{
    uint32_t brr = spibrr % 128;

    return (double)lspclk / (brr < 3 ? 4.0 : (double)(brr + 1));
}
