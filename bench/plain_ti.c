#include "plain_ti.h"

#include <string.h>

static void rest(struct plain_ti *m)
{
    m->waits = m->busy = m->unread = m->overrun = 0;
    m->sck = m->polarity;
    m->select = 1;
    m->sdo = 0;
}

void plain_ti_power_up(struct plain_ti *m)
{
    memset(m, 0, sizeof *m);
    m->reset = 1;
    m->length = 1;
    m->select = 1;
}

void plain_ti_enter_reset(struct plain_ti *m)
{
    if (!m->reset) {
        m->reset = 1;
        rest(m);
    }
}

void plain_ti_leave_reset(struct plain_ti *m)
{
    if (m->reset) {
        m->reset = 0;
        rest(m);
    }
}

uint32_t plain_ti_set_mode(struct plain_ti *m, uint32_t master, uint32_t talk,
                           uint32_t polarity, uint32_t phase)
{
    if (!m->reset && ((master != 0) != m->master ||
                      (polarity != 0) != m->polarity ||
                      (phase != 0) != m->phase))
        return 3u << 16;
    m->master = master != 0;
    m->talk = talk != 0;
    m->polarity = polarity != 0;
    m->phase = phase != 0;
    if (m->reset)
        rest(m);
    return 0;
}

uint32_t plain_ti_set_length(struct plain_ti *m, uint32_t length)
{
    if (!m->reset)
        return 3u << 16;
    if (length - 1 > 15)
        return 24u << 16;
    m->length = (uint8_t)length;
    return 0;
}

static void load(struct plain_ti *m, uint16_t bits)
{
    m->busy = 1;
    m->zeros = 0;
    m->bits = bits;
    m->edges = 0;
    m->received = 0;
    if (m->phase)
        m->sdo = bits >> (m->length - 1) & 1;
}

uint32_t plain_ti_write(struct plain_ti *m, uint32_t value)
{
    uint16_t bits = (uint16_t)((value & 0xFFFF) >> (16 - m->length));

    if (m->reset)
        return 2u << 16;
    if (m->waits)
        return 5u << 16;
    if (m->busy) {
        m->waits = 1;
        m->waiting = bits;
    } else {
        load(m, bits);
    }
    return 0;
}

uint32_t plain_ti_read(struct plain_ti *m)
{
    if (m->reset)
        return 2u << 16;
    if (!m->unread)
        return 6u << 16;
    m->unread = 0;
    return m->arrived;
}

static void edge(struct plain_ti *m, uint32_t sdi)
{
    unsigned edge = m->edges + 1u;

    if ((edge & 1) == m->phase)
        m->received = (uint16_t)(m->received << 1 | sdi);
    else if (edge < 2u * m->length)
        m->sdo = m->bits >> (m->length - 1 - edge / 2) & 1;
    if (edge < 2u * m->length) {
        m->edges = (uint8_t)edge;
        return;
    }
    m->overrun |= m->unread;
    m->unread = 1;
    m->arrived = m->received;
    if (m->waits) {
        m->waits = 0;
        load(m, m->waiting);
    } else {
        m->busy = 0;
        if (m->phase)
            m->sdo = 0;
    }
}

uint32_t plain_ti_tick(struct plain_ti *m, uint32_t sdi)
{
    if (m->reset)
        return 2u << 16;
    if (!m->master)
        return 7u << 16;
    if (!m->busy)
        return 0;
    m->sck ^= 1;
    edge(m, sdi != 0);
    return 1;
}

uint32_t plain_ti_pins(struct plain_ti *m, uint32_t sck, uint32_t sdi,
                       uint32_t select)
{
    unsigned level = sck != 0, moved = level != m->sck;

    if (m->reset)
        return 2u << 16;
    if (m->master)
        return 7u << 16;
    m->sck = (uint8_t)level;
    m->select = select != 0;
    if (!moved || select)
        return 0;
    if (!m->busy) {
        if (level == m->polarity)
            return 0;
        m->busy = m->zeros = 1;
        m->bits = 0;
        m->edges = 0;
        m->received = 0;
    } else if ((level == m->polarity) != (m->edges & 1)) {
        return 0;
    }
    edge(m, sdi != 0);
    return 0;
}

uint32_t plain_ti_status(const struct plain_ti *m)
{
    return (uint32_t)m->overrun << 7 | (uint32_t)m->unread << 6 |
           (uint32_t)m->waits << 5;
}

uint32_t plain_ti_levels(const struct plain_ti *m)
{
    uint32_t out = m->sdo ? 12 : 8;

    if (m->reset || !m->talk || (!m->master && m->select))
        out = 0;
    return (uint32_t)m->sck << 1 | out;
}
