/* The module itself. Settings cannot change while a module is enabled, so what
 * they decide is worked out once, when it is enabled, and an edge within a word
 * looks at a few bytes only. */
#include "plain_spi.h"

#include <string.h>

#define BIT(n) (1u << (n))

/* STAT */
#define SPIEN BIT(15)
#define SPISIDL BIT(13)
#define SRMPT BIT(7)
#define SPIROV BIT(6)
#define SRXMPT BIT(5)
#define SISEL (7u << 2)
#define SPITBF BIT(1)
#define SPIRBF BIT(0)
/* CON1 */
#define DISSCK BIT(12)
#define DISSDO BIT(11)
#define MODE16 BIT(10)
#define SMP BIT(9)
#define CKE BIT(8)
#define SSEN BIT(7)
#define CKP BIT(6)
#define MSTEN BIT(5)
#define PRESCALERS 0x1Fu
#define CON1_BITS 0x1FFFu
/* CON2 */
#define FRMEN BIT(15)
#define SPIFSD BIT(14)
#define FRMPOL BIT(13)
#define FRMDLY BIT(1)
#define SPIBEN BIT(0)
#define CON2_BITS 0xE003u

/* What clocks a module. The framed ones are apart, so that the others need not
 * ask. */
enum { OFF, OWN, PIN, OWN_FRAMED, PIN_FRAMED };
/* Where a framed module's pulses come. */
enum { BEFORE, WITH, OUTSIDE };
enum { STANDARD = 8 };

static uint32_t refuse(uint32_t number) { return number << 16; }

/* ---- rings; the caller has looked at the count ------------------------- */

/* All have the words of the deepest, and the depth limits their count alone. */
static void append(struct plain_ring *r, uint8_t *at, uint16_t word)
{
    r->word[*at] = word;
    *at = (*at + 1) & 15;
    r->count++;
}

static uint16_t take(struct plain_ring *r, uint8_t *at)
{
    uint16_t word = r->word[*at];
    *at = (*at + 1) & 15;
    r->count--;
    return word;
}

/* ---- between words ------------------------------------------------------ */

/* A word has left the transmit buffer. */
static void left(struct plain_spi *m)
{
    if ((m->raises == 4 && m->tx.count + 1 == m->depth) ||
        (m->raises == 6 && m->tx.count == 0))
        m->flag = 1;
}

/* The first waiting word moves to the free shift register. With CKE 1 its top
 * bit goes out at once. */
static void load(struct plain_spi *m)
{
    m->out = take(&m->tx, &m->tx.spi);
    m->loaded = 1;
    left(m);
    if (m->cke) {
        m->sdo = (uint8_t)(m->out >> 15);
        m->out = (uint16_t)(m->out << 1);
    }
}

/* A client that obeys SS with no word begun: with CKE 1 SDO shows the top bit
 * of its first waiting word. */
static void show(struct plain_spi *m)
{
    if (m->cke)
        m->sdo = m->tx.count && m->tx.word[m->tx.spi] >> 15;
}

/* A word begins at a client: the loaded word, the first waiting one if the
 * client obeys SS, or a filler of zeros. */
static void begin(struct plain_spi *m)
{
    if (m->select) {
        m->filler = m->tx.count == 0;
        m->out = m->filler ? 0 : m->tx.word[m->tx.spi] << m->cke & 0xFFFF;
    } else if (!m->loaded) {
        m->out = 0;
    }
}

/* A marked module's buffer cannot be read and so stays full: the mark need not
 * be asked for here. */
static void finish(struct plain_spi *m)
{
    m->edges = 0;
    if (m->rx.count == m->depth) {
        m->stat |= SPIROV;
        m->marked = m->depth > 1;
    } else {
        append(&m->rx, &m->rx.spi, m->in & (0xFFFF >> m->spare));
        if (m->raises == 1 ||
            (m->raises == 2 && 4 * m->rx.count >= 3 * m->depth) ||
            (m->raises == 3 && m->rx.count == m->depth))
            m->flag = 1;
    }
    if (m->select && !m->filler) {
        take(&m->tx, &m->tx.spi);
        left(m);
    }
    if (m->raises == STANDARD || (m->raises == 5 && m->tx.count == 0))
        m->flag = 1;
    if (m->select) {
        show(m);
    } else if (m->tx.count) {
        load(m);
    } else {
        m->loaded = 0;
        if (m->cke)
            m->sdo = 0;
    }
}

/* ---- edges -------------------------------------------------------------- */

/* One edge of a word: SDO moves on odd edges with CKE 0 and on even ones with
 * CKE 1, SDI is sampled on the others. */
static inline void edge(struct plain_spi *m, unsigned sdi)
{
    unsigned k = ++m->edges;

    if ((k ^ m->cke) & 1) {
        m->sdo = (uint8_t)(m->out >> 15);
        m->out = (uint16_t)(m->out << 1);
    } else {
        m->in = (uint16_t)(m->in << 1 | sdi);
    }
    if (k == m->last)
        finish(m);
}

static inline void shown(struct plain_spi *m, unsigned sck, unsigned sdi,
                         unsigned ss)
{
    unsigned changed = sck ^ m->sck;

    m->ss = (uint8_t)ss;
    m->sck = (uint8_t)sck;
    if (m->select && ss) {
        if (m->edges) {
            m->edges = 0;
            show(m);
        }
        return;
    }
    if (!changed)
        return;
    if (m->edges == 0) {
        if (sck == m->ckp)
            return;
        if (!m->host)
            begin(m);
        else if (!m->loaded)
            return;
    }
    edge(m, sdi);
}

/* ---- edges of a framed module ------------------------------------------- */

/* An edge to the active level, after which SDO and SS change: may a word begin
 * or go on? */
static inline int transmits(struct plain_spi *m)
{
    if (m->edges == 0) {
        if (m->frame == WITH ? !m->loaded : !m->pulse) {
            m->pulse = m->frame == BEFORE && m->loaded;
            return 0;
        }
        m->pulse = m->frame == WITH;
        if (!m->loaded)
            m->out = 0; /* a filler */
    } else if (m->frame == WITH) {
        m->pulse = 0;
    } else if (m->edges + 2 == m->last && m->frame == BEFORE) {
        m->pulse = m->tx.count != 0;
    }
    return 1;
}

static inline void framed_edge(struct plain_spi *m, unsigned sdi)
{
    if (m->sck != m->ckp) {
        if (transmits(m))
            edge(m, sdi);
        return;
    }
    if (m->edges)
        edge(m, sdi);
    if (m->frame == OUTSIDE && m->edges == 0)
        m->pulse = m->ss == m->active;
}

/* Out of line, so that a call on an unframed module is as short as without. */
#define APART __attribute__((noinline)) static

APART uint32_t framed_tick(struct plain_spi *m, unsigned sdi, unsigned ss)
{
    if (m->frame == OUTSIDE)
        m->ss = (uint8_t)ss;
    m->sck ^= 1;
    framed_edge(m, sdi);
    return 1;
}

APART uint32_t framed_pins(struct plain_spi *m, unsigned sck, unsigned sdi,
                           unsigned ss)
{
    unsigned changed = sck ^ m->sck;

    m->ss = (uint8_t)ss;
    m->sck = (uint8_t)sck;
    if (changed)
        framed_edge(m, sdi);
    return 0;
}

/* ---- ticks and pin calls ------------------------------------------------ */

uint32_t plain_tick(struct plain_spi *m, uint32_t sdi, uint32_t ss)
{
    if (m->clock != OWN) {
        if (m->clock == OWN_FRAMED)
            return framed_tick(m, sdi != 0, ss != 0);
        return refuse(m->clock == OFF ? 2 : 7);
    }
    if (!m->loaded)
        return 0;
    m->sck ^= 1;
    edge(m, sdi != 0);
    return 1;
}

uint32_t plain_pins(struct plain_spi *m, uint32_t sck, uint32_t sdi,
                    uint32_t ss)
{
    if (m->clock != PIN) {
        if (m->clock == PIN_FRAMED)
            return framed_pins(m, sck != 0, sdi != 0, ss != 0);
        return refuse(m->clock == OFF ? 2 : 7);
    }
    shown(m, sck != 0, sdi != 0, ss != 0);
    return 0;
}

uint32_t plain_clock_step(struct plain_spi *m, uint32_t sck, uint32_t sdi,
                          uint32_t ss)
{
    switch (m->clock) {
    case OWN:
        if (!m->loaded)
            return plain_levels(m) | 64;
        m->sck ^= 1;
        edge(m, sdi != 0);
        break;
    case PIN:
        shown(m, sck != 0, sdi != 0, ss != 0);
        break;
    case OWN_FRAMED:
        framed_tick(m, sdi != 0, ss != 0);
        break;
    case PIN_FRAMED:
        framed_pins(m, sck != 0, sdi != 0, ss != 0);
        break;
    default:
        return refuse(2);
    }
    return plain_levels(m);
}

/* ---- registers ---------------------------------------------------------- */

static uint32_t read_stat(const struct plain_spi *m)
{
    uint32_t v = m->stat;

    if (m->clock == OFF)
        return v;
    if (m->tx.count == m->depth)
        v |= SPITBF;
    if (m->rx.count == m->depth)
        v |= SPIRBF;
    if (m->raises != STANDARD) {
        unsigned count = m->host ? m->tx.count : m->rx.count;
        v |= (count > 7 ? 7 : count) << 8;
        if (m->rx.count == 0)
            v |= SRXMPT;
        if (!m->loaded && m->edges == 0)
            v |= SRMPT;
    }
    return v;
}

static uint32_t read_buf(struct plain_spi *m)
{
    uint32_t word;

    if (m->clock == OFF)
        return refuse(2);
    if (m->marked)
        return refuse(16);
    if (m->rx.count == 0)
        return refuse(6);
    word = take(&m->rx, &m->rx.cpu);
    if (m->raises == 0 && m->rx.count == 0)
        m->flag = 1;
    return word;
}

uint32_t plain_read(struct plain_spi *m, uint32_t reg)
{
    switch (reg) {
    case 0:
        return read_stat(m);
    case 1:
        return m->con1;
    case 2:
        return m->con2;
    case 3:
        return read_buf(m);
    default:
        return refuse(1);
    }
}

static uint32_t write_buf(struct plain_spi *m, unsigned value)
{
    if (m->clock == OFF)
        return refuse(2);
    if (m->tx.count == m->depth)
        return refuse(5);
    append(&m->tx, &m->tx.cpu, (uint16_t)(value << m->spare));
    if (m->select) {
        if (m->tx.count == 1 && m->edges == 0)
            show(m);
    } else if (!m->loaded && m->edges == 0) {
        load(m);
    }
    if (m->raises == 7 && m->tx.count == m->depth)
        m->flag = 1;
    return 0;
}

/* Why these settings cannot be enabled, 0 if they can. */
static int bad_settings(const struct plain_spi *m)
{
    unsigned c = m->con1;

    if (c & MSTEN && !(c & DISSCK) && (c & PRESCALERS) == PRESCALERS)
        return 13;
    if (c & SMP)
        return 14;
    return !(c & (MSTEN | SSEN)) && c & CKE && !(m->con2 & FRMEN) ? 15 : 0;
}

static void enable(struct plain_spi *m)
{
    unsigned c = m->con1;

    m->host = (c & MSTEN) != 0;
    m->clock = m->host && !(c & DISSCK) ? OWN : PIN;
    m->select = !m->host && c & SSEN;
    m->cke = (c & CKE) != 0;
    if (m->con2 & FRMEN) {
        m->clock += OWN_FRAMED - OWN;
        m->select = m->cke = 0;
        m->frame = m->con2 & FRMDLY ? WITH : BEFORE;
        if (m->con2 & SPIFSD)
            m->frame = OUTSIDE;
        m->active = (m->con2 & FRMPOL) != 0;
        m->pulse = 0;
    }
    m->ckp = (c & CKP) != 0;
    m->last = c & MODE16 ? 32 : 16;
    m->spare = c & MODE16 ? 0 : 8;
    m->depth = m->con2 & SPIBEN ? m->chosen : 1;
    m->sck = m->ckp;
    m->ss = 1;
    m->sdo = 0;
}

static void disable(struct plain_spi *m)
{
    m->clock = OFF;
    m->tx.cpu = m->tx.spi = m->tx.count = 0;
    m->rx.cpu = m->rx.spi = m->rx.count = 0;
    m->loaded = m->filler = m->edges = 0;
    m->marked = 0;
}

static uint32_t write_stat(struct plain_spi *m, unsigned value)
{
    if (value & SPIEN) {
        if (m->clock == OFF) {
            int number = bad_settings(m);
            if (number != 0)
                return refuse(number);
            enable(m);
        }
    } else if (m->clock != OFF) {
        disable(m);
    }
    m->stat = (uint16_t)((value & (SPIEN | SPISIDL | SISEL)) |
                         (m->stat & value & SPIROV));
    m->raises = m->con2 & SPIBEN ? value >> 2 & 7 : STANDARD;
    return 0;
}

uint32_t plain_write(struct plain_spi *m, uint32_t reg, uint32_t value)
{
    value &= 0xFFFF;
    switch (reg) {
    case 0:
        return write_stat(m, value);
    case 1:
        if (m->clock != OFF)
            return refuse(3);
        m->con1 = value & CON1_BITS;
        return 0;
    case 2:
        if (m->clock != OFF)
            return refuse(3);
        m->con2 = value & CON2_BITS;
        return 0;
    case 3:
        return write_buf(m, value);
    default:
        return refuse(1);
    }
}

void plain_power_up(struct plain_spi *m)
{
    memset(m, 0, sizeof *m);
    m->chosen = 8;
}

uint32_t plain_power_up_with(struct plain_spi *m, uint32_t depth)
{
    if (depth != 4 && depth != 8 && depth != 16)
        return refuse(25);
    plain_power_up(m);
    m->chosen = (uint8_t)depth;
    return 0;
}

void plain_clear(struct plain_spi *m) { m->flag = 0; }

/* ---- the pins, the wire, the clock -------------------------------------- */

static int driven(const struct plain_spi *m)
{
    return m->clock != OFF && !(m->con1 & DISSDO) && !(m->select && m->ss);
}

uint32_t plain_levels(const struct plain_spi *m)
{
    uint32_t v = m->flag | (uint32_t)m->sck << 1;

    if (m->clock >= OWN_FRAMED && m->frame != OUTSIDE)
        v |= (uint32_t)(m->pulse == m->active) << 4 | 32;
    return driven(m) ? v | (uint32_t)m->sdo << 2 | 8 : v;
}

uint32_t plain_linked(struct plain_spi *host, struct plain_spi *client,
                      uint32_t limit)
{
    /* SDO of either end reads 0 under DISSDO; nothing else lets go of it here */
    unsigned from_host = !(host->con1 & DISSDO);
    unsigned from_client = !(client->con1 & DISSDO);
    uint32_t used = 0;

    if (limit > 544)
        return refuse(11);
    if (host->clock == OFF || client->clock == OFF)
        return refuse(2);
    if (host->clock != OWN || client->clock != PIN || client->host)
        return refuse(7);
    if ((host->con1 ^ client->con1) & (CKP | CKE | MODE16))
        return refuse(10);

    shown(client, host->sck, host->sdo & from_host, 0);
    while (used < limit && host->loaded) {
        host->sck ^= 1;
        edge(host, client->sdo & from_client);
        shown(client, host->sck, host->sdo & from_host, 0);
        used++;
    }
    return used;
}

struct plain_clock plain_report(const struct plain_spi *m, uint32_t rate)
{
    static const uint8_t primary[4] = {64, 16, 4, 1};
    struct plain_clock said = {0, 0, 0.0, 0.0, 0.0};

    if (rate == 0) {
        said.number = 8;
    } else if (m->clock == OWN || m->clock == OWN_FRAMED) {
        unsigned divider = primary[m->con1 & 3] * (8 - (m->con1 >> 2 & 7));
        said.kind = 1;
        said.rate = (double)rate / divider;
        said.bittime = divider / (double)rate;
    } else if (m->clock != OFF) {
        said.kind = 2;
        said.below = rate;
    }
    return said;
}
