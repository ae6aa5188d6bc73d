/* The second model itself. A comment names the section of document 01 that
 * the code below it follows, or the request of document 02, and gives the rule
 * in other words. */
#include "ref_spi.h"

#include <string.h>

/* ---- lists ----------------------------------------------------------- */

static void list_append(struct ref_list *l, unsigned word)
{
    l->word[l->n] = word;
    l->n = l->n + 1;
}

static unsigned list_take_first(struct ref_list *l)
{
    unsigned first = l->word[0];
    memmove(&l->word[0], &l->word[1], (REF_MOST - 1) * sizeof l->word[0]);
    l->word[REF_MOST - 1] = 0;
    l->n = l->n - 1;
    return first;
}

static void list_empty(struct ref_list *l)
{
    memset(l, 0, sizeof *l);
}

/* ---- Registers: width, depth, roles ---------------------------------- */

/* Registers: MODE16 chooses between words of 8 and of 16 bits. */
static int width(const struct ref_spi *m)
{
    return m->mode16 ? 16 : 8;
}

/* Registers: with SPIBEN both buffers are as deep as request Twelve has had it
 * chosen at power-up; without it there is room for a single word, whatever was
 * chosen. */
static int holds(const struct ref_spi *m)
{
    return m->spiben ? m->depth : 1;
}

/* One edge at a time: only a host makes clock edges itself, and not under
 * DISSCK; everything else is clocked through the pin. */
static int own_clock(const struct ref_spi *m)
{
    return m->msten && !m->dissck;
}

/* Request Three: FRMEN frames a module of any role. SPIFSD then says on whose
 * side the pulses are made: 0 here, at a frame host; 1 outside, and the module
 * is a frame client. */
static int frame_host(const struct ref_spi *m)
{
    return m->frmen && !m->spifsd;
}

static int frame_client(const struct ref_spi *m)
{
    return m->frmen && m->spifsd;
}

/* The client for which the select level matters. Request Three: in a framed
 * module SSEN is as good as 0. */
static int ssen_client(const struct ref_spi *m)
{
    return !m->msten && m->ssen && !m->frmen;
}

/* CKE as the edges see it. Request Three: in a framed module as good as 0. */
static int late_sdo(const struct ref_spi *m)
{
    return m->cke && !m->frmen;
}

/* Registers: the part of a value that BUF stores; at 8 bits the upper byte
 * is lost. */
static unsigned kept_bits(const struct ref_spi *m, unsigned value)
{
    return m->mode16 ? (value & 0xFFFFu) : (value & 0x00FFu);
}

static int top_bit(const struct ref_spi *m, unsigned word)
{
    return (int)((word >> (width(m) - 1)) & 1u);
}

/* ---- power-up, clear, viewers ---------------------------------------- */

/* Request Twelve: there are parts with buffers of three depths and no others.
 * A depth that is refused, 25, leaves the module as it was before.
 * Registers: a module starts with every register, buffer and level at 0 and
 * no interrupt. */
int ref_power_up_depth(struct ref_spi *m, unsigned depth)
{
    if (depth != 4 && depth != 8 && depth != 16)
        return REF_BAD_DEPTH;
    memset(m, 0, sizeof *m);
    m->depth = (int)depth;
    return 0;
}

/* Where nothing is said of a depth it is document 01's. */
void ref_power_up(struct ref_spi *m)
{
    (void)ref_power_up_depth(m, REF_DEPTH);
}

/* One edge at a time, Interrupt flag: this call is the one way to take the
 * flag down, and it works on a disabled module too. */
void ref_clear(struct ref_spi *m)
{
    m->flag = 0;
}

int ref_flag(const struct ref_spi *m)
{
    return m->flag;
}

int ref_sck(const struct ref_spi *m)
{
    return m->sck;
}

/* One edge at a time, Bits: three things let go of the SDO pin: SPIEN off,
 * DISSDO on, or a client that obeys the select pin and is not selected. */
int ref_sdo(const struct ref_spi *m)
{
    if (!m->spien)
        return REF_UNDRIVEN;
    if (m->dissdo)
        return REF_UNDRIVEN;
    if (ssen_client(m) && m->ss == 1)
        return REF_UNDRIVEN;
    return m->sdo;
}

/* Request Three: only an enabled frame host drives SS, to the level FRMPOL
 * while it gives a pulse and to the other one at all other times. */
int ref_ss(const struct ref_spi *m)
{
    if (!m->spien || !frame_host(m))
        return REF_UNDRIVEN;
    return m->pulse ? m->frmpol : !m->frmpol;
}

/* ---- One edge at a time, Interrupt flag: one function per event ------ */

/* With SPIBEN the field SISEL picks the one event that raises the flag;
 * without it only a finish does. Request Twelve: 2, 3, 4 and 7 go by the depth;
 * what document 01 names are the numbers of the depth 8. */

static void event_read(struct ref_spi *m)
{
    /* 0: the last unread word has just been read */
    if (m->spiben && m->sisel == 0 && m->rx.n == 0)
        m->flag = 1;
}

static void event_append(struct ref_spi *m)
{
    if (!m->spiben)
        return;
    /* 1: any word received and kept */
    if (m->sisel == 1)
        m->flag = 1;
    /* 2: three quarters of the receive side or more are now unread, which is
     * from 3 of 4, 6 of 8 or 12 of 16 words on */
    if (m->sisel == 2 && 4 * m->rx.n >= 3 * m->depth)
        m->flag = 1;
    /* 3: the receive side is now full */
    if (m->sisel == 3 && m->rx.n == m->depth)
        m->flag = 1;
}

static void event_left_transmit_buffer(struct ref_spi *m)
{
    if (!m->spiben)
        return;
    /* 4: the full queue has lost one, all others still wait */
    if (m->sisel == 4 && m->tx.n == m->depth - 1)
        m->flag = 1;
    /* 6: the queue has lost its last word */
    if (m->sisel == 6 && m->tx.n == 0)
        m->flag = 1;
}

static void event_finish(struct ref_spi *m)
{
    /* without SPIBEN: each time a word ends */
    if (!m->spiben)
        m->flag = 1;
    /* 5: a word ends and no other is queued or loaded */
    if (m->spiben && m->sisel == 5 && m->tx.n == 0 && !m->loaded)
        m->flag = 1;
}

static void event_write(struct ref_spi *m)
{
    /* 7: the queue has been filled by this write */
    if (m->spiben && m->sisel == 7 && m->tx.n == m->depth)
        m->flag = 1;
}

/* ---- One edge at a time, Loading; SDO between words ------------------ */

/* Loading: the oldest queued word enters a free shift register at once. A
 * client under select control never loads: its word is sent while still in
 * the queue. A filler under way keeps the register busy. */
static void load_if_free(struct ref_spi *m)
{
    if (ssen_client(m))
        return;
    if (m->loaded || m->begun)
        return;
    if (m->tx.n == 0)
        return;
    m->loaded_word = list_take_first(&m->tx);
    m->loaded = 1;
    event_left_transmit_buffer(m);
}

/* Can a word be sent, and which? Loading: under select control the head of
 * the queue, otherwise the loaded word. */
static int next_word(const struct ref_spi *m, unsigned *word)
{
    if (ssen_client(m)) {
        if (m->tx.n == 0)
            return 0;
        *word = m->tx.word[0];
        return 1;
    }
    if (!m->loaded)
        return 0;
    *word = m->loaded_word;
    return 1;
}

/* Bits, for CKE 1: between words the pin already carries the first bit of
 * whatever will go out next, or 0 when nothing will. */
static void show_between_words(struct ref_spi *m)
{
    unsigned word;

    if (!late_sdo(m) || m->begun)
        return;
    if (next_word(m, &word))
        m->sdo = top_bit(m, word);
    else
        m->sdo = 0;
}

/* Back to "no word begun": no edges, no bits received. */
static void forget_begun(struct ref_spi *m)
{
    m->begun = 0;
    m->filler = 0;
    m->edges = 0;
    m->in_count = 0;
    memset(m->in_bit, 0, sizeof m->in_bit);
}

/* ---- Registers: reading and writing ---------------------------------- */

/* The bits of STAT, those stored and those worked out. */
static unsigned stat_value(const struct ref_spi *m)
{
    unsigned v = 0;

    if (m->spien)
        v |= 1u << 15;
    if (m->spisidl)
        v |= 1u << 13;
    if (m->spirov)
        v |= 1u << 6;
    v |= (unsigned)m->sisel << 2;
    /* Registers: SPITBF and SPIRBF say that no more fits */
    if (m->tx.n == holds(m))
        v |= 1u << 1;
    if (m->rx.n == holds(m))
        v |= 1u << 0;
    /* Registers: the next three are alive only with both SPIBEN and SPIEN */
    if (m->spiben && m->spien) {
        int count;
        /* SRXMPT: nothing is unread */
        if (m->rx.n == 0)
            v |= 1u << 5;
        /* SRMPT: the shift register is at rest and holds nothing */
        if (!m->loaded && !m->begun)
            v |= 1u << 7;
        /* SPIBEC: a host counts what it has queued, a client what it has
         * not read; three bits cannot show 8 or more, so 7 stands for that */
        count = m->msten ? m->tx.n : m->rx.n;
        if (count > 7)
            count = 7;
        v |= (unsigned)count << 8;
    }
    return v;
}

static unsigned con1_value(const struct ref_spi *m)
{
    return (unsigned)m->dissck << 12 | (unsigned)m->dissdo << 11 |
           (unsigned)m->mode16 << 10 | (unsigned)m->smp << 9 |
           (unsigned)m->cke << 8 | (unsigned)m->ssen << 7 |
           (unsigned)m->ckp << 6 | (unsigned)m->msten << 5 |
           (unsigned)m->spre << 2 | (unsigned)m->ppre;
}

static unsigned con2_value(const struct ref_spi *m)
{
    return (unsigned)m->frmen << 15 | (unsigned)m->spifsd << 14 |
           (unsigned)m->frmpol << 13 | (unsigned)m->frmdly << 1 |
           (unsigned)m->spiben;
}

int ref_read(struct ref_spi *m, unsigned reg, unsigned *value)
{
    if (reg > 3)
        return 1;
    if (reg == 0) {
        *value = stat_value(m);
        return 0;
    }
    if (reg == 1) {
        *value = con1_value(m);
        return 0;
    }
    if (reg == 2) {
        *value = con2_value(m);
        return 0;
    }
    /* BUF; refusals: 2 comes before 6, and by request Four 16 between them:
     * what is unread under the mark stays so */
    if (!m->spien)
        return 2;
    if (m->mark)
        return 16;
    if (m->rx.n == 0)
        return 6;
    *value = list_take_first(&m->rx);
    event_read(m);
    return 0;
}

static int bit(unsigned value, int number)
{
    return (int)((value >> number) & 1u);
}

/* What each refusal number says, with requests One and Three of document 02:
 * the three settings that cannot be turned on, each with a number of its own;
 * the first that is found is told. 0 if none is. */
static int enabling_refusal(const struct ref_spi *m)
{
    /* a host making its own clock, undivided */
    if (own_clock(m) && m->ppre == 3 && m->spre == 7)
        return 13;
    /* late sampling, host or client */
    if (m->smp)
        return 14;
    /* CKE at a client needs the select pin; framed, neither counts */
    if (!m->msten && m->cke && !m->ssen && !m->frmen)
        return 15;
    return 0;
}

static int write_stat(struct ref_spi *m, unsigned value)
{
    int was = m->spien;
    int now = bit(value, 15);

    if (!was && now) {
        int r = enabling_refusal(m);
        if (r != 0)
            return r;
    }

    /* Registers: three fields are stored as written. SPIROV can only be
     * taken down, by writing it as 0. */
    m->spien = now;
    m->spisidl = bit(value, 13);
    m->sisel = (int)((value >> 2) & 7u);
    if (bit(value, 6) == 0)
        m->spirov = 0;

    if (was && !now) {
        /* Registers: turning off throws away every word, queued, loaded,
         * begun or unread; the interrupt flag is not touched. Request Four:
         * it is also the one way to be rid of the mark, whatever is written
         * to SPIROV */
        list_empty(&m->tx);
        list_empty(&m->rx);
        m->loaded = 0;
        m->loaded_word = 0;
        forget_begun(m);
        m->mark = 0;
    }
    if (!was && now) {
        /* Registers: turning on starts with the clock at rest, where CKP
         * puts it, nobody selected and a low SDO. Request Three: no pulse is
         * given yet, and none from before counts */
        m->sck = m->ckp;
        m->ss = 1;
        m->sdo = 0;
        m->pulse = 0;
    }
    return 0;
}

/* A full queue gives refusal 5. */
static int write_buf(struct ref_spi *m, unsigned value)
{
    if (m->tx.n == holds(m))
        return 5;
    list_append(&m->tx, kept_bits(m, value));
    load_if_free(m);
    event_write(m);
    show_between_words(m);
    return 0;
}

int ref_write(struct ref_spi *m, unsigned reg, unsigned value)
{
    if (reg > 3)
        return 1;
    if (reg == 0)
        return write_stat(m, value);
    if (reg == 3) {
        if (!m->spien)
            return 2;
        return write_buf(m, value);
    }
    /* CON1 and CON2; refusal 3 */
    if (m->spien)
        return 3;
    if (reg == 1) {
        m->dissck = bit(value, 12);
        m->dissdo = bit(value, 11);
        m->mode16 = bit(value, 10);
        m->smp = bit(value, 9);
        m->cke = bit(value, 8);
        m->ssen = bit(value, 7);
        m->ckp = bit(value, 6);
        m->msten = bit(value, 5);
        m->spre = (int)((value >> 2) & 7u);
        m->ppre = (int)(value & 3u);
    } else {
        m->frmen = bit(value, 15);
        m->spifsd = bit(value, 14);
        m->frmpol = bit(value, 13);
        m->frmdly = bit(value, 1);
        m->spiben = bit(value, 0);
    }
    return 0;
}

/* ---- One edge at a time: the edges ----------------------------------- */

/* Request Four: under the mark a received word is lost even if there is room
 * for it. */
static int finds_no_place(const struct ref_spi *m)
{
    return m->mark || m->rx.n == holds(m);
}

/* Finish: what happens at a word's last edge; the order counts. */
static void finish(struct ref_spi *m)
{
    unsigned received = 0;
    int was_filler = m->filler;
    int i;

    for (i = 0; i < width(m); i++)
        received = received * 2 + (unsigned)m->in_bit[i];
    forget_begun(m);

    /* first the word received: kept if it finds a place, else lost, and
     * SPIROV records the loss; with SPIBEN so does the mark of request Four */
    if (finds_no_place(m)) {
        m->spirov = 1;
        if (m->spiben)
            m->mark = 1;
    } else {
        list_append(&m->rx, received);
        event_append(m);
    }

    /* then the word sent: under select control it leaves the queue only
     * now, and a filler never was in it; elsewhere the shift register is
     * free again */
    if (ssen_client(m)) {
        if (!was_filler) {
            list_take_first(&m->tx);
            event_left_transmit_buffer(m);
        }
    } else {
        m->loaded = 0;
        m->loaded_word = 0;
    }

    /* last, a queued word may move up */
    load_if_free(m);

    event_finish(m);
    show_between_words(m);
}

/* Bits: one edge of a begun word, the most significant bit going first. The
 * caller has stored the new clock level. */
static void word_edge(struct ref_spi *m, int sdi)
{
    unsigned out = 0;
    int w = width(m);
    int odd;

    if (!m->filler)
        (void)next_word(m, &out);

    m->edges = m->edges + 1;
    odd = m->edges % 2;

    if (!late_sdo(m)) {
        /* Bits, CKE 0: put out a bit on the way to active, take one in on
         * the way back */
        if (odd) {
            int place = (m->edges - 1) / 2; /* 0 is the top bit */
            m->sdo = bit(out, w - 1 - place);
        } else {
            m->in_bit[m->in_count] = (char)sdi;
            m->in_count = m->in_count + 1;
        }
    } else {
        /* Bits, CKE 1: take a bit in on the way to active, put out the
         * following one on the way back; the last edge has none to put */
        if (odd) {
            m->in_bit[m->in_count] = (char)sdi;
            m->in_count = m->in_count + 1;
        } else if (m->edges < 2 * w) {
            int place = m->edges / 2;
            m->sdo = bit(out, w - 1 - place);
        }
    }

    if (m->edges == 2 * w)
        finish(m);
}

/* ---- Request Three: the edges of a framed module --------------------- */

/* A word begins, with its first edge: the loaded one or, where there is none,
 * a filler, which only a frame client comes to. */
static void begin_framed(struct ref_spi *m, int sdi)
{
    m->begun = 1;
    m->filler = !m->loaded;
    word_edge(m, sdi);
}

/* A transmit edge of a frame host under FRMDLY 0: the pulse comes one clock
 * before the word. It may lie on the last bit of the word before, if its own
 * word is already queued then. */
static void pulse_before(struct ref_spi *m, int sdi)
{
    if (m->begun) {
        word_edge(m, sdi);
        m->pulse = m->edges == 2 * width(m) - 1 && m->tx.n > 0;
    } else if (m->pulse) {
        m->pulse = 0;
        begin_framed(m, sdi);
    } else {
        m->pulse = m->loaded;
    }
}

/* The same under FRMDLY 1: the pulse is as long as the word's first bit. */
static void pulse_with(struct ref_spi *m, int sdi)
{
    if (m->begun) {
        m->pulse = 0;
        word_edge(m, sdi);
    } else if (m->loaded) {
        m->pulse = 1;
        begin_framed(m, sdi);
    }
}

/* A transmit edge of a frame client: a pulse sampled half a clock ago starts a
 * word, whatever FRMDLY says and whether or not there is one to send. */
static void pulse_awaited(struct ref_spi *m, int sdi)
{
    if (m->begun) {
        word_edge(m, sdi);
    } else if (m->pulse) {
        m->pulse = 0;
        begin_framed(m, sdi);
    }
}

/* A sample edge. Between words nothing is taken in. A frame client looks for a
 * pulse wherever the next transmit edge can begin a word: between words, and
 * once a word has ended on this very edge. */
static void sample_edge(struct ref_spi *m, int sdi)
{
    if (m->begun)
        word_edge(m, sdi);
    if (frame_client(m) && !m->begun)
        m->pulse = m->ss == m->frmpol;
}

/* Any edge; the caller has stored the new levels. CKE being as good as 0, the
 * way to active is the transmit edge and the way to rest the sample edge. */
static void framed_edge(struct ref_spi *m, int sdi)
{
    if (m->sck == m->ckp)
        sample_edge(m, sdi);
    else if (frame_client(m))
        pulse_awaited(m, sdi);
    else if (m->frmdly)
        pulse_with(m, sdi);
    else
        pulse_before(m, sdi);
}

/* ---- One edge at a time: ticks and pin calls ------------------------- */

/* One edge of a host's own clock; refusals: 2 comes before 7. */
int ref_tick(struct ref_spi *m, int sdi, int ss)
{
    if (!m->spien)
        return 2;
    if (!own_clock(m))
        return 7;
    if (m->frmen) {
        /* Request Three: this clock never stands still; the select level
         * that a tick brings is for a frame client alone */
        if (frame_client(m))
            m->ss = ss != 0;
        m->sck = !m->sck;
        framed_edge(m, sdi != 0);
        return 0;
    }
    /* a clock with nothing to send stands still */
    if (!m->loaded)
        return REF_NO_EDGE;
    m->sck = !m->sck;
    m->begun = 1;
    word_edge(m, sdi != 0);
    return 0;
}

/* Abort: the select pin is released in the middle of a word. The bits so far
 * count for nothing; the word itself is still at the head of the queue and
 * will start over, while a filler is simply gone. */
static void abort_word(struct ref_spi *m)
{
    if (!m->begun)
        return;
    forget_begun(m);
    show_between_words(m); /* with CKE 0 this leaves SDO alone */
}

/* New levels at the pins of a module without a clock of its own; refusals:
 * 2 comes before 7. */
int ref_pins(struct ref_spi *m, int sck, int sdi, int ss)
{
    int edge, to_active;
    unsigned word;

    sck = sck != 0;
    sdi = sdi != 0;
    ss = ss != 0;

    if (!m->spien)
        return 2;
    if (own_clock(m))
        return 7;

    /* the select level goes before the clock level; every module stores
     * it, only a client under select control heeds it */
    if (ssen_client(m) && m->ss == 0 && ss == 1)
        abort_word(m);
    m->ss = ss;

    /* an edge is a change of the stored clock level */
    edge = sck != m->sck;
    m->sck = sck;
    if (!edge)
        return 0;
    if (m->frmen) {
        framed_edge(m, sdi);
        return 0;
    }

    /* not selected: storing the level was all */
    if (ssen_client(m) && m->ss == 1)
        return 0;

    to_active = sck != m->ckp;
    if (!m->begun) {
        /* no word starts on the way back to rest */
        if (!to_active)
            return 0;
        /* a host clocked from outside starts none without a word */
        if (m->msten && !m->loaded)
            return 0;
        /* Loading: here the word begins; a client that has none sends
         * zeros in its place */
        m->begun = 1;
        m->filler = !next_word(m, &word);
    }
    word_edge(m, sdi);
    return 0;
}

/* Request Eleven: one call for a clock step, which asks nobody what kind of
 * module it is for. One that makes its own clock does what its clock does next,
 * whatever is at the SCK pin; the levels at the pins move any other. Of the
 * refusals 2 is left. Here it is made of the two calls above. */
int ref_step(struct ref_spi *m, int sck, int sdi, int ss)
{
    if (own_clock(m))
        return ref_tick(m, sdi, ss);
    return ref_pins(m, sck, sdi, ss);
}

/* ---- A word at a time ------------------------------------------------- */

/* One step after the other, as a bench with a clock and a switch at each pin
 * would make them, until the word is through. Where nothing is to be clocked,
 * one step with the clock as it stands; with frames, one edge. */
int ref_word(struct ref_spi *m, int ss, unsigned word, unsigned *levels,
             int *count)
{
    int to_come, edges;

    *levels = 0;
    *count = 0;
    if (m->spien && m->frmen) {
        *levels = (unsigned)m->sdo;
        *count = 1;
        return ref_step(m, !m->sck, (int)(word & 1u), ss);
    }
    if ((!m->msten && m->ssen && ss) || (m->msten && !m->loaded && !m->begun))
        return ref_step(m, m->sck, (int)(word & 1u), ss);
    if (!m->spien)
        return ref_step(m, !m->sck, (int)(word & 1u), ss);

    if (!m->begun && m->sck != m->ckp)
        (void)ref_step(m, !m->sck, 0, ss);
    to_come = width(m) - (m->begun ? m->in_count : 0);
    for (edges = m->begun ? m->edges : 0; edges < 2 * width(m); edges++) {
        /* edge 1 is odd; without CKE the even ones sample, with it the odd */
        int samples = edges % 2 == (m->cke ? 0 : 1);
        int level = 0;

        if (samples) {
            level = (int)(word >> --to_come & 1u);
            *levels = *levels << 1 | (unsigned)m->sdo;
            ++*count;
        }
        (void)ref_step(m, !m->sck, level, ss);
    }
    return 0;
}

/* The word that goes out next; -1 if none would. */
int ref_next(const struct ref_spi *m)
{
    if (!m->spien || (m->begun && m->filler))
        return -1;
    if (m->loaded)
        return (int)m->loaded_word;
    if (!m->frmen && !m->msten && m->ssen && m->tx.n > 0)
        return (int)m->tx.word[0];
    return -1;
}

/* ---- Two modules on one wire ----------------------------------------- */

/* What the other end reads: a pin that is let go counts as low. */
static int wire(const struct ref_spi *m)
{
    int level = ref_sdo(m);
    return level == REF_UNDRIVEN ? 0 : level;
}

int ref_linked(struct ref_spi *host, struct ref_spi *client, unsigned limit,
               unsigned *used)
{
    unsigned count = 0;

    /* What each refusal number says: limit, enabled, roles, settings; by
     * request Three a framed module has no role here. Request Twelve: the
     * limit is what a host of the depth 16 can owe, whatever depths these two
     * have, and they need not have the same */
    if (limit > REF_LIMIT)
        return 11;
    if (!host->spien)
        return 2;
    if (!client->spien)
        return 2;
    if (!own_clock(host) || client->msten || host->frmen || client->frmen)
        return 7;
    if (host->ckp != client->ckp || host->cke != client->cke ||
        width(host) != width(client))
        return 10;

    /* the client is selected and shown the wire as it stands */
    (void)ref_pins(client, ref_sck(host), wire(host), 0);

    while (count < limit) {
        /* the host takes in what the client shows now */
        if (ref_tick(host, wire(client), 0) == REF_NO_EDGE)
            break;
        count = count + 1;
        /* and the client is shown what came of it */
        (void)ref_pins(client, ref_sck(host), wire(host), 0);
    }
    *used = count;
    return 0;
}

/* ---- The clock report ------------------------------------------------ */

/* The divider is the product of the two prescalers; refusal 8 goes before
 * everything else. */
int ref_clock(const struct ref_spi *m, uint32_t f, int *kind, double *rate,
              double *bit_time)
{
    static const int primary[4] = {64, 16, 4, 1};
    int d;

    if (f == 0)
        return 8;
    if (!m->spien) {
        *kind = 0;
        *rate = 0.0;
        *bit_time = 0.0;
        return 0;
    }
    if (!own_clock(m)) {
        *kind = 2;
        *rate = (double)f;
        *bit_time = 0.0;
        return 0;
    }
    d = primary[m->ppre] * (8 - m->spre);
    *kind = 1;
    *rate = (double)f / (double)d;
    *bit_time = (double)d / (double)f;
    return 0;
}
