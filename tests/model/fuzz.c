/* Random calls to the second model. Beside each module goes a ledger: plain
 * lists that only grow, filled from the caller's side (words given, words
 * got, levels at the pins) and never from the model's own queues. After every
 * call the model's registers, levels and flag must be those of its ledger, and
 * the customer's third demand, the one about word order, must hold. Of a framed
 * module the ledger sees the SS level, given or shown, and nothing else of its
 * pulses: what the paper says of them is held to that level. Of request Four it
 * counts the words lost: in enhanced operation the mark must stand exactly if
 * there is one since SPIEN went on. Of request Twelve it knows the depth that
 * power-up was given, which must be the module's until the next.
 *
 * usage: fuzz [seed] [calls]
 */
#include "ref_spi.h"

#include <stdio.h>
#include <stdlib.h>
#include <string.h>

#define MAXW 6000 /* a ledger's room; before it runs out, SPIEN goes off */

static unsigned long calls;
static unsigned long seed0;

#define CHECK(c)                                                            \
    do {                                                                    \
        if (!(c)) {                                                         \
            printf("FAIL seed %lu call %lu line %d: %s\n", seed0, calls,    \
                   __LINE__, #c);                                           \
            exit(1);                                                        \
        }                                                                   \
    } while (0)

static uint64_t rs;
static unsigned rnd(unsigned n)
{
    rs ^= rs << 13;
    rs ^= rs >> 7;
    rs ^= rs << 17;
    return (unsigned)((rs >> 11) % n);
}
static int one_in(unsigned n) { return rnd(n) == 0; }

/* ---- the ledger ------------------------------------------------------ */

struct ledger {
    int depth; /* chosen at power-up */

    /* what the register writes that were not refused have stored */
    unsigned con1, con2, stat_rw; /* stat_rw: SPIEN, SPISIDL, SISEL */
    int rov, flag;
    int sck, ss;

    /* counted from the last time SPIEN went on */
    int n_accepted, n_sent, n_received, n_kept, n_read, n_lost;
    unsigned accepted[MAXW]; /* what BUF writes handed in */
    unsigned sent[MAXW];     /* whole words seen at SDO */
    unsigned kept[MAXW];     /* whole words given at SDI, without the lost */
    unsigned read[MAXW];     /* what BUF reads handed out */

    /* the word on the wire */
    int begun, filler, k;
    unsigned in, out;

    /* framed: SS is active, as a frame host shows it after this edge or as a
     * frame client was shown it at the last edge where it looks; the pulses
     * that a frame host has shown */
    int pulse, n_pulses;
};

struct pair {
    struct ref_spi m;
    struct ledger l;
};

static unsigned long st_sent, st_kept, st_lost, st_filler, st_abort, st_linked,
    st_enable, st_drain, st_refused[26], st_noedge;

/* By depth, 4, 8 and 16: power-ups; flags set, by SISEL and in standard
 * operation; writes refused for want of room; words lost in enhanced operation;
 * drains from full buffers. Linked runs, by the host's depth and the client's,
 * of these with SPIBEN at both ends. */
static unsigned long st_power_up[3], st_flagset[3][9], st_no_room[3],
    st_lost_deep[3], st_full_drain[3], st_depths[3][3];

static unsigned long st_together; /* enabling with more than one mistake */
static unsigned long st_step[2][2]; /* merged calls: own clock, framed */

/* Framed modules: pulses shown by FRMDLY, those of them on the last bit of a
 * word, those that came a clock late; pulses seen, those of them at the last
 * edge of a word; clocks of neither word nor pulse; finished words by clock,
 * frame client, FRMDLY, FRMPOL and width; linked runs refused. */
static unsigned long st_given[2], st_last_bit, st_late, st_sampled,
    st_at_finish, st_idle_clock, st_framed[2][2][2][2][2], st_framed_filler,
    st_unlinked, st_framed_drain;

/* The mark: set by a word's loss, by clock and framed; words lost in standard
 * operation; words lost under the mark, those of them that set SPIROV anew;
 * SPIROV cleared under the mark; turned off, with SPIROV left up and not. */
static unsigned long st_marked[2][2], st_lost_standard, st_lost_marked,
    st_rov_again, st_rov_cleared, st_unmarked[2];

static int l_en(const struct ledger *l) { return l->stat_rw >> 15 & 1; }
static int l_w(const struct ledger *l) { return l->con1 & 0x400 ? 16 : 8; }
static int l_ben(const struct ledger *l) { return (int)(l->con2 & 1); }
static int l_depth(const struct ledger *l) { return l_ben(l) ? l->depth : 1; }
static int l_which(const struct ledger *l) /* of the three depths */
{
    return l->depth == 4 ? 0 : l->depth == 8 ? 1 : 2;
}
static int l_host(const struct ledger *l) { return (l->con1 & 0x20) != 0; }
static int l_own(const struct ledger *l) { return (l->con1 & 0x1020) == 0x20; }
static int l_framed(const struct ledger *l) { return (l->con2 & 0x8000) != 0; }
static int l_fclient(const struct ledger *l) { return l->con2 >> 14 == 3; }
static int l_fhost(const struct ledger *l) { return l->con2 >> 14 == 2; }
static int l_active(const struct ledger *l) { return l->con2 >> 13 & 1; }
static int l_frmdly(const struct ledger *l) { return l->con2 >> 1 & 1; }
static int l_ssc(const struct ledger *l)
{
    return (l->con1 & 0xA0) == 0x80 && !l_framed(l);
}
static int l_cke(const struct ledger *l)
{
    return (l->con1 & 0x100) != 0 && !l_framed(l);
}
static int l_ckp(const struct ledger *l) { return (l->con1 & 0x40) != 0; }
static int l_sisel(const struct ledger *l) { return (int)(l->stat_rw >> 2 & 7); }

static int l_unfinished(const struct ledger *l)
{
    return l->n_accepted - l->n_sent;
}

/* Is the oldest unfinished word no longer in the transmit buffer? */
static int l_left(const struct ledger *l)
{
    if (l_ssc(l))
        return 0; /* it stays the head of the queue to its last edge */
    if (l->begun && l->filler)
        return 0;
    return l_unfinished(l) > 0;
}

static int l_waiting(const struct ledger *l)
{
    return l_unfinished(l) - l_left(l);
}

static int l_unread(const struct ledger *l) { return l->n_kept - l->n_read; }

/* Request Four, of an enabled module: has an overflow marked it? CON2 has not
 * changed since it was enabled. */
static int l_marked(const struct ledger *l)
{
    return l_ben(l) && l->n_lost > 0;
}

/* Demand 3 with request Four: which finished words are dropped. */
static int l_drops(const struct ledger *l)
{
    return l_unread(l) == l_depth(l) || l_marked(l);
}

static void l_enable(struct ledger *l)
{
    l->n_accepted = l->n_sent = l->n_received = l->n_kept = l->n_read = 0;
    l->n_lost = 0;
    l->begun = l->filler = l->k = 0;
    l->in = l->out = 0;
    l->sck = l_ckp(l);
    l->ss = 1;
    l->pulse = l->n_pulses = 0;
}

/* STAT as the ledger has it. */
static unsigned l_stat(const struct ledger *l)
{
    unsigned v = l->stat_rw | (l->rov ? 0x40u : 0);
    if (!l_en(l))
        return v;
    if (l_waiting(l) == l_depth(l))
        v |= 2;
    if (l_unread(l) == l_depth(l))
        v |= 1;
    if (l_ben(l)) {
        int c = l_host(l) ? l_waiting(l) : l_unread(l);
        v |= (unsigned)(c > 7 ? 7 : c) << 8;
        if (l_unread(l) == 0)
            v |= 0x20;
        if (!l_left(l) && !l->begun)
            v |= 0x80;
    }
    return v;
}

static void l_setflag(struct ledger *l, int which)
{
    l->flag = 1;
    st_flagset[l_which(l)][which]++;
}

/* Request Twelve: three quarters of each depth. */
static int l_quarters(const struct ledger *l)
{
    static const int three[3] = {3, 6, 12};
    return three[l_which(l)];
}

/* Document 01, Interrupt flag, told from what the step did. */
static void l_events(struct ledger *l, int wrote, int read, int finished,
                     int appended, int left)
{
    if (!l_ben(l)) {
        if (finished)
            l_setflag(l, 8);
        return;
    }
    switch (l_sisel(l)) {
    case 0: if (read && l_unread(l) == 0) l_setflag(l, 0); break;
    case 1: if (appended) l_setflag(l, 1); break;
    case 2:
        if (appended && l_unread(l) >= l_quarters(l)) l_setflag(l, 2);
        break;
    case 3: if (appended && l_unread(l) == l->depth) l_setflag(l, 3); break;
    case 4: if (left && l_waiting(l) + 1 == l->depth) l_setflag(l, 4); break;
    case 5: if (finished && l_unfinished(l) == 0) l_setflag(l, 5); break;
    case 6: if (left && l_waiting(l) == 0) l_setflag(l, 6); break;
    case 7: if (wrote && l_waiting(l) == l->depth) l_setflag(l, 7); break;
    }
}

/* ---- the third demand, after every call ------------------------------ */

static void demand3(struct pair *p)
{
    struct ref_spi *m = &p->m;
    struct ledger *l = &p->l;
    unsigned v = 0xFFFFFFFFu;
    int i, at;

    CHECK(m->depth == l->depth);
    CHECK(ref_read(m, 0, &v) == 0);
    CHECK(v == l_stat(l));
    CHECK(ref_flag(m) == l->flag);
    CHECK(ref_read(m, 1, &v) == 0 && v == l->con1);
    CHECK(ref_read(m, 2, &v) == 0 && v == l->con2);
    if (!l_en(l)) {
        CHECK(ref_sdo(m) == 2 && ref_ss(m) == 2);
        CHECK(m->tx.n == 0 && m->rx.n == 0 && !m->loaded && !m->begun);
        CHECK(!m->mark);
        return;
    }
    CHECK(ref_sck(m) == l->sck);
    CHECK(m->ss == l->ss);
    if (l_fhost(l))
        CHECK(ref_ss(m) == (l->pulse ? l_active(l) : !l_active(l)));
    else
        CHECK(ref_ss(m) == 2);
    CHECK((ref_sdo(m) == 2) == ((l->con1 & 0x800) || (l_ssc(l) && l->ss)));

    /* Sending: after the sent words come the loaded one and the queue, and
     * together they are the accepted list. Its sent part was compared word
     * by word as each ended. */
    at = l->n_sent;
    CHECK(m->loaded == l_left(l));
    if (m->loaded) {
        CHECK(at < l->n_accepted && m->loaded_word == l->accepted[at]);
        at++;
    }
    CHECK(m->tx.n <= l_depth(l) && at + m->tx.n == l->n_accepted);
    for (i = 0; i < m->tx.n; i++)
        CHECK(m->tx.word[i] == l->accepted[at + i]);

    /* Receiving: the kept words are the read ones and then the queue. */
    CHECK(m->rx.n <= l_depth(l) && l->n_read + m->rx.n == l->n_kept);
    for (i = 0; i < m->rx.n; i++)
        CHECK(m->rx.word[i] == l->kept[l->n_read + i]);
    CHECK(l->n_received == l->n_kept + l->n_lost);

    /* The mark, and what cannot change under it: a full buffer unread. */
    CHECK(m->mark == l_marked(l));
    if (m->mark)
        CHECK(l_unread(l) == l->depth);

    CHECK(m->begun == l->begun && m->filler == l->filler && m->edges == l->k);

    /* a frame host: one pulse for each word, before it under FRMDLY 0, and
     * never a filler */
    if (l_fhost(l)) {
        CHECK(!l->filler && l->n_received == l->n_sent);
        CHECK(l->n_pulses ==
              l->n_sent + l->begun + (!l_frmdly(l) && l->pulse));
    }

    /* CKE 1: the first bit of the next word is out between words */
    if (l_cke(l) && !l->begun) {
        int top = 0;
        if (l_unfinished(l) > 0)
            top = (int)(l->accepted[l->n_sent] >> (l_w(l) - 1) & 1);
        CHECK(m->sdo == top);
    }
}

/* The lists from end to end, now and then. */
static void demand3_whole(const struct ledger *l)
{
    CHECK(memcmp(l->sent, l->accepted,
                 (size_t)l->n_sent * sizeof l->sent[0]) == 0);
    CHECK(memcmp(l->read, l->kept,
                 (size_t)l->n_read * sizeof l->read[0]) == 0);
}

/* A frame host on its own clock, given no new word: on a copy, the edges until
 * the last word is finished. Each pulse comes at the earliest clock that does
 * not cut a word, so no clock is lost between words, but one for a word that
 * was written too late for a pulse on the last bit of the word before. */
static void framed_drain(const struct pair *p)
{
    const struct ledger *l = &p->l;
    struct ref_spi c = p->m;
    int w = l_w(l), words = l_unfinished(l);
    int edges = 0, want = 2 * w * words - l->k;

    if (!l_fhost(l))
        return;
    st_framed_drain++;
    if (words > 0 && !l->begun) {
        if (l->sck != l_ckp(l))
            want += 1; /* to the next transmit edge */
        if (!l_frmdly(l) && !l->pulse)
            want += 2; /* the pulse's clock */
    }
    if (words > 1 && l->k == 2 * w - 1 && !l_frmdly(l) && !l->pulse)
        want += 2;
    while (c.begun || c.loaded || c.tx.n > 0) {
        CHECK(ref_tick(&c, (int)rnd(2), (int)rnd(2)) == 0);
        edges++;
        CHECK(edges <= 2 * 16 * (l->depth + 1) + 3);
    }
    CHECK(edges == want);
    for (edges = 0; edges < 40; edges++) { /* and it runs on, in silence */
        int sdo = c.sdo;
        CHECK(ref_tick(&c, (int)rnd(2), (int)rnd(2)) == 0);
        CHECK(c.sdo == sdo && !c.begun && ref_ss(&c) == !l_active(l));
    }
}

/* The end of the third demand: on a copy, a host's own clock runs until it
 * stops, and the edges made must be those that the ledger says are owed. */
static void drain(const struct pair *p)
{
    struct ref_spi c = p->m;
    int edges = 0;
    int want;
    unsigned v;

    if (!l_en(&p->l) || !l_own(&p->l))
        return;
    if (l_framed(&p->l)) {
        framed_drain(p);
        return;
    }
    st_drain++;
    st_full_drain[l_which(&p->l)] +=
        (unsigned long)(l_ben(&p->l) && l_waiting(&p->l) == p->l.depth);
    want = 2 * l_w(&p->l) * l_unfinished(&p->l) - p->l.k;
    while (ref_tick(&c, (int)rnd(2), (int)rnd(2)) == 0) {
        edges++;
        CHECK(edges <= 2 * 16 * (p->l.depth + 1));
        if (one_in(40))
            (void)ref_read(&c, 3, &v); /* must make no difference */
    }
    CHECK(edges == want);
}

/* ---- one call of each kind, entered in the ledger -------------------- */

/* A refused call, or a tick without an edge, changes not one byte. */
static void refused(const struct pair *p, const struct ref_spi *before, int r)
{
    if (r > 0)
        st_refused[r]++;
    else
        st_noedge++;
    CHECK(memcmp(&p->m, before, sizeof p->m) == 0);
}

/* Document 02, requests One and Three: the first mistake in the settings. */
static int expected_enable_refusal(const struct ledger *l)
{
    unsigned c = l->con1;
    int undivided = (c & 0x103F) == 0x003F;
    int late = (c & 0x0200) != 0;
    int unselected = (c & 0x01A0) == 0x0100 && !l_framed(l);

    st_together += undivided + late + unselected > 1;
    return undivided ? 13 : late ? 14 : unselected ? 15 : 0;
}

static void do_write(struct pair *p, unsigned reg, unsigned value)
{
    struct ref_spi before = p->m;
    struct ledger *l = &p->l;
    int want = 0;
    int r = ref_write(&p->m, reg, value);

    calls++;
    if (reg > 3)
        want = 1;
    else if (reg == 3 && !l_en(l))
        want = 2;
    else if ((reg == 1 || reg == 2) && l_en(l))
        want = 3;
    else if (reg == 0 && !l_en(l) && (value & 0x8000))
        want = expected_enable_refusal(l);
    else if (reg == 3 && l_waiting(l) == l_depth(l))
        want = 5;
    CHECK(r == want);
    st_no_room[l_which(l)] += (unsigned long)(r == 5 && l_ben(l));
    if (r != 0) {
        refused(p, &before, r);
        demand3(p);
        return;
    }
    switch (reg) {
    case 0: {
        int was = l_en(l);
        if (was && l_marked(l)) {
            if (!(value & 0x8000))
                st_unmarked[value >> 6 & 1 && l->rov]++;
            else if (!(value & 0x40))
                st_rov_cleared += (unsigned long)l->rov;
        }
        l->stat_rw = value & 0xA01C;
        if (!(value & 0x40))
            l->rov = 0;
        if (was && !l_en(l))
            demand3_whole(l);
        if (!was && l_en(l)) {
            l_enable(l);
            st_enable++;
            CHECK(p->m.sdo == 0);
        }
        break;
    }
    case 1: l->con1 = value & 0x1FFF; break;
    case 2: l->con2 = value & 0xE003; break;
    default: {
        int before_left = l_left(l);
        CHECK(l->n_accepted < MAXW);
        l->accepted[l->n_accepted++] = value & (l_w(l) == 16 ? 0xFFFF : 0xFF);
        l_events(l, 1, 0, 0, 0, !before_left && l_left(l));
        if (!l_cke(l) || l->begun || l_unfinished(l) > 1)
            CHECK(p->m.sdo == before.sdo);
        break;
    }
    }
    demand3(p);
}

static void do_read(struct pair *p, unsigned reg)
{
    struct ref_spi before = p->m;
    struct ledger *l = &p->l;
    unsigned v = 0xABCDEF01u;
    int want = 0;
    int r = ref_read(&p->m, reg, &v);

    calls++;
    if (reg > 3)
        want = 1;
    else if (reg == 3 && !l_en(l))
        want = 2;
    else if (reg == 3 && l_marked(l))
        want = 16;
    else if (reg == 3 && l_unread(l) == 0)
        want = 6;
    CHECK(r == want);
    if (r != 0) {
        CHECK(v == 0xABCDEF01u);
        refused(p, &before, r);
    } else if (reg == 3) {
        CHECK(l->n_read < MAXW);
        CHECK(v == l->kept[l->n_read]);
        l->read[l->n_read++] = v;
        l_events(l, 0, 1, 0, 0, 0);
    } else {
        CHECK(memcmp(&p->m, &before, sizeof before) == 0);
    }
    demand3(p);
}

/* Enters an edge of a begun word, given SDI and the SDO level on either side
 * of the edge. */
static void l_edge(struct pair *p, int sdi, int sdo_before, int sdo_after)
{
    struct ledger *l = &p->l;
    int w = l_w(l);
    int odd;

    l->k++;
    odd = l->k & 1;
    if (l_cke(l)) {
        if (odd) {
            l->in = l->in << 1 | (unsigned)sdi;
            l->out = l->out << 1 | (unsigned)sdo_before;
            CHECK(sdo_before == sdo_after);
        }
    } else {
        if (odd) {
            l->out = l->out << 1 | (unsigned)sdo_after;
        } else {
            l->in = l->in << 1 | (unsigned)sdi;
            CHECK(sdo_before == sdo_after);
        }
    }
    if (l->k == 2 * w) {
        int was_filler = l->filler;
        int appended = 0;
        int waiting_before = l_waiting(l);
        unsigned v;

        l->n_received++;
        if (l_drops(l)) {
            if (!l_ben(l)) {
                st_lost_standard++;
            } else if (!l_marked(l)) {
                st_marked[l_own(l)][l_framed(l)]++;
            } else {
                st_lost_marked++;
                st_rov_again += (unsigned long)!l->rov;
            }
            l->n_lost++;
            l->rov = 1;
            st_lost++;
            st_lost_deep[l_which(l)] += (unsigned long)l_ben(l);
            /* SPIROV must be up as soon as the word is lost */
            CHECK(ref_read(&p->m, 0, &v) == 0 && (v & 0x40));
        } else {
            CHECK(l->n_kept < MAXW);
            l->kept[l->n_kept++] = l->in;
            appended = 1;
            st_kept++;
        }
        if (l_framed(l)) {
            st_framed[l_own(l)][l_fclient(l)][l_frmdly(l)][l_active(l)]
                     [w == 16]++;
            st_framed_filler += (unsigned long)was_filler;
        }
        if (was_filler) {
            CHECK(l->out == 0);
            st_filler++;
        } else {
            CHECK(l->n_sent < l->n_accepted);
            CHECK(l->out == l->accepted[l->n_sent]);
            l->sent[l->n_sent++] = l->out;
            st_sent++;
        }
        l->begun = l->filler = l->k = 0;
        l->in = l->out = 0;
        l_events(l, 0, 0, 1, appended, l_waiting(l) < waiting_before);
    }
}

/* A frame host: its SS after the edge tells what it did. SS goes active at a
 * transmit edge alone, for one clock, and exactly where the paper has it. */
static void l_given(struct pair *p)
{
    struct ledger *l = &p->l;
    int transmit = l->sck != l_ckp(l);
    int last_bit = l->begun && l->k + 1 == 2 * l_w(l) - 1;
    int active = ref_ss(&p->m) == l_active(l);
    int begins;

    if (!transmit) {
        CHECK(active == l->pulse);
        return;
    }
    CHECK(!(active && l->pulse));
    if (l_frmdly(l)) {
        CHECK(active == (!l->begun && l_unfinished(l) > 0));
        begins = active;
    } else {
        CHECK(!(l->pulse && l->begun));
        if (l->begun)
            CHECK(active == (last_bit && l_waiting(l) > 0));
        else
            CHECK(active == (!l->pulse && l_unfinished(l) > 0));
        begins = l->pulse;
        st_last_bit += (unsigned long)(active && last_bit);
        st_late += (unsigned long)(active && !last_bit && l->n_sent > 0);
    }
    if (begins) {
        CHECK(l_unfinished(l) > 0);
        l->begun = 1;
    }
    l->pulse = active;
    l->n_pulses += active;
    st_given[l_frmdly(l)] += (unsigned long)active;
}

/* A frame client, before the edge is entered: a pulse seen half a clock ago
 * begins a word, a filler if there is nothing to send now. */
static void l_started(struct ledger *l)
{
    if (l->sck == l_ckp(l) || l->begun)
        return;
    l->begun = l->pulse;
    l->filler = l->pulse && l_unfinished(l) == 0;
}

/* And after it: SS is looked at on a sample edge with no word under way. */
static void l_looks(struct ledger *l, int finished)
{
    if (l->sck != l_ckp(l) || l->begun)
        return;
    l->pulse = l->ss == l_active(l);
    st_sampled += (unsigned long)l->pulse;
    st_at_finish += (unsigned long)(l->pulse && finished);
}

/* Enters an edge of a framed module, whose clock and select levels are in the
 * ledger already. Without a word nothing comes in and SDO stays. */
static void l_framed_edge(struct pair *p, int sdi, int sdo_before)
{
    struct ledger *l = &p->l;
    int words = l->n_received;

    if (l_fhost(l))
        l_given(p);
    else
        l_started(l);
    if (l->begun) {
        l_edge(p, sdi, sdo_before, p->m.sdo);
    } else {
        CHECK(p->m.sdo == sdo_before);
        st_idle_clock += (unsigned long)!l->pulse;
    }
    if (l_fclient(l))
        l_looks(l, l->n_received > words);
}

/* A tick has come, or the merged call to a module with its own clock; r is the
 * answer. The merged call has no wrong kind of module. */
static int ticked(struct pair *p, const struct ref_spi *was, int r, int sdi,
                  int ss)
{
    struct ref_spi before = *was;
    struct ledger *l = &p->l;
    int want = 0;

    calls++;
    if (!l_en(l))
        want = 2;
    else if (!l_own(l))
        want = 7;
    else if (l_unfinished(l) == 0 && !l_framed(l))
        want = -1;
    CHECK(r == want);
    if (r != 0) {
        refused(p, &before, r);
    } else if (l_framed(l)) {
        l->sck = !l->sck;
        if (l_fclient(l))
            l->ss = ss;
        l_framed_edge(p, sdi, before.sdo);
    } else {
        l->begun = 1;
        l->sck = !l->sck;
        l_edge(p, sdi, before.sdo, p->m.sdo);
    }
    demand3(p);
    return r;
}

static int do_tick(struct pair *p, int sdi, int ss)
{
    struct ref_spi before = p->m;

    return ticked(p, &before, ref_tick(&p->m, sdi, ss), sdi, ss);
}

/* The same for levels at the pins. */
static void shown(struct pair *p, const struct ref_spi *was, int r, int sck,
                  int sdi, int ss)
{
    struct ref_spi before = *was;
    struct ledger *l = &p->l;
    int want = 0;

    calls++;
    if (!l_en(l))
        want = 2;
    else if (l_own(l))
        want = 7;
    CHECK(r == want);
    if (r != 0) {
        refused(p, &before, r);
    } else {
        int edge = sck != l->sck;
        int selected = !l_ssc(l) || ss == 0;
        if (l_ssc(l) && ss && !l->ss && l->begun) {
            l->begun = l->filler = l->k = 0;
            l->in = l->out = 0;
            st_abort++;
        }
        l->ss = ss;
        l->sck = sck;
        if (edge && l_framed(l)) {
            l_framed_edge(p, sdi, before.sdo);
        } else if (edge && selected) {
            if (!l->begun && sck != l_ckp(l) &&
                (!l_host(l) || l_unfinished(l) > 0)) {
                l->begun = 1;
                l->filler = l_unfinished(l) == 0;
                l->k = 0;
            }
            if (l->begun)
                l_edge(p, sdi, before.sdo, p->m.sdo);
            else
                CHECK(p->m.sdo == before.sdo);
        } else if (!l_cke(l)) {
            CHECK(p->m.sdo == before.sdo);
        }
    }
    demand3(p);
}

static void do_pins(struct pair *p, int sck, int sdi, int ss)
{
    struct ref_spi before = p->m;

    shown(p, &before, ref_pins(&p->m, sck, sdi, ss), sck, sdi, ss);
}

/* Request Eleven: the merged call is entered as what it stands for. A module
 * with its own clock does the same whatever SCK is, and whatever SS is unless
 * it is a frame client. */
static void do_step(struct pair *p, int sck, int sdi, int ss)
{
    struct ref_spi before = p->m, other = p->m;
    struct ledger *l = &p->l;
    int own = l_own(l);
    int r = ref_step(&p->m, sck, sdi, ss);

    CHECK(ref_step(&other, sck != own, sdi, ss != (own && !l_fclient(l))) == r);
    CHECK(memcmp(&other, &p->m, sizeof other) == 0);
    st_step[own][l_framed(l)]++;
    if (own)
        (void)ticked(p, &before, r, sdi, ss);
    else
        shown(p, &before, r, sck, sdi, ss);
}

static void do_clear(struct pair *p)
{
    calls++;
    ref_clear(&p->m);
    p->l.flag = 0;
    demand3(p);
}

static int wire(const struct ref_spi *m)
{
    int s = ref_sdo(m);
    return s == 2 ? 0 : s;
}

static void do_linked(struct pair *h, struct pair *c, unsigned limit)
{
    struct ref_spi hc = h->m, cc = c->m;
    unsigned used = 0xABCDu;
    unsigned n = 0;
    int want = 0;
    int unf = l_unfinished(&h->l), k = h->l.k;
    int r = ref_linked(&hc, &cc, limit, &used);

    calls++;
    if (limit > 544)
        want = 11;
    else if (!l_en(&h->l) || !l_en(&c->l))
        want = 2;
    else if (!l_own(&h->l) || l_host(&c->l) || l_framed(&h->l) ||
             l_framed(&c->l))
        want = 7;
    else if ((h->l.con1 ^ c->l.con1) & 0x540)
        want = 10;
    CHECK(r == want);
    if (r != 0) {
        st_refused[r]++;
        st_unlinked += (unsigned long)(r == 7 && l_own(&h->l) &&
                                       !l_host(&c->l)); /* framed */
        CHECK(used == 0xABCDu);
        CHECK(memcmp(&hc, &h->m, sizeof hc) == 0);
        CHECK(memcmp(&cc, &c->m, sizeof cc) == 0);
        return;
    }
    st_linked++;
    st_depths[l_which(&h->l)][l_which(&c->l)] +=
        (unsigned long)(l_ben(&h->l) && l_ben(&c->l));
    /* the same again, call by call, and entered */
    do_pins(c, ref_sck(&h->m), wire(&h->m), 0);
    for (;;) {
        if (n == limit)
            break;
        if (do_tick(h, wire(&c->m), (int)rnd(2)) != 0)
            break;
        n++;
        do_pins(c, ref_sck(&h->m), wire(&h->m), 0);
    }
    CHECK(used == n);
    CHECK(memcmp(&hc, &h->m, sizeof hc) == 0);
    CHECK(memcmp(&cc, &c->m, sizeof cc) == 0);
    {
        int owed = 2 * l_w(&h->l) * unf - k;
        CHECK((int)used == (owed < (int)limit ? owed : (int)limit));
    }
}

static void do_clock(struct pair *p)
{
    static const uint32_t fs[] = {0, 1, 2, 7, 40000000u, 0xFFFFFFFFu, 512};
    static const int prim[4] = {64, 16, 4, 1};
    struct ledger *l = &p->l;
    uint32_t f = one_in(2) ? fs[rnd(7)] : (uint32_t)(rs >> 20);
    int kind = -7;
    double rate = 0, bt = 0;
    struct ref_spi before = p->m;
    int r = ref_clock(&p->m, f, &kind, &rate, &bt);

    calls++;
    CHECK(memcmp(&before, &p->m, sizeof before) == 0);
    CHECK(r == (f == 0 ? 8 : 0));
    if (r) {
        st_refused[r]++;
        CHECK(kind == -7);
        return;
    }
    if (!l_en(l)) {
        CHECK(kind == 0);
    } else if (l_own(l)) {
        int d = prim[l->con1 & 3] * (8 - (int)(l->con1 >> 2 & 7));
        CHECK(kind == 1);
        CHECK(rate == (double)f / d && bt == d / (double)f);
        if (f % (uint32_t)d == 0)
            CHECK(rate == (double)(f / (uint32_t)d));
    } else {
        CHECK(kind == 2 && rate == (double)f);
    }
}

/* Request Twelve: a depth that there is not is refused and changes not one
 * byte. */
static void do_wrong_depth(struct pair *p)
{
    static const unsigned near[] = {0, 1, 2, 3, 5, 6, 7, 9, 12, 15, 17, 32};
    struct ref_spi before = p->m;
    unsigned depth = one_in(3) ? 0x10000u * (1 + rnd(0xFFFF)) + 4 * rnd(5)
                               : near[rnd(12)];

    calls++;
    CHECK(ref_power_up_depth(&p->m, depth) == 25);
    refused(p, &before, 25);
}

/* Power-up of a module in any state, with a depth or without. */
static void do_power_up(struct pair *p)
{
    static const unsigned depths[3] = {4, 8, 16};
    unsigned depth = depths[rnd(3)];

    if (one_in(4))
        do_wrong_depth(p);
    calls++;
    if (depth == 8 && one_in(2))
        ref_power_up(&p->m);
    else
        CHECK(ref_power_up_depth(&p->m, depth) == 0);
    memset(&p->l, 0, sizeof p->l);
    p->l.depth = (int)depth;
    st_power_up[l_which(&p->l)]++;
    CHECK(!p->m.sck && !p->m.ss && !p->m.sdo && !p->m.pulse);
    demand3(p);
}

/* ---- random sequences ------------------------------------------------ */

static void set_up(struct pair *p, unsigned con1, unsigned con2)
{
    if (l_en(&p->l))
        do_write(p, 0, (unsigned)rnd(0x8000));
    do_write(p, 1, con1);
    do_write(p, 2, con2);
    do_write(p, 0, 0x8000u | rnd(0x8000));
}

static unsigned random_con1(void)
{
    unsigned c = rnd(0x2000);
    if (!one_in(8))
        c &= ~0x200u; /* mostly without SMP */
    if (!one_in(3))
        c &= ~0x1000u;
    if (!one_in(4))
        c &= ~0x800u;
    if (one_in(16))
        c |= 0x1F; /* both prescalers 1:1 */
    return c;
}

static unsigned random_con2(void)
{
    unsigned c = (unsigned)rnd(0x10000);
    if (one_in(4))
        c |= 1;
    return c;
}

/* SS as shown to a module: a client under select control is selected soon and
 * deselected seldom; a frame client gets a pulse now and then, or many. */
static int some_ss(const struct ledger *l, int often)
{
    if (l_ssc(l))
        return l->ss ? !one_in(3) : one_in(60);
    if (l_fclient(l))
        return one_in(often ? 2 : 9) ? l_active(l) : !l_active(l);
    return (int)rnd(2);
}

/* One random step; the mood says how much of it is writing, clocking and
 * reading. */
static void random_call(struct pair *p, unsigned mood)
{
    static const unsigned weights[6][3] = {
        /* writing, clocking, reading: parts of 100 */
        {30, 40, 20}, {60, 30, 3}, {4, 80, 8}, {4, 90, 1}, {20, 60, 1},
        {2, 55, 40}};
    unsigned x = rnd(100);
    const unsigned *q = weights[mood];
    struct ledger *l = &p->l;

    if (l_en(l) && l->n_accepted > MAXW - 4) {
        do_write(p, 0, (unsigned)rnd(0x8000));
        return;
    }
    if (l_en(l) && l->n_kept > MAXW - 4) {
        do_write(p, 0, (unsigned)rnd(0x8000));
        return;
    }
    if (l_en(l) && l_marked(l) && one_in(40)) {
        /* out of the mark, with the same settings */
        do_write(p, 0, (unsigned)rnd(0x8000));
        do_write(p, 0, 0x8000u | rnd(0x8000));
        return;
    }
    if (x < q[0]) {
        do_write(p, 3, rnd(0x10000));
    } else if (x < q[0] + q[1]) {
        int n = one_in(2) ? 1 : 1 + (int)rnd(40);
        int same = one_in(4), often = one_in(3), step = one_in(3);
        int i;
        for (i = 0; i < n; i++) {
            int ss = some_ss(l, often);
            int sck = same ? (int)rnd(2) : !l->sck;
            if (step)
                do_step(p, l_own(l) ? (int)rnd(2) : sck, (int)rnd(2), ss);
            else if (l_own(l) ? !one_in(200) : one_in(200))
                do_tick(p, (int)rnd(2), ss);
            else
                do_pins(p, sck, (int)rnd(2), ss);
        }
    } else if (x < q[0] + q[1] + q[2]) {
        do_read(p, 3);
    } else {
        switch (rnd(13)) {
        case 0: do_clear(p); break;
        case 1: do_read(p, rnd(3)); break;
        case 2: do_read(p, one_in(2) ? 4 : rnd(70000)); break;
        case 3: do_write(p, one_in(2) ? 4 : rnd(70000), rnd(0x10000)); break;
        case 4: do_write(p, 1 + rnd(2), rnd(0x10000)); break;
        case 5: case 6: /* STAT, mostly leaving SPIEN on */
            do_write(p, 0, rnd(0x10000) | (one_in(60) ? 0 : 0x8000));
            break;
        case 7: do_write(p, 0, 0x8040u | rnd(8) << 2); break;
        case 8: do_clock(p); break;
        case 9: do_read(p, 3); break;
        case 10: drain(p); break;
        case 11:
            if (!l_en(l)) {
                if (one_in(2))
                    do_write(p, 1, random_con1());
                if (one_in(2))
                    do_write(p, 2, random_con2());
                do_write(p, 0, 0x8000u | rnd(0x8000));
            } else {
                do_clear(p);
            }
            break;
        case 12: do_wrong_depth(p); break;
        }
    }
}

static void print_depths(void)
{
    int d, i;

    for (d = 0; d < 3; d++) {
        printf("depth %2d: power-ups %lu, no room %lu, words lost %lu, full "
               "drains %lu\n  linked with 4: %lu, 8: %lu, 16: %lu; flag set "
               "by SISEL",
               4 << d, st_power_up[d], st_no_room[d], st_lost_deep[d],
               st_full_drain[d], st_depths[d][0], st_depths[d][1],
               st_depths[d][2]);
        for (i = 0; i < 8; i++)
            printf(" %d:%lu", i, st_flagset[d][i]);
        printf(" standard:%lu\n", st_flagset[d][8]);
    }
}

static void print_marks(void)
{
    printf("marked: own clock %lu, framed %lu, pin clock %lu, framed %lu; "
           "words lost under the mark %lu, in standard operation %lu\n",
           st_marked[1][0], st_marked[1][1], st_marked[0][0], st_marked[0][1],
           st_lost_marked, st_lost_standard);
    printf("under the mark SPIROV cleared %lu and set again %lu; turned off "
           "with SPIROV 0 %lu, with SPIROV 1 %lu\n",
           st_rov_cleared, st_rov_again, st_unmarked[0], st_unmarked[1]);
}

static void print_framed(void)
{
    int i;

    printf("pulses given %lu with FRMDLY 0 (on a last bit %lu, after it %lu) "
           "and %lu with 1, sampled %lu (at a last edge %lu)\n",
           st_given[0], st_last_bit, st_late, st_given[1], st_sampled,
           st_at_finish);
    printf("framed: clock edges alone %lu, fillers %lu, linked runs refused "
           "%lu, drains %lu\n",
           st_idle_clock, st_framed_filler, st_unlinked, st_framed_drain);
    printf("framed words by width, FRMPOL and FRMDLY");
    for (i = 0; i < 32; i++) {
        if (i % 8 == 0)
            printf("\n  %s clock, frame %s:", i / 16 ? "own" : "pin",
                   i / 8 % 2 ? "client" : "host");
        printf(" %lu", st_framed[i / 16][i / 8 % 2][i % 2][i / 2 % 2]
                                [i / 4 % 2]);
    }
    printf("\n");
}

int main(int argc, char **argv)
{
    static struct pair a, b;
    unsigned long limit = argc > 2 ? strtoul(argv[2], 0, 10) : 6000000ul;
    int i;

    seed0 = argc > 1 ? strtoul(argv[1], 0, 10) : 1;
    rs = 0x9E3779B97F4A7C15ull ^ ((uint64_t)seed0 * 0xD1B54A32D192ED03ull);
    for (i = 0; i < 20; i++)
        (void)rnd(2);

    do_power_up(&a);
    do_power_up(&b);
    while (calls < limit) {
        unsigned turns = 20 + rnd(400);
        unsigned mood = rnd(6);

        if (one_in(10))
            do_power_up(&a);
        if (one_in(10))
            do_power_up(&b);
        if (one_in(2)) {
            /* one module by itself, in any mode */
            set_up(&a, random_con1(), random_con2());
            while (turns--) {
                random_call(&a, mood);
                if (one_in(50))
                    mood = rnd(6);
                if (one_in(100))
                    drain(&a);
            }
        } else {
            /* two modules that mostly fit each other */
            unsigned common = rnd(0x2000) & 0x540;
            unsigned hc = common | 0x20 | rnd(31) | (one_in(6) ? 0x800 : 0) |
                          (one_in(4) ? 0x80 : 0);
            unsigned cc = common | (one_in(2) ? 0x80 : 0) |
                          (one_in(6) ? 0x800 : 0) | (one_in(8) ? 0x1000 : 0);
            if (cc & 0x100)
                cc |= 0x80;
            if (one_in(12))
                cc ^= 1u << rnd(13);
            set_up(&a, hc, rnd(2) | (one_in(12) ? 0x8000 : 0));
            set_up(&b, cc, rnd(2) | (one_in(12) ? 0xC000 : 0));
            while (turns--) {
                random_call(one_in(2) ? &a : &b, mood);
                if (one_in(4)) {
                    static const unsigned lim[] = {
                        0,  1,  2,  3,   15,  16,  17,  31,
                        32, 33, 287, 288, 289, 543, 544, 545};
                    unsigned n = one_in(2) ? lim[rnd(16)] : rnd(556);
                    if (one_in(60))
                        n = 0xFFFFFFFFu;
                    if (one_in(30))
                        do_linked(&b, &a, n);
                    else
                        do_linked(&a, &b, n);
                }
                if (one_in(50))
                    mood = rnd(6);
            }
        }
        demand3_whole(&a.l);
        demand3_whole(&b.l);
    }
    printf("seed %lu: %lu calls ok\n", seed0, calls);
    printf("enabled %lu, sent %lu, kept %lu, lost %lu, fillers %lu, aborts "
           "%lu, linked %lu, drains %lu, no edge %lu\n",
           st_enable, st_sent, st_kept, st_lost, st_filler, st_abort,
           st_linked, st_drain, st_noedge);
    printf("refusals");
    CHECK(st_refused[4] == 0 && st_refused[12] == 0);
    for (i = 1; i <= 16; i++)
        if (i != 4 && i != 9 && i != 12) /* no call gives these */
            printf(" %d:%lu", i, st_refused[i]);
    printf(" 25:%lu, with several mistakes at once %lu\n", st_refused[25],
           st_together);
    print_depths();
    printf("merged calls: own clock %lu, framed %lu, pin clock %lu, framed "
           "%lu\n",
           st_step[1][0], st_step[1][1], st_step[0][0], st_step[0][1]);
    print_marks();
    print_framed();
    return 0;
}
