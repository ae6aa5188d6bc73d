/* The figures of document 01 over the second model: the script worked in
 * full, the lettered examples, and those that the paper only asks to run.
 * Examples f, k and l are tried in more modes than the paper names. Examples b
 * and d give the numbers of document 02's request One, and further cases tell
 * which number stands where there are several mistakes. Then come the frames of
 * request Three, in every pairing, request Four's mark, in every role, and the
 * buffers of request Twelve, in every depth. */
#include "ref_spi.h"
#include "script.h"

#include <stdio.h>
#include <stdlib.h>
#include <string.h>

static int failures;
static int here;

static void begin(void) { here = 0; }

static void expect(int ok, const char *what, int line)
{
    if (!ok) {
        here++;
        failures++;
        printf("  FAIL line %d: %s\n", line, what);
    }
}
#define EXPECT(c) expect((c) != 0, #c, __LINE__)

static void end(const char *name)
{
    printf("%-52s %s\n", name, here == 0 ? "ok" : "FAILED");
}

/* What a read returns, or E0000 plus the refusal number. */
static unsigned get(struct ref_spi *m, unsigned reg)
{
    unsigned v = 0xFFFFFFFFu;
    int r = ref_read(m, reg, &v);
    return r == 0 ? v : 0xE0000u + (unsigned)r;
}

/* A module set up from power-up; *r is the answer to the STAT write. */
static struct ref_spi fresh(unsigned con1, unsigned con2, unsigned stat, int *r)
{
    struct ref_spi m;
    ref_power_up(&m);
    EXPECT(ref_write(&m, 1, con1) == 0);
    EXPECT(ref_write(&m, 2, con2) == 0);
    *r = ref_write(&m, 0, stat);
    return m;
}

/* The depths, and a module of one of them, set up and turned on. */
#define DEPTHS 3
static const unsigned depths[DEPTHS] = {4, 8, 16};

static struct ref_spi deep(unsigned depth, unsigned con1, unsigned con2,
                           unsigned stat)
{
    struct ref_spi m;
    EXPECT(ref_power_up_depth(&m, depth) == 0);
    EXPECT(ref_write(&m, 1, con1) == 0);
    EXPECT(ref_write(&m, 2, con2) == 0);
    EXPECT(ref_write(&m, 0, stat) == 0);
    return m;
}

/* Does this script print that? If not, both are shown. */
static int script_is(const char *in, size_t n, const char *want)
{
    char got[4096];
    size_t size;
    FILE *f = tmpfile();
    if (!f)
        return 0;
    script_run((const unsigned char *)in, n, f);
    rewind(f);
    size = fread(got, 1, sizeof got - 1, f);
    got[size] = 0;
    fclose(f);
    if (strcmp(got, want) != 0) {
        printf("--- got\n%s--- want\n%s---\n", got, want);
        return 0;
    }
    return 1;
}

static int prints(const char *in, const char *want)
{
    return script_is(in, strlen(in), want);
}

/* ---- request Three ---------------------------------------------------- */

/* What is varied over all framed modules, as bits of a number: CON1 and CON2
 * of the module, and the levels that follow from them. */
#define FRAMED_MODES 128

struct framed {
    unsigned con1, con2;
    int own, frmdly, ckp, active, w;
};

static struct framed framed_mode(unsigned mode, int spifsd)
{
    static const unsigned role[] = {0x0020, 0x1020, 0x0000, 0x0180};
    struct framed f;

    f.con1 = role[mode & 3] | (mode & 4 ? 0x0040 : 0) | (mode & 8 ? 0x0400 : 0);
    f.con2 = 0x8000u | (mode & 16 ? 0x2000 : 0) | (mode & 32 ? 0x0002 : 0) |
             (mode & 64 ? 0x0001 : 0) | (spifsd ? 0x4000 : 0);
    f.own = (mode & 3) == 0;
    f.ckp = (mode & 4) != 0;
    f.w = mode & 8 ? 16 : 8;
    f.active = (mode & 16) != 0;
    f.frmdly = (mode & 32) != 0;
    return f;
}

/* One edge, by a tick or by a pin call. */
static void framed_edge(struct ref_spi *m, const struct framed *f, int sdi,
                        int ss)
{
    if (f->own)
        EXPECT(ref_tick(m, sdi, ss) == 0);
    else
        EXPECT(ref_pins(m, !ref_sck(m), sdi, ss) == 0);
}

/* Two words from a frame host, written at once and without a gap between: at
 * each edge the bit at SDO, and the pulse where FRMDLY puts it. SDI is SDO, so
 * each word receives itself. */
static void framed_host(void)
{
    unsigned mode;

    begin();
    for (mode = 0; mode < FRAMED_MODES; mode++) {
        struct framed f = framed_mode(mode, 0);
        unsigned word[2] = {0xA53Cu >> (16 - f.w), 0x5AC3u >> (16 - f.w)};
        int edge, r, last = 2 * f.w * 2;
        struct ref_spi m = fresh(f.con1, f.con2, 0x8000, &r);

        EXPECT(r == 0);
        EXPECT(ref_ss(&m) == !f.active);
        /* the clock runs with nothing to send: no pulse, no bit, no word */
        for (edge = 0; edge < 6; edge++) {
            framed_edge(&m, &f, 1, f.active);
            EXPECT(ref_sck(&m) == (f.ckp ^ !(edge & 1)));
            EXPECT(ref_ss(&m) == !f.active && ref_sdo(&m) == 0);
        }
        EXPECT(ref_write(&m, 3, word[0]) == 0);
        EXPECT(ref_write(&m, 3, word[1]) == 0);
        EXPECT(ref_ss(&m) == !f.active);
        if (!f.frmdly) { /* one clock for the pulse, with SDO as it was */
            for (edge = 0; edge < 2; edge++) {
                framed_edge(&m, &f, 1, !f.active);
                EXPECT(ref_ss(&m) == f.active && ref_sdo(&m) == 0);
            }
        }
        for (edge = 1; edge <= last; edge++) {
            int at = (edge - 1) / 2 % f.w; /* which bit this is */
            int of = (edge - 1) / 2 / f.w; /* of which word */
            int pulse = f.frmdly ? at == 0 : at == f.w - 1 && of == 0;

            framed_edge(&m, &f, ref_sdo(&m), f.active);
            EXPECT(ref_sdo(&m) == (int)(word[of] >> (f.w - 1 - at) & 1));
            EXPECT(ref_ss(&m) == (pulse ? f.active : !f.active));
            if (edge == last / 2)
                EXPECT(get(&m, 3) == word[0]);
            if (edge < last)
                EXPECT(get(&m, 3) == 0xE0006);
        }
        EXPECT(get(&m, 3) == word[1]);
        /* and runs on */
        for (edge = 0; edge < 40; edge++) {
            framed_edge(&m, &f, 1, f.active);
            EXPECT(ref_ss(&m) == !f.active);
            EXPECT(ref_sdo(&m) == (int)(word[1] & 1));
        }
        EXPECT(get(&m, 3) == 0xE0006);
        /* turned off it lets go of SS; turned on it starts without a pulse */
        EXPECT(ref_write(&m, 3, word[0]) == 0);
        framed_edge(&m, &f, 1, 0);
        EXPECT(ref_ss(&m) == f.active);
        EXPECT(ref_write(&m, 0, 0) == 0 && ref_ss(&m) == REF_UNDRIVEN);
        EXPECT(ref_write(&m, 0, 0x8000) == 0 && ref_ss(&m) == !f.active);
        framed_edge(&m, &f, 1, 0);
        EXPECT(ref_ss(&m) == !f.active && !m.begun);
    }
    end("frame host: pulses, bits and levels at each edge");
}

/* A frame client: a word by a pulse, a word by a pulse at the last edge of the
 * one before, a filler, and no word without a pulse. It is the same for either
 * FRMDLY. */
static void framed_client(void)
{
    unsigned mode;

    begin();
    for (mode = 0; mode < FRAMED_MODES; mode++) {
        struct framed f = framed_mode(mode, 1);
        unsigned out[3] = {0xA53Cu >> (16 - f.w), 0x5AC3u >> (16 - f.w), 0};
        int edge, r, which;
        struct ref_spi m = fresh(f.con1, f.con2, 0x8000, &r);

        EXPECT(r == 0);
        EXPECT(ref_write(&m, 3, out[0]) == 0);
        EXPECT(ref_write(&m, 3, out[1]) == 0);
        for (edge = 0; edge < 6; edge++) {
            /* SS at transmit edges is not seen */
            framed_edge(&m, &f, 1, edge & 1 ? !f.active : f.active);
            EXPECT(!m.begun && ref_sdo(&m) == 0);
            EXPECT(ref_ss(&m) == REF_UNDRIVEN);
        }
        framed_edge(&m, &f, 1, !f.active);
        framed_edge(&m, &f, 1, f.active); /* the sample edge */
        EXPECT(!m.begun);
        for (which = 0; which < 3; which++) {
            for (edge = 1; edge <= 2 * f.w; edge++) {
                /* active where it does not count, and in the middle not
                 * where it would begin another word */
                int ss = edge == 2 * f.w ? which < 2 : edge % 3 == 0;
                int place = f.w - 1 - (edge - 1) / 2;

                framed_edge(&m, &f, (int)(out[which] >> place & 1) ^ 1,
                            ss ? f.active : !f.active);
                EXPECT(ref_sdo(&m) == (int)(out[which] >> place & 1));
            }
            EXPECT(get(&m, 3) == (~out[which] & (0xFFFFu >> (16 - f.w))));
        }
        for (edge = 0; edge < 10; edge++) {
            framed_edge(&m, &f, 1, !f.active);
            EXPECT(!m.begun && ref_sdo(&m) == 0);
        }
        EXPECT(get(&m, 3) == 0xE0006);
    }
    end("frame client: words and fillers by pulses alone");
}

/* A frame host and a frame client on one wire, either of them with the clock.
 * With FRMDLY 0 their words change places. With FRMDLY 1 the frame client is
 * one bit behind, since it begins at the transmit edge after the pulse: what it
 * takes in is shifted up by a bit, and what it sends comes in shifted down. */
static void framed_pair(void)
{
    static const unsigned given[3] = {0xA5C3, 0x3C5A, 0x8001};
    static const unsigned answered[3] = {0x0F1E, 0xB4D2, 0x6789};
    unsigned mode;

    begin();
    for (mode = 0; mode < 32; mode++) {
        unsigned con1 = (mode & 1 ? 0x0040 : 0) | (mode & 2 ? 0x0400 : 0);
        unsigned con2 = 0x8001 | (mode & 4 ? 0x2000 : 0);
        int behind = (mode & 8) != 0;
        int clock = mode & 16 ? 1 : 0; /* which one ticks */
        unsigned w = mode & 2 ? 16 : 8, mask = 0xFFFFu >> (16 - w);
        unsigned before = 0;
        struct ref_spi m[2]; /* the frame host, the frame client */
        struct ref_spi *h = &m[clock], *c = &m[!clock];
        int r, n;
        unsigned i;

        m[0] = fresh(con1 | (clock == 0 ? 0x0020 : 0),
                     con2 | (behind ? 0x0002 : 0), 0x8000, &r);
        EXPECT(r == 0);
        m[1] = fresh(con1 | (clock == 1 ? 0x0020 : 0), con2 | 0x4000, 0x8000,
                     &r);
        EXPECT(r == 0);
        for (i = 0; i < 3; i++) {
            EXPECT(ref_write(&m[0], 3, given[i]) == 0);
            EXPECT(ref_write(&m[1], 3, answered[i]) == 0);
        }
        for (n = 0; n < 2 * 4 * (int)w; n++) {
            /* both see the wires as they stood before the edge */
            int to_host = ref_sdo(c), to_client = ref_sdo(h);
            int ss = ref_ss(&m[0]);

            EXPECT(ref_tick(h, to_host, ss) == 0);
            EXPECT(ref_pins(c, ref_sck(h), to_client, ss) == 0);
        }
        for (i = 0; i < 3; i++) {
            unsigned g = given[i] & mask, a = answered[i] & mask;
            unsigned next = i < 2 ? (given[i + 1] & mask) >> (w - 1) : g & 1;

            if (behind) {
                unsigned down = before << (w - 1) | a >> 1;

                before = a & 1;
                a = down & mask;
                g = (g << 1 | next) & mask;
            }
            EXPECT(get(&m[1], 3) == g);
            EXPECT(get(&m[0], 3) == a);
        }
        EXPECT(get(&m[0], 3) == 0xE0006);
        EXPECT(get(&m[1], 3) == 0xE0006);
    }
    end("a frame host and a frame client on one wire");
}

/* A linked run does not take a framed module, at either end. */
static void framed_linked(void)
{
    unsigned mode;

    begin();
    for (mode = 0; mode < 16; mode++) {
        struct ref_spi h, c, hb, cb;
        unsigned used = 999;
        int r, want = mode & 3 ? 7 : 0;

        h = fresh(0x0020, mode & 1 ? (mode & 4 ? 0xC000 : 0x8000) : 0, 0x8000,
                  &r);
        c = fresh(mode & 8 ? 0x0040 : 0, mode & 2 ? 0x8000 : 0, 0x8000, &r);
        EXPECT(ref_write(&h, 3, 0xA5) == 0);
        hb = h;
        cb = c;
        if (want == 0 && mode & 8)
            want = 10; /* 7 comes before 10, which is of other modes */
        EXPECT(ref_linked(&h, &c, 545, &used) == 11);
        EXPECT(ref_linked(&h, &c, 16, &used) == want);
        if (want != 0) {
            EXPECT(used == 999);
            EXPECT(memcmp(&h, &hb, sizeof h) == 0);
            EXPECT(memcmp(&c, &cb, sizeof c) == 0);
        }
        EXPECT(ref_write(&c, 0, 0) == 0);
        EXPECT(ref_linked(&h, &c, 16, &used) == 2); /* 2 before 7 */
    }
    end("a linked run takes no framed module");
}

/* ---- request Four ----------------------------------------------------- */

/* The modules that can be enabled, in both widths, standard and enhanced: the
 * number holds CKP, MODE16, SPIBEN and one of eleven kinds. Beside it goes the
 * depth of request Twelve, in which standard operation has no part. */
#define MARK_KINDS 11
#define MARK_MODES (MARK_KINDS * 8)

struct overflow {
    struct ref_spi m;
    int own, fclient, active, w, ben, depth;
};

static struct overflow overflow_mode(unsigned mode, unsigned depth)
{
    static const struct {
        unsigned con1, con2;
    } kind[MARK_KINDS] = {
        {0x0020, 0}, {0x0120, 0}, {0x1020, 0}, {0x0000, 0}, /* no select */
        {0x0080, 0}, {0x0180, 0},                           /* SSEN client */
        {0x0020, 0x8000}, {0x0020, 0xC002}, {0x1020, 0xA002}, /* framed */
        {0x0000, 0xE000}, {0x0180, 0x8000},
    };
    unsigned con1 = kind[mode / 8].con1 | (mode & 1 ? 0x0040 : 0) |
                    (mode & 2 ? 0x0400 : 0);
    unsigned con2 = kind[mode / 8].con2 | (mode & 4 ? 1 : 0);
    struct overflow o;

    o.own = (con1 & 0x1020) == 0x0020;
    o.fclient = con2 >> 14 == 3;
    o.active = con2 >> 13 & 1;
    o.w = mode & 2 ? 16 : 8;
    o.ben = con2 & 1;
    o.depth = o.ben ? (int)depth : 1;
    o.m = deep(depth, con1, con2, 0x8000);
    return o;
}

/* A word goes out, and one of ones or zeros alone comes in. */
static void exchange(struct overflow *o, unsigned word, int sdi)
{
    int n;

    EXPECT(ref_write(&o->m, 3, word) == 0);
    for (n = 0; n < 2 * o->w + 4; n++) {
        int ss = o->fclient ? (n < 2 ? o->active : !o->active) : 0;

        if (o->own)
            (void)ref_tick(&o->m, sdi, ss);
        else
            EXPECT(ref_pins(&o->m, !ref_sck(&o->m), sdi, ss) == 0);
        if (!o->m.begun && !o->m.loaded && o->m.tx.n == 0 &&
            ref_sck(&o->m) == o->m.ckp)
            break;
    }
    EXPECT(!o->m.begun && !o->m.loaded && o->m.tx.n == 0);
}

/* What STAT shows of the receive side: SPIROV, SRXMPT, SPIRBF. */
static unsigned receive_side(struct overflow *o)
{
    return get(&o->m, 0) & 0x0061;
}

/* In every role: a buffer filled, a word lost, SPIROV cleared, another lost,
 * reads in between, the module turned off and on. In standard operation the
 * word that is held can be read at any time, and the next one is kept. */
static void marked_roles(void)
{
    unsigned mode, off;
    int k;

    begin();
    for (mode = 0; mode < DEPTHS * 2 * MARK_MODES; mode++) {
        struct overflow o =
            overflow_mode(mode / 2 % MARK_MODES, depths[mode / 2 / MARK_MODES]);
        unsigned ones = 0xFFFFu >> (16 - o.w);

        for (k = 0; k < o.depth; k++)
            exchange(&o, 0x1111u * (unsigned)k, k & 1);
        EXPECT(receive_side(&o) == 0x0001); /* full, and nothing is lost */
        exchange(&o, 0xA5A5, 1);
        EXPECT(receive_side(&o) == 0x0041);
        if (!o.ben) {
            EXPECT(!o.m.mark);
            EXPECT(get(&o.m, 3) == 0);
            EXPECT(get(&o.m, 3) == 0xE0006);
            EXPECT(receive_side(&o) == 0x0040);
            exchange(&o, 0x5A5A, 1);
            EXPECT(get(&o.m, 3) == ones);
            continue;
        }
        EXPECT(get(&o.m, 3) == 0xE0010);
        EXPECT(get(&o.m, 4) == 0xE0001); /* 1 before 16 */
        EXPECT(ref_write(&o.m, 0, 0x8000) == 0); /* SPIROV goes, not the mark */
        EXPECT(receive_side(&o) == 0x0001);
        EXPECT(get(&o.m, 3) == 0xE0010);
        exchange(&o, 0xC3C3, 0);
        EXPECT(receive_side(&o) == 0x0041);
        EXPECT(get(&o.m, 3) == 0xE0010);
        for (k = 0; k < o.depth; k++) /* all are as they came */
            EXPECT(o.m.rx.word[k] == (k & 1 ? ones : 0));
        EXPECT(o.m.rx.n == o.depth && o.m.mark);
        /* turned off by a write that clears SPIROV, or by one that does not */
        off = mode & 1 ? 0x0040 : 0x0000;
        EXPECT(ref_write(&o.m, 0, off) == 0);
        EXPECT(get(&o.m, 0) == off);
        EXPECT(get(&o.m, 3) == 0xE0002); /* 2 before 16 */
        EXPECT(ref_write(&o.m, 0, 0x8000 | off) == 0);
        EXPECT(receive_side(&o) == (0x0020 | off));
        EXPECT(get(&o.m, 3) == 0xE0006);
        exchange(&o, 0x3C3C, 1); /* SPIROV that was left up is no mark */
        EXPECT(receive_side(&o) == off);
        EXPECT(get(&o.m, 3) == ones);
    }
    end("a word lost: marked with SPIBEN, readable without");
}

/* The interrupt flag under the mark: no word is appended or read, so SISEL 0
 * to 3 raise nothing; sending goes on, and 4 to 7 are as ever. */
static void marked_sisel(void)
{
    unsigned sisel;
    int k;

    begin();
    for (sisel = 0; sisel < 8; sisel++) {
        struct overflow o = overflow_mode(4, 8); /* host, 8 bits, enhanced */
        int raised[4]; /* a write, eight more, a finish, the last finish */

        for (k = 0; k < 9; k++)
            exchange(&o, 0, 0);
        EXPECT(o.m.mark);
        EXPECT(ref_write(&o.m, 0, 0x8000 | sisel << 2) == 0);
        ref_clear(&o.m);
        EXPECT(ref_write(&o.m, 3, 0xA5) == 0);
        raised[0] = ref_flag(&o.m);
        ref_clear(&o.m);
        for (k = 0; k < 8; k++)
            EXPECT(ref_write(&o.m, 3, 0x5A) == 0);
        raised[1] = ref_flag(&o.m);
        ref_clear(&o.m);
        for (k = 0; k < 16; k++)
            EXPECT(ref_tick(&o.m, 1, 0) == 0);
        raised[2] = ref_flag(&o.m);
        for (k = 0; k < 7 * 16; k++)
            EXPECT(ref_tick(&o.m, 1, 0) == 0);
        ref_clear(&o.m);
        for (k = 0; k < 16; k++)
            EXPECT(ref_tick(&o.m, 1, 0) == 0);
        raised[3] = ref_flag(&o.m);
        EXPECT(raised[0] == (sisel == 6));
        EXPECT(raised[1] == (sisel == 7));
        EXPECT(raised[2] == (sisel == 4));
        EXPECT(raised[3] == (sisel == 5));
        ref_clear(&o.m);
        EXPECT(get(&o.m, 3) == 0xE0010 && ref_flag(&o.m) == 0);
        EXPECT(get(&o.m, 0) == (0x80C1u | sisel << 2));
    }
    end("a marked host still sends, and its flag is raised");
}

/* Linked runs: each end is marked by its own losses alone, and a marked end
 * goes on sending. A run in two pieces ends as the run in one. */
static void marked_linked(void)
{
    unsigned mode;

    begin();
    for (mode = 0; mode < 16; mode++) {
        int host_deep = mode & 1, client_deep = mode >> 1 & 1;
        unsigned ssen = mode & 4 ? 0x0080 : 0, used = 0, i;
        int pieces = mode & 8 ? 2 : 1;
        struct ref_spi h, c;
        int r, k;

        h = fresh(0x0020, (unsigned)host_deep, 0x8000, &r);
        c = fresh(ssen, (unsigned)client_deep, 0x8000, &r);
        EXPECT(r == 0);
        /* ten words, one at a time; the client answers each */
        for (i = 0; i < 10; i++) {
            EXPECT(ref_write(&h, 3, 0xA0 + i) == 0);
            EXPECT(ref_write(&c, 3, 0x50 + i) == 0);
            for (k = 0; k < pieces; k++) {
                unsigned limit = pieces == 1 ? 544 : k == 0 ? 5 : 11;

                EXPECT(ref_linked(&h, &c, limit, &used) == 0);
                EXPECT(used == (pieces == 1 ? 16 : limit));
            }
            EXPECT(h.mark == (host_deep && i > 7));
            EXPECT(c.mark == (client_deep && i > 7));
        }
        EXPECT(get(&h, 3) == (host_deep ? 0xE0010 : 0x50));
        EXPECT(get(&c, 3) == (client_deep ? 0xE0010 : 0xA0));
        /* one end is turned off and on; the other keeps its mark */
        EXPECT(ref_write(&h, 0, 0) == 0 && ref_write(&h, 0, 0x8000) == 0);
        EXPECT(ref_write(&h, 3, 0x77) == 0 && ref_write(&c, 3, 0x88) == 0);
        EXPECT(ref_linked(&h, &c, 544, &used) == 0 && used == 16);
        EXPECT(get(&h, 3) == 0x88);
        EXPECT(get(&c, 3) == (client_deep ? 0xE0010 : 0x77));
    }
    end("linked: each end is marked by its own losses");
}

/* Modules as no calls make them. Marked with room: 16 stands before 6, a word
 * is dropped all the same, and turning it off helps. Marked and off: 2 stands
 * before 16. From power-up a marked module is enabled and has as many words
 * unread as its buffer holds, so there none of this can be seen. */
static void marked_made(void)
{
    struct overflow o;
    int unread;

    begin();
    for (unread = 0; unread < 8; unread++) {
        o = overflow_mode(4, 8);
        o.m.rx.n = unread;
        o.m.mark = 1;
        EXPECT(get(&o.m, 3) == 0xE0010);
        EXPECT(receive_side(&o) == (unread == 0 ? 0x0020u : 0u));
        exchange(&o, 0xA5, 1);
        EXPECT(o.m.rx.n == unread && o.m.mark);
        EXPECT(receive_side(&o) == (unread == 0 ? 0x0060u : 0x0040u));
        EXPECT(get(&o.m, 3) == 0xE0010);
        EXPECT(ref_write(&o.m, 0, 0) == 0 && ref_write(&o.m, 0, 0x8000) == 0);
        EXPECT(get(&o.m, 3) == 0xE0006);
    }
    ref_power_up(&o.m);
    o.m.mark = 1;
    EXPECT(get(&o.m, 3) == 0xE0002);
    end("made otherwise, marked with room: 16, and words drop");
}

/* ---- request Twelve --------------------------------------------------- */

/* Every other number is refused with 25, and the module stays as it was: off
 * or at work. A depth that there is makes a new module of any. */
static void depth_refused(void)
{
    static const unsigned far[] = {0x10004u, 0x10008u, 0x100u, 0x80000008u,
                                   0xFFFFFFFCu, 0xFFFFFFFFu};
    unsigned i, n;

    begin();
    for (i = 0; i < 70; i++) {
        unsigned depth = i < 64 ? i : far[i - 64];
        int is = depth == 4 || depth == 8 || depth == 16;
        struct ref_spi m = deep(depths[i % DEPTHS], 0x0020, 1, 0x801C), before;

        for (n = 0; n < 4; n++)
            EXPECT(ref_write(&m, 3, n) == 0);
        if (is) {
            memset(&before, 0, sizeof before);
            before.depth = (int)depth;
            EXPECT(ref_power_up_depth(&m, depth) == 0);
            EXPECT(memcmp(&m, &before, sizeof m) == 0);
            before.depth = 8; /* and without a depth it is 8 again */
            ref_power_up(&m);
            EXPECT(memcmp(&m, &before, sizeof m) == 0);
            continue;
        }
        for (n = 0; n < 2; n++) { /* at work, then turned off */
            before = m;
            EXPECT(ref_power_up_depth(&m, depth) == 25);
            EXPECT(memcmp(&m, &before, sizeof m) == 0);
            EXPECT(ref_write(&m, 0, 0) == 0);
        }
    }
    end("25 for other depths, and nothing is changed");
}

/* Examples h and i, and what a client shows; the figures are worked out from
 * the STAT bits. A full host of 4 shows 4 in SPIBEC, deeper ones show 7. */
static void depth_full(void)
{
    static const struct {
        unsigned depth, host, client; /* STAT, full and enabled */
    } figure[DEPTHS] = {
        {4, 0x8422, 0x8481}, {8, 0x8722, 0x8781}, {16, 0x8722, 0x8781}};
    unsigned d, i;

    begin();
    for (d = 0; d < DEPTHS; d++) {
        unsigned n = figure[d].depth, edges = 0;
        struct ref_spi m = deep(n, 0x0020, 1, 0x8000);

        for (i = 0; i < n + 1; i++) {
            /* one is in the shift register, i wait */
            EXPECT(ref_write(&m, 3, 0x10 + i) == 0);
            EXPECT((get(&m, 0) >> 8 & 7) == (i > 7 ? 7 : i));
            EXPECT((get(&m, 0) >> 1 & 1) == (i == n));
        }
        EXPECT(get(&m, 0) == figure[d].host);
        EXPECT(ref_write(&m, 3, 0x99) == 5);
        EXPECT(get(&m, 0) == figure[d].host);
        while (ref_tick(&m, ref_sdo(&m), 0) == 0)
            edges++;
        EXPECT(edges == 16 * (n + 1));
        EXPECT(get(&m, 0) == 0x80C1);
        EXPECT(m.rx.n == (int)n && m.mark);
        for (i = 0; i < n; i++)
            EXPECT(m.rx.word[i] == 0x10 + i);
        EXPECT(get(&m, 3) == 0xE0010);

        /* a client under select control: no word is out of its buffer, and
         * SPIBEC counts the unread */
        m = deep(n, 0x0080, 1, 0x8000);
        for (i = 0; i < n; i++)
            EXPECT(ref_write(&m, 3, i) == 0);
        EXPECT(ref_write(&m, 3, 0) == 5);
        EXPECT(get(&m, 0) == 0x80A2);
        for (i = 0; i < 16 * n; i++)
            EXPECT(ref_pins(&m, ~(int)i & 1, 1, 0) == 0);
        EXPECT(get(&m, 0) == figure[d].client);
        for (i = n; i > 0; i--) {
            EXPECT((get(&m, 0) >> 8 & 7) == (i > 7 ? 7 : i));
            EXPECT(get(&m, 3) == 0xFF);
        }
        EXPECT(get(&m, 3) == 0xE0006 && get(&m, 0) == 0x80A0);
    }
    end("h and i in buffers of 4, 8 and 16");
}

/* Which appends raise the flag under SISEL 2 and 3, which leavings under 4 and
 * which writes under 7, each told by the words that are then in the buffer. */
static void depth_sisel(void)
{
    static const int quarters[DEPTHS] = {3, 6, 12};
    unsigned d, sisel, i, k;

    begin();
    for (d = 0; d < DEPTHS; d++) {
        for (sisel = 2; sisel < 8; sisel++) {
            unsigned n = depths[d];
            struct ref_spi m = deep(n, 0x0020, 1, 0x8000 | sisel << 2);

            for (i = 0; i < n + 1; i++) {
                EXPECT(ref_write(&m, 3, i) == 0);
                EXPECT(ref_flag(&m) == ((sisel == 7 && i == n) ||
                                        (sisel == 6 && i == 0)));
                ref_clear(&m);
            }
            for (i = 1; i < n + 2; i++) { /* words finished */
                for (k = 0; k < 16; k++)
                    EXPECT(ref_tick(&m, 0, 0) == 0);
                EXPECT(ref_flag(&m) ==
                       ((sisel == 2 && (int)i >= quarters[d] && i <= n) ||
                        (sisel == 3 && i == n) || (sisel == 4 && i == 1) ||
                        (sisel == 5 && i == n + 1) ||
                        (sisel == 6 && i == n)));
                ref_clear(&m);
            }
        }
    }
    end("SISEL 2 to 7 in buffers of 4, 8 and 16");
}

/* Standard operation has one word in each depth, and the depth is there again
 * when SPIBEN is: no register call changes it. */
static void depth_standard(void)
{
    unsigned d, i;

    begin();
    for (d = 0; d < DEPTHS; d++) {
        unsigned n = depths[d];
        struct ref_spi m = deep(n, 0x0020, 0, 0x8000);

        EXPECT(ref_write(&m, 3, 1) == 0);
        EXPECT(ref_write(&m, 3, 2) == 0 && get(&m, 0) == 0x8002);
        EXPECT(ref_write(&m, 3, 3) == 5); /* example g */
        for (i = 0; i < 16; i++)
            EXPECT(ref_tick(&m, 1, 0) == 0);
        EXPECT(ref_flag(&m) == 1 && get(&m, 0) == 0x8001);
        for (i = 0; i < 16; i++)
            EXPECT(ref_tick(&m, 0, 0) == 0);
        EXPECT(get(&m, 0) == 0x8041 && !m.mark && get(&m, 3) == 0xFF);
        EXPECT(ref_write(&m, 0, 0) == 0 && ref_write(&m, 2, 1) == 0);
        EXPECT(ref_write(&m, 0, 0x8000) == 0);
        for (i = 0; i < n + 1; i++)
            EXPECT(ref_write(&m, 3, i) == 0);
        EXPECT(ref_write(&m, 3, 0) == 5);
        EXPECT(m.depth == (int)n);
    }
    end("standard operation holds one word in every depth");
}

/* Linked runs between all depths: each end holds what it has room for and is
 * marked by its own losses. The host sends all that it can owe, up to the 544
 * edges that may be asked for; 545 is too many whatever the depths. */
static void depth_linked(void)
{
    unsigned d, i;

    begin();
    for (d = 0; d < DEPTHS * DEPTHS; d++) {
        unsigned hn = depths[d / DEPTHS], cn = depths[d % DEPTHS];
        unsigned words = hn + 1, used = 999;
        struct ref_spi h = deep(hn, 0x0420, 1, 0x8000);
        struct ref_spi c = deep(cn, 0x0480, 1, 0x8000);
        struct ref_spi hb, cb;

        for (i = 0; i < words; i++)
            EXPECT(ref_write(&h, 3, 0x8000 + i) == 0);
        for (i = 0; i < cn; i++)
            EXPECT(ref_write(&c, 3, 0x4000 + i) == 0);
        EXPECT(ref_write(&h, 3, 0) == 5 && ref_write(&c, 3, 0) == 5);
        hb = h;
        cb = c;
        EXPECT(ref_linked(&h, &c, 545, &used) == 11 && used == 999);
        EXPECT(memcmp(&h, &hb, sizeof h) == 0);
        EXPECT(memcmp(&c, &cb, sizeof c) == 0);
        if (hn == 16) { /* 288 edges do not bring its last word */
            EXPECT(ref_linked(&hb, &cb, 288, &used) == 0 && used == 288);
            EXPECT(hb.loaded && hb.tx.n == 7);
        }
        EXPECT(ref_linked(&h, &c, 544, &used) == 0);
        EXPECT(used == 32 * words);
        EXPECT(ref_tick(&h, 0, 0) == REF_NO_EDGE);
        EXPECT(h.rx.n == (int)hn && h.mark);
        for (i = 0; i < hn; i++) /* a client with no more sends zeros */
            EXPECT(h.rx.word[i] == (i < cn ? 0x4000 + i : 0));
        EXPECT(c.mark == (words > cn));
        EXPECT(c.rx.n == (int)(words < cn ? words : cn));
        for (i = 0; i < words && i < cn; i++)
            EXPECT(c.rx.word[i] == 0x8000 + i);
        EXPECT(c.tx.n == (int)(words < cn ? cn - words : 0));
        EXPECT(h.depth == (int)hn && c.depth == (int)cn);
    }
    end("linked: buffers of any two depths; 544 and 545");
}

int main(void)
{
    int r;
    unsigned i;

    begin();
    {
        const char *in = "W 1 0020\nW 0 8000\nR 3\nW 3 00A5\nR 0\nW 3 003C\n"
                         "R 0\nT 1\nT 0\nW 1 0000\n";
        const char *want = "1 OK\n2 OK\n3 E 6\n4 OK\n5 8000\n6 OK\n7 8002\n"
                           "8 1 1 0\n9 0 1 0\n10 E 3\n";
        EXPECT(script_is(in, strlen(in), want));
        EXPECT(script_is(in, strlen(in) - 1, want)); /* less its last LF */
    }
    end("worked script");

    begin();
    {
        const char in[] = "\nW 4 0000\nR 9\nR 12\nw 1 0000\nW 1 00ab\nT 2\n"
                          "P 0 0  0\nC \nC\r\nC\n\tC\nT 0\nR 3\nP 0 0 0\n"
                          "W 1 0020\nW 0 8000\nT 0\nP 0 0 0\n"
                          "C                                      x\nR 1";
        EXPECT(script_is(in, sizeof in - 1,
                         "1 E 9\n2 E 1\n3 E 1\n4 E 9\n5 E 9\n6 E 9\n7 E 9\n"
                         "8 E 9\n9 E 9\n10 E 9\n11 OK\n12 E 9\n13 E 2\n14 E 2\n"
                         "15 E 2\n16 OK\n17 OK\n18 N\n19 E 7\n20 E 9\n"
                         "21 0020\n"));
        EXPECT(script_is("", 0, ""));
        EXPECT(script_is("\n", 1, "1 E 9\n"));
        EXPECT(script_is("C\n\n", 3, "1 OK\n2 E 9\n"));
        EXPECT(script_is("C\0\nC", 4, "1 E 9\n2 OK\n"));
        /* P at a client under select control: Z until selected */
        EXPECT(script_is("W 1 0080\nW 0 8000\nP 0 0 1\nP 0 0 0\nP 1 1 0\n", 42,
                         "1 OK\n2 OK\n3 Z 0\n4 0 0\n5 0 0\n"));
        /* T shows Z under DISSDO */
        EXPECT(script_is("W 1 0820\nW 0 8000\nW 3 00FF\nT 0\n", 31,
                         "1 OK\n2 OK\n3 OK\n4 1 Z 0\n"));
        /* T with SS: the level counts for a frame client, and a frame host
         * shows its own; nothing else changes */
        EXPECT(prints("W 1 0020\nW 2 E000\nW 0 8000\nW 3 00FF\nT 0\nT 0 1\n"
                      "T 0\nT 0 2\nT 0 0 \nT 00\n",
                      "1 OK\n2 OK\n3 OK\n4 OK\n5 1 0 0\n6 0 0 0\n7 1 1 0\n"
                      "8 E 9\n9 E 9\n10 E 9\n"));
        EXPECT(prints("W 1 0820\nW 2 A002\nW 0 8000\nW 3 00FF\nT 0 0\n"
                      "T 0 1\nT 0 0\nP 0 0 0\n",
                      "1 OK\n2 OK\n3 OK\n4 OK\n5 1 Z 0 1\n6 0 Z 0 1\n"
                      "7 1 Z 0 0\n8 E 7\n"));
        EXPECT(prints("W 1 0020\nW 0 8000\nT 1 1\nW 3 00FF\nT 1 1\n",
                      "1 OK\n2 OK\n3 N\n4 OK\n5 1 1 0\n"));
    }
    {
        /* an input beyond the limit: its last line is cut short */
        static char big[70000];
        static char out[600000];
        size_t n;
        FILE *f = tmpfile();
        memset(big, 'C', sizeof big);
        for (i = 1; i < sizeof big; i += 2)
            big[i] = '\n';
        memcpy(big + 65532, "R 01\n", 5); /* "R 0" is left of it */
        script_run((const unsigned char *)big, sizeof big, f);
        rewind(f);
        n = fread(out, 1, sizeof out - 1, f);
        fclose(f);
        out[n] = 0;
        EXPECT(n > 11 && strcmp(out + n - 11, "32767 0000\n") == 0);
    }
    end("script lines: unreadable, ends, cut, undriven");

    begin();
    {
        struct ref_spi m;
        ref_power_up(&m);
        EXPECT(get(&m, 0) == 0x0000);
    }
    end("a  STAT is 0000 at power-up");

    begin();
    {
        struct ref_spi m = fresh(0x003F, 0, 0x8000, &r);
        EXPECT(r == 13);
        EXPECT(get(&m, 0) == 0);
        EXPECT(get(&m, 1) == 0x003F);
    }
    end("b  CON1 003F is refused by 13");

    begin();
    {
        struct ref_spi m = fresh(0x003B, 0, 0x8000, &r);
        EXPECT(r == 0);
        EXPECT(get(&m, 0) == 0x8000);
    }
    end("c  CON1 003B can be enabled");

    begin();
    {
        struct ref_spi m = fresh(0x0100, 0, 0x8000, &r);
        EXPECT(r == 15);
        EXPECT(get(&m, 0) == 0);
    }
    end("d  CON1 0100 is refused by 15");

    begin();
    {
        struct ref_spi m = fresh(0x0180, 0, 0x8000, &r);
        EXPECT(r == 0);
        EXPECT(get(&m, 0) == 0x8000);
    }
    end("e  CON1 0180 can be enabled");

    begin();
    {
        static const struct {
            unsigned con1, con2;
            int want;
        } setting[] = {
            /* one mistake, in each role that can make it */
            {0x003F, 0x0000, 13},
            {0x05FF, 0x0001, 13}, /* CKE, SSEN, CKP and MODE16 do not matter */
            {0x0220, 0x0000, 14},
            {0x1220, 0x0000, 14},
            {0x0200, 0x0000, 14},
            {0x0380, 0x0000, 14},
            {0x0100, 0x0000, 15},
            {0x1100, 0x0000, 15}, /* DISSCK does not matter to a client */
            /* two: 13 is a host's and 15 a client's, so they never meet */
            {0x023F, 0x0000, 13}, /* 13 and 14 */
            {0x0300, 0x0000, 14}, /* 14 and 15 */
            /* FRMEN is none in any role, and takes 15 away but not 13, 14 */
            {0x0020, 0x8000, 0},
            {0x1020, 0x8000, 0},
            {0x0000, 0x8000, 0},
            {0x0180, 0xE003, 0},
            {0x0100, 0x8000, 0},
            {0x0100, 0xC000, 0},
            {0x1100, 0xC000, 0},
            {0x011F, 0x8000, 0},
            {0x003F, 0x8000, 13},
            {0x003F, 0xC000, 13},
            {0x103F, 0x8000, 0},
            {0x023F, 0x8000, 13},
            {0x0220, 0x8000, 14},
            {0x1220, 0xC000, 14},
            {0x0200, 0x8000, 14},
            {0x0300, 0x8000, 14},
            /* 1:1 is no mistake where the clock comes from the pin */
            {0x001F, 0x0000, 0},
            {0x009F, 0x0000, 0},
            {0x019F, 0x0000, 0},
            {0x103F, 0x0000, 0},
            {0x011F, 0x0000, 15},
            {0x021F, 0x0000, 14},
            {0x123F, 0x0000, 14},
            /* nor is CKE without SSEN at a host, or one prescaler alone */
            {0x0120, 0x0000, 0},
            {0x1120, 0x0000, 0},
            {0x003E, 0x0000, 0},
            {0x0023, 0x0000, 0},
            {0x003C, 0x0000, 0},
            /* the other bits of CON2 are none */
            {0x0020, 0x6003, 0},
        };
        for (i = 0; i < sizeof setting / sizeof setting[0]; i++) {
            struct ref_spi m, before;
            int k;
            ref_power_up(&m);
            EXPECT(ref_write(&m, 1, setting[i].con1) == 0);
            EXPECT(ref_write(&m, 2, setting[i].con2) == 0);
            before = m;
            for (k = 0; k < 2; k++) { /* asked again, the same is said */
                r = ref_write(&m, 0, 0xA05C);
                if (setting[i].want == 0)
                    break;
                EXPECT(memcmp(&m, &before, sizeof m) == 0);
            }
            if (r != setting[i].want)
                printf("  CON1 %04X CON2 %04X gives %d\n", setting[i].con1,
                       setting[i].con2, r);
            EXPECT(r == setting[i].want);
            /* a STAT write that leaves SPIEN at 0 is always taken */
            if (r != 0)
                EXPECT(ref_write(&m, 0, 0x205C) == 0 && get(&m, 0) == 0x201C);
            else
                EXPECT(ref_write(&m, 0, 0xA01C) == 0); /* enabled already */
        }
    }
    end("13 to 15, alone and together: the first is told");

    begin();
    {
        /* one mistake after the other is put right */
        struct ref_spi m = fresh(0x023F, 0x0000, 0x8000, &r);
        EXPECT(r == 13);
        EXPECT(ref_write(&m, 1, 0x0300) == 0);
        EXPECT(ref_write(&m, 0, 0x8000) == 14);
        EXPECT(ref_write(&m, 1, 0x0100) == 0);
        EXPECT(ref_write(&m, 0, 0x8000) == 15);
        EXPECT(ref_write(&m, 1, 0x0180) == 0);
        EXPECT(ref_write(&m, 0, 0x8000) == 0);
        EXPECT(get(&m, 0) == 0x8000);
    }
    end("13, 14 and 15 put right in turn");

    begin();
    {
        /* every CON1, unframed and framed, 8,192 each. 13 fixes seven bits;
         * 14 fixes one and leaves the half of those to 13; 15 fixes three,
         * needs SMP 0 and is of the unframed half alone. */
        unsigned long told[16] = {0};
        for (i = 0; i < 0x4000; i++) {
            (void)fresh(i & 0x1FFF, i & 0x2000 ? 0x8000 : 0, 0x8000, &r);
            if (r < 0 || r > 15) {
                EXPECT(r >= 0 && r <= 15);
                break;
            }
            told[r]++;
        }
        EXPECT(told[13] == 2 * 64);
        EXPECT(told[14] == 2 * (4096 - 32));
        EXPECT(told[15] == 512);
        EXPECT(told[0] == 2 * (8192 - 64 - 4064) - 512);
        for (i = 1; i < 13; i++)
            EXPECT(told[i] == 0); /* 4 and 12 among them */
    }
    end("every CON1 with and without FRMEN; never 4 or 12");

    begin();
    {
        unsigned mode;
        for (mode = 0; mode < 4; mode++) { /* CKE, CKP */
            unsigned cke = mode & 1, ckp = mode >> 1, got = 0, level;
            struct ref_spi m =
                fresh(0x0020 | cke << 8 | ckp << 6, 0, 0x8000, &r);
            EXPECT(r == 0);
            EXPECT(ref_write(&m, 3, 0x01A5) == 0);
            for (i = 1; i <= 16; i++) {
                level = (unsigned)ref_sdo(&m); /* before the edge */
                if (cke && i % 2 == 1)
                    got = got * 2 + level;
                EXPECT(ref_tick(&m, 0, 0) == 0);
                EXPECT((unsigned)ref_sck(&m) == (ckp ^ (i % 2)));
                level = (unsigned)ref_sdo(&m); /* after it */
                if (!cke && i % 2 == 1)
                    got = got * 2 + level;
            }
            EXPECT(ref_tick(&m, 0, 0) == REF_NO_EDGE);
            EXPECT(got == 0xA5);
            /* CKE 0 keeps the last bit, CKE 1 has no next word to show */
            EXPECT(ref_sdo(&m) == (cke ? 0 : 1));
        }
    }
    end("f  01A5 goes out as A5 at 8 bits");

    begin();
    {
        struct ref_spi m = fresh(0x0020, 0, 0x8000, &r);
        EXPECT(ref_write(&m, 3, 1) == 0);
        EXPECT(ref_write(&m, 3, 2) == 0);
        EXPECT(ref_write(&m, 3, 3) == 5);
    }
    end("g  host, one deep: two words fit, 5 for a third");

    begin();
    {
        struct ref_spi m = fresh(0x0020, 1, 0x8000, &r);
        for (i = 0; i < 9; i++)
            EXPECT(ref_write(&m, 3, i) == 0);
        EXPECT(get(&m, 0) == 0x8722);
        EXPECT(ref_write(&m, 3, 9) == 5);
        EXPECT(get(&m, 0) == 0x8722);
    }
    end("h  host, eight deep: nine fit, 8722, 5 for a tenth");

    begin();
    {
        struct ref_spi m = fresh(0x0020, 1, 0x8000, &r);
        unsigned edges = 0;
        for (i = 0; i < 9; i++)
            EXPECT(ref_write(&m, 3, 0x10 + i) == 0);
        /* SDO is looped back: an odd edge puts out the bit that the even
         * edge after it takes in, so each word receives itself */
        while (ref_tick(&m, ref_sdo(&m), 0) == 0)
            edges++;
        EXPECT(edges == 9 * 16);
        EXPECT(get(&m, 0) == 0x80C1);
        EXPECT(m.rx.n == 8);
        for (i = 0; i < 8; i++)
            EXPECT(m.rx.word[i] == 0x10 + i);
        /* held, but by request Four no longer to be read */
        EXPECT(get(&m, 3) == 0xE0010);
        EXPECT(get(&m, 0) == 0x80C1);
    }
    end("i  the nine sent, none read: eight kept, 80C1");

    begin();
    {
        struct ref_spi m = fresh(0x0020, 1, 0x8000, &r);
        for (i = 0; i < 8; i++)
            EXPECT(ref_write(&m, 3, 0x10 + i) == 0);
        while (ref_tick(&m, ref_sdo(&m), 0) == 0)
            ;
        EXPECT(get(&m, 0) == 0x8081);
        for (i = 0; i < 8; i++)
            EXPECT(get(&m, 3) == 0x10 + i);
        EXPECT(get(&m, 3) == 0xE0006);
        EXPECT(ref_flag(&m) == 1); /* SISEL 0: the last one has been read */
    }
    end("   eight sent, none read: none lost, all are read");

    begin();
    {
        struct ref_spi m = fresh(0x0020, 0, 0x8000, &r);
        EXPECT(ref_write(&m, 3, 0x5A) == 0);
        for (i = 0; i < 15; i++)
            EXPECT(ref_tick(&m, 1, 0) == 0);
        EXPECT(get(&m, 0) == 0x8000);
        EXPECT(ref_flag(&m) == 0);
        EXPECT(ref_tick(&m, 1, 0) == 0);
        EXPECT(get(&m, 0) == 0x8001);
        EXPECT(ref_flag(&m) == 1);
        EXPECT(ref_tick(&m, 1, 0) == REF_NO_EDGE);
        EXPECT(get(&m, 3) == 0xFF);
    }
    end("j  at 8 bits edge 15 does not finish, edge 16 does");

    begin();
    {
        unsigned mode;
        for (mode = 0; mode < 8; mode++) { /* CKE, CKP, SPIBEN */
            int cke = mode & 1, ckp = mode >> 1 & 1, ben = mode >> 2;
            unsigned out = 0;
            int sck = ckp;
            unsigned in = 0x6C;
            struct ref_spi m =
                fresh(0x0080 | (unsigned)cke << 8 | (unsigned)ckp << 6,
                      (unsigned)ben, 0x8004, &r);
            EXPECT(r == 0);
            EXPECT(ref_write(&m, 3, 0xA7) == 0);
            EXPECT(ref_sdo(&m) == REF_UNDRIVEN);
            EXPECT(ref_pins(&m, sck, 0, 0) == 0);
            for (i = 0; i < 7; i++) {
                sck = !sck;
                EXPECT(ref_pins(&m, sck, 1, 0) == 0);
            }
            EXPECT(ref_pins(&m, sck, 1, 1) == 0); /* released */
            EXPECT(ref_sdo(&m) == REF_UNDRIVEN);
            sck = ckp;
            EXPECT(ref_pins(&m, sck, 1, 1) == 0); /* clock at rest */
            EXPECT(ref_pins(&m, sck, 1, 0) == 0); /* selected */
            EXPECT(get(&m, 3) == 0xE0006);
            EXPECT(ref_flag(&m) == 0);
            for (i = 1; i <= 16; i++) {
                int sdi = (int)(in >> (7 - (i - 1) / 2)) & 1;
                if (cke && i % 2)
                    out = out * 2 + (unsigned)ref_sdo(&m);
                sck = !sck;
                EXPECT(ref_pins(&m, sck, sdi, 0) == 0);
                if (!cke && i % 2)
                    out = out * 2 + (unsigned)ref_sdo(&m);
            }
            EXPECT(out == 0xA7);
            EXPECT(ref_flag(&m) == 1);
            EXPECT(get(&m, 3) == in);
            EXPECT(get(&m, 3) == 0xE0006);
            EXPECT(m.tx.n == 0);
        }
    }
    end("k  an abort at edge 7, then the word from its start");

    begin();
    {
        unsigned mode;
        for (mode = 0; mode < 8; mode++) { /* CKE, CKP, SSEN */
            unsigned common = (mode & 1) << 8 | (mode >> 1 & 1) << 6;
            unsigned used = 999;
            struct ref_spi h = fresh(0x0020 | common, 0, 0x8000, &r);
            struct ref_spi c;
            if ((mode & 1) && !(mode >> 2))
                continue; /* cannot be enabled */
            c = fresh((mode >> 2) << 7 | common, 0, 0x8000, &r);
            EXPECT(r == 0);
            EXPECT(ref_write(&h, 3, 0xA5) == 0);
            EXPECT(ref_write(&c, 3, 0x3C) == 0);
            EXPECT(ref_linked(&h, &c, 16, &used) == 0);
            EXPECT(used == 16);
            EXPECT(get(&h, 3) == 0x3C);
            EXPECT(get(&c, 3) == 0xA5);
        }
    }
    end("l  linked: A5 and 3C change places in 16 edges");

    begin();
    {
        int kind = -1;
        double rate = -1, bt = -1;
        struct ref_spi m = fresh(0x0020 | 6 << 2 | 2, 0, 0x8000, &r);
        EXPECT(ref_clock(&m, 40000000u, &kind, &rate, &bt) == 0);
        EXPECT(kind == 1 && rate == 5000000.0 && bt == 8.0 / 40000000.0);
        kind = -1;
        EXPECT(ref_clock(&m, 0, &kind, &rate, &bt) == 8 && kind == -1);
        m = fresh(0x1020, 0, 0x8000, &r);
        EXPECT(ref_clock(&m, 4000000000u, &kind, &rate, &bt) == 0);
        EXPECT(kind == 2 && rate == 4000000000.0);
        EXPECT(ref_write(&m, 0, 0) == 0);
        EXPECT(ref_clock(&m, 1, &kind, &rate, &bt) == 0 && kind == 0);
        EXPECT(ref_clock(&m, 0, &kind, &rate, &bt) == 8);
    }
    end("also: the clock report");

    begin();
    {
        unsigned used = 999;
        struct ref_spi h = fresh(0x0420, 1, 0x8000, &r);
        struct ref_spi c = fresh(0x0480, 1, 0x8000, &r);
        for (i = 0; i < 9; i++)
            EXPECT(ref_write(&h, 3, 0x8000 + i) == 0);
        for (i = 0; i < 8; i++)
            EXPECT(ref_write(&c, 3, 0x4000 + i) == 0);
        EXPECT(ref_write(&c, 3, 0) == 5); /* eight are all it takes */
        EXPECT(ref_linked(&h, &c, 545, &used) == 11);
        EXPECT(used == 999);
        EXPECT(ref_linked(&h, &c, 544, &used) == 0);
        EXPECT(used == 288); /* all that buffers of eight words owe */
        EXPECT(ref_tick(&h, 0, 0) == REF_NO_EDGE);
        EXPECT(get(&h, 0) == 0x80C1);
        EXPECT(get(&c, 0) == 0x87C1);
        for (i = 0; i < 8; i++) {
            EXPECT(h.rx.word[i] == 0x4000 + i);
            EXPECT(c.rx.word[i] == 0x8000 + i);
        }
        /* the ninth has marked both ends */
        EXPECT(get(&h, 3) == 0xE0010);
        EXPECT(get(&c, 3) == 0xE0010);
    }
    end("also: limits 544 and 545");

    framed_host();
    framed_client();
    framed_pair();
    framed_linked();

    marked_roles();
    marked_sisel();
    marked_linked();
    marked_made();

    depth_refused();
    depth_full();
    depth_sisel();
    depth_standard();
    depth_linked();

    printf("%s\n", failures == 0 ? "all examples passed" : "EXAMPLES FAILED");
    return failures != 0;
}
