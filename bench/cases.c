/* The cases, for the proved library if built with LIBRARY, else for plain C. */
#include "cases.h"

#include "side.h"

static uint32_t mixed(uint32_t sum, uint32_t answer)
{
    return sum * 31 + answer;
}

/* Words and levels that vary: the next number of a plain sequence. */
static uint32_t next(uint32_t seed) { return seed * 1664525u + 1013904223u; }

/* What is left to see of a module at the end of a run. */
#define SEEN(m, sum)                                                          \
    mixed(mixed(sum, read_register(OF(m), STAT)), levels(OF(m)))

/* The 32 ticks of a word of 16 bits, with SDI from the bits, the lowest first: how
 * many made an edge. A function of its own, so that all that it counts by stays in
 * registers; within a case one of these went through memory at every edge. */
static __attribute__((noinline)) uint32_t word_ticked(module *m, uint32_t bits)
{
    uint32_t made = 0;
    int i;

    for (i = 0; i < 32; i++) {
        made += tick(OF(*m), bits & 1, 0);
        bits >>= 1;
    }
    return made;
}

/* A host with its own clock, 16 bits: four words waiting throughout, each
 * received word is read when it has come in, and one is written for it. Its
 * edges are made by ticks; by ticks with a look at its levels behind each; or by
 * clock steps, whose answers have the levels. */
enum edges { TICKS, LOOKS, STEPS };

static inline struct outcome busy(enum edges by, uint32_t times)
{
    struct outcome o = {0, 0};
    uint32_t seed = 1, bits;
    module m;
    int i;

    START(m, MSTEN | MODE16);
    for (i = 0; i < 5; i++)
        o.sum = mixed(o.sum, write_register(OF(m), BUF, seed = next(seed)));
    while (times-- > 0) {
        bits = seed = next(seed);
        if (by == TICKS)
            o.units += word_ticked(&m, bits);
        for (i = 0; by != TICKS && i < 32; i++) {
            if (by == STEPS) {
                o.sum += clock_step(OF(m), 0, bits & 1, 0);
                o.units++;
            } else {
                o.units += tick(OF(m), bits & 1, 0);
                o.sum += levels(OF(m));
            }
            bits >>= 1;
        }
        o.sum = mixed(o.sum, read_register(OF(m), BUF));
        o.sum = mixed(o.sum, write_register(OF(m), BUF, seed >> 7));
    }
    o.sum = SEEN(m, o.sum);
    return o;
}

static struct outcome busy_host(uint32_t times) { return busy(TICKS, times); }

static struct outcome watched_host(uint32_t times)
{
    return busy(LOOKS, times);
}

static struct outcome stepped_host(uint32_t times)
{
    return busy(STEPS, times);
}

/* All 32 edges of a word, with SDI from a word: by the library in one call, in
 * plain C by ticks, which do not look at SDO. */
static inline uint32_t word_made(module *m, uint32_t word)
{
#ifdef LIBRARY
    (void)thurafeqa_word(*m, 0, word);
    return 32;
#else
    uint32_t made = 0;
    int i;

    for (i = 0; i < 16; i++) {
        uint32_t level = word >> (15 - i) & 1;
        made += tick(m, level, 0);
        made += tick(m, level, 0);
    }
    return made;
#endif
}

/* The busy host by words at a time. */
static struct outcome host_words(uint32_t times)
{
    struct outcome o = {0, 0};
    uint32_t seed = 1;
    module m;
    int i;

    START(m, MSTEN | MODE16);
    for (i = 0; i < 5; i++)
        o.sum = mixed(o.sum, write_register(OF(m), BUF, seed = next(seed)));
    while (times-- > 0) {
        seed = next(seed);
        o.units += word_made(&m, seed & 0xFFFF);
        o.sum = mixed(o.sum, read_register(OF(m), BUF));
        o.sum = mixed(o.sum, write_register(OF(m), BUF, seed >> 7));
    }
    o.sum = SEEN(m, o.sum);
    return o;
}

/* The eight words that wait in a host and the one that is loaded, one behind the
 * other, again and again: the host is copied before them. */
static struct outcome words_alone(uint32_t times)
{
    struct outcome o = {0, 0};
    uint32_t seed = 1;
    struct kept {
        module m;
    } host, now;
    int i;

    START(host.m, MSTEN | MODE16);
    for (i = 0; i < 9; i++)
        o.sum = mixed(o.sum, write_register(OF(host.m), BUF, seed = next(seed)));
    now = host;
    while (times-- > 0) {
        now = host;
        for (i = 0; i < 9; i++) {
            seed = next(seed);
            o.units += word_made(&now.m, seed & 0xFFFF);
        }
    }
    o.sum = mixed(o.sum, read_register(OF(now.m), BUF));
    o.sum = SEEN(now.m, o.sum);
    return o;
}

/* A busy host whose buffers hold 16 words, with twelve waiting throughout. */
static struct outcome deep_host(uint32_t times)
{
    struct outcome o = {0, 0};
    uint32_t seed = 1;
    module m;
    int i;

    START_DEEP(m, 16, MSTEN | MODE16);
    for (i = 0; i < 13; i++)
        o.sum = mixed(o.sum, write_register(OF(m), BUF, seed = next(seed)));
    while (times-- > 0) {
        seed = next(seed);
        o.units += word_ticked(&m, seed);
        o.sum = mixed(o.sum, read_register(OF(m), BUF));
        o.sum = mixed(o.sum, write_register(OF(m), BUF, seed >> 7));
    }
    o.sum = SEEN(m, o.sum);
    return o;
}

/* A busy frame host with FRMDLY 0. The first word's pulse takes a clock, the
 * others lie on the last bit of the word before, so the words follow each other
 * without a gap; SS is looked at there. */
static struct outcome frame_host(uint32_t times)
{
    struct outcome o = {0, 0};
    uint32_t seed = 1;
    module m;
    int i;

    START_WITH(m, MSTEN | MODE16, FRMEN | SPIBEN);
    for (i = 0; i < 5; i++)
        o.sum = mixed(o.sum, write_register(OF(m), BUF, seed = next(seed)));
    o.units += tick(OF(m), 0, 0);
    o.units += tick(OF(m), 0, 0);
    while (times-- > 0) {
        seed = next(seed);
        o.units += word_ticked(&m, seed);
        o.sum = mixed(o.sum, levels(OF(m)));
        o.sum = mixed(o.sum, read_register(OF(m), BUF));
        o.sum = mixed(o.sum, write_register(OF(m), BUF, seed >> 7));
    }
    o.sum = SEEN(m, o.sum);
    return o;
}

/* A selected client that obeys SS: a word is written, clocked by pin calls and
 * the received one is read. */
static struct outcome client(uint32_t con1, int edges, uint32_t times)
{
    struct outcome o = {0, 0};
    uint32_t seed = 1, bits;
    module m;
    int i;

    START(m, SSEN | con1);
    o.sum = mixed(o.sum, pins(OF(m), 0, 0, 0));
    while (times-- > 0) {
        bits = seed = next(seed);
        o.sum = mixed(o.sum, write_register(OF(m), BUF, seed >> 7));
        for (i = 0; i < edges; i++) {
            o.sum += pins(OF(m), ~(uint32_t)i & 1, bits & 1, 0);
            bits >>= 1;
        }
        o.units += (uint32_t)edges;
        o.sum = mixed(o.sum, read_register(OF(m), BUF));
    }
    o.sum = SEEN(m, o.sum);
    return o;
}

static struct outcome client_8(uint32_t times) { return client(0, 16, times); }

static struct outcome client_16(uint32_t times)
{
    return client(MODE16 | CKE, 32, times);
}

/* Eight words are written at both ends, one linked run exchanges them, and
 * they are read at both ends. The library makes each word at once, plain C edge
 * by edge. */
static struct outcome linked_pair(uint32_t times)
{
    struct outcome o = {0, 0};
    uint32_t seed = 1;
    module host, end;
    int i;

    START(host, MSTEN | MODE16);
    START(end, SSEN | MODE16);
    while (times-- > 0) {
        for (i = 0; i < 8; i++) {
            seed = next(seed);
            o.sum = mixed(o.sum, write_register(OF(host), BUF, seed));
            o.sum = mixed(o.sum, write_register(OF(end), BUF, seed >> 16));
        }
        o.units += linked(OF(host), OF(end), 544);
        for (i = 0; i < 8; i++) {
            o.sum = mixed(o.sum, read_register(OF(host), BUF));
            o.sum = mixed(o.sum, read_register(OF(end), BUF));
        }
    }
    o.sum = SEEN(end, SEEN(host, o.sum));
    return o;
}

/* Register calls on a host: it is disabled, set up and enabled, nine words are
 * written between looks at STAT, one word of 8 bits is sent between looks at
 * all registers, and what came in is read; five calls are refused. */
static struct outcome registers(uint32_t times)
{
    struct outcome o = {0, 0};
    uint32_t seed = 1;
    module m;
    int i;

#define SAID(call) (o.sum = mixed(o.sum, (call)), o.units++)
    power_up(OF(m));
    while (times-- > 0) {
        seed = next(seed);
        SAID(write_register(OF(m), STAT, 0));
        SAID(write_register(OF(m), CON1, MSTEN | (seed >> 20 & 0x015F)));
        SAID(write_register(OF(m), CON2, 1));
        SAID(read_register(OF(m), CON1));
        SAID(read_register(OF(m), BUF)); /* refused, 2 */
        SAID(write_register(OF(m), CON1, MSTEN | (seed >> 20 & 0x0140)));
        SAID(write_register(OF(m), STAT, 0x8000 | (seed >> 16 & 0x1C)));
        for (i = 0; i < 9; i++) {
            SAID(write_register(OF(m), BUF, seed >> i));
            SAID(read_register(OF(m), STAT));
        }
        SAID(write_register(OF(m), BUF, 0)); /* refused, 5 */
        SAID(write_register(OF(m), CON2, 0)); /* refused, 3 */
        SAID(read_register(OF(m), 4)); /* refused, 1 */
        for (i = 0; i < 4; i++) {
            SAID(tick(OF(m), seed >> i & 1, 0));
            SAID(tick(OF(m), seed >> (i + 4) & 1, 0));
            SAID(read_register(OF(m), STAT));
            SAID(read_register(OF(m), CON1));
            SAID(tick(OF(m), seed >> (i + 8) & 1, 0));
            SAID(tick(OF(m), seed >> (i + 12) & 1, 0));
            SAID(read_register(OF(m), CON2));
        }
        SAID(read_register(OF(m), BUF));
        SAID(read_register(OF(m), BUF)); /* refused, 6 */
        SAID(write_register(OF(m), BUF, seed));
        SAID(read_register(OF(m), STAT));
    }
    o.sum = SEEN(m, o.sum);
    return o;
}

/* ---- traces -------------------------------------------------------------- */

/* A file with up to three sections, and the length of each in bytes. */
struct file {
    size_t length;
    uint8_t byte[65535];
};

enum { KIND_WRITE, KIND_READ, KIND_TICK, KIND_PINS, KIND_CLEAR, KIND_PLAY };

static void put(struct file *f, uint32_t kind, uint32_t argument,
                uint32_t value)
{
    f->byte[f->length++] = (uint8_t)kind;
    f->byte[f->length++] = (uint8_t)argument;
    f->byte[f->length++] = (uint8_t)value;
    f->byte[f->length++] = (uint8_t)(value >> 8);
}

/* The table of contents, the sections' lengths being known. */
static void begin(struct file *f, uint32_t sections, const uint32_t *length)
{
    uint32_t at = 2 + 8 * sections, s;

    f->byte[0] = (uint8_t)sections;
    f->byte[1] = 0;
    f->length = 2;
    for (s = 0; s < sections; s++) {
        put(f, at & 0xFF, at >> 8, 0);
        put(f, length[s] & 0xFF, length[s] >> 8, 0);
        at += length[s];
    }
}

static void put_host(struct file *f)
{
    put(f, KIND_WRITE, CON1, MSTEN);
    put(f, KIND_WRITE, CON2, SPIBEN);
    put(f, KIND_WRITE, STAT, 0x8000);
}

/* Plays a file many times; the units are the calls that it makes. */
static struct outcome played(const struct file *f, uint32_t times)
{
    struct outcome o = {0, 0};
    uint32_t calls;
    module m;

    power_up(OF(m));
    while (times-- > 0) {
        calls = play(OF(m), f->byte, f->length);
        o.units += calls;
        o.sum = SEEN(m, mixed(o.sum, calls));
    }
    return o;
}

/* A host that sends and reads 200 words of 8 bits: a section for a word plays
 * 16 times a section for an edge and a look at STAT. */
static struct outcome trace_played(uint32_t times)
{
    static const uint32_t length[] = {16, 12, 8};
    static struct file f;

    if (f.length == 0) {
        begin(&f, 3, length);
        put_host(&f);
        put(&f, KIND_PLAY, 1, 200);
        put(&f, KIND_WRITE, BUF, 0xA5);
        put(&f, KIND_PLAY, 2, 16);
        put(&f, KIND_READ, BUF, 0);
        put(&f, KIND_TICK, 1, 0);
        put(&f, KIND_READ, STAT, 0);
    }
    return played(&f, times);
}

/* A host at work, from one record to another. */
static void put_work(struct file *f, uint32_t from, uint32_t to)
{
    uint32_t i;

    for (i = from; i < to; i++) {
        switch (i % 34) {
        case 3:
            put(f, KIND_WRITE, BUF, i);
            break;
        case 2:
            put(f, KIND_READ, BUF, 0);
            break;
        default:
            if (i % 2 == 0)
                put(f, KIND_TICK, i >> 1 & 1, 0);
            else
                put(f, KIND_READ, STAT, 0);
            break;
        }
    }
}

/* The same without sections that are played: each record is one call. */
static struct outcome trace_long(uint32_t times)
{
    static const uint32_t length = 4 * 16000;
    static struct file f;

    if (f.length == 0) {
        begin(&f, 1, &length);
        put_host(&f);
        put_work(&f, 3, 16000);
    }
    return played(&f, times);
}

/* Such a file of two sections is salvaged that broke off before its last 100
 * bytes; the units are the records that are left. */
static struct outcome trace_salvaged(uint32_t times)
{
    static const uint32_t length[] = {4 * 8000, 4 * 8000};
    static struct file f, mended;
    struct outcome o = {0, 0};
    uint64_t told;

    if (f.length == 0) {
        begin(&f, 2, length);
        put_host(&f);
        put_work(&f, 3, 16000);
        f.length -= 98;
    }
    while (times-- > 0) {
        told = salvage(f.byte, f.length, mended.byte, sizeof mended.byte);
        o.units += ((uint32_t)told - 18) / 4;
        o.sum = mixed(mixed(o.sum, (uint32_t)told), (uint32_t)(told >> 32));
        o.sum = mixed(o.sum, mended.byte[(uint32_t)told - 1]);
    }
    return o;
}


const struct side EITHER(library_side, plain_side) = {
    EITHER("library", "plain C"),
    {busy_host, deep_host, watched_host, stepped_host,
     host_words, words_alone, frame_host, client_8,
     client_16, linked_pair, registers, trace_played, trace_long,
     trace_salvaged}};
