/* A file is made section by section in `body`, and then written out with its
 * table of contents. Wrong files are right ones, changed. */
#include "some_trace.h"

#include <string.h>

/* ---- numbers ------------------------------------------------------------ */

static uint64_t state;

static uint32_t any(void)
{
    uint64_t z = state += UINT64_C(0x9E3779B97F4A7C15);

    z = (z ^ (z >> 30)) * UINT64_C(0xBF58476D1CE4E5B9);
    z = (z ^ (z >> 27)) * UINT64_C(0x94D049BB133111EB);
    return (uint32_t)((z ^ (z >> 31)) >> 32);
}

static uint32_t under(uint32_t n) { return any() % n; }
static int one_in(uint32_t n) { return under(n) == 0; }

/* ---- a file under way ---------------------------------------------------- */

enum { WRITE, READ, TICK, PINS, CLEAR, PLAY };
enum { STAT, CON1, CON2, BUF };

#define MOST 64  /* sections of a right file */
#define MORE 72  /* and of any */
#define ROOM 65544u

static uint8_t body[ROOM];
static size_t size; /* of the body so far */
static size_t from[MORE], length[MORE];
static int level[MORE];
static int count, here; /* the sections, and the one that is being filled */

static void begin(int sections)
{
    int s;

    size = 0;
    count = sections;
    for (s = 0; s < count; s++)
        level[s] = 1;
}

static void begin_section(int s)
{
    here = s;
    from[s] = size;
    length[s] = 0;
}

static void put(uint32_t kind, uint32_t argument, uint32_t value)
{
    uint8_t *at = body + size;

    if (2 + 8 * (size_t)count + size + 4 > 65535)
        return; /* full */
    at[0] = (uint8_t)kind;
    at[1] = (uint8_t)argument;
    at[2] = (uint8_t)value;
    at[3] = (uint8_t)(value >> 8);
    size += 4;
    length[here] += 4;
    if (kind == PLAY && argument < (uint32_t)count &&
        level[argument] <= level[here])
        level[argument] = level[here] + 1;
}

static void put32(uint8_t *at, size_t number)
{
    at[0] = (uint8_t)number;
    at[1] = (uint8_t)(number >> 8);
    at[2] = (uint8_t)(number >> 16);
    at[3] = (uint8_t)(number >> 24);
}

static size_t written(uint8_t *file)
{
    size_t table = 2 + 8 * (size_t)count;
    int s;

    file[0] = (uint8_t)count;
    file[1] = 0;
    for (s = 0; s < count; s++) {
        put32(file + 2 + 8 * s, table + from[s]);
        put32(file + 6 + 8 * s, length[s]);
    }
    memcpy(file + table, body, size);
    return table + size;
}

/* ---- right files --------------------------------------------------------- */

/* The module that a file is for: a host with its own clock takes ticks, every
 * other one pin calls. */
static int ticks, framed;
static uint32_t sck;

static void put_settings(void)
{
    static const uint32_t role[] = {0x0020, 0x0020, 0x1020, 0x0000, 0x0080};
    uint32_t con1 = role[under(5)] | (any() & 0x0440u);
    uint32_t con2 = any() & 0x6003u;

    ticks = (con1 & 0x1020) == 0x0020;
    framed = one_in(3);
    if ((con1 & 0x0080) || ticks)
        con1 |= any() & 0x0100u;
    if (one_in(30))
        con1 |= any() & 0x1FFFu;
    if (framed)
        con2 |= 0x8000u;
    sck = con1 >> 6 & 1;
    put(WRITE, CON1, con1);
    put(WRITE, CON2, con2);
    put(WRITE, STAT, 0x8000u | (any() & 0x007Cu));
}

static void put_edge(void)
{
    uint32_t sdi = under(2);
    uint32_t ss = framed ? under(2) : (uint32_t)one_in(40);

    if (ticks) {
        put(TICK, sdi | ss << 2, 0);
    } else {
        sck ^= (uint32_t)!one_in(20);
        put(PINS, sdi | sck << 1 | ss << 2, 0);
    }
}

static uint32_t some_times(void)
{
    static const uint32_t times[] = {0, 0, 1, 1, 2, 3, 8, 16, 32};

    return one_in(100) ? any() & 0xFFFFu : times[under(9)];
}

static void put_play(void)
{
    if (here + 1 < count && level[here] < 8)
        put(PLAY, (uint32_t)here + 1 + under((uint32_t)(count - here - 1)),
            some_times());
}

static void put_something(void)
{
    uint32_t n;

    switch (under(20)) {
    case 0: case 1: case 2: put(WRITE, BUF, any() & 0xFFFFu); break;
    case 3: case 4: put(READ, BUF, 0); break;
    case 5: put(READ, under(4), 0); break;
    case 6: put(CLEAR, 0, 0); break;
    case 7:
        if (one_in(3))
            put(WRITE, under(4), any() & 0xFFFFu);
        break;
    case 8: put(under(2) ? TICK : PINS, under(2) * 5, 0); break;
    case 9: put(WRITE, STAT, 0x8000u | (any() & 0x207Cu)); break;
    case 10: case 11: case 12: case 13: put_play(); break;
    default:
        for (n = one_in(4) ? 16 + under(40) : under(5); n > 0; n--)
            put_edge();
        break;
    }
}

static void fill(int sections, uint32_t most)
{
    int s;

    begin(sections);
    for (s = 0; s < sections; s++) {
        uint32_t n = under(most + 1);

        begin_section(s);
        if (s == 0 && !one_in(10))
            put_settings();
        while (n-- > 0)
            put_something();
    }
}

static size_t right(uint8_t *file)
{
    if (one_in(8))
        fill(1 + (int)under(MOST), 6);
    else
        fill(1 + (int)under(6), 12);
    return written(file);
}

/* A chain: each section plays the next one. The last has level `levels`. */
static size_t chain(uint8_t *file, int levels, uint32_t times)
{
    int unplayed = one_in(3);  /* section 0 does not play it */
    int broken = one_in(3);    /* somewhere it plays the next one zero times */
    int s;

    begin(levels + unplayed);
    if (unplayed) {
        begin_section(0);
        put(CLEAR, 0, 0);
    }
    for (s = unplayed; s < count; s++) {
        begin_section(s);
        if (s + 1 < count)
            put(PLAY, (uint32_t)s + 1, broken && one_in(3) ? 0 : times);
        if (one_in(3))
            put(CLEAR, 0, 0);
    }
    return written(file);
}

/* Calls near 65,535: repeats of an empty section, of a call, and single ones. */
static size_t near_limit(uint8_t *file)
{
    uint32_t left = 65533 + under(5);
    uint32_t pairs = one_in(4) ? left / 2 : under(300);
    int last = one_in(2), singles = (int)under(5);

    if (2 * pairs + 4 > left)
        pairs = (left - 4) / 2;
    left -= 2 * pairs + (uint32_t)singles;
    begin(3);
    begin_section(0);
    put_settings();
    left -= 3;
    put(PLAY, 1, pairs);
    if (last)
        while (singles-- > 0)
            put_edge();
    while (left > 0) {
        uint32_t part = left > 65535 ? 65535 : left;

        put(PLAY, 2, part);
        left -= part;
    }
    if (!last)
        while (singles-- > 0)
            put_edge();
    if (one_in(2))
        put(PLAY, 2, 0);
    begin_section(1);
    put_edge();
    begin_section(2);
    return written(file);
}

/* As many records as fit, or a few less. */
static size_t many_records(uint8_t *file)
{
    fill(1 + (int)under(4), 20);
    begin_section(here);
    while (2 + 8 * (size_t)count + size + 4 <= 65535)
        put_edge();
    while (one_in(3)) {
        size -= 4;
        length[here] -= 4;
    }
    return written(file);
}

/* ---- wrong files ---------------------------------------------------------- */

/* A right file with one wrong record. */
static size_t wrong_record(uint8_t *file)
{
    uint32_t argument = 0, value = 0, kind = under(6);
    size_t n, at;

    do
        n = right(file);
    while (size == 0);
    if (one_in(8))
        return chain(file, 9 + (int)under(3), 1);
    at = under((uint32_t)(size / 4)) * 4;
    here = 0;
    while (at >= from[here] + length[here])
        here++;
    switch (under(4)) {
    case 0: kind = 6 + under(250); break; /* no such kind */
    case 1: /* a value where there is none */
        kind = READ + under(4);
        value = one_in(2) ? 1u << under(16) : 1 + under(65535);
        break;
    default: /* an argument out of range */
        argument = one_in(2) ? 4 + under(4) : under(256);
        if (kind == PLAY && one_in(2))
            argument = (uint32_t)count + under(4);
        else if (kind == PLAY)
            argument = under((uint32_t)here + 1);
        else if (kind == CLEAR)
            argument |= 1u << under(8);
        else if (kind == TICK && one_in(2))
            argument = 2 | under(8);
        else if (kind == TICK || kind == PINS)
            argument |= 8u << under(5);
        break;
    }
    at += n - size;
    file[at] = (uint8_t)kind;
    file[at + 1] = (uint8_t)argument;
    file[at + 2] = (uint8_t)value;
    file[at + 3] = (uint8_t)(value >> 8);
    return n;
}

/* Right but for the number of its sections. */
static size_t many_sections(uint8_t *file)
{
    fill(MOST + 1 + (int)under(MORE - MOST), under(3));
    return written(file);
}

/* Gapless, but a border between two sections, or the end of the last and of the
 * file, is moved by less than a record. */
static size_t odd_sections(uint8_t *file)
{
    size_t by = 1 + under(3);
    int s;

    (void)right(file);
    s = (int)under((uint32_t)count);
    length[s] += by;
    if (s + 1 < count && length[s + 1] > 0) {
        from[s + 1] += by;
        length[s + 1] -= by;
        return written(file);
    }
    for (; s + 1 < count; s++)
        from[s + 1] += by;
    memset(body + size, 0, by);
    size += by;
    return written(file);
}

/* A right file whose table of contents has one wrong number. */
static size_t wrong_contents(uint8_t *file)
{
    size_t n = right(file);
    int s = (int)under((uint32_t)count);
    uint8_t *entry = file + 2 + 8 * s;
    uint32_t start = (uint32_t)(n - size + from[s]);
    uint32_t its = (uint32_t)length[s];

    if (one_in(8))
        return many_sections(file);
    if (one_in(6))
        return odd_sections(file);
    switch (under(8)) {
    case 0: file[0] = (uint8_t)(one_in(2) ? 0 : 65 + under(191)); break;
    case 1: file[1] = (uint8_t)(1 + under(255)); break;
    case 2: put32(entry, start + 1 + under(8)); break;
    case 3: put32(entry, start - 1 - under(4)); break;
    case 4: put32(entry + 4, its + 1 + under(3)); break;
    case 5: put32(entry + 4, its + 4); break;
    case 6: put32(entry + (one_in(2) ? 4 : 0), any()); break;
    default: put32(entry + 4, its - 4); break;
    }
    if (one_in(12)) { /* an empty last section that would end elsewhere */
        put32(file + 2, 10);
        put32(file + 6, 0);
        file[0] = 1;
        file[1] = 0;
        return 10 + 4 * under(3) + under(2);
    }
    return n;
}

static size_t random_bytes(uint8_t *file)
{
    size_t n = under(one_in(4) ? 3000 : 60), i;

    for (i = 0; i < n; i++)
        file[i] = (uint8_t)(one_in(3) ? any() : under(6));
    if (n >= 2 && one_in(2)) {
        file[0] = (uint8_t)under(70);
        file[1] = 0;
    }
    return n;
}

/* Longer than a file may be; some of these would be right otherwise. */
static size_t too_long(uint8_t *file)
{
    size_t n = one_in(4) ? SOME_TRACE_BYTES : 65536 + under(6), i;

    for (i = 0; i < n; i++)
        file[i] = 0; /* a write of 0 to STAT */
    if (one_in(2))
        n = 65538;
    file[0] = 1;
    file[2] = 10;
    put32(file + 6, n - 10);
    return n;
}

size_t some_trace(uint64_t number, uint8_t *file)
{
    uint32_t shape;
    size_t n;

    state = number;
    shape = under(200);
    if (shape < 90)
        return right(file);
    if (shape < 100)
        return chain(file, 1 + (int)under(9), 1 + under(3));
    if (shape < 130)
        return wrong_record(file);
    if (shape < 155)
        return wrong_contents(file);
    if (shape < 165)
        return random_bytes(file);
    if (shape < 168)
        return near_limit(file);
    if (shape == 168)
        return one_in(4) ? many_records(file) : 0;
    if (shape == 169)
        return one_in(2) ? too_long(file) : 0;
    n = right(file);
    if (shape < 180) /* one byte is another */
        file[under((uint32_t)n)] = (uint8_t)any();
    else if (shape < 188) /* one bit is another */
        file[under((uint32_t)n)] ^= (uint8_t)(1u << under(8));
    else if (shape < 195) /* cut */
        n = under((uint32_t)n);
    else /* a byte or more behind the end */
        for (shape = 1 + under(5); shape > 0; shape--)
            file[n++] = (uint8_t)under(6);
    return n;
}

/* ---- costly files --------------------------------------------------------- */

static void put_zeros(uint32_t section, int n)
{
    while (n-- > 0)
        put(PLAY, section, 0);
}

size_t costly_trace(int which, uint8_t *file, unsigned *calls)
{
    int s, i;

    switch (which) {
    case 0: /* 16,000 zero-times plays beside one call */
        begin(3);
        begin_section(0);
        put(PLAY, 1, 32767);
        begin_section(1);
        put_zeros(2, 16000);
        put(CLEAR, 0, 0);
        begin_section(2);
        *calls = 2 * 32767;
        break;
    case 1: /* a section that makes no call, played as often as can be */
        begin(3);
        begin_section(0);
        put(PLAY, 1, 65535);
        begin_section(1);
        put_zeros(2, 16300);
        begin_section(2);
        put(CLEAR, 0, 0);
        *calls = 65535;
        break;
    case 2: /* the same at two levels, before and behind the call */
        begin(4);
        begin_section(0);
        put(PLAY, 1, 180);
        begin_section(1);
        put_zeros(3, 4000);
        put(PLAY, 2, 180);
        put_zeros(3, 4000);
        begin_section(2);
        put_zeros(3, 4000);
        put(CLEAR, 0, 0);
        put_zeros(3, 4000);
        begin_section(3);
        *calls = 180 * (1 + 180 * 2);
        break;
    case 3: /* eight levels, each played three times */
        begin(9);
        for (s = 0, *calls = 1; s < 8; s++) {
            begin_section(s);
            put_zeros(8, s == 7 ? 0 : 2000);
            if (s < 7)
                put(PLAY, (uint32_t)s + 1, 3);
            else
                put(CLEAR, 0, 0);
            if (s > 0)
                *calls = 3 * (1 + *calls);
        }
        begin_section(8);
        break;
    default: /* far too many calls: 2,000 to the seventh */
        begin(8);
        for (s = 0; s < 8; s++) {
            begin_section(s);
            for (i = 0; i < 2000; i++)
                put(s < 7 ? PLAY : CLEAR, s < 7 ? (uint32_t)s + 1 : 0, s < 7);
        }
        *calls = 65536;
        break;
    }
    return written(file);
}
