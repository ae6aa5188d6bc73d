/* A file of some_trace, or a chain of plays, with one to three things done to
 * it. */
#include "some_cut.h"

#include <string.h>

static uint64_t state;

static uint32_t any(void)
{
    uint64_t z = state += UINT64_C(0x9E3779B97F4A7C15);

    z = (z ^ (z >> 30)) * UINT64_C(0xBF58476D1CE4E5B9);
    z = (z ^ (z >> 27)) * UINT64_C(0x94D049BB133111EB);
    return (uint32_t)((z ^ (z >> 31)) >> 32);
}

static uint32_t under(uint32_t n) { return any() % n; }
static int one_in(uint32_t n) { return under(n) == 0; }

static uint32_t get32(const uint8_t *at)
{
    return at[0] + ((uint32_t)at[1] << 8) + ((uint32_t)at[2] << 16) +
           ((uint32_t)at[3] << 24);
}

static void put32(uint8_t *at, uint32_t number)
{
    at[0] = (uint8_t)number;
    at[1] = (uint8_t)(number >> 8);
    at[2] = (uint8_t)(number >> 16);
    at[3] = (uint8_t)(number >> 24);
}

static void put_record(uint8_t *at, uint32_t kind, uint32_t argument,
                       uint32_t value)
{
    at[0] = (uint8_t)kind;
    at[1] = (uint8_t)argument;
    at[2] = (uint8_t)value;
    at[3] = (uint8_t)(value >> 8);
}

/* Each section plays the next one, and the last a section that is there; in
 * front of some plays, or in place of them, stands a wrong record, so that what
 * is played behind it lies less deep. */
static size_t broken_chain(uint8_t *file)
{
    uint32_t sections = 7 + under(6), s, at = 2 + 8 * sections;

    file[0] = (uint8_t)sections;
    file[1] = 0;
    for (s = 0; s < sections; s++) {
        uint32_t records = 1 + under(2), played = s + 1, r;

        if (played >= sections)
            played = sections - 1;
        put32(file + 2 + 8 * s, at);
        put32(file + 6 + 8 * s, 4 * records);
        for (r = 0; r < records; r++, at += 4) {
            if (one_in(12))
                put_record(file + at, 6 + under(250), under(256), under(9));
            else if (r + 1 < records && one_in(2))
                put_record(file + at, 4, 0, 0);
            else
                put_record(file + at, 5, played, under(3));
        }
    }
    return at;
}

/* The whole table of a file that states few sections, and their bytes there. */
static uint32_t sections_of(const uint8_t *file, size_t n)
{
    uint32_t sections = n < 2 ? 0 : file[0] + 256u * file[1];

    return n < 2 + 8 * (size_t)sections ? 0 : sections;
}

/* A section's stated length grows or shrinks, and the starts behind it with it,
 * so that there is no gap. */
static void move_borders(uint8_t *file, uint32_t sections, uint32_t by)
{
    uint32_t s = under(sections);

    put32(file + 6 + 8 * s, get32(file + 6 + 8 * s) + by);
    while (++s < sections)
        put32(file + 2 + 8 * s, get32(file + 2 + 8 * s) + by);
}

/* The last stated end comes to a number near the limit. */
static void end_near_limit(uint8_t *file, uint32_t sections)
{
    uint8_t *last = file + 2 + 8 * (sections - 1);
    uint32_t end = 65530 + under(10);

    if (get32(last) <= end)
        put32(last + 4, end - get32(last));
}

static size_t one_thing(uint8_t *file, size_t n)
{
    uint32_t sections = sections_of(file, n);
    size_t table = 2 + 8 * (size_t)sections, i;

    if (sections == 0 || n > 65000)
        return n;
    switch (under(8)) {
    case 0: case 1: case 2: /* it breaks off; seldom within its table */
        if (one_in(6))
            return under((uint32_t)n);
        return table + under((uint32_t)(n - table) + 1);
    case 3: case 4: /* a record is another */
        if (n >= table + 4) {
            i = table + 4 * under((uint32_t)((n - table) / 4));
            put_record(file + i, under(one_in(4) ? 256 : 8), under(9),
                       one_in(2) ? 0 : under(65536));
        }
        return n;
    case 5: /* bytes behind */
        for (i = 1 + under(9); i > 0; i--)
            file[n++] = (uint8_t)under(6);
        return n;
    case 6: /* sections have other lengths, records or not */
        move_borders(file, sections, one_in(2) ? 1 + under(12) : 4);
        return n;
    default:
        if (one_in(3))
            end_near_limit(file, sections);
        else if (one_in(3)) /* a number of the table is another */
            put32(file + 2 + 4 * under(2 * sections), under(one_in(2) ? 200 : 70000));
        else
            move_borders(file, sections, (uint32_t)-(int32_t)(1 + under(8)));
        return n;
    }
}

size_t some_cut(uint64_t number, uint8_t *file)
{
    uint32_t things;
    size_t n;

    state = number ^ UINT64_C(0x5A17A6E);
    n = one_in(6) ? broken_chain(file) : some_trace(number, file);
    things = one_in(8) ? 0 : 1 + under(3);
    while (things-- > 0)
        n = one_thing(file, n);
    return n;
}

size_t some_cut_room(uint64_t number, size_t length)
{
    state = number ^ UINT64_C(0xB0FFE2);
    switch (under(8)) {
    case 0: return length;
    case 1: return length > 0 ? length - 1 : 0;
    case 2: return under((uint32_t)length + 1);
    case 3: return under(8) == 0 ? 0 : 65535;
    case 4: return 65536 + under((uint32_t)SOME_CUT_ROOM - 65536);
    default: return length + under(60);
    }
}
