/* A file is looked through once for its records and once, backwards, for the
 * number of calls; the second time the records that lead to a call are copied
 * together, so that play passes nothing else. */
#include "plain_trace.h"

#include <string.h>

enum { WRITE, READ, TICK, PINS, CLEAR, PLAY };
enum { MOST_SECTIONS = 64, MOST_LEVELS = 8, MOST = 65535, RECORDS = MOST / 4 };

struct section {
    uint32_t start, end; /* in the file */
    uint32_t first, last; /* of its steps */
    uint32_t calls;
    uint32_t level;
};

struct trace {
    struct section section[MOST_SECTIONS];
    uint32_t step[RECORDS];
};

/* The bits of a record that must be 0, by kind. */
static const uint32_t zero[PLAY] = {0x0000FC00, 0xFFFFFC00, 0xFFFFFA00,
                                    0xFFFFF800, 0xFFFFFF00};

static uint32_t number(const uint8_t *at)
{
    return at[0] | (uint32_t)at[1] << 8 | (uint32_t)at[2] << 16 |
           (uint32_t)at[3] << 24;
}

/* The number of sections, 0 if the contents are wrong. */
static uint32_t contents(struct trace *t, const uint8_t *file, size_t length)
{
    uint32_t count, at, s;

    if (length < 2 || length > MOST)
        return 0;
    count = file[0] | (uint32_t)file[1] << 8;
    at = 2 + 8 * count;
    if (count > MOST_SECTIONS || at > length)
        return 0;
    for (s = 0; s < count; s++) {
        uint32_t size = number(file + 6 + 8 * s);

        if (number(file + 2 + 8 * s) != at || size % 4 != 0 ||
            size > length - at)
            return 0;
        t->section[s].start = at;
        t->section[s].end = at += size;
        t->section[s].level = 1;
    }
    return at == length ? count : 0;
}

static int records(struct trace *t, const uint8_t *file, uint32_t count)
{
    uint32_t s, at;

    for (s = 0; s < count; s++) {
        uint32_t level = t->section[s].level, end = t->section[s].end;

        for (at = t->section[s].start; at < end; at += 4) {
            uint32_t r = number(file + at), played = r >> 8 & 0xFF;

            if ((r & 0xFF) < PLAY) {
                if (r & zero[r & 0xFF])
                    return 0;
                continue;
            }
            if ((r & 0xFF) > PLAY || played <= s || played >= count ||
                level == MOST_LEVELS)
                return 0;
            if (t->section[played].level <= level)
                t->section[played].level = level + 1;
        }
    }
    return 1;
}

static void steps(struct trace *t, const uint8_t *file, uint32_t count)
{
    uint32_t *next = t->step;
    uint32_t s, at;

    for (s = count; s-- > 0;) {
        struct section *here = &t->section[s];
        uint64_t calls = 0;

        here->first = (uint32_t)(next - t->step);
        for (at = here->start; at < here->end; at += 4) {
            uint32_t r = number(file + at), of;

            if ((r & 0xFF) == PLAY) {
                of = t->section[r >> 8 & 0xFF].calls;
                calls += (uint64_t)(r >> 16) * (1 + of);
                if (r >> 16 == 0 || of == 0)
                    continue;
            } else {
                calls++;
            }
            *next++ = r;
        }
        here->last = (uint32_t)(next - t->step);
        here->calls = calls > MOST ? MOST + 1 : (uint32_t)calls;
    }
}

static void play(struct plain_spi *m, const struct trace *t, uint32_t s)
{
    const uint32_t *p = t->step + t->section[s].first;
    const uint32_t *end = t->step + t->section[s].last;

    for (; p < end; p++) {
        uint32_t r = *p, n;

        switch (r & 0xFF) {
        case WRITE:
            plain_write(m, r >> 8 & 3, r >> 16);
            break;
        case READ:
            plain_read(m, r >> 8);
            break;
        case TICK:
            plain_tick(m, r & 0x100, r & 0x400);
            break;
        case PINS:
            plain_pins(m, r & 0x200, r & 0x100, r & 0x400);
            break;
        case CLEAR:
            plain_clear(m);
            break;
        default:
            for (n = r >> 16; n > 0; n--)
                play(m, t, r >> 8 & 0xFF);
            break;
        }
    }
}

uint32_t plain_play(struct plain_spi *m, const uint8_t *file, size_t length)
{
    struct trace t;
    uint32_t count = contents(&t, file, length);

    if (count == 0)
        return 17u << 16;
    if (!records(&t, file, count))
        return 18u << 16;
    steps(&t, file, count);
    if (t.section[0].calls > MOST)
        return 19u << 16;
    plain_power_up(m);
    play(m, &t, 0);
    return t.section[0].calls;
}

/* ---- salvage --------------------------------------------------------------- */

static void put_number(uint8_t *at, uint32_t n)
{
    at[0] = (uint8_t)n;
    at[1] = (uint8_t)(n >> 8);
    at[2] = (uint8_t)(n >> 16);
    at[3] = (uint8_t)(n >> 24);
}

/* How many bytes of a section are kept. */
static uint32_t kept(const uint8_t *body, uint32_t whole, uint32_t s,
                     uint32_t count, uint8_t *levels)
{
    uint32_t at, level = levels[s];

    for (at = 0; at < whole; at += 4) {
        uint32_t r = number(body + at), played = r >> 8 & 0xFF;

        if ((r & 0xFF) < PLAY) {
            if (r & zero[r & 0xFF])
                return at;
            continue;
        }
        if ((r & 0xFF) > PLAY || played <= s || played >= count ||
            level == MOST_LEVELS)
            return at;
        if (levels[played] <= level)
            levels[played] = (uint8_t)(level + 1);
    }
    return at;
}

uint64_t plain_salvage(const uint8_t *file, size_t length, uint8_t *salvaged,
                       size_t room)
{
    uint8_t levels[MOST_SECTIONS];
    uint32_t sizes[MOST_SECTIONS], count, s, at, start, cut = 0;
    uint64_t end;

    if (length < 2 || length > MOST)
        return 17u << 16;
    count = file[0] | (uint32_t)file[1] << 8;
    end = start = 2 + 8 * count;
    if (count < 1 || count > MOST_SECTIONS || end > length)
        return 17u << 16;
    for (s = 0; s < count; s++) {
        if (number(file + 2 + 8 * s) != end)
            return 17u << 16;
        end += number(file + 6 + 8 * s);
    }
    if (end > MOST)
        return 17u << 16;
    memset(levels, 1, sizeof levels);
    at = start;
    for (s = 0; s < count; s++) {
        uint32_t size = number(file + 6 + 8 * s);
        uint32_t there = start >= length ? 0 : (uint32_t)length - start;

        sizes[s] = kept(file + (there ? start : 0),
                        (size < there ? size : there) & ~3u, s, count, levels);
        cut += sizes[s] < size;
        start += size;
        at += sizes[s];
    }
    if (at > room)
        return 20u << 16;
    salvaged[0] = (uint8_t)count;
    salvaged[1] = 0;
    at = start = 2 + 8 * count;
    for (s = 0; s < count; s++) {
        put_number(salvaged + 2 + 8 * s, at);
        put_number(salvaged + 6 + 8 * s, sizes[s]);
        if (sizes[s] > 0)
            memcpy(salvaged + at, file + start, sizes[s]);
        start += number(file + 6 + 8 * s);
        at += sizes[s];
    }
    return (uint64_t)cut << 48 | (end - at) << 32 | at;
}
