/* A script is put together line by line, and each line may be spoilt. */
#include "some_script.h"

#include <stdio.h>
#include <string.h>

/* ---- numbers ------------------------------------------------------------ */

static uint64_t state;

static uint32_t any(void)
{
    uint64_t z = state += UINT64_C(0x9E3779B97F4A7C15);

    z = (z ^ (z >> 30)) * UINT64_C(0xBF58476D1CE4E5B9);
    z = (z ^ (z >> 27)) * UINT64_C(0x94D049BB133111EB);
    return (uint32_t)((z ^ (z >> 31)) >> 32);
}

static uint32_t under(uint32_t n) { return any() % n; }
static int one_in(uint32_t n) { return under(n) == 0; }

/* ---- a script under way --------------------------------------------------- */

static uint8_t *at;
static size_t size;

static void put(const void *bytes, size_t n)
{
    if (size + n > SOME_SCRIPT_BYTES)
        return; /* full */
    memcpy(at + size, bytes, n);
    size += n;
}

static void put_byte(uint32_t byte)
{
    uint8_t b = (uint8_t)byte;

    put(&b, 1);
}

static void put_bytes(uint32_t byte, uint32_t n)
{
    while (n-- > 0)
        put_byte(byte);
}

/* ---- lines ----------------------------------------------------------------- */

static uint32_t spoils; /* one in so many lines is spoilt; 0: none */
static int crs;         /* lines end with CR and LF */

/* A line, whole or with a slip in it: a byte that is another, one too many or
 * one that is missing, lower case, a space or a tab at an end. */
static void put_line(const char *text)
{
    char line[40];
    size_t n = strlen(text), k;

    strcpy(line, text);
    if (spoils > 0 && one_in(spoils)) {
        switch (under(7)) {
        case 0: line[under((uint32_t)n)] = (char)any(); break;
        case 1: line[under((uint32_t)n)] = "WRTPC 0123456789AF"[under(18)]; break;
        case 2: line[n++] = " \t01\r"[under(5)]; break;
        case 3: n -= n > 0; break;
        case 4:
            k = under((uint32_t)n);
            line[k] = (char)(line[k] | 0x20);
            break;
        case 5:
            k = under((uint32_t)n + 1);
            memmove(line + k + 1, line + k, n - k);
            line[k] = " 01\t"[under(4)];
            n++;
            break;
        default: n = 0; break; /* an empty line */
        }
    }
    put(line, n);
    if (crs)
        put_byte('\r');
    put_byte('\n');
}

static void put_write(uint32_t reg, uint32_t value)
{
    char line[16];

    sprintf(line, "W %u %04X", (unsigned)(reg % 10), (unsigned)(value & 0xFFFFu));
    put_line(line);
}

static void put_read(uint32_t reg)
{
    char line[8] = "R x";

    line[2] = (char)('0' + reg % 10);
    put_line(line);
}

/* With SS, or without: then it is low. */
static void put_tick(uint32_t sdi, uint32_t ss)
{
    char line[8] = "T x x";

    line[2] = (char)('0' + sdi % 2);
    line[4] = (char)('0' + ss % 2);
    if (ss % 2 == 0 && !one_in(3))
        line[3] = '\0';
    put_line(line);
}

static void put_pins(uint32_t sck, uint32_t sdi, uint32_t ss)
{
    char line[8] = "P x x x";

    line[2] = (char)('0' + sck % 2);
    line[4] = (char)('0' + sdi % 2);
    line[6] = (char)('0' + ss % 2);
    put_line(line);
}

/* ---- sessions --------------------------------------------------------------- */

/* The module that a session is for: a host with its own clock takes ticks,
 * every other one pin calls. */
static int ticks, framed;
static uint32_t sck;

static void put_settings(void)
{
    static const uint32_t role[] = {0x0020, 0x0020, 0x1020, 0x0000, 0x0080};
    uint32_t con1 = role[under(5)] | (any() & 0x0440u);
    uint32_t con2 = any() & 0x6003u;

    ticks = (con1 & 0x1020) == 0x0020;
    framed = one_in(3);
    if ((con1 & 0x0080) || ticks)
        con1 |= any() & 0x0100u;
    if (one_in(30))
        con1 |= any() & 0x1FFFu;
    if (framed)
        con2 |= 0x8000u;
    sck = con1 >> 6 & 1;
    put_write(1, con1);
    put_write(2, con2);
    put_write(0, 0x8000u | (any() & 0x007Cu));
}

static void put_edge(void)
{
    uint32_t sdi = under(2);
    uint32_t ss = framed ? under(2) : (uint32_t)one_in(40);

    if (ticks) {
        put_tick(sdi, ss);
    } else {
        sck ^= (uint32_t)!one_in(20);
        put_pins(sck, sdi, ss);
    }
}

/* More words than a receive buffer holds, and none of them is read. */
static void put_overflow(void)
{
    int word, edge;

    for (word = 0; word < 10; word++) {
        put_write(3, any());
        for (edge = 0; edge < 16; edge++)
            put_edge();
    }
}

static void put_something(void)
{
    uint32_t n;

    switch (under(20)) {
    case 0: case 1: case 2: put_write(3, any()); break;
    case 3: case 4: put_read(3); break;
    case 5: put_read(under(10)); break;
    case 6: put_line("C"); break;
    case 7: put_write(under(10), any()); break;
    case 8: put_tick(any(), any()); break;
    case 9: put_pins(any(), any(), any()); break;
    case 10: put_write(0, 0x8000u | (any() & 0x207Cu)); break;
    case 11: put_bytes('x', under(25)); put_line("C"); break;
    case 12:
        if (one_in(6)) { /* disabled, and set up again */
            put_write(0, any() & 0x207Cu);
            put_settings();
        } else if (one_in(6)) {
            put_overflow();
        }
        break;
    default:
        for (n = one_in(3) ? 16 + under(40) : under(5); n > 0; n--)
            put_edge();
        break;
    }
}

static void put_session(uint32_t things)
{
    if (!one_in(10))
        put_settings();
    while (things-- > 0)
        put_something();
}

/* The last line, now and then without its LF. */
static void end_session(void)
{
    if (size > 0 && one_in(4))
        size--;
}

/* ---- around the limits -------------------------------------------------------- */

/* As many lines that are kept as fit a file, or one or two more or less; among
 * them lines that are left out. */
static void put_full(void)
{
    static const uint32_t lines[] = {16380, 16381, 16381, 16382, 16383};
    uint32_t n = lines[under(5)];
    int left_out = one_in(2);

    if (!one_in(3)) {
        put_settings();
        n -= 3;
    }
    while (n-- > 0) {
        if (size < 65000 - 2 * (size_t)n && one_in(40))
            put_edge();
        else
            put_line("C");
        if (left_out && one_in(60) && size < 64900 - 2 * (size_t)n)
            put_line(one_in(2) ? "R 4" : "");
    }
}

/* A line that the limit of 65,535 bytes cuts, or that ends near it. */
static void put_cut(void)
{
    static const char *const line[] = {"W 1 0020", "R 05", "T 0 1", "P 0 0 0",
                                       "CC",       "T 1",  "R 0",   "C"};
    uint32_t edge = 65520 + under(18);

    put_session(under(30));
    if (size > edge)
        size = edge;
    put_bytes('x', edge - (uint32_t)size);
    put_byte('\n');
    while (size < 65540)
        put_line(line[under(8)]);
    put_session(under(4));
}

/* Any bytes, or such as lines are made of. */
static void put_mere_bytes(uint32_t n)
{
    static const char some[] = "WRTPC  0123\n\n";
    int kind = (int)under(3);

    while (n-- > 0) {
        if (kind == 0 || (kind == 1 && one_in(20)))
            put_byte(any());
        else
            put_byte((uint8_t)some[under(sizeof some - 1)]);
    }
}

size_t some_script(uint64_t number, uint8_t *script)
{
    static const uint32_t rate[] = {0, 0, 40, 8, 2};
    uint32_t shape;

    state = number;
    at = script;
    size = 0;
    shape = under(1000);
    spoils = rate[under(5)];
    crs = one_in(20);
    ticks = 1;
    framed = 0;
    sck = 0;
    if (shape < 780) {
        put_session(under(one_in(10) ? 60 : 12));
        end_session();
    } else if (shape < 955) {
        put_mere_bytes(under(one_in(10) ? 2000 : 60));
    } else if (shape < 975) {
        put_bytes(one_in(2) ? '\n' : any(), under(20));
    } else if (shape < 988) {
        spoils = 0;
        crs = 0;
        put_full();
        end_session();
    } else if (shape < 994) {
        put_cut();
    } else if (shape == 994) { /* long, most of it behind the limit */
        while (size < 70000 + under(100000))
            put_session(20);
    } else if (shape == 995) {
        put_mere_bytes(65530 + under(10));
    } /* else no byte at all */
    return size;
}

static size_t any_room(size_t length)
{
    switch (under(16)) {
    case 0: return 0;
    case 1: return under(12);
    case 2: case 3: return length - 1;
    case 4: case 5: case 6: return length;
    case 7: return length + 1;
    case 8: return length + under(9);
    case 9: return 65535;
    case 10: return 65536 + under(8);
    case 11: return SOME_ROOM - under(100);
    case 12: return under((uint32_t)length);
    default: return length + under(300);
    }
}

size_t some_room(uint64_t number, size_t length)
{
    size_t room;

    state = number ^ UINT64_C(0xD1B54A32D192ED03);
    room = any_room(length);
    return room < SOME_ROOM ? room : SOME_ROOM;
}
