/* Random calls to the plain C module, to the second model in tests/model and,
 * if built with LIBRARY, to the proved library, plays of trace files among them:
 * after every call the answers, the registers and the levels must be the same.
 * So what is measured is one module, written twice.
 *
 * usage: check [seed] [calls]
 */
#include "plain_trace.h"
#include "ref_spi.h"
#include "some_trace.h"
#include "trace.h"
#ifdef LIBRARY
#include "library.h"
#endif

#include <stdio.h>
#include <stdlib.h>
#include <string.h>

#define MODULES 3

enum kind {
    POWER_UP, /* with a depth */
    READ,
    WRITE,
    TICK,
    PINS,
    STEP,
    CLEAR,
    LEVELS,
    LINKED,
    CLOCK,
    PLAY,
    KINDS
};
static const char *const names[KINDS] = {
    "power-up", "read",   "write",  "tick",  "pins", "clock step",
    "clear",    "levels", "linked", "clock", "play"};

/* The file of a play, made from the call's first number. */
static uint8_t file[SOME_TRACE_BYTES];
static size_t length;

/* A call on module i, and in a linked run on module j. */
struct call {
    enum kind kind;
    int i, j;
    uint32_t a, b, c;
};

/* ---- the same call made by each ----------------------------------------- */

static uint64_t told(uint32_t number, uint32_t kind, double rate,
                     double bittime, double below)
{
    double floats[3];
    uint64_t bits[3];

    floats[0] = rate;
    floats[1] = bittime;
    floats[2] = below;
    memcpy(bits, floats, sizeof bits);
    return (bits[0] ^ bits[1] * 3 ^ bits[2] * 5) + number * 16 + kind;
}

static struct ref_spi ref[MODULES];
static unsigned long refused[26], plays, edges, overflows, fillers, aborts;
static unsigned long given, sampled, framed_words, marks, unmarked;
static unsigned long deep[3]; /* modules set up, of depth 4, 8 and 16 */

static unsigned ref_levels(const struct ref_spi *m)
{
    unsigned value = (unsigned)ref_flag(m) | (unsigned)ref_sck(m) << 1;

    if (ref_sdo(m) != REF_UNDRIVEN)
        value |= 8u | (unsigned)ref_sdo(m) << 2;
    if (ref_ss(m) != REF_UNDRIVEN)
        value |= 32u | (unsigned)ref_ss(m) << 4;
    return value;
}

static uint64_t ask_ref(const struct call *c)
{
    struct ref_spi *m = &ref[c->i];
    unsigned value = 0;
    int number = 0, kind = 0;
    double rate = 0, bittime = 0;

    switch (c->kind) {
    case POWER_UP:
        number = ref_power_up_depth(m, c->a);
        break;
    case READ:
        number = ref_read(m, c->a, &value);
        break;
    case WRITE:
        number = ref_write(m, c->a, c->b & 0xFFFF);
        break;
    case TICK:
        number = ref_tick(m, c->a != 0, c->b != 0);
        value = number == 0;
        break;
    case PINS:
        number = ref_pins(m, c->a != 0, c->b != 0, c->c != 0);
        break;
    case STEP:
        number = ref_step(m, c->a != 0, c->b != 0, c->c != 0);
        value = ref_levels(m) | (number == REF_NO_EDGE ? 64u : 0u);
        break;
    case CLEAR:
        ref_clear(m);
        break;
    case LEVELS:
        value = ref_levels(m);
        break;
    case LINKED:
        number = ref_linked(m, &ref[c->j], c->a, &value);
        break;
    case PLAY:
        number = trace_play(m, file, length, &value);
        plays += number == 0;
        break;
    default:
        number = ref_clock(m, c->a, &kind, &rate, &bittime);
        refused[8] += number == 8;
        return told((uint32_t)number, (uint32_t)kind, kind == 1 ? rate : 0,
                    bittime, kind == 2 ? rate : 0);
    }
    if (number > 0) {
        refused[number]++;
        return (uint64_t)number << 16;
    }
    return value;
}

static struct plain_spi plain[MODULES];

static uint64_t ask_plain(const struct call *c)
{
    struct plain_spi *m = &plain[c->i];
    struct plain_clock said;

    switch (c->kind) {
    case POWER_UP:
        return plain_power_up_with(m, c->a);
    case READ:
        return plain_read(m, c->a);
    case WRITE:
        return plain_write(m, c->a, c->b);
    case TICK:
        return plain_tick(m, c->a, c->b);
    case PINS:
        return plain_pins(m, c->a, c->b, c->c);
    case STEP:
        return plain_clock_step(m, c->a, c->b, c->c);
    case CLEAR:
        plain_clear(m);
        return 0;
    case LEVELS:
        return plain_levels(m);
    case LINKED:
        return plain_linked(m, &plain[c->j], c->a);
    case PLAY:
        return plain_play(m, file, length);
    default:
        said = plain_report(m, c->a);
        return told(said.number, said.kind, said.rate, said.bittime,
                    said.below);
    }
}

#ifdef LIBRARY
static uint16_t library[MODULES][THURAFEQA_NUMBERS];

static uint64_t ask_library(const struct call *c)
{
    uint16_t *m = library[c->i];
    struct thurafeqa_clock said = {0, 0, 0};
    uint32_t answer;

    switch (c->kind) {
    case POWER_UP:
        return thurafeqa_power_up_with(m, c->a);
    case READ:
        return thurafeqa_read(m, c->a);
    case WRITE:
        return thurafeqa_write(m, c->a, c->b);
    case TICK:
        return thurafeqa_tick(m, c->a, c->b);
    case PINS:
        return thurafeqa_pins(m, c->a, c->b, c->c);
    case STEP:
        return thurafeqa_clock_step(m, c->a, c->b, c->c);
    case CLEAR:
        thurafeqa_clear(m);
        return 0;
    case LEVELS:
        return thurafeqa_levels(m);
    case LINKED:
        return thurafeqa_linked(m, library[c->j], c->a);
    case PLAY:
        return thurafeqa_play(m, file, length);
    default:
        answer = thurafeqa_clock(m, c->a, &said);
        return told(answer >> 16, answer & 0xFFFF, said.rate, said.bittime,
                    said.below);
    }
}
#endif

/* ---- comparing ---------------------------------------------------------- */

static unsigned long seed = 1, calls = 1000000, made;

static void same(const char *who, const struct call *c, uint64_t got,
                 uint64_t want)
{
    if (got == want)
        return;
    printf("check: FAILED: seed %lu, call %lu, %s %lX %lX %lX on module %d: "
           "%s answers %llX, the model %llX\n",
           seed, made, names[c->kind], (unsigned long)c->a,
           (unsigned long)c->b, (unsigned long)c->c, c->i, who,
           (unsigned long long)got, (unsigned long long)want);
    exit(1);
}

static uint64_t ask(enum kind kind, int i, int j, uint32_t a, uint32_t b,
                    uint32_t c)
{
    int marked = ref[i].mark, other = ref[j].mark;
    struct call call;
    uint64_t want;

    call.kind = kind;
    call.i = i;
    call.j = j;
    call.a = a;
    call.b = b;
    call.c = c;
    if (kind == PLAY)
        length = some_trace(a, file);
    want = ask_ref(&call);
    marks += (!marked && ref[i].mark) + (!other && ref[j].mark && j != i);
    unmarked += marked && !ref[i].mark;
    same("plain C", &call, ask_plain(&call), want);
#ifdef LIBRARY
    same("the library", &call, ask_library(&call), want);
#endif
    return want;
}

/* What can be seen of a module without changing it. */
static void look(int i)
{
    uint32_t reg;

    for (reg = 0; reg < 3; reg++)
        ask(READ, i, 0, reg, 0, 0);
    ask(LEVELS, i, 0, 0, 0, 0);
}

/* ---- random calls ------------------------------------------------------- */

static uint64_t state;

static unsigned rnd(unsigned n)
{
    state ^= state << 13;
    state ^= state >> 7;
    state ^= state << 17;
    return (unsigned)((state >> 11) % n);
}

static int one_in(unsigned n) { return rnd(n) == 0; }

/* Any number for a level: 0 is low, all others are high. */
static uint32_t level(int high)
{
    if (!high)
        return 0;
    return one_in(8) ? 1 + rnd(0xFFFFFFFFu) : 1;
}

/* Modules that are hardly read until a word is lost. */
static int lazy[MODULES];

static int reads(int i) { return !lazy[i] || ref[i].mark || one_in(40); }

/* Disables module i, or powers it up with a depth, and enables it with other
 * settings; CKP, CKE and MODE16 are those of the others more often than not, for
 * the linked runs. */
static void configure(int i)
{
    static unsigned common;
    uint32_t con1 = rnd(0x10000);
    uint32_t con2 = rnd(0x10000) & 0x6003;

    if (one_in(6))
        common = rnd(0x10000) & 0x0540;
    if (!one_in(5))
        con1 = (con1 & ~0x0540u) | common;
    if (!one_in(10))
        con1 &= ~0x0200u;
    if (!one_in(3))
        con1 &= ~0x1800u;
    if (one_in(3))
        con2 |= 0x8000;
    lazy[i] = one_in(3);
    if (one_in(4))
        ask(POWER_UP, i, 0, one_in(8) ? rnd(40) : 4u << rnd(3), 0, 0);
    deep[ref[i].depth / 8]++;
    ask(WRITE, i, 0, 0, rnd(0x8000), 0);
    ask(WRITE, i, 0, 1, con1, 0);
    ask(WRITE, i, 0, 2, con2, 0);
    ask(WRITE, i, 0, 0, rnd(0x8000) | 0x8000, 0);
}

static void edge(int i)
{
    struct ref_spi before = ref[i];
    int own = before.msten && !before.dissck;
    uint32_t sdi = level((int)rnd(2));
    uint32_t ss = level(before.frmen ? one_in(4) != !before.frmpol
                                     : one_in(60));

    if (own != one_in(50) && !one_in(3)) {
        ask(TICK, i, 0, sdi, ss, 0);
    } else {
        uint32_t sck = level(one_in(5) ? before.sck : !before.sck);
        ask(own || one_in(3) ? STEP : PINS, i, 0, sck, sdi, ss);
        aborts += ss && before.begun && !ref[i].begun && before.ssen &&
                  !before.msten && !before.frmen;
    }
    fillers += !before.begun && ref[i].filler;
    given += before.frmen && !before.spifsd && !before.pulse && ref[i].pulse;
    sampled += before.frmen && before.spifsd && !before.pulse && ref[i].pulse;
    framed_words += before.frmen && before.begun && !ref[i].begun;
    edges += before.sck != ref[i].sck;
    overflows += !before.spirov && ref[i].spirov;
}

static void any(int i)
{
    uint32_t reg = one_in(9) ? rnd(6) : 3;
    uint32_t value = rnd(0xFFFFFFFFu);
    int j = (i + 1 + (int)rnd(MODULES - 1)) % MODULES;

    switch (rnd(14)) {
    case 0:
        ask(WRITE, i, 0, reg, value, 0);
        break;
    case 1:
        if (reads(i))
            ask(READ, i, 0, reg, 0, 0);
        break;
    case 2:
        if (one_in(3))
            ask(CLEAR, i, 0, 0, 0, 0);
        break;
    case 3:
        if (ref[i].mark && one_in(10)) { /* off and on: the mark goes */
            ask(WRITE, i, 0, 0, value & 0x7FFF, 0);
            ask(WRITE, i, 0, 0, value | 0x8000, 0);
        } else if (!ref[i].spien || one_in(30))
            configure(i);
        else if (one_in(10))
            ask(WRITE, i, 0, 0, value | 0x8000, 0);
        break;
    case 4:
        if (one_in(4)) {
            ask(LINKED, i, j, one_in(8) ? value % 560 : value % 40, 0, 0);
            look(j);
        }
        break;
    case 5:
        ask(CLOCK, i, 0, one_in(9) ? 0 : value, 0, 0);
        if (one_in(20))
            ask(PLAY, i, 0, value, 0, 0);
        break;
    case 6:
        if (one_in(4)) /* fill, or read all */
            for (j = 0; j < ref[i].depth + 2; j++)
                ask(value & 1 && reads(i) ? READ : WRITE, i, 0, 3,
                    value + (uint32_t)j, 0);
        break;
    default:
        edge(i);
        break;
    }
    look(i);
}

int main(int argc, char **argv)
{
    int i;

    if (argc > 1)
        seed = strtoul(argv[1], NULL, 10);
    if (argc > 2)
        calls = strtoul(argv[2], NULL, 10);
    state = seed * 0x9E3779B97F4A7C15u + 1;
    for (i = 0; i < MODULES; i++) {
        ref_power_up(&ref[i]);
        plain_power_up(&plain[i]);
#ifdef LIBRARY
        memset(library[i], 0xA5, sizeof library[i]);
        thurafeqa_power_up(library[i]);
#endif
        look(i);
    }
    for (made = 1; made <= calls; made++)
        any((int)rnd(MODULES));

    printf("check: ok: %lu random calls: %lu edges, %lu fillers, %lu aborts, "
           "%lu overflows, %lu marks set and %lu cleared; framed: "
           "%lu words, %lu pulses given, %lu sampled; %lu traces played; "
           "set up at depth 4: %lu, 8: %lu, 16: %lu; refused",
           calls, edges, fillers, aborts, overflows, marks, unmarked,
           framed_words, given, sampled, plays, deep[0], deep[1], deep[2]);
    for (i = 1; i < 20; i++)
        if (i != 4 && i != 9 && i != 12) /* no call gives these */
            printf(" %d: %lu,", i, refused[i]);
    printf(" 25: %lu\n", refused[25]);
    return 0;
}
