/* A hostile caller: memory that no call has made, any arguments, all calls.
 *
 * usage: hostile CALLS SEED
 *
 * Every call is made twice, on two copies of the memory that lie differently,
 * and this is held after it:
 * - both copies gave the same answer and hold the same memory afterwards;
 * - the numbers before and behind the memory are untouched. The page before or
 *   the page behind cannot be touched at all, not even read;
 * - the answer's shape is legal, and the refusal number is the one that the
 *   table asks for, going by what the registers showed before the call;
 * - what the registers and levels show is legal;
 * - where a read of BUF is refused with 16, which is tried on a copy, it was so
 *   before or an edge has lost a word, and it stays so until disabling;
 * - a call that is refused, or only looks, has no effect: every number of
 *   memory is as before, the registers and levels show the same, and a third
 *   copy that is spared all such calls goes on giving the same answers;
 * - the calls on constant memory leave it as it is, and work on memory that
 *   cannot be written;
 * - a play, of a trace or of any bytes, is refused as the second model's check
 *   of the file says, or makes as many calls, and shows then what its calls
 *   show, made one by one from power-up. Its file lies in memory that cannot be
 *   written, right behind or right before a page that cannot be touched;
 * - a save, of a script or of any bytes, which lie there too, is refused exactly
 *   if the file is too long, and then no byte lent is changed; else the bytes
 *   behind the file are as they were, the second model's check finds nothing
 *   wrong with the file, and it is played to what the script's calls show, made
 *   one by one. What is lent has a page that cannot be touched on one side and
 *   guards on the other, which are untouched;
 * - a call on a board, a list of none to six modules of any memory, is refused
 *   with 21 exactly by the list's length, then with 22 exactly by the numbers,
 *   else as the table says of the modules that it names. These show afterwards
 *   what they show where the third copy has the call made on the module alone,
 *   and all others hold the same memory as before. Modules that lie beside the
 *   list are guards. A list of more than four is not touched at all, and
 *   nothing but a clock report that is not refused writes one;
 * - the total of words owed after such a call is the low 16 bits of the one
 *   before, moved by as much as on a board of the named modules alone with a
 *   total that has room both ways, but not below 0 and not above 65,535. A
 *   refused call, a look and a read do not move it, a BUF write that is done
 *   moves it up by one, an edge by none or down by one, a word at a time, a
 *   linked run, disabling and power-up never up. The question answers it, or 21.
 * Exit 0: all held. Exit 1: something did not, or a refusal was not reached.
 * Exit 2: bad usage. */
#define _DEFAULT_SOURCE
#include "calls.h"
#include "save.h"
#include "script.h"
#include "some_script.h"
#include "some_trace.h"
#include "trace.h"

#include <signal.h>
#include <stdio.h>
#include <stdlib.h>
#include <string.h>
#include <sys/mman.h>
#include <unistd.h>

static unsigned long seed, wanted, made;
static struct call now; /* the call being made */

static void fail(const char *what)
{
    printf("call %lu of seed %lu: %s\n  ", made, seed, what);
    print_call(&now);
    printf("\n");
    exit(1);
}

static void hold(int held, const char *what)
{
    if (!held)
        fail(what);
}

/* The library touched what it may not, or ran into a trap. */
static void on_signal(int number)
{
    static const char said[] = "a call ended by a signal\n";

    (void)number;
    if (write(1, said, sizeof said - 1) < 0)
        _exit(1);
    fail("this is the call");
}

/* ---- memory between fences ------------------------------------------- */

/* Large enough for every page size. */
#define FENCE 65536u

#define NUMBERS (sizeof(thurafeqa) / sizeof(uint16_t))
#define AREA (FENCE / sizeof(uint16_t))

/* Numbers on either side of a module, and of a board's list: a module's. */
#define GUARDS 24u
#define BOARD_GUARDS NUMBERS
#define GUARD 0xA5C3u

struct place {
    uint16_t *area;         /* FENCE bytes; before and behind: no access */
    size_t at, numbers;     /* where in it the modules begin, and their size */
    uint16_t *first, *last; /* the guards: first up to the modules, and from */
                            /* behind them up to last */
    thurafeqa *m;
};

static void *new_area(size_t bytes)
{
    unsigned char *p = mmap(0, bytes + 3 * FENCE, PROT_NONE,
                            MAP_PRIVATE | MAP_ANONYMOUS, -1, 0);
    uintptr_t start;

    if (p == MAP_FAILED) {
        perror("mmap");
        exit(1);
    }
    start = ((uintptr_t)p + 2 * FENCE - 1) / FENCE * FENCE;
    p += start - (uintptr_t)p;
    if (mprotect(p, bytes, PROT_READ | PROT_WRITE) != 0) {
        perror("mprotect");
        exit(1);
    }
    return p;
}

/* Puts some modules near one fence or the other, most often right beside it. */
static void move(struct place *p, size_t modules, size_t guards)
{
    size_t gap = one_in(2) ? 0 : below((uint32_t)guards);
    size_t n = p->numbers = modules * NUMBERS;
    uint16_t *g;

    p->at = one_in(2) ? gap : AREA - n - gap;
    p->first = p->area + (p->at < guards ? 0 : p->at - guards);
    p->last = p->area + (p->at + n + guards > AREA ? AREA
                                                   : p->at + n + guards);
    p->m = (thurafeqa *)(void *)(p->area + p->at);
    for (g = p->first; g < p->last; g++)
        *g = GUARD;
}

static int guarded(const struct place *p)
{
    const uint16_t *m = p->area + p->at;
    const uint16_t *g;

    for (g = p->first; g < m; g++) {
        if (*g != GUARD)
            return 0;
    }
    for (g = m + p->numbers; g < p->last; g++) {
        if (*g != GUARD)
            return 0;
    }
    return 1;
}

/* ---- the file of a play ---------------------------------------------- */

/* Two copies, one from the start of its area, one up to its end; and what the
 * second model finds in it. */
static uint8_t *file_area[2];
static const uint8_t *file[2];
static struct trace trace;
static uint32_t file_refusal;

static void place_bytes(void)
{
    int i;

    for (i = 0; i < 2; i++) {
        uint8_t *at = file_area[i];

        if (i == 1)
            at += SOME_TRACE_BYTES - now.length;
        if (mprotect(file_area[i], SOME_TRACE_BYTES, PROT_READ | PROT_WRITE) !=
            0)
            fail("mprotect");
        memcpy(at, now.file, now.length);
        if (mprotect(file_area[i], SOME_TRACE_BYTES, PROT_READ) != 0)
            fail("mprotect");
        file[i] = at;
    }
    now.file = file[0];
}

static void place_file(void)
{
    bring_file(&now);
    place_bytes();
    file_refusal =
        (uint32_t)trace_number(trace_open(&trace, now.file, now.length));
}

/* Makes the calls of a section one by one, as long as not too many records are
 * passed: was it so? */
static int walk(thurafeqa *m, int s, long *patience)
{
    const struct trace_section *here = &trace.section[s];
    size_t at;

    for (at = here->start; at < here->start + here->length; at += 4) {
        const uint8_t *r = trace.file + at;
        uint32_t value = r[2] + 256u * r[3];

        if (--*patience < 0)
            return 0;
        switch (r[0]) {
        case TRACE_WRITE: thurafeqa_write(m, r[1], value); break;
        case TRACE_READ: thurafeqa_read(m, r[1]); break;
        case TRACE_TICK: thurafeqa_tick(m, r[1] & 1, r[1] & 4); break;
        case TRACE_PINS:
            thurafeqa_pins(m, r[1] & 2, r[1] & 1, r[1] & 4);
            break;
        case TRACE_CLEAR: thurafeqa_clear(m); break;
        default:
            while (value-- > 0)
                if (--*patience < 0 || !walk(m, r[1], patience))
                    return 0;
            break;
        }
    }
    return 1;
}

static unsigned long walked;

/* A module that a play has left shows this. */
static void hold_play(const uint32_t *shown)
{
    long patience = 20000;
    uint32_t seen[VIEWS];
    thurafeqa m;

    thurafeqa_power_up(&m);
    if (!walk(&m, 0, &patience))
        return;
    see_library(&m, seen);
    hold(memcmp(seen, shown, sizeof seen) == 0,
         "a play did not do what its calls do one by one");
    walked++;
}

/* ---- the script of a save, and what is lent to it --------------------- */

/* Two copies of what is lent, one from the start of its area, one up to its
 * end, with guards on the other side; and what it held before. */
#define LENT_AREA (2 * SOME_ROOM)
static uint8_t *lent_area[2], *lent[2];
static uint8_t lent_before[SOME_ROOM];
static size_t file_length; /* that the script comes to */

static void place_script(void)
{
    int i;

    bring_script(&now);
    place_bytes();
    file_length = save_length(now.file, now.length);
    fill_lent(lent_before, now.room, now.y);
    for (i = 0; i < 2; i++) {
        lent[i] = lent_area[i];
        if (i == 1)
            lent[i] += LENT_AREA - now.room;
        memset(i == 0 ? lent[i] + now.room : lent[i] - GUARDS, GUARD & 0xFF,
               GUARDS);
        memcpy(lent[i], lent_before, now.room);
    }
}

static int lent_guarded(void)
{
    size_t i;

    for (i = 0; i < GUARDS; i++) {
        if (lent[0][now.room + i] != (GUARD & 0xFF) ||
            *(lent[1] - 1 - i) != (GUARD & 0xFF))
            return 0;
    }
    return 1;
}

/* Makes the calls of a script one by one, by the lines that can be read: how
 * many of them name a register that is there? */
static unsigned walk_script(thurafeqa *m)
{
    struct script_walk w;
    struct script_call c;
    unsigned kept = 0;

    thurafeqa_power_up(m);
    script_begin(&w, now.file, now.length);
    while (script_next(&w)) {
        if (!script_read(w.line, w.length, &c))
            continue;
        switch (c.kind) {
        case SCRIPT_WRITE: thurafeqa_write(m, c.reg, c.value); break;
        case SCRIPT_READ: thurafeqa_read(m, c.reg); break;
        case SCRIPT_TICK:
            thurafeqa_tick(m, (uint32_t)c.sdi, (uint32_t)c.ss);
            break;
        case SCRIPT_PINS:
            thurafeqa_pins(m, (uint32_t)c.sck, (uint32_t)c.sdi,
                           (uint32_t)c.ss);
            break;
        default: thurafeqa_clear(m); break;
        }
        kept += c.reg <= THURAFEQA_BUF;
    }
    return kept;
}

static unsigned long saved_empty, saved_cut, refused_limit;

/* What is lent, after a save with this answer. */
static void hold_save(uint32_t answer)
{
    size_t n = thurafeqa_value(answer); /* 0 if it was refused */
    uint32_t shown[2][VIEWS];
    thurafeqa m;
    unsigned kept;

    hold(memcmp(lent[0], lent[1], now.room) == 0,
         "the same save left what was lent different");
    hold(lent_guarded(), "a byte beside what was lent was changed");
    hold(memcmp(lent[0] + n, lent_before + n, now.room - n) == 0,
         "a byte changed that should have stayed");
    refused_limit += n == 0 && file_length > TRACE_BYTES;
    if (n == 0)
        return;
    hold(trace_open(&trace, lent[0], n) == TRACE_RIGHT && trace.sections == 1,
         "a saved file is wrong");
    kept = walk_script(&m);
    see_library(&m, shown[0]);
    hold(thurafeqa_play(&m, lent[0], n) == kept,
         "a saved file makes other calls than its script");
    see_library(&m, shown[1]);
    hold(memcmp(shown[0], shown[1], sizeof shown[0]) == 0,
         "a saved file does not end as its script does");
    saved_empty += kept == 0;
    saved_cut += now.length > SCRIPT_BYTES;
}

/* ---- what the memory holds at first ---------------------------------- */

/* An enabled module of any depth as calls make it, with some words under way;
 * now and then an enhanced one that has received a buffer full, or nearly. */
static void make_real(thurafeqa *m, uint32_t con1)
{
    uint32_t con2 = any_number();
    uint32_t depth = depths[below(DEPTHS)];
    int full = one_in(8);
    uint32_t n;

    con1 &= ~(THURAFEQA_CON1_SMP | 1u); /* the primary prescaler is not 1:1 */
    if (!(con1 & THURAFEQA_CON1_MSTEN) && (con1 & THURAFEQA_CON1_CKE))
        con1 |= THURAFEQA_CON1_SSEN;
    if (!one_in(3))
        con2 &= ~THURAFEQA_CON2_FRMEN;
    if (full) {
        con1 &= ~THURAFEQA_CON1_MODE16;
        con2 |= THURAFEQA_CON2_SPIBEN;
    }
    thurafeqa_power_up_with(m, depth);
    thurafeqa_write(m, THURAFEQA_CON1, con1);
    thurafeqa_write(m, THURAFEQA_CON2, con2);
    thurafeqa_write(m, THURAFEQA_STAT, any_number() | THURAFEQA_STAT_SPIEN);
    for (n = below(depth + 2); n > 0; n--)
        thurafeqa_write(m, THURAFEQA_BUF, any_number());
    for (n = full ? 16 * depth - 28 + below(60) : below(80); n > 0; n--) {
        uint32_t ss = con2 & THURAFEQA_CON2_FRMEN ? below(2) : 0;

        thurafeqa_tick(m, below(2), ss);
        thurafeqa_pins(m, n % 2, below(2), ss);
    }
}

/* A disabled module as calls make it, its settings often some that cannot be
 * enabled. */
static void make_disabled(thurafeqa *m, uint32_t con1)
{
    if (one_in(2))
        con1 |= THURAFEQA_CON1_SPRE | THURAFEQA_CON1_PPRE;
    thurafeqa_power_up_with(m, depths[below(DEPTHS)]);
    thurafeqa_write(m, THURAFEQA_CON1, con1);
    thurafeqa_write(m, THURAFEQA_CON2, any_number());
}

static uint16_t some_number(void)
{
    return (uint16_t)(one_in(2) ? any_number() : below(12));
}

/* Fills a module's memory; a real module gets this CON1. */
static void fill(thurafeqa *m, uint32_t con1)
{
    uint32_t how = below(12);
    uint32_t start = any_number(), step = any_number();
    size_t i;

    if (how >= 6) { /* a real one, with some numbers replaced */
        if (one_in(8))
            make_disabled(m, con1);
        else
            make_real(m, con1);
        for (i = one_in(2) ? below(3) : below(12); i > 0; i--)
            m->memory[below(NUMBERS)] = some_number();
        return;
    }
    for (i = 0; i < NUMBERS; i++) {
        switch (how) {
        case 0: m->memory[i] = (uint16_t)any_number(); break;
        case 1: m->memory[i] = 0xFFFF; break;
        case 2: m->memory[i] = (uint16_t)start; break;
        case 3: m->memory[i] = (uint16_t)below(20); break;
        case 4: m->memory[i] = (uint16_t)below(2); break;
        default: m->memory[i] = (uint16_t)(start + i * step); break;
        }
    }
}

/* Fills two, of which the second would often make a client of the first. */
static void fill_both(thurafeqa *m)
{
    uint32_t con1 = any_number();

    fill(&m[0], con1);
    if (!one_in(4))
        con1 &= ~THURAFEQA_CON1_MSTEN;
    fill(&m[1], con1);
}

/* ---- which refusal the table asks for -------------------------------- */

static int enabled(const uint32_t *seen)
{
    return (seen[STAT] & THURAFEQA_STAT_SPIEN) != 0;
}

static int own_clock(const uint32_t *seen)
{
    return (seen[CON1] & (THURAFEQA_CON1_MSTEN | THURAFEQA_CON1_DISSCK)) ==
           THURAFEQA_CON1_MSTEN;
}

static int framed(const uint32_t *seen)
{
    return (seen[CON2] & THURAFEQA_CON2_FRMEN) != 0;
}

static int frame_host(const uint32_t *seen)
{
    return framed(seen) && !(seen[CON2] & THURAFEQA_CON2_SPIFSD);
}

static int receive_empty(const uint32_t *seen)
{
    if (seen[CON2] & THURAFEQA_CON2_SPIBEN)
        return (seen[STAT] & THURAFEQA_STAT_SRXMPT) != 0;
    return (seen[STAT] & THURAFEQA_STAT_SPIRBF) == 0;
}

static int undivided(const uint32_t *seen)
{
    return own_clock(seen) &&
           (~seen[CON1] & (THURAFEQA_CON1_SPRE | THURAFEQA_CON1_PPRE)) == 0;
}

/* A write that is to enable a disabled module. */
static int enabling(const struct call *c, const uint32_t *seen)
{
    return c->kind == WRITE && c->x == THURAFEQA_STAT && !enabled(seen) &&
           (c->y & THURAFEQA_STAT_SPIEN);
}

/* The first mistake in the settings, the prescalers left out. */
static uint32_t enabling_refusal(const uint32_t *seen)
{
    if (seen[CON1] & THURAFEQA_CON1_SMP)
        return THURAFEQA_LATE_SAMPLING;
    if (!framed(seen) &&
        (seen[CON1] & (THURAFEQA_CON1_MSTEN | THURAFEQA_CON1_CKE |
                       THURAFEQA_CON1_SSEN)) == THURAFEQA_CON1_CKE)
        return THURAFEQA_UNSELECTED_CKE;
    return 0;
}

/* The mark of document 02's request Four shows nowhere but in the refusal of a
 * read, so it is taken from the one on a copy. */
static int marked(const uint32_t *seen)
{
    return thurafeqa_refusal(seen[BUF]) == THURAFEQA_OVERFLOWED;
}

static uint32_t read_refusal(const uint32_t *seen)
{
    if (marked(seen))
        return THURAFEQA_OVERFLOWED;
    return receive_empty(seen) ? THURAFEQA_RECEIVE_EMPTY : 0;
}

static uint32_t register_refusal(const struct call *c, const uint32_t *seen)
{
    if (c->x > THURAFEQA_BUF)
        return THURAFEQA_NO_SUCH_REGISTER;
    if (c->x == THURAFEQA_BUF && !enabled(seen))
        return THURAFEQA_DISABLED;
    if (c->kind == READ)
        return c->x == THURAFEQA_BUF ? read_refusal(seen) : 0;
    if (c->x == THURAFEQA_BUF)
        return seen[STAT] & THURAFEQA_STAT_SPITBF ? THURAFEQA_TRANSMIT_FULL : 0;
    if (c->x != THURAFEQA_STAT)
        return enabled(seen) ? THURAFEQA_ENABLED : 0;
    return enabling(c, seen) ? enabling_refusal(seen) : 0;
}

static uint32_t linked_refusal(const struct call *c, const uint32_t *host,
                               const uint32_t *client)
{
    if (c->x > 544)
        return THURAFEQA_TOO_MANY_EDGES;
    if (!enabled(host) || !enabled(client))
        return THURAFEQA_DISABLED;
    if (!own_clock(host) || (client[CON1] & THURAFEQA_CON1_MSTEN) ||
        framed(host) || framed(client))
        return THURAFEQA_WRONG_CLOCK;
    if ((host[CON1] ^ client[CON1]) &
        (THURAFEQA_CON1_MODE16 | THURAFEQA_CON1_CKE | THURAFEQA_CON1_CKP))
        return THURAFEQA_DIFFERENT_MODES;
    return 0;
}

static uint32_t table_refusal(const struct call *c,
                              uint32_t seen[2][VIEWS])
{
    if (c->board && board_refusal(c) != 0)
        return board_refusal(c);
    switch (c->kind) {
    case POWER_UP_WITH:
        return is_depth(c->x) ? 0 : THURAFEQA_NO_SUCH_DEPTH;
    case READ:
    case WRITE: return register_refusal(c, seen[0]);
    case STEP:
    case WORD: return enabled(seen[0]) ? 0 : THURAFEQA_DISABLED;
    case TICK:
    case PINS:
        if (!enabled(seen[0]))
            return THURAFEQA_DISABLED;
        return own_clock(seen[0]) == (c->kind == TICK) ? 0
                                                       : THURAFEQA_WRONG_CLOCK;
    case LINKED: return linked_refusal(c, seen[0], seen[1]);
    case CLOCK: return c->x == 0 ? THURAFEQA_NO_RATE : 0;
    case PLAY: return file_refusal;
    case SAVE:
        return file_length > now.room || file_length > TRACE_BYTES
                   ? THURAFEQA_NO_ROOM
                   : 0;
    default: return 0;
    }
}

/* Memory made otherwise may hold prescaler numbers of which the register shows
 * only some bits. So a host that shows both as 1:1 may be refused with 13, or
 * be answered as if they were not. */
static int may_be_undivided(const struct call *c, uint32_t seen[2][VIEWS])
{
    if (c->board && board_refusal(c) != 0)
        return 0;
    return enabling(c, seen[0]) && undivided(seen[0]);
}

/* ---- legal shapes ---------------------------------------------------- */

static void hold_views(const uint32_t *seen)
{
    hold((seen[STAT] & ~0xA7FFu) == 0, "STAT shows bits that it has not");
    hold((seen[CON1] & ~0x1FFFu) == 0, "CON1 shows bits that it has not");
    hold((seen[CON2] & ~0xE003u) == 0, "CON2 shows bits that it has not");
    hold((seen[LEVELS] & ~63u) == 0, "levels show bits that they have not");
    hold((seen[LEVELS] & THURAFEQA_LEVELS_DRIVEN) ||
             !(seen[LEVELS] & THURAFEQA_LEVELS_SDO),
         "an undriven SDO has a level");
    hold(enabled(seen) || !(seen[LEVELS] & THURAFEQA_LEVELS_DRIVEN),
         "SDO is driven by a disabled module");
    hold((seen[LEVELS] & THURAFEQA_LEVELS_SS_DRIVEN) ||
             !(seen[LEVELS] & THURAFEQA_LEVELS_SS),
         "an undriven SS has a level");
    hold(!(seen[LEVELS] & THURAFEQA_LEVELS_SS_DRIVEN) ==
             !(enabled(seen) && frame_host(seen)),
         "SS is driven, or is not, against the settings");
}

static void hold_report(const struct call *c, const struct outcome *o,
                        const uint32_t *seen)
{
    const thurafeqa_clock_report *r = &o->report;
    uint32_t kind = THURAFEQA_CLOCK_NONE;

    if (thurafeqa_refusal(o->answer) != 0) {
        hold(memcmp(r, &no_report, sizeof no_report) == 0,
             "a refused clock report wrote something");
        return;
    }
    if (enabled(seen))
        kind = own_clock(seen) ? THURAFEQA_CLOCK_INTERNAL
                               : THURAFEQA_CLOCK_EXTERNAL;
    hold(thurafeqa_value(o->answer) == kind,
         "a clock report of the wrong kind");
    if (kind == THURAFEQA_CLOCK_INTERNAL)
        hold(r->rate > 0 && r->rate <= c->x && r->bittime > 0 &&
                 r->bittime <= 512,
             "an internal clock that cannot be");
    else
        hold(r->rate == 0 && r->bittime == 0,
             "a clock report carries a rate or a bit time");
    hold(r->below == (kind == THURAFEQA_CLOCK_EXTERNAL ? (double)c->x : 0),
         "a clock report carries the wrong bound");
}

/* A word at a time tells no edge and nothing else, one level of a framed module,
 * and of any other as many levels as its word has bits at the most. */
static void hold_word(uint32_t answer, const uint32_t *seen)
{
    uint32_t count = THURAFEQA_WORD_COUNT(answer);
    uint32_t most = seen[CON1] & THURAFEQA_CON1_MODE16 ? 16 : 8;

    if (THURAFEQA_WORD_NO_EDGE(answer)) {
        hold(answer == 1u << 29, "no edge, and something else is told");
        hold(own_clock(seen) && !framed(seen), "a word tells no edge");
        return;
    }
    hold(answer >> 30 == 0, "a word tells other bits");
    hold(framed(seen) ? count == 1 : count <= most, "a word of other levels");
    hold(THURAFEQA_WORD_LEVELS(answer) >> count == 0, "levels beside a word's");
}

static void hold_answer(const struct call *c, const struct outcome *o,
                        uint32_t seen[2][VIEWS])
{
    uint32_t number = refusal_of(c, o->answer);
    uint16_t value = thurafeqa_value(o->answer);

    hold(number == 0 || is_given(number),
         "a refusal number that no call gives");
    hold(number == table_refusal(c, seen) ||
             (number == THURAFEQA_UNDIVIDED && may_be_undivided(c, seen)),
         "not the refusal that the table asks for");
    if (c->kind == CLOCK)
        hold_report(c, o, seen[0]);
    else if (c->board)
        hold(memcmp(&o->report, &no_report, sizeof no_report) == 0,
             "a call that is no clock report wrote one");
    if (number == THURAFEQA_BAD_LIST || number == THURAFEQA_NO_MODULE) {
        hold(o->answer == number << 16, "a refused call tells a value");
        return;
    }
    if (c->kind == READ && c->x == THURAFEQA_BUF)
        hold(o->answer == seen[0][BUF], "a copy answered BUF otherwise");
    if (c->kind == LOOK)
        hold(o->answer == seen[0][LEVELS], "a look at the levels is another");
    else if (number != 0)
        hold(o->answer == number << 16, "a refused call tells a value");
    else if (c->kind == WORD)
        hold_word(o->answer, seen[0]);
    else if (c->kind == TICK && framed(seen[0]))
        hold(value == 1, "a framed host's tick made no edge");
    else if (c->kind == TICK)
        hold(value <= 1, "a tick made more than one edge");
    else if (c->kind == STEP && (framed(seen[0]) || !own_clock(seen[0])))
        hold(value < THURAFEQA_NO_EDGE, "a clock step tells no edge");
    else if (c->kind == STEP)
        hold(value < 2 * THURAFEQA_NO_EDGE, "a clock step tells other bits");
    else if (c->kind == LINKED)
        hold(value <= c->x, "a linked run made more edges than its limit");
    else if (c->kind == PLAY)
        hold(value == trace.section[0].calls, "a play made other calls");
    else if (c->kind == SAVE)
        hold(value == file_length, "a save tells another length");
    else if (c->kind != READ && c->kind != CLOCK)
        hold(value == 0, "a call that tells nothing tells a value");
}

/* ---- the mark, from one call to the next ------------------------------ */

static unsigned long marks_set, marks_cleared;

/* Does the call power its module up? */
static int powers_up(const struct call *c)
{
    return c->kind == POWER_UP || (c->kind == POWER_UP_WITH && is_depth(c->x));
}

/* A module that this call has disabled, or powered up: on a copy that is then
 * enabled, if its settings can be, nothing is unread and no mark stands. */
static void hold_unmarked(const thurafeqa *m)
{
    thurafeqa copy = *m;

    if (thurafeqa_write(&copy, THURAFEQA_STAT, THURAFEQA_STAT_SPIEN) != 0)
        return;
    hold(thurafeqa_refusal(thurafeqa_read(&copy, THURAFEQA_BUF)) ==
             THURAFEQA_RECEIVE_EMPTY,
         "disabled and enabled again, BUF is not empty");
}

/* Only an edge sets the mark, with SPIROV and with SPIBEN; only disabling
 * clears it. What memory made otherwise holds while disabled is open. */
static void hold_mark(const struct call *c, const uint32_t *before,
                      const uint32_t *after, const thurafeqa *m)
{
    if (c->kind == PLAY)
        return; /* many calls in one */
    if (!enabled(after) && (enabled(before) || powers_up(c))) {
        hold_unmarked(m);
        marks_cleared += (unsigned long)marked(before);
    }
    if (!enabled(before) || !enabled(after) || marked(before) == marked(after))
        return;
    hold(marked(after), "a mark went without disabling");
    hold(c->kind == TICK || c->kind == PINS || c->kind == STEP ||
             c->kind == WORD || c->kind == LINKED,
         "a call without an edge set the mark");
    hold((after[STAT] & THURAFEQA_STAT_SPIROV) &&
             (after[CON2] & THURAFEQA_CON2_SPIBEN),
         "a mark without SPIROV, or in standard operation");
    marks_set++;
}

/* ---- calls on two copies --------------------------------------------- */

/* Two copies of the module and of the other one, and the third. */
static struct place copies[2][2];
static thurafeqa third[2];

/* What the first copies showed after the call before. */
static uint32_t seen[2][VIEWS];

static unsigned long refused[REFUSALS], done[KINDS];

static void see_both(uint32_t shown[2][VIEWS])
{
    int i;

    for (i = 0; i < 2; i++) {
        thurafeqa copy = *copies[0][i].m;
        see_library(&copy, shown[i]);
    }
}

static void hold_copies(void)
{
    int i;

    for (i = 0; i < 2; i++) {
        hold(memcmp(copies[0][i].m, copies[1][i].m, sizeof(thurafeqa)) == 0,
             "the same call left two copies different");
        hold(guarded(&copies[0][i]) && guarded(&copies[1][i]),
             "a number beside the memory was changed");
    }
}

/* Does a call that was answered like this leave its modules as they were? */
static int no_effect(const struct call *c, const struct outcome *o)
{
    if (refusal_of(c, o->answer) != 0 || c->kind == CLOCK ||
        c->kind == LOOK || c->kind == SAVE)
        return 1;
    if (c->kind == READ)
        return c->x != THURAFEQA_BUF;
    if (c->kind == STEP)
        return (o->answer & THURAFEQA_NO_EDGE) != 0;
    if (c->kind == WORD)
        return THURAFEQA_WORD_NO_EDGE(o->answer) != 0;
    return c->kind == TICK && thurafeqa_value(o->answer) == 0;
}

/* Makes the call `now` on both copies, and on the third if it has an effect. */
static void make(void)
{
    thurafeqa before[2];
    uint32_t after[2][VIEWS];
    struct outcome o[3];
    int i, spared;

    made++;
    for (i = 0; i < 2; i++) {
        before[i] = *copies[0][i].m;
        if (now.kind == PLAY || now.kind == SAVE)
            now.file = file[i];
        if (now.kind == SAVE)
            now.lent = lent[i];
        ask_library(copies[i][0].m, copies[i][1].m, &now, &o[i]);
    }
    hold(same_answer(&now, &o[0], &o[1]), "two copies were answered otherwise");
    hold_copies();
    hold_answer(&now, &o[0], seen);
    if (now.kind == SAVE)
        hold_save(o[0].answer);
    spared = no_effect(&now, &o[0]);
    if (!spared) {
        ask_library(&third[0], &third[1], &now, &o[2]);
        hold(same_answer(&now, &o[0], &o[2]),
             "a call before this one had an effect that it should not have");
    }
    see_both(after);
    if (now.kind == STEP && thurafeqa_refusal(o[0].answer) == 0)
        hold((o[0].answer & ~THURAFEQA_NO_EDGE) == after[0][LEVELS],
             "a clock step tells other levels than a look");
    if (now.kind == PLAY && !spared)
        hold_play(after[0]);
    for (i = 0; i < 2; i++) {
        hold_views(after[i]);
        if (i < concerned(&now))
            hold_mark(&now, seen[i], after[i], copies[0][i].m);
        if (spared)
            hold(memcmp(seen[i], after[i], sizeof seen[i]) == 0,
                 "what is shown changed, and should not have");
        if (spared || i >= concerned(&now))
            hold(memcmp(&before[i], copies[0][i].m, sizeof before[i]) == 0,
                 "memory changed, and should not have");
    }
    memcpy(seen, after, sizeof seen);
    if (refusal_of(&now, o[0].answer) == 0)
        done[now.kind]++;
    else
        refused[refusal_of(&now, o[0].answer)]++;
}

static uint32_t some_argument(void)
{
    return one_in(2) ? below(4) : any_number();
}

/* An edge of the module's own kind, seldom with SS high. */
static void choose_edge(void)
{
    now.kind = one_in(3) ? STEP : own_clock(seen[0]) ? TICK : PINS;
    now.x = now.y = below(2);
    if (now.kind == PINS || (now.kind == STEP && !own_clock(seen[0])))
        now.x = !(seen[0][LEVELS] & THURAFEQA_LEVELS_SCK);
    now.z = one_in(8);
}

static void choose(void)
{
    now.kind = one_in(50)   ? POWER_UP
               : one_in(50) ? POWER_UP_WITH
                            : (enum kind)(READ + below(PLAY - READ));
    now.module = 0;
    now.other = 1;
    now.x = some_argument();
    now.y = some_argument();
    now.z = some_argument();
    if (now.kind == POWER_UP_WITH)
        now.x = some_depth();
    if (now.kind == READ || now.kind == WRITE)
        now.x = some_register();
    if (now.kind == WRITE && one_in(2))
        now.y = any_number();
    if (now.kind == LINKED)
        now.x = some_limit();
    if (!enabled(seen[0]) && one_in(8)) {
        now.kind = WRITE;
        now.x = THURAFEQA_STAT;
        now.y = any_number() | THURAFEQA_STAT_SPIEN;
    }
    if (one_in(20)) {
        now.kind = one_in(2) ? PLAY : SAVE;
        now.x = any_number();
        now.y = any_number();
        if (now.kind == PLAY)
            place_file();
        else
            place_script();
    }
}

/* The two calls on constant memory, on memory that cannot be written. */
static void read_only(const struct place *p)
{
    struct outcome o;

    if (mprotect(p->area, FENCE, PROT_READ) != 0)
        fail("mprotect");
    (void)thurafeqa_levels(p->m);
    now.kind = CLOCK;
    now.x = any_number();
    ask_library(p->m, 0, &now, &o);
    if (mprotect(p->area, FENCE, PROT_READ | PROT_WRITE) != 0)
        fail("mprotect");
}

/* New memory, and some calls on it. */
static void run_memory(void)
{
    int clocking = one_in(4); /* mostly edges, enough for a word or two */
    uint32_t n = 1 + below(clocking ? 90 : 30);
    int i;

    memset(&now, 0, sizeof now);
    for (i = 0; i < 4; i++)
        move(&copies[i / 2][i % 2], 1, GUARDS);
    fill_both(third);
    for (i = 0; i < 2; i++)
        *copies[0][i].m = *copies[1][i].m = third[i];
    if (one_in(100))
        read_only(&copies[0][0]);
    see_both(seen);
    while (n-- > 0 && made < wanted) {
        choose();
        if (clocking && enabled(seen[0]) && !one_in(4))
            choose_edge();
        make();
    }
}

/* ---- boards ---------------------------------------------------------- */

#define LIST 6 /* the longest list that is there */

/* Two copies of the list; and each module alone, which is spared the calls that
 * have no effect. */
static struct place lists[2];
static thurafeqa alone[LIST];
static uint32_t list_seen[LIST][VIEWS];

static unsigned long board_done[LOOK + 1], board_refused[2][LOOK + 1];
static unsigned long list_lengths[LIST + 1];

/* The total before a call. And how often a total was moved up and down, was not
 * moved by a call that has an effect, was stopped at 0 and at the most, and had
 * bits above the 16. */
static uint32_t total;
static unsigned long total_up, total_down, total_kept, total_none, total_most;
static unsigned long total_high;

static void see_list(uint32_t shown[LIST][VIEWS])
{
    size_t i;

    for (i = 0; i < now.count; i++) {
        thurafeqa copy = lists[0].m[i];
        see_library(&copy, shown[i]);
    }
}

/* Is that module of the list one that the call names, and may change? */
static int may_change(size_t i, int spared)
{
    return !spared && (i == now.n || (now.kind == LINKED && i == now.n_other));
}

static void hold_list(const thurafeqa *before, int spared)
{
    uint32_t after[LIST][VIEWS], shown[VIEWS];
    size_t i;

    see_list(after);
    for (i = 0; i < now.count; i++) {
        hold_views(after[i]);
        if (!may_change(i, spared)) {
            hold(memcmp(&before[i], &lists[0].m[i], sizeof before[i]) == 0,
                 "a module changed that should not have");
            continue;
        }
        hold_mark(&now, list_seen[i], after[i], &lists[0].m[i]);
        see_library(&alone[i], shown);
        hold(memcmp(after[i], shown, sizeof shown) == 0,
             "a module shows other things than alone");
    }
    memcpy(list_seen, after, sizeof after);
}

/* How a call that is not refused as one of no board moves a total that has room
 * both ways; `before` are the modules of the list. */
static long moved_alone(const thurafeqa *before)
{
    thurafeqa few[2];
    struct call c = now;
    struct outcome o;

    few[0] = before[now.n];
    c.n = 0;
    c.count = 1;
    if (now.kind == LINKED) {
        few[1] = before[now.n_other];
        c.n_other = 1;
        c.count = 2;
    }
    ask_board(few, 30000, &c, &o);
    hold(o.owed <= 0xFFFF, "a total of more than 16 bits");
    return (long)o.owed - 30000;
}

/* What a call may move the total by, as far as that is told by its kind. */
static void hold_move(const struct outcome *o, const uint32_t *shown, long move)
{
    int refused_or_looks = refusal_of(&now, o->answer) != 0 ||
                           now.kind == READ || now.kind == CLEAR ||
                           now.kind == CLOCK || now.kind == LOOK;

    if (refused_or_looks)
        hold(move == 0, "a call moved the total, and should not have");
    else if (now.kind == WRITE && now.x == THURAFEQA_BUF)
        hold(move == 1, "an accepted word did not move the total by one");
    else if (now.kind == TICK || now.kind == PINS || now.kind == STEP)
        hold(move == 0 || move == -1, "an edge moved the total by more");
    else if (now.kind == WORD) /* -2: memory of an SSEN client with one loaded */
        hold(move <= 0 && move >= -2, "a word moved the total by more");
    else if (now.kind == LINKED || powers_up(&now))
        hold(move <= 0, "the total rose without an accepted word");
    else if (now.x == THURAFEQA_STAT && enabled(shown))
        hold(move <= 0, "a STAT write made the total rise");
}

static void hold_total(const struct outcome *o, const uint32_t *shown,
                       const thurafeqa *before, int spared)
{
    uint32_t refusal = board_refusal(&now);
    long move = refusal == 0 ? moved_alone(before) : 0;
    long want = (long)(total & 0xFFFFu) + move;

    if (refusal == 0)
        hold_move(o, shown, move);
    total_none += want < 0;
    total_most += want > 0xFFFF;
    total_up += move > 0;
    total_down += move < 0;
    total_kept += move == 0 && !spared;
    total_high += now.direct && total > 0xFFFF;
    want = want < 0 ? 0 : want > 0xFFFF ? 0xFFFF : want;
    hold((long)o->owed == want, "the total is not moved as the call moves it");
    hold(o->owes == (refusal == THURAFEQA_BAD_LIST
                         ? THURAFEQA_BAD_LIST << 16
                         : (uint32_t)want),
         "the answer of what is owed");
}

/* Makes the call `now` on both copies, and on the modules alone if it has an
 * effect. */
static void make_on_board(void)
{
    thurafeqa before[LIST];
    uint32_t shown[2][VIEWS] = {{0}};
    struct outcome o[3];
    uint32_t number;
    int i, spared;

    made++;
    memcpy(before, lists[0].m, now.count * sizeof before[0]);
    if (now.n < now.count)
        memcpy(shown[0], list_seen[now.n], sizeof shown[0]);
    if (now.n_other < now.count)
        memcpy(shown[1], list_seen[now.n_other], sizeof shown[1]);
    for (i = 0; i < 2; i++)
        ask_board(lists[i].m, total, &now, &o[i]);
    hold(same_answer(&now, &o[0], &o[1]), "two copies were answered otherwise");
    hold(memcmp(lists[0].m, lists[1].m, now.count * sizeof before[0]) == 0,
         "the same call left two copies different");
    hold(guarded(&lists[0]) && guarded(&lists[1]),
         "a number beside the list was changed");
    hold_answer(&now, &o[0], shown);
    number = refusal_of(&now, o[0].answer);
    spared = no_effect(&now, &o[0]);
    if (!spared) {
        ask_library(&alone[now.n], &alone[now.kind == LINKED ? now.n_other : 0],
                    &now, &o[2]);
        hold(o[0].answer == o[2].answer, "the module alone answers otherwise");
    }
    hold_total(&o[0], shown[0], before, spared);
    total = o[0].owed;
    hold_list(before, spared);
    if (number == THURAFEQA_BAD_LIST || number == THURAFEQA_NO_MODULE)
        board_refused[number - THURAFEQA_BAD_LIST][now.kind]++;
    else
        board_done[now.kind]++;
    if (number != 0)
        refused[number]++;
    else
        done[now.kind]++;
}

/* A call on the board; it names modules that are there more often than not. */
static void choose_on_board(int clocking)
{
    size_t count = now.count;
    uint32_t n = below(count > 0 ? (uint32_t)count : 1);

    memcpy(seen[0], list_seen[n], sizeof seen[0]);
    do
        choose();
    while (!on_boards(now.kind));
    if (clocking && count > 0 && enabled(seen[0]) && !one_in(4))
        choose_edge();
    now.module = (int)n;
    now.other = (int)below(count > 0 ? (uint32_t)count : 1);
    put_on_board(&now, 0, count);
    spoil_numbers(&now, 8);
}

/* New memory for a list, and some calls on it. */
static void run_board(void)
{
    int clocking = one_in(4);
    uint32_t n = 1 + below(clocking ? 90 : 30);
    size_t count = one_in(4) ? below(LIST + 1) : 1 + below(4), i;

    memset(&now, 0, sizeof now);
    now.count = count;
    for (i = 0; i < 2; i++)
        move(&lists[i], count, BOARD_GUARDS);
    for (i = 0; i < LIST; i += 2)
        fill_both(&alone[i]);
    for (i = 0; i < 2; i++)
        memcpy(lists[i].m, alone, count * sizeof alone[0]);
    see_list(list_seen);
    list_lengths[count]++;
    total = some_total();
    while (n-- > 0 && made < wanted) {
        choose_on_board(clocking);
        if (one_in(8))
            total = some_total();
        now.owed = total;
        make_on_board();
    }
}

/* Lists that are too long, in memory that cannot be touched. */
static void long_lists(void)
{
    static const size_t length[] = {0, 5, 256, 258, 65536, 65537, 65540};
    size_t bytes = 65540 * sizeof(thurafeqa), i;
    thurafeqa *list = mmap(0, bytes, PROT_NONE, MAP_PRIVATE | MAP_ANONYMOUS,
                           -1, 0);
    struct outcome o;
    int kind;

    hold(list != MAP_FAILED, "mmap");
    for (i = 0; i < sizeof length / sizeof length[0]; i++) {
        for (kind = POWER_UP; kind <= LOOK; kind++) {
            memset(&now, 0, sizeof now);
            now.kind = (enum kind)kind;
            now.other = 1;
            put_on_board(&now, 0, length[i]);
            now.owed = some_total();
            ask_board(list, now.owed, &now, &o);
            hold(o.answer == THURAFEQA_BAD_LIST << 16 &&
                     o.owes == THURAFEQA_BAD_LIST << 16,
                 "a list of the wrong length was not refused");
            hold(o.owed == (now.owed & 0xFFFFu), "a refusal moved the total");
            hold(memcmp(&o.report, &no_report, sizeof no_report) == 0,
                 "a refused call wrote a clock report");
        }
    }
    munmap(list, bytes);
}

static int print_boards(void)
{
    int missing = 0, i, w;

    printf("\non boards:");
    for (i = 0; i <= LOOK; i++) {
        printf(" %s %lu", kind_name[i], board_done[i]);
        missing += board_done[i] == 0;
    }
    for (w = 0; w < 2; w++) {
        printf("\nrefused with %d:", (int)THURAFEQA_BAD_LIST + w);
        for (i = 0; i <= LOOK; i++) {
            printf(" %s %lu", kind_name[i], board_refused[w][i]);
            missing += board_refused[w][i] == 0;
        }
    }
    printf("\nlists:");
    for (i = 0; i <= LIST; i++) {
        printf(" of %d: %lu", i, list_lengths[i]);
        missing += list_lengths[i] == 0;
    }
    printf("\ntotals: up %lu, down %lu, kept %lu, stopped at 0 %lu, at 65,535 "
           "%lu, with bits above %lu",
           total_up, total_down, total_kept, total_none, total_most,
           total_high);
    missing += (total_up == 0) + (total_down == 0) + (total_kept == 0) +
               (total_none == 0) + (total_most == 0) + (total_high == 0);
    return missing;
}

int main(int argc, char **argv)
{
    int missing = 0;
    int i;

    if (argc != 3) {
        fprintf(stderr, "usage: hostile CALLS SEED\n");
        return 2;
    }
    wanted = strtoul(argv[1], 0, 10);
    seed = strtoul(argv[2], 0, 10);
    signal(SIGSEGV, on_signal);
    signal(SIGBUS, on_signal);
    signal(SIGILL, on_signal);
    printf("a hostile caller, seed %lu\n", seed);
    start_numbers(seed);
    for (i = 0; i < 4; i++)
        copies[i / 2][i % 2].area = new_area(FENCE);
    for (i = 0; i < 2; i++) {
        file_area[i] = new_area(SOME_TRACE_BYTES);
        lent_area[i] = new_area(LENT_AREA);
        lists[i].area = new_area(FENCE);
    }
    long_lists();
    while (made < wanted) {
        if (one_in(3))
            run_board();
        else
            run_memory();
    }
    printf("done:");
    for (i = 0; i < KINDS; i++) {
        printf(" %s %lu", kind_name[i], done[i]);
        missing += done[i] == 0;
    }
    printf("\nrefused:");
    for (i = 0; i < REFUSALS; i++) {
        if (!is_given((uint32_t)i))
            continue;
        printf(" %d: %lu", i, refused[i]);
        missing += refused[i] == 0;
    }
    printf("\nmarks: set %lu, cleared by disabling %lu", marks_set,
           marks_cleared);
    printf("\nplays made again call by call: %lu", walked);
    missing += (marks_set == 0) + (marks_cleared == 0) + (walked == 0);
    printf("\nsaves: with no line kept %lu, of cut scripts %lu, refused for any "
           "buffer %lu",
           saved_empty, saved_cut, refused_limit);
    missing += (saved_empty == 0) + (saved_cut == 0) + (refused_limit == 0);
    missing += print_boards();
    printf("\n%lu hostile calls, each made twice, all held%s\n", made,
           missing ? ", but not every case was reached" : "");
    return missing != 0;
}
