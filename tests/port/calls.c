/* The library's calls as records, and random numbers. */
#include "calls.h"
#include "save.h"
#include "some_script.h"
#include "some_trace.h"

#include <inttypes.h>
#include <stdio.h>
#include <string.h>

const char *const kind_name[KINDS] = {
    "power-up",   "power-up with", "read",  "write",  "tick",  "pins",
    "clock step", "word",          "clear", "linked", "clock", "levels",
    "play",       "save"};
const char *const view_name[VIEWS] = {"STAT", "CON1", "CON2", "BUF", "levels"};

const thurafeqa_clock_report no_report = {-1, -2, -3};

int concerned(const struct call *c)
{
    return c->kind == LINKED ? 2 : c->kind == SAVE ? 0 : 1;
}

uint32_t refusal_of(const struct call *c, uint32_t answer)
{
    return c->kind == WORD ? THURAFEQA_WORD_REFUSAL(answer)
                           : thurafeqa_refusal(answer);
}

int is_given(uint32_t number)
{
    return number >= 1 && number < REFUSALS && number != 4 && number != 12 &&
           number != THURAFEQA_UNREADABLE_LINE && number != 23 &&
           number != THURAFEQA_WRONG_LENGTH;
}

void bring_file(struct call *c)
{
    static uint8_t file[SOME_TRACE_BYTES];
    static uint32_t number;
    static size_t length;
    static int there;

    if (!there || number != c->x)
        length = some_trace(c->x, file);
    there = 1;
    number = c->x;
    c->file = file;
    c->length = length;
}

void bring_script(struct call *c)
{
    static uint8_t script[SOME_SCRIPT_BYTES];
    static uint32_t number;
    static size_t length, saved;
    static int there;

    if (!there || number != c->x) {
        length = some_script(c->x, script);
        saved = save_length(script, length);
    }
    there = 1;
    number = c->x;
    c->file = script;
    c->length = length;
    c->room = some_room(c->y, saved);
}

void fill_lent(uint8_t *lent, size_t room, uint32_t number)
{
    size_t i;

    for (i = 0; i < room; i++) {
        number = number * 1664525u + 1013904223u;
        lent[i] = (uint8_t)(number >> 24);
    }
}

/* ---- boards ---------------------------------------------------------- */

int on_boards(enum kind kind)
{
    return kind != PLAY && kind != SAVE;
}

uint32_t board_kind(enum kind kind)
{
    switch (kind) {
    case POWER_UP: return THURAFEQA_BOARD_POWER_UP;
    case POWER_UP_WITH: return THURAFEQA_BOARD_POWER_UP_WITH;
    case READ: return THURAFEQA_BOARD_READ;
    case WRITE: return THURAFEQA_BOARD_WRITE;
    case TICK: return THURAFEQA_BOARD_TICK;
    case PINS: return THURAFEQA_BOARD_PINS;
    case STEP: return THURAFEQA_BOARD_CLOCK_STEP;
    case WORD: return THURAFEQA_BOARD_WORD;
    case CLEAR: return THURAFEQA_BOARD_CLEAR;
    case CLOCK: return THURAFEQA_BOARD_CLOCK;
    default: return THURAFEQA_BOARD_LEVELS;
    }
}

void put_on_board(struct call *c, int first, size_t count)
{
    static const uint32_t look[] = {11,      12,      255,         256,
                                    0x10000, 0x1000A, 0x80000000u, 0xFFFFFFFFu};
    static const int arguments[] = {0, 1, 1, 2, 2, 3, 3, 2, 0, 1, 1, 0};

    c->board = 1;
    c->first = first;
    c->count = count;
    c->n = (uint32_t)(c->module - first);
    c->n_other = (uint32_t)(c->other - first);
    c->of_kind = board_kind(c->kind);
    c->direct = one_in(2);
    if (c->kind == LOOK && c->direct && one_in(2))
        c->of_kind = look[below(8)];
    if (c->direct && arguments[c->kind] < 1)
        c->x = any_number();
    if (c->direct && arguments[c->kind] < 2)
        c->y = any_number();
    if (c->direct && arguments[c->kind] < 3)
        c->z = any_number();
}

uint32_t board_refusal(const struct call *c)
{
    if (c->count < 1 || c->count > 4)
        return THURAFEQA_BAD_LIST;
    if (c->n >= c->count ||
        (c->kind == LINKED && (c->n_other >= c->count || c->n == c->n_other)))
        return THURAFEQA_NO_MODULE;
    return 0;
}

/* A number that no board has, or this one has not. */
static uint32_t missing_number(const struct call *c)
{
    static const uint32_t far[] = {4,       5,         6,
                                   255,     256,       0x10000,
                                   0x10001, 0x1000000, 0x80000000u,
                                   0xFFFFFFFFu};

    return one_in(2) ? (uint32_t)c->count + below(3) : far[below(10)];
}

void spoil_numbers(struct call *c, uint32_t of)
{
    if (!one_in(of))
        return;
    switch (c->kind == LINKED ? below(4) : 0) {
    case 0: c->n = missing_number(c); break;
    case 1: c->n_other = missing_number(c); break;
    case 2: c->n = c->n_other = missing_number(c); break;
    default:
        if (one_in(2))
            c->n_other = c->n;
        else
            c->n = c->n_other;
        break;
    }
}

static uint32_t ask_header(thurafeqa_board *b, const struct call *c,
                           struct outcome *o)
{
    switch (c->kind) {
    case POWER_UP: return thurafeqa_board_power_up(b, c->n);
    case POWER_UP_WITH: return thurafeqa_board_power_up_with(b, c->n, c->x);
    case READ: return thurafeqa_board_read(b, c->n, c->x);
    case WRITE: return thurafeqa_board_write(b, c->n, c->x, c->y);
    case TICK: return thurafeqa_board_tick(b, c->n, c->x, c->y);
    case PINS: return thurafeqa_board_pins(b, c->n, c->x, c->y, c->z);
    case STEP: return thurafeqa_board_clock_step(b, c->n, c->x, c->y, c->z);
    case WORD: return thurafeqa_board_word(b, c->n, c->x, c->y);
    case CLEAR: return thurafeqa_board_clear(b, c->n);
    case LINKED: return thurafeqa_board_run(b, c->n, c->n_other, c->x);
    case CLOCK: return thurafeqa_board_clock(b, c->n, c->x, &o->report);
    default: return thurafeqa_board_levels(b, c->n);
    }
}

void ask_board(thurafeqa *list, uint32_t owed, const struct call *c,
               struct outcome *o)
{
    thurafeqa_board b;
    uint64_t both;

    o->report = no_report;
    if (!c->direct) {
        b.modules = list;
        b.count = c->count;
        b.owed = (uint16_t)owed;
        o->answer = ask_header(&b, c, o);
        o->owed = b.owed;
        o->owes = thurafeqa_board_owes(&b);
        return;
    }
    if (c->kind == LINKED)
        both = thurafeqa_board_linked(list, c->count, owed, c->n, c->n_other,
                                      c->x);
    else
        both = thurafeqa_board_call(list, c->count, owed, c->n, c->of_kind,
                                    c->x, c->y, c->z, &o->report);
    o->answer = (uint32_t)both;
    o->owed = (uint32_t)(both >> 32);
    o->owes = thurafeqa_board_owed(c->count, o->owed | (owed & 0xFFFF0000u));
}

/* ---- telling of calls ------------------------------------------------ */

static void print_file(const struct call *c)
{
    struct call d = *c;
    size_t i;

    if (c->kind == SAVE) {
        bring_script(&d);
        printf(" script %" PRIu32 ", %lu bytes lent,", d.x,
               (unsigned long)d.room);
    } else {
        bring_file(&d);
        printf(" file %" PRIu32 ",", d.x);
    }
    printf(" %lu bytes:", (unsigned long)d.length);
    for (i = 0; i < d.length && i < 600; i++)
        printf(" %02x", d.file[i]);
    if (i < d.length)
        printf(" ..");
}

void print_call(const struct call *c)
{
    if (c->board)
        printf("board of %lu from module %d, %s, owing %s%" PRIX32
               ": module %" PRIu32 ": ",
               (unsigned long)c->count, c->first,
               c->direct ? "direct" : "header", c->carried ? "its " : "",
               c->owed, c->n);
    else if (concerned(c) > 0)
        printf("module %d: ", c->module);
    printf("%s", kind_name[c->kind]);
    switch (c->kind) {
    case POWER_UP_WITH:
    case READ:
    case CLOCK: printf(" %" PRIu32, c->x); break;
    case TICK: printf(" %" PRIu32 " %" PRIu32, c->x, c->y); break;
    case WORD:
    case WRITE: printf(" %" PRIu32 " %04" PRIX32, c->x, c->y); break;
    case PINS:
    case STEP:
        printf(" %" PRIu32 " %" PRIu32 " %" PRIu32, c->x, c->y, c->z);
        break;
    case LINKED:
        if (c->board)
            printf(" with client %" PRIu32, c->n_other);
        else
            printf(" with client %d", c->other);
        printf(", limit %" PRIu32, c->x);
        break;
    case PLAY:
    case SAVE: print_file(c); break;
    default: break;
    }
}

void ask_library(thurafeqa *m, thurafeqa *other, const struct call *c,
                 struct outcome *o)
{
    o->answer = 0;
    o->report = no_report;
    switch (c->kind) {
    case POWER_UP: thurafeqa_power_up(m); break;
    case POWER_UP_WITH: o->answer = thurafeqa_power_up_with(m, c->x); break;
    case READ: o->answer = thurafeqa_read(m, c->x); break;
    case WRITE: o->answer = thurafeqa_write(m, c->x, c->y); break;
    case TICK: o->answer = thurafeqa_tick(m, c->x, c->y); break;
    case PINS: o->answer = thurafeqa_pins(m, c->x, c->y, c->z); break;
    case STEP: o->answer = thurafeqa_clock_step(m, c->x, c->y, c->z); break;
    case WORD: o->answer = thurafeqa_word(m, c->x, c->y); break;
    case CLEAR: thurafeqa_clear(m); break;
    case LINKED: o->answer = thurafeqa_linked(m, other, c->x); break;
    case CLOCK: o->answer = thurafeqa_clock(m, c->x, &o->report); break;
    case LOOK: o->answer = thurafeqa_levels(m); break;
    case PLAY: o->answer = thurafeqa_play(m, c->file, c->length); break;
    case SAVE:
        o->answer = thurafeqa_save(c->file, c->length, c->lent, c->room);
        break;
    case KINDS: break;
    }
}

void see_library(thurafeqa *m, uint32_t seen[VIEWS])
{
    thurafeqa copy = *m;

    seen[STAT] = thurafeqa_read(m, THURAFEQA_STAT);
    seen[CON1] = thurafeqa_read(m, THURAFEQA_CON1);
    seen[CON2] = thurafeqa_read(m, THURAFEQA_CON2);
    seen[BUF] = thurafeqa_read(&copy, THURAFEQA_BUF);
    seen[LEVELS] = thurafeqa_levels(m);
}

int same_answer(const struct call *c, const struct outcome *a,
                const struct outcome *b)
{
    const thurafeqa_clock_report *r = &a->report, *s = &b->report;

    if (a->answer != b->answer || (c->kind != CLOCK && !c->board))
        return a->answer == b->answer;
    if (c->board && (a->owed != b->owed || a->owes != b->owes))
        return 0;
    return memcmp(&r->rate, &s->rate, sizeof r->rate) == 0 &&
           memcmp(&r->bittime, &s->bittime, sizeof r->bittime) == 0 &&
           memcmp(&r->below, &s->below, sizeof r->below) == 0;
}

/* ---- random numbers -------------------------------------------------- */

static uint64_t state;

void start_numbers(uint64_t seed)
{
    state = seed;
}

uint32_t any_number(void)
{
    uint64_t z = state += UINT64_C(0x9E3779B97F4A7C15);

    z = (z ^ (z >> 30)) * UINT64_C(0xBF58476D1CE4E5B9);
    z = (z ^ (z >> 27)) * UINT64_C(0x94D049BB133111EB);
    return (uint32_t)((z ^ (z >> 31)) >> 32);
}

uint32_t below(uint32_t n)
{
    return any_number() % n;
}

int one_in(uint32_t n)
{
    return below(n) == 0;
}

uint32_t some_total(void)
{
    uint32_t total = below(one_in(2) ? 3 : 24);
    uint32_t noise = one_in(2) ? 0 : any_number() << 16;

    if (one_in(3))
        total = 0xFFFFu - total;
    else if (one_in(3))
        total = below(0x10000);
    return total | noise;
}

uint32_t some_level(int high)
{
    static const uint32_t other[] = {2, 256, 65536, 0x80000000u, 0xFFFFFFFFu};

    if (!high)
        return 0;
    return one_in(16) ? other[below(5)] : 1;
}

uint32_t some_register(void)
{
    static const uint32_t far[] = {4,       5,       255,         256,
                                   0x10000, 0x10003, 0x80000000u, 0xFFFFFFFFu};

    return one_in(6) ? far[below(8)] : below(6);
}

uint32_t some_limit(void)
{
    static const uint32_t limit[] = {0,  1,  2,   15,  16,  17,
                                     31, 32, 288, 543, 544, 545, 0x10010};

    if (one_in(100))
        return any_number();
    return one_in(2) ? limit[below(13)] : below(561);
}

const uint32_t depths[DEPTHS] = {4, 8, 16};

int is_depth(uint32_t depth)
{
    return depth == 4 || depth == 8 || depth == 16;
}

uint32_t some_depth(void)
{
    static const uint32_t other[] = {0,  1,  2,       3,       5,
                                     7,  9,  12,      15,      17,
                                     32, 64, 0x10004, 0x10010, 0x80000008u};

    if (!one_in(6))
        return depths[below(DEPTHS)];
    return one_in(4) ? any_number() : other[below(15)];
}
