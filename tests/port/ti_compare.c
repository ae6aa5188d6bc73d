/* The library's TI module beside the second one of tests/model: every call with
 * the same arguments, then all that is seen, and reads made on a copy.
 *
 *   ti_compare CALLS SEED
 *
 * First sensible and random calls from power-up, compared call by call. Then a
 * hostile caller: memory that no call has made and any numbers as arguments,
 * where the library must answer, leave the memory of a refused call as it was,
 * keep to its 20 numbers, and say what it says of a copy. Every refusal, mode,
 * length and event is counted, and none may be missing. Exit 0: no difference. */
#include <stdio.h>
#include <stdlib.h>
#include <string.h>

#include "thurafeqa.h"
#include "ti.h"

static uint64_t state;

static uint32_t some(void)
{
    state ^= state << 13;
    state ^= state >> 7;
    state ^= state << 17;
    return (uint32_t)(state >> 32);
}

static uint32_t below(uint32_t n)
{
    return some() % n;
}

enum kind {
    POWER_UP,
    ENTER,
    LEAVE,
    MODE,
    LENGTH,
    WRITE,
    READ,
    TICK,
    PINS,
    CLEAR,
    RATE,
    KINDS
};
static const char *const kind_name[KINDS] = {
    "power-up", "enter reset", "leave reset", "mode", "length", "write",
    "read",     "tick",        "pins",        "clear", "rate"};

struct call {
    enum kind kind;
    uint32_t a, b, c, d;
};

/* ---- what is reached ---- */

enum event {
    FINISH,        /* a character was finished */
    LOSS,          /* an unread one was replaced */
    NO_EDGE,       /* a master had nothing to send */
    ZEROS,         /* a slave began zeros */
    PAUSE,         /* select went high within a character */
    WRONG_WAY,     /* an edge in the wrong direction after a pause */
    WAITED,        /* a character waited, and was loaded */
    CUT,           /* reset within a character */
    TALK_OFF,      /* talk went off within a character */
    UNDRIVEN_EDGE, /* an edge with the output undriven */
    BEHIND_ZEROS,  /* a write within zeros */
    EVENTS
};
static const char *const event_name[EVENTS] = {
    "finish",      "loss",       "no edge",   "zeros",
    "pause",       "wrong way",  "waited",    "reset within a character",
    "talk off",    "undriven edge", "write behind zeros"};
static unsigned long calls_of[KINDS], refused_with[32], met[EVENTS];
static unsigned long finished_of[2][2][2][17]; /* master, polarity, phase, length */

/* ---- one call on both ---- */

static uint32_t ask_library(thurafeqa_ti *m, const struct call *c)
{
    switch (c->kind) {
    case POWER_UP:
        thurafeqa_ti_power_up(m);
        return 0;
    case ENTER:
        thurafeqa_ti_enter_reset(m);
        return 0;
    case LEAVE:
        thurafeqa_ti_leave_reset(m);
        return 0;
    case MODE:
        return thurafeqa_ti_set_mode(m, c->a, c->b, c->c, c->d);
    case LENGTH:
        return thurafeqa_ti_set_length(m, c->a);
    case WRITE:
        return thurafeqa_ti_write(m, c->a);
    case READ:
        return thurafeqa_ti_read(m);
    case TICK:
        return thurafeqa_ti_tick(m, c->a);
    case PINS:
        return thurafeqa_ti_pins(m, c->a, c->b, c->c);
    case CLEAR:
        thurafeqa_ti_clear_overrun(m);
        return 0;
    default:
        return 0;
    }
}

static uint32_t ask_model(struct ti *m, const struct call *c)
{
    unsigned value = 0;
    int said = 0;

    switch (c->kind) {
    case POWER_UP:
        ti_power_up(m);
        break;
    case ENTER:
        ti_enter_reset(m);
        break;
    case LEAVE:
        ti_leave_reset(m);
        break;
    case MODE:
        said = ti_set_mode(m, c->a != 0, c->b != 0, c->c != 0, c->d != 0);
        break;
    case LENGTH:
        said = ti_set_length(m, c->a);
        break;
    case WRITE:
        said = ti_write(m, c->a & 0xFFFFu);
        break;
    case READ:
        said = ti_read(m, &value);
        break;
    case TICK:
        said = ti_tick(m, c->a != 0);
        value = said == 0;
        if (said == TI_NO_EDGE)
            said = 0;
        break;
    case PINS:
        said = ti_pins(m, c->a != 0, c->b != 0, c->c != 0);
        break;
    case CLEAR:
        ti_clear_overrun(m);
        break;
    default:
        break;
    }
    return said ? (uint32_t)said << 16 : value;
}

static uint32_t model_levels(const struct ti *m)
{
    int sdo = ti_sdo(m);

    return (m->sck ? THURAFEQA_TI_SCK : 0) |
           (sdo == TI_UNDRIVEN ? 0
                               : THURAFEQA_TI_DRIVEN |
                                     (sdo ? THURAFEQA_TI_SDO : 0));
}

static uint32_t model_settings(const struct ti *m)
{
    return (uint32_t)m->length | (m->phase ? THURAFEQA_TI_PHASE : 0) |
           (m->polarity ? THURAFEQA_TI_POLARITY : 0) |
           (m->talk ? THURAFEQA_TI_TALK : 0) |
           (m->master ? THURAFEQA_TI_MASTER : 0) |
           (m->reset ? THURAFEQA_TI_RESET : 0);
}

static int differ(const char *what, uint32_t library, uint32_t model,
                  const struct call *c, unsigned long n)
{
    if (library == model)
        return 0;
    printf("ti_compare: DIFFERENT: %s: library %08X, model %08X, after call "
           "%lu: %s %X %X %X %X\n",
           what, (unsigned)library, (unsigned)model, n, kind_name[c->kind],
           (unsigned)c->a, (unsigned)c->b, (unsigned)c->c, (unsigned)c->d);
    return 1;
}

/* ---- calls that a port makes, and others ---- */

static uint32_t level(void)
{
    return below(8) ? below(2) : some() | 1u << below(32);
}

static void random_call(const struct ti *m, struct call *c)
{
    uint32_t r = below(1000);

    memset(c, 0, sizeof *c);
    if (m->reset && r < 300) {
        c->kind = r < 150 ? LENGTH : MODE;
    } else if (m->reset && r < 600) {
        c->kind = LEAVE;
    } else if (r < 8) {
        c->kind = POWER_UP;
    } else if (r < 16) {
        c->kind = ENTER;
    } else if (r < 20) {
        c->kind = LEAVE;
    } else if (r < 30) {
        c->kind = LENGTH;
    } else if (r < 60) {
        c->kind = MODE;
    } else if (r < 70) {
        c->kind = CLEAR;
    } else if (r < 80) {
        c->kind = RATE;
    } else if (r < 190) {
        c->kind = WRITE;
    } else if (r < 260) {
        c->kind = READ;
    } else {
        c->kind = m->master == (below(20) != 0) ? TICK : PINS;
    }
    switch (c->kind) {
    case LENGTH:
        c->a = below(10) ? 1 + below(16) : below(2) ? below(40) : some();
        break;
    case MODE:
        c->a = level();
        c->b = below(4) ? 1 : level();
        c->c = level();
        c->d = level();
        if (!m->reset && below(3)) {
            c->a = (uint32_t)m->master;
            c->c = (uint32_t)m->polarity;
            c->d = (uint32_t)m->phase;
        }
        break;
    case WRITE:
    case RATE:
        c->a = some();
        c->b = below(4) ? some() : below(3);
        if (c->kind == RATE && below(2))
            c->a = below(256);
        break;
    case TICK:
        c->a = level();
        break;
    case PINS:
        /* mostly a clock that moves, under a select that stays */
        c->a = below(5) ? (uint32_t)!m->sck : level();
        c->b = level();
        c->c = below(12) ? (uint32_t)(m->ste && below(3)) : level();
        break;
    default:
        break;
    }
}

static void count(const struct ti *before, const struct ti *after,
                  const struct call *c, uint32_t answer)
{
    int begun = before->shift.held && before->edges > 0;

    calls_of[c->kind]++;
    if (answer >> 16) {
        refused_with[answer >> 16]++;
        return;
    }
    if (c->kind == TICK || c->kind == PINS) {
        int last = before->edges + 1 == 2 * before->length &&
                   after->edges == 0 && after->interrupt;

        if (last) {
            met[FINISH]++;
            finished_of[after->master][after->polarity][after->phase]
                       [after->length]++;
            met[LOSS] += before->rx.held;
            met[WAITED] += before->tx.held;
        }
        if (after->edges != before->edges || last)
            met[UNDRIVEN_EDGE] += ti_sdo(after) == TI_UNDRIVEN;
    }
    met[NO_EDGE] += c->kind == TICK && answer == 0;
    if (c->kind == PINS) {
        met[ZEROS] += after->zeros && after->edges == 1 && !before->shift.held;
        met[PAUSE] += begun && !before->ste && c->c != 0;
        met[WRONG_WAY] += begun && c->c == 0 && after->sck != before->sck &&
                          after->edges == before->edges;
    }
    met[CUT] += c->kind == ENTER && begun;
    met[TALK_OFF] += c->kind == MODE && begun && before->talk && !after->talk;
    met[BEHIND_ZEROS] += c->kind == WRITE && before->zeros;
}

static int compared(unsigned long calls)
{
    thurafeqa_ti m, copy;
    struct ti model, before;
    unsigned long n;

    thurafeqa_ti_power_up(&m);
    ti_power_up(&model);
    for (n = 1; n <= calls; n++) {
        struct call c;
        uint32_t library, other;
        unsigned value = 0;
        int bad = 0, refused;
        thurafeqa_ti was = m;

        random_call(&model, &c);
        before = model;
        if (c.kind == RATE) {
            double a, b = ti_rate(c.a, c.b);

            thurafeqa_ti_rate(c.a, c.b, &a);
            if (memcmp(&a, &b, sizeof a)) {
                printf("ti_compare: DIFFERENT: rate of %u, %u: %.17g, %.17g\n",
                       (unsigned)c.a, (unsigned)c.b, a, b);
                return 1;
            }
            calls_of[RATE]++;
            continue;
        }
        library = ask_library(&m, &c);
        other = ask_model(&model, &c);
        bad |= differ("answer", library, other, &c, n);
        bad |= differ("flags", thurafeqa_ti_status(&m), ti_status(&model), &c,
                      n);
        bad |= differ("levels", thurafeqa_ti_levels(&m), model_levels(&model),
                      &c, n);
        bad |= differ("settings", thurafeqa_ti_settings(&m),
                      model_settings(&model), &c, n);
        if ((library >> 16 || (c.kind == TICK && library == 0)) &&
            memcmp(&m, &was, sizeof m)) {
            printf("ti_compare: DIFFERENT: call %lu changed memory\n", n);
            bad = 1;
        }
        copy = m;
        {
            struct ti look = model;

            refused = ti_read(&look, &value);
            bad |= differ("read of a copy", thurafeqa_ti_read(&copy),
                          refused ? (uint32_t)refused << 16 : value, &c, n);
        }
        if (bad)
            return 1;
        count(&before, &model, &c, library);
    }
    return 0;
}

/* ---- a hostile caller ---- */

static int hostile(unsigned long calls)
{
    struct {
        uint16_t before[4];
        thurafeqa_ti m;
        uint16_t behind[4];
    } at;
    unsigned long n;

    memset(&at, 0x5A, sizeof at);
    for (n = 0; n < calls; n++) {
        struct call c;
        thurafeqa_ti was, twin;
        uint32_t answer;
        int i;

        if (n % 4 == 0)
            for (i = 0; i < 20; i++)
                at.m.memory[i] = (uint16_t)(below(3)   ? below(3)
                                            : below(2) ? below(40)
                                                       : some());
        c.kind = (enum kind)below(RATE);
        c.a = below(2) ? some() : below(20);
        c.b = level();
        c.c = level();
        c.d = level();
        was = at.m;
        twin = at.m;
        answer = ask_library(&at.m, &c);
        if (ask_library(&twin, &c) != answer ||
            memcmp(&twin, &at.m, sizeof twin)) {
            printf("ti_compare: hostile call %lu: a copy says otherwise\n", n);
            return 1;
        }
        if (answer >> 16 && memcmp(&was, &at.m, sizeof was)) {
            printf("ti_compare: hostile call %lu: refused, and changed\n", n);
            return 1;
        }
        if (answer >> 16 > 24) {
            printf("ti_compare: hostile call %lu: no such refusal\n", n);
            return 1;
        }
        for (i = 0; i < 4; i++)
            if (at.before[i] != 0x5A5A || at.behind[i] != 0x5A5A) {
                printf("ti_compare: hostile call %lu: wrote elsewhere\n", n);
                return 1;
            }
        i = (int)(thurafeqa_ti_settings(&at.m) & THURAFEQA_TI_LENGTH);
        if (i < 1 || i > 16 || thurafeqa_ti_status(&at.m) & ~0xE0u ||
            thurafeqa_ti_levels(&at.m) & ~0xEu) {
            printf("ti_compare: hostile call %lu: a view out of range\n", n);
            return 1;
        }
    }
    return 0;
}

static int missing(void)
{
    static const int numbers[] = {2, 3, 5, 6, 7, 24};
    int bad = 0, i, j, k, l;

    for (i = 0; i < KINDS; i++) {
        printf("  %-24s %lu\n", kind_name[i], calls_of[i]);
        bad |= calls_of[i] == 0;
    }
    for (i = 0; i < (int)(sizeof numbers / sizeof *numbers); i++) {
        printf("  refusal %-16d %lu\n", numbers[i], refused_with[numbers[i]]);
        bad |= refused_with[numbers[i]] == 0;
    }
    for (i = 0; i < EVENTS; i++) {
        printf("  %-24s %lu\n", event_name[i], met[i]);
        bad |= met[i] == 0;
    }
    for (i = 0; i < 2; i++)
        for (j = 0; j < 2; j++)
            for (k = 0; k < 2; k++)
                for (l = 1; l <= 16; l++)
                    if (finished_of[i][j][k][l] == 0) {
                        printf("  no character of %d bits: master %d, polarity "
                               "%d, phase %d\n",
                               l, i, j, k);
                        bad = 1;
                    }
    return bad;
}

int main(int argc, char **argv)
{
    unsigned long calls = argc > 1 ? strtoul(argv[1], NULL, 10) : 1000000;

    state = (argc > 2 ? strtoull(argv[2], NULL, 10) : 1) * 0x9E3779B97F4A7C15u + 1;
    if (compared(calls) || hostile(calls))
        return 1;
    printf("ti_compare: %lu calls and %lu hostile ones, 0 differences\n", calls,
           calls);
    if (missing()) {
        puts("ti_compare: FAILED: a case was not reached");
        return 1;
    }
    return 0;
}
