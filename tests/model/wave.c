/* The waveform of a script or a trace over the second model, as a VCD file
 * (IEEE 1364), as examples/README.md tells it:
 *
 *   wave         reads a script on standard input
 *   wave trace   reads a trace; one that is refused prints its number
 *
 * Time 0 is power-up, and each line or call takes the time one further. A value
 * is written where it is another than before. */
#include "script.h"
#include "trace.h"

#include <string.h>

#define LANES 10

static const struct {
    char letter;
    int width;
    const char *name;
} lane[LANES] = {
    {'c', 1, "sck"},        {'o', 1, "sdo"},
    {'i', 1, "sdi"},        {'s', 1, "ss"},
    {'f', 1, "interrupt"},  {'e', 1, "spien"},
    {'w', 5, "waiting"},    {'u', 5, "unread"},
    {'O', 16, "out"},       {'I', 16, "in"},
};

struct wave {
    struct ref_spi m;
    int sdi; /* -1 before the first level */
    unsigned long time;
    char shown[LANES][24]; /* each value as it was written last */
};

/* ---- what is shown ------------------------------------------------------ */

static void put_level(char *to, int level)
{
    strcpy(to, level < 0 ? "x" : level == REF_UNDRIVEN ? "z" : level ? "1" : "0");
}

static void put_number(char *to, unsigned n, int width)
{
    *to++ = 'b';
    while (width-- > 0)
        *to++ = (char)('0' + (n >> width & 1u));
    strcpy(to, " ");
}

/* The word on its way out: a client under select control sends the first of
 * its queue, and a filler is 0. */
static unsigned leaving(const struct ref_spi *m)
{
    if (!m->begun)
        return m->loaded_word;
    if (m->filler)
        return 0;
    return m->loaded ? m->loaded_word : m->tx.word[0];
}

static unsigned arriving(const struct ref_spi *m)
{
    unsigned word = 0;
    int i;

    for (i = 0; i < m->in_count; i++)
        word = word << 1 | (unsigned)m->in_bit[i];
    return word;
}

static void look(const struct wave *w, char value[LANES][24])
{
    const struct ref_spi *m = &w->m;
    int ss = ref_ss(m);

    put_level(value[0], m->spien ? ref_sck(m) : REF_UNDRIVEN);
    put_level(value[1], ref_sdo(m));
    put_level(value[2], w->sdi);
    put_level(value[3], m->spien && ss == REF_UNDRIVEN ? m->ss : ss);
    put_level(value[4], ref_flag(m));
    put_level(value[5], m->spien);
    put_number(value[6], (unsigned)m->tx.n, 5);
    put_number(value[7], (unsigned)m->rx.n, 5);
    if (m->loaded || m->begun)
        put_number(value[8], leaving(m), 16);
    else
        strcpy(value[8], "bz ");
    if (m->begun)
        put_number(value[9], arriving(m), 16);
    else
        strcpy(value[9], "bz ");
}

/* ---- what is written ---------------------------------------------------- */

static void changes(struct wave *w)
{
    char value[LANES][24];
    int i;

    look(w, value);
    for (i = 0; i < LANES; i++)
        if (strcmp(value[i], w->shown[i]) != 0) {
            printf("%s%c\n", value[i], lane[i].letter);
            strcpy(w->shown[i], value[i]);
        }
}

static void begin(struct wave *w)
{
    int i;

    memset(w, 0, sizeof *w);
    ref_power_up(&w->m);
    w->sdi = -1;
    printf("$version Thurafeqa $end\n$timescale 1 us $end\n"
           "$scope module spi $end\n");
    for (i = 0; i < LANES; i++) {
        printf("$var wire %d %c %s ", lane[i].width, lane[i].letter,
               lane[i].name);
        if (lane[i].width > 1)
            printf("[%d:0] ", lane[i].width - 1);
        printf("$end\n");
    }
    printf("$upscope $end\n$enddefinitions $end\n#0\n$dumpvars\n");
    changes(w);
    printf("$end\n");
}

/* A call, or none if the line cannot be read. A refused call brings no level. */
static void step(struct wave *w, const struct script_call *c)
{
    unsigned value;

    if (c && script_make(&w->m, c, &value) <= 0 &&
        (c->kind == SCRIPT_TICK || c->kind == SCRIPT_PINS))
        w->sdi = c->sdi;
    printf("#%lu\n", ++w->time);
    changes(w);
}

static void finish(const struct wave *w) { printf("#%lu\n", w->time + 1); }

/* ---- scripts and traces ------------------------------------------------- */

static void script_wave(const unsigned char *input, size_t size)
{
    struct script_walk walk;
    struct script_call c;
    struct wave w;

    begin(&w);
    script_begin(&walk, input, size);
    while (script_next(&walk))
        step(&w, script_read(walk.line, walk.length, &c) ? &c : NULL);
    finish(&w);
}

static void section_wave(struct wave *w, const struct trace *t, int s)
{
    static const enum script_kind kind[] = {SCRIPT_WRITE, SCRIPT_READ,
                                            SCRIPT_TICK, SCRIPT_PINS,
                                            SCRIPT_CLEAR};
    const struct trace_section *here = &t->section[s];
    size_t i;

    for (i = here->first; i < here->first + here->steps; i++) {
        const uint8_t *at = t->file + t->step[i];
        unsigned value = at[2] + 256u * at[3];
        struct script_call c;

        if (at[0] == TRACE_PLAY) {
            while (value-- > 0)
                section_wave(w, t, at[1]);
            continue;
        }
        c.kind = kind[at[0]];
        c.reg = at[1];
        c.value = value;
        c.sdi = (at[1] & 1) != 0;
        c.sck = (at[1] & 2) != 0;
        c.ss = (at[1] & 4) != 0;
        step(w, &c);
    }
}

static void trace_wave(const uint8_t *input, size_t size)
{
    static struct trace t;
    enum trace_fault fault = trace_open(&t, input, size);
    struct wave w;

    if (fault != TRACE_RIGHT) {
        printf("E %d\n", trace_number(fault));
        return;
    }
    begin(&w);
    section_wave(&w, &t, 0);
    finish(&w);
}

int main(int argc, char **argv)
{
    static uint8_t input[1 << 17];
    size_t size = fread(input, 1, sizeof input, stdin);

    if (argc == 2 && strcmp(argv[1], "trace") == 0)
        trace_wave(input, size);
    else if (argc == 1)
        script_wave(input, size);
    else
        return 2;
    return fflush(stdout) == 0 ? 0 : 1;
}
