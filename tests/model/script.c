/* Document 01, The script program, with request Three of document 02. Built
 * without SCRIPT_NO_MAIN it is that program; with it, the functions of
 * script.h. */
#include "ref_spi.h"
#include "script.h"

#include <stddef.h>
#include <stdio.h>
#include <string.h>

/* ---- lines ------------------------------------------------------------ */

void script_begin(struct script_walk *w, const unsigned char *input,
                  size_t size)
{
    w->rest = input;
    /* whatever follows is as if it were not there */
    w->left = size < SCRIPT_BYTES ? size : SCRIPT_BYTES;
}

int script_next(struct script_walk *w)
{
    if (w->left == 0)
        return 0;
    w->line = w->rest;
    w->length = 0;
    while (w->length < w->left && w->line[w->length] != '\n')
        w->length++;
    w->ended = w->length < w->left;
    w->rest += w->length + (size_t)w->ended;
    w->left -= w->length + (size_t)w->ended;
    return 1;
}

static int is_level(unsigned char c) { return c == '0' || c == '1'; }
static int is_digit(unsigned char c) { return c >= '0' && c <= '9'; }

static int hex(unsigned char c)
{
    if (c >= '0' && c <= '9')
        return c - '0';
    if (c >= 'A' && c <= 'F')
        return c - 'A' + 10;
    return -1;
}

/* Has the line this shape? An x in the pattern takes any byte; every other
 * character takes only itself. */
static int shape(const unsigned char *s, size_t n, const char *pattern)
{
    size_t i;
    if (n != strlen(pattern))
        return 0;
    for (i = 0; i < n; i++)
        if (pattern[i] != 'x' && s[i] != (unsigned char)pattern[i])
            return 0;
    return 1;
}

int script_read(const unsigned char *s, size_t n, struct script_call *c)
{
    memset(c, 0, sizeof *c);
    if (shape(s, n, "W x xxxx") && is_digit(s[2]) && hex(s[4]) >= 0 &&
        hex(s[5]) >= 0 && hex(s[6]) >= 0 && hex(s[7]) >= 0) {
        c->kind = SCRIPT_WRITE;
        c->reg = (unsigned)(s[2] - '0');
        c->value = (unsigned)hex(s[4]) * 4096u + (unsigned)hex(s[5]) * 256u +
                   (unsigned)hex(s[6]) * 16u + (unsigned)hex(s[7]);
        return 1;
    }
    if (shape(s, n, "R x") && is_digit(s[2])) {
        c->kind = SCRIPT_READ;
        c->reg = (unsigned)(s[2] - '0');
        return 1;
    }
    if ((shape(s, n, "T x") && is_level(s[2])) ||
        (shape(s, n, "T x x") && is_level(s[2]) && is_level(s[4]))) {
        c->kind = SCRIPT_TICK;
        c->sdi = s[2] - '0';
        c->ss = n == 5 && s[4] == '1'; /* it may be left out, and is low then */
        return 1;
    }
    if (shape(s, n, "P x x x") && is_level(s[2]) && is_level(s[4]) &&
        is_level(s[6])) {
        c->kind = SCRIPT_PINS;
        c->sck = s[2] - '0';
        c->sdi = s[4] - '0';
        c->ss = s[6] - '0';
        return 1;
    }
    c->kind = SCRIPT_CLEAR;
    return shape(s, n, "C");
}

/* ---- calls and answers -------------------------------------------------- */

int script_make(struct ref_spi *m, const struct script_call *c,
                unsigned *value)
{
    switch (c->kind) {
    case SCRIPT_WRITE: return ref_write(m, c->reg, c->value);
    case SCRIPT_READ: return ref_read(m, c->reg, value);
    case SCRIPT_TICK: return ref_tick(m, c->sdi, c->ss);
    case SCRIPT_PINS: return ref_pins(m, c->sck, c->sdi, c->ss);
    default: ref_clear(m); return 0;
    }
}

static char sdo_letter(const struct ref_spi *m)
{
    int level = ref_sdo(m);
    return level == REF_UNDRIVEN ? 'Z' : (char)('0' + level);
}

/* The last field of a T or P line, and its end: the SS level of a frame host,
 * which drives it; no other module has that field. */
static void print_ss(const struct ref_spi *m, FILE *out)
{
    int level = ref_ss(m);

    if (level == REF_UNDRIVEN)
        fprintf(out, "\n");
    else
        fprintf(out, " %d\n", level);
}

void script_line(struct ref_spi *m, unsigned long number,
                 const unsigned char *s, size_t n, FILE *out)
{
    struct script_call c;
    unsigned value = 0;
    int r = script_read(s, n, &c) ? script_make(m, &c, &value) : 9;

    fprintf(out, "%lu ", number);
    if (r == REF_NO_EDGE) {
        fprintf(out, "N\n");
        return;
    }
    if (r != 0) {
        fprintf(out, "E %d\n", r);
        return;
    }
    switch (c.kind) {
    case SCRIPT_READ: fprintf(out, "%04X\n", value); break;
    case SCRIPT_TICK:
        fprintf(out, "%d %c %d", ref_sck(m), sdo_letter(m), ref_flag(m));
        print_ss(m, out);
        break;
    case SCRIPT_PINS:
        fprintf(out, "%c %d", sdo_letter(m), ref_flag(m));
        print_ss(m, out);
        break;
    default: fprintf(out, "OK\n"); break;
    }
}

void script_run(const unsigned char *input, size_t size, FILE *out)
{
    struct script_walk w;
    struct ref_spi m;
    unsigned long number = 0;

    ref_power_up(&m);
    script_begin(&w, input, size);
    while (script_next(&w))
        script_line(&m, ++number, w.line, w.length, out);
}

#ifndef SCRIPT_NO_MAIN
int main(void)
{
    static unsigned char input[65535];
    size_t size = fread(input, 1, sizeof input, stdin);
    script_run(input, size, stdout);
    return fflush(stdout) == 0 ? 0 : 1;
}
#endif
