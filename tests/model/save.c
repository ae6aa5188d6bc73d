/* Request Six of document 02: write trace files too. Built without SAVE_NO_MAIN
 * it is a program:
 *
 *   save [ROOM]  saves the script on standard input, lending ROOM bytes, 65,535
 *                if not given, and writes the file to standard output; nothing
 *                if it is refused
 *   save cases   standard input is text: a heading that starts with "# ", under
 *                it a line "lent ROOM", and lines "TIMES TEXT", which make up
 *                the script: each TEXT so many times, with the escapes \n, \r,
 *                \t, \\ and \xHH. Prints each heading, and under it the refusal,
 *                or the length of the file and its bytes in hexadecimal; of a
 *                long file its ends and the checksum of `sum -r`
 */
#include "save.h"

#include <stdlib.h>
#include <string.h>

int save_keeps(const struct script_call *c)
{
    return (c->kind != SCRIPT_WRITE && c->kind != SCRIPT_READ) || c->reg < 4;
}

/* The next line that is kept; 0 if there is none. */
static int next_kept(struct script_walk *w, struct script_call *c)
{
    while (script_next(w))
        if (script_read(w->line, w->length, c) && save_keeps(c))
            return 1;
    return 0;
}

/* ---- numbers, the low byte first -------------------------------------- */

static void put16(uint8_t *at, unsigned number)
{
    at[0] = (uint8_t)(number % 256);
    at[1] = (uint8_t)(number / 256 % 256);
}

static void put32(uint8_t *at, uint32_t number)
{
    put16(at, (unsigned)(number % 65536));
    put16(at + 2, (unsigned)(number / 65536));
}

/* ---- the record of a call ---------------------------------------------- */

static void put_record(uint8_t *at, const struct script_call *c)
{
    unsigned levels = (c->sdi ? 1u : 0) + (c->sck ? 2u : 0) + (c->ss ? 4u : 0);

    switch (c->kind) {
    case SCRIPT_WRITE: at[0] = TRACE_WRITE; break;
    case SCRIPT_READ: at[0] = TRACE_READ; break;
    case SCRIPT_TICK: at[0] = TRACE_TICK; break;
    case SCRIPT_PINS: at[0] = TRACE_PINS; break;
    default: at[0] = TRACE_CLEAR; break;
    }
    at[1] = (uint8_t)(c->reg + levels); /* a call has one or the other */
    put16(at + 2, c->value);
}

/* ---- the file ------------------------------------------------------------ */

size_t save_length(const uint8_t *script, size_t size)
{
    struct script_walk w;
    struct script_call c;
    size_t length = SAVE_CONTENTS;

    script_begin(&w, script, size);
    while (next_kept(&w, &c))
        length += 4;
    return length;
}

int save_session(const uint8_t *script, size_t size, uint8_t *file,
                 size_t room, size_t *length)
{
    struct script_walk w;
    struct script_call c;
    size_t whole = save_length(script, size), at = SAVE_CONTENTS;

    if (whole > room || whole > TRACE_BYTES)
        return SAVE_NO_ROOM;
    put16(file, 1);
    put32(file + 2, SAVE_CONTENTS);
    put32(file + 6, (uint32_t)(whole - SAVE_CONTENTS));
    script_begin(&w, script, size);
    while (next_kept(&w, &c)) {
        put_record(file + at, &c);
        at += 4;
    }
    *length = whole;
    return 0;
}

#ifndef SAVE_NO_MAIN
#define MOST_BYTES ((size_t)1 << 20) /* of an input, a script or a buffer */

static uint8_t script[MOST_BYTES], buffer[MOST_BYTES];
static size_t size;

/* The checksum of `sum -r`. */
static unsigned sum(const uint8_t *at, size_t n)
{
    unsigned s = 0;

    while (n-- > 0)
        s = (s / 2 + s % 2 * 32768u + *at++) % 65536u;
    return s;
}

static void print_bytes(const uint8_t *at, size_t n)
{
    size_t i;

    for (i = 0; i < n; i++)
        printf("%s%02x", i > 0 ? " " : "", at[i]);
}

static void print_file(const uint8_t *file, size_t length)
{
    if (length <= 200) {
        print_bytes(file, length);
    } else {
        print_bytes(file, 22);
        printf(" .. ");
        print_bytes(file + length - 4, 4);
        printf(", sum %u", sum(file, length));
    }
    printf("\n");
}

/* Saves the script over a buffer that holds something else; 0 if more of it
 * changed than may. */
static int print_saved(size_t room)
{
    size_t length = 0, i;
    int r;

    for (i = 0; i < sizeof buffer; i++)
        buffer[i] = (uint8_t)(7 * i + 91);
    r = save_session(script, size, buffer, room, &length);
    if (r != 0)
        printf("E %d\n", r);
    else
        printf("OK %lu\n", (unsigned long)length);
    if (r == 0)
        print_file(buffer, length);
    for (i = r == 0 ? length : 0; i < sizeof buffer; i++)
        if (buffer[i] != (uint8_t)(7 * i + 91))
            return 0;
    return 1;
}

static int digit(char c)
{
    if (c >= '0' && c <= '9')
        return c - '0';
    return c >= 'a' && c <= 'f' ? c - 'a' + 10 : -1;
}

/* A text's bytes, to the end of the script; 0 if it has another escape or is
 * too long. */
static int put_text(const char *s)
{
    for (; *s != '\0'; s++) {
        int byte = (unsigned char)*s;

        if (*s == '\\') {
            switch (*++s) {
            case 'n': byte = '\n'; break;
            case 'r': byte = '\r'; break;
            case 't': byte = '\t'; break;
            case '\\': byte = '\\'; break;
            case 'x':
                if (digit(s[1]) < 0 || digit(s[2]) < 0)
                    return 0;
                byte = digit(s[1]) * 16 + digit(s[2]);
                s += 2;
                break;
            default: return 0;
            }
        }
        if (size == sizeof script)
            return 0;
        script[size++] = (uint8_t)byte;
    }
    return 1;
}

/* Headings, buffers and scripts; 0 if the text is something else, or if more of
 * a buffer changed than may. */
static int cases(void)
{
    static char line[70000];
    unsigned long room = 0, times;
    int open = 0; /* a case is being read */
    char *text;

    while (fgets(line, sizeof line, stdin)) {
        size_t n = strlen(line);

        if (n == 0 || line[n - 1] != '\n')
            return 0;
        if (line[0] == '#') {
            if (open && !print_saved(room))
                return 0;
            fputs(line, stdout);
            if (!fgets(line, sizeof line, stdin) ||
                sscanf(line, "lent %lu", &room) != 1 || room > sizeof buffer)
                return 0;
            open = 1;
            size = 0;
            continue;
        }
        line[n - 1] = '\0';
        times = strtoul(line, &text, 10);
        if (!open || text == line || *text != ' ')
            return 0;
        while (times-- > 0)
            if (!put_text(text + 1))
                return 0;
    }
    return open && print_saved(room);
}

int main(int argc, char **argv)
{
    size_t room = argc == 2 ? strtoul(argv[1], 0, 10) : TRACE_BYTES;
    size_t length = 0;
    int done = argc <= 2 && room <= sizeof buffer;

    if (argc == 2 && strcmp(argv[1], "cases") == 0) {
        done = cases();
    } else if (done) {
        size = fread(script, 1, sizeof script, stdin);
        if (save_session(script, size, buffer, room, &length) == 0)
            fwrite(buffer, 1, length, stdout);
    }
    return done && fflush(stdout) == 0 ? 0 : 1;
}
#endif
