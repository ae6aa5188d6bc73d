/* Request Five of document 02: a trace file that plays. Built without
 * TRACE_NO_MAIN it is a program:
 *
 *   trace        plays the file on standard input, and prints what run_play
 *                does: the refusal, or the calls made, the registers, the flag
 *   trace list   prints a listing of the file on standard input
 *   trace cases  standard input is text: a heading that starts with "# ", under
 *                it a line with a file's bytes in hexadecimal, and so on. Prints
 *                each heading, and under it what run_play prints of the file
 *   trace unread the same, and under the heading the words left unread
 */
#include "trace.h"

#include <string.h>

const char *const trace_fault_text[TRACE_FAULTS] = {
    "right",
    "longer than 65,535 bytes",
    "no section count",
    "no section",
    "more than 64 sections",
    "the table of contents is cut",
    "a gap or an overlap before a section",
    "a length that is no multiple of 4",
    "a section ends behind the file",
    "bytes behind the last section",
    "a kind above 5",
    "a register above 3",
    "a tick or pin call with other bits",
    "a clear with an argument",
    "a value where there is none",
    "a play of itself or a lower section",
    "a play of no section",
    "a play at level 8",
    "more than 65,535 calls",
};

int trace_number(enum trace_fault fault)
{
    if (fault == TRACE_RIGHT)
        return 0;
    if (fault <= TRACE_LEFT_OVER)
        return 17;
    return fault <= TRACE_TOO_DEEP ? 18 : 19;
}

/* ---- numbers, the low byte first -------------------------------------- */

static unsigned number16(const uint8_t *at)
{
    return at[0] + 256u * at[1];
}

static uint32_t number32(const uint8_t *at)
{
    return number16(at) + 65536u * (uint32_t)number16(at + 2);
}

struct record {
    unsigned kind, argument, value;
};

static struct record record_at(const uint8_t *at)
{
    struct record r;

    r.kind = at[0];
    r.argument = at[1];
    r.value = number16(at + 2);
    return r;
}

/* ---- refusal 17: the table of contents -------------------------------- */

/* The first section starts behind the table, each further one where the one
 * before ends, and the last ends the file. A length is held against the bytes
 * that are there, so nothing is added up that could run over. */
static enum trace_fault read_contents(struct trace *t, size_t length)
{
    unsigned count;
    size_t at;
    int s;

    if (length > TRACE_BYTES)
        return TRACE_TOO_LONG;
    if (length < 2)
        return TRACE_NO_COUNT;
    count = number16(t->file);
    if (count == 0)
        return TRACE_NO_SECTION;
    if (count > TRACE_SECTIONS)
        return TRACE_MANY_SECTIONS;
    at = 2 + 8 * (size_t)count;
    if (length < at)
        return TRACE_TABLE_CUT;
    t->sections = (int)count;
    for (s = 0; s < t->sections; s++) {
        const uint8_t *entry = t->file + 2 + 8 * s;
        uint32_t its_start = number32(entry), its_length = number32(entry + 4);

        if (its_start != at)
            return TRACE_GAP;
        if (its_length % 4 != 0)
            return TRACE_ODD_LENGTH;
        if (its_length > length - at)
            return TRACE_PAST_END;
        t->section[s].start = at;
        t->section[s].length = its_length;
        at += its_length;
    }
    return at == length ? TRACE_RIGHT : TRACE_LEFT_OVER;
}

/* ---- refusal 18: the records ------------------------------------------ */

enum trace_fault trace_record_fault(const uint8_t *at, int section,
                                    int sections, int level)
{
    struct record r = record_at(at);

    switch (r.kind) {
    case TRACE_WRITE:
        return r.argument > 3 ? TRACE_BAD_REGISTER : TRACE_RIGHT;
    case TRACE_READ:
        if (r.argument > 3)
            return TRACE_BAD_REGISTER;
        break;
    case TRACE_TICK:
        if (r.argument & ~5u) /* SDI and SS; SCK is for pins only */
            return TRACE_BAD_LEVELS;
        break;
    case TRACE_PINS:
        if (r.argument & ~7u)
            return TRACE_BAD_LEVELS;
        break;
    case TRACE_CLEAR:
        if (r.argument != 0)
            return TRACE_BAD_ARGUMENT;
        break;
    case TRACE_PLAY:
        if ((int)r.argument <= section)
            return TRACE_NOT_HIGHER;
        if ((int)r.argument >= sections)
            return TRACE_NOT_THERE;
        return level == TRACE_LEVELS ? TRACE_TOO_DEEP : TRACE_RIGHT;
    default:
        return TRACE_BAD_KIND;
    }
    return r.value != 0 ? TRACE_BAD_VALUE : TRACE_RIGHT;
}

/* All records in file order. A section's level depends on lower-numbered
 * sections alone, so it is settled when its own records come. */
static enum trace_fault read_records(struct trace *t)
{
    int s;

    for (s = 0; s < t->sections; s++)
        t->section[s].level = 1;
    for (s = 0; s < t->sections; s++) {
        const struct trace_section *here = &t->section[s];
        size_t at, end = here->start + here->length;

        for (at = here->start; at < end; at += 4) {
            struct record r = record_at(t->file + at);
            enum trace_fault fault =
                trace_record_fault(t->file + at, s, t->sections, here->level);

            if (fault != TRACE_RIGHT)
                return fault;
            if (r.kind == TRACE_PLAY &&
                t->section[r.argument].level <= here->level)
                t->section[r.argument].level = here->level + 1;
        }
    }
    return TRACE_RIGHT;
}

/* ---- refusal 19: the number of calls ---------------------------------- */

#define TOO_MANY (TRACE_CALLS + 1u)

static unsigned plus(unsigned a, unsigned b)
{
    return a + b < TOO_MANY ? a + b : TOO_MANY;
}

/* A number of repeats, each of which counts one before its calls. */
static unsigned repeats(unsigned times, unsigned calls)
{
    if (times != 0 && 1 + calls > TOO_MANY / times)
        return TOO_MANY;
    return times * (1 + calls);
}

/* Only higher-numbered sections are played, so the last comes first. What the
 * module answers to a call changes no number. */
static void count_calls(struct trace *t)
{
    size_t free = 0;
    int s;

    for (s = t->sections - 1; s >= 0; s--) {
        struct trace_section *here = &t->section[s];
        size_t at, end = here->start + here->length;

        here->calls = 0;
        here->first = free;
        for (at = here->start; at < end; at += 4) {
            struct record r = record_at(t->file + at);
            const struct trace_section *played = &t->section[r.argument];

            if (r.kind != TRACE_PLAY) {
                here->calls = plus(here->calls, 1);
            } else {
                here->calls =
                    plus(here->calls, repeats(r.value, played->calls));
                if (r.value == 0 || played->calls == 0)
                    continue; /* no step: it leads to no call */
            }
            t->step[free++] = (uint16_t)at;
        }
        here->steps = free - here->first;
    }
}

enum trace_fault trace_open(struct trace *t, const uint8_t *file,
                            size_t length)
{
    enum trace_fault fault;

    t->file = file;
    fault = read_contents(t, length);
    if (fault == TRACE_RIGHT)
        fault = read_records(t);
    if (fault != TRACE_RIGHT)
        return fault;
    count_calls(t);
    return t->section[0].calls > TRACE_CALLS ? TRACE_MANY_CALLS : TRACE_RIGHT;
}

/* ---- playing ----------------------------------------------------------- */

/* One call. What the module answers is not looked at: it counts, and play goes
 * on. */
static void make_call(struct ref_spi *m, struct record r)
{
    int sdi = (r.argument & 1) != 0;
    int sck = (r.argument & 2) != 0;
    int ss = (r.argument & 4) != 0;
    unsigned value;

    switch (r.kind) {
    case TRACE_WRITE: (void)ref_write(m, r.argument, r.value); break;
    case TRACE_READ: (void)ref_read(m, r.argument, &value); break;
    case TRACE_TICK: (void)ref_tick(m, sdi, ss); break;
    case TRACE_PINS: (void)ref_pins(m, sck, sdi, ss); break;
    default: ref_clear(m); break;
    }
}

static void play_section(const struct trace *t, int s, struct ref_spi *m)
{
    const struct trace_section *here = &t->section[s];
    size_t i;

    for (i = here->first; i < here->first + here->steps; i++) {
        struct record r = record_at(t->file + t->step[i]);

        if (r.kind != TRACE_PLAY) {
            make_call(m, r);
            continue;
        }
        while (r.value-- > 0)
            play_section(t, (int)r.argument, m);
    }
}

int trace_play(struct ref_spi *m, const uint8_t *file, size_t length,
               unsigned *calls)
{
    struct trace t;
    enum trace_fault fault = trace_open(&t, file, length);

    if (fault != TRACE_RIGHT)
        return trace_number(fault);
    ref_power_up(m);
    play_section(&t, 0, m);
    *calls = t.section[0].calls;
    return 0;
}

void trace_print(const uint8_t *file, size_t length, FILE *out)
{
    static const char *const name[] = {"STAT", "CON1", "CON2"};
    struct ref_spi m;
    unsigned calls, n, value;
    int number = trace_play(&m, file, length, &calls);

    if (number != 0) {
        fprintf(out, "E %d\n", number);
        return;
    }
    fprintf(out, "OK %u\n", calls);
    for (n = 0; n < 3; n++) {
        (void)ref_read(&m, n, &value);
        fprintf(out, "%s %04X\n", name[n], value);
    }
    fprintf(out, "interrupt %d\n", ref_flag(&m));
}

/* ---- the listing ------------------------------------------------------- */

static const char *plural(unsigned n) { return n == 1 ? "" : "s"; }

/* A record as a script has it; the play of a section in words. */
static void print_record(struct record r, FILE *out)
{
    int sdi = (r.argument & 1) != 0;
    int sck = (r.argument & 2) != 0;
    int ss = (r.argument & 4) != 0;

    switch (r.kind) {
    case TRACE_WRITE:
        fprintf(out, "W %u %04X\n", r.argument, r.value);
        break;
    case TRACE_READ: fprintf(out, "R %u\n", r.argument); break;
    case TRACE_TICK:
        fprintf(out, ss ? "T %d 1\n" : "T %d\n", sdi);
        break;
    case TRACE_PINS: fprintf(out, "P %d %d %d\n", sck, sdi, ss); break;
    case TRACE_CLEAR: fprintf(out, "C\n"); break;
    default:
        fprintf(out, "play section %u, %u time%s\n", r.argument, r.value,
                plural(r.value));
        break;
    }
}

/* The place of some bytes, two to eight, and these in hexadecimal. */
static void print_bytes(const uint8_t *file, size_t at, size_t n, FILE *out)
{
    size_t i;

    fprintf(out, "%5lu ", (unsigned long)at);
    for (i = 0; i < 8; i++) {
        if (i < n)
            fprintf(out, " %02x", file[at + i]);
        else
            fprintf(out, "   ");
    }
    fprintf(out, "  ");
}

void trace_list(const uint8_t *file, size_t length, FILE *out)
{
    struct trace t;
    enum trace_fault fault = trace_open(&t, file, length);
    int s;

    if (fault != TRACE_RIGHT) {
        fprintf(out, "E %d: %s\n", trace_number(fault),
                trace_fault_text[fault]);
        return;
    }
    print_bytes(file, 0, 2, out);
    fprintf(out, "%d section%s\n", t.sections, plural((unsigned)t.sections));
    for (s = 0; s < t.sections; s++) {
        print_bytes(file, 2 + 8 * (size_t)s, 8, out);
        fprintf(out, "section %d: %lu bytes from %lu\n", s,
                (unsigned long)t.section[s].length,
                (unsigned long)t.section[s].start);
    }
    for (s = 0; s < t.sections; s++) {
        const struct trace_section *here = &t.section[s];
        size_t at;

        fprintf(out, "section %d, level %d, %s%u call%s\n", s, here->level,
                here->calls > TRACE_CALLS ? "at least " : "", here->calls,
                plural(here->calls));
        for (at = here->start; at < here->start + here->length; at += 4) {
            print_bytes(file, at, 4, out);
            print_record(record_at(file + at), out);
        }
    }
}

#ifndef TRACE_NO_MAIN
static int digit(int c)
{
    if (c >= '0' && c <= '9')
        return c - '0';
    return c >= 'a' && c <= 'f' ? c - 'a' + 10 : -1;
}

static void print_unread(const uint8_t *file, size_t length)
{
    struct ref_spi m;
    unsigned calls;
    int i;

    if (trace_play(&m, file, length, &calls) != 0)
        return;
    printf("unread");
    for (i = 0; i < m.rx.n; i++)
        printf(" %04X", m.rx.word[i]);
    printf("\n");
}

/* Headings and files in hexadecimal; 0 if the text is something else. */
static int cases(const uint8_t *text, size_t size, int unread)
{
    static uint8_t file[TRACE_BYTES + 1];
    size_t at = 0;

    while (at < size) {
        size_t start = at, length = 0;

        if (size - at < 2 || memcmp(text + at, "# ", 2) != 0)
            return 0;
        while (at < size && text[at] != '\n')
            at++;
        if (at == size)
            return 0;
        at++;
        fwrite(text + start, 1, at - start, stdout);
        while (at < size && text[at] != '\n') {
            if (length > 0 && text[at++] != ' ')
                return 0;
            if (size - at < 2 || digit(text[at]) < 0 ||
                digit(text[at + 1]) < 0 || length == sizeof file)
                return 0;
            file[length++] =
                (uint8_t)(digit(text[at]) * 16 + digit(text[at + 1]));
            at += 2;
        }
        if (at++ == size)
            return 0;
        if (unread)
            print_unread(file, length);
        else
            trace_print(file, length, stdout);
    }
    return 1;
}

int main(int argc, char **argv)
{
    static uint8_t input[1 << 21];
    size_t size = fread(input, 1, sizeof input, stdin);
    const char *word = argc == 2 ? argv[1] : "";
    int done = 1;

    if (argc == 1)
        trace_print(input, size, stdout);
    else if (strcmp(word, "list") == 0)
        trace_list(input, size, stdout);
    else if (strcmp(word, "cases") == 0)
        done = cases(input, size, 0);
    else if (strcmp(word, "unread") == 0)
        done = cases(input, size, 1);
    else
        done = 0;
    return done && fflush(stdout) == 0 ? 0 : 1;
}
#endif
