/* Request Fourteen of document 02: salvage a cut trace. Built without
 * SALVAGE_NO_MAIN it is a program:
 *
 *   salvage [ROOM]  salvages the file on standard input, lending ROOM bytes,
 *                   65,535 if not given, and writes what run_salvage does: a
 *                   line with the refusal, or with the sections cut and the
 *                   bytes lost, and behind it the new file
 *   salvage cases   standard input is text: a heading that starts with "# ",
 *                   under it a line "lent ROOM", and lines "TIMES BYTES", which
 *                   make up the file: the bytes in hexadecimal, so many times.
 *                   Prints each heading, and under it the refusal, or the
 *                   sections cut, the bytes lost, the length of the new file
 *                   and its bytes in hexadecimal; of a long file its ends and
 *                   the checksum of `sum -r`
 */
#include "salvage.h"

#include <stdlib.h>
#include <string.h>

/* ---- numbers, the low byte first -------------------------------------- */

static uint64_t number_at(const uint8_t *at, int bytes)
{
    uint64_t n = 0;

    while (bytes-- > 0)
        n = n * 256 + at[bytes];
    return n;
}

static void put_number(uint8_t *at, int bytes, uint64_t n)
{
    for (; bytes > 0; bytes--, n /= 256)
        *at++ = (uint8_t)(n % 256);
}

/* ---- the old table of contents ------------------------------------------ */

static size_t table_bytes(uint64_t sections) { return 2 + 8 * (size_t)sections; }

static uint64_t stated_start(const uint8_t *file, int s)
{
    return number_at(file + 2 + 8 * s, 4);
}

static uint64_t stated_length(const uint8_t *file, int s)
{
    return number_at(file + 6 + 8 * s, 4);
}

int salvage_refused(const uint8_t *file, size_t size)
{
    uint64_t sections, end;
    int s;

    if (size > TRACE_BYTES || size < 2)
        return 17;
    sections = number_at(file, 2);
    if (sections < 1 || sections > TRACE_SECTIONS)
        return 17;
    end = table_bytes(sections);
    if (size < end)
        return 17;
    for (s = 0; s < (int)sections; s++) {
        if (stated_start(file, s) != end)
            return 17;
        end += stated_length(file, s);
    }
    return end > TRACE_BYTES ? 17 : 0;
}

/* ---- which records are kept ------------------------------------------------ */

/* How many bytes each section keeps, and why not more. The levels are those of
 * the records kept: a play raises the level of what it plays as it is kept, and
 * only higher-numbered sections, whose records come later in the file. */
static void keep(const uint8_t *file, size_t size,
                 size_t kept[TRACE_SECTIONS],
                 enum salvage_cut cause[TRACE_SECTIONS])
{
    int sections = (int)number_at(file, 2), level[TRACE_SECTIONS], s;

    for (s = 0; s < sections; s++)
        level[s] = 1;
    for (s = 0; s < sections; s++) {
        uint64_t start = stated_start(file, s), length = stated_length(file, s);

        kept[s] = 0;
        cause[s] = SALVAGE_WHOLE;
        while (kept[s] < length && cause[s] == SALVAGE_WHOLE) {
            const uint8_t *record;

            if (kept[s] + 4 > length) {
                cause[s] = SALVAGE_PAST_SECTION;
                continue;
            }
            if (start + kept[s] + 4 > size) {
                cause[s] = SALVAGE_PAST_FILE;
                continue;
            }
            record = file + start + kept[s];
            if (trace_record_fault(record, s, sections, level[s]) !=
                TRACE_RIGHT) {
                cause[s] = SALVAGE_WRONG;
                continue;
            }
            if (record[0] == TRACE_PLAY && level[record[1]] <= level[s])
                level[record[1]] = level[s] + 1;
            kept[s] += 4;
        }
    }
}

void salvage_causes(const uint8_t *file, size_t size,
                    enum salvage_cut cause[TRACE_SECTIONS])
{
    size_t kept[TRACE_SECTIONS];

    keep(file, size, kept, cause);
}

/* ---- the new file ------------------------------------------------------------ */

int salvage_file(const uint8_t *file, size_t size, uint8_t *buffer,
                 size_t room, struct salvaged *answer)
{
    size_t kept[TRACE_SECTIONS], at;
    enum salvage_cut cause[TRACE_SECTIONS];
    struct salvaged a = {0, 0, 0};
    int sections, s;

    if (salvage_refused(file, size))
        return 17;
    sections = (int)number_at(file, 2);
    keep(file, size, kept, cause);
    a.length = table_bytes((uint64_t)sections);
    for (s = 0; s < sections; s++) {
        a.cut += kept[s] < stated_length(file, s);
        a.lost += (size_t)stated_length(file, s) - kept[s];
        a.length += kept[s];
    }
    if (a.length > room)
        return SALVAGE_NO_ROOM;
    put_number(buffer, 2, (uint64_t)sections);
    at = table_bytes((uint64_t)sections);
    for (s = 0; s < sections; s++) {
        put_number(buffer + 2 + 8 * s, 4, at);
        put_number(buffer + 6 + 8 * s, 4, kept[s]);
        if (kept[s] > 0)
            memcpy(buffer + at, file + stated_start(file, s), kept[s]);
        at += kept[s];
    }
    *answer = a;
    return 0;
}

#ifndef SALVAGE_NO_MAIN
#define MOST_BYTES ((size_t)1 << 20) /* of a file or a buffer */

static uint8_t file[MOST_BYTES], buffer[MOST_BYTES];
static size_t size;

/* The checksum of `sum -r`. */
static unsigned sum(const uint8_t *at, size_t n)
{
    unsigned s = 0;

    while (n-- > 0)
        s = (s / 2 + s % 2 * 32768u + *at++) % 65536u;
    return s;
}

static void print_bytes(const uint8_t *at, size_t n)
{
    size_t i;

    for (i = 0; i < n; i++)
        printf("%s%02x", i > 0 ? " " : "", at[i]);
}

static void print_file(size_t length)
{
    if (length <= 200) {
        print_bytes(buffer, length);
    } else {
        print_bytes(buffer, 22);
        printf(" .. ");
        print_bytes(buffer + length - 4, 4);
        printf(", sum %u", sum(buffer, length));
    }
    printf("\n");
}

/* Salvages the file over a buffer that holds something else; 0 if more of it
 * changed than may. */
static int print_salvaged(size_t room)
{
    struct salvaged a = {0, 0, 0};
    size_t i;
    int r;

    for (i = 0; i < sizeof buffer; i++)
        buffer[i] = (uint8_t)(7 * i + 91);
    r = salvage_file(file, size, buffer, room, &a);
    if (r != 0) {
        printf("E %d\n", r);
    } else {
        printf("OK %u %lu %lu\n", a.cut, (unsigned long)a.lost,
               (unsigned long)a.length);
        print_file(a.length);
    }
    for (i = a.length; i < sizeof buffer; i++)
        if (buffer[i] != (uint8_t)(7 * i + 91))
            return 0;
    return 1;
}

/* Bytes in hexadecimal, to the end of the file; 0 if the text is something
 * else or too long. */
static int put_bytes(const char *s)
{
    while (*s != '\0') {
        char *end;
        unsigned long byte = strtoul(s, &end, 16);

        if (end != s + 2 || (*end != ' ' && *end != '\0') ||
            size == sizeof file)
            return 0;
        file[size++] = (uint8_t)byte;
        s = *end == ' ' ? end + 1 : end;
    }
    return 1;
}

/* Headings, buffers and files; 0 if the text is something else, or if more of a
 * buffer changed than may. */
static int cases(void)
{
    static char line[70000];
    unsigned long room = 0, times;
    int open = 0; /* a case is being read */
    char *text;

    while (fgets(line, sizeof line, stdin)) {
        size_t n = strlen(line);

        if (n == 0 || line[n - 1] != '\n')
            return 0;
        if (line[0] == '#') {
            if (open && !print_salvaged(room))
                return 0;
            fputs(line, stdout);
            if (!fgets(line, sizeof line, stdin) ||
                sscanf(line, "lent %lu", &room) != 1 || room > sizeof buffer)
                return 0;
            open = 1;
            size = 0;
            continue;
        }
        line[n - 1] = '\0';
        times = strtoul(line, &text, 10);
        if (!open || text == line || *text != ' ')
            return 0;
        while (times-- > 0)
            if (!put_bytes(text + 1))
                return 0;
    }
    return open && print_salvaged(room);
}

int main(int argc, char **argv)
{
    size_t room = argc == 2 ? strtoul(argv[1], 0, 10) : TRACE_BYTES;
    int done = argc <= 2 && room <= sizeof buffer;
    struct salvaged a;

    if (argc == 2 && strcmp(argv[1], "cases") == 0) {
        done = cases();
    } else if (done) {
        int r;

        size = fread(file, 1, sizeof file, stdin);
        r = salvage_file(file, size, buffer, room, &a);
        if (r != 0) {
            printf("E %d\n", r);
        } else {
            printf("OK %u %lu\n", a.cut, (unsigned long)a.lost);
            fwrite(buffer, 1, a.length, stdout);
        }
    }
    return done && fflush(stdout) == 0 ? 0 : 1;
}
#endif
