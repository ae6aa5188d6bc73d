/* Random scripts to the second model's saver (save.c). What it makes of each is
 * held to the request's words, one by one:
 * - the lines left out are those that the script program answers with E 9, and
 *   those whose register digit is 4 or above;
 * - each record, told again as a line, is the line that was kept, in their
 *   order, and nothing else is in the file but the table of its one section;
 * - the model's trace player refuses no file, makes one call for each line kept
 *   and ends in the module in which the script ends;
 * - 20 is given exactly where the file is longer than the buffer or than 65,535
 *   bytes, and then every byte of the buffer is as before, as are otherwise the
 *   bytes behind the file.
 * The script lies right before or right behind a page that cannot be touched,
 * and so does the buffer.
 *
 * usage: save_fuzz [seed] [scripts]
 *
 * Exit 0: all held, and every case was met. Exit 1: not so. */
#define _DEFAULT_SOURCE
#include "save.h"
#include "some_script.h"

#include <stdio.h>
#include <stdlib.h>
#include <string.h>
#include <sys/mman.h>

static unsigned long number;

static void fail(const char *what)
{
    printf("FAIL script %lu: %s\n", number, what);
    exit(1);
}

/* ---- places between pages that cannot be touched --------------------------- */

static uint8_t *new_area(size_t bytes)
{
    size_t page = 65536;
    uint8_t *p = mmap(0, bytes + 4 * page, PROT_NONE,
                      MAP_PRIVATE | MAP_ANONYMOUS, -1, 0);

    if (p == MAP_FAILED)
        exit(1);
    p += 2 * page - (uintptr_t)p % page;
    if (mprotect(p, bytes, PROT_READ | PROT_WRITE) != 0)
        exit(1);
    return p;
}

/* ---- the script, line by line ------------------------------------------------ */

enum met {
    KEPT_W, KEPT_R, KEPT_T, KEPT_T_0, KEPT_T_1, KEPT_P, KEPT_C, KEPT_REFUSED,
    LEFT_9, LEFT_EMPTY, LEFT_CR, LEFT_LONG, LEFT_W, LEFT_R, NO_LF, CUT,
    SAVED, EMPTY_FILE, FULL_FILE, EXACT, WIDE, NO_ROOM, ONE_SHORT, NO_BYTE,
    PAST_LIMIT, METS
};
static const char *const met_name[METS] = {
    "W kept", "R kept", "T kept", "T with SS 0", "T with SS 1", "P kept",
    "C kept", "refused by the module, kept", "unreadable", "an empty line",
    "a line with CR", "a line of more than 16 bytes", "W of no register",
    "R of no register", "a last line without LF", "cut at 65,535 bytes",
    "saved", "an empty session", "16,381 records", "a buffer of that length",
    "a buffer of more than 65,535 bytes", "no room", "one byte short",
    "no byte lent", "too long for any buffer"};
static unsigned long met[METS];

/* What is kept, as text, and the module at the end. */
static char kept[40000][12];
static size_t keeps;
static struct ref_spi ended;

static void meet_line(const uint8_t *s, size_t n, int left_9)
{
    met[LEFT_9] += (unsigned long)left_9;
    met[LEFT_EMPTY] += left_9 && n == 0;
    met[LEFT_CR] += left_9 && n > 1 && s[n - 1] == '\r';
    met[LEFT_LONG] += left_9 && n > 16;
}

static void meet_kept(const char *text, int answer_is_refusal)
{
    static const char letter[] = "WRTPC";
    static const enum met of[] = {KEPT_W, KEPT_R, KEPT_T, KEPT_P, KEPT_C};

    met[of[strchr(letter, text[0]) - letter]]++;
    met[KEPT_T_0] += text[0] == 'T' && strlen(text) == 5 && text[4] == '0';
    met[KEPT_T_1] += text[0] == 'T' && strlen(text) == 5 && text[4] == '1';
    met[KEPT_REFUSED] += (unsigned long)answer_is_refusal;
}

/* One line: what the script program answers decides. */
static void take_line(const uint8_t *s, size_t n)
{
    static char *answer;
    static size_t room;
    static FILE *out;
    int refusal = 0;

    if (!out && !(out = open_memstream(&answer, &room)))
        exit(1);
    rewind(out);
    script_line(&ended, 1, s, n, out);
    fflush(out);
    if (strncmp(answer, "1 E ", 4) == 0)
        refusal = atoi(answer + 4);
    meet_line(s, n, refusal == 9);
    if (refusal == 9)
        return;
    if ((s[0] == 'W' || s[0] == 'R') && s[2] >= '4') {
        met[s[0] == 'W' ? LEFT_W : LEFT_R]++;
        return;
    }
    memcpy(kept[keeps], s, n);
    kept[keeps][n] = '\0';
    meet_kept(kept[keeps], refusal != 0);
    keeps++;
}

static void take_script(const uint8_t *s, size_t n)
{
    size_t at, start = 0;

    keeps = 0;
    ref_power_up(&ended);
    if (n > 65535) {
        met[CUT]++;
        n = 65535;
    }
    for (at = 0; at < n; at++) {
        if (s[at] == '\n') {
            take_line(s + start, at - start);
            start = at + 1;
        }
    }
    if (start < n) {
        met[NO_LF]++;
        take_line(s + start, n - start);
    }
}

/* ---- what was saved ------------------------------------------------------------ */

static unsigned byte16(const uint8_t *r) { return r[0] + 256u * r[1]; }

/* A record as the line that asks for it. */
static void tell_record(const uint8_t *r, char *text)
{
    unsigned a = r[1];

    switch (r[0]) {
    case 0: sprintf(text, "W %u %04X", a, byte16(r + 2)); return;
    case 1: sprintf(text, "R %u", a); break;
    case 2: sprintf(text, "T %u %u", a & 1, a >> 2); break;
    case 3: sprintf(text, "P %u %u %u", a >> 1 & 1, a & 1, a >> 2); break;
    case 4: sprintf(text, "C"); break;
    default: fail("a record of another kind");
    }
    if (byte16(r + 2) != 0)
        fail("a value where there is none");
}

static void hold_file(const uint8_t *f, size_t n)
{
    struct ref_spi m;
    unsigned calls = 0;
    char text[40];
    size_t i;

    if (n != 10 + 4 * keeps || n > 65535)
        fail("the length of the file");
    if (byte16(f) != 1 || byte16(f + 2) != 10 || byte16(f + 4) != 0 ||
        byte16(f + 6) != n - 10 || byte16(f + 8) != 0)
        fail("the table of contents");
    for (i = 0; i < keeps; i++) {
        char *line = kept[i];

        if (line[0] == 'T' && line[3] == '\0')
            strcat(line, " 0");
        tell_record(f + 10 + 4 * i, text);
        if (strcmp(text, line) != 0)
            fail("a record is not its line");
    }
    if (trace_play(&m, f, n, &calls) != 0)
        fail("the file is refused");
    if (calls != keeps)
        fail("the calls made are not the lines kept");
    if (memcmp(&m, &ended, sizeof m) != 0)
        fail("played, it ends in another module");
}

static void meet_answer(int answer, size_t whole, size_t room)
{
    met[SAVED] += answer == 0;
    met[EMPTY_FILE] += answer == 0 && whole == 10;
    met[FULL_FILE] += answer == 0 && whole == 65534;
    met[EXACT] += answer == 0 && whole == room;
    met[WIDE] += answer == 0 && room > 65535;
    met[NO_ROOM] += answer == 20 && whole <= 65535;
    met[ONE_SHORT] += answer == 20 && whole <= 65535 && room == whole - 1;
    met[NO_BYTE] += answer == 20 && room == 0;
    met[PAST_LIMIT] += answer == 20 && whole > 65535 && whole <= room;
}

static void try_room(const uint8_t *script, size_t n, uint8_t *buffer,
                     size_t room)
{
    static uint8_t before[SOME_ROOM];
    size_t whole = 10 + 4 * keeps, length = 77777, i;
    int answer;

    for (i = 0; i < room; i++)
        buffer[i] = before[i] = (uint8_t)((i * 2654435761u + number) >> 5);
    answer = save_session(script, n, buffer, room, &length);
    if (answer != (whole > room || whole > 65535 ? 20 : 0))
        fail("20");
    if (answer != 0 && length != 77777)
        fail("a refused save tells a length");
    if (answer == 0 && length != whole)
        fail("the length told");
    i = answer == 0 ? whole : 0;
    if (memcmp(buffer + i, before + i, room - i) != 0)
        fail("a byte changed that should have stayed");
    if (answer == 0)
        hold_file(buffer, length);
    meet_answer(answer, whole, room);
}

int main(int argc, char **argv)
{
    unsigned long seed = argc > 1 ? strtoul(argv[1], 0, 10) : 1;
    unsigned long scripts = argc > 2 ? strtoul(argv[2], 0, 10) : 100000;
    uint8_t *scripts_area = new_area(SOME_SCRIPT_BYTES);
    uint8_t *buffers_area = new_area(SOME_ROOM);
    static uint8_t made[SOME_SCRIPT_BYTES];
    int i, missing = 0;

    for (number = 1; number <= scripts; number++) {
        uint64_t from = seed * UINT64_C(1000003) + number;
        size_t n = some_script(from, made), room;
        uint8_t *script = scripts_area, *buffer = buffers_area;

        if (number & 1)
            script += SOME_SCRIPT_BYTES - n;
        memcpy(script, made, n);
        take_script(script, n);
        if (save_length(script, n) != 10 + 4 * keeps)
            fail("the length counted");
        room = some_room(from, 10 + 4 * keeps);
        if (number & 2)
            buffer += SOME_ROOM - room;
        try_room(script, n, buffer, room);
    }
    for (i = 0; i < METS; i++) {
        printf("%s: %lu\n", met_name[i], met[i]);
        missing += met[i] == 0;
    }
    printf("%lu scripts%s\n", scripts,
           missing ? ", but not everything was met" : "");
    return missing != 0;
}
