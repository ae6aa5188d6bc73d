/* Boards of the second model (board.c). First some that are worked out: figures
 * of document 01 on modules of a board, linked runs between any two, the order
 * of the refusals, words owed, and modules of several depths. Then random calls
 * on lists of none to six modules, of any depths: beside the list goes a plain
 * model for each of its modules, to which the same calls are made one by one,
 * and after every call
 * - the answer is 21 exactly if the list has none or more than four, else 22
 *   exactly if a module that is named is not there or is named twice, else that
 *   of the plain model, with all that it tells;
 * - every module of the list is its plain model, byte for byte, so all but the
 *   named ones are as they were, and after a refusal all;
 * - the modules that lie before and behind the list are as they were;
 * - the total of a board that was powered up whole is that of a ledger, which
 *   counts what was accepted, less what was finished, edge by edge, and what
 *   went by disabling and power-up. It knows no queue: a word is finished with
 *   the last edge of one that was begun and is no filler. A linked run and a
 *   word at a time are made again by single edges for it. A total that was not
 *   the list's own moves by as much, as far as it can.
 *
 * usage: board_fuzz [seed] [calls]
 *
 * Exit 0: all held, and every case was met. Exit 1: not so. */
#include "board.h"

#include <stdio.h>
#include <stdlib.h>
#include <string.h>

/* ---- boards that are worked out ------------------------------------------ */

static int failures, here;

static void expect(int ok, const char *what, int line)
{
    if (ok)
        return;
    here++;
    failures++;
    printf("  FAIL line %d: %s\n", line, what);
}
#define EXPECT(c) expect((c) != 0, #c, __LINE__)

static void end(const char *name)
{
    printf("%-60s %s\n", name, here == 0 ? "ok" : "FAILED");
    here = 0;
}

/* A list of six, of which a board takes the first ones. */
static struct ref_spi six[6];

static struct board fresh(size_t count)
{
    struct board b = {six, count, 0};
    uint32_t n;

    memset(six, 0x55, sizeof six);
    for (n = 0; n < count; n++)
        EXPECT(board_power_up(&b, n) == 0);
    b.owed = 0; /* what the modules were before counts for nothing */
    return b;
}

/* What a read returns, or E0000 plus the refusal number. */
static unsigned get(struct board *b, uint32_t n, unsigned reg)
{
    unsigned v = 0xFFFFFFFFu;
    int r = board_read(b, n, reg, &v);

    return r == 0 ? v : 0xE0000u + (unsigned)r;
}

static void enable(struct board *b, uint32_t n, unsigned con1, unsigned con2)
{
    EXPECT(board_write(b, n, 1, con1) == 0);
    EXPECT(board_write(b, n, 2, con2) == 0);
    EXPECT(board_write(b, n, 0, 0x8000) == 0);
}

/* All modules are as in a copy but those two. */
static int kept(const struct ref_spi *copy, uint32_t a, uint32_t b)
{
    uint32_t n;

    for (n = 0; n < 6; n++) {
        if (n != a && n != b && memcmp(&copy[n], &six[n], sizeof six[n]) != 0)
            return 0;
    }
    return 1;
}

/* Each module has its own registers, buffers, levels and flag. */
static void each_by_itself(void)
{
    struct board b = fresh(4);
    struct ref_spi copy[6];
    struct board_levels seen;
    unsigned n;
    int i;

    for (n = 0; n < 4; n++)
        EXPECT(get(&b, n, 0) == 0x0000); /* example a */
    memcpy(copy, six, sizeof six);
    enable(&b, 3, 0x0020, 1); /* example h, on SPI4 */
    for (i = 0; i < 9; i++)
        EXPECT(board_write(&b, 3, 3, 0x30u + (unsigned)i) == 0);
    EXPECT(get(&b, 3, 0) == 0x8722);
    EXPECT(board_write(&b, 3, 3, 0x39) == 5);
    EXPECT(kept(copy, 3, 3));
    EXPECT(get(&b, 2, 3) == 0xE0002);
    enable(&b, 0, 0x0020, 0); /* example j, on SPI1, SPI4 ticking between */
    EXPECT(board_write(&b, 0, 3, 0xA5) == 0);
    for (i = 0; i < 15; i++) {
        EXPECT(board_tick(&b, 0, 1, 0) == 0);
        EXPECT(board_tick(&b, 3, 0, 0) == 0);
    }
    EXPECT(get(&b, 0, 3) == 0xE0006);
    memcpy(copy, six, sizeof six);
    EXPECT(board_tick(&b, 0, 1, 0) == 0);
    EXPECT(kept(copy, 0, 0));
    EXPECT(board_see(&b, 0, &seen) == 0 && seen.flag == 1);
    EXPECT(get(&b, 0, 3) == 0x00FF);
    EXPECT(get(&b, 3, 3) == 0xE0006);
    EXPECT(board_tick(&b, 3, 0, 0) == 0); /* its edge 16 */
    EXPECT(board_see(&b, 3, &seen) == 0 && seen.flag == 0); /* SISEL 0 */
    EXPECT(get(&b, 3, 3) == 0x0000);
    EXPECT(board_see(&b, 3, &seen) == 0 && seen.flag == 1);
    EXPECT(board_clear(&b, 0) == 0);
    EXPECT(six[0].flag == 0 && six[3].flag == 1);
    EXPECT(board_power_up(&b, 3) == 0);
    EXPECT(get(&b, 3, 0) == 0x0000 && get(&b, 0, 0) == 0x8000);
    end("each module by itself");
}

/* Example l between every two modules of boards of every length. */
static void every_two(void)
{
    size_t count;
    uint32_t h, c;

    for (count = 1; count <= 4; count++) {
        for (h = 0; h < count; h++) {
            for (c = 0; c < count; c++) {
                struct board b = fresh(count);
                struct ref_spi copy[6];
                unsigned used = 77;

                enable(&b, h, 0x0020, 0);
                if (h != c)
                    enable(&b, c, 0x0080, 0);
                EXPECT(board_write(&b, h, 3, 0xA5) == 0);
                EXPECT(board_write(&b, c, 3, 0x3C) == 0);
                memcpy(copy, six, sizeof six);
                if (h == c) {
                    EXPECT(board_linked(&b, h, c, 544, &used) == 22);
                    EXPECT(used == 77 && kept(copy, 9, 9));
                    continue;
                }
                EXPECT(board_linked(&b, h, c, 544, &used) == 0 && used == 16);
                EXPECT(kept(copy, h, c));
                EXPECT(get(&b, h, 3) == 0x3C && get(&b, c, 3) == 0xA5);
            }
        }
    }
    end("example l between every two modules");
}

/* 21, then 22, then what the module says. */
static void order(void)
{
    struct board b = fresh(4), none = {six, 0, 0}, five = {six, 5, 0};
    struct board two = {six, 2, 0}, one = {six, 1, 0};
    struct ref_spi copy[6];
    struct board_levels seen = {7, 7, 7, 7};
    unsigned v = 77, levels = 77;
    int kind = 77, shown = 77;
    double rate = 77, bit_time = 77;

    enable(&b, 0, 0x0020, 0);
    enable(&b, 1, 0x0000, 0);
    memcpy(copy, six, sizeof six);
    EXPECT(board_read(&none, 0, 0, &v) == 21);
    EXPECT(board_read(&five, 0, 4, &v) == 21); /* before 1 */
    EXPECT(board_read(&five, 5, 0, &v) == 21); /* before 22 */
    EXPECT(board_read(&two, 2, 4, &v) == 22);
    EXPECT(board_write(&two, 2, 4, 0) == 22);
    EXPECT(board_write(&two, 1, 4, 0) == 1);
    EXPECT(board_write(&b, 0xFFFFFFFFu, 0, 0) == 22);
    EXPECT(board_write(&b, 0x10000u, 0, 0) == 22); /* not module 0 */
    EXPECT(board_clock(&none, 0, 0, &kind, &rate, &bit_time) == 21);
    EXPECT(board_clock(&b, 4, 0, &kind, &rate, &bit_time) == 22);
    EXPECT(board_clock(&b, 3, 0, &kind, &rate, &bit_time) == 8);
    EXPECT(board_tick(&five, 2, 0, 0) == 21); /* before 2 and 7 */
    EXPECT(board_tick(&five, 1, 0, 0) == 21);
    EXPECT(board_tick(&b, 2, 0, 0) == 2 && board_tick(&b, 1, 0, 0) == 7);
    EXPECT(board_pins(&five, 0, 1, 0, 0) == 21);
    EXPECT(board_pins(&two, 2, 1, 0, 0) == 22);
    EXPECT(board_pins(&two, 0, 1, 0, 0) == 7);
    EXPECT(board_step(&five, 2, 1, 0, 0) == 21); /* before 2 */
    EXPECT(board_step(&two, 2, 1, 0, 0) == 22);
    EXPECT(board_step(&b, 2, 1, 0, 0) == 2);
    EXPECT(board_word(&five, 2, 0, 5, &levels, &shown) == 21); /* before 2 */
    EXPECT(board_word(&five, 9, 0, 5, &levels, &shown) == 21); /* and 22 */
    EXPECT(board_word(&two, 2, 0, 5, &levels, &shown) == 22);
    EXPECT(levels == 77 && shown == 77);
    EXPECT(board_word(&b, 2, 0, 5, &levels, &shown) == 2);
    EXPECT(board_power_up(&five, 0) == 21 && board_power_up(&b, 4) == 22);
    EXPECT(board_power_up_depth(&five, 0, 5) == 21); /* before 25 */
    EXPECT(board_power_up_depth(&five, 0, 4) == 21);
    EXPECT(board_power_up_depth(&none, 0, 8) == 21);
    EXPECT(board_power_up_depth(&five, 9, 5) == 21); /* before 22 and 25 */
    EXPECT(board_power_up_depth(&b, 4, 5) == 22);    /* before 25 */
    EXPECT(board_power_up_depth(&two, 2, 16) == 22);
    EXPECT(board_power_up_depth(&b, 0, 5) == 25);
    EXPECT(board_power_up_depth(&one, 0, 0x10008u) == 25);
    EXPECT(board_clear(&none, 0) == 21 && board_clear(&one, 1) == 22);
    EXPECT(board_see(&five, 9, &seen) == 21 && board_see(&b, 9, &seen) == 22);
    EXPECT(board_linked(&five, 0, 1, 544, &v) == 21);
    EXPECT(board_linked(&five, 1, 1, 545, &v) == 21); /* before 22 and 11 */
    EXPECT(board_linked(&b, 0, 4, 545, &v) == 22);    /* before 11 */
    EXPECT(board_linked(&b, 4, 1, 545, &v) == 22);
    EXPECT(board_linked(&b, 0, 0, 545, &v) == 22);
    EXPECT(board_linked(&b, 2, 2, 0, &v) == 22); /* before 2 */
    EXPECT(board_linked(&b, 1, 1, 0, &v) == 22); /* before 7 */
    EXPECT(board_linked(&b, 0, 1, 545, &v) == 11);
    EXPECT(board_linked(&b, 0, 2, 0, &v) == 2);
    EXPECT(board_linked(&b, 1, 0, 0, &v) == 7);
    EXPECT(board_linked(&one, 0, 0, 0, &v) == 22);
    EXPECT(v == 77 && kind == 77 && rate == 77 && bit_time == 77);
    EXPECT(seen.flag == 7 && seen.sck == 7 && seen.sdo == 7 && seen.ss == 7);
    EXPECT(kept(copy, 9, 9));
    end("21, then 22, then the module's own refusals");
}

/* Document 01's clock figure, beside modules of other kinds. */
static void clocks(void)
{
    struct board b = fresh(3);
    int kind = 77;
    double rate = 77, bit_time = 77;

    enable(&b, 0, 0x0000, 0);
    enable(&b, 1, 0x003A, 0);
    EXPECT(board_clock(&b, 1, 40000000, &kind, &rate, &bit_time) == 0);
    EXPECT(kind == 1 && rate == 5000000.0 && bit_time == 8.0 / 40000000.0);
    EXPECT(board_clock(&b, 0, 40000000, &kind, &rate, &bit_time) == 0);
    EXPECT(kind == 2 && rate == 40000000.0);
    EXPECT(board_clock(&b, 2, 40000000, &kind, &rate, &bit_time) == 0);
    EXPECT(kind == 0);
    end("clock reports of three modules");
}

/* What a board says that it owes, or E0000 plus the refusal number; and the
 * same by a walk. */
static unsigned owed(const struct board *b)
{
    unsigned total = 0xFFFFFFFFu, walk = 0;
    int r = board_owed(b, &total);
    size_t i;

    if (r != 0)
        return total == 0xFFFFFFFFu ? 0xE0000u + (unsigned)r : 0;
    for (i = 0; i < b->count; i++)
        walk += board_owes(&b->module[i]);
    EXPECT(total == walk);
    return total;
}

/* Edges of a client, SCK being at rest before. */
static void clock_client(struct board *b, uint32_t n, int edges)
{
    int i;

    for (i = 0; i < edges; i++)
        EXPECT(board_pins(b, n, ~i & 1, 0, 0) == 0);
}

/* Hosts: a word counts until its edge 2w, the one in the shift register too. */
static void owed_by_hosts(void)
{
    struct board b = fresh(4);
    unsigned i;

    EXPECT(owed(&b) == 0);
    enable(&b, 3, 0x0020, 1); /* example h */
    for (i = 1; i <= 9; i++) {
        EXPECT(board_write(&b, 3, 3, i) == 0);
        EXPECT(owed(&b) == i);
    }
    EXPECT(board_write(&b, 3, 3, 0) == 5 && owed(&b) == 9);
    for (i = 0; i < 15; i++)
        EXPECT(board_tick(&b, 3, 0, 0) == 0);
    EXPECT(owed(&b) == 9); /* example j */
    EXPECT(board_tick(&b, 3, 0, 0) == 0 && owed(&b) == 8);
    EXPECT(get(&b, 3, 3) == 0 && owed(&b) == 8);
    enable(&b, 0, 0x0420, 0); /* standard: one loaded, one waiting */
    EXPECT(board_write(&b, 0, 3, 1) == 0 && board_write(&b, 0, 3, 2) == 0);
    EXPECT(board_write(&b, 0, 3, 3) == 5 && owed(&b) == 10);
    EXPECT(board_write(&b, 2, 3, 1) == 2 && owed(&b) == 10);
    EXPECT(board_write(&b, 0, 0, 0x8000) == 0 && owed(&b) == 10);
    EXPECT(board_write(&b, 3, 0, 0) == 0 && owed(&b) == 2); /* disabled */
    EXPECT(board_write(&b, 3, 0, 0x8000) == 0 && owed(&b) == 2);
    EXPECT(board_write(&b, 3, 3, 5) == 0 && owed(&b) == 3);
    EXPECT(board_power_up(&b, 0) == 0 && owed(&b) == 1);
    EXPECT(board_clear(&b, 3) == 0 && owed(&b) == 1);
    EXPECT(board_power_up(&b, 1) == 0 && owed(&b) == 1);
    EXPECT(board_tick(&b, 4, 0, 0) == 22 && owed(&b) == 1);
    end("words owed by hosts");
}

/* Clients: a begun word under SSEN counts once, an abort takes nothing away,
 * and a filler is no word. */
static void owed_by_clients(void)
{
    struct board b = fresh(2);

    enable(&b, 0, 0x0080, 1);
    EXPECT(board_write(&b, 0, 3, 0xA5) == 0 && board_write(&b, 0, 3, 1) == 0);
    EXPECT(owed(&b) == 2);
    clock_client(&b, 0, 7);
    EXPECT(owed(&b) == 2);
    EXPECT(board_pins(&b, 0, 1, 0, 1) == 0 && owed(&b) == 2); /* abort */
    EXPECT(board_pins(&b, 0, 0, 0, 1) == 0);
    clock_client(&b, 0, 15);
    EXPECT(owed(&b) == 2);
    EXPECT(board_pins(&b, 0, 0, 0, 0) == 0 && owed(&b) == 1);
    clock_client(&b, 0, 16);
    EXPECT(owed(&b) == 0);
    clock_client(&b, 0, 3); /* a filler */
    EXPECT(six[0].filler == 1 && owed(&b) == 0);
    EXPECT(board_write(&b, 0, 3, 0x3C) == 0 && owed(&b) == 1);
    EXPECT(board_pins(&b, 0, 1, 0, 1) == 0 && owed(&b) == 1); /* aborted */
    EXPECT(board_pins(&b, 0, 0, 0, 1) == 0);
    clock_client(&b, 0, 16);
    EXPECT(owed(&b) == 0);
    enable(&b, 1, 0x0000, 0); /* a client that loads its words */
    clock_client(&b, 1, 2);
    EXPECT(six[1].filler == 1 && owed(&b) == 0);
    EXPECT(board_write(&b, 1, 3, 0x3C) == 0 && owed(&b) == 1);
    clock_client(&b, 1, 14); /* the filler ends, the word loads */
    EXPECT(six[1].loaded == 1 && owed(&b) == 1);
    EXPECT(board_write(&b, 1, 3, 0x5A) == 0 && owed(&b) == 2);
    clock_client(&b, 1, 16);
    EXPECT(owed(&b) == 1);
    end("words owed by clients");
}

/* A word at a time, of the module that is named alone: whole or what is left of
 * it, and then it is owed no longer. */
static void words(void)
{
    struct board b = fresh(4);
    struct ref_spi copy[6];
    unsigned out = 77;
    int n = 77, i;

    enable(&b, 1, 0x0020, 1); /* a host of 8 bits, */
    enable(&b, 3, 0x0480, 0); /* and a client of 16 under select control */
    EXPECT(board_word(&b, 1, 0, 0x3C, &out, &n) == REF_NO_EDGE);
    EXPECT(out == 0 && n == 0 && owed(&b) == 0);
    EXPECT(board_write(&b, 1, 3, 0xA5) == 0 && board_write(&b, 1, 3, 0x40) == 0);
    EXPECT(board_write(&b, 3, 3, 0x1234) == 0 && owed(&b) == 3);
    memcpy(copy, six, sizeof six);
    for (i = 0; i < 3; i++)
        EXPECT(board_tick(&b, 1, 1, 0) == 0);
    EXPECT(board_word(&b, 1, 0, 0xFF95, &out, &n) == 0);
    EXPECT(out == 0x25 && n == 7 && owed(&b) == 2 && kept(copy, 1, 1));
    EXPECT(get(&b, 1, 3) == 0x95);
    memcpy(copy, six, sizeof six);
    EXPECT(board_word(&b, 3, 1, 0xABCD, &out, &n) == 0); /* not selected */
    EXPECT(out == 0 && n == 0 && owed(&b) == 2);
    EXPECT(board_word(&b, 3, 0, 0xABCD, &out, &n) == 0);
    EXPECT(out == 0x1234 && n == 16 && owed(&b) == 1);
    EXPECT(get(&b, 3, 3) == 0xABCD);
    EXPECT(board_word(&b, 3, 0, 0x5555, &out, &n) == 0); /* a filler */
    EXPECT(out == 0 && n == 16 && owed(&b) == 1 && kept(copy, 3, 3));
    EXPECT(board_word(&b, 1, 1, 0x81, &out, &n) == 0);
    EXPECT(out == 0x40 && n == 8 && owed(&b) == 0 && get(&b, 1, 3) == 0x81);
    end("words at a time");
}

/* Linked runs take away at both ends, and fillers nothing. */
static void owed_on_a_wire(void)
{
    struct board b = fresh(3);
    unsigned used;

    enable(&b, 2, 0x0020, 1);
    enable(&b, 0, 0x0080, 1);
    EXPECT(board_write(&b, 2, 3, 1) == 0 && board_write(&b, 2, 3, 2) == 0);
    EXPECT(board_write(&b, 2, 3, 3) == 0 && board_write(&b, 0, 3, 4) == 0);
    EXPECT(owed(&b) == 4);
    EXPECT(board_linked(&b, 2, 0, 15, &used) == 0 && owed(&b) == 4);
    EXPECT(board_linked(&b, 2, 0, 1, &used) == 0 && owed(&b) == 2);
    EXPECT(board_linked(&b, 2, 0, 545, &used) == 11 && owed(&b) == 2);
    EXPECT(board_linked(&b, 2, 0, 544, &used) == 0 && used == 32);
    EXPECT(owed(&b) == 0);
    end("words owed on a wire");
}

/* The question asks the list's length alone; a total that is not the list's own
 * moves with the modules and stays within its range. */
static void totals(void)
{
    struct board b = fresh(4), none = {six, 0, 7}, five = {six, 5, 7};
    int i;

    EXPECT(owed(&none) == 0xE0015 && owed(&five) == 0xE0015);
    enable(&b, 1, 0x0020, 1);
    for (i = 0; i < 9; i++)
        EXPECT(board_write(&b, 1, 3, 1) == 0);
    b.owed = 4;
    EXPECT(board_write(&b, 1, 0, 0) == 0 && b.owed == 0); /* not below 0 */
    EXPECT(board_write(&b, 1, 0, 0x8000) == 0 && b.owed == 0);
    b.owed = 65534;
    EXPECT(board_write(&b, 1, 3, 1) == 0 && b.owed == 65535);
    EXPECT(board_write(&b, 1, 3, 1) == 0 && b.owed == 65535); /* nor above */
    EXPECT(board_write(&b, 1, 0, 0) == 0 && b.owed == 65533);
    end("totals made otherwise");
}

/* Request Twelve: a board of several depths. Each module has its own; a refused
 * power-up leaves module and total, one that is done takes what was owed. */
static void depths(void)
{
    static const unsigned depth[4] = {16, 4, 8, 16};
    struct board b = fresh(4);
    struct ref_spi copy[6];
    unsigned n, i, used = 77;

    for (n = 0; n < 4; n++) {
        EXPECT(board_power_up_depth(&b, n, depth[n]) == 0);
        enable(&b, n, n == 3 ? 0x0480 : 0x0420, 1);
        for (i = 0; i < depth[n] + (n < 3); i++)
            EXPECT(board_write(&b, n, 3, 0x1000 * n + i) == 0);
        EXPECT(board_write(&b, n, 3, 0) == 5);
    }
    EXPECT(owed(&b) == 17 + 5 + 9 + 16);
    EXPECT(get(&b, 0, 0) == 0x8722 && get(&b, 1, 0) == 0x8422);
    EXPECT(get(&b, 2, 0) == 0x8722 && get(&b, 3, 0) == 0x80A2);
    memcpy(copy, six, sizeof six);
    EXPECT(board_power_up_depth(&b, 0, 12) == 25 && owed(&b) == 47);
    EXPECT(board_power_up_depth(&b, 2, 0) == 25 && owed(&b) == 47);
    EXPECT(kept(copy, 9, 9));
    EXPECT(board_linked(&b, 1, 3, 544, &used) == 0 && used == 5 * 32);
    EXPECT(owed(&b) == 47 - 5 - 5 && kept(copy, 1, 3));
    EXPECT(six[1].mark && !six[3].mark && six[3].rx.n == 5);
    EXPECT(board_power_up_depth(&b, 3, 4) == 0 && owed(&b) == 26);
    enable(&b, 3, 0x0480, 1);
    EXPECT(board_linked(&b, 0, 3, 545, &used) == 11 && owed(&b) == 26);
    EXPECT(board_linked(&b, 0, 3, 544, &used) == 0 && used == 544);
    EXPECT(owed(&b) == 9 && six[3].mark && six[3].rx.n == 4);
    EXPECT(board_power_up_depth(&b, 2, 16) == 0 && owed(&b) == 0);
    EXPECT(board_power_up(&b, 0) == 0 && six[0].depth == 8);
    EXPECT(six[1].depth == 4 && six[2].depth == 16 && six[3].depth == 4);
    end("modules of several depths");
}

/* ---- random calls -------------------------------------------------------- */

static unsigned long seed, calls, made;

static void fail(const char *what)
{
    printf("FAIL seed %lu call %lu: %s\n", seed, made, what);
    exit(1);
}

static uint64_t rs;

static unsigned rnd(unsigned n)
{
    rs ^= rs << 13;
    rs ^= rs >> 7;
    rs ^= rs << 17;
    return (unsigned)((rs >> 11) % n);
}

static int one_in(unsigned n) { return rnd(n) == 0; }

enum kind {
    POWER_UP, READ, WRITE, TICK, PINS, STEP, CLEAR, CLOCK, SEE, LINKED, DEEP,
    WORD, KINDS
};
static const char *const kind_name[KINDS] = {
    "power-up", "read",  "write",  "tick",   "pins",                  "step",
    "clear",    "clock", "levels", "linked", "power-up with a depth", "word"};

struct call {
    enum kind kind;
    uint32_t n, other; /* the other one: a linked run's client */
    unsigned x, y, z;
};

/* What a call answers and tells; all of it is set before the call. Of a word at
 * a time the value is the levels, and the kind how many they are. */
struct told {
    int answer;
    unsigned value;
    int kind;
    double rate, bit_time;
    struct board_levels seen;
};

static void ask_board(struct board *b, const struct call *c, struct told *t)
{
    switch (c->kind) {
    case POWER_UP: t->answer = board_power_up(b, c->n); break;
    case READ: t->answer = board_read(b, c->n, c->x, &t->value); break;
    case WRITE: t->answer = board_write(b, c->n, c->x, c->y); break;
    case TICK: t->answer = board_tick(b, c->n, (int)c->x, (int)c->y); break;
    case PINS:
        t->answer = board_pins(b, c->n, (int)c->x, (int)c->y, (int)c->z);
        break;
    case STEP:
        t->answer = board_step(b, c->n, (int)c->x, (int)c->y, (int)c->z);
        break;
    case CLEAR: t->answer = board_clear(b, c->n); break;
    case CLOCK:
        t->answer = board_clock(b, c->n, c->x, &t->kind, &t->rate,
                                &t->bit_time);
        break;
    case SEE: t->answer = board_see(b, c->n, &t->seen); break;
    case DEEP: t->answer = board_power_up_depth(b, c->n, c->x); break;
    case WORD:
        t->answer = board_word(b, c->n, (int)c->x, c->y, &t->value, &t->kind);
        break;
    default:
        t->answer = board_linked(b, c->n, c->other, c->x, &t->value);
        break;
    }
}

static void ask_alone(struct ref_spi *m, struct ref_spi *other,
                      const struct call *c, struct told *t)
{
    t->answer = 0;
    switch (c->kind) {
    case POWER_UP: ref_power_up(m); break;
    case READ: t->answer = ref_read(m, c->x, &t->value); break;
    case WRITE: t->answer = ref_write(m, c->x, c->y); break;
    case TICK: t->answer = ref_tick(m, (int)c->x, (int)c->y); break;
    case PINS:
        t->answer = ref_pins(m, (int)c->x, (int)c->y, (int)c->z);
        break;
    case STEP:
        t->answer = ref_step(m, (int)c->x, (int)c->y, (int)c->z);
        break;
    case CLEAR: ref_clear(m); break;
    case CLOCK:
        t->answer = ref_clock(m, c->x, &t->kind, &t->rate, &t->bit_time);
        break;
    case SEE:
        t->seen.flag = ref_flag(m);
        t->seen.sck = ref_sck(m);
        t->seen.sdo = ref_sdo(m);
        t->seen.ss = ref_ss(m);
        break;
    case DEEP: t->answer = ref_power_up_depth(m, c->x); break;
    case WORD:
        t->answer = ref_word(m, (int)c->x, c->y, &t->value, &t->kind);
        break;
    default: t->answer = ref_linked(m, other, c->x, &t->value); break;
    }
}

/* The list with a module before it and one behind, and the plain models. */
static struct ref_spi list[8], alone[6];
static struct ref_spi guard;
static size_t count;

/* The board's total, and whether it is the list's own; and the ledger: what
 * each module owes. */
static unsigned total;
static int own;
static long ledger[6];

/* How often each kind of call was done, by the list's length and the module's
 * number; refused with 21 and 22, by kind; linked runs, by their two; 21 where
 * 22 stands behind it; 22 where 1, 8, 11, 25, 2 and 7 do; 21 where they do.
 * Power-ups with each depth that there is, and refused with 25, and linked runs
 * between two depths. */
static unsigned long done[KINDS][5][4], refused[2][KINDS], pairs[4][4];
static unsigned long both_wrong, twice, own_refusals;
static unsigned long deep_done[3], deep_refused, deep_linked;
enum behind { ONE, TWO, SEVEN, EIGHT, ELEVEN, DEPTH, BEHINDS };
static const char *const behind_name[BEHINDS] = {"1", "2",  "7",
                                                 "8", "11", "25"};
static unsigned long behind[2][BEHINDS];

/* The refusal of the module's own that stands behind 21 or 22, as far as the
 * module is there at all. */
static void meet_behind(const struct call *c, int which)
{
    const struct ref_spi *m = c->n < count ? &alone[c->n] : 0;
    const struct ref_spi *o = c->other < count ? &alone[c->other] : 0;
    int linked = c->kind == LINKED;

    if ((c->kind == READ || c->kind == WRITE) && c->x > 3)
        behind[which][ONE]++;
    if (c->kind == CLOCK && c->x == 0)
        behind[which][EIGHT]++;
    if (linked && c->x > 544)
        behind[which][ELEVEN]++;
    if (c->kind == DEEP && c->x != 4 && c->x != 8 && c->x != 16)
        behind[which][DEPTH]++;
    if ((linked || c->kind == TICK || c->kind == WORD) &&
        ((m && !m->spien) || (linked && o && !o->spien)))
        behind[which][TWO]++;
    else if ((linked || c->kind == TICK) && m && !(m->msten && !m->dissck))
        behind[which][SEVEN]++;
}

/* Totals that went up, by a write alone; that went down, by kind, of these by
 * several words; by disabling; that stayed at an abort of a word, a filler and
 * a finished filler; that met an end of their range. */
static unsigned long up, down[KINDS], down_more, down_disabled, kept_abort;
static unsigned long kept_filler, at_none, at_most;
static unsigned most;

/* Words at a time that came within a word. */
static unsigned long word_begun;

static int is_ssen_client(const struct ref_spi *m)
{
    return !m->msten && m->ssen && !m->frmen;
}

/* A single edge or none of a plain model: what its ledger says of it. */
static void enter_edge(const struct ref_spi *was, const struct ref_spi *is,
                       long *owes)
{
    int width = was->mode16 ? 16 : 8;
    int aborted = is_ssen_client(was) && !was->ss && is->ss;

    if (aborted) {
        kept_abort += was->begun && !was->filler;
        return;
    }
    if (!was->begun || is->begun || was->edges != 2 * width - 1)
        return;
    if (was->filler)
        kept_filler++;
    else
        --*owes;
}

static int level(const struct ref_spi *m)
{
    return ref_sdo(m) == 1;
}

static void enter_pins(uint32_t n, int sck, int sdi, int ss)
{
    struct ref_spi was = alone[n];

    if (ref_pins(&alone[n], sck, sdi, ss) != 0)
        fail("pins in a linked run");
    enter_edge(&was, &alone[n], &ledger[n]);
}

/* A linked run that is not refused, by single edges. */
static void enter_linked(const struct call *c)
{
    struct ref_spi *h = &alone[c->n], *o = &alone[c->other];
    unsigned left = c->x;

    enter_pins(c->other, ref_sck(h), level(h), 0);
    for (; left > 0; left--) {
        struct ref_spi was = *h;

        if (ref_tick(h, level(o), 0) != 0)
            break;
        enter_edge(&was, h, &ledger[c->n]);
        enter_pins(c->other, ref_sck(h), level(h), 0);
    }
}

/* A word at a time of a plain model that has one to make, by single edges: the
 * bits of the caller's word that are left, highest first, until the word is
 * through. */
static void enter_word(const struct call *c, int left)
{
    struct ref_spi *m = &alone[c->n], was;

    if (!m->begun && m->sck != m->ckp)
        (void)ref_step(m, !m->sck, 0, (int)c->x);
    do {
        was = *m;
        if (ref_step(m, !m->sck, left > 0 && c->y >> (left - 1) & 1,
                     (int)c->x) != 0)
            fail("a step of a word");
        enter_edge(&was, m, &ledger[c->n]);
        left -= left > 0 && m->in_count != was.in_count;
    } while (m->begun);
}

/* Does a word at a time make one step, or none? With frames, not selected, and
 * as a host with nothing to send. */
static int one_step(const struct ref_spi *m, unsigned ss)
{
    return m->frmen || (is_ssen_client(m) && ss) || (m->msten && !m->loaded);
}

/* Enters a call into the ledger; `was` are the modules before it, and the plain
 * models after it are `alone`; `shown` is what a word at a time tells of levels.
 */
static void enter(const struct call *c, int answer, int shown,
                  const struct ref_spi *was)
{
    struct ref_spi h, o;

    if (answer != 0)
        return;
    switch (c->kind) {
    case POWER_UP:
    case DEEP: ledger[c->n] = 0; break;
    case WRITE:
        if (c->x == 3)
            ledger[c->n]++;
        if (c->x == 0 && !(c->y & 0x8000)) {
            down_disabled += was[c->n].spien && ledger[c->n] > 0;
            ledger[c->n] = 0;
        }
        break;
    case TICK:
    case PINS:
    case STEP: enter_edge(&was[c->n], &alone[c->n], &ledger[c->n]); break;
    case WORD:
        if (one_step(&was[c->n], c->x)) {
            enter_edge(&was[c->n], &alone[c->n], &ledger[c->n]);
            break;
        }
        h = alone[c->n];
        alone[c->n] = was[c->n];
        enter_word(c, shown);
        if (memcmp(&h, &alone[c->n], sizeof h) != 0)
            fail("a word at a time is not its edges");
        word_begun += was[c->n].begun;
        break;
    case LINKED:
        h = alone[c->n];
        o = alone[c->other];
        alone[c->n] = was[c->n];
        alone[c->other] = was[c->other];
        enter_linked(c);
        if (memcmp(&h, &alone[c->n], sizeof h) != 0 ||
            memcmp(&o, &alone[c->other], sizeof o) != 0)
            fail("a linked run is not its edges");
        break;
    default: break;
    }
}

/* Holds the total after a call to the ledger. */
static void hold_total(const struct call *c, const struct board *b,
                       const long *ledger_was)
{
    long sum = 0, change = 0, want;
    size_t i;

    for (i = 0; i < count; i++) {
        sum += ledger[i];
        change += ledger[i] - ledger_was[i];
    }
    want = (long)total + change;
    at_none += want < 0;
    at_most += want > 65535;
    want = want < 0 ? 0 : want > 65535 ? 65535 : want;
    if ((long)b->owed != want)
        fail("the total is not what it was and what the call changed");
    if (own && want != sum)
        fail("the total is not the list's");
    up += change > 0;
    if (change > 1 || (change > 0 && c->kind != WRITE))
        fail("a total that rises");
    if (change < 0)
        down[c->kind]++;
    down_more += change < -1;
    if (own && b->owed > most)
        most = b->owed;
    total = b->owed;
}

static void hold_question(const struct board *b)
{
    unsigned told = 77777;
    int r = board_owed(b, &told);

    if (r != (count < 1 || count > 4 ? 21 : 0) ||
        told != (r == 0 ? total : 77777))
        fail("the answer of what is owed");
}

static void meet(const struct call *c, int answer)
{
    int there = c->n < count && (c->kind != LINKED || c->other < count);
    int same = c->kind == LINKED && c->n == c->other;

    if (answer == 21 || answer == 22) {
        refused[answer - 21][c->kind]++;
        both_wrong += answer == 21 && !(there && !same);
        twice += answer == 22 && there && same;
        meet_behind(c, answer - 21);
        return;
    }
    own_refusals += answer > 0;
    done[c->kind][count][c->n]++;
    if (c->kind == LINKED && answer == 0) {
        pairs[c->n][c->other]++;
        deep_linked += alone[c->n].depth != alone[c->other].depth;
    }
    if (c->kind == DEEP && answer == 0)
        deep_done[c->x == 4 ? 0 : c->x == 8 ? 1 : 2]++;
    deep_refused += answer == 25;
}

static void make(const struct call *c)
{
    struct board b = {list + 1, count, total};
    struct ref_spi was[6];
    long ledger_was[6];
    struct told t, want;
    int there = c->n < count && (c->kind != LINKED || c->other < count);

    made++;
    memcpy(was, alone, sizeof was);
    memcpy(ledger_was, ledger, sizeof ledger_was);
    memset(&t, 0, sizeof t);
    t.value = 77777;
    t.kind = 77;
    t.rate = t.bit_time = 77;
    memcpy(&want, &t, sizeof t);
    ask_board(&b, c, &t);
    if (count < 1 || count > 4)
        want.answer = 21;
    else if (!there || (c->kind == LINKED && c->n == c->other))
        want.answer = 22;
    else
        ask_alone(&alone[c->n], &alone[c->kind == LINKED ? c->other : c->n], c,
                  &want);
    if (memcmp(&t, &want, sizeof t) != 0)
        fail("another answer than that of the module alone");
    if (memcmp(list + 1, alone, count * sizeof alone[0]) != 0)
        fail("a module of the list is another");
    if (memcmp(&list[0], &guard, sizeof guard) != 0 ||
        memcmp(&list[1 + count], &guard, sizeof guard) != 0)
        fail("a module beside the list changed");
    enter(c, t.answer, t.kind, was);
    hold_total(c, &b, ledger_was);
    hold_question(&b);
    meet(c, t.answer);
}

/* A module's number: most often one that is there. */
static uint32_t some_number(void)
{
    static const uint32_t far[] = {4,       5,       6,           255, 256,
                                   0x10000, 0x10001, 0x80000000u, 0xFFFFFFFFu};

    if (one_in(12))
        return far[rnd(9)];
    return one_in(12) ? (uint32_t)count : rnd(count > 0 ? (unsigned)count : 2);
}

static void call(enum kind kind, uint32_t n, unsigned x, unsigned y, unsigned z)
{
    struct call c = {POWER_UP, 0, 0, 0, 0, 0};

    c.kind = kind;
    c.n = n;
    c.x = x;
    c.y = y;
    c.z = z;
    make(&c);
}

/* A depth: most often one that there is. */
static unsigned some_depth(void)
{
    static const unsigned right[] = {4, 8, 16};
    static const unsigned far[] = {0x10004, 0x10008, 0x80000010u, 0xFFFFFFFFu};

    if (one_in(4))
        return one_in(4) ? far[rnd(4)] : rnd(20);
    return right[rnd(3)];
}

static void link_two(void)
{
    struct call c = {LINKED, 0, 0, 0, 0, 0};
    uint32_t h = some_number(), o = some_number();
    unsigned modes = rnd(0x10000) & 0x0440;

    if (!one_in(4)) {
        call(WRITE, h, 0, 0, 0);
        call(WRITE, o, 0, 0, 0);
        call(WRITE, h, 1, 0x0020 | modes, 0);
        call(WRITE, o, 1, 0x0080 | (one_in(6) ? 0 : modes), 0);
        call(WRITE, h, 2, rnd(2), 0);
        call(WRITE, o, 2, rnd(2), 0);
        call(WRITE, h, 0, 0x8000 | rnd(0x20), 0);
        call(WRITE, o, 0, 0x8000 | rnd(0x20), 0);
    }
    call(WRITE, h, 3, rnd(0x10000), 0);
    call(WRITE, o, 3, rnd(0x10000), 0);
    c.n = h;
    c.other = o;
    c.x = one_in(4) ? 541 + rnd(8) : rnd(545);
    make(&c);
}

static void any_call(void)
{
    static const unsigned con1[] = {0x0020, 0x0420, 0x0120, 0x0080, 0x0480,
                                    0x0180, 0x0000, 0x1020, 0x0060, 0x003F};
    uint32_t n = some_number();
    int i;

    switch (rnd(15)) {
    case 0: call(WRITE, n, rnd(6), rnd(0x10000), 0); break;
    case 1: call(READ, n, one_in(2) ? 3 : rnd(6), 0, 0); break;
    case 2:
        if (one_in(6))
            call(POWER_UP, n, 0, 0, 0);
        else if (one_in(3))
            call(DEEP, n, some_depth(), 0, 0);
        break;
    case 3: call(CLEAR, n, 0, 0, 0); break;
    case 4: call(CLOCK, n, one_in(4) ? 0 : rnd(0x7FFFFFFF), 0, 0); break;
    case 5: call(SEE, n, 0, 0, 0); break;
    case 6: link_two(); break;
    case 7:
        if (!one_in(3))
            break;
        call(WRITE, n, 0, rnd(0x8000), 0);
        call(WRITE, n, 1, con1[rnd(10)], 0);
        call(WRITE, n, 2, rnd(0x10000) & (one_in(4) ? 0xE003 : 1), 0);
        call(WRITE, n, 0, 0x8000 | rnd(0x40), 0);
        break;
    case 8:
        for (i = one_in(8) ? 17 : 3; i > 0; i--) /* now and then, to fill */
            call(WRITE, n, 3, rnd(0x10000), 0);
        break;
    case 9:
        for (i = 0; i < 18; i++)
            call(STEP, n, (unsigned)i & 1, rnd(2), one_in(40));
        break;
    case 10:
        for (i = 0; i < 6; i++) {
            call(WORD, n, one_in(6), rnd(0x10000), 0);
            if (one_in(2))
                call(WRITE, n, 3, rnd(0x10000), 0);
            if (one_in(2))
                call(STEP, n, rnd(2), rnd(2), one_in(40));
        }
        break;
    default:
        for (i = 0; i < 18; i++) {
            if (n < 6 && alone[n].msten && !alone[n].dissck)
                call(TICK, n, rnd(2), rnd(2), 0);
            else
                call(PINS, n, (unsigned)i & 1, rnd(2), one_in(40));
        }
        call(one_in(2) ? TICK : PINS, n, rnd(2), rnd(2), rnd(2));
        break;
    }
}

/* A new list, of none to six modules and mostly of one to four, and calls. */
static void run_list(void)
{
    int i, n = 50 + (int)rnd(400);

    count = one_in(5) ? rnd(7) : 1 + rnd(4);
    own = !one_in(4);
    total = 0;
    if (!own)
        total = one_in(2) ? rnd(12) : one_in(2) ? 65535 - rnd(12) : rnd(65536);
    memset(&guard, (int)rnd(256), sizeof guard);
    for (i = 0; i < 8; i++)
        list[i] = guard;
    for (i = 0; i < 6; i++) {
        if (one_in(2))
            ref_power_up(&alone[i]);
        else if (ref_power_up_depth(&alone[i], 4u << rnd(3)) != 0)
            fail("a depth that there is");
        ledger[i] = 0;
        if (i < (int)count) {
            /* a list that is too long has modules at work too */
            if (one_in(2)) {
                (void)ref_write(&alone[i], 1, one_in(2) ? 0x20 : 0x80);
                (void)ref_write(&alone[i], 0, 0x8000);
                (void)ref_write(&alone[i], 3, rnd(0x100));
                ledger[i] = 1;
                total += own ? 1 : 0;
            }
            list[1 + i] = alone[i];
        }
    }
    while (n-- > 0 && made < calls)
        any_call();
}

static int missing;

static void print_met(const char *what, unsigned long n)
{
    printf(" %s: %lu", what, n);
    missing += n == 0;
}

static void print_totals(void)
{
    static const enum kind falls[] = {POWER_UP, DEEP, WRITE,  TICK,
                                      PINS,     STEP, LINKED, WORD};
    size_t k;

    printf("totals:");
    print_met("up", up);
    for (k = 0; k < sizeof falls / sizeof falls[0]; k++) {
        printf(" down by");
        print_met(kind_name[falls[k]], down[falls[k]]);
    }
    print_met("by several", down_more);
    print_met("by disabling", down_disabled);
    print_met("kept at an abort", kept_abort);
    print_met("at a filler's end", kept_filler);
    print_met("stopped at 0", at_none);
    print_met("at 65,535", at_most);
    printf(" the most: %u\n", most);
}

static void print_all(void)
{
    static const char *const name[2] = {"21", "22"};
    size_t length;
    unsigned n, o;
    int k, w;

    for (k = 0; k < KINDS; k++) {
        printf("%s:", kind_name[k]);
        for (length = k == LINKED ? 2 : 1; length <= 4; length++) {
            for (n = 0; n < length; n++) {
                printf(" %lu", done[k][length][n]);
                missing += done[k][length][n] == 0;
            }
            printf(length < 4 ? "," : "\n");
        }
    }
    for (w = 0; w < 2; w++) {
        printf("%s:", name[w]);
        for (k = 0; k < KINDS; k++)
            print_met(kind_name[k], refused[w][k]);
        printf("\n%s stands before:", name[w]);
        for (k = 0; k < BEHINDS; k++)
            print_met(behind_name[k], behind[w][k]);
        printf("\n");
    }
    printf("21 stands before 22: %lu, the same one twice: %lu, refused by the "
           "module: %lu\nlinked runs of four modules and fewer:",
           both_wrong, twice, own_refusals);
    missing += (both_wrong == 0) + (twice == 0) + (own_refusals == 0);
    for (n = 0; n < 4; n++) {
        for (o = 0; o < 4; o++) {
            if (n == o)
                continue;
            printf(" %lu", pairs[n][o]);
            missing += pairs[n][o] == 0;
        }
    }
    printf("\npowered up with");
    print_met("4", deep_done[0]);
    print_met("8", deep_done[1]);
    print_met("16", deep_done[2]);
    print_met("another, 25", deep_refused);
    printf(", linked runs of");
    print_met("two depths", deep_linked);
    printf(", words at a time");
    print_met("within a word", word_begun);
    printf("\n");
    print_totals();
}

int main(int argc, char **argv)
{
    seed = argc > 1 ? strtoul(argv[1], 0, 10) : 1;
    calls = argc > 2 ? strtoul(argv[2], 0, 10) : 1000000;
    each_by_itself();
    every_two();
    order();
    clocks();
    owed_by_hosts();
    owed_by_clients();
    words();
    owed_on_a_wire();
    totals();
    depths();
    if (failures > 0)
        return 1;
    rs = seed * UINT64_C(0x9E3779B97F4A7C15) + 1;
    while (made < calls)
        run_list();
    print_all();
    printf("%lu calls on boards%s\n", made,
           missing ? ", but not everything was met" : "");
    return missing != 0;
}
