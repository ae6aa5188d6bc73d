/* A short session with every call of the library, for a target that has no C
 * library here: it needs nothing but libthurafeqa.a, and answers with the
 * number of the first check that fails, 0 if none does. tests/targets builds it
 * with the compiler and the linker of the Rattle kit alone. */
#include "thurafeqa.h"

/* ---- what every C library has */

void *memcpy(void *to, const void *from, size_t n)
{
    for (size_t i = 0; i < n; i++)
        ((uint8_t *)to)[i] = ((const uint8_t *)from)[i];
    return to;
}

void *memmove(void *to, const void *from, size_t n)
{
    if ((uintptr_t)to <= (uintptr_t)from)
        return memcpy(to, from, n);
    while (n-- > 0)
        ((uint8_t *)to)[n] = ((const uint8_t *)from)[n];
    return to;
}

void *memset(void *to, int byte, size_t n)
{
    for (size_t i = 0; i < n; i++)
        ((uint8_t *)to)[i] = (uint8_t)byte;
    return to;
}

int memcmp(const void *one, const void *two, size_t n)
{
    const uint8_t *a = one, *b = two;

    for (size_t i = 0; i < n; i++)
        if (a[i] != b[i])
            return a[i] < b[i] ? -1 : 1;
    return 0;
}

/* ---- the session */

static int check, failed;

static void is(uint64_t seen, uint64_t wanted)
{
    check++;
    if (seen != wanted && failed == 0)
        failed = check;
}

static void enable(thurafeqa *m, uint32_t con1)
{
    thurafeqa_power_up(m);
    is(thurafeqa_write(m, THURAFEQA_CON1, con1), 0);
    is(thurafeqa_write(m, THURAFEQA_STAT, THURAFEQA_STAT_SPIEN), 0);
}

/* A host whose SDO is wired to its own SDI sends A5 and reads it. */
static void loop(thurafeqa *m)
{
    uint32_t edges = 0;

    enable(m, THURAFEQA_CON1_MSTEN);
    is(thurafeqa_write(m, THURAFEQA_BUF, 0xA5), 0);
    while (thurafeqa_tick(m, thurafeqa_levels(m) & THURAFEQA_LEVELS_SDO, 0) == 1)
        edges++;
    is(edges, 16);
    is(thurafeqa_levels(m) & THURAFEQA_LEVELS_INTERRUPT, THURAFEQA_LEVELS_INTERRUPT);
    thurafeqa_clear(m);
    is(thurafeqa_levels(m) & THURAFEQA_LEVELS_INTERRUPT, 0);
    is(thurafeqa_read(m, THURAFEQA_STAT), 0x8001);
    is(thurafeqa_read(m, THURAFEQA_BUF), 0xA5);
    is(thurafeqa_read(m, THURAFEQA_BUF), THURAFEQA_RECEIVE_EMPTY << 16);
    is(thurafeqa_pins(m, 1, 0, 0), THURAFEQA_WRONG_CLOCK << 16);
}

static uint32_t joined(void *context, uint32_t levels)
{
    ++*(uint32_t *)context;
    return levels & THURAFEQA_LEVELS_SDO;
}

/* The same in one run, which asks before the first edge and after each. */
static void run(thurafeqa *m)
{
    uint32_t asked = 0;

    thurafeqa_power_up(m);
    is(thurafeqa_run(m, joined, &asked, 544), THURAFEQA_DISABLED << 16);
    enable(m, THURAFEQA_CON1_MSTEN);
    is(thurafeqa_write(m, THURAFEQA_BUF, 0xA5), 0);
    is(thurafeqa_run(m, joined, &asked, 544), 16);
    is(asked, 17);
    is(thurafeqa_read(m, THURAFEQA_BUF), 0xA5);
    is((uint8_t)thurafeqa_refusal_text(THURAFEQA_RECEIVE_EMPTY)[0], 'n');
}

/* A host with buffers of four words takes one and four more. Its SISEL is 7:
 * the write that fills raises the flag. */
static void deep(thurafeqa *m, thurafeqa *other)
{
    uint32_t words = 0;

    thurafeqa_power_up(m);
    is(thurafeqa_power_up_with(m, 4), 0);
    is(thurafeqa_power_up_with(m, 12), THURAFEQA_NO_SUCH_DEPTH << 16);
    is(thurafeqa_power_up_with(m, 0x10008), 25u << 16);
    is(thurafeqa_write(m, THURAFEQA_CON1, THURAFEQA_CON1_MSTEN), 0);
    is(thurafeqa_write(m, THURAFEQA_CON2, THURAFEQA_CON2_SPIBEN), 0);
    is(thurafeqa_write(m, THURAFEQA_STAT, 0x801C), 0);
    while (words < 9 && thurafeqa_write(m, THURAFEQA_BUF, words) == 0)
        words++;
    is(words, 5);
    is(thurafeqa_power_up_with(m, 5), 25u << 16);
    is(thurafeqa_read(m, THURAFEQA_STAT), 0x843E);
    is(thurafeqa_levels(m) & THURAFEQA_LEVELS_INTERRUPT, THURAFEQA_LEVELS_INTERRUPT);
    is(thurafeqa_power_up_with(m, 8), 0);
    thurafeqa_power_up(other);
    is((uint32_t)memcmp(m, other, sizeof *m), 0);
    is(thurafeqa_power_up_with(m, 16), 0);
    is((uint32_t)memcmp(m, other, sizeof *m) != 0, 1);
}

static void linked(thurafeqa *host, thurafeqa *client)
{
    enable(host, THURAFEQA_CON1_MSTEN);
    enable(client, 0);
    is(thurafeqa_write(host, THURAFEQA_BUF, 0xA5), 0);
    is(thurafeqa_write(client, THURAFEQA_BUF, 0x3C), 0);
    is(thurafeqa_linked(host, client, 545), THURAFEQA_TOO_MANY_EDGES << 16);
    is(thurafeqa_linked(host, client, 544), 16);
    is(thurafeqa_read(host, THURAFEQA_BUF), 0x3C);
    is(thurafeqa_read(client, THURAFEQA_BUF), 0xA5);
    is(thurafeqa_pins(client, 1, 1, 0), 0);
}

/* 40 MHz divided by 8: a rate of 5 MHz and a bit of 0.2 us, as bits. */
static void clocked(thurafeqa *m)
{
    union {
        double number;
        uint64_t bits;
    } rate, bittime, eight = {8.0}, rate_of = {5000000.0}, time_of = {8.0 / 40000000.0};
    thurafeqa_clock_report report = {1, 2, 3};

    enable(m, 0x003A);
    is(thurafeqa_clock(m, 0, &report), THURAFEQA_NO_RATE << 16);
    is(report.below == 3, 1);
    is(thurafeqa_clock(m, 40000000, &report), THURAFEQA_CLOCK_INTERNAL);
    rate.number = report.rate;
    bittime.number = report.bittime;
    is(rate.bits, rate_of.bits);
    is(bittime.bits, time_of.bits);
    is(report.rate * eight.number == 40000000.0, 1);
    is(thurafeqa_prescalers(40000000, 5000000), 0x1A);
    is(thurafeqa_prescalers(40000000, 78124), THURAFEQA_NO_PRESCALERS);
}

/* That trace of five records, cut within the last of them: four are left. */
static void salvaged(const uint8_t *file, thurafeqa *other)
{
    static uint8_t mended[26];
    uint64_t told;

    is(thurafeqa_salvage_answer(thurafeqa_salvage(file, 9, mended, sizeof mended)),
       THURAFEQA_BAD_CONTENTS << 16);
    is(thurafeqa_salvage_answer(thurafeqa_salvage(file, 28, mended, 25)),
       THURAFEQA_NO_ROOM << 16);
    is(mended[0], 0);
    told = thurafeqa_salvage(file, 28, mended, sizeof mended);
    is(thurafeqa_salvage_answer(told), sizeof mended);
    is(thurafeqa_salvage_cut(told), 1);
    is(thurafeqa_salvage_lost(told), 4);
    is(thurafeqa_play(other, mended, sizeof mended), 4);
}

/* A script that is saved and played ends in the module that the calls make. */
static void traced(thurafeqa *m, thurafeqa *other)
{
    static const char script[] = "W 1 0020\nW 0 8000\nW 3 00A5\nT 1\nT 0\nnone\n";
    static uint8_t file[64];
    const uint8_t *text = (const uint8_t *)script;

    enable(m, THURAFEQA_CON1_MSTEN);
    is(thurafeqa_write(m, THURAFEQA_BUF, 0xA5), 0);
    is(thurafeqa_tick(m, 1, 0), 1);
    is(thurafeqa_tick(m, 0, 0), 1);
    is(thurafeqa_save(text, sizeof script - 1, file, 29), THURAFEQA_NO_ROOM << 16);
    is(thurafeqa_save(text, sizeof script - 1, file, sizeof file), 30);
    is(thurafeqa_play(other, file, 29), THURAFEQA_BAD_CONTENTS << 16);
    is(thurafeqa_play(other, file, 30), 5);
    is((uint32_t)memcmp(m, other, sizeof *m), 0);
    salvaged(file, other);
}

static void board(void)
{
    static thurafeqa spi[4];
    thurafeqa_board b;
    thurafeqa_clock_report report;

    is(thurafeqa_board_start(&b, spi, 5), THURAFEQA_BAD_LIST << 16);
    is(thurafeqa_board_start(&b, spi, 4), 0);
    is(thurafeqa_board_write(&b, 3, THURAFEQA_CON1, THURAFEQA_CON1_MSTEN), 0);
    is(thurafeqa_board_write(&b, 3, THURAFEQA_STAT, THURAFEQA_STAT_SPIEN), 0);
    is(thurafeqa_board_write(&b, 1, THURAFEQA_STAT, THURAFEQA_STAT_SPIEN), 0);
    is(thurafeqa_board_write(&b, 3, THURAFEQA_BUF, 0xA5), 0);
    is(thurafeqa_board_write(&b, 1, THURAFEQA_BUF, 0x3C), 0);
    is(thurafeqa_board_owes(&b), 2);
    is(thurafeqa_board_run(&b, 3, 3, 544), THURAFEQA_NO_MODULE << 16);
    is(thurafeqa_board_run(&b, 3, 1, 544), 16);
    is(thurafeqa_board_owes(&b), 0);
    is(thurafeqa_board_read(&b, 3, THURAFEQA_BUF), 0x3C);
    is(thurafeqa_board_read(&b, 1, THURAFEQA_BUF), 0xA5);
    is(thurafeqa_board_clock(&b, 1, 100, &report), THURAFEQA_CLOCK_EXTERNAL);
    is(report.below == 100, 1);
    is(thurafeqa_board_pins(&b, 4, 0, 0, 0), THURAFEQA_NO_MODULE << 16);
    is(thurafeqa_board_write(&b, 3, THURAFEQA_BUF, 0xA5), 0);
    is(thurafeqa_board_power_up_with(&b, 4, 5), THURAFEQA_NO_MODULE << 16);
    is(thurafeqa_board_power_up_with(&b, 3, 5), THURAFEQA_NO_SUCH_DEPTH << 16);
    is(thurafeqa_board_owes(&b), 1);
    is(thurafeqa_board_power_up_with(&b, 3, 16), 0);
    is(thurafeqa_board_owes(&b), 0);
    is(thurafeqa_board_call(spi, 4, 7, 0, 9, 4, 0, 0, &report), (uint64_t)7 << 32);
    is(thurafeqa_board_call(spi, 4, 7, 0, 10, 1, 4, 0, &report), (uint64_t)7 << 32 | 2u << 16);
    is(thurafeqa_board_call(spi, 4, 7, 0, 11, 1, 4, 0, &report), (uint64_t)7 << 32);
    is(thurafeqa_board_call(spi, 4, 7, 0, 3, 1, 0, 0, &report), (uint64_t)7 << 32 | 2u << 16);
    is(thurafeqa_board_tick_call(spi, 4, 7, 0, 1, 0), (uint64_t)7 << 32 | 2u << 16);
    is(thurafeqa_board_tick_call(spi, 4, 65536 + 7, 4, 1, 0), (uint64_t)7 << 32 | 22u << 16);
    is(thurafeqa_board_tick_call(spi, 5, 7, 0, 1, 0), (uint64_t)7 << 32 | 21u << 16);
    is(thurafeqa_board_call(spi, 4, 7, 0, 9, 17, 0, 0, &report), (uint64_t)7 << 32 | 25u << 16);
    is(thurafeqa_board_write(&b, 0, THURAFEQA_CON1, THURAFEQA_CON1_MSTEN), 0);
    is(thurafeqa_board_write(&b, 0, THURAFEQA_CON2, THURAFEQA_CON2_SPIBEN), 0);
    is(thurafeqa_board_write(&b, 0, THURAFEQA_STAT, THURAFEQA_STAT_SPIEN), 0);
    while (b.owed < 9 && thurafeqa_board_write(&b, 0, THURAFEQA_BUF, 1) == 0)
        ;
    is(thurafeqa_board_owes(&b), 5);
    is(thurafeqa_board_word(&b, 4, 0, 0x3C), THURAFEQA_NO_MODULE << 16);
    is(thurafeqa_board_word(&b, 0, 0, 0xFF3C), 8u << 24 | 1u);
    is(thurafeqa_board_owes(&b), 4);
    is(thurafeqa_board_read(&b, 0, THURAFEQA_BUF), 0x3C);
}

int session(void)
{
    static thurafeqa one, two;

    is(thurafeqa_version(), THURAFEQA_VERSION);
    is(thurafeqa_format(), THURAFEQA_FORMAT);
    loop(&one);
    run(&one);
    deep(&one, &two);
    linked(&one, &two);
    clocked(&one);
    traced(&one, &two);
    board();
    return failed;
}
