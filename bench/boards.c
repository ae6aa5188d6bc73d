/* The library's board beside the library's own calls: the same work, done
 * through the header's functions over a board and without it. */
#include "cases.h"

#include "thurafeqa.h"

static uint32_t mixed(uint32_t sum, uint32_t answer)
{
    return sum * 31 + answer;
}

static uint32_t next(uint32_t seed) { return seed * 1664525u + 1013904223u; }

static void enable(thurafeqa_board *b, uint32_t n)
{
    thurafeqa_board_write(b, n, THURAFEQA_CON1,
                          THURAFEQA_CON1_MSTEN | THURAFEQA_CON1_MODE16);
    thurafeqa_board_write(b, n, THURAFEQA_CON2, THURAFEQA_CON2_SPIBEN);
    thurafeqa_board_write(b, n, THURAFEQA_STAT, THURAFEQA_STAT_SPIEN);
}

/* Four modules, the last of them a host with its own clock, 16 bits, with five
 * words to send. */
static void start(thurafeqa_board *b, thurafeqa spi[4])
{
    uint32_t i;

    thurafeqa_board_start(b, spi, 4);
    enable(b, 3);
    for (i = 0; i < 5; i++)
        thurafeqa_board_write(b, 3, THURAFEQA_BUF, next(i));
}

/* As in the case of the busy host: each received word is read when it has come
 * in, and one is written for it. Only the ticks differ; the words owed are of
 * no account here. */
#define BUSY_HOST(name, tick)                                                 \
    struct outcome name(uint32_t times)                                       \
    {                                                                         \
        struct outcome o = {0, 0};                                            \
        uint32_t seed = 1, bits;                                              \
        thurafeqa spi[4];                                                     \
        thurafeqa_board b;                                                    \
        int i;                                                                \
                                                                              \
        start(&b, spi);                                                       \
        while (times-- > 0) {                                                 \
            bits = seed = next(seed);                                         \
            for (i = 0; i < 32; i++) {                                        \
                o.units += tick;                                              \
                bits >>= 1;                                                   \
            }                                                                 \
            o.sum = mixed(o.sum, thurafeqa_read(&spi[3], THURAFEQA_BUF));     \
            o.sum = mixed(o.sum, thurafeqa_write(&spi[3], THURAFEQA_BUF,      \
                                                 seed >> 7));                 \
        }                                                                     \
        for (i = 0; i < 4; i++) {                                             \
            o.sum = mixed(o.sum, thurafeqa_read(&spi[i], THURAFEQA_STAT));    \
            o.sum = mixed(o.sum, thurafeqa_levels(&spi[i]));                  \
        }                                                                     \
        return o;                                                             \
    }

BUSY_HOST(tick_on_board, thurafeqa_board_tick(&b, 3, bits & 1, 0))
BUSY_HOST(tick_alone, thurafeqa_tick(&spi[3], bits & 1, 0))

/* The words that an enhanced host has waiting and in its shift register, by its
 * STAT: SPIBEC shows 8 as 7. */
static uint32_t owed_by(thurafeqa *m)
{
    uint32_t stat = thurafeqa_read(m, THURAFEQA_STAT);
    uint32_t words = stat & THURAFEQA_STAT_SPIBEC;

    words >>= THURAFEQA_STAT_SPIBEC_SHIFT;
    if (stat & THURAFEQA_STAT_SPITBF)
        words = 8;
    return words + !(stat & THURAFEQA_STAT_SRMPT);
}

static uint32_t walk(thurafeqa_board *b)
{
    uint32_t words = 0;
    size_t i;

    for (i = 0; i < b->count; i++)
        words += owed_by(&b->modules[i]);
    return words;
}

/* A thousand questions between two changes: a module is written to until it is
 * full and ticked for a word, in turn. */
#define QUESTIONS(name, question)                                             \
    struct outcome name(uint32_t times)                                       \
    {                                                                         \
        struct outcome o = {0, 0};                                            \
        thurafeqa spi[4];                                                     \
        thurafeqa_board b;                                                    \
        uint32_t i, n;                                                        \
                                                                              \
        thurafeqa_board_start(&b, spi, 4);                                    \
        for (n = 0; n < 4; n++)                                               \
            enable(&b, n);                                                    \
        while (times-- > 0) {                                                 \
            n = times % 4;                                                    \
            if (thurafeqa_board_write(&b, n, THURAFEQA_BUF, times) != 0) {    \
                for (i = 0; i < 32; i++)                                      \
                    thurafeqa_board_tick(&b, n, 0, 0);                        \
            }                                                                 \
            for (i = 0; i < 1000; i++)                                        \
                o.sum = mixed(o.sum, question);                               \
            o.units += 1000;                                                  \
        }                                                                     \
        return o;                                                             \
    }

QUESTIONS(ask_board, thurafeqa_board_owes(&b))
QUESTIONS(walk_board, walk(&b))
