/* A board: one to four modules of the second model in a list, and beside it the
 * words that they still owe. Written from requests Seven, Eight and Twelve of
 * document 02, and from what a word at a time is asked to be. */
#ifndef BOARD_H
#define BOARD_H

#include "ref_spi.h"

#include <stddef.h>

#define BOARD_MODULES 4    /* the most that a board has */
#define BOARD_BAD_LIST 21  /* the refusals: the list's length is wrong, */
#define BOARD_NO_MODULE 22 /* a module is not there, or is named twice */
#define BOARD_MOST 65535   /* the most that a total holds */

/* The list is lent; its first module is SPI1 and has the number 0. It may have
 * any length: the calls say that it is wrong. The total is 0 where all modules
 * are at power-up, and the calls keep it; it may be any number up to the most,
 * but is of use only where it is the list's own. */
struct board {
    struct ref_spi *module;
    size_t count;
    unsigned owed;
};

/* What is seen of a module without changing it. */
struct board_levels {
    int flag, sck, sdo, ss;
};

/* The words that a module has accepted and not finished. */
unsigned board_owes(const struct ref_spi *m);

/* The total, from what the board keeps and not from its modules: 0, or 21 and
 * nothing is told. */
int board_owed(const struct board *b, unsigned *total);

/* The calls of one module, by its number, and the linked run of two. Each
 * answers 21 or 22, and then nothing is changed or told; else what ref_spi.h
 * says of the call with the name behind board_. Power-up comes without a depth,
 * which is 8 then, and with one; the modules of a board may differ in it. */
int board_power_up(struct board *b, uint32_t n);
int board_power_up_depth(struct board *b, uint32_t n, unsigned depth);
int board_read(struct board *b, uint32_t n, unsigned reg, unsigned *value);
int board_write(struct board *b, uint32_t n, unsigned reg, unsigned value);
int board_tick(struct board *b, uint32_t n, int sdi, int ss);
int board_pins(struct board *b, uint32_t n, int sck, int sdi, int ss);
int board_step(struct board *b, uint32_t n, int sck, int sdi, int ss);
int board_word(struct board *b, uint32_t n, int ss, unsigned word,
               unsigned *levels, int *count);
int board_clear(struct board *b, uint32_t n);
int board_clock(struct board *b, uint32_t n, uint32_t f, int *kind,
                double *rate, double *bit_time);
int board_see(struct board *b, uint32_t n, struct board_levels *seen);
int board_linked(struct board *b, uint32_t host, uint32_t client,
                 unsigned limit, unsigned *used);

#endif
