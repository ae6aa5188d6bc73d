/* What is measured. cases.c is compiled once for each side, so that both make
 * the same calls, directly and from code that is alike. */
#ifndef CASES_H
#define CASES_H

#include <stdint.h>

/* What a run came to: the edges or calls made, and a sum over all answers,
 * which must be the same for both sides. */
struct outcome {
    uint32_t units, sum;
};

enum {
    BUSY_HOST,
    DEEP_HOST,
    WATCHED_HOST,
    STEPPED_HOST,
    HOST_WORDS,
    WORDS_ALONE,
    FRAME_HOST,
    CLIENT_8,
    CLIENT_16,
    LINKED_PAIR,
    REGISTERS,
    TRACE_PLAYED,
    TRACE_LONG,
    TRACE_SALVAGED,
    CASES
};

/* One run of each case; `times` is how often its round of calls is made. */
struct side {
    const char *name;
    struct outcome (*run[CASES])(uint32_t times);
};

extern const struct side library_side, plain_side;

/* A tick of a busy host, the last of a board's four modules, through the board
 * and by the library's own call. */
struct outcome tick_on_board(uint32_t times);
struct outcome tick_alone(uint32_t times);

/* How many words a board of four enhanced hosts owes: asked of the board, and
 * by a walk of its modules. */
struct outcome ask_board(uint32_t times);
struct outcome walk_board(uint32_t times);

/* Edges of the TI module: a busy master of 16 bits, one of 5 bits in phase 1,
 * and a slave of 8 bits. */
struct outcome library_ti_master(uint32_t times);
struct outcome plain_ti_master(uint32_t times);
struct outcome library_ti_short(uint32_t times);
struct outcome plain_ti_short(uint32_t times);
struct outcome library_ti_slave(uint32_t times);
struct outcome plain_ti_slave(uint32_t times);

#endif
