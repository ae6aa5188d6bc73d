/* A second model of the SPI module, written from document 01 of the purchase,
 * with requests One, Three, Four, Eleven and Twelve of document 02, and from
 * nothing else. It keeps plain lists and takes one small step for each rule, so
 * that it can be read beside the paper. */
#ifndef REF_SPI_H
#define REF_SPI_H

#include <stdint.h>

#define REF_NO_EDGE (-1)
#define REF_UNDRIVEN 2

#define REF_DEPTH 8      /* the depth where power-up is given none */
#define REF_MOST 16      /* the deepest buffer */
#define REF_LIMIT 544    /* the most edges that a linked run may be asked for */
#define REF_BAD_DEPTH 25 /* the refusal: power-up with another depth */

/* A queue of words, the oldest in word[0]. Slots from n on hold 0, so two
 * equal queues are equal byte for byte. It has slots for the deepest buffer;
 * how many of them count is the module's matter. */
struct ref_list {
    int n;
    unsigned word[REF_MOST];
};

struct ref_spi {
    /* words that each buffer holds in enhanced operation: 4, 8 or 16. Power-up
     * sets it, and no other call does */
    int depth;

    /* STAT: the stored bits; the rest are worked out when it is read */
    int spien, spisidl, sisel, spirov;
    /* CON1 */
    int dissck, dissdo, mode16, smp, cke, ssen, ckp, msten, spre, ppre;
    /* CON2 */
    int frmen, spifsd, frmpol, frmdly, spiben;

    struct ref_list tx; /* words queued for sending */
    struct ref_list rx; /* words received and unread */

    /* shift register */
    int loaded;           /* it holds a word taken from the queue tx */
    unsigned loaded_word; /* that word; 0 without one */
    int begun;            /* a word or a filler is under way */
    int filler;           /* what has begun is a filler */
    int edges;            /* how many edges it has had; 0 if not begun */
    int in_count;         /* how many bits have come in */
    char in_bit[16];      /* those bits in the order they came */

    /* levels */
    int sck; /* clock level last seen at the pin, or last made here */
    int ss;  /* select level last seen at the pin */
    int sdo; /* level behind the SDO pin, kept even when not driven out */

    int pulse; /* framed: a frame host is giving one now; a frame client has
                * sampled one, and a word begins at the next transmit edge */

    int mark; /* a word was lost in enhanced operation, and the module has not
               * been turned off since */

    int flag; /* the interrupt flag */
};

/* The calls. Each answers 0 or the papers' refusal number, 1 to 16 but never 4
 * or 12, or 25 at power-up alone; a tick of an unframed module may also answer
 * REF_NO_EDGE, and so may a step of one that has its own clock. A refused call
 * changes nothing. */
void ref_power_up(struct ref_spi *m); /* of the depth 8 */
int ref_power_up_depth(struct ref_spi *m, unsigned depth); /* 4, 8, 16, or 25 */
int ref_read(struct ref_spi *m, unsigned reg, unsigned *value);
int ref_write(struct ref_spi *m, unsigned reg, unsigned value);
int ref_tick(struct ref_spi *m, int sdi, int ss);
int ref_pins(struct ref_spi *m, int sck, int sdi, int ss);
int ref_step(struct ref_spi *m, int sck, int sdi, int ss);
void ref_clear(struct ref_spi *m);

/* All steps of a word, with SDI from `word`: the levels of SDO where it is
 * sampled, the first highest, and how many. Answers as its first step does. */
int ref_word(struct ref_spi *m, int ss, unsigned word, unsigned *levels,
             int *count);
int ref_next(const struct ref_spi *m); /* the word that goes out next, or -1 */

/* What can be seen from outside without changing anything. */
int ref_flag(const struct ref_spi *m);
int ref_sck(const struct ref_spi *m);
int ref_sdo(const struct ref_spi *m); /* 0, 1 or REF_UNDRIVEN */
int ref_ss(const struct ref_spi *m);  /* what it drives at SS: the same three */

/* Host and client on one wire; *used is set only if the answer is 0. */
int ref_linked(struct ref_spi *host, struct ref_spi *client, unsigned limit,
               unsigned *used);

/* The clock report. *kind becomes 0 for none, 1 for internal (rate and bit
 * time), 2 for external (the rate is f). */
int ref_clock(const struct ref_spi *m, uint32_t f, int *kind, double *rate,
              double *bit_time);

#endif
