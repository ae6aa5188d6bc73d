/* Trace files over the second model, written from request Five of document 02
 * and from nothing else. */
#ifndef TRACE_H
#define TRACE_H

#include "ref_spi.h"

#include <stddef.h>
#include <stdint.h>
#include <stdio.h>

#define TRACE_BYTES 65535    /* a file has no more */
#define TRACE_CALLS 65535    /* a play makes no more */
#define TRACE_SECTIONS 64
#define TRACE_LEVELS 8

/* The kinds of records. */
enum { TRACE_WRITE, TRACE_READ, TRACE_TICK, TRACE_PINS, TRACE_CLEAR, TRACE_PLAY };

/* What can be wrong with a file. */
enum trace_fault {
    TRACE_RIGHT,
    /* refused with 17 */
    TRACE_TOO_LONG,       /* more bytes than a file may have */
    TRACE_NO_COUNT,       /* it ends before the section count does */
    TRACE_NO_SECTION,     /* the count is 0 */
    TRACE_MANY_SECTIONS,  /* the count is above 64 */
    TRACE_TABLE_CUT,      /* it ends within the table of contents */
    TRACE_GAP,            /* a section starts not where the last ended */
    TRACE_ODD_LENGTH,     /* a section's length is no multiple of 4 */
    TRACE_PAST_END,       /* a section ends behind the file */
    TRACE_LEFT_OVER,      /* the file goes on behind the last section */
    /* refused with 18, of the first wrong record */
    TRACE_BAD_KIND,       /* above 5 */
    TRACE_BAD_REGISTER,   /* write or read: above 3 */
    TRACE_BAD_LEVELS,     /* tick or pins: a bit that it has not */
    TRACE_BAD_ARGUMENT,   /* clear: not 0 */
    TRACE_BAD_VALUE,      /* not 0, and neither write nor play */
    TRACE_NOT_HIGHER,     /* plays itself or a lower-numbered section */
    TRACE_NOT_THERE,      /* plays a section that does not exist */
    TRACE_TOO_DEEP,       /* plays, from a section of level 8 */
    /* refused with 19 */
    TRACE_MANY_CALLS,
    TRACE_FAULTS
};
extern const char *const trace_fault_text[TRACE_FAULTS];

/* 17, 18 or 19; 0 for none. */
int trace_number(enum trace_fault fault);

struct trace_section {
    size_t start, length; /* of its records in the file */
    int level;
    unsigned calls; /* that one play of it makes; 65,536 for more than that */
    size_t first, steps; /* of the steps below */
};

/* A file that was looked through. What each section's records do is kept apart
 * as steps: those records that make a call or lead to one. So a play passes no
 * record without counting it, and what does nothing costs nothing, however
 * often the section is played. */
struct trace {
    const uint8_t *file;
    int sections;
    struct trace_section section[TRACE_SECTIONS];
    uint16_t step[TRACE_BYTES / 4]; /* places of records in the file */
};

/* What is wrong with a record of a file with so many sections, which stands in
 * a section of that number and level. */
enum trace_fault trace_record_fault(const uint8_t *at, int section,
                                    int sections, int level);

/* Looks a file through, before anything is played; *t is whole if all is
 * right. Reads no byte but the given ones. */
enum trace_fault trace_open(struct trace *t, const uint8_t *file,
                            size_t length);

/* Plays a file on a module at power-up: 0 or the refusal number. If it is
 * refused, *m and *calls are left as they are. */
int trace_play(struct ref_spi *m, const uint8_t *file, size_t length,
               unsigned *calls);

/* What the program run_play prints of a file. */
void trace_print(const uint8_t *file, size_t length, FILE *out);

/* A listing to read: all bytes with their places and what they say; of a wrong
 * file, what is wrong with it. */
void trace_list(const uint8_t *file, size_t length, FILE *out);

#endif
