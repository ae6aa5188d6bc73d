/* The script program of document 01 over the second model: what its lines ask
 * for, and what it prints. */
#ifndef SCRIPT_H
#define SCRIPT_H

#include "ref_spi.h"

#include <stddef.h>
#include <stdio.h>

#define SCRIPT_BYTES 65535 /* no more of an input is read */

/* A walk through the lines of an input. */
struct script_walk {
    const unsigned char *line; /* the line, its LF left off */
    size_t length;
    int ended; /* it has an LF */
    const unsigned char *rest;
    size_t left;
};
void script_begin(struct script_walk *w, const unsigned char *input,
                  size_t size);
int script_next(struct script_walk *w); /* 0 if there is no further line */

/* What a line asks for; what it does not name is 0. */
enum script_kind {
    SCRIPT_WRITE,
    SCRIPT_READ,
    SCRIPT_TICK,
    SCRIPT_PINS,
    SCRIPT_CLEAR
};
struct script_call {
    enum script_kind kind;
    unsigned reg, value;
    int sck, sdi, ss;
};

/* Reads one line of n bytes: 0 if it cannot be read, which is refusal 9. */
int script_read(const unsigned char *s, size_t n, struct script_call *c);

/* Makes that call: 0, a refusal number, or REF_NO_EDGE. *value is set by a
 * read that is not refused. */
int script_make(struct ref_spi *m, const struct script_call *c,
                unsigned *value);

/* One line of n bytes: makes the call that the line asks for and prints the
 * answer under that line number. */
void script_line(struct ref_spi *m, unsigned long number,
                 const unsigned char *s, size_t n, FILE *out);

/* A whole input, on a module at power-up. */
void script_run(const unsigned char *input, size_t size, FILE *out);

#endif
