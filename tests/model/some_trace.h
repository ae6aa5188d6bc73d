/* Trace files to try a player with, each made from a number: right ones, ones
 * with something wrong, and mere bytes. */
#ifndef SOME_TRACE_H
#define SOME_TRACE_H

#include <stddef.h>
#include <stdint.h>

/* No file here is longer. */
#define SOME_TRACE_BYTES ((size_t)1 << 20)

/* The file of a number, always the same: its length. */
size_t some_trace(uint64_t number, uint8_t *file);

/* Files whose records are passed far more often than calls are made, if a
 * player does not take care. What they come to is known: the calls made, or
 * 65,536 if that is refused with 19. */
#define COSTLY_TRACES 5
size_t costly_trace(int which, uint8_t *file, unsigned *calls);

#endif
