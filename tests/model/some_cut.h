/* Trace files to try salvage with, each made from a number: right ones, ones
 * that are cut, ones with wrong records and with wrong contents, and sizes for
 * the lent buffer. */
#ifndef SOME_CUT_H
#define SOME_CUT_H

#include "some_trace.h"

#include <stddef.h>
#include <stdint.h>

/* The file of a number, always the same: its length, at most SOME_TRACE_BYTES. */
size_t some_cut(uint64_t number, uint8_t *file);

/* No buffer is longer. */
#define SOME_CUT_ROOM ((size_t)1 << 17)

/* The size of the buffer for a new file of that length. */
size_t some_cut_room(uint64_t number, size_t length);

#endif
