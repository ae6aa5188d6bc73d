/* Trace files in plain C, written for speed and with no proof: what the proved
 * library's play and salvage are measured against. */
#ifndef PLAIN_TRACE_H
#define PLAIN_TRACE_H

#include "plain_spi.h"

#include <stddef.h>

/* Plays a file on a module that it powers up first: the calls made, or 17, 18
 * or 19 times 65,536, and the module is as it was. */
uint32_t plain_play(struct plain_spi *m, const uint8_t *file, size_t length);

/* Salvages a cut file in `room` bytes that are lent: from above 16 bits each,
 * the sections cut, the bytes lost, 17 or 20 if it is refused, and the new
 * file's length. If it is refused, what is lent is as it was. */
uint64_t plain_salvage(const uint8_t *file, size_t length, uint8_t *salvaged,
                       size_t room);

#endif
