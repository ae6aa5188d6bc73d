/* Scripts to try a saver with, each made from a number: sessions with lines of
 * every kind, lines that cannot be read or name no register, scripts around the
 * limits, and mere bytes. */
#ifndef SOME_SCRIPT_H
#define SOME_SCRIPT_H

#include <stddef.h>
#include <stdint.h>

/* No script here is longer, and no buffer. */
#define SOME_SCRIPT_BYTES ((size_t)1 << 18)
#define SOME_ROOM ((size_t)1 << 17)

/* The script of a number, always the same: its length. */
size_t some_script(uint64_t number, uint8_t *script);

/* A buffer's size for a file of that length, made from a number: that length,
 * one less or more, 0, the most that a file has, more than that, or any. */
size_t some_room(uint64_t number, size_t length);

#endif
