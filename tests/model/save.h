/* A script session saved as a trace file, over the second model. Written from
 * request Six of document 02 and from nothing else. */
#ifndef SAVE_H
#define SAVE_H

#include "script.h"
#include "trace.h"

#include <stddef.h>
#include <stdint.h>

#define SAVE_NO_ROOM 20  /* the refusal */
#define SAVE_CONTENTS 10 /* bytes before the records: one section */

/* Is the call of a line that can be read kept? */
int save_keeps(const struct script_call *c);

/* The length that the file of a session has, whether or not it fits. */
size_t save_length(const uint8_t *script, size_t size);

/* Saves a session at the start of a buffer of `room` bytes: 0 and the file's
 * length, or 20 and nothing is changed. Bytes behind the file keep their
 * values. */
int save_session(const uint8_t *script, size_t size, uint8_t *file,
                 size_t room, size_t *length);

#endif
