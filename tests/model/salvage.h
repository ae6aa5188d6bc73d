/* A cut trace file made right again. Written from request Fourteen of document
 * 02, and from request Five for what a right file is, before the definitions of
 * it were there, and from nothing else. */
#ifndef SALVAGE_H
#define SALVAGE_H

#include "trace.h"

#include <stddef.h>
#include <stdint.h>

#define SALVAGE_NO_ROOM 20 /* the second refusal; the first is Five's 17 */

/* Why a section was cut where it was. */
enum salvage_cut {
    SALVAGE_WHOLE,        /* it was not */
    SALVAGE_WRONG,        /* before a wrong record */
    SALVAGE_PAST_SECTION, /* before one that runs past the section's end */
    SALVAGE_PAST_FILE,    /* before one that runs past the file's end */
    SALVAGE_CUTS
};

struct salvaged {
    unsigned cut;  /* sections that became shorter */
    size_t lost;   /* the old lengths' sum, less the new ones' */
    size_t length; /* of the new file */
};

/* Can nothing be salvaged? 17 or 0. */
int salvage_refused(const uint8_t *file, size_t size);

/* Why each section is cut; a file that is not refused. */
void salvage_causes(const uint8_t *file, size_t size,
                    enum salvage_cut cause[TRACE_SECTIONS]);

/* Makes the new file at the start of a buffer of `room` bytes, which does not
 * overlap the old one: 0 and the answer, or 17 or 20, and nothing is changed.
 * Bytes behind the new file keep their values. */
int salvage_file(const uint8_t *file, size_t size, uint8_t *buffer,
                 size_t room, struct salvaged *answer);

#endif
