/* One name for the calls of either side: those of the proved library if built
 * with LIBRARY, else those of plain C. */
#ifndef SIDE_H
#define SIDE_H

#ifdef LIBRARY
#include "library.h"
#define EITHER(library, plain) library
typedef uint16_t module[THURAFEQA_NUMBERS];
#define OF(m) (m)
#define power_up thurafeqa_power_up
#define power_up_with thurafeqa_power_up_with
#define read_register thurafeqa_read
#define write_register thurafeqa_write
#define tick thurafeqa_tick
#define pins thurafeqa_pins
#define clock_step thurafeqa_clock_step
#define clear thurafeqa_clear
#define levels thurafeqa_levels
#define linked thurafeqa_linked
#define play thurafeqa_play
#define salvage thurafeqa_salvage
#else
#include "plain_trace.h"
#define EITHER(library, plain) plain
typedef struct plain_spi module;
#define OF(m) (&(m))
#define power_up plain_power_up
#define power_up_with plain_power_up_with
#define read_register plain_read
#define write_register plain_write
#define tick plain_tick
#define pins plain_pins
#define clock_step plain_clock_step
#define clear plain_clear
#define levels plain_levels
#define linked plain_linked
#define play plain_play
#define salvage plain_salvage
#endif

enum { STAT, CON1, CON2, BUF };

/* CON1 */
#define MODE16 0x0400u
#define CKE 0x0100u
#define SSEN 0x0080u
#define MSTEN 0x0020u
/* CON2 */
#define FRMEN 0x8000u
#define SPIBEN 0x0001u

#define ENABLE(m, con1, con2)                                                 \
    (write_register(OF(m), CON1, con1), write_register(OF(m), CON2, con2),    \
     write_register(OF(m), STAT, 0x8000))

/* A module in enhanced operation, enabled; a frame host or another one; and one
 * of another depth than 8. */
#define START_WITH(m, con1, con2) (power_up(OF(m)), ENABLE(m, con1, con2))
#define START(m, con1) START_WITH(m, con1, SPIBEN)
#define START_DEEP(m, depth, con1)                                            \
    (power_up_with(OF(m), depth), ENABLE(m, con1, SPIBEN))

#endif
