/* Edges of the TI module, for the proved library if built with LIBRARY, else
 * for plain C. */
#include "cases.h"

#ifdef LIBRARY
#include "thurafeqa.h"
#define SIDE(name) library_##name
#define CALL(name) thurafeqa_ti_##name
typedef thurafeqa_ti module;
#else
#include "plain_ti.h"
#define SIDE(name) plain_##name
#define CALL(name) plain_ti_##name
typedef struct plain_ti module;
#endif

static uint32_t mixed(uint32_t sum, uint32_t answer)
{
    return sum * 31 + answer;
}

static uint32_t next(uint32_t seed) { return seed * 1664525u + 1013904223u; }

static void start(module *m, uint32_t length, uint32_t master, uint32_t phase)
{
    CALL(power_up)(m);
    CALL(set_length)(m, length);
    CALL(set_mode)(m, master, 1, 0, phase);
    CALL(leave_reset)(m);
}

/* A master with a character waiting throughout; each received one is read when
 * it has come in, and one is written for it. */
static struct outcome master(uint32_t length, uint32_t phase, uint32_t times)
{
    struct outcome o = {0, 0};
    uint32_t seed = 1, bits, i;
    module m;

    start(&m, length, 1, phase);
    for (i = 0; i < 2; i++)
        o.sum = mixed(o.sum, CALL(write)(&m, seed = next(seed)));
    while (times-- > 0) {
        bits = seed = next(seed);
        for (i = 0; i < 2 * length; i++) {
            o.units += CALL(tick)(&m, bits & 1);
            bits >>= 1;
        }
        o.sum = mixed(o.sum, CALL(read)(&m));
        o.sum = mixed(o.sum, CALL(write)(&m, seed >> 7));
    }
    o.sum = mixed(mixed(o.sum, CALL(status)(&m)), CALL(levels)(&m));
    return o;
}

struct outcome SIDE(ti_master)(uint32_t times) { return master(16, 0, times); }

struct outcome SIDE(ti_short)(uint32_t times) { return master(5, 1, times); }

/* A slave that is selected: a character is written, clocked by pin calls, and
 * the received one is read. */
struct outcome SIDE(ti_slave)(uint32_t times)
{
    struct outcome o = {0, 0};
    uint32_t seed = 1, bits, i;
    module m;

    start(&m, 8, 0, 1);
    o.sum = mixed(o.sum, CALL(pins)(&m, 0, 0, 0));
    while (times-- > 0) {
        bits = seed = next(seed);
        o.sum = mixed(o.sum, CALL(write)(&m, seed));
        for (i = 0; i < 16; i++) {
            o.sum += CALL(pins)(&m, ~i & 1, bits & 1, 0);
            bits >>= 1;
        }
        o.units += 16;
        o.sum = mixed(o.sum, CALL(read)(&m));
    }
    o.sum = mixed(mixed(o.sum, CALL(status)(&m)), CALL(levels)(&m));
    return o;
}
