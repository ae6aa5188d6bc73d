/* Single calls for bench/run --profile, which counts their instructions. What
 * runs between mark and the next mark is one call; its name goes to standard
 * output. Built with LIBRARY it calls the proved library, else plain C. */
#include "side.h"

#include <stdio.h>

void mark(void);

static uint32_t answers;

#define CALL(name, call)                                                      \
    do {                                                                      \
        puts(name);                                                           \
        mark();                                                               \
        answers += (call);                                                    \
        mark();                                                               \
    } while (0)

int main(void)
{
    static const uint8_t empty[10] = {1, 0, 10};
    static const uint8_t few[26] = {1, 0, 10, 0,  0, 0, 16,   0, 0, 0, 0, 1, 0x20,
                                    0, 0, 0,  0, 0x80, 0, 3, 0xA5, 0, 2, 1};
    static const uint8_t wrong[14] = {1, 0, 10, 0, 0, 0, 4, 0, 0, 0, 6};
    module host, client, other, framed, played;
    int i;

    START(host, MSTEN | MODE16);
    CALL("BUF write that loads", write_register(OF(host), BUF, 0xA5C3));
    CALL("BUF write that waits", write_register(OF(host), BUF, 0x3C5A));
    CALL("tick, first edge", tick(OF(host), 1, 0));
    CALL("tick within a word, even edge", tick(OF(host), 1, 0));
    CALL("tick within a word, odd edge", tick(OF(host), 1, 0));
    for (i = 3; i < 31; i++)
        answers += tick(OF(host), i & 1, 0);
    CALL("tick, last edge, one waiting", tick(OF(host), 1, 0));
    for (i = 0; i < 31; i++)
        answers += tick(OF(host), i & 1, 0);
    CALL("tick, last edge, none waiting", tick(OF(host), 1, 0));
    CALL("tick, no word", tick(OF(host), 1, 0));
    CALL("STAT read", read_register(OF(host), STAT));
    CALL("CON1 read", read_register(OF(host), CON1));
    CALL("BUF read, one left", read_register(OF(host), BUF));
    CALL("BUF read, none left", read_register(OF(host), BUF));
    CALL("BUF read refused", read_register(OF(host), BUF));
    CALL("STAT write, SISEL", write_register(OF(host), STAT, 0x8004));
    CALL("levels", levels(OF(host)));
    CALL("clear", (clear(OF(host)), 0));

    START_WITH(framed, MSTEN | MODE16, FRMEN | SPIBEN);
    CALL("frame host: tick, no word", tick(OF(framed), 1, 0));
    answers += tick(OF(framed), 1, 0);
    answers += write_register(OF(framed), BUF, 0xA5C3);
    answers += write_register(OF(framed), BUF, 0x3C5A);
    CALL("frame host: tick, the pulse", tick(OF(framed), 1, 0));
    answers += tick(OF(framed), 1, 0);
    CALL("frame host: tick, first edge", tick(OF(framed), 1, 0));
    CALL("frame host: tick, even edge", tick(OF(framed), 1, 0));
    CALL("frame host: tick, odd edge", tick(OF(framed), 1, 0));
    for (i = 3; i < 30; i++)
        answers += tick(OF(framed), i & 1, 0);
    CALL("frame host: tick, last bit", tick(OF(framed), 1, 0));
    CALL("frame host: tick, last edge", tick(OF(framed), 1, 0));
    CALL("frame host: levels", levels(OF(framed)));

    power_up(OF(played));
    CALL("play of an empty trace", play(OF(played), empty, sizeof empty));
    CALL("play of 4 calls", play(OF(played), few, sizeof few));
    CALL("play that is refused, 18", play(OF(played), wrong, sizeof wrong));

    START(client, SSEN);
    CALL("SSEN client: BUF write", write_register(OF(client), BUF, 0xA5));
    CALL("SSEN client: pins, no edge", pins(OF(client), 0, 0, 0));
    CALL("SSEN client: pins, first edge", pins(OF(client), 1, 0, 0));
    CALL("SSEN client: pins, even edge", pins(OF(client), 0, 1, 0));
    CALL("SSEN client: pins, odd edge", pins(OF(client), 1, 1, 0));
    for (i = 3; i < 15; i++)
        answers += pins(OF(client), ~(uint32_t)i & 1, 1, 0);
    CALL("SSEN client: pins, last edge", pins(OF(client), 0, 1, 0));

    START(other, MSTEN);
    for (i = 0; i < 8; i++)
        answers += write_register(OF(other), BUF, 0x5Au + (uint32_t)i);
    CALL("linked run of 0 edges", linked(OF(other), OF(client), 0));
    CALL("linked run of 1 edge", linked(OF(other), OF(client), 1));
    CALL("linked run of 14 edges", linked(OF(other), OF(client), 14));
    CALL("linked run of 1 edge, the last", linked(OF(other), OF(client), 1));
    CALL("linked run of 100 edges", linked(OF(other), OF(client), 100));
    return answers == 0;
}
