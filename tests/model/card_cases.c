/* Plays worked cases of the audio card: lines of standard input, of which
 * tests/cards/stdin has some, and prints what each must answer. It plays them
 * on the second model, or, built with LIBRARY, on the exported calls.
 *
 *   = TEXT         a heading, printed again
 *   new            power-up
 *   protocol N     length BITS FRAME     enable     disable
 *   write HEX      read                  edge LEVEL
 *   clear underrun                       clear overflow
 *   clocks LEVELS  for each clock an edge with the opposite of that level at
 *                  SDI, and one with it; then a line each for SCK, LRCK, SDO
 *                  and the underrun flag after the first edges, and for the
 *                  overflow flag after the second
 *   look           all that can be looked at
 */
#ifdef LIBRARY
#include "thurafeqa_card.h"
typedef thurafeqa_card card_type;
#define SIDE(library, model) library
#else
#include "card.h"
typedef struct card card_type;
#define SIDE(library, model) model
#endif

#include <inttypes.h>
#include <stdint.h>
#include <stdio.h>
#include <stdlib.h>
#include <string.h>

struct view {
    int enabled, protocol, bits, frame, sck, lrck, sdo, underrun, overflow;
    int waiting, unread, right;
};

static struct view view_of(const card_type *c)
{
    struct view v;
#ifdef LIBRARY
    uint32_t l = thurafeqa_card_look(c);

    v.enabled = (l & THURAFEQA_CARD_DRIVEN) != 0;
    v.protocol = (int)thurafeqa_card_protocol(l);
    v.bits = (int)thurafeqa_card_bits(l);
    v.frame = (int)thurafeqa_card_frame(l);
    v.sck = (l & THURAFEQA_CARD_SCK) != 0;
    v.lrck = (l & THURAFEQA_CARD_LRCK) != 0;
    v.sdo = v.enabled ? (l & THURAFEQA_CARD_SDO) != 0 : 2;
    v.underrun = (l & THURAFEQA_CARD_UNDERRUN) != 0;
    v.overflow = (l & THURAFEQA_CARD_OVERFLOW) != 0;
    v.waiting = (int)thurafeqa_card_waiting(l);
    v.unread = (int)thurafeqa_card_unread(l);
    v.right = (l & THURAFEQA_CARD_RIGHT) != 0;
#else
    v.enabled = c->enabled;
    v.protocol = c->protocol;
    v.bits = c->data;
    v.frame = c->frame;
    v.sck = c->sck;
    v.lrck = c->lrck;
    v.sdo = card_sdo(c);
    v.underrun = c->underrun;
    v.overflow = c->overflow;
    v.waiting = c->waiting;
    v.unread = c->unread;
    v.right = card_next_channel(c);
#endif
    return v;
}

static void say(uint64_t refusal)
{
    if (refusal)
        printf("refused %" PRIu64 "\n", refusal);
    else
        puts("ok");
}

static uint64_t give_edge(card_type *c, int sdi)
{
    return SIDE(thurafeqa_card_edge(c, (uint32_t)sdi) >> 32,
                (uint64_t)card_edge(c, sdi));
}

static void read_sample(card_type *c)
{
    uint32_t sample = 0;
    uint64_t refusal;
#ifdef LIBRARY
    uint64_t answer = thurafeqa_card_read(c);

    sample = thurafeqa_card_sample(answer);
    refusal = thurafeqa_card_refusal(answer);
#else
    refusal = (uint64_t)card_read(c, &sample);
#endif
    if (refusal)
        say(refusal);
    else
        printf("%08" PRIX32 "\n", sample);
}

static void clocks(card_type *c, const char *levels)
{
    static const char *const name[] = {"sck", "lrck", "sdo", "underrun",
                                       "overflow"};
    static char line[5][4096];
    size_t n = strspn(levels, "01"), i;
    int k;

    if (n >= sizeof line[0])
        n = sizeof line[0] - 1;
    for (i = 0; i < n; i++) {
        int level = levels[i] == '1';
        struct view v;

        give_edge(c, !level);
        v = view_of(c);
        line[0][i] = (char)('0' + v.sck);
        line[1][i] = (char)('0' + v.lrck);
        line[2][i] = (char)('0' + v.sdo);
        line[3][i] = (char)('0' + v.underrun);
        give_edge(c, level);
        line[4][i] = (char)('0' + view_of(c).overflow);
    }
    for (k = 0; k < 5; k++) {
        line[k][n] = 0;
        printf("%s %s\n", name[k], line[k]);
    }
}

static void look(const card_type *c)
{
    struct view v = view_of(c);

    printf("%s, protocol %d, %d in %d, SCK %d, LRCK %d, SDO %c, underrun %d, "
           "overflow %d, waiting %d, unread %d, %s next\n",
           v.enabled ? "enabled" : "disabled", v.protocol, v.bits, v.frame,
           v.sck, v.lrck, v.sdo == 2 ? 'Z' : '0' + v.sdo, v.underrun,
           v.overflow, v.waiting, v.unread, v.right ? "right" : "left");
}

int main(void)
{
    static char line[8192];
    card_type c;

    memset(&c, 0, sizeof c);
    while (fgets(line, sizeof line, stdin)) {
        unsigned x = 0, y = 0;

        line[strcspn(line, "\n")] = 0;
        if (line[0] == '=')
            puts(line);
        else if (!strcmp(line, "new"))
            SIDE(thurafeqa_card_power_up, card_power_up)(&c);
        else if (sscanf(line, "protocol %u", &x) == 1)
            say(SIDE(thurafeqa_card_set_protocol(&c, x) >> 32,
                     (uint64_t)card_set_protocol(&c, x)));
        else if (sscanf(line, "length %u %u", &x, &y) == 2)
            say(SIDE(thurafeqa_card_set_length(&c, x, y) >> 32,
                     (uint64_t)card_set_format(&c, x, y)));
        else if (!strcmp(line, "enable"))
            say(SIDE(thurafeqa_card_enable(&c) >> 32,
                     (uint64_t)card_enable(&c)));
        else if (!strcmp(line, "disable"))
            say(SIDE(thurafeqa_card_disable(&c) >> 32,
                     (uint64_t)card_disable(&c)));
        else if (sscanf(line, "write %x", &x) == 1)
            say(SIDE(thurafeqa_card_write(&c, x) >> 32,
                     (uint64_t)card_write(&c, x)));
        else if (!strcmp(line, "read"))
            read_sample(&c);
        else if (sscanf(line, "edge %u", &x) == 1)
            say(give_edge(&c, x != 0));
        else if (!strcmp(line, "clear underrun"))
            SIDE(thurafeqa_card_clear_underrun, card_clear_underrun)(&c);
        else if (!strcmp(line, "clear overflow"))
            SIDE(thurafeqa_card_clear_overflow, card_clear_overflow)(&c);
        else if (!strncmp(line, "clocks ", 7))
            clocks(&c, line + 7);
        else if (!strcmp(line, "look"))
            look(&c);
        else
            printf("cannot be read: %s\n", line);
    }
    return 0;
}
