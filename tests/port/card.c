/* The exported calls of the audio card beside the second model
 * (tests/model/card.c): random calls go to both, and after each the answers and
 * all that a look tells must agree. Then a hostile caller: memory that no call
 * has made. There a refused call must leave every number, and every call must
 * tell the same of a copy.
 *
 * usage: card CALLS SEED
 *
 * It prints how often each case was reached. Exit 0: no difference, and every
 * case was reached. Exit 1: not so. Exit 2: bad usage. */
#include "card.h"
#include "thurafeqa_card.h"

#include <inttypes.h>
#include <stdio.h>
#include <stdlib.h>
#include <string.h>

static uint64_t state;

static uint32_t any(void)
{
    state ^= state << 13;
    state ^= state >> 7;
    state ^= state << 17;
    return (uint32_t)(state >> 16);
}

static uint32_t below(uint32_t n)
{
    return any() % n;
}

enum kind {
    POWER_UP,
    SET_PROTOCOL,
    SET_LENGTH,
    ENABLE,
    DISABLE,
    WRITE,
    READ,
    EDGE,
    CLEAR_UNDERRUN,
    CLEAR_OVERFLOW,
    KINDS
};

static const char *const kind_name[KINDS] = {
    "power-up", "set protocol", "set length", "enable", "disable",
    "write",    "read",         "edge",       "clear underrun",
    "clear overflow"};

/* What is counted. */
enum {
    REFUSED_2,
    REFUSED_3,
    REFUSED_5,
    REFUSED_6,
    REFUSED_23,
    UNDERRUN,
    OVERFLOW,
    SENT,
    RECEIVED,
    SETTINGS,
    CASES = SETTINGS + 16
};

static const char *const case_name[SETTINGS] = {
    "refusal 2",  "refusal 3",      "refusal 5", "refusal 6",
    "refusal 23", "underrun flag",  "overflow flag",
    "sample taken", "sample received"};

static uint64_t reached[CASES];

static uint32_t model_look(const struct card *m)
{
    uint32_t look = 0;

    if (m->sck)
        look |= THURAFEQA_CARD_SCK;
    if (m->lrck)
        look |= THURAFEQA_CARD_LRCK;
    if (card_sdo(m) == 1)
        look |= THURAFEQA_CARD_SDO;
    if (card_sdo(m) != 2)
        look |= THURAFEQA_CARD_DRIVEN;
    if (m->underrun)
        look |= THURAFEQA_CARD_UNDERRUN;
    if (m->overflow)
        look |= THURAFEQA_CARD_OVERFLOW;
    if (card_next_channel(m))
        look |= THURAFEQA_CARD_RIGHT;
    return look | (uint32_t)m->waiting << 8 | (uint32_t)m->unread << 12 |
           (uint32_t)m->protocol << 16 | (uint32_t)m->data << 18 |
           (uint32_t)m->frame << 24;
}

static uint64_t ask_model(struct card *m, enum kind kind, uint32_t x,
                          uint32_t y)
{
    uint32_t sample = 0;
    int r = 0;

    switch (kind) {
    case POWER_UP: card_power_up(m); break;
    case SET_PROTOCOL: r = card_set_protocol(m, x); break;
    case SET_LENGTH: r = card_set_format(m, x, y); break;
    case ENABLE: r = card_enable(m); break;
    case DISABLE: r = card_disable(m); break;
    case WRITE: r = card_write(m, x); break;
    case READ: r = card_read(m, &sample); break;
    case EDGE: r = card_edge(m, x != 0); break;
    case CLEAR_UNDERRUN: card_clear_underrun(m); break;
    case CLEAR_OVERFLOW: card_clear_overflow(m); break;
    case KINDS: break;
    }
    return (uint64_t)r << 32 | sample;
}

static uint64_t ask_library(thurafeqa_card *c, enum kind kind, uint32_t x,
                            uint32_t y)
{
    switch (kind) {
    case POWER_UP: thurafeqa_card_power_up(c); return 0;
    case SET_PROTOCOL: return thurafeqa_card_set_protocol(c, x);
    case SET_LENGTH: return thurafeqa_card_set_length(c, x, y);
    case ENABLE: return thurafeqa_card_enable(c);
    case DISABLE: return thurafeqa_card_disable(c);
    case WRITE: return thurafeqa_card_write(c, x);
    case READ: return thurafeqa_card_read(c);
    case EDGE: return thurafeqa_card_edge(c, x);
    case CLEAR_UNDERRUN: thurafeqa_card_clear_underrun(c); return 0;
    case CLEAR_OVERFLOW: thurafeqa_card_clear_overflow(c); return 0;
    case KINDS: break;
    }
    return 0;
}

/* A call: mostly edges; settings and disabling are rare, so that cards run. */
static enum kind some_kind(void)
{
    uint32_t r = below(10000);

    if (r < 8800)
        return EDGE;
    if (r < 9300)
        return below(2) ? WRITE : READ;
    if (r < 9600)
        return WRITE;
    if (r < 9700)
        return below(2) ? CLEAR_UNDERRUN : CLEAR_OVERFLOW;
    if (r < 9850)
        return ENABLE;
    if (r < 9860)
        return DISABLE;
    if (r < 9862)
        return POWER_UP;
    return below(2) ? SET_PROTOCOL : SET_LENGTH;
}

static void some_arguments(enum kind kind, uint32_t *x, uint32_t *y)
{
    static const uint32_t bits[] = {16, 16, 24, 32, 16, 24, 32, 8, 0, 20};
    static const uint32_t frames[] = {32, 64, 64, 64, 16, 32, 32, 64, 0, 64};

    *x = any();
    *y = any();
    if (kind == EDGE)
        *x = below(3) ? below(2) : any();
    if (kind == SET_LENGTH && below(20)) {
        uint32_t i = below(3) ? below(4) : below(10);
        *x = bits[i];
        *y = frames[i];
    }
}

static void count(const struct card *before, const struct card *after,
                  enum kind kind, uint64_t answer)
{
    switch (answer >> 32) {
    case 2: reached[REFUSED_2]++; break;
    case 3: reached[REFUSED_3]++; break;
    case 5: reached[REFUSED_5]++; break;
    case 6: reached[REFUSED_6]++; break;
    case 23: reached[REFUSED_23]++; break;
    default: break;
    }
    if (kind != EDGE || !before->enabled)
        return;
    if (!before->underrun && after->underrun)
        reached[UNDERRUN]++;
    if (!before->overflow && after->overflow)
        reached[OVERFLOW]++;
    if (after->waiting < before->waiting)
        reached[SENT]++;
    if (after->unread > before->unread) {
        int length = after->frame == 32 ? 0 : after->data / 8 - 1;
        reached[RECEIVED]++;
        reached[SETTINGS + after->protocol * 4 + length]++;
    }
}

static int compare(uint64_t calls)
{
    struct card model;
    thurafeqa_card card;
    uint64_t i;

    memset(&card, 0xA5, sizeof card);
    card_power_up(&model);
    thurafeqa_card_power_up(&card);
    for (i = 0; i < calls; i++) {
        struct card before = model;
        enum kind kind = some_kind();
        uint64_t says, told;
        uint32_t x, y;

        some_arguments(kind, &x, &y);
        says = ask_model(&model, kind, x, y);
        told = ask_library(&card, kind, x, y);
        count(&before, &model, kind, says);
        if (says != told || model_look(&model) != thurafeqa_card_look(&card)) {
            printf("call %" PRIu64 ", %s %08" PRIX32 " %08" PRIX32
                   ": the model says %" PRIX64 " and shows %08" PRIX32
                   ", the library %" PRIX64 " and %08" PRIX32 "\n",
                   i, kind_name[kind], x, y, says, model_look(&model), told,
                   thurafeqa_card_look(&card));
            return 1;
        }
    }
    return 0;
}

static void scramble(thurafeqa_card *c)
{
    int i;

    for (i = 0; i < 40; i++)
        c->memory[i] = below(2) ? any() : below(300);
}

static int hostile(uint64_t calls)
{
    thurafeqa_card card, before, copy;
    uint64_t i;

    scramble(&card);
    for (i = 0; i < calls; i++) {
        enum kind kind = below(300) ? some_kind() : (enum kind)below(KINDS);
        uint64_t told, again;
        uint32_t x, y;

        if (below(200) == 0)
            scramble(&card);
        some_arguments(kind, &x, &y);
        before = copy = card;
        told = ask_library(&card, kind, x, y);
        again = ask_library(&copy, kind, x, y);
        if (told != again || memcmp(&card, &copy, sizeof card) != 0) {
            printf("hostile call %" PRIu64 ", %s: a copy differs\n", i,
                   kind_name[kind]);
            return 1;
        }
        if (told >> 32 != 0 && memcmp(&card, &before, sizeof card) != 0) {
            printf("hostile call %" PRIu64 ", %s: refused and changed\n", i,
                   kind_name[kind]);
            return 1;
        }
        if (thurafeqa_card_waiting(thurafeqa_card_look(&card)) > 8 ||
            thurafeqa_card_unread(thurafeqa_card_look(&card)) > 8) {
            printf("hostile call %" PRIu64 ", %s: more than eight\n", i,
                   kind_name[kind]);
            return 1;
        }
    }
    return 0;
}

int main(int argc, char **argv)
{
    static const char *const protocol[] = {"I2S", "left justified",
                                           "right justified", "PCM/DSP"};
    static const char *const length[] = {"16 in 32", "16 in 64", "24 in 64",
                                         "32 in 64"};
    uint64_t calls;
    int i, missed = 0;

    if (argc != 3) {
        fprintf(stderr, "usage: card CALLS SEED\n");
        return 2;
    }
    calls = strtoull(argv[1], NULL, 10);
    state = strtoull(argv[2], NULL, 10) * 2654435761u + 88172645463325252u;
    if (compare(calls) || hostile(calls))
        return 1;
    for (i = 0; i < CASES; i++) {
        if (i < SETTINGS)
            printf("%-16s", case_name[i]);
        else
            printf("%s, %s: received", protocol[(i - SETTINGS) / 4],
                   length[(i - SETTINGS) % 4]);
        printf(" %" PRIu64 "\n", reached[i]);
        missed |= reached[i] == 0;
    }
    printf("card: %" PRIu64 " calls, and as many hostile ones, 0 differences\n",
           calls);
    if (missed)
        printf("card: a case was not reached\n");
    return missed;
}
