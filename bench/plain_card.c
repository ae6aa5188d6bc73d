#include "plain_card.h"

#include <string.h>

static uint64_t refused(uint64_t number)
{
    return number << 32;
}

void plain_card_power_up(struct plain_card *c)
{
    memset(c, 0, sizeof *c);
    c->bits = 16;
    c->frame = 32;
}

uint64_t plain_card_set_protocol(struct plain_card *c, uint32_t protocol)
{
    if (c->enabled)
        return refused(3);
    c->protocol = protocol & 3u;
    return 0;
}

uint64_t plain_card_set_length(struct plain_card *c, uint32_t bits,
                               uint32_t frame)
{
    if (c->enabled)
        return refused(3);
    if (!(bits == 16 && frame == 32) &&
        !(frame == 64 && (bits == 16 || bits == 24 || bits == 32)))
        return refused(23);
    c->bits = (uint8_t)bits;
    c->frame = (uint8_t)frame;
    return 0;
}

uint64_t plain_card_enable(struct plain_card *c)
{
    uint8_t half = c->frame, sample = (uint8_t)(2 * c->bits);

    if (c->enabled)
        return 0;
    c->first = c->protocol == 0 || c->protocol == 3 ? 2 : 0;
    c->second = (uint8_t)(c->first + (c->protocol == 3 ? sample : half));
    c->lead = c->protocol == 2 ? (uint8_t)(half - sample) : 0;
    c->last = (uint8_t)(c->lead + sample);
    c->turn = (uint8_t)(2 * half);
    c->active = c->protocol == 3 ? 2 : half;
    c->rest = c->protocol == 0;
    c->enabled = 1;
    c->place = c->busy = 0;
    c->sck = c->lrck = c->rest;
    c->sdo = 0;
    c->sending.count = c->unread.count = 0;
    return 0;
}

static void push(struct plain_ring *r, uint32_t sample)
{
    r->sample[(r->read + r->count++) % 8] = sample;
}

static uint32_t pop(struct plain_ring *r)
{
    uint32_t sample = r->sample[r->read];

    r->read = (r->read + 1) % 8;
    r->count--;
    return sample;
}

uint64_t plain_card_write(struct plain_card *c, uint32_t sample)
{
    if (!c->enabled)
        return refused(2);
    if (c->sending.count == 8)
        return refused(5);
    push(&c->sending,
         c->bits == 32 ? sample : sample & (((uint32_t)1 << c->bits) - 1));
    return 0;
}

uint64_t plain_card_read(struct plain_card *c)
{
    if (!c->enabled)
        return refused(2);
    if (c->unread.count == 0)
        return refused(6);
    return pop(&c->unread);
}

static void begin(struct plain_card *c)
{
    c->busy = 1;
    c->edges = 0;
    c->received = 0;
    c->zeros = c->sending.count == 0;
    if (c->zeros) {
        c->word = 0;
        c->underrun = 1;
    } else {
        c->word = pop(&c->sending);
    }
}

uint64_t plain_card_edge(struct plain_card *c, uint32_t sdi)
{
    if (!c->enabled)
        return refused(2);
    if ((c->place == c->first || c->place == c->second) && !c->busy)
        begin(c);
    if (!c->busy) {
        if (c->place % 2 == 0)
            c->sdo = 0;
    } else {
        if (c->edges % 2 == 0)
            c->sdo = c->edges >= c->lead &&
                     (c->word >> ((c->last - 2 - c->edges) / 2) & 1u);
        else if (c->edges >= c->lead)
            c->received = c->received << 1 | (sdi != 0);
        if (++c->edges == c->last) {
            c->busy = 0;
            if (c->unread.count == 8)
                c->overflow = 1;
            else
                push(&c->unread, c->received);
        }
    }
    c->lrck = (c->place < c->active) != c->rest;
    c->sck = !c->sck;
    if (++c->place == c->turn)
        c->place = 0;
    return 0;
}

uint32_t plain_card_pins(const struct plain_card *c)
{
    return (uint32_t)(c->sck | c->lrck << 1 | c->sdo << 2 | c->underrun << 4 |
                      c->overflow << 5);
}
