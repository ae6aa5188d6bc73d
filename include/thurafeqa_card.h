/* The audio card of request Nine, for programs in C or C++: I2S, left
 * justified, right justified and PCM/DSP, host only, stereo, with buffers of 8
 * samples each way. docs/AUDIO.md has a picture of each protocol.
 *
 * A player that sends two samples and hears what comes back:
 *
 *     thurafeqa_card c;
 *     int clocks;
 *     thurafeqa_card_power_up(&c);
 *     thurafeqa_card_set_protocol(&c, THURAFEQA_CARD_LEFT_JUSTIFIED);
 *     thurafeqa_card_enable(&c);
 *     thurafeqa_card_write(&c, left);
 *     thurafeqa_card_write(&c, right);
 *     for (clocks = 0; clocks < 32; clocks++) {
 *         thurafeqa_card_edge(&c, 0);
 *         show(thurafeqa_card_look(&c));
 *         thurafeqa_card_edge(&c, sdi_level());
 *     }
 *     answer = thurafeqa_card_read(&c);
 *     if (thurafeqa_card_refusal(answer) == 0)
 *         use_sample(thurafeqa_card_sample(answer));
 *
 * Memory. A card is memory that the caller holds and only the library
 * understands. thurafeqa_card_power_up must set it first; memory that it has
 * not set is safe to pass, but which card it stands for is open. Copying the
 * struct copies the card. Every call takes any card and any argument, and ends;
 * it asks only that its pointer points to a whole thurafeqa_card and that no
 * other call changes that card meanwhile.
 *
 * Answers. The upper 32 bits of an answer are the refusal number, 0 if the call
 * was done; the lower 32 bits are the sample that was read. A refused call
 * leaves every number of the card as it was. Levels are numbers: 0 is low,
 * anything else is high. */
#ifndef THURAFEQA_CARD_H
#define THURAFEQA_CARD_H

#include <stdint.h>

#ifdef __cplusplus
extern "C" {
#endif

/* The format of a card's memory. It rises wherever the meaning of the numbers
 * changes, so save it beside them. */
#define THURAFEQA_CARD_FORMAT 1u

/* One card. */
typedef struct {
    uint32_t memory[40];
} thurafeqa_card;

typedef char thurafeqa_card_has_160_bytes[sizeof(thurafeqa_card) == 160 ? 1
                                                                        : -1];

/* Refusal numbers. */
#define THURAFEQA_CARD_DISABLED 2u      /* a sample or an edge, disabled */
#define THURAFEQA_CARD_ENABLED 3u       /* a setting while enabled */
#define THURAFEQA_CARD_TRANSMIT_FULL 5u /* eight samples wait */
#define THURAFEQA_CARD_RECEIVE_EMPTY 6u /* no sample is unread */
#define THURAFEQA_CARD_NOT_NAMED 23u    /* a length and frame not named */

static inline uint32_t thurafeqa_card_refusal(uint64_t answer)
{
    return (uint32_t)(answer >> 32);
}

/* A refusal number in words, for a log. It is never null; 0 is "not refused",
 * and a number that is not in the list above is "no such refusal". */
static inline const char *thurafeqa_card_refusal_text(uint32_t number)
{
    switch (number) {
    case 0:
        return "not refused";
    case THURAFEQA_CARD_DISABLED:
        return "the card is disabled";
    case THURAFEQA_CARD_ENABLED:
        return "the card is enabled";
    case THURAFEQA_CARD_TRANSMIT_FULL:
        return "eight samples wait";
    case THURAFEQA_CARD_RECEIVE_EMPTY:
        return "no sample is unread";
    case THURAFEQA_CARD_NOT_NAMED:
        return "no card has this length and frame";
    default:
        return "no such refusal";
    }
}

static inline uint32_t thurafeqa_card_sample(uint64_t answer)
{
    return (uint32_t)(answer & 0xFFFFFFFFu);
}

/* Protocols. */
#define THURAFEQA_CARD_I2S 0u
#define THURAFEQA_CARD_LEFT_JUSTIFIED 1u
#define THURAFEQA_CARD_RIGHT_JUSTIFIED 2u
#define THURAFEQA_CARD_PCM_DSP 3u

/* Power-up: I2S with 16 bits in 32 clocks, disabled, everything else 0. The
 * memory may hold anything before. Never refused. */
void thurafeqa_card_power_up(thurafeqa_card *c);

/* Sets the protocol by the low two bits of a number. Refusals: 3. */
uint64_t thurafeqa_card_set_protocol(thurafeqa_card *c, uint32_t protocol);

/* Sets the bits of a sample and the clocks of a frame: 16 in 32; 16, 24 or 32
 * in 64. Refusals: 3, then 23. */
uint64_t thurafeqa_card_set_length(thurafeqa_card *c, uint32_t bits,
                                   uint32_t frame);

/* Enables the card: nothing is held, the clock is idle, LRCK is inactive and
 * SDO 0. An enabled card stays as it is. Never refused. */
uint64_t thurafeqa_card_enable(thurafeqa_card *c);

/* Disables the card, which empties it; the pins keep their levels, and the
 * flags stay. A disabled card stays as it is. Never refused. */
uint64_t thurafeqa_card_disable(thurafeqa_card *c);

/* Writes a sample, of which the low bits of its length are kept. It waits until
 * its channel's first place. Refusals: 2, then 5. */
uint64_t thurafeqa_card_write(thurafeqa_card *c, uint32_t sample);

/* Reads the oldest unread sample. Refusals: 2, then 6. */
uint64_t thurafeqa_card_read(thurafeqa_card *c);

/* One edge of the clock, with the level at SDI: the first edge of a clock
 * changes LRCK and SDO, the second one samples SDI. Refusals: 2. */
uint64_t thurafeqa_card_edge(thurafeqa_card *c, uint32_t sdi);

/* Each clears its flag, in any state. Never refused. */
void thurafeqa_card_clear_underrun(thurafeqa_card *c);
void thurafeqa_card_clear_overflow(thurafeqa_card *c);

/* A look at the card, with the parts below. */
uint32_t thurafeqa_card_look(const thurafeqa_card *c);

#define THURAFEQA_CARD_SCK 0x1u
#define THURAFEQA_CARD_LRCK 0x2u
#define THURAFEQA_CARD_SDO 0x4u      /* 0 if it is not driven */
#define THURAFEQA_CARD_DRIVEN 0x8u   /* SDO is driven: the card is enabled */
#define THURAFEQA_CARD_UNDERRUN 0x10u
#define THURAFEQA_CARD_OVERFLOW 0x20u
#define THURAFEQA_CARD_RIGHT 0x40u   /* the right channel takes a sample next */

static inline uint32_t thurafeqa_card_waiting(uint32_t look)
{
    return look >> 8 & 0xFu;
}

static inline uint32_t thurafeqa_card_unread(uint32_t look)
{
    return look >> 12 & 0xFu;
}

static inline uint32_t thurafeqa_card_protocol(uint32_t look)
{
    return look >> 16 & 0x3u;
}

static inline uint32_t thurafeqa_card_bits(uint32_t look)
{
    return look >> 18 & 0x3Fu;
}

static inline uint32_t thurafeqa_card_frame(uint32_t look)
{
    return look >> 24 & 0x7Fu;
}

#ifdef __cplusplus
}
#endif

#endif
