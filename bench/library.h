/* The functions of the proved library that the benchmark calls. A module is
 * memory of 96 numbers that the caller holds. */
#ifndef LIBRARY_H
#define LIBRARY_H

#include <stddef.h>
#include <stdint.h>

#define THURAFEQA_NUMBERS 96

void thurafeqa_power_up(uint16_t *m);
uint32_t thurafeqa_power_up_with(uint16_t *m, uint32_t depth);
uint32_t thurafeqa_read(uint16_t *m, uint32_t reg);
uint32_t thurafeqa_write(uint16_t *m, uint32_t reg, uint32_t value);
uint32_t thurafeqa_tick(uint16_t *m, uint32_t sdi, uint32_t ss);
uint32_t thurafeqa_pins(uint16_t *m, uint32_t sck, uint32_t sdi, uint32_t ss);
uint32_t thurafeqa_clock_step(uint16_t *m, uint32_t sck, uint32_t sdi,
                              uint32_t ss);
uint32_t thurafeqa_word(uint16_t *m, uint32_t ss, uint32_t word);
void thurafeqa_clear(uint16_t *m);
uint32_t thurafeqa_levels(const uint16_t *m);
uint32_t thurafeqa_linked(uint16_t *host, uint16_t *client, uint32_t limit);

struct thurafeqa_clock {
    double rate, bittime, below;
};
uint32_t thurafeqa_clock(const uint16_t *m, uint32_t rate,
                         struct thurafeqa_clock *report);
uint32_t thurafeqa_play(uint16_t *m, const uint8_t *file, size_t length);
uint64_t thurafeqa_salvage(const uint8_t *file, size_t length,
                           uint8_t *salvaged, size_t room);

#endif
