/* The board and its firmware. The parts stand in the order in which a word
 * travels from the wire to the firmware: the wires, a word on them, the CPU's
 * bus, the firmware. */
#include "port.h"

#include <stdlib.h>
#include <string.h>

#define CYCLES_A_SECOND 40000000u
#define RATE 5000000u /* of SCK, until another is asked for */
#define REST 1000000u /* nanoseconds */

/* Nothing that this firmware does is refused. */
static uint32_t done(const char *what, uint32_t answer)
{
    if (thurafeqa_refusal(answer) != 0) {
        fprintf(stderr, "port: %s refused with %d\n", what,
                thurafeqa_refusal(answer));
        exit(1);
    }
    return answer;
}

/* ---- the wires ---------------------------------------------------------- */

/* The level at SDI: a resistor pulls it up while the chip does not drive it. */
static bool sdi(const struct port *p)
{
    return p->chip.driven ? p->chip.so : true;
}

/* The pins as a logic analyser would name them, one letter each. */
static void begin_pins(struct port *p)
{
    fputs("$timescale 1 ns $end\n$scope module board $end\n"
          "$var wire 1 k sck $end\n$var wire 1 i si $end\n"
          "$var wire 1 o so $end\n$var wire 1 s cs $end\n"
          "$upscope $end\n$enddefinitions $end\n#0\n",
          p->pins);
    p->written = -1;
}

/* Writes the levels down, each that is unlike the last. */
static void write_pins(struct port *p, uint32_t levels)
{
    int now = (levels & THURAFEQA_LEVELS_SCK ? 1 : 0) |
              (levels & THURAFEQA_LEVELS_SDO ? 2 : 0) | (sdi(p) ? 4 : 0) |
              (p->cs ? 8 : 0);
    int changed = p->written < 0 ? 15 : now ^ p->written;

    if (changed != 0 && p->written_at != p->time)
        fprintf(p->pins, "#%llu\n", (unsigned long long)p->time);
    for (int i = 0; i < 4; i++)
        if (changed >> i & 1)
            fprintf(p->pins, "%d%c\n", now >> i & 1, "kios"[i]);
    p->written = now;
    if (changed != 0)
        p->written_at = p->time;
}

/* Shows the module's levels and the port pin to the chip. */
static void show_wires(struct port *p, uint32_t levels)
{
    flash_pins(&p->chip, p->cs, levels & THURAFEQA_LEVELS_SCK,
               levels & THURAFEQA_LEVELS_SDO);
    if (p->pins)
        write_pins(p, levels);
}

/* One edge: SDI has the level from before it, the chip sees the levels after
 * it, which the answer tells. False if there was no word to send. */
static bool edge(struct port *p)
{
    uint32_t answer = done("step", thurafeqa_clock_step(&p->spi, 0, sdi(p), 0));

    if (answer & THURAFEQA_NO_EDGE)
        return false;
    p->time += p->half_bit;
    show_wires(p, answer);
    p->edges++;
    return true;
}

/* Moves one word: all edges of the word that is in the shift register. The
 * words behind it wait, and the first of them is loaded with the last edge. */
static void move_word(struct port *p)
{
    for (int i = 0; i < 16; i++)
        if (!edge(p)) {
            fprintf(stderr, "port: a word ended after %d edges\n", i);
            exit(1);
        }
    p->words++;
}

/* The same by one call. Which word goes out is known before, so its edges are
 * shown to the chip first, and the chip's bits are the word that comes in. */
static void move_whole_word(struct port *p)
{
    uint32_t word = thurafeqa_next(&p->spi) & 0xFFu, in = 0, answer;
    int late = p->con1 & THURAFEQA_CON1_CKE ? 1 : 0; /* SDO is a bit ahead */
    bool sck = p->con1 & THURAFEQA_CON1_CKP;

    for (int i = 0; i < 16; i++) {
        int bit = 7 - (i + late) / 2; /* that SDO shows after this edge */

        if (i % 2 != late)
            in = in << 1 | sdi(p);
        sck = !sck;
        p->time += p->half_bit;
        show_wires(p, (sck ? THURAFEQA_LEVELS_SCK : 0) |
                          (word >> (bit < 0 ? 0 : bit) & 1
                               ? THURAFEQA_LEVELS_SDO
                               : 0));
        p->edges++;
    }
    answer = thurafeqa_word(&p->spi, 0, in);
    if (THURAFEQA_WORD_REFUSAL(answer) != 0 ||
        THURAFEQA_WORD_COUNT(answer) != 8 ||
        THURAFEQA_WORD_LEVELS(answer) != word) {
        fprintf(stderr, "port: a word call told %08lX of %02lX\n",
                (unsigned long)answer, (unsigned long)word);
        exit(1);
    }
    show_wires(p, thurafeqa_levels(&p->spi));
    p->words++;
}

/* ---- the CPU's bus ------------------------------------------------------ */

static uint16_t load(struct port *p, uint32_t number)
{
    return thurafeqa_value(done("load", thurafeqa_read(&p->spi, number)));
}

static void store(struct port *p, uint32_t number, uint16_t value)
{
    done("store", thurafeqa_write(&p->spi, number, value));
    show_wires(p, thurafeqa_levels(&p->spi));
}

/* A store to the port pin, half a bit behind what came before. */
static void store_cs(struct port *p, bool level)
{
    p->time += p->half_bit;
    p->cs = level;
    show_wires(p, thurafeqa_levels(&p->spi));
}

/* ---- the firmware ------------------------------------------------------- */

/* Disables the module and enables it with these prescalers; tells its rate. */
static uint32_t spi_open(struct port *p, uint16_t prescalers)
{
    thurafeqa_clock_report report;

    store(p, THURAFEQA_STAT, 0);
    store(p, THURAFEQA_CON1, p->con1 | prescalers);
    store(p, THURAFEQA_CON2, p->enhanced ? THURAFEQA_CON2_SPIBEN : 0);
    store(p, THURAFEQA_STAT, THURAFEQA_STAT_SPIEN);
    done("clock", thurafeqa_clock(&p->spi, CYCLES_A_SECOND, &report));
    p->half_bit = (uint32_t)(report.bittime / 2 * 1e9 + 0.5);
    return (uint32_t)report.rate;
}

/* Takes what has arrived; the number of words. */
static size_t take_words(struct port *p, uint8_t *in)
{
    size_t n = 0;

    if (!p->enhanced)
        in[n++] = (uint8_t)load(p, THURAFEQA_BUF);
    while (p->enhanced && !(load(p, THURAFEQA_STAT) & THURAFEQA_STAT_SRXMPT))
        in[n++] = (uint8_t)load(p, THURAFEQA_BUF);
    return n;
}

/* Keeps the transmit buffer full and takes words as soon as the receive buffer
 * is: the words follow each other without a gap. */
static void exchange(struct port *p, const uint8_t *out, uint8_t *in,
                     size_t count)
{
    size_t sent = 0, moved = 0, taken = 0;

    while (moved < count) {
        while (sent < count &&
               !(load(p, THURAFEQA_STAT) & THURAFEQA_STAT_SPITBF))
            store(p, THURAFEQA_BUF, out[sent++]);
        if (sent - moved > p->most)
            p->most = (unsigned)(sent - moved);
        if (p->whole)
            move_whole_word(p);
        else
            move_word(p);
        moved++;
        if (moved == count || (load(p, THURAFEQA_STAT) & THURAFEQA_STAT_SPIRBF))
            taken += take_words(p, in + taken);
    }
    if (taken != count || edge(p) ||
        (load(p, THURAFEQA_STAT) & THURAFEQA_STAT_SPIROV)) {
        fprintf(stderr, "port: words were lost, or are left\n");
        exit(1);
    }
}

void port_operation(struct port *p, const uint8_t *out, uint8_t *in,
                    size_t count)
{
    store_cs(p, false);
    exchange(p, out, in, count);
    store_cs(p, true);
    p->operations++;
}

void port_rest(struct port *p)
{
    p->time += REST;
    if (p->pins) {
        fprintf(p->pins, "#%llu\n", (unsigned long long)p->time);
        p->written_at = p->time;
        fflush(p->pins);
    }
}

uint32_t port_rate(struct port *p, uint32_t hertz)
{
    static const uint32_t primary[] = {64, 16, 4, 1};
    uint32_t best = 0;
    uint16_t prescalers = 0;

    for (uint16_t i = 0; i < 31; i++) {
        uint32_t divider = primary[i & 3] * (8u - (i >> 2));
        uint32_t rate = CYCLES_A_SECOND / divider;

        if (rate > best && rate <= hertz) {
            best = rate;
            prescalers = i;
        }
    }
    return spi_open(p, prescalers);
}

void port_power_up(struct port *p, unsigned mode, unsigned depth, bool whole,
                   FILE *pins)
{
    memset(p, 0, sizeof *p);
    flash_power_up(&p->chip);
    p->cs = true;
    p->con1 = THURAFEQA_CON1_MSTEN | (mode & 2 ? THURAFEQA_CON1_CKP : 0) |
              (mode & 1 ? 0 : THURAFEQA_CON1_CKE);
    p->enhanced = depth != 0;
    p->whole = whole;
    p->pins = pins;
    if (pins)
        begin_pins(p);
    if (p->enhanced)
        done("power-up", thurafeqa_power_up_with(&p->spi, depth));
    else
        thurafeqa_power_up(&p->spi);
    port_rate(p, RATE);
}
