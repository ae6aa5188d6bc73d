/* A small port: firmware reads a receipt out of a cartridge's memory, through
 * the library's module as host in SPI mode 0. The parts stand in the order in
 * which a word travels from the wire to the firmware: the board with its wires
 * and its clock, the CPU's bus, the firmware, and a day of it. */
#include "eeprom.h"
#include "thurafeqa.h"

#include <stdio.h>
#include <string.h>

/* ---- the board ------------------------------------------------------- */

#define CYCLES_A_SECOND 40000000u

struct board {
    thurafeqa spi;
    struct eeprom memory;
    bool cs;             /* a port pin, which selects the memory when low */
    uint32_t cycles;     /* instruction cycles since power-up */
    uint32_t bit_cycles; /* instruction cycles in a bit, 0 without a clock */
    uint32_t phase;      /* half cycles since the last edge was due */
};

static const char *const name[] = {"STAT", "CON1", "CON2", "BUF"};

/* Shows the module's levels and the port pin to the memory. */
static void show_wires(struct board *b, uint32_t levels)
{
    eeprom_pins(&b->memory, b->cs, levels & THURAFEQA_LEVELS_SCK,
                levels & THURAFEQA_LEVELS_SDO);
}

/* One edge: SDI has the level from before it, the memory sees the levels after
 * it, which the answer tells. A resistor pulls SDI up while the memory does not
 * drive it. SCK and SS do not count at this host. */
static void edge(struct board *b)
{
    bool sdi = b->memory.driven ? b->memory.so : true;
    uint32_t answer = thurafeqa_clock_step(&b->spi, 0, sdi, 0);

    if (thurafeqa_refusal(answer) != 0)
        printf("port: step refused with %d\n", thurafeqa_refusal(answer));
    else if (!(answer & THURAFEQA_NO_EDGE))
        show_wires(b, answer);
}

/* One instruction cycle. Two edges fall into a bit's cycles. */
static void cycle(struct board *b)
{
    b->cycles++;
    if (b->bit_cycles == 0)
        return;
    b->phase += 2;
    if (b->phase >= b->bit_cycles) {
        b->phase -= b->bit_cycles;
        edge(b);
    }
}

/* Asks how long a bit is, if the module now has a clock of its own. */
static void set_clock(struct board *b)
{
    thurafeqa_clock_report report;
    uint32_t answer = thurafeqa_clock(&b->spi, CYCLES_A_SECOND, &report);

    b->phase = 0;
    b->bit_cycles = 0;
    if (thurafeqa_refusal(answer) != 0)
        printf("port: clock refused with %d\n", thurafeqa_refusal(answer));
    else if (thurafeqa_value(answer) == THURAFEQA_CLOCK_INTERNAL)
        b->bit_cycles = (uint32_t)(report.bittime * CYCLES_A_SECOND + 0.5);
}

static void power_up(struct board *b, const uint8_t *bytes)
{
    thurafeqa_power_up(&b->spi);
    eeprom_power_up(&b->memory, bytes);
    b->cs = true;
    b->cycles = 0;
    set_clock(b);
    show_wires(b, thurafeqa_levels(&b->spi));
}

/* ---- the CPU's bus --------------------------------------------------- */

/* A load takes a cycle, then reads. What is refused shows 0 on the bus: never
 * a word from before. */
static uint16_t load(struct board *b, uint32_t number)
{
    uint32_t answer;

    cycle(b);
    answer = thurafeqa_read(&b->spi, number);
    if (thurafeqa_refusal(answer) != 0) {
        printf("port: %s read refused with %d\n", name[number],
               thurafeqa_refusal(answer));
        return 0;
    }
    return thurafeqa_value(answer);
}

/* A store takes a cycle, then writes. What is refused has changed nothing. */
static void store(struct board *b, uint32_t number, uint16_t value)
{
    uint32_t answer;

    cycle(b);
    answer = thurafeqa_write(&b->spi, number, value);
    if (thurafeqa_refusal(answer) != 0) {
        printf("port: %s write refused with %d\n", name[number],
               thurafeqa_refusal(answer));
        return;
    }
    if (number == THURAFEQA_STAT)
        set_clock(b);
    show_wires(b, thurafeqa_levels(&b->spi));
}

/* A store to the port pin. */
static void store_cs(struct board *b, bool level)
{
    cycle(b);
    b->cs = level;
    show_wires(b, thurafeqa_levels(&b->spi));
}

/* ---- the firmware ---------------------------------------------------- */

/* Mode 0, words of 8 bits, prescalers 4:1 and 2:1. */
static void spi_open(struct board *b)
{
    store(b, THURAFEQA_CON1,
          THURAFEQA_CON1_MSTEN | THURAFEQA_CON1_CKE |
              6u << THURAFEQA_CON1_SPRE_SHIFT |
              2u << THURAFEQA_CON1_PPRE_SHIFT);
    store(b, THURAFEQA_STAT, THURAFEQA_STAT_SPIEN);
}

static void spi_close(struct board *b)
{
    store(b, THURAFEQA_STAT, 0);
}

/* Sends a byte and waits for the one that comes back with it. */
static uint8_t spi_exchange(struct board *b, uint8_t out)
{
    store(b, THURAFEQA_BUF, out);
    while ((load(b, THURAFEQA_STAT) & THURAFEQA_STAT_SPIRBF) == 0)
        ;
    return (uint8_t)load(b, THURAFEQA_BUF);
}

static void memory_select(struct board *b, uint16_t address)
{
    store_cs(b, false);
    spi_exchange(b, EEPROM_READ);
    spi_exchange(b, (uint8_t)(address >> 8));
    spi_exchange(b, (uint8_t)address);
}

static void memory_read(struct board *b, uint16_t address, char *to, int count)
{
    memory_select(b, address);
    for (int i = 0; i < count; i++)
        to[i] = (char)spi_exchange(b, 0);
    store_cs(b, true);
}

/* ---- a day of it ----------------------------------------------------- */

#define RECEIPT_AT 0x01A0u
#define RECEIPT "RECEIPT 0042: OUTFIT 7, PAID"

enum { RECEIPT_BYTES = sizeof RECEIPT - 1 };

static void read_receipt(struct board *b)
{
    char receipt[RECEIPT_BYTES];
    uint32_t before = b->cycles;

    memory_read(b, RECEIPT_AT, receipt, RECEIPT_BYTES);
    printf("firmware: read \"%.*s\" in %u cycles\n", RECEIPT_BYTES, receipt,
           (unsigned)(b->cycles - before));
}

/* Nothing has arrived since the receipt's last byte was read. */
static void read_once_more(struct board *b)
{
    uint8_t last = (uint8_t)RECEIPT[RECEIPT_BYTES - 1];
    uint8_t byte = (uint8_t)load(b, THURAFEQA_BUF);

    printf("firmware: read %02X, the receipt was %s again\n", byte,
           byte == last ? "SERVED" : "not served");
}

/* Deselects the memory and disables the module within a byte: all that was
 * under way is forgotten, at both ends of the wire. */
static void abort_transfer(struct board *b)
{
    memory_select(b, RECEIPT_AT);
    store(b, THURAFEQA_BUF, 0);
    for (int i = 0; i < 20; i++)
        load(b, THURAFEQA_STAT);
    store_cs(b, true);
    spi_close(b);
    printf("firmware: aborted within a byte, STAT %04X\n",
           load(b, THURAFEQA_STAT));
}

int main(void)
{
    static uint8_t bytes[EEPROM_SIZE];
    struct board b;

    memset(bytes, 0xFF, sizeof bytes);
    memcpy(bytes + RECEIPT_AT, RECEIPT, RECEIPT_BYTES);
    power_up(&b, bytes);

    spi_open(&b);
    printf("port: a bit takes %u cycles\n", (unsigned)b.bit_cycles);
    read_receipt(&b);
    read_once_more(&b);

    abort_transfer(&b);
    read_once_more(&b);
    spi_open(&b);
    read_once_more(&b);
    read_receipt(&b);
    return 0;
}
