/* A console with a board of four modules. SPI1 and SPI2 are joined by a wire on
 * the board, SPI3 has its output joined to its input, and SPI4, which has
 * buffers of 16 words, is joined to nothing. The firmware names a module by its
 * place in the list, from 0. A screen shows how many words are still to be
 * sent. */
#include "thurafeqa.h"

#include <stdio.h>

enum { SPI1, SPI2, SPI3, SPI4, MODULES };

/* What a call told; a refusal is printed. */
static uint16_t told(const char *what, uint32_t answer)
{
    if (thurafeqa_refusal(answer) != 0)
        printf("port: %s refused with %d\n", what, thurafeqa_refusal(answer));
    return thurafeqa_value(answer);
}

static void open_module(thurafeqa_board *b, uint32_t n, uint16_t con1,
                        uint16_t con2)
{
    told("CON1 write", thurafeqa_board_write(b, n, THURAFEQA_CON1, con1));
    told("CON2 write", thurafeqa_board_write(b, n, THURAFEQA_CON2, con2));
    told("STAT write", thurafeqa_board_write(b, n, THURAFEQA_STAT,
                                             THURAFEQA_STAT_SPIEN));
}

static void print_board(thurafeqa_board *b)
{
    printf("owed %d, STAT", told("owed", thurafeqa_board_owes(b)));
    for (uint32_t n = 0; n < MODULES; n++)
        printf(" SPI%u %04X", (unsigned)n + 1,
               told("STAT read", thurafeqa_board_read(b, n, THURAFEQA_STAT)));
    printf("\n");
}

/* SPI1 sends a text to SPI2, two letters in a word, while SPI2 sends words of
 * its own. */
static void send_text(thurafeqa_board *b, const char *text)
{
    uint16_t edges;

    for (const char *c = text; *c != '\0'; c += 2) {
        told("BUF write",
             thurafeqa_board_write(b, SPI1, THURAFEQA_BUF,
                                   (uint32_t)c[0] << 8 | (uint32_t)c[1]));
        told("BUF write",
             thurafeqa_board_write(b, SPI2, THURAFEQA_BUF, 0x4F4B));
    }
    print_board(b);
    edges = told("linked run", thurafeqa_board_run(b, SPI1, SPI2, 544));
    printf("SPI1 and SPI2: %d edges\n", edges);
    print_board(b);
    printf("SPI2 read \"");
    for (const char *c = text; *c != '\0'; c += 2) {
        uint16_t word =
            told("BUF read", thurafeqa_board_read(b, SPI2, THURAFEQA_BUF));

        printf("%c%c", word >> 8, word & 0xFF);
    }
    printf("\"\n");
}

/* SPI3 sends a byte to itself, edge by edge. */
static void send_round(thurafeqa_board *b, uint8_t byte)
{
    int edges = 0;
    uint16_t seen;

    told("BUF write", thurafeqa_board_write(b, SPI3, THURAFEQA_BUF, byte));
    print_board(b);
    seen = told("levels", thurafeqa_board_levels(b, SPI3));
    for (;;) {
        seen = told("step", thurafeqa_board_clock_step(
                                b, SPI3, 0, seen & THURAFEQA_LEVELS_SDO, 0));
        if (seen & THURAFEQA_NO_EDGE)
            break;
        edges++;
    }
    printf("SPI3 read %02X after %d edges\n",
           told("BUF read", thurafeqa_board_read(b, SPI3, THURAFEQA_BUF)),
           edges);
}

/* SPI4 takes words until its transmit buffer is full: one is in the shift
 * register and 16 wait, which SPIBEC shows as 7. The first is sent, all its
 * edges in one call, while another comes in. Power-up drops the rest. */
static void fill_deep(thurafeqa_board *b)
{
    uint32_t words = 0, answer;

    told("power-up", thurafeqa_board_power_up_with(b, SPI4, 16));
    open_module(b, SPI4, THURAFEQA_CON1_MSTEN | THURAFEQA_CON1_MODE16,
                THURAFEQA_CON2_SPIBEN);
    while (thurafeqa_refusal(thurafeqa_board_write(b, SPI4, THURAFEQA_BUF,
                                                   0x1000 + words)) == 0)
        words++;
    printf("SPI4 took %u words\n", (unsigned)words);
    print_board(b);
    answer = thurafeqa_board_word(b, SPI4, 0, 0x600D);
    if (THURAFEQA_WORD_REFUSAL(answer) != 0)
        printf("port: word refused with %u\n",
               (unsigned)THURAFEQA_WORD_REFUSAL(answer));
    printf("SPI4 sent %04X and read %04X in one call\n",
           (unsigned)THURAFEQA_WORD_LEVELS(answer),
           told("BUF read", thurafeqa_board_read(b, SPI4, THURAFEQA_BUF)));
    print_board(b);
    told("power-up", thurafeqa_board_power_up_with(b, SPI4, 16));
    print_board(b);
}

int main(void)
{
    thurafeqa spi[MODULES + 1];
    thurafeqa_board board, longer = {spi, MODULES + 1, 0};

    told("start", thurafeqa_board_start(&board, spi, MODULES));
    open_module(&board, SPI1, THURAFEQA_CON1_MSTEN | THURAFEQA_CON1_MODE16,
                THURAFEQA_CON2_SPIBEN);
    open_module(&board, SPI2, THURAFEQA_CON1_SSEN | THURAFEQA_CON1_MODE16,
                THURAFEQA_CON2_SPIBEN);
    open_module(&board, SPI3, THURAFEQA_CON1_MSTEN, 0);
    send_text(&board, "OUTFIT 7");
    send_round(&board, 0xA5);
    print_board(&board);

    /* two words, one of them under way, are dropped by disabling */
    told("BUF write", thurafeqa_board_write(&board, SPI3, THURAFEQA_BUF, 1));
    told("BUF write", thurafeqa_board_write(&board, SPI3, THURAFEQA_BUF, 2));
    told("tick", thurafeqa_board_tick(&board, SPI3, 0, 0));
    print_board(&board);
    told("STAT write", thurafeqa_board_write(&board, SPI3, THURAFEQA_STAT, 0));
    print_board(&board);

    fill_deep(&board);

    /* what a port may get wrong: nothing changes */
    told("read of SPI5", thurafeqa_board_read(&board, 4, THURAFEQA_STAT));
    told("run of SPI1 with itself",
         thurafeqa_board_run(&board, SPI1, SPI1, 544));
    told("read on a board of five",
         thurafeqa_board_read(&longer, SPI1, THURAFEQA_STAT));
    told("question to a board of five", thurafeqa_board_owes(&longer));
    told("tick of SPI4", thurafeqa_board_tick(&board, SPI4, 0, 0));
    told("power-up of SPI4 with 12 words",
         thurafeqa_board_power_up_with(&board, SPI4, 12));
    print_board(&board);
    return 0;
}
