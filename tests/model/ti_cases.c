/* Plays cases of the TI module from standard input, a line each, and prints
 * what they answer and show. A line that begins with # is printed as it is.
 *
 *   new                              power-up
 *   len N                            character length
 *   mode MASTER TALK POLARITY PHASE
 *   reset 0, reset 1                 enter software reset, leave it
 *   w XXXX, r                        write and read, hexadecimal
 *   t SDI                            a tick: SCK and SDO after it, N if no edge
 *   p SCK SDI STE                    the pins of a slave: SDO after it
 *   clr                              clear the overrun flag
 *   S                                the flags
 *   D                                levels, flags and what is held: a character
 *                                    to be sent with its edges, left-justified
 *   brr SPIBRR LSPCLK                the rate, as the bits of a 64-bit float
 */
#include <inttypes.h>
#include <stdio.h>
#include <string.h>

#include "ti.h"

static char level(int sdo)
{
    return "01Z"[sdo];
}

static unsigned left(const struct ti_place *p)
{
    unsigned v = 0;
    int i;

    for (i = 0; i < 16; i++)
        v = v << 1 | (unsigned)p->bit[i];
    return v;
}

static void say(int refusal)
{
    if (refusal)
        printf("E %d\n", refusal);
    else
        puts("OK");
}

static void dump(const struct ti *m)
{
    printf("LEN=%d SCK=%d SDO=%c OV=%d INT=%d TX=[", m->length, m->sck,
           level(ti_sdo(m)), m->overrun, m->interrupt);
    if (m->tx.held)
        printf("%04X", left(&m->tx));
    printf("] SH=");
    if (m->shift.held)
        printf("%04X:%d", left(&m->shift), m->edges);
    else
        putchar('-');
    printf(" RX=[");
    if (m->rx.held)
        printf("%04X", left(&m->rx) >> (16 - m->length));
    puts("]");
}

int main(void)
{
    struct ti m;
    char line[80];
    unsigned a, b, c, d;

    ti_power_up(&m);
    while (fgets(line, sizeof line, stdin)) {
        line[strcspn(line, "\n")] = 0;
        if (line[0] == '#') {
            puts(line);
        } else if (!strcmp(line, "new")) {
            ti_power_up(&m);
            say(0);
        } else if (sscanf(line, "len %u", &a) == 1) {
            say(ti_set_length(&m, a));
        } else if (sscanf(line, "mode %u %u %u %u", &a, &b, &c, &d) == 4) {
            say(ti_set_mode(&m, (int)a, (int)b, (int)c, (int)d));
        } else if (sscanf(line, "reset %u", &a) == 1) {
            if (a)
                ti_leave_reset(&m);
            else
                ti_enter_reset(&m);
            say(0);
        } else if (sscanf(line, "w %x", &a) == 1) {
            say(ti_write(&m, a));
        } else if (!strcmp(line, "r")) {
            int refusal = ti_read(&m, &a);

            if (refusal)
                say(refusal);
            else
                printf("%04X\n", a);
        } else if (sscanf(line, "t %u", &a) == 1) {
            int refusal = ti_tick(&m, (int)a);

            if (refusal == TI_NO_EDGE)
                puts("N");
            else if (refusal)
                say(refusal);
            else
                printf("%d %c\n", m.sck, level(ti_sdo(&m)));
        } else if (sscanf(line, "p %u %u %u", &a, &b, &c) == 3) {
            int refusal = ti_pins(&m, (int)a, (int)b, (int)c);

            if (refusal)
                say(refusal);
            else
                printf("%c\n", level(ti_sdo(&m)));
        } else if (!strcmp(line, "clr")) {
            ti_clear_overrun(&m);
            say(0);
        } else if (!strcmp(line, "S")) {
            printf("OV=%d INT=%d TXFULL=%d\n", m.overrun, m.interrupt,
                   m.tx.held);
        } else if (!strcmp(line, "D")) {
            dump(&m);
        } else if (sscanf(line, "brr %u %u", &a, &b) == 2) {
            double rate = ti_rate(a, b);
            uint64_t bits;

            memcpy(&bits, &rate, sizeof bits);
            printf("%016" PRIx64 "\n", bits);
        } else {
            printf("? %s\n", line);
            return 1;
        }
    }
    return 0;
}
