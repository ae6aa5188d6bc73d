/* Linked runs over the second model.
 *
 * link_examples    prints linked runs in every mode of clock and width, a
 *                  limit that is too high, one that stops after a word, and
 *                  runs with a framed end
 * link_examples l  prints example l of document 01, each module numbering
 *                  its own lines as a script would
 */
#include "ref_spi.h"
#include "script.h"

#include <stdio.h>
#include <string.h>

/* ---- runs in every mode ---------------------------------------------- */

/* A module set up with eight-word buffers and turned on, a frame host if it
 * is framed. */
static struct ref_spi enabled(unsigned con1, int framed)
{
    struct ref_spi m;

    ref_power_up(&m);
    ref_write(&m, 1, con1);
    ref_write(&m, 2, framed ? 0x8001 : 0x0001);
    ref_write(&m, 0, 0x8000);
    return m;
}

/* Eight words to send, each one step above the last. */
static void fill(struct ref_spi *m, unsigned first, unsigned step)
{
    unsigned k;

    for (k = 0; k < 8; k++)
        ref_write(m, 3, (first + k * step) & 0xFFFFu);
}

/* Nine reads, one more than a buffer can answer; E is a refused one. */
static void print_reads(struct ref_spi *m)
{
    int k;

    for (k = 0; k < 9; k++) {
        unsigned v;

        if (ref_read(m, 3, &v) == 0)
            printf(" %04X", v);
        else
            printf(" E");
    }
    printf("\n");
}

/* The rest of a run's line, then what the host read, then what the client
 * read. */
static void print_pair(struct ref_spi host, struct ref_spi client,
                       unsigned limit)
{
    unsigned used = 0;
    int r;

    fill(&host, 0xA5C3, 0x1111);
    fill(&client, 0x3C5A, 0x0F0F);
    r = ref_linked(&host, &client, limit, &used);
    if (r == 0)
        printf(" used %u\n", used);
    else
        printf(" E %d\n", r);
    print_reads(&host);
    print_reads(&client);
}

static void print_run(int ckp, int cke, int wide, unsigned limit)
{
    unsigned common =
        (ckp ? 0x0040u : 0) | (cke ? 0x0100u : 0) | (wide ? 0x0400u : 0);

    printf("CKP %d CKE %d w %2d:", ckp, cke, wide ? 16 : 8);
    print_pair(enabled(common | 0x0020u, 0), enabled(common | 0x0080u, 0),
               limit);
}

static void print_runs(void)
{
    int wide, ckp, cke;

    for (wide = 0; wide < 2; wide++)
        for (ckp = 0; ckp < 2; ckp++)
            for (cke = 0; cke < 2; cke++)
                print_run(ckp, cke, wide, 544);
    print_run(0, 0, 1, 545);
    print_run(0, 0, 1, 32);
    printf("framed host:");
    print_pair(enabled(0x0420, 1), enabled(0x0480, 0), 544);
    printf("framed client:");
    print_pair(enabled(0x0420, 0), enabled(0x0480, 1), 544);
}

/* ---- example l ------------------------------------------------------- */

struct talk {
    struct ref_spi m;
    unsigned long number; /* lines said so far */
};

static void say(struct talk *t, const char *line)
{
    t->number++;
    script_line(&t->m, t->number, (const unsigned char *)line, strlen(line),
                stdout);
}

static int example_l(void)
{
    struct talk host = {0}, client = {0};
    unsigned used = 0;
    int r;

    ref_power_up(&host.m);
    ref_power_up(&client.m);

    say(&host, "W 1 0020");
    say(&host, "W 0 8000");
    say(&host, "W 3 00A5");
    say(&client, "W 0 8000"); /* CON1 is 0000 from power-up */
    say(&client, "W 3 003C");

    r = ref_linked(&host.m, &client.m, 16, &used);
    if (r != 0 || used != 16) {
        printf("linked run: answer %d, %u edges used\n", r, used);
        return 1;
    }

    say(&host, "R 3");
    say(&client, "R 3");
    say(&host, "T 0"); /* no edge: nothing is left to send */
    return 0;
}

int main(int argc, char **argv)
{
    if (argc == 2 && strcmp(argv[1], "l") == 0)
        return example_l();
    if (argc != 1) {
        fprintf(stderr, "usage: link_examples [l]\n");
        return 2;
    }
    print_runs();
    return 0;
}
