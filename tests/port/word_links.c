/* Linked runs of the library beside the second model's, which goes edge by edge,
 * on random pairs: of every mode, width and depth, with SDO off at either end,
 * with limits that end between words and inside one, and begun inside a word at
 * either end.
 *
 *   word_links RUNS SEED
 *
 * The library makes whole words at once while both ends are at a word's
 * beginning, and turns otherwise. Which it did is seen in its memory: number 67
 * counts the edges of a word that is begun. It means nothing while none is, so a
 * mark is put there, and a turn that begins a word writes over it. It fails if
 * words that can be made at once were not, and if a way, a mode, a depth or an
 * end was never met.
 * Exit 0: no difference, and all met. Exit 1: a difference, or something was not
 * met; it is printed. Exit 2: bad usage. */
#include <stdio.h>
#include <stdlib.h>
#include <string.h>

#include "ref_spi.h"
#include "thurafeqa.h"

enum { EDGES = 67, MARK = 0x5A5A };

static uint64_t state;

static uint32_t some(void)
{
    state ^= state << 13;
    state ^= state >> 7;
    state ^= state << 17;
    return (uint32_t)(state >> 16);
}

static uint32_t below(uint32_t n) { return some() % n; }

struct side {
    thurafeqa library;
    struct ref_spi model;
};

/* Whether both show the same registers and levels; reads are made on copies. */
static int alike(const struct side *s)
{
    thurafeqa a = s->library;
    struct ref_spi b = s->model;
    uint32_t r, levels = thurafeqa_levels(&a);
    int sdo = REF_UNDRIVEN;

    if (levels & THURAFEQA_LEVELS_DRIVEN)
        sdo = !!(levels & THURAFEQA_LEVELS_SDO);
    if ((levels & THURAFEQA_LEVELS_INTERRUPT) != (uint32_t)ref_flag(&b) ||
        !(levels & THURAFEQA_LEVELS_SCK) != !ref_sck(&b) || ref_sdo(&b) != sdo)
        return 0;
    for (r = 0; r < 4; r++) {
        unsigned value = 0;
        int number = ref_read(&b, r, &value);

        if (thurafeqa_read(&a, r) != (number ? (uint32_t)number << 16 : value))
            return 0;
    }
    return 1;
}

static void put(struct side *s, uint32_t r, uint32_t v)
{
    (void)thurafeqa_write(&s->library, r, v);
    (void)ref_write(&s->model, r, v);
}

/* A host and a client that can mostly be linked. */
static void set_up(struct side *host, struct side *client)
{
    static const uint32_t depths[] = {4, 8, 16};
    uint32_t mode = some() & 0x0540u; /* MODE16, CKE, CKP */
    uint32_t d = depths[below(3)];
    uint32_t ssen = mode & 0x100u || below(2) ? 0x80u : 0;

    (void)thurafeqa_power_up_with(&host->library, d);
    (void)ref_power_up_depth(&host->model, d);
    d = depths[below(3)];
    (void)thurafeqa_power_up_with(&client->library, d);
    (void)ref_power_up_depth(&client->model, d);
    put(host, 1, mode | 0x20u | (below(4) == 0 ? 0x800u : 0));
    if (below(12) == 0)
        mode ^= 1u << (6 + 2 * below(3)); /* another mode or width: refused */
    put(client, 1, mode | ssen | (below(4) == 0 ? 0x800u : 0));
    put(host, 2, below(4) != 0);
    put(client, 2, below(4) != 0);
    put(host, 0, 0x8000u | (some() & 0x1Cu));
    put(client, 0, 0x8000u | (some() & 0x1Cu));
}

static void tick(struct side *s)
{
    uint32_t sdi = below(2);

    (void)thurafeqa_tick(&s->library, sdi, 0);
    (void)ref_tick(&s->model, (int)sdi, 0);
}

static void pins(struct side *s, int sck, int ss)
{
    uint32_t sdi = below(2);

    (void)thurafeqa_pins(&s->library, (uint32_t)sck, sdi, (uint32_t)ss);
    (void)ref_pins(&s->model, sck, (int)sdi, ss);
}

/* Words are written and read at both ends, and now and then single edges are
 * given: at one end alone or at both. */
static void between_runs(struct side *host, struct side *client)
{
    uint32_t n;

    for (n = below(6) == 0 ? 20 : below(6); n > 0; n--)
        put(host, 3, some() & 0xFFFFu);
    for (n = below(6); n > 0; n--)
        put(client, 3, some() & 0xFFFFu);
    for (n = below(3) == 0 ? 0 : below(20); n > 0; n--) {
        unsigned value;

        (void)thurafeqa_read(&host->library, 3);
        (void)ref_read(&host->model, 3, &value);
        (void)thurafeqa_read(&client->library, 3);
        (void)ref_read(&client->model, 3, &value);
    }
    switch (below(9)) {
    case 0:
        for (n = below(33); n > 0; n--)
            tick(host);
        break;
    case 1:
        for (n = below(33); n > 0; n--)
            pins(client, !client->model.sck, below(8) == 0);
        break;
    case 2:
        for (n = below(33); n > 0; n--) {
            tick(host);
            pins(client, ref_sck(&host->model), 0);
        }
        break;
    case 3: pins(client, client->model.sck, 1); break;
    default: break;
    }
}

static uint32_t some_limit(uint32_t edges)
{
    switch (below(6)) {
    case 0: return below(6);
    case 1: return edges * (1 + below(4));
    case 2: return edges * (1 + below(4)) + below(3) - 1;
    case 3: return below(545);
    default: return 544;
    }
}

/* Both at a word's beginning once the client has seen the host's levels. */
static int begins(const struct ref_spi *host, const struct ref_spi *client)
{
    struct ref_spi c = *client;

    (void)ref_pins(&c, ref_sck(host), ref_sdo(host) == 1, 0);
    return host->loaded && !host->begun && host->sck == host->ckp && !c.begun &&
           c.sck == c.ckp;
}

/* Puts the mark where no word is begun: whether it did. */
static int mark(struct side *s)
{
    if (s->model.begun)
        return 0;
    s->library.memory[EDGES] = MARK;
    return 1;
}

/* What was met. Runs by words alone, by words and then turns, and by turns
 * alone; words made at once, by CKE, CKP and width, and by depths; with SDO off
 * at the host and at the client; of fillers, of clients with SSEN and without,
 * and lost; turns for the limit, for a host and for a client inside a word. */
static unsigned long by_words, by_both, by_turns, words, edges_by_turns;
static unsigned long mode_met[2][2][2], depth_met[17][17], off_met[2];
static unsigned long filler_met, ssen_met[2], lost_met[2];
static unsigned long limit_met, inside_met[2], refused, none;

static void note_words(const struct side *host, const struct side *client,
                       const struct ref_spi *before, unsigned long made)
{
    const struct ref_spi *h = &host->model, *c = &client->model;

    words += made;
    mode_met[h->cke][h->ckp][h->mode16] += made;
    depth_met[h->depth][c->depth] += made;
    off_met[0] += (unsigned long)h->dissdo;
    off_met[1] += (unsigned long)c->dissdo;
    ssen_met[c->ssen] += made;
    filler_met += (unsigned long)(before->tx.n + before->loaded) < made;
    lost_met[0] += (unsigned long)h->spirov;
    lost_met[1] += (unsigned long)c->spirov;
}

static int differ(const char *what, unsigned long run)
{
    printf("a difference in run %lu: %s\n", run, what);
    return 1;
}

static int need(int met, const char *what)
{
    if (!met)
        printf("never met: %s\n", what);
    return !met;
}

int main(int argc, char **argv)
{
    unsigned long runs, i;
    struct side host, client;
    int bad = 0, k;

    if (argc != 3)
        return 2;
    runs = strtoul(argv[1], 0, 10);
    state = strtoull(argv[2], 0, 10) * 2654435761u + 88172645463325252u;
    memset(&host, 0, sizeof host);
    memset(&client, 0, sizeof client);
    set_up(&host, &client);
    for (i = 0; i < runs; i++) {
        struct ref_spi h, c;
        uint32_t edges, limit, answer;
        unsigned used = 0;
        unsigned long can, made;
        int marked, stands, r;

        if (below(8) == 0)
            set_up(&host, &client);
        between_runs(&host, &client);
        h = host.model;
        c = client.model;
        edges = h.mode16 ? 32 : 16;
        limit = some_limit(edges);
        can = begins(&h, &c) ? (unsigned long)h.tx.n + 1 : 0;
        made = can < limit / edges ? can : limit / edges;
        marked = mark(&host) & mark(&client);
        answer = thurafeqa_linked(&host.library, &client.library, limit);
        r = ref_linked(&host.model, &client.model, limit, &used);
        if (answer != (r ? (uint32_t)r << 16 : used))
            return differ("the answer", i);
        if (!alike(&host) || !alike(&client))
            return differ("what is seen", i);
        stands = host.library.memory[EDGES] == MARK &&
                 client.library.memory[EDGES] == MARK;
        if (r) {
            refused++;
            continue;
        }
        if (used == 0) {
            none++;
            continue;
        }
        if (made > 0)
            note_words(&host, &client, &c, made);
        if (used == made * edges) {
            by_words++;
            if (marked && !stands)
                return differ("its words were not made at once", i);
            continue;
        }
        if (marked && stands)
            return differ("no turn was made", i);
        edges_by_turns += used - made * edges;
        by_both += made > 0;
        by_turns += made == 0;
        limit_met += made < can && used == limit;
        inside_met[0] += (unsigned long)h.begun;
        inside_met[1] += (unsigned long)c.begun;
    }
    printf("%lu linked runs: %lu by whole words, %lu by words and turns, %lu by "
           "turns; %lu words, %lu edges by turns, 0 differences\n",
           runs, by_words, by_both, by_turns, words, edges_by_turns);
    bad |= need(by_words > 0, "a run by whole words");
    bad |= need(by_both > 0, "a run by words and turns");
    bad |= need(by_turns > 0, "a run by turns");
    for (k = 0; k < 8; k++)
        bad |= need(mode_met[k & 1][k >> 1 & 1][k >> 2] > 0, "a mode");
    for (k = 0; k < 9; k++)
        bad |= need(depth_met[4 << k % 3][4 << k / 3] > 0, "two depths");
    for (k = 0; k < 2; k++) {
        bad |= need(off_met[k] > 0, "SDO off at an end");
        bad |= need(ssen_met[k] > 0, "a client with SSEN, and one without");
        bad |= need(lost_met[k] > 0, "a word lost at an end");
        bad |= need(inside_met[k] > 0, "an end inside a word");
    }
    bad |= need(filler_met > 0, "a filler") | need(limit_met > 0, "a limit");
    bad |= need(refused > 0, "a refusal") | need(none > 0, "no edge");
    return bad;
}
