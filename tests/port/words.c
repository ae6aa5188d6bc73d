/* The library's words at a time beside the second model's, which makes them
 * step by step, on random modules of every kind.
 *
 *   words CALLS SEED
 *
 * Each module is set up at random (depth, width, mode, role, frames), gets words
 * to send, and is clocked by single steps between the word calls, so that these
 * come at every edge of a word. After each call both must tell the same, show
 * the same registers and levels, have the same word next, and owe the same. It fails too if a
 * role, a width, a depth or an edge was never met.
 * Exit 0: no difference, and all met. Exit 1: a difference, or something was
 * not met; it is printed. Exit 2: bad usage. */
#include <stdio.h>
#include <stdlib.h>
#include <string.h>

#include "ref_spi.h"
#include "thurafeqa.h"

static uint64_t state;

static uint32_t some(void)
{
    state ^= state << 13;
    state ^= state >> 7;
    state ^= state << 17;
    return (uint32_t)(state >> 16);
}

static uint32_t below(uint32_t n) { return some() % n; }

struct side {
    thurafeqa library;
    struct ref_spi model;
};

/* The words that the model has accepted and not finished: those queued, and
 * one that has left the queue. */
static uint32_t words_owed(const struct ref_spi *m)
{
    return (uint32_t)(m->tx.n + m->loaded);
}

/* The edges that it makes until it is idle, as an unframed host with a clock of
 * its own. */
static uint32_t edges_owed(const struct ref_spi *m)
{
    uint32_t each = m->mode16 ? 32 : 16;

    if (!m->spien || m->frmen || !m->msten || m->dissck)
        return 0;
    return each * words_owed(m) - (m->begun ? (uint32_t)m->edges : 0u);
}

/* What is seen of both without changing them: all registers, by copies, the
 * levels, and the word that goes next. */
static int alike(const struct side *s)
{
    thurafeqa a = s->library;
    struct ref_spi b = s->model;
    uint32_t r, levels = thurafeqa_levels(&a), next = thurafeqa_next(&a);
    int out = ref_next(&b);

    if ((levels & THURAFEQA_LEVELS_INTERRUPT) != (uint32_t)ref_flag(&b) ||
        !(levels & THURAFEQA_LEVELS_SCK) != !ref_sck(&b))
        return 0;
    if ((levels & THURAFEQA_LEVELS_DRIVEN) != 0) {
        if (ref_sdo(&b) != !!(levels & THURAFEQA_LEVELS_SDO))
            return 0;
    } else if (ref_sdo(&b) != REF_UNDRIVEN) {
        return 0;
    }
    if (next != (out < 0 ? 0u : THURAFEQA_NEXT_WORD | (uint32_t)out))
        return 0;
    if (thurafeqa_edges_owed(&a) != edges_owed(&b) ||
        thurafeqa_words_owed(&a) != words_owed(&b))
        return 0;
    for (r = 0; r < 4; r++) {
        unsigned value = 0;
        int number = ref_read(&b, r, &value);
        uint32_t told = thurafeqa_read(&a, r);

        if (told != (number ? (uint32_t)number << 16 : value))
            return 0;
    }
    return 1;
}

/* Sets both up alike. */
static void set_up(struct side *s)
{
    static const uint32_t depths[] = {4, 8, 16};
    uint32_t depth = depths[below(3)];
    uint32_t con1 = some() & 0x1DFFu, con2 = some() & 0xE003u;

    if (below(3) != 0)
        con2 &= 0x0001u; /* mostly without frames */
    (void)thurafeqa_power_up_with(&s->library, depth);
    (void)ref_power_up_depth(&s->model, depth);
    (void)thurafeqa_write(&s->library, THURAFEQA_CON1, con1);
    (void)ref_write(&s->model, 1, con1);
    (void)thurafeqa_write(&s->library, THURAFEQA_CON2, con2);
    (void)ref_write(&s->model, 2, con2);
    con1 = 0x8000u | (some() & 0x1Cu);
    if (below(20) != 0) {
        (void)thurafeqa_write(&s->library, THURAFEQA_STAT, con1);
        (void)ref_write(&s->model, 0, con1);
    }
}

/* What was met: word calls by role and width, by depth, by the edge of the word
 * at which they came, of fillers, and the answers. */
enum { OWN, PINNED, CLIENT, SSEN, FRAMED, ROLES };
static unsigned long role_met[ROLES][2], depth_met[17], edge_met[2][32];
static unsigned long filler_met, idle_met, no_edge, refused, resting, whole;

static void note(const struct ref_spi *m, int ss)
{
    int role = m->frmen                  ? FRAMED
               : m->msten && !m->dissck  ? OWN
               : m->msten                ? PINNED
               : m->ssen                 ? SSEN
                                         : CLIENT;

    if (!m->spien)
        return;
    role_met[role][m->mode16]++;
    depth_met[m->depth]++;
    if (role == FRAMED)
        return;
    edge_met[m->mode16][m->begun ? m->edges : 0]++;
    if (!m->begun && !m->loaded && !m->msten && !(m->ssen && (ss || m->tx.n)))
        filler_met++;
    if (!m->begun && m->sck != m->ckp && !(role == SSEN && ss))
        idle_met++;
}

static int differ(const char *what, unsigned long call)
{
    printf("a difference after call %lu: %s\n", call, what);
    return 1;
}

static int need(int met, const char *what)
{
    if (!met)
        printf("never met: %s\n", what);
    return !met;
}

int main(int argc, char **argv)
{
    unsigned long calls, i, done = 0;
    struct side s;
    int bad = 0, k, w;

    if (argc != 3)
        return 2;
    calls = strtoul(argv[1], 0, 10);
    state = strtoull(argv[2], 0, 10) * 2654435761u + 88172645463325252u;
    memset(&s, 0x5A, sizeof s);
    set_up(&s);
    for (i = 0; i < calls; i++) {
        uint32_t x = some(), word = some() & 0xFFFFu, answer;
        unsigned value = 0, levels = 0;
        int ss = below(4) == 0, r, count = 0;

        switch (below(12)) {
        case 0:
            if (below(12) == 0)
                set_up(&s);
            break;
        case 1:
        case 2:
        case 3:
            answer = thurafeqa_write(&s.library, THURAFEQA_BUF, word);
            r = ref_write(&s.model, 3, word);
            if (answer != (uint32_t)r << 16)
                return differ("a BUF write", i);
            break;
        case 4:
        case 5:
            answer = thurafeqa_read(&s.library, THURAFEQA_BUF);
            r = ref_read(&s.model, 3, &value);
            if (answer != (r ? (uint32_t)r << 16 : value))
                return differ("a BUF read", i);
            break;
        case 6:
        case 7:
        case 8:
            for (k = (int)below(33); k > 0; k--) {
                int sck = below(5) == 0 ? s.model.sck : !s.model.sck;

                answer = thurafeqa_clock_step(&s.library, (uint32_t)sck,
                                              x >> k & 1u, (uint32_t)ss);
                r = ref_step(&s.model, sck, (int)(x >> k & 1u), ss);
                if ((answer >> 16) != (uint32_t)(r > 0 ? r : 0))
                    return differ("a clock step", i);
            }
            break;
        default:
            note(&s.model, ss);
            answer = thurafeqa_word(&s.library, (uint32_t)ss, word | x << 16);
            r = ref_word(&s.model, ss, word, &levels, &count);
            done++;
            if (THURAFEQA_WORD_REFUSAL(answer) != (uint32_t)(r > 0 ? r : 0) ||
                THURAFEQA_WORD_NO_EDGE(answer) != (uint32_t)(r == REF_NO_EDGE))
                return differ("the answer of a word call", i);
            if (THURAFEQA_WORD_LEVELS(answer) != levels ||
                THURAFEQA_WORD_COUNT(answer) != (uint32_t)count)
                return differ("the levels of a word call", i);
            refused += r > 0;
            no_edge += r == REF_NO_EDGE;
            resting += r == 0 && count == 0;
            whole += count == 8 || count == 16;
            break;
        }
        if (!alike(&s))
            return differ("what is seen", i);
    }
    printf("%lu calls, %lu of them words at a time, 0 differences\n", calls,
           done);
    for (k = 0; k < ROLES; k++)
        for (w = 0; w < 2; w++)
            bad |= need(role_met[k][w] > 0, "a role and a width");
    bad |= need(depth_met[4] && depth_met[8] && depth_met[16], "a depth");
    for (w = 0; w < 2; w++)
        for (k = 0; k < (w ? 32 : 16); k++)
            bad |= need(edge_met[w][k] > 0, "an edge of a word");
    bad |= need(filler_met > 0, "a filler") | need(idle_met > 0, "an idle edge");
    bad |= need(refused > 0, "a refusal") | need(no_edge > 0, "no edge");
    bad |= need(resting > 0, "a module that rests") | need(whole > 0, "a word");
    return bad;
}
