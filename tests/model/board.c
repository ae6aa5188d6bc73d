/* A board of modules over the second model. A comment gives the part of request
 * Seven, Eight or Twelve that the code below it follows, in other words. */
#include "board.h"

/* A board has at least one module and at most four: 21, which is looked at
 * before anything else. */
static int wrong_length(const struct board *b)
{
    return b->count == 0 || b->count > BOARD_MODULES;
}

/* Modules are numbered from 0; the list's length says how many there are. */
static int is_there(const struct board *b, uint32_t n)
{
    return n < b->count;
}

/* What stands before every refusal of the module's own: 21, then 22. 0 if the
 * call goes on to the module. */
static int named(const struct board *b, uint32_t n)
{
    if (wrong_length(b))
        return BOARD_BAD_LIST;
    if (!is_there(b, n))
        return BOARD_NO_MODULE;
    return 0;
}

/* ---- request Eight: the words still owed ------------------------------ */

/* Accepted is what a BUF write has taken. It waits in the queue, or is loaded;
 * at its last edge it is finished and is in neither. The word that a client
 * under select control has begun is still the first of its queue, so it counts
 * once. A filler was never written, and is in neither place. */
unsigned board_owes(const struct ref_spi *m)
{
    return (unsigned)m->tx.n + (m->loaded ? 1u : 0u);
}

/* What a call has changed of a module's own count goes into the total. A total
 * that was not the list's own may leave its range by that: it stays within. */
static void keep_total(struct board *b, unsigned before, unsigned after)
{
    long total = (long)b->owed + (long)after - (long)before;

    b->owed = total < 0            ? 0
              : total > BOARD_MOST ? BOARD_MOST
                                   : (unsigned)total;
}

int board_owed(const struct board *b, unsigned *total)
{
    if (wrong_length(b))
        return BOARD_BAD_LIST;
    *total = b->owed;
    return 0;
}

/* ---- the calls --------------------------------------------------------- */

/* A call is made on the record that it names, as if that were alone, and the
 * total follows that record. */

/* Request Twelve: 25, for a depth that there is not, is the module's own and
 * comes behind 21 and 22. The words of a module that is powered up are owed no
 * longer; those of one that is not are. */
int board_power_up_depth(struct board *b, uint32_t n, unsigned depth)
{
    int r = named(b, n);
    unsigned before;

    if (r != 0)
        return r;
    before = board_owes(&b->module[n]);
    r = ref_power_up_depth(&b->module[n], depth);
    keep_total(b, before, board_owes(&b->module[n]));
    return r;
}

int board_power_up(struct board *b, uint32_t n)
{
    int r = named(b, n);
    unsigned before;

    if (r != 0)
        return r;
    before = board_owes(&b->module[n]);
    ref_power_up(&b->module[n]);
    keep_total(b, before, board_owes(&b->module[n]));
    return 0;
}

int board_read(struct board *b, uint32_t n, unsigned reg, unsigned *value)
{
    int r = named(b, n);
    unsigned before;

    if (r != 0)
        return r;
    before = board_owes(&b->module[n]);
    r = ref_read(&b->module[n], reg, value);
    keep_total(b, before, board_owes(&b->module[n]));
    return r;
}

int board_write(struct board *b, uint32_t n, unsigned reg, unsigned value)
{
    int r = named(b, n);
    unsigned before;

    if (r != 0)
        return r;
    before = board_owes(&b->module[n]);
    r = ref_write(&b->module[n], reg, value);
    keep_total(b, before, board_owes(&b->module[n]));
    return r;
}

int board_tick(struct board *b, uint32_t n, int sdi, int ss)
{
    int r = named(b, n);
    unsigned before;

    if (r != 0)
        return r;
    before = board_owes(&b->module[n]);
    r = ref_tick(&b->module[n], sdi, ss);
    keep_total(b, before, board_owes(&b->module[n]));
    return r;
}

int board_pins(struct board *b, uint32_t n, int sck, int sdi, int ss)
{
    int r = named(b, n);
    unsigned before;

    if (r != 0)
        return r;
    before = board_owes(&b->module[n]);
    r = ref_pins(&b->module[n], sck, sdi, ss);
    keep_total(b, before, board_owes(&b->module[n]));
    return r;
}

int board_step(struct board *b, uint32_t n, int sck, int sdi, int ss)
{
    int r = named(b, n);
    unsigned before;

    if (r != 0)
        return r;
    before = board_owes(&b->module[n]);
    r = ref_step(&b->module[n], sck, sdi, ss);
    keep_total(b, before, board_owes(&b->module[n]));
    return r;
}

/* A word at a time is the steps of one module's word, one after the other: none
 * of them concerns another module, and the total follows what they leave. */
int board_word(struct board *b, uint32_t n, int ss, unsigned word,
               unsigned *levels, int *count)
{
    int r = named(b, n);
    unsigned before;

    if (r != 0)
        return r;
    before = board_owes(&b->module[n]);
    r = ref_word(&b->module[n], ss, word, levels, count);
    keep_total(b, before, board_owes(&b->module[n]));
    return r;
}

/* The interrupt flag, the clock and the levels have no part in it. */

int board_clear(struct board *b, uint32_t n)
{
    int r = named(b, n);

    if (r == 0)
        ref_clear(&b->module[n]);
    return r;
}

int board_clock(struct board *b, uint32_t n, uint32_t f, int *kind,
                double *rate, double *bit_time)
{
    int r = named(b, n);

    return r != 0 ? r : ref_clock(&b->module[n], f, kind, rate, bit_time);
}

int board_see(struct board *b, uint32_t n, struct board_levels *seen)
{
    int r = named(b, n);

    if (r != 0)
        return r;
    seen->flag = ref_flag(&b->module[n]);
    seen->sck = ref_sck(&b->module[n]);
    seen->sdo = ref_sdo(&b->module[n]);
    seen->ss = ref_ss(&b->module[n]);
    return 0;
}

/* Two modules of the board on one wire. Either may be missing, and a module
 * cannot be joined to itself: 22 in each case, and before the linked run's own
 * refusals, the one for its limit among them. */
int board_linked(struct board *b, uint32_t host, uint32_t client,
                 unsigned limit, unsigned *used)
{
    struct ref_spi *h, *c;
    unsigned before;
    int r;

    if (wrong_length(b))
        return BOARD_BAD_LIST;
    if (!is_there(b, host) || !is_there(b, client) || host == client)
        return BOARD_NO_MODULE;
    h = &b->module[host];
    c = &b->module[client];
    before = board_owes(h) + board_owes(c);
    r = ref_linked(h, c, limit, used);
    keep_total(b, before, board_owes(h) + board_owes(c));
    return r;
}
