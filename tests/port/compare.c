/* The exported library beside the second model (tests/model): random calls go
 * to both, and after every call the answers, the registers STAT, CON1 and CON2,
 * what a copy answers to a read of BUF, the levels and the interrupt flags must
 * agree. No answer may carry a refusal number that calls do not give, such as 4
 * or 12. Trace files are played too, right and wrong ones, and calls go on with
 * the module that a play has left. Scripts are saved as trace files: every byte
 * lent must agree, and the library plays the file to the module in which the
 * model ends the script. In every third sequence most calls are made on boards:
 * lists of none to six of the modules, which are named by right and by wrong
 * numbers. After each of these calls every module is looked at: those that it
 * does not name, and after a refusal all, must be byte for byte as they were,
 * and only a clock report that is not refused may write one. The totals of
 * words owed that such calls return must agree, whatever total they were given.
 * Another third of the sequences has a board of its own, whose modules are
 * called through it alone: its total is handed from call to call, and must be
 * what a walk of the model's modules counts after each of them.
 * Modules have buffers of 4, 8 or 16 words. After every call the memory of one
 * of depth 8 is memory of the format 3, in which there was no other depth.
 *
 * usage: compare CALLS SEED
 *
 * It prints how often each case was reached. Exit 0: no difference, every case
 * was reached, and no costly trace took more than a second. Exit 1: not so; of a
 * difference it prints a short list of calls that shows it from power-up on.
 * Exit 2: bad usage. */
#include "board.h"
#include "calls.h"
#include "ref_spi.h"
#include "save.h"
#include "script.h"
#include "some_script.h"
#include "some_trace.h"
#include "trace.h"

#include <inttypes.h>
#include <stdio.h>
#include <stdlib.h>
#include <string.h>
#include <time.h>

/* Modules 0 and 1 are partners in linked runs, and so are 2 and 3, 4 and 5. */
#define MODULES 6

/* The most calls from one power-up of all modules to the next. */
#define LONGEST 4000

/* ---- the model's answers in the library's form ----------------------- */

static uint32_t as_answer(int number, unsigned value)
{
    return number > 0 ? (uint32_t)number << 16 : (uint32_t)value;
}

/* The model's clock report: what it tells, and its kind. */
static unsigned as_report(int which, double rate, double bit_time,
                          thurafeqa_clock_report *r)
{
    r->rate = which == 1 ? rate : 0;
    r->bittime = which == 1 ? bit_time : 0;
    r->below = which == 2 ? rate : 0;
    return which == 1   ? THURAFEQA_CLOCK_INTERNAL
           : which == 2 ? THURAFEQA_CLOCK_EXTERNAL
                        : THURAFEQA_CLOCK_NONE;
}

/* Its refusal number, 0 if it is not refused. */
static int model_report(const struct ref_spi *m, uint32_t f, unsigned *kind,
                        thurafeqa_clock_report *r)
{
    double rate = 0, bit_time = 0;
    int which = 0, number = ref_clock(m, f, &which, &rate, &bit_time);

    if (number == 0)
        *kind = as_report(which, rate, bit_time, r);
    return number;
}

static uint32_t as_levels(const struct board_levels *seen)
{
    uint32_t levels = 0;

    if (seen->flag)
        levels |= THURAFEQA_LEVELS_INTERRUPT;
    if (seen->sck)
        levels |= THURAFEQA_LEVELS_SCK;
    if (seen->sdo != REF_UNDRIVEN)
        levels |= THURAFEQA_LEVELS_DRIVEN;
    if (seen->sdo == 1)
        levels |= THURAFEQA_LEVELS_SDO;
    if (seen->ss != REF_UNDRIVEN)
        levels |= THURAFEQA_LEVELS_SS_DRIVEN;
    if (seen->ss == 1)
        levels |= THURAFEQA_LEVELS_SS;
    return levels;
}

static uint32_t model_levels(const struct ref_spi *m)
{
    struct board_levels seen;

    seen.flag = ref_flag(m);
    seen.sck = ref_sck(m);
    seen.sdo = ref_sdo(m);
    seen.ss = ref_ss(m);
    return as_levels(&seen);
}

static void see_model(const struct ref_spi *m, uint32_t seen[VIEWS])
{
    struct ref_spi copy = *m;
    int i;

    for (i = STAT; i <= BUF; i++) {
        unsigned value = 0;
        int r = ref_read(&copy, (unsigned)i, &value);
        seen[i] = as_answer(r, value);
    }
    seen[LEVELS] = model_levels(m);
}

static int model_save(const struct call *c, unsigned *value)
{
    size_t length = 0;
    int r = save_session(c->file, c->length, c->lent, c->room, &length);

    *value = (unsigned)length;
    return r;
}

/* What a clock step tells, unless it is refused: the levels after it, and
 * whether there was no edge. */
static unsigned as_step(int r, unsigned levels)
{
    return levels | (r == REF_NO_EDGE ? THURAFEQA_NO_EDGE : 0u);
}

/* What a word at a time tells, unless it is refused. */
static unsigned as_word(int r, unsigned levels, int count)
{
    return levels | (unsigned)count << 24 |
           (r == REF_NO_EDGE ? 0x20000000u : 0u);
}

static void ask_model(struct ref_spi *m, struct ref_spi *other,
                      const struct call *c, struct outcome *o)
{
    unsigned value = 0, levels = 0;
    int r = 0, count = 0;

    o->report = no_report;
    switch (c->kind) {
    case POWER_UP: ref_power_up(m); break;
    case POWER_UP_WITH: r = ref_power_up_depth(m, c->x); break;
    case READ: r = ref_read(m, c->x, &value); break;
    case WRITE: r = ref_write(m, c->x, c->y & 0xFFFFu); break;
    case TICK:
        r = ref_tick(m, c->x != 0, c->y != 0);
        value = r == 0;
        break;
    case PINS: r = ref_pins(m, c->x != 0, c->y != 0, c->z != 0); break;
    case STEP:
        r = ref_step(m, c->x != 0, c->y != 0, c->z != 0);
        value = as_step(r, model_levels(m));
        break;
    case WORD:
        r = ref_word(m, c->x != 0, c->y & 0xFFFFu, &levels, &count);
        value = as_word(r, levels, count);
        break;
    case CLEAR: ref_clear(m); break;
    case LINKED: r = ref_linked(m, other, c->x, &value); break;
    case CLOCK: r = model_report(m, c->x, &value, &o->report); break;
    case LOOK: value = model_levels(m); break;
    case PLAY: r = trace_play(m, c->file, c->length, &value); break;
    case SAVE: r = model_save(c, &value); break;
    case KINDS: break;
    }
    o->answer = as_answer(r, value);
}

/* The same of a call on a board. */
static void ask_model_board(struct ref_spi *list, uint32_t owed,
                            const struct call *c, struct outcome *o)
{
    struct board b = {list, c->count, owed & 0xFFFFu};
    struct board_levels seen;
    double rate = 0, bit_time = 0;
    unsigned value = 0, levels = 0;
    int r = 0, which = 0, count = 0;

    o->report = no_report;
    switch (c->kind) {
    case POWER_UP: r = board_power_up(&b, c->n); break;
    case POWER_UP_WITH: r = board_power_up_depth(&b, c->n, c->x); break;
    case READ: r = board_read(&b, c->n, c->x, &value); break;
    case WRITE: r = board_write(&b, c->n, c->x, c->y & 0xFFFFu); break;
    case TICK:
        r = board_tick(&b, c->n, c->x != 0, c->y != 0);
        value = r == 0;
        break;
    case PINS:
        r = board_pins(&b, c->n, c->x != 0, c->y != 0, c->z != 0);
        break;
    case STEP:
        r = board_step(&b, c->n, c->x != 0, c->y != 0, c->z != 0);
        if (board_see(&b, c->n, &seen) == 0)
            value = as_step(r, as_levels(&seen));
        break;
    case WORD:
        r = board_word(&b, c->n, c->x != 0, c->y & 0xFFFFu, &levels, &count);
        value = as_word(r, levels, count);
        break;
    case CLEAR: r = board_clear(&b, c->n); break;
    case LINKED:
        r = board_linked(&b, c->n, c->n_other, c->x, &value);
        break;
    case CLOCK:
        r = board_clock(&b, c->n, c->x, &which, &rate, &bit_time);
        if (r == 0)
            value = as_report(which, rate, bit_time, &o->report);
        break;
    default:
        r = board_see(&b, c->n, &seen);
        if (r == 0)
            value = as_levels(&seen);
        break;
    }
    o->answer = as_answer(r, value);
    o->owed = b.owed;
    r = board_owed(&b, &value);
    o->owes = as_answer(r, value);
}

/* ---- both sides, from power-up --------------------------------------- */

struct sides {
    thurafeqa library[MODULES];
    struct ref_spi model[MODULES];
    uint32_t library_owed, model_owed; /* by the board of this sequence */
};

/* Power-up of all modules; before it the library's memory is filled from
 * `noise`, with zeros if that is 0. */
static void power_up_all(struct sides *s, uint64_t noise)
{
    size_t i, k;

    s->library_owed = s->model_owed = 0;
    for (i = 0; i < MODULES; i++) {
        for (k = 0; k < sizeof s->library[i].memory / sizeof(uint16_t); k++) {
            noise *= UINT64_C(6364136223846793005);
            s->library[i].memory[k] = (uint16_t)(noise >> 48);
        }
        thurafeqa_power_up(&s->library[i]);
        ref_power_up(&s->model[i]);
    }
}

/* Plays the script of a save on the model, from power-up. */
static void play_script(const struct call *c, struct ref_spi *m)
{
    struct script_walk w;
    struct script_call line;
    unsigned value;

    ref_power_up(m);
    script_begin(&w, c->file, c->length);
    while (script_next(&w)) {
        if (script_read(w.line, w.length, &line))
            (void)script_make(m, &line, &value);
    }
}

/* Is memory that of a module of this depth? The number at place 6 tells: 4 and
 * 16 are those depths, and 8 is 0. Of depth 8, places 32 to 39 and 52 to 59, the
 * later words of both buffers, are 0 from power-up on. So memory that was saved
 * in the format 3, which had 0 in all of these, is that of the same module at
 * depth 8. */
static int has_depth(const thurafeqa *m, int depth)
{
    int i;

    if (m->memory[6] != (depth == 8 ? 0 : depth))
        return 0;
    for (i = 0; i < 8 && depth == 8; i++) {
        if (m->memory[32 + i] != 0 || m->memory[52 + i] != 0)
            return 0;
    }
    return 1;
}

/* The first module of the last call whose memory is not that of its depth; -1
 * if there is none. */
static int wrong_memory;

/* Looks at the modules of a call that was made, on both sides: do they show the
 * same, and is the memory that of their depths? */
static int look_at_both(struct sides *s, const struct call *c,
                        struct outcome *l, struct outcome *m)
{
    const int at[2] = {c->module, c->other};
    int i, same = 1;

    wrong_memory = -1;
    for (i = 0; i < concerned(c); i++) {
        see_library(&s->library[at[i]], l->seen[i]);
        see_model(&s->model[at[i]], m->seen[i]);
        if (memcmp(l->seen[i], m->seen[i], sizeof l->seen[i]) != 0)
            same = 0;
        if (wrong_memory < 0 &&
            !has_depth(&s->library[at[i]], s->model[at[i]].depth))
            wrong_memory = at[i];
    }
    return same && wrong_memory < 0;
}

/* What was lent last, to the library and to the model; and the module in which
 * the model ended the script, if that was saved. */
static uint8_t lent[2][SOME_ROOM];
static struct ref_spi script_end;

/* A save on both sides: do they agree in the answer, in every byte lent, and in
 * what is seen of the module where the file and the script end? The library's
 * play must make a call for each record. */
static int save_both(const struct call *c, struct outcome *l,
                     struct outcome *m)
{
    struct call d = *c;
    thurafeqa played;
    uint32_t answer;
    int i;

    memset(l->seen, 0, sizeof l->seen);
    memset(m->seen, 0, sizeof m->seen);
    bring_script(&d);
    for (i = 0; i < 2; i++)
        fill_lent(lent[i], d.room, d.y);
    d.lent = lent[0];
    ask_library(0, 0, &d, l);
    d.lent = lent[1];
    ask_model(0, 0, &d, m);
    if (l->answer != m->answer || memcmp(lent[0], lent[1], d.room) != 0)
        return 0;
    if (thurafeqa_refusal(l->answer) != 0)
        return 1;
    memset(&played, 0x5A, sizeof played);
    answer = thurafeqa_play(&played, lent[0], thurafeqa_value(l->answer));
    see_library(&played, l->seen[0]);
    play_script(&d, &script_end);
    see_model(&script_end, m->seen[0]);
    return answer == (thurafeqa_value(l->answer) - SAVE_CONTENTS) / 4u &&
           memcmp(l->seen[0], m->seen[0], sizeof l->seen[0]) == 0;
}

/* The first module that changed on one side, though the call did not name it or
 * was refused; -1 if there is none. */
static int changed_module;

static int find_changed(const struct sides *was, const struct sides *is,
                        const struct call *c, uint32_t answer)
{
    int i;

    for (i = 0; i < MODULES; i++) {
        int named = i == c->module || (c->kind == LINKED && i == c->other);

        if (named && refusal_of(c, answer) == 0)
            continue;
        if (memcmp(&was->library[i], &is->library[i], sizeof(thurafeqa)) != 0 ||
            memcmp(&was->model[i], &is->model[i], sizeof(struct ref_spi)) != 0)
            return i;
    }
    return -1;
}

/* What a walk of the model's modules counts of a list. */
static uint32_t walk_owed(const struct ref_spi *list, size_t count)
{
    uint32_t sum = 0;
    size_t i;

    for (i = 0; i < count; i++)
        sum += board_owes(&list[i]);
    return sum;
}

/* The total before the last call on a board; and the walk, if it must agree. */
static uint32_t total_before, walked_total;

/* A call on a board, on both sides: do they agree in the answer, in the total,
 * in what is seen of the modules that it names, and in leaving all others as
 * they were? */
static int board_both(struct sides *s, const struct call *c, struct outcome *l,
                      struct outcome *m)
{
    static struct sides before;
    int same;

    before = *s;
    total_before = (c->carried ? s->model_owed : c->owed) & 0xFFFFu;
    ask_board(&s->library[c->first], c->carried ? s->library_owed : c->owed, c,
              l);
    ask_model_board(&s->model[c->first], total_before, c, m);
    changed_module = find_changed(&before, s, c, l->answer);
    same = same_answer(c, l, m) && changed_module < 0;
    walked_total = m->owed;
    if (c->carried) {
        s->library_owed = l->owed;
        s->model_owed = m->owed;
        walked_total = walk_owed(&s->model[c->first], c->count);
        same = same && l->owed == walked_total;
    }
    return look_at_both(s, c, l, m) && same;
}

/* Makes a call on both sides: do they agree in the answer, and in what is seen
 * afterwards? */
static int ask_both(struct sides *s, const struct call *c, struct outcome *l,
                    struct outcome *m)
{
    struct call d = *c;
    int same;

    wrong_memory = -1;
    if (c->kind == SAVE)
        return save_both(c, l, m);
    if (c->board)
        return board_both(s, c, l, m);
    if (c->kind == PLAY)
        bring_file(&d);
    ask_library(&s->library[c->module], &s->library[c->other], &d, l);
    ask_model(&s->model[c->module], &s->model[c->other], &d, m);
    same = same_answer(c, l, m);
    return look_at_both(s, c, l, m) && same;
}

/* Plays a list of calls: how many it takes to the first difference, that call
 * included; 0 if there is none. */
static int play(const struct call *list, int n, uint64_t noise)
{
    static struct sides s;
    struct outcome l, m;
    int i;

    power_up_all(&s, noise);
    for (i = 0; i < n; i++) {
        if (!ask_both(&s, &list[i], &l, &m))
            return i + 1;
    }
    return 0;
}

/* Takes calls out of a list that shows a difference as long as it still shows
 * one: how many are left. */
static int shorten(struct call *list, int n, uint64_t noise)
{
    static struct call trial[LONGEST];
    int part = n / 2;

    while (part > 0) {
        int at = 0, fewer = 0;
        while (at + part <= n) {
            int left = n - part, shows;
            memcpy(trial, list, (size_t)at * sizeof *list);
            memcpy(trial + at, list + at + part,
                   (size_t)(left - at) * sizeof *list);
            shows = play(trial, left, noise);
            if (shows > 0) {
                memcpy(list, trial, (size_t)shows * sizeof *list);
                n = shows;
                fewer = 1;
            } else {
                at += part;
            }
        }
        if (!fewer)
            part /= 2;
    }
    return n;
}

/* ---- telling of a difference ----------------------------------------- */

static void print_report(const char *side, const thurafeqa_clock_report *r)
{
    printf("    report: %s %a, %a, %a\n", side, r->rate, r->bittime, r->below);
}

static void print_views(const char *module, int number, const uint32_t *l,
                        const uint32_t *m)
{
    int v;

    for (v = 0; v < VIEWS; v++) {
        if (l[v] == m[v])
            continue;
        printf("    %s of %s %d: library %04" PRIX32 ", model %04" PRIX32 "\n",
               view_name[v], module, number, l[v], m[v]);
    }
}

/* Of a save that was answered alike: the first byte lent that differs, or the
 * module that is played. */
static void print_saved(const struct call *c, const struct outcome *l,
                        const struct outcome *m)
{
    struct call d = *c;
    size_t i;

    bring_script(&d);
    for (i = 0; i < d.room; i++) {
        if (lent[0][i] == lent[1][i])
            continue;
        printf("    byte %lu of what is lent: library %02X, model %02X\n",
               (unsigned long)i, lent[0][i], lent[1][i]);
        return;
    }
    printf("    the file, played, does not end as the script does\n");
    print_views("the module after script", (int)c->x, l->seen[0], m->seen[0]);
}

static void print_differences(const struct call *c, const struct outcome *l,
                              const struct outcome *m)
{
    int i;

    if (c->board && changed_module >= 0)
        printf("    module %d changed, and should not have\n", changed_module);
    if (wrong_memory >= 0)
        printf("    the memory of module %d is not that of its depth\n",
               wrong_memory);
    if (c->board)
        printf("    owed: %" PRIX32 " before; library %" PRIX32
               " (asked: %08" PRIX32 "), model %" PRIX32 " (asked: %08" PRIX32
               "), by a walk %" PRIX32 "\n",
               total_before, l->owed, l->owes, m->owed, m->owes, walked_total);
    if (l->answer == m->answer && l->owed == m->owed && l->owes == m->owes &&
        !same_answer(c, l, m)) {
        print_report("library", &l->report);
        print_report("model", &m->report);
    } else if (l->answer != m->answer) {
        printf("    answer: library %08" PRIX32 ", model %08" PRIX32 "\n",
               l->answer, m->answer);
    } else if (c->kind == SAVE) {
        print_saved(c, l, m);
    }
    for (i = 0; i < concerned(c); i++)
        print_views("module", i == 0 ? c->module : c->other, l->seen[i],
                    m->seen[i]);
}

/* The calls since the last power-up of all modules, shortened, each with what
 * both sides answered. */
static void tell(struct call *list, int n, uint64_t noise)
{
    static struct sides s;
    struct outcome l, m;
    int i;

    if (play(list, n, 0) > 0)
        noise = 0;
    if (play(list, n, noise) == 0) {
        printf("played again from power-up, the same calls do not show it\n");
        return;
    }
    n = shorten(list, play(list, n, noise), noise);
    printf("shown by %d of the calls, from power-up of all modules%s:\n", n,
           noise == 0 ? "" : " over memory that was not all zero");
    power_up_all(&s, noise);
    for (i = 0; i < n; i++) {
        (void)ask_both(&s, &list[i], &l, &m);
        printf("  ");
        print_call(&list[i]);
        printf(": %08" PRIX32 "\n", l.answer);
    }
    print_differences(&list[n - 1], &l, &m);
}

/* ---- what the run has reached ---------------------------------------- */

/* Counted on the model, before and after a call. In a framed module SSEN has no
 * effect, so such a client is one without it. */
enum role { OWN_CLOCK, DISSCK_HOST, CLIENT, SSEN_CLIENT, ROLES };
static const char *const role_name[ROLES] = {
    "host, its own clock", "host under DISSCK", "client", "client under SSEN"};

/* The mistakes for which enabling is refused, in the order of their numbers. */
enum mistake { UNDIVIDED, LATE_SAMPLING, UNSELECTED_CKE, MISTAKES };
#define NUMBER_OF(mistake) ((int)THURAFEQA_UNDIVIDED + (int)(mistake))

static struct {
    unsigned long kinds[KINDS];
    unsigned long refused[REFUSALS];
    /* enabling refused for one mistake, of these the framed modules; for two,
     * the lower first */
    unsigned long single[MISTAKES], framed[MISTAKES], pair[MISTAKES][MISTAKES];
    /* framed modules enabled, by role; those that 15 would refuse unframed */
    unsigned long framed_on[ROLES], framed_cke;
    /* both prescalers 1:1: enabled, by role; refused for CKE without SSEN */
    unsigned long undivided[ROLES], undivided_cke;
    /* the flag, by depth and SISEL; the last one: standard */
    unsigned long raised[DEPTHS][9];
    unsigned long overflow, filler, aborted_word, aborted_filler;
    /* Request Four's mark, set by a word that is lost: by role, in framed
     * modules, in linked runs at the host and at the client. Under it words
     * are lost, SPIROV is cleared and is set again. It goes by disabling, with
     * SPIROV cleared or left up, and by power-up. A word that is lost under it
     * though there is room is no case here: reads are refused, so the buffer
     * stays full. */
    unsigned long marked[ROLES], marked_framed, marked_linked[2];
    unsigned long lost_marked, rov_cleared, rov_again;
    unsigned long unmarked[2], unmarked_power_up;
    /* No mark: words lost in standard operation and read on; in enhanced
     * operation reads of a full buffer, and reads with SPIROV up */
    unsigned long lost_standard, read_lost, read_full, read_rov;
    unsigned long edge, no_edge, linked_edges, clock[3];
    /* clock steps by role: unframed, frame host, frame client; no edge */
    unsigned long step[ROLES][3], step_no_edge;
    /* words at a time, on a module alone and on a board: by role, 16 bits, CKE
     * and CKP, with a word to make; of framed modules, by role; by the depth.
     * On a board by 16 bits and the edges that the word under way has had, which
     * tests/words does on a module. Words that are fillers, with an edge to the
     * idle level first, that are lost, with a further one loaded. Without a
     * word: no edge, not selected, of these with a word aborted, nothing to send
     * under DISSCK */
    unsigned long word[2][ROLES][2][2][2], word_framed[2][ROLES];
    unsigned long word_depth[2][DEPTHS], word_edge[2][32];
    unsigned long word_filler[2], word_idle[2], word_lost[2], word_next[2];
    unsigned long word_no_edge[2], word_unselected[2], word_aborted[2];
    unsigned long word_nothing[2];
    /* finished words: enhanced, role, 16 bits, CKE, CKP */
    unsigned long words[2][ROLES][2][2][2];
    /* those of framed modules: role, frame client, 16 bits, FRMDLY, FRMPOL;
     * where CKE 1, where SSEN 1 has no effect, with CKP 1, enhanced */
    unsigned long framed_words[SSEN_CLIENT][2][2][2][2];
    unsigned long framed_by[4];
    /* pulses given: FRMDLY 0 between words, on a last bit; FRMDLY 1 */
    unsigned long pulse_between, pulse_last_bit, pulse_with;
    /* sampled: between words, at the last edge of a word; and SS then gone */
    unsigned long sampled_between, sampled_last_edge, sampled_gone;
    /* a pulse given or sampled that is lost by disabling */
    unsigned long given_lost, sampled_lost;
    /* framed fillers, by role; clock edges with neither word nor pulse */
    unsigned long framed_filler[SSEN_CLIENT], clock_alone;
    /* linked runs refused as the host, the client, or both are framed */
    unsigned long linked_framed[3];
    /* traces: what was wrong with them; of those refused, on modules that were
     * enabled; the deepest level played; played with no call, with 65,535, with
     * repeats, with plays that lead to no call, and to a module that is enabled,
     * has words unread, is marked, has its flag up */
    unsigned long faults[TRACE_FAULTS], refused_enabled;
    unsigned long levels[TRACE_LEVELS + 1];
    unsigned long no_call, all_calls, repeats, idle_plays;
    unsigned long left_enabled, left_unread, left_marked, left_flag;
    double costliest; /* seconds that the library took for a costly one */
    /* saves: lines kept, by kind, of these ticks by SS, and those that the
     * module refuses; lines left out: all that cannot be read, of these the
     * empty ones, those with CR and those of more than 16 bytes; writes and
     * reads of no register; scripts that end without LF, that are cut; files
     * with no record and with the most that fit; of the bytes lent: as many as
     * the file has, more, more than a file may have; refused: one byte short,
     * none lent, no room in any file; and the module at the end */
    unsigned long kept[SCRIPT_CLEAR + 1], kept_ss[2], kept_refused;
    unsigned long unreadable, empty_line, cr_line, long_line, no_register[2];
    unsigned long no_lf, cut, empty_file, full_file, exact, more, wide;
    unsigned long one_short, none_lent, past_limit;
    unsigned long end_enabled, end_unread, end_marked, end_flag;
    /* boards: calls that came to a module, by kind, the list's length and the
     * module's number; linked runs that were done, by both numbers; through
     * the header and direct; levels by a kind above theirs */
    unsigned long board[LOOK + 1][5][4], board_linked[4][4], direct[2];
    unsigned long far_kind;
    /* 21 and 22, by kind; 21 by the list's length, and where 22 stands behind
     * it; 22 for the host, the client and both, and for the same one twice; and
     * which of the refusals of a module alone stand behind them */
    unsigned long board_refused[2][LOOK + 1], bad_list[MODULES + 1];
    unsigned long bad_list_too, no_module[3], twice;
    unsigned long behind[2][REFUSALS];
    /* totals of sequences with a board of their own: calls by kind, refused as
     * on no board; totals that rose, that fell, by kind, those of them by more
     * than one word, by disabling, to none; that stayed as a word was aborted,
     * as a filler began and as it ended; the highest. Other totals: right ones,
     * wrong ones, with bits above the 16, that were stopped at 0 and at the
     * most, that a refusal left */
    unsigned long carried[LOOK + 1], carried_refused, rose, fell[LOOK + 1];
    unsigned long fell_more, fell_disabled, fell_to_none, kept_abort;
    unsigned long kept_filler, kept_filler_end;
    unsigned long highest;
    unsigned long total_right, total_wrong, total_high, at_none, at_most;
    unsigned long total_refused;
    /* power-ups with a depth, on a module alone and on a board: by depth, of
     * modules of another depth, of these with words owed; 25, of modules with
     * words owed. Then by depth, in standard and in enhanced operation: the
     * transmit buffer and the receive buffer filled, a write refused for it, a
     * word lost. In enhanced operation more than seven words shown as 7, of
     * depth 8 and of 16, by a host and by a client. Linked runs done, by both
     * depths; with the limit 544, of so many edges, with 545, which is
     * refused. Modules whose depth a play has made 8; modules looked at with
     * another number for 8 in memory */
    unsigned long deep[2][DEPTHS], deep_other[2], deep_owing[2];
    unsigned long no_depth[2], no_depth_owing[2];
    unsigned long full_tx[2][DEPTHS], full_rx[2][DEPTHS];
    unsigned long no_room[2][DEPTHS], lost[2][DEPTHS];
    unsigned long above_7[2][2], linked_depths[DEPTHS][DEPTHS];
    unsigned long limit_most, run_most, limit_past, deep_played, other_eight;
} reached;

/* Which of the depths a module has. */
static int depth_of(const struct ref_spi *m)
{
    return m->depth == 4 ? 0 : m->depth == 8 ? 1 : 2;
}

/* The words that each of its buffers holds. */
static int holds(const struct ref_spi *m)
{
    return m->spiben ? m->depth : 1;
}

static enum role role_of(const struct ref_spi *m)
{
    if (m->msten)
        return m->dissck ? DISSCK_HOST : OWN_CLOCK;
    return m->ssen && !m->frmen ? SSEN_CLIENT : CLIENT;
}

static int is_frame_host(const struct ref_spi *m)
{
    return m->frmen && !m->spifsd;
}

static int is_frame_client(const struct ref_spi *m)
{
    return m->frmen && m->spifsd;
}

static int is_undivided(const struct ref_spi *m)
{
    return m->ppre == 3 && m->spre == 7;
}

/* Which mistakes a module's settings hold. */
static void find_mistakes(const struct ref_spi *m, int found[MISTAKES])
{
    found[UNDIVIDED] = role_of(m) == OWN_CLOCK && is_undivided(m);
    found[LATE_SAMPLING] = m->smp;
    found[UNSELECTED_CKE] = role_of(m) == CLIENT && m->cke && !m->frmen;
}

/* 13 is a host's and 15 a client's, so the two cannot meet. */
static int can_meet(int a, int b)
{
    return !(a == UNDIVIDED && b == UNSELECTED_CKE);
}

/* A STAT write that was to enable a disabled module, and its answer's number. */
static void count_enabling(const struct ref_spi *m, uint32_t number)
{
    int found[MISTAKES];
    int a, b, n = 0;

    find_mistakes(m, found);
    for (a = 0; a < MISTAKES; a++)
        n += found[a];
    for (a = 0; a < MISTAKES; a++) {
        if (n == 1 && found[a])
            reached.single[a]++;
        if (n == 1 && found[a] && m->frmen)
            reached.framed[a]++;
        for (b = a + 1; b < MISTAKES; b++) {
            if (n == 2 && found[a] && found[b])
                reached.pair[a][b]++;
        }
    }
    if (m->frmen && number == 0) {
        reached.framed_on[m->ssen && !m->msten ? SSEN_CLIENT : role_of(m)]++;
        if (!m->msten && m->cke && !m->ssen)
            reached.framed_cke++;
    }
    if (is_undivided(m) && number == 0)
        reached.undivided[role_of(m)]++;
    if (is_undivided(m) && number == THURAFEQA_UNSELECTED_CKE)
        reached.undivided_cke++;
}

static int word_edges(const struct ref_spi *m)
{
    return m->mode16 ? 32 : 16;
}

static int is_filler(const struct ref_spi *m)
{
    return m->begun && m->filler;
}

static void count_words(const struct ref_spi *m, unsigned n)
{
    if (!m->frmen) {
        reached.words[m->spiben][role_of(m)][m->mode16][m->cke][m->ckp] += n;
        return;
    }
    reached.framed_words[role_of(m)][m->spifsd][m->mode16][m->frmdly]
                        [m->frmpol] += n;
    if (m->cke)
        reached.framed_by[0] += n;
    if (m->ssen && !m->msten)
        reached.framed_by[1] += n;
    if (m->ckp)
        reached.framed_by[2] += n;
    if (m->spiben)
        reached.framed_by[3] += n;
}

/* The edge of a framed module, a clock's level having changed. */
static void count_framed(const struct ref_spi *before,
                         const struct ref_spi *after)
{
    if (before->sck == after->sck) {
        if (is_frame_client(before) && before->pulse &&
            after->ss != after->frmpol)
            reached.sampled_gone++;
        return;
    }
    if (!before->begun && !after->begun && !before->pulse && !after->pulse)
        reached.clock_alone++;
    if (!is_filler(before) && is_filler(after))
        reached.framed_filler[role_of(after)]++;
    if (before->pulse || !after->pulse)
        return;
    if (is_frame_client(after) && before->begun)
        reached.sampled_last_edge++;
    else if (is_frame_client(after))
        reached.sampled_between++;
    else if (after->frmdly)
        reached.pulse_with++;
    else if (before->begun)
        reached.pulse_last_bit++;
    else
        reached.pulse_between++;
}

/* The mark of a module that a call has left with `after`. */
static void count_mark(const struct ref_spi *before,
                       const struct ref_spi *after)
{
    if (!before->mark && after->mark) {
        reached.marked[role_of(after)]++;
        if (after->frmen)
            reached.marked_framed++;
    }
    if (before->mark && after->mark) {
        if (before->spirov && !after->spirov)
            reached.rov_cleared++;
        if (!before->spirov && after->spirov)
            reached.rov_again++;
    }
}

/* A STAT write to a marked module that disabled it. */
static void count_unmarked(const struct ref_spi *before,
                           const struct ref_spi *after)
{
    if (before->mark && !after->mark)
        reached.unmarked[after->spirov]++;
}

/* A read of BUF that was not refused. */
static void count_read(const struct ref_spi *before)
{
    if (!before->spiben && before->spirov)
        reached.read_lost++;
    if (before->spiben && before->spirov)
        reached.read_rov++;
    if (before->spiben && before->rx.n == before->depth)
        reached.read_full++;
}

/* A word that was finished. */
static void count_lost(const struct ref_spi *before)
{
    if (before->mark)
        reached.lost_marked++;
    if (!before->spiben && before->rx.n == 1)
        reached.lost_standard++;
}

/* Its buffers, by its depth. A word that is lost while SPIROV is up is not
 * counted here. */
static void count_buffers(const struct ref_spi *before,
                          const struct ref_spi *after)
{
    int d = depth_of(after), enhanced = after->spiben;

    if (!after->spien || !before->spien)
        return;
    reached.full_tx[enhanced][d] +=
        before->tx.n < holds(before) && after->tx.n == holds(after);
    reached.full_rx[enhanced][d] +=
        before->rx.n < holds(before) && after->rx.n == holds(after);
    reached.lost[enhanced][d] += !before->spirov && after->spirov;
    if (enhanced && (after->msten ? after->tx.n : after->rx.n) > 7)
        reached.above_7[d == 2][!after->msten]++;
}

/* A power-up with a depth that came to a module. */
static void count_power_up(const struct call *c, const struct ref_spi *before,
                           uint32_t number)
{
    if (number != 0) {
        reached.no_depth[c->board]++;
        reached.no_depth_owing[c->board] += board_owes(before) > 0;
        return;
    }
    reached.deep[c->board][c->x == 4 ? 0 : c->x == 8 ? 1 : 2]++;
    reached.deep_other[c->board] += before->depth != (int)c->x;
    reached.deep_owing[c->board] += board_owes(before) > 0;
}

/* A linked run, by both depths and by its limit. */
static void count_linked(const struct call *c, const struct ref_spi *host,
                         const struct ref_spi *client, uint32_t number,
                         unsigned edges)
{
    reached.limit_past += number == THURAFEQA_TOO_MANY_EDGES && c->x == 545;
    if (number != 0)
        return;
    reached.linked_depths[depth_of(host)][depth_of(client)]++;
    reached.limit_most += c->x == 544;
    reached.run_most += edges == 544;
}

/* A module that a call has left with `after`. */
static void count_module(const struct ref_spi *before,
                         const struct ref_spi *after)
{
    count_mark(before, after);
    count_buffers(before, after);
    if (!before->flag && after->flag)
        reached.raised[depth_of(after)][after->spiben ? after->sisel : 8]++;
    if (!before->spirov && after->spirov)
        reached.overflow++;
    if (!is_filler(before) && is_filler(after))
        reached.filler++;
    if (before->spien && !after->spien && before->pulse) {
        if (is_frame_host(before))
            reached.given_lost++;
        if (is_frame_client(before))
            reached.sampled_lost++;
    }
}

/* A tick or a pin call that was not refused. Select is looked at first, so a
 * word that it aborts is not finished. */
static void count_edge(const struct ref_spi *before,
                       const struct ref_spi *after)
{
    int abort = role_of(before) == SSEN_CLIENT && !before->ss && after->ss;

    if (abort && is_filler(before))
        reached.aborted_filler++;
    else if (abort && before->begun)
        reached.aborted_word++;
    if (!abort && before->edges == word_edges(before) - 1 && !after->begun) {
        count_words(before, 1);
        count_lost(before);
    }
    if (before->frmen)
        count_framed(before, after);
}

/* A word at a time that was not refused, with this level at SS. */
static void count_word(const struct call *c, const struct ref_spi *before,
                       const struct ref_spi *after)
{
    enum role role = role_of(before);
    int b = c->board;

    reached.word_depth[b][depth_of(before)]++;
    if (before->frmen) {
        reached.word_framed[b][role]++;
        count_edge(before, after);
        return;
    }
    if (role == SSEN_CLIENT && c->x != 0) {
        reached.word_unselected[b]++;
        reached.word_aborted[b] += before->begun && !before->filler;
        return;
    }
    if (before->msten && !before->loaded) {
        reached.word_no_edge[b] += role == OWN_CLOCK;
        reached.word_nothing[b] += role == DISSCK_HOST;
        return;
    }
    reached.word[b][role][before->mode16][before->cke][before->ckp]++;
    if (b)
        reached.word_edge[before->mode16][before->begun ? before->edges : 0]++;
    reached.word_filler[b] +=
        is_filler(before) ||
        (!before->begun && !before->loaded && before->tx.n == 0);
    reached.word_idle[b] += !before->begun && before->sck != before->ckp;
    reached.word_lost[b] += !before->spirov && after->spirov;
    reached.word_next[b] += (unsigned long)after->loaded;
    count_words(before, 1);
    count_lost(before);
}

/* A linked run refused with 7: are both ends in their roles, and framed? */
static void count_unlinked(const struct ref_spi *host,
                           const struct ref_spi *client)
{
    if (role_of(host) != OWN_CLOCK || client->msten)
        return;
    if (host->frmen && client->frmen)
        reached.linked_framed[2]++;
    else
        reached.linked_framed[client->frmen]++;
}

/* What a right trace has: how deep play goes from a section, and whether there
 * are repeats and plays that lead to no call. */
static int count_depth(const struct trace *t, int s, int done[TRACE_SECTIONS],
                       int *repeats, int *idle)
{
    const struct trace_section *here = &t->section[s];
    size_t at;

    if (done[s])
        return done[s];
    done[s] = 1;
    for (at = here->start; at < here->start + here->length; at += 4) {
        const uint8_t *r = t->file + at;
        int depth;

        if (r[0] != TRACE_PLAY)
            continue;
        if (r[2] == 0 && r[3] == 0) {
            *idle = 1;
            continue;
        }
        *idle |= t->section[r[1]].calls == 0;
        *repeats |= r[2] > 1 || r[3] > 0;
        depth = count_depth(t, r[1], done, repeats, idle);
        if (done[s] < 1 + depth)
            done[s] = 1 + depth;
    }
    return done[s];
}

static void count_trace(const struct call *c, const struct ref_spi *before,
                        const struct ref_spi *after)
{
    static struct trace t;
    int done[TRACE_SECTIONS] = {0}, repeats = 0, idle = 0;
    struct call d = *c;
    enum trace_fault fault;

    bring_file(&d);
    fault = trace_open(&t, d.file, d.length);
    reached.faults[fault]++;
    if (fault != TRACE_RIGHT) {
        reached.refused_enabled += (unsigned long)before->spien;
        return;
    }
    reached.levels[count_depth(&t, 0, done, &repeats, &idle)]++;
    reached.no_call += t.section[0].calls == 0;
    reached.all_calls += t.section[0].calls == TRACE_CALLS;
    reached.repeats += (unsigned long)repeats;
    reached.idle_plays += (unsigned long)idle;
    reached.deep_played += before->depth != after->depth;
    reached.left_enabled += (unsigned long)after->spien;
    reached.left_unread += after->rx.n > 0;
    reached.left_marked += (unsigned long)after->mark;
    reached.left_flag += (unsigned long)after->flag;
}

/* A line that cannot be read. */
static void count_unreadable(const unsigned char *line, size_t n)
{
    reached.unreadable++;
    reached.empty_line += n == 0;
    reached.cr_line += n > 1 && line[n - 1] == '\r';
    reached.long_line += n > 16;
}

/* A line that can: it is kept, or names no register. */
static void count_line(const struct script_walk *w,
                       const struct script_call *line, int refusal)
{
    if (!save_keeps(line)) {
        reached.no_register[line->kind == SCRIPT_READ]++;
        return;
    }
    reached.kept[line->kind]++;
    if (line->kind == SCRIPT_TICK && w->length == 5)
        reached.kept_ss[line->ss]++;
    reached.kept_refused += refusal > 0;
}

/* A save, by the lines of its script. */
static void count_save(const struct call *c, const struct outcome *o)
{
    uint32_t number = thurafeqa_refusal(o->answer);
    struct call d = *c;
    struct script_walk w;
    struct script_call line;
    struct ref_spi m;
    unsigned value;
    size_t length;

    bring_script(&d);
    length = save_length(d.file, d.length);
    ref_power_up(&m);
    script_begin(&w, d.file, d.length);
    while (script_next(&w)) {
        if (script_read(w.line, w.length, &line))
            count_line(&w, &line, script_make(&m, &line, &value));
        else
            count_unreadable(w.line, w.length);
        reached.no_lf += !w.ended;
    }
    reached.cut += d.length > SCRIPT_BYTES;
    if (number != 0) {
        reached.one_short += length <= TRACE_BYTES && d.room == length - 1;
        reached.none_lent += d.room == 0;
        reached.past_limit += length > TRACE_BYTES && length <= d.room;
        return;
    }
    reached.empty_file += length == SAVE_CONTENTS;
    reached.full_file += length == TRACE_BYTES - 1;
    reached.exact += length == d.room;
    reached.more += length < d.room;
    reached.wide += d.room > TRACE_BYTES;
    reached.end_enabled += (unsigned long)m.spien;
    reached.end_unread += m.rx.n > 0;
    reached.end_marked += (unsigned long)m.mark;
    reached.end_flag += (unsigned long)m.flag;
}

/* Which refusal stands behind 21 or 22, as far as that can be told: the limit,
 * a register or a rate are wrong on any module; a tick, a pin call or a linked
 * run by a module that is there in memory. */
static uint32_t refusal_behind(const struct call *c, const struct ref_spi *pool)
{
    int there = c->n < c->count, other = c->n_other < c->count;
    const struct ref_spi *m = &pool[there ? c->first + (int)c->n : 0];
    const struct ref_spi *o = &pool[other ? c->first + (int)c->n_other : 0];

    switch (c->kind) {
    case POWER_UP_WITH: return is_depth(c->x) ? 0 : THURAFEQA_NO_SUCH_DEPTH;
    case READ:
    case WRITE: return c->x > THURAFEQA_BUF ? THURAFEQA_NO_SUCH_REGISTER : 0;
    case CLOCK: return c->x == 0 ? THURAFEQA_NO_RATE : 0;
    case STEP:
    case WORD: return there && !m->spien ? THURAFEQA_DISABLED : 0;
    case TICK:
    case PINS:
        if (!there)
            return 0;
        if (!m->spien)
            return THURAFEQA_DISABLED;
        return (role_of(m) == OWN_CLOCK) == (c->kind == TICK)
                   ? 0
                   : THURAFEQA_WRONG_CLOCK;
    case LINKED:
        if (c->x > 544)
            return THURAFEQA_TOO_MANY_EDGES;
        if ((there && !m->spien) || (other && !o->spien))
            return THURAFEQA_DISABLED;
        return (there && role_of(m) != OWN_CLOCK) || (other && o->msten)
                   ? THURAFEQA_WRONG_CLOCK
                   : 0;
    default: return 0;
    }
}

/* A call on a board that was refused as one. */
static void count_refused_board(const struct call *c, uint32_t number,
                                const struct ref_spi *pool)
{
    int bad = number == THURAFEQA_BAD_LIST;
    int there = c->n < c->count;
    int other = c->kind != LINKED || c->n_other < c->count;
    int same = c->kind == LINKED && c->n == c->n_other;

    reached.board_refused[!bad][c->kind]++;
    reached.behind[!bad][refusal_behind(c, pool)]++;
    if (bad) {
        reached.bad_list[c->count]++;
        reached.bad_list_too += !there || !other || same;
    } else if (there && other) {
        reached.twice++;
    } else {
        reached.no_module[there ? 1 : other ? 0 : 2]++;
    }
}

/* A total that was handed from call to call. */
static void count_carried(const struct call *c, const struct outcome *o,
                          const struct ref_spi *before,
                          const struct ref_spi *after)
{
    int was_filler = is_filler(before);

    reached.carried[c->kind]++;
    if (o->owed > reached.highest)
        reached.highest = o->owed;
    reached.rose += o->owed > total_before;
    if (o->owed < total_before) {
        reached.fell[c->kind]++;
        reached.fell_more += o->owed < total_before - 1;
        reached.fell_disabled += c->kind == WRITE;
        reached.fell_to_none += o->owed == 0;
    }
    if ((c->kind == PINS || c->kind == STEP) && before->begun &&
        !after->begun && before->edges < word_edges(before) - 1 &&
        total_before > 0)
        reached.kept_abort += !was_filler && o->owed == total_before;
    if (c->kind == PINS || c->kind == TICK || c->kind == STEP) {
        reached.kept_filler += !was_filler && is_filler(after) &&
                               o->owed == total_before;
        reached.kept_filler_end += was_filler && !after->begun &&
                                   before->edges == word_edges(before) - 1 &&
                                   o->owed == total_before && total_before > 0;
    }
}

/* The total of any call on a board. */
static void count_total(const struct call *c, const struct outcome *o,
                        const struct ref_spi *before,
                        const struct ref_spi *pool)
{
    uint32_t number = refusal_of(c, o->answer);
    int off = number == THURAFEQA_BAD_LIST || number == THURAFEQA_NO_MODULE;
    uint32_t own;

    if (c->carried) {
        reached.carried_refused += (unsigned long)off;
        if (!off)
            count_carried(c, o, before, &pool[c->module]);
        return;
    }
    reached.total_high += c->direct && c->owed > 0xFFFFu;
    reached.total_refused += off && o->owed == total_before;
    if (off)
        return;
    own = walk_owed(&pool[c->first], c->count);
    reached.total_right += o->owed == own;
    reached.total_wrong += o->owed != own;
    reached.at_none += o->owed == 0 && o->owed < total_before && own > 0;
    reached.at_most += o->owed == 0xFFFFu && total_before == 0xFFFFu &&
                       c->kind == WRITE && c->x == THURAFEQA_BUF && number == 0;
}

static void count_board(const struct call *c, uint32_t number)
{
    reached.direct[c->direct]++;
    reached.far_kind += c->kind == LOOK && c->direct &&
                        c->of_kind > THURAFEQA_BOARD_WORD;
    reached.board[c->kind][c->count][c->n]++;
    if (c->kind == LINKED && number == 0)
        reached.board_linked[c->n][c->n_other]++;
}

static void count(const struct call *c, const struct outcome *o,
                  const struct ref_spi *before, const struct ref_spi *pool)
{
    const struct ref_spi *m = &pool[c->module];
    uint32_t number = refusal_of(c, o->answer);
    unsigned edges = thurafeqa_value(o->answer);

    reached.kinds[c->kind]++;
    if (c->board)
        count_total(c, o, &before[0], pool);
    if (number == THURAFEQA_BAD_LIST || number == THURAFEQA_NO_MODULE) {
        count_refused_board(c, number, pool);
        reached.refused[number]++;
        return;
    }
    if (c->board)
        count_board(c, number);
    if (c->kind == PLAY || c->kind == SAVE) {
        if (c->kind == PLAY) /* its calls are not counted one by one */
            count_trace(c, &before[0], m);
        else
            count_save(c, o);
        reached.refused[number] += number != 0;
        return;
    }
    count_module(&before[0], m);
    if (concerned(c) == 2)
        count_module(&before[1], &pool[c->other]);
    if (c->kind == WRITE && c->x == THURAFEQA_STAT && !before[0].spien &&
        (c->y & THURAFEQA_STAT_SPIEN))
        count_enabling(&before[0], number);
    if (c->kind == LINKED && number == THURAFEQA_WRONG_CLOCK)
        count_unlinked(m, &pool[c->other]);
    if (c->kind == LINKED)
        count_linked(c, m, &pool[c->other], number, edges);
    if (c->kind == POWER_UP_WITH)
        count_power_up(c, &before[0], number);
    reached.no_room[m->spiben][depth_of(m)] += number == THURAFEQA_TRANSMIT_FULL;
    if (number != 0) {
        reached.refused[number]++;
        return;
    }
    switch (c->kind) {
    case POWER_UP:
    case POWER_UP_WITH:
        if (before[0].mark)
            reached.unmarked_power_up++;
        break;
    case READ:
        if (c->x == THURAFEQA_BUF)
            count_read(&before[0]);
        break;
    case WRITE:
        if (c->x == THURAFEQA_STAT)
            count_unmarked(&before[0], m);
        break;
    case TICK:
        if (edges == 0)
            reached.no_edge++;
        else
            reached.edge++;
        count_edge(&before[0], m);
        break;
    case PINS: count_edge(&before[0], m); break;
    case STEP:
        reached.step[role_of(m)][is_frame_client(m) ? 2 : is_frame_host(m)]++;
        reached.step_no_edge += (o->answer & THURAFEQA_NO_EDGE) != 0;
        count_edge(&before[0], m);
        break;
    case WORD: count_word(c, &before[0], m); break;
    case LINKED:
        reached.linked_edges += edges;
        count_words(m, ((unsigned)before[0].edges + edges) /
                           (unsigned)word_edges(m));
        if (!before[0].mark && m->mark)
            reached.marked_linked[0]++;
        if (!before[1].mark && pool[c->other].mark)
            reached.marked_linked[1]++;
        break;
    case CLOCK: reached.clock[thurafeqa_value(o->answer)]++; break;
    default: break;
    }
}

static int not_reached;

static void print_count(const char *what, unsigned long n)
{
    printf(" %s%s%lu", what, *what ? " " : "", n);
    if (n == 0)
        not_reached++;
}

static void print_numbered(const char *what, int i, unsigned long n)
{
    char name[32];

    sprintf(name, "%s%d:", what, i);
    print_count(name, n);
}

/* A row of what is printed: a heading, or a case and how often it was reached. */
struct row {
    const char *text;
    const unsigned long *n; /* 0: a heading */
};
#define PRINT(table) print_rows(table, sizeof(table) / sizeof(table)[0])

static void print_rows(const struct row *row, size_t n)
{
    for (; n > 0; n--, row++) {
        if (row->n == 0)
            printf("%s", row->text);
        else
            print_count(row->text, *row->n);
    }
}

/* One line of finished words, by CKE and CKP. */
static void print_words(enum role role, int mode16, int spiben)
{
    int i;

    printf("  %-19s %2d bits, %-8s  ", role_name[role], mode16 ? 16 : 8,
           spiben ? "enhanced" : "standard");
    for (i = 0; i < 4; i++) {
        unsigned long n = reached.words[spiben][role][mode16][i / 2][i % 2];
        if (role == CLIENT && i / 2 == 1) {
            printf(" %9s", "refused"); /* CKE without SSEN */
            continue;
        }
        printf(" %9lu", n);
        if (n == 0)
            not_reached++;
    }
    printf("\n");
}

/* One line of words that framed modules finished, by FRMDLY and FRMPOL. */
static void print_framed_words(enum role role, int spifsd, int mode16)
{
    int i;

    printf("  %-19s frame %-6s %2d bits", role_name[role],
           spifsd ? "client" : "host", mode16 ? 16 : 8);
    for (i = 0; i < 4; i++) {
        unsigned long n =
            reached.framed_words[role][spifsd][mode16][i / 2][i % 2];
        printf(" %9lu", n);
        if (n == 0)
            not_reached++;
    }
    printf("\n");
}

static const struct row pulse_rows[] = {
    {"\npulses given:", 0},
    {"FRMDLY 0, between words", &reached.pulse_between},
    {"on a last bit", &reached.pulse_last_bit},
    {"FRMDLY 1", &reached.pulse_with},
    {"lost by disabling", &reached.given_lost},
    {"\npulses sampled:", 0},
    {"between words", &reached.sampled_between},
    {"at a last edge", &reached.sampled_last_edge},
    {"kept as SS goes", &reached.sampled_gone},
    {"lost by disabling", &reached.sampled_lost},
};

static const struct row framed_rows[] = {
    {"\nframed:", 0},
    {"clock edges alone", &reached.clock_alone},
    {"words with CKE 1", &reached.framed_by[0]},
    {"SSEN 1", &reached.framed_by[1]},
    {"CKP 1", &reached.framed_by[2]},
    {"SPIBEN 1", &reached.framed_by[3]},
    {"\nlinked runs refused as framed:", 0},
    {"host", &reached.linked_framed[0]},
    {"client", &reached.linked_framed[1]},
    {"both", &reached.linked_framed[2]},
};

static void print_framed(void)
{
    int i;

    PRINT(pulse_rows);
    printf("\nframed fillers:");
    for (i = 0; i < SSEN_CLIENT; i++)
        print_count(role_name[i], reached.framed_filler[i]);
    PRINT(framed_rows);
}

/* What enabling was refused for, and what it was not. */
static void print_enabling(void)
{
    int a, b;

    printf("\nenabling, one mistake:");
    for (a = 0; a < MISTAKES; a++)
        print_numbered("", NUMBER_OF(a), reached.single[a]);
    printf(" of these framed:");
    for (a = 0; a < UNSELECTED_CKE; a++)
        print_numbered("", NUMBER_OF(a), reached.framed[a]);
    printf("\nenabling, more:");
    for (a = 0; a < MISTAKES; a++) {
        for (b = a + 1; b < MISTAKES; b++) {
            if (!can_meet(a, b))
                continue;
            printf(" %d with", NUMBER_OF(a));
            print_numbered("", NUMBER_OF(b), reached.pair[a][b]);
        }
    }
    printf("\nframed and enabled:");
    for (a = 0; a < ROLES; a++)
        print_count(role_name[a], reached.framed_on[a]);
    print_count("client with CKE, no SSEN", reached.framed_cke);
    printf("\nboth prescalers 1:1:");
    for (a = 0; a < ROLES; a++) {
        if (a == OWN_CLOCK)
            continue; /* refused */
        print_count(role_name[a], reached.undivided[a]);
    }
    print_numbered("client refused by ", (int)THURAFEQA_UNSELECTED_CKE,
                   reached.undivided_cke);
}

static const struct row mark_rows[] = {
    {"framed", &reached.marked_framed},
    {"in linked runs, host", &reached.marked_linked[0]},
    {"client", &reached.marked_linked[1]},
    {"\nmarked:", 0},
    {"words lost", &reached.lost_marked},
    {"SPIROV cleared", &reached.rov_cleared},
    {"and set again", &reached.rov_again},
    {"disabled with SPIROV cleared", &reached.unmarked[0]},
    {"and left", &reached.unmarked[1]},
    {"power-up", &reached.unmarked_power_up},
    {"\nnot marked:", 0},
    {"words lost in standard operation", &reached.lost_standard},
    {"read there with SPIROV", &reached.read_lost},
    {"enhanced, read with SPIROV", &reached.read_rov},
    {"from a full buffer", &reached.read_full},
};

static void print_marks(void)
{
    int i;

    printf("\nmark set:");
    for (i = 0; i < ROLES; i++)
        print_count(role_name[i], reached.marked[i]);
    PRINT(mark_rows);
}

static const struct row played_rows[] = {
    {"\nof these:", 0},
    {"no call", &reached.no_call},
    {"65,535 calls", &reached.all_calls},
    {"repeats", &reached.repeats},
    {"plays that lead to no call", &reached.idle_plays},
    {"left enabled", &reached.left_enabled},
    {"words unread", &reached.left_unread},
    {"marked", &reached.left_marked},
    {"flag up", &reached.left_flag},
};

static void print_traces(void)
{
    int i;

    printf("\ntraces:");
    for (i = 0; i < TRACE_FAULTS; i++) {
        printf("%s", i > 0 ? "," : "");
        print_count(trace_fault_text[i], reached.faults[i]);
    }
    printf("\ntraces refused:");
    print_count("on an enabled module", reached.refused_enabled);
    printf("\ntraces played, by levels:");
    for (i = 1; i <= TRACE_LEVELS; i++)
        print_numbered("", i, reached.levels[i]);
    PRINT(played_rows);
    printf("\ncostly traces: the slowest took %.0f ms",
           reached.costliest * 1000);
}

static const struct row saved_rows[] = {
    {"T with SS 0", &reached.kept_ss[0]},
    {"with SS 1", &reached.kept_ss[1]},
    {"refused by the module", &reached.kept_refused},
    {"\nlines left out:", 0},
    {"unreadable", &reached.unreadable},
    {"empty", &reached.empty_line},
    {"with CR", &reached.cr_line},
    {"of more than 16 bytes", &reached.long_line},
    {"no register, W", &reached.no_register[0]},
    {"R", &reached.no_register[1]},
    {"\nscripts:", 0},
    {"last line without LF", &reached.no_lf},
    {"cut at 65,535 bytes", &reached.cut},
    {"saved with no record", &reached.empty_file},
    {"with 16,381", &reached.full_file},
    {"\nbytes lent:", 0},
    {"just enough", &reached.exact},
    {"more", &reached.more},
    {"more than 65,535", &reached.wide},
    {"one short", &reached.one_short},
    {"none", &reached.none_lent},
    {"enough, but no file is so long", &reached.past_limit},
    {"\nsaved to a module that is:", 0},
    {"enabled", &reached.end_enabled},
    {"with words unread", &reached.end_unread},
    {"marked", &reached.end_marked},
    {"with its flag up", &reached.end_flag},
};

static void print_saves(void)
{
    static const char *const letter[] = {"W", "R", "T", "P", "C"};
    int i;

    printf("\nscripts saved, lines kept:");
    for (i = SCRIPT_WRITE; i <= SCRIPT_CLEAR; i++)
        print_count(letter[i], reached.kept[i]);
    PRINT(saved_rows);
}

static const struct row board_call_rows[] = {
    {"\ncalls on boards:", 0},
    {"through the header", &reached.direct[0]},
    {"direct", &reached.direct[1]},
    {"levels by a kind above 10", &reached.far_kind},
};

static const struct row no_module_rows[] = {
    {"\nno such module:", 0},
    {"named, or the host", &reached.no_module[0]},
    {"the client", &reached.no_module[1]},
    {"both", &reached.no_module[2]},
    {"the same one twice", &reached.twice},
};

static void print_boards(void)
{
    static const uint32_t behind[] = {
        THURAFEQA_NO_SUCH_REGISTER, THURAFEQA_DISABLED, THURAFEQA_WRONG_CLOCK,
        THURAFEQA_NO_RATE, THURAFEQA_TOO_MANY_EDGES, THURAFEQA_NO_SUCH_DEPTH};
    int k, n, o;

    printf("\non boards, by their modules and the one named:");
    for (k = 0; k <= LOOK; k++) {
        printf("\n  %-13s", kind_name[k]);
        for (n = k == LINKED ? 2 : 1; n <= 4; n++) {
            printf("%s", n > 1 ? "," : "");
            for (o = 0; o < n; o++)
                print_count("", reached.board[k][n][o]);
        }
    }
    printf("\nlinked runs done on boards, by host and client:");
    for (n = 0; n < 4; n++) {
        for (o = 0; o < 4; o++) {
            if (n != o)
                print_count("", reached.board_linked[n][o]);
        }
    }
    PRINT(board_call_rows);
    for (o = 0; o < 2; o++) {
        printf("\nrefused with %d:", (int)THURAFEQA_BAD_LIST + o);
        for (k = 0; k <= LOOK; k++)
            print_count(kind_name[k], reached.board_refused[o][k]);
        printf("\n  before");
        for (k = 0; k < 6; k++)
            print_numbered("", (int)behind[k], reached.behind[o][behind[k]]);
        if (o == 0)
            print_numbered("", (int)THURAFEQA_NO_MODULE, reached.bad_list_too);
    }
    printf("\nlists of");
    for (n = 0; n <= MODULES; n++) {
        if (n < 1 || n > 4)
            print_numbered("", n, reached.bad_list[n]);
    }
    PRINT(no_module_rows);
}

static const struct row carried_rows[] = {
    {"refused", &reached.carried_refused},
    {"\n ", 0},
    {"rose", &reached.rose},
};

static const struct row totals_rows[] = {
    {"by several", &reached.fell_more},
    {"by disabling", &reached.fell_disabled},
    {"to none", &reached.fell_to_none},
    {"\n ", 0},
    {"kept as a word is aborted", &reached.kept_abort},
    {"as a filler begins", &reached.kept_filler},
    {"as it ends", &reached.kept_filler_end},
    {"the highest", &reached.highest},
    {"\nother totals:", 0},
    {"right", &reached.total_right},
    {"wrong", &reached.total_wrong},
    {"with bits above", &reached.total_high},
    {"refused", &reached.total_refused},
    {"stopped at 0", &reached.at_none},
    {"at 65,535", &reached.at_most},
};

static void print_totals(void)
{
    static const enum kind falls[] = {POWER_UP, POWER_UP_WITH, WRITE, TICK,
                                      PINS,     STEP,          WORD,  LINKED};
    int k;

    printf("\nwords owed, handed from call to call:");
    for (k = 0; k <= LOOK; k++)
        print_count(kind_name[k], reached.carried[k]);
    PRINT(carried_rows);
    printf(" fell by");
    for (k = 0; k < (int)(sizeof falls / sizeof falls[0]); k++)
        print_count(kind_name[falls[k]], reached.fell[falls[k]]);
    PRINT(totals_rows);
}

static void print_steps(void)
{
    int i;

    printf("\nclock steps: of a");
    for (i = 0; i < ROLES; i++) {
        print_count(role_name[i], reached.step[i][0]);
        if (i == SSEN_CLIENT)
            continue; /* SSEN does not count in a framed module */
        print_count("as frame host", reached.step[i][1]);
        print_count("as frame client", reached.step[i][2]);
    }
    print_count("no edge", reached.step_no_edge);
}

/* Words at a time, on modules alone and on boards. */
static void print_word_calls(int b)
{
    int i, k;

    printf("\nwords at a time, on %s:", b ? "boards" : "modules");
    for (i = 0; i < ROLES; i++) {
        printf("\n  %-19s by width, CKE and CKP", role_name[i]);
        for (k = 0; k < 8; k++) {
            if (i != CLIENT || k / 2 % 2 == 0) /* CKE without SSEN is refused */
                print_count("", reached.word[b][i][k / 4][k / 2 % 2][k % 2]);
        }
        if (i != SSEN_CLIENT) /* SSEN does not count in a framed module */
            print_count("framed", reached.word_framed[b][i]);
    }
    for (i = 0; i < 2 && b; i++) {
        printf("\n  of %d bits, by the edges before:", i ? 16 : 8);
        for (k = 0; k < (i ? 32 : 16); k++)
            print_count("", reached.word_edge[i][k]);
    }
    printf("\n  of depth");
    for (i = 0; i < DEPTHS; i++)
        print_numbered("", (int)depths[i], reached.word_depth[b][i]);
    print_count("fillers", reached.word_filler[b]);
    print_count("with an idle edge", reached.word_idle[b]);
    print_count("lost", reached.word_lost[b]);
    print_count("with the next loaded", reached.word_next[b]);
    printf("\n  without a word:");
    print_count("no edge", reached.word_no_edge[b]);
    print_count("not selected", reached.word_unselected[b]);
    print_count("aborted", reached.word_aborted[b]);
    print_count("nothing to send", reached.word_nothing[b]);
}

/* One line for each depth. */
static void print_depth(int d)
{
    int o, i;

    printf("\ndepth %d: flag raised:", (int)depths[d]);
    print_count("standard", reached.raised[d][8]);
    for (i = 0; i < 8; i++)
        print_numbered("SISEL ", i, reached.raised[d][i]);
    for (o = 0; o < 2; o++) {
        printf("\n  %s:", o ? "enhanced" : "standard");
        print_count("waiting words full", reached.full_tx[o][d]);
        print_count("unread words full", reached.full_rx[o][d]);
        print_count("a write refused", reached.no_room[o][d]);
        print_count("a word lost", reached.lost[o][d]);
    }
    printf("\n  linked with a client of depth");
    for (i = 0; i < DEPTHS; i++)
        print_numbered("", (int)depths[i], reached.linked_depths[d][i]);
}

static const struct row depth_rows[] = {
    {"\nlinked runs:", 0},
    {"with the limit 544", &reached.limit_most},
    {"of 544 edges", &reached.run_most},
    {"refused with 545", &reached.limit_past},
    {"\nmodules:", 0},
    {"that a play made ones of depth 8", &reached.deep_played},
    {"seen with other numbers for 8", &reached.other_eight},
};

static void print_depths(void)
{
    int i, o;

    for (o = 0; o < 2; o++) {
        printf("\npower-up with a depth, on a %s:", o ? "board" : "module");
        for (i = 0; i < DEPTHS; i++)
            print_numbered("", (int)depths[i], reached.deep[o][i]);
        print_count("of another depth", reached.deep_other[o]);
        print_count("with words owed", reached.deep_owing[o]);
        print_numbered("", (int)THURAFEQA_NO_SUCH_DEPTH, reached.no_depth[o]);
        print_count("with words owed", reached.no_depth_owing[o]);
    }
    for (i = 0; i < DEPTHS; i++)
        print_depth(i);
    printf("\nmore than 7 words shown as 7:");
    for (i = 0; i < 2; i++) {
        print_numbered("host of depth ", (int)depths[1 + i],
                       reached.above_7[i][0]);
        print_count("client", reached.above_7[i][1]);
    }
    PRINT(depth_rows);
}

static const struct row seen_rows[] = {
    {"\nseen:", 0},
    {"overflow", &reached.overflow},
    {"filler", &reached.filler},
    {"abort of a word", &reached.aborted_word},
    {"of a filler", &reached.aborted_filler},
};

static const struct row tick_rows[] = {
    {"\nticks:", 0},
    {"an edge", &reached.edge},
    {"no edge", &reached.no_edge},
    {"edges in linked runs", &reached.linked_edges},
};

static const struct row clock_rows[] = {
    {"\nclock reports:", 0},
    {"none", &reached.clock[THURAFEQA_CLOCK_NONE]},
    {"internal", &reached.clock[THURAFEQA_CLOCK_INTERNAL]},
    {"external", &reached.clock[THURAFEQA_CLOCK_EXTERNAL]},
};

static void print_reached(void)
{
    int i;

    printf("calls:");
    for (i = 0; i < KINDS; i++)
        print_count(kind_name[i], reached.kinds[i]);
    printf("\nrefused:");
    for (i = 0; i < REFUSALS; i++) {
        if (is_given((uint32_t)i))
            print_numbered("", i, reached.refused[i]);
    }
    printf("\nnever given: 4: %lu 12: %lu", reached.refused[4],
           reached.refused[12]);
    print_enabling();
    print_depths();
    PRINT(seen_rows);
    print_marks();
    PRINT(tick_rows);
    print_steps();
    print_word_calls(0);
    print_word_calls(1);
    PRINT(clock_rows);
    print_framed();
    print_traces();
    print_saves();
    print_boards();
    print_totals();
    printf("\n%-40s %9s %9s %9s %9s\n", "words finished, by CKE and CKP:",
           "0 0", "0 1", "1 0", "1 1");
    for (i = 0; i < 4 * ROLES; i++)
        print_words((enum role)(i / 4), i / 2 % 2, i % 2);
    printf("%-42s %9s %9s %9s %9s\n", "framed ones, by FRMDLY and FRMPOL:",
           "0 0", "0 1", "1 0", "1 1");
    for (i = 0; i < 4 * SSEN_CLIENT; i++)
        print_framed_words((enum role)(i / 4), i / 2 % 2, i % 2);
}

/* ---- the run --------------------------------------------------------- */

static unsigned long seed, wanted, made;
static struct sides now;
static struct call sequence[LONGEST]; /* since power-up of all modules */
static int length;
static uint64_t noise;

/* Most calls of this sequence are made on boards; or it has a board of its own,
 * `own_count` modules from `own_first` on. One in so many names wrong
 * modules. */
static enum { NO_BOARDS, ANY_BOARDS, OWN_BOARD } boarding;
static int own_first, own_count;
static uint32_t right = 30;

static int is_own(int module)
{
    return boarding == OWN_BOARD && module >= own_first &&
           module < own_first + own_count;
}

/* Puts a call on the board of this sequence, with the total that it has. */
static void choose_own_board(struct call *c)
{
    put_on_board(c, own_first, (size_t)own_count);
    c->carried = 1;
    spoil_numbers(c, right);
}

/* Puts a call on a board, most often one that has its modules. */
static void choose_board(struct call *c)
{
    int low = c->module, high = c->module, first, count;

    if (c->kind == LINKED) {
        low = c->other < low ? c->other : low;
        high = c->other > high ? c->other : high;
    }
    if (high - low > 3 || one_in(right)) { /* a list that is too long */
        count = 5 + (int)below(2);
        first = (int)below((uint32_t)(MODULES - count + 1));
    } else if (one_in(2 * right)) {
        count = 0;
        first = low;
    } else {
        int least = high > 3 ? high - 3 : 0;

        first = least + (int)below((uint32_t)(low - least + 1));
        count = high - first + 1;
        while (count < 4 && first + count < MODULES && one_in(2))
            count++;
    }
    put_on_board(c, first, (size_t)count);
    spoil_numbers(c, right);
    c->owed = one_in(2) ? some_total()
                        : walk_owed(&now.model[first], (size_t)count);
}

/* Puts a call on a board if it is to be made on one; or may it not be made? On
 * the modules of the sequence's own board all calls go through it, but for
 * those that a list of the wrong length refuses. */
static int choose_call(struct call *c)
{
    int own = is_own(c->module);

    if (c->kind == SAVE)
        return 1;
    if (c->kind == LINKED && own != is_own(c->other))
        return 0;
    if (own && !on_boards(c->kind))
        return 0;
    if (own && one_in(right)) {
        int count = one_in(2) ? 0 : 5 + (int)below(2);

        put_on_board(c, 0, (size_t)count);
        c->owed = some_total();
    } else if (own) {
        choose_own_board(c);
    } else if (boarding != NO_BOARDS && on_boards(c->kind) && !one_in(10)) {
        choose_board(c);
    }
    return 1;
}

/* A module of depth 8 with any number at place 6 but 4 and 16, and with words
 * where that depth has none, shows the same. */
static void hold_eight(int i)
{
    uint32_t l[VIEWS], m[VIEWS];
    thurafeqa copy = now.library[i];
    int k;

    if (now.model[i].depth != 8)
        return;
    do
        copy.memory[6] = (uint16_t)(one_in(2) ? any_number() : below(20));
    while (copy.memory[6] == 4 || copy.memory[6] == 16);
    for (k = 0; k < 8; k++)
        copy.memory[32 + k] = copy.memory[52 + k] = (uint16_t)any_number();
    see_library(&copy, l);
    see_model(&now.model[i], m);
    reached.other_eight++;
    if (memcmp(l, m, sizeof l) == 0)
        return;
    printf("call %lu of seed %lu: module %d of depth 8 is another with %d at "
           "place 6\n",
           made, seed, i, copy.memory[6]);
    print_views("module", i, l, m);
    exit(1);
}

/* Makes a call on both sides and holds them to each other. Once the sequence is
 * as long as it may be, or all calls are made, nothing more happens. */
static void make(enum kind kind, int module, int other, uint32_t x, uint32_t y,
                 uint32_t z)
{
    struct ref_spi before[2];
    struct outcome l, m;
    struct call c = {0};

    if (length == LONGEST || made == wanted)
        return;
    c.kind = kind;
    c.module = module;
    c.other = other;
    c.x = x;
    c.y = y;
    c.z = z;
    if (!choose_call(&c))
        return;
    sequence[length++] = c;
    made++;
    before[0] = now.model[module];
    if (kind == LINKED)
        before[1] = now.model[other];
    if (!ask_both(&now, &c, &l, &m)) {
        printf("call %lu of seed %lu: library and model differ\n  ", made,
               seed);
        print_call(&c);
        printf("\n");
        print_differences(&c, &l, &m);
        tell(sequence, length, noise);
        exit(1);
    }
    if (refusal_of(&c, l.answer) != 0 &&
        !is_given(refusal_of(&c, l.answer))) {
        printf("call %lu of seed %lu: no call gives the refusal number %d\n  ",
               made, seed, (int)refusal_of(&c, l.answer));
        print_call(&c);
        printf("\n");
        exit(1);
    }
    count(&c, &m, before, now.model);
    if (one_in(32))
        hold_eight(module);
}

static void power_up(int i) { make(POWER_UP, i, i, 0, 0, 0); }

/* With any depth, and now and then without. */
static void power_up_with(int i)
{
    if (one_in(8))
        power_up(i);
    else
        make(POWER_UP_WITH, i, i, some_depth(), 0, 0);
}

static void play_trace(int i) { make(PLAY, i, i, any_number(), 0, 0); }
static void clear(int i) { make(CLEAR, i, i, 0, 0, 0); }
static void look(int i) { make(LOOK, i, i, 0, 0, 0); }
static void clock_report(int i, uint32_t f) { make(CLOCK, i, i, f, 0, 0); }
static void read_register(int i, uint32_t n) { make(READ, i, i, n, 0, 0); }

static void save_script(void)
{
    uint32_t script = any_number();

    make(SAVE, 0, 0, script, any_number(), 0);
}

static void write_register(int i, uint32_t n, uint32_t value)
{
    make(WRITE, i, i, n, value, 0);
}

static uint32_t any_level(void) { return some_level((int)below(2)); }

static void tick(int i, int ss)
{
    make(TICK, i, i, any_level(), some_level(ss), 0);
}

static void clock_step(int i, int sck, int ss)
{
    make(STEP, i, i, some_level(sck), any_level(), some_level(ss));
}

static void pins(int i, int sck, int ss)
{
    make(PINS, i, i, some_level(sck), any_level(), some_level(ss));
}

static void word_at_a_time(int i, int ss)
{
    make(WORD, i, i, some_level(ss), any_number(), 0);
}

/* ---- random settings ------------------------------------------------- */

/* CON1 of a role, in the modes MODE16, CKE and CKP; mostly one that can be
 * enabled. */
static uint32_t some_con1(enum role role, uint32_t modes)
{
    uint32_t c = modes;

    c |= any_number() & (0xE000u | THURAFEQA_CON1_SPRE | THURAFEQA_CON1_PPRE);
    switch (role) {
    case OWN_CLOCK: c |= THURAFEQA_CON1_MSTEN; break;
    case DISSCK_HOST: c |= THURAFEQA_CON1_MSTEN | THURAFEQA_CON1_DISSCK; break;
    case SSEN_CLIENT: c |= THURAFEQA_CON1_SSEN; break;
    default:
        if (!one_in(8))
            c &= ~THURAFEQA_CON1_CKE;
        break;
    }
    if ((c & THURAFEQA_CON1_MSTEN) && one_in(4))
        c |= THURAFEQA_CON1_SSEN; /* no effect on a host */
    if (!(c & THURAFEQA_CON1_MSTEN) && one_in(8))
        c |= THURAFEQA_CON1_DISSCK; /* no effect on a client */
    if (one_in(8))
        c |= THURAFEQA_CON1_DISSDO;
    if (one_in(40))
        c |= THURAFEQA_CON1_SMP;
    return c;
}

static uint32_t some_modes(void)
{
    return any_number() &
           (THURAFEQA_CON1_MODE16 | THURAFEQA_CON1_CKE | THURAFEQA_CON1_CKP);
}

static uint32_t some_con2(int framed)
{
    uint32_t c = any_number() & 0xFFFFu;

    if (!one_in(40) && !framed)
        c &= ~THURAFEQA_CON2_FRMEN;
    if (framed)
        c |= THURAFEQA_CON2_FRMEN;
    if (one_in(3))
        c |= THURAFEQA_CON2_SPIBEN;
    return c;
}

/* STAT with SPIEN 1 and anything else. */
static uint32_t some_stat(void)
{
    return (any_number() & 0xFFFFu) | THURAFEQA_STAT_SPIEN;
}

static void set_up(int i, uint32_t con1, uint32_t con2)
{
    if (now.model[i].spien)
        write_register(i, THURAFEQA_STAT,
                       any_number() & 0xFFFFu & ~THURAFEQA_STAT_SPIEN);
    write_register(i, THURAFEQA_CON1, con1);
    write_register(i, THURAFEQA_CON2, con2);
    write_register(i, THURAFEQA_STAT, some_stat());
}

/* Settings near those that cannot be enabled: none of the mistakes, one, or
 * several at once. */
static void set_up_mistaken(int i)
{
    uint32_t con1 = some_con1((enum role)below(ROLES), some_modes());
    uint32_t con2 = some_con2(one_in(3));

    con1 &= ~THURAFEQA_CON1_SMP;
    if (one_in(2))
        con1 |= THURAFEQA_CON1_SPRE | THURAFEQA_CON1_PPRE;
    if (one_in(2))
        con1 |= THURAFEQA_CON1_CKE;
    if (one_in(3))
        con1 |= THURAFEQA_CON1_SMP;
    set_up(i, con1, con2);
}

static void set_up_alone(int i)
{
    if (one_in(8)) {
        int tries = 1 + (int)below(8);
        while (tries-- > 0)
            set_up_mistaken(i);
        if (now.model[i].spien)
            return;
    }
    set_up(i, some_con1((enum role)below(ROLES), some_modes()),
           some_con2(one_in(2)));
}

/* Two that can be linked, but for a mode now and then; CON2 has these bits and
 * any others. */
static void set_up_two(int host, int client, uint32_t con2)
{
    uint32_t modes = some_modes();
    uint32_t other = modes;
    enum role role = one_in(2) || (modes & THURAFEQA_CON1_CKE) ? SSEN_CLIENT
                                                               : CLIENT;

    if (one_in(12))
        other ^= some_modes();
    set_up(host, some_con1(OWN_CLOCK, modes), con2 | some_con2(one_in(20)));
    set_up(client, some_con1(role, other), con2 | some_con2(one_in(20)));
}

static void set_up_partners(int i)
{
    int host = i ^ (int)below(2);

    set_up_two(host, host ^ 1, 0);
}

/* ---- random acts on an enabled module -------------------------------- */

static uint32_t some_word(void)
{
    static const uint32_t word[] = {0, 0xFFFF, 0x8000, 0x0080, 0x0001, 0x5555};

    return one_in(4) ? word[below(6)] : any_number();
}

static void write_words(int i)
{
    const struct ref_spi *m = &now.model[i];
    int n = one_in(3) ? m->depth + 2 : 1 + (int)below(3);

    while (n-- > 0) {
        write_register(i, THURAFEQA_BUF, some_word());
        if (m->tx.n == holds(m) && !one_in(4))
            return;
    }
}

static void read_words(int i)
{
    const struct ref_spi *m = &now.model[i];
    int n = one_in(3) ? m->depth + 1 : 1 + (int)below(3);

    while (n-- > 0) {
        read_register(i, THURAFEQA_BUF);
        if ((m->rx.n == 0 || m->mark) && !one_in(4))
            return;
    }
}

/* One edge, or a pin call much like one. An SSEN client is selected soon and
 * deselected seldom. A frame client sees a pulse in every second to eighth
 * call. */
static void give_edge(int i, uint32_t apart)
{
    const struct ref_spi *m = &now.model[i];
    int sck = one_in(32) ? (int)below(2) : !m->sck;
    int ss = (int)below(2);

    if (role_of(m) == SSEN_CLIENT)
        ss = m->ss ? one_in(8) : one_in(150);
    if (is_frame_client(m))
        ss = one_in(apart) ? m->frmpol : !m->frmpol;
    if (one_in(3))
        clock_step(i, role_of(m) == OWN_CLOCK ? (int)below(2) : sck, ss);
    else if (role_of(m) == OWN_CLOCK)
        tick(i, ss);
    else
        pins(i, sck, ss);
}

/* The edges to the end of the word that is under way or comes next. */
static int edges_left(const struct ref_spi *m)
{
    int n = word_edges(m) - m->edges;

    if (m->frmen && !m->begun)
        n += 2 + (m->sck != m->ckp);
    return n;
}

/* Words at a time: the rest of the word under way, and some more; an SSEN client
 * is seldom not selected. */
static void give_words(int i)
{
    uint32_t n = 1 + below(3);

    while (n-- > 0) {
        if (one_in(2))
            write_register(i, THURAFEQA_BUF, some_word());
        word_at_a_time(i, one_in(10));
    }
}

static void give_edges(int i)
{
    const struct ref_spi *m = &now.model[i];
    int word = word_edges(m), words = 0;
    uint32_t apart = 2 + below(7);
    int n;

    if ((m->msten || m->frmen) && !m->loaded && one_in(2))
        write_register(i, THURAFEQA_BUF, some_word());
    switch (below(12)) {
    case 0: case 1: n = 1 + (int)below(3); break;
    case 2: n = (int)below((uint32_t)word); break;
    case 3: n = word * (1 + (int)below(one_in(4) ? 17 : 6)); break;
    case 4: case 5: case 6: case 7:
        n = (int)below((uint32_t)word);
        words = 1;
        break;
    default: n = edges_left(m); break;
    }
    while (n-- > 0) {
        give_edge(i, apart);
        if (role_of(m) == OWN_CLOCK && !m->loaded && !m->frmen && !one_in(4))
            return;
    }
    if (words)
        give_words(i);
}

/* A marked module: firmware clears SPIROV alone and goes on, or it disables the
 * module and enables it with the settings that it has; or power-up. */
static void act_marked(int i)
{
    if (one_in(2)) {
        write_register(i, THURAFEQA_STAT, some_stat() & ~THURAFEQA_STAT_SPIROV);
        give_edges(i);
        read_register(i, THURAFEQA_BUF);
    } else if (one_in(6)) {
        power_up_with(i);
    } else {
        write_register(i, THURAFEQA_STAT,
                       any_number() & 0xFFFFu & ~THURAFEQA_STAT_SPIEN);
        write_register(i, THURAFEQA_STAT, some_stat());
    }
}

static void change_select(int i)
{
    const struct ref_spi *m = &now.model[i];

    pins(i, one_in(4) ? !m->sck : m->sck, !m->ss);
}

static uint32_t some_rate(const struct ref_spi *m)
{
    static const uint32_t rate[] = {0, 1, 7, 512, 40000000, 0xFFFFFFFFu};
    static const uint32_t primary[4] = {64, 16, 4, 1};

    if (one_in(3))
        return rate[below(6)];
    if (one_in(2))
        return any_number();
    return primary[m->ppre] * (8 - (uint32_t)m->spre) * below(1u << 22);
}

/* A linked run between partners, or between any two. */
static void link_modules(int i)
{
    int host = role_of(&now.model[i]) == OWN_CLOCK ? i : i ^ 1;
    int client = host ^ 1;

    if (one_in(20)) {
        host = (int)below(MODULES);
        client = (host + 1 + (int)below(MODULES - 1)) % MODULES;
    }
    if (one_in(2))
        write_words(host);
    if (one_in(3))
        write_words(client);
    make(LINKED, host, client, some_limit(), 0, 0);
}

/* CON1 or CON2, with any value or with the one it has. */
static void write_setting(int i)
{
    uint32_t n = 1 + below(2);
    unsigned value = any_number();

    if (one_in(2))
        (void)ref_read(&now.model[i], n, &value);
    write_register(i, n, value);
}

/* Any call, sensible or not. */
static void do_anything(int i)
{
    switch (below(10)) {
    case 0: clock_report(i, some_rate(&now.model[i])); break;
    case 8: word_at_a_time(i, (int)below(2)); break;
    case 1: read_register(i, some_register()); break;
    case 7: look(i); break;
    case 2: write_register(i, some_register(), any_number()); break;
    case 3: tick(i, (int)below(2)); break;
    case 4: pins(i, (int)below(2), (int)below(2)); break;
    case 5: clear(i); break;
    case 6: write_setting(i); break;
    default: make(LINKED, i, i ^ 1, some_limit(), 0, 0); break;
    }
}

/* What is done between writing, clocking and reading. */
static void do_else(int i)
{
    switch (below(16)) {
    case 0: case 1: clear(i); break;
    case 2: case 3: case 4:
        write_register(i, THURAFEQA_STAT, some_stat());
        break;
    case 5: link_modules(i); break;
    case 6: case 7: clock_report(i, some_rate(&now.model[i])); break;
    case 8: read_register(i, some_register()); break;
    case 9: case 10: change_select(i); break;
    case 11:
        if (one_in(3))
            write_register(i, THURAFEQA_STAT, any_number());
        break;
    case 12:
        if (one_in(20))
            power_up(i);
        else if (one_in(10))
            power_up_with(i);
        break;
    case 13:
        if (one_in(2))
            play_trace(i);
        else
            save_script();
        break;
    default: do_anything(i); break;
    }
}

/* How much of what is done is writing, clocking and reading, in parts of 100;
 * the rest is anything else. */
static const struct {
    uint32_t writing, clocking, reading;
} moods[] = {
    {25, 40, 20}, /* a bit of each */
    {60, 20, 3},  /* the transmit buffer fills */
    {20, 65, 1},  /* the receive buffer fills and overflows */
    {3, 75, 12},  /* too few words: fillers */
    {4, 50, 36},  /* the receive buffer empties */
};
#define MOODS (sizeof moods / sizeof moods[0])

static void act(int i, size_t mood)
{
    const struct ref_spi *m = &now.model[i];
    uint32_t x = below(100);

    if (!m->spien) {
        if (one_in(3))
            do_anything(i);
        else
            set_up_alone(i);
        return;
    }
    if (x < moods[mood].writing)
        write_words(i);
    else if (x < moods[mood].writing + moods[mood].clocking)
        give_edges(i);
    else if (x < moods[mood].writing + moods[mood].clocking +
                     moods[mood].reading)
        read_words(i);
    else
        do_else(i);
    if (m->flag && one_in(2))
        clear(i);
    if (m->mark && one_in(5))
        act_marked(i);
}

/* Calls of every kind on boards, of which many are wrong ones, on modules as
 * they are; then a linked run between any two that a board can have. */
static void try_boards(void)
{
    uint32_t n = 4 + below(16);
    int host = (int)below(MODULES), client;

    right = 4;
    while (n-- > 0) {
        int i = (int)below(MODULES);

        switch (below(5)) {
        case 0: look(i); break;
        case 1:
            clock_report(i, one_in(2) ? 0 : some_rate(&now.model[i]));
            break;
        case 2:
            make(LINKED, i, (i + 1 + (int)below(MODULES - 1)) % MODULES,
                 some_limit(), 0, 0);
            break;
        case 3:
            if (one_in(6))
                power_up(i);
            else if (one_in(4))
                power_up_with(i);
            else
                clear(i);
            break;
        default: do_anything(i); break;
        }
    }
    right = 30;
    do
        client = (int)below(MODULES);
    while (client == host || abs(client - host) > 3);
    set_up_two(host, client, 0);
    write_words(host);
    write_words(client);
    make(LINKED, host, client, some_limit(), 0, 0);
}

/* A module is written to until it is full. */
static void fill(int i)
{
    const struct ref_spi *m = &now.model[i];
    int n = m->depth + 1;

    while (n-- > 0 && m->tx.n < holds(m))
        write_register(i, THURAFEQA_BUF, some_word());
}

/* Gives SISEL one of the events that go by the depth of what is sent or
 * received: 2, 3 or 4. */
static void choose_event(int i)
{
    write_register(i, THURAFEQA_STAT,
                   THURAFEQA_STAT_SPIEN | (2 + below(3))
                                              << THURAFEQA_STAT_SISEL_SHIFT);
}

/* Two enhanced ones of any depths, and a linked run of all that the host has to
 * send; now and then another, without a read between them. */
static void link_full(int host, int client)
{
    int runs = one_in(2) ? 1 : 2;

    power_up_with(host);
    power_up_with(client);
    set_up_two(host, client, THURAFEQA_CON2_SPIBEN);
    if (one_in(2))
        choose_event(host);
    if (one_in(2))
        choose_event(client);
    while (runs-- > 0) {
        fill(host);
        if (one_in(2))
            fill(client);
        clear(host);
        clear(client);
        make(LINKED, host, client, one_in(6) ? some_limit() : 544, 0, 0);
    }
    read_words(client);
}

/* Some traces, one after the other. The last that is not refused leaves the
 * module for what comes. Then some scripts are saved. */
static void play_traces(int i)
{
    uint32_t n;

    for (n = one_in(3) ? 1 + below(8) : 0; n > 0; n--)
        play_trace(i);
    for (n = one_in(3) ? 1 + below(8) : 0; n > 0; n--)
        save_script();
}

/* A sequence of calls, from power-up of all modules on. */
static void run_sequence(void)
{
    int linked = one_in(2);
    int end = 500 + (int)below(LONGEST - 499);
    int i;

    length = 0;
    boarding = one_in(3) ? NO_BOARDS : one_in(2) ? ANY_BOARDS : OWN_BOARD;
    own_count = 1 + (int)below(4);
    own_first = (int)below((uint32_t)(MODULES - own_count + 1));
    noise = ((uint64_t)any_number() << 32 | any_number()) | 1;
    power_up_all(&now, noise);
    for (i = 0; i < MODULES; i++)
        power_up_with(i);
    while (length < end && made < wanted) {
        int module = (int)below(MODULES);
        int acts = 4 + (int)below(12);
        size_t mood = below(MOODS);

        play_traces(module);
        if (one_in(3))
            power_up_with(module);
        if (boarding && one_in(2))
            try_boards();
        if (linked && one_in(6))
            link_full(module, module ^ 1);
        if (linked && one_in(2))
            set_up_partners(module);
        else if (!one_in(4))
            set_up_alone(module);
        while (acts-- > 0) {
            act(module, mood);
            if (linked && one_in(3)) {
                module ^= 1;
                link_modules(module);
            }
        }
    }
}

/* ---- costly traces --------------------------------------------------- */

/* Each is answered as the model answers it, and in less than a second. */
static void play_costly(void)
{
    static uint8_t file[SOME_TRACE_BYTES];
    static struct sides s;
    int i;

    for (i = 0; i < COSTLY_TRACES; i++) {
        unsigned calls;
        size_t n = costly_trace(i, file, &calls);
        struct call c = {0};
        struct outcome l, m;
        clock_t began;
        double took;

        power_up_all(&s, 0);
        c.kind = PLAY;
        c.file = file;
        c.length = n;
        began = clock();
        ask_library(&s.library[0], &s.library[0], &c, &l);
        took = (double)(clock() - began) / CLOCKS_PER_SEC;
        ask_model(&s.model[0], &s.model[0], &c, &m);
        see_library(&s.library[0], l.seen[0]);
        see_model(&s.model[0], m.seen[0]);
        if (took > reached.costliest)
            reached.costliest = took;
        if (l.answer != m.answer ||
            memcmp(l.seen[0], m.seen[0], sizeof l.seen[0]) != 0) {
            printf("costly trace %d: library and model differ\n", i);
            print_differences(&c, &l, &m);
            exit(1);
        }
        if (took > 1) {
            printf("costly trace %d took %.1f s\n", i, took);
            exit(1);
        }
    }
}

/* Power-up with 8 leaves the memory that power-up without a depth leaves, all
 * zeros, and power-up with 4 and 16 differs from it in place 6 alone. */
static void compare_power_ups(void)
{
    thurafeqa m, other;
    int i;

    for (i = 0; i < DEPTHS; i++) {
        memset(&m, 0x5A, sizeof m);
        memset(&other, 0xA5, sizeof other);
        thurafeqa_power_up(&m);
        if (thurafeqa_power_up_with(&other, depths[i]) != 0 ||
            !has_depth(&other, (int)depths[i])) {
            printf("power-up with %d words\n", (int)depths[i]);
            exit(1);
        }
        other.memory[6] = 0;
        if (!has_depth(&m, 8) || memcmp(&m, &other, sizeof m) != 0) {
            printf("power-up with %d words leaves other memory than power-up\n",
                   (int)depths[i]);
            exit(1);
        }
    }
}

/* The prescalers for a wanted rate, by trying every setting: PPRE and SPRE of
 * the least divider with which the rate is not passed, but both 1:1. */
static uint32_t best_prescalers(uint64_t rate, uint64_t wanted_rate)
{
    static const uint32_t primary[] = {64, 16, 4, 1};
    uint32_t ppre, spre, least = 1000, best = THURAFEQA_NO_PRESCALERS;

    for (ppre = 0; ppre < 4; ppre++)
        for (spre = 0; spre < 8; spre++) {
            uint32_t divider = primary[ppre] * (8 - spre);

            if (divider > 1 && divider < least && rate <= wanted_rate * divider) {
                least = divider;
                best = spre << 2 | ppre;
            }
        }
    return best;
}

/* Every setting's rate, with one to either side, and any rates. */
static void compare_prescalers(void)
{
    int i;

    for (i = 0; i < 100000; i++) {
        uint32_t rate = any_number() >> below(32);
        uint32_t at = one_in(8) ? any_number() >> below(32)
                                : rate / (1 + below(520)) + below(3) - 1;

        if (thurafeqa_prescalers(rate, at) != best_prescalers(rate, at)) {
            printf("prescalers of %lu for %lu: %lu, not %lu\n",
                   (unsigned long)rate, (unsigned long)at,
                   (unsigned long)thurafeqa_prescalers(rate, at),
                   (unsigned long)best_prescalers(rate, at));
            exit(1);
        }
    }
}

int main(int argc, char **argv)
{
    if (argc != 3) {
        fprintf(stderr, "usage: compare CALLS SEED\n");
        return 2;
    }
    wanted = strtoul(argv[1], 0, 10);
    seed = strtoul(argv[2], 0, 10);
    printf("seed %lu\n", seed);
    start_numbers(seed);
    compare_power_ups();
    compare_prescalers();
    while (made < wanted)
        run_sequence();
    play_costly();
    print_reached();
    if (not_reached > 0) {
        printf("%lu calls, 0 differences, but %d cases were not reached\n",
               made, not_reached);
        return 1;
    }
    printf("%lu calls, 0 differences\n", made);
    return 0;
}
