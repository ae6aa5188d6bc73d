/* The library's calls as records, and random numbers to make them from: what
 * compare.c and hostile.c share. */
#ifndef CALLS_H
#define CALLS_H

#include "thurafeqa.h"

/* ---- calls ----------------------------------------------------------- */

enum kind {
    POWER_UP,
    POWER_UP_WITH, /* a depth */
    READ,
    WRITE,
    TICK,
    PINS,
    STEP,
    WORD, /* at a time */
    CLEAR,
    LINKED,
    CLOCK,
    LOOK, /* at the levels */
    PLAY,
    SAVE,
    KINDS
};
extern const char *const kind_name[KINDS];

struct call {
    enum kind kind;
    int module, other; /* the other one: a linked run's client */
    uint32_t x, y, z;  /* the arguments in their order; of a play x is the
                        * number from which its file is made, of a save that
                        * of its script, and y that of the room and of what
                        * is lent */
    const uint8_t *file; /* of a play, its file; see bring_file. Of a save, */
    size_t length;       /* its script, and what is lent; see bring_script */
    uint8_t *lent;
    size_t room;
    int board;    /* made on a board, whose list has `count` modules from */
    int first;    /* the module `first` on, and names its modules by these */
    size_t count; /* numbers there, which need not be right */
    uint32_t n, n_other;
    int direct;       /* by the library's own function, which is told this */
    uint32_t of_kind; /* kind; or else by those of the header */
    int carried;      /* with the total that the board has, or with this one, */
    uint32_t owed;    /* whose low 16 bits count */
};

/* Can a call of this kind be made on a board? All but plays and saves. */
int on_boards(enum kind kind);

/* What the library's own function takes for a kind. Any number above those of
 * all kinds is as good as that of the levels. */
uint32_t board_kind(enum kind kind);

/* Puts a call on a board of a list of `count` modules from `first` on: its
 * modules have the numbers that they have there. Arguments that the call does
 * not have may become any numbers. */
void put_on_board(struct call *c, int first, size_t count);

/* The refusal that stands before those of the call on a module alone: 21 by the
 * list's length, then 22 by the numbers; 0 if there is none. */
uint32_t board_refusal(const struct call *c);

/* Spoils the numbers of a call on a board now and then, in `of` cases once: a
 * module that is not there, or the same one twice. */
void spoil_numbers(struct call *c, uint32_t of);

/* The file of a play, made from its number: sets `file` and `length`. It is
 * there until another number's is brought. */
void bring_file(struct call *c);

/* The script and the room of a save, made from their numbers: sets `file`,
 * `length` and `room`. They are there until another number's are brought. */
void bring_script(struct call *c);

/* What is lent to a save before the call: so many bytes, from a number. */
void fill_lent(uint8_t *lent, size_t room, uint32_t number);

/* How many modules a call is made on. */
int concerned(const struct call *c);

/* The refusal number of what such a call answers, 0 if none. That of a word at a
 * time has more above it. */
uint32_t refusal_of(const struct call *c, uint32_t answer);

/* Refusal numbers are below this. Does any call give that one? Not 4 and 12,
 * which are gone, not 9, which is of scripts, and not 23 and 24, which are of
 * the audio card and of the TI module. */
#define REFUSALS 26
int is_given(uint32_t number);

/* Of a play also the file, or its beginning, in hexadecimal; of a save the
 * script. */
void print_call(const struct call *c);

/* ---- what comes of a call -------------------------------------------- */

/* What is seen of a module without changing it: its registers, BUF being read
 * on a copy, and the levels. */
enum view { STAT, CON1, CON2, BUF, LEVELS, VIEWS };
extern const char *const view_name[VIEWS];

struct outcome {
    uint32_t answer;
    uint32_t owed, owes; /* on a board: the total after the call, and the */
                         /* answer to the question, asked then */
    thurafeqa_clock_report report; /* written by a clock call alone */
    uint32_t seen[2][VIEWS];       /* of the module; of the other one */
};

/* What a report holds before each call; a refused one leaves it so. */
extern const thurafeqa_clock_report no_report;

/* Makes a call on one module, or of a linked run on two, as if it were not on a
 * board; `seen` is left as it is. */
void ask_library(thurafeqa *m, thurafeqa *other, const struct call *c,
                 struct outcome *o);

/* Makes a call on a board with that list and that total, and then asks how many
 * words it owes. */
void ask_board(thurafeqa *list, uint32_t owed, const struct call *c,
               struct outcome *o);

/* Looks at a module, by reads of three registers, a read of BUF on a copy, and
 * the levels. */
void see_library(thurafeqa *m, uint32_t seen[VIEWS]);

/* Are the answers the same, the floats of clock reports bit for bit? On boards
 * every call is asked for a report, and the totals must be the same. */
int same_answer(const struct call *c, const struct outcome *a,
                const struct outcome *b);

/* ---- random numbers -------------------------------------------------- */

void start_numbers(uint64_t seed);
uint32_t any_number(void);
uint32_t below(uint32_t n);
int one_in(uint32_t n);

/* A total of words owed that need not be right: small, near the most, or any
 * number. */
uint32_t some_total(void);

/* A level as a caller may give it: 0, or anything else for high. */
uint32_t some_level(int high);

/* Register numbers, most of them real; edge limits, most of them allowed. */
uint32_t some_register(void);
uint32_t some_limit(void);

/* Depths: those that there are, by their numbers 0 to 2; is it one; and any,
 * most of which there are. */
#define DEPTHS 3
extern const uint32_t depths[DEPTHS];
int is_depth(uint32_t depth);
uint32_t some_depth(void);

#endif
