/* Thurafeqa: a proved model of one dsPIC33/PIC24 SPI module, and of a board of
 * up to four, for programs in C or C++. Link with libthurafeqa.a, which needs
 * nothing else; ./library builds it for this machine and others:
 *
 *     cc -Iinclude program.c target/lib/x86_64-linux-gnu/libthurafeqa.a
 *
 * A host that sends one word and reads what came back with it:
 *
 *     thurafeqa m;
 *     uint32_t answer;
 *     thurafeqa_power_up(&m);
 *     answer = thurafeqa_write(&m, THURAFEQA_CON1, THURAFEQA_CON1_MSTEN);
 *     if (thurafeqa_refusal(answer) == 0)
 *         answer = thurafeqa_write(&m, THURAFEQA_STAT, THURAFEQA_STAT_SPIEN);
 *     if (thurafeqa_refusal(answer) == 0)
 *         answer = thurafeqa_write(&m, THURAFEQA_BUF, 0xA5);
 *     if (thurafeqa_refusal(answer) == 0) {
 *         while (thurafeqa_clock_step(&m, 0, sdi_level(), 0) <
 *                THURAFEQA_NO_EDGE)
 *             ;
 *         answer = thurafeqa_read(&m, THURAFEQA_BUF);
 *     }
 *     if (thurafeqa_refusal(answer) == 0)
 *         use_word(thurafeqa_value(answer));
 *     else
 *         report_refusal(thurafeqa_refusal(answer));
 *
 * docs/PORTING.md says how a machine, its clock and a device on the wire meet
 * these calls.
 *
 * Memory. A module is memory that the caller holds and only the library
 * understands. thurafeqa_power_up must set it first. Memory that it has not set
 * is safe to pass, but which module it stands for is open. Copying the struct
 * copies the module. A module needs no other care: nothing is allocated and no
 * state is kept elsewhere, so a module that is no longer wanted is forgotten.
 * A module may be saved and restored number by number, together with
 * THURAFEQA_FORMAT: memory of another format must not be restored.
 *
 * Every call takes any module and any argument, and ends. It asks only this:
 * - pointers are not null, and each points to a whole thurafeqa, a whole report
 *   or, in thurafeqa_play, thurafeqa_save and thurafeqa_salvage, as many bytes
 *   as its length says; that of a board's list points to as many modules as its
 *   count says;
 * - a trace that is played lies outside of the module, and what is lent for a
 *   saved one outside of its script, or for a salvaged one outside of the cut
 *   one;
 * - the two modules of a linked run are two different objects;
 * - no call runs on a module while another changes it. Calls on different
 *   modules may run at the same time, but not through one board: a board's call
 *   counts as one on all modules of its list.
 *
 * Answers. The upper 16 bits of an answer are the refusal number, 0 if the call
 * was done; the lower 16 bits are what the call tells, 0 if it was refused. A
 * word at a time has more to tell, and names of its own to read it by. A
 * refused call leaves its modules, their interrupt flags and all that was lent
 * to it as they were.
 *
 * Levels are numbers: 0 is low, anything else is high. */
#ifndef THURAFEQA_H
#define THURAFEQA_H

#include <stddef.h>
#include <stdint.h>

#ifdef __cplusplus
extern "C" {
#endif

/* The version of this header. thurafeqa_version() tells the library's: the two
 * must have the same major number, and the library's minor number must not be
 * lower. */
#define THURAFEQA_VERSION_MAJOR 7u
#define THURAFEQA_VERSION_MINOR 0u
#define THURAFEQA_VERSION_PATCH 2u
#define THURAFEQA_VERSION                                                      \
    (THURAFEQA_VERSION_MAJOR << 16 | THURAFEQA_VERSION_MINOR << 8 |            \
     THURAFEQA_VERSION_PATCH)

/* The format of a module's memory. It rises wherever the meaning of the numbers
 * changes, so save it beside them. */
#define THURAFEQA_FORMAT 4u

/* One module. */
typedef struct {
    uint16_t memory[96];
} thurafeqa;

/* It has 192 bytes and nothing between them; a compiler that lays it out
 * otherwise stops here. */
typedef char thurafeqa_has_192_bytes[sizeof(thurafeqa) == 192 ? 1 : -1];

/* Refusal numbers, as documents 01 and 02 list them. No call gives 4, which was
 * one number for mistakes that 13 to 15 tell apart, or 12, which was of framed
 * modules. 15 is of unframed clients alone. */
#define THURAFEQA_NO_SUCH_REGISTER 1u /* the register number is above 3 */
#define THURAFEQA_DISABLED 2u         /* SPIEN is 0 */
#define THURAFEQA_ENABLED 3u          /* CON1 or CON2 written, SPIEN is 1 */
#define THURAFEQA_TRANSMIT_FULL 5u    /* BUF written, no room */
#define THURAFEQA_RECEIVE_EMPTY 6u    /* BUF read, nothing unread */
#define THURAFEQA_WRONG_CLOCK 7u      /* not its kind of clock; linked: roles */
#define THURAFEQA_NO_RATE 8u          /* the instruction rate is 0 */
#define THURAFEQA_UNREADABLE_LINE 9u  /* of scripts; no call here gives it */
#define THURAFEQA_DIFFERENT_MODES 10u /* linked: CKP, CKE or width differ */
#define THURAFEQA_TOO_MANY_EDGES 11u  /* linked: the limit is above 544 */
#define THURAFEQA_UNDIVIDED 13u       /* enabling: both prescalers are 1:1 */
#define THURAFEQA_LATE_SAMPLING 14u   /* enabling: SMP is set */
#define THURAFEQA_UNSELECTED_CKE 15u  /* enabling: client, CKE, no SSEN */
#define THURAFEQA_OVERFLOWED 16u      /* BUF read: words lost with SPIBEN */
#define THURAFEQA_BAD_CONTENTS 17u    /* trace: table of contents, length */
#define THURAFEQA_BAD_RECORD 18u      /* trace: a record is wrong */
#define THURAFEQA_TOO_MANY_CALLS 19u  /* trace: more than 65,535 calls */
#define THURAFEQA_NO_ROOM 20u         /* a trace does not fit what is lent */
#define THURAFEQA_BAD_LIST 21u        /* board: not one to four modules */
#define THURAFEQA_NO_MODULE 22u       /* board: not there, or named twice */
#define THURAFEQA_WRONG_LENGTH 24u    /* TI: no character length 1 to 16 */
#define THURAFEQA_NO_SUCH_DEPTH 25u   /* power-up: not 4, 8 or 16 words */

/* The refusal number of an answer, 0 if the call was done. */
static inline uint16_t thurafeqa_refusal(uint32_t answer)
{
    return (uint16_t)(answer >> 16);
}

/* A refusal number in words, for a log: 6 is "nothing is unread". It is never
 * null; 0 is "not refused", and a number that is not in the list above is "no
 * such refusal". Of a TI module 2 and 3 speak of its software reset, see below.
 */
static inline const char *thurafeqa_refusal_text(uint32_t number)
{
    switch (number) {
    case 0:
        return "not refused";
    case THURAFEQA_NO_SUCH_REGISTER:
        return "no such register";
    case THURAFEQA_DISABLED:
        return "the module is disabled";
    case THURAFEQA_ENABLED:
        return "the module is enabled";
    case THURAFEQA_TRANSMIT_FULL:
        return "the transmit buffer is full";
    case THURAFEQA_RECEIVE_EMPTY:
        return "nothing is unread";
    case THURAFEQA_WRONG_CLOCK:
        return "the module is clocked in another way, or is no end for a linked"
               " run";
    case THURAFEQA_NO_RATE:
        return "the instruction rate is 0";
    case THURAFEQA_UNREADABLE_LINE:
        return "the line cannot be read";
    case THURAFEQA_DIFFERENT_MODES:
        return "the linked modules differ in clock mode or width";
    case THURAFEQA_TOO_MANY_EDGES:
        return "more than 544 edges are asked for";
    case THURAFEQA_UNDIVIDED:
        return "both prescalers are 1:1";
    case THURAFEQA_LATE_SAMPLING:
        return "late sampling is not modelled";
    case THURAFEQA_UNSELECTED_CKE:
        return "a client with CKE needs SSEN";
    case THURAFEQA_OVERFLOWED:
        return "received words were lost in enhanced operation";
    case THURAFEQA_BAD_CONTENTS:
        return "the trace's table of contents or length is wrong";
    case THURAFEQA_BAD_RECORD:
        return "a record of the trace is wrong";
    case THURAFEQA_TOO_MANY_CALLS:
        return "the trace would make more than 65,535 calls";
    case THURAFEQA_NO_ROOM:
        return "the trace does not fit";
    case THURAFEQA_BAD_LIST:
        return "a board has one to four modules";
    case THURAFEQA_NO_MODULE:
        return "the board has no such module, or it is named twice";
    case THURAFEQA_WRONG_LENGTH:
        return "a character has 1 to 16 bits";
    case THURAFEQA_NO_SUCH_DEPTH:
        return "buffers hold 4, 8 or 16 words";
    default:
        return "no such refusal";
    }
}

/* What an answer tells: a register's value, or a number of edges, calls, bytes
 * or words. */
static inline uint16_t thurafeqa_value(uint32_t answer)
{
    return (uint16_t)(answer & 0xFFFFu);
}

/* Register numbers. */
#define THURAFEQA_STAT 0u
#define THURAFEQA_CON1 1u
#define THURAFEQA_CON2 2u
#define THURAFEQA_BUF 3u

/* STAT. A write takes SPIEN, SPISIDL and SISEL, and a 0 in SPIROV clears that
 * bit; the others are read-only. SPIBEC, SRMPT and SRXMPT read 0 in standard
 * operation and while disabled, and SPIBEC shows more than 7 words as 7. */
#define THURAFEQA_STAT_SPIEN 0x8000u   /* enabled */
#define THURAFEQA_STAT_SPISIDL 0x2000u /* kept, without effect */
#define THURAFEQA_STAT_SPIBEC 0x0700u  /* host: waiting; client: unread */
#define THURAFEQA_STAT_SRMPT 0x0080u   /* the shift register is empty */
#define THURAFEQA_STAT_SPIROV 0x0040u  /* a received word was lost */
#define THURAFEQA_STAT_SRXMPT 0x0020u  /* the receive buffer is empty */
#define THURAFEQA_STAT_SISEL 0x001Cu   /* which event sets the flag */
#define THURAFEQA_STAT_SPITBF 0x0002u  /* the transmit buffer is full */
#define THURAFEQA_STAT_SPIRBF 0x0001u  /* the receive buffer is full */

/* CON1. */
#define THURAFEQA_CON1_DISSCK 0x1000u /* a host is clocked from its pin */
#define THURAFEQA_CON1_DISSDO 0x0800u /* SDO is not driven */
#define THURAFEQA_CON1_MODE16 0x0400u /* words of 16 bits, else of 8 */
#define THURAFEQA_CON1_SMP 0x0200u    /* not modelled: cannot be enabled */
#define THURAFEQA_CON1_CKE 0x0100u    /* SDO changes on the way to idle */
#define THURAFEQA_CON1_SSEN 0x0080u   /* a client heeds SS as its select */
#define THURAFEQA_CON1_CKP 0x0040u    /* the clock idles high */
#define THURAFEQA_CON1_MSTEN 0x0020u  /* host, else client */
#define THURAFEQA_CON1_SPRE 0x001Cu   /* secondary prescaler, 8 - SPRE */
#define THURAFEQA_CON1_PPRE 0x0003u   /* primary prescaler: 64, 16, 4, 1 */

/* CON2. SPIFSD, FRMPOL and FRMDLY have an effect with FRMEN alone. In a framed
 * module CKE and SSEN are kept and have no effect. */
#define THURAFEQA_CON2_FRMEN 0x8000u  /* framed: pulses at SS begin the words */
#define THURAFEQA_CON2_SPIFSD 0x4000u /* frame client, else frame host */
#define THURAFEQA_CON2_FRMPOL 0x2000u /* a pulse is high, else low */
#define THURAFEQA_CON2_FRMDLY 0x0002u /* with the first bit, else before it */
#define THURAFEQA_CON2_SPIBEN 0x0001u /* enhanced: the depth's words, else 1 */

/* Where the fields of more than one bit begin. */
#define THURAFEQA_STAT_SPIBEC_SHIFT 8
#define THURAFEQA_STAT_SISEL_SHIFT 2
#define THURAFEQA_CON1_SPRE_SHIFT 2
#define THURAFEQA_CON1_PPRE_SHIFT 0

/* Power-up: every register 0, the interrupt flag clear, the module disabled.
 * The memory may hold anything before. The buffers hold 8 words in enhanced
 * operation. Never refused. */
void thurafeqa_power_up(thurafeqa *m);

/* The same for a part whose buffers hold 4, 8 or 16 words in enhanced
 * operation; in standard operation they hold one. SPITBF, SPIRBF, refusal 5 and
 * lost words go by this depth, and so do SISEL 2 (three quarters of it or
 * more), 3 and 7 (all of it) and 4 (one less). Only power-up changes it.
 * Refusal: 25 for another depth. The module is then unchanged. */
uint32_t thurafeqa_power_up_with(thurafeqa *m, uint32_t depth);

/* Reads a register; the answer's value is the register's. Reading BUF takes the
 * oldest unread word, and with SISEL 0 in enhanced operation the read that
 * empties the receive buffer sets the interrupt flag. The other registers are
 * read without effect.
 * A received word that finds the receive buffer full is lost, and SPIROV is
 * set. In enhanced operation that ends reception: from then on BUF cannot be
 * read and every word received is lost, until the module is disabled. Clearing
 * SPIROV does not help.
 * Refusals: 1; for BUF 2, then 16, then 6. */
uint32_t thurafeqa_read(thurafeqa *m, uint32_t register_number);

/* Writes the low 16 bits of a value to a register; the answer's value is 0.
 * Writing BUF accepts a word for sending, of which 8-bit operation keeps the
 * low 8 bits. Writing STAT with SPIEN 1 enables the module, with SPIEN 0
 * disables it, which empties both buffers and the shift register.
 * Refusals: 1; for BUF 2, then 5; for CON1 and CON2 3; for STAT 13, 14, 15, the
 * first of them where there are several mistakes. */
uint32_t thurafeqa_write(thurafeqa *m, uint32_t register_number,
                         uint32_t value);

/* One step of the clock, for whatever module it is, with the levels at its
 * pins. A host with its own clock makes its next edge: it does not look at SCK,
 * and at SS as a frame client alone. An unframed one with no word to send has
 * no next edge, and then the answer's value has THURAFEQA_NO_EDGE. Any other
 * module sees the levels; an SCK level unlike the last is an edge, and SS
 * counts for a client under SSEN, as its select, and for a frame client. Then
 * the module is looked at: the answer's value has the bits of thurafeqa_levels
 * below, as they are after the step.
 * Refusal: 2. */
uint32_t thurafeqa_clock_step(thurafeqa *m, uint32_t sck, uint32_t sdi,
                              uint32_t ss);

#define THURAFEQA_NO_EDGE 64u /* of a clock step: its clock stands still; a
                               * step that is done answers less than this */

/* The two kinds of a clock step by themselves, which ask what module it is: a
 * step of its own clock, and levels at its pins. They tell less and refuse the
 * other kind of module.
 * One tick of a host with its own clock, with the levels at SDI and SS; the
 * answer's value is 1 if it made an edge, 0 if there was no word to send. A
 * framed host makes an edge at every tick. SS counts for a frame client alone.
 * Refusals: 2, then 7 (a client, or a host under DISSCK). */
uint32_t thurafeqa_tick(thurafeqa *m, uint32_t sdi, uint32_t ss);

/* Shows levels to the pins of a client or of a host under DISSCK; an SCK level
 * unlike the last is an edge. SS counts for a client under SSEN, as its select,
 * and for a frame client. The answer's value is 0.
 * Refusals: 2, then 7 (a host with its own clock). */
uint32_t thurafeqa_pins(thurafeqa *m, uint32_t sck, uint32_t sdi, uint32_t ss);

/* A word at a time, for a port that has no use for single edges: all clock
 * steps that the word under way still takes, or else the next word, in one
 * call. The module is then as those steps leave it: the word has finished, and
 * the next one is loaded. At the edges that sample, SDI has the low bits of
 * `word`, as many as are still to come, the highest first; and the answer has
 * the levels that SDO has there, or would have if it were driven.
 * A module that is clocked from its pin sees SCK go to its other level for each
 * edge, and SS as given, with an edge to the idle level first where SCK stands
 * active and nothing is begun; under SSEN with SS high, and as a host under
 * DISSCK with nothing to send, it sees its levels once, with SCK as it was. A
 * framed module makes one edge, with bit 0 of `word`, and tells one level. An
 * unframed host with its own clock and nothing to send has no edge to make.
 * The answer is read by the names below. Refusal: 2. */
uint32_t thurafeqa_word(thurafeqa *m, uint32_t ss, uint32_t word);

#define THURAFEQA_WORD_LEVELS(answer) ((answer) & 0xFFFFu)
#define THURAFEQA_WORD_COUNT(answer) ((answer) >> 24 & 31u) /* how many levels */
#define THURAFEQA_WORD_NO_EDGE(answer) ((answer) >> 29 & 1u)
#define THURAFEQA_WORD_REFUSAL(answer) ((answer) >> 16 & 0xFFu) /* 0 if none */

/* The word that would go out next: the one under way, the one loaded, or the
 * first that waits in a client under SSEN. With THURAFEQA_NEXT_WORD set there
 * is one, and it is the lower 16 bits; a module that would send zeros for want
 * of a word, or nothing, answers 0. So a device can look at a word before its
 * bits are clocked. Never refused. */
uint32_t thurafeqa_next(const thurafeqa *m);

#define THURAFEQA_NEXT_WORD 0x10000u

/* The edges that an unframed host with its own clock still makes until it is
 * idle, so that a scheduler can skip so many half bit times: 0 where it is
 * idle, and of any other module. And the words that were accepted and are not
 * finished, of any module, as a board counts them. Never refused. */
uint32_t thurafeqa_edges_owed(const thurafeqa *m);
uint32_t thurafeqa_words_owed(const thurafeqa *m);

/* Clears the interrupt flag, which nothing else does but power-up. Never
 * refused. */
void thurafeqa_clear(thurafeqa *m);

/* The interrupt flag and the pin levels, as the bits below. Never refused, and
 * the answer carries no refusal number. */
uint32_t thurafeqa_levels(const thurafeqa *m);

#define THURAFEQA_LEVELS_INTERRUPT 1u
#define THURAFEQA_LEVELS_SCK 2u    /* last made here or seen at the pin */
#define THURAFEQA_LEVELS_SDO 4u    /* 0 if SDO is not driven */
#define THURAFEQA_LEVELS_DRIVEN 8u /* SDO is driven */
#define THURAFEQA_LEVELS_SS 16u    /* 0 if SS is not driven */
#define THURAFEQA_LEVELS_SS_DRIVEN 32u /* SS is driven: an enabled frame host */

/* What stands at the other end of a host's wire, for thurafeqa_run: a function
 * of the caller's. It is shown the bits of thurafeqa_levels as they are now,
 * with what the caller gave as `context`, and answers the level at SDI, which
 * stands there until it is asked again. */
typedef uint32_t (*thurafeqa_wire)(void *context, uint32_t levels);

/* Clocks a host with its own clock until it has no more to send, or for `most`
 * edges; the answer's value is the number of edges. `wire` is asked once before
 * the first edge and once after each, so that it sees every level that the host
 * shows, also the last. Its answer is the SDI of the edge that comes next; the
 * last one is not used. A host whose output is joined to its input:
 *
 *     uint32_t joined(void *context, uint32_t levels)
 *     {
 *         (void)context;
 *         return levels & THURAFEQA_LEVELS_SDO;
 *     }
 *
 *     answer = thurafeqa_run(&m, joined, 0, 544);
 *
 * 544 edges end with an idle host if it is not framed; a framed one is never
 * idle and makes them all. More than 65,535 count as 65,535. SS is low, which
 * matters to a frame client alone: give it its pulses by thurafeqa_clock_step.
 * The wire may itself read and write BUF of the module, and a word that it
 * writes is sent too; if it disables the module, the run ends.
 * Refusals: 2, then 7 (a client, or a host under DISSCK), as of a tick; the
 * wire is not asked then. */
static inline uint32_t thurafeqa_run(thurafeqa *m, thurafeqa_wire wire,
                                     void *context, uint32_t most)
{
    thurafeqa copy = *m; /* is it such a host? its tick would tell */
    uint32_t answer = thurafeqa_tick(&copy, 0, 0), edges = 0, sdi;

    if (thurafeqa_refusal(answer) != 0)
        return answer;
    if (most > 65535u)
        most = 65535u;
    sdi = wire(context, thurafeqa_levels(m));
    while (edges < most) {
        answer = thurafeqa_clock_step(m, 0, sdi, 0);
        if (answer >= THURAFEQA_NO_EDGE)
            break;
        edges++;
        sdi = wire(context, answer);
    }
    return edges;
}

/* Runs two modules on one wire until the host has no more to send, or for
 * `limit` edges; the answer's value is the number of edges that the host made.
 * Client and host must be two different objects. A limit of 544 ends with an
 * idle host, whatever calls were made since power-up. The client's select stays
 * low after the run.
 * Refusals: 11, then 2 (either disabled), 7 (the host has no clock of its own,
 * the client is a host, or either is framed), 10. */
uint32_t thurafeqa_linked(thurafeqa *host, thurafeqa *client, uint32_t limit);

/* What a clock report carries, 0 where it carries nothing. With the rate F in
 * hertz the rates are in hertz and the bit time is in seconds; a bit is two
 * ticks. */
typedef struct {
    double rate;    /* internal: the clock's rate */
    double bittime; /* internal: the time of one bit */
    double below;   /* external: what the clock's rate must stay below */
} thurafeqa_clock_report;

#define THURAFEQA_CLOCK_NONE 0u     /* the module is disabled */
#define THURAFEQA_CLOCK_INTERNAL 1u /* a host with its own clock */
#define THURAFEQA_CLOCK_EXTERNAL 2u /* a module clocked from its pin */

/* The clock report for an instruction rate F: with the divider D of CON1, the
 * clock's rate is F / D and the bit time D / F, each rounded once. The answer's
 * value is one of the three kinds above.
 * Refusal: 8 for the rate 0, also of a disabled module; then *report is left as
 * it was. */
uint32_t thurafeqa_clock(const thurafeqa *m, uint32_t rate,
                         thurafeqa_clock_report *report);

/* The prescalers, as bits of CON1, with which a host at the instruction rate
 * F, `rate`, has the highest clock rate that does not pass `wanted`: F is at most
 * `wanted` times D. Never both at 1:1, which cannot be enabled; of two settings
 * that divide alike the one with the smaller PPRE. THURAFEQA_NO_PRESCALERS if
 * even 512:1 passes it. Never refused, and no module is asked. */
uint32_t thurafeqa_prescalers(uint32_t rate, uint32_t wanted);

#define THURAFEQA_NO_PRESCALERS 32u

/* Plays a trace file: a list of register calls, ticks, pin calls and clears in
 * sections, which can play each other; docs/PORTING.md has its form. `file`
 * points to its `length` bytes, and is not null even if there are none. The
 * module is powered up, then section 0 is played on it; the answer's value is
 * the number of calls made, refused ones and each repeat of a section included.
 * A call in it that is refused changes nothing, and play goes on.
 * All is tested before anything is played: a refused play leaves the module as
 * it was, without power-up. It needs about 35 kB of stack.
 * Refusals: 17 (the section count, the table of contents or the file's length),
 * then 18 (a record), then 19 (it would make more than 65,535 calls). */
uint32_t thurafeqa_play(thurafeqa *m, const uint8_t *file, size_t length);

/* Saves a script session as a trace file of one section, which thurafeqa_play
 * plays to the module that the script ends in. examples/README.md has the form
 * of a script; `script` points to its `length` bytes, of which the first 65,535
 * are taken. `file` points to `room` bytes that are lent; neither pointer is
 * null, even if there are no bytes. The file is written from the first byte on,
 * the bytes behind it keep their values, and the answer's value is its length:
 * 10, and 4 for each line that is kept. A line that the module would refuse is
 * kept; left out are lines that cannot be read (9) and lines that name register
 * 4 or above.
 * Refusal: 20 if the file would be longer than `room` or than 65,535 bytes, for
 * which 16,381 lines are the most; then all that is lent is as it was. */
uint32_t thurafeqa_save(const uint8_t *script, size_t length, uint8_t *file,
                        size_t room);

/* Salvages a trace that broke off, as an upload may: from a file whose table of
 * contents is whole and gapless, a new one that thurafeqa_play refuses neither
 * with 17 nor with 18. Each section is cut before its first record that is wrong
 * or runs past the section's or the file's end; sections keep their numbers, and
 * what stands behind the last one is left off. `file` points to the `length`
 * bytes of the old file, and `salvaged` to `room` bytes that are lent, none of
 * them in the old file; neither pointer is null, even if there are no bytes. The
 * new file is written from the first byte on, and the bytes behind it keep their
 * values.
 * What is told is more than an answer, and the three functions below take it
 * apart: the answer, whose value is the new file's length; how many bytes were
 * lost, the old lengths' sum less the new ones'; and how many sections were cut.
 * Refusals: 17 (the section count is wrong, the contents are not whole or
 * gapless, or the file or its last stated end passes 65,535), then 20 (the new
 * file is longer than `room`); then all that is lent is as it was. */
uint64_t thurafeqa_salvage(const uint8_t *file, size_t length,
                           uint8_t *salvaged, size_t room);

static inline uint32_t thurafeqa_salvage_answer(uint64_t told)
{
    return (uint32_t)(told & 0xFFFFFFFFu);
}

static inline uint16_t thurafeqa_salvage_lost(uint64_t told)
{
    return (uint16_t)(told >> 32 & 0xFFFFu);
}

static inline uint16_t thurafeqa_salvage_cut(uint64_t told)
{
    return (uint16_t)(told >> 48);
}

/* A board: one to four modules that lie one behind the other. `modules` points
 * to the first, SPI1, which has the number 0, and `count` says how many there
 * are; `owed` is how many words they have accepted and not yet finished. The
 * list is the caller's. thurafeqa_board_start powers all its modules up:
 *
 *     thurafeqa spi[4];
 *     thurafeqa_board board;
 *     thurafeqa_board_start(&board, spi, 4);
 *
 * From then on each call on the board keeps `owed`, as long as no module of the
 * list is changed otherwise: by a call on it alone, a trace that is played on
 * it or another board. Save and restore `owed` together with the modules. A
 * board with another number there is safe to pass, and its modules are what
 * they are: the number only moves with them, and stays within 0 and 65,535. */
typedef struct {
    thurafeqa *modules;
    size_t count;
    uint16_t owed;
} thurafeqa_board;

/* The calls on a board. Each has the name of the call on one module, with
 * board_ in it, takes the number of the module, and answers as that call does
 * on that module alone; no other module changes. Those that are never refused
 * on a module alone answer here too: levels with the levels as their value, the
 * others with 0.
 * Refusals: 21 (the list has no module, or more than four), then 22 (there is
 * no module with that number; linked: also if both are the same). Both are
 * tested before all others, and leave every module and `owed` as they were.
 * Traces are played and scripts saved on single modules alone. What goes out
 * next and what is owed is asked of a module itself, which such a look leaves as
 * it is: thurafeqa_next(&b->modules[n]).
 *
 * Use the functions over thurafeqa_board below. They call four of the library,
 * which a program need not call itself: thurafeqa_board_owed for the question,
 * thurafeqa_board_linked for the linked run, thurafeqa_board_tick_call for
 * ticks, and thurafeqa_board_call for all others. That one takes a kind of call,
 * ticks among them, a kind above 10 counting as 7, and its arguments in their
 * order, those left over having no effect. Only a clock report that is not
 * refused writes to *report. These three answer in 64 bits: in the lower 32 what
 * the call answers, in the upper 32 the number of words owed after it. `owed`
 * counts by its low 16 bits. */
#define THURAFEQA_BOARD_POWER_UP 0u
#define THURAFEQA_BOARD_READ 1u   /* register */
#define THURAFEQA_BOARD_WRITE 2u  /* register, value */
#define THURAFEQA_BOARD_TICK 3u   /* SDI, SS */
#define THURAFEQA_BOARD_PINS 4u   /* SCK, SDI, SS */
#define THURAFEQA_BOARD_CLEAR 5u
#define THURAFEQA_BOARD_CLOCK 6u  /* rate */
#define THURAFEQA_BOARD_LEVELS 7u
#define THURAFEQA_BOARD_CLOCK_STEP 8u /* SCK, SDI, SS */
#define THURAFEQA_BOARD_POWER_UP_WITH 9u /* depth */
#define THURAFEQA_BOARD_WORD 10u /* SS, word */
uint64_t thurafeqa_board_call(thurafeqa *modules, size_t count, uint32_t owed,
                              uint32_t n, uint32_t kind, uint32_t x, uint32_t y,
                              uint32_t z, thurafeqa_clock_report *report);
uint64_t thurafeqa_board_tick_call(thurafeqa *modules, size_t count,
                                   uint32_t owed, uint32_t n, uint32_t sdi,
                                   uint32_t ss);
uint64_t thurafeqa_board_linked(thurafeqa *modules, size_t count, uint32_t owed,
                                uint32_t host, uint32_t client,
                                uint32_t limit);
uint32_t thurafeqa_board_owed(size_t count, uint32_t owed);

/* Keeps the number of words owed, and hands the answer on. */
static inline uint32_t thurafeqa_board_keep(thurafeqa_board *b, uint64_t both)
{
    b->owed = (uint16_t)(both >> 32);
    return (uint32_t)(both & 0xFFFFFFFFu);
}

/* A call that is no look. */
static inline uint32_t thurafeqa_board_ask(thurafeqa_board *b, uint32_t n,
                                           uint32_t kind, uint32_t x,
                                           uint32_t y, uint32_t z)
{
    thurafeqa_clock_report unused;
    uint64_t both = thurafeqa_board_call(b->modules, b->count, b->owed, n, kind,
                                         x, y, z, &unused);

    return thurafeqa_board_keep(b, both);
}

/* A look at a module, which changes neither it nor the number of words owed. */
static inline uint32_t thurafeqa_board_look(const thurafeqa_board *b,
                                            uint32_t n, uint32_t kind,
                                            uint32_t x,
                                            thurafeqa_clock_report *report)
{
    uint64_t both = thurafeqa_board_call(b->modules, b->count, b->owed, n, kind,
                                         x, 0, 0, report);

    return (uint32_t)(both & 0xFFFFFFFFu);
}

/* How many words does the board still owe? The answer's value is the number of
 * words that its modules have accepted and not yet finished, in their shift
 * registers and waiting; a filler is none. It is what the board keeps: no
 * module is looked at.
 * Refusal: 21. */
static inline uint32_t thurafeqa_board_owes(const thurafeqa_board *b)
{
    return thurafeqa_board_owed(b->count, b->owed);
}

static inline uint32_t thurafeqa_board_power_up(thurafeqa_board *b, uint32_t n)
{
    return thurafeqa_board_ask(b, n, THURAFEQA_BOARD_POWER_UP, 0, 0, 0);
}

static inline uint32_t thurafeqa_board_power_up_with(thurafeqa_board *b,
                                                     uint32_t n, uint32_t depth)
{
    return thurafeqa_board_ask(b, n, THURAFEQA_BOARD_POWER_UP_WITH, depth, 0,
                               0);
}

static inline uint32_t thurafeqa_board_read(thurafeqa_board *b, uint32_t n,
                                            uint32_t register_number)
{
    return thurafeqa_board_ask(b, n, THURAFEQA_BOARD_READ, register_number, 0,
                               0);
}

static inline uint32_t thurafeqa_board_write(thurafeqa_board *b, uint32_t n,
                                             uint32_t register_number,
                                             uint32_t value)
{
    return thurafeqa_board_ask(b, n, THURAFEQA_BOARD_WRITE, register_number,
                               value, 0);
}

static inline uint32_t thurafeqa_board_clock_step(thurafeqa_board *b,
                                                  uint32_t n, uint32_t sck,
                                                  uint32_t sdi, uint32_t ss)
{
    return thurafeqa_board_ask(b, n, THURAFEQA_BOARD_CLOCK_STEP, sck, sdi, ss);
}

static inline uint32_t thurafeqa_board_tick(thurafeqa_board *b, uint32_t n,
                                            uint32_t sdi, uint32_t ss)
{
    uint64_t both = thurafeqa_board_tick_call(b->modules, b->count, b->owed, n,
                                              sdi, ss);

    return thurafeqa_board_keep(b, both);
}

static inline uint32_t thurafeqa_board_pins(thurafeqa_board *b, uint32_t n,
                                            uint32_t sck, uint32_t sdi,
                                            uint32_t ss)
{
    return thurafeqa_board_ask(b, n, THURAFEQA_BOARD_PINS, sck, sdi, ss);
}

/* A word at a time. Its answer is read by the names behind thurafeqa_word, with
 * 21 and 22 among the refusals. */
static inline uint32_t thurafeqa_board_word(thurafeqa_board *b, uint32_t n,
                                            uint32_t ss, uint32_t word)
{
    return thurafeqa_board_ask(b, n, THURAFEQA_BOARD_WORD, ss, word, 0);
}

static inline uint32_t thurafeqa_board_clear(thurafeqa_board *b, uint32_t n)
{
    return thurafeqa_board_ask(b, n, THURAFEQA_BOARD_CLEAR, 0, 0, 0);
}

static inline uint32_t thurafeqa_board_levels(const thurafeqa_board *b,
                                              uint32_t n)
{
    thurafeqa_clock_report unused;

    return thurafeqa_board_look(b, n, THURAFEQA_BOARD_LEVELS, 0, &unused);
}

static inline uint32_t thurafeqa_board_clock(const thurafeqa_board *b,
                                             uint32_t n, uint32_t rate,
                                             thurafeqa_clock_report *report)
{
    return thurafeqa_board_look(b, n, THURAFEQA_BOARD_CLOCK, rate, report);
}

/* A linked run of two modules of the board, which changes those two. */
static inline uint32_t thurafeqa_board_run(thurafeqa_board *b, uint32_t host,
                                           uint32_t client, uint32_t limit)
{
    uint64_t both = thurafeqa_board_linked(b->modules, b->count, b->owed, host,
                                           client, limit);

    return thurafeqa_board_keep(b, both);
}

/* Makes a board of a list and powers all its modules up, so that no word is
 * owed; what they held before may be anything.
 * Refusal: 21, and the modules are as they were. */
static inline uint32_t thurafeqa_board_start(thurafeqa_board *b,
                                             thurafeqa *modules, size_t count)
{
    uint32_t answer, n = 0;

    b->modules = modules;
    b->count = count;
    b->owed = 0;
    do
        answer = thurafeqa_board_power_up(b, n);
    while (thurafeqa_refusal(answer) == 0 && ++n < count);
    return answer;
}

/* ---- the TI module ----------------------------------------------------
 *
 * Source document 002's module, without its FIFO: a master or slave with
 * characters of 1 to 16 bits, one that waits to be sent, one in the shift
 * register and one unread. A master that sends a character of 5 bits and reads
 * what came back with it:
 *
 *     thurafeqa_ti m;
 *     uint32_t answer;
 *     thurafeqa_ti_power_up(&m);
 *     thurafeqa_ti_set_length(&m, 5);
 *     thurafeqa_ti_set_mode(&m, 1, 1, 0, 0);
 *     thurafeqa_ti_leave_reset(&m);
 *     answer = thurafeqa_ti_write(&m, 0xA800);
 *     while (thurafeqa_ti_tick(&m, sdi_level()) == 1)
 *         ;
 *     answer = thurafeqa_ti_read(&m);
 *     if (thurafeqa_refusal(answer) == 0)
 *         use_word(thurafeqa_value(answer));
 *
 * Its memory is used as a module's above, and answers and levels are as there.
 * 2 says here that the module is in software reset, 3 that it is not. */
typedef struct {
    uint16_t memory[20];
} thurafeqa_ti;

typedef char thurafeqa_ti_has_40_bytes[sizeof(thurafeqa_ti) == 40 ? 1 : -1];

/* The flags in thurafeqa_ti_status, where SPISTS has them. */
#define THURAFEQA_TI_OVERRUN 0x80u       /* an unread character was lost */
#define THURAFEQA_TI_INTERRUPT 0x40u     /* a character is ready to be read */
#define THURAFEQA_TI_TRANSMIT_FULL 0x20u /* a character waits to be sent */

/* The bits in thurafeqa_ti_levels. An undriven output has the level 0. */
#define THURAFEQA_TI_SCK 0x2u    /* the clock, made here or seen last */
#define THURAFEQA_TI_SDO 0x4u    /* the output's level */
#define THURAFEQA_TI_DRIVEN 0x8u /* the output is driven */

/* The bits in thurafeqa_ti_settings. */
#define THURAFEQA_TI_LENGTH 0x01Fu   /* bits of a character */
#define THURAFEQA_TI_PHASE 0x020u    /* CLOCK PHASE */
#define THURAFEQA_TI_POLARITY 0x040u /* CLOCK POLARITY */
#define THURAFEQA_TI_TALK 0x080u     /* TALK */
#define THURAFEQA_TI_MASTER 0x100u   /* MASTER/SLAVE */
#define THURAFEQA_TI_RESET 0x200u    /* in software reset */

/* Power-up: in software reset, a slave, talk off, polarity 0, phase 0, length
 * 1. The memory may hold anything before. Never refused. */
void thurafeqa_ti_power_up(thurafeqa_ti *m);

/* Enters and leaves software reset, which empties both buffers and the shift
 * register and clears the flags; the settings stay. Again changes nothing.
 * Never refused. */
void thurafeqa_ti_enter_reset(thurafeqa_ti *m);
void thurafeqa_ti_leave_reset(thurafeqa_ti *m);

/* Sets master or slave, talk, polarity and phase. Out of reset only talk may
 * change: with talk off the output is left to others, and all else goes on.
 * Refusal: 3 (out of reset, and another would change). */
uint32_t thurafeqa_ti_set_mode(thurafeqa_ti *m, uint32_t master, uint32_t talk,
                               uint32_t polarity, uint32_t phase);

/* Sets the bits of a character, 1 to 16.
 * Refusals: 3 (out of reset, also for the present length), then 24. */
uint32_t thurafeqa_ti_set_length(thurafeqa_ti *m, uint32_t length);

/* Writes a character, left-justified: of the low 16 bits of the value the top
 * ones, as many as the length says.
 * Refusals: 2, then 5 (one waits already). */
uint32_t thurafeqa_ti_write(thurafeqa_ti *m, uint32_t value);

/* Reads the unread character, right-justified with zeros above, and takes the
 * interrupt flag down. A character that is finished while one is unread takes
 * its place; that one is lost, and the overrun flag goes up.
 * Refusals: 2, then 6 (nothing is unread). */
uint32_t thurafeqa_ti_read(thurafeqa_ti *m);

/* One tick of a master, with the level at its input; the answer's value is 1
 * if it made an edge, 0 if there was nothing to send.
 * Refusals: 2, then 7 (a slave). */
uint32_t thurafeqa_ti_tick(thurafeqa_ti *m, uint32_t sdi);

/* Shows the levels of the clock, the input and SPISTE to a slave. An edge
 * counts while select is low; select that goes high pauses the character, which
 * goes on where it was. With nothing written a slave sends zeros.
 * Refusals: 2, then 7 (a master). */
uint32_t thurafeqa_ti_pins(thurafeqa_ti *m, uint32_t sck, uint32_t sdi,
                           uint32_t select);

/* Clears the overrun flag. Never refused. */
void thurafeqa_ti_clear_overrun(thurafeqa_ti *m);

/* Looks at the flags, the levels and the settings. Never refused. */
uint32_t thurafeqa_ti_status(const thurafeqa_ti *m);
uint32_t thurafeqa_ti_levels(const thurafeqa_ti *m);
uint32_t thurafeqa_ti_settings(const thurafeqa_ti *m);

/* Writes the bit rate of a master to *rate: LSPCLK / (SPIBRR + 1), or LSPCLK / 4
 * for SPIBRR 0 to 2, rounded once. SPIBRR counts by its low seven bits. Never
 * refused. */
void thurafeqa_ti_rate(uint32_t spibrr, uint32_t lspclk, double *rate);

/* The version of the library, in the form of THURAFEQA_VERSION, and the number
 * of the format that it reads and writes. */
uint32_t thurafeqa_version(void);
uint32_t thurafeqa_format(void);

#ifdef __cplusplus
}
#endif

#endif
