/* The static library of crates/voltamar_c. `./voltamar install PREFIX` puts it in place with this header and a pkg-config file; without
 * that, link libvoltamar_c.a, which `tools/archive voltamar_c` writes to target/staticlib, and meaning.c, which stands beside this file.
 *
 * What each call promises is proved, for every input: there is no input that it may not be given.
 *
 * ANSWERS. A call that returns uint8_t returns 0 for done (VOLTAMAR_DONE), or the number of the refusal (enum voltamar_refusal
 * below; voltamar_meaning says it in words). voltamar_sum_telling has a second answer that is no refusal, 1.
 *
 * Each call writes through each of its pointers to one value, whatever it returns. *place is, for a refusal, the offset of the
 * count, record, byte, command or item that is refused; for 12 the bytes needed, of the bench the words; for 17 the words needed,
 * for 20 the most samples, for 24 it is 0. Where a call is done, what *place is stands beside it below.
 *
 * ROOM. A call with out and room writes at the start of out; room is in bytes, of the bench in words. A refused call, 12 too, leaves
 * all of out as it was; a call that is done leaves what is beyond the length it gives as it was. The three lengths below are room
 * enough for any input; the bench writes no more words than it is lent samples.
 *
 * WHAT THE CALLER OWES, since nothing here can test it: a pointer is good for as many bytes or words as the length beside it says
 * (with a length of 0 it may be NULL), and the others are good for the one value they point to; each is aligned as C asks for its
 * type, which for bytes is any address, and for uint16_t, uint32_t and size_t one that their size divides; what is written
 * through (out, run, place, which, start, length, hit, sources) overlaps nothing else that is handed over; and no other
 * thread writes what is handed over, or reads what is written, during the call. The calls keep no state and allocate
 * nothing; of the C library they need memcpy and memset. */
#ifndef VOLTAMAR_H
#define VOLTAMAR_H

#include <stdbool.h>
#include <stddef.h>
#include <stdint.h>

#ifdef __cplusplus
extern "C" {
#endif

#define VOLTAMAR_VERSION "0.1.0"

#define VOLTAMAR_LONGEST_SHEET 1571
#define VOLTAMAR_LONGEST_STREAM 2520
#define VOLTAMAR_LONGEST_NOTICE 2412

/* The most samples that one call of the bench takes. */
#define VOLTAMAR_MOST_SAMPLES 4096

/* Stack that is enough for a call, in bytes, for callers whose threads have little. This is measured on the longest sheets
 * (tests/stack.c) and rounded up; it is not proved. */
#define VOLTAMAR_STACK_BENCH 20480
#define VOLTAMAR_STACK_READ 10240
#define VOLTAMAR_STACK_NOTICE 4096
#define VOLTAMAR_STACK_OTHER 2048 /* every other call */

/* What a call returns. */
enum voltamar_refusal {
    VOLTAMAR_DONE = 0,
    VOLTAMAR_INCOMPLETE = 1,        /* count or record incomplete */
    VOLTAMAR_COUNT_TOO_BIG = 2,     /* count above the section's most */
    VOLTAMAR_SLOT_TOO_BIG = 3,
    VOLTAMAR_SLOT_NOT_RISING = 4,
    VOLTAMAR_BAD_LABEL = 5,         /* a byte that no label may have */
    VOLTAMAR_LOWER_ZERO = 6,        /* lower bound is 0 */
    VOLTAMAR_LOWER_ABOVE_UPPER = 7,
    VOLTAMAR_UPPER_TOO_BIG = 8,     /* for the mask's lines */
    VOLTAMAR_ALL_ASKED = 9,         /* rise, fall and neither together on a line */
    VOLTAMAR_BAD_OPERATION = 10,    /* operation above 9 */
    VOLTAMAR_LEFT_OVER = 11,        /* bytes behind the last section */
    VOLTAMAR_OUTPUT_TOO_SHORT = 12, /* *place is what is needed: bytes, of the bench words */
    VOLTAMAR_UNFINISHED = 13,       /* the stream ends inside a command or item */
    VOLTAMAR_BAD_OPCODE = 14,       /* other than the one due */
    VOLTAMAR_BAD_ADDRESS = 15,      /* unknown, not rising, or not the one due */
    VOLTAMAR_BAD_WORDS = 16,        /* words that no accepted description writes */
    VOLTAMAR_WRONG_COUNT = 17,      /* *place is the words needed */
    VOLTAMAR_FIELD_TOO_BIG = 18,    /* a state's number above FFFFF hex, else state above 15, or flag above 1 */
    VOLTAMAR_SAME_LABEL = 19,       /* as an earlier record of its section: all eight bytes the same */
    VOLTAMAR_TOO_MANY_SAMPLES = 20, /* *place is the most */
    VOLTAMAR_BAD_RUN = 24           /* state above 15, count not below its state's number, or words that are no run */
};

/* What a number means, in a few words of English that last for ever; "done" for 0, and "not a refusal's number" for one that is none.
 * This call alone is plain C (meaning.c) and not proved. */
const char *voltamar_meaning(uint8_t number);

/* ---- sheets and streams */

/* Judges a sheet. Accepted: 0, and *place is 0. Refused: 1 to 11, 18 or 19, the first fault from the left; within a
 * record in the order 1, 3, 4, 5, 19, 6 to 10, 18. */
uint8_t voltamar_check(const uint8_t *sheet, size_t n, size_t *place);

/* Where the records of one section lie in the sheet, without their count: sheet[*start] is the first byte, *length says how many.
 * Sections: 0 terms, 1 ranges, 2 edges, 3 sums, 4 states. Returns what voltamar_check returns, for the whole sheet. *start and
 * *length are both 0 where the part is empty: a refused sheet, a section without records, a number above 4. */
uint8_t voltamar_section(const uint8_t *sheet, size_t n, uint8_t number, size_t *start, size_t *length);

/* Writes the sheet's commands to out, by rising address: states, terms, ranges, edges, sums. Done: 0, and *place is their length.
 * Refused: the sheet's refusal, or 12. */
uint8_t voltamar_compile(const uint8_t *sheet, size_t n, uint8_t *out, size_t room, size_t *place);

/* Writes to out the sheet that the command stream sets up, with targets cut to their masks. A label is the letter of its
 * section, T, R, E, S or Q (terms, ranges, edges, sums, states), the slot in two decimal digits, and five spaces. Done: 0,
 * and *place is the sheet's length. Refused: 13 to 16, the first fault from the left, or 12. Given room for the sheet, done
 * exactly if some accepted sheet compiles to the stream; of no bytes the sheet is five zeros. */
uint8_t voltamar_read(const uint8_t *stream, size_t n, uint8_t *out, size_t room, size_t *place);

/* Writes the alteration notice of two sheets to out. Done: 0, *which is 0, and *place is the notice's length. Refused: the old
 * sheet's refusal with *which 1, else the new sheet's with *which 2, else 12 with *which 0. */
uint8_t voltamar_notice(const uint8_t *old_sheet, size_t n, const uint8_t *new_sheet, size_t k, uint8_t *out, size_t room,
                        uint8_t *which, size_t *place);

/* ---- samples */

/* The sample's masked lines as a number: the lowest masked line is bit 0, the next bit 1, and so on. */
uint32_t voltamar_gather(uint32_t sample, uint32_t mask);

/* The model: chain words in sending order, any values, run as the recorder runs them. A term has 4 words, a range 32 (the lower chain
 * first), an edge 8, a sum 6. Run: 0, *hit is 1 for a hit and 0 for a miss, and *place is 0. Refused: 17, *hit is 0, and
 * *place is the count needed. A sum's sources: bits 0 to 9 terms a to j, then range 1, range 2, edge 1, edge 2, timer 1,
 * timer 2. */
uint8_t voltamar_run_term(const uint32_t *words, size_t n, uint32_t sample, uint8_t *hit, size_t *place);
uint8_t voltamar_run_range(const uint32_t *words, size_t n, uint32_t sample, uint8_t *hit, size_t *place);
uint8_t voltamar_run_edge(const uint32_t *words, size_t n, uint32_t earlier, uint32_t later, uint8_t *hit, size_t *place);
uint8_t voltamar_run_sum(const uint32_t *words, size_t n, uint16_t sources, uint8_t *hit, size_t *place);

/* Whether some pattern of the sources, from 0 to 65,535, tells two sums apart: one hits on it and the other misses, by the
 * model over the words that the compiler writes for their operations. A sum is its eleven operations, as on the sheet.
 * Alike: 0, and *sources is 0. Told apart: 1, and *sources is the least pattern that tells. Refused: 10, and *sources is 0,
 * where one of the two is not eleven bytes, or has a byte above 9. */
uint8_t voltamar_sum_telling(const uint8_t *old_ops, size_t n, const uint8_t *new_ops, size_t k, uint16_t *sources);

/* The plain rules of a hit. A term hits when each line that the mask has set has the target's value; a range when lower <= gathered
 * <= upper; an edge when some line does what is asked for it: rise (earlier 0, later 1), fall (1, 0), neither (equal). */
bool voltamar_term_hit(uint32_t target, uint32_t mask, uint32_t sample);
bool voltamar_range_hit(uint32_t lower, uint32_t upper, uint32_t mask, uint32_t sample);
bool voltamar_edge_hit(uint32_t rise, uint32_t fall, uint32_t neither, uint32_t earlier, uint32_t later);

/* The bench: runs the sheet's programme over k samples, and writes those that its capture sums take, in their order, to out. The run
 * is five words: state (0 to 15), count, 1 if there is a word before the next sample and 0 if not, that word (0 if there is none), 1
 * if the run has ended and 0 if not. Five zeros are a fresh run. Done: 0, *place is how many words were written, and run is the run
 * to hand to the next call: samples in pieces give what one call gives. Refused, with run and out as they were, and whether the run
 * has ended or not: the sheet's refusal; else 20 for more than 4,096 samples, and *place is 4096; else 24, and *place is 0, for a
 * state above 15, a count not below its state's number, or words that are no run (run_words other than 5, too); else 12, and *place
 * is the words needed.
 *
 * On each sample the run is in one state, and its three sums (slots 3 x state, + 1, + 2: hit, else, capture) are asked. Capture takes
 * the sample if the capture sum matches. If the hit sum matches, the count goes up; at the state's number, where 0 counts as 1, it is
 * cleared, and the run goes to the next state, or ends if the state is 15 or has the flag last. If the hit sum does not match and the
 * else sum does, the run goes to the else state and the count is cleared. After the end no sample is looked at. The first sample of
 * a fresh run is its own earlier one. Terms, ranges and edges that the sheet does not have never hit, nor do the timers; sums never
 * match; a state that it does not have counts to 1 and leads to state 0, and has no flag set. */
uint8_t voltamar_bench(const uint8_t *sheet, size_t n, const uint32_t *samples, size_t k, uint32_t *run, size_t run_words,
                       uint32_t *out, size_t room, size_t *place);

#ifdef __cplusplus
}
#endif

#endif
