/* What goes to the recorder for each item of a sheet. words.c works it out, README.md has the facts behind it. */
#ifndef WORDS_H
#define WORDS_H

#include <stddef.h>
#include <stdint.h>

/* The most records of each section. */
enum { TERMS = 10, RANGES = 2, EDGES = 2, SUMS = 48, STATES = 16 };

/* The commands of one record: for each chain a select and its words. No sheet needs more than all its slots. */
enum { TERM_SENT = 1 + 4, RANGE_SENT = 2 * (1 + 16), EDGE_SENT = 1 + 8, SUM_SENT = 1 + 6, STATE_SENT = 1 + 1 };
enum { COMMAND = 5 };
#define LONGEST_STREAM                                                                                                 \
    (COMMAND * (TERMS * TERM_SENT + RANGES * RANGE_SENT + EDGES * EDGE_SENT + SUMS * SUM_SENT + STATES * STATE_SENT))

/* What was sent since begin_stream. */
extern uint8_t sent[LONGEST_STREAM];
extern size_t sent_length;

void begin_stream(void);

/* What a state waits for and does. Of stop, clear and start, digit 0 is for timer 1 and digit 1 for timer 2. */
struct conduct {
    uint32_t number;
    int else_state, start, stop, clear, trigger, last;
};

/* Each takes what an accepted sheet holds: the slot is below the section's most, a range has lower at least 1, lower
 * at most upper and upper at most what its masked lines can count, no line of an edge asks for all three events, no
 * operation is above 9, a state's number has twenty digits at most and its else state four. */
void send_term(int slot, uint32_t target, uint32_t mask);
void send_range(int slot, uint32_t lower, uint32_t upper, uint32_t mask);
void send_edge(int slot, uint32_t rise, uint32_t fall, uint32_t neither);
void send_sum(int slot, const uint8_t operation[11]);
void send_state(int slot, const struct conduct *conduct);

#endif
