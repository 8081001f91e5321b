/* Calls each function of the static library from C: examples of the rules, and that a refused call writes nothing, a call that is done
 * nothing beyond its length. Run by .ci/run in the repository's folder. */
#include "voltamar.h"

#include <stdio.h>
#include <string.h>

static int failures;

static void expect(int ok, const char *what) {
    if (!ok) {
        fprintf(stderr, "library.c: %s\n", what);
        failures++;
    }
}

enum { SPACE = 4096, UNTOUCHED = 0xA5 };

/* the bytes of a file of examples/, and how many */
static size_t load(const char *name, uint8_t bytes[SPACE]) {
    char path[64];
    snprintf(path, sizeof path, "examples/%s", name);
    FILE *file = fopen(path, "rb");
    if (file == NULL) {
        expect(0, path);
        return 0;
    }
    size_t n = fread(bytes, 1, SPACE, file);
    fclose(file);
    return n;
}

/* whether out holds these bytes, and beyond them nothing was written */
static int holds(const uint8_t out[SPACE], const uint8_t *bytes, size_t n) {
    for (size_t i = n; i < SPACE; i++) {
        if (out[i] != UNTOUCHED) return 0;
    }
    return n == 0 || memcmp(out, bytes, n) == 0;
}

static uint8_t out[SPACE], old_sheet[SPACE], new_sheet[SPACE], lift[SPACE], wanted[SPACE];
static size_t old_length, new_length, lift_length, wanted_length;

static void clear(void) { memset(out, UNTOUCHED, SPACE); }

/* What all sizes and offsets below follow from: the bytes of a label and the number of sections. */
enum { LABEL = 8, SECTIONS = 5 };

/* the bytes before a record's description, and those of a record */
enum { HEAD = 1 + LABEL, TERM = HEAD + 8, RANGE = HEAD + 12, EDGE = HEAD + 12, SUM = HEAD + 11, STATE = HEAD + 13 };

static const uint8_t empty_sheet[SECTIONS] = {0};

/* a name with spaces behind it */
static void put_label(uint8_t *label, const char *name) {
    memset(label, ' ', LABEL);
    memcpy(label, name, strlen(name));
}

/* puts a record of so many bytes, and answers how many */
static size_t put_record(uint8_t *record, uint8_t slot, const char *name, const uint8_t *description, size_t size) {
    record[0] = slot;
    put_label(record + 1, name);
    memcpy(record + HEAD, description, size - HEAD);
    return size;
}

/* a sheet with one record, which begins at section + 1; answers the sheet's length */
static size_t one_record(uint8_t *sheet, int section, uint8_t slot, const char *name, const uint8_t *description, size_t size) {
    memset(sheet, 0, SECTIONS + size);
    sheet[section] = 1;
    return SECTIONS + put_record(sheet + section + 1, slot, name, description, size);
}

/* a range 0..9 over four lines: refusal 6 at the record, offset 2 */
static uint8_t lower_zero[SPACE];
static size_t refused_length;

static void make_refused(void) {
    static const uint8_t range[RANGE - HEAD] = {0, 0, 0, 0, 9, 0, 0, 0, 15};
    refused_length = one_record(lower_zero, 1, 0, "RANGE", range, RANGE);
}

/* The lift has 9 terms, 2 ranges, 2 edges, 12 sums and 4 states: where some of its records begin. */
enum {
    LIFT_LAST_TERM = 1 + 8 * TERM,
    LIFT_RANGES = 1 + 9 * TERM + 1,
    LIFT_STATES = LIFT_RANGES + 2 * RANGE + 1 + 2 * EDGE + 1 + 12 * SUM + 1,
    LIFT_LAST_STATE = LIFT_STATES + 3 * STATE
};

static void check_and_section(void) {
    size_t place = 99, start = 99, length = 99;
    expect(voltamar_check(old_sheet, old_length, &place) == 0 && place == 0, "check: accepted");
    expect(voltamar_check(lower_zero, refused_length, &place) == 6 && place == 2, "check: refused");
    expect(voltamar_check(NULL, 0, &place) == 1 && place == 0, "check: no bytes at all");
    expect(voltamar_check(old_sheet, old_length - 1, &place) == 1 && place == old_length - 1, "check: the last section is missing");
    expect(voltamar_check(empty_sheet, SECTIONS, &place) == 0 && place == 0, "check: nothing but counts of 0");

    expect(voltamar_section(old_sheet, old_length, 0, &start, &length) == 0 && start == 1 && length == 2 * TERM, "section: terms");
    expect(voltamar_section(old_sheet, old_length, 1, &start, &length) == 0 && start == 1 + 2 * TERM + 1 && length == RANGE,
           "section: ranges");
    start = length = 99;
    expect(voltamar_section(old_sheet, old_length, 2, &start, &length) == 0 && start == 0 && length == 0, "section: empty");
    start = length = 99;
    expect(voltamar_section(old_sheet, old_length, SECTIONS, &start, &length) == 0 && start == 0 && length == 0,
           "section: above the last");
    expect(voltamar_section(lift, lift_length, 4, &start, &length) == 0 && start == LIFT_STATES && length == 4 * STATE,
           "section: states");
    start = length = 99;
    expect(voltamar_section(lower_zero, refused_length, 1, &start, &length) == 6 && start == 0 && length == 0, "section: refused");
}

static void compile_and_read(void) {
    size_t place = 99;
    wanted_length = load("lift.commands", wanted);
    clear();
    expect(voltamar_compile(lift, lift_length, out, SPACE, &place) == 0 && place == wanted_length, "compile: length");
    expect(holds(out, wanted, wanted_length), "compile: the commands, and nothing beyond");
    clear();
    expect(voltamar_compile(lift, lift_length, out, wanted_length - 1, &place) == 12 && place == wanted_length, "compile: 12");
    expect(holds(out, NULL, 0), "compile: 12 writes nothing");
    expect(voltamar_compile(lower_zero, refused_length, out, SPACE, &place) == 6 && place == 2 && holds(out, NULL, 0), "compile: refused");

    uint8_t stream[SPACE];
    size_t stream_length = load("lift.commands", stream);
    wanted_length = load("lift.back", wanted);
    expect(voltamar_read(stream, stream_length, out, SPACE, &place) == 0 && place == wanted_length, "read: length");
    expect(holds(out, wanted, wanted_length), "read: the sheet, and nothing beyond");
    clear();
    expect(voltamar_read(stream, stream_length, out, 3, &place) == 12 && place == wanted_length, "read: 12");
    expect(voltamar_read(stream, stream_length - 1, out, SPACE, &place) == 13 && place == stream_length - 5, "read: 13");
    stream[0] = 0x9F;
    expect(voltamar_read(stream, stream_length, out, SPACE, &place) == 14 && place == 0, "read: 14");
    stream[0] = 0x9E;
    stream[1] = 0x43;
    expect(voltamar_read(stream, stream_length, out, SPACE, &place) == 15 && place == 0, "read: 15");
    stream[1] = 0x00;
    /* behind the four states, the words of the first term */
    for (size_t at = 45; at < 65; at += 5) memset(stream + at + 1, 0, 4);
    expect(voltamar_read(stream, stream_length, out, SPACE, &place) == 16 && place == 40, "read: 16");
    expect(holds(out, NULL, 0), "read: refusals write nothing");
    expect(voltamar_read(NULL, 0, out, SPACE, &place) == 0 && place == SECTIONS, "read: an empty stream");
    expect(holds(out, empty_sheet, SECTIONS), "read: nothing but counts of 0");
}

/* a state in slot 15: number FFFFF hex, else state 15, start timer 1, trigger */
static void states(void) {
    enum { LENGTH = SECTIONS + STATE, RECORD = 4 + 1 };
    const uint8_t state[STATE - HEAD] = {0xFF, 0xFF, 0x0F, 0, 15, 0, 0, 0, 0, 1, 0, 1, 0};
    const uint8_t commands[10] = {0x9E, 15, 0, 0, 0, 0x9F, 0xFF, 0xFF, 0xFF, 0x50};
    uint8_t sheet[LENGTH], back[LENGTH];
    size_t place = 99;
    uint8_t which = 99;
    one_record(sheet, 4, 15, "STATE", state, STATE);
    clear();
    expect(voltamar_compile(sheet, LENGTH, out, SPACE, &place) == 0 && place == 10, "states: length of the commands");
    expect(holds(out, commands, 10), "states: the commands");

    one_record(back, 4, 15, "Q15", state, STATE);
    clear();
    expect(voltamar_read(commands, 10, out, SPACE, &place) == 0 && place == LENGTH, "states: length of the sheet");
    expect(holds(out, back, LENGTH), "states: the sheet, with its section's letter and its slot for a label");

    const char *text = "STAT 15 NAME\nSTAT 15 ALTR\n";
    back[RECORD + STATE - 1] = 1; /* last */
    clear();
    expect(voltamar_notice(sheet, LENGTH, back, LENGTH, out, SPACE, &which, &place) == 0 && place == 26,
           "states: length of the notice");
    expect(holds(out, (const uint8_t *)text, 26), "states: ALTR shows no sample");

    for (size_t field = RECORD + HEAD + 2; field < RECORD + STATE; field++) { /* the number's third byte and all that follow */
        uint8_t good = sheet[field];
        sheet[field] = 16;
        expect(voltamar_check(sheet, LENGTH, &place) == 18 && place == RECORD, "states: 18");
        sheet[field] = good;
    }
    expect(voltamar_check(sheet, LENGTH, &place) == 0 && place == 0, "states: accepted");
}

/* A sheet with one edge, which asks on line 12 for these added up: 1 for rise, 2 for fall, 4 for neither. The record
 * begins at 3. */
static uint8_t one_edge(unsigned wishes, size_t *place) {
    uint8_t sheet[SECTIONS + EDGE], edge[EDGE - HEAD] = {0};
    for (unsigned event = 0; event < 3; event++) edge[1 + 4 * event] = (wishes >> event & 1) << 4;
    return voltamar_check(sheet, one_record(sheet, 2, 0, "EDGE", edge, EDGE), place);
}

static void edges(void) {
    size_t place = 99;
    for (unsigned wishes = 0; wishes < 7; wishes++) {
        place = 99;
        expect(one_edge(wishes, &place) == 0 && place == 0, "edges: two of the three are accepted, neither and rise too");
    }
    expect(one_edge(7, &place) == VOLTAMAR_ALL_ASKED && place == 3, "edges: 9");

    /* neither and rise on line 0; then all three, the table of every address */
    enum { LENGTH = SECTIONS + EDGE };
    uint8_t stream[45] = {0x9E, 0x34}, back[LENGTH];
    const uint8_t edge[EDGE - HEAD] = {1, 0, 0, 0, 0, 0, 0, 0, 1};
    one_record(back, 2, 0, "E00", edge, EDGE);
    for (size_t at = 5; at < 45; at += 5) stream[at] = 0x9F;
    stream[41] = stream[42] = 0xAF;
    clear();
    expect(voltamar_compile(back, LENGTH, out, SPACE, &place) == 0 && place == 45 && holds(out, stream, 45), "edges: the commands");
    clear();
    expect(voltamar_read(stream, 45, out, SPACE, &place) == 0 && place == LENGTH && holds(out, back, LENGTH), "edges: the sheet");
    stream[41] = stream[42] = 0xFF;
    clear();
    expect(voltamar_read(stream, 45, out, SPACE, &place) == 16 && place == 0 && holds(out, NULL, 0), "edges: 16");
}

/* where the second of two sums begins */
enum { SECOND_SUM = 3 + 1 + SUM };

/* two sums with these labels */
static uint8_t two_sums(const char *first, const char *second, size_t *place) {
    static const uint8_t never[SUM - HEAD] = {0};
    uint8_t sheet[SECTIONS + 2 * SUM] = {0, 0, 0, 2};
    put_record(sheet + SECOND_SUM - SUM, 0, first, never, SUM);
    put_record(sheet + SECOND_SUM, 47, second, never, SUM);
    return voltamar_check(sheet, sizeof sheet, place);
}

static void labels(void) {
    size_t place = 99;
    char last[LABEL + 1];
    snprintf(last, sizeof last, "%-*s.", LABEL - 1, "AB");
    expect(two_sums("S0 LOCK", "S0 LOCK", &place) == VOLTAMAR_SAME_LABEL && place == SECOND_SUM, "labels: 19");
    expect(two_sums("", "", &place) == 19 && place == SECOND_SUM, "labels: blank twice");
    expect(two_sums("S0 LOCK", "", &place) == 0 && place == 0, "labels: blank once");
    expect(two_sums("AB", last, &place) == 0 && two_sums("AB", ".B", &place) == 0, "labels: all bytes count");
}

static void labels_of_the_lift(void) {
    size_t place = 99, length = 99;
    uint8_t which = 99;
    /* the last term of the lift gets the first one's label: then no call takes the sheet */
    uint8_t sheet[SPACE];
    memcpy(sheet, lift, SPACE);
    memcpy(sheet + LIFT_LAST_TERM + 1, sheet + 2, LABEL);
    clear();
    expect(voltamar_check(sheet, lift_length, &place) == 19 && place == LIFT_LAST_TERM, "labels: not only the record before");
    sheet[LIFT_LAST_TERM] = 7;
    expect(voltamar_check(sheet, lift_length, &place) == 4 && place == LIFT_LAST_TERM, "labels: 4 comes before 19");
    sheet[LIFT_LAST_TERM] = 9;
    expect(voltamar_section(sheet, lift_length, 1, &place, &length) == 19 && place == 0 && length == 0, "labels: section");
    expect(voltamar_compile(sheet, lift_length, out, SPACE, &place) == 19 && place == LIFT_LAST_TERM, "labels: compile");
    expect(voltamar_notice(lift, lift_length, sheet, lift_length, out, SPACE, &which, &place) == 19 && which == 2 &&
               place == LIFT_LAST_TERM,
           "labels: notice");
    expect(holds(out, NULL, 0), "labels: refusals write nothing");
    /* a range may have the label of a term */
    memcpy(sheet, lift, SPACE);
    memcpy(sheet + LIFT_RANGES + 1, sheet + 2, LABEL);
    expect(voltamar_check(sheet, lift_length, &place) == 0 && place == 0, "labels: of another section");
    /* the last state gets the second one's label, and a flag that is 2 */
    sheet[LIFT_LAST_STATE + STATE - 1] = 2;
    expect(voltamar_check(sheet, lift_length, &place) == 18 && place == LIFT_LAST_STATE, "labels: another label, 18");
    memcpy(sheet + LIFT_LAST_STATE + 1, sheet + LIFT_STATES + STATE + 1, LABEL);
    expect(voltamar_check(sheet, lift_length, &place) == 19 && place == LIFT_LAST_STATE, "labels: 19 comes before 18");
}

/* Of each section the most records, the bytes of one, and two descriptions that are told apart. */
static const struct {
    uint8_t most, size, first[STATE - HEAD], second[STATE - HEAD];
} full[SECTIONS] = {
    {10, TERM, {0, 0, 0, 0, 1}, {1, 0, 0, 0, 1}},
    {2, RANGE, {1, 0, 0, 0, 1, 0, 0, 0, 1}, {1, 0, 0, 0, 1, 0, 0, 0, 2}},
    {2, EDGE, {1}, {2}},
    {48, SUM, {0}, {0, 0, 0, 0, 0, 0, 0, 0, 0, 0, 1}},
    {16, STATE, {0}, {1}},
};

/* a sheet with every slot taken: the first descriptions or the second, and labels to go with them */
static size_t full_sheet(uint8_t sheet[SPACE], int second) {
    size_t n = 0;
    for (int section = 0; section < SECTIONS; section++) {
        const uint8_t *description = second ? full[section].second : full[section].first;
        sheet[n++] = full[section].most;
        for (uint8_t slot = 0; slot < full[section].most; slot++) {
            char name[LABEL];
            snprintf(name, sizeof name, "%c%02d", second ? 'B' : 'A', slot);
            n += put_record(sheet + n, slot, name, description, full[section].size);
        }
    }
    return n;
}

/* The header's three lengths: with so much room each call is done, and with one byte less it is 12. */
static void longest(void) {
    static uint8_t first[SPACE], second[SPACE], commands[VOLTAMAR_LONGEST_STREAM], back[VOLTAMAR_LONGEST_SHEET],
        text[VOLTAMAR_LONGEST_NOTICE];
    size_t n = full_sheet(first, 0), k = full_sheet(second, 1), place = 99;
    uint8_t which = 99;
    expect(n == VOLTAMAR_LONGEST_SHEET && k == n && voltamar_check(first, n, &place) == 0, "longest: a full sheet");
    expect(voltamar_compile(first, n, commands, sizeof commands - 1, &place) == 12 && place == sizeof commands, "longest: compile, 12");
    expect(voltamar_compile(first, n, commands, sizeof commands, &place) == 0 && place == sizeof commands, "longest: compile");
    expect(voltamar_read(commands, sizeof commands, back, sizeof back - 1, &place) == 12 && place == sizeof back, "longest: read, 12");
    expect(voltamar_read(commands, sizeof commands, back, sizeof back, &place) == 0 && place == sizeof back, "longest: read");
    expect(voltamar_notice(first, n, second, k, text, sizeof text - 1, &which, &place) == 12 && place == sizeof text,
           "longest: notice, 12");
    expect(voltamar_notice(first, n, second, k, text, sizeof text, &which, &place) == 0 && place == sizeof text, "longest: notice");
}

static void notices(void) {
    const char *text = "TERM 00 NAME\nTERM 01 ALTR 00000004\nTERM 02 NEW\nRANG 00 GONE\n";
    uint8_t which = 99;
    size_t place = 99;
    clear();
    expect(voltamar_notice(old_sheet, old_length, lower_zero, refused_length, out, SPACE, &which, &place) == 6 && which == 2 && place == 2,
           "notice: the new sheet is refused");
    expect(voltamar_notice(lower_zero, refused_length, NULL, 0, out, SPACE, &which, &place) == 6 && which == 1 && place == 2,
           "notice: the old sheet speaks first");
    expect(voltamar_notice(old_sheet, old_length, new_sheet, new_length, out, 59, &which, &place) == 12 && which == 0 && place == 60,
           "notice: 12 is of neither");
    expect(holds(out, NULL, 0), "notice: refusals write nothing");
    which = 99;
    expect(voltamar_notice(old_sheet, old_length, new_sheet, new_length, out, 60, &which, &place) == 0 && which == 0 && place == 60,
           "notice: length");
    expect(holds(out, (const uint8_t *)text, 60), "notice: the example of the rules");
    expect(voltamar_notice(lift, lift_length, lift, lift_length, NULL, 0, &which, &place) == 0 && place == 0, "notice: nothing altered");
}

static void model(void) {
    uint32_t term[4] = {0xFFFFFFFF, 0xFFFFFFFF, 0xFFFFFFFF, 0xFFFF0020}, range[32], edge[8] = {0}, sum[6] = {0x0008, 0xFFFFFFFF};
    uint8_t hit = 99;
    size_t place = 99;
    for (int i = 0; i < 32; i++) range[i] = 0xFFFFFFFF;
    range[14] = 0x55555555, range[15] = 0xAAAA5555; /* 3..9 over four lines: the lower chain, then the upper */
    range[30] = 0xAAAA5555, range[31] = 0x5555AAAA;
    edge[7] = 0x00000A0A; /* rise on line 0 */

    expect(voltamar_run_term(term, 4, 0xFFFFFFF5, &hit, &place) == 0 && hit == 1 && place == 0, "run_term: hit");
    expect(voltamar_run_term(term, 4, 4, &hit, &place) == 0 && hit == 0 && place == 0, "run_term: miss");
    hit = 99;
    expect(voltamar_run_term(term, 3, 5, &hit, &place) == 17 && hit == 0 && place == 4, "run_term: 17");
    expect(voltamar_run_range(range, 32, 0x13, &hit, &place) == 0 && hit == 1 && place == 0, "run_range: hit");
    expect(voltamar_run_range(range, 32, 2, &hit, &place) == 0 && hit == 0 && place == 0, "run_range: below");
    expect(voltamar_run_range(range, 32, 10, &hit, &place) == 0 && hit == 0 && place == 0, "run_range: above");
    expect(voltamar_run_range(range, 31, 3, &hit, &place) == 17 && hit == 0 && place == 32, "run_range: 17");
    expect(voltamar_run_edge(edge, 8, 2, 3, &hit, &place) == 0 && hit == 1 && place == 0, "run_edge: hit");
    expect(voltamar_run_edge(edge, 8, 3, 2, &hit, &place) == 0 && hit == 0 && place == 0, "run_edge: miss");
    expect(voltamar_run_edge(edge, 9, 2, 3, &hit, &place) == 17 && hit == 0 && place == 8, "run_edge: 17");
    expect(voltamar_run_sum(sum, 6, 0, &hit, &place) == 0 && hit == 1 && place == 0, "run_sum: final AND of two that answer always");
    sum[1] = 0xFFFF0000;
    expect(voltamar_run_sum(sum, 6, 0xFFFF, &hit, &place) == 0 && hit == 0 && place == 0, "run_sum: mid1 never");
    sum[0] = 0x000A;
    expect(voltamar_run_sum(sum, 6, 0, &hit, &place) == 0 && hit == 0, "run_sum: final A, where mid1 says no");
    sum[0] = 0x000C;
    expect(voltamar_run_sum(sum, 6, 0, &hit, &place) == 0 && hit == 1, "run_sum: final B, where mid2 says yes");
    sum[1] = 0xFFFFFFFF;
    expect(voltamar_run_sum(sum, 6, 0, &hit, &place) == 0 && hit == 1, "run_sum: final B, though mid1 says yes too");
    sum[0] = 0x000A;
    expect(voltamar_run_sum(sum, 6, 0, &hit, &place) == 0 && hit == 1, "run_sum: final A, though mid2 says yes too");
    expect(voltamar_run_sum(NULL, 0, 0, &hit, &place) == 17 && hit == 0 && place == 6, "run_sum: 17");
}

/* what the call returns for two sums of so many bytes, if it leaves these sources, whatever was there; else 99 */
static uint8_t telling(const uint8_t *old_ops, size_t n, const uint8_t *new_ops, size_t k, uint16_t wanted_sources) {
    uint16_t sources = 0xFFFF, again = 0;
    uint8_t answer = voltamar_sum_telling(old_ops, n, new_ops, k, &sources);
    uint8_t once_more = voltamar_sum_telling(old_ops, n, new_ops, k, &again);
    return sources == wanted_sources && again == wanted_sources && answer == once_more ? answer : 99;
}

static void tellings(void) {
    /*                     ab c  d  e  fg h  i  j  mids  final */
    const uint8_t both[11] = {2, 0, 0, 0, 0, 0, 0, 0, 4, 0, 4}, either[11] = {4, 0, 0, 0, 0, 0, 0, 0, 4, 0, 4};
    const uint8_t unasked[11] = {4, 0, 0, 0, 0, 0, 0, 0, 0, 0, 4}, never[12] = {0}, all[11] = {2, 2, 2, 2, 2, 2, 2, 2, 2, 2, 2};
    const uint8_t timer[11] = {0, 0, 0, 0, 0, 0, 0, 9, 0, 4, 9}, bad[11] = {0, 0, 0, 0, 0, 0, 0, 0, 0, 0, 10};
    expect(telling(both, 11, both, 11, 0) == 0, "sum_telling: the same");
    expect(telling(unasked, 11, never, 11, 0) == 0, "sum_telling: alike, with other words");
    expect(telling(both, 11, either, 11, 0x0001) == 1, "sum_telling: the first source without the second");
    expect(telling(either, 11, both, 11, 0x0001) == 1, "sum_telling: the other way round");
    expect(telling(timer, 11, never, 11, 0x8000) == 1, "sum_telling: the last source alone");
    expect(telling(all, 11, never, 11, 0xFFFF) == 1, "sum_telling: all sources");
    expect(telling(both, 11, either, 10, 0) == VOLTAMAR_BAD_OPERATION, "sum_telling: ten bytes");
    expect(telling(never, 12, either, 11, 0) == 10 && telling(NULL, 0, NULL, 0, 0) == 10, "sum_telling: twelve bytes, and none");
    expect(telling(bad, 11, both, 11, 0) == 10 && telling(both, 11, bad, 11, 0) == 10, "sum_telling: a code of 10");
}

enum { ROOM = 256, RUN = 5, CANARY = 0x5A5A5A5A };

/* the words of a file of examples/, least byte first, and how many */
static size_t load_words(const char *name, uint32_t words[ROOM]) {
    static uint8_t bytes[SPACE];
    size_t n = load(name, bytes) / 4;
    expect(n <= ROOM, name);
    for (size_t i = 0; i < n && i < ROOM; i++) {
        const uint8_t *b = bytes + 4 * i;
        words[i] = (uint32_t)b[0] | (uint32_t)b[1] << 8 | (uint32_t)b[2] << 16 | (uint32_t)b[3] << 24;
    }
    return n <= ROOM ? n : 0;
}

/* whether the room holds these words, and beyond them nothing was written */
static int holds_words(const uint32_t room[ROOM], const uint32_t *words, size_t n) {
    for (size_t i = n; i < ROOM; i++) {
        if (room[i] != CANARY) return 0;
    }
    return n == 0 || memcmp(room, words, n * sizeof *words) == 0;
}

static void clear_words(uint32_t room[ROOM]) {
    for (size_t i = 0; i < ROOM; i++) room[i] = CANARY;
}

/* a term of slot 0 for line 0; the hit sum of state 0, which asks for it, its capture sum, which matches always; state 0 is the last */
static size_t one_state(uint8_t sheet[SPACE]) {
    static const uint8_t term[TERM - HEAD] = {1, 0, 0, 0, 1}, hit[SUM - HEAD] = {8, 0, 0, 0, 0, 0, 0, 0, 4, 4, 4},
                         capture[SUM - HEAD] = {0, 0, 0, 0, 0, 0, 0, 0, 0, 0, 1},
                         state[STATE - HEAD] = {2, 0, 0, 0, 0, 0, 0, 0, 0, 0, 0, 0, 1};
    const uint8_t counts[SECTIONS] = {1, 0, 0, 2, 1};
    size_t n = 0;
    for (int section = 0; section < SECTIONS; section++) {
        sheet[n++] = counts[section];
        if (section == 0) n += put_record(sheet + n, 0, "LINE 0", term, TERM);
        if (section == 3) n += put_record(sheet + n, 0, "HIT", hit, SUM);
        if (section == 3) n += put_record(sheet + n, 2, "CAPTURE", capture, SUM);
        if (section == 4) n += put_record(sheet + n, 0, "TWICE", state, STATE);
    }
    return n;
}

static void bench(void) {
    static uint8_t sheet[SPACE];
    const uint32_t samples[5] = {2, 1, 4, 3, 1}, after_three[RUN] = {0, 1, 1, 4, 0}, at_the_end[RUN] = {0, 0, 1, 3, 1};
    uint32_t room[ROOM], run[RUN + 1] = {0, 0, 0, 0, 0, CANARY};
    size_t n = one_state(sheet), place = 99;

    clear_words(room);
    expect(voltamar_bench(sheet, n, samples, 5, run, RUN, room, 4, &place) == 0 && place == 4, "bench: four of five are taken");
    expect(holds_words(room, samples, 4), "bench: not the one behind the end");
    expect(memcmp(run, at_the_end, sizeof at_the_end) == 0 && run[RUN] == CANARY, "bench: the run has ended");
    clear_words(room);
    expect(voltamar_bench(sheet, n, samples, 5, run, RUN, NULL, 0, &place) == 0 && place == 0, "bench: nothing after the end");
    expect(memcmp(run, at_the_end, sizeof at_the_end) == 0, "bench: an ended run stays");

    /* in two pieces, and an empty one between them */
    memset(run, 0, sizeof at_the_end);
    expect(voltamar_bench(sheet, n, samples, 3, run, RUN, room, ROOM, &place) == 0 && place == 3, "bench: the first piece");
    expect(holds_words(room, samples, 3) && memcmp(run, after_three, sizeof after_three) == 0, "bench: the run handed on");
    expect(voltamar_bench(sheet, n, NULL, 0, run, RUN, NULL, 0, &place) == 0 && place == 0, "bench: an empty piece");
    expect(memcmp(run, after_three, sizeof after_three) == 0, "bench: the run of an empty piece");
    expect(voltamar_bench(sheet, n, samples + 3, 2, run, RUN, room + 3, ROOM - 3, &place) == 0 && place == 1, "bench: the rest");
    expect(holds_words(room, samples, 4) && memcmp(run, at_the_end, sizeof at_the_end) == 0, "bench: as one call gives");
    expect(run[RUN] == CANARY, "bench: five words are written");
}

static void bench_refusals(void) {
    static uint8_t sheet[SPACE];
    static uint32_t samples[VOLTAMAR_MOST_SAMPLES + 1];
    const uint32_t fresh[RUN] = {0};
    uint32_t room[ROOM], run[RUN + 1] = {0};
    size_t n = one_state(sheet), place = 99;
    clear_words(room);
    /* one refusal after the other, as each fault is taken away */
    run[0] = 16;
    expect(voltamar_bench(lower_zero, refused_length, samples, VOLTAMAR_MOST_SAMPLES + 1, run, RUN, room, 2, &place) == 6 && place == 2,
           "bench: the sheet is refused");
    expect(voltamar_bench(sheet, n, samples, VOLTAMAR_MOST_SAMPLES + 1, run, RUN, room, 2, &place) == VOLTAMAR_TOO_MANY_SAMPLES &&
               place == VOLTAMAR_MOST_SAMPLES,
           "bench: 20");
    expect(voltamar_bench(sheet, n, samples, VOLTAMAR_MOST_SAMPLES, run, RUN, room, 2, &place) == VOLTAMAR_BAD_RUN && place == 0,
           "bench: 24, a state of 16");
    run[0] = 0;
    expect(voltamar_bench(sheet, n, samples, VOLTAMAR_MOST_SAMPLES, run, RUN, room, 2, &place) == VOLTAMAR_OUTPUT_TOO_SHORT &&
               place == VOLTAMAR_MOST_SAMPLES,
           "bench: 12");
    expect(memcmp(run, fresh, sizeof fresh) == 0, "bench: 12 leaves the run");

    const uint32_t no_runs[5][RUN] = {{0, 2, 0, 0, 0}, {1, 1, 0, 0, 0}, {0, 0, 2, 0, 0}, {0, 0, 0, 1, 0}, {0, 0, 0, 0, 2}};
    for (int i = 0; i < 5; i++) {
        memcpy(run, no_runs[i], sizeof no_runs[i]);
        expect(voltamar_bench(sheet, n, NULL, 0, run, RUN, room, ROOM, &place) == 24 && place == 0, "bench: 24");
        expect(memcmp(run, no_runs[i], sizeof no_runs[i]) == 0, "bench: a refusal leaves the run");
    }
    memset(run, 0, sizeof run);
    expect(voltamar_bench(sheet, n, NULL, 0, run, 4, room, ROOM, &place) == 24 && place == 0, "bench: four words are no run");
    expect(voltamar_bench(sheet, n, NULL, 0, run, 6, room, ROOM, &place) == 24 && place == 0, "bench: six words are no run");
    expect(voltamar_bench(sheet, n, NULL, 0, NULL, 0, room, ROOM, &place) == 24 && place == 0, "bench: no words are no run");
    expect(voltamar_bench(NULL, 0, NULL, 0, NULL, 0, NULL, 0, &place) == 1 && place == 0, "bench: nothing at all");
    expect(holds_words(room, NULL, 0), "bench: refusals write nothing");
}

static void bench_of_the_lift(void) {
    uint32_t samples[ROOM], taken[ROOM], room[ROOM], run[RUN] = {0};
    size_t k = load_words("lift.words", samples), wanted = load_words("lift.taken", taken), place = 99, at = 0;
    clear_words(room);
    expect(voltamar_bench(lift, lift_length, samples, k, run, RUN, room, ROOM, &place) == 0 && place == wanted, "bench: the lift");
    expect(holds_words(room, taken, wanted) && run[0] == 3 && run[4] == 1, "bench: what is taken of the lift's words");
    clear_words(room);
    memset(run, 0, sizeof run);
    for (size_t i = 0; i < k; i++, at += place) { /* sample by sample */
        place = 0;
        expect(voltamar_bench(lift, lift_length, samples + i, 1, run, RUN, room + at, ROOM - at, &place) == 0, "bench: one sample");
    }
    expect(at == wanted && holds_words(room, taken, wanted), "bench: the lift sample by sample");
}

static void rules(void) {
    expect(voltamar_gather(0x0880, 0x8A80) == 5, "gather");
    expect(voltamar_term_hit(5, 15, 0x25) && !voltamar_term_hit(5, 15, 4) && voltamar_term_hit(5, 0, 4), "term_hit");
    expect(!voltamar_range_hit(3, 9, 15, 2) && voltamar_range_hit(3, 9, 15, 3), "range_hit at lower");
    expect(voltamar_range_hit(3, 9, 15, 9) && !voltamar_range_hit(3, 9, 15, 10), "range_hit at upper");
    expect(voltamar_edge_hit(1, 0, 0, 0, 1) && !voltamar_edge_hit(1, 0, 0, 1, 0), "edge_hit: rise");
    expect(voltamar_edge_hit(0, 1, 0, 1, 0) && voltamar_edge_hit(0, 0, 1, 1, 1), "edge_hit: fall, neither");
    expect(!voltamar_edge_hit(0, 0, 0, 1, 0), "edge_hit: nothing asked");
    expect(voltamar_edge_hit(1, 0, 1, 0, 1) && !voltamar_edge_hit(1, 0, 1, 1, 0), "edge_hit: rise and neither, where the line moves");
    expect(voltamar_edge_hit(1, 0, 1, 0, 0) && voltamar_edge_hit(1, 0, 1, 1, 1), "edge_hit: rise and neither, where it stays");
    expect(!voltamar_edge_hit(0, 1, 1, 0, 1) && voltamar_edge_hit(0, 1, 1, 1, 0), "edge_hit: fall and neither");
}

static void meanings(void) {
    expect(strcmp(voltamar_meaning(VOLTAMAR_DONE), "done") == 0, "meaning: done");
    expect(strcmp(voltamar_meaning(VOLTAMAR_LOWER_ZERO), "lower bound is 0") == 0, "meaning: a refusal");
    for (int number = 0; number < 256; number++) {
        int is_none = strcmp(voltamar_meaning((uint8_t)number), "not a refusal's number") == 0;
        int between = number > VOLTAMAR_TOO_MANY_SAMPLES && number < VOLTAMAR_BAD_RUN;
        expect(is_none == (between || number > VOLTAMAR_BAD_RUN), "meaning: every number");
    }
    expect(sizeof VOLTAMAR_VERSION > 1, "version");
}

int main(void) {
    meanings();
    old_length = load("old.sheet", old_sheet);
    new_length = load("new.sheet", new_sheet);
    lift_length = load("lift.sheet", lift);
    make_refused();
    check_and_section();
    compile_and_read();
    states();
    edges();
    labels();
    labels_of_the_lift();
    longest();
    notices();
    model();
    tellings();
    bench();
    bench_refusals();
    bench_of_the_lift();
    rules();
    if (failures == 0) puts("library.c: ok");
    return failures != 0;
}
