/* What the number of a refusal means, in words: those of the command line (crates/refusal/specs/Words). tests/cli.sh compares the two. */
#include "voltamar.h"

static const char *const meanings[] = {
    [VOLTAMAR_DONE] = "done",
    [VOLTAMAR_INCOMPLETE] = "count or record incomplete",
    [VOLTAMAR_COUNT_TOO_BIG] = "count above the section's most",
    [VOLTAMAR_SLOT_TOO_BIG] = "slot too big",
    [VOLTAMAR_SLOT_NOT_RISING] = "slot not rising",
    [VOLTAMAR_BAD_LABEL] = "bad label byte",
    [VOLTAMAR_LOWER_ZERO] = "lower bound is 0",
    [VOLTAMAR_LOWER_ABOVE_UPPER] = "lower bound above upper",
    [VOLTAMAR_UPPER_TOO_BIG] = "upper bound too big for the mask's lines",
    [VOLTAMAR_ALL_ASKED] = "rise, fall and neither together on a line",
    [VOLTAMAR_BAD_OPERATION] = "operation above 9",
    [VOLTAMAR_LEFT_OVER] = "bytes left over",
    [VOLTAMAR_OUTPUT_TOO_SHORT] = "output too short (the place is what is needed)",
    [VOLTAMAR_UNFINISHED] = "stream ends inside a command or item",
    [VOLTAMAR_BAD_OPCODE] = "opcode other than the one due",
    [VOLTAMAR_BAD_ADDRESS] = "address unknown, not rising, or not the one due",
    [VOLTAMAR_BAD_WORDS] = "words that no accepted description writes",
    [VOLTAMAR_WRONG_COUNT] = "wrong word count (the place is the count needed)",
    [VOLTAMAR_FIELD_TOO_BIG] = "a state's field too big for its place",
    [VOLTAMAR_SAME_LABEL] = "label the same as an earlier one of its section",
    [VOLTAMAR_TOO_MANY_SAMPLES] = "too many samples (the place is the most)",
    [VOLTAMAR_BAD_RUN] = "state above 15, or count not below its number",
};

const char *voltamar_meaning(uint8_t number) {
    const char *meaning = number < sizeof meanings / sizeof *meanings ? meanings[number] : NULL;
    return meaning != NULL ? meaning : "not a refusal's number"; /* the table has gaps */
}
