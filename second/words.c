/* The tables of each item, had by asking what a table has to mean at each of its sixteen addresses, and a state's word
 * by asking the same of each of its bits. No table's number and no bit's weight is written here: where the numbers come
 * out as the rules have them, the meaning and the numbers agree. */
#include "words.h"

uint8_t sent[LONGEST_STREAM];
size_t sent_length;

/* ---- sending ---- */

enum { SELECT = 0x9E, LOAD = 0x9F };

void begin_stream(void)
{
    sent_length = 0;
}

static void command(uint8_t opcode, uint32_t number)
{
    sent[sent_length++] = opcode;
    for (int shift = 0; shift < 32; shift += 8)
        sent[sent_length++] = (uint8_t)(number >> shift);
}

/* In every chain the tables go from the highest number to table 0, two to a word, the higher in the upper half. */
static void send_chain(uint32_t address, const uint16_t *tables, int count)
{
    command(SELECT, address);
    for (int t = count - 2; t >= 0; t -= 2)
        command(LOAD, (uint32_t)tables[t + 1] << 16 | tables[t]);
}

/* ---- tables ---- */

/* Whether a table answers 1 at an address, given what the item wants of that table. */
typedef int rule(const void *wanted, unsigned address);

static uint16_t table(rule *answers, const void *wanted)
{
    unsigned bits = 0;
    for (unsigned address = 0; address < 16; address++)
        if (answers(wanted, address))
            bits += 1u << address;
    return (uint16_t)bits;
}

static int digit(uint32_t number, int place)
{
    return (int)(number >> place & 1);
}

/* ---- terms: table t has lines 4t to 4t + 3, the lowest on input 0 ---- */

struct pattern { uint32_t target, mask; };

static int agrees(const void *wanted, unsigned address)
{
    const struct pattern *p = wanted;
    for (int line = 0; line < 4; line++)
        if (digit(p->mask, line) && digit(address, line) != digit(p->target, line))
            return 0;
    return 1;
}

void send_term(int slot, uint32_t target, uint32_t mask)
{
    uint16_t tables[8];
    for (int t = 0; t < 8; t++) {
        struct pattern four = {target >> 4 * t, mask >> 4 * t};
        tables[t] = table(agrees, &four);
    }
    send_chain(0x20 + (uint32_t)slot, tables, 8);
}

/* ---- ranges: table t has line t ---- */

/* A chain adds a number to the sample's, line by line. What it adds on one line: */
struct addend { int counted, bit; };

/* A table passes the carry on where what leaves the line is what came in. A line that is not counted adds nothing and
 * takes nothing. The line's value is on input 0; the other inputs have no line and change nothing. */
static int passes(const void *wanted, unsigned address)
{
    const struct addend *a = wanted;
    int without, with;
    if (!a->counted)
        return 1;
    without = (digit(address, 0) + a->bit) / 2;
    with = (digit(address, 0) + a->bit + 1) / 2;
    return without == 0 && with == 1;
}

/* The chain that carries out of its last counted line from the number `first` on: it adds what `first` lacks to
 * 2^k, k being the lines counted. Zero less `first`, digit by digit, and the last borrow is that 2^k. */
static void send_carrying_from(uint32_t address, uint64_t first, uint32_t mask)
{
    uint16_t tables[32];
    int borrow = 0;
    for (int line = 0; line < 32; line++) {
        struct addend a = {digit(mask, line), 0};
        if (a.counted) {
            int left = 0 - (int)(first % 2) - borrow;
            borrow = left < 0;
            a.bit = left + 2 * borrow;
            first /= 2;
        }
        tables[line] = table(passes, &a);
    }
    send_chain(address, tables, 32);
}

/* The lower chain must carry, so it does from lower on; the upper must not, so it does only above upper. */
void send_range(int slot, uint32_t lower, uint32_t upper, uint32_t mask)
{
    uint32_t address = 0x30 + 2 * (uint32_t)slot;
    send_carrying_from(address, lower, mask);
    send_carrying_from(address + 1, (uint64_t)upper + 1, mask);
}

/* ---- edges: table t has lines 2t and 2t + 1, the later sample on inputs 0 and 1, the earlier on 2 and 3 ---- */

struct events { uint32_t rise, fall, neither; };

/* Any event that a line asks for counts. The document's listing goes by if and else: where a line asks for neither,
 * its rise and fall are not looked at. Here, as in the compiler, a table is the OR of all that is asked (the buyer's
 * seventh request). */
static int happened(const void *wanted, unsigned address)
{
    const struct events *e = wanted;
    for (int line = 0; line < 2; line++) {
        int later = digit(address, line), earlier = digit(address, line + 2);
        uint32_t asked = earlier < later ? e->rise : earlier > later ? e->fall : e->neither;
        if (digit(asked, line))
            return 1;
    }
    return 0;
}

void send_edge(int slot, uint32_t rise, uint32_t fall, uint32_t neither)
{
    uint16_t tables[16];
    for (int t = 0; t < 16; t++) {
        struct events two = {rise >> 2 * t, fall >> 2 * t, neither >> 2 * t};
        tables[t] = table(happened, &two);
    }
    send_chain(0x34 + (uint32_t)slot, tables, 16);
}

/* ---- sums: tables 0 to 7 are the pairs, 8 and 9 the mids, 10 the final one; 11 is empty ---- */

enum stage { PAIR, MID, FINAL };
struct gate { enum stage stage; int code; };

/* What a stage hears at an address: the voices that an operation counts, and what A and B stand for. */
struct heard { int voices, speaking, a, b; };

static struct heard hear(enum stage stage, unsigned address)
{
    int in[4], speaking = 0;
    for (int i = 0; i < 4; i++) {
        in[i] = digit(address, i);
        speaking += in[i];
    }
    if (stage == PAIR) { /* two voices, each on two inputs, and both must be 1 */
        int a = in[0] && in[1], b = in[2] && in[3];
        return (struct heard){2, a + b, a, b};
    }
    if (stage == MID) /* four voices; A is either of the first two, B either of the last two */
        return (struct heard){4, speaking, in[0] || in[1], in[2] || in[3]};
    /* two voices; A is the first and B the second, whatever the other says. These two words, 000A and 000C, are the
       buyer's fourth request; the listing's, 0002 and 0004, are silent where both speak. All other words are the listing's. */
    return (struct heard){2, speaking, in[0], in[1]};
}

static int gate_answers(const void *wanted, unsigned address)
{
    const struct gate *g = wanted;
    struct heard h = hear(g->stage, address);
    int odd = g->code % 2, answer = 0;
    if (g->code == 1) /* ANY: at every address, on the final table too */
        return 1;
    if (g->stage == FINAL && address > 3) /* inputs 2 and 3 are never 1 there, and the words are 0 above */
        return 0;
    if (g->code >= 8)
        return odd ? h.b : h.a;
    switch (g->code - odd) {
    case 2: answer = h.speaking == h.voices; break;
    case 4: answer = h.speaking > 0; break;
    case 6: answer = h.speaking == 1; break; /* exactly one, of four as of two: not odd parity */
    }
    return odd ? !answer : answer; /* codes 3, 5 and 7 deny 2, 4 and 6 */
}

void send_sum(int slot, const uint8_t operation[11])
{
    uint16_t tables[12] = {0};
    for (int t = 0; t < 11; t++) {
        struct gate g = {t < 8 ? PAIR : t < 10 ? MID : FINAL, operation[t]};
        tables[t] = table(gate_answers, &g);
    }
    send_chain(0x40 + 4 * (uint32_t)(slot / 3) + (uint32_t)(slot % 3), tables, 12);
}

/* ---- states: one word without tables; what a bit says depends on its place ---- */

/* Actions 0, 1 and 2 are stop, clear and start; timer 1 is timer 0 here. */
static int acts(const struct conduct *c, int action, int timer)
{
    int timers = action == 0 ? c->stop : action == 1 ? c->clear : c->start;
    return digit((uint32_t)timers, timer);
}

/* The number's digits, then the else state's, then each action on timer 1 and timer 2, then the two marks. */
static int says(const struct conduct *c, int place)
{
    if (place < 20)
        return digit(c->number, place);
    if (place < 24)
        return digit((uint32_t)c->else_state, place - 20);
    if (place < 30)
        return acts(c, (place - 24) / 2, (place - 24) % 2);
    return place == 30 ? c->trigger : c->last;
}

/* The bits are asked from the highest down, and what is there is doubled for each. */
void send_state(int slot, const struct conduct *conduct)
{
    uint32_t word = 0;
    for (int place = 31; place >= 0; place--)
        word = 2 * word + (says(conduct, place) ? 1 : 0);
    command(SELECT, (uint32_t)slot);
    command(LOAD, word);
}
