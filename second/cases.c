/* Makes many sheets that the rules accept and, with words.c, what is sent for each. README.md says how the file is
 * laid out. The random numbers have a fixed seed: the output is the same each time and everywhere. */
#include "words.h"

#include <stdio.h>
#include <stdlib.h>
#include <string.h>

/* The bytes of a label. */
enum { LABEL = 8 };

/* A section with all its records: a count, and for each slot the slot, the label and so many bytes more. */
#define SECTION(most, more) (1 + (most) * (1 + LABEL + (more)))
#define LONGEST_SHEET                                                                                                  \
    (SECTION(TERMS, 8) + SECTION(RANGES, 12) + SECTION(EDGES, 12) + SECTION(SUMS, 11) + SECTION(STATES, 13))
#define END_MARK 0xFFFFu

struct term { int slot; uint8_t label[LABEL]; uint32_t target, mask; };
struct range { int slot; uint8_t label[LABEL]; uint32_t lower, upper, mask; };
struct edge { int slot; uint8_t label[LABEL]; uint32_t rise, fall, neither; };
struct sum { int slot; uint8_t label[LABEL]; uint8_t op[11]; };
struct state { int slot; uint8_t label[LABEL]; struct conduct conduct; };

struct setup {
    int terms, ranges, edges, sums, states;
    struct term term[TERMS];
    struct range range[RANGES];
    struct edge edge[EDGES];
    struct sum sum[SUMS];
    struct state state[STATES];
};

/* ---- numbers ---- */

static uint64_t seed = 0x566F6C74616D6172u;

/* xorshift64*, the upper half */
static uint32_t random32(void)
{
    seed ^= seed >> 12;
    seed ^= seed << 25;
    seed ^= seed >> 27;
    return (uint32_t)((seed * 0x2545F4914F6CDD1Du) >> 32);
}

static uint32_t random_below(uint32_t n)
{
    return random32() % n;
}

/* one in n times */
static int now_and_then(uint32_t n)
{
    return random_below(n) == 0;
}

/* all shapes of masks: none, one line, few, half, many, all, a run of neighbours */
static uint32_t random_mask(void)
{
    uint32_t from;
    switch (random_below(8)) {
    case 0: return 0;
    case 1: return (uint32_t)1 << random_below(32);
    case 2: return random32() & random32() & random32();
    case 3: return random32() | random32() | random32();
    case 4: return 0xFFFFFFFF;
    case 5:
        from = random_below(32);
        return (0xFFFFFFFF >> random_below(32 - from)) & (0xFFFFFFFF << from);
    default: return random32();
    }
}

static uint32_t biggest_below_mask(uint32_t mask)
{
    uint32_t biggest = 0;
    for (; mask != 0; mask &= mask - 1)
        biggest = biggest << 1 | 1;
    return biggest;
}

/* ---- records ---- */

static void fail(const char *what)
{
    fprintf(stderr, "second: %s\n", what);
    exit(1);
}

static void random_label(uint8_t *label)
{
    for (int i = 0; i < LABEL; i++)
        label[i] = (uint8_t)(0x20 + random_below(0x5F));
}

static void add_term(struct setup *s, int slot, uint32_t target, uint32_t mask)
{
    if (s->terms == TERMS || slot >= TERMS || (s->terms > 0 && s->term[s->terms - 1].slot >= slot))
        fail("a term that no sheet holds");
    struct term *t = &s->term[s->terms++];
    t->slot = slot;
    random_label(t->label);
    t->target = target;
    t->mask = mask;
}

static void add_range(struct setup *s, int slot, uint32_t lower, uint32_t upper, uint32_t mask)
{
    if (s->ranges == RANGES || slot >= RANGES || (s->ranges > 0 && s->range[s->ranges - 1].slot >= slot) ||
        lower == 0 || lower > upper || upper > biggest_below_mask(mask))
        fail("a range that no sheet holds");
    struct range *r = &s->range[s->ranges++];
    r->slot = slot;
    random_label(r->label);
    r->lower = lower;
    r->upper = upper;
    r->mask = mask;
}

static void add_edge(struct setup *s, int slot, uint32_t rise, uint32_t fall, uint32_t neither)
{
    if (s->edges == EDGES || slot >= EDGES || (s->edges > 0 && s->edge[s->edges - 1].slot >= slot) ||
        (rise & fall & neither) != 0)
        fail("an edge that no sheet holds");
    struct edge *e = &s->edge[s->edges++];
    e->slot = slot;
    random_label(e->label);
    e->rise = rise;
    e->fall = fall;
    e->neither = neither;
}

/* What a line asks for, as one number: 1 for a rise, 2 for a fall, 4 for neither, added up; but not all three. */
enum { WISHES = 7 };

/* rise, fall and neither of an edge, asked so far */
struct asked { uint32_t of[3]; };

static void ask(struct asked *a, uint32_t line, uint32_t wish)
{
    for (int event = 0; event < 3; event++)
        a->of[event] |= (wish >> event & 1) << line;
}

/* operation p of the sum is (start + p * step) % 10 */
static void add_sum(struct setup *s, int slot, uint32_t start, uint32_t step)
{
    if (s->sums == SUMS || slot >= SUMS || (s->sums > 0 && s->sum[s->sums - 1].slot >= slot))
        fail("a sum that no sheet holds");
    struct sum *m = &s->sum[s->sums++];
    m->slot = slot;
    random_label(m->label);
    for (uint32_t p = 0; p < 11; p++)
        m->op[p] = (uint8_t)((start + p * step) % 10);
}

/* whether so many binary digits do not hold the value */
static int does_not_fit(int value, int digits)
{
    return value < 0 || value >= 1 << digits;
}

static void add_state(struct setup *s, int slot, struct conduct c)
{
    if (s->states == STATES || slot >= STATES || (s->states > 0 && s->state[s->states - 1].slot >= slot) ||
        c.number > 0xFFFFF || does_not_fit(c.else_state, 4) || does_not_fit(c.start, 2) || does_not_fit(c.stop, 2) ||
        does_not_fit(c.clear, 2) || does_not_fit(c.trigger, 1) || does_not_fit(c.last, 1))
        fail("a state that no sheet holds");
    struct state *t = &s->state[s->states++];
    t->slot = slot;
    random_label(t->label);
    t->conduct = c;
}

/* the next free slot */
static void next_state(struct setup *s, struct conduct c)
{
    add_state(s, s->states, c);
}

/* `deeds`, from 0 to 255, stands for all that a state does when its number is reached */
static struct conduct conduct(uint32_t number, int else_state, int deeds)
{
    struct conduct c = {number, else_state, 0, 0, 0, 0, 0};
    c.start = deeds % 4;
    c.stop = deeds / 4 % 4;
    c.clear = deeds / 16 % 4;
    c.trigger = deeds / 64 % 2;
    c.last = deeds / 128;
    return c;
}

static void add_random_term(struct setup *s, int slot)
{
    uint32_t target = random32(), mask = random_mask();
    add_term(s, slot, target, mask);
}

static void add_random_range(struct setup *s, int slot)
{
    uint32_t mask = random_mask(), biggest, lower, upper;
    while (mask == 0)
        mask = random_mask();
    biggest = biggest_below_mask(mask);
    lower = 1 + random_below(biggest);
    if (now_and_then(4))
        lower = 1;
    upper = lower + (biggest == lower ? 0 : random_below(biggest - lower + 1));
    if (now_and_then(4))
        upper = biggest;
    else if (now_and_then(6))
        upper = lower;
    add_range(s, slot, lower, upper, mask);
}

/* On each line of a mask any wish; on all the others nothing, or now and then one and the same. */
static void add_random_edge(struct setup *s, int slot)
{
    struct asked a = {{0}};
    uint32_t lines = random_mask(), elsewhere = now_and_then(3) ? random_below(WISHES) : 0;
    for (uint32_t line = 0; line < 32; line++)
        ask(&a, line, lines >> line & 1 ? random_below(WISHES) : elsewhere);
    add_edge(s, slot, a.of[0], a.of[1], a.of[2]);
}

static void add_random_sum(struct setup *s, int slot)
{
    add_sum(s, slot, 0, 0);
    for (int p = 0; p < 11; p++)
        s->sum[s->sums - 1].op[p] = (uint8_t)random_below(10);
}

static void add_random_state(struct setup *s, int slot)
{
    uint32_t number = random32() >> 12;
    if (now_and_then(4))
        number = random_below(3);
    int else_state = (int)random_below(16), deeds = (int)random_below(256);
    add_state(s, slot, conduct(number, else_state, deeds));
}

/* ---- the sheet, and what is sent for it ---- */

static uint8_t sheet[LONGEST_SHEET];
static size_t sheet_length;

static void put_byte(uint32_t byte)
{
    if (sheet_length == LONGEST_SHEET)
        fail("a sheet longer than the longest");
    sheet[sheet_length++] = (uint8_t)byte;
}

static void put_number(uint32_t n)
{
    for (int i = 0; i < 4; i++, n >>= 8)
        put_byte(n & 0xFF);
}

/* the labels of the section that is being put, each of them another */
static uint8_t labels[SUMS][LABEL];
static int labels_put;

static void put_count(int count)
{
    labels_put = 0;
    put_byte((uint32_t)count);
}

static void put_head(int slot, const uint8_t *label)
{
    for (int i = 0; i < labels_put; i++)
        if (memcmp(labels[i], label, LABEL) == 0)
            fail("a label that its section has already");
    memcpy(labels[labels_put++], label, LABEL);
    put_byte((uint32_t)slot);
    for (int i = 0; i < LABEL; i++)
        put_byte(label[i]);
}

static void put_timers(int timers)
{
    put_byte(timers == 1 || timers == 3);
    put_byte(timers == 2 || timers == 3);
}

static void put_state(const struct state *t)
{
    const struct conduct *c = &t->conduct;
    put_head(t->slot, t->label);
    put_number(c->number);
    put_byte((uint32_t)c->else_state);
    put_timers(c->stop);
    put_timers(c->clear);
    put_timers(c->start);
    put_byte(c->trigger != 0);
    put_byte(c->last != 0);
}

static void make_sheet(const struct setup *s)
{
    sheet_length = 0;
    put_count(s->terms);
    for (const struct term *t = s->term; t < s->term + s->terms; t++) {
        put_head(t->slot, t->label);
        put_number(t->target);
        put_number(t->mask);
    }
    put_count(s->ranges);
    for (const struct range *r = s->range; r < s->range + s->ranges; r++) {
        put_head(r->slot, r->label);
        put_number(r->lower);
        put_number(r->upper);
        put_number(r->mask);
    }
    put_count(s->edges);
    for (const struct edge *e = s->edge; e < s->edge + s->edges; e++) {
        put_head(e->slot, e->label);
        put_number(e->rise);
        put_number(e->fall);
        put_number(e->neither);
    }
    put_count(s->sums);
    for (const struct sum *m = s->sum; m < s->sum + s->sums; m++) {
        put_head(m->slot, m->label);
        for (int p = 0; p < 11; p++)
            put_byte(m->op[p]);
    }
    put_count(s->states);
    for (const struct state *t = s->state; t < s->state + s->states; t++)
        put_state(t);
}

/* by rising address: 00.. states, the sheet's last, 20.. terms, 30.. ranges, 34.. edges, 40.. sums */
static void send(const struct setup *s)
{
    begin_stream();
    for (const struct state *t = s->state; t < s->state + s->states; t++)
        send_state(t->slot, &t->conduct);
    for (const struct term *t = s->term; t < s->term + s->terms; t++)
        send_term(t->slot, t->target, t->mask);
    for (const struct range *r = s->range; r < s->range + s->ranges; r++)
        send_range(r->slot, r->lower, r->upper, r->mask);
    for (const struct edge *e = s->edge; e < s->edge + s->edges; e++)
        send_edge(e->slot, e->rise, e->fall, e->neither);
    for (const struct sum *m = s->sum; m < s->sum + s->sums; m++)
        send_sum(m->slot, m->op);
}

static FILE *file;

static void write_bytes(const uint8_t *bytes, size_t length)
{
    if (fwrite(bytes, 1, length, file) != length)
        fail("the file takes no more");
}

static void write_length(size_t length)
{
    uint8_t two[2] = {(uint8_t)(length & 0xFF), (uint8_t)(length >> 8)};
    write_bytes(two, 2);
}

static void write_case(const struct setup *s)
{
    make_sheet(s);
    send(s);
    write_length(sheet_length);
    write_bytes(sheet, sheet_length);
    write_length(sent_length);
    write_bytes(sent, sent_length);
}

/* ---- the cases ---- */

static const struct setup nothing;

/* Each slot alone; every pair of nibbles (target, mask) at every one of the eight tables; every line alone. */
static void term_cases(void)
{
    struct setup s;
    for (int slot = 0; slot < TERMS; slot++) {
        s = nothing;
        add_term(&s, slot, 5, 0xF);
        write_case(&s);
    }
    s = nothing;
    for (uint32_t n = 0; n < 256; n++) {
        uint32_t target = 0, mask = 0;
        for (uint32_t table = 0; table < 8; table++) {
            uint32_t both = (n + 37 * table) % 256;
            target |= (both & 0xF) << (4 * table);
            mask |= (both >> 4) << (4 * table);
        }
        add_term(&s, s.terms, target, mask);
        if (s.terms == TERMS || n == 255) {
            write_case(&s);
            s = nothing;
        }
    }
    for (uint32_t line = 0; line < 32; line++) {
        uint32_t one = (uint32_t)1 << line;
        add_term(&s, s.terms, 0, one);
        add_term(&s, s.terms, one, one);
        if (s.terms == TERMS || line == 31) {
            write_case(&s);
            s = nothing;
        }
    }
}

static void two_ranges(struct setup *s, uint32_t lower, uint32_t upper, uint32_t mask)
{
    add_range(s, s->ranges, lower, upper, mask);
    if (s->ranges == RANGES) {
        write_case(s);
        *s = nothing;
    }
}

/* Each slot alone; every range over four neighbours; every line alone; every width at its bounds; scattered masks. */
static void range_cases(void)
{
    static const uint32_t scattered[] = {0x8A80, 0x55555555, 0xAAAAAAAA, 0x80000001, 0xF000000F, 0x7FFFFFFE};
    struct setup s;
    for (int slot = 0; slot < RANGES; slot++) {
        s = nothing;
        add_range(&s, slot, 3, 9, 0xF);
        write_case(&s);
    }
    s = nothing;
    for (uint32_t upper = 1; upper < 16; upper++)
        for (uint32_t lower = 1; lower <= upper; lower++)
            two_ranges(&s, lower, upper, (uint32_t)0xF << (upper + lower) % 29);
    for (uint32_t line = 0; line < 32; line++)
        two_ranges(&s, 1, 1, (uint32_t)1 << line);
    for (uint32_t width = 2; width <= 32; width++) {
        uint32_t biggest = 0xFFFFFFFF >> (32 - width), mask = biggest << random_below(33 - width);
        two_ranges(&s, 1, biggest, mask);
        two_ranges(&s, biggest, biggest, mask);
        two_ranges(&s, 1, 1, mask);
        two_ranges(&s, biggest / 2, biggest / 2 + 1, mask);
    }
    for (size_t i = 0; i < sizeof scattered / sizeof *scattered; i++) {
        uint32_t biggest = biggest_below_mask(scattered[i]);
        two_ranges(&s, 1, biggest, scattered[i]);
        two_ranges(&s, biggest / 3 + 1, biggest - biggest / 3, scattered[i]);
    }
    if (s.ranges != 0)
        write_case(&s);
}

static void two_edges(struct setup *s, const struct asked *a)
{
    add_edge(s, s->edges, a->of[0], a->of[1], a->of[2]);
    if (s->edges == EDGES) {
        write_case(s);
        *s = nothing;
    }
}

/* Each slot alone; each wish on all lines; each wish on every line alone; then the forty-nine pairs of wishes that two
 * lines may have, at every one of the sixteen tables. */
static void edge_cases(void)
{
    struct setup s;
    for (int slot = 0; slot < EDGES; slot++) {
        s = nothing;
        add_edge(&s, slot, 1, 0x80000000, 0x00010000);
        write_case(&s);
    }
    s = nothing;
    for (uint32_t wish = 0; wish < WISHES; wish++) {
        struct asked all = {{0}};
        for (uint32_t line = 0; line < 32; line++)
            ask(&all, line, wish);
        two_edges(&s, &all);
    }
    for (uint32_t line = 0; line < 32; line++)
        for (uint32_t wish = 1; wish < WISHES; wish++) {
            struct asked one = {{0}};
            ask(&one, line, wish);
            two_edges(&s, &one);
        }
    for (uint32_t n = 0; n < WISHES * WISHES; n++) {
        struct asked pairs = {{0}};
        for (uint32_t line = 0; line < 32; line++) {
            uint32_t both = (n + 10 * (line / 2)) % (WISHES * WISHES);
            ask(&pairs, line, line % 2 == 0 ? both % WISHES : both / WISHES);
        }
        two_edges(&s, &pairs);
    }
    if (s.edges != 0)
        write_case(&s);
}

/* Each slot alone, each with its own operations; then each operation at each of the eleven places. */
static void sum_cases(void)
{
    struct setup s;
    for (int slot = 0; slot < SUMS; slot++) {
        s = nothing;
        add_sum(&s, slot, (uint32_t)slot, 3);
        write_case(&s);
    }
    for (uint32_t step = 0; step < 2; step++) {
        s = nothing;
        for (int slot = 0; slot < 10; slot++)
            add_sum(&s, 4 * slot + (int)step, (uint32_t)slot, step);
        write_case(&s);
    }
}

/* Each slot alone, each with its own fields; every else state; every bit of the number alone; nothing and everything:
 * each field at 0, and at its most. */
static void state_cases(void)
{
    struct setup s;
    for (int slot = 0; slot < STATES; slot++) {
        s = nothing;
        add_state(&s, slot, conduct(0x12345u * (uint32_t)slot % 0x100000, 15 - slot, 37 * slot % 256));
        write_case(&s);
    }
    s = nothing;
    for (int to = 0; to < STATES; to++)
        next_state(&s, conduct(1, to, 0));
    write_case(&s);
    s = nothing;
    for (int bit = 0; bit < 20; bit++) {
        next_state(&s, conduct((uint32_t)1 << bit, 0, 0));
        if (s.states == STATES || bit == 19) {
            write_case(&s);
            s = nothing;
        }
    }
    next_state(&s, conduct(0, 0, 0));
    next_state(&s, conduct(0xFFFFF, 15, 255));
    write_case(&s);
}

/* Each deed alone, and all but this one; then every set of deeds. */
static void deed_cases(void)
{
    struct setup s = nothing;
    for (int deed = 1; deed < 256; deed *= 2) {
        next_state(&s, conduct(0, 0, deed));
        next_state(&s, conduct(0xFFFFF, 15, 255 - deed));
    }
    write_case(&s);
    s = nothing;
    for (int deeds = 0; deeds < 256; deeds++) {
        next_state(&s, conduct((uint32_t)deeds, deeds % 16, deeds));
        if (s.states == STATES) {
            write_case(&s);
            s = nothing;
        }
    }
}

/* Nothing but the given byte for the first record of a section; for each later one that with one byte changed. */
static void set_label(uint8_t *label, uint8_t byte, int record)
{
    int place = (record + LABEL - 1) % LABEL, change = (record + LABEL - 1) / LABEL;
    memset(label, byte, LABEL);
    label[place] = (uint8_t)(byte == 0x7E ? byte - change : byte + change);
}

/* Every slot taken, every label about the given byte, the same in each section; the masks all of the given value. */
static void full_case(uint8_t label, uint32_t mask)
{
    struct setup s = nothing;
    for (int i = 0; i < TERMS; i++) {
        add_term(&s, i, 0x01234567u * (uint32_t)(i + 1), mask);
        set_label(s.term[i].label, label, i);
    }
    for (int i = 0; i < RANGES; i++) {
        add_range(&s, i, 1, 0xFFFFFFFF - (uint32_t)i, 0xFFFFFFFF);
        set_label(s.range[i].label, label, i);
    }
    for (int i = 0; i < EDGES; i++) {
        add_edge(&s, i, mask, mask, ~mask);
        set_label(s.edge[i].label, label, i);
    }
    for (int i = 0; i < SUMS; i++) {
        add_sum(&s, i, (uint32_t)i, (uint32_t)i / 10);
        set_label(s.sum[i].label, label, i);
    }
    for (int i = 0; i < STATES; i++) {
        next_state(&s, conduct(mask & 0xFFFFF, i, (int)((mask + (uint32_t)i) & 0xFF)));
        set_label(s.state[i].label, label, i);
    }
    write_case(&s);
}

/* Each slot is taken `taken` times in four. */
static void random_case(uint32_t taken)
{
    struct setup s = nothing;
    for (int i = 0; i < TERMS; i++)
        if (random_below(4) < taken)
            add_random_term(&s, i);
    for (int i = 0; i < RANGES; i++)
        if (random_below(4) < taken)
            add_random_range(&s, i);
    for (int i = 0; i < EDGES; i++)
        if (random_below(4) < taken)
            add_random_edge(&s, i);
    for (int i = 0; i < SUMS; i++)
        if (random_below(4) < taken)
            add_random_sum(&s, i);
    for (int i = 0; i < STATES; i++)
        if (random_below(4) < taken)
            add_random_state(&s, i);
    write_case(&s);
}

/* Two records in each section, which have these two labels. */
static void two_labels(const uint8_t *first, const uint8_t *second)
{
    struct setup s = nothing;
    for (int i = 0; i < 2; i++) {
        const uint8_t *label = i == 0 ? first : second;
        add_random_term(&s, i);
        add_random_range(&s, i);
        add_random_edge(&s, i);
        add_random_sum(&s, i);
        add_random_state(&s, i);
        memcpy(s.term[i].label, label, LABEL);
        memcpy(s.range[i].label, label, LABEL);
        memcpy(s.edge[i].label, label, LABEL);
        memcpy(s.sum[i].label, label, LABEL);
        memcpy(s.state[i].label, label, LABEL);
    }
    write_case(&s);
}

/* A name with spaces behind it. */
static void set_name(uint8_t *label, const char *name)
{
    memset(label, ' ', LABEL);
    memcpy(label, name, strlen(name));
}

/* A name, and the same with another byte at one place. */
static void one_byte_apart(const char *name, int place, uint8_t byte)
{
    uint8_t first[LABEL], second[LABEL];
    set_name(first, name);
    set_name(second, name);
    second[place] = byte;
    two_labels(first, second);
}

/* Labels that differ in one byte alone, each of them in turn; in their padding; a blank one, first and last. */
static void label_cases(void)
{
    uint8_t blank[LABEL], named[LABEL];
    for (int place = 0; place < LABEL; place++)
        one_byte_apart("DOORLOCK", place, '-');
    one_byte_apart("AB", LABEL - 1, '.');
    one_byte_apart("", LABEL - 1, '!');
    set_name(blank, "");
    set_name(named, "BLANK");
    two_labels(named, blank);
}

int main(int count, char **names)
{
    if (count > 2) {
        fputs("usage: second [FILE]\n", stderr);
        return 2;
    }
    file = count == 2 ? fopen(names[1], "wb") : stdout;
    if (file == NULL)
        fail("the file does not open");

    write_case(&nothing);
    term_cases();
    range_cases();
    edge_cases();
    sum_cases();
    state_cases();
    deed_cases();
    full_case(0x20, 0);
    full_case(0x7E, 0xFFFFFFFF);
    full_case(0x41, 0x0F0F0F0F);
    for (int i = 0; i < 40; i++)
        random_case(1);
    for (int i = 0; i < 40; i++)
        random_case(2);
    for (int i = 0; i < 40; i++)
        random_case(3);
    for (int i = 0; i < 40; i++)
        random_case(4);
    label_cases();
    write_length(END_MARK);

    if (fclose(file) != 0)
        fail("the file takes no more");
    return 0;
}
