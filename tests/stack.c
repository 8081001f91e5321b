/* How much stack each call of the library takes, beside what include/voltamar.h says. Each runs in a thread whose stack is filled
 * with one byte, and the deepest that it changed is looked for. Run by .ci/run in the repository's folder. */
#define _DEFAULT_SOURCE
#include "voltamar.h"

#include <pthread.h>
#include <stdio.h>
#include <stdlib.h>
#include <string.h>
#include <sys/mman.h>

enum { STACK = 1 << 20, UNTOUCHED = 0xA7, SPACE = 4096 };

static uint8_t old_sheet[SPACE], new_sheet[SPACE], stream[SPACE], out[SPACE], which, hit;
static uint32_t words[32], samples[VOLTAMAR_MOST_SAMPLES], taken[VOLTAMAR_MOST_SAMPLES], run[5];
static size_t old_length, new_length, stream_length, place, length;
static uint16_t sources;
static volatile uint32_t answer;

static size_t load(const char *path, uint8_t bytes[SPACE]) {
    FILE *file = fopen(path, "rb");
    if (file == NULL) exit(1);
    size_t n = fread(bytes, 1, SPACE, file);
    fclose(file);
    return n;
}

static void check(void) { answer = voltamar_check(new_sheet, new_length, &place); }
static void section(void) { answer = voltamar_section(new_sheet, new_length, 3, &place, &length); }
static void compile(void) { answer = voltamar_compile(new_sheet, new_length, out, SPACE, &place); }
static void read_back(void) { answer = voltamar_read(stream, stream_length, out, SPACE, &place); }
static void notice(void) {
    answer = voltamar_notice(old_sheet, old_length, new_sheet, new_length, out, SPACE, &which, &place);
}
static void bench(void) {
    memset(run, 0, sizeof run);
    answer = voltamar_bench(new_sheet, new_length, samples, VOLTAMAR_MOST_SAMPLES, run, 5, taken, 3, &place);
}
static void others(void) {
    static const uint8_t a[11] = {1, 2, 3, 4, 5, 6, 7, 8, 9, 1, 2}, b[11] = {1, 2, 3, 4, 5, 6, 7, 8, 9, 2, 2};
    answer = voltamar_gather(0x12345678, 0xF0F0F0F3);
    answer = voltamar_run_term(words, 4, 77, &hit, &place);
    answer = voltamar_run_range(words, 32, 77, &hit, &place);
    answer = voltamar_run_edge(words, 8, 77, 78, &hit, &place);
    answer = voltamar_run_sum(words, 6, 77, &hit, &place);
    answer = voltamar_sum_telling(a, 11, b, 11, &sources);
    answer = voltamar_term_hit(1, 2, 3) + voltamar_range_hit(1, 2, 3, 4) + voltamar_edge_hit(1, 2, 4, 3, 4);
}

static const struct call {
    const char *name;
    void (*make)(void);
    size_t most;
} calls[] = {
    {"check", check, VOLTAMAR_STACK_OTHER},     {"section", section, VOLTAMAR_STACK_OTHER},
    {"compile", compile, VOLTAMAR_STACK_OTHER}, {"read", read_back, VOLTAMAR_STACK_READ},
    {"notice", notice, VOLTAMAR_STACK_NOTICE},  {"bench", bench, VOLTAMAR_STACK_BENCH},
    {"others", others, VOLTAMAR_STACK_OTHER},
};
static uint8_t *lowest;
static size_t used;

static void *in_thread(void *call) {
    uint8_t here = 0, *volatile top = &here;
    ((const struct call *)call)->make();
    const volatile uint8_t *deepest = lowest;
    while (*deepest == UNTOUCHED) deepest++;
    used = (size_t)((const uint8_t *)top - (const uint8_t *)deepest);
    return NULL;
}

static int is_within(const struct call *call) {
    pthread_attr_t attributes;
    pthread_t thread;
    memset(lowest, UNTOUCHED, STACK);
    pthread_attr_init(&attributes);
    if (pthread_attr_setstack(&attributes, lowest, STACK) != 0) return 0;
    if (pthread_create(&thread, &attributes, in_thread, (void *)call) != 0 || pthread_join(thread, NULL) != 0) return 0;
    printf("stack.c: %s %d of %d\n", call->name, (int)used, (int)call->most);
    return used <= call->most;
}

int main(void) {
    int failures = 0;
    lowest = mmap(NULL, STACK, PROT_READ | PROT_WRITE, MAP_PRIVATE | MAP_ANONYMOUS, -1, 0);
    if (lowest == MAP_FAILED) return 1;
    old_length = load("tests/cases/data/lift.sheet", old_sheet);
    new_length = load("tests/cases/data/longest.sheet", new_sheet);
    stream_length = load("tests/cases/data/longest.commands", stream);
    for (uint32_t i = 0; i < VOLTAMAR_MOST_SAMPLES; i++) samples[i] = i * 2654435761u;
    for (size_t i = 0; i < sizeof calls / sizeof *calls; i++) failures += !is_within(&calls[i]);
    return failures != 0;
}
