/*
 * stack COUNT SEED [PLAN EVIDENCE]..
 *
 * Measures the stack that the exported call takes, on the files that are named and on drawn plans and
 * evidence. Each call is made on a stack of its own that was filled with one byte; the lowest byte that
 * changed marks how deep it went. A call of a function that does nothing is measured likewise, so that
 * only what the exported call itself takes is counted, from its return address on.
 */
#define _XOPEN_SOURCE 700
#include "roof_listing.h"

#include <stdbool.h>
#include <stdio.h>
#include <stdlib.h>
#include <string.h>
#include <ucontext.h>

enum { STACK_BYTES = 65536, FILE_BYTES = 1 << 20, RECORD_BYTES = 24, STEP_BYTES = 16, DRAWN_RECORDS = 40 };

typedef int32_t listing_call(const uint8_t *, size_t, const uint8_t *, size_t, uint8_t *, size_t);

struct bytes {
    uint8_t *at;
    size_t length;
};

/* What the measured function is called with; a context passes no pointers. */
static struct {
    listing_call *call;
    struct bytes plan;
    struct bytes evidence;
    int32_t answer;
} task;

static uint8_t place[ROOF_PLACE_BYTES];
static _Alignas(16) uint8_t stack[STACK_BYTES];
static ucontext_t caller;

static int32_t no_listing(const uint8_t *plan, size_t plan_length, const uint8_t *evidence, size_t evidence_length,
                          uint8_t *text, size_t text_length)
{
    (void)plan, (void)plan_length, (void)evidence, (void)evidence_length, (void)text, (void)text_length;
    return 0;
}

static void run_task(void)
{
    task.answer = task.call(task.plan.at, task.plan.length, task.evidence.at, task.evidence.length, place, sizeof place);
}

/* How far below the top of a stack filled with one byte the task wrote. */
static size_t depth_on(uint8_t fill)
{
    ucontext_t callee;
    size_t untouched = 0;

    memset(stack, fill, sizeof stack);
    if (getcontext(&callee) != 0)
        abort();
    callee.uc_stack.ss_sp = stack;
    callee.uc_stack.ss_size = sizeof stack;
    callee.uc_link = &caller;
    makecontext(&callee, run_task, 0);
    if (swapcontext(&caller, &callee) != 0)
        abort();
    while (untouched < sizeof stack && stack[untouched] == fill)
        untouched++;
    return sizeof stack - untouched;
}

/* With two fills: a byte that is written with the value of one fill shows on the other. */
static size_t depth_of(listing_call *call)
{
    task.call = call;
    size_t first = depth_on(0xA5);
    size_t second = depth_on(0x5A);
    return first > second ? first : second;
}

/* The bytes that a call takes: a call of a function that does nothing takes its return address. */
static size_t stack_of_call(struct bytes plan, struct bytes evidence)
{
    task.plan = plan;
    task.evidence = evidence;
    size_t nothing = depth_of(no_listing) - sizeof(void *);
    return depth_of(roof_listing) - nothing;
}

static uint64_t random_state;

static uint32_t below(uint32_t bound)
{
    random_state = random_state * 6364136223846793005u + 1442695040888963407u;
    return (uint32_t)(random_state >> 33) % bound;
}

static void put_two(uint8_t *at, uint32_t number)
{
    at[0] = (uint8_t)number;
    at[1] = (uint8_t)(number >> 8);
}

static void put_four(uint8_t *at, uint32_t number)
{
    put_two(at, number);
    put_two(at + 2, number >> 16);
}

/* A plan record within its bounds. */
static void draw_record(uint8_t *at)
{
    uint32_t best = 1 + below(3);
    uint32_t worst = best + below(3);
    uint32_t least = 1 + below(24);
    bool periodic = below(2) == 0;

    memset(at, 0, RECORD_BYTES);
    at[0] = periodic ? 'P' : 'S';
    at[1] = (uint8_t)(1 + below(255));
    put_two(at + 2, best);
    put_two(at + 4, worst);
    put_two(at + 6, worst + below(40));
    put_two(at + 8, below(6));
    put_two(at + 10, least);
    put_two(at + 12, periodic ? below(least) : least + below(3));
}

/* One to nine records; of these the ninth is refused. */
static struct bytes draw_plan(uint8_t *at)
{
    size_t records = 1 + below(9);
    for (size_t i = 0; i < records; i++)
        draw_record(at + i * RECORD_BYTES);
    return (struct bytes){.at = at, .length = records * RECORD_BYTES};
}

/* Grow records that may be taken, and then one with great numbers or none. */
static struct bytes draw_evidence(uint8_t *at)
{
    size_t records = below(DRAWN_RECORDS);
    memset(at, 0, DRAWN_RECORDS * STEP_BYTES);
    for (size_t i = 0; i < records; i++) {
        at[i * STEP_BYTES] = 'G';
        put_four(at + i * STEP_BYTES + 4, (uint32_t)i + 1);
    }
    if (records > 0 && below(2) == 0)
        put_four(at + (records - 1) * STEP_BYTES + 4, UINT32_MAX);
    if (records > 0 && below(2) == 0)
        put_four(at + (records - 1) * STEP_BYTES + 8, UINT32_MAX);
    return (struct bytes){.at = at, .length = records * STEP_BYTES};
}

static size_t deepest_drawn(unsigned long count)
{
    static uint8_t plan[9 * RECORD_BYTES];
    static uint8_t evidence[DRAWN_RECORDS * STEP_BYTES];
    size_t deepest = 0;

    for (unsigned long i = 0; i < count; i++) {
        struct bytes drawn = draw_plan(plan);
        size_t depth = stack_of_call(drawn, draw_evidence(evidence));
        deepest = depth > deepest ? depth : deepest;
    }
    return deepest;
}

static struct bytes read_file(const char *name, uint8_t *at)
{
    FILE *file = fopen(name, "rb");
    if (file == NULL) {
        perror(name);
        exit(EXIT_FAILURE);
    }
    struct bytes bytes = {.at = at, .length = fread(at, 1, FILE_BYTES, file)};
    fclose(file);
    return bytes;
}

static size_t deepest_named(int files, char **names)
{
    static uint8_t plan[FILE_BYTES];
    static uint8_t evidence[FILE_BYTES];
    size_t deepest = 0;

    for (int i = 0; i + 1 < files; i += 2) {
        struct bytes named = read_file(names[i], plan);
        size_t depth = stack_of_call(named, read_file(names[i + 1], evidence));
        deepest = depth > deepest ? depth : deepest;
    }
    return deepest;
}

int main(int count, char **words)
{
    if (count < 3) {
        fprintf(stderr, "usage: stack COUNT SEED [PLAN EVIDENCE]..\n");
        return 2;
    }
    unsigned long drawn = strtoul(words[1], NULL, 10);
    random_state = strtoull(words[2], NULL, 10);
    printf("%zu %d\n", deepest_named(count - 3, words + 3), (count - 3) / 2);
    printf("%zu %lu\n", deepest_drawn(drawn), drawn);
    return EXIT_SUCCESS;
}
