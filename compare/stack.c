/*
 * How much stack the calls take: each runs on a thread whose stack is painted before, and what it wrote of that is counted. An index of 2,000 slots of degree 32;
 * 64 slots to a delete. Prints a line a call, in bytes: at dim 256, where all weights are 1, and at dim 196 with 28 weights of 3. Build: see docs/BENCHMARKS.md,
 * "Stack". The figure numbers rise, or are those of a file that is named.
 */
#define _POSIX_C_SOURCE 200112L
#include "finder.h"

#include <inttypes.h>
#include <pthread.h>
#include <stdio.h>
#include <stdlib.h>
#include <string.h>

enum { DIM = 256, CAPACITY = 2000, DEGREE = 32, BATCH = 250, BATCHES = 7, IDS = 64, K = 10, STACK = 1 << 20, PAINT = 0xa5, SCRATCH = 64 << 20 };

static struct finder f;
static struct finder_scratch scratch;
static uint8_t bytes[CAPACITY * DIM], weights[DIM];
static uint32_t dim, rows[CAPACITY * DEGREE], numbers[CAPACITY], ids[IDS], slots[BATCH], batch, found;
static struct finder_stats stats[IDS];
static struct finder_assessment assessment;

/* Ends the program where a call is refused: then its stack was not seen. */
static void must(uint32_t refusal, const char *what)
{
    if (refusal != FINDER_OK) {
        fprintf(stderr, "%s: refused with %u\n", what, (unsigned)refusal);
        exit(1);
    }
}

static void nothing(void)
{
}

static void create(void)
{
    must(finder_create_in(&f, 1.2f, 0, CAPACITY, bytes, (size_t)CAPACITY * dim, rows, CAPACITY * DEGREE, numbers, CAPACITY, weights, dim), "create");
}

static void insert(void)
{
    must(finder_insert_in(&f, bytes + (size_t)batch * BATCH * dim, (size_t)BATCH * dim, numbers + batch * BATCH, BATCH, 64, slots, BATCH, scratch, &found), "insert");
}

static void search(void)
{
    static uint32_t found_numbers[K];
    static float dists[K];
    must(finder_search_in(&f, bytes, dim, K, 64, slots, dists, found_numbers, scratch, &found), "search");
}

static void delete_slots(void)
{
    must(finder_delete_in(&f, ids, IDS, 128, 16, stats, scratch, &found), "delete");
}

static void delete_numbers(void)
{
    must(finder_delete_numbers_in(&f, ids, IDS, 128, 16, stats, scratch, &found), "delete by numbers");
}

static void enable(void)
{
    static struct finder_status status;
    must(finder_guard_enable_in(&f, 64, 10, 16, 64, scratch, &status), "enable");
}

static void assess(void)
{
    must(finder_assess_in(&f, ids, IDS, scratch, &assessment), "assess");
}

static void guarded_slots(void)
{
    must(finder_guarded_delete_in(&f, ids, IDS, 128, 16, stats, scratch, &found, &assessment), "guarded delete");
}

static void guarded_numbers(void)
{
    must(finder_guarded_delete_numbers_in(&f, ids, IDS, 128, 16, stats, scratch, &found, &assessment), "guarded delete by numbers");
}

struct call {
    const char *name;
    void (*run)(void);
};

static void *run(void *call)
{
    ((const struct call *)call)->run();
    return NULL;
}

/* How many bytes of a painted stack a call writes. */
static size_t depth(const struct call *call)
{
    static unsigned char *stack;
    pthread_attr_t attributes;
    pthread_t thread;
    size_t left = 0;
    if (!stack && posix_memalign((void **)&stack, 4096, STACK))
        exit(1);
    memset(stack, PAINT, STACK);
    if (pthread_attr_init(&attributes) || pthread_attr_setstack(&attributes, stack, STACK) || pthread_create(&thread, &attributes, run, (void *)call)
        || pthread_join(thread, NULL))
        exit(1);
    while (left < STACK && stack[left] == PAINT)
        left++;
    return STACK - left;
}

static const struct call idle = {"nothing", nothing}, making = {"create", create}, inserts = {"insert", insert};
static const struct call calls[] = {
    {"search", search}, {"delete", delete_slots}, {"delete by numbers", delete_numbers}, {"enable", enable}, {"assess", assess},
    {"guarded delete", guarded_slots}, {"guarded delete by numbers", guarded_numbers},
};
enum { CALLS = sizeof calls / sizeof *calls };

/* What making, an insert and then each of `calls` takes at a dim, of whose places the last `heavy` have a weight of 3. */
static void measure(uint32_t places, uint32_t heavy, size_t depths[2 + CALLS])
{
    struct finder_layout lengths;
    void *block, *words;
    size_t base;
    dim = places;
    memset(weights, 1, dim);
    memset(weights + dim - heavy, 3, heavy);
    must(finder_lengths(dim, CAPACITY, DEGREE, &lengths), "lengths");
    if (posix_memalign(&block, 64, lengths.block_bytes) || posix_memalign(&words, 64, SCRATCH))
        exit(1);
    must(finder_place(&f, block, lengths.block_bytes, dim, CAPACITY, DEGREE), "place");
    must(finder_place_scratch(&scratch, words, SCRATCH), "scratch");
    base = depth(&idle);
    depths[0] = depth(&making) - base;
    must(finder_create_in(&f, 1.2f, 0, 0, NULL, 0, NULL, 0, NULL, 0, weights, dim), "create");
    depths[1] = 0;
    for (batch = 0; batch < BATCHES; batch++) {
        size_t d = depth(&inserts) - base;
        depths[1] = d > depths[1] ? d : depths[1];
    }
    for (uint32_t i = 0; i < CALLS; i++) {
        /* slots, or numbers, that no call before named */
        for (uint32_t k = 0; k < IDS; k++)
            ids[k] = 1 + i * 200 + 3 * k;
        depths[2 + i] = depth(&calls[i]) - base;
    }
    free(block);
    free(words);
}

/* The first CAPACITY numbers of a file. */
static void read_numbers(const char *name)
{
    FILE *file = fopen(name, "r");
    for (uint32_t i = 0; i < CAPACITY; i++)
        if (!file || fscanf(file, "%" SCNu32, &numbers[i]) != 1) {
            fprintf(stderr, "%s: does not have %d numbers\n", name, CAPACITY);
            exit(1);
        }
    fclose(file);
}

int main(int count, char **words)
{
    size_t ones[2 + CALLS], mixed[2 + CALLS];
    srand(1);
    for (size_t i = 0; i < sizeof bytes; i++)
        bytes[i] = (uint8_t)(rand() >> 8);
    for (uint32_t i = 0; i < CAPACITY; i++)
        numbers[i] = i + 1;
    if (count > 1)
        read_numbers(words[1]);
    for (size_t i = 0; i < sizeof rows / sizeof *rows; i++)
        rows[i] = FINDER_BLANK;
    measure(DIM, 0, ones);
    measure(196, 28, mixed);
    for (size_t i = 0; i < 2 + CALLS; i++)
        printf("%s %zu %zu\n", i == 0 ? making.name : i == 1 ? inserts.name : calls[i - 2].name, ones[i], mixed[i]);
    return 0;
}
