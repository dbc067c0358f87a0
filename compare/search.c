/*
 * Times of inserts and searches with one archive, for a comparison with an older one: with an older header it makes the index without what that version lacks.
 *
 *     gcc -O2 -Iinclude -o search compare/search.c crates/finder/out/libfinder.a && ./search 256 5000
 *
 * takes the dim and the capacity, and how many places weigh 2 where not all weigh 1. It prints microseconds for one vector of an insert and for one search, best of seven
 * rounds of 300, and a number that the answers make: the same vectors give the same one as long as the answers are the same.
 */
#include "finder.h"
#include <stdio.h>
#include <stdlib.h>
#include <string.h>
#include <time.h>

enum { DEGREE = 32, BATCH = 256, CENTRES = 64, ROUNDS = 7, SEARCHES = 300, K = 10 };

static uint64_t state;

static uint32_t drawn(void)
{
    state = state * 6364136223846793005u + 1442695040888963407u;
    return (uint32_t)(state >> 33);
}

static double now(void)
{
    struct timespec t;
    clock_gettime(CLOCK_THREAD_CPUTIME_ID, &t);
    return (double)t.tv_sec * 1e6 + (double)t.tv_nsec / 1e3;
}

static void must(uint32_t refusal, const char *what)
{
    if (refusal == FINDER_OK)
        return;
    fprintf(stderr, "%s: %s\n", what, finder_refusal_text(refusal));
    exit(1);
}

/* Vectors around some centres. */
static uint8_t *vectors(uint32_t dim, uint32_t count)
{
    static uint8_t centres[CENTRES][FINDER_MAX_DIM];
    uint8_t *bytes = malloc((size_t)dim * count);
    for (int i = 0; i < CENTRES; i++)
        for (uint32_t j = 0; j < dim; j++)
            centres[i][j] = (uint8_t)drawn();
    for (uint32_t i = 0; i < count; i++)
        for (uint32_t j = 0; j < dim; j++) {
            int value = centres[i % CENTRES][j] + (int)(drawn() % 41) - 20;
            bytes[(size_t)i * dim + j] = (uint8_t)(value < 0 ? 0 : value > 255 ? 255 : value);
        }
    return bytes;
}

static void make(struct finder *f, uint32_t dim, uint32_t heavier)
{
#if FINDER_VERSION_MAJOR >= 3
    uint8_t weights[FINDER_MAX_DIM];
    memset(weights, 1, dim);
    memset(weights, 2, heavier);
    must(finder_create_in(f, 1.2f, 0, 0, NULL, 0, NULL, 0, NULL, 0, weights, dim), "create");
#else
    (void)dim, (void)heavier;
    must(finder_create_in(f, 1.2f, 0, 0, NULL, 0, NULL, 0, NULL, 0), "create");
#endif
}

/* Seven rounds of searches near stored vectors; the time of one search in the best of them. */
static double searched(struct finder *f, const uint8_t *bytes, uint32_t dim, uint32_t count, uint32_t beam, struct finder_scratch s, uint64_t *answers)
{
    double best = 1e18;
    for (int round = 0; round < ROUNDS; round++) {
        double start = now();
        state = 99;
        *answers = 0;
        for (int i = 0; i < SEARCHES; i++) {
            uint8_t query[FINDER_MAX_DIM];
            uint32_t slots[K], numbers[K], found, near = drawn() % count;
            float dists[K];
            for (uint32_t j = 0; j < dim; j++)
                query[j] = bytes[(size_t)near * dim + j] ^ (drawn() & 7);
            must(finder_search_in(f, query, dim, K, beam, slots, dists, numbers, s, &found), "search");
            for (uint32_t j = 0; j < found; j++)
                *answers = *answers * 31 + slots[j];
        }
        double time = (now() - start) / SEARCHES;
        best = time < best ? time : best;
    }
    return best;
}

int main(int count, char **words)
{
    uint32_t dim = count > 1 ? (uint32_t)atoi(words[1]) : 256, capacity = count > 2 ? (uint32_t)atoi(words[2]) : 5000, heavier = count > 3 ? (uint32_t)atoi(words[3]) : 0;
    static const uint32_t beams[] = { 16, 64, 256 };
    struct finder_layout n;
    struct finder f;
    struct finder_scratch s;
    must(finder_lengths(dim, capacity, DEGREE, &n), "lengths");
    must(finder_place(&f, aligned_alloc(64, (n.block_bytes + 63) / 64 * 64), n.block_bytes, dim, capacity, DEGREE), "place");
    must(finder_place_scratch(&s, aligned_alloc(64, (n.scratch_bytes + 63) / 64 * 64), n.scratch_bytes), "scratch");
    state = 1;
    uint8_t *bytes = vectors(dim, capacity);
    make(&f, dim, heavier);
    double start = now();
    for (uint32_t i = 0; i < capacity; i += BATCH) {
        uint32_t batch = capacity - i < BATCH ? capacity - i : BATCH, numbers[BATCH], slots[BATCH], found;
        for (uint32_t j = 0; j < batch; j++)
            numbers[j] = i + j + 1;
        must(finder_insert_in(&f, bytes + (size_t)i * dim, (size_t)batch * dim, numbers, batch, 64, slots, batch, s, &found), "insert");
    }
    printf("dim %u, capacity %u: insert %.1f", dim, capacity, (now() - start) / capacity);
    for (size_t i = 0; i < sizeof beams / sizeof *beams; i++) {
        uint64_t answers;
        double time = searched(&f, bytes, dim, capacity, beams[i], s, &answers);
        printf(", search with beam %u %.2f (%llx)", beams[i], time, (unsigned long long)answers);
    }
    printf("\n");
    return 0;
}
