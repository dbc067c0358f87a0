/*
 * Every call of the header, on a small index: dim 1, capacity 4, degree 2, the values 0, 3, 10 in slots 0 to 2 with the figure numbers 30, 10, 20, weight 1; and
 * on one of dim 3 with the weights 1, 4, 2. Every value is checked; a wrong one ends the program with 1. first.c is the example to begin with.
 */
#include "finder.h"

#include <stdio.h>
#include <stdlib.h>
#include <string.h>

enum { DIM = 1, CAPACITY = 4, DEGREE = 2, COUNT = 3 };

#define CHECK(fact) \
    do { \
        if (!(fact)) { \
            fprintf(stderr, "line %d: not so: %s\n", __LINE__, #fact); \
            return 1; \
        } \
    } while (0)

/* The second time round nothing is told. */
static int telling = 1;
#define TELL(...) \
    do { \
        if (telling) \
            printf(__VA_ARGS__); \
    } while (0)

/* Five, eight and four words, as the library writes them. */
typedef char status_has_five_words[sizeof(struct finder_status) == 5 * sizeof(uint32_t) ? 1 : -1];
typedef char report_has_eight_words[sizeof(struct finder_report) == 8 * sizeof(uint32_t) ? 1 : -1];
typedef char stats_have_four_words[sizeof(struct finder_stats) == 4 * sizeof(uint32_t) ? 1 : -1];
typedef char words_are_twelve[FINDER_WORD_POOL + 1 == FINDER_INDEX_WORDS ? 1 : -1];

static struct finder f;
static struct finder_scratch scratch;

/* The index in parts, as the functions of the archive take it. */
#define SLICES \
    f.vectors, CAPACITY * DIM, f.targets, CAPACITY * DEGREE, f.edges, CAPACITY * DEGREE, f.versions, CAPACITY, f.marks, CAPACITY, f.pool, FINDER_POOL, \
    f.numbers, CAPACITY, f.summary, CAPACITY, f.weights, DIM
#define SCRATCH scratch.words, scratch.length

/* All memory is allocated for exactly what it is for, and not written before, so that valgrind sees a read or a write that is out of place. */
static void *taken[64];
static int taken_count;

static void *block(size_t bytes)
{
    void *p = malloc(bytes);
    if (!p || taken_count == 64)
        exit(1);
    taken[taken_count++] = p;
    return p;
}

static void take_back(void)
{
    while (taken_count)
        free(taken[--taken_count]);
}

static int lend_scratch(void)
{
    struct finder_layout n;
    CHECK(finder_lengths(DIM, CAPACITY, DEGREE, &n) == 0);
    CHECK(finder_place_scratch(&scratch, block(n.scratch_bytes), n.scratch_bytes) == 0);
    return 0;
}

/* One block, as an app lends it. */
static int lend_block(void)
{
    struct finder_layout n;
    CHECK(finder_lengths(DIM, CAPACITY, DEGREE, &n) == 0);
    CHECK(finder_place(&f, block(n.block_bytes), n.block_bytes, DIM, CAPACITY, DEGREE) == 0);
    return lend_scratch();
}

/* A block for each slice, so that valgrind sees where one ends. */
static int lend_slices(void)
{
    if (lend_block())
        return 1;
    f.vectors = block(CAPACITY * DIM);
    f.targets = block(CAPACITY * DEGREE * sizeof *f.targets);
    f.edges = block(CAPACITY * DEGREE * sizeof *f.edges);
    f.versions = block(CAPACITY * sizeof *f.versions);
    f.marks = block(CAPACITY);
    f.pool = block(FINDER_POOL * sizeof *f.pool);
    f.numbers = block(CAPACITY * sizeof *f.numbers);
    f.summary = block(CAPACITY * sizeof *f.summary);
    f.weights = block(DIM);
    return 0;
}

static const uint8_t given_bytes[COUNT * DIM] = { 0, 3, 10 };
static const uint32_t given_rows[COUNT * DEGREE] = { 1, FINDER_BLANK, 0, 2, 1, FINDER_BLANK };
static const uint32_t given_numbers[COUNT] = { 30, 10, 20 };
static const uint8_t given_weights[DIM] = { 1 };

/* Making with all that is given; alpha, entry and numbers vary. */
static uint32_t make_with(float alpha, uint32_t entry, const uint32_t *numbers, size_t numbers_len)
{
    return finder_create_in(&f, alpha, entry, COUNT, given_bytes, COUNT, given_rows, COUNT * DEGREE, numbers, numbers_len, given_weights, DIM);
}

/* Making with so many slots given, of which only the first COUNT have anything; the weights vary. */
static uint32_t make_weighted(uint32_t count, const uint8_t *weights, size_t weights_len)
{
    static const uint8_t bytes[CAPACITY + 1];
    static const uint32_t rows[(CAPACITY + 1) * DEGREE], numbers[CAPACITY + 1];
    return finder_create_in(&f, 1.0f, 0, count, bytes, count * DIM, rows, count * DEGREE, numbers, count, weights, weights_len);
}

/* Whether the slots carry these numbers, and the summary has these words. */
static int numbers_are(uint32_t a, uint32_t b, uint32_t c, uint32_t d, const uint32_t summary[CAPACITY])
{
    const uint32_t numbers[CAPACITY] = { a, b, c, d };
    for (uint32_t slot = 0; slot < CAPACITY; slot++) {
        uint32_t n = 77;
        if (finder_number_in(&f, slot, &n) != 0 || n != numbers[slot])
            return 0;
    }
    return memcmp(f.summary, summary, CAPACITY * sizeof *summary) == 0;
}

static int make(void)
{
    static const uint32_t with_zero[COUNT] = { 30, 0, 20 };
    static const uint32_t repeated[COUNT] = { 30, 10, 30 };
    static const uint8_t zero[2] = { 0, 1 }, five[1] = { 5 };
    uint32_t n = 77;
    CHECK(finder_live_in(&f, &n) == FINDER_BAD_ALPHA && n == 77);
    CHECK(make_with(3.0f, 1, given_numbers, COUNT) == FINDER_BAD_ALPHA);
    CHECK(finder_create_in(&f, 1.0f, 1, COUNT, given_bytes, COUNT - 1, given_rows, COUNT * DEGREE, given_numbers, COUNT, given_weights, DIM)
        == FINDER_BAD_LENGTH);
    CHECK(finder_create_in(&f, 1.0f, 1, COUNT, given_bytes, COUNT, NULL, COUNT * DEGREE, given_numbers, COUNT, given_weights, DIM) == FINDER_BAD_LENGTH);
    CHECK(make_with(1.0f, 1, given_numbers, COUNT - 1) == FINDER_BAD_LENGTH && make_with(1.0f, 1, NULL, COUNT) == FINDER_BAD_LENGTH);
    CHECK(make_weighted(COUNT, given_weights, DIM - 1) == FINDER_BAD_LENGTH && make_weighted(COUNT, NULL, DIM) == FINDER_BAD_LENGTH);
    CHECK(make_weighted(COUNT, zero, DIM + 1) == FINDER_BAD_LENGTH && make_weighted(COUNT, zero, DIM) == FINDER_BAD_WEIGHTS);
    CHECK(make_weighted(COUNT, five, DIM) == FINDER_BAD_WEIGHTS && make_weighted(CAPACITY + 1, five, DIM) == FINDER_BAD_WEIGHTS);
    CHECK(make_weighted(CAPACITY + 1, given_weights, DIM) == FINDER_TOO_MANY);
    CHECK(make_with(1.0f, 3, with_zero, COUNT) == FINDER_BAD_GIVEN);
    CHECK(make_with(1.0f, 1, with_zero, COUNT) == FINDER_BAD_NUMBER && make_with(1.0f, 1, repeated, COUNT) == FINDER_BAD_NUMBER);
    CHECK(f.words[FINDER_WORD_ALPHA] == 0);
    CHECK(make_with(1.0f, 1, given_numbers, COUNT) == 0 && f.weights[0] == 1);
    return 0;
}

static int read_all(void)
{
    static const uint32_t summary[CAPACITY] = { 1, 2, 0, FINDER_BLANK };
    uint32_t n = 77;
    float alpha = 0;
    CHECK(finder_dim_in(&f, &n) == 0 && n == DIM);
    CHECK(finder_capacity_in(&f, &n) == 0 && n == CAPACITY);
    CHECK(finder_degree_in(&f, &n) == 0 && n == DEGREE);
    CHECK(finder_alpha_in(&f, &alpha) == 0 && alpha == 1.0f);
    CHECK(finder_entry_in(&f, &n) == 0 && n == 1);
    CHECK(finder_live_in(&f, &n) == 0 && n == COUNT);
    CHECK(finder_mark_in(&f, 2, &n) == 0 && n == 1);
    CHECK(finder_mark_in(&f, 3, &n) == 0 && n == 0);
    CHECK(finder_slot_version_in(&f, 2, &n) == 0 && n == 0);
    CHECK(numbers_are(30, 10, 20, 0, summary) && finder_number_in(&f, CAPACITY, &n) == 0 && n == 0);
    CHECK(finder_target_in(&f, 1, 0, &n) == 0 && n == 0);
    CHECK(finder_target_in(&f, 1, 1, &n) == 0 && n == 2);
    CHECK(finder_target_in(&f, 1, 2, &n) == 0 && n == FINDER_BLANK);
    CHECK(finder_vector_in(&f, 2) == f.vectors + 2 * DIM && *finder_vector_in(&f, 2) == 10);
    CHECK(finder_vector_in(&f, 3) == NULL && finder_vector_in(&f, 4) == NULL);
    return 0;
}

static int search(void)
{
    uint32_t found = 77;
    uint8_t *query = block(DIM);
    uint32_t *slots = block(2 * sizeof *slots);
    float *dists = block(2 * sizeof *dists);
    uint32_t *numbers = block(2 * sizeof *numbers);
    *query = 2;
    CHECK(finder_search(f.words, SLICES, query, DIM, 2, 2, slots, 1, dists, 2, numbers, 2, SCRATCH, &found) == FINDER_OVER_LIMIT && found == 77);
    CHECK(finder_search(f.words, SLICES, query, DIM, 2, 2, slots, 2, dists, 2, numbers, 1, SCRATCH, &found) == FINDER_OVER_LIMIT && found == 77);
    CHECK(finder_search_in(&f, query, 0, 2, 2, slots, dists, numbers, scratch, &found) == FINDER_BAD_LENGTH && found == 77);
    CHECK(finder_search_in(&f, query, DIM, 2, FINDER_MAX_BEAM + 1, slots, dists, numbers, scratch, &found) == FINDER_OVER_LIMIT && found == 77);
    CHECK(finder_search_in(&f, query, DIM, 2, 2, slots, dists, numbers, scratch, &found) == 0 && found == 2);
    CHECK(slots[0] == 1 && dists[0] == 1.0f && numbers[0] == 10 && slots[1] == 0 && dists[1] == 4.0f && numbers[1] == 30);
    TELL("nearest to 2: figure %u in slot %u at %g, figure %u in slot %u at %g\n", (unsigned)numbers[0], (unsigned)slots[0], (double)dists[0],
        (unsigned)numbers[1], (unsigned)slots[1], (double)dists[1]);
    numbers[1] = 77;
    CHECK(finder_search_in(&f, query, DIM, 2, 1, slots, dists, numbers, scratch, &found) == 0 && found == 1 && slots[0] == 1 && numbers[1] == 77);
    CHECK(finder_search_in(&f, query, DIM, 0, 2, NULL, NULL, NULL, scratch, &found) == 0 && found == 0);
    return 0;
}

/* What the calls do with null: an empty list, whatever its length. */
static int nulls(void)
{
    static const struct finder nothing;
    static const struct finder_scratch no_scratch;
    struct finder none = nothing;
    struct finder_assessment a;
    uint8_t query = 2;
    uint32_t slots[2], numbers[2] = { 40, 50 };
    float dists[2];
    uint32_t found = 77;
    CHECK(finder_search_in(&f, NULL, DIM, 2, 2, slots, dists, numbers, scratch, &found) == FINDER_BAD_LENGTH);
    CHECK(finder_search_in(&f, &query, DIM, 2, 2, NULL, dists, numbers, scratch, &found) == FINDER_OVER_LIMIT);
    CHECK(finder_search_in(&f, &query, DIM, 2, 2, slots, NULL, numbers, scratch, &found) == FINDER_OVER_LIMIT);
    CHECK(finder_search_in(&f, &query, DIM, 2, 2, slots, dists, NULL, scratch, &found) == FINDER_OVER_LIMIT);
    CHECK(finder_search_in(&f, &query, DIM, 2, 2, slots, dists, numbers, no_scratch, &found) == FINDER_SHORT_SCRATCH);
    CHECK(finder_insert_in(&f, &query, DIM, numbers, 1, 2, NULL, 1, scratch, &found) == FINDER_BAD_LENGTH);
    CHECK(finder_insert_in(&f, &query, DIM, NULL, 1, 2, slots, 1, scratch, &found) == FINDER_BAD_LENGTH);
    CHECK(finder_delete_in(&f, slots, 1, 2, 1, NULL, scratch, &found) == FINDER_BAD_LENGTH);
    CHECK(finder_delete_numbers_in(&f, numbers, 1, 2, 1, NULL, scratch, &found) == FINDER_BAD_LENGTH && found == 77);
    CHECK(finder_insert_in(&f, NULL, DIM, NULL, 1, 2, NULL, 1, scratch, &found) == 0 && found == 0);
    CHECK(finder_delete_in(&f, NULL, 1, 2, 1, NULL, scratch, &found) == 0 && found == 0);
    CHECK(finder_delete_numbers_in(&f, NULL, 1, 2, 1, NULL, scratch, &found) == 0 && found == 0);
    CHECK(finder_assess_in(&f, NULL, 1, scratch, &a) == FINDER_GUARD_OFF);
    CHECK(finder_lengths_in(&none).vectors == 0 && finder_lengths_in(&none).block_bytes == 0);
    CHECK(finder_live_in(&none, &found) == FINDER_BAD_SIZES && finder_vector_in(&none, 0) == NULL);
    CHECK(finder_create_in(&none, 1.0f, 0, 0, NULL, 0, NULL, 0, NULL, 0, NULL, 0) == FINDER_BAD_SIZES);
    CHECK(finder_search_in(&none, &query, DIM, 2, 2, slots, dists, numbers, no_scratch, &found) == FINDER_BAD_SIZES);
    none.words[FINDER_WORD_DIM] = DIM;
    none.words[FINDER_WORD_CAPACITY] = CAPACITY;
    none.words[FINDER_WORD_DEGREE] = DEGREE;
    CHECK(finder_create_in(&none, 1.0f, 0, 0, NULL, 0, NULL, 0, NULL, 0, given_weights, DIM) == FINDER_BAD_LENGTH);
    return 0;
}

/* The guard: landmarks are slot 2 and then slot 0; without slot 1 a walk from slot 0 meets no slot 2. */
static int guard(void)
{
    static const uint32_t ids[3] = { 1, 1, 9 };
    struct finder_status *status = block(sizeof *status);
    struct finder_assessment *a = block(sizeof *a);
    CHECK(finder_guard_status_in(&f, status) == 0 && status->enabled == 0 && status->pool_size == 0);
    CHECK(finder_assess_in(&f, ids, 3, scratch, a) == FINDER_GUARD_OFF);
    CHECK(finder_guard_enable_in(&f, 65, 1, 4, 4, scratch, status) == FINDER_OVER_LIMIT && f.words[FINDER_WORD_GUARD] == 0);
    CHECK(finder_guard_enable_in(&f, 2, 0, 4, 4, scratch, status) == 0 && f.words[FINDER_WORD_GUARD] == 1);
    CHECK(f.words[FINDER_WORD_LANDMARK_COUNT] == 2 && f.words[FINDER_WORD_MULTIPLIER] == 1 && f.words[FINDER_WORD_SAMPLE] == 4);
    CHECK(f.words[FINDER_WORD_BEAM] == 4 && f.words[FINDER_WORD_POOL] == 2);
    CHECK(status->enabled == 1 && status->pool_size == 2 && status->live_landmarks == 2 && status->landmark_count == 2 && status->beam == 4);
    CHECK(f.pool[0] == 2 && f.pool[1] == 0);
    CHECK(finder_assess(f.words, SLICES, ids, 3, a->checked, 63, a->lost, FINDER_MAX_LANDMARKS, SCRATCH, &a->report) == FINDER_BAD_LENGTH);
    CHECK(finder_assess_in(&f, ids, 3, scratch, a) == 0);
    CHECK(a->report.admitted == 0 && a->report.requested == 1 && a->report.entry == 0 && a->report.checked == 2 && a->report.baseline == 2);
    CHECK(a->report.residual == 1 && a->report.lost == 1 && a->report.supplemental == 0);
    CHECK(a->checked[0] == 2 && a->checked[1] == 0 && a->lost[0] == 2);
    TELL("deleting slot 1: %s, %u of %u landmarks lost\n", a->report.admitted ? "admitted" : "not admitted", (unsigned)a->report.lost, (unsigned)a->report.checked);
    return 0;
}

static int insert(void)
{
    static const uint32_t new_numbers[2] = { 0xffffffffu, 40 };
    static const uint32_t zero[1] = { 0 };
    static const uint32_t summary[CAPACITY] = { 1, 2, 0, 3 };
    uint32_t found = 77;
    uint32_t n = 77;
    uint8_t *bytes = block(2 * DIM);
    uint32_t *slots = block(2 * sizeof *slots);
    bytes[0] = 6;
    bytes[1] = 7;
    slots[0] = 77;
    slots[1] = 77;
    CHECK(finder_insert_in(&f, bytes, 2 * DIM, new_numbers, 2, 2, slots, 1, scratch, &found) == FINDER_BAD_LENGTH);
    CHECK(finder_insert_in(&f, bytes, 2 * DIM, new_numbers, 1, 2, slots, 2, scratch, &found) == FINDER_BAD_LENGTH);
    CHECK(finder_insert_in(&f, bytes, DIM, new_numbers, 2, 2, slots, 2, scratch, &found) == FINDER_BAD_LENGTH);
    CHECK(finder_insert_in(&f, bytes, 2 * DIM, new_numbers, 2, 2, slots, 2, scratch, &found) == FINDER_FULL);
    CHECK(finder_insert_in(&f, bytes, DIM, zero, 1, 2, slots, 2, scratch, &found) == FINDER_BAD_NUMBER);
    CHECK(finder_insert_in(&f, bytes, DIM, given_numbers, 1, 2, slots, 2, scratch, &found) == FINDER_BAD_NUMBER);
    CHECK(found == 77 && slots[0] == 77 && f.marks[3] == 0 && f.numbers[3] == 0 && f.words[FINDER_WORD_LIVE] == COUNT);
    CHECK(finder_insert_in(&f, bytes, DIM, new_numbers, 1, 2, slots, 2, scratch, &found) == 0);
    CHECK(found == 1 && slots[0] == 3 && slots[1] == 77 && numbers_are(30, 10, 20, 0xffffffffu, summary));
    CHECK(finder_live_in(&f, &n) == 0 && n == CAPACITY);
    CHECK(*finder_vector_in(&f, 3) == 6);
    CHECK(finder_target_in(&f, 3, 0, &n) == 0 && n == 1);
    CHECK(finder_target_in(&f, 3, 1, &n) == 0 && n == 2);
    CHECK(finder_target_in(&f, 1, 0, &n) == 0 && n == 0);
    CHECK(finder_target_in(&f, 1, 1, &n) == 0 && n == 3);
    CHECK(finder_target_in(&f, 2, 0, &n) == 0 && n == 3);
    CHECK(finder_target_in(&f, 2, 1, &n) == 0 && n == FINDER_BLANK);
    TELL("6 is inserted into slot %u as figure %u\n", (unsigned)slots[0], (unsigned)new_numbers[0]);
    CHECK(finder_insert_in(&f, bytes, DIM, new_numbers, 1, 2, slots, 2, scratch, &found) == FINDER_FULL && found == 1);
    return 0;
}

/* Slot 1, which is the entry: slots 0 and 3 were in its row, and the walk finds slot 0, whose row held it. */
static int delete(void)
{
    static const uint32_t ids[3] = { 1, 9, 1 };
    static const uint32_t summary[CAPACITY] = { 2, 0, 3, FINDER_BLANK };
    static const uint32_t left[CAPACITY][3] = { { 1, 3, FINDER_BLANK }, { 0, FINDER_BLANK, FINDER_BLANK }, { 1, 3, FINDER_BLANK }, { 1, 2, 0 } };
    uint32_t found = 77;
    uint32_t n = 77;
    struct finder_stats *stats = block(3 * sizeof *stats);
    stats[0].outgoing_seeds = 77;
    stats[1].outgoing_seeds = 77;
    CHECK(finder_delete(f.words, SLICES, ids, 3, 2, 1, stats, 2, SCRATCH, &found) == FINDER_BAD_LENGTH);
    CHECK(finder_delete_in(&f, ids, 3, 2, FINDER_MAX_REPAIR_DEGREE + 1, stats, scratch, &found) == FINDER_OVER_LIMIT);
    CHECK(found == 77 && stats[0].outgoing_seeds == 77 && f.marks[1] != 0 && f.words[FINDER_WORD_LIVE] == CAPACITY);
    CHECK(finder_delete_in(&f, ids, 3, 2, 1, stats, scratch, &found) == 0 && found == 1);
    CHECK(stats[0].outgoing_seeds == 2 && stats[0].recovered_in_neighbors == 1 && stats[0].repair_candidates == 2 && stats[0].repair_edges_attempted == 2);
    CHECK(stats[1].outgoing_seeds == 77);
    CHECK(finder_entry_in(&f, &n) == 0 && n == 0 && f.words[FINDER_WORD_ENTRY] == 0);
    CHECK(finder_live_in(&f, &n) == 0 && n == COUNT);
    for (uint32_t slot = 0; slot < CAPACITY; slot++) {
        CHECK(finder_mark_in(&f, slot, &n) == 0 && n == left[slot][0]);
        CHECK(finder_slot_version_in(&f, slot, &n) == 0 && n == (slot == 1));
        CHECK(finder_target_in(&f, slot, 0, &n) == 0 && n == left[slot][1]);
        CHECK(finder_target_in(&f, slot, 1, &n) == 0 && n == left[slot][2]);
    }
    CHECK(numbers_are(30, 0, 20, 0xffffffffu, summary));
    TELL("slot 1 is deleted: entry %u, %u links\n", (unsigned)f.words[FINDER_WORD_ENTRY], (unsigned)stats[0].repair_edges_attempted);
    CHECK(finder_delete_in(&f, ids, 3, 2, 1, stats, scratch, &found) == 0 && found == 0);
    return 0;
}

/* What a guarded delete writes beside the index. */
static struct finder_assessment *a;
static struct finder_stats *stats;
static uint32_t found;

/* A guarded delete with repair beam 2 and repair degree 1. */
static uint32_t guarded_delete(const uint32_t *ids, size_t count)
{
    return finder_guarded_delete_in(&f, ids, count, 2, 1, stats, scratch, &found, a);
}

/* Slot 3, without which a walk from slot 0 meets no slot 2. No error: the report is written, and words, slices and stats stay. */
static int deferred(void)
{
    static const uint32_t ids[1] = { 3 };
    CHECK(guarded_delete(ids, 1) == 0 && a->report.admitted == 0 && found == 0);
    CHECK(a->report.requested == 1 && a->report.entry == 0 && a->report.checked == 2 && a->report.baseline == 2 && a->report.residual == 1);
    CHECK(a->report.lost == 1 && a->report.supplemental == 0);
    CHECK(a->checked[0] == 2 && a->checked[1] == 0 && a->checked[2] == 77 && a->lost[0] == 2 && a->lost[1] == 77 && stats[0].outgoing_seeds == 77);
    CHECK(f.words[FINDER_WORD_ENTRY] == 0 && f.words[FINDER_WORD_LIVE] == COUNT && f.marks[3] != 0 && f.versions[3] == 0);
    TELL("deleting slot 3: deferred, landmark %u would be lost\n", (unsigned)a->lost[0]);
    return 0;
}

/* Slot 2, itself a landmark. The report and the stats are written, and words and slices are those that a delete leaves. */
static int applied(void)
{
    static const uint32_t ids[3] = { 2, 9, 2 };
    static const uint32_t summary[CAPACITY] = { 0, 3, FINDER_BLANK, FINDER_BLANK };
    uint32_t n = 77;
    CHECK(guarded_delete(ids, 3) == 0 && a->report.admitted == 1 && found == 1);
    CHECK(a->report.requested == 1 && a->report.entry == 0 && a->report.checked == 2 && a->report.baseline == 2 && a->report.residual == 2);
    CHECK(a->report.lost == 0 && a->report.supplemental == 1 && a->checked[0] == 0 && a->checked[1] == 3 && a->checked[2] == 77 && a->lost[0] == 2);
    CHECK(stats[0].outgoing_seeds == 1 && stats[0].recovered_in_neighbors == 1 && stats[0].repair_candidates == 1 && stats[0].repair_edges_attempted == 0);
    CHECK(stats[1].outgoing_seeds == 77);
    CHECK(finder_live_in(&f, &n) == 0 && n == COUNT - 1 && numbers_are(30, 0, 0, 0xffffffffu, summary));
    CHECK(finder_mark_in(&f, 2, &n) == 0 && n == 0);
    CHECK(finder_slot_version_in(&f, 2, &n) == 0 && n == 1);
    CHECK(finder_target_in(&f, 3, 0, &n) == 0 && n == 0);
    CHECK(finder_target_in(&f, 3, 1, &n) == 0 && n == FINDER_BLANK);
    TELL("deleting slot 2: applied, %u of %u landmarks lost\n", (unsigned)a->report.lost, (unsigned)a->report.checked);
    return 0;
}

/* The guard of before, on the index that is left: slots 0, 3 and 2 in a chain. */
static int guarded(void)
{
    static const uint32_t ids[2] = { 0, 3 };
    struct finder_status status;
    a = block(sizeof *a);
    stats = block(3 * sizeof *stats);
    found = 77;
    for (int i = 0; i < 3; i++)
        stats[i].outgoing_seeds = a->checked[i] = a->lost[i] = 77;
    CHECK(finder_guarded_delete(f.words, SLICES, ids, 2, 2, 1, stats, 1, a->checked, FINDER_MAX_LANDMARKS, a->lost, FINDER_MAX_LANDMARKS, SCRATCH, &found,
        &a->report) == FINDER_BAD_LENGTH);
    f.words[FINDER_WORD_GUARD] = 0;
    CHECK(guarded_delete(ids, 2) == FINDER_GUARD_OFF);
    f.words[FINDER_WORD_GUARD] = 1;
    CHECK(found == 77 && stats[0].outgoing_seeds == 77 && a->checked[0] == 77 && a->lost[0] == 77 && f.words[FINDER_WORD_LIVE] == COUNT);
    if (deferred() || applied())
        return 1;
    CHECK(finder_guard_status_in(&f, &status) == 0 && status.enabled == 1 && status.pool_size == 2 && status.live_landmarks == 1);
    CHECK(guarded_delete(NULL, 0) == 0 && found == 0 && a->report.admitted == 1 && a->report.requested == 0 && a->report.entry == FINDER_BLANK);
    CHECK(guarded_delete(ids, 2) == 0 && found == 0 && a->report.admitted == 0 && a->report.requested == 2 && a->report.entry == FINDER_BLANK);
    return 0;
}

/*
 * The deletes by figure numbers, on the index made anew with the value 6 in slot 3 as figure 40: a number that no live slot carries, 0 and a repeat count as names
 * and are skipped. A number of a figure that was deleted is given again.
 */
static int by_numbers(void)
{
    static const uint32_t named[4] = { 10, 0, 10, 7 };
    static const uint32_t too_many[FINDER_MAX_IDS + 1] = { 10 };
    static const uint32_t without_10[CAPACITY] = { 2, 0, 3, FINDER_BLANK };
    static const uint32_t refilled[CAPACITY] = { 2, 0, 3, 1 };
    static const uint32_t forty = 40;
    static const uint32_t new_numbers[3][2] = { { 50, 50 }, { 50, 40 }, { 50, 10 } };
    const uint8_t bytes[2] = { 6, 7 };
    struct finder_status status;
    uint32_t slots[2];
    a = block(sizeof *a);
    stats = block((FINDER_MAX_IDS + 1) * sizeof *stats);
    found = 77;
    stats[1].outgoing_seeds = 77;
    CHECK(make_with(1.0f, 1, given_numbers, COUNT) == 0);
    CHECK(finder_insert_in(&f, bytes, DIM, &forty, 1, 2, slots, 1, scratch, &found) == 0 && found == 1 && slots[0] == 3);
    found = 77;
    CHECK(finder_delete_numbers(f.words, SLICES, named, 4, 2, 1, stats, 3, SCRATCH, &found) == FINDER_BAD_LENGTH);
    CHECK(finder_delete_numbers_in(&f, too_many, FINDER_MAX_IDS + 1, 2, 1, stats, scratch, &found) == FINDER_OVER_LIMIT && found == 77);
    CHECK(finder_delete_numbers_in(&f, named, 4, 2, 1, stats, scratch, &found) == 0 && found == 1);
    CHECK(stats[0].outgoing_seeds == 2 && stats[0].recovered_in_neighbors == 1 && stats[0].repair_candidates == 2 && stats[0].repair_edges_attempted == 2);
    CHECK(stats[1].outgoing_seeds == 77 && f.words[FINDER_WORD_ENTRY] == 0 && numbers_are(30, 0, 20, 40, without_10));
    CHECK(finder_delete_numbers_in(&f, named, 4, 2, 1, stats, scratch, &found) == 0 && found == 0);
    TELL("figure 10 is deleted by its number\n");

    CHECK(finder_guarded_delete_numbers_in(&f, &forty, 1, 2, 1, stats, scratch, &found, a) == FINDER_GUARD_OFF);
    CHECK(finder_guard_enable_in(&f, 2, 1, 4, 4, scratch, &status) == 0 && f.pool[0] == 2 && f.pool[1] == 3);
    CHECK(finder_guarded_delete_numbers(f.words, SLICES, given_numbers + 2, 1, 2, 1, stats, 0, a->checked, FINDER_MAX_LANDMARKS, a->lost, FINDER_MAX_LANDMARKS,
        SCRATCH, &found, &a->report) == FINDER_BAD_LENGTH);
    CHECK(finder_guarded_delete_numbers_in(&f, &forty, 1, 2, 1, stats, scratch, &found, a) == 0 && found == 0);
    CHECK(a->report.admitted == 0 && a->report.requested == 1 && a->report.lost == 1 && a->lost[0] == 2 && numbers_are(30, 0, 20, 40, without_10));
    TELL("deleting figure 40: deferred, landmark %u would be lost\n", (unsigned)a->lost[0]);
    CHECK(finder_guarded_delete_numbers_in(&f, given_numbers + 1, 2, 2, 1, stats, scratch, &found, a) == 0 && found == 1);
    CHECK(a->report.admitted == 1 && a->report.requested == 1 && f.numbers[2] == 0 && f.words[FINDER_WORD_LIVE] == 2);

    CHECK(finder_insert_in(&f, bytes, 2, new_numbers[0], 2, 2, slots, 2, scratch, &found) == FINDER_BAD_NUMBER);
    CHECK(finder_insert_in(&f, bytes, 2, new_numbers[1], 2, 2, slots, 2, scratch, &found) == FINDER_BAD_NUMBER);
    CHECK(finder_insert_in(&f, bytes, 2, new_numbers[2], 2, 2, slots, 2, scratch, &found) == 0 && found == 2 && slots[0] == 1 && slots[1] == 2);
    CHECK(numbers_are(30, 50, 10, 40, refilled));
    return 0;
}

/* The readings on the index in parts, and slices that are one element short. */
static int parts(void)
{
    uint32_t n = 77;
    float alpha = 0;
    CHECK(finder_dim(f.words, SLICES, &n) == 0 && n == DIM);
    CHECK(finder_capacity(f.words, SLICES, &n) == 0 && n == CAPACITY);
    CHECK(finder_degree(f.words, SLICES, &n) == 0 && n == DEGREE);
    CHECK(finder_alpha(f.words, SLICES, &alpha) == 0 && alpha == 1.0f);
    CHECK(finder_entry(f.words, SLICES, &n) == 0 && n == 0);
    CHECK(finder_live(f.words, SLICES, &n) == 0 && n == 2);
    CHECK(finder_mark(f.words, SLICES, 3, &n) == 0 && n == 1);
    CHECK(finder_slot_version(f.words, SLICES, 2, &n) == 0 && n == 1);
    CHECK(finder_number(f.words, SLICES, 0, &n) == 0 && n == 30);
    CHECK(finder_target(f.words, SLICES, 3, 0, &n) == 0 && n == 0);
    CHECK(finder_vector(f.words, SLICES, 3) == DIM && finder_vector(f.words, SLICES, 2) == 0);
    CHECK(finder_dim(f.words, f.vectors, CAPACITY * DIM - 1, f.targets, CAPACITY * DEGREE, f.edges, CAPACITY * DEGREE, f.versions, CAPACITY, f.marks, CAPACITY,
        f.pool, FINDER_POOL, f.numbers, CAPACITY, f.summary, CAPACITY, f.weights, DIM, &n) == FINDER_BAD_LENGTH);
    CHECK(finder_dim(f.words, f.vectors, CAPACITY * DIM, f.targets, CAPACITY * DEGREE, f.edges, CAPACITY * DEGREE, f.versions, CAPACITY, f.marks, CAPACITY,
        f.pool, FINDER_POOL, f.numbers, CAPACITY - 1, f.summary, CAPACITY, f.weights, DIM, &n) == FINDER_BAD_LENGTH);
    CHECK(finder_dim(f.words, f.vectors, CAPACITY * DIM, f.targets, CAPACITY * DEGREE, f.edges, CAPACITY * DEGREE, f.versions, CAPACITY, f.marks, CAPACITY,
        f.pool, FINDER_POOL, f.numbers, CAPACITY, f.summary, CAPACITY - 1, f.weights, DIM, &n) == FINDER_BAD_LENGTH);
    CHECK(finder_dim(f.words, f.vectors, CAPACITY * DIM, f.targets, CAPACITY * DEGREE, f.edges, CAPACITY * DEGREE, f.versions, CAPACITY, f.marks, CAPACITY,
        f.pool, FINDER_POOL, f.numbers, CAPACITY, f.summary, CAPACITY, f.weights, DIM - 1, &n) == FINDER_BAD_LENGTH);
    return 0;
}

/* Words and block to another place, as through a file: the same index, to the byte. */
static int store_and_load(void)
{
    struct finder again;
    struct finder_layout n = finder_lengths_in(&f);
    uint32_t words[FINDER_INDEX_WORDS];
    uint8_t *copy = block(n.block_bytes);
    uint8_t *unaligned = block(n.block_bytes + 1);
    uint32_t live = 77;
    CHECK(n.block_bytes == (size_t)(f.weights + n.weights - (uint8_t *)f.targets));
    memcpy(words, f.words, sizeof words);
    memcpy(copy, f.targets, n.block_bytes);
    again.words[0] = 77;
    CHECK(finder_load(&again, words, copy, n.block_bytes - 1) == FINDER_BAD_LENGTH);
    CHECK(finder_load(&again, words, NULL, n.block_bytes) == FINDER_BAD_LENGTH);
    CHECK(finder_load(&again, words, unaligned + 1, n.block_bytes) == FINDER_BAD_LENGTH);
    words[FINDER_WORD_LIVE]++;
    CHECK(finder_load(&again, words, copy, n.block_bytes) == FINDER_BAD_INDEX);
    words[FINDER_WORD_LIVE]--;
    words[FINDER_WORD_DIM] = 0;
    CHECK(finder_load(&again, words, copy, n.block_bytes) == FINDER_BAD_SIZES && again.words[0] == 77);
    words[FINDER_WORD_DIM] = DIM;
    /* 16 before 6; the weights are the block's last bytes */
    words[FINDER_WORD_LIVE]++;
    copy[n.block_bytes - 1] = 0;
    CHECK(finder_load(&again, words, copy, n.block_bytes) == FINDER_BAD_WEIGHTS && again.words[0] == 77);
    copy[n.block_bytes - 1] = 1;
    words[FINDER_WORD_LIVE]--;
    CHECK(finder_load(&again, words, copy, n.block_bytes) == 0);
    CHECK(memcmp(again.words, f.words, sizeof words) == 0 && memcmp(again.targets, f.targets, n.block_bytes) == 0);
    CHECK(finder_live_in(&again, &live) == 0 && live == f.words[FINDER_WORD_LIVE]);
    CHECK(*finder_vector_in(&again, 3) == 6 && finder_vector_in(&again, 2) == NULL);
    return 0;
}

/* Lengths and layout, at the limits too. */
static int lengths(void)
{
    struct finder_layout n = { 77, 0, 0, 0, 0, 0, 0, 0, 0, 0, 0 };
    struct finder g;
    struct finder_scratch s;
    uint32_t size = 77;
    uint32_t *words = block(3 * sizeof *words);
    uint8_t *most;
    CHECK(finder_lengths(257, CAPACITY, DEGREE, &n) == FINDER_BAD_SIZES && n.vectors == 77);
    CHECK(finder_lengths(FINDER_MAX_DIM, FINDER_MAX_CAPACITY, FINDER_MAX_DEGREE, &n) == 0);
    CHECK(n.vectors == 65536 * 256 && n.targets == 65536 * 64 && n.edges == n.targets && n.versions == 65536 && n.marks == 65536 && n.pool == FINDER_POOL);
    CHECK(n.numbers == 65536 && n.summary == 65536 && n.weights == 256);
    CHECK(n.block_bytes == n.vectors + 6 * n.targets + 3 * n.versions + 4 * FINDER_POOL + 4 * n.numbers + 4 * n.summary + n.weights);
    CHECK(finder_scratch_words(FINDER_MAX_DIM, FINDER_MAX_CAPACITY, FINDER_MAX_DEGREE, &size) == 0 && n.scratch_bytes == 4 * (size_t)size);
    most = block(n.block_bytes);
    CHECK(finder_place(&g, most, n.block_bytes, FINDER_MAX_DIM, FINDER_MAX_CAPACITY, FINDER_MAX_DEGREE) == 0);
    CHECK((uint8_t *)g.targets == most && g.pool == g.targets + n.targets && g.numbers == g.pool + n.pool && g.summary == g.numbers + n.numbers);
    CHECK((void *)g.edges == (void *)(g.summary + n.summary));
    CHECK(g.versions == g.edges + n.edges && (void *)g.vectors == (void *)(g.versions + n.versions) && g.marks == g.vectors + n.vectors);
    CHECK(g.weights == g.marks + n.marks && g.weights + n.weights == most + n.block_bytes);
    CHECK(finder_place(&g, most, n.block_bytes - 1, FINDER_MAX_DIM, FINDER_MAX_CAPACITY, FINDER_MAX_DEGREE) == FINDER_BAD_LENGTH);
    CHECK(finder_place(&g, most + 2, n.block_bytes, DIM, CAPACITY, DEGREE) == FINDER_BAD_LENGTH);
    CHECK(finder_place(&g, NULL, n.block_bytes, DIM, CAPACITY, DEGREE) == FINDER_BAD_LENGTH);
    CHECK(finder_place(&g, most, n.block_bytes, DIM, CAPACITY, 0) == FINDER_BAD_SIZES);
    CHECK(finder_place_scratch(&s, NULL, 4) == FINDER_SHORT_SCRATCH && finder_place_scratch(&s, words, 3) == FINDER_SHORT_SCRATCH);
    CHECK(finder_place_scratch(&s, (uint8_t *)words + 1, 8) == FINDER_SHORT_SCRATCH);
    CHECK(finder_place_scratch(&s, words, 11) == 0 && s.words == words && s.length == 2);
    return 0;
}

/* A number or a word of the summary that does not fit: slots 0 and 3 are live, with the numbers 30 and 4,294,967,295. */
static int wrong_numbers(void)
{
    static const struct {
        uint32_t slot, number, first, second, third;
    } wrong[8] = {
        { 0, 0, 0, 3, FINDER_BLANK },            /* a live slot without a number */
        { 1, 5, 0, 3, FINDER_BLANK },            /* a dead slot with one */
        { 3, 30, 0, 3, FINDER_BLANK },           /* a number twice */
        { 0, 30, 3, 0, FINDER_BLANK },           /* the summary falls */
        { 0, 30, 0, 0, FINDER_BLANK },           /* it names a slot twice */
        { 0, 30, 0, 2, FINDER_BLANK },           /* it names a dead slot */
        { 0, 30, 0, FINDER_BLANK, FINDER_BLANK }, /* it ends too early */
        { 0, 30, 0, 3, 1 },                      /* it goes on */
    };
    uint32_t n = 77;
    for (int i = 0; i < 8; i++) {
        uint32_t number = f.numbers[wrong[i].slot];
        f.numbers[wrong[i].slot] = wrong[i].number;
        f.summary[0] = wrong[i].first;
        f.summary[1] = wrong[i].second;
        f.summary[2] = wrong[i].third;
        CHECK(finder_dim_in(&f, &n) == FINDER_BAD_INDEX && n == 77);
        f.numbers[wrong[i].slot] = number;
    }
    f.summary[2] = FINDER_BLANK;
    CHECK(finder_dim_in(&f, &n) == 0 && n == DIM);
    return 0;
}

/* Weights of another length or outside their range, in every call: 3 before 16, 16 before the rest. The index has two marks, and here a live count of 3. */
static int wrong_weights(void)
{
    static const uint8_t wrong[3] = { 0, 5, 255 };
    struct finder_status status;
    struct finder_assessment report;
    struct finder_stats counts;
    const uint8_t query = 2;
    const uint32_t one = 1;
    uint32_t n = 77, slot = 77, number = 77;
    float dist = 77, alpha = 77;
    uint8_t weight = f.weights[0];
    f.words[FINDER_WORD_LIVE] = 3;
    for (int i = 0; i < 3; i++) {
        f.weights[0] = wrong[i];
        CHECK(finder_dim_in(&f, &n) == FINDER_BAD_WEIGHTS && finder_capacity_in(&f, &n) == FINDER_BAD_WEIGHTS);
        CHECK(finder_degree_in(&f, &n) == FINDER_BAD_WEIGHTS && finder_alpha_in(&f, &alpha) == FINDER_BAD_WEIGHTS);
        CHECK(finder_entry_in(&f, &n) == FINDER_BAD_WEIGHTS && finder_live_in(&f, &n) == FINDER_BAD_WEIGHTS);
        CHECK(finder_mark_in(&f, 0, &n) == FINDER_BAD_WEIGHTS && finder_slot_version_in(&f, 0, &n) == FINDER_BAD_WEIGHTS);
        CHECK(finder_number_in(&f, 0, &n) == FINDER_BAD_WEIGHTS && finder_target_in(&f, 0, 0, &n) == FINDER_BAD_WEIGHTS);
        CHECK(finder_vector_in(&f, 0) == NULL && finder_guard_status_in(&f, &status) == FINDER_BAD_WEIGHTS);
        CHECK(finder_search_in(&f, &query, DIM, 1, FINDER_MAX_BEAM + 1, &slot, &dist, &number, scratch, &n) == FINDER_BAD_WEIGHTS);
        CHECK(finder_insert_in(&f, &query, DIM, &one, 1, FINDER_MAX_BEAM + 1, &slot, 1, scratch, &n) == FINDER_BAD_WEIGHTS);
        CHECK(finder_delete_in(&f, &one, 1, 0, 99, &counts, scratch, &n) == FINDER_BAD_WEIGHTS);
        CHECK(finder_delete_numbers_in(&f, &one, 1, 0, 99, &counts, scratch, &n) == FINDER_BAD_WEIGHTS);
        CHECK(finder_guard_enable_in(&f, 65, 1, 1, 1, scratch, &status) == FINDER_BAD_WEIGHTS);
        CHECK(finder_assess_in(&f, &one, 1, scratch, &report) == FINDER_BAD_WEIGHTS);
        CHECK(finder_guarded_delete_in(&f, &one, 1, 0, 99, &counts, scratch, &n, &report) == FINDER_BAD_WEIGHTS);
        CHECK(finder_guarded_delete_numbers_in(&f, &one, 1, 0, 99, &counts, scratch, &n, &report) == FINDER_BAD_WEIGHTS);
        CHECK(finder_search_in(&f, &query, 0, 1, 1, &slot, &dist, &number, scratch, &n) == FINDER_BAD_LENGTH);
        CHECK(n == 77 && slot == 77 && number == 77 && dist == 77 && alpha == 77);
    }
    f.weights[0] = weight;
    CHECK(finder_dim_in(&f, &n) == FINDER_BAD_INDEX);
    f.words[FINDER_WORD_LIVE] = 2;
    return 0;
}

static int refuse(void)
{
    uint32_t n = 77;
    CHECK(finder_scratch_words(257, CAPACITY, DEGREE, &n) == FINDER_BAD_SIZES && n == 77);
    CHECK(make_with(0.5f, 1, given_numbers, COUNT) == FINDER_BAD_ALPHA && f.words[FINDER_WORD_DIM] == DIM);
    if (wrong_numbers() || wrong_weights())
        return 1;
    f.words[FINDER_WORD_LIVE] = 3;
    CHECK(finder_dim_in(&f, &n) == FINDER_BAD_INDEX && n == 77);
    CHECK(finder_vector_in(&f, 3) == NULL);
    TELL("an index with a live count of 3 and two marks: refused with %d, %s\n", FINDER_BAD_INDEX, finder_refusal_text(FINDER_BAD_INDEX));
    f.words[FINDER_WORD_ALPHA] = 0x7fc00000u;
    CHECK(finder_dim_in(&f, &n) == FINDER_BAD_ALPHA && n == 77);
    f.words[FINDER_WORD_CAPACITY] = 0xffffffffu;
    CHECK(finder_dim_in(&f, &n) == FINDER_BAD_SIZES && n == 77);
    return 0;
}

/* A name and a text of its own for each number. */
static int texts(void)
{
    CHECK(FINDER_OK == 0 && FINDER_BAD_SIZES == 1 && FINDER_BAD_INDEX == 6 && FINDER_FULL == 10 && FINDER_NO_LANDMARK == 13);
    CHECK(FINDER_BAD_NUMBER == 15 && FINDER_BAD_WEIGHTS == 16);
    for (uint32_t i = 0; i <= 16; i++)
        for (uint32_t j = 0; j < i; j++)
            CHECK(strcmp(finder_refusal_text(i), finder_refusal_text(j)) != 0);
    CHECK(strcmp(finder_refusal_text(14), finder_refusal_text(0xffffffffu)) == 0 && strcmp(finder_refusal_text(14), finder_refusal_text(17)) == 0);
    CHECK(strcmp(finder_refusal_text(FINDER_GUARD_OFF), "the guard is off") == 0);
    return 0;
}

static int version(void)
{
    CHECK(FINDER_VERSION == 10000 * FINDER_VERSION_MAJOR + 100 * FINDER_VERSION_MINOR + FINDER_VERSION_PATCH);
    CHECK(finder_version() == FINDER_VERSION);
    return 0;
}

/* What becomes of the weights, and of distances by them: two figures of three values each, and a query that is nearer to one or the other as they count. */
static int weighted(void)
{
    static const uint8_t ones[3] = { 1, 1, 1 }, middle[3] = { 1, 4, 2 };
    static const uint8_t bytes[6] = { 10, 20, 36, 10, 25, 30 }, query[3] = { 10, 20, 30 };
    static const uint32_t numbers[2] = { 7, 8 }, rows[4] = { 1, FINDER_BLANK, 0, FINDER_BLANK };
    uint32_t slots[2], found_numbers[2];
    float dists[2];
    struct finder_layout n;
    uint32_t count = 77;
    uint8_t *memory;
    CHECK(finder_lengths(3, 2, DEGREE, &n) == 0 && n.weights == 3);
    memory = block(n.block_bytes);
    CHECK(finder_place(&f, memory, n.block_bytes, 3, 2, DEGREE) == 0);
    CHECK(finder_place_scratch(&scratch, block(n.scratch_bytes), n.scratch_bytes) == 0);

    /* 6 * 6 in the last place, and 5 * 5 in the middle one */
    CHECK(finder_create_in(&f, 1.0f, 0, 2, bytes, 6, rows, 4, numbers, 2, ones, 3) == 0 && memcmp(f.weights, ones, 3) == 0);
    CHECK(finder_search_in(&f, query, 3, 2, 2, slots, dists, found_numbers, scratch, &count) == 0 && count == 2);
    CHECK(found_numbers[0] == 8 && dists[0] == 25.0f && found_numbers[1] == 7 && dists[1] == 36.0f);

    /* 2 * 6 * 6, and 4 * 5 * 5 */
    CHECK(finder_create_in(&f, 1.0f, 0, 2, bytes, 6, rows, 4, numbers, 2, middle, 3) == 0 && memcmp(f.weights, middle, 3) == 0);
    CHECK(finder_search_in(&f, query, 3, 2, 2, slots, dists, found_numbers, scratch, &count) == 0 && count == 2);
    CHECK(found_numbers[0] == 7 && dists[0] == 72.0f && found_numbers[1] == 8 && dists[1] == 100.0f);
    TELL("nearest to 10, 20, 30: figure 8 at 25; with the weights 1, 4, 2 figure %u at %g\n", (unsigned)found_numbers[0], (double)dists[0]);

    /* nothing but making writes them */
    CHECK(finder_delete_numbers_in(&f, numbers, 1, 2, 1, &(struct finder_stats){ 0, 0, 0, 0 }, scratch, &count) == 0 && count == 1);
    CHECK(finder_insert_in(&f, bytes, 3, numbers, 1, 2, slots, 1, scratch, &count) == 0 && count == 1 && slots[0] == 0);
    CHECK(memory + n.block_bytes == f.weights + 3 && memcmp(f.weights, middle, 3) == 0);
    return 0;
}

/* The limits: at dim 256 only weights of 1 fit, at 255 one may be 2, at 64 all are 4; a refused making writes no weights. */
static int weight_limits(void)
{
    static const uint32_t dims[3] = { FINDER_MAX_DIM, FINDER_MAX_DIM - 1, 64 };
    static const uint32_t number = 1;
    uint8_t weights[FINDER_MAX_DIM + 1], zeros[FINDER_MAX_DIM] = { 0 }, most[FINDER_MAX_DIM];
    memset(most, 255, sizeof most);
    for (int i = 0; i < 3; i++) {
        uint32_t dim = dims[i], slot = 77, found_number = 77, count = 77;
        float dist = 0;
        struct finder_layout n;
        CHECK(finder_lengths(dim, 2, 1, &n) == 0);
        CHECK(finder_place(&f, block(n.block_bytes), n.block_bytes, dim, 2, 1) == 0);
        CHECK(finder_place_scratch(&scratch, block(n.scratch_bytes), n.scratch_bytes) == 0);
        memset(weights, dim == 64 ? FINDER_MAX_WEIGHT : 1, sizeof weights);
        memset(f.weights, 77, dim);
        if (dim == 64)
            weights[dim - 1]++;
        else
            weights[dim - 1] = (uint8_t)(2 + FINDER_MAX_DIM - dim);
        CHECK(finder_create_in(&f, 1.0f, 0, 0, NULL, 0, NULL, 0, NULL, 0, weights, dim) == FINDER_BAD_WEIGHTS);
        CHECK(finder_create_in(&f, 1.0f, 0, 0, NULL, 0, NULL, 0, NULL, 0, weights, dim + 1) == FINDER_BAD_LENGTH && f.weights[dim - 1] == 77);
        weights[dim - 1]--;
        CHECK(finder_create_in(&f, 1.0f, 0, 0, NULL, 0, NULL, 0, NULL, 0, weights, dim) == 0 && memcmp(f.weights, weights, dim) == 0);

        /* the largest distance: white from black, 255 * 255 * FINDER_MAX_WEIGHT_SUM */
        CHECK(finder_insert_in(&f, zeros, dim, &number, 1, 1, &slot, 1, scratch, &count) == 0 && count == 1);
        CHECK(finder_search_in(&f, most, dim, 1, 1, &slot, &dist, &found_number, scratch, &count) == 0 && count == 1);
        CHECK(dist == 16646400.0f && slot == 0 && found_number == 1);
        weights[0] = 0;
        memcpy(f.weights, weights, dim);
        CHECK(finder_live_in(&f, &count) == FINDER_BAD_WEIGHTS && count == 1);
    }
    return 0;
}

static int all_calls(void)
{
    return make() || read_all() || search() || nulls() || guard() || insert() || delete() || guarded() || parts();
}

int main(void)
{
    int wrong = texts() || version() || lengths() || lend_block() || all_calls() || store_and_load() || refuse();
    take_back();
    wrong = wrong || lend_slices() || by_numbers();
    take_back();
    wrong = wrong || weighted() || weight_limits();
    take_back();
    telling = 0;
    wrong = wrong || lend_slices() || all_calls() || refuse();
    take_back();
    return wrong;
}
