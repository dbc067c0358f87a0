/*
 * The picture finder for C and C++: a vector index over memory that the caller lends.
 *
 * An index is a struct finder over one block of memory. In short (examples/c/first.c is a whole program, finder.hpp a class for C++):
 *
 *     struct finder_layout n;
 *     struct finder f;
 *     struct finder_scratch s;
 *     finder_lengths(256, 1000, 64, &n);                                            the sizes: dim, capacity, degree
 *     void *block = malloc(n.block_bytes), *work = malloc(n.scratch_bytes);         the caller's, to be freed at last
 *     finder_place(&f, block, n.block_bytes, 256, 1000, 64);
 *     finder_place_scratch(&s, work, n.scratch_bytes);
 *     memset(weights, 1, 256);                                                      each place of a vector counts alike
 *     finder_create_in(&f, 1.2f, 0, 0, NULL, 0, NULL, 0, NULL, 0, weights, 256);    alpha 1.2, no vector yet
 *     finder_insert_in(&f, grey, 256, &number, 1, 128, &slot, 1, s, &found);        one vector and its figure number, beam 128; it got the slot
 *     finder_search_in(&f, query, 256, 10, 64, slots, dists, numbers, s, &found);   the 10 nearest, beam 64
 *
 * Each of these returns 0 where it is carried out, else the number of the refusal; the compiler warns where that is not looked at.
 *
 * Each live slot carries a figure number, 1 to 4,294,967,295, which the caller gives with the vector and no other live slot has; a dead slot holds 0. After a
 * delete, a slot may be given to another vector; a number stays with its vector as long as that is in the index.
 *
 * Each place of a vector has a weight, 1 to 4, which the caller gives when the index is made and no later call changes. The distance of two vectors is the sum,
 * over the places, of the squared difference times the place's weight; with all weights 1 it is the sum of squared differences. The weights of an index make 256
 * at most: at dim 256 only weights of 1 fit, and one place that counts more takes a smaller dim (of 196 places, 28 may weigh 3).
 *
 * The names: finder_X is a call on an index in parts, twelve words and nine slices; finder_X_in is the same call on a struct finder. What a call does is told at
 * finder_X. The functions finder_X are in the archive and are proved (docs/CLAIMS.md); the inline ones of this header pass parts on and are not.
 *
 * For all of them:
 *
 * - A call that is refused writes nothing. Each function lists its refusals in the order in which they are tested; the first that holds is returned.
 * - What a function writes must not overlap anything else that it is lent; what it only reads may overlap. Outputs, scratch and the memory of a new index may
 *   hold anything before.
 * - No function allocates, and none of the archive keeps a pointer or calls anything but memset. Several threads may read one index at a time while none changes
 *   it; each has its own scratch and its own outputs.
 * - The deletes take less than 114 KiB of stack, making and insert less than 24, the other functions less than 8.
 * - Floats are rounded to nearest, as they are in a program that does not change it.
 * - Each call tests anew what the refusals name, whoever wrote the words and the slices. The words of one index with the slices of another of the same sizes
 *   and live count are not told apart.
 *
 * What a call costs in the capacity, beside its work on the graph (docs/BENCHMARKS.md has times): every call on an index looks over marks, numbers and summary,
 * which takes less than 1 ns a slot, so reading slot after slot costs the capacity squared. The two deletes by numbers look over all three twice. Making writes
 * all slices, and sorts the given slots by number. A walk clears two bits of scratch for each slot: a search walks once, an insert once for each vector, a delete
 * once for each slot, an assessment twice for each landmark. An insert also goes over all slots for every 256 vectors or fewer, and so do enabling the guard and
 * an assessment that lacks landmarks, to sample them; a sampled slot is measured once for each landmark. An insert of up to 16 vectors moves, for each, at most as
 * many words of the summary as slots are live; one of more sorts the summary anew. The test for 15 sorts the given numbers in parts of 4,096, and looks the later
 * ones up in each part. A delete goes over all slots once more, to take the emptied ones out of numbers and summary.
 */
#ifndef FINDER_H
#define FINDER_H

#include <stddef.h>
#include <stdint.h>

#if SIZE_MAX != UINT64_MAX
#error "finder.h: size_t must have 64 bits"
#endif

#ifdef __cplusplus
extern "C" {
#endif

/* The version of this header. */
#define FINDER_VERSION_MAJOR 3
#define FINDER_VERSION_MINOR 1
#define FINDER_VERSION_PATCH 0
#define FINDER_VERSION (FINDER_VERSION_MAJOR * 10000 + FINDER_VERSION_MINOR * 100 + FINDER_VERSION_PATCH)

/* Before a function whose answer must be looked at. */
#if defined(__cplusplus) && __cplusplus >= 201703L
#define FINDER_CHECKED [[nodiscard]]
#elif defined(__GNUC__)
#define FINDER_CHECKED __attribute__((warn_unused_result))
#else
#define FINDER_CHECKED
#endif

/* Before a function of the archive: its answer must be looked at, and no pointer is null. */
#if defined(__GNUC__)
#define FINDER_CALL FINDER_CHECKED __attribute__((nonnull))
#else
#define FINDER_CALL FINDER_CHECKED
#endif

/* ---- Numbers and names ---- */

/* The words of an index. */
#define FINDER_INDEX_WORDS 12

/* Their names. The last five count only where the guard is on. */
enum finder_word {
    FINDER_WORD_DIM,
    FINDER_WORD_CAPACITY,
    FINDER_WORD_DEGREE,
    FINDER_WORD_ALPHA,          /* its bits */
    FINDER_WORD_ENTRY,
    FINDER_WORD_LIVE,           /* the live count */
    FINDER_WORD_GUARD,          /* 0 where it is off, any other value on; a function that writes the words writes 1, or 0 here and to those that follow */
    FINDER_WORD_LANDMARK_COUNT,
    FINDER_WORD_MULTIPLIER,
    FINDER_WORD_SAMPLE,
    FINDER_WORD_BEAM,
    FINDER_WORD_POOL            /* the length of the landmark pool */
};

/* The places of the landmark pool. */
#define FINDER_POOL 1024

/* No slot: an empty place of a row or of the summary. */
#define FINDER_BLANK 0xffffffffu

/* The largest dim, capacity and degree; the least is 1. */
#define FINDER_MAX_DIM 256
#define FINDER_MAX_CAPACITY 65536
#define FINDER_MAX_DEGREE 64

/* The largest weight of a place, the least being 1, and the largest sum of an index's weights. */
#define FINDER_MAX_WEIGHT 4
#define FINDER_MAX_WEIGHT_SUM 256

/* The largest beam; 0 acts as 1. */
#define FINDER_MAX_BEAM 1024

/* The largest landmark count, multiplier and sample of the guard, in each of which 0 acts as 1; the guard's beam is at most FINDER_MAX_BEAM. */
#define FINDER_MAX_LANDMARKS 64
#define FINDER_MAX_MULTIPLIER 16
#define FINDER_MAX_SAMPLE 65536

/* The most slots or numbers that a delete names, and its largest repair beam and repair degree, in each of which 0 acts as 1. */
#define FINDER_MAX_IDS 256
#define FINDER_MAX_REPAIR_BEAM 256
#define FINDER_MAX_REPAIR_DEGREE 16

/*
 * Values to begin with: degree 64, alpha 1.2, beam 128 for inserts and 64 for searches (measured in pair/README.md, beside degree 32, which is half the memory
 * of the rows), repair beam 64 and repair degree 4, and for the guard 64 landmarks, multiplier 1, sample 1,024 and beam 16 (docs/YEAR.md).
 */

/* The refusals: number, name, text. */
#define FINDER_REFUSALS(REFUSAL) \
    REFUSAL(0, FINDER_OK, "carried out") \
    REFUSAL(1, FINDER_BAD_SIZES, "dim, capacity or degree is outside its range") \
    REFUSAL(2, FINDER_BAD_ALPHA, "alpha is outside 1.0 to 2.0, or NaN") \
    REFUSAL(3, FINDER_BAD_LENGTH, "a slice or another list has another length than it must") \
    REFUSAL(4, FINDER_TOO_MANY, "more vectors are given than there are slots") \
    REFUSAL(5, FINDER_BAD_GIVEN, "a given row names neither blank nor a given slot, or the entry is not given (0 where none is given)") \
    REFUSAL(6, FINDER_BAD_INDEX, "the live count differs from the marks, numbers or summary are not as they must be, the entry is not below capacity, or the " \
        "guard is on with a setting or a pool outside its range") \
    REFUSAL(7, FINDER_OVER_LIMIT, "a beam, a repair degree or a setting of the guard over its limit, k over the length of an output, or more slots or numbers " \
        "than a call may name") \
    REFUSAL(8, FINDER_SHORT_SCRATCH, "the scratch is shorter than the sizes ask for") \
    REFUSAL(9, FINDER_BAD_BATCH, "the bytes to be inserted are no whole number of vectors") \
    REFUSAL(10, FINDER_FULL, "fewer slots are free than vectors are to be inserted") \
    REFUSAL(11, FINDER_GUARD_OFF, "the guard is off") \
    REFUSAL(12, FINDER_NO_LIVE, "no slot is live, so there is nothing to guard") \
    REFUSAL(13, FINDER_NO_LANDMARK, "one slot alone is live, so there is no landmark beside the entry") \
    REFUSAL(15, FINDER_BAD_NUMBER, "a number to be given is 0, carried by a live slot already, or twice in the list") \
    REFUSAL(16, FINDER_BAD_WEIGHTS, "a weight is outside 1 to 4, or their sum is over 256")

#define FINDER_REFUSAL_NAME(number, name, text) name = number,
enum finder_refusal { FINDER_REFUSALS(FINDER_REFUSAL_NAME) };
#undef FINDER_REFUSAL_NAME

/* The text of a refusal. */
static inline const char *finder_refusal_text(uint32_t refusal);

/* What some calls write. */

/* The counts of one slot that a delete emptied. */
struct finder_stats {
    uint32_t outgoing_seeds;         /* the live targets of its row, as they stood before */
    uint32_t recovered_in_neighbors; /* the slots of a walk to its vector whose row held it */
    uint32_t repair_candidates;      /* how many of both, each counted once, stay live */
    uint32_t repair_edges_attempted; /* the links put between them, one each way */
};

/* The guard's status; all 0 where it is off. */
struct finder_status {
    uint32_t enabled;        /* 1 where it is on, else 0 */
    uint32_t pool_size;      /* how many landmarks the pool holds */
    uint32_t live_landmarks; /* how many of them are live */
    uint32_t landmark_count; /* how many an assessment looks at */
    uint32_t beam;
};

/* The numbers of a report on a delete. */
struct finder_report {
    uint32_t admitted;     /* 1 where the delete is admitted, else 0 */
    uint32_t requested;    /* how many live slots are named */
    uint32_t entry;        /* where the trial walks start; FINDER_BLANK where there was none, since no live slot was named or none stays */
    uint32_t checked;      /* how many landmarks were looked at */
    uint32_t baseline;     /* how many of them a walk finds now */
    uint32_t residual;     /* how many it finds with the named slots left out */
    uint32_t lost;         /* how many it finds now and not then */
    uint32_t supplemental; /* how many of those looked at were chosen beside the pool */
};

/* ---- An index as a struct ---- */

/*
 * An index. finder_place or finder_load fills it, after which it is passed by address and neither changed by hand nor used as a copy: the lengths of the slices
 * are worked out from its words.
 *
 * Words and block are the whole index. To store it, write the words and the first finder_lengths_in(f).block_bytes bytes of the block; to have it again, call
 * finder_load. Both are in the machine's byte order, and the block is laid out as finder_place of this major version does.
 */
struct finder {
    uint32_t words[FINDER_INDEX_WORDS];
    uint8_t *vectors;   /* capacity * dim: the bytes of each slot's vector */
    uint32_t *targets;  /* capacity * degree: the references of each slot's row; FINDER_BLANK is no reference */
    uint16_t *edges;    /* capacity * degree: a version for each reference */
    uint16_t *versions; /* capacity: a version for each slot */
    uint8_t *marks;     /* capacity: not 0 where the slot is live */
    uint32_t *pool;     /* FINDER_POOL: the landmark pool */
    uint32_t *numbers;  /* capacity: the figure number of each slot; 0 where it is dead */
    uint32_t *summary;  /* capacity: the live slots by rising number, then FINDER_BLANK */
    uint8_t *weights;   /* dim: what each place of a vector counts in a distance */
};

/* What the calls work in: one for each thread, for all indexes whose sizes ask for no more. */
struct finder_scratch {
    uint32_t *words;
    size_t length;
};

/* The lengths of the nine slices in elements, and what a block and a scratch have in bytes. */
struct finder_layout {
    size_t vectors;
    size_t targets;
    size_t edges;
    size_t versions;
    size_t marks;
    size_t pool;
    size_t numbers;
    size_t summary;
    size_t weights;
    size_t block_bytes;
    size_t scratch_bytes;
};

/* A report with its lists: the first report.checked places of checked and the first report.lost places of lost. */
struct finder_assessment {
    struct finder_report report;
    uint32_t checked[FINDER_MAX_LANDMARKS];
    uint32_t lost[FINDER_MAX_LANDMARKS];
};

/*
 * Writes the lengths for these sizes to *lengths.
 * Refusals: 1.
 */
FINDER_CHECKED static inline uint32_t finder_lengths(uint32_t dim, uint32_t capacity, uint32_t degree, struct finder_layout *lengths);

/*
 * Lays the nine slices out in the block, which stays the caller's and is not written. Every call is refused, with 2, until finder_create_in was carried out. A
 * block that begins at a multiple of 64 is searched somewhat faster, where capacity is a multiple of 32, so that rows and vectors begin at one too.
 * Refusals, in order: 1, 3 (the block is null, not aligned for uint32_t, or shorter than block_bytes of finder_lengths).
 */
FINDER_CHECKED static inline uint32_t finder_place(struct finder *f, void *block, size_t block_bytes, uint32_t dim, uint32_t capacity, uint32_t degree);

/*
 * An index that was stored: its words, and the block with the bytes that were stored. What the refusals do not name is not tested. A block that version 2 stored
 * lacks the weights at its end: dim bytes, all 1.
 * Refusals, in order: those of finder_place, 2, 16, 6.
 */
FINDER_CHECKED static inline uint32_t finder_load(struct finder *f, const uint32_t words[FINDER_INDEX_WORDS], void *block, size_t block_bytes);

/*
 * A scratch in the block, which stays the caller's.
 * Refusals: 8 (the block is null, not aligned for uint32_t, or shorter than a word). Whether it is long enough for an index is tested by the calls.
 */
FINDER_CHECKED static inline uint32_t finder_place_scratch(struct finder_scratch *scratch, void *block, size_t block_bytes);

/* The lengths of an index; all 0 where its sizes are outside their ranges. */
static inline struct finder_layout finder_lengths_in(const struct finder *f);

/*
 * The calls. Lists come with their lengths, but for these: slots, dists and found_numbers of a search have k places, and stats has as many as the list of ids or
 * numbers. A null pointer counts as an empty list, whatever its length says; pointers to what is no list are not null.
 */

FINDER_CHECKED static inline uint32_t finder_create_in(struct finder *f, float alpha, uint32_t entry, uint32_t count,
    const uint8_t *bytes, size_t bytes_len, const uint32_t *rows, size_t rows_len, const uint32_t *given_numbers, size_t given_numbers_len,
    const uint8_t *given_weights, size_t given_weights_len);

FINDER_CHECKED static inline uint32_t finder_dim_in(const struct finder *f, uint32_t *value);
FINDER_CHECKED static inline uint32_t finder_capacity_in(const struct finder *f, uint32_t *value);
FINDER_CHECKED static inline uint32_t finder_degree_in(const struct finder *f, uint32_t *value);
FINDER_CHECKED static inline uint32_t finder_alpha_in(const struct finder *f, float *value);
FINDER_CHECKED static inline uint32_t finder_entry_in(const struct finder *f, uint32_t *value);
FINDER_CHECKED static inline uint32_t finder_live_in(const struct finder *f, uint32_t *value);
FINDER_CHECKED static inline uint32_t finder_mark_in(const struct finder *f, uint32_t slot, uint32_t *value);
FINDER_CHECKED static inline uint32_t finder_slot_version_in(const struct finder *f, uint32_t slot, uint32_t *value);
FINDER_CHECKED static inline uint32_t finder_number_in(const struct finder *f, uint32_t slot, uint32_t *value);
FINDER_CHECKED static inline uint32_t finder_target_in(const struct finder *f, uint32_t slot, uint32_t place, uint32_t *value);

/* The dim bytes of the slot's vector, or NULL where finder_vector gives 0. */
static inline const uint8_t *finder_vector_in(const struct finder *f, uint32_t slot);

FINDER_CHECKED static inline uint32_t finder_search_in(const struct finder *f, const uint8_t *query, size_t query_len, uint32_t k, uint32_t beam,
    uint32_t *slots, float *dists, uint32_t *found_numbers, struct finder_scratch scratch, uint32_t *found);

FINDER_CHECKED static inline uint32_t finder_insert_in(struct finder *f, const uint8_t *bytes, size_t bytes_len,
    const uint32_t *new_numbers, size_t new_numbers_len, uint32_t beam, uint32_t *slots, size_t slots_len, struct finder_scratch scratch, uint32_t *found);

FINDER_CHECKED static inline uint32_t finder_delete_in(struct finder *f, const uint32_t *ids, size_t ids_len, uint32_t repair_beam, uint32_t repair_degree,
    struct finder_stats *stats, struct finder_scratch scratch, uint32_t *found);

FINDER_CHECKED static inline uint32_t finder_delete_numbers_in(struct finder *f, const uint32_t *named_numbers, size_t named_numbers_len,
    uint32_t repair_beam, uint32_t repair_degree, struct finder_stats *stats, struct finder_scratch scratch, uint32_t *found);

FINDER_CHECKED static inline uint32_t finder_guard_enable_in(struct finder *f, uint32_t landmark_count, uint32_t multiplier, uint32_t sample, uint32_t beam,
    struct finder_scratch scratch, struct finder_status *status);

FINDER_CHECKED static inline uint32_t finder_guard_status_in(const struct finder *f, struct finder_status *status);

FINDER_CHECKED static inline uint32_t finder_assess_in(const struct finder *f, const uint32_t *ids, size_t ids_len,
    struct finder_scratch scratch, struct finder_assessment *assessment);

FINDER_CHECKED static inline uint32_t finder_guarded_delete_in(struct finder *f, const uint32_t *ids, size_t ids_len, uint32_t repair_beam, uint32_t repair_degree,
    struct finder_stats *stats, struct finder_scratch scratch, uint32_t *found, struct finder_assessment *assessment);

FINDER_CHECKED static inline uint32_t finder_guarded_delete_numbers_in(struct finder *f, const uint32_t *named_numbers, size_t named_numbers_len,
    uint32_t repair_beam, uint32_t repair_degree, struct finder_stats *stats, struct finder_scratch scratch, uint32_t *found,
    struct finder_assessment *assessment);

/* ---- An index in parts: the functions of the archive ---- */

/*
 * They take the words, then the nine slices in the order of struct finder, which tells their lengths. Every pointer is aligned and not null, also where the
 * length is 0, and has that many elements behind it.
 */

/* The nine slices as parameters: const those that are only read. */
#define FINDER_LENT(VECTORS, TARGETS, EDGES, VERSIONS, MARKS, POOL, NUMBERS, SUMMARY, WEIGHTS) \
    VECTORS uint8_t *vectors, size_t vectors_len, TARGETS uint32_t *targets, size_t targets_len, EDGES uint16_t *edges, size_t edges_len, \
    VERSIONS uint16_t *versions, size_t versions_len, MARKS uint8_t *marks, size_t marks_len, POOL uint32_t *pool, size_t pool_len, \
    NUMBERS uint32_t *numbers, size_t numbers_len, SUMMARY uint32_t *summary, size_t summary_len, WEIGHTS uint8_t *weights, size_t weights_len
#define FINDER_LENT_READ FINDER_LENT(const, const, const, const, const, const, const, const, const)
#define FINDER_LENT_CREATE FINDER_LENT(, , , , , , , , )
#define FINDER_LENT_INSERT FINDER_LENT(, , , const, , const, , , const)
#define FINDER_LENT_DELETE FINDER_LENT(const, , , , , const, , , const)
#define FINDER_LENT_ENABLE FINDER_LENT(const, const, const, const, const, , const, const, const)

/* The version of the archive: FINDER_VERSION of the header that belongs to it. */
uint32_t finder_version(void);

/*
 * How many words of scratch the calls on an index of these sizes ask for, at most 8,388,608. Written to *size.
 * Refusals: 1.
 */
FINDER_CALL uint32_t finder_scratch_words(uint32_t dim, uint32_t capacity, uint32_t degree, uint32_t *size);

/*
 * Makes an index of which the first count slots are given: bytes has the vectors (count * dim), rows the references (count * degree, each FINDER_BLANK or
 * a given slot), given_numbers the figure numbers (count), given_weights the weight of each place of a vector (dim). Whatever the nine slices held, they are
 * written whole, and so are the index's words. The guard is off.
 * Alpha says how full pruning leaves the rows: going from near to far, it drops a candidate whose (squared) distance to the row's slot is more than alpha
 * times that to a reference taken before, so a larger alpha keeps more references. 1.0 keeps the fewest; 1.2 is usual, and what was measured.
 * Refusals, in order: 1, 2, 3 (one of the nine slices, bytes, rows, given_numbers or given_weights), 16, 4, 5, 15.
 */
FINDER_CALL uint32_t finder_create(uint32_t dim, uint32_t capacity, uint32_t degree, float alpha, uint32_t entry, uint32_t count,
    const uint8_t *bytes, size_t bytes_len, const uint32_t *rows, size_t rows_len, const uint32_t *given_numbers, size_t given_numbers_len,
    const uint8_t *given_weights, size_t given_weights_len, FINDER_LENT_CREATE, uint32_t words[FINDER_INDEX_WORDS]);

/*
 * Readings. Each writes what it read to *value.
 * Refusals, in order: 1, 2, 3, 16, 6.
 */

/* The dim. */
FINDER_CALL uint32_t finder_dim(const uint32_t words[FINDER_INDEX_WORDS], FINDER_LENT_READ, uint32_t *value);

/* The capacity. */
FINDER_CALL uint32_t finder_capacity(const uint32_t words[FINDER_INDEX_WORDS], FINDER_LENT_READ, uint32_t *value);

/* The degree. */
FINDER_CALL uint32_t finder_degree(const uint32_t words[FINDER_INDEX_WORDS], FINDER_LENT_READ, uint32_t *value);

/* Alpha. */
FINDER_CALL uint32_t finder_alpha(const uint32_t words[FINDER_INDEX_WORDS], FINDER_LENT_READ, float *value);

/* The slot at which a search starts. */
FINDER_CALL uint32_t finder_entry(const uint32_t words[FINDER_INDEX_WORDS], FINDER_LENT_READ, uint32_t *value);

/* How many slots are live. */
FINDER_CALL uint32_t finder_live(const uint32_t words[FINDER_INDEX_WORDS], FINDER_LENT_READ, uint32_t *value);

/* The mark of a slot: 1 where it is live, 0 where it is dead or outside. */
FINDER_CALL uint32_t finder_mark(const uint32_t words[FINDER_INDEX_WORDS], FINDER_LENT_READ, uint32_t slot, uint32_t *value);

/* The version of a slot, 0 to 65,535; 0 for a slot outside. */
FINDER_CALL uint32_t finder_slot_version(const uint32_t words[FINDER_INDEX_WORDS], FINDER_LENT_READ, uint32_t slot, uint32_t *value);

/* The figure number of a slot; 0 where it is dead or outside. */
FINDER_CALL uint32_t finder_number(const uint32_t words[FINDER_INDEX_WORDS], FINDER_LENT_READ, uint32_t slot, uint32_t *value);

/* The target at a place, from 0, among the live ones of a slot's row; FINDER_BLANK past the last and for a slot outside. */
FINDER_CALL uint32_t finder_target(const uint32_t words[FINDER_INDEX_WORDS], FINDER_LENT_READ, uint32_t slot, uint32_t place, uint32_t *value);

/*
 * How many bytes the vector of a slot has: dim where the slot is live, and they begin at vectors + (size_t)slot * dim; 0 where it is dead or outside, and
 * where the call is refused, with 1, 2, 3, 16 or 6, which is not told.
 */
FINDER_CALL size_t finder_vector(const uint32_t words[FINDER_INDEX_WORDS], FINDER_LENT_READ, uint32_t slot);

/*
 * Walks the graph from the entry with a list of at most beam slots and gives the k nearest to the query that it finds, nearest first, of equals the lower slot
 * first. How many they are is written to *found: at most k, at most beam, and 0 where the entry is dead. The slots, the distances (sums of squared differences,
 * each times its place's weight: whole numbers below 2^24; no root is taken) and the figure numbers are written to the first *found places of the outputs; the
 * places after them stay. The scratch is overwritten.
 * A larger beam finds more and takes longer; 0 and 1 give the entry alone. Take at least k. With 15,000 vectors 16, 64 and 256 found 95.9, 99.6 and 99.9 of 100
 * true neighbours (docs/YEAR.md).
 * Refusals, in order: 1, 2, 3 (one of the nine slices, or a query that is not dim long), 16, 6, 7 (a beam over its limit, or k over one of the three outputs), 8.
 */
FINDER_CALL uint32_t finder_search(const uint32_t words[FINDER_INDEX_WORDS], FINDER_LENT_READ,
    const uint8_t *query, size_t query_len, uint32_t k, uint32_t beam,
    uint32_t *slots, size_t slots_len, float *dists, size_t dists_len, uint32_t *found_numbers, size_t found_numbers_len,
    uint32_t *scratch, size_t scratch_len, uint32_t *found);

/*
 * Inserts a batch: bytes has the vectors, one after the other, bytes_len / dim of them, and new_numbers the figure number of each. They go into the lowest free
 * slots, the first vector into the lowest. For each a walk from the entry, with a list of at most beam or degree slots, whichever is more, finds neighbours, of
 * which pruning selects its row; the rows of those selected are pruned anew with the new slot among their references. How many vectors they are is written to
 * *found and the slots that they got to the first *found places of slots, lowest first; the places after them stay. Where no slot is live and a vector is
 * given, the first slot filled, slot 0, becomes the entry before the walks. The words get the new live count and that entry, and numbers and summary take the
 * new slots up; versions, pool and weights are only read. The rows of 256 vectors at a time are worked out on the index as it stands before any of them is
 * written, so vectors of one call do not find each other, but the entry where it is one of them: new titles are better inserted one vector to a call
 * (docs/YEAR.md). The scratch is overwritten.
 * Refusals, in order: 1, 2, 3 (one of the nine slices, fewer places in slots than vectors, or not one number for each; bytes after the last whole vector do not
 * count), 16, 6, 7, 8, 9, 10, 15.
 */
FINDER_CALL uint32_t finder_insert(uint32_t words[FINDER_INDEX_WORDS], FINDER_LENT_INSERT,
    const uint8_t *bytes, size_t bytes_len, const uint32_t *new_numbers, size_t new_numbers_len, uint32_t beam,
    uint32_t *slots, size_t slots_len, uint32_t *scratch, size_t scratch_len,
    uint32_t *found);

/*
 * Deletes the slots that ids name and repairs the rows around them; an id that is dead or outside, or that stood there before, is skipped. The slots are
 * emptied in rising order: their marks are cleared, the live ones that were near are linked with each other (by walks with a list of at most repair_beam
 * slots, and with at most repair_degree links for each), their rows are emptied and their versions step on by 1 (after 65,535 comes 0), which outdates
 * what still refers to them. Their figure numbers become 0, the summary leaves them out, and the numbers that they had may be given again. Where the entry is
 * deleted, the lowest live slot becomes the entry; if none is left it stays. The guard is not asked. How many slots they are is written to *found and their counts
 * to the first *found places of stats, in the order of the slots; the places after them stay. The words get the new live count and entry; vectors, pool and
 * weights are only read. The scratch is overwritten.
 * Refusals, in order: 1, 2, 3 (one of the nine slices, or fewer places in stats than ids), 16, 6, 7, 8.
 */
FINDER_CALL uint32_t finder_delete(uint32_t words[FINDER_INDEX_WORDS], FINDER_LENT_DELETE,
    const uint32_t *ids, size_t ids_len, uint32_t repair_beam, uint32_t repair_degree,
    struct finder_stats *stats, size_t stats_len, uint32_t *scratch, size_t scratch_len,
    uint32_t *found);

/*
 * Deletes as finder_delete does the live slots whose figure numbers stand in named_numbers; a number that no live slot carries, 0 too, or that stood there before,
 * is skipped. The counts are in the order of the slots, not of the numbers.
 * Refusals, in order: 1, 2, 3 (one of the nine slices, or fewer places in stats than numbers), 16, 6, 7, 8. For 3 and 7 all numbers in the list count.
 */
FINDER_CALL uint32_t finder_delete_numbers(uint32_t words[FINDER_INDEX_WORDS], FINDER_LENT_DELETE,
    const uint32_t *named_numbers, size_t named_numbers_len, uint32_t repair_beam, uint32_t repair_degree,
    struct finder_stats *stats, size_t stats_len, uint32_t *scratch, size_t scratch_len,
    uint32_t *found);

/*
 * The guard. It keeps a pool of landmarks, live slots far from the entry and from each other, and assesses a delete by trial walks to them.
 */

/*
 * Enables the guard, which may be on already. Chooses landmark_count * multiplier landmarks at most, writes them to the front of pool (the places after them
 * stay), and writes the index's words and *status. They are chosen out of the live ones of every n-th slot, n being capacity / sample, at least 1; if these are
 * fewer than wanted, out of all live slots. In each of the four settings 0 acts as 1, and is stored so. The scratch is overwritten.
 * Refusals, in order: 1, 2, 3, 16, 6, 7, 8, 12, 13.
 */
FINDER_CALL uint32_t finder_guard_enable(uint32_t words[FINDER_INDEX_WORDS], FINDER_LENT_ENABLE,
    uint32_t landmark_count, uint32_t multiplier, uint32_t sample, uint32_t beam, uint32_t *scratch, size_t scratch_len,
    struct finder_status *status);

/*
 * Writes the guard's status to *status.
 * Refusals, in order: 1, 2, 3, 16, 6.
 */
FINDER_CALL uint32_t finder_guard_status(const uint32_t words[FINDER_INDEX_WORDS], FINDER_LENT_READ, struct finder_status *status);

/*
 * Assesses a delete of the slots that ids name, and deletes nothing; an id that is dead or outside, or that stood there before, does not count. The
 * landmarks looked at are written to the front of checked, those lost to the front of lost, and the numbers to *report; the places after them stay. Both
 * lists have FINDER_MAX_LANDMARKS places at least. A delete is admitted where a walk finds some landmark now and none is lost, or where no live slot is
 * named. The scratch is overwritten.
 * Refusals, in order: 1, 2, 3 (one of the nine slices, or a list that is too short), 16, 6, 7, 8, 11.
 */
FINDER_CALL uint32_t finder_assess(const uint32_t words[FINDER_INDEX_WORDS], FINDER_LENT_READ, const uint32_t *ids, size_t ids_len,
    uint32_t *checked, size_t checked_len, uint32_t *lost, size_t lost_len, uint32_t *scratch, size_t scratch_len, struct finder_report *report);

/*
 * Deletes as finder_delete does, if the guard admits it, which report->admitted says: 0 where the delete is deferred, and then words, slices and stats stay
 * and *found is 0. The report is that of finder_assess, in both cases: the landmarks looked at are written to the front of checked, those lost to the front
 * of lost, and the numbers to *report. Where no live slot is named the delete is admitted, and empties none. The scratch is overwritten.
 * Refusals, in order: 1, 2, 3 (one of the nine slices, fewer places in stats than ids, or a list that is too short), 16, 6, 7, 8, 11.
 */
FINDER_CALL uint32_t finder_guarded_delete(uint32_t words[FINDER_INDEX_WORDS], FINDER_LENT_DELETE,
    const uint32_t *ids, size_t ids_len, uint32_t repair_beam, uint32_t repair_degree,
    struct finder_stats *stats, size_t stats_len, uint32_t *checked, size_t checked_len, uint32_t *lost, size_t lost_len,
    uint32_t *scratch, size_t scratch_len, uint32_t *found, struct finder_report *report);

/*
 * Deletes as finder_guarded_delete does, by figure numbers as finder_delete_numbers does. The landmarks of the report are slots.
 * Refusals, in order: 1, 2, 3 (one of the nine slices, fewer places in stats than numbers, or a list that is too short), 16, 6, 7, 8, 11.
 */
FINDER_CALL uint32_t finder_guarded_delete_numbers(uint32_t words[FINDER_INDEX_WORDS], FINDER_LENT_DELETE,
    const uint32_t *named_numbers, size_t named_numbers_len, uint32_t repair_beam, uint32_t repair_degree,
    struct finder_stats *stats, size_t stats_len, uint32_t *checked, size_t checked_len, uint32_t *lost, size_t lost_len,
    uint32_t *scratch, size_t scratch_len, uint32_t *found, struct finder_report *report);

/* ---- The inline functions ---- */

static inline const char *finder_refusal_text(uint32_t refusal)
{
#define FINDER_REFUSAL_TEXT(number, name, text) case number: return text;
    switch (refusal) {
        FINDER_REFUSALS(FINDER_REFUSAL_TEXT)
        default: return "no refusal has this number";
    }
#undef FINDER_REFUSAL_TEXT
}

static inline uint32_t finder_lengths(uint32_t dim, uint32_t capacity, uint32_t degree, struct finder_layout *lengths)
{
    uint32_t scratch = 0;
    uint32_t refusal = finder_scratch_words(dim, capacity, degree, &scratch);
    if (refusal)
        return refusal;
    lengths->vectors = (size_t)capacity * dim;
    lengths->targets = (size_t)capacity * degree;
    lengths->edges = (size_t)capacity * degree;
    lengths->versions = capacity;
    lengths->marks = capacity;
    lengths->pool = FINDER_POOL;
    lengths->numbers = capacity;
    lengths->summary = capacity;
    lengths->weights = dim;
    lengths->block_bytes = (lengths->targets + lengths->pool + lengths->numbers + lengths->summary) * sizeof(uint32_t)
        + (lengths->edges + lengths->versions) * sizeof(uint16_t) + lengths->vectors + lengths->marks + lengths->weights;
    lengths->scratch_bytes = scratch * sizeof(uint32_t);
    return FINDER_OK;
}

static inline struct finder_layout finder_lengths_in(const struct finder *f)
{
    struct finder_layout lengths = { 0, 0, 0, 0, 0, 0, 0, 0, 0, 0, 0 };
    uint32_t refusal = finder_lengths(f->words[FINDER_WORD_DIM], f->words[FINDER_WORD_CAPACITY], f->words[FINDER_WORD_DEGREE], &lengths);
    (void)refusal; /* which has left the zeros */
    return lengths;
}

/* The slices of four bytes come first, then those of two, then those of one: each is aligned where the block is. */
static inline uint32_t finder_place(struct finder *f, void *block, size_t block_bytes, uint32_t dim, uint32_t capacity, uint32_t degree)
{
    struct finder_layout n;
    uint32_t refusal = finder_lengths(dim, capacity, degree, &n);
    int i;
    if (refusal)
        return refusal;
    if (!block || (uintptr_t)block % sizeof(uint32_t) != 0 || block_bytes < n.block_bytes)
        return FINDER_BAD_LENGTH;
    for (i = 0; i < FINDER_INDEX_WORDS; i++)
        f->words[i] = 0;
    f->words[FINDER_WORD_DIM] = dim;
    f->words[FINDER_WORD_CAPACITY] = capacity;
    f->words[FINDER_WORD_DEGREE] = degree;
    f->targets = (uint32_t *)block;
    f->pool = f->targets + n.targets;
    f->numbers = f->pool + n.pool;
    f->summary = f->numbers + n.numbers;
    f->edges = (uint16_t *)(f->summary + n.summary);
    f->versions = f->edges + n.edges;
    f->vectors = (uint8_t *)(f->versions + n.versions);
    f->marks = f->vectors + n.vectors;
    f->weights = f->marks + n.marks;
    return FINDER_OK;
}

static inline uint32_t finder_load(struct finder *f, const uint32_t words[FINDER_INDEX_WORDS], void *block, size_t block_bytes)
{
    struct finder stored;
    uint32_t refusal = finder_place(&stored, block, block_bytes, words[FINDER_WORD_DIM], words[FINDER_WORD_CAPACITY], words[FINDER_WORD_DEGREE]);
    uint32_t live;
    int i;
    if (refusal)
        return refusal;
    for (i = 0; i < FINDER_INDEX_WORDS; i++)
        stored.words[i] = words[i];
    refusal = finder_live_in(&stored, &live);
    if (refusal)
        return refusal;
    *f = stored;
    return FINDER_OK;
}

static inline uint32_t finder_place_scratch(struct finder_scratch *scratch, void *block, size_t block_bytes)
{
    if (!block || (uintptr_t)block % sizeof(uint32_t) != 0 || block_bytes < sizeof(uint32_t))
        return FINDER_SHORT_SCRATCH;
    scratch->words = (uint32_t *)block;
    scratch->length = block_bytes / sizeof(uint32_t);
    return FINDER_OK;
}

/* A list as two arguments; a null one is passed as an empty list at the address of `none`. */
#define FINDER_LIST(type, list, len) (list) ? (list) : (type *)&none, (list) ? (len) : 0

/* The nine slices of f as arguments, n being its lengths. */
#define FINDER_SLICES \
    FINDER_LIST(uint8_t, f->vectors, n.vectors), FINDER_LIST(uint32_t, f->targets, n.targets), FINDER_LIST(uint16_t, f->edges, n.edges), \
    FINDER_LIST(uint16_t, f->versions, n.versions), FINDER_LIST(uint8_t, f->marks, n.marks), FINDER_LIST(uint32_t, f->pool, n.pool), \
    FINDER_LIST(uint32_t, f->numbers, n.numbers), FINDER_LIST(uint32_t, f->summary, n.summary), FINDER_LIST(uint8_t, f->weights, n.weights)

/* What these two name. */
#define FINDER_PARTS \
    const struct finder_layout n = finder_lengths_in(f); \
    uint32_t none = 0

static inline uint32_t finder_create_in(struct finder *f, float alpha, uint32_t entry, uint32_t count,
    const uint8_t *bytes, size_t bytes_len, const uint32_t *rows, size_t rows_len, const uint32_t *given_numbers, size_t given_numbers_len,
    const uint8_t *given_weights, size_t given_weights_len)
{
    FINDER_PARTS;
    return finder_create(f->words[FINDER_WORD_DIM], f->words[FINDER_WORD_CAPACITY], f->words[FINDER_WORD_DEGREE], alpha, entry, count,
        FINDER_LIST(const uint8_t, bytes, bytes_len), FINDER_LIST(const uint32_t, rows, rows_len),
        FINDER_LIST(const uint32_t, given_numbers, given_numbers_len), FINDER_LIST(const uint8_t, given_weights, given_weights_len), FINDER_SLICES,
        f->words);
}

static inline uint32_t finder_dim_in(const struct finder *f, uint32_t *value)
{
    FINDER_PARTS;
    return finder_dim(f->words, FINDER_SLICES, value);
}

static inline uint32_t finder_capacity_in(const struct finder *f, uint32_t *value)
{
    FINDER_PARTS;
    return finder_capacity(f->words, FINDER_SLICES, value);
}

static inline uint32_t finder_degree_in(const struct finder *f, uint32_t *value)
{
    FINDER_PARTS;
    return finder_degree(f->words, FINDER_SLICES, value);
}

static inline uint32_t finder_alpha_in(const struct finder *f, float *value)
{
    FINDER_PARTS;
    return finder_alpha(f->words, FINDER_SLICES, value);
}

static inline uint32_t finder_entry_in(const struct finder *f, uint32_t *value)
{
    FINDER_PARTS;
    return finder_entry(f->words, FINDER_SLICES, value);
}

static inline uint32_t finder_live_in(const struct finder *f, uint32_t *value)
{
    FINDER_PARTS;
    return finder_live(f->words, FINDER_SLICES, value);
}

static inline uint32_t finder_mark_in(const struct finder *f, uint32_t slot, uint32_t *value)
{
    FINDER_PARTS;
    return finder_mark(f->words, FINDER_SLICES, slot, value);
}

static inline uint32_t finder_slot_version_in(const struct finder *f, uint32_t slot, uint32_t *value)
{
    FINDER_PARTS;
    return finder_slot_version(f->words, FINDER_SLICES, slot, value);
}

static inline uint32_t finder_number_in(const struct finder *f, uint32_t slot, uint32_t *value)
{
    FINDER_PARTS;
    return finder_number(f->words, FINDER_SLICES, slot, value);
}

static inline uint32_t finder_target_in(const struct finder *f, uint32_t slot, uint32_t place, uint32_t *value)
{
    FINDER_PARTS;
    return finder_target(f->words, FINDER_SLICES, slot, place, value);
}

static inline const uint8_t *finder_vector_in(const struct finder *f, uint32_t slot)
{
    FINDER_PARTS;
    size_t dim = finder_vector(f->words, FINDER_SLICES, slot);
    return dim ? f->vectors + slot * dim : NULL;
}

static inline uint32_t finder_search_in(const struct finder *f, const uint8_t *query, size_t query_len, uint32_t k, uint32_t beam,
    uint32_t *slots, float *dists, uint32_t *found_numbers, struct finder_scratch scratch, uint32_t *found)
{
    FINDER_PARTS;
    return finder_search(f->words, FINDER_SLICES, FINDER_LIST(const uint8_t, query, query_len), k, beam,
        FINDER_LIST(uint32_t, slots, k), FINDER_LIST(float, dists, k), FINDER_LIST(uint32_t, found_numbers, k),
        FINDER_LIST(uint32_t, scratch.words, scratch.length), found);
}

static inline uint32_t finder_insert_in(struct finder *f, const uint8_t *bytes, size_t bytes_len,
    const uint32_t *new_numbers, size_t new_numbers_len, uint32_t beam, uint32_t *slots, size_t slots_len, struct finder_scratch scratch, uint32_t *found)
{
    FINDER_PARTS;
    return finder_insert(f->words, FINDER_SLICES, FINDER_LIST(const uint8_t, bytes, bytes_len), FINDER_LIST(const uint32_t, new_numbers, new_numbers_len), beam,
        FINDER_LIST(uint32_t, slots, slots_len), FINDER_LIST(uint32_t, scratch.words, scratch.length), found);
}

static inline uint32_t finder_delete_in(struct finder *f, const uint32_t *ids, size_t ids_len, uint32_t repair_beam, uint32_t repair_degree,
    struct finder_stats *stats, struct finder_scratch scratch, uint32_t *found)
{
    FINDER_PARTS;
    return finder_delete(f->words, FINDER_SLICES, FINDER_LIST(const uint32_t, ids, ids_len), repair_beam, repair_degree,
        FINDER_LIST(struct finder_stats, stats, ids_len), FINDER_LIST(uint32_t, scratch.words, scratch.length), found);
}

static inline uint32_t finder_delete_numbers_in(struct finder *f, const uint32_t *named_numbers, size_t named_numbers_len,
    uint32_t repair_beam, uint32_t repair_degree, struct finder_stats *stats, struct finder_scratch scratch, uint32_t *found)
{
    FINDER_PARTS;
    return finder_delete_numbers(f->words, FINDER_SLICES, FINDER_LIST(const uint32_t, named_numbers, named_numbers_len), repair_beam, repair_degree,
        FINDER_LIST(struct finder_stats, stats, named_numbers_len), FINDER_LIST(uint32_t, scratch.words, scratch.length), found);
}

static inline uint32_t finder_guard_enable_in(struct finder *f, uint32_t landmark_count, uint32_t multiplier, uint32_t sample, uint32_t beam,
    struct finder_scratch scratch, struct finder_status *status)
{
    FINDER_PARTS;
    return finder_guard_enable(f->words, FINDER_SLICES, landmark_count, multiplier, sample, beam,
        FINDER_LIST(uint32_t, scratch.words, scratch.length), status);
}

static inline uint32_t finder_guard_status_in(const struct finder *f, struct finder_status *status)
{
    FINDER_PARTS;
    return finder_guard_status(f->words, FINDER_SLICES, status);
}

static inline uint32_t finder_assess_in(const struct finder *f, const uint32_t *ids, size_t ids_len,
    struct finder_scratch scratch, struct finder_assessment *assessment)
{
    FINDER_PARTS;
    return finder_assess(f->words, FINDER_SLICES, FINDER_LIST(const uint32_t, ids, ids_len),
        assessment->checked, FINDER_MAX_LANDMARKS, assessment->lost, FINDER_MAX_LANDMARKS,
        FINDER_LIST(uint32_t, scratch.words, scratch.length), &assessment->report);
}

static inline uint32_t finder_guarded_delete_in(struct finder *f, const uint32_t *ids, size_t ids_len, uint32_t repair_beam, uint32_t repair_degree,
    struct finder_stats *stats, struct finder_scratch scratch, uint32_t *found, struct finder_assessment *assessment)
{
    FINDER_PARTS;
    return finder_guarded_delete(f->words, FINDER_SLICES, FINDER_LIST(const uint32_t, ids, ids_len), repair_beam, repair_degree,
        FINDER_LIST(struct finder_stats, stats, ids_len), assessment->checked, FINDER_MAX_LANDMARKS, assessment->lost, FINDER_MAX_LANDMARKS,
        FINDER_LIST(uint32_t, scratch.words, scratch.length), found, &assessment->report);
}

static inline uint32_t finder_guarded_delete_numbers_in(struct finder *f, const uint32_t *named_numbers, size_t named_numbers_len,
    uint32_t repair_beam, uint32_t repair_degree, struct finder_stats *stats, struct finder_scratch scratch, uint32_t *found,
    struct finder_assessment *assessment)
{
    FINDER_PARTS;
    return finder_guarded_delete_numbers(f->words, FINDER_SLICES, FINDER_LIST(const uint32_t, named_numbers, named_numbers_len), repair_beam, repair_degree,
        FINDER_LIST(struct finder_stats, stats, named_numbers_len), assessment->checked, FINDER_MAX_LANDMARKS, assessment->lost, FINDER_MAX_LANDMARKS,
        FINDER_LIST(uint32_t, scratch.words, scratch.length), found, &assessment->report);
}

#undef FINDER_LIST
#undef FINDER_SLICES
#undef FINDER_PARTS

#ifdef __cplusplus
}
#endif

#endif
