/*
 * A first program: figures are inserted into an index under their numbers, found again by a placeholder of each, one is deleted, and the index is stored and loaded.
 */
#include "finder.h"

#include <stdio.h>
#include <stdlib.h>
#include <string.h>

/* The figures have the numbers FIRST to FIRST + FIGURES - 1; no figure has the number NOBODY. */
enum { DIM = 64, CAPACITY = 200, DEGREE = 16, FIGURES = 150, FIRST = 1001, K = 3, BEAM = 64, NOBODY = 0 };

/* Ends the program where a call is refused, or where something is not as it must be. */
static void must(uint32_t refusal, const char *what)
{
    if (refusal != FINDER_OK) {
        fprintf(stderr, "%s: refused with %u, %s\n", what, (unsigned)refusal, finder_refusal_text(refusal));
        exit(1);
    }
}

static void expect(int fact, const char *what)
{
    if (!fact) {
        fprintf(stderr, "not so: %s\n", what);
        exit(1);
    }
}

/* The grey values of a figure, drawn; those of its placeholder differ a little. */
static void grey_values(uint32_t number, int change, uint8_t values[DIM])
{
    uint32_t state = 2654435761u * number;
    for (int i = 0; i < DIM; i++) {
        state = state * 1664525u + 1013904223u;
        values[i] = (uint8_t)((state >> 24) / 2 + (uint32_t)(change * (i % 3)));
    }
}

static struct finder f;
static struct finder_scratch scratch;

/* The number of the figure whose vector is the nearest to the placeholder of figure `number`, or NOBODY. */
static uint32_t find(uint32_t number)
{
    uint8_t query[DIM];
    uint32_t slots[K], numbers[K];
    float dists[K];
    uint32_t found;
    grey_values(number, 2, query);
    must(finder_search_in(&f, query, DIM, K, BEAM, slots, dists, numbers, scratch, &found), "search");
    return found ? numbers[0] : NOBODY;
}

/* One vector to a call: vectors of one call do not find each other. */
static void insert_all(void)
{
    for (uint32_t number = FIRST; number < FIRST + FIGURES; number++) {
        uint8_t values[DIM];
        uint32_t slot, found;
        grey_values(number, 0, values);
        must(finder_insert_in(&f, values, DIM, &number, 1, BEAM, &slot, 1, scratch, &found), "insert");
    }
}

static void delete_one(uint32_t number)
{
    struct finder_stats stats;
    uint32_t found;
    must(finder_delete_numbers_in(&f, &number, 1, 64, 4, &stats, scratch, &found), "delete");
    expect(found == 1, "the figure was there");
}

/* The words and the block are the whole index. */
static void store(FILE *file, const void *block)
{
    size_t bytes = finder_lengths_in(&f).block_bytes;
    expect(fwrite(f.words, sizeof f.words, 1, file) == 1 && fwrite(block, bytes, 1, file) == 1, "stored");
}

/* The block's size is that of the sizes in the stored words. */
static void *load(FILE *file)
{
    uint32_t words[FINDER_INDEX_WORDS];
    struct finder_layout n;
    void *block;
    expect(fread(words, sizeof words, 1, file) == 1, "words read");
    must(finder_lengths(words[FINDER_WORD_DIM], words[FINDER_WORD_CAPACITY], words[FINDER_WORD_DEGREE], &n), "stored sizes");
    block = malloc(n.block_bytes);
    expect(block && fread(block, n.block_bytes, 1, file) == 1, "block read");
    must(finder_load(&f, words, block, n.block_bytes), "load");
    return block;
}

int main(void)
{
    struct finder_layout n;
    void *block, *work;
    uint8_t weights[DIM];
    FILE *file = tmpfile();
    int found = 0;

    must(finder_lengths(DIM, CAPACITY, DEGREE, &n), "sizes");
    block = malloc(n.block_bytes);
    work = malloc(n.scratch_bytes);
    must(finder_place(&f, block, n.block_bytes, DIM, CAPACITY, DEGREE), "place");
    must(finder_place_scratch(&scratch, work, n.scratch_bytes), "scratch");
    /* all places of a vector count alike */
    memset(weights, 1, sizeof weights);
    must(finder_create_in(&f, 1.2f, 0, 0, NULL, 0, NULL, 0, NULL, 0, weights, DIM), "create");

    insert_all();
    for (uint32_t number = FIRST; number < FIRST + FIGURES; number++)
        found += find(number) == number;
    printf("%d figures in %zu bytes, scratch %zu: %d found by their placeholders\n", FIGURES, n.block_bytes, n.scratch_bytes, found);
    expect(found == FIGURES, "all found");

    delete_one(1007);
    printf("figure 1007 is deleted; nearest to its placeholder is now figure %u\n", (unsigned)find(1007));
    expect(find(1007) != 1007 && find(1007) != NOBODY, "figure 1007 is gone");

    expect(file != NULL, "a file");
    store(file, block);
    free(block);
    rewind(file);
    block = load(file);
    expect(find(1008) == 1008 && find(1007) != 1007, "the loaded index answers as the stored one");
    printf("stored and loaded: %u live, figures %u to %u\n", (unsigned)f.words[FINDER_WORD_LIVE], (unsigned)f.numbers[f.summary[0]],
        (unsigned)f.numbers[f.summary[f.words[FINDER_WORD_LIVE] - 1]]);

    fclose(file);
    free(block);
    free(work);
    return 0;
}
