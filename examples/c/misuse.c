/* Mistakes that the compiler must refuse: headers.sh compiles this file once for each number, and once with 0, which is none. */
#include "finder.h"

uint32_t use(struct finder *f, const struct finder *lent, const uint8_t *query, uint32_t *slots, float *dists, uint32_t *numbers, struct finder_scratch scratch,
    uint32_t *found)
{
    uint32_t refusal = finder_search_in(lent, query, 4, 1, 64, slots, dists, numbers, scratch, found);
#if MISUSE == 1 /* an index that is const is changed */
    refusal = finder_insert_in(lent, query, 4, numbers, 1, 64, slots, 1, scratch, found);
#elif MISUSE == 2 /* a refusal is not looked at */
    finder_insert_in(f, query, 4, numbers, 1, 64, slots, 1, scratch, found);
#elif MISUSE == 3 /* slots and scratch are exchanged */
    refusal = finder_insert_in(f, query, 4, numbers, 1, 64, scratch, 1, slots, found);
#elif MISUSE == 4 /* slots and dists are exchanged */
    refusal = finder_search_in(lent, query, 4, 1, 64, dists, slots, numbers, scratch, found);
#elif MISUSE == 5 /* a query without its length */
    refusal = finder_search_in(lent, query, 1, 64, slots, dists, numbers, scratch, found);
#elif MISUSE == 6 /* an index in parts where a struct is asked for */
    refusal = finder_live_in(f->words, found);
#elif MISUSE == 7 /* two slices are exchanged, of different types */
    refusal = finder_live(f->words, f->vectors, 4, f->edges, 4, f->targets, 4, f->versions, 4, f->marks, 4, f->pool, FINDER_POOL,
        f->numbers, 4, f->summary, 4, f->weights, 4, found);
#elif MISUSE == 8 /* memory is placed as an index without its size */
    refusal = finder_place(f, slots, 4, 10, 2);
#elif MISUSE == 9 /* a refusal of a function of the archive is not looked at */
    finder_scratch_words(4, 10, 2, found);
#elif MISUSE == 10 /* a vector is written through what is lent for reading */
    *finder_vector_in(lent, 0) = 0;
#elif MISUSE == 11 /* a slice that is null */
    refusal = finder_live(f->words, NULL, 0, f->targets, 4, f->edges, 4, f->versions, 4, f->marks, 4, f->pool, FINDER_POOL,
        f->numbers, 4, f->summary, 4, f->weights, 4, found);
#elif MISUSE == 12 /* a vector without its number */
    refusal = finder_insert_in(f, query, 4, 64, slots, 1, scratch, found);
#elif MISUSE == 13 /* a search without a list for the numbers */
    refusal = finder_search_in(lent, query, 4, 1, 64, slots, dists, scratch, found);
#elif MISUSE == 14 /* an index in eight slices, as it was before the weights */
    refusal = finder_live(f->words, f->vectors, 4, f->targets, 4, f->edges, 4, f->versions, 4, f->marks, 4, f->pool, FINDER_POOL,
        f->numbers, 4, f->summary, 4, found);
#elif MISUSE == 15 /* making without the weights */
    refusal = finder_create_in(f, 1.2f, 0, 0, NULL, 0, NULL, 0, NULL, 0);
#elif MISUSE != 0
#error "no such mistake"
#endif
    return refusal + f->words[FINDER_WORD_LIVE];
}
