/* Mistakes that the compiler must refuse: headers.sh compiles this file once for each number, and once with 0, which is none. */
#include "finder.hpp"

using picture_finder::Index;
using picture_finder::Scratch;

uint32_t use(Index &index, const Index &lent, Scratch &scratch, const Scratch &shared, const uint8_t *query);
uint32_t use(Index &index, const Index &lent, Scratch &scratch, const Scratch &shared, const uint8_t *query)
{
    uint32_t slots[1] = { 0 };
    float dists[1] = { 0 };
    uint32_t numbers[1] = { 1 };
    const uint32_t ids[1] = { 0 };
    auto a = lent.search({ query, 4 }, 1, 64, slots, dists, numbers, scratch);
#if MISUSE == 1 // a const index is changed
    a = lent.insert({ query, 4 }, numbers, 64, slots, scratch);
#elif MISUSE == 2 // an answer is not looked at
    index.insert({ query, 4 }, numbers, 64, slots, scratch);
#elif MISUSE == 3 // an index is copied
    Index copy(lent);
#elif MISUSE == 4 // a scratch is copied
    Scratch copy(shared);
#elif MISUSE == 5 // a scratch that others may use too
    a = lent.search({ query, 4 }, 1, 64, slots, dists, numbers, shared);
#elif MISUSE == 6 // a query without its length
    a = lent.search(query, 1, 64, slots, dists, numbers, scratch);
#elif MISUSE == 7 // outputs are exchanged
    a = lent.search({ query, 4 }, 1, 64, dists, slots, numbers, scratch);
#elif MISUSE == 8 // an output that is const
    a = lent.search({ query, 4 }, 1, 64, ids, dists, numbers, scratch);
#elif MISUSE == 9 // an answer is taken for its value
    uint32_t live = lent.live();
#elif MISUSE == 10 // a block that is lent for reading is written
    static_cast<uint8_t *>(lent.block())[0] = 0;
#elif MISUSE == 11 // a vector without its number
    a = index.insert({ query, 4 }, 64, slots, scratch);
#elif MISUSE == 12 // a number that is no list
    a = index.insert({ query, 4 }, numbers[0], 64, slots, scratch);
#elif MISUSE == 13 // making of vectors without the weights
    a.refusal = index.create(1.0f, 0, 0, nullptr, nullptr, nullptr);
#elif MISUSE == 14 // weights without their length
    a.refusal = index.create(1.0f, query);
#elif MISUSE != 0
#error "no such mistake"
#endif
    return a.refusal + index.create(1.0f) + ids[0] + shared.operator bool();
}
