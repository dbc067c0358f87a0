/* Every member of finder.hpp, on the index of examples/c/shelf.c, where what the calls do is checked in full. A fact that is not so ends the program with 1. */
#include "finder.hpp"

#include <array>
#include <cstdio>
#include <cstring>
#include <thread>
#include <type_traits>
#include <vector>

using picture_finder::Answer;
using picture_finder::Index;
using picture_finder::List;
using picture_finder::Scratch;

#define CHECK(fact) \
    do { \
        if (!(fact)) { \
            std::fprintf(stderr, "line %d: not so: %s\n", __LINE__, #fact); \
            return 1; \
        } \
    } while (0)

static_assert(!std::is_copy_constructible<Index>::value && !std::is_copy_assignable<Index>::value, "move only");
static_assert(!std::is_copy_constructible<Scratch>::value && !std::is_copy_assignable<Scratch>::value, "move only");
static_assert(std::is_nothrow_move_constructible<Index>::value && std::is_nothrow_move_assignable<Index>::value, "moves do not throw");
static_assert(std::is_nothrow_move_constructible<Scratch>::value && std::is_nothrow_move_assignable<Scratch>::value, "moves do not throw");
static_assert(!std::is_convertible<const uint8_t *, List<const uint8_t>>::value, "no list without a length");
static_assert(!std::is_constructible<List<uint32_t>, const std::vector<uint32_t> &>::value, "no output into what is const");
static_assert(!std::is_constructible<List<const uint8_t>, std::vector<uint32_t> &>::value, "no list of another type");

namespace {

const uint8_t bytes[] = { 0, 3, 10 };
const uint32_t rows[] = { 1, FINDER_BLANK, 0, 2, 1, FINDER_BLANK };
const uint32_t numbers[] = { 30, 10, 20 };
const uint8_t weights[] = { 1 };

Index shelf()
{
    Index index(1, 4, 2);
    if (index.create(1.0f, 1, 3, bytes, rows, numbers, weights) != FINDER_OK)
        return Index();
    return index;
}

template <class T> bool is(const Answer<T> &a, T value) { return a && a.value == value; }

int lists()
{
    std::vector<uint8_t> v(5);
    const std::vector<uint8_t> c(6);
    std::array<uint32_t, 7> a;
    CHECK(List<const uint8_t>(v).first() == v.data() && List<const uint8_t>(v).length() == 5 && List<uint8_t>(v).length() == 5);
    CHECK(List<const uint8_t>(c).length() == 6 && List<uint32_t>(a).length() == 7 && List<const uint32_t>(a).first() == a.data());
    CHECK(List<const uint8_t>(bytes).length() == 3 && List<const uint8_t>(nullptr).length() == 0 && List<float>().first() == nullptr);
    List<uint32_t> one(a), two(one), three = one;
    two = three;
    CHECK(two.first() == a.data() && two.length() == 7);
    return 0;
}

int readings()
{
    Index index = shelf();
    CHECK(index && is(index.dim(), 1u) && is(index.capacity(), 4u) && is(index.degree(), 2u) && is(index.alpha(), 1.0f));
    CHECK(is(index.entry(), 1u) && is(index.live(), 3u) && is(index.mark(2), 1u) && is(index.mark(3), 0u) && is(index.slot_version(2), 0u));
    CHECK(is(index.number(0), 30u) && is(index.number(2), 20u) && is(index.number(3), 0u) && is(index.number(4), 0u));
    CHECK(is(index.target(1, 0), 0u) && is(index.target(1, 1), 2u) && is(index.target(1, 2), static_cast<uint32_t>(FINDER_BLANK)));
    CHECK(index.vector(2).length() == 1 && *index.vector(2).first() == 10 && index.vector(3).length() == 0);
    CHECK(index.get().words[FINDER_WORD_LIVE] == 3);
    return 0;
}

int changes()
{
    Index index = shelf();
    Scratch scratch(index);
    std::vector<uint32_t> slots(2, 77);
    std::vector<float> dists(2);
    std::vector<uint32_t> found_numbers(2, 77);
    const uint8_t two[] = { 2 };
    CHECK(scratch);
    CHECK(index.search(two, 3, 2, slots, dists, found_numbers, scratch).refusal == FINDER_OVER_LIMIT);
    CHECK(index.search(two, 2, 2, slots, dists, { found_numbers.data(), 1 }, scratch).refusal == FINDER_OVER_LIMIT);
    CHECK(index.search(nullptr, 2, 2, slots, dists, found_numbers, scratch).refusal == FINDER_BAD_LENGTH);
    CHECK(is(index.search(two, 2, 2, slots, dists, found_numbers, scratch), 2u) && slots[0] == 1 && dists[0] == 1.0f && slots[1] == 0 && dists[1] == 4.0f);
    CHECK(found_numbers[0] == 10 && found_numbers[1] == 30);
    CHECK(is(index.search({ two, 1 }, 1, 2, { slots.data(), 1 }, { dists.data(), 1 }, { found_numbers.data(), 1 }, scratch), 1u) && slots[0] == 1);
    CHECK(index.insert(bytes, numbers, 2, slots, scratch).refusal == FINDER_BAD_LENGTH);
    slots.resize(3);
    CHECK(index.insert(bytes, { numbers, 2 }, 2, slots, scratch).refusal == FINDER_BAD_LENGTH);
    CHECK(index.insert(bytes, numbers, 2, slots, scratch).refusal == FINDER_FULL);
    CHECK(std::strcmp(index.insert(bytes, numbers, 2, slots, scratch).text(), finder_refusal_text(FINDER_FULL)) == 0);
    const uint8_t six[] = { 6 };
    const uint32_t forty[] = { 40 };
    CHECK(index.insert(six, { numbers, 1 }, 2, slots, scratch).refusal == FINDER_BAD_NUMBER);
    CHECK(is(index.insert(six, forty, 2, slots, scratch), 1u) && slots[0] == 3 && is(index.live(), 4u) && is(index.number(3), 40u));
    const uint32_t ids[] = { 1, 9, 1 };
    std::array<finder_stats, 3> stats;
    CHECK(index.delete_slots(ids, 2, 1, { stats.data(), 2 }, scratch).refusal == FINDER_BAD_LENGTH);
    CHECK(is(index.delete_slots(ids, 2, 1, stats, scratch), 1u) && stats[0].outgoing_seeds == 2 && is(index.entry(), 0u));
    CHECK(is(index.delete_slots(nullptr, 2, 1, nullptr, scratch), 0u));
    const uint32_t named[] = { 10, 40, 0 };
    CHECK(index.delete_numbers(named, 2, 1, { stats.data(), 2 }, scratch).refusal == FINDER_BAD_LENGTH);
    CHECK(is(index.delete_numbers(named, 2, 1, stats, scratch), 1u) && is(index.number(3), 0u) && is(index.live(), 2u));
    CHECK(is(index.delete_numbers(nullptr, 2, 1, nullptr, scratch), 0u));
    return 0;
}

/* Two figures of three values, of which the weights say which is the nearer. */
int weighted()
{
    const uint8_t query[] = { 10, 20, 30 }, first[] = { 10, 20, 36 }, second[] = { 10, 25, 30 };
    const uint8_t middle[] = { 1, 4, 2 }, zero[] = { 1, 0, 1 }, five[] = { 1, 1, 5 };
    const uint32_t seven[] = { 7 }, eight[] = { 8 };
    uint32_t slots[2], found_numbers[2];
    float dists[2];
    Index index(3, 2, 2);
    Scratch scratch(index);
    CHECK(index.create(1.0f, { middle, 2 }) == FINDER_BAD_LENGTH && index.create(1.0f, nullptr) == FINDER_BAD_LENGTH);
    CHECK(index.create(1.0f, zero) == FINDER_BAD_WEIGHTS && index.create(1.0f, five) == FINDER_BAD_WEIGHTS && index.create(0.5f, zero) == FINDER_BAD_ALPHA);
    CHECK(index.create(1.0f, 0, 3, bytes, rows, numbers, zero) == FINDER_BAD_LENGTH);
    for (int i = 0; i < 2; i++) {
        CHECK((i == 0 ? index.create(1.0f) : index.create(1.0f, middle)) == FINDER_OK && index.get().weights[1] == (i == 0 ? 1 : 4));
        CHECK(is(index.insert(first, seven, 2, slots, scratch), 1u) && is(index.insert(second, eight, 2, slots, scratch), 1u));
        CHECK(is(index.search(query, 2, 2, slots, dists, found_numbers, scratch), 2u));
        /* 5 * 5 in the middle and 6 * 6 in the last place; weighted 4 * 5 * 5 and 2 * 6 * 6 */
        CHECK(found_numbers[0] == (i == 0 ? 8 : 7) && dists[0] == (i == 0 ? 25.0f : 72.0f) && dists[1] == (i == 0 ? 36.0f : 100.0f));
    }
    Index again(3, 2, 2);
    uint32_t words[FINDER_INDEX_WORDS];
    std::memcpy(words, index.words().first(), sizeof words);
    std::memcpy(again.block(), index.block(), index.block_bytes());
    static_cast<uint8_t *>(again.block())[again.block_bytes() - 2] = 0;
    CHECK(again.load(words) == FINDER_BAD_WEIGHTS);
    static_cast<uint8_t *>(again.block())[again.block_bytes() - 2] = 4;
    CHECK(again.load(words) == FINDER_OK && is(again.search(query, 2, 2, slots, dists, found_numbers, scratch), 2u) && dists[0] == 72.0f);
    /* the largest dim, at which only weights of 1 fit */
    Index largest(256, 2, 2);
    std::vector<uint8_t> many(256, 1);
    CHECK(largest.create(1.0f) == FINDER_OK && largest.create(1.0f, many) == FINDER_OK && (many[255] = 2, largest.create(1.0f, many)) == FINDER_BAD_WEIGHTS);
    return 0;
}

int guard()
{
    Index index = shelf();
    Scratch scratch(1, 4, 2);
    const uint32_t one[] = { 1 };
    const uint32_t two[] = { 2 };
    std::array<finder_stats, 1> stats;
    finder_assessment assessment = finder_assessment();
    CHECK(index.guard_status() && index.guard_status().value.enabled == 0);
    CHECK(index.assess(one, scratch).refusal == FINDER_GUARD_OFF);
    CHECK(index.guard_enable(65, 1, 4, 4, scratch).refusal == FINDER_OVER_LIMIT);
    CHECK(index.guard_enable(2, 0, 4, 4, scratch).value.pool_size == 2 && index.guard_status().value.enabled == 1);
    auto a = index.assess(one, scratch);
    CHECK(a && a.value.report.admitted == 0 && a.value.report.lost == 1 && a.value.lost[0] == 2 && a.value.checked[1] == 0);
    CHECK(is(index.guarded_delete(one, 2, 1, stats, scratch, assessment), 0u) && assessment.report.admitted == 0 && is(index.live(), 3u));
    CHECK(index.guarded_delete(two, 2, 1, nullptr, scratch, assessment).refusal == FINDER_BAD_LENGTH);
    CHECK(is(index.guarded_delete(two, 2, 1, stats, scratch, assessment), 1u) && assessment.report.admitted == 1 && is(index.live(), 2u));
    index = shelf();
    CHECK(index.guarded_delete_numbers({ numbers, 1 }, 2, 1, stats, scratch, assessment).refusal == FINDER_GUARD_OFF);
    CHECK(index.guard_enable(2, 0, 4, 4, scratch));
    CHECK(index.guarded_delete_numbers(numbers, 2, 1, stats, scratch, assessment).refusal == FINDER_BAD_LENGTH);
    CHECK(is(index.guarded_delete_numbers({ numbers + 1, 1 }, 2, 1, stats, scratch, assessment), 0u) && assessment.report.admitted == 0);
    CHECK(is(index.guarded_delete_numbers({ numbers + 2, 1 }, 2, 1, stats, scratch, assessment), 1u) && assessment.report.admitted == 1);
    CHECK(is(index.number(2), 0u) && is(index.live(), 2u));
    return 0;
}

/* What was moved from has no memory, and every call on it is refused. */
int moves()
{
    Index index = shelf();
    Index other(std::move(index));
    CHECK(!index && other && index.live().refusal == FINDER_BAD_SIZES && is(other.live(), 3u) && index.block_bytes() == 0);
    index = std::move(other);
    CHECK(index && !other && is(index.live(), 3u) && other.create(1.0f) == FINDER_BAD_SIZES);
    Index &same = index;
    index = std::move(same);
    CHECK(index && is(index.live(), 3u));
    index = shelf();
    CHECK(is(index.live(), 3u));
    Scratch scratch(index);
    Scratch taken(std::move(scratch));
    const uint8_t two[] = { 2 };
    uint32_t slots[1], found_numbers[1];
    float dists[1];
    CHECK(!scratch && index.search(two, 1, 2, slots, dists, found_numbers, scratch).refusal == FINDER_SHORT_SCRATCH);
    CHECK(taken && is(index.search(two, 1, 2, slots, dists, found_numbers, taken), 1u));
    scratch = std::move(taken);
    CHECK(scratch && !taken && is(index.search(two, 1, 2, slots, dists, found_numbers, scratch), 1u));
    return 0;
}

/* Threads that read one index, each with its own scratch and outputs, find what one alone finds. */
int threads()
{
    const uint32_t dim = 8, count = 60, asked = 40;
    Index filling(dim, count, 4);
    Scratch scratch(filling);
    CHECK(filling && scratch && filling.create(1.2f) == FINDER_OK);
    for (uint32_t i = 0; i < count; i++) {
        std::array<uint8_t, dim> grey;
        std::array<uint32_t, 1> slot, number = { { 100 + i } };
        for (uint32_t j = 0; j < dim; j++)
            grey[j] = static_cast<uint8_t>(i * 37 + j * j * 11);
        CHECK(is(filling.insert(grey, number, 16, slot, scratch), 1u) && slot[0] == i);
    }
    const Index &index = filling;
    std::array<uint32_t, 4> sums = { { 0, 0, 0, 0 } };
    auto ask = [&index](uint32_t *sum) {
        Scratch own(index);
        for (uint32_t i = 0; i < asked; i++) {
            std::array<uint32_t, 5> slots = { { 0, 0, 0, 0, 0 } };
            std::array<float, 5> dists;
            std::array<uint32_t, 5> found_numbers = { { 0, 0, 0, 0, 0 } };
            auto near = index.search(index.vector(i), 5, 16, slots, dists, found_numbers, own);
            if (!near || near.value != 5 || dists[0] != 0 || found_numbers[4] != 100 + slots[4])
                return;
            for (uint32_t slot : slots)
                *sum = *sum * 31 + slot;
        }
    };
    std::array<std::thread, 3> others;
    for (size_t t = 0; t < others.size(); t++)
        others[t] = std::thread(ask, &sums[t]);
    ask(&sums[3]);
    for (std::thread &other : others)
        other.join();
    CHECK(sums[3] != 0 && sums[0] == sums[3] && sums[1] == sums[3] && sums[2] == sums[3]);
    return 0;
}

int nothing()
{
    Index none;
    Index wrong(257, 4, 2);
    Scratch scratch(none);
    Scratch wrong_scratch(1, 0, 2);
    Index made(1, 4, 2);
    CHECK(!none && !wrong && !scratch && !wrong_scratch && made);
    CHECK(none.live().refusal == FINDER_BAD_SIZES && none.live().value == 0 && none.vector(0).length() == 0 && none.block() == nullptr);
    CHECK(wrong.create(1.0f) == FINDER_BAD_SIZES && made.live().refusal == FINDER_BAD_ALPHA);
    CHECK(made.create(1.0f) == FINDER_OK && is(made.live(), 0u) && is(made.alpha(), 1.0f));
    return 0;
}

int stored()
{
    const Index index = shelf();
    uint32_t words[FINDER_INDEX_WORDS];
    CHECK(index.words().length() == FINDER_INDEX_WORDS);
    std::memcpy(words, index.words().first(), sizeof words);
    Index again(words[FINDER_WORD_DIM], words[FINDER_WORD_CAPACITY], words[FINDER_WORD_DEGREE]);
    CHECK(again.block_bytes() == index.block_bytes() && index.block_bytes() > 0);
    std::memcpy(again.block(), index.block(), index.block_bytes());
    words[FINDER_WORD_LIVE] = 2;
    CHECK(again.load(words) == FINDER_BAD_INDEX);
    words[FINDER_WORD_LIVE] = 3;
    CHECK(again.load(words) == FINDER_OK && is(again.live(), 3u) && *again.vector(2).first() == 10);
    return 0;
}

} // namespace

int main()
{
    int wrong = lists() || readings() || changes() || weighted() || guard() || moves() || threads() || nothing() || stored();
    if (!wrong)
        std::printf("all of finder.hpp is as it must be\n");
    return wrong;
}
