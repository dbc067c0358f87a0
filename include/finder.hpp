/*
 * The picture finder for C++11 and later: classes that own the memory of an index and of a scratch, over finder.h, which says what each call does.
 *
 *     picture_finder::Index index(256, 1000, 32);                                dim, capacity, degree
 *     picture_finder::Scratch scratch(index);
 *     if (!index || !scratch) ..                                                 sizes outside their ranges, or no memory
 *     if (index.create(1.2f)) ..                                                 alpha 1.2, no vector yet, all weights 1; a refusal, else 0
 *     auto inserted = index.insert(grey, { &number, 1 }, 64, slots, scratch);    one vector and its figure number, beam 64
 *     auto near = index.search(query, 10, 64, slots, dists, numbers, scratch);
 *     if (near) ..                                                               near.value slots were found
 *
 * Nothing here throws. A call gives an Answer: the number of the refusal, or 0, and a value, which is 0 where the call is refused. An Index or a Scratch without
 * memory, a moved one among them, may be used: every call is refused. None of this is proved; it only calls finder.h.
 */
#ifndef FINDER_HPP
#define FINDER_HPP

#include "finder.h"

#include <cstddef>
#include <cstdint>
#include <cstdlib>
#include <cstring>
#include <memory>
#include <type_traits>
#include <utility>

namespace picture_finder {

/* The number of a refusal, 0 where the call was carried out, and what the call gives. */
template <class T> struct Answer {
    uint32_t refusal;
    T value;

    explicit operator bool() const noexcept { return refusal == FINDER_OK; }
    const char *text() const noexcept { return finder_refusal_text(refusal); }
};

/* A list that the caller lends for a call: a pointer and a length, an array, or what has data() and size(). */
template <class T> class List {
public:
    List() noexcept : first_(nullptr), length_(0) {}
    List(std::nullptr_t) noexcept : first_(nullptr), length_(0) {}
    List(T *first, size_t length) noexcept : first_(first), length_(length) {}
    template <size_t N> List(T (&array)[N]) noexcept : first_(array), length_(N) {}
    template <class C, class = typename std::enable_if<std::is_convertible<decltype(std::declval<C &>().data()), T *>::value>::type>
    List(C &&container) noexcept : first_(container.data()), length_(container.size()) {}

    T *first() const noexcept { return first_; }
    size_t length() const noexcept { return length_; }

private:
    T *first_;
    size_t length_;
};

struct Free {
    void operator()(void *memory) const noexcept { std::free(memory); }
};

/* Memory of malloc, which has one owner. */
using Block = std::unique_ptr<void, Free>;

class Index;

/* What the calls work in: one for each thread, for all indexes whose sizes ask for no more. */
class Scratch {
public:
    Scratch() noexcept : scratch_() {}
    explicit Scratch(const Index &index) noexcept;
    Scratch(uint32_t dim, uint32_t capacity, uint32_t degree) noexcept : scratch_()
    {
        finder_layout n = finder_layout();
        if (finder_lengths(dim, capacity, degree, &n) == FINDER_OK)
            take(n.scratch_bytes);
    }
    Scratch(Scratch &&other) noexcept : scratch_() { swap(other); }
    Scratch &operator=(Scratch &&other) noexcept
    {
        Scratch(std::move(other)).swap(*this);
        return *this;
    }

    void swap(Scratch &other) noexcept
    {
        std::swap(block_, other.block_);
        std::swap(scratch_, other.scratch_);
    }

    /* Whether there is memory. */
    explicit operator bool() const noexcept { return block_ != nullptr; }

    /* The scratch as finder.h has it. */
    finder_scratch get() noexcept { return scratch_; }

private:
    void take(size_t bytes) noexcept
    {
        block_.reset(std::malloc(bytes));
        if (finder_place_scratch(&scratch_, block_.get(), bytes) != FINDER_OK)
            block_.reset();
    }

    Block block_;
    finder_scratch scratch_;
};

class Index {
public:
    Index() noexcept : f_(), bytes_(0) {}

    /* The memory for these sizes. Every call is refused until create or load was carried out. */
    Index(uint32_t dim, uint32_t capacity, uint32_t degree) noexcept : f_(), bytes_(0)
    {
        finder_layout n = finder_layout();
        if (finder_lengths(dim, capacity, degree, &n) != FINDER_OK)
            return;
        block_.reset(std::malloc(n.block_bytes));
        if (finder_place(&f_, block_.get(), n.block_bytes, dim, capacity, degree) == FINDER_OK)
            bytes_ = n.block_bytes;
        else
            block_.reset();
    }

    Index(Index &&other) noexcept : f_(), bytes_(0) { swap(other); }
    Index &operator=(Index &&other) noexcept
    {
        Index(std::move(other)).swap(*this);
        return *this;
    }

    void swap(Index &other) noexcept
    {
        std::swap(block_, other.block_);
        std::swap(bytes_, other.bytes_);
        std::swap(f_, other.f_);
    }

    /* Whether there is memory. */
    explicit operator bool() const noexcept { return block_ != nullptr; }

    /* The index as finder.h has it. */
    const finder &get() const noexcept { return f_; }

    /*
     * Words and block are the whole index: to store it, write both. To have it again, make an Index of the sizes in the words, read the block's bytes into block(),
     * and load the words.
     */
    List<const uint32_t> words() const noexcept { return List<const uint32_t>(f_.words, FINDER_INDEX_WORDS); }
    const void *block() const noexcept { return block_.get(); }
    void *block() noexcept { return block_.get(); }
    size_t block_bytes() const noexcept { return finder_lengths_in(&f_).block_bytes; }
    FINDER_CHECKED uint32_t load(const uint32_t (&words)[FINDER_INDEX_WORDS]) noexcept
    {
        return finder_load(&f_, words, block_.get(), bytes_);
    }

    /* Without vectors, all weights 1. */
    FINDER_CHECKED uint32_t create(float alpha) noexcept
    {
        uint8_t ones[FINDER_MAX_DIM];
        std::memset(ones, 1, sizeof ones);
        return create(alpha, List<const uint8_t>(ones, finder_lengths_in(&f_).weights));
    }

    /* Without vectors. */
    FINDER_CHECKED uint32_t create(float alpha, List<const uint8_t> given_weights) noexcept
    {
        return create(alpha, 0, 0, nullptr, nullptr, nullptr, given_weights);
    }

    FINDER_CHECKED uint32_t create(float alpha, uint32_t entry, uint32_t count, List<const uint8_t> bytes, List<const uint32_t> rows,
        List<const uint32_t> given_numbers, List<const uint8_t> given_weights) noexcept
    {
        return finder_create_in(&f_, alpha, entry, count, bytes.first(), bytes.length(), rows.first(), rows.length(), given_numbers.first(),
            given_numbers.length(), given_weights.first(), given_weights.length());
    }

    FINDER_CHECKED Answer<uint32_t> dim() const noexcept { return read(finder_dim_in); }
    FINDER_CHECKED Answer<uint32_t> capacity() const noexcept { return read(finder_capacity_in); }
    FINDER_CHECKED Answer<uint32_t> degree() const noexcept { return read(finder_degree_in); }
    FINDER_CHECKED Answer<uint32_t> entry() const noexcept { return read(finder_entry_in); }
    FINDER_CHECKED Answer<uint32_t> live() const noexcept { return read(finder_live_in); }

    FINDER_CHECKED Answer<float> alpha() const noexcept
    {
        Answer<float> a = { 0, 0 };
        a.refusal = finder_alpha_in(&f_, &a.value);
        return a;
    }

    FINDER_CHECKED Answer<uint32_t> mark(uint32_t slot) const noexcept
    {
        Answer<uint32_t> a = { 0, 0 };
        a.refusal = finder_mark_in(&f_, slot, &a.value);
        return a;
    }

    FINDER_CHECKED Answer<uint32_t> slot_version(uint32_t slot) const noexcept
    {
        Answer<uint32_t> a = { 0, 0 };
        a.refusal = finder_slot_version_in(&f_, slot, &a.value);
        return a;
    }

    FINDER_CHECKED Answer<uint32_t> number(uint32_t slot) const noexcept
    {
        Answer<uint32_t> a = { 0, 0 };
        a.refusal = finder_number_in(&f_, slot, &a.value);
        return a;
    }

    FINDER_CHECKED Answer<uint32_t> target(uint32_t slot, uint32_t place) const noexcept
    {
        Answer<uint32_t> a = { 0, 0 };
        a.refusal = finder_target_in(&f_, slot, place, &a.value);
        return a;
    }

    /* The bytes of the slot's vector; none where the slot is dead or outside, and where the call is refused. They change with the index. */
    FINDER_CHECKED List<const uint8_t> vector(uint32_t slot) const noexcept
    {
        const uint8_t *first = finder_vector_in(&f_, slot);
        return first ? List<const uint8_t>(first, f_.words[FINDER_WORD_DIM]) : List<const uint8_t>();
    }

    /* Gives how many were found. A k over the length of slots, dists or found_numbers is refused. */
    FINDER_CHECKED Answer<uint32_t> search(List<const uint8_t> query, uint32_t k, uint32_t beam, List<uint32_t> slots, List<float> dists,
        List<uint32_t> found_numbers, Scratch &scratch) const noexcept
    {
        Answer<uint32_t> a = { 0, 0 };
        bool room = k <= slots.length() && k <= dists.length() && k <= found_numbers.length();
        a.refusal = finder_search_in(&f_, query.first(), query.length(), k, beam, room ? slots.first() : nullptr, room ? dists.first() : nullptr,
            room ? found_numbers.first() : nullptr, scratch.get(), &a.value);
        return a;
    }

    /* Gives how many were inserted. */
    FINDER_CHECKED Answer<uint32_t> insert(List<const uint8_t> bytes, List<const uint32_t> new_numbers, uint32_t beam, List<uint32_t> slots,
        Scratch &scratch) noexcept
    {
        Answer<uint32_t> a = { 0, 0 };
        a.refusal = finder_insert_in(&f_, bytes.first(), bytes.length(), new_numbers.first(), new_numbers.length(), beam, slots.first(), slots.length(),
            scratch.get(), &a.value);
        return a;
    }

    /* Gives how many slots were emptied. */
    FINDER_CHECKED Answer<uint32_t> delete_slots(List<const uint32_t> ids, uint32_t repair_beam, uint32_t repair_degree, List<finder_stats> stats,
        Scratch &scratch) noexcept
    {
        Answer<uint32_t> a = { 0, 0 };
        a.refusal = finder_delete_in(&f_, ids.first(), ids.length(), repair_beam, repair_degree, room_for(ids, stats), scratch.get(), &a.value);
        return a;
    }

    /* The same by figure numbers. */
    FINDER_CHECKED Answer<uint32_t> delete_numbers(List<const uint32_t> named_numbers, uint32_t repair_beam, uint32_t repair_degree, List<finder_stats> stats,
        Scratch &scratch) noexcept
    {
        Answer<uint32_t> a = { 0, 0 };
        a.refusal = finder_delete_numbers_in(&f_, named_numbers.first(), named_numbers.length(), repair_beam, repair_degree, room_for(named_numbers, stats),
            scratch.get(), &a.value);
        return a;
    }

    FINDER_CHECKED Answer<finder_status> guard_enable(uint32_t landmark_count, uint32_t multiplier, uint32_t sample, uint32_t beam,
        Scratch &scratch) noexcept
    {
        Answer<finder_status> a = { 0, finder_status() };
        a.refusal = finder_guard_enable_in(&f_, landmark_count, multiplier, sample, beam, scratch.get(), &a.value);
        return a;
    }

    FINDER_CHECKED Answer<finder_status> guard_status() const noexcept
    {
        Answer<finder_status> a = { 0, finder_status() };
        a.refusal = finder_guard_status_in(&f_, &a.value);
        return a;
    }

    FINDER_CHECKED Answer<finder_assessment> assess(List<const uint32_t> ids, Scratch &scratch) const noexcept
    {
        Answer<finder_assessment> a = { 0, finder_assessment() };
        a.refusal = finder_assess_in(&f_, ids.first(), ids.length(), scratch.get(), &a.value);
        return a;
    }

    /* Gives how many slots were emptied; assessment.report.admitted says whether the delete was admitted. */
    FINDER_CHECKED Answer<uint32_t> guarded_delete(List<const uint32_t> ids, uint32_t repair_beam, uint32_t repair_degree, List<finder_stats> stats,
        Scratch &scratch, finder_assessment &assessment) noexcept
    {
        Answer<uint32_t> a = { 0, 0 };
        a.refusal = finder_guarded_delete_in(&f_, ids.first(), ids.length(), repair_beam, repair_degree, room_for(ids, stats), scratch.get(), &a.value,
            &assessment);
        return a;
    }

    /* The same by figure numbers. */
    FINDER_CHECKED Answer<uint32_t> guarded_delete_numbers(List<const uint32_t> named_numbers, uint32_t repair_beam, uint32_t repair_degree,
        List<finder_stats> stats, Scratch &scratch, finder_assessment &assessment) noexcept
    {
        Answer<uint32_t> a = { 0, 0 };
        a.refusal = finder_guarded_delete_numbers_in(&f_, named_numbers.first(), named_numbers.length(), repair_beam, repair_degree,
            room_for(named_numbers, stats), scratch.get(), &a.value, &assessment);
        return a;
    }

private:
    template <class Reading> Answer<uint32_t> read(Reading reading) const noexcept
    {
        Answer<uint32_t> a = { 0, 0 };
        a.refusal = reading(&f_, &a.value);
        return a;
    }

    /* The stats where there are as many places as names; else none, which is refused. */
    static finder_stats *room_for(List<const uint32_t> names, List<finder_stats> stats) noexcept
    {
        return names.length() <= stats.length() ? stats.first() : nullptr;
    }

    Block block_;
    finder f_;
    size_t bytes_; /* of the block */
};

inline Scratch::Scratch(const Index &index) noexcept : scratch_() { take(finder_lengths_in(&index.get()).scratch_bytes); }

} // namespace picture_finder

#endif
