// An index of the library and one of hnswlib, with the same few calls.
#pragma once
#include "finder.h"

#include <hnswlib/hnswlib.h>

#include <algorithm>
#include <cstdio>
#include <cstdlib>
#include <memory>
#include <vector>

constexpr uint32_t K = 10, DEGREE = 32, BEAM = 64, REPAIR_BEAM = 64, REPAIR_DEGREE = 4;
constexpr float ALPHA = 1.2f;

struct Side {
    virtual ~Side() {}
    virtual void search(const uint8_t *query, uint32_t beam) = 0;
    // The slots that the last search found.
    virtual std::vector<uint32_t> answers() = 0;
};

class Finder : public Side {
    size_t dim;
    struct finder index;
    struct finder_scratch scratch;
    std::unique_ptr<void, decltype(&free)> block{nullptr, free}, work{nullptr, free};
    uint32_t slots[K], numbers[K], found;
    float dists[K];
    uint32_t last = 0; // figure numbers run on: the last that was given

    static void accepted(uint32_t refused) {
        if (refused) {
            fprintf(stderr, "the library refuses a call with %u\n", refused);
            exit(2);
        }
    }
    // The next figure numbers.
    std::vector<uint32_t> next(size_t count) {
        std::vector<uint32_t> given(count);
        for (uint32_t &number : given)
            number = ++last;
        return given;
    }
    // Memory that begins at a line of memory, as finder.h advises.
    static void *lines(size_t bytes) { return aligned_alloc(64, (bytes + 63) / 64 * 64); }

  public:
    // An index of the given vectors and rows, all weights 1.
    Finder(size_t dim, size_t capacity, uint32_t entry, const std::vector<uint8_t> &bytes, const std::vector<uint32_t> &rows) : dim(dim) {
        struct finder_layout n;
        accepted(finder_lengths(dim, capacity, DEGREE, &n));
        block.reset(lines(n.block_bytes));
        work.reset(lines(n.scratch_bytes));
        accepted(finder_place(&index, block.get(), n.block_bytes, dim, capacity, DEGREE));
        accepted(finder_place_scratch(&scratch, work.get(), n.scratch_bytes));
        const auto given = next(bytes.size() / dim);
        const std::vector<uint8_t> weights(dim, 1);
        accepted(finder_create_in(&index, ALPHA, entry, given.size(), bytes.data(), bytes.size(), rows.data(), rows.size(), given.data(), given.size(),
            weights.data(), weights.size()));
    }
    // An index of one vector.
    Finder(size_t dim, size_t capacity, const uint8_t *vector)
        : Finder(dim, capacity, 0, std::vector<uint8_t>(vector, vector + dim), std::vector<uint32_t>(DEGREE, FINDER_BLANK)) {}

    // Inserts vectors with one call; their slots.
    std::vector<uint32_t> insert(const uint8_t *bytes, size_t count) {
        std::vector<uint32_t> filled(count);
        const auto given = next(count);
        uint32_t inserted;
        accepted(finder_insert_in(&index, bytes, count * dim, given.data(), count, BEAM, filled.data(), count, scratch, &inserted));
        return filled;
    }
    void remove(const uint32_t *ids, size_t count) {
        struct finder_stats stats[FINDER_MAX_IDS];
        uint32_t emptied;
        for (size_t i = 0; i < count; i += FINDER_MAX_IDS)
            accepted(finder_delete_in(&index, ids + i, std::min<size_t>(count - i, FINDER_MAX_IDS), REPAIR_BEAM, REPAIR_DEGREE, stats, scratch, &emptied));
    }
    void search(const uint8_t *query, uint32_t beam) override {
        accepted(finder_search_in(&index, query, dim, K, beam, slots, dists, numbers, scratch, &found));
    }
    std::vector<uint32_t> answers() override { return std::vector<uint32_t>(slots, slots + found); }
};

class Hnsw : public Side {
    size_t capacity;
    bool again;
    std::vector<size_t> emptied;
    hnswlib::L2SpaceI space;
    std::priority_queue<std::pair<int, hnswlib::labeltype>> found;

    static inline size_t counted;
    static inline hnswlib::DISTFUNC<int> plain;
    static int counting(const void *a, const void *b, const void *dim) {
        counted++;
        return plain(a, b, dim);
    }
    // A slot's label: where labels are not used again, another one each time that the slot is filled.
    hnswlib::labeltype label(uint32_t slot) { return slot + capacity * emptied[slot]; }

  public:
    hnswlib::HierarchicalNSW<int> index;

    // M 16, so that the bottom layer has rows of 32. An index of the same capacity uses labels again; a larger one, of `size` places, does not.
    Hnsw(size_t dim, size_t capacity, size_t ef_construction, size_t size)
        : capacity(capacity), again(size == capacity), emptied(capacity), space(dim), index(&space, size, DEGREE / 2, ef_construction) {}

    void insert(const uint8_t *vector, uint32_t slot) { index.addPoint(vector, label(slot)); }
    void remove(uint32_t slot) {
        index.markDelete(label(slot));
        emptied[slot] += !again;
    }
    void search(const uint8_t *query, uint32_t beam) override {
        index.setEf(beam);
        found = index.searchKnn(query, K);
    }
    std::vector<uint32_t> answers() override {
        std::vector<uint32_t> slots;
        for (; !found.empty(); found.pop())
            slots.push_back(found.top().second % capacity);
        return slots;
    }
    // The bottom layer's rows.
    std::vector<uint32_t> rows() {
        std::vector<uint32_t> rows(capacity * DEGREE, FINDER_BLANK);
        for (size_t slot = 0; slot < capacity; slot++) {
            auto row = index.get_linklist0(slot);
            std::copy_n(row + 1, index.getListCount(row), &rows[slot * DEGREE]);
        }
        return rows;
    }
    // How many distances a search computes.
    size_t distances(const uint8_t *query, uint32_t beam) {
        counted = 0;
        plain = index.fstdistfunc_;
        index.fstdistfunc_ = counting;
        search(query, beam);
        index.fstdistfunc_ = plain;
        return counted;
    }
};
