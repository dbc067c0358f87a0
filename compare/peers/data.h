// Vectors and queries that are drawn, the right answers to them, and how a side is measured.
#pragma once
#include "sides.h"

#include <algorithm>
#include <cstdio>
#include <ctime>
#include <numeric>

using Bytes = std::vector<uint8_t>;

// The random numbers of compare/year.sh.
struct Rng {
    uint64_t state;
    uint64_t next() {
        uint64_t z = state += 0x9e3779b97f4a7c15;
        z = (z ^ (z >> 30)) * 0xbf58476d1ce4e5b9;
        z = (z ^ (z >> 27)) * 0x94d049bb133111eb;
        return z ^ (z >> 31);
    }
    uint32_t below(uint32_t n) { return next() % n; }
    bool one_in(uint32_t n) { return below(n) == 0; }
};

inline double cpu() {
    timespec t;
    clock_gettime(CLOCK_PROCESS_CPUTIME_ID, &t);
    return t.tv_sec + t.tv_nsec * 1e-9;
}

inline void append(Bytes &bytes, const Bytes &more) { bytes.insert(bytes.end(), more.begin(), more.end()); }

// Bytes around others.
inline Bytes around(const uint8_t *centre, size_t dim, int by, Rng &rng) {
    Bytes bytes(dim);
    for (size_t i = 0; i < dim; i++)
        bytes[i] = std::clamp(centre[i] - by + (int)rng.below(2 * by + 1), 0, 255);
    return bytes;
}

// The centre of a cluster.
inline Bytes centre(size_t dim, Rng &rng) { return around(Bytes(dim, 128).data(), dim, 40, rng); }

// Vectors in clusters of about a hundred, in no order.
inline Bytes clustered(size_t n, size_t dim, Rng &rng) {
    Bytes centres, vectors;
    for (size_t i = 0; i < n / 100; i++)
        append(centres, centre(dim, rng));
    for (size_t i = 0; i < n; i++)
        append(vectors, around(&centres[rng.below(n / 100) * dim], dim, 32, rng));
    return vectors;
}

inline uint32_t distance(const uint8_t *a, const uint8_t *b, size_t dim) {
    uint32_t sum = 0;
    for (size_t i = 0; i < dim; i++)
        sum += (a[i] - b[i]) * (a[i] - b[i]);
    return sum;
}

// Queries, each a live vector with every byte changed by up to 8, and how far the K-th nearest live vector is from each.
struct Queries {
    size_t dim;
    const Bytes &vectors;
    Bytes bytes;
    std::vector<uint32_t> limits;
    Queries(size_t count, size_t dim, const Bytes &vectors, const std::vector<uint32_t> &live, Rng rng) : dim(dim), vectors(vectors) {
        for (size_t i = 0; i < count; i++) {
            append(bytes, around(&vectors[live[rng.below(live.size())] * dim], dim, 8, rng));
            std::vector<uint32_t> all;
            for (uint32_t slot : live)
                all.push_back(to(i, slot));
            std::nth_element(all.begin(), all.begin() + K - 1, all.end());
            limits.push_back(all[K - 1]);
        }
    }
    size_t count() const { return limits.size(); }
    const uint8_t *query(size_t i) const { return &bytes[i * dim]; }
    uint32_t to(size_t i, uint32_t slot) const { return distance(query(i), &vectors[slot * dim], dim); }
};

// What is measured of a side's searches with a beam: the time of one, recall at K, and the distances of the answers to each query, least first.
struct Measured {
    double us, recall = 0;
    std::vector<std::vector<uint32_t>> found;
};

// Measures sides that take turns, 50 queries at a time; the time of these 50 is the best of 15 rounds.
inline std::vector<Measured> measure(const std::vector<Side *> &sides, const Queries &queries, uint32_t beam) {
    const size_t turn = 50;
    std::vector<Measured> all(sides.size());
    std::vector<std::vector<double>> best(sides.size(), std::vector<double>(queries.count() / turn, 1e9));
    for (int round = 0; round < 15; round++) {
        for (size_t from = 0; from < queries.count(); from += turn) {
            for (size_t s = 0; s < sides.size(); s++) {
                const double started = cpu();
                for (size_t i = from; i < from + turn; i++)
                    sides[s]->search(queries.query(i), beam);
                best[s][from / turn] = std::min(best[s][from / turn], cpu() - started);
            }
        }
    }
    for (size_t s = 0; s < sides.size(); s++) {
        for (size_t i = 0; i < queries.count(); i++) {
            sides[s]->search(queries.query(i), beam);
            std::vector<uint32_t> found;
            for (uint32_t slot : sides[s]->answers())
                found.push_back(queries.to(i, slot));
            std::sort(found.begin(), found.end());
            all[s].recall += std::upper_bound(found.begin(), found.end(), queries.limits[i]) - found.begin();
            all[s].found.push_back(found);
        }
        all[s].recall /= queries.count() * K;
        all[s].us = std::accumulate(best[s].begin(), best[s].end(), 0.0) / queries.count() * 1e6;
    }
    return all;
}
