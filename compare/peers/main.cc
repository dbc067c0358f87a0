// peers PART [spoil]: see compare/peers.sh.
#include "data.h"

#include <cstring>
#include <memory>
#include <string>

constexpr uint64_t SEED = 1;
constexpr uint32_t BEAMS[] = {10, 16, 32, 64, 128, 256};

static std::vector<uint32_t> count_to(size_t n) {
    std::vector<uint32_t> all(n);
    std::iota(all.begin(), all.end(), 0);
    return all;
}

// Both search hnswlib's bottom layer from the same entry. Where the graph is spoiled, one place in eight is blank for the library.
static bool graph(bool spoil) {
    bool same = true;
    printf("seed %lu; hnswlib's bottom layer, built with M 16 and ef_construction 200, searched by both from the same entry; 500 queries\n", SEED);
    printf("| n | dim | beam | library, us | hnswlib, us | ratio | recall of the library | of hnswlib | other answers | distances |\n");
    printf("|-:|-:|-:|-:|-:|-:|-:|-:|-:|-:|\n");
    for (size_t n : {20000, 65536}) {
        for (size_t dim : {64, 256}) {
            Rng rng{SEED};
            const Bytes vectors = clustered(n, dim, rng);
            const Queries queries(500, dim, vectors, count_to(n), rng);
            Hnsw hnsw(dim, n, 200, n);
            for (size_t i = 0; i < n; i++)
                hnsw.insert(&vectors[i * dim], i);
            hnsw.index.maxlevel_ = 0;
            auto rows = hnsw.rows();
            for (size_t i = 0; spoil && i < rows.size(); i += 8)
                rows[i] = FINDER_BLANK;
            Finder finder(dim, n, hnsw.index.enterpoint_node_, vectors, rows);
            for (uint32_t beam : {16, 64, 256}) {
                auto m = measure({&finder, &hnsw}, queries, beam);
                size_t others = 0, distances = 0;
                for (size_t i = 0; i < queries.count(); i++) {
                    others += m[0].found[i] != m[1].found[i];
                    distances += hnsw.distances(queries.query(i), beam);
                }
                same = same && others <= queries.count() / 20 && std::abs(m[0].recall - m[1].recall) <= 0.005;
                printf("| %zu | %zu | %u | %.1f | %.1f | **%.2f** | %.4f | %.4f | %zu | %.0f |\n", n, dim, beam, m[0].us, m[1].us, m[0].us / m[1].us,
                    m[0].recall, m[1].recall, others, (double)distances / queries.count());
            }
        }
    }
    puts(same ? "both found the same" : "the two DIFFER: other answers to more than one query in twenty, or recall by more than 0.005");
    return same;
}

// An index with its name and what was measured while it was filled.
struct Named {
    std::string name, filled;
    std::unique_ptr<Side> side;
};

// A line for each index: time of a search and recall for each beam.
static void lines(const std::vector<Named> &all, const Queries &queries) {
    std::vector<Side *> sides;
    std::vector<std::string> text;
    for (auto &one : all) {
        sides.push_back(one.side.get());
        text.push_back("| " + one.name + " | " + one.filled);
    }
    for (uint32_t beam : BEAMS) {
        auto m = measure(sides, queries, beam);
        for (size_t s = 0; s < m.size(); s++) {
            char cell[40];
            snprintf(cell, sizeof cell, " | %.1f: %.3f", m[s].us, m[s].recall);
            text[s] += cell;
        }
    }
    for (auto &line : text)
        puts((line + " |").c_str());
}

static void head(const char *name, const char *filled, int columns) {
    printf("| %s | %s", name, filled);
    for (uint32_t beam : BEAMS)
        printf(" | beam %u", beam);
    printf(" |\n|-|");
    for (int i = 0; i < columns + 6; i++)
        printf("-:|");
    puts("");
}

static std::string number(double value) {
    char text[20];
    snprintf(text, sizeof text, "%.0f", value);
    return text;
}

// The library's index of vectors, the first 256 inserted one at a time.
static Named of_library(const char *name, size_t dim, const Bytes &vectors, size_t batch) {
    const size_t n = vectors.size() / dim;
    double started = cpu();
    auto finder = std::make_unique<Finder>(dim, n, vectors.data());
    for (size_t i = 1, count; i < n; i += count) {
        count = i < 256 ? 1 : std::min(batch, n - i);
        finder->insert(&vectors[i * dim], count);
    }
    return {name, number((cpu() - started) / n * 1e6), std::move(finder)};
}

static Named of_hnswlib(const char *name, size_t dim, const Bytes &vectors, size_t ef_construction) {
    const size_t n = vectors.size() / dim;
    double started = cpu();
    auto hnsw = std::make_unique<Hnsw>(dim, n, ef_construction, n);
    for (size_t i = 0; i < n; i++)
        hnsw->insert(&vectors[i * dim], i);
    return {name, number((cpu() - started) / n * 1e6), std::move(hnsw)};
}

// Each builds its own index of the same vectors.
static void own() {
    const size_t dim = 256;
    printf("seed %lu; dim %zu; library: degree 32, alpha 1.2, beam 64; hnswlib: M 16; 500 queries; time in us of one insert and of one search, with recall at 10\n",
        SEED, dim);
    for (size_t n : {20000, 65536}) {
        Rng rng{SEED};
        const Bytes vectors = clustered(n, dim, rng);
        const Queries queries(500, dim, vectors, count_to(n), rng);
        std::vector<Named> all;
        all.push_back(of_library("library, one vector to a call", dim, vectors, 1));
        all.push_back(of_library("library, 256 to a call", dim, vectors, 256));
        all.push_back(of_hnswlib("hnswlib, ef_construction 64", dim, vectors, 64));
        all.push_back(of_hnswlib("hnswlib, ef_construction 200", dim, vectors, 200));
        head(("n " + std::to_string(n)).c_str(), "insert", 1);
        lines(all, queries);
    }
}

// The deliveries and withdrawals of compare/year.sh, the latter on their day and without the guard.
struct Year {
    static constexpr size_t DIM = 256, CAPACITY = 20000, BACKLIST = 20, DAYS = 365;
    // A title that comes or goes.
    struct Step {
        bool comes;
        std::vector<uint32_t> slots;
        Bytes bytes;
    };
    struct Title {
        std::vector<uint32_t> slots;
        size_t due;
    };
    Bytes first, vectors = Bytes(CAPACITY * DIM), centres;
    std::vector<bool> live = std::vector<bool>(CAPACITY);
    std::vector<Step> steps;
    std::vector<Title> titles;
    size_t inserted = 0, deleted = 0;

    static Rng numbers(uint64_t kind, uint64_t at) { return {Rng{SEED + (kind << 32)}.next() ^ at}; }

    Year() {
        Rng rng{SEED};
        first = centres = centre(DIM, rng);
        fill(first);
        for (size_t title = 0; title < BACKLIST; title++)
            deliver(0);
        for (size_t day = 1; day <= DAYS; day++) {
            withdraw(day);
            deliver(day);
        }
    }
    // The lowest free slot gets a vector.
    uint32_t fill(const Bytes &vector) {
        uint32_t slot = std::find(live.begin(), live.end(), false) - live.begin();
        live[slot] = true;
        std::copy(vector.begin(), vector.end(), &vectors[slot * DIM]);
        return slot;
    }
    void deliver(size_t day) {
        Rng rng = numbers(1, centres.size() / DIM);
        const Bytes own = centre(DIM, rng);
        append(centres, own);
        const uint32_t a = rng.below(281), b = rng.below(281);
        Step step{true, {}, {}};
        for (uint32_t i = 0; i < 20 + std::min(a, b); i++) {
            const uint32_t other = rng.below(centres.size() / DIM);
            const Bytes vector = around(rng.one_in(10) ? &centres[other * DIM] : own.data(), DIM, 32, rng);
            step.slots.push_back(fill(vector));
            append(step.bytes, vector);
        }
        inserted += step.slots.size();
        if (!rng.one_in(5))
            titles.push_back({step.slots, day + 10 + rng.below(111)});
        steps.push_back(step);
    }
    void withdraw(size_t day) {
        for (auto &title : titles) {
            if (title.due != day)
                continue;
            for (uint32_t slot : title.slots)
                live[slot] = false;
            deleted += title.slots.size();
            steps.push_back({false, title.slots, {}});
        }
    }
    std::vector<uint32_t> live_slots() const {
        std::vector<uint32_t> slots;
        for (uint32_t slot = 0; slot < CAPACITY; slot++)
            if (live[slot])
                slots.push_back(slot);
        return slots;
    }
    std::string each(const double spent[2]) const { return number(spent[1] / inserted * 1e6) + " | " + number(spent[0] / deleted * 1e6); }

    // The year in the library; how many vectors a call brings at most.
    Named in_library(const char *name, size_t batch) const {
        auto finder = std::make_unique<Finder>(DIM, CAPACITY, first.data());
        double spent[2] = {0, 0};
        size_t title = 0;
        for (auto &step : steps) {
            const double started = cpu();
            if (!step.comes)
                finder->remove(step.slots.data(), step.slots.size());
            const size_t most = title < BACKLIST ? 1 : batch;
            for (size_t i = 0, count; step.comes && i < step.slots.size(); i += count) {
                count = std::min(most, step.slots.size() - i);
                auto slots = finder->insert(&step.bytes[i * DIM], count);
                if (!std::equal(slots.begin(), slots.end(), &step.slots[i])) {
                    fprintf(stderr, "the library fills other slots than the lowest free ones\n");
                    exit(2);
                }
            }
            title += step.comes;
            spent[step.comes] += cpu() - started;
        }
        return {name, each(spent), std::move(finder)};
    }
    // The year in hnswlib, with so many places.
    Named in_hnswlib(const char *name, size_t size) const {
        auto hnsw = std::make_unique<Hnsw>(DIM, CAPACITY, 200, size);
        hnsw->insert(first.data(), 0);
        double spent[2] = {0, 0};
        for (auto &step : steps) {
            const double started = cpu();
            for (size_t i = 0; i < step.slots.size(); i++) {
                if (step.comes)
                    hnsw->insert(&step.bytes[i * DIM], step.slots[i]);
                else
                    hnsw->remove(step.slots[i]);
            }
            spent[step.comes] += cpu() - started;
        }
        return {name, each(spent), std::move(hnsw)};
    }
};

// An index whose slots have other names.
struct Renamed : Side {
    std::unique_ptr<Side> side;
    std::vector<uint32_t> names;
    Renamed(std::unique_ptr<Side> side, const std::vector<uint32_t> &names) : side(std::move(side)), names(names) {}
    void search(const uint8_t *query, uint32_t beam) override { side->search(query, beam); }
    std::vector<uint32_t> answers() override {
        auto slots = side->answers();
        for (uint32_t &slot : slots)
            slot = names[slot];
        return slots;
    }
};

static void year() {
    const Year year;
    const auto live = year.live_slots();
    const Queries queries(300, Year::DIM, year.vectors, live, Year::numbers(2, 12));
    printf("seed %lu; dim %zu, capacity %zu; %zu vectors inserted, %zu deleted, %zu live; 300 queries; time in us of one insert, delete and search, with recall at 10\n",
        SEED, Year::DIM, Year::CAPACITY, year.inserted, year.deleted, live.size());
    std::vector<Named> all;
    all.push_back(year.in_library("library, one vector to a call", 1));
    all.push_back(year.in_library("library, one call a delivery", 300));
    all.push_back(year.in_hnswlib("hnswlib, labels used again", Year::CAPACITY));
    all.push_back(year.in_hnswlib("hnswlib, new labels", year.inserted + 1));
    Bytes vectors;
    for (uint32_t slot : live)
        append(vectors, Bytes(&year.vectors[slot * Year::DIM], &year.vectors[(slot + 1) * Year::DIM]));
    all.push_back(of_library("library, made afresh", Year::DIM, vectors, 1));
    all.push_back(of_hnswlib("hnswlib, made afresh", Year::DIM, vectors, 200));
    for (size_t i = 4; i < 6; i++) {
        all[i].filled += " | –";
        all[i].side = std::make_unique<Renamed>(std::move(all[i].side), live);
    }
    head("after the year", "insert | delete", 2);
    lines(all, queries);
}

int main(int argc, char **argv) {
    const std::string part = argc > 1 ? argv[1] : "";
    if (part == "graph")
        return graph(argc > 2 && !strcmp(argv[2], "spoil")) ? 0 : 1;
    part == "own" ? own() : year();
}
