/* A first program in C++: figures are inserted into an index under their numbers, found again by a placeholder of each, and one is deleted. */
#include "finder.hpp"

#include <array>
#include <cstdio>

namespace {

constexpr uint32_t dim = 64, capacity = 200, degree = 16, beam = 64;

/* The figures have the numbers first to first + figures - 1. */
constexpr uint32_t first = 1001, figures = 150;

/* The grey values of a figure, drawn; those of its placeholder differ a little. */
std::array<uint8_t, dim> grey_values(uint32_t number, uint32_t change)
{
    std::array<uint8_t, dim> values;
    uint32_t state = 2654435761u * number;
    for (uint32_t i = 0; i < dim; i++) {
        state = state * 1664525u + 1013904223u;
        values[i] = static_cast<uint8_t>((state >> 24) / 2 + change * (i % 3));
    }
    return values;
}

template <class T> bool refused(const picture_finder::Answer<T> &answer, const char *what)
{
    if (!answer)
        std::fprintf(stderr, "%s: refused with %u, %s\n", what, static_cast<unsigned>(answer.refusal), answer.text());
    return !answer;
}

} // namespace

int main()
{
    picture_finder::Index index(dim, capacity, degree);
    picture_finder::Scratch scratch(index);
    std::array<uint8_t, dim> weights;
    weights.fill(1); /* all places of a vector count alike, as in create(1.2f) */
    if (!index || !scratch || index.create(1.2f, weights) != FINDER_OK)
        return 1;

    /* one vector to a call, since vectors of one call do not find each other */
    std::array<uint32_t, 1> slot, number;
    for (number[0] = first; number[0] < first + figures; number[0]++)
        if (refused(index.insert(grey_values(number[0], 0), number, beam, slot, scratch), "insert"))
            return 1;

    std::array<finder_stats, 1> stats;
    number[0] = 1007;
    if (refused(index.delete_numbers(number, 64, 4, stats, scratch), "delete"))
        return 1;

    uint32_t found = 0;
    std::array<uint32_t, 3> slots, numbers;
    std::array<float, 3> dists;
    for (uint32_t figure = first; figure < first + figures; figure++) {
        auto near = index.search(grey_values(figure, 2), 3, beam, slots, dists, numbers, scratch);
        if (refused(near, "search"))
            return 1;
        found += near.value != 0 && numbers[0] == figure;
    }
    std::printf("%u of %u figures found by their placeholders, figure 1007 was deleted\n", static_cast<unsigned>(found), static_cast<unsigned>(figures));
    return found == figures - 1 ? 0 : 1;
}
