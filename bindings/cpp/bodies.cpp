// Four programs in supersteps: bodies rod|life|search|ranks THREADS [report]. Heat in a rod, the game of life, a search in a graph,
// and the ranks of its nodes; each task has a block of cells. The output is that of crates/example_bodies, and the same with any number
// of threads; with `report` it is the report of the run.
#include "bsp_steps.hpp"
#include <algorithm>
#include <cstdio>
#include <cstdlib>
#include <string>

namespace {

// What a task keeps: a block of cells.
struct block {
    std::int64_t first, end;
};

using blocks = bsp::steps<block>;
using view = blocks::view;
using out = blocks::out;

std::vector<block> cut(std::int64_t count, std::int64_t size, std::int64_t first = 0) {
    std::vector<block> made;
    for (std::int64_t i = 0; i < count; i++) made.push_back({first + i * size, first + (i + 1) * size});
    return made;
}

bsp::ending until(std::uint32_t last, const view &seen) { return seen.step() < last ? bsp::ending::goes_on : bsp::ending::stops; }

// A cell of the rod becomes the mean of its own value, twice, and its neighbours'.
bsp::ending cools(block &own, const view &seen, out &left) {
    const bsp::cells &rod = seen[0];
    for (auto i = own.first; i < own.end; i++) left.put(0, static_cast<std::uint32_t>(i), (rod[i - 1] + rod[i + 1] + 2 * rod[i]) / 4);
    return until(999, seen);
}

constexpr std::int64_t width = 512;

// A block of rows of the game of life; there are no cells beyond the board.
bsp::ending lives(block &own, const view &seen, out &left) {
    const bsp::cells &board = seen[0];
    auto at = [&](std::int64_t row, std::int64_t column) {
        return row < 0 || row >= width || column < 0 || column >= width ? 0 : board[row * width + column];
    };
    for (auto row = own.first; row < own.end; row++)
        for (std::int64_t column = 0; column < width; column++) {
            std::int64_t around = -at(row, column);
            for (int i = -1; i <= 1; i++)
                for (int j = -1; j <= 1; j++) around += at(row + i, column + j);
            left.put(0, static_cast<std::uint32_t>(row * width + column), around == 3 || (around == 2 && at(row, column) == 1));
        }
    return until(29, seen);
}

struct neighbours {
    std::uint32_t to[2];
    neighbours(std::int64_t node, std::size_t nodes)
        : to{static_cast<std::uint32_t>((2 * node + 1) % static_cast<std::int64_t>(nodes)), static_cast<std::uint32_t>((3 * node + 7) % static_cast<std::int64_t>(nodes))} {}
};

// Array 0 has the distances, -1 where no way is known; array 1 in how many supersteps new nodes were found.
bsp::ending finds(block &own, const view &seen, out &left) {
    const bsp::cells &distances = seen[0];
    bool found = false;
    for (auto node = own.first; node < own.end; node++)
        if (distances[node] == seen.step())
            for (auto to : neighbours(node, distances.size()).to)
                if (distances[to] == -1) left.put(0, to, std::int64_t{seen.step()} + 1), found = true;
    if (found) left.put(1, 0, std::int64_t{seen.step()} + 1);
    return seen.step() == 0 || seen[1][0] == seen.step() ? bsp::ending::goes_on : bsp::ending::stops;
}

// In one superstep nodes add to the sums of their neighbours, in the next each takes 85 in a hundred of its sum.
bsp::ending ranks(block &own, const view &seen, out &left) {
    for (auto node = own.first; node < own.end; node++) {
        if (seen.step() % 2 == 0) {
            for (auto to : neighbours(node, seen[0].size()).to) left.add(1, to, seen[0][node] / 2);
        } else {
            left.put(0, static_cast<std::uint32_t>(node), seen[1][node] / 100 * 85 + 150000000);
            left.put(1, static_cast<std::uint32_t>(node), 0);
        }
    }
    return until(39, seen);
}

// The cells of an array: the first, and all others.
std::vector<std::int64_t> cells_of(std::size_t count, std::int64_t first, std::int64_t others) {
    std::vector<std::int64_t> made(count, others);
    made[0] = first;
    return made;
}

std::vector<std::int64_t> board() {
    std::vector<std::int64_t> made(width * width, 0);
    for (std::size_t place : {130817, 130818, 131328, 131329, 131841}) made[place] = 1;
    return made;
}

void print_rod(blocks &run) {
    std::printf("rod: %u supersteps, cells %lld %lld\n", run.taken(), static_cast<long long>(run[0][10]), static_cast<long long>(run[0][70]));
}

void print_life(blocks &run) {
    bsp::cells all = run[0];
    long living = std::count_if(all.begin(), all.end(), [](std::int64_t it) { return it != 0; });
    std::printf("life: %ld cells live after %u supersteps\n", living, run.taken());
}

void print_search(blocks &run) {
    bsp::cells all = run[0];
    long reached = std::count_if(all.begin(), all.end(), [](std::int64_t it) { return it >= 0; });
    std::printf("search: %u supersteps, %ld nodes reached, the last ones at distance %lld\n", run.taken(), reached, static_cast<long long>(run[1][0]));
}

void print_ranks(blocks &run) {
    bsp::cells all = run[0];
    std::printf("ranks: %lld %lld %lld\n", static_cast<long long>(all[0]), static_cast<long long>(all[1]), static_cast<long long>(all[7]));
}

struct program {
    std::vector<bsp::steps_array> arrays;
    std::vector<block> tasks;
    bsp::ending (*body)(block &, const view &, out &);
    void (*print)(blocks &);
};

program named(const std::string &name) {
    if (name == "rod") return {{{"rod", cells_of(4096, 1000000000000, 0)}}, cut(46, 89, 1), cools, print_rod};
    if (name == "life") return {{{"board", board()}}, cut(16, 32), lives, print_life};
    if (name == "search") return {{{"distances", cells_of(100000, 0, -1)}, {"rounds", {0}}}, cut(20, 5000), finds, print_search};
    return {{{"ranks", cells_of(1000, 1000000000, 1000000000)}, {"sums", cells_of(1000, 0, 0)}}, cut(10, 100), ranks, print_ranks};
}

} // namespace

int main(int count, char **words) {
    program it = named(count > 1 ? words[1] : "rod");
    blocks run(it.arrays, it.tasks, static_cast<std::uint32_t>(it.tasks.size()), 10000);
    if (run.run(it.body, count > 2 ? static_cast<std::size_t>(std::atoi(words[2])) : 1) != BSP_STEPS_ENDED) return 1;
    if (count > 3) std::fputs(run.report().c_str(), stdout);
    else it.print(run);
    return 0;
}
