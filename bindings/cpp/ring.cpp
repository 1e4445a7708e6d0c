// Four tasks in a ring: in each of three supersteps, each takes its neighbour's cell.
#include "bsp_steps.hpp"
#include <iostream>

int main() {
    using ring = bsp::steps<std::uint32_t>; // a task keeps its number
    ring run({{"ring", {1, 2, 3, 4}}}, {0, 1, 2, 3}, 4, 1000);
    auto body = [](std::uint32_t own, const ring::view &seen, ring::out &out) {
        out.put(0, own, seen[0][(own + 1) % 4]);
        return seen.step() < 2 ? bsp::ending::goes_on : bsp::ending::stops;
    };
    if (run.run(body, 4) != BSP_STEPS_ENDED) return 1;
    for (auto cell : run[0]) std::cout << cell << ' ';
    std::cout << '\n';
}
