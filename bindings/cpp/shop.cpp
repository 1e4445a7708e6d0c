// A shop, in supersteps: shop THREADS [report]. A door spawns customers; each is served for some supersteps, and goes. The output is
// that of crates/example_bodies, and the same with any number of threads; with `report` it is the report of the run.
#include "bsp_steps.hpp"
#include <cstdio>
#include <cstdlib>

namespace {

enum : std::uint32_t { came, went, total, open_until = 999 };

// What a task keeps: a door the state of a random sequence, a customer how long it is still served.
struct role {
    bool door;
    std::uint32_t number;
};

using shop = bsp::steps<role>;

bsp::ending let_in(role &self, const shop::view &seen, shop::out &out) {
    self.number = self.number * 1664525u + 1013904223u;
    for (std::uint32_t i = 0; i < self.number >> 30; i++) {
        out.add(0, came, 1);
        out.spawn({false, 1 + (self.number >> 20) % 8});
    }
    return seen.step() < open_until ? bsp::ending::goes_on : bsp::ending::stops;
}

bsp::ending is_served(role &self, shop::out &out) {
    out.add(0, total, 1);
    if (self.number-- > 1) return bsp::ending::goes_on;
    out.add(0, went, 1);
    return bsp::ending::stops;
}

bsp::ending body(role &self, const shop::view &seen, shop::out &out) { return self.door ? let_in(self, seen, out) : is_served(self, out); }

// What is used wrongly says so.
int misused() {
    int wrong = 0;
    try {
        shop twice({{"a", {1}}, {"a", {1}}}, {{true, 1}}, 1, 1);
        wrong++;
    } catch (const bsp::steps_refused &it) {
        wrong += it.status() != BSP_STEPS_REFUSED;
    }
    shop small({{"a", {1, 2}}}, {{true, 1}}, 1, 9);
    shop::out *kept = nullptr;
    try {
        small.run([&](role &, const shop::view &seen, shop::out &out) {
            kept = &out;
            return seen[0][2] ? bsp::ending::goes_on : bsp::ending::stops;
        });
        wrong++;
    } catch (const std::out_of_range &) {
    }
    try {
        kept->put(0, 0, 1);
        wrong++;
    } catch (const std::logic_error &) {
    }
    // A task that comes puts by the `out` of one that went, and of one that goes on.
    shop others({{"a", {1, 2}}}, {{true, 1}, {true, 2}}, 9, 9);
    std::vector<shop::out *> early;
    int refused = 0;
    std::int32_t ended = others.run([&](role &self, const shop::view &seen, shop::out &out) {
        for (shop::out *it : early) {
            try {
                if (it != &out) it->put(0, 0, 9);
            } catch (const std::logic_error &) {
                refused++;
            }
        }
        if (seen.step() == 0) early.push_back(&out);
        if (seen.step() == 0 && self.number == 1) out.spawn({false, 3});
        return self.number == 1 || seen.step() == 3 ? bsp::ending::stops : bsp::ending::goes_on;
    });
    wrong += ended != BSP_STEPS_ENDED || refused < 5 || others[0][0] != 1;
    shop failing({{"a", {1, 2}}}, {{true, 1}}, 1, 9);
    wrong += failing.run([](role &, const shop::view &, shop::out &out) { return out.put(0, 0, 7), bsp::fails(20); }) != BSP_STEPS_FAULT;
    try {
        failing.run([&](role &, const shop::view &, shop::out &) { return wrong++, bsp::ending::stops; });
        wrong++;
    } catch (const bsp::steps_refused &it) {
        wrong += it.status() != BSP_STEPS_OVER;
    }
    return wrong + (failing.report() != "array a 1 2\nfault 20 step 0 path 0\n");
}

} // namespace

int main(int count, char **words) {
    std::size_t threads = count > 1 ? static_cast<std::size_t>(std::atoi(words[1])) : 1;
    if (misused()) return 1;
    shop run({{"shop", {0, 0, 0}}}, {{true, 1}}, 1000, 10000);
    if (run.run(body, threads) != BSP_STEPS_ENDED) return 1;
    bsp::cells cells = run[0];
    if (count > 2) std::fputs(run.report().c_str(), stdout);
    else
        std::printf("shop: %u supersteps, %lld came, %lld went, %lld in all\n", run.taken(), static_cast<long long>(cells[came]),
                    static_cast<long long>(cells[went]), static_cast<long long>(cells[total]));
    return 0;
}
