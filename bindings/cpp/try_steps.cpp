// Calls of bsp_steps.hpp that are refused, or read a run: prints what it has tried.
#include "bsp_steps.hpp"
#include <array>
#include <iostream>

static int tried, wrong;
static void want(bool holds, int line) {
    tried++;
    if (!holds) wrong++, std::cout << "line " << line << " is wrong\n";
}
#define WANT(holds) want(holds, __LINE__)

using numbers = bsp::steps<int>;

template <class Call> static int status_of(Call call) {
    try {
        call();
    } catch (const bsp::steps_refused &refused) {
        return refused.status();
    }
    return 0;
}

static bsp::ending stops(int, const numbers::view &, numbers::out &) { return bsp::ending::stops; }

static void opens() {
    for (const char *name : {"", "A", "a b", "a b\nended 7", "end", "abcdefghijklmnopq"})
        WANT(status_of([&] { numbers({{"a", {1}}, {name, {1}}}, {0}, 1, 9); }) == BSP_STEPS_NAME);
    WANT(status_of([] { numbers({{"a", {1}}, {"a", {1}}}, {0}, 1, 9); }) == BSP_STEPS_REFUSED);
    WANT(status_of([] { numbers({{"A", {1}}}, {0, 1}, 1, 9); }) == BSP_STEPS_TASKS);
    WANT(status_of([] { numbers({}, std::vector<int>(65536), 65536, 9); }) == BSP_STEPS_TASKS);
}

static void over_at_once() {
    numbers none({{"a", {1, 2}}}, {}, 1, 9), limit({}, {0, 1}, 2, 0);
    WANT(none.look().status == BSP_STEPS_ENDED && none.run(stops) == BSP_STEPS_ENDED && none.report() == "array a 1 2\nended 0\n");
    WANT(status_of([&] { none.run(stops); }) == BSP_STEPS_OVER);
    WANT(limit.step(stops, 3) == BSP_STEPS_LIMIT && limit.report() == "limit 0\n" && limit.look().live == 2);
    WANT(status_of([&] { limit.step(stops); }) == BSP_STEPS_OVER);
}

// one superstep at a time, with rows from what has values side by side
static void steps() {
    numbers run({{"a", {1, 2, 3}}, {"b", {4, 5, 6}}}, {0, 1}, 9, 9);
    auto body = [](int &kept, const numbers::view &seen, numbers::out &out) {
        const std::vector<std::int64_t> row{7, 8};
        const std::array<std::int64_t, 1> one{9};
        const std::int64_t plain[] = {10};
        if (seen.step() == 1) return kept == 1 ? bsp::fails(16) : bsp::ending::goes_on;
        if (kept == 0) out.put_row(0, 1, row), out.put_row(1, 0, one), out.spawn(2);
        else out.put_row(1, 2, plain), out.put_row(1, 2, plain, 0), out.print(11);
        return bsp::ending::goes_on;
    };
    WANT(run.step(body, 2) == BSP_STEPS_DONE);
    const numbers &seen = run;
    const bsp::cells a = seen[0], b = seen[1];
    WANT(a[0] == 1 && a[1] == 7 && a[2] == 8 && b[0] == 9 && b[1] == 5 && b[2] == 10);
    WANT(seen.taken() == 1 && seen.look().live == 3 && !seen.fault());
    WANT(seen.path(1) == std::vector<std::uint16_t>({0, 0}) && seen.origin(1).spawned && seen.origin(1).place == 0 && seen.origin(2).place == 1);
    WANT(seen.prints().size() == 1 && seen.prints()[0].value == 11 && seen.prints()[0].path == std::vector<std::uint16_t>({1}));
    WANT(seen.records().size() == 1 && seen.records()[0].parties == 3 && seen.records()[0].spawned == 1);
    WANT(status_of([&] { seen[2]; }) == BSP_STEPS_NONE && status_of([&] { seen.path(3); }) == BSP_STEPS_NONE);
    WANT(status_of([&] { seen.report(); }) == BSP_STEPS_GOING);
    WANT(run.run(body, 3) == BSP_STEPS_FAULT);
    WANT(run.fault() && run.fault()->code == 16 && run.fault()->step == 1 && run.fault()->path == std::vector<std::uint16_t>({1}));
    WANT(run.look().live == 0);
}

// a row past the last cell is a fault, and so is one past the last number
static void rows() {
    for (std::uint32_t first : {2u, 4294967295u}) {
        numbers run({{"a", {1, 2, 3}}}, {0}, 1, 9);
        auto body = [&](int, const numbers::view &, numbers::out &out) {
            out.put_row(0, first, std::vector<std::int64_t>{1, 2, 3});
            return bsp::ending::stops;
        };
        WANT(run.run(body) == BSP_STEPS_FAULT && run.fault()->code == 3);
    }
}

// deeds in the caller's hands
static void closes() {
    bsp::steps_run run({{"a", {1, 2}}}, 2, 3, 9);
    const bsp_put put{0, 1, 1, 5};
    const std::int64_t print = 6;
    WANT(run.close({{&put, 1, nullptr, 0, 1, BSP_GOES_ON}, {nullptr, 0, &print, 1, 0, BSP_STOPS}}) == BSP_STEPS_DONE);
    WANT(run[0][1] == 7 && run.look().live == 2 && run.prints()[0].value == 6);
    WANT(status_of([&] { run.close({}); }) == BSP_STEPS_UNFIT && run.taken() == 1);
    WANT(run.close({{nullptr, 0, nullptr, 0, 0, BSP_STOPS}, {nullptr, 0, nullptr, 0, 0, BSP_STOPS}}) == BSP_STEPS_ENDED);
    WANT(status_of([&] { run.close({}); }) == BSP_STEPS_OVER);
    WANT(run.report() == "print 0 1 6\nphase 0 parties 3 left 1 spawned 1\nphase 1 parties 2 left 2 spawned 0\narray a 1 7\nended 2\n");
}

// the same as bytes
static void packs() {
    bsp::steps_run run({{"a", {1, 2, 3}}}, 2, 3, 9);
    const bsp_put puts[] = {{0, 0, 0, 5}, {0, 0, 1, -6}, {0, 1, 1, 4}};
    const std::int64_t print = 6;
    const bsp_deed deeds[] = {{puts, 3, nullptr, 0, 1, BSP_GOES_ON}, {nullptr, 0, &print, 1, 0, BSP_STOPS}};
    std::vector<std::uint8_t> bytes[2];
    for (int i = 0; i < 2; i++) {
        bytes[i].resize(bsp_deed_pack(&deeds[i], nullptr, 0));
        WANT(bsp_deed_pack(&deeds[i], bytes[i].data(), bytes[i].size()) == bytes[i].size());
    }
    WANT(bytes[0].size() == 11 + 16 + 15 + 4 && bytes[1].size() == 9 + 4);
    bsp_unread place{7, 7};
    WANT(status_of([&] { run.close_packed({{bytes[0].data(), bytes[0].size()}, {bytes[1].data(), 9}}, &place); }) == BSP_STEPS_UNREAD);
    WANT(place.block == 1 && place.byte == 9 && run.taken() == 0);
    WANT(run.close_packed({{bytes[0].data(), bytes[0].size()}, {bytes[1].data(), 13}}) == BSP_STEPS_DONE);
    WANT(run[0][0] == 5 && run[0][1] == -2 && run.look().live == 2 && run.prints()[0].value == 6);
}

// the first task's exception comes, whichever thread ran it, and the run is over
static void throws() {
    for (std::size_t threads : {1, 4}) {
        numbers run({}, {0, 1, 2, 3, 4, 5, 6, 7}, 8, 9);
        auto body = [](int kept, const numbers::view &, numbers::out &) -> bsp::ending {
            if (kept > 1) throw kept;
            return bsp::ending::stops;
        };
        int thrown = 0;
        try {
            run.run(body, threads);
        } catch (int it) {
            thrown = it;
        }
        WANT(thrown == 2 && status_of([&] { run.run(body, threads); }) == BSP_STEPS_OVER);
    }
}

int main() {
    opens();
    over_at_once();
    steps();
    rows();
    closes();
    packs();
    throws();
    std::cout << tried << " tried, " << wrong << " wrong\n";
    return wrong != 0;
}
