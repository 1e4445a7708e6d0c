// Threads that meet at a phaser in the shape of std::barrier: a sum in halves in which threads drop out, others that are
// registered while it runs, and an end that wakes who waits.
#include "bsp_phaser.hpp"
#include <atomic>
#include <chrono>
#include <cstdio>
#include <cstdlib>
#include <functional>
#include <thread>
#include <vector>

static std::atomic<int> wrong;
static void want(bool holds) { wrong += !holds; }

static void all_of(int threads, const std::function<void(int)> &body) {
    std::vector<std::thread> started;
    for (int i = 0; i < threads; i++) started.emplace_back(body, i);
    for (auto &it : started) it.join();
}

// Each thread adds a cell of the upper half to its cell of the lower one; in each phase half of the threads drop out.
static long sum_in_halves(int threads) {
    std::vector<long> cell(static_cast<std::size_t>(2 * threads));
    for (std::size_t i = 0; i < cell.size(); i++) cell[i] = static_cast<long>(i);
    bsp::phaser meeting(threads);
    all_of(threads, [&](int me) {
        for (int half = threads; me < half; half /= 2) {
            cell[static_cast<std::size_t>(me)] += cell[static_cast<std::size_t>(me + half)];
            if (me >= half / 2) return meeting.arrive_and_drop();
            meeting.arrive_and_wait();
        }
    });
    want(meeting.has_ended());
    return cell[0];
}

template <class Call> static int status_of(Call call) {
    try {
        call();
    } catch (const bsp::refused &error) {
        return error.status();
    }
    return BSP_DONE;
}

int main(int argc, char **argv) {
    int phases = argc > 1 ? std::atoi(argv[1]) : 20000;
    const int threads = 4;
    bsp::phaser meeting(threads);
    std::vector<std::atomic<int>> at(static_cast<std::size_t>(phases) * threads);
    all_of(threads, [&](int) {
        for (int phase = 0; phase < phases; phase++) {
            auto index = meeting.arrive_and_wait();
            at[static_cast<std::size_t>(phase) * threads + static_cast<std::size_t>(index)]++;
        }
    });
    for (auto &it : at) want(it == 1);
    want(meeting.word() == (static_cast<std::uint64_t>(phases) << 32 | threads * 65537u));
    bsp::phaser pair(2);
    auto first = pair.arrive();
    want(!pair.try_wait(first) && !pair.wait_for(first, std::chrono::milliseconds(5)));
    want(pair.arrive_and_wait_for(std::chrono::hours::max()) == 0 && pair.try_wait(first) == 1);
    want(!pair.arrive_and_wait_for(std::chrono::duration<double>(0.005)));
    bsp::phaser guests(0, 0);
    all_of(threads, [&](int) {
        for (int phase = 0; phase < phases; phase++) {
            guests.register_party();
            auto arrival = guests.arrive();
            want(guests.wait(arrival) != arrival);
            guests.arrive_and_drop();
        }
    });
    want((guests.word() & 0x80000000ffffffffu) == 0);
    bsp::phaser late(threads + 1);
    std::thread ends([&] { late.end(); });
    all_of(threads, [&](int) {
        try {
            late.arrive_and_wait();
            want(false);
        } catch (const bsp::ended &) {
        }
    });
    ends.join();
    want(status_of([] { bsp::phaser(65536); }) == BSP_TOO_MANY && status_of([&] { meeting.register_party(-1); }) == BSP_NEGATIVE);
    want(status_of([&] { meeting.register_party(65535); }) == BSP_FULL && status_of([] { (void)bsp::phaser(0).arrive(); }) == BSP_NOBODY_UNARRIVED);
    long sum = sum_in_halves(8);
    want(sum == 120);
    std::printf("%d threads, %d phases; a sum in halves %ld; %d wrong\n", threads, phases, sum, wrong.load());
    return wrong != 0;
}
