// bsp_phaser.hpp: a phaser that threads share, in the shape of std::barrier (C++17). It has what that lacks:
// register_party adds parties while others meet, arrive_and_wait returns an arrival index, and end wakes all who wait.
// It has no completion function. NOT proved: C++ over bsp_phaser.h, whose calls are.
#ifndef BSP_PHASER_HPP
#define BSP_PHASER_HPP

#include "bsp_phaser.h"
#include <chrono>
#include <cstddef>
#include <optional>
#include <stdexcept>

namespace bsp {

// A call was refused, and nothing changed: status() is BSP_TOO_MANY, BSP_FULL, BSP_NOBODY_UNARRIVED or BSP_NEGATIVE.
class refused : public std::logic_error {
    std::int32_t status_;

public:
    explicit refused(std::int32_t status)
        : std::logic_error(status == BSP_TOO_MANY           ? "fewer than 0 parties, or more than 65535"
                           : status == BSP_FULL             ? "no room for that many more parties"
                           : status == BSP_NOBODY_UNARRIVED ? "nobody is unarrived"
                           : status == BSP_NEGATIVE         ? "fewer than 0 parties to add"
                                                            : "not a phaser's word"),
          status_(status) {}
    std::int32_t status() const noexcept { return status_; }
};

// The phaser ended before all parties had arrived.
class ended : public std::runtime_error {
public:
    ended() : std::runtime_error("the phaser has ended") {}
};

class phaser {
    mutable bsp_word word_{0};
    std::uint32_t least_;

    static void done(std::int32_t status) {
        if (status != BSP_DONE) throw refused(status);
    }

    static std::ptrdiff_t index_of(std::int32_t index) {
        if (index == -BSP_ENDED) throw ended();
        if (index < 0) throw refused(-index);
        return index;
    }

    // Rounded up, so that a limit above 0 stays above 0; at most what 64 bits hold, some 292 years.
    template <class Rep, class Period> static std::int64_t nanoseconds(std::chrono::duration<Rep, Period> limit) {
        using std::chrono::duration;
        if (duration<double>(limit).count() >= 9.2e9) return INT64_MAX;
        return std::chrono::ceil<std::chrono::nanoseconds>(limit).count();
    }

public:
    // The phase of an arrival; negative once the phaser has ended.
    using arrival_token = std::int32_t;

    static constexpr std::ptrdiff_t max() noexcept { return 65535; }

    // None of the parties has arrived. An advance that leaves fewer parties than `least` ends the phaser; 0 never does.
    explicit phaser(std::ptrdiff_t parties, std::uint32_t least = 1) : least_(least) {
        std::uint64_t first = 0;
        done(bsp_phaser_new(parties, 0, &first));
        bsp_word_set(&word_, first);
    }
    phaser(const phaser &) = delete;
    phaser &operator=(const phaser &) = delete;

    [[nodiscard]] arrival_token arrive() {
        std::int32_t phase;
        done(bsp_shared_arrive(&word_, least_, &phase));
        return phase;
    }

    // Waits until the phase of the arrival is over. Returns the phase then, negative once the phaser has ended.
    std::int32_t wait(arrival_token arrival) const {
        std::int32_t now;
        done(bsp_shared_await(&word_, arrival, &now));
        return now;
    }

    // The same, but waits no longer than `limit`, and returns nothing if the phase isn't over by then.
    template <class Rep, class Period>
    std::optional<std::int32_t> wait_for(arrival_token arrival, std::chrono::duration<Rep, Period> limit) const {
        std::int32_t now, status = bsp_shared_await_for(&word_, arrival, nanoseconds(limit), &now);
        if (status == BSP_TIMED_OUT) return std::nullopt;
        done(status);
        return now;
    }

    // The same without waiting.
    std::optional<std::int32_t> try_wait(arrival_token arrival) const { return wait_for(arrival, std::chrono::nanoseconds(0)); }

    // Arrives, waits for the others, and returns the arrival index: parties - 1 for the first to arrive, 0 for the last.
    std::ptrdiff_t arrive_and_wait() {
        return index_of(bsp_shared_arrive_and_wait(&word_, least_));
    }

    // The same, but waits no longer than `limit`, and returns nothing if some haven't arrived by then. The caller has arrived all the
    // same. Who means to wait again calls arrive and wait_for instead.
    template <class Rep, class Period>
    std::optional<std::ptrdiff_t> arrive_and_wait_for(std::chrono::duration<Rep, Period> limit) {
        std::int32_t index = bsp_shared_arrive_and_wait_for(&word_, least_, nanoseconds(limit));
        if (index == -BSP_TIMED_OUT) return std::nullopt;
        return index_of(index);
    }

    // Arrives in this phase, and doesn't take part in the next ones.
    void arrive_and_drop() {
        std::int32_t phase;
        done(bsp_shared_leave(&word_, least_, &phase));
    }

    // Adds parties, and returns the phase in which they have to arrive first; negative once the phaser has ended.
    std::int32_t register_party(std::ptrdiff_t count = 1) {
        std::int32_t phase;
        done(bsp_shared_register(&word_, count, &phase));
        return phase;
    }

    // Ends the phaser at once, which wakes all who wait.
    void end() {
        std::int32_t phase;
        done(bsp_shared_force(&word_, &phase));
    }

    std::uint64_t word() const { return bsp_word_get(&word_); }
    bool has_ended() const { return word() >> 63 != 0; }
};

} // namespace bsp

#endif
