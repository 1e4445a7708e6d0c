// bsp_steps.hpp: supersteps whose tasks are C++ values (C++17). A body is a callable over what a task keeps, what it sees, and what
// it leaves; the tasks of a superstep run on any number of threads, and the result is the same. NOT proved: C++ over bsp_steps.h,
// whose calls are.
#ifndef BSP_STEPS_HPP
#define BSP_STEPS_HPP

#include "bsp_steps.h"
#include <algorithm>
#include <condition_variable>
#include <exception>
#include <functional>
#include <memory>
#include <iterator>
#include <mutex>
#include <new>
#include <optional>
#include <stdexcept>
#include <string>
#include <thread>
#include <utility>
#include <vector>

namespace bsp {

// A call was refused, and nothing changed: status() is one of bsp_steps.h.
class steps_refused : public std::logic_error {
    std::int32_t status_;

public:
    explicit steps_refused(std::int32_t status)
        : std::logic_error(status == BSP_STEPS_REFUSED ? "an array has another array's name, or over 4294967295 cells"
                           : status == BSP_STEPS_NAME  ? "an array has a name that no array of a job may have"
                           : status == BSP_STEPS_TASKS ? "too many start tasks"
                           : status == BSP_STEPS_NONE  ? "there is none of this number"
                           : status == BSP_STEPS_GOING ? "the run isn't over"
                           : status == BSP_STEPS_UNREAD ? "the bytes aren't packed deeds"
                           : status == BSP_STEPS_UNFIT ? "there is a deed for each live task, and one fails by a number from 16 to 255"
                                                       : "the run is over"),
          status_(status) {}
    std::int32_t status() const noexcept { return status_; }
};

// How a task ends a superstep.
enum class ending : std::uint8_t { goes_on = BSP_GOES_ON, stops = BSP_STOPS };

// The task fails, with a number from 16 to 255.
constexpr ending fails(std::uint8_t number) { return static_cast<ending>(number); }

// Cells, as the superstep began.
class cells {
    const std::int64_t *at_;
    std::size_t size_;

public:
    cells(const std::int64_t *at, std::size_t size) noexcept : at_(at), size_(size) {}
    std::size_t size() const noexcept { return size_; }
    const std::int64_t *data() const noexcept { return at_; }
    const std::int64_t *begin() const noexcept { return at_; }
    const std::int64_t *end() const noexcept { return at_ + size_; }
    std::int64_t operator[](std::size_t place) const {
        if (place >= size_) throw std::out_of_range("there is no such cell");
        return at_[place];
    }
};

// What a task sees: the arrays as the superstep began, and the superstep, from 0.
class steps_view {
    const std::vector<cells> *arrays_;
    std::uint32_t step_;

public:
    steps_view(const std::vector<cells> &arrays, std::uint32_t step) noexcept : arrays_(&arrays), step_(step) {}
    const cells &operator[](std::size_t array) const { return arrays_->at(array); }
    std::uint32_t step() const noexcept { return step_; }
};

// What a task leaves in a superstep. It takes nothing once its segment is over.
template <class Kept> class steps_out {
    template <class> friend class steps;
    std::vector<bsp_put> puts_;
    std::vector<std::int64_t> prints_;
    std::vector<Kept> spawned_;
    bool runs_ = false;

    void running() const {
        if (!runs_) throw std::logic_error("the task's segment is over");
    }

public:
    void put(std::uint16_t array, std::uint32_t index, std::int64_t value) { running(), puts_.push_back({array, 0, index, value}); }
    void add(std::uint16_t array, std::uint32_t index, std::int64_t value) { running(), puts_.push_back({array, 1, index, value}); }
    // Sets cells side by side, from `first` on: to so many values, or to those of an array, a vector or a span.
    void put_row(std::uint16_t array, std::uint32_t first, const std::int64_t *values, std::size_t count) {
        running();
        for (std::size_t i = 0; i < count; i++) {
            // no array has a cell of the last number
            std::uint64_t index = std::uint64_t(first) + i;
            puts_.push_back({array, 0, static_cast<std::uint32_t>(std::min<std::uint64_t>(index, UINT32_MAX)), values[i]});
        }
    }
    template <class Values> auto put_row(std::uint16_t array, std::uint32_t first, const Values &values) -> decltype(std::data(values), void()) {
        put_row(array, first, std::data(values), std::size(values));
    }
    void print(std::int64_t value) { running(), prints_.push_back(value); }
    void spawn(Kept kept) {
        running();
        if (spawned_.size() == 65535) throw std::length_error("a task spawns at most 65535 tasks");
        spawned_.push_back(std::move(kept));
    }
};

// An array to begin with.
struct steps_array {
    std::string name;
    std::vector<std::int64_t> cells;
};

// A printed value, with the superstep and the path of its task.
struct steps_print {
    std::uint32_t step;
    std::vector<std::uint16_t> path;
    std::int64_t value;
};

// The fault that has ended a run. Nothing of its superstep counts. Fault 7, too many live tasks, has no path.
struct steps_fault {
    std::uint32_t code;
    std::uint32_t step;
    std::vector<std::uint16_t> path;
};

// A run whose deeds you close with. Its reading calls change nothing, and what they lend stays until the next superstep; one thread
// calls them at a time.
class steps_run {
    mutable bsp_steps slot_{};

protected:
    static void done(std::int32_t status) {
        if (status == BSP_STEPS_NO_MEMORY) throw std::bad_alloc();
        if (status != BSP_STEPS_DONE) throw steps_refused(status);
    }
    static std::vector<std::uint16_t> copied(const bsp_path &path) {
        return path.len ? std::vector<std::uint16_t>(path.at, path.at + path.len) : std::vector<std::uint16_t>();
    }
    static std::int32_t closed(std::int32_t status) {
        if (status > BSP_STEPS_LIMIT) done(status);
        return status;
    }
    // A close by deeds that carries nothing over.
    std::int32_t close_slot(const bsp_deed *deeds, std::size_t count) { return closed(bsp_steps_close(deeds, count, &slot_)); }

public:
    // `starts` start tasks. At most `most` tasks may live at once, and at most `limit` supersteps are taken.
    steps_run(const std::vector<steps_array> &arrays, std::uint32_t starts, std::uint32_t most, std::uint32_t limit) {
        std::vector<bsp_array> given;
        for (auto &it : arrays) given.push_back({reinterpret_cast<const std::uint8_t *>(it.name.data()), it.name.size(), it.cells.data(), it.cells.size()});
        done(bsp_steps_open(given.data(), given.size(), starts, most, limit, &slot_));
    }
    steps_run(const steps_run &) = delete;
    steps_run &operator=(const steps_run &) = delete;
    ~steps_run() { bsp_steps_free(&slot_); }

    // Takes one superstep: a deed for each live task, in order. Returns what bsp_steps_close does, from 0 to 3; another status is thrown.
    std::int32_t close(const std::vector<bsp_deed> &deeds) { return close_slot(deeds.data(), deeds.size()); }

    // The same by packed deeds, which bsp_deed_pack writes. Of bytes that are none, `unread` gets the place.
    std::int32_t close_packed(const std::vector<bsp_block> &blocks, bsp_unread *unread = nullptr) {
        bsp_unread place{};
        std::int32_t status = bsp_steps_close_packed(blocks.data(), blocks.size(), &slot_, &place);
        if (unread) *unread = place;
        return closed(status);
    }

    // How many supersteps were taken, whether and how the run is over, and how many tasks, arrays, prints and records there are.
    bsp_look look() const {
        bsp_look look;
        done(bsp_steps_look(&slot_, &look));
        return look;
    }

    // How many supersteps were taken.
    std::uint32_t taken() const { return look().step; }

    // The cells of an array, until the next superstep.
    cells operator[](std::size_t array) const {
        bsp_cells found;
        done(bsp_steps_cells(&slot_, array, &found));
        return cells(found.at, found.len);
    }

    // The path of a live task, and where it comes from.
    std::vector<std::uint16_t> path(std::size_t task) const {
        bsp_path found;
        done(bsp_steps_path(&slot_, task, &found));
        return copied(found);
    }
    bsp_origin origin(std::size_t task) const {
        bsp_origin found;
        done(bsp_steps_origin(&slot_, task, &found));
        return found;
    }

    // What was printed so far, in the order of the report.
    std::vector<steps_print> prints() const {
        std::vector<steps_print> all;
        for (std::size_t i = 0, count = look().prints; i < count; i++) {
            bsp_print print;
            bsp_path path;
            done(bsp_steps_print(&slot_, i, &print, &path));
            all.push_back({print.step, copied(path), print.value});
        }
        return all;
    }

    // The record of each superstep.
    std::vector<bsp_record> records() const {
        std::vector<bsp_record> all(look().records);
        for (std::size_t i = 0; i < all.size(); i++) done(bsp_steps_record(&slot_, i, &all[i]));
        return all;
    }

    // The fault that has ended the run, if one did.
    std::optional<steps_fault> fault() const {
        std::uint32_t code;
        bsp_path path;
        if (bsp_steps_fault(&slot_, &code, &path) != BSP_STEPS_DONE) return std::nullopt;
        return steps_fault{code, taken(), copied(path)};
    }

    // A sum of what is to be seen of the run: bsp_steps_sum.
    std::uint64_t sum() const { return bsp_steps_sum(&slot_); }

    // The report of a run that is over, as `bsp run` prints it.
    std::string report() const {
        std::size_t bytes = 0;
        std::int32_t status = bsp_steps_report(&slot_, nullptr, 0, &bytes);
        if (status != BSP_STEPS_SHORT) done(status);
        std::string text(bytes, '\0');
        done(bsp_steps_report(&slot_, reinterpret_cast<std::uint8_t *>(&text[0]), text.size(), &bytes));
        return text;
    }
};

// A run whose tasks keep a `Kept` from one superstep to the next. It has the reading calls of `steps_run`.
template <class Kept> class steps : private steps_run {
public:
    using out = steps_out<Kept>;
    using view = steps_view;
    using steps_run::look, steps_run::taken, steps_run::operator[], steps_run::path, steps_run::origin;
    using steps_run::prints, steps_run::records, steps_run::fault, steps_run::report, steps_run::sum;

private:
    struct task {
        Kept kept;
        std::unique_ptr<out> left;
        ending ends;
        std::exception_ptr thrown;
        task(Kept &&it, std::unique_ptr<out> leaves) : kept(std::move(it)), left(std::move(leaves)), ends(ending::goes_on) {}
    };
    std::vector<task> tasks_;
    // What tasks left that stopped: for others, so that an `out` that was kept too long is there as long as the run.
    std::vector<std::unique_ptr<out>> spare_;
    std::size_t arrays_;
    bool over_ = false;

    template <class Body> static void segment(task &it, const view &seen, Body &body) noexcept {
        out &left = *it.left;
        left.puts_.clear(), left.prints_.clear(), left.spawned_.clear();
        it.thrown = nullptr;
        left.runs_ = true;
        try {
            it.ends = body(it.kept, seen, left);
        } catch (...) {
            it.thrown = std::current_exception();
        }
        left.runs_ = false;
    }

    // Threads that take a round when told.
    class crew {
        std::mutex lock_;
        std::condition_variable told_, all_done_;
        const std::function<void(std::size_t)> *round_ = nullptr;
        std::size_t rounds_ = 0, busy_ = 0;
        bool over_ = false;
        std::vector<std::thread> threads_;

        void work(std::size_t number) {
            for (std::size_t seen = 0;;) {
                std::unique_lock<std::mutex> held(lock_);
                told_.wait(held, [&] { return over_ || rounds_ != seen; });
                if (over_) return;
                seen = rounds_;
                held.unlock();
                (*round_)(number);
                held.lock();
                if (--busy_ == 0) all_done_.notify_one();
            }
        }

    public:
        explicit crew(std::size_t count) {
            try {
                for (std::size_t i = 1; i < count; i++) threads_.emplace_back([this, i] { work(i); });
            } catch (...) {
                end();
                throw;
            }
        }
        crew(const crew &) = delete;
        crew &operator=(const crew &) = delete;
        ~crew() { end(); }
        void end() {
            {
                std::lock_guard<std::mutex> held(lock_);
                over_ = true;
            }
            told_.notify_all();
            for (auto &it : threads_) it.join();
            threads_.clear();
        }
        void take(const std::function<void(std::size_t)> &round) {
            {
                std::lock_guard<std::mutex> held(lock_);
                round_ = &round, busy_ = threads_.size(), rounds_++;
            }
            told_.notify_all();
            round(0);
            std::unique_lock<std::mutex> held(lock_);
            all_done_.wait(held, [&] { return busy_ == 0; });
        }
    };

    // Threads stay from one superstep to the next.
    std::unique_ptr<crew> crew_;
    std::size_t threads_ = 0;

    crew &threads(std::size_t count) {
        if (!crew_ || threads_ != count) {
            crew_.reset();
            crew_ = std::make_unique<crew>(count);
            threads_ = count;
        }
        return *crew_;
    }

    std::unique_ptr<out> room() {
        if (spare_.empty()) return std::make_unique<out>();
        std::unique_ptr<out> it = std::move(spare_.back());
        spare_.pop_back();
        return it;
    }

    // What the next live tasks keep, by their origins. Each task that goes on takes its `out` along.
    void carry_over() {
        const std::size_t live = look().live;
        std::vector<out *> left;
        for (auto &it : tasks_) left.push_back(it.left.get());
        std::vector<task> next;
        next.reserve(live);
        for (std::size_t i = 0; i < live; i++) {
            const bsp_origin from = origin(i);
            if (from.spawned) next.emplace_back(std::move(left[from.place]->spawned_[from.number]), room());
            else next.emplace_back(std::move(tasks_[from.place].kept), std::move(tasks_[from.place].left));
        }
        for (auto &it : tasks_)
            if (it.left) spare_.push_back(std::move(it.left));
        tasks_ = std::move(next);
    }

    // One superstep of a run that goes on. If it throws, the run is over.
    template <class Body> std::int32_t superstep(Body &body, std::size_t count) {
        std::vector<cells> arrays;
        for (std::size_t i = 0; i < arrays_; i++) arrays.push_back((*this)[i]);
        const view seen(arrays, taken());
        threads(count).take([&](std::size_t number) {
            for (std::size_t i = number; i < tasks_.size(); i += count) segment(tasks_[i], seen, body);
        });
        std::vector<bsp_deed> deeds;
        for (auto &it : tasks_) {
            if (it.thrown) std::rethrow_exception(it.thrown);
            const out &left = *it.left;
            deeds.push_back({left.puts_.data(), left.puts_.size(), left.prints_.data(), left.prints_.size(),
                             static_cast<std::uint16_t>(left.spawned_.size()), static_cast<std::uint8_t>(it.ends)});
        }
        std::int32_t status = close_slot(deeds.data(), deeds.size());
        if (status == BSP_STEPS_DONE) carry_over();
        return status;
    }

    static std::uint32_t count_of(std::size_t starts) {
        if (starts > 65535) throw steps_refused(BSP_STEPS_TASKS);
        return static_cast<std::uint32_t>(starts);
    }

public:
    // The start tasks keep these. At most `most` tasks may live at once, and at most `limit` supersteps are taken.
    steps(const std::vector<steps_array> &arrays, std::vector<Kept> starts, std::uint32_t most, std::uint32_t limit)
        : steps_run(arrays, count_of(starts.size()), most, limit), arrays_(arrays.size()) {
        tasks_.reserve(starts.size());
        for (auto &it : starts) tasks_.emplace_back(std::move(it), room());
    }

    // Takes one superstep, on so many threads, which stay for the next. Returns BSP_STEPS_DONE if the run goes on, else
    // BSP_STEPS_ENDED, BSP_STEPS_FAULT or BSP_STEPS_LIMIT, also if the run was over when it began. Later calls are refused. What a
    // body throws is thrown here, that of the first task; its superstep isn't taken, and the run is over.
    template <class Body> std::int32_t step(Body &&body, std::size_t threads = 1) {
        if (over_) throw steps_refused(BSP_STEPS_OVER);
        over_ = true;
        std::int32_t status = look().status;
        if (status == BSP_STEPS_DONE) status = superstep(body, threads ? threads : 1);
        over_ = status != BSP_STEPS_DONE;
        return status;
    }

    // Takes supersteps until the run is over, as `step` does. Returns BSP_STEPS_ENDED, BSP_STEPS_FAULT or BSP_STEPS_LIMIT.
    template <class Body> std::int32_t run(Body body, std::size_t threads = 1) {
        for (;;) {
            std::int32_t status = step(body, threads);
            if (status != BSP_STEPS_DONE) return status;
        }
    }
};

} // namespace bsp
#endif
