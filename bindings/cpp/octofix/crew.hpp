// Threads that each do all items of one row, in its order, after one of them has prepared it. Part
// of octofix_mapper.hpp.
#ifndef OCTOFIX_CREW_HPP
#define OCTOFIX_CREW_HPP

#include <algorithm>
#include <condition_variable>
#include <cstddef>
#include <deque>
#include <exception>
#include <functional>
#include <memory>
#include <mutex>
#include <thread>
#include <utility>
#include <vector>

namespace octofix::detail {

/// Does each item in each thread, by a task of the thread's own, and then what each thread does
/// last. Before that an item is prepared, once, by a thread that has nothing else to do, so that
/// several are prepared at once, by those that are ahead. What one of these throws ends all
/// threads, and is thrown by each later call.
template <class Item> class crew {
  public:
    using task = std::function<void(const Item &)>;
    using preparation = std::function<void(Item &)>;
    using last_task = std::function<void(std::size_t)>; ///< is told the number of the thread

    /// What waits for the slowest thread, beside one item, has at most this size.
    explicit crew(std::vector<task> tasks, preparation prepare, last_task last = {},
                  std::size_t most_waiting = std::size_t{1} << 21)
        : tasks_(std::move(tasks)), prepare_(std::move(prepare)), last_(std::move(last)),
          most_waiting_(most_waiting), done_(tasks_.size(), 0) {
        try {
            for (std::size_t i = 0; i < tasks_.size(); ++i)
                threads_.emplace_back([this, i] { work(i); });
        } catch (...) {
            stop();
            throw;
        }
    }
    crew(const crew &) = delete;
    crew &operator=(const crew &) = delete;
    ~crew() { stop(); }

    /// Gives an item of this size to the threads, once there is room for it.
    void put(std::unique_ptr<Item> item, std::size_t size) {
        std::unique_lock<std::mutex> lock(mutex_);
        moved_.wait(lock, [&] { return is_over_ || items_.empty() || has_room_for(size); });
        if (fault_) std::rethrow_exception(fault_);
        items_.push_back({std::move(item), size, false});
        waiting_ += size;
        moved_.notify_all();
    }
    /// Waits until all is done. There are no more items.
    void finish() {
        std::unique_lock<std::mutex> lock(mutex_);
        is_closed_ = true;
        moved_.notify_all();
        moved_.wait(lock, [&] { return is_over_ || ended_ == tasks_.size(); });
        if (fault_) std::rethrow_exception(fault_);
    }

  private:
    struct entry {
        std::unique_ptr<Item> item;
        std::size_t size;
        bool is_ready;
    };
    /// What a thread is to do next: to prepare an item, or to do it; nothing without an item.
    struct job {
        Item *item = nullptr;
        std::size_t number = 0;
        bool is_to_prepare = false;
    };

    bool has_room_for(std::size_t size) const { return waiting_ + size <= most_waiting_; }
    std::size_t put_so_far() const { return gone_ + items_.size(); }

    void work(std::size_t number) {
        try {
            for (job it = next(number); it.item; it = next(number)) {
                if (it.is_to_prepare) {
                    prepare_(*it.item);
                    set_ready(it.number);
                } else {
                    tasks_[number](*it.item);
                    count(number);
                }
            }
            end(number);
        } catch (...) {
            const std::lock_guard<std::mutex> lock(mutex_);
            if (!fault_) fault_ = std::current_exception();
            is_over_ = true;
            moved_.notify_all();
        }
    }
    /// Waits for something to do; there is nothing where all is over, or the thread has done the
    /// last item.
    job next(std::size_t number) {
        std::unique_lock<std::mutex> lock(mutex_);
        const std::size_t &mine = done_[number];
        const auto has_more = [&] { return mine < put_so_far(); };
        const auto is_ready = [&] { return has_more() && items_[mine - gone_].is_ready; };
        moved_.wait(lock, [&] {
            return is_over_ || is_ready() || claimed_ < put_so_far() ||
                   (is_closed_ && !has_more());
        });
        if (is_over_) return {};
        if (is_ready()) return {items_[mine - gone_].item.get(), mine, false};
        if (claimed_ == put_so_far()) return {};
        const std::size_t claimed = claimed_++;
        return {items_[claimed - gone_].item.get(), claimed, true};
    }
    void set_ready(std::size_t number) {
        const std::lock_guard<std::mutex> lock(mutex_);
        items_[number - gone_].is_ready = true;
        moved_.notify_all();
    }
    /// Does what a thread does last, where not all is over.
    void end(std::size_t number) {
        std::unique_lock<std::mutex> lock(mutex_);
        if (is_over_) return;
        lock.unlock();
        if (last_) last_(number);
        lock.lock();
        ++ended_;
        moved_.notify_all();
    }
    void count(std::size_t number) {
        const std::lock_guard<std::mutex> lock(mutex_);
        ++done_[number];
        for (; gone_ < *std::min_element(done_.begin(), done_.end()); ++gone_) {
            waiting_ -= items_.front().size;
            items_.pop_front();
        }
        moved_.notify_all();
    }
    /// Ends each thread after the item that it is doing.
    void stop() {
        {
            const std::lock_guard<std::mutex> lock(mutex_);
            is_over_ = true;
            moved_.notify_all();
        }
        for (std::thread &it : threads_) it.join();
    }

    std::vector<task> tasks_;
    preparation prepare_;
    last_task last_;
    std::size_t most_waiting_;
    std::mutex mutex_;
    std::condition_variable moved_; // what follows has changed, but for the threads
    std::deque<entry> items_;
    std::size_t waiting_ = 0, gone_ = 0; // sizes of items; how many all threads have done
    std::vector<std::size_t> done_;      // how many each
    std::size_t claimed_ = 0;            // how many are prepared, or are being
    std::size_t ended_ = 0;              // how many threads have done all
    std::exception_ptr fault_;
    bool is_closed_ = false, is_over_ = false;
    std::vector<std::thread> threads_;
};

} // namespace octofix::detail

#endif
