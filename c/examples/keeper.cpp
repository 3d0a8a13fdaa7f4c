// A client maps and unmaps pages all the time, and now and then it wants a block of 512 frames. First each block is reserved when it is
// wanted. Then a thread keeps two blocks ready: it moves 32 pages at most each time that it has the lock, and sleeps while there is no
// more to do. The pages keep their words. How long a request takes goes to standard error.
#include "compactd.hpp"

#include <algorithm>
#include <chrono>
#include <condition_variable>
#include <cstdio>
#include <mutex>
#include <random>
#include <thread>
#include <vector>

const std::uint32_t blocks = 64, vpages = 4096, addresses = 8 * vpages, pages = addresses / 5 * 4, slice = 32, word = 511;
const std::size_t ready = 2, most_held = 8, requests = 200, turns = 200;

class Service {
public:
    explicit Service(std::size_t kept) : pool_(compactd::PageSize::bytes4096, blocks), keeper_(9, kept)
    {
        for (std::uint32_t place = 0; place < addresses; place++) {
            addresses_.push_back(place);
            map(place);
        }
        for (std::uint32_t place = addresses; place > pages; place--)
            unmap(below(0, place), place - 1);
    }

    // What the keeper's thread does.
    void keep()
    {
        std::unique_lock<std::mutex> lock(mutex_);
        while (!is_over_) {
            if (!keeper_.step(pool_, slice).more)
                changed_.wait(lock);
            lock.unlock(); // so that others may have it
            lock.lock();
        }
    }

    // An address gets no page any more, and another one gets one.
    void turn()
    {
        std::lock_guard<std::mutex> lock(mutex_);
        const std::uint32_t place = below(0, pages);
        unmap(place, below(pages, addresses));
        map(place);
    }

    // Gets a block, and wakes the keeper. The oldest block goes back where there are too many.
    void ask()
    {
        const auto begun = std::chrono::steady_clock::now();
        std::lock_guard<std::mutex> lock(mutex_);
        held_.push_back(keeper_.take(pool_).block);
        times_.push_back(std::chrono::duration<double, std::micro>(std::chrono::steady_clock::now() - begun).count());
        if (held_.size() > most_held)
            held_.erase(held_.begin());
        changed_.notify_one();
    }

    // Gives everything back, and tells what came of it.
    void end(const char *how)
    {
        std::lock_guard<std::mutex> lock(mutex_);
        is_over_ = true;
        changed_.notify_one();
        keeper_.close(pool_);
        held_.clear();
        for (std::uint32_t place = 0; place < pages; place++)
            unmap(place, place);
        is_well_ &= pool_.info().whole == blocks;
        std::printf("%s: %u blocks, %s\n", how, static_cast<unsigned>(times_.size()), is_well_ ? "and each word as it was" : "not well");
        std::sort(times_.begin(), times_.end());
        std::fprintf(stderr, "%s: median %.0f us, 99th percentile %.0f us\n", how, times_[requests / 2], times_[requests / 100 * 99]);
    }

private:
    std::uint32_t below(std::uint32_t low, std::uint32_t high) { return low + static_cast<std::uint32_t>(random_() % (high - low)); }
    compactd::Address at(std::uint32_t place) const { return {addresses_[place] / vpages, addresses_[place] % vpages}; }

    void map(std::uint32_t place)
    {
        pool_.map(0, at(place));
        pool_.store(0, at(place), word, addresses_[place] + 1);
    }

    void unmap(std::uint32_t place, std::uint32_t other)
    {
        is_well_ &= pool_.load(0, at(place), word) == addresses_[place] + 1;
        pool_.unmap(0, at(place));
        std::swap(addresses_[place], addresses_[other]);
    }

    compactd::Pool pool_;
    compactd::Keeper keeper_;
    std::mutex mutex_;
    std::condition_variable changed_; // there may be more for the keeper to do
    std::mt19937 random_; // the same numbers in each run
    std::vector<std::uint32_t> addresses_; // first those of pages
    std::vector<compactd::Huge> held_;
    std::vector<double> times_;
    bool is_over_ = false, is_well_ = true;
};

int main()
{
    for (std::size_t kept : {std::size_t(0), ready}) {
        Service service(kept);
        std::thread keeper([&] { service.keep(); });
        for (std::size_t turn = 1; turn <= requests * turns; turn++) {
            service.turn();
            if (turn % turns == 0)
                service.ask();
        }
        service.end(kept ? "kept ready" : "reserved when they are wanted");
        keeper.join();
    }
}
