// The buffers of a database: pages of 4 KiB of a pool in memory of its own, into which the kernel reads a file without a copy. All 4 MiB are
// read. Then half of the buffers are given up, wherever they lie, and 1,024 pages are fetched, half of which have to be read again. A buffer
// is pinned from when it is fetched until 8 others were. A thread keeps two blocks of 128 pages ready: it moves the buffers that have no pin.
// Each 64 pages a block is taken for a scan, and given back. Each word tells its place in the file. How long a read takes, and how many pages
// moved, goes to standard error.
#include "compactd.hpp"

#include <chrono>
#include <condition_variable>
#include <cstdio>
#include <deque>
#include <fcntl.h>
#include <memory>
#include <mutex>
#include <numeric>
#include <random>
#include <stdexcept>
#include <thread>
#include <unistd.h>
#include <vector>

const std::uint32_t page_words = 512, blocks = 2, pages = blocks * 512, cached = pages / 2, client = 0;
const std::uint32_t order = 7, block_pages = 1 << order, scan_each = 64, ready = 2, slice = 4, most_pinned = 8;
typedef std::unique_ptr<std::FILE, int (*)(std::FILE *)> File;

// A file that has no name. Reads of it go past the cache of the system, where that can be.
File written()
{
    File file(std::tmpfile(), std::fclose);
    std::vector<std::uint64_t> words(pages * page_words);
    std::iota(words.begin(), words.end(), 0u);
    if (!file || std::fwrite(words.data(), 8, words.size(), file.get()) < words.size() || std::fflush(file.get()) != 0)
        throw std::runtime_error("the file isn't written");
    fcntl(fileno(file.get()), F_SETFL, O_DIRECT); // a file system may refuse it
    return file;
}

// Each call on the pool is made under the lock while there is a keeper, and lent words and blocks go back under it.
class Database {
public:
    // Reads the whole file, and gives up half of the buffers.
    Database()
    {
        for (std::uint32_t page = 0; page < pages; page++)
            fetch(page);
        pinned_.clear();
        while (pool_.info().pages > cached)
            give_up();
        std::printf("%u pages were read into the pool, %u buffers are left\n", reads_, pool_.info().pages);
    }

    void serve()
    {
        std::thread keeper([this] { keep(); });
        for (std::uint32_t made = 1; made <= pages; made++) {
            fetch(below(pages));
            if (made % scan_each == 0)
                scan(below(pages / block_pages) * block_pages);
        }
        end();
        keeper.join();
        std::printf("%u pages were fetched, %u of them from the file, and %u blocks were read by scans\n", pages, reads_ - pages, scans_);
        std::printf("each word is at its place: %s\n", is_well_ ? "yes" : "no");
        std::printf("the memory came back: %s\n", pool_.close_in().size() == pages * page_words ? "yes" : "no");
        std::fprintf(stderr, "a read takes %.1f us, %u pages moved\n", reading_.count() / (reads_ + scans_), moved_);
    }

private:
    void keep()
    {
        for (std::unique_lock<std::mutex> lock(mutex_); !is_over_; lock.unlock(), lock.lock()) { // others may have it after each step
            const compactd::KeeperStep step = keeper_.step(pool_, slice);
            moved_ += step.moved;
            if (!step.more)
                changed_.wait(lock);
        }
    }

    void end()
    {
        const std::lock_guard<std::mutex> lock(mutex_);
        is_over_ = true;
        changed_.notify_one();
        pinned_.clear();
        keeper_.close(pool_);
    }

    std::uint32_t below(std::uint32_t count) { return static_cast<std::uint32_t>(random_() % count); }
    bool is_pinned(std::uint32_t page) { return has_buffer_[page] && pool_.look({0, page}).pins > 0; }

    void give_up()
    {
        std::uint32_t page = below(pages);
        while (!has_buffer_[page] || is_pinned(page))
            page = below(pages);
        pool_.unmap(client, {0, page});
        has_buffer_[page] = false;
    }

    // Pins a page of the file, which takes the buffer of another one where it has none.
    void fetch(std::uint32_t page)
    {
        std::unique_lock<std::mutex> lock(mutex_);
        if (is_pinned(page))
            return;
        const bool is_new = !has_buffer_[page];
        if (is_new && reads_++ >= pages)
            give_up();
        if (is_new)
            pool_.map(client, {0, page});
        has_buffer_[page] = true;
        if (pinned_.size() == most_pinned)
            pinned_.pop_front();
        pinned_.push_back(pool_.pin_words(client, {0, page}));
        changed_.notify_one();
        use(lock, page, pinned_.back(), is_new);
    }

    // Reads as many pages of the file as a block has, from one on, by one call.
    void scan(std::uint32_t page)
    {
        std::unique_lock<std::mutex> lock(mutex_);
        pinned_.clear();
        compactd::Taken taken = keeper_.take(pool_);
        compactd::BlockWords words = taken.block.words(); // which go back before the block does, and both before the lock
        moved_ += taken.moved;
        scans_++;
        use(lock, page, words, true);
    }

    // Others may have the lock while words are used. New ones are read, and each has to be at its place.
    template <typename Words> void use(std::unique_lock<std::mutex> &lock, std::uint64_t page, Words &words, bool are_new)
    {
        std::uint64_t place = page * page_words;
        lock.unlock();
        is_well_ &= !are_new || read(place, words.data(), words.size());
        for (std::uint64_t word : words)
            is_well_ &= word == place++;
        lock.lock();
    }

    // Whether the kernel reads so many words of the file, from a place on.
    bool read(std::uint64_t place, std::uint64_t *words, std::size_t count)
    {
        const off_t from = static_cast<off_t>(place * 8);
        const auto begun = std::chrono::steady_clock::now();
        ssize_t done = pread(fileno(file_.get()), words, count * 8, from);
        if (done < 0 && fcntl(fileno(file_.get()), F_SETFL, 0) == 0) // without O_DIRECT
            done = pread(fileno(file_.get()), words, count * 8, from);
        reading_ += std::chrono::steady_clock::now() - begun;
        return done == static_cast<ssize_t>(count * 8);
    }

    compactd::Pool pool_{compactd::PageSize::bytes4096, {blocks, 1, pages}, compactd::Memory(compactd::PageSize::bytes4096, blocks)};
    compactd::Keeper keeper_{order, ready};
    std::deque<compactd::PageWords> pinned_;
    std::mutex mutex_;
    std::condition_variable changed_; // there may be more for the keeper to do
    std::mt19937 random_; // the same numbers in each run
    std::vector<bool> has_buffer_ = std::vector<bool>(pages);
    const File file_ = written();
    std::chrono::duration<double, std::micro> reading_{};
    unsigned reads_ = 0, scans_ = 0, moved_ = 0;
    bool is_over_ = false, is_well_ = true;
};

int main()
{
    Database().serve();
}
