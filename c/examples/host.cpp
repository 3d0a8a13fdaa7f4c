// A host whose memory is 16 MiB that it mapped: 8 pageblocks of 512 pages of 4 KiB. It fills all of it with pages, and frees three of four,
// wherever they lie. A round on two threads moves the others together, and each pageblock that is empty then is taken as a huge block. Half of
// the blocks are written by pointers, and the memory of the rest goes back to the system. Each page and each block keeps its words. How long a
// random read takes, and how much memory is resident, goes to standard error.
#include "compactd.hpp"

#include <algorithm>
#include <chrono>
#include <cstdint>
#include <cstdio>
#include <fstream>
#include <mutex>
#include <numeric>
#include <random>
#include <string>
#include <utility>
#include <vector>

const std::uint32_t page_words = 512, blocks = 8, pages = blocks * 512, kept = pages / 4, client = 0, reads = 100000;
const compactd::PageSize page_size = compactd::PageSize::bytes4096;

std::mt19937 chance; // the same numbers in each run

std::uint32_t below(std::size_t count) { return static_cast<std::uint32_t>(chance() % count); }

template <typename Words> void write(Words &words, std::uint64_t number) { std::iota(words.begin(), words.end(), number << 32); }

template <typename Words> bool has(const Words &words, std::uint64_t number)
{
    std::uint64_t wanted = number << 32;
    return std::all_of(words.begin(), words.end(), [&](std::uint64_t word) { return word == wanted++; });
}

bool is_blank(const compactd::BlockWords &words) { return std::count(words.begin(), words.end(), 0) == words.end() - words.begin(); }

// So many MiB of the process are in its smaps by this name.
std::size_t mib(const char *name)
{
    std::ifstream maps("/proc/self/smaps");
    std::size_t all = 0, kib = 0;
    for (std::string word; maps >> word;)
        all += word == name && maps >> kib ? kib : 0;
    return all / 1024;
}

template <typename Read> void tell(const char *where, Read read)
{
    volatile std::uint64_t found = 0; // so that each read is made
    const auto begun = std::chrono::steady_clock::now();
    for (std::uint32_t made = 0; made < reads; made++)
        found = found ^ read();
    const std::chrono::duration<double, std::nano> time = std::chrono::steady_clock::now() - begun;
    std::fprintf(stderr, "a read takes %.1f ns %s, %zu MiB are resident, %zu MiB lie in huge pages\n", time.count() / reads, where,
                 mib("Rss:"), mib("AnonHugePages:"));
}

// Fills the memory with pages, unmaps three of four, and returns the others.
std::vector<std::uint32_t> mapped(compactd::Pool &pool)
{
    std::vector<std::uint32_t> left;
    for (std::uint32_t page = 0; page < pages; page++) {
        left.push_back(page);
        pool.map(client, {0, page});
        compactd::PageWords words = pool.pin_words(client, {0, page});
        write(words, page);
    }
    for (; left.size() > kept; left.pop_back()) {
        std::swap(left[below(left.size())], left.back());
        pool.unmap(client, {0, left.back()});
    }
    return left;
}

// Takes each pageblock that is free as a whole. Returns whether the blocks keep their words.
bool use_blocks(compactd::Pool &pool)
{
    std::vector<compactd::BlockWords> written, released; // with which their blocks go back
    bool is_well = true;
    for (std::uint32_t whole = pool.info().whole; whole > 0; whole--)
        (whole % 2 > 0 ? written : released).push_back(pool.take_huge().words());
    for (std::size_t at = 0; at < written.size(); at++)
        write(written[at], at + pages);
    for (compactd::BlockWords &words : released)
        is_well &= words.release();
    std::printf("%zu blocks are written, the memory of %zu is the system's\n", written.size(), released.size());
    tell("in a block by the pointer", [&] { return written[below(written.size())][below(512 * page_words)]; });
    for (std::size_t at = 0; at < written.size(); at++)
        is_well &= has(written[at], at + pages);
    return is_well && std::all_of(released.begin(), released.end(), is_blank);
}

int main()
{
    compactd::Memory memory(page_size, blocks);
    const std::uint64_t *const begin = memory.data();
    compactd::Pool pool(page_size, {blocks, 1, pages}, std::move(memory));
    const std::vector<std::uint32_t> left = mapped(pool);
    const auto read = [&] { return pool.load(client, {0, left[below(kept)]}, below(page_words)); };
    std::printf("%zu of %u pages are left, %u pageblocks are free as a whole\n", left.size(), pages, pool.info().whole);
    tell("in a page by a call", read);
    std::mutex mutex; // of threads that share the pool; here no other one does
    pool.round_on(mutex, 2, 64);
    std::printf("%u pages moved, %u pageblocks are free as a whole\n", static_cast<unsigned>(pool.audit().moved), pool.info().whole);
    tell("in a page by a call after a round", read);
    const auto is_kept = [&](std::uint32_t page) { return has(pool.pin_words(client, {0, page}), page); };
    const bool is_well = use_blocks(pool) && std::all_of(left.begin(), left.end(), is_kept);
    memory = pool.close_in();
    std::printf("each page and each block has its words: %s\n", is_well ? "yes" : "no");
    std::printf("the memory came back: %s\n", memory.data() == begin ? "yes" : "no");
}
