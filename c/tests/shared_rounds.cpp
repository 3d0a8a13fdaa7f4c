// Rounds of compactd.hpp with mutexes of several kinds, and runs that are emptied on threads. Alone, they leave each page where Pool::compact and
// Pool::empty_some leave it. Beside clients that load, store, pin and map pages each word is at its place afterwards, and the counts add up. They end as they should where a number is out of its range,
// the pool has memory of its own, the journal is full, and where the pool is closed or goes meanwhile; its memory stays until the round has
// ended. A thread that waits for a FairMutex gets it before a round in slices has ended.
#include "compactd.hpp"

#include <array>
#include <atomic>
#include <chrono>
#include <cstdio>
#include <functional>
#include <memory>
#include <mutex>
#include <thread>
#include <type_traits>
#include <utility>
#include <vector>

using compactd::Address;
using compactd::Error;
using compactd::FairMutex;
using compactd::Memory;
using compactd::PageSize;
using compactd::Pool;
using compactd::Round;

static_assert(!std::is_copy_constructible<FairMutex>::value && !std::is_move_constructible<FairMutex>::value, "a mutex stays");

namespace {

const std::uint32_t frames = 1024, pages = 600, clients = 2, most_turns = 20000;
const compactd::PoolSize size = {2, 1, frames};

std::atomic<bool> is_well(true);

void holds(bool fact, int line)
{
    if (!fact)
        std::printf("line %d\n", line);
    if (!fact)
        is_well = false;
}

#define HOLDS(fact) holds((fact), __LINE__)

template <typename Call> std::uint32_t refusal(Call call)
{
    try {
        call();
        return COMPACTD_OK;
    } catch (const Error &error) {
        return error.refusal();
    }
}

// A mutex that does something before it is let go, and counts how often it was held.
class Watched {
public:
    void lock()
    {
        mutex_.lock();
        holds++;
    }

    void unlock()
    {
        if (meddle)
            meddle();
        mutex_.unlock();
    }

    std::function<void()> meddle;
    std::uint32_t holds = 0;

private:
    std::mutex mutex_;
};

Memory memory(PageSize page_size) { return Memory(page_size, size.blocks); }

std::uint64_t word_of(std::uint32_t page) { return page + 1; }

// Pages of which every third is unmapped again. One is unmovable, and one has a pin.
void fill(Pool &pool)
{
    for (std::uint32_t page = 0; page < pages; page++) {
        pool.map(0, {0, page}, page == 7);
        pool.store(0, {0, page}, 5, word_of(page));
    }
    for (std::uint32_t page = 0; page < pages; page += 3)
        pool.unmap(0, {0, page});
    pool.pin(0, {0, 10});
}

Pool filled(PageSize page_size)
{
    Pool pool(page_size, size, memory(page_size));
    fill(pool);
    return pool;
}

// Each page is where it is in the other pool, with its word. So many rounds tell what the pool counts, and no page is moving.
void need_same(const Pool &alone, Pool &pool, const Round &round, std::uint32_t end = COMPACTD_MET)
{
    const compactd_round_counts counts = pool.audit(); // refused while a page is moving
    HOLDS(round.stopped == end && round.counts.moved > 0 && round.counts.moved == counts.moved);
    HOLDS(round.counts.isolated == counts.isolated && round.counts.back == 0 && counts.back == 0);
    for (std::uint32_t page = 0; page < pages; page++)
        if (page % 3 != 0)
            HOLDS(pool.look({0, page}).frame == alone.look({0, page}).frame && pool.load(0, {0, page}, 5) == word_of(page));
}

template <typename Mutex> void rounds_alone()
{
    for (PageSize page_size : {PageSize::bytes64, PageSize::bytes4096}) {
        Pool alone = filled(page_size);
        alone.compact();
        Mutex mutex;
        for (std::uint32_t slice : {1u, 7u, 4000u}) {
            Pool pool(page_size, size);
            fill(pool);
            need_same(alone, pool, pool.round(mutex, slice));
        }
        for (std::uint32_t threads : {1u, 2u, 4u}) {
            Pool pool = filled(page_size);
            need_same(alone, pool, pool.round_on(mutex, threads, 9 * threads));
        }
    }
}

// Two runs, which are handed out once they are empty.
void runs_alone()
{
    const std::vector<std::uint32_t> firsts = {512, 64};
    std::mutex mutex;
    for (PageSize page_size : {PageSize::bytes64, PageSize::bytes4096}) {
        Pool alone = filled(page_size);
        for (std::uint32_t most : {0u, 64u})
            for (std::uint32_t first : firsts)
                alone.empty_some(first, 6, most);
        for (std::uint32_t threads : {1u, 2u, 4u}) {
            Pool pool = filled(page_size);
            need_same(alone, pool, pool.empty_on(mutex, firsts, 6, threads, 9 * threads), COMPACTD_NONE_LEFT);
            HOLDS(pool.audit().moved == alone.audit().moved && pool.empty_on(mutex, {}, 6, threads, 1).counts.isolated == 0);
            for (std::uint32_t first : firsts)
                HOLDS(refusal([&] { pool.take_claimed(first, 6); }) == COMPACTD_OK);
        }
    }
}

void refused()
{
    std::mutex mutex;
    Pool own(PageSize::bytes64, 2), pool = filled(PageSize::bytes64), closed = std::move(own);
    HOLDS(refusal([&] { own.round(mutex, 1); }) == COMPACTD_CLOSED && refusal([&] { own.round_on(mutex, 1, 1); }) == COMPACTD_CLOSED);
    HOLDS(refusal([&] { pool.round(mutex, 0); }) == COMPACTD_RANGE);
    HOLDS(refusal([&] { own.empty_on(mutex, {0}, 9, 1, 1); }) == COMPACTD_CLOSED);
    HOLDS(refusal([&] { pool.empty_on(mutex, {0, 8}, 4, 1, 1); }) == COMPACTD_RANGE && pool.info().held == 0);
    for (const std::array<std::uint32_t, 2> &numbers : {std::array<std::uint32_t, 2>{{0, 1}}, {{65, 1}}, {{1, 0}}, {{1, 65}}})
        HOLDS(refusal([&] { pool.round_on(mutex, numbers[0], numbers[1]); }) == COMPACTD_RANGE);
    closed.map(0, {0, 0});
    HOLDS(refusal([&] { closed.round_on(mutex, 2, 8); }) == COMPACTD_OWN_MEMORY && closed.look({0, 0}).frame == 0);
    HOLDS(refusal([&] { closed.empty_on(mutex, {0}, 9, 2, 8); }) == COMPACTD_OWN_MEMORY && closed.look({0, 0}).frame == 0);
    HOLDS(pool.audit().isolated == 0 && mutex.try_lock());
    mutex.unlock();
}

// A journal with room for three moves.
void full_journals()
{
    std::mutex mutex;
    for (bool is_on_threads : {false, true}) {
        Pool pool(PageSize::bytes64, size, memory(PageSize::bytes64), 16);
        for (std::uint32_t page = 0; page < 10; page++)
            pool.map(0, {0, page});
        const Round round = is_on_threads ? pool.round_on(mutex, 2, 2) : pool.round(mutex, 2);
        HOLDS(round.stopped == COMPACTD_JOURNAL_FULL && round.counts.moved == 3 && pool.audit().moved == 3);
    }
}

// How often the mutex is held: for the pool, to begin, for each slice, and for the end. The pool is closed after the first slice.
void closed_between_slices()
{
    Watched mutex;
    Pool pool = filled(PageSize::bytes64);
    Memory back;
    mutex.meddle = [&] {
        if (mutex.holds == 3)
            back = pool.close_in();
    };
    const Round round = pool.round(mutex, 8);
    HOLDS(round.stopped == COMPACTD_CLOSED && round.counts.isolated == 8 && round.counts.moved == 8 && mutex.holds == 4);
    HOLDS(back.size() == frames * 8 && refusal([&] { pool.info(); }) == COMPACTD_CLOSED);
    pool = Pool(PageSize::bytes64, size, std::move(back));
    fill(pool);
    mutex.meddle = nullptr;
    mutex.holds = 0;
    const Round other = pool.round(mutex, 8);
    HOLDS(other.stopped == COMPACTD_MET && mutex.holds == 3 + other.counts.moved / 8);
}

// The pool goes while moves are in hand. The round ends as else, and then the memory goes back.
void gone_meanwhile()
{
    std::vector<std::uint64_t> words(frames * 8);
    std::size_t given = 0;
    Pool pool(PageSize::bytes64, size, Memory(words.data(), words.size() * 8, [&](void *, std::size_t bytes) { given += bytes; }));
    fill(pool);
    Pool alone = filled(PageSize::bytes64);
    alone.compact();
    Watched mutex;
    mutex.meddle = [&] {
        if (mutex.holds == 3) {
            HOLDS(refusal([&] { pool.close_in(); }) == COMPACTD_LENT);
            pool = Pool(PageSize::bytes64, 1);
        }
        HOLDS(given == 0);
    };
    const Round round = pool.round_on(mutex, 2, 8);
    HOLDS(round.stopped == COMPACTD_MET && round.counts.moved == alone.audit().moved && given == words.size() * 8);
    HOLDS(pool.info().free == 512 && pool.audit().isolated == 0);
}

// A client, who adds to a word of its pages, pins one of them, and maps others anew, until it is told to end or has had enough turns.
class Client {
public:
    void serve(Pool &pool, std::mutex &mutex, std::uint32_t number, const std::atomic<bool> &is_over)
    {
        for (turns = 0; turns < most_turns && !is_over; turns++, std::this_thread::yield()) {
            const std::lock_guard<std::mutex> lock(mutex);
            const Address at = {0, turns * 7919 % (pages / 3) * 3 + 1 + number};
            if (is_done(refusal([&] { pool.store(number, at, 6, pool.load(number, at, 6) + turns); })))
                added[at.vpage] += turns;
            if (turns % 3 == 0)
                pin_or_unpin(pool, number, at);
            if (turns % 5 == 0 && pool.look(at).pins == 0)
                map_anew(pool, number, at);
        }
    }

    std::vector<std::uint64_t> added = std::vector<std::uint64_t>(pages);
    std::atomic<std::uint32_t> turns{0};

private:
    static bool is_done(std::uint32_t answer)
    {
        HOLDS(answer == COMPACTD_OK || answer == COMPACTD_MOVING);
        return answer == COMPACTD_OK;
    }

    void pin_or_unpin(Pool &pool, std::uint32_t number, Address at)
    {
        if (has_pin_)
            pool.unpin(number, pinned_);
        else
            pool.pin(number, at);
        has_pin_ = !has_pin_;
        pinned_ = at;
    }

    void map_anew(Pool &pool, std::uint32_t number, Address at)
    {
        if (!is_done(refusal([&] { pool.unmap(number, at); })))
            return;
        pool.map(number, at);
        pool.store(number, at, 5, word_of(at.vpage));
        added[at.vpage] = 0;
    }

    Address pinned_ = {0, 0};
    bool has_pin_ = false;
};

void rounds_beside_clients()
{
    std::mutex mutex;
    Pool pool = filled(PageSize::bytes4096);
    std::atomic<bool> is_over(false);
    std::array<Client, clients> served;
    std::vector<std::thread> threads;
    for (std::uint32_t number = 0; number < clients; number++)
        threads.emplace_back([&, number] { served[number].serve(pool, mutex, number, is_over); });
    while (served[0].turns == 0 || served[1].turns == 0)
        std::this_thread::yield();
    compactd_round_counts sum = compactd_round_counts();
    for (std::uint32_t turn = 0; turn < 6; turn++) {
        const bool is_round = turn % 3 != 2;
        const Round round = !is_round ? pool.empty_on(mutex, {832, 896}, 6, 3, 8)
                            : turn % 3 == 0 ? pool.round_on(mutex, 3, 8)
                                            : pool.round(mutex, 8);
        HOLDS(round.stopped == (is_round ? COMPACTD_MET : COMPACTD_NONE_LEFT) && round.counts.isolated == round.counts.moved + round.counts.back);
        sum.isolated += round.counts.isolated;
        sum.moved += round.counts.moved;
    }
    is_over = true;
    for (std::thread &thread : threads)
        thread.join();
    HOLDS(sum.moved > 0 && pool.audit().isolated == sum.isolated && pool.audit().moved == sum.moved);
    for (std::uint32_t page = 0; page < pages; page++)
        if (page % 3 != 0) {
            const std::uint64_t added = served[page % 3 - 1].added[page];
            HOLDS(pool.load(0, {0, page}, 5) == word_of(page) && pool.load(0, {0, page}, 6) == added);
        }
}

// A FairMutex that another thread begins to wait for while the first slice is made. It is kept until that thread has had time to begin.
class Awaited {
public:
    ~Awaited() { waiting_.join(); }

    void lock()
    {
        mutex_.lock();
        holds_++;
    }

    void unlock()
    {
        if (holds_ == 3)
            waiting_ = std::thread([this] { take_turn(); });
        if (holds_ >= 3 && !had_turn)
            std::this_thread::sleep_for(std::chrono::milliseconds(1));
        mutex_.unlock();
    }

    std::atomic<bool> had_turn{false};

private:
    void take_turn()
    {
        const std::lock_guard<FairMutex> lock(mutex_);
        had_turn = true;
    }

    FairMutex mutex_;
    std::thread waiting_;
    std::uint32_t holds_ = 0;
};

void turns()
{
    for (int turn = 0; turn < 3; turn++) {
        Pool pool = filled(PageSize::bytes64);
        Awaited mutex;
        HOLDS(pool.round(mutex, 2).stopped == COMPACTD_MET && mutex.had_turn);
    }
    FairMutex mutex;
    const std::unique_lock<FairMutex> lock(mutex, std::try_to_lock);
    bool is_taken = false;
    std::thread([&] { is_taken = mutex.try_lock(); }).join();
    HOLDS(lock.owns_lock() && !is_taken);
}

} // namespace

int main()
{
    rounds_alone<std::mutex>();
    rounds_alone<FairMutex>();
    rounds_alone<std::recursive_mutex>();
    runs_alone();
    refused();
    full_journals();
    closed_between_slices();
    gone_meanwhile();
    rounds_beside_clients();
    turns();
    std::printf("%s\n", is_well ? "rounds beside other threads are as those of one" : "a round is another");
    return is_well ? 0 : 1;
}
