// The page pool for C++, from C++11 on, over compactd.h. A call that is refused throws compactd::Error, which has the number of the
// refusal, and changes nothing.
//
// A Pool can be moved and not copied, and closes when it is destroyed. A Huge is a block that a pool handed out, and a Moving is a page
// that is moving. Both can be moved and not copied. When a Huge is destroyed, it gives its block back; when a Moving is destroyed, it
// puts its page back. Both keep the pool's memory until then, also where the Pool is destroyed before. A Memory is a mapping that a pool may
// lie in. The words of its blocks and of pinned pages are lent then: a BlockWords has those of one block and a PageWords those of one page.
// Each returns them when it is destroyed. A LentMove is a moving page with the words of both its frames, and puts it back.
//
// As in C, calls on one pool don't overlap, unless all of them are questions. Destroying a Pool, a Huge, a BlockWords, a PageWords, a Moving or
// a LentMove is a call on its pool that isn't a question. Threads that share a pool make each call under a lock of their own, destructors
// included. Pool::round and Pool::round_on make rounds under it, and Pool::empty_on empties runs. This header isn't proved. It passes what it is
// given to calls that are.
#ifndef COMPACTD_HPP
#define COMPACTD_HPP

#include "compactd.h"
#include "compactd_memory.h"
#include "compactd_round.h"

#include <cstddef>
#include <cstdint>
#include <cstring>
#include <functional>
#include <memory>
#include <mutex>
#include <stdexcept>
#include <string>
#include <system_error>
#include <utility>
#include <vector>

namespace compactd {

// A refused call.
class Error : public std::runtime_error {
public:
    explicit Error(std::uint32_t refusal)
        : std::runtime_error(std::string("compactd: ") + compactd_refusal_text(refusal)), refusal_(refusal)
    {
    }

    // Its number: one of enum compactd_refusal.
    std::uint32_t refusal() const noexcept { return refusal_; }

private:
    std::uint32_t refusal_;
};

// What names a page: a space, and a virtual page of it. A pool has 8 spaces of 4,096 virtual pages, or those of its PoolSize.
struct Address {
    std::uint32_t space;
    std::uint32_t vpage;
};

enum class PageSize : std::uint32_t { bytes64 = 8, bytes4096 = 512 };

// How large a pool is: 1 to 32,768 pageblocks, 1 to 256 spaces and 1 to 16,777,216 virtual pages of each space; these are at most 67,108,864
// addresses in all, and each takes 4 bytes of memory.
struct PoolSize {
    std::uint32_t blocks;
    std::uint32_t spaces;
    std::uint32_t vpages;
};

namespace detail {

inline void done(std::uint32_t answer)
{
    if (answer != COMPACTD_OK)
        throw Error(answer);
}

// For destructors, which can't throw.
inline void ignore(std::uint32_t) noexcept {}

template <typename Mutex> void take(void *mutex) { static_cast<Mutex *>(mutex)->lock(); }
template <typename Mutex> void let_go(void *mutex) { static_cast<Mutex *>(mutex)->unlock(); }

// A mutex for the rounds of compactd_round.h.
template <typename Mutex> compactd_lock lock_of(Mutex &mutex)
{
    compactd_lock lock = {std::addressof(mutex), take<Mutex>, let_go<Mutex>};
    return lock;
}

// Unmaps memory of compactd_map_memory.
inline void unmap(void *at, std::size_t bytes) noexcept
{
    compactd_words words = {static_cast<std::uint64_t *>(at), bytes / 8};
    compactd_unmap_memory(&words);
}

} // namespace detail

// A mutex that is handed to a thread that waits for it when it is let go, for threads that share a pool beside a round in slices: a std::mutex
// isn't. It is for std::lock_guard, std::unique_lock and std::condition_variable_any.
class FairMutex {
public:
    FairMutex() { done(compactd_round_lock(&mutex_)); }
    FairMutex(const FairMutex &) = delete;
    FairMutex &operator=(const FairMutex &) = delete;
    ~FairMutex() { pthread_mutex_destroy(&mutex_); }

    void lock() { done(pthread_mutex_lock(&mutex_)); }
    bool try_lock() noexcept { return pthread_mutex_trylock(&mutex_) == 0; }
    void unlock() noexcept { pthread_mutex_unlock(&mutex_); }

private:
    static void done(int number)
    {
        if (number != 0)
            throw std::system_error(number, std::generic_category());
    }

    pthread_mutex_t mutex_;
};

// Memory for a Pool: a mapping that begins at a huge page of the processor, and may consist of such pages; or memory of the caller's. When this
// is destroyed, it is unmapped, or given back as the caller says. A pool has it until Pool::close_in gives it back, or else until the pool's
// memory is given back.
class Memory {
public:
    // What gives memory back: it gets where that begins, and its bytes, as munmap does. It doesn't throw.
    typedef std::function<void(void *, std::size_t)> GiveBack;

    // None.
    Memory() noexcept : words_(), is_blank_(false) {}

    // Maps so many words. Where the system has no memory, it throws Error as MEMORY; 0 words are out of range.
    explicit Memory(std::size_t words) : words_(), is_blank_(true), give_back_(detail::unmap)
    {
        const int number = compactd_map_memory(words, &words_);
        if (number != 0)
            throw Error(number == EINVAL ? COMPACTD_RANGE : COMPACTD_MEMORY);
    }

    // As much as a pool needs with pages of this size and so many pageblocks.
    Memory(PageSize page_size, std::uint32_t blocks) : Memory(bytes_of(page_size, blocks) / 8) {}

    // Memory that the caller has: so many bytes, such as a mapping of a file or in huge pages. Nothing else uses it until it is given back, or,
    // where nothing gives it back, until this is destroyed and so is all that has words of a pool in it. Where it is said to be blank, all of
    // it is 0. Both numbers are multiples of 8, and neither is 0; else this throws Error as RANGE, and the memory isn't given back.
    Memory(void *at, std::size_t bytes, GiveBack give_back = GiveBack(), bool is_blank = false)
        : words_(), is_blank_(is_blank), give_back_(std::move(give_back))
    {
        if (!at || reinterpret_cast<std::uintptr_t>(at) % 8 != 0 || bytes == 0 || bytes % 8 != 0)
            throw Error(COMPACTD_RANGE);
        words_.at = static_cast<std::uint64_t *>(at);
        words_.count = bytes / 8;
    }

    // The bytes that a pool needs with pages of this size and so many pageblocks.
    static std::size_t bytes_of(PageSize page_size, std::uint32_t blocks)
    {
        return std::size_t(blocks) * 512 * static_cast<std::size_t>(page_size) * 8;
    }

    Memory(Memory &&other) noexcept : Memory() { swap(other); }

    Memory &operator=(Memory &&other) noexcept
    {
        swap(other);
        return *this;
    }

    Memory(const Memory &) = delete;
    Memory &operator=(const Memory &) = delete;

    ~Memory()
    {
        if (words_.count > 0 && give_back_)
            give_back_(words_.at, words_.count * 8);
    }

    // Where it begins, and how many words it has; null and 0 where it is none, as while a pool has it.
    const std::uint64_t *data() const noexcept { return words_.at; }
    std::size_t size() const noexcept { return words_.count; }

private:
    friend class PageWords;
    friend class Pool;

    void swap(Memory &other) noexcept
    {
        std::swap(words_, other.words_);
        std::swap(is_blank_, other.is_blank_);
        give_back_.swap(other.give_back_);
    }

    compactd_words words_;
    bool is_blank_; // whether its words are known to be 0, as where no pool has had it
    GiveBack give_back_;
};

namespace detail {

// A handle that closes itself, before the memory goes that the pool may lie in. It stays where it is while it is open.
struct Handle {
    Memory memory;
    compactd_pool raw;

    Handle() : raw() {}
    ~Handle() { compactd_close(&raw); }
    Handle(const Handle &) = delete;
    Handle &operator=(const Handle &) = delete;
};

} // namespace detail

// The words of a block while they are lent. They are read and written by the pointer, beside calls on the pool too. When this is destroyed,
// they are returned to the block, which is given back too where its Huge has gone already.
class BlockWords {
public:
    BlockWords(BlockWords &&other) noexcept
        : handle_(std::move(other.handle_)), first_(other.first_), order_(other.order_), has_block_(std::move(other.has_block_)),
          words_(other.words_)
    {
        other.words_ = compactd_words();
    }

    BlockWords &operator=(BlockWords &&other) noexcept
    {
        if (this != &other) {
            let_go();
            handle_ = std::move(other.handle_);
            first_ = other.first_;
            order_ = other.order_;
            has_block_ = std::move(other.has_block_);
            std::swap(words_, other.words_);
        }
        return *this;
    }

    BlockWords(const BlockWords &) = delete;
    BlockWords &operator=(const BlockWords &) = delete;
    ~BlockWords() { let_go(); }

    std::uint64_t *data() noexcept { return words_.at; }
    const std::uint64_t *data() const noexcept { return words_.at; }
    std::size_t size() const noexcept { return words_.count; }
    std::uint64_t *begin() noexcept { return words_.at; }
    const std::uint64_t *begin() const noexcept { return words_.at; }
    std::uint64_t *end() noexcept { return words_.at + words_.count; }
    const std::uint64_t *end() const noexcept { return words_.at + words_.count; }
    std::uint64_t &operator[](std::size_t at) noexcept { return words_.at[at]; }
    const std::uint64_t &operator[](std::size_t at) const noexcept { return words_.at[at]; }

    // Gives the system the memory back that the words take up, in whole pages of 4 KiB; the words of these are 0 then, in memory that a Memory
    // mapped. Returns whether the system took it.
    bool release() noexcept { return compactd_release_words(&words_) == 0; }

private:
    friend class Huge;

    BlockWords(const std::shared_ptr<detail::Handle> &handle, std::uint32_t first, std::uint32_t order,
               const std::shared_ptr<bool> &has_block, const compactd_words &words) noexcept
        : handle_(handle), first_(first), order_(order), has_block_(has_block), words_(words)
    {
    }

    void let_go() noexcept
    {
        if (handle_) {
            detail::ignore(compactd_return_block(&handle_->raw, first_, order_, &words_));
            if (*has_block_)
                detail::ignore(compactd_give_order(&handle_->raw, first_, order_));
        }
        handle_.reset();
        words_ = compactd_words();
    }

    std::shared_ptr<detail::Handle> handle_;
    std::uint32_t first_;
    std::uint32_t order_;
    std::shared_ptr<bool> has_block_; // its Huge has gone, and couldn't give the block back
    compactd_words words_;
};

// The words of a page that Pool::pin_words pinned, while they are lent. They are read and written by the pointer, beside calls on the pool
// too. When this is destroyed, they are returned to the page, as if the client had stored each of them, and the pin is taken off. Where that is
// refused, as JOURNAL_FULL can be, or the address names another page by then, the page stays pinned and its words stay lent.
class PageWords {
public:
    PageWords(PageWords &&other) noexcept
        : handle_(std::move(other.handle_)), client_(other.client_), address_(other.address_), words_(other.words_)
    {
        other.words_ = compactd_words();
    }

    PageWords &operator=(PageWords &&other) noexcept
    {
        if (this != &other) {
            let_go();
            handle_ = std::move(other.handle_);
            client_ = other.client_;
            address_ = other.address_;
            std::swap(words_, other.words_);
        }
        return *this;
    }

    PageWords(const PageWords &) = delete;
    PageWords &operator=(const PageWords &) = delete;
    ~PageWords() { let_go(); }

    Address address() const noexcept { return address_; }

    std::uint64_t *data() noexcept { return words_.at; }
    const std::uint64_t *data() const noexcept { return words_.at; }
    std::size_t size() const noexcept { return words_.count; }
    std::uint64_t *begin() noexcept { return words_.at; }
    const std::uint64_t *begin() const noexcept { return words_.at; }
    std::uint64_t *end() noexcept { return words_.at + words_.count; }
    const std::uint64_t *end() const noexcept { return words_.at + words_.count; }
    std::uint64_t &operator[](std::size_t at) noexcept { return words_.at[at]; }
    const std::uint64_t &operator[](std::size_t at) const noexcept { return words_.at[at]; }

private:
    friend class Pool;

    PageWords(const std::shared_ptr<detail::Handle> &handle, std::uint32_t client, Address address, const compactd_words &words) noexcept
        : handle_(handle), client_(client), address_(address), words_(words)
    {
    }

    // Whether the address names the page, which stays in its frame while it has a pin.
    bool is_named() const noexcept
    {
        compactd_page_info info = compactd_page_info();
        return compactd_look(&handle_->raw, address_.space, address_.vpage, &info) == COMPACTD_OK && !info.moving
               && words_.at == handle_->memory.words_.at + info.frame * words_.count;
    }

    void let_go() noexcept
    {
        if (handle_ && is_named())
            detail::ignore(compactd_unpin_words(&handle_->raw, client_, address_.space, address_.vpage, &words_));
        handle_.reset();
        words_ = compactd_words();
    }

    std::shared_ptr<detail::Handle> handle_;
    std::uint32_t client_;
    Address address_;
    compactd_words words_;
};

// A block of 2^order frames that a pool handed out, with its words.
class Huge {
public:
    Huge(Huge &&other) noexcept
        : handle_(std::move(other.handle_)), first_(other.first_), order_(other.order_), is_left_(std::move(other.is_left_))
    {
    }

    Huge &operator=(Huge &&other) noexcept
    {
        if (this != &other) {
            let_go();
            handle_ = std::move(other.handle_);
            first_ = other.first_;
            order_ = other.order_;
            is_left_ = std::move(other.is_left_);
        }
        return *this;
    }

    Huge(const Huge &) = delete;
    Huge &operator=(const Huge &) = delete;

    // Gives the block back, or leaves it to its BlockWords. Where that is refused, as JOURNAL_FULL can be, it stays handed out until the pool
    // closes.
    ~Huge() { let_go(); }

    std::uint32_t first() const noexcept { return first_; }
    std::uint32_t order() const noexcept { return order_; }

    // Reads and writes `count` of its words, from word `from`. It has 2^order times the words of a page.
    void read(std::size_t from, std::uint64_t *values, std::size_t count) const
    {
        detail::done(compactd_read_block(raw(), first_, order_, from, values, count));
    }

    void write(std::size_t from, const std::uint64_t *values, std::size_t count)
    {
        detail::done(compactd_write_block(raw(), first_, order_, from, values, count));
    }

    // Lends the words of the block, in a pool that lies in a Memory: the pointer leads to them until the guard is destroyed. Meanwhile the
    // block isn't read, written or given back by calls. Both may go in any order, as in pool.take_huge().words().
    BlockWords words()
    {
        const std::shared_ptr<bool> is_left = std::make_shared<bool>(false);
        compactd_words words = compactd_words();
        detail::done(compactd_block_words(raw(), first_, order_, &words));
        is_left_ = is_left;
        return BlockWords(handle_, first_, order_, is_left, words);
    }

    // Gives the block back. Where that is refused, this throws and the block is still this one's.
    void give()
    {
        detail::done(compactd_give_order(raw(), first_, order_));
        handle_.reset();
    }

private:
    friend class Keeper;
    friend class Pool;

    Huge(std::shared_ptr<detail::Handle> handle, std::uint32_t first, std::uint32_t order)
        : handle_(std::move(handle)), first_(first), order_(order)
    {
    }

    compactd_pool *raw() const
    {
        if (!handle_)
            throw Error(COMPACTD_NOT_HUGE);
        return &handle_->raw;
    }

    void let_go() noexcept
    {
        if (handle_ && compactd_give_order(&handle_->raw, first_, order_) != COMPACTD_OK && is_left_)
            *is_left_ = true;
        handle_.reset();
    }

    std::shared_ptr<detail::Handle> handle_;
    std::uint32_t first_;
    std::uint32_t order_;
    std::shared_ptr<bool> is_left_; // what tells the latest BlockWords that it has the block
};

// A page that is moving, with a copy of its words. One that is empty has no page: isolate returns it where the scanners have met.
class Moving {
public:
    Moving() noexcept : page_() {}

    Moving(Moving &&other) noexcept = default;

    Moving &operator=(Moving &&other) noexcept
    {
        if (this != &other) {
            let_go();
            handle_ = std::move(other.handle_);
            page_ = other.page_;
            words_ = std::move(other.words_);
        }
        return *this;
    }

    Moving(const Moving &) = delete;
    Moving &operator=(const Moving &) = delete;

    // Puts the page back, where its move hasn't ended.
    ~Moving() { let_go(); }

    // Whether it has a page.
    explicit operator bool() const noexcept { return handle_ != nullptr; }

    const compactd_moving_page &page() const noexcept { return page_; }
    const std::vector<std::uint64_t> &words() const noexcept { return words_; }

    // Ends the move with the words, and returns whether the page was moved; else it has a pin and is in its old frame. This is empty then.
    bool commit()
    {
        bool moved = false;
        detail::done(compactd_commit(raw(), &page_, words_.data(), words_.size(), &moved));
        handle_.reset();
        return moved;
    }

    // Ends the move without the words: the page is in its old frame. This is empty then.
    void put_back()
    {
        detail::done(compactd_put_back(raw(), &page_));
        handle_.reset();
    }

private:
    friend class Pool;

    Moving(std::shared_ptr<detail::Handle> handle, const compactd_moving_page &page, std::vector<std::uint64_t> words) noexcept
        : handle_(std::move(handle)), page_(page), words_(std::move(words))
    {
    }

    compactd_pool *raw() const
    {
        if (!handle_)
            throw Error(COMPACTD_STRANGER);
        return &handle_->raw;
    }

    // A refusal says that the move has ended already.
    void let_go() noexcept
    {
        if (handle_)
            detail::ignore(compactd_put_back(&handle_->raw, &page_));
        handle_.reset();
    }

    std::shared_ptr<detail::Handle> handle_;
    compactd_moving_page page_;
    std::vector<std::uint64_t> words_;
};

// A page that is moving, while the words of the frame that it leaves and of the one that it goes to are lent. They are copied by `copy`, beside
// calls on the pool too, and then commit ends the move, or commit_and_claim. One that is empty has no page: lend_move returns it where the
// scanners have met, and lend_move_from where no page is left.
class LentMove {
public:
    LentMove() noexcept : move_() {}

    LentMove(LentMove &&other) noexcept : handle_(std::move(other.handle_)), move_(other.move_) { other.move_ = compactd_lent_move(); }

    LentMove &operator=(LentMove &&other) noexcept
    {
        if (this != &other) {
            let_go();
            handle_ = std::move(other.handle_);
            std::swap(move_, other.move_);
        }
        return *this;
    }

    LentMove(const LentMove &) = delete;
    LentMove &operator=(const LentMove &) = delete;

    // Puts the page back, where its move hasn't ended.
    ~LentMove() { let_go(); }

    // Whether it has a page.
    explicit operator bool() const noexcept { return handle_ != nullptr; }

    // The number of its isolation, the frame that it leaves, and the one that it goes to.
    std::uint64_t serial() const noexcept { return move_.serial; }
    std::uint32_t source() const noexcept { return move_.source; }
    std::uint32_t target() const noexcept { return move_.target; }

    // The words of these two frames, and how many each has.
    const std::uint64_t *from() const noexcept { return move_.from.at; }
    std::uint64_t *to() noexcept { return move_.to.at; }
    std::size_t size() const noexcept { return move_.to.count; }

    // Copies the words. It is no call on the pool.
    void copy() noexcept
    {
        if (size() > 0)
            std::memcpy(move_.to.at, move_.from.at, size() * sizeof(std::uint64_t));
    }

    // Ends the move once the words are copied, and returns whether the page was moved; else it has a pin and is in its old frame. This is
    // empty then.
    bool commit()
    {
        bool moved = false;
        detail::done(compactd_commit_lent(raw(), &move_, &moved));
        handle_.reset();
        return moved;
    }

    // The same, but that the frame that the page left is claimed.
    bool commit_and_claim()
    {
        bool moved = false;
        detail::done(compactd_commit_and_claim(raw(), &move_, &moved));
        handle_.reset();
        return moved;
    }

    // Ends the move of a page that wasn't copied: it is in its old frame. This is empty then.
    void put_back()
    {
        detail::done(compactd_put_back_lent(raw(), &move_));
        handle_.reset();
    }

private:
    friend class Pool;

    LentMove(const std::shared_ptr<detail::Handle> &handle, const compactd_lent_move &move) noexcept : handle_(handle), move_(move) {}

    compactd_pool *raw() const
    {
        if (!handle_)
            throw Error(COMPACTD_STRANGER);
        return &handle_->raw;
    }

    // A refusal says that the pool is closed.
    void let_go() noexcept
    {
        if (handle_)
            detail::ignore(compactd_put_back_lent(&handle_->raw, &move_));
        handle_.reset();
        move_ = compactd_lent_move();
    }

    std::shared_ptr<detail::Handle> handle_;
    compactd_lent_move move_;
};

// What Pool::move_pages did: how many pages it moved, and in `stopped` 0 where they are as many as were asked for, and else why there were
// no more, COMPACTD_MET or COMPACTD_JOURNAL_FULL.
struct Slice {
    std::uint32_t moved;
    std::uint32_t stopped;
};

// What Pool::list_moves did: the moves that it made, the first one in front, and `stopped` as a Slice has it.
struct ListedMoves {
    std::vector<compactd_move> moves;
    std::uint32_t stopped;
};

// What Pool::round, Pool::round_on and Pool::empty_on did: how many pages were isolated, moved and put back, and in `stopped` why there were
// no more: COMPACTD_MET, COMPACTD_NONE_LEFT where runs were emptied, COMPACTD_JOURNAL_FULL, or COMPACTD_CLOSED.
struct Round {
    compactd_round_counts counts;
    std::uint32_t stopped;
};

// What Pool::empty_some did: how many pages it moved, and how many frames of the run aren't claimed yet.
struct Step {
    std::uint32_t moved;
    std::uint32_t unclaimed;
};

// What Pool::reserve did: the blocks that it handed out, and how many pages it moved for them.
struct Reserved {
    std::vector<Huge> blocks;
    std::uint32_t moved;
};

// The run that Pool::reserve would pick for one block: its first frame, and how many pages are in it.
struct CheapestRun {
    std::uint32_t first;
    std::uint32_t pages;
};

// What Keeper::step did: how many pages it moved, and whether it did anything, so that there may be more to do.
struct KeeperStep {
    std::uint32_t moved;
    bool more;
};

// What Keeper::take got: a block, and how many pages were moved for it now, none where it was ready.
struct Taken {
    Huge block;
    std::uint32_t moved;
};

// An open pool. One that was moved from is closed: its calls throw CLOSED.
class Pool {
public:
    // A pool that keeps no records, with 1 to 32,768 pageblocks.
    Pool(PageSize page_size, std::uint32_t blocks) : handle_(std::make_shared<detail::Handle>())
    {
        detail::done(compactd_open(&handle_->raw, static_cast<std::uint32_t>(page_size), blocks));
    }

    // A pool that keeps a record of each accepted call, in a journal of 1 to 65,536 places, with 1 to 8 pageblocks.
    Pool(PageSize page_size, std::uint32_t blocks, std::uint32_t places) : handle_(std::make_shared<detail::Handle>())
    {
        detail::done(compactd_open_journal(&handle_->raw, static_cast<std::uint32_t>(page_size), blocks, places));
    }

    // A pool of any size. It keeps a record of each accepted call where its journal has places, 1 to 65,536, and else none.
    Pool(PageSize page_size, PoolSize size, std::uint32_t places = 0) : handle_(std::make_shared<detail::Handle>())
    {
        const std::uint32_t page_words = static_cast<std::uint32_t>(page_size);
        detail::done(compactd_open_sized(&handle_->raw, page_words, size.blocks, size.spaces, size.vpages, places));
    }

    // The same in memory that was mapped, which has as many words as the pool has in pages: the words of blocks and of pinned pages are lent
    // then. Where that is refused, the memory stays where it was.
    Pool(PageSize page_size, PoolSize size, Memory &&memory, std::uint32_t places = 0) : handle_(std::make_shared<detail::Handle>())
    {
        const std::uint32_t page_words = static_cast<std::uint32_t>(page_size);
        compactd_words words = memory.words_;
        const std::uint32_t answer =
            compactd_open_in(&handle_->raw, page_words, size.blocks, size.spaces, size.vpages, places, &words, memory.is_blank_);
        memory.is_blank_ &= answer != COMPACTD_MEMORY; // after which no clause says that the words are still 0
        detail::done(answer);
        handle_->memory = std::move(memory);
    }

    Pool(Pool &&) noexcept = default;
    Pool &operator=(Pool &&) noexcept = default;
    Pool(const Pool &) = delete;
    Pool &operator=(const Pool &) = delete;
    ~Pool() = default;

    // The handle, for calls of compactd.h and compactd_round.h. It isn't to be closed.
    compactd_pool *raw() const
    {
        if (!handle_)
            throw Error(COMPACTD_CLOSED);
        return &handle_->raw;
    }

    // Closes a pool that was opened in a Memory, and returns that, which another pool may be opened in. Calls of its blocks and moving pages
    // throw CLOSED then.
    Memory close_in()
    {
        compactd_words words = compactd_words();
        detail::done(compactd_close_in(raw(), &words));
        Memory memory = std::move(handle_->memory);
        memory.is_blank_ = false;
        handle_.reset();
        return memory;
    }

    // Sets whether map puts unmovable pages apart from the others, into pageblocks of their own.
    void set_apart(bool apart) { detail::done(compactd_set_apart(raw(), apart)); }

    std::uint32_t map(std::uint32_t client, Address at, bool unmovable = false)
    {
        std::uint32_t frame = 0;
        detail::done(compactd_map(raw(), client, at.space, at.vpage, unmovable, &frame));
        return frame;
    }

    void map_at(std::uint32_t client, Address at, std::uint32_t frame, bool unmovable = false)
    {
        detail::done(compactd_map_at(raw(), client, at.space, at.vpage, unmovable, frame));
    }

    std::uint64_t load(std::uint32_t client, Address at, std::uint32_t word)
    {
        std::uint64_t value = 0;
        detail::done(compactd_load(raw(), client, at.space, at.vpage, word, &value));
        return value;
    }

    void store(std::uint32_t client, Address at, std::uint32_t word, std::uint64_t value)
    {
        detail::done(compactd_store(raw(), client, at.space, at.vpage, word, value));
    }

    void read(std::uint32_t client, Address at, std::uint32_t from, std::uint64_t *values, std::size_t count)
    {
        detail::done(compactd_read(raw(), client, at.space, at.vpage, from, values, count));
    }

    void write(std::uint32_t client, Address at, std::uint32_t from, const std::uint64_t *values, std::size_t count)
    {
        detail::done(compactd_write(raw(), client, at.space, at.vpage, from, values, count));
    }

    void share(std::uint32_t client, Address at, Address alias)
    {
        detail::done(compactd_share(raw(), client, at.space, at.vpage, alias.space, alias.vpage));
    }

    void unmap(std::uint32_t client, Address at) { detail::done(compactd_unmap(raw(), client, at.space, at.vpage)); }

    // Maps pages, or makes addresses name no page any more, one after the other. Each request gets its answer; one that is refused doesn't
    // stop the others. Returns whether none was.
    bool map_many(std::uint32_t client, compactd_page_request *requests, std::size_t count)
    {
        return are_all_done(compactd_map_many(raw(), client, requests, count));
    }

    bool unmap_many(std::uint32_t client, compactd_page_request *requests, std::size_t count)
    {
        return are_all_done(compactd_unmap_many(raw(), client, requests, count));
    }

    void pin(std::uint32_t client, Address at) { detail::done(compactd_pin(raw(), client, at.space, at.vpage)); }

    void unpin(std::uint32_t client, Address at) { detail::done(compactd_unpin(raw(), client, at.space, at.vpage)); }

    // Pins a page and lends its words, in a pool that lies in a Memory: the pointer leads to them until the guard is destroyed, which takes the
    // pin off. Meanwhile the page isn't loaded, stored, read or written by calls. Where lending is refused, the page has no more pins than
    // before.
    PageWords pin_words(std::uint32_t client, Address at)
    {
        compactd_words words = compactd_words();
        detail::done(compactd_pin_words(raw(), client, at.space, at.vpage, &words));
        return PageWords(handle_, client, at, words);
    }

    // Hands out the lowest block of 2^order free frames.
    Huge take_huge(std::uint32_t order = 9)
    {
        std::uint32_t first = 0;
        detail::done(compactd_take_order(raw(), order, &first));
        return Huge(handle_, first, order);
    }

    void mark(std::uint32_t block) { detail::done(compactd_mark(raw(), block)); }

    void unmark(std::uint32_t block) { detail::done(compactd_unmark(raw(), block)); }

    // Questions.

    bool marked(std::uint32_t block) const
    {
        bool is_marked = false;
        detail::done(compactd_marked(raw(), block, &is_marked));
        return is_marked;
    }

    compactd_counts info() const
    {
        compactd_counts counts = compactd_counts();
        detail::done(compactd_info(raw(), &counts));
        return counts;
    }

    compactd_geometry describe() const
    {
        compactd_geometry geometry = compactd_geometry();
        detail::done(compactd_describe(raw(), &geometry));
        return geometry;
    }

    // How many free runs of 2^order frames there are, and the fragmentation index of an order, 0 to 9.
    std::uint32_t free_runs(std::uint32_t order) const
    {
        std::uint32_t runs = 0;
        detail::done(compactd_free_runs(raw(), order, &runs));
        return runs;
    }

    std::int32_t fragmentation(std::uint32_t order) const
    {
        std::int32_t index = 0;
        detail::done(compactd_fragmentation(raw(), order, &index));
        return index;
    }

    compactd_page_info look(Address at) const
    {
        compactd_page_info info = compactd_page_info();
        detail::done(compactd_look(raw(), at.space, at.vpage, &info));
        return info;
    }

    CheapestRun cheapest_run(std::uint32_t order = 9) const
    {
        CheapestRun run = CheapestRun();
        detail::done(compactd_cheapest_run(raw(), order, &run.first, &run.pages));
        return run;
    }

    compactd_round_counts audit() const
    {
        compactd_round_counts counts = compactd_round_counts();
        detail::done(compactd_audit(raw(), &counts));
        return counts;
    }

    // How many moves have ended: those of pages that were moved, and those of pages that were put back.
    std::uint64_t ended() const
    {
        std::uint64_t moves = 0;
        detail::done(compactd_ended(raw(), &moves));
        return moves;
    }

    // How many records were written, and how many places are left.
    std::pair<std::uint64_t, std::uint64_t> journal() const
    {
        std::pair<std::uint64_t, std::uint64_t> counted;
        detail::done(compactd_journal(raw(), &counted.first, &counted.second));
        return counted;
    }

    compactd_record record_at(std::size_t place) const
    {
        compactd_record record = compactd_record();
        detail::done(compactd_record_at(raw(), place, &record));
        return record;
    }

    bool quiet() const
    {
        bool is_quiet = false;
        detail::done(compactd_quiet(raw(), &is_quiet));
        return is_quiet;
    }

    // Gets the moving page with the lowest source frame from a frame on, and returns whether there is one. A page whose carrier was lost can
    // be found so, and put back.
    bool next_moving(std::uint32_t from, compactd_moving_page &page, compactd_move &move) const
    {
        return is_there(compactd_next_moving(raw(), from, &page, &move), COMPACTD_NOT_MOVING);
    }

    // Rounds.

    // Makes a whole round on this thread. Returns whether its scanners met; else the journal had no room for a further move.
    bool compact()
    {
        bool met = false;
        detail::done(compactd_compact(raw(), &met));
        return met;
    }

    // Makes a round in slices on this thread, and lets the mutex go after each so many pages, 1 or more. All calls on the pool are made under
    // this mutex, which the caller doesn't hold. It has `lock` and `unlock`, which don't throw. Between slices a std::mutex most often isn't
    // handed to a thread that waits; a FairMutex is. Where the numbers are out of range, this throws Error as RANGE.
    template <typename Mutex> Round round(Mutex &mutex, std::uint32_t pages)
    {
        const compactd_lock lock = detail::lock_of(mutex);
        const std::shared_ptr<detail::Handle> handle = handle_under(mutex);
        Round round = Round();
        return ended(compactd_round_with(&handle->raw, &lock, pages, &round.counts), COMPACTD_MET, round);
    }

    // Makes a round on so many threads, 1 to 64, in a pool that lies in a Memory: this one, and others that are started for it. Each takes so
    // many moves, 1 to 64, under one hold of the mutex, copies their pages without it, and ends the moves under its next hold. Until then the
    // pages are moving for others. Where a thread can't be started, the round goes on with those that run. Refused too as OWN_MEMORY.
    template <typename Mutex> Round round_on(Mutex &mutex, std::uint32_t threads, std::uint32_t pages)
    {
        const compactd_lock lock = detail::lock_of(mutex);
        const std::shared_ptr<detail::Handle> handle = handle_under(mutex);
        Round round = Round();
        return ended(compactd_round_on_with(&handle->raw, &lock, threads, pages, &round.counts), COMPACTD_MET, round);
    }

    // A round in slices by hand: begin_round, then move_pages until its Slice has stopped.
    //
    // A round whose pages the caller carries: begin_round, then isolate until it returns an empty Moving, and for each page its commit; or
    // lend_move until it returns an empty LentMove, and for each its copy, without a lock, and its commit.
    void begin_round() { detail::done(compactd_begin_round(raw())); }

    // Moves the next pages of the round, so many at most, each by one copy from frame to frame.
    Slice move_pages(std::uint32_t most)
    {
        Slice slice = Slice();
        detail::done(compactd_move_pages(raw(), most, &slice.moved, &slice.stopped));
        return slice;
    }

    // The same, but that it lists where each page was and is. It allocates room for `most` moves and for the words of a page.
    ListedMoves list_moves(std::uint32_t most)
    {
        std::vector<std::uint64_t> words(describe().page_words);
        ListedMoves listed = {std::vector<compactd_move>(most), 0};
        std::uint32_t moved = 0;
        detail::done(compactd_list_moves(raw(), words.data(), words.size(), listed.moves.data(), most, &moved, &listed.stopped));
        listed.moves.resize(moved);
        return listed;
    }

    // Isolates the next page of the round. It allocates the words of the page.
    Moving isolate()
    {
        std::vector<std::uint64_t> words(describe().page_words);
        compactd_moving_page page = compactd_moving_page();
        if (!isolate(page, words.data(), words.size()))
            return Moving();
        return Moving(handle_, page, std::move(words));
    }

    // The same without an allocation, with words of the caller's: `count` is the number of words of a page. Returns whether there was a
    // page. It is moving until commit or put_back of this class ends its move: no destructor does.
    bool isolate(compactd_moving_page &page, std::uint64_t *words, std::size_t count)
    {
        return is_there(compactd_isolate(raw(), &page, words, count), COMPACTD_MET);
    }

    // Isolates the next pages of the round, so many at most, one after the other. There are fewer where the scanners have met or the journal has
    // no room for a further move. Where there is none for the first, it throws as isolate does.
    std::vector<Moving> isolate_many(std::size_t most)
    {
        std::vector<Moving> pages;
        std::uint32_t answer = COMPACTD_OK;
        while (answer == COMPACTD_OK && pages.size() < most) {
            std::vector<std::uint64_t> words(describe().page_words);
            compactd_moving_page page = compactd_moving_page();
            answer = compactd_isolate(raw(), &page, words.data(), words.size());
            if (answer == COMPACTD_OK)
                pages.push_back(Moving(handle_, page, std::move(words)));
        }
        if (pages.empty())
            is_there(answer, COMPACTD_MET);
        return pages;
    }

    // Ends the moves of pages with their words, and returns how many were moved; the others have a pin and are in their old frames.
    std::size_t commit_many(std::vector<Moving> &pages)
    {
        std::size_t moved = 0;
        for (Moving &page : pages)
            moved += page.commit();
        return moved;
    }

    // Ends the move of a page with a copy of its words. Returns whether the page was moved; else it has a pin and is in its old frame.
    bool commit(const compactd_moving_page &page, const std::uint64_t *words, std::size_t count)
    {
        bool moved = false;
        detail::done(compactd_commit(raw(), &page, words, count, &moved));
        return moved;
    }

    // Ends the move of a page without a copy: the page is in its old frame.
    void put_back(const compactd_moving_page &page) { detail::done(compactd_put_back(raw(), &page)); }

    // Isolates the next page of the round and lends the words of both its frames, in a pool that lies in a Memory. Nothing is copied.
    LentMove lend_move()
    {
        compactd_lent_move move = compactd_lent_move();
        if (!is_there(compactd_lend_move(raw(), &move), COMPACTD_MET))
            return LentMove();
        return LentMove(handle_, move);
    }

    // Evacuations.

    // Empties the run of 2^order frames that begins at a frame, and returns how many pages were moved out of it, each by one copy. All
    // frames of the run are free then. Where a page is moved, the latest round isn't quiet any more.
    std::uint32_t evacuate(std::uint32_t first, std::uint32_t order = 9)
    {
        std::uint32_t moved = 0;
        detail::done(compactd_evacuate(raw(), first, order, &moved));
        return moved;
    }

    // An evacuation in steps: claim, then empty_some until no frame of the run is unclaimed, with other calls between these steps, then
    // take_claimed. Or drop_claim, at any time. No page comes to a claimed frame. empty_on empties runs on several threads.

    // Claims the free frames of the run of 2^order frames that begins at a frame, and returns how many pages are in the run.
    std::uint32_t claim(std::uint32_t first, std::uint32_t order = 9)
    {
        std::uint32_t pages = 0;
        detail::done(compactd_claim(raw(), first, order, &pages));
        return pages;
    }

    // Claims the free frames of a run, and moves the next of its pages, so many at most, each by one copy.
    Step empty_some(std::uint32_t first, std::uint32_t order, std::uint32_t most)
    {
        Step step = Step();
        detail::done(compactd_empty_some(raw(), first, order, most, &step.moved, &step.unclaimed));
        return step;
    }

    // Isolates the lowest page of a run that may go, outside of a round, and lends the words of both its frames, in a pool that lies in a
    // Memory. Nothing is copied. LentMove::commit_and_claim ends the move.
    LentMove lend_move_from(std::uint32_t first, std::uint32_t order = 9)
    {
        compactd_lent_move move = compactd_lent_move();
        if (!is_there(compactd_lend_move_from(raw(), first, order, &move), COMPACTD_NONE_LEFT))
            return LentMove();
        return LentMove(handle_, move);
    }

    // Empties runs, by their first frames, on threads as round_on has them, with each call under the mutex. First it claims the free frames of
    // each run; then it moves page after page out of the runs, and claims the frame that it leaves. Pages that are moving, pinned or unmovable
    // stay. take_claimed takes a run whose frames are all claimed.
    template <typename Mutex>
    Round empty_on(Mutex &mutex, const std::vector<std::uint32_t> &firsts, std::uint32_t order, std::uint32_t threads, std::uint32_t pages)
    {
        const compactd_lock lock = detail::lock_of(mutex);
        const std::shared_ptr<detail::Handle> handle = handle_under(mutex);
        Round round = Round();
        const std::uint32_t answer =
            compactd_empty_on_with(&handle->raw, &lock, firsts.data(), firsts.size(), order, threads, pages, &round.counts);
        return ended(answer, COMPACTD_NONE_LEFT, round);
    }

    // Hands out a run whose frames are all claimed.
    Huge take_claimed(std::uint32_t first, std::uint32_t order = 9)
    {
        detail::done(compactd_take_claimed(raw(), first, order));
        return Huge(handle_, first, order);
    }

    // Drops the claims of the frames of a run, if it has any: these frames are free.
    void drop_claim(std::uint32_t first, std::uint32_t order = 9) { detail::done(compactd_drop_claim(raw(), first, order)); }

    // Reservations.

    // Hands out `count` blocks of 2^order frames with the fewest moves that there can be: the open runs with the fewest pages are emptied
    // for that, the lowest first of equals. Where a page is moved, the latest round isn't quiet any more.
    Reserved reserve(std::size_t count, std::uint32_t order = 9)
    {
        std::vector<std::uint32_t> firsts(count);
        Reserved reserved = {std::vector<Huge>(), 0};
        reserved.blocks.reserve(count);
        detail::done(compactd_reserve(raw(), order, firsts.data(), count, &reserved.moved));
        for (std::uint32_t first : firsts)
            reserved.blocks.push_back(Huge(handle_, first, order));
        return reserved;
    }

private:
    friend class Keeper;

    // What keeps the pool and its memory while a round is made.
    template <typename Mutex> std::shared_ptr<detail::Handle> handle_under(Mutex &mutex) const
    {
        const std::lock_guard<Mutex> lock(mutex);
        if (!handle_)
            throw Error(COMPACTD_CLOSED);
        return handle_;
    }

    // Work that has ended with an answer, which is 0 for this end of it, or that was refused as a whole.
    static Round ended(std::uint32_t answer, std::uint32_t end, Round round)
    {
        if (answer == COMPACTD_RANGE || answer == COMPACTD_OWN_MEMORY)
            throw Error(answer);
        round.stopped = answer == COMPACTD_OK ? end : answer;
        return round;
    }

    // Whether each request of a call for many was done.
    static bool are_all_done(std::uint32_t answer)
    {
        if (answer == COMPACTD_CLOSED)
            throw Error(answer);
        return answer == COMPACTD_OK;
    }

    // Whether a call was done; where it was refused as `none`, there is nothing to get.
    static bool is_there(std::uint32_t answer, std::uint32_t none)
    {
        if (answer != none)
            detail::done(answer);
        return answer == COMPACTD_OK;
    }

    std::shared_ptr<detail::Handle> handle_;
};

// Keeps blocks of one order ready in a pool: it claims the cheapest runs and empties them, so many pages in a step, while other calls go on.
// Each of its calls is one on that pool, and gets the same pool. Where it is destroyed and wasn't closed, its runs stay claimed.
class Keeper {
public:
    // A keeper of so many blocks, which has claimed no run yet.
    Keeper(std::uint32_t order, std::size_t ready) : order_(order), firsts_(ready), claimed_(0) {}

    Keeper(const Keeper &) = delete;
    Keeper &operator=(const Keeper &) = delete;

    // How many runs it has claimed.
    std::size_t claimed() const noexcept { return claimed_; }

    // Goes on with a run that isn't finished, and moves at most `most` pages out of it; or claims another run, where it lacks one. Steps are
    // made until one has no more to do, and again after other calls.
    KeeperStep step(Pool &pool, std::uint32_t most)
    {
        KeeperStep step = KeeperStep();
        detail::done(compactd_keep(pool.raw(), order_, most, firsts_.data(), firsts_.size(), &claimed_, &step.moved, &step.more));
        return step;
    }

    // Hands out a block that is ready, or else one as Pool::reserve does.
    Taken take(Pool &pool)
    {
        std::uint32_t first = 0, moved = 0;
        detail::done(compactd_take_kept(pool.raw(), order_, firsts_.data(), firsts_.size(), &claimed_, &first, &moved));
        return Taken{Huge(pool.handle_, first, order_), moved};
    }

    // Drops the claims of its runs, whose frames are free then.
    void close(Pool &pool)
    {
        for (; claimed_ > 0; claimed_--)
            pool.drop_claim(firsts_[claimed_ - 1], order_);
    }

private:
    std::uint32_t order_;
    std::vector<std::uint32_t> firsts_; // of its runs, and places for more
    std::size_t claimed_;
};

} // namespace compactd

#endif
