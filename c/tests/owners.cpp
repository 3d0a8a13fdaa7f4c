// Pools, huge pages and moving pages that are moved, that outlive each other, and whose calls are refused, by compactd.hpp.
#include "compactd.hpp"

#include <cstdio>
#include <memory>
#include <stdexcept>
#include <string>
#include <sys/mman.h>
#include <type_traits>
#include <unistd.h>
#include <utility>
#include <vector>

using compactd::Address;
using compactd::BlockWords;
using compactd::Error;
using compactd::Huge;
using compactd::LentMove;
using compactd::Memory;
using compactd::Moving;
using compactd::PageSize;
using compactd::PageWords;
using compactd::Pool;
using compactd::PoolSize;

static_assert(!std::is_copy_constructible<Pool>::value && !std::is_copy_assignable<Pool>::value, "a pool isn't copied");
static_assert(!std::is_copy_constructible<Huge>::value && !std::is_copy_assignable<Huge>::value, "a huge page isn't copied");
static_assert(!std::is_copy_constructible<compactd::Keeper>::value && !std::is_move_assignable<compactd::Keeper>::value, "a keeper stays");
static_assert(!std::is_copy_constructible<Moving>::value && !std::is_copy_assignable<Moving>::value, "a moving page isn't copied");
static_assert(std::is_nothrow_move_constructible<Pool>::value && std::is_nothrow_move_assignable<Huge>::value, "both are moved");
static_assert(std::is_nothrow_move_constructible<Moving>::value && std::is_nothrow_move_assignable<Moving>::value, "a moving page too");

static_assert(!std::is_copy_constructible<Memory>::value && !std::is_copy_constructible<BlockWords>::value, "words have one owner");
static_assert(std::is_nothrow_move_assignable<Memory>::value && std::is_nothrow_move_assignable<BlockWords>::value, "both are moved");
static_assert(!std::is_copy_constructible<PageWords>::value && std::is_nothrow_move_constructible<PageWords>::value, "as those of a page");
static_assert(!std::is_copy_constructible<LentMove>::value && std::is_nothrow_move_assignable<LentMove>::value, "and those of a move");

namespace {

bool is_well = true;

void holds(bool fact, int line)
{
    if (!fact)
        std::printf("line %d\n", line);
    is_well &= fact;
}

// The number with which a call is refused, and 0 where it is done.
template <typename Call> std::uint32_t refusal(Call call)
{
    try {
        call();
        return COMPACTD_OK;
    } catch (const Error &error) {
        return error.refusal();
    }
}

#define HOLDS(fact) holds((fact), __LINE__)

void pools()
{
    HOLDS(refusal([] { Pool(PageSize::bytes64, 32769); }) == COMPACTD_RANGE);
    HOLDS(refusal([] { Pool(PageSize::bytes64, 9, 1); }) == COMPACTD_RANGE);
    HOLDS(refusal([] { Pool(PageSize::bytes64, 1, 0); }) == COMPACTD_RANGE);
    Pool pool(PageSize::bytes64, 1), other(PageSize::bytes4096, 2);
    const Address at = {0, 0}, alias = {1, 1};
    pool.map(0, at);
    pool.store(0, at, 7, 5);
    other = std::move(pool);
    HOLDS(refusal([&] { pool.load(0, at, 7); }) == COMPACTD_CLOSED);
    HOLDS(other.load(0, at, 7) == 5 && other.info().pages == 1);
    other.share(0, at, alias);
    other.pin(0, alias);
    HOLDS(other.look(at).maps == 2 && other.look(at).pins == 1);
    other.unpin(0, at);
    other.unmap(0, at);
    HOLDS(refusal([&] { other.unmap(0, at); }) == COMPACTD_UNMAPPED);
    std::uint64_t words[8] = {1, 2, 3, 4, 5, 6, 7, 8}, found[8] = {};
    other.write(0, alias, 0, words, 8);
    other.read(0, alias, 0, found, 8);
    HOLDS(found[7] == 8 && refusal([&] { other.read(0, alias, 1, found, 8); }) == COMPACTD_RANGE);
    other.mark(0);
    HOLDS(other.marked(0) && other.compact() && other.audit().isolated == 0);
    other.unmark(0);
    HOLDS(other.compact() && other.quiet() && other.audit().moved == 1 && other.look(alias).frame == 511);
    other.map_at(0, at, 7, true);
    HOLDS(other.look(at).flags == COMPACTD_UNMOVABLE);
}

void many_pages()
{
    Pool pool(PageSize::bytes64, 1), closed = std::move(pool);
    std::vector<compactd_page_request> pages(3);
    pages[1].vpage = 1;
    HOLDS(refusal([&] { pool.map_many(0, pages.data(), 3); }) == COMPACTD_CLOSED);
    pool = std::move(closed);
    HOLDS(!pool.map_many(0, pages.data(), 3) && pages[1].frame == 1 && pages[2].status == COMPACTD_OCCUPIED && pool.info().pages == 2);
    HOLDS(pool.map_many(0, nullptr, 0));
    pool.begin_round();
    compactd::ListedMoves listed = pool.list_moves(1);
    HOLDS(listed.moves.size() == 1 && listed.moves[0].target == 511 && listed.stopped == COMPACTD_OK);
    listed = pool.list_moves(9);
    HOLDS(listed.moves.size() == 1 && listed.moves[0].source == 1 && listed.moves[0].vpage == 1 && listed.stopped == COMPACTD_MET);
    HOLDS(pool.unmap_many(0, pages.data(), 2) && pool.info().pages == 0);
}

// Pools of other sizes, which know their addresses.
void sizes()
{
    HOLDS(refusal([] { Pool(PageSize::bytes64, {1, 257, 1}); }) == COMPACTD_RANGE);
    HOLDS(refusal([] { Pool(PageSize::bytes64, {1, 256, 262145}); }) == COMPACTD_RANGE); // 256 addresses too many
    HOLDS(refusal([] { Pool(PageSize::bytes64, {1, 1, 1}, 65537); }) == COMPACTD_RANGE);
    const PoolSize size = {10, 3, 5001};
    Pool pool(PageSize::bytes64, size), kept(PageSize::bytes4096, {9, 256, 7}, 3);
    HOLDS(pool.describe().blocks == 10 && pool.describe().spaces == 3 && pool.describe().vpages == 5001 && pool.describe().places == 0);
    HOLDS(kept.describe().blocks == 9 && kept.describe().spaces == 256 && kept.describe().vpages == 7 && kept.describe().places == 3);
    pool.map(0, {2, 5000});
    HOLDS(refusal([&] { pool.map(0, {2, 5001}); }) == COMPACTD_RANGE && refusal([&] { pool.map_at(0, {3, 0}, 9); }) == COMPACTD_RANGE);
    HOLDS(refusal([&] { pool.load(0, {3, 0}, 0); }) == COMPACTD_UNMAPPED && refusal([&] { pool.look({256, 0}); }) == COMPACTD_RANGE);
    kept.map(0, {255, 6});
    kept.share(0, {255, 6}, {0, 0});
    HOLDS(kept.look({0, 0}).maps == 2 && kept.record_at(1).space == 255 && kept.record_at(1).vpage == 6);
    kept = std::move(pool);
    HOLDS(kept.describe().vpages == 5001 && kept.look({2, 5000}).frame == 0);
}

void huge_pages()
{
    std::unique_ptr<Pool> pool(new Pool(PageSize::bytes4096, 2));
    Huge first = pool->take_huge(), second = pool->take_huge(9);
    HOLDS(refusal([&] { pool->take_huge(3); }) == COMPACTD_NO_BLOCK);
    const std::uint64_t word = 6;
    second.write(512 * 512 - 1, &word, 1);
    HOLDS(refusal([&] { second.write(512 * 512, &word, 1); }) == COMPACTD_RANGE);
    first = std::move(second); // gives the first block back
    HOLDS(first.first() == 512 && pool->info().huge == 1);
    HOLDS(refusal([&] { second.give(); }) == COMPACTD_NOT_HUGE);
    pool.reset();
    std::uint64_t found = 0;
    first.read(512 * 512 - 1, &found, 1); // its memory outlives the pool's object
    HOLDS(found == 6);
}

// A value that is moved into itself stays what it is.
template <typename Owner> void move_into_itself(Owner &owner)
{
    Owner &same = owner;
    owner = std::move(same);
}

const PoolSize two_blocks = {2, 1, 1024};

// Memory that goes into a pool and comes back, or that isn't taken.
void memory()
{
    HOLDS(refusal([] { Memory(0); }) == COMPACTD_RANGE && refusal([] { Memory(static_cast<std::size_t>(-1)); }) == COMPACTD_MEMORY);
    Memory memory(PageSize::bytes64, 2), none;
    const std::uint64_t *const begin = memory.data();
    HOLDS(memory.size() == 8192 && none.size() == 0 && begin && !none.data());
    HOLDS(refusal([&] { Pool(PageSize::bytes64, {3, 1, 1024}, std::move(memory)); }) == COMPACTD_RANGE && memory.size() == 8192);
    HOLDS(refusal([&] { Pool(PageSize::bytes64, two_blocks, std::move(none)); }) == COMPACTD_RANGE);
    Pool pool(PageSize::bytes64, two_blocks, std::move(memory), 9);
    HOLDS(pool.describe().places == 9 && pool.describe().blocks == 2 && !memory.data());
    pool.map(0, {0, 0});
    pool.store(0, {0, 0}, 7, 5);
    Huge huge = pool.take_huge(9);
    memory = pool.close_in();
    HOLDS(memory.size() == 8192 && memory.data() == begin);
    HOLDS(refusal([&] { pool.info(); }) == COMPACTD_CLOSED && refusal([&] { huge.words(); }) == COMPACTD_CLOSED);
    none = std::move(memory);
    Pool other(PageSize::bytes64, two_blocks, std::move(none));
    other.map(0, {0, 9});
    HOLDS(other.load(0, {0, 9}, 7) == 0);
    Pool own(PageSize::bytes64, 1);
    HOLDS(refusal([&] { own.close_in(); }) == COMPACTD_OWN_MEMORY && own.info().free == 512);
    huge = own.take_huge(3);
    HOLDS(refusal([&] { huge.words(); }) == COMPACTD_OWN_MEMORY);
}

// Memory that isn't blank, which goes back once all that has words of it is gone, or isn't given back.
void memory_of_the_callers()
{
    const std::size_t bytes = Memory::bytes_of(PageSize::bytes64, 2);
    std::vector<std::uint64_t> words(bytes / 8, 7);
    std::size_t given = 0;
    const Memory::GiveBack give = [&](void *at, std::size_t count) { given += at == words.data() ? count : 1; };
    HOLDS(bytes == 65536 && refusal([&] { Memory(nullptr, bytes, give); }) == COMPACTD_RANGE);
    HOLDS(refusal([&] { Memory(words.data(), 0, give); }) == COMPACTD_RANGE);
    HOLDS(refusal([&] { Memory(words.data(), bytes - 1, give); }) == COMPACTD_RANGE);
    HOLDS(refusal([&] { Memory(reinterpret_cast<char *>(words.data()) + 4, bytes - 8, give); }) == COMPACTD_RANGE);
    {
        Memory memory(words.data(), bytes, give), other = std::move(memory);
        HOLDS(other.data() == words.data() && other.size() == 8192 && !memory.data());
        HOLDS(refusal([&] { Pool(PageSize::bytes64, {3, 1, 1024}, std::move(other)); }) == COMPACTD_RANGE && other.size() == 8192);
        std::unique_ptr<Pool> pool(new Pool(PageSize::bytes64, two_blocks, std::move(other)));
        BlockWords block = pool->take_huge(9).words();
        HOLDS(block.data() == words.data() && block[4095] == 0);
        pool->map(0, {0, 0});
        HOLDS(pool->load(0, {0, 0}, 7) == 0);
        pool.reset();
        block[4095] = 5;
        HOLDS(given == 0);
    }
    HOLDS(given == bytes && words[4095] == 5 && words[4096 + 7] == 0 && words[8191] == 7);
    Memory memory(words.data(), bytes);
    memory = Pool(PageSize::bytes64, two_blocks, Memory(words.data(), bytes, give)).close_in();
    HOLDS(given == bytes && memory.data() == words.data());
    memory = Memory();
    HOLDS(given == 2 * bytes);
}

// A mapping of the caller's, in huge pages where the system has them, and one of a file.
void mappings_of_the_callers()
{
    const std::size_t bytes = Memory::bytes_of(PageSize::bytes4096, 1);
    const int access = PROT_READ | PROT_WRITE, kind = MAP_PRIVATE | MAP_ANONYMOUS;
    void *at = mmap(nullptr, bytes, access, kind | MAP_HUGETLB, -1, 0);
    if (at == MAP_FAILED)
        at = mmap(nullptr, bytes, access, kind, -1, 0);
    bool is_unmapped = false;
    {
        const Memory::GiveBack unmap = [&](void *from, std::size_t count) { is_unmapped = from == at && munmap(from, count) == 0; };
        Pool pool(PageSize::bytes4096, {1, 1, 512}, Memory(at, bytes, unmap, true));
        BlockWords words = pool.take_huge().words();
        words[262143] = 5;
        HOLDS(words.data() == at && words.size() == 262144 && words[0] == 0);
    }
    HOLDS(is_unmapped);
    std::unique_ptr<std::FILE, int (*)(std::FILE *)> file(std::tmpfile(), std::fclose);
    HOLDS(file && ftruncate(fileno(file.get()), static_cast<off_t>(bytes)) == 0);
    at = mmap(nullptr, bytes, access, MAP_SHARED, fileno(file.get()), 0);
    {
        Pool pool(PageSize::bytes4096, {1, 1, 512}, Memory(at, bytes, munmap));
        pool.map_at(0, {0, 0}, 511);
        pool.store(0, {0, 0}, 511, 6);
    }
    std::uint64_t found = 0;
    HOLDS(pread(fileno(file.get()), &found, 8, static_cast<off_t>(bytes) - 8) == 8 && found == 6);
}

// Words that are lent, written by the pointer and returned, by guards that are moved.
void words_that_are_lent()
{
    Pool pool(PageSize::bytes4096, two_blocks, Memory(PageSize::bytes4096, 2));
    Huge low = pool.take_huge(9), high = pool.take_huge(9);
    std::uint64_t found[2] = {7, 7};
    {
        BlockWords words = low.words(), others = high.words();
        HOLDS(words.size() == 512 * 512 && others.data() == words.end() && words[0] == 0 && words[512 * 512 - 1] == 0);
        HOLDS(refusal([&] { low.words(); }) == COMPACTD_LENT && refusal([&] { low.read(0, found, 1); }) == COMPACTD_LENT);
        HOLDS(refusal([&] { low.give(); }) == COMPACTD_LENT && refusal([&] { pool.close_in(); }) == COMPACTD_LENT && found[0] == 7);
        std::uint64_t number = 0;
        for (std::uint64_t &word : words)
            word = number++;
        others[512] = 9;
        HOLDS(others.release() && others[512] == 0);
        others[0] = 8;
        others = std::move(words); // which returns those that it had
        high.read(0, found, 2);
        HOLDS(found[0] == 8 && found[1] == 0 && others[512] == 512 && words.size() == 0);
        BlockWords moved = std::move(others);
        HOLDS(moved[1] == 1 && refusal([&] { low.give(); }) == COMPACTD_LENT);
    }
    low.read(511, found, 2);
    HOLDS(found[0] == 511 && found[1] == 512);
    low.give();
    high.give();
    HOLDS(pool.info().free == 1024);
}

// Words that have their block, which goes back with them, also where others take their place.
void words_with_blocks()
{
    Pool pool(PageSize::bytes64, two_blocks, Memory(PageSize::bytes64, 2));
    std::vector<BlockWords> words;
    words.push_back(pool.take_huge().words());
    words.push_back(pool.take_huge(3).words());
    HOLDS(words[1].size() == 64 && pool.info().huge == 2 && pool.info().held == 520);
    words[1][63] = 5;
    words.erase(words.begin());
    HOLDS(words[0][63] == 5 && pool.info().huge == 1 && pool.info().held == 8);
    Huge huge = pool.take_huge(9);
    {
        BlockWords others = huge.words();
        HOLDS(refusal([&] { huge.words(); }) == COMPACTD_LENT && pool.info().huge == 2);
        others = std::move(words[0]);
        HOLDS(others[63] == 5);
    }
    HOLDS(pool.info().huge == 1 && Huge(std::move(huge)).words().size() == 4096);
    HOLDS(pool.info().free == 1024 && pool.take_huge(9).words().size() == 4096);
    const Huge again = pool.take_huge(9);
    HOLDS(again.first() == huge.first() && refusal([&] { huge.words(); }) == COMPACTD_NOT_HUGE && pool.info().huge == 1);
}

// Members that are moved and destroyed one by one: the block before its words, or after them.
struct Guest {
    Huge block;
    BlockWords words;

    Guest(Pool &pool, std::uint32_t order) : block(pool.take_huge(order)), words(block.words()) {}
};

struct Reader {
    BlockWords words;
    Huge block;
};

void words_beside_blocks()
{
    Pool pool(PageSize::bytes64, two_blocks, Memory(PageSize::bytes64, 2));
    {
        Guest guest(pool, 3), other(pool, 4);
        other.words[127] = 5;
        guest = std::move(other); // whose block is moved while that of the guest is lent
        HOLDS(guest.words[127] == 5 && guest.block.order() == 4 && pool.info().held == 16);
        guest = Guest(pool, 3);
        HOLDS(guest.words.size() == 64 && pool.info().held == 8);
        Guest third(pool, 5);
        std::swap(guest, third);
        HOLDS(guest.words.size() == 256 && guest.block.order() == 5 && pool.info().held == 40);
        std::vector<Guest> guests;
        for (std::uint32_t order = 3; order < 7; order++)
            guests.emplace_back(pool, order);
        guests.erase(guests.begin());
        HOLDS(guests[0].words.size() == 128 && pool.info().huge == 5 && pool.info().held == 152);
    }
    HOLDS(pool.info().free == 1024);
    {
        Huge block = pool.take_huge(9);
        BlockWords words = block.words();
        Reader reader = {std::move(words), std::move(block)};
        reader.words[7] = 6;
    }
    HOLDS(pool.info().free == 1024);
    Huge block = pool.take_huge(3);
    std::unique_ptr<BlockWords> words(new BlockWords(block.words()));
    words.reset();
    words.reset(new BlockWords(block.words())); // lent anew
    block = pool.take_huge(9);
    HOLDS(pool.info().huge == 2);
    words.reset();
    HOLDS(pool.info().huge == 1 && pool.info().held == 512);
}

// A page that a guard pins, whose words come back to it.
void words_of_pages()
{
    Pool pool(PageSize::bytes4096, two_blocks, Memory(PageSize::bytes4096, 2), 5000);
    const Address at = {0, 0}, alias = {0, 7}, other = {0, 1};
    pool.map(0, at);
    pool.map(0, other);
    pool.share(0, at, alias);
    HOLDS(refusal([&] { pool.pin_words(0, {0, 2}); }) == COMPACTD_UNMAPPED);
    {
        PageWords words = pool.pin_words(0, at), others = pool.pin_words(5, other);
        HOLDS(words.size() == 512 && others.data() == words.end() && words[511] == 0 && words.address().vpage == 0);
        HOLDS(refusal([&] { pool.pin_words(0, alias); }) == COMPACTD_LENT && pool.look(at).pins == 1);
        HOLDS(refusal([&] { pool.load(0, alias, 0); }) == COMPACTD_LENT && refusal([&] { pool.unpin(0, at); }) == COMPACTD_LENT);
        HOLDS(refusal([&] { pool.close_in(); }) == COMPACTD_LENT && pool.compact() && pool.look(at).frame == 0);
        std::uint64_t number = 0;
        for (std::uint64_t &word : words)
            word = number++;
        others[1] = 8;
        others = std::move(words); // which returns those that it had
        HOLDS(pool.load(0, other, 1) == 8 && pool.look(other).pins == 0 && words.size() == 0 && others[511] == 511);
        PageWords moved = std::move(others);
        HOLDS(moved.end()[-1] == 511 && refusal([&] { pool.load(0, at, 0); }) == COMPACTD_LENT);
    }
    HOLDS(pool.load(0, alias, 511) == 511 && pool.look(at).pins == 0 && pool.look(at).flags == COMPACTD_DIRTY);
    HOLDS(pool.compact() && pool.look(at).frame == 1023 && pool.load(0, at, 9) == 9);
}

// An address that names another page by the time that a guard goes: that page is left as it is.
void words_of_another_page()
{
    Pool pool(PageSize::bytes64, two_blocks, Memory(PageSize::bytes64, 2));
    const Address at = {0, 0}, alias = {0, 7};
    pool.map(0, at);
    {
        PageWords words = pool.pin_words(0, at);
        words[0] = 5;
        pool.share(0, at, alias);
        pool.unmap(0, at);
        pool.map(0, at);
        pool.pin(0, at);
    }
    HOLDS(pool.load(0, at, 0) == 0 && pool.look(at).pins == 1);
    HOLDS(refusal([&] { pool.load(0, alias, 0); }) == COMPACTD_LENT && pool.look(alias).pins == 1);
}

// A pool with the pages 0 to `pages` in its lowest frames, whose word 7 is their number, and a round that has begun.
Pool with_pages(std::uint32_t pages)
{
    Pool pool(PageSize::bytes4096, two_blocks, Memory(PageSize::bytes4096, 2));
    for (std::uint32_t page = 0; page < pages; page++) {
        pool.map(0, {0, page});
        pool.store(0, {0, page}, 7, page);
    }
    pool.begin_round();
    return pool;
}

// Moves that are committed, put back by a call or a destructor, or refused.
void lent_moves()
{
    Pool own(PageSize::bytes64, 1), pool = with_pages(4);
    HOLDS(refusal([&] { own.lend_move(); }) == COMPACTD_OWN_MEMORY);
    LentMove none, first = pool.lend_move();
    HOLDS(!none && none.from() == nullptr && none.to() == nullptr && none.size() == 0);
    none.copy();
    HOLDS(refusal([&] { none.commit(); }) == COMPACTD_STRANGER && refusal([&] { none.put_back(); }) == COMPACTD_STRANGER);
    HOLDS(first && first.serial() == 0 && first.source() == 0 && first.target() == 1023 && first.size() == 512 && first.from()[7] == 0);
    {
        LentMove second = pool.lend_move(), third = pool.lend_move();
        HOLDS(second.from()[7] == 1 && third.from() == second.from() + 512 && third.to() == second.to() - 512);
        HOLDS(refusal([&] { pool.load(0, {0, 1}, 7); }) == COMPACTD_MOVING && pool.info().moving == 3);
        third = std::move(second); // which puts that page back
        HOLDS(pool.info().moving == 2 && pool.look({0, 2}).frame == 2 && pool.load(0, {0, 2}, 7) == 2 && !second && third.serial() == 1);
        third.to()[5] = 9; // a copy that broke off
    }
    HOLDS(pool.info().moving == 1 && pool.load(0, {0, 1}, 7) == 1 && pool.load(0, {0, 1}, 5) == 0);
    HOLDS(refusal([&] { pool.close_in(); }) == COMPACTD_LENT);
    first.copy();
    HOLDS(first.commit() && !first && first.size() == 0 && pool.look({0, 0}).frame == 1023 && pool.load(0, {0, 0}, 7) == 0);
    HOLDS(refusal([&] { first.commit(); }) == COMPACTD_STRANGER);
    LentMove last = pool.lend_move();
    pool.pin(0, {0, 3});
    last.copy();
    HOLDS(!last.commit() && pool.look({0, 3}).frame == 3 && !pool.lend_move() && pool.audit().back == 3);
    HOLDS(pool.close_in().size() == 2 * 512 * 512);
}

// The frame that a page of a run left is claimed, unless it has a pin.
void moves_out_of_a_run()
{
    Pool own(PageSize::bytes64, 1), pool = with_pages(2);
    HOLDS(refusal([&] { own.lend_move_from(0); }) == COMPACTD_OWN_MEMORY && refusal([&] { pool.lend_move_from(4, 3); }) == COMPACTD_RANGE);
    pool.empty_some(0, 3, 0);
    LentMove none, first = pool.lend_move_from(0, 3);
    HOLDS(refusal([&] { none.commit_and_claim(); }) == COMPACTD_STRANGER && first.source() == 0 && first.target() == 1023);
    first.copy();
    HOLDS(first.commit_and_claim() && !first && pool.look({0, 0}).frame == 1023 && pool.info().held == 7);
    LentMove last = pool.lend_move_from(0, 3);
    pool.pin(0, {0, 1});
    last.copy();
    HOLDS(!last.commit_and_claim() && pool.look({0, 1}).frame == 1 && !pool.lend_move_from(0, 3) && pool.info().held == 7);
}

// A guard that has a move as its pool goes.
void moves_that_stay()
{
    std::unique_ptr<Pool> pool(new Pool(with_pages(1)));
    LentMove move = pool->lend_move();
    pool.reset();
    move.copy();
    HOLDS(move.to()[7] == move.from()[7] && move.commit());
}

// The memory stays until the last one goes that has words of it.
void words_that_stay()
{
    std::unique_ptr<Pool> small(new Pool(PageSize::bytes64, two_blocks, Memory(PageSize::bytes64, 2)));
    small->map(0, {0, 0});
    PageWords of_page = small->pin_words(0, {0, 0});
    small.reset();
    of_page[7] = 6;
    HOLDS(of_page[7] == 6);
    std::unique_ptr<Pool> pool(new Pool(PageSize::bytes64, two_blocks, Memory(PageSize::bytes64, 2)));
    std::unique_ptr<Huge> huge(new Huge(pool->take_huge(9)));
    BlockWords words = huge->words();
    pool.reset();
    words[4095] = 5;
    huge.reset(); // the block stays handed out while its words are lent
    HOLDS(words[4095] == 5);
}

void moves_into_themselves()
{
    Pool pool(PageSize::bytes64, 1);
    Huge huge = pool.take_huge(3);
    move_into_itself(pool);
    move_into_itself(huge);
    HOLDS(pool.info().huge == 1 && huge.order() == 3);
    pool.map(0, {0, 0});
    pool.begin_round();
    Moving page = pool.isolate();
    move_into_itself(page);
    HOLDS(page && page.words().size() == 8 && pool.info().moving == 1);
    page.put_back();
    pool.unmap(0, {0, 0});
    huge.give();
    HOLDS(pool.info().free == 512);
}

// A pool that goes while others are moved over it, and blocks of it are still there.
void pools_that_go()
{
    Pool pool(PageSize::bytes64, 1);
    std::vector<Huge> blocks;
    for (int at = 0; at < 64; at++)
        blocks.push_back(pool.take_huge(3));
    HOLDS(refusal([&] { blocks.push_back(pool.take_huge(3)); }) == COMPACTD_NO_BLOCK && blocks.size() == 64);
    pool = Pool(PageSize::bytes64, 1);
    HOLDS(pool.info().free == 512);
    std::uint64_t word = 4;
    blocks[63].write(0, &word, 1);
    blocks.erase(blocks.begin(), blocks.begin() + 63);
    word = 0;
    blocks[0].read(0, &word, 1);
    HOLDS(word == 4 && blocks[0].first() == 504);
}

// A pool with pages in its frames 0 and 1, and a round that has begun. The first page has a 9 in its word 1.
const Address low = {0, 0}, high = {0, 1};

Pool with_round()
{
    Pool pool(PageSize::bytes64, 1);
    pool.map(0, low);
    pool.map(0, high);
    pool.store(0, low, 1, 9);
    pool.begin_round();
    return pool;
}

void pages_in_a_buffer()
{
    Pool pool = with_round();
    compactd_moving_page page;
    compactd_move move;
    std::uint64_t words[8];
    HOLDS(refusal([&] { pool.isolate(page, words, 7); }) == COMPACTD_RANGE && !pool.next_moving(0, page, move));
    HOLDS(pool.isolate(page, words, 8) && words[1] == 9);
    HOLDS(refusal([&] { pool.audit(); }) == COMPACTD_PAGES_MOVING);
    words[1] = 8;
    HOLDS(refusal([&] { pool.commit(page, words, 8); }) == COMPACTD_STRANGER);
    words[1] = 9;
    HOLDS(pool.commit(page, words, 8) && pool.isolate(page, words, 8));
    pool.put_back(page);
    HOLDS(refusal([&] { pool.put_back(page); }) == COMPACTD_STRANGER && !pool.isolate(page, words, 8));
    HOLDS(pool.look(low).frame == 511 && pool.look(high).frame == 1 && pool.audit().back == 1);
    pool.begin_round();
    HOLDS(pool.isolate(page, words, 8) && pool.next_moving(0, page, move) && move.source == 1 && move.vpage == 1);
    HOLDS(!pool.next_moving(2, page, move) && refusal([&] { pool.next_moving(1 << 24, page, move); }) == COMPACTD_RANGE);
} // the pool goes while a page of it is moving

void moving_pages()
{
    Pool pool(PageSize::bytes64, 1);
    HOLDS(!pool.isolate()); // no round was begun
    pool = with_round();
    Moving first = pool.isolate();
    HOLDS(first && first.words()[1] == 9 && first.page().flags == COMPACTD_DIRTY && pool.info().moving == 1);
    HOLDS(first.commit() && !first && refusal([&] { first.commit(); }) == COMPACTD_STRANGER);
    first = pool.isolate();
    pool.pin(0, high);
    HOLDS(!first.commit() && pool.look(high).frame == 1);
    pool.unpin(0, high);
    HOLDS(!pool.isolate()); // the scanners have met
    pool.begin_round();
    first = pool.isolate();
    first.put_back();
    HOLDS(!first && pool.audit().back == 2 && refusal([&] { first.put_back(); }) == COMPACTD_STRANGER);
}

void slices()
{
    Pool pool(PageSize::bytes64, 1, 8);
    compactd::Slice slice = pool.move_pages(1);
    HOLDS(slice.moved == 0 && slice.stopped == COMPACTD_MET); // no round was begun
    for (std::uint32_t at = 0; at < 4; at++)
        pool.map(0, {0, at});
    pool.begin_round();
    slice = pool.move_pages(0);
    HOLDS(slice.moved == 0 && slice.stopped == COMPACTD_OK && pool.look(low).frame == 0);
    slice = pool.move_pages(1);
    HOLDS(slice.moved == 1 && slice.stopped == COMPACTD_OK && pool.look(low).frame == 511 && pool.info().moving == 0);
    slice = pool.move_pages(9);
    HOLDS(slice.moved == 1 && slice.stopped == COMPACTD_JOURNAL_FULL && pool.look(high).frame == 510);
    const Pool other = std::move(pool);
    HOLDS(other.audit().moved == 2 && refusal([&] { pool.move_pages(1); }) == COMPACTD_CLOSED);
    pool = with_round();
    slice = pool.move_pages(9);
    HOLDS(slice.moved == 2 && slice.stopped == COMPACTD_MET && pool.load(0, low, 1) == 9);
}

// A run with two pages, which can't be emptied while one of them is moving.
void evacuations()
{
    Pool pool = with_round();
    Moving page = pool.isolate();
    HOLDS(refusal([&] { pool.evacuate(0, 3); }) == COMPACTD_NO_BLOCK);
    page.put_back();
    HOLDS(refusal([&] { pool.evacuate(0); }) == COMPACTD_NO_BLOCK); // the whole pool
    HOLDS(refusal([&] { pool.evacuate(512); }) == COMPACTD_RANGE && refusal([&] { pool.evacuate(0, 2); }) == COMPACTD_RANGE);
    HOLDS(pool.evacuate(0, 3) == 2 && pool.evacuate(0, 3) == 0 && pool.take_huge(3).first() == 0);
    HOLDS(pool.look(low).frame == 511 && pool.look(high).frame == 510 && pool.load(0, low, 1) == 9 && pool.audit().moved == 2);
    const Pool other = std::move(pool);
    HOLDS(refusal([&] { pool.evacuate(0, 3); }) == COMPACTD_CLOSED && other.info().pages == 2);
    pool = Pool(PageSize::bytes64, 1, 3);
    pool.map(0, low);
    pool.map(0, high);
    HOLDS(refusal([&] { pool.evacuate(0, 3); }) == COMPACTD_JOURNAL_FULL && pool.look(low).frame == 0);
}

// A page that isn't unmovable goes to a whole pageblock before it goes beside one that is.
void unmovable_pages_apart()
{
    Pool pool(PageSize::bytes64, 2);
    pool.set_apart(true);
    HOLDS(pool.map(0, low, true) == 0 && pool.map(0, high) == 512 && pool.map(0, {1, 0}, true) == 1 && pool.map(0, {1, 1}) == 513);
}

// A run with two pages is emptied in two steps and handed out, and another claim is dropped. No page comes into a claimed run.
void evacuations_in_steps()
{
    Pool pool = with_round();
    pool.map_at(0, {1, 0}, 511, true);
    HOLDS(refusal([&] { pool.claim(504, 3); }) == COMPACTD_NO_BLOCK);
    HOLDS(pool.claim(0, 3) == 2 && pool.info().held == 6 && pool.map(0, {1, 1}) == 8);
    HOLDS(refusal([&] { pool.claim(0, 3); }) == COMPACTD_NO_BLOCK && refusal([&] { pool.empty_some(0, 2, 1); }) == COMPACTD_RANGE);
    compactd::Step step = pool.empty_some(0, 3, 1);
    HOLDS(step.moved == 1 && step.unclaimed == 1 && refusal([&] { pool.take_claimed(0, 3); }) == COMPACTD_NO_BLOCK);
    step = pool.empty_some(0, 3, 9);
    HOLDS(step.moved == 1 && step.unclaimed == 0 && pool.look(low).frame == 510 && pool.look(high).frame == 509);
    {
        const Huge huge = pool.take_claimed(0, 3);
        HOLDS(huge.first() == 0 && huge.order() == 3 && pool.info().huge == 1 && pool.load(0, low, 1) == 9);
    }
    HOLDS(pool.info().held == 0 && pool.claim(8, 3) == 1 && pool.info().held == 7);
    pool.drop_claim(8, 3);
    HOLDS(pool.info().held == 0 && refusal([&] { pool.drop_claim(512); }) == COMPACTD_RANGE);
}

// Two runs without a page are handed out, and one whose page has to go. Their blocks go back where they are destroyed.
void reservations()
{
    Pool pool = with_round();
    pool.map_at(0, {1, 0}, 300);
    HOLDS(refusal([&] { pool.reserve(1); }) == COMPACTD_NO_BLOCK && refusal([&] { pool.reserve(1, 2); }) == COMPACTD_RANGE);
    {
        const compactd::Reserved three = pool.reserve(3, 7);
        const std::vector<Huge> &blocks = three.blocks;
        HOLDS(three.moved == 1 && blocks.size() == 3 && pool.info().held == 384 && pool.look({1, 0}).frame == 127);
        HOLDS(blocks[0].first() == 128 && blocks[1].first() == 384 && blocks[2].first() == 256 && blocks[2].order() == 7);
    }
    HOLDS(pool.info().held == 0 && pool.reserve(0).blocks.empty());
}

// A keeper has a run ready from which a page had to go, and its block is handed out. It claims the run anew, and drops it where it is closed.
void blocks_kept_ready()
{
    Pool pool(PageSize::bytes64, 2);
    for (std::uint32_t run = 0; run < 2; run++) {
        pool.map_at(0, {0, run}, 512 * run);
        pool.map_at(0, {1, run}, 512 * run + 9);
    }
    pool.unmap(0, {0, 1});
    compactd::Keeper keeper(9, 1);
    HOLDS(pool.cheapest_run().first == 512 && pool.cheapest_run().pages == 1);
    HOLDS(refusal([&] { pool.cheapest_run(2); }) == COMPACTD_RANGE);
    compactd::KeeperStep step = keeper.step(pool, 2);
    HOLDS(step.moved == 0 && step.more && keeper.claimed() == 1 && pool.info().held == 511);
    step = keeper.step(pool, 2);
    HOLDS(step.moved == 1 && step.more && pool.look({1, 1}).frame == 511);
    step = keeper.step(pool, 2);
    HOLDS(step.moved == 0 && !step.more);
    {
        const compactd::Taken taken = keeper.take(pool);
        HOLDS(taken.block.first() == 512 && taken.block.order() == 9 && taken.moved == 0 && keeper.claimed() == 0);
        HOLDS(pool.info().huge == 1 && refusal([&] { keeper.take(pool); }) == COMPACTD_NO_BLOCK);
    }
    step = keeper.step(pool, 2);
    HOLDS(step.more && keeper.claimed() == 1 && pool.info().held == 512);
    keeper.close(pool);
    HOLDS(keeper.claimed() == 0 && pool.info().held == 0);
    compactd::Keeper none(3, 0), odd(2, 1);
    HOLDS(!none.step(pool, 2).more && none.take(pool).moved == 0 && refusal([&] { odd.step(pool, 2); }) == COMPACTD_RANGE);
}

// A page whose carrier goes is put back, also by an exception, by another page that takes its place, and where another ended its move.
void carriers_that_go()
{
    Pool pool = with_round();
    try {
        const Moving page = pool.isolate();
        throw std::runtime_error("the carrier fails");
    } catch (const std::runtime_error &) {
        HOLDS(pool.info().moving == 0 && pool.look(low).frame == 0 && pool.audit().back == 1);
    }
    pool.begin_round();
    Moving page = pool.isolate();
    page = pool.isolate();
    HOLDS(pool.info().moving == 1 && pool.look(low).frame == 0 && pool.look(high).moving);
    Moving other = std::move(page);
    HOLDS(!page && other && pool.info().moving == 1);
    pool.put_back(other.page());
    HOLDS(refusal([&] { other.commit(); }) == COMPACTD_STRANGER && pool.audit().back == 3);
    pool.begin_round();
    other = pool.isolate();
    pool = Pool(PageSize::bytes64, 1);
    HOLDS(other && other.commit()); // its memory outlives the pool's object
}

// Pages that are carried together. Those that nobody commits go back.
void carried_together()
{
    Pool pool = with_round();
    std::vector<Moving> pages = pool.isolate_many(1);
    HOLDS(pages.size() == 1 && pages[0].words()[1] == 9 && pool.isolate_many(0).empty());
    for (Moving &page : pool.isolate_many(9))
        pages.push_back(std::move(page));
    HOLDS(pages.size() == 2 && pool.isolate_many(9).empty() && pool.commit_many(pages) == 2 && pool.look(high).frame == 510);
    pool.begin_round();
    HOLDS(refusal([&] { pool.commit_many(pages); }) == COMPACTD_STRANGER && pool.isolate_many(9).size() == 0);
    Pool kept(PageSize::bytes64, 1, 5);
    kept.map(0, low);
    kept.map(0, high);
    kept.begin_round();
    HOLDS(kept.isolate_many(2).size() == 1);
    HOLDS(kept.info().moving == 0 && refusal([&] { kept.isolate_many(2); }) == COMPACTD_JOURNAL_FULL && kept.look(low).frame == 0);
}

void questions()
{
    const Pool pool(PageSize::bytes4096, 3), kept(PageSize::bytes64, 1, 77);
    HOLDS(pool.describe().page_words == 512 && pool.describe().blocks == 3 && pool.describe().places == 0);
    HOLDS(kept.describe().page_words == 8 && kept.describe().places == 77 && kept.describe().spaces == 8 && kept.describe().vpages == 4096);
    HOLDS(pool.free_runs(9) == 3 && pool.free_runs(0) == 0 && pool.fragmentation(9) == -1000);
    HOLDS(refusal([&] { pool.free_runs(10); }) == COMPACTD_RANGE && refusal([&] { pool.fragmentation(10); }) == COMPACTD_RANGE);
    HOLDS(std::string(Error(COMPACTD_NOT_HUGE).what()) == "compactd: no block of this order that begins at this frame is handed out");
    HOLDS(std::string(Error(15).what()) == "compactd: unknown refusal");
}

void journals()
{
    Pool pool(PageSize::bytes64, 1, 2);
    Huge huge = pool.take_huge(3);
    pool.map(2, {0, 3});
    HOLDS(pool.journal().first == 2 && pool.journal().second == 0);
    HOLDS(pool.record_at(0).kind == COMPACTD_WAS_TAKEN && pool.record_at(1).vpage == 3 && pool.record_at(1).client == 2);
    HOLDS(refusal([&] { huge.give(); }) == COMPACTD_JOURNAL_FULL && !pool.compact());
}

} // namespace

int main()
{
    pools();
    many_pages();
    sizes();
    huge_pages();
    memory();
    memory_of_the_callers();
    mappings_of_the_callers();
    words_that_are_lent();
    words_with_blocks();
    words_beside_blocks();
    words_of_pages();
    words_of_another_page();
    words_that_stay();
    lent_moves();
    moves_out_of_a_run();
    moves_that_stay();
    moves_into_themselves();
    pools_that_go();
    pages_in_a_buffer();
    moving_pages();
    slices();
    evacuations();
    unmovable_pages_apart();
    evacuations_in_steps();
    reservations();
    blocks_kept_ready();
    carriers_that_go();
    carried_together();
    questions();
    journals();
    std::printf("%s\n", is_well ? "pools, huge pages and moving pages are owned as they should be" : "something is otherwise");
    return is_well ? 0 : 1;
}
