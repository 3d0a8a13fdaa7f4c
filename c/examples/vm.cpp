// Guests of a virtual machine monitor want huge pages, while the host has small pages all over its memory. Without a round no guest gets
// one. After a round each does, writes all of its memory and reads it again, and the host's pages have the words that they had.
#include "compactd.hpp"

#include <cstdint>
#include <cstdio>
#include <utility>
#include <vector>

namespace {

const std::uint32_t blocks = 8, page_words = 512, frames = 512 * blocks;
const std::size_t huge_words = std::size_t(512) * page_words;
const std::uint32_t host = 0;

// A host whose memory has one small page in each eight frames.
compactd::Pool fragmented()
{
    compactd::Pool pool(compactd::PageSize::bytes4096, blocks);
    for (std::uint32_t frame = 0; frame < frames; frame += 8) {
        const compactd::Address at = {0, frame};
        pool.map_at(host, at, frame);
        pool.store(host, at, 511, frame + 1);
    }
    return pool;
}

// A guest, whose memory goes back with it.
class Guest {
public:
    explicit Guest(std::uint64_t number) : number_(number) {}

    // Whether it gets one more huge page.
    bool grow(compactd::Pool &pool)
    {
        try {
            memory_.push_back(pool.take_huge());
            return true;
        } catch (const compactd::Error &error) {
            if (error.refusal() != COMPACTD_NO_BLOCK)
                throw;
            return false;
        }
    }

    // Writes each word of its memory, and returns whether each is there then.
    bool use()
    {
        std::vector<std::uint64_t> page(page_words), found(page_words);
        for (std::size_t at = 0; at < memory_.size() * huge_words; at += page_words) {
            fill(page, at);
            memory_[at / huge_words].write(at % huge_words, page.data(), page.size());
        }
        for (std::size_t at = 0; at < memory_.size() * huge_words; at += page_words) {
            fill(page, at);
            memory_[at / huge_words].read(at % huge_words, found.data(), found.size());
            if (found != page)
                return false;
        }
        return true;
    }

    std::size_t pages() const { return memory_.size(); }

private:
    void fill(std::vector<std::uint64_t> &page, std::size_t at) const
    {
        for (std::size_t word = 0; word < page.size(); word++)
            page[word] = (number_ << 32) + at + word;
    }

    std::uint64_t number_;
    std::vector<compactd::Huge> memory_;
};

bool keeps_words(compactd::Pool &pool)
{
    for (std::uint32_t frame = 0; frame < frames; frame += 8)
        if (pool.load(host, {0, frame}, 511) != frame + 1)
            return false;
    return true;
}

void run(const char *how, bool with_round)
{
    compactd::Pool pool = fragmented();
    if (with_round)
        pool.compact();
    std::printf("%s: %u pageblocks free as a whole\n", how, static_cast<unsigned>(pool.info().whole));
    std::vector<Guest> guests;
    for (std::uint64_t number = 1; number <= 3; number++) {
        Guest guest(number);
        while (guest.pages() < 2 && guest.grow(pool)) {
        }
        const char *used = !guest.use() ? ", and not the words that it wrote" : guest.pages() > 0 ? ", and each word that it wrote" : "";
        std::printf("  guest %u has %u huge pages%s\n", static_cast<unsigned>(number), static_cast<unsigned>(guest.pages()), used);
        guests.push_back(std::move(guest));
    }
    for (Guest &guest : guests)
        if (!guest.use())
            std::printf("  a guest wrote into the memory of another\n");
    std::printf("  the host's pages %s\n", keeps_words(pool) ? "have their words" : "have other words");
    guests.clear();
    std::printf("  without the guests: %u pageblocks free as a whole\n", static_cast<unsigned>(pool.info().whole));
}

} // namespace

int main()
{
    run("without a round", false);
    run("with a round", true);
    return 0;
}
