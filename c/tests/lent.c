/* Pools in memory of the caller's, and words that are lent, of blocks, of pinned pages, and of pages that move in a round or out of a run:
 * each refusal and each change of these calls, in pools with pages of both sizes, and memory that is mapped by compactd_memory.h. Prints each
 * call that answers another number, with its line; the status is then 1. */
#define _DEFAULT_SOURCE

#include "answers.h"
#include "compactd.h"
#include "compactd_memory.h"

#include <stdlib.h>
#include <string.h>
#include <sys/mman.h>

#define BLOCKS 3
#define FRAMES (BLOCKS * 512u)
#define GARBAGE 0xA5

/* Where calls write. */
static uint32_t frame, first, moved, stopped, pages, unclaimed;
static uint64_t words[512];
static compactd_bool is_so;
static compactd_counts counts;
static compactd_words memory, lent, other;
static compactd_moving_page page;
static compactd_page_info info;
static compactd_lent_move move, another;
static compactd_round_counts ends;

static int is_nothing(const compactd_words *found)
{
    return found->at == NULL && found->count == 0;
}

static int is_same(const compactd_words *found, const compactd_words *wanted)
{
    return found->at == wanted->at && found->count == wanted->count;
}

/* Memory of malloc that is full of something. */
static void find_memory(size_t count)
{
    memory.at = malloc(count * sizeof memory.at[0]);
    if (memory.at == NULL)
        abort();
    memory.count = count;
    memset(memory.at, GARBAGE, count * sizeof memory.at[0]);
}

static void lose_memory(void)
{
    free(memory.at);
    memory.at = NULL;
    memory.count = 0;
}

/* A pool in memory that isn't blank. Returns where this begins. */
static uint64_t *open_in(compactd_pool *pool, uint32_t page_words, uint32_t places)
{
    uint64_t *begin;

    find_memory((size_t)FRAMES * page_words);
    begin = memory.at;
    OK(compactd_open_in(pool, page_words, BLOCKS, 2, FRAMES, places, &memory, 0));
    HOLDS(is_nothing(&memory));
    return begin;
}

/* Closes the pool, whose memory comes back as it was given. */
static void close_in(compactd_pool *pool, const uint64_t *begin, uint32_t page_words)
{
    OK(compactd_close_in(pool, &memory));
    HOLDS(memory.at == begin && memory.count == (size_t)FRAMES * page_words);
    lose_memory();
}

/* What stands in each word of a page or of a block. */
static uint64_t word_of(uint64_t number, size_t at)
{
    return (number << 32) + at * 7 + 1;
}

static void fill(const compactd_words *block, uint64_t number)
{
    size_t at;

    for (at = 0; at < block->count; at++)
        block->at[at] = word_of(number, at);
}

static int are_all(const compactd_words *block, uint64_t number)
{
    size_t at;

    for (at = 0; at < block->count; at++)
        if (block->at[at] != word_of(number, at))
            return 0;
    return 1;
}

static int are_zeros(const uint64_t *from, size_t count)
{
    size_t at;

    for (at = 0; at < count; at++)
        if (from[at] != 0)
            return 0;
    return 1;
}

/* The words of a block as compactd_read_block has them. */
static int block_has(compactd_pool *pool, uint32_t from, uint32_t order, uint32_t page_words, uint64_t number)
{
    uint32_t at, word;

    for (at = 0; at < (uint32_t)1 << order; at++) {
        OK(compactd_read_block(pool, from, order, (size_t)at * page_words, words, page_words));
        for (word = 0; word < page_words; word++)
            if (words[word] != word_of(number, (size_t)at * page_words + word))
                return 0;
    }
    return 1;
}

static void write_page(compactd_pool *pool, uint32_t vpage, uint32_t page_words)
{
    uint32_t word;

    for (word = 0; word < page_words; word++)
        words[word] = word_of(vpage, word);
    OK(compactd_write(pool, 0, 0, vpage, 0, words, page_words));
}

static int page_has(compactd_pool *pool, uint32_t vpage, uint32_t page_words)
{
    uint32_t word;

    OK(compactd_read(pool, 0, 0, vpage, 0, words, page_words));
    for (word = 0; word < page_words; word++)
        if (words[word] != word_of(vpage, word))
            return 0;
    return 1;
}

static void refused_openings(uint32_t page_words)
{
    static const struct {
        uint32_t page_words; /* or 1 for those of the test */
        uint32_t blocks, spaces, vpages, places;
        int more; /* words than the memory of BLOCKS has */
    } rows[] = {
        {9, BLOCKS, 1, 1, 0, 0},
        {0, BLOCKS, 1, 1, 0, 0},
        {1, 0, 1, 1, 0, 0},
        {1, 32769, 1, 1, 0, 0},
        {1, BLOCKS, 0, 1, 0, 0},
        {1, BLOCKS, 257, 1, 0, 0},
        {1, BLOCKS, 1, 0, 0, 0},
        {1, BLOCKS, 1, 16777217, 0, 0},
        {1, BLOCKS, 5, 16777216, 0, 0},
        {1, BLOCKS, 1, 1, 65537, 0},
        {1, BLOCKS, 1, 1, 0, 1},
        {1, BLOCKS, 1, 1, 0, -1},
        {1, BLOCKS - 1, 1, 1, 0, 0},
        {1, BLOCKS + 1, 1, 1, 0, 0},
    };
    compactd_pool pool = {0};
    compactd_words given;
    size_t at;

    find_memory((size_t)FRAMES * page_words);
    for (at = 0; at < sizeof rows / sizeof rows[0]; at++) {
        uint32_t size = rows[at].page_words == 1 ? page_words : rows[at].page_words;

        given.at = memory.at;
        given.count = memory.count + (size_t)rows[at].more;
        other = given;
        IS(RANGE, compactd_open_in(&pool, size, rows[at].blocks, rows[at].spaces, rows[at].vpages, rows[at].places, &given, at % 2));
        HOLDS(is_same(&given, &other));
        IS(CLOSED, compactd_info(&pool, &counts));
    }
    IS(RANGE, compactd_open_in(&pool, page_words, BLOCKS, 1, 1, 0, &lent, 1)); /* no words at all */
    IS(RANGE, compactd_open_in(&pool, page_words == 8 ? 512 : 8, BLOCKS, 1, 1, 0, &memory, 0));
    OK(compactd_open(&pool, page_words, 1));
    other = memory;
    IS(OPEN, compactd_open_in(&pool, page_words, BLOCKS, 1, 1, 0, &memory, 0));
    HOLDS(is_same(&memory, &other) && is_nothing(&lent));
    for (at = 0; at < memory.count; at++)
        if (((unsigned char *)memory.at)[at * 8] != GARBAGE)
            break;
    HOLDS(at == memory.count); /* no refused call wrote a word */
    OK(compactd_close(&pool));
    lose_memory();
}

/* The memory isn't blank: each page and each block is cleared when its frames are first used, and later. */
static void garbage_is_cleared(uint32_t page_words)
{
    compactd_pool pool = {0};
    uint64_t *begin = open_in(&pool, page_words, 0);
    uint32_t vpage;

    for (vpage = 0; vpage < 512; vpage++) {
        OK(compactd_map(&pool, 0, 0, vpage, 0, &frame));
        OK(compactd_read(&pool, 0, 0, vpage, 0, words, page_words));
        HOLDS(frame == vpage && are_zeros(words, page_words));
        write_page(&pool, vpage, page_words);
    }
    OK(compactd_take_order(&pool, 9, &first));
    OK(compactd_read_block(&pool, first, 9, (size_t)511 * page_words, words, page_words));
    HOLDS(first == 512 && are_zeros(words, page_words));
    OK(compactd_block_words(&pool, 512, 9, &lent));
    HOLDS(lent.at == begin + (size_t)512 * page_words && lent.count == (size_t)512 * page_words);
    HOLDS(are_zeros(lent.at, lent.count));
    fill(&lent, 1);
    OK(compactd_return_block(&pool, 512, 9, &lent));
    OK(compactd_give_order(&pool, 512, 9));
    OK(compactd_take_order(&pool, 9, &first));
    OK(compactd_block_words(&pool, first, 9, &lent));
    HOLDS(first == 512 && are_zeros(lent.at, lent.count)); /* what was left in it is gone */
    OK(compactd_return_block(&pool, 512, 9, &lent));
    for (vpage = 0; vpage < 512; vpage++)
        HOLDS(page_has(&pool, vpage, page_words));
    close_in(&pool, begin, page_words);
}

/* Where the caller says that its memory is blank, and it is. Frames of pages lie where the memory has them, the lowest in front. */
static void blank_memory(uint32_t page_words)
{
    compactd_pool pool = {0};
    uint64_t *begin;

    find_memory((size_t)FRAMES * page_words);
    memset(memory.at, 0, memory.count * sizeof memory.at[0]);
    begin = memory.at;
    OK(compactd_open_in(&pool, page_words, BLOCKS, 1, 9, 1000, &memory, 1));
    OK(compactd_map_at(&pool, 0, 0, 0, 0, 700));
    OK(compactd_store(&pool, 0, 0, 0, 7, 5));
    OK(compactd_take_order(&pool, 3, &first));
    OK(compactd_block_words(&pool, first, 3, &lent));
    HOLDS(first == 0 && lent.at == begin && lent.count == (size_t)8 * page_words && are_zeros(lent.at, lent.count));
    fill(&lent, 3);
    OK(compactd_return_block(&pool, first, 3, &lent));
    OK(compactd_give_order(&pool, first, 3));
    OK(compactd_map(&pool, 0, 0, 1, 0, &frame));
    OK(compactd_read(&pool, 0, 0, 1, 0, words, page_words));
    HOLDS(frame == 0 && are_zeros(words, page_words));
    OK(compactd_close_in(&pool, &memory));
    HOLDS(memory.at == begin && memory.count == (size_t)FRAMES * page_words);
    lose_memory();
}

/* What each call of a block is refused as while its words are lent, and what else comes first. */
static void refusals_of_a_lent_block(uint32_t page_words)
{
    const size_t count = (size_t)16 * page_words;
    compactd_pool pool = {0};
    uint64_t *begin = open_in(&pool, page_words, 0);

    OK(compactd_take_order(&pool, 4, &first));
    OK(compactd_take_order(&pool, 4, &frame));
    HOLDS(first == 0 && frame == 16);
    IS(RANGE, compactd_block_words(&pool, 1 << 24, 4, &lent));
    IS(RANGE, compactd_block_words(&pool, 0, 2, &lent));
    IS(NOT_HUGE, compactd_block_words(&pool, 0, 5, &lent));
    IS(NOT_HUGE, compactd_block_words(&pool, 32, 4, &lent));
    HOLDS(is_nothing(&lent));
    OK(compactd_block_words(&pool, 0, 4, &lent));
    fill(&lent, 1);
    IS(RANGE, compactd_block_words(&pool, 0, 11, &other));
    IS(NOT_HUGE, compactd_block_words(&pool, 0, 3, &other));
    other.at = NULL;
    other.count = 0;
    IS(LENT, compactd_block_words(&pool, 0, 4, &other));
    HOLDS(is_nothing(&other));
    words[0] = 7;
    IS(LENT, compactd_read_block(&pool, 0, 4, 0, words, 1));
    IS(LENT, compactd_read_block(&pool, 0, 4, count, words, 0));
    IS(RANGE, compactd_read_block(&pool, 0, 4, count, words, 1));
    IS(NOT_HUGE, compactd_read_block(&pool, 0, 3, count, words, 1));
    IS(LENT, compactd_write_block(&pool, 0, 4, count - 1, words, 1));
    IS(RANGE, compactd_write_block(&pool, 0, 4, count, words, 1));
    IS(LENT, compactd_give_order(&pool, 0, 4));
    IS(NOT_HUGE, compactd_give_order(&pool, 0, 5));
    IS(LENT, compactd_close_in(&pool, &other));
    HOLDS(words[0] == 7 && is_nothing(&other));
    OK(compactd_read_block(&pool, 16, 4, 0, words, 1)); /* the other block isn't lent */
    OK(compactd_write_block(&pool, 16, 4, count - 1, words, 1));
    HOLDS(are_all(&lent, 1));
    OK(compactd_return_block(&pool, 0, 4, &lent));
    HOLDS(is_nothing(&lent) && block_has(&pool, 0, 4, page_words, 1));
    OK(compactd_give_order(&pool, 0, 4));
    close_in(&pool, begin, page_words);
}

static void refused_returns(uint32_t page_words)
{
    compactd_pool pool = {0};
    uint64_t *begin = open_in(&pool, page_words, 0);

    OK(compactd_take_order(&pool, 4, &first));
    OK(compactd_block_words(&pool, first, 4, &lent));
    fill(&lent, 2);
    other = lent;
    IS(RANGE, compactd_return_block(&pool, 1 << 24, 4, &lent));
    IS(RANGE, compactd_return_block(&pool, 0, 2, &lent));
    IS(RANGE, compactd_return_block(&pool, 0, 3, &lent));
    IS(RANGE, compactd_return_block(&pool, 0, 5, &lent));
    lent.at = begin + (size_t)16 * page_words; /* where a block would lie that isn't handed out */
    IS(RANGE, compactd_return_block(&pool, 16, 5, &lent));
    IS(NOT_HUGE, compactd_return_block(&pool, 16, 4, &lent));
    lent = other;
    lent.count--;
    IS(RANGE, compactd_return_block(&pool, 0, 4, &lent));
    IS(RANGE, compactd_return_block(&pool, 0, 4, &memory)); /* no words at all */
    HOLDS(is_nothing(&memory));
    lent = other;
    HOLDS(are_all(&lent, 2));
    IS(LENT, compactd_give_order(&pool, 0, 4)); /* it is lent as before */
    OK(compactd_return_block(&pool, 0, 4, &lent));
    HOLDS(is_nothing(&lent) && block_has(&pool, 0, 4, page_words, 2));
    close_in(&pool, begin, page_words);
}

/* Blocks of each order, all lent at once, with pages between them. Each is as it was left, and so is each page. */
static void every_order(uint32_t page_words)
{
    compactd_pool pool = {0};
    uint64_t *begin = open_in(&pool, page_words, 0);
    compactd_words of_order[10];
    uint32_t firsts[10], order, turn;

    memset(of_order, 0, sizeof of_order);
    for (order = 3; order <= 9; order++) {
        OK(compactd_take_order(&pool, order, &firsts[order]));
        OK(compactd_map(&pool, 0, 0, order, 0, &frame));
        write_page(&pool, order, page_words);
    }
    for (turn = 0; turn < 2; turn++) {
        for (order = 3; order <= 9; order++) {
            OK(compactd_block_words(&pool, firsts[order], order, &of_order[order]));
            HOLDS(of_order[order].at == begin + (size_t)firsts[order] * page_words);
            HOLDS(of_order[order].count == (size_t)page_words << order);
            HOLDS(turn == 0 ? are_zeros(of_order[order].at, of_order[order].count) : are_all(&of_order[order], order));
            fill(&of_order[order], order + turn);
        }
        IS(LENT, compactd_close_in(&pool, &memory));
        for (order = 9; order >= 3; order--) {
            OK(compactd_return_block(&pool, firsts[order], order, &of_order[order]));
            HOLDS(block_has(&pool, firsts[order], order, page_words, order + turn));
            words[0] = word_of(order, 0);
            words[1] = word_of(order, 1);
            fill(&of_order[order], 0); /* there are none */
            if (turn == 0)
                OK(compactd_write_block(&pool, firsts[order], order, 0, words, 2));
        }
    }
    for (order = 3; order <= 9; order++) {
        HOLDS(page_has(&pool, order, page_words));
        OK(compactd_give_order(&pool, firsts[order], order));
    }
    close_in(&pool, begin, page_words);
}

/* Pages in two of three frames, but for the pageblock in the middle, whose words are lent. */
static void fill_beside(compactd_pool *pool, uint32_t page_words)
{
    uint32_t vpage;

    for (vpage = 0; vpage < 512; vpage++)
        OK(compactd_map_at(pool, 0, 1, vpage, 0, vpage));
    OK(compactd_take_order(pool, 9, &first));
    HOLDS(first == 512);
    for (vpage = 0; vpage < 512; vpage++)
        OK(compactd_unmap(pool, 0, 1, vpage));
    for (vpage = 0; vpage < FRAMES; vpage++)
        if (vpage % 3 != 0 && vpage / 512 != 1) {
            OK(compactd_map_at(pool, 0, 0, vpage, 0, vpage));
            write_page(pool, vpage, page_words);
        }
    OK(compactd_block_words(pool, 512, 9, &lent));
    fill(&lent, 9);
}

/* Each page and the lent block have their words. */
static void all_is_kept(compactd_pool *pool, uint32_t page_words)
{
    uint32_t vpage;

    for (vpage = 0; vpage < FRAMES; vpage++)
        if (vpage % 3 != 0 && vpage / 512 != 1)
            HOLDS(page_has(pool, vpage, page_words));
    HOLDS(are_all(&lent, 9));
}

/* Rounds, evacuations, reservations and keepers beside a block that is lent. */
static void moves_beside(uint32_t page_words)
{
    compactd_pool pool = {0};
    uint64_t *begin = open_in(&pool, page_words, 0);
    uint32_t firsts[2];
    size_t claimed = 0;

    fill_beside(&pool, page_words);
    OK(compactd_evacuate(&pool, 8, 3, &moved));
    HOLDS(moved == 5);
    IS(NO_BLOCK, compactd_evacuate(&pool, 512, 9, &moved));
    all_is_kept(&pool, page_words);
    OK(compactd_begin_round(&pool));
    OK(compactd_move_pages(&pool, 10, &moved, &stopped));
    HOLDS(moved == 10);
    lent.at[0]++; /* the caller goes on with its words */
    OK(compactd_compact(&pool, &is_so));
    HOLDS(is_so && lent.at[0]-- == word_of(9, 0) + 1);
    all_is_kept(&pool, page_words);
    OK(compactd_reserve(&pool, 5, firsts, 2, &moved));
    OK(compactd_claim(&pool, 256, 4, &pages));
    OK(compactd_empty_some(&pool, 256, 4, 16, &moved, &unclaimed));
    HOLDS(unclaimed == 0);
    do
        OK(compactd_keep(&pool, 4, 5, firsts, 2, &claimed, &moved, &is_so));
    while (is_so);
    OK(compactd_take_kept(&pool, 4, firsts, 2, &claimed, &first, &moved));
    all_is_kept(&pool, page_words);
    OK(compactd_take_claimed(&pool, 256, 4));
    other.at = NULL;
    other.count = 0;
    OK(compactd_block_words(&pool, first, 4, &other));
    HOLDS(are_zeros(other.at, other.count));
    fill(&other, 11);
    OK(compactd_compact(&pool, &is_so));
    all_is_kept(&pool, page_words);
    HOLDS(are_all(&other, 11));
    OK(compactd_return_block(&pool, first, 4, &other));
    OK(compactd_return_block(&pool, 512, 9, &lent));
    HOLDS(block_has(&pool, first, 4, page_words, 11) && block_has(&pool, 512, 9, page_words, 9));
    close_in(&pool, begin, page_words);
}

/* The two calls need no place in the journal, and have no record. */
static void full_journal(uint32_t page_words)
{
    compactd_pool pool = {0};
    uint64_t *begin = open_in(&pool, page_words, 2);
    uint64_t records, room;

    OK(compactd_take_order(&pool, 9, &first));
    OK(compactd_block_words(&pool, first, 9, &lent));
    IS(LENT, compactd_give_order(&pool, first, 9));
    OK(compactd_return_block(&pool, first, 9, &lent));
    OK(compactd_mark(&pool, 1));
    OK(compactd_block_words(&pool, first, 9, &lent));
    IS(JOURNAL_FULL, compactd_give_order(&pool, first, 9));
    IS(LENT, compactd_read_block(&pool, first, 9, 0, words, 1));
    OK(compactd_return_block(&pool, first, 9, &lent));
    OK(compactd_journal(&pool, &records, &room));
    HOLDS(records == 2 && room == 0);
    close_in(&pool, begin, page_words);
}

/* A pool is closed: its memory is as good as before, and a second one is opened in it. Where words are lent it isn't closed. */
static void closings(uint32_t page_words)
{
    compactd_pool pool = {0};
    uint64_t *begin = open_in(&pool, page_words, 0);
    const size_t count = (size_t)FRAMES * page_words;

    OK(compactd_map(&pool, 0, 0, 0, 0, &frame));
    write_page(&pool, 0, page_words);
    OK(compactd_take_order(&pool, 8, &first));
    OK(compactd_block_words(&pool, first, 8, &lent));
    fill(&lent, 4);
    IS(LENT, compactd_close_in(&pool, &memory));
    HOLDS(is_nothing(&memory) && page_has(&pool, 0, page_words) && are_all(&lent, 4));
    OK(compactd_return_block(&pool, first, 8, &lent));
    OK(compactd_close_in(&pool, &memory)); /* a block is handed out, and a page is mapped */
    HOLDS(memory.at == begin && memory.count == count);
    other.at = NULL;
    other.count = 0;
    IS(CLOSED, compactd_close_in(&pool, &other));
    IS(CLOSED, compactd_close(&pool));
    IS(CLOSED, compactd_block_words(&pool, first, 8, &other));
    IS(CLOSED, compactd_return_block(&pool, first, 8, &other));
    memset(memory.at, GARBAGE, count * sizeof memory.at[0]);
    OK(compactd_open_in(&pool, page_words, BLOCKS, 1, 9, 0, &memory, 0));
    OK(compactd_map(&pool, 0, 0, 8, 0, &frame));
    OK(compactd_read(&pool, 0, 0, 8, 0, words, page_words));
    HOLDS(frame == 0 && are_zeros(words, page_words));
    OK(compactd_take_order(&pool, 9, &first));
    OK(compactd_block_words(&pool, first, 9, &lent));
    HOLDS(first == 512 && are_zeros(lent.at, lent.count));
    OK(compactd_close(&pool)); /* the other way: the memory is the caller's, whatever was lent */
    IS(CLOSED, compactd_close(&pool));
    memset(begin, GARBAGE, count * sizeof begin[0]);
    free(begin);
    lent = memory;
    OK(compactd_open_sized(&pool, page_words, 1, 1, 1, 0));
    IS(OWN_MEMORY, compactd_close_in(&pool, &memory));
    OK(compactd_take_order(&pool, 3, &first));
    IS(OWN_MEMORY, compactd_block_words(&pool, first, 3, &lent));
    HOLDS(is_nothing(&memory) && is_nothing(&lent));
    OK(compactd_close(&pool));
}

/* Pages. */

/* A pool whose page 9 of space 0 is in frame 9, and is shared as page 5 of space 1. Its words are written. Returns where the memory begins. */
static uint64_t *open_with_page(compactd_pool *pool, uint32_t page_words, uint32_t places)
{
    uint64_t *begin = open_in(pool, page_words, places);

    OK(compactd_map_at(pool, 0, 0, 9, 0, 9));
    write_page(pool, 9, page_words);
    OK(compactd_share(pool, 0, 0, 9, 1, 5));
    return begin;
}

static void refused_lending(uint32_t page_words)
{
    compactd_pool pool = {0};
    uint64_t *begin = open_with_page(&pool, page_words, 0);

    IS(RANGE, compactd_page_words(&pool, 256, 9, &lent));
    IS(RANGE, compactd_page_words(&pool, 0, 1 << 24, &lent));
    IS(UNMAPPED, compactd_page_words(&pool, 0, 8, &lent));
    IS(UNMAPPED, compactd_page_words(&pool, 255, 9, &lent));
    IS(NOT_PINNED, compactd_page_words(&pool, 0, 9, &lent));
    OK(compactd_pin(&pool, 0, 0, 9));
    OK(compactd_unpin(&pool, 0, 1, 5));
    IS(NOT_PINNED, compactd_page_words(&pool, 1, 5, &lent));
    OK(compactd_begin_round(&pool));
    OK(compactd_isolate(&pool, &page, words, page_words));
    IS(MOVING, compactd_page_words(&pool, 0, 9, &lent));
    OK(compactd_pin(&pool, 0, 0, 9));
    IS(MOVING, compactd_page_words(&pool, 0, 9, &lent));
    OK(compactd_commit(&pool, &page, words, page_words, &is_so));
    HOLDS(!is_so && is_nothing(&lent)); /* it was put back, since it has a pin */
    OK(compactd_page_words(&pool, 0, 9, &lent));
    other.at = NULL;
    other.count = 0;
    IS(LENT, compactd_page_words(&pool, 0, 9, &other));
    IS(LENT, compactd_page_words(&pool, 1, 5, &other));
    HOLDS(is_nothing(&other) && lent.at == begin + (size_t)9 * page_words && lent.count == page_words && are_all(&lent, 9));
    OK(compactd_return_page(&pool, 0, 0, 9, &lent));
    close_in(&pool, begin, page_words);
    OK(compactd_open(&pool, page_words, 1));
    OK(compactd_map(&pool, 0, 0, 0, 0, &frame));
    IS(NOT_PINNED, compactd_page_words(&pool, 0, 0, &lent));
    OK(compactd_pin(&pool, 0, 0, 0));
    IS(OWN_MEMORY, compactd_page_words(&pool, 0, 0, &lent));
    HOLDS(is_nothing(&lent));
    OK(compactd_close(&pool));
}

/* What loads, stores, reads and writes of a page are refused as while its words are lent, and what else comes first. */
static void are_refused(compactd_pool *pool, uint32_t space, uint32_t vpage, uint32_t page_words)
{
    words[0] = 7;
    IS(LENT, compactd_load(pool, 0, space, vpage, 0, words));
    IS(RANGE, compactd_load(pool, 8, space, vpage, 0, words));
    IS(RANGE, compactd_load(pool, 0, space, vpage, page_words, words));
    IS(LENT, compactd_store(pool, 0, space, vpage, page_words - 1, 7));
    IS(RANGE, compactd_store(pool, 0, space, vpage, page_words, 7));
    IS(LENT, compactd_read(pool, 0, space, vpage, 0, words, page_words));
    IS(LENT, compactd_read(pool, 0, space, vpage, 1, words, 0));
    IS(RANGE, compactd_read(pool, 0, space, vpage, 1, words, page_words));
    IS(LENT, compactd_write(pool, 0, space, vpage, page_words - 1, words, 1));
    IS(LENT, compactd_write(pool, 0, space, vpage, 0, words, 0));
    IS(RANGE, compactd_write(pool, 0, space, vpage, page_words - 1, words, 2));
    HOLDS(words[0] == 7);
}

/* While the words of a page are lent, it is pinned, shared and unmapped as before, but for its last pin and its last address. */
static void refusals_of_a_lent_page(uint32_t page_words)
{
    compactd_pool pool = {0};
    uint64_t *begin = open_with_page(&pool, page_words, 0);

    OK(compactd_pin(&pool, 0, 1, 5));
    OK(compactd_page_words(&pool, 1, 5, &lent));
    are_refused(&pool, 0, 9, page_words);
    are_refused(&pool, 1, 5, page_words);
    IS(LENT, compactd_unpin(&pool, 0, 0, 9));
    IS(LENT, compactd_unpin(&pool, 0, 1, 5));
    IS(RANGE, compactd_unpin(&pool, 8, 1, 5));
    OK(compactd_pin(&pool, 0, 0, 9));
    OK(compactd_unpin(&pool, 0, 1, 5));
    IS(LENT, compactd_unpin(&pool, 0, 1, 5));
    OK(compactd_share(&pool, 0, 0, 9, 0, 10));
    are_refused(&pool, 0, 10, page_words);
    OK(compactd_unmap(&pool, 0, 1, 5));
    OK(compactd_unmap(&pool, 0, 0, 9));
    IS(PINNED, compactd_unmap(&pool, 0, 0, 10));
    IS(LENT, compactd_close_in(&pool, &other));
    OK(compactd_look(&pool, 0, 10, &info));
    HOLDS(info.frame == 9 && info.pins == 1 && info.maps == 1 && !info.moving);
    OK(compactd_map(&pool, 0, 0, 11, 0, &frame)); /* another page */
    write_page(&pool, 11, page_words);
    HOLDS(page_has(&pool, 11, page_words) && are_all(&lent, 9));
    fill(&lent, 10);
    OK(compactd_return_page(&pool, 0, 0, 10, &lent));
    HOLDS(is_nothing(&lent) && page_has(&pool, 10, page_words));
    OK(compactd_store(&pool, 0, 0, 10, 3, 5));
    OK(compactd_unpin(&pool, 0, 0, 10));
    IS(NOT_PINNED, compactd_page_words(&pool, 0, 10, &lent));
    OK(compactd_unmap(&pool, 0, 0, 10));
    close_in(&pool, begin, page_words);
}

static void refused_returns_of_a_page(uint32_t page_words)
{
    compactd_pool pool = {0};
    uint64_t *begin = open_with_page(&pool, page_words, 0);

    OK(compactd_map_at(&pool, 0, 0, 3, 0, 3));
    OK(compactd_begin_round(&pool));
    OK(compactd_isolate(&pool, &page, words, page_words));
    OK(compactd_pin(&pool, 0, 0, 9));
    OK(compactd_page_words(&pool, 0, 9, &lent));
    fill(&lent, 4);
    other = lent;
    IS(RANGE, compactd_return_page(&pool, 8, 0, 9, &lent));
    IS(RANGE, compactd_return_page(&pool, 0, 256, 9, &lent));
    IS(RANGE, compactd_return_page(&pool, 0, 0, 1 << 24, &lent));
    IS(UNMAPPED, compactd_return_page(&pool, 0, 0, 8, &lent));
    IS(MOVING, compactd_return_page(&pool, 0, 0, 3, &lent));
    lent.count--;
    IS(RANGE, compactd_return_page(&pool, 0, 0, 9, &lent));
    lent.count += 2;
    IS(RANGE, compactd_return_page(&pool, 0, 0, 9, &lent));
    IS(RANGE, compactd_return_page(&pool, 0, 0, 9, &memory)); /* no words at all */
    HOLDS(is_nothing(&memory));
    lent = other;
    HOLDS(are_all(&lent, 4));
    IS(LENT, compactd_load(&pool, 0, 0, 9, 0, words)); /* it is lent as before */
    OK(compactd_put_back(&pool, &page));
    OK(compactd_return_page(&pool, 7, 1, 5, &lent)); /* by its other address */
    HOLDS(is_nothing(&lent));
    OK(compactd_read(&pool, 0, 0, 9, 0, words, page_words));
    HOLDS(words[0] == word_of(4, 0) && words[page_words - 1] == word_of(4, page_words - 1));
    close_in(&pool, begin, page_words);
}

/* A page that comes back was written: it is dirty, each of its words has a record, and it has what was left, again and again. */
static void records_of_a_page(uint32_t page_words)
{
    compactd_pool pool = {0};
    uint64_t *begin = open_in(&pool, page_words, 2 * page_words + 6);
    uint64_t records, room;
    compactd_record record;

    OK(compactd_map(&pool, 0, 0, 0, 0, &frame));
    OK(compactd_pin(&pool, 0, 0, 0));
    OK(compactd_page_words(&pool, 0, 0, &lent));
    HOLDS(are_zeros(lent.at, lent.count));
    OK(compactd_look(&pool, 0, 0, &info));
    OK(compactd_journal(&pool, &records, &room));
    HOLDS(info.flags == 0 && records == 2 && room == 2 * page_words + 4);
    fill(&lent, 3);
    OK(compactd_return_page(&pool, 6, 0, 0, &lent));
    OK(compactd_look(&pool, 0, 0, &info));
    OK(compactd_journal(&pool, &records, &room));
    HOLDS(info.flags == COMPACTD_DIRTY && info.pins == 1 && records == page_words + 2 && room == page_words + 4);
    OK(compactd_record_at(&pool, page_words + 1, &record));
    HOLDS(record.kind == COMPACTD_WAS_STORED && record.client == 6 && record.space == 0 && record.vpage == 0);
    HOLDS(record.number == page_words - 1 && record.value == word_of(3, page_words - 1));
    OK(compactd_page_words(&pool, 0, 0, &lent));
    OK(compactd_mark(&pool, 1));
    OK(compactd_map(&pool, 0, 0, 1, 0, &frame));
    OK(compactd_map(&pool, 0, 0, 2, 0, &frame));
    OK(compactd_begin_round(&pool));
    OK(compactd_isolate(&pool, &page, words, page_words)); /* its end keeps the last place */
    IS(JOURNAL_FULL, compactd_return_page(&pool, 0, 0, 0, &lent));
    IS(JOURNAL_FULL, compactd_return_page(&pool, 0, 0, 9, &lent));
    HOLDS(lent.count == page_words && are_all(&lent, 3));
    OK(compactd_put_back(&pool, &page));
    IS(JOURNAL_FULL, compactd_return_page(&pool, 0, 0, 0, &lent));
    OK(compactd_load(&pool, 0, 0, 1, 0, words));
    IS(LENT, compactd_load(&pool, 0, 0, 0, 0, words));
    IS(LENT, compactd_close_in(&pool, &memory));
    OK(compactd_close(&pool)); /* the words can't come back */
    lent.at = NULL;
    lent.count = 0;
    free(begin);
}

/* A page is pinned and its words are lent by one call of the header, and by another one they come back. */
static void pinned_words(uint32_t page_words)
{
    compactd_pool pool = {0};
    uint64_t *begin = open_with_page(&pool, page_words, 0);
    uint64_t records, later, room;

    IS(UNMAPPED, compactd_pin_words(&pool, 0, 0, 8, &lent));
    OK(compactd_pin_words(&pool, 0, 0, 9, &lent));
    HOLDS(lent.count == page_words && are_all(&lent, 9));
    OK(compactd_journal(&pool, &records, &room));
    IS(LENT, compactd_pin_words(&pool, 0, 1, 5, &other));
    OK(compactd_journal(&pool, &later, &room));
    OK(compactd_look(&pool, 0, 9, &info));
    HOLDS(later == records + 2 && info.pins == 1);
    IS(RANGE, compactd_unpin_words(&pool, 8, 0, 9, &lent));
    IS(LENT, compactd_load(&pool, 0, 0, 9, 0, words));
    fill(&lent, 9);
    OK(compactd_unpin_words(&pool, 0, 0, 9, &lent));
    OK(compactd_look(&pool, 0, 9, &info));
    HOLDS(is_nothing(&lent) && info.pins == 0 && page_has(&pool, 9, page_words));
    OK(compactd_begin_round(&pool));
    OK(compactd_isolate(&pool, &page, words, page_words));
    IS(MOVING, compactd_pin_words(&pool, 0, 0, 9, &lent));
    OK(compactd_look(&pool, 0, 9, &info));
    HOLDS(info.pins == 0 && is_nothing(&lent));
    OK(compactd_commit(&pool, &page, words, page_words, &is_so));
    HOLDS(is_so);
    close_in(&pool, begin, page_words);
    begin = open_in(&pool, page_words, page_words + 2);
    OK(compactd_map(&pool, 0, 0, 0, 0, &frame));
    OK(compactd_pin_words(&pool, 0, 0, 0, &lent));
    IS(JOURNAL_FULL, compactd_unpin_words(&pool, 0, 0, 0, &lent)); /* its second call */
    HOLDS(is_nothing(&lent));
    IS(JOURNAL_FULL, compactd_pin_words(&pool, 0, 0, 0, &lent));
    close_in(&pool, begin, page_words);
}

/* Rounds, evacuations and keepers beside a page in frame 100 that is lent, where two of three frames have pages. */
static void moves_beside_a_page(uint32_t page_words)
{
    compactd_pool pool = {0};
    uint64_t *begin = open_in(&pool, page_words, 0);
    uint32_t vpage, firsts[2];
    size_t claimed = 0;

    for (vpage = 1; vpage < FRAMES; vpage++)
        if (vpage % 3 != 0 && vpage != 100) {
            OK(compactd_map_at(&pool, 0, 0, vpage, 0, vpage));
            write_page(&pool, vpage, page_words);
        }
    OK(compactd_map_at(&pool, 0, 0, 0, 0, 100));
    OK(compactd_pin_words(&pool, 0, 0, 0, &lent));
    fill(&lent, 77);
    IS(NO_BLOCK, compactd_evacuate(&pool, 96, 3, &moved));
    IS(NO_BLOCK, compactd_claim(&pool, 96, 3, &pages));
    OK(compactd_evacuate(&pool, 104, 3, &moved));
    HOLDS(moved == 5);
    OK(compactd_begin_round(&pool));
    OK(compactd_move_pages(&pool, 10, &moved, &stopped));
    lent.at[0]++; /* the caller goes on with its words */
    OK(compactd_compact(&pool, &is_so));
    HOLDS(is_so && moved == 10 && lent.at[0]-- == word_of(77, 0) + 1);
    do
        OK(compactd_keep(&pool, 5, 5, firsts, 2, &claimed, &moved, &is_so));
    while (is_so);
    OK(compactd_take_kept(&pool, 5, firsts, 2, &claimed, &first, &moved));
    OK(compactd_block_words(&pool, first, 5, &other));
    fill(&other, 11);
    OK(compactd_compact(&pool, &is_so));
    HOLDS(are_all(&lent, 77) && are_all(&other, 11) && lent.at == begin + (size_t)100 * page_words);
    OK(compactd_look(&pool, 0, 0, &info));
    HOLDS(info.frame == 100 && info.pins == 1);
    for (vpage = 1; vpage < FRAMES; vpage++)
        if (vpage % 3 != 0 && vpage != 100)
            HOLDS(page_has(&pool, vpage, page_words));
    OK(compactd_return_block(&pool, first, 5, &other));
    IS(LENT, compactd_close_in(&pool, &memory));
    OK(compactd_unpin_words(&pool, 0, 0, 0, &lent));
    OK(compactd_read(&pool, 0, 0, 0, 0, words, page_words));
    HOLDS(words[0] == word_of(77, 0) && words[page_words - 1] == word_of(77, page_words - 1));
    OK(compactd_evacuate(&pool, 96, 3, &moved)); /* now it goes */
    OK(compactd_load(&pool, 0, 0, 0, 1, words));
    HOLDS(moved > 0 && words[0] == word_of(77, 1));
    close_in(&pool, begin, page_words);
}

/* Each page of a pageblock, all lent at once: their words lie side by side, and each is as it was left. */
static void a_pageblock_of_pages(uint32_t page_words)
{
    static compactd_words of_page[512];
    compactd_pool pool = {0};
    uint64_t *begin = open_in(&pool, page_words, 0);
    uint32_t vpage, turn;

    for (vpage = 0; vpage < 512; vpage++)
        OK(compactd_map_at(&pool, 0, 0, vpage, vpage % 7 == 0, 1023 - vpage));
    for (turn = 0; turn < 2; turn++) {
        for (vpage = 0; vpage < 512; vpage++) {
            OK(compactd_pin_words(&pool, 0, 0, vpage, &of_page[vpage]));
            HOLDS(of_page[vpage].at == begin + (size_t)(1023 - vpage) * page_words);
            HOLDS(turn == 0 ? are_zeros(of_page[vpage].at, page_words) : are_all(&of_page[vpage], vpage));
        }
        for (vpage = 0; vpage < 512; vpage++)
            fill(&of_page[vpage], vpage);
        for (vpage = 0; vpage < 512; vpage++) {
            OK(compactd_unpin_words(&pool, 0, 0, vpage, &of_page[vpage]));
            HOLDS(page_has(&pool, vpage, page_words));
        }
    }
    OK(compactd_compact(&pool, &is_so));
    for (vpage = 0; vpage < 512; vpage++)
        HOLDS(page_has(&pool, vpage, page_words));
    close_in(&pool, begin, page_words);
}

/* Moving pages. */

/* A pool whose pages 0 to 3 of space 0 are in frames 5 to 8, with their words; page 1 is page 7 of space 1 too. A round was begun. Returns
 * where the memory begins. */
static uint64_t *open_with_round(compactd_pool *pool, uint32_t page_words, uint32_t places)
{
    uint64_t *begin = open_in(pool, page_words, places);
    uint32_t vpage;

    for (vpage = 0; vpage < 4; vpage++) {
        OK(compactd_map_at(pool, 0, 0, vpage, 0, 5 + vpage));
        write_page(pool, vpage, page_words);
    }
    OK(compactd_share(pool, 0, 0, 1, 1, 7));
    OK(compactd_begin_round(pool));
    return begin;
}

/* The next page of the round is lent, and is the one of this number: out of frame 5 + number, to the number-th frame from the top. */
static void lends(compactd_pool *pool, const uint64_t *begin, uint32_t page_words, uint32_t number, compactd_lent_move *found)
{
    const uint32_t source = 5 + number, target = FRAMES - 1 - number;

    memset(found, 0, sizeof *found);
    found->reserved = 9;
    OK(compactd_lend_move(pool, found));
    HOLDS(found->serial == number && found->source == source && found->target == target && found->reserved == 0);
    HOLDS(found->from.at == begin + (size_t)source * page_words && found->from.count == page_words);
    HOLDS(found->to.at == begin + (size_t)target * page_words && found->to.count == page_words);
    HOLDS(are_all(&found->from, number));
}

static void copy(const compactd_lent_move *lent_move)
{
    memcpy(lent_move->to.at, lent_move->from.at, lent_move->to.count * sizeof lent_move->to.at[0]);
}

static int is_over(const compactd_lent_move *found)
{
    return is_nothing(&found->from) && is_nothing(&found->to);
}

/* The page of this number rests in a frame, with its words and so many pins. */
static void rests(compactd_pool *pool, uint32_t number, uint32_t wanted, uint32_t pins, uint32_t page_words)
{
    OK(compactd_look(pool, 0, number, &info));
    HOLDS(info.frame == wanted && info.pins == pins && !info.moving && page_has(pool, number, page_words));
}

/* When no move is lent. */
static void refused_lending_of_moves(uint32_t page_words)
{
    compactd_pool pool = {0};
    uint64_t *begin;

    memset(&move, 0, sizeof move);
    IS(CLOSED, compactd_lend_move(&pool, &move));
    OK(compactd_open_journal(&pool, page_words, 1, 3));
    IS(OWN_MEMORY, compactd_lend_move(&pool, &move)); /* no round was begun either */
    OK(compactd_map(&pool, 0, 0, 0, 0, &frame));
    OK(compactd_begin_round(&pool));
    IS(OWN_MEMORY, compactd_lend_move(&pool, &move));
    OK(compactd_mark(&pool, 0));
    IS(JOURNAL_FULL, compactd_lend_move(&pool, &move)); /* a place is left, and a move needs two */
    OK(compactd_close(&pool));
    begin = open_in(&pool, page_words, 2);
    IS(MET, compactd_lend_move(&pool, &move)); /* no round was begun */
    OK(compactd_begin_round(&pool));
    IS(MET, compactd_lend_move(&pool, &move)); /* there is no page */
    OK(compactd_map(&pool, 0, 0, 0, 0, &frame));
    IS(JOURNAL_FULL, compactd_lend_move(&pool, &move));
    HOLDS(is_over(&move) && move.serial == 0 && move.target == 0);
    close_in(&pool, begin, page_words);
    IS(CLOSED, compactd_lend_move(&pool, &move));
}

/* What other calls are refused as while the words of a move are lent. */
static void refusals_of_a_lent_move(uint32_t page_words)
{
    compactd_pool pool = {0};
    uint64_t *begin = open_with_round(&pool, page_words, 0);
    compactd_moving_page found;
    compactd_move way;
    uint64_t word = 7;

    lends(&pool, begin, page_words, 0, &another);
    lends(&pool, begin, page_words, 1, &move);
    IS(MOVING, compactd_load(&pool, 0, 0, 1, 0, &word));
    IS(MOVING, compactd_load(&pool, 0, 1, 7, 0, &word));
    IS(MOVING, compactd_store(&pool, 0, 0, 1, 0, 7));
    IS(MOVING, compactd_read(&pool, 0, 0, 1, 0, words, page_words));
    IS(MOVING, compactd_write(&pool, 0, 1, 7, 0, words, page_words));
    IS(MOVING, compactd_unmap(&pool, 0, 0, 1));
    IS(MOVING, compactd_share(&pool, 0, 0, 1, 0, 9));
    IS(MOVING, compactd_page_words(&pool, 0, 1, &lent));
    IS(OCCUPIED, compactd_map(&pool, 0, 0, 1, 0, &frame));
    IS(NO_FRAME, compactd_map_at(&pool, 0, 0, 9, 0, move.source));
    IS(NO_FRAME, compactd_map_at(&pool, 0, 0, 9, 0, move.target));
    IS(NO_BLOCK, compactd_evacuate(&pool, 0, 3, &moved));
    IS(LENT, compactd_close_in(&pool, &other));
    IS(PAGES_MOVING, compactd_audit(&pool, &ends));
    HOLDS(word == 7 && is_nothing(&lent) && is_nothing(&other));
    OK(compactd_look(&pool, 1, 7, &info));
    OK(compactd_info(&pool, &counts));
    HOLDS(info.moving && info.serial == 1 && info.maps == 2 && counts.moving == 2 && counts.pages == 4);
    OK(compactd_next_moving(&pool, 6, &found, &way));
    HOLDS(found.serial == 1 && found.number == move.page && way.source == 6 && way.target == move.target && way.space == 0 && way.vpage == 1);
    memcpy(words, move.from.at, page_words * sizeof words[0]);
    IS(STRANGER, compactd_commit(&pool, &found, words, page_words, &is_so));
    IS(RANGE, compactd_commit(&pool, &found, words, page_words - 1, &is_so));
    IS(STRANGER, compactd_put_back(&pool, &found));
    copy(&move);
    OK(compactd_commit_lent(&pool, &move, &is_so));
    HOLDS(is_so);
    rests(&pool, 1, FRAMES - 2, 0, page_words);
    OK(compactd_put_back_lent(&pool, &another));
    rests(&pool, 0, 5, 0, page_words);
    close_in(&pool, begin, page_words);
}

/* What the two ends of a lent move are refused as. They change nothing then. */
static void refused_ends(uint32_t page_words)
{
    compactd_pool pool = {0}, second = {0};
    uint64_t *begin = open_with_round(&pool, page_words, 0), *begin_of_second;
    compactd_lent_move wrong_move[6];
    compactd_moving_page by_value;
    compactd_move way;
    size_t at;

    lends(&pool, begin, page_words, 0, &move);
    OK(compactd_isolate(&pool, &by_value, words, page_words));
    OK(compactd_next_moving(&pool, move.source + 1, &by_value, &way));
    for (at = 0; at < 6; at++)
        wrong_move[at] = move;
    wrong_move[0].serial = by_value.serial;
    wrong_move[1].page = by_value.number;
    wrong_move[2].source = way.source;
    wrong_move[3].target = way.target;
    wrong_move[4].serial += (uint64_t)1 << 32;
    wrong_move[5].serial = by_value.serial; /* a page that moves, but its words aren't lent */
    wrong_move[5].page = by_value.number;
    wrong_move[5].source = way.source;
    wrong_move[5].target = way.target;
    for (at = 0; at < 6; at++) {
        another = wrong_move[at];
        IS(STRANGER, compactd_commit_lent(&pool, &wrong_move[at], &is_so));
        IS(STRANGER, compactd_commit_and_claim(&pool, &wrong_move[at], &is_so));
        IS(STRANGER, compactd_put_back_lent(&pool, &wrong_move[at]));
        HOLDS(wrong_move[at].serial == another.serial && wrong_move[at].page == another.page);
        HOLDS(is_same(&wrong_move[at].from, &another.from) && is_same(&wrong_move[at].to, &another.to));
    }
    another = move;
    another.from.at = another.to.at = NULL;
    another.from.count = another.to.count = 0; /* no words at all */
    IS(RANGE, compactd_commit_lent(&pool, &another, &is_so));
    IS(RANGE, compactd_commit_and_claim(&pool, &another, &is_so));
    IS(RANGE, compactd_put_back_lent(&pool, &another));
    another.from = move.from; /* those of one frame, and then more of one than of the other */
    IS(RANGE, compactd_commit_lent(&pool, &another, &is_so));
    another.to = move.to;
    another.to.count--;
    IS(RANGE, compactd_commit_lent(&pool, &another, &is_so));
    IS(RANGE, compactd_commit_and_claim(&pool, &another, &is_so));
    IS(RANGE, compactd_put_back_lent(&pool, &another));
    HOLDS(another.to.count == page_words - 1 && another.to.at == move.to.at);
    copy(&move);
    OK(compactd_commit_lent(&pool, &move, &is_so));
    HOLDS(is_so && is_over(&move) && move.serial == 0 && move.source == 5);
    IS(RANGE, compactd_commit_lent(&pool, &move, &is_so)); /* once */
    IS(RANGE, compactd_put_back_lent(&pool, &move));
    OK(compactd_commit(&pool, &by_value, words, page_words, &is_so));
    rests(&pool, 0, FRAMES - 1, 0, page_words);
    rests(&pool, 1, FRAMES - 2, 0, page_words);
    lends(&pool, begin, page_words, 2, &move);
    begin_of_second = open_with_round(&second, page_words, 0);
    another = move;
    IS(STRANGER, compactd_commit_lent(&second, &another, &is_so)); /* a pool without such a move */
    IS(STRANGER, compactd_commit_and_claim(&second, &another, &is_so));
    IS(STRANGER, compactd_put_back_lent(&second, &another));
    close_in(&second, begin_of_second, page_words);
    IS(CLOSED, compactd_commit_lent(&second, &another, &is_so));
    IS(CLOSED, compactd_commit_and_claim(&second, &another, &is_so));
    IS(CLOSED, compactd_put_back_lent(&second, &another));
    HOLDS(is_same(&another.from, &move.from) && is_same(&another.to, &move.to));
    OK(compactd_put_back_lent(&pool, &move));
    close_in(&pool, begin, page_words);
}

/* What the ends of lent moves leave: with a pin, without one, with one that was taken off again, and put back. */
static void ends_of_lent_moves(uint32_t page_words)
{
    compactd_pool pool = {0};
    uint64_t *begin = open_with_round(&pool, page_words, 0);
    compactd_lent_move moves[4];
    uint32_t vpage;

    for (vpage = 0; vpage < 4; vpage++)
        lends(&pool, begin, page_words, vpage, &moves[vpage]);
    IS(MET, compactd_lend_move(&pool, &move));
    OK(compactd_pin(&pool, 0, 1, 7));
    OK(compactd_pin(&pool, 0, 0, 2));
    OK(compactd_unpin(&pool, 0, 0, 2));
    memset(moves[3].to.at, GARBAGE, page_words * sizeof words[0]); /* what a copy that broke off leaves */
    for (vpage = 0; vpage < 3; vpage++) {
        copy(&moves[2 - vpage]); /* the last one first */
        OK(compactd_commit_lent(&pool, &moves[2 - vpage], &is_so));
        HOLDS(is_so == (vpage != 1) && is_over(&moves[2 - vpage]));
    }
    OK(compactd_put_back_lent(&pool, &moves[3]));
    HOLDS(is_over(&moves[3]));
    rests(&pool, 0, FRAMES - 1, 0, page_words);
    rests(&pool, 1, 6, 1, page_words);
    rests(&pool, 2, FRAMES - 3, 0, page_words);
    rests(&pool, 3, 8, 0, page_words);
    OK(compactd_audit(&pool, &ends));
    OK(compactd_info(&pool, &counts));
    HOLDS(ends.isolated == 4 && ends.moved == 2 && ends.back == 2 && counts.moving == 0 && counts.free == FRAMES - 4);
    OK(compactd_map_at(&pool, 0, 0, 9, 0, FRAMES - 4)); /* the frame that the broken copy was in */
    OK(compactd_read(&pool, 0, 0, 9, 0, words, page_words));
    HOLDS(are_zeros(words, page_words));
    OK(compactd_take_order(&pool, 3, &first)); /* the frames at the bottom but for two pages: the block lies above */
    HOLDS(first == 16);
    OK(compactd_map_at(&pool, 0, 0, 8, 0, 5)); /* a frame that a page left */
    OK(compactd_read(&pool, 0, 0, 8, 0, words, page_words));
    HOLDS(are_zeros(words, page_words));
    OK(compactd_unpin(&pool, 0, 0, 1));
    OK(compactd_compact(&pool, &is_so));
    for (vpage = 0; vpage < 4; vpage++)
        HOLDS(page_has(&pool, vpage, page_words));
    close_in(&pool, begin, page_words);
}

/* In memory that is blank: what is left in the frames that moves were to go to is gone when a page or a block is there. */
static void blank_frames_of_moves(uint32_t page_words)
{
    const uint32_t last = FRAMES - 1;
    compactd_pool pool = {0};
    compactd_lent_move moves[2];
    uint64_t *begin;
    uint32_t vpage;

    find_memory((size_t)FRAMES * page_words);
    memset(memory.at, 0, memory.count * sizeof memory.at[0]);
    begin = memory.at;
    OK(compactd_open_in(&pool, page_words, BLOCKS, 1, FRAMES, 0, &memory, 1));
    memset(moves, 0, sizeof moves);
    for (vpage = 0; vpage < 2; vpage++)
        OK(compactd_map(&pool, 0, 0, vpage, 0, &frame));
    OK(compactd_begin_round(&pool));
    for (vpage = 0; vpage < 2; vpage++) {
        OK(compactd_lend_move(&pool, &moves[vpage]));
        HOLDS(moves[vpage].target == last - vpage && are_zeros(moves[vpage].to.at, page_words));
        memset(moves[vpage].to.at, GARBAGE, page_words * sizeof words[0]);
        OK(compactd_put_back_lent(&pool, &moves[vpage]));
    }
    OK(compactd_map_at(&pool, 0, 0, 2, 0, last));
    OK(compactd_read(&pool, 0, 0, 2, 0, words, page_words));
    HOLDS(are_zeros(words, page_words));
    OK(compactd_unmap(&pool, 0, 0, 2));
    OK(compactd_claim(&pool, last - 7, 3, &pages));
    OK(compactd_take_claimed(&pool, last - 7, 3));
    OK(compactd_block_words(&pool, last - 7, 3, &lent));
    HOLDS(pages == 0 && are_zeros(lent.at, lent.count));
    OK(compactd_return_block(&pool, last - 7, 3, &lent));
    close_in(&pool, begin, page_words);
}

/* A whole round of lent moves leaves each page where compactd_compact does, and has the same records. */
static void rounds_of_lent_moves(uint32_t page_words)
{
    compactd_pool pool = {0}, alone = {0};
    uint64_t *begin, *begin_alone;
    compactd_record record, wanted;
    uint64_t records, room;
    uint32_t vpage, at;

    begin = open_in(&pool, page_words, 60000);
    begin_alone = open_in(&alone, page_words, 60000);
    for (vpage = 0; vpage < FRAMES; vpage += 3 + vpage % 5) {
        OK(compactd_map_at(&pool, 0, 1, vpage, vpage % 7 == 0, vpage));
        OK(compactd_map_at(&alone, 0, 1, vpage, vpage % 7 == 0, vpage));
        OK(compactd_store(&pool, 1, 1, vpage, 7, vpage));
        OK(compactd_store(&alone, 1, 1, vpage, 7, vpage));
    }
    OK(compactd_compact(&alone, &is_so));
    OK(compactd_begin_round(&pool));
    memset(&move, 0, sizeof move);
    while (compactd_lend_move(&pool, &move) == COMPACTD_OK) {
        copy(&move);
        OK(compactd_commit_lent(&pool, &move, &is_so));
        HOLDS(is_so);
    }
    for (vpage = 0; vpage < FRAMES; vpage += 3 + vpage % 5) {
        compactd_page_info found;

        OK(compactd_look(&pool, 1, vpage, &info));
        OK(compactd_look(&alone, 1, vpage, &found));
        OK(compactd_load(&pool, 0, 1, vpage, 7, words));
        HOLDS(info.frame == found.frame && info.flags == found.flags && words[0] == vpage);
        OK(compactd_load(&alone, 0, 1, vpage, 7, words));
    }
    OK(compactd_journal(&pool, &records, &room));
    for (at = 0; at < records; at++) {
        OK(compactd_record_at(&pool, at, &record));
        OK(compactd_record_at(&alone, at, &wanted));
        HOLDS(memcmp(&record, &wanted, sizeof record) == 0);
    }
    IS(RANGE, compactd_record_at(&alone, records, &wanted));
    close_in(&pool, begin, page_words);
    close_in(&alone, begin_alone, page_words);
}

/* Each move that is lent keeps a place of a journal for its end. */
static void lent_moves_of_a_journal(uint32_t page_words)
{
    compactd_pool pool = {0};
    uint64_t *begin = open_in(&pool, page_words, 8);
    uint64_t records, room;
    compactd_record record;
    uint32_t vpage;

    for (vpage = 0; vpage < 3; vpage++)
        OK(compactd_map_at(&pool, 0, 0, vpage, 0, vpage));
    OK(compactd_begin_round(&pool));
    memset(&move, 0, sizeof move);
    memset(&another, 0, sizeof another);
    OK(compactd_lend_move(&pool, &move));
    OK(compactd_lend_move(&pool, &another));
    OK(compactd_load(&pool, 0, 0, 2, 0, words));
    IS(JOURNAL_FULL, compactd_load(&pool, 0, 0, 2, 0, words));
    IS(JOURNAL_FULL, compactd_pin(&pool, 0, 0, 0));
    copy(&another);
    OK(compactd_commit_lent(&pool, &another, &is_so));
    OK(compactd_put_back_lent(&pool, &move));
    OK(compactd_journal(&pool, &records, &room));
    HOLDS(is_so && records == 8 && room == 0);
    OK(compactd_record_at(&pool, 6, &record));
    HOLDS(record.kind == COMPACTD_WAS_MOVED && record.number == 1);
    OK(compactd_record_at(&pool, 7, &record));
    HOLDS(record.kind == COMPACTD_WAS_PUT_BACK && record.number == 0 && record.other == 2);
    close_in(&pool, begin, page_words);
}

/* A pool is closed while the words of a move are lent: the memory is the caller's. */
static void closed_beside_a_lent_move(uint32_t page_words)
{
    compactd_pool pool = {0};
    uint64_t *begin = open_with_round(&pool, page_words, 0);

    lends(&pool, begin, page_words, 0, &move);
    OK(compactd_close(&pool));
    copy(&move);
    HOLDS(are_all(&move.to, 0));
    IS(CLOSED, compactd_commit_lent(&pool, &move, &is_so));
    IS(CLOSED, compactd_put_back_lent(&pool, &move));
    HOLDS(!is_over(&move));
    memset(begin, GARBAGE, (size_t)FRAMES * page_words * sizeof begin[0]);
    free(begin);
}

/* Pages of a run. */

static void claims_are(compactd_pool *pool, uint32_t wanted)
{
    OK(compactd_info(pool, &counts));
    HOLDS(counts.held == wanted);
}

/* The words of the page that goes next out of the first 16 frames are lent. It is the one of this number. */
static void lends_from(compactd_pool *pool, const uint64_t *begin, uint32_t page_words, uint32_t number, uint32_t target)
{
    memset(&move, 0, sizeof move);
    OK(compactd_lend_move_from(pool, 0, 4, &move));
    HOLDS(move.source == 5 + number && move.target == target && are_all(&move.from, number));
    HOLDS(move.from.at == begin + (size_t)move.source * page_words && move.to.at == begin + (size_t)target * page_words);
}

/* When no page of a run is lent. */
static void refused_lending_from(uint32_t page_words)
{
    compactd_pool pool = {0};
    uint64_t *begin;

    memset(&move, 0, sizeof move);
    OK(compactd_open_journal(&pool, page_words, 1, 3));
    OK(compactd_map(&pool, 0, 0, 0, 0, &frame));
    IS(OWN_MEMORY, compactd_lend_move_from(&pool, 512 - 8, 3, &move)); /* no page is there either */
    OK(compactd_mark(&pool, 0));
    IS(JOURNAL_FULL, compactd_lend_move_from(&pool, 0, 3, &move)); /* a place is left, and a move needs two */
    IS(RANGE, compactd_lend_move_from(&pool, 4, 3, &move));
    OK(compactd_close(&pool));
    begin = open_with_round(&pool, page_words, 0);
    IS(RANGE, compactd_lend_move_from(&pool, FRAMES, 3, &move));
    IS(RANGE, compactd_lend_move_from(&pool, 0, 2, &move));
    IS(RANGE, compactd_lend_move_from(&pool, 0, 10, &move));
    IS(NONE_LEFT, compactd_lend_move_from(&pool, 512, 9, &move)); /* there is no page */
    lends(&pool, begin, page_words, 0, &another);
    OK(compactd_pin(&pool, 0, 0, 1));
    OK(compactd_unmap(&pool, 0, 0, 2));
    OK(compactd_map_at(&pool, 0, 0, 2, 1, 7));
    memset(&move, 0, sizeof move);
    IS(NONE_LEFT, compactd_lend_move_from(&pool, 0, 3, &move)); /* of three pages one moves, one has a pin, and one is unmovable */
    for (frame = 0; frame < BLOCKS; frame++)
        OK(compactd_mark(&pool, frame));
    IS(NONE_LEFT, compactd_lend_move_from(&pool, 8, 3, &move)); /* there is a page, and no frame for it */
    HOLDS(is_over(&move) && move.serial == 0 && move.target == 0);
    OK(compactd_put_back_lent(&pool, &another));
    close_in(&pool, begin, page_words);
}

/* The frame that a page left is claimed where its move was committed, and not where it has a pin or is put back. */
static void ends_of_moves_from(uint32_t page_words)
{
    compactd_pool pool = {0};
    uint64_t *begin = open_with_round(&pool, page_words, 0);

    OK(compactd_quiet(&pool, &is_so));
    HOLDS(is_so);
    lends_from(&pool, begin, page_words, 0, FRAMES - 1);
    OK(compactd_quiet(&pool, &is_so));
    HOLDS(!is_so);
    OK(compactd_empty_some(&pool, 0, 4, 0, &moved, &unclaimed));
    claims_are(&pool, 12);
    IS(MOVING, compactd_load(&pool, 0, 0, 0, 0, words));
    copy(&move);
    OK(compactd_commit_and_claim(&pool, &move, &is_so));
    HOLDS(is_so && is_over(&move));
    rests(&pool, 0, FRAMES - 1, 0, page_words);
    IS(NO_FRAME, compactd_map_at(&pool, 0, 0, 9, 0, 5));
    claims_are(&pool, 13);
    lends_from(&pool, begin, page_words, 1, FRAMES - 2);
    OK(compactd_pin(&pool, 0, 1, 7));
    copy(&move);
    OK(compactd_commit_and_claim(&pool, &move, &is_so));
    HOLDS(!is_so && is_over(&move));
    rests(&pool, 1, 6, 1, page_words);
    claims_are(&pool, 13);
    lends_from(&pool, begin, page_words, 2, FRAMES - 2); /* it passes over a page with a pin */
    OK(compactd_put_back_lent(&pool, &move));
    rests(&pool, 2, 7, 0, page_words);
    claims_are(&pool, 13);
    OK(compactd_unpin(&pool, 0, 0, 1));
    lends_from(&pool, begin, page_words, 1, FRAMES - 2);
    copy(&move);
    OK(compactd_commit_lent(&pool, &move, &is_so)); /* the frame is free then */
    HOLDS(is_so);
    OK(compactd_map_at(&pool, 0, 0, 9, 0, 6));
    claims_are(&pool, 13);
    close_in(&pool, begin, page_words);
}

/* A run whose pages are copied by their caller has the same records as one that compactd_empty_some empties, and is handed out as it is. */
static void runs_of_lent_moves(uint32_t page_words)
{
    compactd_pool pool = {0}, alone = {0};
    uint64_t *begin = open_with_round(&pool, page_words, 60000), *begin_alone = open_with_round(&alone, page_words, 60000);
    compactd_record record, wanted;
    uint64_t records, others, room;
    uint32_t at;

    OK(compactd_empty_some(&alone, 0, 4, 16, &moved, &unclaimed));
    HOLDS(moved == 4 && unclaimed == 0);
    OK(compactd_empty_some(&pool, 0, 4, 0, &moved, &unclaimed));
    for (at = 0; at < 4; at++) {
        lends_from(&pool, begin, page_words, at, FRAMES - 1 - at);
        copy(&move);
        OK(compactd_commit_and_claim(&pool, &move, &is_so));
    }
    IS(NONE_LEFT, compactd_lend_move_from(&pool, 0, 4, &move));
    OK(compactd_journal(&pool, &records, &room));
    OK(compactd_journal(&alone, &others, &room));
    HOLDS(records == others);
    for (at = 0; at < records; at++) {
        OK(compactd_record_at(&pool, at, &record));
        OK(compactd_record_at(&alone, at, &wanted));
        HOLDS(memcmp(&record, &wanted, sizeof record) == 0);
    }
    OK(compactd_take_claimed(&pool, 0, 4));
    for (at = 0; at < 4; at++)
        rests(&pool, at, FRAMES - 1 - at, 0, page_words);
    close_in(&pool, begin, page_words);
    close_in(&alone, begin_alone, page_words);
}

/* Memory that is mapped. */

/* How many of the pages of 4 KiB of some memory the system has in memory of its own. */
static size_t resident(const uint64_t *at, size_t count)
{
    static unsigned char are_there[FRAMES];
    const size_t small = count * sizeof at[0] / COMPACTD_SMALL_PAGE;
    size_t found = 0, page;

    HOLDS(small <= sizeof are_there && mincore((void *)at, count * sizeof at[0], are_there) == 0);
    for (page = 0; page < small; page++)
        found += are_there[page] & 1;
    return found;
}

/* A pool in memory that is mapped. No word of a frame is written before it is first used: nothing is resident after the opening. */
static void mapped(uint32_t page_words, compactd_bool is_blank)
{
    const size_t count = (size_t)FRAMES * page_words;
    compactd_pool pool = {0};
    uint64_t *begin;
    size_t before;

    HOLDS(compactd_map_memory(count, &memory) == 0);
    HOLDS(memory.count == count && (size_t)memory.at % COMPACTD_HUGE_PAGE == 0);
    HOLDS(resident(memory.at, count) == 0);
    begin = memory.at;
    OK(compactd_open_in(&pool, page_words, BLOCKS, 1, 512, 0, &memory, is_blank));
    HOLDS(resident(begin, count) == 0);
    OK(compactd_take_order(&pool, 9, &first));
    OK(compactd_map(&pool, 0, 0, 0, 0, &frame));
    write_page(&pool, 0, page_words);
    OK(compactd_block_words(&pool, first, 9, &lent));
    fill(&lent, 6);
    before = resident(begin, count);
    HOLDS(before >= (size_t)512 * page_words * 8 / COMPACTD_SMALL_PAGE);
    HOLDS(compactd_release_words(&lent) == 0);
    HOLDS(resident(lent.at, lent.count) == 0 && resident(begin, count) < before);
    HOLDS(are_zeros(lent.at, lent.count));
    lent.at[0] = 5;
    OK(compactd_return_block(&pool, first, 9, &lent));
    OK(compactd_read_block(&pool, first, 9, 0, words, 2));
    HOLDS(words[0] == 5 && words[1] == 0 && page_has(&pool, 0, page_words));
    OK(compactd_close_in(&pool, &memory));
    HOLDS(memory.at == begin && memory.count == count);
    HOLDS(compactd_unmap_memory(&memory) == 0 && is_nothing(&memory));
}

/* What compactd_memory.h does with odd numbers of words: only whole pages are released. */
static void odd_memory(void)
{
    static const struct {
        size_t from, count, whole_from, whole_to; /* words of a memory of 3 pages, and those that are released of them */
    } rows[] = {
        {0, 1536, 0, 1536},
        {0, 1535, 0, 1024},
        {1, 1535, 512, 1536},
        {1, 1022, 512, 512},
        {511, 514, 512, 1024},
        {512, 1, 512, 512},
        {600, 100, 0, 0},
        {513, 511, 0, 0},
    };
    size_t row, at;

    HOLDS(compactd_map_memory(0, &memory) == EINVAL && is_nothing(&memory));
    HOLDS(compactd_map_memory((size_t)-1, &memory) == ENOMEM && is_nothing(&memory));
    HOLDS(compactd_map_memory((size_t)1 << 60, &memory) != 0 && is_nothing(&memory)); /* more than the system has */
    HOLDS(compactd_unmap_memory(&memory) == 0 && compactd_release_words(&memory) == 0);
    HOLDS(compactd_map_memory(1536, &memory) == 0);
    HOLDS(are_zeros(memory.at, 1536));
    for (row = 0; row < sizeof rows / sizeof rows[0]; row++) {
        fill(&memory, row);
        other.at = memory.at + rows[row].from;
        other.count = rows[row].count;
        HOLDS(compactd_release_words(&other) == 0);
        for (at = 0; at < 1536; at++)
            HOLDS(memory.at[at] == (at >= rows[row].whole_from && at < rows[row].whole_to ? 0 : word_of(row, at)));
    }
    HOLDS(compactd_unmap_memory(&memory) == 0 && is_nothing(&memory));
    HOLDS(compactd_map_memory(1, &memory) == 0 && memory.count == 1 && memory.at[0] == 0);
    HOLDS(compactd_unmap_memory(&memory) == 0);
}

static void both_sizes(uint32_t page_words)
{
    refused_openings(page_words);
    garbage_is_cleared(page_words);
    blank_memory(page_words);
    refusals_of_a_lent_block(page_words);
    refused_returns(page_words);
    every_order(page_words);
    moves_beside(page_words);
    full_journal(page_words);
    closings(page_words);
    refused_lending(page_words);
    refusals_of_a_lent_page(page_words);
    refused_returns_of_a_page(page_words);
    records_of_a_page(page_words);
    pinned_words(page_words);
    moves_beside_a_page(page_words);
    a_pageblock_of_pages(page_words);
    refused_lending_of_moves(page_words);
    refusals_of_a_lent_move(page_words);
    refused_ends(page_words);
    ends_of_lent_moves(page_words);
    blank_frames_of_moves(page_words);
    rounds_of_lent_moves(page_words);
    lent_moves_of_a_journal(page_words);
    closed_beside_a_lent_move(page_words);
    refused_lending_from(page_words);
    ends_of_moves_from(page_words);
    runs_of_lent_moves(page_words);
    mapped(page_words, 0);
    mapped(page_words, 1);
}

int main(void)
{
    both_sizes(8);
    both_sizes(512);
    odd_memory();
    return wrong;
}
