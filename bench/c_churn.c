/* Requests for huge blocks in a pool that lives, from C, by what is done where no block is free, and by where unmovable pages are mapped:
 * the policies.
 *
 * - nothing;
 * - a full round: compactd_compact;
 * - a round that stops: compactd_move_pages in slices of 32 pages until there is a block. It goes on where the one before stopped; where
 *   its scanners meet, one more is begun;
 * - a reservation: compactd_reserve, of one block;
 * - a reservation, unmovable pages apart: the same in a pool where compactd_set_apart was called when it was opened;
 * - blocks kept ready, unmovable pages apart: in such a pool a block of order 9 is had by compactd_take_kept, and of the others by a
 *   reservation. After each request the caller calls compactd_keep for two blocks, 32 pages a step, until there is no more to do. These
 *   steps aren't timed, and their pages are counted with those of the request.
 *
 * The pool has 2^18 frames, twice as many addresses, and at first a page in each frame. There are two waves. In each, pages are unmapped at
 * random until 70 % of the frames hold one. Then 120 blocks are asked for, seven of ten of order 9, the others of orders 3 to 5. Before
 * each come 2,048 steps: a page is unmapped, and another is mapped. Most often these are at the addresses of the lowest ranks, each with a
 * likelihood of about 1 / rank. A page that is mapped is unmovable with a given likelihood. Blocks are held up to half of the frames that
 * hold no page; then the oldest are given back, and at the end of a wave all. Pages are then mapped until 91 % of the frames hold one. Each
 * page has a word, which is compared when it is unmapped.
 *
 * The arguments are the number of words of a page, 8 or 512; how many of a hundred pages are unmovable; and a number from 1 on that the
 * random numbers come from, which are the same for each policy. Each line that it prints is of a request. It has the policy, a tab, the
 * order, a tab, 1 where there was a block and else 0, a tab, how many pages were moved, a tab, and microseconds. */
#include "compactd.h"

#include <math.h>
#include <stdio.h>
#include <stdlib.h>
#include <time.h>

#define ORDER 9
#define PAGEBLOCKS 512
#define FRAMES (PAGEBLOCKS << ORDER)
#define PAGES (FRAMES / 100 * 70)
#define MOST_PAGES (FRAMES / 100 * 91)
#define MOST_HELD ((FRAMES - PAGES) / 2)
#define ADDRESSES (2 * FRAMES)
#define SPACES 8
#define VPAGES (ADDRESSES / SPACES)
#define WAVES 2
#define REQUESTS 120
#define STEPS 2048
#define SLICE 32
#define READY 2
#define TRIES 8

struct block {
    uint32_t first, order;
};

struct policy {
    const char *name;
    int (*find)(struct block *block); /* where no block is free */
    void (*prepare)(void); /* after a request */
    compactd_bool apart; /* whether unmovable pages are mapped apart */
};

static compactd_pool pool;
static uint32_t words; /* of a page */
static uint32_t unmovable; /* of a hundred pages */
static uint32_t addresses[ADDRESSES]; /* those that name a page, and then the others */
static uint32_t places[ADDRESSES]; /* of each address among them */
static uint32_t pages;
static struct block blocks[REQUESTS]; /* that were handed out in this wave */
static uint32_t oldest, newest; /* those from the oldest to below the newest are held */
static uint32_t held; /* the frames of these */
static uint32_t moved; /* pages since the pool was opened */
static uint32_t ready[READY]; /* the first frames of the runs that are claimed for blocks to come */
static size_t claimed; /* how many these are */
static uint64_t random_state;
static int is_well = 1;

static double now(void)
{
    struct timespec time;

    clock_gettime(CLOCK_MONOTONIC, &time);
    return (double)time.tv_sec + (double)time.tv_nsec * 1e-9;
}

static void need(int holds)
{
    is_well &= holds;
}

/* A random number, by xorshift. */
static uint64_t next_random(void)
{
    random_state ^= random_state << 13;
    random_state ^= random_state >> 7;
    random_state ^= random_state << 17;
    return random_state;
}

static uint32_t below(uint32_t limit)
{
    return (uint32_t)((next_random() >> 32) * limit >> 32);
}

/* Pages. */

static void put_at(uint32_t address, uint32_t place)
{
    const uint32_t other = addresses[place], left = places[address];

    addresses[left] = other;
    places[other] = left;
    addresses[place] = address;
    places[address] = place;
}

static uint64_t word_of(uint32_t address)
{
    return (address + UINT64_C(1)) * UINT64_C(0x9E3779B97F4A7C15);
}

static void map(uint32_t address)
{
    const uint32_t space = address / VPAGES, vpage = address % VPAGES;
    uint32_t frame;

    need(compactd_map(&pool, 0, space, vpage, below(100) < unmovable, &frame) == COMPACTD_OK);
    need(compactd_store(&pool, 0, space, vpage, words - 1, word_of(address)) == COMPACTD_OK);
    put_at(address, pages++);
}

static void unmap(uint32_t address)
{
    const uint32_t space = address / VPAGES, vpage = address % VPAGES;
    uint64_t word = 0;

    need(compactd_load(&pool, 0, space, vpage, words - 1, &word) == COMPACTD_OK && word == word_of(address));
    need(compactd_unmap(&pool, 0, space, vpage) == COMPACTD_OK);
    put_at(address, --pages);
}

static void map_up_to(uint32_t count)
{
    while (pages < count)
        map(addresses[pages + below(ADDRESSES - pages)]);
}

static void unmap_down_to(uint32_t count)
{
    while (pages > count)
        unmap(addresses[below(pages)]);
}

/* An address of a rank for which the likelihood is about 1 / rank. */
static uint32_t ranked_address(void)
{
    const double part = (double)(next_random() >> 11) / 9007199254740992.0; /* 2^53 */

    return ((uint32_t)pow(ADDRESSES, part) - 1) * 0x9E3779B1u % ADDRESSES;
}

/* An address that names a page, or one that names none: such a ranked one, or any where there is none after some tries. */
static uint32_t drawn_address(int is_mapped)
{
    uint32_t tried, address;

    for (tried = 0; tried < TRIES; tried++) {
        address = ranked_address();
        if ((places[address] < pages) == is_mapped)
            return address;
    }
    return addresses[is_mapped ? below(pages) : pages + below(ADDRESSES - pages)];
}

static void churn(void)
{
    uint32_t step;

    for (step = 0; step < STEPS; step++) {
        unmap(drawn_address(1));
        map(drawn_address(0));
    }
}

/* The policies. */

static int take(struct block *block)
{
    return compactd_take_order(&pool, block->order, &block->first) == COMPACTD_OK;
}

static int do_nothing(struct block *block)
{
    (void)block;
    return 0;
}

static int make_full_round(struct block *block)
{
    compactd_round_counts before = {0}, after = {0};
    compactd_bool met = 0;

    need(compactd_audit(&pool, &before) == COMPACTD_OK);
    need(compactd_compact(&pool, &met) == COMPACTD_OK && met);
    need(compactd_audit(&pool, &after) == COMPACTD_OK);
    moved += (uint32_t)(after.moved - before.moved);
    return take(block);
}

static int make_round_that_stops(struct block *block)
{
    uint32_t count, stopped;
    int is_begun = 0;

    for (;;) {
        need(compactd_move_pages(&pool, SLICE, &count, &stopped) == COMPACTD_OK);
        moved += count;
        if (take(block))
            return 1;
        if (stopped != COMPACTD_OK) {
            if (is_begun)
                return 0;
            need(compactd_begin_round(&pool) == COMPACTD_OK);
            is_begun = 1;
        }
    }
}

static int reserve(struct block *block)
{
    uint32_t count = 0;
    int is_done = compactd_reserve(&pool, block->order, &block->first, 1, &count) == COMPACTD_OK;

    moved += count;
    return is_done;
}

static int take_kept(struct block *block)
{
    uint32_t count = 0;
    int is_done;

    if (block->order != ORDER)
        return reserve(block);
    is_done = compactd_take_kept(&pool, ORDER, ready, READY, &claimed, &block->first, &count) == COMPACTD_OK;
    moved += count;
    return is_done;
}

static void prepare_nothing(void)
{
}

static void keep_ready(void)
{
    uint32_t count = 0;
    compactd_bool more = 1;

    while (more) {
        need(compactd_keep(&pool, ORDER, SLICE, ready, READY, &claimed, &count, &more) == COMPACTD_OK);
        moved += count;
    }
}

/* How they are measured. */

static void give_oldest(void)
{
    need(compactd_give_order(&pool, blocks[oldest].first, blocks[oldest].order) == COMPACTD_OK);
    held -= 1u << blocks[oldest++].order;
}

static void ask(const struct policy *policy)
{
    struct block block = {0, 0};
    const uint32_t moved_before = moved;
    double begun, seconds;
    int is_got;

    block.order = below(10) < 7 ? ORDER : 3 + below(3);
    while (held + (1u << block.order) > MOST_HELD)
        give_oldest();
    begun = now();
    is_got = take(&block) || policy->find(&block);
    seconds = now() - begun;
    if (is_got) {
        blocks[newest++] = block;
        held += 1u << block.order;
    }
    policy->prepare();
    printf("%s\t%u\t%d\t%u\t%.3f\n", policy->name, (unsigned)block.order, is_got, (unsigned)(moved - moved_before), seconds * 1e6);
}

static void make_wave(const struct policy *policy)
{
    uint32_t request;

    unmap_down_to(PAGES);
    oldest = newest = 0;
    for (request = 0; request < REQUESTS; request++) {
        churn();
        ask(policy);
    }
    while (oldest < newest)
        give_oldest();
    map_up_to(MOST_PAGES);
}

static void open_pool(compactd_bool apart)
{
    uint32_t address, refusal = compactd_open_sized(&pool, words, PAGEBLOCKS, SPACES, VPAGES, 0);

    if (refusal != COMPACTD_OK) {
        fprintf(stderr, "the pool isn't opened: %s\n", compactd_refusal_text(refusal));
        exit(1);
    }
    need(compactd_set_apart(&pool, apart) == COMPACTD_OK);
    for (address = 0; address < ADDRESSES; address++)
        addresses[address] = places[address] = address;
    pages = moved = 0;
    claimed = 0;
}

static void measure(const struct policy *policy, uint64_t seed)
{
    uint32_t wave;

    random_state = seed;
    open_pool(policy->apart);
    map_up_to(FRAMES);
    for (wave = 0; wave < WAVES; wave++)
        make_wave(policy);
    unmap_down_to(0);
    need(compactd_close(&pool) == COMPACTD_OK);
}

int main(int count, char **arguments)
{
    static const struct policy policies[] = {
        {"nothing", do_nothing, prepare_nothing, 0},
        {"full round", make_full_round, prepare_nothing, 0},
        {"round that stops", make_round_that_stops, prepare_nothing, 0},
        {"reservation", reserve, prepare_nothing, 0},
        {"reservation, unmovable pages apart", reserve, prepare_nothing, 1},
        {"blocks kept ready, unmovable pages apart", take_kept, keep_ready, 1},
    };
    size_t at;

    if (count != 4)
        return 2;
    words = (uint32_t)atoi(arguments[1]);
    unmovable = (uint32_t)atoi(arguments[2]);
    for (at = 0; at < sizeof policies / sizeof policies[0]; at++)
        measure(&policies[at], UINT64_C(0x9E3779B97F4A7C15) * (uint64_t)atoi(arguments[3]));
    return is_well ? 0 : 1;
}
