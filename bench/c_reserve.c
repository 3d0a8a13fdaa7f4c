/* What it takes until so many pageblocks are handed out, from C. A pool of 2^18 frames, of which 70 % hold a page, is filled anew for each
 * measurement. In the uniform load each frame is as likely to hold a page as any other. In the skewed load the likelihood falls as
 * 1 / (1 + rank), where the ranks of the pageblocks are shuffled: many pageblocks are full, and others much emptier. The policies:
 *
 * - a full round: compactd_compact, and then the takes;
 * - a round that stops: compactd_move_pages in slices, where a block is taken as soon as one is free, until there are enough;
 * - a reservation: compactd_reserve. It has to move as many pages as the emptiest pageblocks have together.
 *
 * The arguments are the number of words of a page, 8 or 512, and a number from 1 on that the random numbers of the loads come from. Each
 * line that it prints has the load, a tab, the number of blocks, a tab, the policy, a tab, how many pages were moved, a tab, and
 * milliseconds. */
#include "compactd.h"

#include <stdio.h>
#include <stdlib.h>
#include <string.h>
#include <time.h>

#define ORDER 9
#define PAGEBLOCK 512
#define PAGEBLOCKS 512
#define FRAMES (PAGEBLOCKS * PAGEBLOCK)
#define PAGES (FRAMES / 10 * 7)
#define SPACES 8
#define VPAGES (FRAMES / SPACES)
#define SLICE 32
#define MOST_BLOCKS 64

struct load {
    const char *name;
    uint32_t ranks[PAGEBLOCKS];
    uint32_t frames[PAGES]; /* where the pages are, in the order of their addresses */
    uint32_t pages[PAGEBLOCKS]; /* how many each pageblock has */
};

static compactd_pool pool;
static uint32_t words; /* of a page */
static uint32_t firsts[MOST_BLOCKS];
static uint64_t random_state;
static int is_well = 1;

static double now(void)
{
    struct timespec time;

    clock_gettime(CLOCK_MONOTONIC, &time);
    return (double)time.tv_sec + (double)time.tv_nsec * 1e-9;
}

static void need(int holds)
{
    is_well &= holds;
}

/* A random number below a limit, by xorshift. */
static uint32_t below(uint32_t limit)
{
    random_state ^= random_state << 13;
    random_state ^= random_state >> 7;
    random_state ^= random_state << 17;
    return (uint32_t)((random_state >> 32) * limit >> 32);
}

/* The loads. */

static void shuffle_ranks(struct load *load)
{
    uint32_t block, other;

    for (block = 0; block < PAGEBLOCKS; block++) {
        other = below(block + 1);
        load->ranks[block] = load->ranks[other];
        load->ranks[other] = block;
    }
}

static void draw_pages(struct load *load)
{
    static unsigned char is_drawn[FRAMES];
    uint32_t page = 0, frame;

    memset(is_drawn, 0, sizeof is_drawn);
    while (page < PAGES) {
        frame = below(FRAMES);
        if (is_drawn[frame] || below(1 + load->ranks[frame / PAGEBLOCK]) > 0)
            continue;
        is_drawn[frame] = 1;
        load->pages[frame / PAGEBLOCK]++;
        load->frames[page++] = frame;
    }
}

static int by_number(const void *left, const void *right)
{
    const uint32_t one = *(const uint32_t *)left, other = *(const uint32_t *)right;

    return (one > other) - (one < other);
}

/* How many pages so many of the emptiest pageblocks have. */
static uint32_t least_moves(const struct load *load, uint32_t blocks)
{
    uint32_t pages[PAGEBLOCKS], block, sum = 0;

    memcpy(pages, load->pages, sizeof pages);
    qsort(pages, PAGEBLOCKS, sizeof pages[0], by_number);
    for (block = 0; block < blocks; block++)
        sum += pages[block];
    return sum;
}

/* The policies. */

static void take_blocks(uint32_t blocks)
{
    uint32_t taken;

    for (taken = 0; taken < blocks; taken++)
        need(compactd_take_order(&pool, ORDER, &firsts[taken]) == COMPACTD_OK);
}

static void make_full_round(uint32_t blocks)
{
    compactd_bool met;

    need(compactd_compact(&pool, &met) == COMPACTD_OK && met);
    take_blocks(blocks);
}

static void make_round_that_stops(uint32_t blocks)
{
    uint32_t taken = 0, moved, stopped = COMPACTD_OK;

    need(compactd_begin_round(&pool) == COMPACTD_OK);
    for (;;) {
        while (taken < blocks && compactd_take_order(&pool, ORDER, &firsts[taken]) == COMPACTD_OK)
            taken++;
        if (taken == blocks || stopped != COMPACTD_OK)
            break;
        need(compactd_move_pages(&pool, SLICE, &moved, &stopped) == COMPACTD_OK);
    }
    need(taken == blocks);
}

static void reserve(uint32_t blocks)
{
    uint32_t moved;

    need(compactd_reserve(&pool, ORDER, firsts, blocks, &moved) == COMPACTD_OK);
}

/* How they are measured. */

static void open_pool(const struct load *load)
{
    uint32_t page, refusal = compactd_open_sized(&pool, words, PAGEBLOCKS, SPACES, VPAGES, 0);

    if (refusal != COMPACTD_OK) {
        fprintf(stderr, "the pool isn't opened: %s\n", compactd_refusal_text(refusal));
        exit(1);
    }
    for (page = 0; page < PAGES; page++)
        need(compactd_map_at(&pool, 0, page / VPAGES, page % VPAGES, 0, load->frames[page]) == COMPACTD_OK);
}

/* How many pages aren't where they were any more. */
static uint32_t count_moved(const struct load *load)
{
    compactd_page_info info = {0};
    uint32_t page, moved = 0;

    for (page = 0; page < PAGES; page++) {
        need(compactd_look(&pool, page / VPAGES, page % VPAGES, &info) == COMPACTD_OK);
        moved += info.frame != load->frames[page];
    }
    return moved;
}

/* Measures a policy on a fresh pool, and returns how many pages it moved. */
static uint32_t measure(const struct load *load, uint32_t blocks, const char *policy, void (*make)(uint32_t))
{
    compactd_counts counts = {0};
    double begun, seconds;
    uint32_t moved;

    open_pool(load);
    begun = now();
    make(blocks);
    seconds = now() - begun;
    moved = count_moved(load);
    need(compactd_info(&pool, &counts) == COMPACTD_OK && counts.huge == blocks && counts.pages == PAGES);
    need(compactd_close(&pool) == COMPACTD_OK);
    printf("%s\t%u\t%s\t%u\t%.3f\n", load->name, (unsigned)blocks, policy, (unsigned)moved, seconds * 1e3);
    return moved;
}

static void measure_load(const struct load *load)
{
    static const uint32_t blocks[] = {1, 8, MOST_BLOCKS};
    size_t at;

    for (at = 0; at < sizeof blocks / sizeof blocks[0]; at++) {
        measure(load, blocks[at], "full round", make_full_round);
        measure(load, blocks[at], "round that stops", make_round_that_stops);
        need(measure(load, blocks[at], "reservation", reserve) == least_moves(load, blocks[at]));
    }
}

int main(int count, char **arguments)
{
    static struct load uniform = {"uniform", {0}, {0}, {0}}, skewed = {"skewed", {0}, {0}, {0}};

    if (count != 3)
        return 2;
    words = (uint32_t)atoi(arguments[1]);
    random_state = UINT64_C(0x9E3779B97F4A7C15) * (uint64_t)atoi(arguments[2]);
    draw_pages(&uniform);
    shuffle_ranks(&skewed);
    draw_pages(&skewed);
    measure_load(&uniform);
    measure_load(&skewed);
    return is_well ? 0 : 1;
}
