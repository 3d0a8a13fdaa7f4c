/* What calls take by the size of the pool, from C. Of each size one pool of 64-byte pages is opened, with as many addresses as frames. Of
 * each the lowest quarter of the frames is handed out in blocks of order 3, the next quarter is free, and the upper half has 1,000 pages,
 * which are as far from each other as they can be. So are their addresses, the hot ones, which are mixed. Each call is made on the hot
 * addresses in turn, up to a million times, and leaves this state or is undone at once: a map by an unmap, a take by a give. A round moves
 * the pages up, and they are then brought back. For the take that is refused, all free pageblocks are handed out meanwhile. An address is
 * also drawn from all of them for a map and its unmap. Beside the opening as many bytes are written as its words and tables have.
 *
 * The arguments are how often all of it is measured, and the sizes: powers of 2, from 12 on. Each line that it prints has what was done, a tab,
 * the size, a tab, and nanoseconds; of the opening they are microseconds. */
#include "compactd.h"

#include <stdio.h>
#include <stdlib.h>
#include <string.h>
#include <time.h>

#define WORDS 8
#define SPACES 8
#define HOT 1000
#define MOST_POOLS 8
#define MOST_CALLS 1000000
#define MOST_MOVES 100000
#define MOST_SECONDS 0.5 /* of a measurement */
#define PAGEBLOCK 9      /* its order */
#define TABLE_BYTES 47   /* a frame, with as many addresses */

struct address {
    uint32_t space, vpage;
};

struct sized {
    compactd_pool pool;
    int size; /* the power of 2 that its frames are, and its addresses */
    uint32_t frames;
    uint32_t *taken; /* the first frames of the pageblocks that are handed out meanwhile */
    uint32_t taken_count;
    struct address hot[HOT], others[HOT];
};

static uint32_t order; /* of blocks that are taken and given */
static int is_well = 1;

static double now(void)
{
    struct timespec time;

    clock_gettime(CLOCK_MONOTONIC, &time);
    return (double)time.tv_sec + (double)time.tv_nsec * 1e-9;
}

static void need(int holds)
{
    is_well &= holds;
}

/* An address by its place among all addresses of the pool. */
static struct address address_at(const struct sized *at, uint32_t place)
{
    struct address address;

    address.space = place / (at->frames / SPACES);
    address.vpage = place % (at->frames / SPACES);
    return address;
}

/* Lists the hot addresses, and others that lie half way between them. */
static void list_addresses(struct sized *at)
{
    const uint32_t apart = at->frames / HOT;
    uint32_t i, place;

    for (i = 0; i < HOT; i++) {
        place = i * 37 % HOT * apart;
        at->hot[i] = address_at(at, place);
        at->others[i] = address_at(at, place + apart / 2);
    }
}

/* The state of a pool. */

static void open_pool(struct sized *at, compactd_pool *pool)
{
    uint32_t refusal = compactd_open_sized(pool, WORDS, at->frames >> PAGEBLOCK, SPACES, at->frames / SPACES, 0);

    if (refusal != COMPACTD_OK) {
        fprintf(stderr, "a pool of 2^%d frames isn't opened: %s\n", at->size, compactd_refusal_text(refusal));
        exit(1);
    }
}

static void spread_pages(struct sized *at)
{
    uint32_t i, half = at->frames / 2;

    for (i = 0; i < HOT; i++)
        need(compactd_map_at(&at->pool, 0, at->hot[i].space, at->hot[i].vpage, 0, half + i * (half / HOT)) == COMPACTD_OK);
}

static void unmap_pages(struct sized *at)
{
    uint32_t i;

    for (i = 0; i < HOT; i++)
        need(compactd_unmap(&at->pool, 0, at->hot[i].space, at->hot[i].vpage) == COMPACTD_OK);
}

static void open_sized(struct sized *at, int size)
{
    compactd_pool closed = {0};
    uint32_t block, first;

    at->pool = closed;
    at->size = size;
    at->frames = (uint32_t)1 << size;
    at->taken = malloc(sizeof at->taken[0] * (at->frames >> PAGEBLOCK));
    if (at->taken == NULL)
        abort();
    list_addresses(at);
    open_pool(at, &at->pool);
    for (block = 0; block < at->frames / 4 / 8; block++)
        need(compactd_take_order(&at->pool, 3, &first) == COMPACTD_OK && first == block * 8);
    spread_pages(at);
}

static void take_pageblocks(struct sized *at)
{
    at->taken_count = 0;
    while (compactd_take_order(&at->pool, PAGEBLOCK, &at->taken[at->taken_count]) == COMPACTD_OK)
        at->taken_count++;
}

static void give_pageblocks(struct sized *at)
{
    while (at->taken_count > 0)
        need(compactd_give_order(&at->pool, at->taken[--at->taken_count], PAGEBLOCK) == COMPACTD_OK);
}

/* What is measured. */

static void look(struct sized *at, uint32_t i)
{
    compactd_page_info info;

    need(compactd_look(&at->pool, at->hot[i].space, at->hot[i].vpage, &info) == COMPACTD_OK);
}

static void load(struct sized *at, uint32_t i)
{
    uint64_t value;

    need(compactd_load(&at->pool, 0, at->hot[i].space, at->hot[i].vpage, i % WORDS, &value) == COMPACTD_OK);
}

static void store(struct sized *at, uint32_t i)
{
    need(compactd_store(&at->pool, 0, at->hot[i].space, at->hot[i].vpage, i % WORDS, i) == COMPACTD_OK);
}

static void pin_and_unpin(struct sized *at, uint32_t i)
{
    need(compactd_pin(&at->pool, 0, at->hot[i].space, at->hot[i].vpage) == COMPACTD_OK);
    need(compactd_unpin(&at->pool, 0, at->hot[i].space, at->hot[i].vpage) == COMPACTD_OK);
}

static void map_and_unmap(struct sized *at, uint32_t i)
{
    uint32_t frame;

    need(compactd_map(&at->pool, 0, at->others[i].space, at->others[i].vpage, 0, &frame) == COMPACTD_OK);
    need(compactd_unmap(&at->pool, 0, at->others[i].space, at->others[i].vpage) == COMPACTD_OK);
}

/* An address that isn't hot. */
static struct address drawn_address(const struct sized *at)
{
    static uint32_t state = 1;
    const uint32_t apart = at->frames / HOT;
    uint32_t place;

    state = state * 1664525 + 1013904223;
    place = (state >> 8) % at->frames;
    return address_at(at, place % apart == 0 ? place + 1 : place);
}

static void map_and_unmap_drawn(struct sized *at, uint32_t i)
{
    const struct address drawn = drawn_address(at);
    uint32_t frame;

    (void)i;
    need(compactd_map(&at->pool, 0, drawn.space, drawn.vpage, 0, &frame) == COMPACTD_OK);
    need(compactd_unmap(&at->pool, 0, drawn.space, drawn.vpage) == COMPACTD_OK);
}

static void take_and_give(struct sized *at, uint32_t i)
{
    uint32_t first;

    (void)i;
    need(compactd_take_order(&at->pool, order, &first) == COMPACTD_OK);
    need(compactd_give_order(&at->pool, first, order) == COMPACTD_OK);
}

static void take_refused(struct sized *at, uint32_t i)
{
    uint32_t first;

    (void)i;
    need(compactd_take_order(&at->pool, PAGEBLOCK, &first) == COMPACTD_NO_BLOCK);
}

static void info(struct sized *at, uint32_t i)
{
    compactd_counts counts;

    (void)i;
    need(compactd_info(&at->pool, &counts) == COMPACTD_OK);
}

static void quiet(struct sized *at, uint32_t i)
{
    compactd_bool is_quiet;

    (void)i;
    need(compactd_quiet(&at->pool, &is_quiet) == COMPACTD_OK);
}

/* Makes the round that was begun, and returns how many pages it moved. */
static uint32_t move_pages(struct sized *at)
{
    static uint64_t copy[WORDS];
    compactd_moving_page page;
    compactd_bool is_moved;
    uint32_t moves = 0;

    while (compactd_isolate(&at->pool, &page, copy, WORDS) == COMPACTD_OK) {
        need(compactd_commit(&at->pool, &page, copy, WORDS, &is_moved) == COMPACTD_OK);
        moves++;
    }
    return moves;
}

/* How it is measured. */

static void tell(const char *what, struct sized *at, double number)
{
    printf("%s\t%d\t%.2f\n", what, at->size, number);
}

static void measure(const char *what, struct sized *at, void (*call)(struct sized *, uint32_t))
{
    double begun = now(), seconds;
    uint32_t calls = 0, i;

    do {
        for (i = 0; i < HOT; i++)
            call(at, i);
        calls += HOT;
        seconds = now() - begun;
    } while (calls < MOST_CALLS && seconds < MOST_SECONDS);
    tell(what, at, seconds / calls * 1e9);
}

static void measure_orders(struct sized *at)
{
    char what[40];

    for (order = 3; order <= PAGEBLOCK; order++) {
        sprintf(what, "take and give, order %u", (unsigned)order);
        measure(what, at, take_and_give);
    }
}

static void measure_refused(struct sized *at)
{
    take_pageblocks(at);
    measure("take of order 9, refused", at, take_refused);
    give_pageblocks(at);
}

static void measure_moves(struct sized *at)
{
    double begun, seconds = 0;
    uint32_t moves = 0;

    while (moves < MOST_MOVES && seconds < MOST_SECONDS && is_well) {
        need(compactd_begin_round(&at->pool) == COMPACTD_OK);
        begun = now();
        moves += move_pages(at);
        seconds += now() - begun;
        need(moves > 0);
        unmap_pages(at);
        spread_pages(at);
    }
    tell("isolate and commit", at, seconds / moves * 1e9);
}

static void measure_opening(struct sized *at)
{
    compactd_pool pool = {0};
    double begun = now();

    open_pool(at, &pool);
    tell("opening, microseconds", at, (now() - begun) * 1e6);
    need(compactd_close(&pool) == COMPACTD_OK);
}

/* Writes as many bytes as the words and the tables of the pool have, for which the system has to find memory as it has for these. */
static void measure_memset(struct sized *at)
{
    const size_t bytes = (size_t)at->frames * (WORDS * 8 + TABLE_BYTES);
    double begun = now();
    unsigned char *memory = malloc(bytes);

    if (memory == NULL)
        abort();
    memset(memory, 1, bytes);
    need(((volatile unsigned char *)memory)[bytes - 1] == 1);
    tell("memset beside it, microseconds", at, (now() - begun) * 1e6);
    free(memory);
}

static void measure_calls(struct sized *at)
{
    measure("look", at, look);
    measure("load", at, load);
    measure("store", at, store);
    measure("pin and unpin", at, pin_and_unpin);
    measure("map and unmap", at, map_and_unmap);
    measure("map and unmap, drawn", at, map_and_unmap_drawn);
    measure_moves(at);
    measure_orders(at);
    measure_refused(at);
    measure("info", at, info);
    measure("quiet", at, quiet);
    measure_opening(at);
    measure_memset(at);
}

int main(int count, char **words)
{
    static struct sized pools[MOST_POOLS];
    int pool, turn, pool_count = count - 2;

    if (pool_count < 1 || pool_count > MOST_POOLS)
        return 2;
    for (pool = 0; pool < pool_count; pool++)
        open_sized(&pools[pool], atoi(words[pool + 2]));
    for (turn = 0; turn < atoi(words[1]); turn++)
        for (pool = 0; pool < pool_count; pool++)
            measure_calls(&pools[pool]);
    for (pool = 0; pool < pool_count; pool++) {
        need(compactd_close(&pools[pool].pool) == COMPACTD_OK);
        free(pools[pool].taken);
    }
    return is_well ? 0 : 1;
}
