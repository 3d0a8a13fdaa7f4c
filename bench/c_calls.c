/* Calls a second, from C, by the calls of compactd.h. For each row it prints what was called, a tab, and how many millions a second: the best
 * of many runs, each on a fresh pool of 4,096 frames. Compiled with -DPLAIN it makes only the calls that a plain program has too: on
 * pages of 64 bytes, with a journal. */
#include "compactd.h"

#include <stdio.h>
#include <time.h>

#define CALLS 60000 /* for whose records a journal has places */
#define PLACES 65536
#define RUNS 40
#define PAGES 1024

static uint32_t frame;
static uint64_t value;
static compactd_bool met;
static int is_well = 1;

static double now(void)
{
    struct timespec time;

    clock_gettime(CLOCK_MONOTONIC, &time);
    return (double)time.tv_sec + (double)time.tv_nsec * 1e-9;
}

static void need(uint32_t answer)
{
    is_well &= answer == COMPACTD_OK;
}

static void open_with_journal(compactd_pool *pool)
{
    need(compactd_open_journal(pool, 8, 8, PLACES));
}

static uint32_t load(compactd_pool *pool, uint32_t i)
{
    return compactd_load(pool, 0, 0, i * 37 % PAGES, i % 8, &value);
}

static uint32_t store(compactd_pool *pool, uint32_t i)
{
    return compactd_store(pool, 0, 0, i * 37 % PAGES, i % 8, i);
}

static uint32_t map_or_unmap(compactd_pool *pool, uint32_t i)
{
    return i % 2 == 0 ? compactd_map(pool, 0, 1, i % 4096, 0, &frame) : compactd_unmap(pool, 0, 1, (i - 1) % 4096);
}

static uint32_t take_or_give(compactd_pool *pool, uint32_t i)
{
    return i % 2 == 0 ? compactd_take_order(pool, 9, &frame) : compactd_give_order(pool, frame, 9);
}

static uint32_t look(compactd_pool *pool, uint32_t i)
{
    compactd_page_info info;

    return compactd_look(pool, 0, i * 37 % PAGES, &info);
}

/* Fills a pool of 1,024 pages. */
static void fill(compactd_pool *pool)
{
    uint32_t page;

    for (page = 0; page < PAGES; page++)
        need(compactd_map(pool, 0, 0, page, 0, &frame));
}

/* How long so many calls take on a fresh pool. */
static double seconds_of(void (*open)(compactd_pool *), uint32_t calls, uint32_t (*call)(compactd_pool *, uint32_t))
{
    compactd_pool pool = {0};
    uint32_t i, wrong = 0;
    double begun, ended;

    open(&pool);
    fill(&pool);
    begun = now();
    for (i = 0; i < calls; i++)
        wrong |= call(&pool, i);
    ended = now();
    need(wrong);
    need(compactd_close(&pool));
    return ended - begun;
}

static void measure(const char *what, void (*open)(compactd_pool *), uint32_t calls, uint32_t (*call)(compactd_pool *, uint32_t))
{
    double best = 1e9, seconds;
    int run;

    for (run = 0; run < RUNS; run++)
        if ((seconds = seconds_of(open, calls, call)) < best)
            best = seconds;
    printf("%s\t%.2f\n", what, calls / best / 1e6);
}

/* Every fourth of 4,096 pages is there. */
static void scatter(compactd_pool *pool)
{
    uint32_t page;

    for (page = 0; page < 4096; page++)
        need(compactd_map(pool, 0, 0, page, 0, &frame));
    for (page = 0; page < 4096; page++)
        if (page % 4 != 0)
            need(compactd_unmap(pool, 0, 0, page));
}

/* Rounds that move 768 pages. */
static void measure_rounds(const char *what, void (*open)(compactd_pool *))
{
    double best = 1e9, begun, seconds;
    int run;

    for (run = 0; run < RUNS; run++) {
        compactd_pool pool = {0};

        open(&pool);
        scatter(&pool);
        begun = now();
        need(compactd_compact(&pool, &met));
        seconds = now() - begun;
        best = seconds < best ? seconds : best;
        is_well &= met;
        need(compactd_close(&pool));
    }
    printf("%s\t%.2f\n", what, 768 / best / 1e6);
}

#ifndef PLAIN
static uint64_t words[512];

static void open_small(compactd_pool *pool)
{
    need(compactd_open(pool, 8, 8));
}

static void open_large(compactd_pool *pool)
{
    need(compactd_open(pool, 512, 8));
}

static uint32_t read_page(compactd_pool *pool, uint32_t i)
{
    return compactd_read(pool, 0, 0, i * 37 % PAGES, 0, words, 512);
}

static uint32_t info(compactd_pool *pool, uint32_t i)
{
    compactd_counts counts;

    (void)i;
    return compactd_info(pool, &counts);
}

static uint32_t free_runs(compactd_pool *pool, uint32_t i)
{
    return compactd_free_runs(pool, i % 10, &frame);
}

static uint32_t fragmentation(compactd_pool *pool, uint32_t i)
{
    int32_t index;

    return compactd_fragmentation(pool, i % 10, &index);
}

/* No page is moving, so that each frame is looked at. */
static uint32_t next_moving(compactd_pool *pool, uint32_t i)
{
    compactd_moving_page page;
    compactd_move move;

    (void)i;
    return compactd_next_moving(pool, 0, &page, &move) == COMPACTD_NOT_MOVING ? COMPACTD_OK : COMPACTD_MOVING;
}

static void measure_questions(void)
{
    measure("counts", open_small, CALLS, info);
    measure("free runs of an order", open_small, CALLS / 20, free_runs);
    measure("fragmentation index", open_small, CALLS / 20, fragmentation);
    measure("next moving page, where there is none", open_small, CALLS / 20, next_moving);
}

static void measure_without_records(void)
{
    measure("load, no records", open_small, CALLS, load);
    measure("store, no records", open_small, CALLS, store);
    measure("map or unmap, no records", open_small, CALLS, map_or_unmap);
    measure("read of 4 KiB, no records", open_large, CALLS / 20, read_page);
    measure_rounds("page of a round, 4 KiB, no records", open_large);
}
#endif

int main(void)
{
    measure("load", open_with_journal, CALLS, load);
    measure("store", open_with_journal, CALLS, store);
    measure("map or unmap", open_with_journal, CALLS, map_or_unmap);
    measure("look", open_with_journal, CALLS, look);
    measure("take or give a pageblock", open_with_journal, CALLS, take_or_give);
    measure_rounds("page of a round", open_with_journal);
#ifndef PLAIN
    measure_without_records();
    measure_questions();
#endif
    return is_well ? 0 : 1;
}
