/* What it takes to find the open run with the fewest pages, from C. In a pool of 2^20 frames 70 % of the frames hold a page, each as likely
 * as any other. Then a page is mapped to the first frame of each run of 8 that has none, so that no run is free and none is found at once.
 *
 * Each line that it prints has the load, a tab, the order of the runs, a tab, how many pages the cheapest has, a tab, and microseconds: the
 * mean of so many calls as the argument says. */
#include "compactd.h"

#include <stdio.h>
#include <stdlib.h>
#include <time.h>

#define WORDS 8
#define RUN 8
#define PAGEBLOCKS 2048
#define FRAMES (PAGEBLOCKS * 512)
#define PAGES (FRAMES / 10 * 7)
#define SPACES 16
#define VPAGES (FRAMES / SPACES)

static compactd_pool pool;
static unsigned char holds[FRAMES]; /* whether each frame has a page */
static uint32_t pages; /* how many there are */
static uint64_t random_state = 88172645463325252u;
static int is_well = 1;

static double now(void)
{
    struct timespec time;

    clock_gettime(CLOCK_MONOTONIC, &time);
    return (double)time.tv_sec + (double)time.tv_nsec * 1e-9;
}

static void need(int holds_true)
{
    is_well &= holds_true;
}

/* A random number below a limit, by xorshift. */
static uint32_t below(uint32_t limit)
{
    random_state ^= random_state << 13;
    random_state ^= random_state >> 7;
    random_state ^= random_state << 17;
    return (uint32_t)((random_state >> 32) * limit >> 32);
}

static void map_page(uint32_t frame)
{
    need(compactd_map_at(&pool, 0, pages / VPAGES, pages % VPAGES, 0, frame) == COMPACTD_OK);
    holds[frame] = 1;
    pages++;
}

static void map_drawn_pages(void)
{
    uint32_t frame;

    while (pages < PAGES) {
        frame = below(FRAMES);
        if (!holds[frame])
            map_page(frame);
    }
}

static void map_a_page_to_each_free_run(void)
{
    uint32_t first, offset, taken;

    for (first = 0; first < FRAMES; first += RUN) {
        taken = 0;
        for (offset = 0; offset < RUN; offset++)
            taken += holds[first + offset];
        if (taken == 0)
            map_page(first);
    }
}

static void measure(const char *load, uint32_t order, uint32_t calls)
{
    uint32_t call, first, cost = 0;
    double start = now();

    for (call = 0; call < calls; call++)
        need(compactd_cheapest_run(&pool, order, &first, &cost) == COMPACTD_OK);
    printf("%s\t%u\t%u\t%.3f\n", load, order, cost, (now() - start) / calls * 1e6);
}

static void measure_orders(const char *load, uint32_t calls)
{
    uint32_t order;

    for (order = 3; order <= 9; order++)
        measure(load, order, calls);
}

int main(int count, char **arguments)
{
    uint32_t calls = count > 1 ? (uint32_t)atoi(arguments[1]) : 0;

    if (calls == 0)
        return 2;
    need(compactd_open_sized(&pool, WORDS, PAGEBLOCKS, SPACES, VPAGES, 0) == COMPACTD_OK);
    map_drawn_pages();
    measure_orders("drawn", calls);
    map_a_page_to_each_free_run();
    measure_orders("no free run", calls);
    compactd_close(&pool);
    return !is_well;
}
