/* What a page of a round takes, from C, in a pool of 2^SIZE frames of 4 KiB that lies in memory of compactd_memory.h. Half of the frames, drawn
 * at random, have a page. The first argument is SIZE, and the second how many turns are made.
 *
 * In each turn a round is made by compactd_compact; by the slices of compactd_round, which are calls of compactd_move_pages; by slices whose
 * pages are isolated and committed one after the other; and by the threads of compactd_round_on, under a lock of compactd_round_lock and under
 * a default one. Then as many pages are copied by memcpy, between the same frames and by as many threads, while no pool is there. The system
 * has found memory for all frames before.
 *
 * Each line that it prints has what was done, a tab, and nanoseconds a page. */
#define _DEFAULT_SOURCE

#include "compactd.h"
#include "compactd_memory.h"
#include "compactd_round.h"

#include <stdio.h>
#include <stdlib.h>
#include <string.h>
#include <time.h>

#define WORDS 512
#define MOST_SIZE 22
#define BATCH 16 /* pages of a slice that is carried, and that a thread copies by memcpy at a time */
#define HELD 64  /* moves that a thread of a round takes at a time */
#define MOST_THREADS 4

static compactd_pool pool;
static compactd_words memory;
static uint64_t *begin; /* of the memory */
static pthread_mutex_t lock; /* of compactd_round_lock */
static pthread_mutex_t default_lock = PTHREAD_MUTEX_INITIALIZER;
static uint32_t frames;
static unsigned char has_page[1 << MOST_SIZE];
static uint32_t sources[1 << MOST_SIZE], targets[1 << MOST_SIZE], pairs; /* the moves of a round */
static int is_well = 1;

static double now(void)
{
    struct timespec time;

    clock_gettime(CLOCK_MONOTONIC, &time);
    return (double)time.tv_sec * 1e9 + (double)time.tv_nsec;
}

static void need(uint32_t answer)
{
    is_well &= answer == COMPACTD_OK;
}

/* Draws which frames have a page. */
static void draw(void)
{
    uint64_t state = 88172645463325252u;
    uint32_t frame;

    for (frame = 0; frame < frames; frame++) {
        state ^= state << 13;
        state ^= state >> 7;
        state ^= state << 17;
        has_page[frame] = state >> 40 & 1u;
    }
}

/* Lists the moves of a round: the lowest page goes to the highest free frame, and so on. */
static void list_pairs(void)
{
    uint32_t low = 0, high = frames - 1;

    for (;; low++, high--) {
        while (low < high && !has_page[low])
            low++;
        while (low < high && has_page[high])
            high--;
        if (low >= high)
            return;
        sources[pairs] = low;
        targets[pairs++] = high;
    }
}

static void open_scattered(void)
{
    uint32_t frame;

    need(compactd_open_in(&pool, WORDS, frames / 512, 1, frames, 0, &memory, 0));
    for (frame = 0; frame < frames; frame++)
        if (has_page[frame]) {
            need(compactd_map_at(&pool, 0, 0, frame, 0, frame));
            need(compactd_store(&pool, 0, 0, frame, 1, frame));
        }
}

/* Each page that was to move has its word, in its new frame. */
static void need_moved(void)
{
    compactd_page_info info;
    uint64_t word;
    uint32_t at;

    for (at = 0; at < pairs; at += 97) {
        need(compactd_look(&pool, 0, sources[at], &info));
        need(compactd_load(&pool, 0, 0, sources[at], 1, &word));
        is_well &= info.frame == targets[at] && word == sources[at];
    }
}

/* Ways to move pages. Each is given a number: the pages of a slice, or how many threads share the work. */

static void compact(unsigned number)
{
    compactd_bool met = 0;

    (void)number;
    need(compactd_compact(&pool, &met));
    is_well &= met;
}

static void make_slices(unsigned pages)
{
    compactd_round_counts counts;

    need(compactd_round(&pool, &lock, pages, &counts));
}

/* Isolates and commits so many pages at most, with one buffer. Whether there were as many. */
static int carry(unsigned pages)
{
    static uint64_t words[WORDS];
    compactd_moving_page page;
    compactd_bool moved;

    for (; pages > 0 && compactd_isolate(&pool, &page, words, WORDS) == COMPACTD_OK; pages--)
        need(compactd_commit(&pool, &page, words, WORDS, &moved));
    return pages == 0;
}

static void carry_slices(unsigned pages)
{
    int is_whole = 1;

    need(compactd_begin_round(&pool));
    while (is_whole) {
        pthread_mutex_lock(&lock);
        is_whole = carry(pages);
        pthread_mutex_unlock(&lock);
    }
}

static void make_on(unsigned threads)
{
    compactd_round_counts counts;

    need(compactd_round_on(&pool, &lock, threads, HELD, &counts));
}

static void make_on_default(unsigned threads)
{
    compactd_round_counts counts;

    need(compactd_round_on(&pool, &default_lock, threads, HELD, &counts));
}

/* A thread that copies pages by memcpy: a batch, and then the next one that is its own. */
struct copier {
    pthread_t thread;
    uint32_t first, step;
};

static void *copy_batches(void *own)
{
    const struct copier *self = (const struct copier *)own;
    uint32_t from, at;

    for (from = self->first; from < pairs; from += self->step)
        for (at = from; at < from + BATCH && at < pairs; at++)
            memcpy(begin + (size_t)targets[at] * WORDS, begin + (size_t)sources[at] * WORDS, WORDS * sizeof begin[0]);
    return NULL;
}

static void copy_on(unsigned threads)
{
    struct copier copiers[MOST_THREADS];
    unsigned at;

    for (at = 0; at < threads; at++) {
        copiers[at].first = at * BATCH;
        copiers[at].step = threads * BATCH;
        if (at > 0)
            is_well &= pthread_create(&copiers[at].thread, NULL, copy_batches, &copiers[at]) == 0;
    }
    copy_batches(&copiers[0]);
    for (at = 1; at < threads; at++)
        pthread_join(copiers[at].thread, NULL);
}

struct way {
    const char *what;
    void (*make)(unsigned number);
    unsigned number;
    int is_plain; /* whether it is made without a pool */
};

/* Nanoseconds a page, over pages that were just mapped. */
static double page_by(const struct way *way)
{
    compactd_round_counts counts = {0, 0, 0, {0, 0}};
    double begun, passed;

    open_scattered();
    if (way->is_plain)
        need(compactd_close_in(&pool, &memory));
    begun = now();
    way->make(way->number);
    passed = now() - begun;
    if (!way->is_plain) {
        need(compactd_audit(&pool, &counts));
        is_well &= counts.moved == pairs && counts.back == 0;
        need_moved();
        need(compactd_close_in(&pool, &memory));
    }
    return passed / pairs;
}

static const struct way ways[] = {
    {"compactd_compact", compact, 0, 0},
    {"slices of 1", make_slices, 1, 0},
    {"slices of 4", make_slices, 4, 0},
    {"slices of 16", make_slices, 16, 0},
    {"slices of 64", make_slices, 64, 0},
    {"carried, slices of 16", carry_slices, BATCH, 0},
    {"on 1 thread", make_on, 1, 0},
    {"on 2 threads", make_on, 2, 0},
    {"on 4 threads", make_on, 4, 0},
    {"on 2 threads, default", make_on_default, 2, 0},
    {"on 4 threads, default", make_on_default, 4, 0},
    {"memcpy by 1 thread", copy_on, 1, 1},
    {"memcpy by 2 threads", copy_on, 2, 1},
    {"memcpy by 4 threads", copy_on, 4, 1},
};

int main(int count, char **words)
{
    const int size = count == 3 ? atoi(words[1]) : 0, turns = count == 3 ? atoi(words[2]) : 0;
    size_t at;
    int turn;

    if (size < 9 || size > MOST_SIZE || turns < 1)
        return 2;
    frames = 1u << size;
    if (compactd_round_lock(&lock) != 0 || compactd_map_memory((size_t)frames * WORDS, &memory) != 0)
        return 1;
    begin = memory.at;
    memset(begin, 1, memory.count * sizeof begin[0]);
    draw();
    list_pairs();
    for (turn = 0; turn < turns; turn++)
        for (at = 0; at < sizeof ways / sizeof ways[0]; at++)
            printf("%s\t%.0f\n", ways[at].what, page_by(&ways[at]));
    return is_well ? 0 : 1;
}
