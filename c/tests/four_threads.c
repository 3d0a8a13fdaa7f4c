/* Four threads make all kinds of calls on one pool under one lock, beside a round in slices, and on a pool of their own without it. Each
 * shared page is changed by adding to it, so that the sum at the end tells whether a call was lost. */
#include "compactd.h"

#include <pthread.h>
#include <stdio.h>

/* The library isn't compiled for ThreadSanitizer. So each call on the shared pool changes a number here: a call that was made without the
 * lock is a race that it sees. */
static compactd_pool shared;
static unsigned long calls;

static compactd_pool *seen(compactd_pool *pool)
{
    if (pool == &shared)
        calls++;
    return pool;
}

#define compactd_begin_round(pool) compactd_begin_round(seen(pool))
#define compactd_move_pages(pool, most, moved, stopped) compactd_move_pages(seen(pool), most, moved, stopped)
#define compactd_isolate(pool, page, words, count) compactd_isolate(seen(pool), page, words, count)
#define compactd_commit(pool, page, words, count, moved) compactd_commit(seen(pool), page, words, count, moved)
#define compactd_load(pool, client, space, vpage, word, value) compactd_load(seen(pool), client, space, vpage, word, value)
#define compactd_store(pool, client, space, vpage, word, value) compactd_store(seen(pool), client, space, vpage, word, value)
#define compactd_map(pool, client, space, vpage, unmovable, frame) compactd_map(seen(pool), client, space, vpage, unmovable, frame)
#define compactd_unmap(pool, client, space, vpage) compactd_unmap(seen(pool), client, space, vpage)
#define compactd_pin(pool, client, space, vpage) compactd_pin(seen(pool), client, space, vpage)
#define compactd_take_order(pool, order, first) compactd_take_order(seen(pool), order, first)
#define compactd_give_order(pool, first, order) compactd_give_order(seen(pool), first, order)

#include "compactd_round.h"

#define THREADS 4
#define TURNS 4000
#define PAGES 400

static pthread_mutex_t lock;

struct thread {
    pthread_t thread;
    uint32_t client;
    uint64_t added;
    int is_well;
};

/* One turn on the shared pool: some of its calls are refused, by what the others do. */
static void take_turn(struct thread *self, uint32_t turn)
{
    uint32_t page = (turn * 7 + self->client) % PAGES, other = 1000 + page, first, frame;
    compactd_moving_page moving;
    uint64_t words[8], value;
    compactd_bool is_so;

    if (compactd_load(&shared, self->client, 0, page, 1, &value) == COMPACTD_OK
        && compactd_store(&shared, self->client, 0, page, 1, value + turn) == COMPACTD_OK)
        self->added += turn;
    if (turn % 3 == 0 && compactd_pin(&shared, self->client, 0, page) == COMPACTD_OK)
        self->is_well &= compactd_unpin(&shared, self->client, 0, page) == COMPACTD_OK;
    if (compactd_map(&shared, self->client, 0, other, 0, &frame) == COMPACTD_OK)
        self->is_well &= compactd_unmap(&shared, self->client, 0, other) == COMPACTD_OK;
    if (turn % 5 == 0 && compactd_take_order(&shared, 3, &first) == COMPACTD_OK) {
        words[0] = turn;
        self->is_well &= compactd_write_block(&shared, first, 3, 63, words, 1) == COMPACTD_OK;
        self->is_well &= compactd_read_block(&shared, first, 3, 63, words, 1) == COMPACTD_OK && words[0] == turn;
        self->is_well &= compactd_give_order(&shared, first, 3) == COMPACTD_OK;
    }
    if (turn % 50 == 0)
        self->is_well &= compactd_begin_round(&shared) == COMPACTD_OK;
    if (compactd_isolate(&shared, &moving, words, 8) == COMPACTD_OK)
        self->is_well &= compactd_commit(&shared, &moving, words, 8, &is_so) == COMPACTD_OK;
}

static void *run(void *own)
{
    struct thread *self = (struct thread *)own;
    compactd_pool pool = {0};
    compactd_bool met;
    uint32_t turn, frame;

    self->is_well = compactd_open(&pool, 512, 1) == COMPACTD_OK;
    for (turn = 0; turn < TURNS; turn++) {
        pthread_mutex_lock(&lock);
        take_turn(self, turn);
        pthread_mutex_unlock(&lock);
        if (turn % 100 == 0) {
            self->is_well &= compactd_map(&pool, 0, 0, turn / 100, 0, &frame) == COMPACTD_OK;
            self->is_well &= compactd_compact(&pool, &met) == COMPACTD_OK;
        }
    }
    compactd_close(&pool);
    return NULL;
}

int main(void)
{
    struct thread threads[THREADS];
    uint64_t sum = 0, added = 0, value;
    compactd_round_counts counts;
    uint32_t at, frame;
    int is_well = compactd_round_lock(&lock) == 0 && compactd_open(&shared, 8, 2) == COMPACTD_OK;

    for (at = 0; at < PAGES; at++)
        is_well &= compactd_map(&shared, 0, 0, at, 0, &frame) == COMPACTD_OK;
    for (at = 0; at < THREADS; at++) {
        threads[at].client = at;
        threads[at].added = 0;
        is_well &= pthread_create(&threads[at].thread, NULL, run, &threads[at]) == 0;
    }
    is_well &= compactd_round(&shared, &lock, 3, &counts) == COMPACTD_OK;
    for (at = 0; at < THREADS; at++) {
        pthread_join(threads[at].thread, NULL);
        is_well &= threads[at].is_well;
        added += threads[at].added;
    }
    for (at = 0; at < PAGES; at++) {
        is_well &= compactd_load(&shared, 0, 0, at, 1, &value) == COMPACTD_OK;
        sum += value;
    }
    compactd_close(&shared);
    pthread_mutex_destroy(&lock);
    printf("%s\n", is_well && sum == added && added > 0 ? "no call was lost" : "a call was lost");
    return is_well && sum == added && added > 0 ? 0 : 1;
}
