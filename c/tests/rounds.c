/* Rounds of compactd_round.h leave each page where compactd_compact leaves it, whatever the size of their slices. Each of their calls is
 * made under the lock, no slice has more pages than were asked for, and no page is moving where the lock is let go. They end as they should
 * where the pool is closed, before the round or between slices, where no page is asked for at a time, and where the journal is full. So they
 * do where pages are moved or pinned by others between slices, and where the thread is cancelled. A thread that waits for a lock of
 * compactd_round_lock gets it before the round has ended. */
#include "compactd.h"

#include <pthread.h>
#include <stdio.h>
#include <string.h>
#include <time.h>

#define PAGES 1024
#define KEPT 256
#define PINNED 508 /* a page that a round moves, and not among its first ones */

static pthread_mutex_t lock;

static int is_well = 1;

/* What happens between slices, or in one of them. */
enum trouble { NO_TROUBLE, IS_CLOSED, IS_CARRIED, IS_PINNED, IS_CANCELLED, IS_AWAITED };
static enum trouble trouble = NO_TROUBLE;
static uint32_t carried; /* pages that others moved */

/* The round that is made. */
static compactd_pool *current;
static uint32_t slice_pages; /* how many pages a slice may have */
static uint32_t taken;       /* pages that were moved in this slice */
static uint32_t holds;       /* how often it took the lock */
static int is_held;

/* Another thread, and whether it had the lock. */
static pthread_t waiting;
static int had_turn;

static void *take_turn(void *nothing)
{
    pthread_mutex_lock(&lock);
    had_turn = 1;
    pthread_mutex_unlock(&lock);
    return nothing;
}

static int take_lock(pthread_mutex_t *given)
{
    const int answer = pthread_mutex_lock(given);

    is_well &= answer == 0 && given == &lock && !is_held;
    is_held = 1;
    taken = 0;
    holds++;
    return answer;
}

/* Moves the next page of the round by hand, as another thread may between slices. */
static void carry(void)
{
    compactd_moving_page page;
    uint64_t words[8];
    compactd_bool moved = 0;

    if (compactd_isolate(current, &page, words, 8) != COMPACTD_OK)
        return;
    is_well &= compactd_commit(current, &page, words, 8, &moved) == COMPACTD_OK && moved;
    carried++;
}

/* What others do between slices. The first slice is made under the second hold of the lock. */
static void meddle(void)
{
    if (trouble == IS_CLOSED && holds == 3)
        is_well &= compactd_close(current) == COMPACTD_OK;
    if (trouble == IS_CARRIED)
        carry();
    if (trouble == IS_PINNED && holds == 3)
        is_well &= compactd_pin(current, 0, 0, PINNED) == COMPACTD_OK;
}

static int let_go(pthread_mutex_t *given)
{
    compactd_counts counts;

    is_well &= is_held && taken <= slice_pages;
    if (compactd_info(current, &counts) == COMPACTD_OK)
        is_well &= counts.moving == 0;
    meddle();
    is_held = 0;
    return pthread_mutex_unlock(given);
}

static compactd_pool *held(compactd_pool *pool)
{
    is_well &= is_held && pool == current;
    return pool;
}

/* Starts a thread that waits for the lock, which is held, and gives it time to begin. */
static void await(void)
{
    const struct timespec millisecond = {0, 1000000};

    if (holds == 2)
        is_well &= pthread_create(&waiting, NULL, take_turn, NULL) == 0;
    if (!had_turn)
        nanosleep(&millisecond, NULL);
}

static uint32_t move_pages(compactd_pool *pool, uint32_t most, uint32_t *moved, uint32_t *stopped)
{
    const uint32_t answer = compactd_move_pages(held(pool), most, moved, stopped);

    if (answer == COMPACTD_OK)
        taken += *moved;
    if (answer == COMPACTD_OK && trouble == IS_AWAITED)
        await();
    if (trouble == IS_CANCELLED && holds == 3)
        pthread_cancel(pthread_self());
    return answer;
}

#define pthread_mutex_lock take_lock
#define pthread_mutex_unlock let_go
#define compactd_begin_round(pool) compactd_begin_round(held(pool))
#define compactd_move_pages move_pages
#include "compactd_round.h"
#undef pthread_mutex_lock
#undef pthread_mutex_unlock
#undef compactd_begin_round
#undef compactd_move_pages


/* Fills a pool in which every fourth page is kept, and some have a pin. */
static void fill(compactd_pool *pool)
{
    uint32_t page, frame;

    for (page = 0; page < PAGES; page++)
        is_well &= compactd_map(pool, 0, 0, page, page % 64 == 0, &frame) == COMPACTD_OK;
    for (page = 0; page < PAGES; page++) {
        if (page % 4)
            is_well &= compactd_unmap(pool, 0, 0, page) == COMPACTD_OK;
        else
            is_well &= compactd_store(pool, 0, 0, page, 7, page) == COMPACTD_OK;
        if (page % 100 == 0)
            is_well &= compactd_pin(pool, 0, 0, page) == COMPACTD_OK;
    }
}

static void open_filled(compactd_pool *pool, uint32_t page_words)
{
    is_well &= compactd_open(pool, page_words, 2) == COMPACTD_OK;
    fill(pool);
}

/* Makes a round whose calls are looked at. */
static uint32_t make_round(compactd_pool *pool, uint32_t pages, enum trouble kind, compactd_round_counts *counts)
{
    uint32_t answer;

    current = pool;
    slice_pages = pages;
    holds = carried = 0;
    trouble = kind;
    memset(counts, 0xFF, sizeof *counts);
    answer = compactd_round(pool, &lock, pages, counts);
    is_well &= !is_held && counts->reserved[0] == 0 && counts->reserved[1] == 0;
    return answer;
}

/* Both pools have each page in the same frame, with its word, and no page is moving. */
static void need_same(compactd_pool *left, compactd_pool *right)
{
    compactd_page_info info, other;
    uint64_t value = 0;
    uint32_t page;

    for (page = 0; page < PAGES; page += 4) {
        is_well &= compactd_look(left, 0, page, &info) == COMPACTD_OK && compactd_look(right, 0, page, &other) == COMPACTD_OK;
        is_well &= info.frame == other.frame && !info.moving && !other.moving && info.pins == other.pins;
        is_well &= compactd_load(right, 0, 0, page, 7, &value) == COMPACTD_OK && value == page;
    }
}

/* The pool counts, since it was opened, what a round told, and no page is moving. */
static void need_counts(compactd_pool *pool, const compactd_round_counts *told)
{
    compactd_round_counts counts;

    is_well &= compactd_audit(pool, &counts) == COMPACTD_OK && counts.moved == told->moved && told->moved > 0;
    is_well &= counts.isolated == told->isolated && counts.back == told->back;
}

static void try_slices(uint32_t page_words, uint32_t pages)
{
    compactd_pool alone = {0}, pool = {0};
    compactd_round_counts told;
    compactd_bool met = 0;

    open_filled(&alone, page_words);
    open_filled(&pool, page_words);
    is_well &= compactd_compact(&alone, &met) == COMPACTD_OK && met;
    is_well &= make_round(&pool, pages, NO_TROUBLE, &told) == COMPACTD_OK;
    is_well &= holds == 1 + told.isolated / pages + 1;
    need_counts(&pool, &told);
    need_same(&alone, &pool);
    compactd_close(&alone);
    compactd_close(&pool);
}

/* Others close the pool after the second slice. */
static void try_closed(uint32_t pages)
{
    compactd_pool pool = {0};
    compactd_round_counts told;

    open_filled(&pool, 512);
    is_well &= make_round(&pool, pages, IS_CLOSED, &told) == COMPACTD_CLOSED && holds == 4;
    is_well &= told.isolated == 2 * pages && told.moved == 2 * pages && told.back == 0;
}

/* Others move a page by hand after each slice, which is one that the round would have moved. */
static void try_carried(uint32_t pages)
{
    compactd_pool alone = {0}, pool = {0};
    compactd_round_counts told;
    compactd_bool met = 0;

    open_filled(&alone, 8);
    open_filled(&pool, 8);
    is_well &= compactd_compact(&alone, &met) == COMPACTD_OK && met;
    is_well &= make_round(&pool, pages, IS_CARRIED, &told) == COMPACTD_OK && carried > 0;
    told.isolated += carried;
    told.moved += carried;
    need_counts(&pool, &told);
    need_same(&alone, &pool);
    compactd_close(&alone);
    compactd_close(&pool);
}

/* Others pin a page that the round hasn't come to after the second slice. It stays, and the round goes on. */
static void try_pinned(uint32_t pages)
{
    compactd_pool pool = {0};
    compactd_round_counts told;
    compactd_page_info info;

    open_filled(&pool, 8);
    is_well &= make_round(&pool, pages, IS_PINNED, &told) == COMPACTD_OK;
    is_well &= compactd_look(&pool, 0, PINNED, &info) == COMPACTD_OK && info.frame == PINNED && info.pins == 1;
    need_counts(&pool, &told);
    need_same(&pool, &pool);
    compactd_close(&pool);
}

/* A journal with room for ten moves, besides what filling the pool takes. */
static void try_full_journal(uint32_t pages)
{
    compactd_pool pool = {0};
    compactd_round_counts told;
    uint64_t records, room = 0;

    is_well &= compactd_open_journal(&pool, 8, 2, PAGES + (PAGES - KEPT) + KEPT + 11 + 20) == COMPACTD_OK;
    fill(&pool);
    is_well &= make_round(&pool, pages, NO_TROUBLE, &told) == COMPACTD_JOURNAL_FULL && told.moved == 10;
    need_counts(&pool, &told);
    is_well &= compactd_journal(&pool, &records, &room) == COMPACTD_OK && room == 0;
    compactd_close(&pool);
}

/* Rounds that are refused at once. */
static void try_refused(void)
{
    compactd_pool pool = {0};
    compactd_round_counts told;

    is_well &= make_round(&pool, 8, NO_TROUBLE, &told) == COMPACTD_CLOSED && told.isolated == 0 && told.moved == 0 && told.back == 0;
    open_filled(&pool, 8);
    is_well &= make_round(&pool, 0, NO_TROUBLE, &told) == COMPACTD_RANGE && holds == 0;
    is_well &= told.isolated == 0 && told.moved == 0 && told.back == 0;
    compactd_close(&pool);
}

static compactd_round_counts cancelled;

/* It returns the pool where it wasn't cancelled. */
static void *be_cancelled(void *pool)
{
    int kind;

    pthread_setcanceltype(PTHREAD_CANCEL_ASYNCHRONOUS, &kind);
    make_round((compactd_pool *)pool, 4, IS_CANCELLED, &cancelled);
    pthread_testcancel();
    return pool;
}

/* A thread that may be cancelled at any moment is cancelled while it makes a round. It ends the round first. */
static void try_cancelled(void)
{
    compactd_pool alone = {0}, pool = {0};
    compactd_bool met;
    pthread_t thread;
    void *ended = &pool;

    open_filled(&alone, 8);
    open_filled(&pool, 8);
    is_well &= compactd_compact(&alone, &met) == COMPACTD_OK;
    is_well &= pthread_create(&thread, NULL, be_cancelled, &pool) == 0 && pthread_join(thread, &ended) == 0 && ended != &pool;
    is_well &= pthread_mutex_trylock(&lock) == 0 && pthread_mutex_unlock(&lock) == 0;
    need_counts(&pool, &cancelled);
    need_same(&alone, &pool);
    compactd_close(&alone);
    compactd_close(&pool);
}

/* A thread begins to wait for the lock in the first slice, and has it before the round has ended. With a default lock that is so at times. */
static void try_turns(void)
{
    compactd_pool pool = {0};
    compactd_round_counts told;

    had_turn = 0;
    open_filled(&pool, 8);
    is_well &= make_round(&pool, 2, IS_AWAITED, &told) == COMPACTD_OK;
    pthread_mutex_lock(&lock);
    is_well &= had_turn;
    pthread_mutex_unlock(&lock);
    pthread_join(waiting, NULL);
    compactd_close(&pool);
}

int main(void)
{
    static const uint32_t pages[] = {1, 2, 7, 16, 1000, 0xFFFFFFFFu}; /* the first four leave several slices */
    unsigned at;

    if (compactd_round_lock(&lock) != 0)
        return 1;
    try_refused();
    for (at = 0; at < sizeof pages / sizeof pages[0]; at++) {
        try_slices(8, pages[at]);
        try_slices(512, pages[at]);
        try_carried(pages[at]);
        try_full_journal(pages[at]);
    }
    for (at = 0; at < 4; at++) {
        try_closed(pages[at]);
        try_pinned(pages[at]);
    }
    try_cancelled();
    for (at = 0; at < 10; at++)
        try_turns();
    pthread_mutex_destroy(&lock);
    printf("%s\n", is_well ? "rounds in slices are as those in one call" : "a round is another");
    return is_well ? 0 : 1;
}
