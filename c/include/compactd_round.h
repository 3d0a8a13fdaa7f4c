/* Rounds of compactd under a lock that is let go again and again, so that other threads can make calls on the pool meanwhile.
 * compactd_compact makes a whole round in one call, for which these would wait.
 *
 * compactd_round makes a round in slices, on the thread that calls. Each slice is one call, compactd_move_pages, which copies each of its
 * pages once, from frame to frame. So no call of another thread finds a page moving by it, and nobody else can end a move of it.
 *
 * compactd_round_on makes a round on several threads, in a pool that lies in memory of the caller's. Each of them takes some moves under the
 * lock, copies the words of these pages without it, and ends the moves under the lock as it takes the next ones. So the pages that are in hand
 * are moving for other threads, and these wait less for the lock: no page is copied under it. compactd_empty_on empties runs of frames so.
 *
 * What is proved, and what isn't. Each call on the pool is proved. So, whatever other threads do as long as calls are made under the lock
 * and nobody writes what is lent, each page keeps its words, and no page is moving by a slice where the lock is let go. This header isn't
 * proved: that it makes each call under the lock, that it copies the words before it ends a move, that it ends each move that it took, that
 * it counts the pages, and that it ends is only tested. */
#ifndef COMPACTD_ROUND_H
#define COMPACTD_ROUND_H

#include "compactd.h"

#include <pthread.h>
#include <string.h>

#ifdef __cplusplus
extern "C" {
#endif

/* The most threads of compactd_round_on and of compactd_empty_on, and the most moves that one of them has in hand. */
#define COMPACTD_ROUND_MOST 64

/* A lock of any kind: what it is, and how it is taken and let go. */
typedef struct compactd_lock {
    void *own;
    void (*take)(void *own);
    void (*let_go)(void *own);
} compactd_lock;

COMPACTD_IN_HEADER void compactd_round_take_mutex(void *own)
{
    pthread_mutex_lock(COMPACTD_AS(pthread_mutex_t *, own));
}

COMPACTD_IN_HEADER void compactd_round_let_mutex_go(void *own)
{
    pthread_mutex_unlock(COMPACTD_AS(pthread_mutex_t *, own));
}

COMPACTD_IN_HEADER compactd_lock compactd_round_mutex(pthread_mutex_t *mutex)
{
    compactd_lock lock;

    lock.own = mutex;
    lock.take = compactd_round_take_mutex;
    lock.let_go = compactd_round_let_mutex_go;
    return lock;
}

/* Begins a round, under the lock. */
COMPACTD_IN_HEADER uint32_t compactd_round_begin(compactd_pool *pool, const compactd_lock *lock)
{
    uint32_t answer;

    lock->take(lock->own);
    answer = compactd_begin_round(pool);
    lock->let_go(lock->own);
    return answer;
}

/* Moves so many pages under one hold of the lock, and fewer where there are no more. Answers why, or 0. */
COMPACTD_IN_HEADER uint32_t compactd_round_slice(compactd_pool *pool, const compactd_lock *lock, uint32_t pages,
                                                 compactd_round_counts *counts)
{
    uint32_t moved = 0, stopped = COMPACTD_OK, answer;

    lock->take(lock->own);
    answer = compactd_move_pages(pool, pages, &moved, &stopped);
    lock->let_go(lock->own);
    counts->isolated += moved;
    counts->moved += moved;
    return answer == COMPACTD_OK ? stopped : answer;
}

/* Initialises a lock that is handed to a thread that waits for it when it is let go: one with the protocol PTHREAD_PRIO_INHERIT. A default
 * lock isn't: between slices a round most often takes it again before a thread that waits is awake, until the round has ended. So other
 * threads get their turns with a lock from here. It isn't initialised before, and pthread_mutex_destroy ends it. Answers 0 or a number of
 * errno.h, as ENOTSUP where the system has no such lock. A program that is compiled as strict ISO C, as by -std=c99, has this function only
 * if it defines _POSIX_C_SOURCE. */
#if defined(_POSIX_C_SOURCE) && _POSIX_C_SOURCE >= 199506L
COMPACTD_IN_HEADER int compactd_round_lock(pthread_mutex_t *lock)
{
    pthread_mutexattr_t kind;
    int answer = pthread_mutexattr_init(&kind);

    if (answer != 0)
        return answer;
    answer = pthread_mutexattr_setprotocol(&kind, PTHREAD_PRIO_INHERIT);
    if (answer == 0)
        answer = pthread_mutex_init(lock, &kind);
    pthread_mutexattr_destroy(&kind);
    return answer;
}
#endif

/* Makes a round on a pool, whose calls are made under this lock, and lets the lock go after each so many pages, 1 or more. The caller
 * doesn't hold the lock, and no other round is made on the pool meanwhile. While a slice is made other threads wait, about as long as its
 * pages are copied. compactd_round_with takes a lock of any kind, and compactd_round a mutex.
 *
 * Answers 0 where the scanners of the round met, and else a number of enum compactd_refusal. RANGE: no page is asked for at a time, and
 * nothing changes. CLOSED. JOURNAL_FULL: the journal has no room for a further move. In each case it tells how many pages it
 * moved: each of them was isolated, and none was put back.
 *
 * The thread can't be cancelled until the round has ended, whatever its cancelability is. */
COMPACTD_IN_HEADER uint32_t compactd_round_with(compactd_pool *pool, const compactd_lock *lock, uint32_t pages,
                                                compactd_round_counts *counts)
{
    static const compactd_round_counts none = {0, 0, 0, {0, 0}};
    uint32_t answer;
    int cancelability;

    *counts = none;
    if (pages == 0)
        return COMPACTD_RANGE;
    pthread_setcancelstate(PTHREAD_CANCEL_DISABLE, &cancelability);
    answer = compactd_round_begin(pool, lock);
    while (answer == COMPACTD_OK)
        answer = compactd_round_slice(pool, lock, pages, counts);
    pthread_setcancelstate(cancelability, &cancelability);
    if (answer == COMPACTD_MET)
        answer = COMPACTD_OK;
    return answer;
}

COMPACTD_IN_HEADER uint32_t compactd_round(compactd_pool *pool, pthread_mutex_t *lock, uint32_t pages, compactd_round_counts *counts)
{
    const compactd_lock mutex = compactd_round_mutex(lock);

    return compactd_round_with(pool, &mutex, pages, counts);
}

/* Runs of 2^order frames that are emptied, by their first frames, the next one first. */
typedef struct compactd_round_runs {
    const uint32_t *firsts;
    size_t count;
    uint32_t order;
} compactd_round_runs;

/* What the threads share that make a round or empty runs. What changes is read and written under the lock. */
typedef struct compactd_round_share {
    compactd_pool *pool;
    const compactd_lock *lock;
    compactd_round_runs *runs; /* those that are left, or null where a round is made */
    uint32_t pages;            /* how many moves a thread takes at a time */
    uint32_t stopped;          /* why no further move is taken, or 0 */
    compactd_round_counts counts;
} compactd_round_share;

/* Takes the move that is next. Runs that no page can leave are done with. */
COMPACTD_IN_HEADER uint32_t compactd_round_lend(compactd_round_share *share, compactd_lent_move *move)
{
    compactd_round_runs *const runs = share->runs;
    uint32_t answer = COMPACTD_NONE_LEFT;

    if (runs == COMPACTD_NULL)
        return compactd_lend_move(share->pool, move);
    while (runs->count > 0 && answer == COMPACTD_NONE_LEFT) {
        answer = compactd_lend_move_from(share->pool, *runs->firsts, runs->order, move);
        if (answer == COMPACTD_NONE_LEFT) {
            runs->firsts++;
            runs->count--;
        }
    }
    return answer;
}

/* Ends a move whose words were copied. Where that is refused, no further move is taken by any thread, and the page is put back, unless the
 * pool is closed. */
COMPACTD_IN_HEADER void compactd_round_end(compactd_round_share *share, compactd_lent_move *move)
{
    compactd_bool moved = 0;
    const uint32_t answer = share->runs == COMPACTD_NULL ? compactd_commit_lent(share->pool, move, &moved)
                                                         : compactd_commit_and_claim(share->pool, move, &moved);

    if (answer != COMPACTD_OK)
        share->stopped = answer;
    if (answer == COMPACTD_OK || compactd_put_back_lent(share->pool, move) == COMPACTD_OK) {
        share->counts.moved += moved;
        share->counts.back += !moved;
    }
}

/* Takes the next moves, and gets how many. */
COMPACTD_IN_HEADER uint32_t compactd_round_take(compactd_round_share *share, compactd_lent_move *moves)
{
    uint32_t count = 0;

    while (share->stopped == COMPACTD_OK && count < share->pages) {
        share->stopped = compactd_round_lend(share, &moves[count]);
        count += share->stopped == COMPACTD_OK;
    }
    share->counts.isolated += count;
    return count;
}

/* Ends the moves that a thread has in hand and takes the next ones, under one hold of the lock. */
COMPACTD_IN_HEADER uint32_t compactd_round_exchange(compactd_round_share *share, compactd_lent_move *moves, uint32_t count)
{
    uint32_t at;

    share->lock->take(share->lock->own);
    for (at = 0; at < count; at++)
        compactd_round_end(share, &moves[at]);
    count = compactd_round_take(share, moves);
    share->lock->let_go(share->lock->own);
    return count;
}

/* What each of the threads does: it copies pages without the lock until there are no more, and has no move in hand then. */
COMPACTD_IN_HEADER void *compactd_round_work(void *shared)
{
    compactd_round_share *share = COMPACTD_AS(compactd_round_share *, shared);
    compactd_lent_move moves[COMPACTD_ROUND_MOST];
    uint32_t at, count = 0;

    memset(moves, 0, sizeof moves);
    do {
        count = compactd_round_exchange(share, moves, count);
        for (at = 0; at < count; at++)
            memcpy(moves[at].to.at, moves[at].from.at, moves[at].to.count * sizeof moves[at].to.at[0]);
    } while (count > 0);
    return shared;
}

/* Shares what was begun with so many threads besides the one that calls, or with as many as can be started. */
COMPACTD_IN_HEADER void compactd_round_start(compactd_round_share *share, uint32_t others)
{
    pthread_t threads[COMPACTD_ROUND_MOST];
    uint32_t started = 0;

    while (started < others && pthread_create(&threads[started], COMPACTD_NULL, compactd_round_work, share) == 0)
        started++;
    compactd_round_work(share);
    while (started > 0)
        pthread_join(threads[--started], COMPACTD_NULL);
}

/* Claims the free frames of each run, where a block can begin at all of them. */
COMPACTD_IN_HEADER uint32_t compactd_round_claim(compactd_pool *pool, const compactd_round_runs *runs)
{
    compactd_geometry geometry;
    uint32_t moved, unclaimed, answer = compactd_describe(pool, &geometry);
    size_t at;

    if (answer == COMPACTD_OK && (runs->order < 3 || runs->order > 9))
        answer = COMPACTD_RANGE;
    for (at = 0; at < runs->count && answer == COMPACTD_OK; at++)
        if (runs->firsts[at] % (1u << runs->order) != 0 || runs->firsts[at] >= 512 * geometry.blocks)
            answer = COMPACTD_RANGE;
    for (at = 0; at < runs->count && answer == COMPACTD_OK; at++)
        answer = compactd_empty_some(pool, runs->firsts[at], runs->order, 0, &moved, &unclaimed);
    return answer;
}

/* Begins what threads are to share, under the lock. */
COMPACTD_IN_HEADER uint32_t compactd_round_open(compactd_round_share *share)
{
    uint32_t answer;

    if (share->runs == COMPACTD_NULL)
        return compactd_round_begin(share->pool, share->lock);
    share->lock->take(share->lock->own);
    answer = compactd_round_claim(share->pool, share->runs);
    share->lock->let_go(share->lock->own);
    return answer;
}

/* Makes a round or empties runs on so many threads, and answers 0 where no page was left. */
COMPACTD_IN_HEADER uint32_t compactd_round_run(compactd_round_share *share, uint32_t threads, compactd_round_counts *counts)
{
    const uint32_t pages = share->pages;
    int cancelability;

    *counts = share->counts;
    if (threads < 1 || threads > COMPACTD_ROUND_MOST || pages < 1 || pages > COMPACTD_ROUND_MOST)
        return COMPACTD_RANGE;
    pthread_setcancelstate(PTHREAD_CANCEL_DISABLE, &cancelability);
    share->stopped = compactd_round_open(share);
    if (share->stopped == COMPACTD_OK)
        compactd_round_start(share, threads - 1);
    *counts = share->counts;
    pthread_setcancelstate(cancelability, &cancelability);
    if (share->stopped == COMPACTD_MET || share->stopped == COMPACTD_NONE_LEFT)
        share->stopped = COMPACTD_OK;
    return share->stopped;
}

/* Makes a round on a pool that lies in memory of the caller's, whose calls are made under this lock, on so many threads, 1 to 64: the one that
 * calls, and others that are started for it and have ended when it answers. Where one can't be started, the round goes on with those that
 * run. Each thread takes so many moves, 1 to 64, under one hold of the lock, and ends them under its next one; in between it copies their
 * pages without the lock. The caller doesn't hold the lock, and no other round is made on the pool meanwhile. compactd_round_on_with takes a
 * lock of any kind, and compactd_round_on a mutex.
 *
 * While a page is in hand, its loads, stores, reads and writes are refused as MOVING, and so are sharing and unmapping it: let the lock go, and
 * try again. It may be pinned; then it is put back.
 *
 * Answers 0 where the scanners of the round met, and else a number of enum compactd_refusal. RANGE: a number is out of its range, and nothing
 * changes. CLOSED. OWN_MEMORY: the pool lies in memory of its own, and no page is moved. JOURNAL_FULL: the journal has no room for a further
 * move. In each case it tells how many pages it isolated, and how many of them were moved or put back. These are all, so no page is moving by
 * it, unless others closed the pool.
 *
 * While a page is in hand, compactd_close_in is refused as LENT. Where others close the pool by compactd_close, the moves in hand end with
 * it. The threads still read and write the words of these frames until this answers, so the memory stays until then, and no other pool is
 * opened by the handle.
 *
 * The thread that calls can't be cancelled until the round has ended, whatever its cancelability is. The others have its signal mask. */
COMPACTD_IN_HEADER uint32_t compactd_round_on_with(compactd_pool *pool, const compactd_lock *lock, uint32_t threads, uint32_t pages,
                                                   compactd_round_counts *counts)
{
    compactd_round_share share;

    memset(&share, 0, sizeof share);
    share.pool = pool;
    share.lock = lock;
    share.pages = pages;
    return compactd_round_run(&share, threads, counts);
}

COMPACTD_IN_HEADER uint32_t compactd_round_on(compactd_pool *pool, pthread_mutex_t *lock, uint32_t threads, uint32_t pages,
                                              compactd_round_counts *counts)
{
    const compactd_lock mutex = compactd_round_mutex(lock);

    return compactd_round_on_with(pool, &mutex, threads, pages, counts);
}

/* Empties `count` runs of 2^order frames, by their first frames, on a pool that lies in memory of the caller's, with threads, a lock and moves as
 * compactd_round_on_with has them. First it claims the free frames of each run, so that no page comes there. Then it moves page after page out
 * of the runs, the first run and the lowest page first, each to the highest free frame that is in no marked pageblock, and claims the frame
 * that it leaves. A page that is moving, pinned or unmovable stays, and so does one that gets a pin while it is in hand. compactd_take_claimed
 * takes a run whose frames are all claimed; of another one compactd_empty_some goes on, or compactd_drop_claim gives it up. Neither a round nor
 * another call like this is made on the pool meanwhile. With `count` 0 `firsts` may be null. compactd_empty_on_with takes a lock of any kind,
 * and compactd_empty_on a mutex.
 *
 * Answers 0 where no page of the runs is left that may go, or no frame for it, and else a number of enum compactd_refusal. RANGE: a number is out
 * of its range or a frame isn't a multiple of 2^order, and nothing changes. CLOSED. OWN_MEMORY: the pool lies in memory of its own; free frames
 * of the runs are claimed. JOURNAL_FULL: the journal has no room for a further move. In each case it tells how many pages it isolated, moved
 * and put back, as compactd_round_on_with does. What that says of closing and of cancelling is so here. */
COMPACTD_IN_HEADER uint32_t compactd_empty_on_with(compactd_pool *pool, const compactd_lock *lock, const uint32_t *firsts, size_t count,
                                                   uint32_t order, uint32_t threads, uint32_t pages, compactd_round_counts *counts)
{
    compactd_round_share share;
    compactd_round_runs runs;

    runs.firsts = firsts;
    runs.count = count;
    runs.order = order;
    memset(&share, 0, sizeof share);
    share.pool = pool;
    share.lock = lock;
    share.runs = &runs;
    share.pages = pages;
    return compactd_round_run(&share, threads, counts);
}

COMPACTD_IN_HEADER uint32_t compactd_empty_on(compactd_pool *pool, pthread_mutex_t *lock, const uint32_t *firsts, size_t count, uint32_t order,
                                              uint32_t threads, uint32_t pages, compactd_round_counts *counts)
{
    const compactd_lock mutex = compactd_round_mutex(lock);

    return compactd_empty_on_with(pool, &mutex, firsts, count, order, threads, pages, counts);
}

#ifdef __cplusplus
}
#endif

#endif
