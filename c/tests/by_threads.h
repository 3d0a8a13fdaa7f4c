/* What the tests of rounds and of emptied runs by several threads share. Each call is made under the lock, no page is copied under it, a move
 * is ended once its words are copied, and no thread has more moves in hand than were asked for. There are pools, and clients who load, store,
 * pin, unpin, unmap and map their pages. */
#ifndef BY_THREADS_H
#define BY_THREADS_H

#include "answers.h"
#include "compactd.h"

#include <errno.h>
#include <pthread.h>
#include <stdlib.h>
#include <string.h>

#define BLOCKS 2
#define FRAMES (BLOCKS * 512u)
#define CLIENTS 2
#define ALL 99u /* more threads than any round has */

static pthread_mutex_t lock;
static __thread int has_lock;
static __thread uint32_t in_hand; /* moves of this thread */

/* The library isn't compiled for ThreadSanitizer. So each call changes a number here: one that was made without the lock is a race that it
 * sees. */
static unsigned long calls;

/* The pool on which threads work, and what happens then. The first moves are taken under the second hold of the lock. */
enum trouble { NO_TROUBLE, IS_CLOSED, IS_REFUSED, IS_CANCELLED };
static enum trouble trouble;
static compactd_pool *current;
static pthread_t caller;
static uint32_t pages_at_once;
static uint32_t holds, commits;
static uint32_t may_start = ALL, started; /* threads */

static int take_lock(pthread_mutex_t *given)
{
    const int answer = pthread_mutex_lock(given);

    HOLDS(answer == 0 && given == &lock && !has_lock);
    has_lock = 1;
    holds++;
    return answer;
}

/* While moves are in hand, the pool is closed, or the thread that called is cancelled. The other way to close it is refused. */
static void meddle(void)
{
    compactd_words none = {0};

    if (holds != 3)
        return;
    if (trouble == IS_CLOSED) {
        IS(LENT, compactd_close_in(current, &none));
        OK(compactd_close(current));
    }
    if (trouble == IS_CANCELLED)
        pthread_cancel(caller);
}

static int let_go(pthread_mutex_t *given)
{
    HOLDS(has_lock && in_hand <= pages_at_once);
    meddle();
    has_lock = 0;
    return pthread_mutex_unlock(given);
}

static compactd_pool *seen(compactd_pool *pool)
{
    HOLDS(has_lock && pool == current);
    calls++;
    return pool;
}

/* A move that is lent is filled where there was none. */
static uint32_t taken(uint32_t answer)
{
    in_hand += answer == COMPACTD_OK;
    return answer;
}

static compactd_lent_move *blank(compactd_lent_move *move)
{
    HOLDS(move->from.at == NULL && move->from.count == 0 && move->to.at == NULL && move->to.count == 0);
    return move;
}

static uint32_t lend_move(compactd_pool *pool, compactd_lent_move *move)
{
    return taken(compactd_lend_move(seen(pool), blank(move)));
}

static uint32_t lend_move_from(compactd_pool *pool, uint32_t first, uint32_t order, compactd_lent_move *move)
{
    return taken(compactd_lend_move_from(seen(pool), first, order, blank(move)));
}

/* Whether the end of a move whose words are copied is to be refused. */
static int is_refused(const compactd_lent_move *move)
{
    HOLDS(memcmp(move->from.at, move->to.at, move->to.count * sizeof move->to.at[0]) == 0);
    commits++;
    in_hand--;
    return trouble == IS_REFUSED && commits == 20;
}

static uint32_t commit_lent(compactd_pool *pool, compactd_lent_move *move, compactd_bool *moved)
{
    return is_refused(move) ? COMPACTD_STRANGER : compactd_commit_lent(seen(pool), move, moved);
}

static uint32_t commit_and_claim(compactd_pool *pool, compactd_lent_move *move, compactd_bool *moved)
{
    return is_refused(move) ? COMPACTD_STRANGER : compactd_commit_and_claim(seen(pool), move, moved);
}

static uint32_t put_back_lent(compactd_pool *pool, compactd_lent_move *move)
{
    return compactd_put_back_lent(seen(pool), move);
}

static void *copy(void *to, const void *from, size_t bytes)
{
    HOLDS(!has_lock);
    return memcpy(to, from, bytes);
}

static int start(pthread_t *thread, const pthread_attr_t *kind, void *(*work)(void *), void *own)
{
    if (started == may_start)
        return EAGAIN;
    started++;
    return pthread_create(thread, kind, work, own);
}

#define pthread_mutex_lock take_lock
#define pthread_mutex_unlock let_go
#define pthread_create start
#define memcpy copy
#define compactd_begin_round(pool) compactd_begin_round(seen(pool))
#define compactd_describe(pool, geometry) compactd_describe(seen(pool), geometry)
#define compactd_empty_some(pool, first, order, most, moved, left) compactd_empty_some(seen(pool), first, order, most, moved, left)
#define compactd_lend_move lend_move
#define compactd_lend_move_from lend_move_from
#define compactd_commit_lent commit_lent
#define compactd_commit_and_claim commit_and_claim
#define compactd_put_back_lent put_back_lent
#include "compactd_round.h"
#undef pthread_mutex_lock
#undef pthread_mutex_unlock
#undef pthread_create
#undef memcpy
#undef compactd_begin_round
#undef compactd_describe
#undef compactd_empty_some
#undef compactd_lend_move
#undef compactd_lend_move_from
#undef compactd_commit_lent
#undef compactd_commit_and_claim
#undef compactd_put_back_lent

/* Pools. */

static compactd_words memory;
static uint32_t page_words;
static uint64_t words[512];

/* What stands in each word of a page but the second one, which clients change. */
static uint64_t word_of(uint32_t vpage, uint32_t at)
{
    return ((uint64_t)vpage << 32) + at;
}

static void fill_page(compactd_pool *pool, uint32_t vpage)
{
    uint64_t filled[512];
    uint32_t at;

    for (at = 0; at < page_words; at++)
        filled[at] = at == 1 ? 0 : word_of(vpage, at);
    OK(compactd_write(pool, 0, 0, vpage, 0, filled, page_words));
}

static int is_there(uint32_t vpage)
{
    return vpage % 4 != 1;
}

/* Pages in three of four frames, each of which has the address of its frame. Some have a pin or are unmovable. */
static void fill(compactd_pool *pool)
{
    uint32_t vpage;

    for (vpage = 0; vpage < FRAMES; vpage++)
        if (is_there(vpage)) {
            OK(compactd_map_at(pool, 0, 0, vpage, vpage % 64 == 0, vpage));
            fill_page(pool, vpage);
        }
    for (vpage = 100; vpage < FRAMES; vpage += 100)
        OK(compactd_pin(pool, 0, 0, vpage));
}

/* A pool in memory that is full of something. Returns where this begins. */
static uint64_t *open_in(compactd_pool *pool, uint32_t places)
{
    uint64_t *begin;

    memory.count = (size_t)FRAMES * page_words;
    memory.at = (uint64_t *)malloc(memory.count * sizeof memory.at[0]);
    if (memory.at == NULL)
        abort();
    memset(memory.at, 0xA5, memory.count * sizeof memory.at[0]);
    begin = memory.at;
    OK(compactd_open_in(pool, page_words, BLOCKS, 1, FRAMES, places, &memory, 0));
    return begin;
}

static uint64_t *open_filled(compactd_pool *pool)
{
    uint64_t *begin = open_in(pool, 0);

    fill(pool);
    return begin;
}

static void close_in(compactd_pool *pool)
{
    OK(compactd_close_in(pool, &memory));
    free(memory.at);
    memory.at = NULL;
    memory.count = 0;
}

/* What threads do from here on is looked at. */
static void watch(compactd_pool *pool, uint32_t pages, enum trouble kind)
{
    pthread_mutex_lock(&lock);
    current = pool;
    caller = pthread_self();
    pages_at_once = pages;
    holds = commits = 0;
    trouble = kind;
    pthread_mutex_unlock(&lock);
    started = 0;
}

/* They have ended, with no move in hand. */
static void need_end(const compactd_round_counts *told)
{
    HOLDS(!has_lock && in_hand == 0 && told->reserved[0] == 0 && told->reserved[1] == 0);
}

static int is_nothing(const compactd_round_counts *told)
{
    return told->isolated == 0 && told->moved == 0 && told->back == 0;
}

static void add_counts(compactd_round_counts *sum, const compactd_round_counts *told)
{
    sum->isolated += told->isolated;
    sum->moved += told->moved;
    sum->back += told->back;
}

/* The pool counts what was told. That is answered only where no page is moving. */
static void need_counts(compactd_pool *pool, const compactd_round_counts *told)
{
    compactd_round_counts counts;

    OK(compactd_audit(pool, &counts));
    HOLDS(counts.isolated == told->isolated && counts.moved == told->moved && counts.back == told->back);
    HOLDS(told->moved > 0 && told->isolated == told->moved + told->back);
}

/* Each page has its words. */
static void need_words(compactd_pool *pool, uint32_t vpage, uint64_t second)
{
    uint32_t at;

    OK(compactd_read(pool, 0, 0, vpage, 0, words, page_words));
    for (at = 0; at < page_words; at++)
        HOLDS(words[at] == (at == 1 ? second : word_of(vpage, at)));
}

static void need_all_words(compactd_pool *pool)
{
    uint32_t vpage;

    for (vpage = 0; vpage < FRAMES; vpage++)
        if (is_there(vpage))
            need_words(pool, vpage, 0);
}

/* Each page has its words and is where it is in another pool. */
static void need_same(compactd_pool *pool, compactd_pool *alone)
{
    compactd_page_info info, other;
    uint32_t vpage;

    for (vpage = 0; vpage < FRAMES; vpage++)
        if (is_there(vpage)) {
            need_words(pool, vpage, 0);
            OK(compactd_look(pool, 0, vpage, &info));
            OK(compactd_look(alone, 0, vpage, &other));
            HOLDS(info.frame == other.frame && info.flags == other.flags && info.pins == other.pins && !info.moving);
        }
}

/* Clients. */

#define NONE FRAMES

/* A client, whose pages have even or odd numbers, and the second word of each of them. */
struct client {
    pthread_t thread;
    uint32_t number;
    uint32_t pinned; /* a page, or NONE */
    uint64_t seconds[FRAMES];
};
static struct client clients[CLIENTS];
static int is_over; /* what they do; changed under the lock */

/* Whether a call was done; a page that is moving is left alone. */
static int is_done(uint32_t answer)
{
    HOLDS(answer == COMPACTD_OK || answer == COMPACTD_MOVING);
    return answer == COMPACTD_OK;
}

static void add_to(struct client *self, uint32_t vpage, uint32_t number)
{
    uint64_t value = 0;

    if (!is_done(compactd_load(seen(current), self->number, 0, vpage, 1, &value)))
        return;
    HOLDS(value == self->seconds[vpage]);
    self->seconds[vpage] += number;
    OK(compactd_store(seen(current), self->number, 0, vpage, 1, self->seconds[vpage]));
}

/* Pins a page, also one that is moving, or takes its pin off. */
static void pin_or_unpin(struct client *self, uint32_t vpage)
{
    if (self->pinned == NONE) {
        OK(compactd_pin(seen(current), self->number, 0, vpage));
        self->pinned = vpage;
    } else {
        OK(compactd_unpin(seen(current), self->number, 0, self->pinned));
        self->pinned = NONE;
    }
}

static void map_anew(struct client *self, uint32_t vpage)
{
    uint32_t frame;

    if (vpage == self->pinned || vpage % 100 == 0 || !is_done(compactd_unmap(seen(current), self->number, 0, vpage)))
        return;
    OK(compactd_map(seen(current), self->number, 0, vpage, 0, &frame));
    fill_page(seen(current), vpage);
    self->seconds[vpage] = 0;
}

/* Makes calls until it is told to end. */
static void *serve(void *own)
{
    struct client *self = (struct client *)own;
    uint32_t turn, vpage;
    int goes_on = 1;

    for (turn = 0; goes_on; turn++) {
        vpage = (turn * 7919 % (FRAMES / 2) * 2 + self->number) | self->number * 2;
        take_lock(&lock);
        add_to(self, vpage, turn);
        if (turn % 3 == 0)
            pin_or_unpin(self, vpage);
        if (turn % 5 == 0)
            map_anew(self, vpage);
        goes_on = !is_over;
        let_go(&lock);
    }
    return NULL;
}

static void start_clients(void)
{
    uint32_t at;

    is_over = 0;
    memset(clients, 0, sizeof clients);
    for (at = 0; at < CLIENTS; at++) {
        clients[at].number = at;
        clients[at].pinned = NONE;
        HOLDS(pthread_create(&clients[at].thread, NULL, serve, &clients[at]) == 0);
    }
}

static void end_clients(void)
{
    uint32_t at;

    pthread_mutex_lock(&lock);
    is_over = 1;
    pthread_mutex_unlock(&lock);
    for (at = 0; at < CLIENTS; at++)
        pthread_join(clients[at].thread, NULL);
}

/* Each page has the words that clients left. */
static void need_words_of_clients(compactd_pool *pool)
{
    uint32_t vpage;

    for (vpage = 0; vpage < FRAMES; vpage++)
        if (is_there(vpage))
            need_words(pool, vpage, clients[vpage % CLIENTS].seconds[vpage]);
}

#endif
