/* Four threads ask questions of one pool side by side, under the reading side of a reader-writer lock, and one thread changes the pool
 * under its writing side. Each answer has to be plausible: the answers under one lock belong to one state of the pool. At the end each page
 * has its words. Takes the number of seconds, and prints how often readers asked and how many calls the writer made. */
#include "compactd.h"

#include <pthread.h>
#include <stdio.h>
#include <stdlib.h>
#include <string.h>
#include <time.h>

#define READERS 4
#define BLOCKS 2
#define FRAMES (512 * BLOCKS)
#define PAGES 600
#define PAGE_WORDS 8
#define LEAST_CALLS 1000
#define RECORDED ((uint64_t)1 << 53)

static compactd_pool pool;
static pthread_rwlock_t lock;
static time_t end;

static int is_over(void)
{
    return time(NULL) >= end;
}

/* Readers. */

struct reader {
    pthread_t thread;
    unsigned long asked;
    uint64_t records; /* as the latest answer had them */
    int is_well;
};

/* The free runs of all orders have the free frames, and the index of each order is what these say. */
static int are_runs_plausible(uint32_t free_frames)
{
    uint32_t runs[10], order, all = 0, frames = 0;
    int is_well = 1;

    for (order = 0; order < 10; order++) {
        is_well &= compactd_free_runs(&pool, order, &runs[order]) == COMPACTD_OK;
        frames += runs[order] << order;
        all += runs[order];
    }
    for (order = 10; order-- > 0;) {
        int32_t index = 0, wanted = 0;

        if (order < 9)
            runs[order] += runs[order + 1];
        if (runs[order] > 0)
            wanted = -1000;
        else if (all > 0)
            wanted = 1000 - (int32_t)((1000 + free_frames * 1000 / ((uint32_t)1 << order)) / all);
        is_well &= compactd_fragmentation(&pool, order, &index) == COMPACTD_OK && index == wanted;
    }
    return is_well && frames == free_frames;
}

/* As many pages are moving as the counts say, and each is where its address leads. */
static int are_moves_plausible(uint32_t moving)
{
    compactd_moving_page page;
    compactd_page_info info;
    compactd_move move;
    uint32_t from = 0, found = 0, answer;
    int is_well = 1;

    while ((answer = compactd_next_moving(&pool, from, &page, &move)) == COMPACTD_OK) {
        is_well &= compactd_look(&pool, move.space, move.vpage, &info) == COMPACTD_OK && info.moving && info.serial == page.serial;
        is_well &= move.source >= from && move.source < move.target && move.target < FRAMES;
        from = move.source + 1;
        found++;
    }
    return is_well && found == moving && answer == COMPACTD_NOT_MOVING;
}

/* Every page of the first space is there, in a frame or moving. */
static int is_page_plausible(uint32_t vpage)
{
    compactd_page_info info;

    if (compactd_look(&pool, 0, vpage, &info) != COMPACTD_OK || info.reserved[0] != 0 || info.reserved[1] != 0)
        return 0;
    return info.frame < FRAMES && info.maps == 1 && info.pins <= 1 && (info.moving ? info.frame == 0 && info.flags == 0 : info.serial == 0);
}

/* Records are only added, and with their places they are as many as a pool has room for. */
static int is_journal_plausible(struct reader *self)
{
    uint64_t records = 0, room = 0, before = self->records;

    if (compactd_journal(&pool, &records, &room) != COMPACTD_OK)
        return 0;
    self->records = records;
    return records >= before && records + room == RECORDED;
}

static int is_plausible(struct reader *self)
{
    compactd_counts counts;
    compactd_geometry geometry;
    compactd_round_counts rounds;
    compactd_bool is_marked = 0, is_quiet = 0;
    uint32_t audited;
    uint64_t ended;

    if (compactd_info(&pool, &counts) != COMPACTD_OK || compactd_describe(&pool, &geometry) != COMPACTD_OK
        || compactd_marked(&pool, 1, &is_marked) != COMPACTD_OK || compactd_quiet(&pool, &is_quiet) != COMPACTD_OK)
        return 0;
    audited = compactd_audit(&pool, &rounds);
    if (audited != (counts.moving > 0 ? COMPACTD_PAGES_MOVING : COMPACTD_OK))
        return 0;
    if (audited == COMPACTD_OK && rounds.moved + rounds.back != rounds.isolated)
        return 0;
    if (compactd_ended(&pool, &ended) != COMPACTD_OK || (audited == COMPACTD_OK && ended != rounds.isolated))
        return 0;
    return geometry.page_words == PAGE_WORDS && geometry.blocks == BLOCKS && geometry.places == 0 && !is_marked
        && counts.pages >= PAGES && counts.free + counts.pages + counts.moving + counts.held == FRAMES
        && are_runs_plausible(counts.free) && are_moves_plausible(counts.moving) && is_page_plausible((uint32_t)(self->asked % PAGES))
        && is_journal_plausible(self);
}

static void *ask(void *own)
{
    struct reader *self = (struct reader *)own;

    do {
        pthread_rwlock_rdlock(&lock);
        self->is_well = is_plausible(self);
        pthread_rwlock_unlock(&lock);
        self->asked++;
    } while (self->is_well && !is_over());
    return NULL;
}

/* The writer. */

static uint64_t stored[PAGES]; /* in word 1 of each page */
static uint64_t words[PAGE_WORDS];
static compactd_moving_page carried;
static int is_carried;

/* A page of the second space comes, and goes in the next turn. */
static uint32_t come_and_go(unsigned long turn)
{
    uint32_t frame;

    return turn % 2 ? compactd_unmap(&pool, 0, 1, 0) : compactd_map(&pool, 0, 1, 0, 0, &frame);
}

static uint32_t pin_and_unpin(unsigned long turn)
{
    return turn % 2 ? compactd_unpin(&pool, 0, 0, 7) : compactd_pin(&pool, 0, 0, 7);
}

static uint32_t take_and_give(unsigned long turn)
{
    static uint32_t first;

    return turn % 2 ? compactd_give_order(&pool, first, 3) : compactd_take_order(&pool, 3, &first);
}

/* A word of a page that isn't moving, after the word that was stored there is loaded. */
static uint32_t load_and_store(unsigned long turn)
{
    const uint32_t vpage = (uint32_t)(turn * 7 % PAGES);
    uint64_t value = 0;

    if (compactd_load(&pool, 0, 0, vpage, 1, &value) != COMPACTD_OK || value != stored[vpage])
        return COMPACTD_STRANGER;
    stored[vpage] = turn;
    return compactd_store(&pool, 0, 0, vpage, 1, turn);
}

/* Isolates a page of a round. Readers see it on its way until end_move. */
static uint32_t isolate(unsigned long turn)
{
    const uint32_t answer = compactd_isolate(&pool, &carried, words, PAGE_WORDS);

    (void)turn;
    is_carried = answer == COMPACTD_OK;
    return answer == COMPACTD_MET ? compactd_begin_round(&pool) : answer;
}

static uint32_t end_move(unsigned long turn)
{
    compactd_bool moved;

    if (!is_carried)
        return COMPACTD_OK;
    return turn % 3 ? compactd_commit(&pool, &carried, words, PAGE_WORDS, &moved) : compactd_put_back(&pool, &carried);
}

static uint32_t compact(unsigned long turn)
{
    compactd_bool met;

    return turn % 64 ? COMPACTD_OK : compactd_compact(&pool, &met);
}

/* Makes turns until the time is over or a call is refused, an even number of them and not too few. How many calls these were. */
static unsigned long change(int *is_well)
{
    static uint32_t (*const calls[])(unsigned long)
        = {come_and_go, pin_and_unpin, isolate, take_and_give, end_move, compact, load_and_store};
    const size_t count = sizeof calls / sizeof calls[0];
    unsigned long made = 0;

    while (*is_well && (made < LEAST_CALLS || made % (2 * count) || !is_over())) {
        pthread_rwlock_wrlock(&lock);
        *is_well = calls[made % count](made / count) == COMPACTD_OK;
        pthread_rwlock_unlock(&lock);
        made++;
    }
    return made;
}

static int fill(void)
{
    uint32_t vpage, frame;

    if (compactd_open(&pool, PAGE_WORDS, BLOCKS) != COMPACTD_OK)
        return 0;
    for (vpage = 0; vpage < PAGES; vpage++)
        if (compactd_map(&pool, 0, 0, vpage, 0, &frame) != COMPACTD_OK)
            return 0;
    return 1;
}

/* Whether each page has the word that was stored last, and each move ended. */
static int is_intact(void)
{
    compactd_round_counts rounds;
    uint64_t value = 0;
    uint32_t vpage;

    for (vpage = 0; vpage < PAGES; vpage++)
        if (compactd_load(&pool, 0, 0, vpage, 1, &value) != COMPACTD_OK || value != stored[vpage])
            return 0;
    return compactd_audit(&pool, &rounds) == COMPACTD_OK && rounds.moved > 0 && rounds.back > 0
        && rounds.moved + rounds.back == rounds.isolated;
}

/* A lock whose writer isn't kept waiting for as long as readers come. */
static int make_lock(void)
{
    pthread_rwlockattr_t kind;

    return pthread_rwlockattr_init(&kind) == 0 && pthread_rwlockattr_setkind_np(&kind, PTHREAD_RWLOCK_PREFER_WRITER_NONRECURSIVE_NP) == 0
        && pthread_rwlock_init(&lock, &kind) == 0 && pthread_rwlockattr_destroy(&kind) == 0;
}

int main(int count, char **given)
{
    struct reader readers[READERS];
    unsigned long asked = 0, made;
    int is_well = make_lock() && fill(), at;

    end = time(NULL) + (count > 1 ? atoi(given[1]) : 10);
    memset(readers, 0, sizeof readers);
    for (at = 0; at < READERS; at++) {
        readers[at].is_well = 1;
        if (pthread_create(&readers[at].thread, NULL, ask, &readers[at]) != 0)
            return 1;
    }
    made = change(&is_well);
    for (at = 0; at < READERS; at++) {
        pthread_join(readers[at].thread, NULL);
        is_well &= readers[at].is_well;
        asked += readers[at].asked;
    }
    is_well = is_well && is_intact();
    printf("%lu times all questions by %d readers beside %lu calls of a writer: %s\n", asked, READERS, made,
           is_well ? "each answer is plausible" : "an answer isn't plausible, or a call was refused");
    is_well &= compactd_close(&pool) == COMPACTD_OK;
    return is_well ? 0 : 1;
}
