/* What a page of 4 KiB takes in a round on one thread, from C: by compactd_compact, by compactd_move_pages in slices, by isolating and
 * committing each page, by the same round over plain tables with one memcpy a page, and by the memcpy of the same pages alone. All have 4,096
 * frames of which every fourth has a page. Each line that it prints has what was done, a tab, and nanoseconds. All are done in turn, several
 * times. */
#include "compactd.h"

#include <stdio.h>
#include <stdlib.h>
#include <string.h>
#include <time.h>

#define WORDS 512
#define FRAMES 4096
#define EACH 4
#define MOVED (FRAMES / EACH * (EACH - 1) / EACH)
#define TURNS 10
#define SLICE 16

static int is_well = 1;

static double now(void)
{
    struct timespec time;

    clock_gettime(CLOCK_MONOTONIC, &time);
    return (double)time.tv_sec + (double)time.tv_nsec * 1e-9;
}

static void need(int holds)
{
    is_well &= holds;
}

/* compactd. */

static compactd_pool pool;

static void open_pool(void)
{
    uint32_t page, frame;

    need(compactd_open(&pool, WORDS, 8) == COMPACTD_OK);
    for (page = 0; page < FRAMES; page++)
        need(compactd_map(&pool, 0, 0, page, 0, &frame) == COMPACTD_OK);
    for (page = 0; page < FRAMES; page++)
        need((page % EACH ? compactd_unmap(&pool, 0, 0, page) : compactd_store(&pool, 0, 0, page, 1, page)) == COMPACTD_OK);
}

static void compact_pool(void)
{
    compactd_bool met;

    need(compactd_compact(&pool, &met) == COMPACTD_OK);
}

static void move_slices(void)
{
    uint32_t moved, stopped = COMPACTD_OK;

    need(compactd_begin_round(&pool) == COMPACTD_OK);
    while (stopped == COMPACTD_OK && is_well)
        need(compactd_move_pages(&pool, SLICE, &moved, &stopped) == COMPACTD_OK);
    need(stopped == COMPACTD_MET);
}

static void carry_pages(void)
{
    static uint64_t copy[WORDS];
    compactd_moving_page page;
    compactd_bool moved;

    need(compactd_begin_round(&pool) == COMPACTD_OK);
    while (compactd_isolate(&pool, &page, copy, WORDS) == COMPACTD_OK)
        need(compactd_commit(&pool, &page, copy, WORDS, &moved) == COMPACTD_OK);
}

static void close_pool(void)
{
    compactd_round_counts counts = {0, 0, 0, {0, 0}};
    uint64_t value;

    need(compactd_audit(&pool, &counts) == COMPACTD_OK && counts.moved == MOVED);
    need(compactd_load(&pool, 0, 0, EACH, 1, &value) == COMPACTD_OK && value == EACH);
    need(compactd_close(&pool) == COMPACTD_OK);
}

/* The same round in plain C. A page that moves has a serial, both its frames are known as such, and its address leads to its source. */

enum state { FREE, HOLDS, SOURCE, TARGET };
enum entry { ABSENT, PRESENT, MIGRATION };

struct frame {
    unsigned char state, can_move;
    unsigned page;
    unsigned serial;
};
struct note {
    unsigned frame, target, address;
    unsigned char pins, unmovable, is_moving;
};
struct address {
    unsigned char entry;
    unsigned frame;
};
struct plain {
    struct frame frames[FRAMES];
    struct note notes[FRAMES];
    struct address addresses[FRAMES];
    unsigned migrate, free, isolated, moved;
};

static struct plain *plain;
static uint64_t (*words)[WORDS];

static void fill_frames(void)
{
    unsigned frame;

    words = malloc(sizeof words[0] * FRAMES);
    if (words == NULL)
        abort();
    memset(words, 0, sizeof words[0] * FRAMES);
    for (frame = 0; frame < FRAMES; frame += EACH)
        words[frame][1] = frame;
}

static void open_plain(void)
{
    unsigned frame;

    plain = calloc(1, sizeof *plain);
    if (plain == NULL)
        abort();
    fill_frames();
    for (frame = 0; frame < FRAMES; frame += EACH) {
        plain->frames[frame].state = HOLDS;
        plain->frames[frame].can_move = 1;
        plain->frames[frame].page = frame;
        plain->notes[frame].frame = frame;
        plain->notes[frame].address = frame;
        plain->addresses[frame].entry = PRESENT;
        plain->addresses[frame].frame = frame;
    }
}

/* The lowest page that can be moved goes to the highest free frame above it, until there is none. */
static int move_next(struct plain *at)
{
    struct frame *source, *target;
    struct note *note;
    struct address *address;

    while (at->migrate < at->free && !(at->frames[at->migrate].state == HOLDS && at->frames[at->migrate].can_move))
        at->migrate++;
    while (at->free > at->migrate && at->frames[at->free - 1].state != FREE)
        at->free--;
    if (at->migrate >= at->free)
        return 0;
    source = &at->frames[at->migrate];
    target = &at->frames[at->free - 1];
    note = &at->notes[source->page];
    address = &at->addresses[note->address];

    source->state = SOURCE;
    target->state = TARGET;
    source->serial = target->serial = at->isolated++;
    note->is_moving = 1;
    note->target = at->free - 1;
    address->entry = MIGRATION;

    memcpy(words[note->target], words[note->frame], sizeof words[0]);

    source->state = FREE;
    target->state = HOLDS;
    target->page = source->page;
    target->can_move = note->pins == 0 && !note->unmovable;
    note->is_moving = 0;
    note->frame = note->target;
    address->entry = PRESENT;
    address->frame = note->frame;
    at->moved++;
    at->migrate++;
    at->free--;
    return 1;
}

static void compact_plain(void)
{
    plain->migrate = 0;
    plain->free = FRAMES;
    while (move_next(plain))
        continue;
}

static void close_plain(void)
{
    need(plain->moved == MOVED && words[plain->notes[EACH].frame][1] == EACH);
    free(words);
    free(plain);
}

/* The memcpy of the same pages: the free frames from the top down, and the pages from the bottom up. */
static void copy_pages(void)
{
    unsigned from, to = FRAMES;

    for (from = 0;; from += EACH) {
        do
            to--;
        while (to % EACH == 0);
        if (to < from)
            break;
        memcpy(words[to], words[from], sizeof words[0]);
    }
}

static void close_frames(void)
{
    need(words[FRAMES - 2][1] == EACH);
    free(words);
}

/* Nanoseconds a page of what is done between the opening and the end. */
static double page_of(void (*open)(void), void (*make)(void), void (*end)(void))
{
    double begun, seconds;

    open();
    begun = now();
    make();
    seconds = now() - begun;
    end();
    return seconds / MOVED * 1e9;
}

int main(void)
{
    int turn;

    for (turn = 0; turn < TURNS; turn++) {
        printf("memcpy\t%.0f\n", page_of(fill_frames, copy_pages, close_frames));
        printf("plain C\t%.0f\n", page_of(open_plain, compact_plain, close_plain));
        printf("compactd_compact\t%.0f\n", page_of(open_pool, compact_pool, close_pool));
        printf("slices of %d\t%.0f\n", SLICE, page_of(open_pool, move_slices, close_pool));
        printf("carried\t%.0f\n", page_of(open_pool, carry_pages, close_pool));
    }
    return is_well ? 0 : 1;
}
