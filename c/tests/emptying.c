/* Runs that compactd_empty_on empties by several threads. Alone, they leave each page where compactd_empty_some leaves it, after as many moves. A
 * page that has a pin stays, and all other frames of the runs are claimed. Beside two clients each word is at its place afterwards, the counts
 * add up, and no page is moving. They end as rounds do where the pool is closed, before it or meanwhile, or has memory of its own, the journal is
 * full, threads can't be started, the end of a move is refused, and where the thread is cancelled; and where a number is out of its range. */
#include "by_threads.h"

#define ORDER 5
#define RUN 32u
#define RUNS 4
#define PAGES_OF_RUNS (RUNS * RUN * 3 / 4)

/* The last run has a page with a pin, and all others go. */
static const uint32_t firsts[RUNS] = {544, 32, 160, 96};
#define PINNED 100
#define RUN_OF_PINNED 96

/* Empties runs by calls that are looked at. */
static uint32_t empty(compactd_pool *pool, size_t count, uint32_t threads, uint32_t pages, enum trouble kind, compactd_round_counts *counts)
{
    uint32_t answer;

    watch(pool, pages, kind);
    memset(counts, 0xFF, sizeof *counts);
    answer = compactd_empty_on(pool, &lock, firsts, count, ORDER, threads, pages, counts);
    need_end(counts);
    return answer;
}

/* A step of at most so many pages moves `wanted` pages out of a run, and leaves so many of its frames unclaimed. */
static void steps(compactd_pool *pool, uint32_t first, uint32_t most, uint32_t wanted, uint32_t left)
{
    uint32_t moved = 7, unclaimed = 7;

    OK(compactd_empty_some(pool, first, ORDER, most, &moved, &unclaimed));
    HOLDS(moved == wanted && unclaimed == left);
}

/* The same runs emptied by one thread: all are claimed first. */
static void empty_alone(compactd_pool *alone)
{
    uint32_t at;

    OK(compactd_open_sized(alone, page_words, BLOCKS, 1, FRAMES, 0));
    fill(alone);
    for (at = 0; at < RUNS; at++)
        steps(alone, firsts[at], 0, 0, RUN * 3 / 4);
    for (at = 0; at < RUNS; at++)
        steps(alone, firsts[at], RUN, RUN * 3 / 4 - (firsts[at] == RUN_OF_PINNED), firsts[at] == RUN_OF_PINNED);
}

/* So many pages are in the frames of a run. */
static uint32_t pages_in(compactd_pool *pool, uint32_t first)
{
    compactd_page_info info;
    uint32_t vpage, count = 0;

    for (vpage = 0; vpage < FRAMES; vpage++)
        if (is_there(vpage)) {
            OK(compactd_look(pool, 0, vpage, &info));
            count += info.frame >= first && info.frame < first + RUN;
        }
    return count;
}

/* The runs are handed out; the one with the pinned page once this has gone too. */
static void take_runs(compactd_pool *pool)
{
    uint32_t at;

    for (at = 0; at < RUNS; at++)
        HOLDS(pages_in(pool, firsts[at]) == (firsts[at] == RUN_OF_PINNED));
    IS(NO_BLOCK, compactd_take_claimed(pool, RUN_OF_PINNED, ORDER));
    OK(compactd_unpin(pool, 0, 0, PINNED));
    steps(pool, RUN_OF_PINNED, 1, 1, 0);
    for (at = 0; at < RUNS; at++)
        OK(compactd_take_claimed(pool, firsts[at], ORDER));
    need_all_words(pool);
}

static void claims_are(compactd_pool *pool, uint32_t wanted)
{
    compactd_counts counts;

    OK(compactd_info(pool, &counts));
    HOLDS(counts.held == wanted);
}

/* Runs that are emptied alone. Fewer threads may start than are asked for. */
static void try_alone(uint32_t threads, uint32_t pages, uint32_t others)
{
    compactd_pool alone = {0}, pool = {0};
    compactd_round_counts told, wanted;

    empty_alone(&alone);
    OK(compactd_audit(&alone, &wanted));
    open_filled(&pool);
    may_start = others;
    OK(empty(&pool, RUNS, threads, pages, NO_TROUBLE, &told));
    HOLDS(told.moved == PAGES_OF_RUNS - 1 && told.moved == wanted.moved && told.back == 0);
    HOLDS(started == (others < threads - 1 ? others : threads - 1));
    claims_are(&pool, RUNS * RUN - 1);
    need_counts(&pool, &told);
    need_same(&pool, &alone);
    OK(empty(&pool, RUNS, threads, pages, NO_TROUBLE, &told)); /* nothing is left */
    HOLDS(is_nothing(&told));
    take_runs(&pool);
    OK(compactd_close(&alone));
    close_in(&pool);
    may_start = ALL;
}

static void try_refused(void)
{
    /* first, order, threads, pages */
    static const uint32_t numbers[][4] = {
        {32, 5, 0, 1}, {32, 5, 65, 1}, {32, 5, 1, 0}, {32, 5, 1, 65}, {32, 2, 1, 1}, {32, 10, 1, 1}, {32, 0xFFFFFFFFu, 1, 1},
        {16, 5, 1, 1}, {FRAMES, 5, 1, 1}, {0xFFFFFE00u, 9, 1, 1},
    };
    compactd_pool pool = {0};
    compactd_round_counts told;
    uint32_t two[2] = {0};
    uint32_t at;

    IS(CLOSED, empty(&pool, RUNS, 3, 8, NO_TROUBLE, &told));
    HOLDS(is_nothing(&told) && started == 0);
    OK(compactd_open_sized(&pool, page_words, BLOCKS, 1, FRAMES, 0));
    fill(&pool);
    watch(&pool, 1, NO_TROUBLE);
    for (at = 0; at < sizeof numbers / sizeof numbers[0]; at++) {
        two[1] = numbers[at][0];
        memset(&told, 0xFF, sizeof told);
        IS(RANGE, compactd_empty_on(&pool, &lock, two, 2, numbers[at][1], numbers[at][2], numbers[at][3], &told));
        HOLDS(is_nothing(&told) && started == 0 && !has_lock);
    }
    IS(RANGE, compactd_empty_on(&pool, &lock, NULL, 0, 2, 1, 1, &told));
    OK(compactd_empty_on(&pool, &lock, NULL, 0, 3, 1, 1, &told));
    HOLDS(is_nothing(&told));
    claims_are(&pool, 0);
    IS(OWN_MEMORY, empty(&pool, RUNS, 3, 8, NO_TROUBLE, &told));
    HOLDS(is_nothing(&told));
    claims_are(&pool, RUNS * RUN / 4);
    OK(compactd_close(&pool));
}

/* A journal with room for ten moves, besides what mapping the pages takes. */
static void try_full_journal(uint32_t threads, uint32_t pages)
{
    compactd_pool pool = {0};
    compactd_round_counts told;
    uint32_t vpage;

    open_in(&pool, 60 + 20);
    for (vpage = 0; vpage < 60; vpage++)
        OK(compactd_map_at(&pool, 0, 0, vpage, 0, vpage));
    IS(JOURNAL_FULL, empty(&pool, RUNS, threads, pages, NO_TROUBLE, &told));
    HOLDS(told.moved == 10);
    need_counts(&pool, &told);
    steps(&pool, 32, 0, 0, 60 - 32 - 10);
    close_in(&pool);
}

/* The pool is closed while moves are in hand, which end with it. */
static void try_closed(uint32_t threads, uint32_t pages)
{
    compactd_pool pool = {0};
    compactd_round_counts told;
    uint64_t *begin = open_filled(&pool);

    IS(CLOSED, empty(&pool, RUNS, threads, pages, IS_CLOSED, &told));
    HOLDS(told.isolated > told.moved && told.isolated <= told.moved + (uint64_t)threads * pages && told.back == 0);
    free(begin);
}

/* The end of a move is refused. Its page is put back and stays in its run, the other moves in hand are ended, and no more are taken. */
static void try_refused_end(uint32_t threads, uint32_t pages)
{
    compactd_pool pool = {0};
    compactd_round_counts told;

    open_filled(&pool);
    IS(STRANGER, empty(&pool, RUNS, threads, pages, IS_REFUSED, &told));
    HOLDS(told.back == 1 && told.moved < 20 + threads * pages);
    need_counts(&pool, &told);
    need_all_words(&pool);
    close_in(&pool);
}

static compactd_round_counts cancelled;

/* It returns the pool where it wasn't cancelled. */
static void *be_cancelled(void *pool)
{
    int kind;

    pthread_setcanceltype(PTHREAD_CANCEL_ASYNCHRONOUS, &kind);
    OK(empty((compactd_pool *)pool, RUNS, 2, 8, IS_CANCELLED, &cancelled));
    pthread_testcancel();
    return pool;
}

/* A thread that may be cancelled at any moment is cancelled while it empties runs. It ends that first. */
static void try_cancelled(void)
{
    compactd_pool pool = {0};
    pthread_t thread;
    void *ended = &pool;

    open_filled(&pool);
    HOLDS(pthread_create(&thread, NULL, be_cancelled, &pool) == 0 && pthread_join(thread, &ended) == 0 && ended != &pool);
    HOLDS(pthread_mutex_trylock(&lock) == 0 && pthread_mutex_unlock(&lock) == 0);
    need_counts(&pool, &cancelled);
    close_in(&pool);
}

/* Clients leave free frames in the runs, map pages there anew, and have pins. Once they have ended, the rest of the runs is emptied but for
 * pages with a pin. */
static void try_beside_clients(uint32_t threads, uint32_t pages)
{
    compactd_pool pool = {0};
    compactd_round_counts told, sum = {0, 0, 0, {0, 0}};
    uint32_t turn;

    open_filled(&pool);
    current = &pool;
    start_clients();
    for (turn = 0; turn < 2; turn++) {
        OK(empty(&pool, RUNS, threads, pages, NO_TROUBLE, &told));
        add_counts(&sum, &told);
    }
    end_clients();
    OK(empty(&pool, RUNS, threads, pages, NO_TROUBLE, &told));
    HOLDS(told.back == 0);
    add_counts(&sum, &told);
    need_counts(&pool, &sum);
    for (turn = 0; turn < RUNS; turn++)
        steps(&pool, firsts[turn], RUN, 0, pages_in(&pool, firsts[turn]));
    HOLDS(pages_in(&pool, RUN_OF_PINNED) >= 1 && pages_in(&pool, RUN_OF_PINNED) <= 1 + CLIENTS);
    need_words_of_clients(&pool);
    close_in(&pool);
}

static void both_sizes(uint32_t size)
{
    static const uint32_t work[][2] = {{1, 5}, {2, 16}, {4, 7}, {4, 64}}; /* threads, and moves of each at a time */
    size_t at;

    page_words = size;
    try_refused();
    for (at = 0; at < sizeof work / sizeof work[0]; at++) {
        try_alone(work[at][0], work[at][1], ALL);
        try_full_journal(work[at][0], work[at][1]);
        try_closed(work[at][0], work[at][1]);
        try_refused_end(work[at][0], work[at][1]);
        try_beside_clients(work[at][0], work[at][1]);
    }
    try_alone(1, 1, ALL);
    try_alone(64, 3, ALL);
    try_alone(4, 16, 2);
    try_cancelled();
}

int main(void)
{
    if (compactd_round_lock(&lock) != 0)
        return 1;
    both_sizes(8);
    both_sizes(512);
    pthread_mutex_destroy(&lock);
    printf("%s\n", wrong || calls == 0 ? "a run is another" : "runs are emptied by several threads as by one");
    return wrong;
}
