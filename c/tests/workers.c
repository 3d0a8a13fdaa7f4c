/* Rounds of compactd_round_on by several threads. Alone, they leave each page where compactd_compact leaves it. Beside two clients each word is
 * at its place afterwards, the counts add up, and no page is moving. They end as they should where a number is out of its range, the pool is
 * closed, before the round or meanwhile, or has memory of its own, the journal is full, threads can't be started, the end of a move is refused,
 * and where the thread is cancelled. */
#include "by_threads.h"

/* Makes a round whose calls are looked at. */
static uint32_t make_round(compactd_pool *pool, uint32_t threads, uint32_t pages, enum trouble kind, compactd_round_counts *counts)
{
    uint32_t answer;

    watch(pool, pages, kind);
    memset(counts, 0xFF, sizeof *counts);
    answer = compactd_round_on(pool, &lock, threads, pages, counts);
    need_end(counts);
    return answer;
}

/* Rounds alone. Fewer threads may start than are asked for. */
static void try_alone(uint32_t threads, uint32_t pages, uint32_t others)
{
    compactd_pool alone = {0}, pool = {0};
    compactd_round_counts told;
    compactd_bool met = 0;

    OK(compactd_open_sized(&alone, page_words, BLOCKS, 1, FRAMES, 0));
    fill(&alone);
    OK(compactd_compact(&alone, &met));
    open_filled(&pool);
    may_start = others;
    OK(make_round(&pool, threads, pages, NO_TROUBLE, &told));
    HOLDS(met && told.back == 0 && started == (others < threads - 1 ? others : threads - 1));
    need_counts(&pool, &told);
    need_same(&pool, &alone);
    OK(compactd_close(&alone));
    close_in(&pool);
    may_start = ALL;
}

static void try_refused(void)
{
    static const uint32_t numbers[][2] = {{0, 1}, {65, 1}, {1, 0}, {1, 65}, {0xFFFFFFFFu, 0xFFFFFFFFu}};
    compactd_pool pool = {0};
    compactd_round_counts told;
    uint32_t at;

    IS(CLOSED, make_round(&pool, 3, 8, NO_TROUBLE, &told));
    HOLDS(is_nothing(&told) && started == 0);
    OK(compactd_open_sized(&pool, page_words, BLOCKS, 1, FRAMES, 0));
    fill(&pool);
    for (at = 0; at < sizeof numbers / sizeof numbers[0]; at++) {
        IS(RANGE, make_round(&pool, numbers[at][0], numbers[at][1], NO_TROUBLE, &told));
        HOLDS(is_nothing(&told) && started == 0 && holds == 0);
    }
    IS(OWN_MEMORY, make_round(&pool, 3, 8, NO_TROUBLE, &told));
    HOLDS(is_nothing(&told));
    OK(compactd_close(&pool));
}

/* A journal with room for ten moves, besides what mapping the pages takes. */
static void try_full_journal(uint32_t threads, uint32_t pages)
{
    compactd_pool pool = {0};
    compactd_round_counts told;
    uint64_t records, room = 1;
    uint32_t vpage;

    open_in(&pool, 60 + 20);
    for (vpage = 0; vpage < 60; vpage++)
        OK(compactd_map_at(&pool, 0, 0, vpage, 0, vpage));
    IS(JOURNAL_FULL, make_round(&pool, threads, pages, NO_TROUBLE, &told));
    HOLDS(told.moved == 10);
    need_counts(&pool, &told);
    OK(compactd_journal(&pool, &records, &room));
    HOLDS(room == 0);
    close_in(&pool);
}

/* The pool is closed while moves are in hand, which end with it. */
static void try_closed(uint32_t threads, uint32_t pages)
{
    compactd_pool pool = {0};
    compactd_round_counts told;
    uint64_t *begin = open_filled(&pool);

    IS(CLOSED, make_round(&pool, threads, pages, IS_CLOSED, &told));
    HOLDS(told.isolated > told.moved && told.isolated <= told.moved + (uint64_t)threads * pages && told.back == 0);
    free(begin);
}

/* The end of a move is refused. Its page is put back, the other moves in hand are ended, and no more are taken. */
static void try_refused_end(uint32_t threads, uint32_t pages)
{
    compactd_pool pool = {0};
    compactd_round_counts told;

    open_filled(&pool);
    IS(STRANGER, make_round(&pool, threads, pages, IS_REFUSED, &told));
    HOLDS(told.back == 1 && told.moved < 20 + threads * pages);
    need_counts(&pool, &told);
    need_all_words(&pool);
    close_in(&pool);
}

static compactd_round_counts cancelled;

/* It returns the pool where it wasn't cancelled. */
static void *be_cancelled(void *pool)
{
    int kind;

    pthread_setcanceltype(PTHREAD_CANCEL_ASYNCHRONOUS, &kind);
    OK(make_round((compactd_pool *)pool, 2, 8, IS_CANCELLED, &cancelled));
    pthread_testcancel();
    return pool;
}

/* A thread that may be cancelled at any moment is cancelled while it makes a round. It ends the round first. */
static void try_cancelled(void)
{
    compactd_pool pool = {0};
    pthread_t thread;
    void *ended = &pool;

    open_filled(&pool);
    HOLDS(pthread_create(&thread, NULL, be_cancelled, &pool) == 0 && pthread_join(thread, &ended) == 0 && ended != &pool);
    HOLDS(pthread_mutex_trylock(&lock) == 0 && pthread_mutex_unlock(&lock) == 0);
    need_counts(&pool, &cancelled);
    close_in(&pool);
}

/* Two rounds beside clients, who leave holes behind. */
static void try_beside_clients(uint32_t threads, uint32_t pages)
{
    compactd_pool pool = {0};
    compactd_round_counts told, sum = {0, 0, 0, {0, 0}};
    uint32_t turn;

    open_filled(&pool);
    current = &pool;
    start_clients();
    for (turn = 0; turn < 2; turn++) {
        OK(make_round(&pool, threads, pages, NO_TROUBLE, &told));
        add_counts(&sum, &told);
    }
    end_clients();
    need_counts(&pool, &sum);
    need_words_of_clients(&pool);
    close_in(&pool);
}

static void both_sizes(uint32_t size)
{
    static const uint32_t rounds[][2] = {{1, 5}, {2, 16}, {4, 7}, {4, 64}}; /* threads, and moves of each at a time */
    size_t at;

    page_words = size;
    try_refused();
    for (at = 0; at < sizeof rounds / sizeof rounds[0]; at++) {
        try_alone(rounds[at][0], rounds[at][1], ALL);
        try_full_journal(rounds[at][0], rounds[at][1]);
        try_closed(rounds[at][0], rounds[at][1]);
        try_refused_end(rounds[at][0], rounds[at][1]);
        try_beside_clients(rounds[at][0], rounds[at][1]);
    }
    try_alone(1, 1, ALL);
    try_alone(2, 64, ALL);
    try_alone(64, 3, ALL);
    try_alone(4, 16, 0);
    try_alone(4, 16, 2);
    try_cancelled();
}

int main(void)
{
    if (compactd_round_lock(&lock) != 0)
        return 1;
    both_sizes(8);
    both_sizes(512);
    pthread_mutex_destroy(&lock);
    printf("%s\n", wrong || calls == 0 ? "a round is another" : "rounds by several threads are as those by one");
    return wrong;
}
