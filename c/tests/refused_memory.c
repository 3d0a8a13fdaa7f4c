/* Refuses each request for memory that an opening makes, one in each try. The opening has to answer MEMORY, to leave the pool closed, and
 * to give back what it had. A reservation makes one request, and a call of a keeper at most two; each gives back what it got, and
 * answers MEMORY where it is refused. No other call may ask for memory, whether it is accepted or refused, on a pool that is open or
 * closed. It is linked with malloc, realloc and free wrapped. Prints how many requests an opening makes. */
#include "compactd.h"

#include <stdio.h>
#include <stdlib.h>
#include <string.h>

void *__real_malloc(size_t size);
void *__real_realloc(void *block, size_t size);
void __real_free(void *block);
void *__wrap_malloc(size_t size);
void *__wrap_realloc(void *block, size_t size);
void __wrap_free(void *block);

static long requests; /* since the count began */
static long refused;  /* the request that is refused, or 0 */
static long held;     /* blocks that weren't freed */

static int is_refused(void)
{
    return ++requests == refused;
}

void *__wrap_malloc(size_t size)
{
    void *block = is_refused() ? NULL : __real_malloc(size);

    if (block)
        held++;
    return block;
}

void *__wrap_realloc(void *block, size_t size)
{
    void *moved = is_refused() ? NULL : __real_realloc(block, size);

    if (moved && !block)
        held++;
    return moved;
}

void __wrap_free(void *block)
{
    if (block)
        held--;
    __real_free(block);
}

/* How a pool is opened: in memory of the program's, or by compactd_open_sized where it is told how many virtual pages its 5 spaces have, and
 * else by the other calls. */
struct opening {
    uint32_t page_words, places, vpages;
    int is_in_memory;
};

#define BLOCKS 8

static uint64_t memory[BLOCKS * 512 * 512];

static int is_memory(const compactd_words *words, uint32_t page_words)
{
    return words->at == memory && words->count == (size_t)BLOCKS * 512 * page_words;
}

/* Opens a pool in the memory, which is full of numbers. Whether it is refused or not, no word changes; where it is, the memory stays here. */
static uint32_t open_in(compactd_pool *pool, const struct opening *as)
{
    const size_t count = (size_t)BLOCKS * 512 * as->page_words;
    compactd_words given = {memory, 0};
    uint32_t answer;
    size_t at;

    for (at = 0; at < count; at++)
        memory[at] = ~(uint64_t)at;
    given.count = count;
    answer = compactd_open_in(pool, as->page_words, BLOCKS, 5, as->vpages, as->places, &given, 0);
    for (at = 0; at < count; at++)
        if (memory[at] != ~(uint64_t)at)
            return COMPACTD_STRANGER;
    if (answer == COMPACTD_OK)
        return given.at == NULL && given.count == 0 ? COMPACTD_OK : COMPACTD_STRANGER;
    return is_memory(&given, as->page_words) ? answer : COMPACTD_STRANGER;
}

/* Closes the pool as it was opened, whose memory comes back. */
static int is_closed(compactd_pool *pool, const struct opening *as)
{
    compactd_words back = {0};

    if (!as->is_in_memory)
        return compactd_close(pool) == COMPACTD_OK;
    return compactd_close_in(pool, &back) == COMPACTD_OK && is_memory(&back, as->page_words);
}

static uint32_t open_pool(compactd_pool *pool, const struct opening *as)
{
    if (as->is_in_memory)
        return open_in(pool, as);
    if (as->vpages)
        return compactd_open_sized(pool, as->page_words, BLOCKS, 5, as->vpages, as->places);
    return as->places ? compactd_open_journal(pool, as->page_words, BLOCKS, as->places) : compactd_open(pool, as->page_words, BLOCKS);
}

/* How many of the calls below were accepted, and how many were refused. */
static long accepted, refusals;

static void made(uint32_t answer)
{
    if (answer == COMPACTD_OK)
        accepted++;
    else
        refusals++;
}

static uint64_t words[512];
static compactd_moving_page page;
static compactd_bool is_so;

static void make_calls_on_pages(compactd_pool *pool, uint32_t page_words)
{
    compactd_page_request requests[2] = {{2, 0, 0, 0, 0}, {2, 1, 1, 0, 0}};
    uint32_t vpage, frame;

    made(compactd_map_many(pool, 0, requests, 2));
    made(compactd_map_many(pool, 0, requests, 1));
    made(compactd_unmap_many(pool, 0, requests, 2));
    made(compactd_unmap_many(pool, 0, requests, 1));
    for (vpage = 1; vpage < 1000; vpage++)
        made(compactd_map(pool, 0, 0, vpage, 0, &frame));
    made(compactd_map_at(pool, 0, 1, 0, 0, 4095));
    made(compactd_share(pool, 0, 0, 1, 1, 1));
    made(compactd_store(pool, 0, 0, 1, 7, 7));
    made(compactd_load(pool, 0, 0, 1, 7, words));
    made(compactd_write(pool, 0, 0, 2, 0, words, page_words));
    made(compactd_read(pool, 0, 0, 2, 0, words, page_words));
    made(compactd_pin(pool, 0, 0, 3));
    made(compactd_unpin(pool, 0, 0, 3));
    made(compactd_unmap(pool, 0, 0, 4));
}

static void make_rounds(compactd_pool *pool, uint32_t page_words)
{
    compactd_move move;
    uint32_t moved, stopped, pages, unclaimed;

    made(compactd_mark(pool, 7));
    made(compactd_marked(pool, 7, &is_so));
    made(compactd_unmark(pool, 7));
    made(compactd_begin_round(pool));
    made(compactd_isolate(pool, &page, words, page_words));
    made(compactd_next_moving(pool, 0, &page, &move));
    made(compactd_commit(pool, &page, words, page_words, &is_so));
    made(compactd_isolate(pool, &page, words, page_words));
    made(compactd_put_back(pool, &page));
    made(compactd_move_pages(pool, 3, &moved, &stopped));
    made(compactd_evacuate(pool, 0, 4, &moved));
    made(compactd_evacuate(pool, 0, 9, &moved));
    made(compactd_set_apart(pool, 1));
    made(compactd_claim(pool, 0, 4, &pages));
    made(compactd_empty_some(pool, 0, 9, 5, &moved, &unclaimed));
    made(compactd_take_claimed(pool, 0, 4));
    made(compactd_take_claimed(pool, 0, 9));
    made(compactd_drop_claim(pool, 0, 9));
    made(compactd_compact(pool, &is_so));
}

/* Moves whose words are lent, where they are: of two in a round the first is committed, and the second put back; one is out of a run. */
static void make_lent_moves(compactd_pool *pool)
{
    compactd_lent_move move = {0}, other = {0};

    made(compactd_begin_round(pool));
    made(compactd_lend_move(pool, &move));
    made(compactd_lend_move(pool, &other));
    if (move.to.count > 0)
        memcpy(move.to.at, move.from.at, move.to.count * sizeof move.to.at[0]);
    made(compactd_commit_lent(pool, &move, &is_so));
    made(compactd_put_back_lent(pool, &other));
    made(compactd_lend_move_from(pool, 0, 9, &other));
    if (other.to.count > 0)
        memcpy(other.to.at, other.from.at, other.to.count * sizeof other.to.at[0]);
    made(compactd_commit_and_claim(pool, &other, &is_so));
    made(compactd_drop_claim(pool, 0, 9));
}

static void make_calls_on_pinned_pages(compactd_pool *pool)
{
    compactd_words lent = {0}, no_words = {0};

    made(compactd_pin(pool, 0, 0, 3));
    made(compactd_page_words(pool, 0, 3, &lent));
    if (lent.count > 0) {
        made(compactd_page_words(pool, 0, 3, &no_words));
        made(compactd_unpin(pool, 0, 0, 3));
        made(compactd_close_in(pool, &no_words));
        made(compactd_return_page(pool, 0, 0, 3, &lent));
    }
    made(compactd_unpin(pool, 0, 0, 3));
}

static void make_calls_on_blocks(compactd_pool *pool, uint32_t page_words)
{
    compactd_words lent = {0}, no_words = {0};
    uint32_t first = 0;

    made(compactd_take_order(pool, 9, &first));
    made(compactd_block_words(pool, first, 9, &lent));
    if (lent.count > 0) {
        made(compactd_block_words(pool, first, 9, &no_words));
        made(compactd_give_order(pool, first, 9));
        made(compactd_close_in(pool, &no_words));
    }
    made(compactd_return_block(pool, first, 9, &lent));
    made(compactd_write_block(pool, first, 9, 0, words, page_words));
    made(compactd_read_block(pool, first, 9, 0, words, page_words));
    made(compactd_give_order(pool, first, 9));
}

static void ask(compactd_pool *pool)
{
    compactd_geometry geometry;
    compactd_counts counts;
    compactd_page_info info;
    compactd_round_counts round_counts;
    compactd_record record;
    uint64_t records, room;
    uint32_t runs, first, pages;
    int32_t index;

    made(compactd_info(pool, &counts));
    made(compactd_describe(pool, &geometry));
    made(compactd_free_runs(pool, 3, &runs));
    made(compactd_fragmentation(pool, 9, &index));
    made(compactd_look(pool, 0, 1, &info));
    made(compactd_quiet(pool, &is_so));
    made(compactd_audit(pool, &round_counts));
    made(compactd_ended(pool, &records));
    made(compactd_journal(pool, &records, &room));
    made(compactd_record_at(pool, 0, &record));
    made(compactd_cheapest_run(pool, 3, &first, &pages));
}

/* Makes each call but those that open and close, reserve, and keep blocks ready. On a closed pool each one is refused, and where the
 * journal is full many are. A second time many are refused by what the first one left. */
static void make_calls(compactd_pool *pool, uint32_t page_words)
{
    int turn;

    for (turn = 0; turn < 2; turn++) {
        make_calls_on_pages(pool, page_words);
        make_calls_on_pinned_pages(pool);
        make_lent_moves(pool);
        make_rounds(pool, page_words);
        make_calls_on_blocks(pool, page_words);
        ask(pool);
    }
}

/* Whether a reservation asks once for memory and gives it back, and does nothing where it gets none. */
static int asks_for_a_list(compactd_pool *pool)
{
    const long opening = requests, kept = held;
    uint32_t first = 7, moved = 7, answer;

    requests = 0;
    refused = 1;
    answer = compactd_reserve(pool, 3, &first, 1, &moved);
    if (answer != COMPACTD_MEMORY || first != 7 || moved != 7)
        return 0;
    refused = 0;
    if (compactd_reserve(pool, 2, &first, 1, &moved) != COMPACTD_RANGE || compactd_reserve(pool, 3, NULL, 0, &moved) != COMPACTD_OK)
        return 0;
    answer = compactd_reserve(pool, 3, &first, 1, &moved);
    if (answer != COMPACTD_OK || first != 0 || moved != 0 || requests != 2 || held != kept)
        return 0;
    made(compactd_give_order(pool, first, 3));
    requests = opening;
    return 1;
}

/* Whether calls of a keeper that has a run ask twice for memory and give it back, and do nothing where they get none. Its first step claims
 * the run at 0 and asks once, and another one that at 8. No page is there. */
static int asks_for_two_lists(compactd_pool *pool)
{
    const long opening = requests, kept = held;
    uint32_t runs[2] = {7, 7}, first = 7, moved = 7, answer;
    size_t count = 0;

    requests = refused = 0;
    answer = compactd_keep(pool, 3, 1, runs, 2, &count, &moved, &is_so);
    if (answer != COMPACTD_OK || requests != 1 || count != 1 || runs[0] != 0 || moved != 0 || !is_so)
        return 0;
    for (refused = 1; refused <= 2; refused++) {
        moved = 7;
        requests = 0;
        if (compactd_keep(pool, 3, 1, runs, 2, &count, &moved, &is_so) != COMPACTD_MEMORY || requests != refused)
            return 0;
        requests = 0;
        if (compactd_take_kept(pool, 3, runs, 2, &count, &first, &moved) != COMPACTD_MEMORY || requests != refused)
            return 0;
        if (count != 1 || runs[0] != 0 || runs[1] != 7 || first != 7 || moved != 7 || held != kept)
            return 0;
    }
    requests = refused = 0;
    answer = compactd_keep(pool, 3, 1, runs, 2, &count, &moved, &is_so);
    if (answer != COMPACTD_OK || requests != 2 || count != 2 || runs[1] != 8 || moved != 0 || held != kept)
        return 0;
    requests = opening;
    return compactd_drop_claim(pool, 0, 4) == COMPACTD_OK;
}

/* Whether calls on an open pool, and then on the closed one, ask for no memory, and nothing is lost. */
static int asks_no_more(compactd_pool *pool, const struct opening *as)
{
    const long opening = requests;

    accepted = refusals = 0;
    make_calls(pool, as->page_words);
    if (!is_closed(pool, as) || held != 0)
        return 0;
    make_calls(pool, as->page_words);
    printf("%ld requests, %ld after it, by %ld accepted calls and %ld refused ones\n", opening, requests - opening, accepted, refusals);
    return requests == opening && held == 0 && accepted > 0 && refusals > 0;
}

static int try_each(const struct opening *as)
{
    compactd_pool pool = {0};
    uint32_t frame = 7;

    for (refused = 1;; refused++) {
        uint32_t answer;

        requests = 0;
        answer = open_pool(&pool, as);
        if (requests < refused) {
            refused = 0;
            return answer == COMPACTD_OK && asks_for_two_lists(&pool) && asks_for_a_list(&pool) && asks_no_more(&pool, as);
        }
        if (answer != COMPACTD_MEMORY || held != 0)
            return 0;
        if (compactd_map(&pool, 0, 0, 0, 0, &frame) != COMPACTD_CLOSED || frame != 7)
            return 0;
        frame = 7;
    }
}

int main(void)
{
    static const struct opening openings[] = {
        {8, 0, 0, 0},   {512, 0, 0, 0},        {8, 65536, 0, 0},  {512, 1, 0, 0},
        {8, 0, 999, 0}, {512, 3000, 70001, 0}, {8, 500, 4096, 1}, {512, 0, 70001, 1},
    };
    const size_t count = sizeof openings / sizeof openings[0];
    size_t at;

    setvbuf(stdout, NULL, _IONBF, 0);
    for (at = 0; at < count; at++)
        if (!try_each(&openings[at]))
            return 1;
    return 0;
}
