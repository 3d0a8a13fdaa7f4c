/* Calls each function of the library, with pages of both sizes, and gets each refusal and its text. Prints each call that answers another
 * number, with its line; the status is then 1. */
#include "answers.h"
#include "compactd.h"

#include <stdio.h>
#include <string.h>

/* Where calls write. */
static uint32_t frame;
static uint64_t value;
static uint64_t words[512];
static compactd_bool is_so;
static compactd_counts counts;
static compactd_geometry geometry;
static compactd_page_info info;
static compactd_round_counts round_counts;
static compactd_moving_page page;
static compactd_move move, listed[8];
static compactd_page_request request;
static compactd_record record;
static uint64_t records, room;
static uint32_t runs;
static int32_t fragmentation;
static uint32_t moved, stopped;
static uint32_t in_run, unclaimed;
static uint32_t firsts[4];
static size_t claimed;
static compactd_words lent;
static compactd_lent_move lent_move;
static compactd_moving_page carried[4];
static size_t isolated;
static uint32_t statuses[4];
static compactd_bool are_moved[4];
static uint64_t many[4 * 512]; /* words of 4 pages */

/* Each call on a pool that is closed: from the beginning, or by compactd_close. */
static void closed(compactd_pool *pool)
{
    IS(CLOSED, compactd_set_apart(pool, 1));
    IS(CLOSED, compactd_map(pool, 0, 0, 0, 0, &frame));
    IS(CLOSED, compactd_map_at(pool, 0, 0, 0, 0, 0));
    IS(CLOSED, compactd_load(pool, 0, 0, 0, 0, &value));
    IS(CLOSED, compactd_store(pool, 0, 0, 0, 0, 1));
    IS(CLOSED, compactd_read(pool, 0, 0, 0, 0, words, 1));
    IS(CLOSED, compactd_write(pool, 0, 0, 0, 0, words, 1));
    IS(CLOSED, compactd_share(pool, 0, 0, 0, 0, 1));
    IS(CLOSED, compactd_unmap(pool, 0, 0, 0));
    request.frame = request.status = 7;
    IS(CLOSED, compactd_map_many(pool, 0, &request, 1));
    IS(CLOSED, compactd_map_many(pool, 0, NULL, 0));
    IS(CLOSED, compactd_unmap_many(pool, 0, &request, 1));
    HOLDS(request.frame == 7 && request.status == 7);
    IS(CLOSED, compactd_pin(pool, 0, 0, 0));
    IS(CLOSED, compactd_unpin(pool, 0, 0, 0));
    IS(CLOSED, compactd_page_words(pool, 0, 0, &lent));
    IS(CLOSED, compactd_return_page(pool, 0, 0, 0, &lent));
    IS(CLOSED, compactd_pin_words(pool, 0, 0, 0, &lent));
    IS(CLOSED, compactd_unpin_words(pool, 0, 0, 0, &lent));
    IS(CLOSED, compactd_take_order(pool, 9, &frame));
    IS(CLOSED, compactd_give_order(pool, 0, 9));
    IS(CLOSED, compactd_read_block(pool, 0, 9, 0, words, 1));
    IS(CLOSED, compactd_write_block(pool, 0, 9, 0, words, 1));
    IS(CLOSED, compactd_block_words(pool, 0, 9, &lent));
    IS(CLOSED, compactd_return_block(pool, 0, 9, &lent));
    IS(CLOSED, compactd_close_in(pool, &lent));
    HOLDS(lent.at == NULL && lent.count == 0);
    IS(CLOSED, compactd_mark(pool, 0));
    IS(CLOSED, compactd_unmark(pool, 0));
    IS(CLOSED, compactd_marked(pool, 0, &is_so));
    IS(CLOSED, compactd_info(pool, &counts));
    IS(CLOSED, compactd_describe(pool, &geometry));
    IS(CLOSED, compactd_free_runs(pool, 0, &runs));
    IS(CLOSED, compactd_fragmentation(pool, 0, &fragmentation));
    IS(CLOSED, compactd_next_moving(pool, 0, &page, &move));
    IS(CLOSED, compactd_look(pool, 0, 0, &info));
    IS(CLOSED, compactd_quiet(pool, &is_so));
    IS(CLOSED, compactd_audit(pool, &round_counts));
    value = 7;
    IS(CLOSED, compactd_ended(pool, &value));
    HOLDS(value == 7);
    IS(CLOSED, compactd_journal(pool, &records, &room));
    IS(CLOSED, compactd_record_at(pool, 0, &record));
    IS(CLOSED, compactd_compact(pool, &is_so));
    IS(CLOSED, compactd_begin_round(pool));
    moved = stopped = 7;
    IS(CLOSED, compactd_move_pages(pool, 1, &moved, &stopped));
    IS(CLOSED, compactd_move_of(pool, &page, 0, &move));
    IS(CLOSED, compactd_list_moves(pool, words, 8, listed, 8, &moved, &stopped));
    HOLDS(moved == 7 && stopped == 7);
    IS(CLOSED, compactd_evacuate(pool, 0, 9, &moved));
    firsts[0] = 7;
    IS(CLOSED, compactd_reserve(pool, 9, firsts, 1, &moved));
    HOLDS(moved == 7 && firsts[0] == 7);
    in_run = unclaimed = 7;
    IS(CLOSED, compactd_claim(pool, 0, 9, &in_run));
    IS(CLOSED, compactd_empty_some(pool, 0, 9, 1, &moved, &unclaimed));
    HOLDS(in_run == 7 && moved == 7 && unclaimed == 7);
    IS(CLOSED, compactd_take_claimed(pool, 0, 9));
    IS(CLOSED, compactd_drop_claim(pool, 0, 9));
    IS(CLOSED, compactd_cheapest_run(pool, 9, &frame, &in_run));
    claimed = 1;
    IS(CLOSED, compactd_keep(pool, 9, 1, firsts, 2, &claimed, &moved, &is_so));
    IS(CLOSED, compactd_take_kept(pool, 9, firsts, 2, &claimed, &frame, &moved));
    HOLDS(in_run == 7 && moved == 7 && claimed == 1 && firsts[0] == 7);
    IS(CLOSED, compactd_isolate(pool, &page, words, 8));
    IS(CLOSED, compactd_commit(pool, &page, words, 8, &is_so));
    IS(CLOSED, compactd_put_back(pool, &page));
    IS(CLOSED, compactd_lend_move(pool, &lent_move));
    IS(CLOSED, compactd_commit_lent(pool, &lent_move, &is_so));
    IS(CLOSED, compactd_put_back_lent(pool, &lent_move));
    IS(CLOSED, compactd_lend_move_from(pool, 0, 9, &lent_move));
    IS(CLOSED, compactd_commit_and_claim(pool, &lent_move, &is_so));
    isolated = 7;
    IS(CLOSED, compactd_isolate_many(pool, carried, 4, words, 8, &isolated));
    IS(CLOSED, compactd_commit_many(pool, carried, 1, words, 8, statuses, are_moved));
    HOLDS(isolated == 0 && statuses[0] == COMPACTD_CLOSED && !are_moved[0]);
    IS(CLOSED, compactd_close(pool));
    IS(CLOSED, compactd_close(pool));
}

/* Addresses out of the ranges of all pools are refused by each call. Those that this pool doesn't have can't name a page, and name none. */
static void addresses(compactd_pool *pool)
{
    const uint32_t most_spaces = 256, most_vpages = 1 << 24;

    IS(RANGE, compactd_load(pool, 0, most_spaces, 0, 0, &value));
    IS(RANGE, compactd_read(pool, 0, 0, most_vpages, 0, words, 0));
    IS(RANGE, compactd_unmap(pool, 0, most_spaces, 0));
    IS(RANGE, compactd_share(pool, 0, 0, most_vpages, 0, 0));
    IS(RANGE, compactd_look(pool, most_spaces, most_vpages, &info));
    IS(UNMAPPED, compactd_load(pool, 0, 8, 0, 0, &value));
    IS(UNMAPPED, compactd_store(pool, 0, 0, 4096, 0, 1));
    IS(UNMAPPED, compactd_read(pool, 0, most_spaces - 1, 0, 0, words, 1));
    IS(UNMAPPED, compactd_write(pool, 0, 0, most_vpages - 1, 0, words, 1));
    IS(UNMAPPED, compactd_unmap(pool, 0, 8, 0));
    IS(UNMAPPED, compactd_pin(pool, 0, 7, 4096));
    IS(UNMAPPED, compactd_unpin(pool, 0, 8, 4095));
    IS(UNMAPPED, compactd_share(pool, 0, 8, 0, 7, 4095));
    IS(UNMAPPED, compactd_look(pool, most_spaces - 1, most_vpages - 1, &info));
    IS(RANGE, compactd_share(pool, 0, 8, 0, 8, 0));
    IS(RANGE, compactd_map(pool, 0, most_spaces - 1, 0, 0, &frame));
    IS(RANGE, compactd_map_at(pool, 0, 0, most_vpages - 1, 0, 0));
}

/* Numbers of keepers out of their ranges. A first frame past the count may be any, and so may one that no run of the pool begins at. */
static void ranges_of_keepers(compactd_pool *pool)
{
    static const struct {
        uint32_t order, first;
        size_t claimed;
    } no_keepers[] = {{2, 0, 1}, {10, 0, 1}, {0xFFFFFFFFu, 0, 0}, {3, 1 << 24, 1}, {3, 0xFFFFFFFFu, 2}, {3, 0, 3}, {3, 0, (size_t)-1}};
    size_t at;

    frame = moved = in_run = firsts[0] = firsts[1] = 7;
    for (at = 0; at < sizeof no_keepers / sizeof no_keepers[0]; at++) {
        firsts[1] = no_keepers[at].first;
        claimed = no_keepers[at].claimed;
        firsts[0] = no_keepers[at].claimed == 1 ? firsts[1] : 7;
        IS(RANGE, compactd_keep(pool, no_keepers[at].order, 1, firsts, 2, &claimed, &moved, &is_so));
        IS(RANGE, compactd_take_kept(pool, no_keepers[at].order, firsts, 2, &claimed, &frame, &moved));
        HOLDS(claimed == no_keepers[at].claimed && firsts[1] == no_keepers[at].first && moved == 7 && frame == 7);
    }
    IS(RANGE, compactd_cheapest_run(pool, 2, &frame, &in_run));
    IS(RANGE, compactd_cheapest_run(pool, 10, &frame, &in_run));
    HOLDS(frame == 7 && in_run == 7);
    claimed = 2;
    firsts[0] = 4;
    firsts[1] = (1 << 24) - 1;
    OK(compactd_keep(pool, 3, 1, firsts, 2, &claimed, &moved, &is_so));
    HOLDS(claimed == 2 && firsts[0] == 4 && firsts[1] == (1 << 24) - 1 && moved == 0 && !is_so);
}

/* Arguments out of their ranges, of a pool with one pageblock. */
static void ranges(compactd_pool *pool, uint32_t page_words)
{
    static const uint32_t no_runs[][2] = {{0, 2}, {0, 10}, {0, 0xFFFFFFFFu}, {4, 3}, {256, 9}, {512, 3}, {4096, 3}, {0xFFFFFFF8u, 3}};
    const uint32_t far = 0xFFFFFFFFu;
    size_t at;

    IS(RANGE, compactd_map(pool, 8, 0, 0, 0, &frame));
    IS(RANGE, compactd_map(pool, 0, 8, 0, 0, &frame));
    IS(RANGE, compactd_map(pool, 0, 0, 4096, 0, &frame));
    IS(RANGE, compactd_map(pool, far, far, far, 1, &frame));
    IS(RANGE, compactd_map_at(pool, 0, 0, 0, 0, 512));
    IS(RANGE, compactd_map_at(pool, 0, 0, 0, 0, 4096));
    IS(RANGE, compactd_load(pool, 0, 0, 0, page_words, &value));
    IS(RANGE, compactd_store(pool, 0, 0, 0, far, 1));
    IS(RANGE, compactd_read(pool, 0, 0, 0, page_words, words, 0));
    IS(RANGE, compactd_read(pool, 0, 0, 0, 1, words, page_words));
    IS(RANGE, compactd_read(pool, 0, 0, 0, far, words, 2));
    IS(RANGE, compactd_write(pool, 0, 0, 0, page_words - 1, words, 2));
    IS(RANGE, compactd_share(pool, 0, 0, 0, 0, 4096));
    IS(RANGE, compactd_unmap(pool, 8, 0, 0));
    IS(RANGE, compactd_pin(pool, 8, 0, 0));
    IS(RANGE, compactd_unpin(pool, 0, 0, far));
    IS(RANGE, compactd_page_words(pool, far, 0, &lent));
    IS(RANGE, compactd_page_words(pool, 0, 1 << 24, &lent));
    IS(UNMAPPED, compactd_page_words(pool, 255, (1 << 24) - 1, &lent));
    IS(RANGE, compactd_return_page(pool, 0, 0, 0, &lent));
    IS(RANGE, compactd_pin_words(pool, 8, 0, 0, &lent));
    IS(UNMAPPED, compactd_pin_words(pool, 0, 255, 0, &lent));
    IS(RANGE, compactd_unpin_words(pool, 0, 0, 0, &lent));
    HOLDS(lent.at == NULL && lent.count == 0);
    IS(RANGE, compactd_take_order(pool, 2, &frame));
    IS(RANGE, compactd_take_order(pool, 10, &frame));
    IS(RANGE, compactd_give_order(pool, 4, 3));
    IS(RANGE, compactd_give_order(pool, 512, 9));
    IS(RANGE, compactd_give_order(pool, 0, 2));
    IS(RANGE, compactd_read_block(pool, 1 << 24, 9, 0, words, 1));
    IS(NOT_HUGE, compactd_read_block(pool, (1 << 24) - 1, 9, 0, words, 1));
    IS(RANGE, compactd_write_block(pool, 0, 10, 0, words, 1));
    IS(RANGE, compactd_block_words(pool, 1 << 24, 9, &lent));
    IS(RANGE, compactd_block_words(pool, 0, 2, &lent));
    IS(RANGE, compactd_block_words(pool, 0, 10, &lent));
    IS(NOT_HUGE, compactd_block_words(pool, (1 << 24) - 1, 9, &lent));
    IS(NOT_HUGE, compactd_block_words(pool, 0, 9, &lent));
    IS(RANGE, compactd_return_block(pool, far, 9, &lent));
    IS(RANGE, compactd_return_block(pool, 0, far, &lent));
    IS(RANGE, compactd_return_block(pool, 0, 9, &lent));
    IS(OWN_MEMORY, compactd_close_in(pool, &lent));
    HOLDS(lent.at == NULL && lent.count == 0);
    IS(RANGE, compactd_mark(pool, 1));
    IS(RANGE, compactd_unmark(pool, 8));
    IS(RANGE, compactd_marked(pool, 1, &is_so));
    IS(RANGE, compactd_look(pool, far, 0, &info));
    IS(RANGE, compactd_record_at(pool, 0, &record));
    IS(RANGE, compactd_free_runs(pool, 10, &runs));
    IS(RANGE, compactd_free_runs(pool, far, &runs));
    IS(RANGE, compactd_fragmentation(pool, 10, &fragmentation));
    IS(RANGE, compactd_fragmentation(pool, far, &fragmentation));
    IS(RANGE, compactd_next_moving(pool, 1 << 24, &page, &move));
    IS(RANGE, compactd_next_moving(pool, far, &page, &move));
    moved = in_run = unclaimed = firsts[0] = 7;
    for (at = 0; at < sizeof no_runs / sizeof no_runs[0]; at++) {
        IS(RANGE, compactd_evacuate(pool, no_runs[at][0], no_runs[at][1], &moved));
        IS(RANGE, compactd_claim(pool, no_runs[at][0], no_runs[at][1], &in_run));
        IS(RANGE, compactd_empty_some(pool, no_runs[at][0], no_runs[at][1], 1, &moved, &unclaimed));
        IS(RANGE, compactd_take_claimed(pool, no_runs[at][0], no_runs[at][1]));
        IS(RANGE, compactd_drop_claim(pool, no_runs[at][0], no_runs[at][1]));
        IS(RANGE, compactd_lend_move_from(pool, no_runs[at][0], no_runs[at][1], &lent_move));
    }
    HOLDS(in_run == 7 && unclaimed == 7);
    IS(RANGE, compactd_reserve(pool, 2, firsts, 1, &moved));
    IS(RANGE, compactd_reserve(pool, 10, firsts, 4, &moved));
    IS(RANGE, compactd_reserve(pool, far, NULL, 0, &moved));
    HOLDS(moved == 7 && firsts[0] == 7);
    ranges_of_keepers(pool);
    IS(RANGE, compactd_isolate(pool, &page, words, page_words - 1));
    IS(RANGE, compactd_commit(pool, &page, words, 1, &is_so));
    IS(OWN_MEMORY, compactd_lend_move(pool, &lent_move));
    IS(RANGE, compactd_commit_lent(pool, &lent_move, &is_so));
    IS(RANGE, compactd_put_back_lent(pool, &lent_move));
    IS(OWN_MEMORY, compactd_lend_move_from(pool, 0, 9, &lent_move));
    IS(RANGE, compactd_commit_and_claim(pool, &lent_move, &is_so));
    HOLDS(lent_move.from.at == NULL && lent_move.from.count == 0 && lent_move.to.at == NULL && lent_move.to.count == 0);
}

static void pages(compactd_pool *pool, uint32_t page_words)
{
    uint32_t pins;

    OK(compactd_map(pool, 7, 7, 4095, 0, &frame));
    HOLDS(frame == 0);
    IS(OCCUPIED, compactd_map(pool, 0, 7, 4095, 0, &frame));
    IS(NO_FRAME, compactd_map_at(pool, 0, 0, 0, 0, 0));
    IS(UNMAPPED, compactd_load(pool, 0, 0, 0, 0, &value));
    IS(UNMAPPED, compactd_look(pool, 0, 0, &info));
    OK(compactd_store(pool, 0, 7, 4095, page_words - 1, 0xFFFFFFFFFFFFFFFFu));
    OK(compactd_load(pool, 0, 7, 4095, page_words - 1, &value));
    HOLDS(value == 0xFFFFFFFFFFFFFFFFu);
    words[0] = 3;
    words[1] = 4;
    OK(compactd_write(pool, 0, 7, 4095, 1, words, 2));
    words[0] = words[1] = words[2] = 9;
    OK(compactd_read(pool, 0, 7, 4095, 0, words, 3));
    HOLDS(words[0] == 0 && words[1] == 3 && words[2] == 4);
    OK(compactd_read(pool, 0, 7, 4095, page_words - 1, words, 0));
    OK(compactd_write(pool, 0, 7, 4095, page_words - 1, words, 0));
    OK(compactd_read(pool, 0, 7, 4095, 0, NULL, 0));
    OK(compactd_write(pool, 0, 7, 4095, 0, NULL, 0));
    OK(compactd_share(pool, 0, 7, 4095, 0, 1));
    OK(compactd_share(pool, 0, 0, 1, 0, 2));
    OK(compactd_share(pool, 0, 0, 1, 0, 3));
    IS(SHARE_FULL, compactd_share(pool, 0, 0, 1, 0, 4));
    IS(OCCUPIED, compactd_share(pool, 0, 0, 1, 0, 2));
    IS(NOT_PINNED, compactd_unpin(pool, 0, 0, 1));
    for (pins = 0; pins < 255; pins++)
        OK(compactd_pin(pool, 0, 0, 1));
    IS(PIN_FULL, compactd_pin(pool, 0, 0, 2));
    OK(compactd_unmap(pool, 0, 0, 1));
    OK(compactd_unmap(pool, 0, 0, 2));
    OK(compactd_unmap(pool, 0, 0, 3));
    IS(PINNED, compactd_unmap(pool, 0, 7, 4095));
    OK(compactd_look(pool, 7, 4095, &info));
    HOLDS(info.serial == 0 && info.frame == 0 && info.flags == COMPACTD_DIRTY);
    HOLDS(info.pins == 255 && info.maps == 1 && !info.moving);
    for (pins = 0; pins < 255; pins++)
        OK(compactd_unpin(pool, 0, 7, 4095));
    OK(compactd_unmap(pool, 0, 7, 4095));
    OK(compactd_map_at(pool, 0, 0, 0, 1, 511));
    OK(compactd_look(pool, 0, 0, &info));
    HOLDS(info.frame == 511 && info.flags == COMPACTD_UNMOVABLE);
    OK(compactd_unmap(pool, 0, 0, 0));
}

static void blocks(compactd_pool *pool, uint32_t page_words)
{
    const size_t last = (size_t)512 * page_words - 1;

    OK(compactd_take_order(pool, 9, &frame));
    HOLDS(frame == 0);
    IS(NO_BLOCK, compactd_take_order(pool, 3, &frame));
    IS(NO_FRAME, compactd_map(pool, 0, 0, 0, 0, &frame));
    words[0] = 5;
    OK(compactd_write_block(pool, 0, 9, last, words, 1));
    words[0] = 0;
    OK(compactd_read_block(pool, 0, 9, last, words, 1));
    HOLDS(words[0] == 5);
    IS(RANGE, compactd_read_block(pool, 0, 9, last, words, 2));
    IS(RANGE, compactd_write_block(pool, 0, 9, last + 1, words, 1));
    IS(RANGE, compactd_read_block(pool, 0, 9, (size_t)-1, words, 2)); /* where they end wraps */
    IS(RANGE, compactd_write_block(pool, 0, 9, (size_t)-1, words, 2));
    OK(compactd_read_block(pool, 0, 9, last + 1, words, 0));
    OK(compactd_read_block(pool, 0, 9, 0, NULL, 0));
    OK(compactd_write_block(pool, 0, 9, 0, NULL, 0));
    IS(RANGE, compactd_read_block(pool, 0, 9, last + 2, words, 0));
    IS(NOT_HUGE, compactd_read_block(pool, 0, 8, 0, words, 1));
    IS(NOT_HUGE, compactd_write_block(pool, 8, 3, 0, words, 1));
    IS(NOT_HUGE, compactd_give_order(pool, 0, 8));
    IS(NOT_HUGE, compactd_block_words(pool, 0, 8, &lent));
    IS(OWN_MEMORY, compactd_block_words(pool, 0, 9, &lent));
    HOLDS(lent.at == NULL && lent.count == 0);
    OK(compactd_info(pool, &counts));
    HOLDS(counts.free == 0 && counts.pages == 0 && counts.moving == 0 && counts.huge == 1 && counts.whole == 0 && counts.held == 512);
    OK(compactd_give_order(pool, 0, 9));
    OK(compactd_mark(pool, 0));
    IS(MARKED, compactd_mark(pool, 0));
    OK(compactd_marked(pool, 0, &is_so));
    HOLDS(is_so);
    OK(compactd_unmark(pool, 0));
    IS(NOT_MARKED, compactd_unmark(pool, 0));
}

/* Whatever isn't the page that is moving is refused, by its serial, its number or its words. */
static void strangers(compactd_pool *pool, uint32_t page_words)
{
    compactd_moving_page stranger = page;

    words[1] ^= 1;
    IS(STRANGER, compactd_commit(pool, &page, words, page_words, &is_so));
    words[1] ^= 1;
    stranger.serial++;
    IS(STRANGER, compactd_commit(pool, &stranger, words, page_words, &is_so));
    IS(STRANGER, compactd_put_back(pool, &stranger));
    stranger.serial = page.serial + ((uint64_t)1 << 32); /* whose lower half is the page's */
    IS(STRANGER, compactd_commit(pool, &stranger, words, page_words, &is_so));
    IS(STRANGER, compactd_put_back(pool, &stranger));
    stranger.serial = page.serial;
    stranger.number = page.number + 1;
    IS(STRANGER, compactd_put_back(pool, &stranger));
    stranger.number = 0xFFFFFFFFu;
    IS(STRANGER, compactd_commit(pool, &stranger, words, page_words, &is_so));
}

/* A round by hand: one page is moved, one is put back for its pin, and one without its copy. */
static void moved_by_hand(compactd_pool *pool, uint32_t page_words)
{
    uint32_t at;

    for (at = 0; at < 3; at++)
        OK(compactd_map(pool, 0, 1, at, 0, &frame));
    OK(compactd_store(pool, 0, 1, 0, 1, 6));
    OK(compactd_begin_round(pool));
    OK(compactd_quiet(pool, &is_so));
    HOLDS(is_so);
    OK(compactd_isolate(pool, &page, words, page_words));
    HOLDS(page.serial == 0 && page.flags == COMPACTD_DIRTY && words[1] == 6);
    IS(MOVING, compactd_load(pool, 0, 1, 0, 1, &value));
    IS(MOVING, compactd_store(pool, 0, 1, 0, 1, 7));
    IS(MOVING, compactd_unmap(pool, 0, 1, 0));
    IS(MOVING, compactd_share(pool, 0, 1, 0, 1, 9));
    IS(MOVING, compactd_read(pool, 0, 1, 0, 0, words, 0));
    IS(MOVING, compactd_write(pool, 0, 1, 0, 0, words, 1));
    IS(PAGES_MOVING, compactd_audit(pool, &round_counts));
    OK(compactd_ended(pool, &value));
    HOLDS(value == 0);
    OK(compactd_look(pool, 1, 0, &info));
    HOLDS(info.moving && info.serial == 0 && info.frame == 0 && info.flags == 0);
    strangers(pool, page_words);
    OK(compactd_commit(pool, &page, words, page_words, &is_so));
    HOLDS(is_so);
    IS(STRANGER, compactd_commit(pool, &page, words, page_words, &is_so));
    IS(OWN_MEMORY, compactd_lend_move(pool, &lent_move));
    OK(compactd_isolate(pool, &page, words, page_words));
    OK(compactd_pin(pool, 0, 1, 1));
    OK(compactd_commit(pool, &page, words, page_words, &is_so));
    HOLDS(!is_so);
    OK(compactd_isolate(pool, &page, words, page_words));
    OK(compactd_put_back(pool, &page));
    IS(STRANGER, compactd_put_back(pool, &page));
    IS(MET, compactd_isolate(pool, &page, words, page_words));
    OK(compactd_audit(pool, &round_counts));
    HOLDS(round_counts.isolated == 3 && round_counts.moved == 1 && round_counts.back == 2);
    OK(compactd_ended(pool, &value));
    HOLDS(value == 3);
    OK(compactd_quiet(pool, &is_so));
    HOLDS(!is_so);
    OK(compactd_unpin(pool, 0, 1, 1));
    OK(compactd_compact(pool, &is_so));
    HOLDS(is_so);
    OK(compactd_look(pool, 1, 0, &info));
    HOLDS(info.frame == 511);
    OK(compactd_load(pool, 0, 1, 0, 1, &value));
    HOLDS(value == 6);
}

/* A call that moves so many pages at most moves as many as these, and stops for this. */
static void moves(compactd_pool *pool, uint32_t most, uint32_t wanted, uint32_t why)
{
    moved = stopped = 7;
    OK(compactd_move_pages(pool, most, &moved, &stopped));
    HOLDS(moved == wanted && stopped == why);
}

/* A page with a word of its own is in this frame, and isn't moving. */
static void is_in_frame(compactd_pool *pool, uint32_t vpage, uint32_t wanted)
{
    OK(compactd_look(pool, 0, vpage, &info));
    HOLDS(info.frame == wanted && !info.moving);
    OK(compactd_load(pool, 0, 0, vpage, 7, &value));
    HOLDS(value == 10 + vpage);
}

/* Rounds in slices, over pages in the frames from 0 on: of no page, of some pages, of all that are left, and of more. */
static void slices(uint32_t page_words)
{
    compactd_pool pool = {0};
    uint32_t at;

    OK(compactd_open(&pool, page_words, 1));
    for (at = 0; at < 5; at++) {
        OK(compactd_map(&pool, 0, 0, at, 0, &frame));
        OK(compactd_store(&pool, 0, 0, at, 7, 10 + at));
    }
    moves(&pool, 0, 0, COMPACTD_OK);
    moves(&pool, 1, 0, COMPACTD_MET); /* no round was begun */
    is_in_frame(&pool, 0, 0);
    OK(compactd_begin_round(&pool));
    moves(&pool, 0, 0, COMPACTD_OK);
    is_in_frame(&pool, 0, 0);
    moves(&pool, 2, 2, COMPACTD_OK);
    is_in_frame(&pool, 0, 511);
    is_in_frame(&pool, 1, 510);
    is_in_frame(&pool, 2, 2);
    OK(compactd_pin(&pool, 0, 0, 3));
    OK(compactd_isolate(&pool, &page, words, page_words));
    moves(&pool, 1, 1, COMPACTD_OK); /* over a page that is pinned, and beside one that is moving */
    is_in_frame(&pool, 3, 3);
    is_in_frame(&pool, 4, 508);
    OK(compactd_commit(&pool, &page, words, page_words, &is_so));
    is_in_frame(&pool, 2, 509);
    moves(&pool, 1, 0, COMPACTD_MET);
    moves(&pool, 0, 0, COMPACTD_OK);
    OK(compactd_unpin(&pool, 0, 0, 3));
    OK(compactd_begin_round(&pool));
    moves(&pool, 0xFFFFFFFFu, 1, COMPACTD_MET);
    is_in_frame(&pool, 3, 507);
    OK(compactd_audit(&pool, &round_counts));
    HOLDS(round_counts.isolated == 5 && round_counts.moved == 5 && round_counts.back == 0);
    OK(compactd_quiet(&pool, &is_so));
    HOLDS(is_so);
    OK(compactd_close(&pool));
}

/* A journal with places for three pages and for one move. */
static void slices_of_a_journal(uint32_t page_words)
{
    compactd_pool pool = {0};
    uint32_t at;

    OK(compactd_open_journal(&pool, page_words, 1, 5));
    for (at = 0; at < 3; at++)
        OK(compactd_map(&pool, 0, 0, at, 0, &frame));
    OK(compactd_begin_round(&pool));
    moves(&pool, 3, 1, COMPACTD_JOURNAL_FULL);
    moves(&pool, 1, 0, COMPACTD_JOURNAL_FULL);
    moves(&pool, 0, 0, COMPACTD_OK);
    OK(compactd_record_at(&pool, 3, &record));
    HOLDS(record.kind == COMPACTD_WAS_ISOLATED && record.number == 0);
    OK(compactd_record_at(&pool, 4, &record));
    HOLDS(record.kind == COMPACTD_WAS_MOVED && record.number == 0);
    OK(compactd_close(&pool));
}

/* A list of so many moves at most has as many as these, and stops for this. */
static void lists(compactd_pool *pool, uint32_t page_words, uint32_t most, uint32_t wanted, uint32_t why)
{
    moved = stopped = 7;
    OK(compactd_list_moves(pool, words, page_words, listed, most, &moved, &stopped));
    HOLDS(moved == wanted && stopped == why);
}

/* A move of the list is that of the page at this address of space 0. */
static void is_listed(uint32_t at, uint32_t source, uint32_t target, uint32_t vpage)
{
    HOLDS(listed[at].source == source && listed[at].target == target && listed[at].space == 0 && listed[at].vpage == vpage);
}

/* Pages that are carried four at a time, over pages in the frames from 0 on. */
static void carried_together(uint32_t page_words)
{
    compactd_pool pool = {0};
    uint32_t at;

    OK(compactd_open(&pool, page_words, 1));
    for (at = 0; at < 6; at++) {
        OK(compactd_map(&pool, 0, 0, at, 0, &frame));
        OK(compactd_store(&pool, 0, 0, at, 7, 10 + at));
    }
    isolated = 7;
    IS(MET, compactd_isolate_many(&pool, carried, 4, many, page_words, &isolated)); /* no round was begun */
    HOLDS(isolated == 0);
    OK(compactd_isolate_many(&pool, carried, 0, many, page_words, &isolated));
    OK(compactd_commit_many(&pool, carried, 0, many, page_words, statuses, are_moved));
    OK(compactd_begin_round(&pool));
    isolated = 7;
    IS(RANGE, compactd_isolate_many(&pool, carried, 4, many, page_words + 1, &isolated));
    HOLDS(isolated == 0);
    OK(compactd_isolate_many(&pool, carried, 4, many, page_words, &isolated));
    HOLDS(isolated == 4 && carried[3].serial == 3 && many[3 * page_words + 7] == 13);
    OK(compactd_pin(&pool, 0, 0, 1));
    OK(compactd_put_back(&pool, &carried[2]));
    many[3 * page_words]++; /* another word than the page has */
    IS(STRANGER, compactd_commit_many(&pool, carried, 4, many, page_words, statuses, are_moved));
    HOLDS(statuses[0] == 0 && statuses[1] == 0 && statuses[2] == COMPACTD_STRANGER && statuses[3] == COMPACTD_STRANGER);
    HOLDS(are_moved[0] && !are_moved[1] && !are_moved[2] && !are_moved[3]);
    is_in_frame(&pool, 0, 511);
    is_in_frame(&pool, 1, 1);
    is_in_frame(&pool, 2, 2);
    OK(compactd_put_back(&pool, &carried[3]));
    IS(MET, compactd_isolate_many(&pool, carried, 4, many, page_words, &isolated));
    HOLDS(isolated == 2 && many[page_words + 7] == 15);
    OK(compactd_commit_many(&pool, carried, 2, many, page_words, statuses, are_moved));
    HOLDS(are_moved[0] && are_moved[1]);
    is_in_frame(&pool, 5, 506);
    OK(compactd_close(&pool));
    OK(compactd_open_journal(&pool, page_words, 1, 7));
    for (at = 0; at < 3; at++)
        OK(compactd_map(&pool, 0, 0, at, 0, &frame));
    OK(compactd_begin_round(&pool));
    IS(JOURNAL_FULL, compactd_isolate_many(&pool, carried, 3, many, page_words, &isolated));
    HOLDS(isolated == 2);
    OK(compactd_commit_many(&pool, carried, 2, many, page_words, statuses, are_moved));
    HOLDS(are_moved[0] && are_moved[1]);
    OK(compactd_close(&pool));
}

/* Rounds whose moves are listed, over pages in the frames from 0 on. */
static void listed_moves(uint32_t page_words)
{
    compactd_pool pool = {0};
    uint32_t at;

    OK(compactd_open(&pool, page_words, 1));
    for (at = 0; at < 5; at++) {
        OK(compactd_map(&pool, 0, 0, at, 0, &frame));
        OK(compactd_store(&pool, 0, 0, at, 7, 10 + at));
        OK(compactd_share(&pool, 0, 0, at, 1, at));
    }
    lists(&pool, page_words, 8, 0, COMPACTD_MET); /* no round was begun */
    OK(compactd_begin_round(&pool));
    IS(RANGE, compactd_list_moves(&pool, words, page_words + 1, listed, 8, &moved, &stopped));
    lists(&pool, page_words, 0, 0, COMPACTD_OK);
    lists(&pool, page_words, 2, 2, COMPACTD_OK);
    is_listed(0, 0, 511, 0);
    is_listed(1, 1, 510, 1);
    is_in_frame(&pool, 1, 510);
    OK(compactd_isolate(&pool, &page, words, page_words));
    IS(NOT_MOVING, compactd_move_of(&pool, &page, 3, &move));
    OK(compactd_move_of(&pool, &page, 2, &move));
    HOLDS(move.source == 2 && move.target == 509);
    lists(&pool, page_words, 1, 1, COMPACTD_OK);
    is_listed(0, 3, 508, 3); /* beside one that is moving */
    lists(&pool, page_words, 8, 1, COMPACTD_MET);
    is_listed(0, 4, 507, 4);
    is_in_frame(&pool, 4, 507);
    OK(compactd_put_back(&pool, &page));
    is_in_frame(&pool, 2, 2);
    OK(compactd_audit(&pool, &round_counts));
    HOLDS(round_counts.isolated == 5 && round_counts.moved == 4 && round_counts.back == 1);
    OK(compactd_close(&pool));
    OK(compactd_open_journal(&pool, page_words, 1, 5));
    for (at = 0; at < 3; at++)
        OK(compactd_map(&pool, 0, 0, at, 0, &frame));
    OK(compactd_begin_round(&pool));
    lists(&pool, page_words, 8, 1, COMPACTD_JOURNAL_FULL);
    is_listed(0, 0, 511, 0);
    OK(compactd_close(&pool));
}

/* Requests with these frames and answers afterwards; what isn't written stays 7. */
static void have(const compactd_page_request *requests, const uint32_t (*wanted)[2], size_t count)
{
    size_t at;

    for (at = 0; at < count; at++)
        HOLDS(requests[at].frame == wanted[at][0] && requests[at].status == wanted[at][1]);
}

/* Many pages in one call: each request has its turn, whether or not another one is refused. */
static void many_pages(uint32_t page_words)
{
    static const uint32_t
        none[][2] = {{7, COMPACTD_RANGE}, {7, COMPACTD_RANGE}, {7, COMPACTD_RANGE}, {7, COMPACTD_RANGE}, {7, COMPACTD_RANGE}},
        some[][2] = {{0, COMPACTD_OK}, {7, COMPACTD_OCCUPIED}, {7, COMPACTD_RANGE}, {1, COMPACTD_OK}, {7, COMPACTD_RANGE}},
        again[][2] = {{0, COMPACTD_OCCUPIED}, {7, COMPACTD_OCCUPIED}, {7, COMPACTD_RANGE}, {1, COMPACTD_OK}, {7, COMPACTD_RANGE}},
        gone[][2] = {{0, COMPACTD_OK}, {7, COMPACTD_UNMAPPED}, {7, COMPACTD_UNMAPPED}, {1, COMPACTD_PINNED}, {7, COMPACTD_RANGE}};
    compactd_page_request requests[] = {{0, 0, 0, 7, 7}, {0, 0, 1, 7, 7}, {8, 0, 0, 7, 7}, {0, 1, 2, 7, 7}, {256, 0, 0, 7, 7}};
    compactd_pool pool = {0};

    OK(compactd_open(&pool, page_words, 1));
    OK(compactd_map_many(&pool, 0, NULL, 0));
    OK(compactd_unmap_many(&pool, 0, NULL, 0));
    IS(RANGE, compactd_map_many(&pool, 8, requests, 5));
    have(requests, none, 5);
    IS(OCCUPIED, compactd_map_many(&pool, 7, requests, 5));
    have(requests, some, 5);
    OK(compactd_look(&pool, 0, 0, &info));
    HOLDS(info.frame == 0 && info.flags == 0);
    OK(compactd_look(&pool, 0, 1, &info));
    HOLDS(info.frame == 1 && info.flags == COMPACTD_UNMOVABLE);
    OK(compactd_unmap_many(&pool, 0, requests + 3, 1));
    OK(compactd_map_many(&pool, 0, requests + 3, 1));
    IS(OCCUPIED, compactd_map_many(&pool, 0, requests, 2));
    have(requests, again, 5);
    OK(compactd_pin(&pool, 0, 0, 1));
    IS(UNMAPPED, compactd_unmap_many(&pool, 0, requests, 5));
    have(requests, gone, 5);
    HOLDS(requests[4].space == 256 && requests[3].vpage == 1 && requests[3].unmovable == 2);
    OK(compactd_close(&pool));
}

/* As many pages as a pool has frames and one more, and then as many as its journal has places and one more. */
static void many_pages_of_a_full_pool(uint32_t page_words)
{
    static compactd_page_request requests[513];
    compactd_pool pool = {0};
    uint32_t at;

    for (at = 0; at < 513; at++)
        requests[at].vpage = at;
    OK(compactd_open(&pool, page_words, 1));
    IS(NO_FRAME, compactd_map_many(&pool, 0, requests, 513));
    for (at = 0; at < 512; at++)
        HOLDS(requests[at].status == COMPACTD_OK && requests[at].frame == at);
    HOLDS(requests[512].status == COMPACTD_NO_FRAME);
    OK(compactd_unmap_many(&pool, 0, requests, 512));
    OK(compactd_info(&pool, &counts));
    HOLDS(counts.free == 512 && requests[511].frame == 511);
    OK(compactd_close(&pool));
    OK(compactd_open_journal(&pool, page_words, 1, 3));
    IS(JOURNAL_FULL, compactd_map_many(&pool, 5, requests, 4));
    HOLDS(requests[2].status == COMPACTD_OK && requests[3].status == COMPACTD_JOURNAL_FULL);
    OK(compactd_record_at(&pool, 2, &record));
    HOLDS(record.kind == COMPACTD_WAS_MAPPED && record.client == 5 && record.vpage == 2);
    OK(compactd_close(&pool));
}

/* An evacuation of this run moves as many pages as these. */
static void empties(compactd_pool *pool, uint32_t first, uint32_t order, uint32_t wanted)
{
    moved = 7;
    OK(compactd_evacuate(pool, first, order, &moved));
    HOLDS(moved == wanted);
}

/* An evacuation of this run is refused as NO_BLOCK, and writes nothing. */
static void stays(compactd_pool *pool, uint32_t first, uint32_t order)
{
    moved = 7;
    IS(NO_BLOCK, compactd_evacuate(pool, first, order, &moved));
    HOLDS(moved == 7);
}

/* Maps a page with a word of its own into this frame. */
static void map_into(compactd_pool *pool, uint32_t vpage, uint32_t at)
{
    OK(compactd_map_at(pool, 0, 0, vpage, 0, at));
    OK(compactd_store(pool, 0, 0, vpage, 7, 10 + vpage));
}

/* Three pages in the frames 8 to 15, and one in the highest frame. A pin keeps them there, a mark, and a page that leaves a frame of a run
 * or comes to one. */
static void runs_that_stay(compactd_pool *pool, uint32_t page_words)
{
    map_into(pool, 0, 9);
    map_into(pool, 1, 12);
    map_into(pool, 2, 15);
    map_into(pool, 3, 1023);
    empties(pool, 16, 4, 0);
    OK(compactd_pin(pool, 0, 0, 1));
    stays(pool, 8, 3);
    stays(pool, 0, 9);
    OK(compactd_unpin(pool, 0, 0, 1));
    OK(compactd_mark(pool, 0));
    stays(pool, 8, 3);
    OK(compactd_unmark(pool, 0));
    OK(compactd_begin_round(pool));
    OK(compactd_isolate(pool, &page, words, page_words)); /* from frame 9 to frame 1022 */
    stays(pool, 8, 3);
    stays(pool, 1016, 3);
    OK(compactd_put_back(pool, &page));
    is_in_frame(pool, 0, 9);
}

/* They go while a round is begun, which goes on then, and the frames that they leave are handed out. Then all pages go down. */
static void evacuations(uint32_t page_words)
{
    compactd_pool pool = {0};

    OK(compactd_open(&pool, page_words, 2));
    runs_that_stay(&pool, page_words);
    map_into(&pool, 4, 3);
    OK(compactd_begin_round(&pool));
    empties(&pool, 32, 5, 0);
    OK(compactd_quiet(&pool, &is_so));
    HOLDS(is_so); /* no page was moved */
    empties(&pool, 8, 3, 3);
    is_in_frame(&pool, 0, 1022);
    is_in_frame(&pool, 1, 1021);
    is_in_frame(&pool, 2, 1020);
    is_in_frame(&pool, 3, 1023);
    OK(compactd_quiet(&pool, &is_so));
    HOLDS(!is_so);
    moves(&pool, 2, 1, COMPACTD_MET);
    is_in_frame(&pool, 4, 1019);
    OK(compactd_audit(&pool, &round_counts));
    HOLDS(round_counts.isolated == 5 && round_counts.moved == 4 && round_counts.back == 1);
    OK(compactd_take_order(&pool, 9, &frame));
    HOLDS(frame == 0);
    stays(&pool, 8, 3); /* handed out */
    OK(compactd_give_order(&pool, 0, 9));
    OK(compactd_mark(&pool, 0));
    stays(&pool, 512, 9); /* no frame outside of it is in an unmarked pageblock */
    empties(&pool, 1016, 3, 5);
    is_in_frame(&pool, 4, 1015);
    is_in_frame(&pool, 3, 1011);
    OK(compactd_unmark(&pool, 0));
    empties(&pool, 512, 9, 5);
    is_in_frame(&pool, 3, 511);
    is_in_frame(&pool, 4, 507);
    OK(compactd_close(&pool));
}

/* A pool with few free frames: fewer than a run has pages, or all of them in the run. */
static void evacuations_of_a_full_pool(uint32_t page_words)
{
    compactd_pool pool = {0};
    uint32_t at;

    OK(compactd_open(&pool, page_words, 2));
    for (at = 0; at < 1024; at++)
        OK(compactd_map(&pool, 0, 0, at, 0, &frame));
    stays(&pool, 0, 3);
    for (at = 1; at < 8; at++)
        OK(compactd_unmap(&pool, 0, 0, at));
    stays(&pool, 0, 3);
    stays(&pool, 512, 3);
    OK(compactd_unmap(&pool, 0, 0, 520));
    empties(&pool, 0, 3, 1);
    OK(compactd_look(&pool, 0, 0, &info));
    HOLDS(info.frame == 520);
    empties(&pool, 512, 3, 8);
    OK(compactd_look(&pool, 0, 512, &info));
    HOLDS(info.frame == 7);
    OK(compactd_look(&pool, 0, 519, &info));
    HOLDS(info.frame == 0);
    OK(compactd_close(&pool));
}

/* A journal with places for three pages and for two moves. */
static void evacuations_of_a_journal(uint32_t page_words)
{
    compactd_pool pool = {0};
    uint32_t at;

    OK(compactd_open_journal(&pool, page_words, 1, 7));
    for (at = 7; at < 10; at++)
        OK(compactd_map_at(&pool, 0, 0, at, 0, at));
    moved = 7;
    IS(JOURNAL_FULL, compactd_evacuate(&pool, 0, 4, &moved));
    HOLDS(moved == 7);
    empties(&pool, 8, 3, 2);
    OK(compactd_record_at(&pool, 5, &record));
    HOLDS(record.kind == COMPACTD_WAS_ISOLATED && record.number == 1);
    OK(compactd_record_at(&pool, 6, &record));
    HOLDS(record.kind == COMPACTD_WAS_MOVED && record.number == 1);
    empties(&pool, 8, 3, 0);
    IS(JOURNAL_FULL, compactd_evacuate(&pool, 0, 3, &moved));
    OK(compactd_close(&pool));
}

/* A claim of this run finds so many pages. */
static void claims(compactd_pool *pool, uint32_t first, uint32_t order, uint32_t wanted)
{
    in_run = 7;
    OK(compactd_claim(pool, first, order, &in_run));
    HOLDS(in_run == wanted);
}

/* A claim of this run is refused as NO_BLOCK, and writes nothing. */
static void is_not_claimed(compactd_pool *pool, uint32_t first, uint32_t order)
{
    in_run = 7;
    IS(NO_BLOCK, compactd_claim(pool, first, order, &in_run));
    HOLDS(in_run == 7);
}

/* A step of at most so many pages moves `wanted` pages out of this run, and leaves so many frames of it unclaimed. */
static void steps(compactd_pool *pool, uint32_t first, uint32_t order, uint32_t most, uint32_t wanted, uint32_t left)
{
    moved = unclaimed = 7;
    OK(compactd_empty_some(pool, first, order, most, &moved, &unclaimed));
    HOLDS(moved == wanted && unclaimed == left);
}

static void counts_are(compactd_pool *pool, uint32_t free_frames, uint32_t blocks, uint32_t held)
{
    OK(compactd_info(pool, &counts));
    HOLDS(counts.free == free_frames && counts.huge == blocks && counts.held == held);
}

/* Three pages in the frames 8 to 15, which are claimed, and pages in the eight frames below them. No other call comes into the run. */
static void claim_of_three_pages(compactd_pool *pool)
{
    uint32_t at;

    for (at = 0; at < 8; at++)
        map_into(pool, 20 + at, at);
    map_into(pool, 0, 9);
    map_into(pool, 1, 12);
    map_into(pool, 2, 15);
    OK(compactd_begin_round(pool));
    claims(pool, 8, 3, 3);
    OK(compactd_quiet(pool, &is_so));
    HOLDS(!is_so);
    counts_are(pool, 1008, 0, 5);
    OK(compactd_map(pool, 0, 0, 3, 0, &frame));
    HOLDS(frame == 16);
    IS(NO_FRAME, compactd_map_at(pool, 0, 0, 4, 0, 8));
    is_not_claimed(pool, 8, 3);
    is_not_claimed(pool, 0, 9);
    stays(pool, 8, 3);
    stays(pool, 0, 4);
    OK(compactd_take_order(pool, 3, &frame));
    HOLDS(frame == 24);
    OK(compactd_give_order(pool, 24, 3));
    IS(NO_BLOCK, compactd_take_claimed(pool, 8, 3));
}

/* A page that has a pin waits in the run until the pin is taken off. Then the run is handed out, and given back as any block is. */
static void steps_of_a_claim(uint32_t page_words)
{
    compactd_pool pool = {0};

    OK(compactd_open(&pool, page_words, 2));
    claim_of_three_pages(&pool);
    OK(compactd_pin(&pool, 0, 0, 1));
    steps(&pool, 8, 3, 0, 0, 3);
    steps(&pool, 8, 3, 2, 2, 1);
    is_in_frame(&pool, 0, 1023);
    is_in_frame(&pool, 1, 12);
    is_in_frame(&pool, 2, 1022);
    counts_are(&pool, 1005, 0, 7);
    steps(&pool, 8, 3, 2, 0, 1);
    IS(NO_BLOCK, compactd_take_claimed(&pool, 8, 3));
    OK(compactd_unpin(&pool, 0, 0, 1));
    steps(&pool, 8, 3, 0xFFFFFFFFu, 1, 0);
    is_in_frame(&pool, 1, 1021);
    steps(&pool, 8, 3, 1, 0, 0);
    OK(compactd_take_claimed(&pool, 8, 3));
    IS(NO_BLOCK, compactd_take_claimed(&pool, 8, 3));
    steps(&pool, 8, 3, 1, 0, 8);
    counts_are(&pool, 1004, 1, 8);
    OK(compactd_read_block(&pool, 8, 3, 0, words, 1));
    HOLDS(words[0] == 0);
    OK(compactd_give_order(&pool, 8, 3));
    OK(compactd_map(&pool, 0, 0, 4, 0, &frame));
    HOLDS(frame == 8);
    OK(compactd_close(&pool));
}

/* A frame that becomes free in a claimed run is free until the next step. Where the claim is dropped all of them are, and the claim of no
 * other run ends. */
static void claims_that_are_dropped(uint32_t page_words)
{
    compactd_pool pool = {0};

    OK(compactd_open(&pool, page_words, 2));
    map_into(&pool, 0, 9);
    map_into(&pool, 1, 12);
    claims(&pool, 8, 3, 2);
    claims(&pool, 16, 3, 0);
    OK(compactd_unmap(&pool, 0, 0, 0));
    OK(compactd_map_at(&pool, 0, 0, 0, 0, 9));
    OK(compactd_unmap(&pool, 0, 0, 0));
    counts_are(&pool, 1009, 0, 14);
    steps(&pool, 8, 3, 0, 0, 1);
    IS(NO_FRAME, compactd_map_at(&pool, 0, 0, 0, 0, 9));
    OK(compactd_drop_claim(&pool, 8, 3));
    counts_are(&pool, 1015, 0, 8);
    OK(compactd_map_at(&pool, 0, 0, 0, 0, 9));
    OK(compactd_drop_claim(&pool, 8, 3));
    OK(compactd_drop_claim(&pool, 0, 9));
    counts_are(&pool, 1022, 0, 0);
    OK(compactd_close(&pool));
}

/* Rounds bring no page into a claimed run, and reservations pass over it. A claimed frame is an obstacle for a quiet round. */
static void claims_beside_rounds(uint32_t page_words)
{
    compactd_pool pool = {0};

    OK(compactd_open(&pool, page_words, 2));
    map_into(&pool, 0, 9);
    claims(&pool, 1016, 3, 0);
    claims(&pool, 0, 3, 0);
    OK(compactd_compact(&pool, &is_so));
    HOLDS(is_so);
    is_in_frame(&pool, 0, 1015);
    OK(compactd_quiet(&pool, &is_so));
    HOLDS(!is_so);
    OK(compactd_reserve(&pool, 3, firsts, 1, &moved));
    HOLDS(firsts[0] == 8 && moved == 0);
    OK(compactd_give_order(&pool, 8, 3));
    OK(compactd_drop_claim(&pool, 512, 9));
    OK(compactd_drop_claim(&pool, 0, 9));
    OK(compactd_begin_round(&pool));
    OK(compactd_quiet(&pool, &is_so));
    HOLDS(is_so);
    OK(compactd_close(&pool));
}

/* A page that leaves a run or comes to one isn't moved by a step, and one in a marked pageblock is, as an unmovable one isn't. */
static void steps_of_odd_runs(uint32_t page_words)
{
    compactd_pool pool = {0};

    OK(compactd_open(&pool, page_words, 2));
    map_into(&pool, 0, 9);
    OK(compactd_begin_round(&pool));
    OK(compactd_isolate(&pool, &page, words, page_words)); /* from frame 9 to frame 1023 */
    is_not_claimed(&pool, 8, 3);
    steps(&pool, 8, 3, 1, 0, 1);
    steps(&pool, 1016, 3, 1, 0, 1);
    OK(compactd_commit(&pool, &page, words, page_words, &is_so));
    steps(&pool, 8, 3, 1, 0, 0);
    steps(&pool, 1016, 3, 1, 1, 0);
    is_in_frame(&pool, 0, 1015);
    OK(compactd_mark(&pool, 1));
    is_not_claimed(&pool, 1008, 3);
    steps(&pool, 1008, 3, 1, 1, 0);
    is_in_frame(&pool, 0, 511);
    OK(compactd_map_at(&pool, 0, 0, 1, 1, 500));
    is_not_claimed(&pool, 496, 3);
    steps(&pool, 496, 4, 9, 1, 1);
    is_in_frame(&pool, 0, 495);
    OK(compactd_close(&pool));
}

/* A pool without a free frame, and then with one. */
static void steps_of_a_full_pool(uint32_t page_words)
{
    compactd_pool pool = {0};
    uint32_t at;

    OK(compactd_open(&pool, page_words, 1));
    for (at = 0; at < 512; at++)
        OK(compactd_map(&pool, 0, 0, at, 0, &frame));
    claims(&pool, 0, 3, 8);
    steps(&pool, 0, 3, 9, 0, 8);
    OK(compactd_unmap(&pool, 0, 0, 8));
    steps(&pool, 0, 3, 9, 1, 7);
    OK(compactd_look(&pool, 0, 0, &info));
    HOLDS(info.frame == 8);
    OK(compactd_close(&pool));
}

/* A journal with places for three pages and for two moves. Claims take no place. */
static void steps_of_a_journal(uint32_t page_words)
{
    compactd_pool pool = {0};
    uint32_t at;

    OK(compactd_open_journal(&pool, page_words, 1, 7));
    for (at = 7; at < 10; at++)
        OK(compactd_map_at(&pool, 0, 0, at, 0, at));
    claims(&pool, 0, 4, 3);
    moved = unclaimed = 7;
    IS(JOURNAL_FULL, compactd_empty_some(&pool, 0, 4, 3, &moved, &unclaimed));
    HOLDS(moved == 7 && unclaimed == 7);
    steps(&pool, 0, 4, 2, 2, 1);
    OK(compactd_record_at(&pool, 5, &record));
    HOLDS(record.kind == COMPACTD_WAS_ISOLATED && record.number == 1);
    OK(compactd_record_at(&pool, 6, &record));
    HOLDS(record.kind == COMPACTD_WAS_MOVED && record.number == 1);
    IS(JOURNAL_FULL, compactd_empty_some(&pool, 0, 4, 1, &moved, &unclaimed));
    steps(&pool, 0, 4, 0, 0, 1);
    IS(JOURNAL_FULL, compactd_take_claimed(&pool, 0, 4));
    claims(&pool, 16, 3, 0);
    OK(compactd_drop_claim(&pool, 0, 4));
    OK(compactd_set_apart(&pool, 1));
    OK(compactd_journal(&pool, &records, &room));
    HOLDS(records == 7 && room == 0);
    OK(compactd_close(&pool));
}

/* Where unmovable pages are mapped apart, such a page goes to a pageblock that has one, and else to the emptiest. The others go to one that
 * has none, one that isn't whole before one that is, and else to the lowest free frame. */
static void unmovable_pages_apart(uint32_t page_words)
{
    static const uint32_t wanted[] = {0, 512, 1, 513, 2, 3}, unmovable_first[] = {0, 512, 1, 513};
    compactd_pool pool = {0};
    uint32_t at;

    OK(compactd_open(&pool, page_words, 2));
    OK(compactd_begin_round(&pool));
    OK(compactd_set_apart(&pool, 1));
    OK(compactd_quiet(&pool, &is_so));
    HOLDS(is_so);
    for (at = 0; at < 6; at++) {
        if (at == 4)
            OK(compactd_set_apart(&pool, 0));
        OK(compactd_map(&pool, 0, 0, at, at % 2 == 1, &frame));
        HOLDS(frame == wanted[at]);
    }
    OK(compactd_set_apart(&pool, 1));
    OK(compactd_map_at(&pool, 0, 0, 6, 1, 5));
    claims(&pool, 1008, 3, 0);
    OK(compactd_map(&pool, 0, 0, 7, 1, &frame));
    HOLDS(frame == 4);
    OK(compactd_close(&pool));
    OK(compactd_open(&pool, page_words, 2));
    OK(compactd_set_apart(&pool, 1));
    for (at = 0; at < 4; at++) {
        OK(compactd_map(&pool, 0, 0, at, at % 2 == 0, &frame));
        HOLDS(frame == unmovable_first[at]);
    }
    OK(compactd_close(&pool));
}

/* Runs of 128 frames: the first one has three pages, the next one a pinned page, the third one a page, and the last one two. Mapping them
 * takes 15 records. */
static void map_four_runs(compactd_pool *pool)
{
    static const uint32_t at[] = {0, 1, 2, 130, 300, 400, 401};
    uint32_t vpage;

    for (vpage = 0; vpage < 7; vpage++)
        map_into(pool, vpage, at[vpage]);
    OK(compactd_pin(pool, 0, 0, 3));
}

/* A reservation of so many of these runs moves as many pages as these. */
static void reserves(compactd_pool *pool, size_t count, uint32_t wanted)
{
    moved = firsts[count] = 7;
    OK(compactd_reserve(pool, 7, firsts, count, &moved));
    HOLDS(moved == wanted && firsts[count] == 7);
    OK(compactd_info(pool, &counts));
    HOLDS(counts.huge == count && counts.held == 128 * count && counts.pages == 7);
}

/* One, two and three of the runs are emptied and handed out, those with the fewest pages first; four aren't open. */
static void reservations(uint32_t page_words)
{
    static const uint32_t wanted[] = {256, 384, 0}, pages[] = {1, 3, 6};
    static const uint32_t frames[][7] = {
        {0, 1, 2, 130, 511, 400, 401}, {0, 1, 2, 130, 255, 254, 253}, {255, 254, 253, 130, 252, 251, 250}};
    compactd_pool pool = {0};
    uint32_t count, vpage;

    for (count = 1; count < 4; count++) {
        OK(compactd_open(&pool, page_words, 1));
        map_four_runs(&pool);
        moved = firsts[0] = 7;
        IS(NO_BLOCK, compactd_reserve(&pool, 7, firsts, 4, &moved));
        HOLDS(moved == 7 && firsts[0] == 7);
        OK(compactd_reserve(&pool, 7, NULL, 0, &moved));
        HOLDS(moved == 0);
        reserves(&pool, count, pages[count - 1]);
        HOLDS(memcmp(firsts, wanted, count * sizeof *firsts) == 0);
        for (vpage = 0; vpage < 7; vpage++)
            is_in_frame(&pool, vpage, frames[count - 1][vpage]);
        OK(compactd_read_block(&pool, 256, 7, 0, words, 1));
        HOLDS(words[0] == 0);
        OK(compactd_close(&pool));
    }
}

/* Fewer frames are free than the block has; then a journal has places for a move and for no block; then it has one place more. */
static void reservations_of_a_journal(uint32_t page_words)
{
    compactd_pool pool = {0};

    OK(compactd_open_journal(&pool, page_words, 1, 19));
    OK(compactd_map_at(&pool, 0, 0, 9, 0, 511));
    moved = firsts[0] = 7;
    IS(NO_BLOCK, compactd_reserve(&pool, 9, firsts, 1, &moved));
    OK(compactd_unmap(&pool, 0, 0, 9));
    map_four_runs(&pool);
    IS(JOURNAL_FULL, compactd_reserve(&pool, 7, firsts, 1, &moved));
    HOLDS(moved == 7 && firsts[0] == 7);
    OK(compactd_close(&pool));
    OK(compactd_open_journal(&pool, page_words, 1, 18));
    map_four_runs(&pool);
    reserves(&pool, 1, 1);
    OK(compactd_record_at(&pool, 16, &record));
    HOLDS(record.kind == COMPACTD_WAS_MOVED && record.number == 0);
    OK(compactd_record_at(&pool, 17, &record));
    HOLDS(record.kind == COMPACTD_WAS_TAKEN && record.number == 256 && record.other == 7);
    OK(compactd_close(&pool));
}

/* Four pages in each run of 8 frames, and one less in the run at 40. */
static void map_four_pages_a_run(compactd_pool *pool)
{
    uint32_t vpage;

    for (vpage = 0; vpage < 512; vpage++)
        map_into(pool, vpage, vpage / 4 * 8 + vpage % 4);
    OK(compactd_unmap(pool, 0, 0, 23));
}

/* A step of a keeper with two places moves so many pages, there may be more to do or not, and it has these runs then. */
static void keeps(compactd_pool *pool, uint32_t wanted, int more, size_t runs_then, uint32_t first, uint32_t second)
{
    moved = 7;
    OK(compactd_keep(pool, 3, 2, firsts, 2, &claimed, &moved, &is_so));
    HOLDS(moved == wanted && is_so == more && claimed == runs_then);
    HOLDS((claimed == 0 || firsts[0] == first) && (claimed < 2 || firsts[1] == second));
}

/* The block at this frame is handed out, so many pages are moved for it, and the keeper has so many runs then. */
static void takes_kept(compactd_pool *pool, uint32_t first, uint32_t wanted, size_t runs_then)
{
    frame = moved = 7;
    OK(compactd_take_kept(pool, 3, firsts, 2, &claimed, &frame, &moved));
    HOLDS(frame == first && moved == wanted && claimed == runs_then);
    OK(compactd_read_block(pool, first, 3, 0, words, 1));
    HOLDS(words[0] == 0);
}

/* A keeper has two blocks ready. A page that gets a pin in a claimed run waits there, and a later step takes it up, as it does a frame that
 * becomes free. The run that is ready first is handed out first. Where none is, the cheapest run is emptied at once. */
static void blocks_kept_ready(uint32_t page_words)
{
    compactd_pool pool = {0};

    OK(compactd_open(&pool, page_words, 2));
    map_four_pages_a_run(&pool);
    OK(compactd_cheapest_run(&pool, 3, &frame, &in_run));
    HOLDS(frame == 40 && in_run == 3);
    claimed = 0;
    keeps(&pool, 0, 1, 1, 40, 0);
    OK(compactd_pin(&pool, 0, 0, 22));
    keeps(&pool, 2, 1, 1, 40, 0);
    is_in_frame(&pool, 20, 1023);
    is_in_frame(&pool, 21, 1022);
    is_in_frame(&pool, 22, 42);
    keeps(&pool, 0, 1, 2, 40, 0);
    OK(compactd_unmap(&pool, 0, 0, 1));
    keeps(&pool, 2, 1, 2, 40, 0);
    IS(NO_FRAME, compactd_map_at(&pool, 0, 0, 1, 0, 1));
    is_in_frame(&pool, 0, 1021);
    is_in_frame(&pool, 2, 1020);
    keeps(&pool, 1, 1, 2, 40, 0);
    is_in_frame(&pool, 3, 1015);
    keeps(&pool, 0, 0, 2, 40, 0);
    counts_are(&pool, 1024 - 510 - 15, 0, 15);
    takes_kept(&pool, 0, 0, 1);
    HOLDS(firsts[0] == 40);
    keeps(&pool, 0, 1, 2, 40, 8);
    OK(compactd_unpin(&pool, 0, 0, 22));
    keeps(&pool, 1, 1, 2, 40, 8);
    is_in_frame(&pool, 22, 1014);
    keeps(&pool, 2, 1, 2, 40, 8);
    keeps(&pool, 2, 1, 2, 40, 8);
    keeps(&pool, 0, 0, 2, 40, 8);
    is_in_frame(&pool, 4, 1013);
    is_in_frame(&pool, 7, 1006);
    takes_kept(&pool, 40, 0, 1);
    HOLDS(firsts[0] == 8);
    takes_kept(&pool, 8, 0, 0);
    takes_kept(&pool, 16, 4, 0);
    is_in_frame(&pool, 8, 1005);
    is_in_frame(&pool, 11, 998);
    counts_are(&pool, 1024 - 510 - 32, 4, 32);
    OK(compactd_close(&pool));
}

/* A journal with places for three pages and for two moves; then a pool with no open run. A keeper with no place has nothing to do. */
static void keepers_with_no_room(uint32_t page_words)
{
    compactd_pool pool = {0};
    uint32_t at;

    OK(compactd_open_journal(&pool, page_words, 1, 7));
    for (at = 7; at < 10; at++)
        OK(compactd_map_at(&pool, 0, 0, at, 0, at));
    firsts[0] = 0;
    claimed = 1;
    moved = frame = 7;
    IS(JOURNAL_FULL, compactd_keep(&pool, 4, 3, firsts, 1, &claimed, &moved, &is_so));
    HOLDS(moved == 7);
    OK(compactd_keep(&pool, 4, 2, firsts, 1, &claimed, &moved, &is_so));
    HOLDS(moved == 2 && is_so && claimed == 1 && firsts[0] == 0);
    IS(JOURNAL_FULL, compactd_keep(&pool, 4, 1, firsts, 1, &claimed, &moved, &is_so));
    IS(JOURNAL_FULL, compactd_take_kept(&pool, 4, firsts, 1, &claimed, &frame, &moved));
    HOLDS(moved == 2 && claimed == 1 && frame == 7);
    OK(compactd_close(&pool));
    OK(compactd_open(&pool, page_words, 1));
    claimed = 0;
    OK(compactd_keep(&pool, 9, 1, NULL, 0, &claimed, &moved, &is_so));
    HOLDS(moved == 0 && !is_so && claimed == 0);
    OK(compactd_take_kept(&pool, 9, NULL, 0, &claimed, &frame, &moved));
    HOLDS(frame == 0 && moved == 0 && claimed == 0);
    frame = in_run = moved = 7;
    IS(NO_BLOCK, compactd_cheapest_run(&pool, 3, &frame, &in_run));
    IS(NO_BLOCK, compactd_take_kept(&pool, 9, firsts, 1, &claimed, &frame, &moved));
    HOLDS(frame == 7 && in_run == 7 && moved == 7);
    OK(compactd_keep(&pool, 9, 1, firsts, 1, &claimed, &moved, &is_so));
    HOLDS(moved == 0 && !is_so && claimed == 0);
    OK(compactd_close(&pool));
}

/* Two moving pages whose serials and numbers nobody kept are found, from any frame on, and put back. */
static void lost(compactd_pool *pool, uint32_t page_words)
{
    IS(NOT_MOVING, compactd_next_moving(pool, 0, &page, &move));
    OK(compactd_map_at(pool, 0, 2, 9, 0, 0));
    OK(compactd_share(pool, 0, 2, 9, 2, 8));
    OK(compactd_map_at(pool, 0, 2, 7, 0, 300));
    OK(compactd_store(pool, 0, 2, 7, 0, 1));
    OK(compactd_begin_round(pool));
    OK(compactd_isolate(pool, &page, words, page_words));
    OK(compactd_isolate(pool, &page, words, page_words));
    IS(NOT_MOVING, compactd_next_moving(pool, 301, &page, &move));
    IS(NOT_MOVING, compactd_next_moving(pool, (1 << 24) - 1, &page, &move));
    OK(compactd_next_moving(pool, 1, &page, &move));
    HOLDS(move.source == 300 && move.target > 300 && move.space == 2 && move.vpage == 7 && page.flags == COMPACTD_DIRTY);
    OK(compactd_next_moving(pool, 0, &page, &move));
    HOLDS(move.source == 0 && move.target > 300 && move.space == 2 && move.vpage == 8 && page.flags == 0);
    OK(compactd_put_back(pool, &page));
    OK(compactd_next_moving(pool, 0, &page, &move));
    HOLDS(move.source == 300);
    OK(compactd_put_back(pool, &page));
    IS(NOT_MOVING, compactd_next_moving(pool, 0, &page, &move));
    OK(compactd_unmap(pool, 0, 2, 7));
    OK(compactd_unmap(pool, 0, 2, 8));
    OK(compactd_unmap(pool, 0, 2, 9));
}

/* A pageblock of which the frames 4, 5 and 6 alone are free: a run of 2 and one of 1. Then it is full, and then empty. */
static void free_runs(void)
{
    compactd_pool pool = {0};
    uint32_t at;

    OK(compactd_open(&pool, 8, 1));
    for (at = 0; at < 512; at++)
        OK(compactd_map(&pool, 0, 0, at, 0, &frame));
    OK(compactd_fragmentation(&pool, 0, &fragmentation));
    HOLDS(fragmentation == 0);
    for (at = 4; at < 7; at++)
        OK(compactd_unmap(&pool, 0, 0, at));
    OK(compactd_free_runs(&pool, 0, &runs));
    HOLDS(runs == 1);
    OK(compactd_free_runs(&pool, 1, &runs));
    HOLDS(runs == 1);
    OK(compactd_free_runs(&pool, 2, &runs));
    HOLDS(runs == 0);
    OK(compactd_fragmentation(&pool, 1, &fragmentation));
    HOLDS(fragmentation == -1000);
    OK(compactd_fragmentation(&pool, 2, &fragmentation)); /* 1000 - (1000 + 3 * 1000 / 4) / 2 */
    HOLDS(fragmentation == 125);
    for (at = 0; at < 512; at++)
        if (at < 4 || at > 6)
            OK(compactd_unmap(&pool, 0, 0, at));
    OK(compactd_free_runs(&pool, 9, &runs));
    HOLDS(runs == 1);
    OK(compactd_free_runs(&pool, 0, &runs));
    HOLDS(runs == 0);
    OK(compactd_close(&pool));
}

/* A pool describes what it was opened with. */
static void described(compactd_pool *pool, uint32_t page_words, uint32_t blocks, uint64_t places)
{
    memset(&geometry, 0xA5, sizeof geometry);
    OK(compactd_describe(pool, &geometry));
    HOLDS(geometry.page_words == page_words && geometry.blocks == blocks && geometry.places == places);
    HOLDS(geometry.reserved == 0);
}

static void has_addresses(uint32_t spaces, uint32_t vpages)
{
    HOLDS(geometry.spaces == spaces && geometry.vpages == vpages);
}

/* The last address of a pool names a page, which is moved, and so does its first one. Those past the last space and the last virtual page
 * can't. */
static void last_address(compactd_pool *pool, uint32_t spaces, uint32_t vpages)
{
    const uint32_t space = spaces - 1, vpage = vpages - 1;

    OK(compactd_map(pool, 0, space, vpage, 0, &frame));
    OK(compactd_store(pool, 0, space, vpage, 7, 5));
    IS(UNMAPPED, compactd_look(pool, 0, 0, &info));
    OK(compactd_share(pool, 0, space, vpage, 0, 0));
    IS(RANGE, compactd_map(pool, 0, spaces, 0, 0, &frame));
    IS(RANGE, compactd_map_at(pool, 0, 0, vpages, 0, 9));
    IS(RANGE, compactd_share(pool, 0, 0, 0, spaces, vpage));
    IS(RANGE, compactd_share(pool, 0, 0, 0, space, vpages));
    OK(compactd_compact(pool, &is_so));
    OK(compactd_look(pool, space, vpage, &info));
    HOLDS(is_so && info.frame > 9 && info.maps == 2);
    OK(compactd_load(pool, 0, 0, 0, 7, &value));
    HOLDS(value == 5);
    OK(compactd_unmap(pool, 0, 0, 0));
    IS(UNMAPPED, compactd_load(pool, 0, 0, 0, 7, &value));
    OK(compactd_load(pool, 0, space, vpage, 7, &value));
    HOLDS(value == 5);
    OK(compactd_unmap(pool, 0, space, vpage));
}

/* A pool of this size, with and without a journal. */
static void sized(uint32_t page_words, uint32_t blocks, uint32_t spaces, uint32_t vpages)
{
    static const uint32_t places[] = {0, 77};
    uint32_t at;

    for (at = 0; at < 2; at++) {
        compactd_pool pool = {0};

        OK(compactd_open_sized(&pool, page_words, blocks, spaces, vpages, places[at]));
        IS(OPEN, compactd_open_sized(&pool, page_words, blocks, spaces, vpages, places[at]));
        described(&pool, page_words, blocks, places[at]);
        has_addresses(spaces, vpages);
        last_address(&pool, spaces, vpages);
        IS(RANGE, compactd_map_at(&pool, 0, 0, 0, 0, 512 * blocks));
        OK(compactd_map_at(&pool, 0, 0, 0, 0, 512 * blocks - 1));
        OK(compactd_close(&pool));
    }
}

/* One past each end of a range, also where the product of the spaces and virtual pages wraps around at 2^32. */
static void sizes_out_of_range(uint32_t page_words)
{
    const uint32_t most_places = 65536, most_vpages = 1 << 24, far = 0xFFFFFFFFu;
    compactd_pool pool = {0};

    IS(RANGE, compactd_open_sized(&pool, page_words + 1, 1, 1, 1, 0));
    IS(RANGE, compactd_open_sized(&pool, page_words, 0, 1, 1, 0));
    IS(RANGE, compactd_open_sized(&pool, page_words, 32769, 1, 1, 0));
    IS(RANGE, compactd_open_sized(&pool, page_words, 1, 0, 1, 0));
    IS(RANGE, compactd_open_sized(&pool, page_words, 1, 257, 1, 0));
    IS(RANGE, compactd_open_sized(&pool, page_words, 1, 1, 0, 0));
    IS(RANGE, compactd_open_sized(&pool, page_words, 1, 1, most_vpages + 1, 0));
    IS(RANGE, compactd_open_sized(&pool, page_words, 1, 5, most_vpages, 0));
    IS(RANGE, compactd_open_sized(&pool, page_words, 1, 256, 262145, 0));
    IS(RANGE, compactd_open_sized(&pool, page_words, 1, 256, most_vpages, 0));
    IS(RANGE, compactd_open_sized(&pool, page_words, 1, 1, 1, most_places + 1));
    IS(RANGE, compactd_open_sized(&pool, far, far, far, far, far));
    closed(&pool);
}

/* Pools of odd sizes: of the smallest one, of more pageblocks with a journal than compactd_open_journal has, and of the most spaces. */
static void odd_sizes(uint32_t page_words)
{
    sizes_out_of_range(page_words);
    sized(page_words, 1, 1, 2);
    sized(page_words, 9, 7, 4097);
    sized(page_words, 3, 256, 1001);
    sized(page_words, 2, 8, 4096);
}

/* A pool with more pages than other pools have addresses: each of its addresses names one. */
static void page_of_each_address(void)
{
    const uint32_t blocks = 70, spaces = 5, vpages = 7168;
    compactd_pool pool = {0};
    uint32_t at;

    OK(compactd_open_sized(&pool, 8, blocks, spaces, vpages, 0));
    for (at = 0; at < 512 * blocks; at++) {
        OK(compactd_map(&pool, 0, at / vpages, at % vpages, 0, &frame));
        OK(compactd_store(&pool, 0, at / vpages, at % vpages, 7, at));
    }
    OK(compactd_info(&pool, &counts));
    HOLDS(counts.pages == 35840 && counts.free == 0);
    IS(OCCUPIED, compactd_map(&pool, 0, spaces - 1, vpages - 1, 0, &frame));
    for (at = 0; at < 512 * blocks; at++) {
        OK(compactd_load(&pool, 0, at / vpages, at % vpages, 7, &value));
        HOLDS(value == at);
    }
    OK(compactd_close(&pool));
}

static void every_number_of_blocks(uint32_t page_words)
{
    uint32_t blocks;

    for (blocks = 1; blocks <= 8; blocks++) {
        compactd_pool pool = {0};

        OK(compactd_open(&pool, page_words, blocks));
        described(&pool, page_words, blocks, 0);
        OK(compactd_info(&pool, &counts));
        HOLDS(counts.free == 512 * blocks && counts.whole == blocks && counts.pages == 0);
        OK(compactd_free_runs(&pool, 9, &runs));
        HOLDS(runs == blocks);
        OK(compactd_close(&pool));
    }
}

/* The last frame and the last pageblock of a pool that has more of them than one with a journal may have. */
static void many_pageblocks(uint32_t page_words, uint32_t blocks)
{
    compactd_pool pool = {0};
    uint32_t last = 512 * blocks - 1;

    OK(compactd_open(&pool, page_words, blocks));
    described(&pool, page_words, blocks, 0);
    IS(RANGE, compactd_map_at(&pool, 0, 0, 0, 0, last + 1));
    OK(compactd_map_at(&pool, 0, 0, 0, 0, last));
    OK(compactd_store(&pool, 0, 0, 0, 7, 5));
    IS(RANGE, compactd_mark(&pool, blocks));
    OK(compactd_mark(&pool, blocks - 1));
    OK(compactd_marked(&pool, blocks - 1, &is_so));
    HOLDS(is_so);
    OK(compactd_unmark(&pool, blocks - 1));
    OK(compactd_evacuate(&pool, last - 7, 3, &moved));
    OK(compactd_look(&pool, 0, 0, &info));
    HOLDS(moved == 1 && info.frame == last - 8 && info.flags == COMPACTD_DIRTY);
    OK(compactd_load(&pool, 0, 0, 0, 7, &value));
    HOLDS(value == 5);
    IS(RANGE, compactd_give_order(&pool, last + 1, 9));
    IS(NOT_HUGE, compactd_give_order(&pool, last - 511, 9));
    OK(compactd_close(&pool));
}

/* Each number from 0 on has a text of its own, where it is that of a refusal. */
static void texts(void)
{
    uint32_t refusal, other;

    HOLDS(strcmp(compactd_refusal_text(COMPACTD_OK), "done") == 0);
    HOLDS(strcmp(compactd_refusal_text(COMPACTD_NOT_MOVING), "no page is moving out of this frame or a higher one") == 0);
    HOLDS(strcmp(compactd_refusal_text(15), "unknown refusal") == 0);
    HOLDS(strcmp(compactd_refusal_text(0xFFFFFFFFu), "unknown refusal") == 0);
    for (refusal = 0; refusal < 64; refusal++)
        for (other = 0; other < refusal; other++)
            HOLDS(strcmp(compactd_refusal_text(refusal), compactd_refusal_text(other)) != 0
                  || strcmp(compactd_refusal_text(refusal), "unknown refusal") == 0);
}

/* A journal of four places: a map, two for the page that is moving, and then none. */
static void journal(uint32_t page_words)
{
    compactd_pool pool = {0};

    IS(RANGE, compactd_open_journal(&pool, page_words, 1, 0));
    IS(RANGE, compactd_open_journal(&pool, page_words, 1, 65537));
    IS(RANGE, compactd_open_journal(&pool, page_words, 9, 4));
    OK(compactd_open_journal(&pool, page_words, 1, 4));
    described(&pool, page_words, 1, 4);
    has_addresses(8, 4096);
    OK(compactd_map(&pool, 0, 0, 0, 0, &frame));
    OK(compactd_begin_round(&pool));
    OK(compactd_isolate(&pool, &page, words, page_words));
    OK(compactd_pin(&pool, 0, 0, 0));
    IS(JOURNAL_FULL, compactd_map(&pool, 0, 0, 1, 0, &frame));
    IS(JOURNAL_FULL, compactd_isolate(&pool, &page, words, page_words));
    OK(compactd_commit(&pool, &page, words, page_words, &is_so));
    IS(JOURNAL_FULL, compactd_load(&pool, 0, 0, 0, 0, &value));
    IS(JOURNAL_FULL, compactd_read(&pool, 0, 0, 0, 0, words, 1));
    OK(compactd_compact(&pool, &is_so));
    HOLDS(!is_so);
    OK(compactd_journal(&pool, &records, &room));
    HOLDS(records == 4 && room == 0);
    OK(compactd_record_at(&pool, 0, &record));
    HOLDS(record.kind == COMPACTD_WAS_MAPPED && record.client == 0 && record.space == 0 && record.vpage == 0 && record.number == page.number);
    OK(compactd_record_at(&pool, 1, &record));
    HOLDS(record.kind == COMPACTD_WAS_ISOLATED && record.number == page.serial && record.other == page.number);
    OK(compactd_record_at(&pool, 3, &record));
    HOLDS(record.kind == COMPACTD_WAS_PUT_BACK && record.number == page.serial && record.other == 1 && record.value == 0);
    IS(RANGE, compactd_record_at(&pool, 4, &record));
    IS(RANGE, compactd_record_at(&pool, (size_t)-1, &record));
    OK(compactd_close(&pool));
}

static void both_sizes(uint32_t page_words)
{
    compactd_pool pool = {0};

    closed(&pool);
    IS(RANGE, compactd_open(&pool, 0, 1));
    IS(RANGE, compactd_open(&pool, 9, 1));
    IS(RANGE, compactd_open(&pool, page_words, 0));
    IS(RANGE, compactd_open(&pool, page_words, 32769));
    closed(&pool);
    OK(compactd_open(&pool, page_words, 1));
    described(&pool, page_words, 1, 0);
    has_addresses(8, 4096);
    IS(OPEN, compactd_open(&pool, page_words, 1));
    IS(OPEN, compactd_open_journal(&pool, page_words, 1, 1));
    IS(OPEN, compactd_open_sized(&pool, 0, 0, 0, 0, 0));
    IS(OPEN, compactd_open_in(&pool, 0, 0, 0, 0, 0, &lent, 0));
    ranges(&pool, page_words);
    addresses(&pool);
    pages(&pool, page_words);
    blocks(&pool, page_words);
    moved_by_hand(&pool, page_words);
    lost(&pool, page_words);
    OK(compactd_close(&pool));
    closed(&pool);
    journal(page_words);
    slices(page_words);
    slices_of_a_journal(page_words);
    carried_together(page_words);
    listed_moves(page_words);
    many_pages(page_words);
    many_pages_of_a_full_pool(page_words);
    evacuations(page_words);
    evacuations_of_a_full_pool(page_words);
    evacuations_of_a_journal(page_words);
    steps_of_a_claim(page_words);
    claims_that_are_dropped(page_words);
    claims_beside_rounds(page_words);
    steps_of_odd_runs(page_words);
    steps_of_a_full_pool(page_words);
    steps_of_a_journal(page_words);
    unmovable_pages_apart(page_words);
    reservations(page_words);
    reservations_of_a_journal(page_words);
    blocks_kept_ready(page_words);
    keepers_with_no_room(page_words);
    every_number_of_blocks(page_words);
    many_pageblocks(page_words, 9);
    odd_sizes(page_words);
}

/* What one of these leaves behind is seen by the tools that look for memory that is lost. */
static void a_thousand_pools(void)
{
    int number;

    for (number = 0; number < 1000; number++) {
        compactd_pool pool = {0};

        OK(compactd_open(&pool, number % 2 ? 8 : 512, 1));
        OK(compactd_map(&pool, 0, 0, 0, 0, &frame));
        OK(compactd_store(&pool, 0, 0, 0, 7, 1));
        OK(compactd_compact(&pool, &is_so));
        OK(compactd_take_order(&pool, 8, &frame));
        OK(compactd_read_block(&pool, frame, 8, 0, words, 1));
        OK(compactd_close(&pool));
    }
}

int main(void)
{
    HOLDS(compactd_version() == COMPACTD_VERSION);
    texts();
    free_runs();
    a_thousand_pools();
    both_sizes(8);
    both_sizes(512);
    many_pageblocks(8, 513);
    sized(8, 1, 1, 16777216);
    page_of_each_address();
    return wrong;
}
