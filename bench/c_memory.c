/* Reads of memory that a pool lends, from C, beside reads of plain memory. The first argument is how often all of it is measured, the second
 * the size of the pool: 2^SIZE frames of 512 words.
 *
 * First all frames of a pool are handed out in blocks of 512, and their words are lent. A word of any block is read through the block's
 * pointer; and so is one of plain memory that was mapped and advised the same way, in parts of the same size. Each read is at a place that
 * depends on what the one before it had. Then words of a block are lent and returned, again and again.
 *
 * Then half of the frames of a second pool have a page, which are spread over all pageblocks, and plain memory has words at the same places,
 * in pages of 4 KiB of the system. A word of any page is read by compactd_load, and by a pointer in plain memory. Pages are pinned and their
 * words lent, and unpinned again, a few of them again and again, and all of them in order. Half of the pageblocks are then emptied and taken
 * by compactd_reserve, and the pages are copied into them and unmapped. The other half is taken too, and its memory given back to the system.
 * The words are read through the pointers of the blocks then.
 *
 * Each line that it prints has what was done, a tab, and nanoseconds, or MiB. */
#define _DEFAULT_SOURCE

#include "compactd.h"
#include "compactd_memory.h"

#include <stdio.h>
#include <stdlib.h>
#include <string.h>
#include <time.h>

#define WORDS 512
#define ORDER 9
#define BLOCK_WORDS ((size_t)512 * WORDS)
#define MOST_BLOCKS 32768
#define READS 2000000
#define LOANS 1000000

static compactd_pool pool;
static compactd_words memory, plain;
static uint64_t *begin; /* of the memory, which the pool has */
static compactd_words lent[MOST_BLOCKS];
static uint32_t firsts[MOST_BLOCKS];
static uint64_t *parts[MOST_BLOCKS]; /* where 512 pages begin */
static uint64_t **pages;             /* where each page begins in plain memory */
static uint32_t frames, blocks, page_count;
static uint64_t random_state = 88172645463325252u;
static volatile uint64_t sum;
static int is_well = 1;

static double now(void)
{
    struct timespec time;

    clock_gettime(CLOCK_MONOTONIC, &time);
    return (double)time.tv_sec * 1e9 + (double)time.tv_nsec;
}

static void need(int holds)
{
    is_well &= holds;
}

static uint64_t drawn(void)
{
    random_state ^= random_state << 13;
    random_state ^= random_state >> 7;
    random_state ^= random_state << 17;
    return random_state >> 16;
}

static void tell(const char *what, double number)
{
    printf("%s\t%.3f\n", what, number);
}

/* How many MiB of the pool's memory the system has in memory of its own. */
static double resident(void)
{
    static unsigned char are_there[(size_t)MOST_BLOCKS * 512];
    uint32_t page, found = 0;

    need(mincore(begin, (size_t)frames * WORDS * 8, are_there) == 0);
    for (page = 0; page < frames; page++)
        found += are_there[page] & 1u;
    return found / 256.0;
}

/* How reads are measured. */

/* Words of so many parts of 512 pages, each read at a place that the one before it tells. */
static void read_parts(const char *what, uint32_t count)
{
    const double begun = now();
    uint64_t at = 1;
    uint32_t made;

    for (made = 0; made < READS; made++) {
        at = at * 6364136223846793005u + 1442695040888963407u;
        at += parts[(at >> 32) % count][(at >> 12) % BLOCK_WORDS];
    }
    sum = at;
    tell(what, (now() - begun) / READS);
}

/* Words of pages of plain memory, in the same way. */
static void read_pages(const char *what)
{
    const double begun = now();
    uint64_t at = 1;
    uint32_t made;

    for (made = 0; made < READS; made++) {
        at = at * 6364136223846793005u + 1442695040888963407u;
        at += pages[(at >> 32) % page_count][(at >> 12) % WORDS];
    }
    sum = at;
    tell(what, (now() - begun) / READS);
}

/* Words of pages of the pool by calls. */
static void load_pages(const char *what)
{
    const double begun = now();
    uint64_t at = 1, value = 0;
    uint32_t made;

    for (made = 0; made < READS; made++) {
        at = at * 6364136223846793005u + 1442695040888963407u;
        need(compactd_load(&pool, 0, 0, (uint32_t)((at >> 32) % page_count), (uint32_t)((at >> 12) % WORDS), &value) == COMPACTD_OK);
        at += value;
    }
    sum = at;
    tell(what, (now() - begun) / READS);
}

static void lend_and_return(void)
{
    const double begun = now();
    compactd_words words = {0};
    uint32_t made;

    for (made = 0; made < LOANS; made++) {
        need(compactd_block_words(&pool, firsts[made % blocks], ORDER, &words) == COMPACTD_OK);
        need(compactd_return_block(&pool, firsts[made % blocks], ORDER, &words) == COMPACTD_OK);
    }
    tell("lend and return the words of a block", (now() - begun) / LOANS);
}

/* Pins so many pages and unpins them, one after the other, with their words. */
static void pin_and_unpin(const char *what, uint32_t count)
{
    const double begun = now();
    compactd_words words = {0};
    uint32_t made;

    for (made = 0; made < LOANS; made++) {
        need(compactd_pin_words(&pool, 0, 0, made % count, &words) == COMPACTD_OK);
        need(compactd_unpin_words(&pool, 0, 0, made % count, &words) == COMPACTD_OK);
    }
    tell(what, (now() - begun) / LOANS);
}

/* Pools. */

static void map_memory(compactd_words *mapped)
{
    if (compactd_map_memory((size_t)frames * WORDS, mapped) != 0) {
        fprintf(stderr, "the system has no memory\n");
        exit(1);
    }
}

static void open_pool(void)
{
    uint32_t answer;

    map_memory(&memory);
    begin = memory.at;
    answer = compactd_open_in(&pool, WORDS, frames / 512, 1, frames, 0, &memory, 1);
    if (answer != COMPACTD_OK) {
        fprintf(stderr, "the pool isn't opened: %s\n", compactd_refusal_text(answer));
        exit(1);
    }
}

/* Takes every block there is and borrows its words, from a place of the lists on. Returns how many there are then. */
static uint32_t take_blocks(uint32_t from)
{
    while (from < MOST_BLOCKS && compactd_take_order(&pool, ORDER, &firsts[from]) == COMPACTD_OK) {
        need(compactd_block_words(&pool, firsts[from], ORDER, &lent[from]) == COMPACTD_OK);
        from++;
    }
    return from;
}

static void return_blocks(uint32_t count)
{
    while (count-- > 0)
        need(compactd_return_block(&pool, firsts[count], ORDER, &lent[count]) == COMPACTD_OK);
}

/* Blocks beside plain memory, both of huge pages of the system where it has some. */
static void compare_blocks(int turns)
{
    uint32_t at;

    open_pool();
    map_memory(&plain);
    blocks = take_blocks(0);
    need(blocks == frames / 512);
    for (at = 0; at < blocks; at++)
        memset(lent[at].at, 0, BLOCK_WORDS * 8);
    memset(plain.at, 0, plain.count * 8);
    while (turns-- > 0) {
        for (at = 0; at < blocks; at++)
            parts[at] = lent[at].at;
        read_parts("a word of a block, by its pointer", blocks);
        for (at = 0; at < blocks; at++)
            parts[at] = plain.at + at * BLOCK_WORDS;
        read_parts("a word of plain memory", blocks);
    }
    return_blocks(blocks);
}

/* A program whose pages are spread. */

static void write_page(uint32_t page, uint64_t *to)
{
    uint32_t word;

    for (word = 0; word < WORDS; word++)
        to[word] = ((uint64_t)page << 9) + word;
}

/* Maps a page to half of the frames, each as likely as any other, and writes it, there and in plain memory. */
static void spread_pages(void)
{
    static uint64_t words[WORDS];
    uint32_t frame, most = frames / 2;

    page_count = 0;
    for (frame = 0; frame < frames; frame++)
        if (drawn() % (frames - frame) < most - page_count) {
            pages[page_count] = plain.at + (size_t)frame * WORDS;
            write_page(page_count, pages[page_count]);
            write_page(page_count, words);
            need(compactd_map_at(&pool, 0, 0, page_count, 0, frame) == COMPACTD_OK);
            need(compactd_write(&pool, 0, 0, page_count, 0, words, WORDS) == COMPACTD_OK);
            page_count++;
        }
    need(page_count == most);
}

/* Empties half of the pageblocks, and copies the pages into them. */
static void bring_together(void)
{
    const double begun = now();
    uint32_t moved = 0, at, page;

    blocks = frames / 1024;
    need(compactd_reserve(&pool, ORDER, firsts, blocks, &moved) == COMPACTD_OK);
    tell("compaction, for each of its pages", (now() - begun) / moved);
    for (at = 0; at < blocks; at++) {
        need(compactd_block_words(&pool, firsts[at], ORDER, &lent[at]) == COMPACTD_OK);
        parts[at] = lent[at].at;
    }
    for (page = 0; page < page_count; page++) {
        need(compactd_read(&pool, 0, 0, page, 0, parts[page / 512] + (size_t)(page % 512) * WORDS, WORDS) == COMPACTD_OK);
        need(compactd_unmap(&pool, 0, 0, page) == COMPACTD_OK);
    }
}

/* Takes the other half, and gives its memory back to the system. */
static void give_back(void)
{
    uint32_t count = take_blocks(blocks), at;

    need(count == frames / 512);
    for (at = blocks; at < count; at++)
        need(compactd_release_words(&lent[at]) == 0);
}

static void compare_pages(int turns)
{
    double begun;
    int turn;

    open_pool();
    map_memory(&plain);
    need(madvise(plain.at, plain.count * 8, MADV_NOHUGEPAGE) == 0);
    spread_pages();
    for (turn = 0; turn < turns; turn++) {
        load_pages("a word of a page that is spread, by a call");
        read_pages("a word of plain memory in pages of 4 KiB");
    }
    tell("MiB that are resident with pages that are spread", resident());
    for (turn = 0; turn < turns; turn++) {
        pin_and_unpin("pin and unpin the words of a page, one of 64", 64);
        pin_and_unpin("pin and unpin the words of a page, each in turn", page_count);
    }
    bring_together();
    begun = now();
    give_back();
    tell("giving a block back to the system", (now() - begun) / blocks);
    tell("MiB that are resident with half given back", resident());
    for (turn = 0; turn < turns; turn++) {
        read_parts("a word of the same pages in blocks, by a pointer", blocks);
        read_pages("a word of plain memory in pages of 4 KiB");
    }
    return_blocks(frames / 512);
}

/* Closes the pool, and unmaps its memory and the plain memory. */
static void end(void)
{
    need(compactd_close_in(&pool, &memory) == COMPACTD_OK);
    need(compactd_unmap_memory(&memory) == 0 && compactd_unmap_memory(&plain) == 0);
}

int main(int count, char **words)
{
    int turns, turn;

    if (count != 3)
        return 2;
    turns = atoi(words[1]);
    frames = (uint32_t)1 << atoi(words[2]);
    pages = malloc(sizeof pages[0] * (frames / 2));
    if (pages == NULL)
        abort();
    compare_blocks(turns);
    for (turn = 0; turn < turns; turn++)
        lend_and_return();
    end();
    compare_pages(turns);
    end();
    free(pages);
    return is_well ? 0 : 1;
}
