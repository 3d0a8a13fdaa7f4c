/* A host whose memory is 64 MiB that it mapped: 32 pageblocks of 512 pages of 4 KiB. It fills all of it with pages, and frees three of four,
 * wherever they lie. Then it takes as many huge blocks as there can be, for which the pages that are left move together. It gives the
 * memory of half of the blocks back to the system, and writes the others by pointers. Each page and each block keeps its words. How much
 * memory is resident, and how long a read takes, goes to standard error. */
#define _DEFAULT_SOURCE

#include "compactd.h"
#include "compactd_memory.h"

#include <stdio.h>
#include <string.h>
#include <time.h>

#define PAGE_WORDS 512
#define BLOCKS 32
#define PAGES (BLOCKS * 512u)
#define KEPT (PAGES / 4)
#define ORDER 9
#define READS 200000

static compactd_pool pool;
static const uint64_t *begin; /* of the memory, which the pool has */
static uint32_t kept[PAGES];  /* the pages, of which the first KEPT are kept */
static uint32_t firsts[BLOCKS];
static compactd_words blocks[BLOCKS];
static uint32_t chance = 1;

static uint32_t drawn(uint32_t below)
{
    chance = chance * 1664525u + 1013904223u;
    return (chance >> 8) % below;
}

static uint64_t word_of(uint32_t number, uint32_t word)
{
    return ((uint64_t)number << 32) + word;
}

/* The pages. */

/* Maps each page and writes its words. Whether all went well. */
static int fill(void)
{
    static uint64_t words[PAGE_WORDS];
    uint32_t page, word, frame;

    for (page = 0; page < PAGES; page++) {
        for (word = 0; word < PAGE_WORDS; word++)
            words[word] = word_of(page, word);
        if (compactd_map(&pool, 0, 0, page, 0, &frame) != COMPACTD_OK
            || compactd_write(&pool, 0, 0, page, 0, words, PAGE_WORDS) != COMPACTD_OK)
            return 0;
    }
    return 1;
}

/* Unmaps three of four pages. */
static int free_pages(void)
{
    uint32_t at, other, page;

    for (page = 0; page < PAGES; page++)
        kept[page] = page;
    for (at = PAGES - 1; at >= KEPT; at--) {
        other = drawn(at + 1);
        page = kept[other];
        kept[other] = kept[at];
        if (compactd_unmap(&pool, 0, 0, page) != COMPACTD_OK)
            return 0;
    }
    return 1;
}

static int pages_are_well(void)
{
    static uint64_t words[PAGE_WORDS];
    uint32_t at, word;

    for (at = 0; at < KEPT; at++) {
        if (compactd_read(&pool, 0, 0, kept[at], 0, words, PAGE_WORDS) != COMPACTD_OK)
            return 0;
        for (word = 0; word < PAGE_WORDS; word++)
            if (words[word] != word_of(kept[at], word))
                return 0;
    }
    return 1;
}

/* The blocks. */

/* Takes as many blocks as there can be, and returns how many. */
static uint32_t take_blocks(uint32_t *moved)
{
    uint32_t count = BLOCKS;

    while (count > 0 && compactd_reserve(&pool, ORDER, firsts, count, moved) != COMPACTD_OK)
        count--;
    return count;
}

/* Borrows the words of each block, gives the memory of the first half back to the system, and writes the others. */
static int use_blocks(uint32_t count)
{
    uint32_t at, word;

    for (at = 0; at < count; at++)
        if (compactd_block_words(&pool, firsts[at], ORDER, &blocks[at]) != COMPACTD_OK)
            return 0;
    for (at = 0; at < count / 2; at++)
        if (compactd_release_words(&blocks[at]) != 0)
            return 0;
    for (at = count / 2; at < count; at++)
        for (word = 0; word < blocks[at].count; word++)
            blocks[at].at[word] = word_of(at, word);
    return 1;
}

/* Returns the words of the blocks. Those that were written have what was written, and the others are 0. */
static int return_blocks(uint32_t count)
{
    uint32_t at, word;

    for (at = 0; at < count; at++) {
        for (word = 0; word < blocks[at].count; word++)
            if (blocks[at].at[word] != (at < count / 2 ? 0 : word_of(at, word)))
                return 0;
        if (compactd_return_block(&pool, firsts[at], ORDER, &blocks[at]) != COMPACTD_OK)
            return 0;
    }
    return 1;
}

/* What goes to standard error. */

/* How many KiB of the memory lie in huge pages of the processor. */
static unsigned long huge_kib(void)
{
    char line[512];
    unsigned long from, to, kib, all = 0, at = (unsigned long)begin;
    int is_inside = 0;
    FILE *maps = fopen("/proc/self/smaps", "r");

    while (maps != NULL && fgets(line, sizeof line, maps) != NULL) {
        if (sscanf(line, "%lx-%lx ", &from, &to) == 2)
            is_inside = from < at + sizeof(uint64_t) * PAGES * PAGE_WORDS && at < to;
        else if (is_inside && sscanf(line, "AnonHugePages: %lu", &kib) == 1)
            all += kib;
    }
    if (maps != NULL)
        fclose(maps);
    return all;
}

static void tell_memory(const char *when)
{
    unsigned long size, resident = 0;
    FILE *counts = fopen("/proc/self/statm", "r");

    if (counts == NULL || fscanf(counts, "%lu %lu", &size, &resident) != 2)
        return;
    fclose(counts);
    fprintf(stderr, "%s: %lu MiB are resident, %lu MiB of the memory lie in huge pages\n", when, resident / 256, huge_kib() / 1024);
}

static double now(void)
{
    struct timespec time;

    clock_gettime(CLOCK_MONOTONIC, &time);
    return (double)time.tv_sec * 1e9 + (double)time.tv_nsec;
}

/* Random words of pages by calls, and of the blocks that were written by pointers. */
static void time_reads(uint32_t count)
{
    uint64_t value = 0, sum = 0;
    double start = now(), between;
    uint32_t made;

    for (made = 0; made < READS; made++)
        if (compactd_load(&pool, 0, 0, kept[drawn(KEPT)], drawn(PAGE_WORDS), &value) == COMPACTD_OK)
            sum += value;
    between = now();
    for (made = 0; made < READS; made++)
        sum += blocks[count / 2 + drawn(count - count / 2)].at[drawn(512 * PAGE_WORDS)];
    fprintf(stderr, "a read takes %.1f ns in a page by a call, and %.1f ns in a block by the pointer (%lu)\n", (between - start) / READS,
            (now() - between) / READS, (unsigned long)sum & 1);
}

static const char *yes_or_no(int is_so)
{
    return is_so ? "yes" : "no";
}

/* What the host does with the pool, whose memory is full of pages. */
static int run(void)
{
    compactd_counts counts = {0, 0, 0, 0, 0, 0, {0, 0}};
    uint32_t moved = 0, count;
    int are_well;

    if (!free_pages() || compactd_info(&pool, &counts) != COMPACTD_OK)
        return 0;
    printf("%u of %u pages are left, %u pageblocks are free as a whole\n", (unsigned)counts.pages, PAGES, (unsigned)counts.whole);
    tell_memory("before");
    count = take_blocks(&moved);
    printf("%u huge blocks were taken, for which %u pages moved\n", (unsigned)count, (unsigned)moved);
    if (count == 0 || !use_blocks(count))
        return 0;
    printf("the memory of %u blocks is the system's, %u are written\n", (unsigned)(count / 2), (unsigned)(count - count / 2));
    tell_memory("after");
    time_reads(count);
    are_well = pages_are_well();
    printf("each page has its words: %s\n", yes_or_no(are_well));
    are_well &= return_blocks(count);
    printf("each block has its words: %s\n", yes_or_no(are_well));
    return are_well;
}

int main(void)
{
    compactd_words memory = {0};
    int is_well;

    if (compactd_map_memory((size_t)PAGES * PAGE_WORDS, &memory) != 0)
        return 1;
    begin = memory.at;
    if (compactd_open_in(&pool, PAGE_WORDS, BLOCKS, 1, PAGES, 0, &memory, 1) != COMPACTD_OK)
        return 1;
    is_well = fill() && run() && compactd_close_in(&pool, &memory) == COMPACTD_OK;
    printf("the memory came back: %s\n", yes_or_no(memory.at == begin));
    return is_well && compactd_unmap_memory(&memory) == 0 ? 0 : 1;
}
