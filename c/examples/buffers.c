/* The buffers of a database. Each page is a buffer with a balance in its first word. Four threads transfer money between buffers: they pin
 * both, so that these stay where they are, read and write them, and take the pins off. Beside them the main thread makes rounds in slices.
 * Every call on the pool is made under one lock, which each slice lets go to a thread that waits. The sum of all balances stays. */
#include "compactd.h"
#include "compactd_round.h"

#include <pthread.h>
#include <stdio.h>

#define PAGE_WORDS 512
#define BLOCKS 4
#define BUFFERS 1024
#define THREADS 4
#define TRANSFERS 5000
#define ROUNDS 20
#define SLICE_PAGES 16
#define OTHERS 100
#define BALANCE 100

static compactd_pool pool;
static pthread_mutex_t lock;

/* Every second page is a buffer, so that no pageblock is free as a whole. */
static uint32_t page_of(uint32_t buffer)
{
    return 2 * buffer;
}

/* Whether all went well. */
static int open_buffers(void)
{
    uint32_t page, frame;

    if (compactd_open(&pool, PAGE_WORDS, BLOCKS) != COMPACTD_OK)
        return 0;
    for (page = 0; page < 2 * BUFFERS; page++)
        if (compactd_map(&pool, 0, 0, page, 0, &frame) != COMPACTD_OK)
            return 0;
    for (page = 0; page < 2 * BUFFERS; page++) {
        uint32_t answer = page % 2 ? compactd_unmap(&pool, 0, 0, page) : compactd_store(&pool, 0, 0, page, 0, BALANCE);

        if (answer != COMPACTD_OK)
            return 0;
    }
    return 1;
}

/* Adds an amount to the balance of a buffer that is pinned. */
static int add(uint32_t client, uint32_t page, uint64_t amount)
{
    uint64_t balance = 0;
    uint32_t answer;

    pthread_mutex_lock(&lock);
    answer = compactd_read(&pool, client, 0, page, 0, &balance, 1);
    if (answer == COMPACTD_OK) {
        balance += amount;
        answer = compactd_write(&pool, client, 0, page, 0, &balance, 1);
    }
    pthread_mutex_unlock(&lock);
    return answer == COMPACTD_OK;
}

static int set_pins(uint32_t client, uint32_t from, uint32_t to, uint32_t (*call)(compactd_pool *, uint32_t, uint32_t, uint32_t))
{
    int is_done;

    pthread_mutex_lock(&lock);
    is_done = call(&pool, client, 0, from) == COMPACTD_OK && call(&pool, client, 0, to) == COMPACTD_OK;
    pthread_mutex_unlock(&lock);
    return is_done;
}

/* A client: NULL where one of its calls was refused. */
static void *transfer(void *number)
{
    uint32_t client = *(uint32_t *)number, chance = client + 1, made;

    for (made = 0; made < TRANSFERS; made++) {
        uint32_t from, to;

        chance = chance * 1664525u + 1013904223u;
        from = page_of(chance >> 8 & (BUFFERS - 1));
        chance = chance * 1664525u + 1013904223u;
        to = page_of(chance >> 8 & (BUFFERS - 1));
        if (!set_pins(client, from, to, compactd_pin) || !add(client, from, (uint64_t)0 - made) || !add(client, to, made)
            || !set_pins(client, from, to, compactd_unpin))
            return NULL;
    }
    return number;
}

/* Pages that are mapped before a round and unmapped after it, so that each round has pages to move. */
static int set_others(uint32_t round, int are_mapped)
{
    uint32_t at, frame;
    int is_done = 1;

    for (at = 0; at < OTHERS; at++) {
        uint32_t page = OTHERS * (round % 2) + at;

        pthread_mutex_lock(&lock);
        is_done &= (are_mapped ? compactd_map(&pool, 7, 1, page, 0, &frame) : compactd_unmap(&pool, 7, 1, page)) == COMPACTD_OK;
        pthread_mutex_unlock(&lock);
    }
    return is_done;
}

static uint64_t sum(void)
{
    uint64_t all = 0, balance = 0;
    uint32_t buffer;

    for (buffer = 0; buffer < BUFFERS; buffer++)
        if (compactd_load(&pool, 0, 0, page_of(buffer), 0, &balance) == COMPACTD_OK)
            all += balance;
    return all;
}

static void tell(const char *when)
{
    compactd_counts counts = {0, 0, 0, 0, 0, 0, {0, 0}};

    if (compactd_info(&pool, &counts) != COMPACTD_OK)
        return;
    printf("%s: %u buffers, %u moving, %u pageblocks free as a whole, sum %lu\n", when, (unsigned)counts.pages, (unsigned)counts.moving,
           (unsigned)counts.whole, (unsigned long)sum());
}

int main(void)
{
    pthread_t threads[THREADS];
    uint32_t clients[THREADS], client, round, first;
    compactd_round_counts counts;
    unsigned taken = 0;
    int is_well = compactd_round_lock(&lock) == 0 && open_buffers();

    if (!is_well)
        return 1;
    tell("before");
    for (client = 0; client < THREADS; client++) {
        clients[client] = client;
        if (pthread_create(&threads[client], NULL, transfer, &clients[client]) != 0)
            return 1;
    }
    for (round = 0; round < ROUNDS; round++) {
        is_well &= set_others(round, 1);
        is_well &= compactd_round(&pool, &lock, SLICE_PAGES, &counts) == COMPACTD_OK;
        is_well &= set_others(round, 0);
    }
    for (client = 0; client < THREADS; client++) {
        void *ended;

        pthread_join(threads[client], &ended);
        is_well &= ended != NULL;
    }
    printf("%d transfers beside %d rounds: %s\n", THREADS * TRANSFERS, ROUNDS, is_well ? "no call was refused" : "a call was refused");

    /* Nobody has a pin now, so one more round packs the buffers. */
    is_well &= compactd_round(&pool, &lock, SLICE_PAGES, &counts) == COMPACTD_OK;
    tell("after them and one more round");
    is_well &= compactd_audit(&pool, &counts) == COMPACTD_OK;
    printf("each page that was taken in a round was moved or put back: %s\n", counts.moved + counts.back == counts.isolated ? "yes" : "no");
    while (compactd_take_order(&pool, 9, &first) == COMPACTD_OK)
        taken++;
    printf("%u huge pages taken\n", taken);
    compactd_close(&pool);
    pthread_mutex_destroy(&lock);
    return is_well ? 0 : 1;
}
