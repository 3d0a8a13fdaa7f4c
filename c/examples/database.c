/* The buffers of a database: pages of 4 KiB of a pool that lies in memory of its own, into which the kernel reads a file without a copy. The
 * file has 16 MiB. All of it is read in random order. Then half of the buffers are given up, wherever they lie, and 4,096 pages are fetched,
 * half of which have to be read again. A buffer is pinned from when it is fetched until 8 others were, and its words are lent meanwhile. A
 * thread keeps two huge blocks ready: it moves the buffers that have no pin. Each 256 pages a block is taken for a scan, and given back. Each
 * word tells its place in the file. How long a read takes, and how many pages moved, goes to standard error. */
#define _GNU_SOURCE /* for O_DIRECT */

#include "compactd.h"
#include "compactd_memory.h"

#include <fcntl.h>
#include <pthread.h>
#include <stdio.h>
#include <stdlib.h>
#include <time.h>
#include <unistd.h>

#define PAGE_WORDS 512
#define PAGE_BYTES (PAGE_WORDS * sizeof(uint64_t))
#define BLOCKS 8
#define PAGES (BLOCKS * 512u) /* of the pool, and of the file */
#define CACHED (PAGES / 2)
#define FETCHES PAGES
#define PINNED 8
#define SCAN_EACH 256
#define ORDER 9
#define READY 2
#define STEP 16
#define NONE PAGES

static compactd_pool pool;
static pthread_mutex_t lock = PTHREAD_MUTEX_INITIALIZER; /* each call on the pool is made under it */
static pthread_cond_t changed = PTHREAD_COND_INITIALIZER; /* there may be more for the keeper to do */
static int file;
static uint32_t cached[PAGES]; /* the pages of the file that have a buffer, in no order */
static uint32_t place[PAGES];  /* where a page of the file stands there, or NONE */
static uint32_t pinned[PINNED];
static compactd_words words[PINNED]; /* of the pinned ones */
static uint32_t read_again, scans;
static double reading; /* ns */
static uint32_t reads;
static uint32_t chance = 1;

static uint32_t drawn(uint32_t below)
{
    chance = chance * 1664525u + 1013904223u;
    return (chance >> 8) % below;
}

static double now(void)
{
    struct timespec time;

    clock_gettime(CLOCK_MONOTONIC, &time);
    return (double)time.tv_sec * 1e9 + (double)time.tv_nsec;
}

/* Makes a call on the pool under the lock. Whether it was done. */
#define DONE(call) (pthread_mutex_lock(&lock), is_done(call))

static int is_done(uint32_t answer)
{
    pthread_mutex_unlock(&lock);
    if (answer != COMPACTD_OK)
        printf("refused: %s\n", compactd_refusal_text(answer));
    return answer == COMPACTD_OK;
}

/* The file. */

/* Writes a file in a temporary folder, which has no name any more then. Reads of it go past the cache of the system, where that can be. */
static int write_file(void)
{
    static uint64_t page[PAGE_WORDS];
    const char *folder = getenv("TMPDIR");
    char name[4096];
    uint32_t number, word;

    snprintf(name, sizeof name, "%s/compactd-XXXXXX", folder != NULL ? folder : "/tmp");
    file = mkstemp(name);
    if (file < 0 || unlink(name) != 0)
        return 0;
    for (number = 0; number < PAGES; number++) {
        for (word = 0; word < PAGE_WORDS; word++)
            page[word] = (uint64_t)number * PAGE_WORDS + word;
        if (write(file, page, PAGE_BYTES) != (ssize_t)PAGE_BYTES)
            return 0;
    }
    if (fsync(file) != 0)
        return 0;
    fcntl(file, F_SETFL, O_DIRECT); /* a file system may refuse it */
    return 1;
}

/* Reads pages of the file into words of the pool, and checks each word. */
static int is_read(uint32_t page, const compactd_words *into)
{
    const size_t bytes = into->count * sizeof(uint64_t);
    const off_t from = (off_t)page * (off_t)PAGE_BYTES;
    const double start = now();
    ssize_t done = pread(file, into->at, bytes, from);

    if (done < 0 && fcntl(file, F_SETFL, 0) == 0) /* without O_DIRECT */
        done = pread(file, into->at, bytes, from);
    reading += now() - start;
    reads++;
    return done == (ssize_t)bytes;
}

static int has_words(uint32_t page, const compactd_words *of)
{
    size_t at;

    for (at = 0; at < of->count; at++)
        if (of->at[at] != (uint64_t)page * PAGE_WORDS + at)
            return 0;
    return 1;
}

/* The buffers. */

static int unpin(uint32_t at)
{
    const uint32_t page = pinned[at];

    pinned[at] = NONE;
    return page == NONE || DONE(compactd_unpin_words(&pool, 0, 0, page, &words[at]));
}

static int unpin_all(void)
{
    uint32_t at;
    int is_well = 1;

    for (at = 0; at < PINNED; at++)
        is_well &= unpin(at);
    return is_well;
}

static int is_pinned(uint32_t page)
{
    uint32_t at;

    for (at = 0; at < PINNED; at++)
        if (pinned[at] == page)
            return 1;
    return 0;
}

/* Gives up a buffer that isn't pinned, and the last one stands in its place then. */
static int give_up(uint32_t count)
{
    uint32_t at;

    do
        at = drawn(count);
    while (is_pinned(cached[at]));
    place[cached[at]] = NONE;
    if (!DONE(compactd_unmap(&pool, 0, 0, cached[at])))
        return 0;
    cached[at] = cached[count - 1];
    if (at < count - 1)
        place[cached[at]] = at;
    return 1;
}

/* Pins a buffer in this place of the pinned ones. */
static int pin(uint32_t page, uint32_t at)
{
    if (!unpin(at) || !DONE(compactd_pin_words(&pool, 0, 0, page, &words[at])))
        return 0;
    pinned[at] = page;
    return 1;
}

/* A page of the file gets a buffer, which stands last, and the kernel reads the page straight into it. */
static int read_page(uint32_t page, uint32_t at, uint32_t last)
{
    uint32_t frame;

    cached[last] = page;
    place[page] = last;
    return DONE(compactd_map(&pool, 0, 0, page, 0, &frame)) && pin(page, at) && is_read(page, &words[at]);
}

/* Reads the whole file in random order, and gives up half of the buffers. */
static int fill(void)
{
    static uint32_t order[PAGES];
    uint32_t at, other, count;

    for (at = 0; at < PAGES; at++) {
        other = drawn(at + 1);
        order[at] = order[other];
        order[other] = at;
        place[at] = NONE;
    }
    for (at = 0; at < PINNED; at++)
        pinned[at] = NONE;
    for (at = 0; at < PAGES; at++)
        if (!read_page(order[at], at % PINNED, at) || !has_words(order[at], &words[at % PINNED]))
            return 0;
    if (!unpin_all())
        return 0;
    for (count = PAGES; count > CACHED; count--)
        if (!give_up(count))
            return 0;
    return 1;
}

/* The keeper. */

static uint32_t ready[READY];
static size_t claimed;
static unsigned long moved, moved_for_scans;
static int is_over, is_stopped;

static void *keep(void *unused)
{
    compactd_bool more;
    uint32_t in_step;

    pthread_mutex_lock(&lock);
    while (!is_over && !is_stopped) {
        is_stopped = compactd_keep(&pool, ORDER, STEP, ready, READY, &claimed, &in_step, &more) != COMPACTD_OK;
        moved += is_stopped ? 0 : in_step;
        if (!is_stopped && !more)
            pthread_cond_wait(&changed, &lock);
        pthread_mutex_unlock(&lock); /* so that the reader may have it */
        pthread_mutex_lock(&lock);
    }
    pthread_mutex_unlock(&lock);
    return unused;
}

static void wake_keeper(int is_end)
{
    pthread_mutex_lock(&lock);
    is_over = is_end;
    pthread_cond_signal(&changed);
    pthread_mutex_unlock(&lock);
}

/* Reads as many pages of the file as a huge block has, one after the other, by one call. */
static int scan(void)
{
    const uint32_t page = drawn(BLOCKS) * 512;
    compactd_words block = {0};
    uint32_t first, for_it = 0;
    int is_well;

    if (!unpin_all() || !DONE(compactd_take_kept(&pool, ORDER, ready, READY, &claimed, &first, &for_it)))
        return 0;
    moved_for_scans += for_it;
    if (!DONE(compactd_block_words(&pool, first, ORDER, &block)))
        return 0;
    is_well = is_read(page, &block) && has_words(page, &block);
    scans++;
    return DONE(compactd_return_block(&pool, first, ORDER, &block)) && DONE(compactd_give_order(&pool, first, ORDER)) && is_well;
}

/* Pins a page of the file, which takes the buffer of another page where it has none. */
static int fetch(uint32_t page, uint32_t at)
{
    if (is_pinned(page))
        return 1;
    if (place[page] != NONE)
        return pin(page, at) && has_words(page, &words[at]);
    read_again++;
    return give_up(CACHED) && read_page(page, at, CACHED - 1) && has_words(page, &words[at]);
}

static int serve(void)
{
    uint32_t made;

    for (made = 1; made <= FETCHES; made++) {
        if (!fetch(drawn(PAGES), made % PINNED) || (made % SCAN_EACH == 0 && !scan()))
            return 0;
        wake_keeper(0);
    }
    return unpin_all();
}

static int run(void)
{
    pthread_t keeper;
    int is_well;

    if (!fill() || pthread_create(&keeper, NULL, keep, NULL) != 0)
        return 0;
    printf("%u pages were read into the pool, %u buffers are left\n", PAGES, CACHED);
    is_well = serve();
    wake_keeper(1);
    pthread_join(keeper, NULL);
    printf("%u pages were fetched, %u of them from the file, and %u blocks were read by scans\n", FETCHES, (unsigned)read_again,
           (unsigned)scans);
    printf("each word is at its place: %s\n", is_well && !is_stopped ? "yes" : "no");
    fprintf(stderr, "a read takes %.0f ns, %lu pages moved\n", reading / reads, moved + moved_for_scans);
    for (; claimed > 0; claimed--)
        is_well &= DONE(compactd_drop_claim(&pool, ready[claimed - 1], ORDER));
    return is_well && !is_stopped;
}

int main(void)
{
    compactd_words memory = {0};
    int is_well;

    if (!write_file() || compactd_map_memory((size_t)PAGES * PAGE_WORDS, &memory) != 0)
        return 1;
    if (compactd_open_in(&pool, PAGE_WORDS, BLOCKS, 1, PAGES, 0, &memory, 1) != COMPACTD_OK)
        return 1;
    is_well = run() && DONE(compactd_close_in(&pool, &memory));
    printf("the memory came back: %s\n", memory.count == (size_t)PAGES * PAGE_WORDS ? "yes" : "no");
    close(file);
    return is_well && compactd_unmap_memory(&memory) == 0 ? 0 : 1;
}
