/* Questions write nothing: the handle and all memory of the pool are made read-only while each question is asked, and each answers as
 * before. A store is stopped there, which shows that the memory is the pool's. It is linked with malloc, realloc and free wrapped. */
#define _DEFAULT_SOURCE
#include "compactd.h"

#include <stdio.h>
#include <string.h>
#include <sys/mman.h>
#include <sys/wait.h>
#include <unistd.h>

#define ARENA ((size_t)1 << 26)
#define PAGE ((size_t)4096) /* of the machine */
#define PAGES 400
#define RECORDS 8

void *__wrap_malloc(size_t size);
void *__wrap_realloc(void *block, size_t size);
void __wrap_free(void *block);

/* Memory for the pools, which is given out page by page and not taken back. The first page has the handle. */
static char *arena;
static size_t used;

/* A block begins after a page that has its size. */
void *__wrap_malloc(size_t size)
{
    const size_t whole = PAGE + (size + PAGE - 1) / PAGE * PAGE;
    char *block = arena + used + PAGE;

    if (whole > ARENA - used)
        return NULL;
    memcpy(arena + used, &size, sizeof size);
    used += whole;
    return block;
}

void *__wrap_realloc(void *block, size_t size)
{
    char *moved = (char *)__wrap_malloc(size);
    size_t before = 0;

    if (block)
        memcpy(&before, (char *)block - PAGE, sizeof before);
    if (moved && block)
        memcpy(moved, block, before < size ? before : size);
    return moved;
}

void __wrap_free(void *block)
{
    (void)block;
}

/* What each question answers, and what it gets. Refused questions are among them. */
struct answers {
    uint32_t numbers[41];
    compactd_counts counts;
    compactd_geometry geometry;
    uint64_t looks[PAGES + 1][7];
    compactd_bool marked[2], quiet;
    compactd_round_counts rounds;
    uint64_t ended, records, room;
    compactd_record kept[RECORDS];
    compactd_moving_page page;
    compactd_move move;
    uint32_t runs[11];
    int32_t indexes[11];
    uint32_t first, pages; /* of the cheapest run */
};

/* The fields of a page's structure, which has bytes between them, after the answer of the question. */
static void look(compactd_pool *pool, uint32_t vpage, uint64_t *found)
{
    compactd_page_info info;

    memset(&info, 0, sizeof info);
    found[0] = compactd_look(pool, 0, vpage, &info);
    found[1] = info.serial;
    found[2] = info.frame;
    found[3] = info.flags;
    found[4] = info.pins;
    found[5] = info.maps;
    found[6] = info.moving;
}

static void ask(compactd_pool *pool, struct answers *got)
{
    uint32_t *number = got->numbers, at;

    memset(got, 0, sizeof *got);
    *number++ = compactd_version();
    *number++ = compactd_info(pool, &got->counts);
    *number++ = compactd_describe(pool, &got->geometry);
    *number++ = compactd_quiet(pool, &got->quiet);
    *number++ = compactd_audit(pool, &got->rounds);
    *number++ = compactd_ended(pool, &got->ended);
    *number++ = compactd_journal(pool, &got->records, &got->room);
    *number++ = compactd_next_moving(pool, 0, &got->page, &got->move);
    *number++ = compactd_cheapest_run(pool, 3, &got->first, &got->pages);
    for (at = 0; at < 2; at++)
        *number++ = compactd_marked(pool, at, &got->marked[at]);
    for (at = 0; at < RECORDS; at++)
        *number++ = compactd_record_at(pool, at, &got->kept[at]);
    for (at = 0; at <= 10; at++) {
        *number++ = compactd_free_runs(pool, at, &got->runs[at]);
        *number++ = compactd_fragmentation(pool, at, &got->indexes[at]);
    }
    for (at = 0; at <= PAGES; at++)
        look(pool, at, got->looks[at]);
}

/* A pool with pages, a block, a mark and a pin, which may have a page that is moving. */
static int fill(compactd_pool *pool, uint32_t page_words, int is_moving)
{
    static uint64_t words[512];
    compactd_moving_page page;
    uint32_t at, frame, answers = 0;

    for (at = 0; at < PAGES; at++)
        answers |= compactd_map(pool, 0, 0, at, at % 7 == 0, &frame);
    for (at = 0; at < PAGES; at += 5)
        answers |= compactd_unmap(pool, 0, 0, at);
    answers |= compactd_store(pool, 0, 0, 1, 3, 9);
    answers |= compactd_pin(pool, 0, 0, 2);
    answers |= compactd_take_order(pool, 3, &frame);
    answers |= compactd_mark(pool, 1);
    answers |= compactd_begin_round(pool);
    if (is_moving)
        answers |= compactd_isolate(pool, &page, words, page_words);
    return answers == COMPACTD_OK;
}

static int protect(int access)
{
    return mprotect(arena, ARENA, access) == 0;
}

/* Whether a store is stopped by the memory that can't be written: a child that makes it is ended by a signal. */
static int stops_a_store(compactd_pool *pool)
{
    const pid_t child = fork();
    int status = 0;

    if (child == 0)
        _exit(compactd_store(pool, 0, 0, 3, 0, 1) == COMPACTD_OK ? 0 : 1);
    return child > 0 && waitpid(child, &status, 0) == child && WIFSIGNALED(status);
}

/* Whether each question answers the same while nothing can be written. */
static int try_pool(uint32_t page_words, uint32_t places, int is_moving)
{
    static struct answers before, meanwhile;
    compactd_pool *pool = (compactd_pool *)(void *)arena;
    int is_well;

    memset(pool, 0, sizeof *pool);
    used = PAGE;
    is_well = (places ? compactd_open_journal(pool, page_words, 2, places) : compactd_open(pool, page_words, 2)) == COMPACTD_OK;
    is_well = is_well && fill(pool, page_words, is_moving);
    ask(pool, &before);
    is_well &= protect(PROT_READ);
    ask(pool, &meanwhile);
    is_well &= stops_a_store(pool);
    is_well &= protect(PROT_READ | PROT_WRITE);
    return compactd_close(pool) == COMPACTD_OK && is_well && memcmp(&before, &meanwhile, sizeof before) == 0;
}

int main(void)
{
    int is_well = 1, at;

    arena = (char *)mmap(NULL, ARENA, PROT_READ | PROT_WRITE, MAP_PRIVATE | MAP_ANONYMOUS, -1, 0);
    if (arena == (char *)MAP_FAILED)
        return 1;
    for (at = 0; at < 8; at++)
        is_well &= try_pool(at & 1 ? 8 : 512, at & 2 ? 4000 : 0, at >> 2);
    printf("%s\n", is_well ? "no question writes" : "a question is answered otherwise, or a store isn't stopped");
    return is_well ? 0 : 1;
}
