/* Memory of Linux for a pool of compactd_open_in: a mapping that begins at a huge page of the processor, and may consist of such pages. In a
 * pool with pages of 4 KiB a block of order 9 is one of them then.
 *
 *     compactd_words memory = {0};
 *
 *     if (compactd_map_memory((size_t)blocks * 512 * page_words, &memory) == 0)
 *         answer = compactd_open_in(&pool, page_words, blocks, spaces, vpages, 0, &memory, 1);
 *
 * This header isn't proved, only tested: what is proved begins with memory that the caller has. A program that is compiled as strict ISO C,
 * as by -std=c99, can include it only if it defines _DEFAULT_SOURCE before all other headers. */
#ifndef COMPACTD_MEMORY_H
#define COMPACTD_MEMORY_H

#include "compactd.h"

#include <errno.h>
#include <sys/mman.h>

#if !defined(MAP_ANONYMOUS) || !defined(MADV_HUGEPAGE) || !defined(MADV_DONTNEED)
#error "compactd_memory.h is for Linux, and in strict ISO C it needs _DEFAULT_SOURCE to be defined before all other headers"
#endif

#ifdef __cplusplus
extern "C" {
#endif

/* Bytes of the pages that x86-64 has. */
#define COMPACTD_HUGE_PAGE 2097152u
#define COMPACTD_SMALL_PAGE 4096u

/* The bytes of so many words, in whole pages; 0 where there are too many. */
COMPACTD_IN_HEADER size_t compactd_bytes_of(size_t count)
{
    const size_t most = SIZE_MAX - 2 * COMPACTD_HUGE_PAGE;

    return count > most / 8 ? 0 : (count * 8 + COMPACTD_SMALL_PAGE - 1) / COMPACTD_SMALL_PAGE * COMPACTD_SMALL_PAGE;
}

/* Maps memory of so many words, which are 0. It begins at a huge page, and the system is advised to give it huge pages; that it takes no
 * advice is no error. `memory` is all zeros before. Answers 0, or a number of errno.h, and then `memory` stays. */
COMPACTD_IN_HEADER int compactd_map_memory(size_t count, compactd_words *memory)
{
    const size_t bytes = compactd_bytes_of(count);
    size_t before, after;
    char *at;
    void *mapped;

    if (bytes == 0)
        return count == 0 ? EINVAL : ENOMEM;
    mapped = mmap(COMPACTD_NULL, bytes + COMPACTD_HUGE_PAGE, PROT_READ | PROT_WRITE, MAP_PRIVATE | MAP_ANONYMOUS, -1, 0);
    if (mapped == MAP_FAILED)
        return errno;
    at = COMPACTD_AS(char *, mapped);
    after = COMPACTD_AS(size_t, mapped) % COMPACTD_HUGE_PAGE;
    before = COMPACTD_HUGE_PAGE - after; /* a part of it is more than is needed, and goes back */
    munmap(at, before);
    if (after > 0)
        munmap(at + before + bytes, after);
    madvise(at + before, bytes, MADV_HUGEPAGE);
    memory->at = COMPACTD_AS(uint64_t *, at + before);
    memory->count = count;
    return 0;
}

/* Unmaps memory that compactd_map_memory mapped, as compactd_close_in gives it back. `memory` is all zeros then. Answers 0, or a number of
 * errno.h. */
COMPACTD_IN_HEADER int compactd_unmap_memory(compactd_words *memory)
{
    if (memory->count > 0 && munmap(memory->at, compactd_bytes_of(memory->count)) != 0)
        return errno;
    memory->at = COMPACTD_NULL;
    memory->count = 0;
    return 0;
}

/* Gives the system the memory back that words take up: that of the pages of 4 KiB that lie in them as a whole. What was in these pages is
 * lost: their words are 0 when they are next read, and the system finds memory for a page when it is next used. This is for the words of a
 * block that are lent, in memory that compactd_map_memory mapped. Answers 0, or a number of errno.h. */
COMPACTD_IN_HEADER int compactd_release_words(const compactd_words *words)
{
    const size_t at = COMPACTD_AS(size_t, words->at), small = COMPACTD_SMALL_PAGE;
    const size_t before = (small - at % small) % small, bytes = words->count * 8;
    const size_t whole = bytes < before ? 0 : (bytes - before) / small * small;

    if (whole > 0 && madvise(COMPACTD_AS(char *, words->at) + before, whole, MADV_DONTNEED) != 0)
        return errno;
    return 0;
}

#ifdef __cplusplus
}
#endif

#endif
