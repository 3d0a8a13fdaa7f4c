/* Opens a pool of as many pageblocks as its argument says, with pages of 8 words, as many addresses as frames and no journal. Prints how many
 * bytes the opening asks for besides those of the words. It is linked with malloc and realloc wrapped. */
#include "compactd.h"

#include <stdio.h>
#include <stdlib.h>

#define PAGE_WORDS 8
#define FRAMES_OF_A_PAGEBLOCK 512

void *__real_malloc(size_t size);
void *__real_realloc(void *block, size_t size);
void *__wrap_malloc(size_t size);
void *__wrap_realloc(void *block, size_t size);

static size_t asked; /* bytes so far */

void *__wrap_malloc(size_t size)
{
    asked += size;
    return __real_malloc(size);
}

void *__wrap_realloc(void *block, size_t size)
{
    asked += size;
    return __real_realloc(block, size);
}

int main(int count, char **arguments)
{
    const uint32_t blocks = count == 2 ? (uint32_t)strtoul(arguments[1], NULL, 10) : 0, frames = FRAMES_OF_A_PAGEBLOCK * blocks;
    const size_t words = sizeof(uint64_t) * PAGE_WORDS * frames;
    compactd_pool pool = {0};

    if (compactd_open_sized(&pool, PAGE_WORDS, blocks, 1, frames, 0) != COMPACTD_OK)
        return 1;
    if (asked < words)
        return 2;
    printf("%lu\n", (unsigned long)(asked - words));
    compactd_close(&pool);
    return 0;
}
