/* Opens a pool, maps and stores, compacts, takes a huge page and uses its memory. */
#include "compactd.h"

#include <stdio.h>
#include <stdlib.h>

/* Ends the program where a call is refused. */
static void need(uint32_t answer)
{
    if (answer != COMPACTD_OK) {
        printf("refused as %u: %s\n", (unsigned)answer, compactd_refusal_text(answer));
        exit(1);
    }
}

int main(void)
{
    compactd_pool pool = {0};
    uint64_t words[2] = {5, 6}, value = 0;
    uint32_t first = 0, answer;
    compactd_bool met = 0;

    need(compactd_open(&pool, 512, 2));
    /* One page in each of the two pageblocks, so that none of them is free as a whole. */
    need(compactd_map_at(&pool, 0, 0, 0, 0, 0));
    need(compactd_map_at(&pool, 0, 0, 1, 0, 512));
    need(compactd_store(&pool, 0, 0, 0, 3, 7));
    answer = compactd_take_order(&pool, 9, &first);
    printf("a huge page is refused as %u: %s\n", (unsigned)answer, compactd_refusal_text(answer));

    need(compactd_compact(&pool, &met));
    need(compactd_take_order(&pool, 9, &first));
    printf("a huge page from frame %u on\n", (unsigned)first);

    need(compactd_write_block(&pool, first, 9, 1000, words, 2));
    words[0] = words[1] = 0;
    need(compactd_read_block(&pool, first, 9, 1000, words, 2));
    printf("its words 1000 and 1001 are %lu and %lu\n", (unsigned long)words[0], (unsigned long)words[1]);
    need(compactd_load(&pool, 0, 0, 0, 3, &value));
    printf("word 3 of the page is %lu\n", (unsigned long)value);

    compactd_close(&pool);
    return 0;
}
