/* compactd: a page pool that makes huge pages by moving pages out of pageblocks.
 *
 * A pool is a row of frames, 512 in each of its pageblocks. A frame holds a page or is free. An address is a space and a virtual
 * page. It names a page, and up to 4 addresses may name the same page. A round moves pages to the top, so that pageblocks at the bottom
 * become empty. A block of 8 to 512 free frames can be handed out; the caller then reads and writes its words. The memory of all frames is
 * allocated when the pool is opened, or it is the caller's, and then the words of a block, those of a page that has a pin, and those of both
 * frames of a page that is moving can be lent by a pointer. docs/C.md explains each call.
 *
 * Each call answers 0 when it was done, or the number of its refusal, an enum compactd_refusal; compactd_refusal_text has its words. A
 * refused call changes nothing: the pool is as it was, and nothing is written through the other pointers. Where several refusals hold, the
 * call answers the one that comes first in its comment. Two calls, compactd_map_many and compactd_unmap_many, are many calls in one: they
 * answer the first refusal of these, and so change something although they answer it. So may functions that this header has itself.
 *
 * Ranges, unless a comment gives another: a client 0 to 7, a space 0 to 255, a virtual page (vpage) 0 to 16777215, a frame of the pool, a
 * word 0 to 7 or 0 to 511 by the size of the pool's pages, a pageblock of the pool, an order 3 to 9.
 *
 * A pool has the spaces, and each space the virtual pages, that it was opened with. Where an address is in these ranges and the pool doesn't
 * have it, a call that would make it name a page is refused as RANGE: compactd_map, compactd_map_at, and compactd_share for its alias.
 * Everywhere else it is an address that names no page.
 *
 * Each structure but the handle, compactd_words, compactd_page_request and compactd_lent_move ends in reserved words: compactd_geometry in one,
 * each other in two. compactd_lent_move has half a word of them. The library fills them with 0 and doesn't read them. A later version may give
 * them a meaning; the size of the structure stays.
 *
 * What the caller owes, since no call can test it:
 * - A pool is all zeros before its first call. Only these calls read, write or copy its field.
 * - Each pointer leads to memory of its type, or to as many words as the count says, and to nothing else of the same call. No pointer is
 *   null, except `values` of compactd_read, compactd_write, compactd_read_block and compactd_write_block, `firsts` of compactd_reserve,
 *   compactd_keep and compactd_take_kept, and `requests` of compactd_map_many and compactd_unmap_many, where the count is 0. A test shows
 *   that null is right there; the proof assumes a pointer that isn't null.
 * - Calls on one pool don't overlap, unless all of them are questions: compactd_info, _describe, _free_runs, _fragmentation, _look, _marked,
 *   _quiet, _audit, _ended, _journal, _record_at, _next_moving and _cheapest_run. The caller's lock sees to it: a mutex, or a reader-writer
 *   lock under whose reading side only questions are asked. That questions may run side by side is tested and not proved: the proof knows
 *   one call at a time. Calls on different pools need no lock. One thread may open a pool, another use it, and a third close it.
 * - An open pool is closed in the end; otherwise its memory is lost.
 * - Of a pool in the caller's memory, and of words that are lent:
 *   - A compactd_words is all zeros before a call fills it, and only calls write its fields. The one that compactd_open_in gets is filled by
 *     the caller: `at` leads to so many words, which nothing else uses, and which stay until the pool is closed. Where `is_blank` is 1, they
 *     are all 0.
 *   - Once compactd_open_in has taken the memory, nothing but calls reads or writes its words until the pool is closed, except those that
 *     are lent. compactd_block_words lends the words of a block, and compactd_page_words those of a page: until compactd_return_block or
 *     compactd_return_page takes them back, nobody else has them, and the caller reads and writes them by the pointer, from any thread,
 *     beside calls on the pool too. So may the kernel or a device for it. So it is with the words `to` of a move, which
 *     compactd_lend_move or compactd_lend_move_from lends, until compactd_commit_lent, compactd_commit_and_claim or compactd_put_back_lent
 *     takes them back; the words `from` are only read.
 *   - Whatever is done with lent words, by a device too, has ended when a call that takes them back or a closing begins. No word is used
 *     after it. But the words of a move may be copied beside compactd_close and after it too, as long as the memory is there: all of it is
 *     the caller's then, but no clause says so.
 *   - compactd_return_block gets the words that compactd_block_words lent for this very block of this pool, and compactd_return_page those
 *     that compactd_page_words lent for this very page, by any address that names it then. Each are returned once.
 *   - The `from` and `to` of a compactd_lent_move are all zeros before a call of this pool fills it, and only calls write its fields. Each
 *     call that ends a move gets it as it was filled, once. When compactd_commit_lent or compactd_commit_and_claim begins, `from` has the
 *     words that it was lent with, and `to` has the same.
 *
 * Two caps of a pool's life. The way out of each is to close the pool and open another.
 * - 2^53 recorded calls of a pool that keeps no journal; each word of compactd_read and compactd_write counts as one, and each page that is
 *   moved as two. After them recorded calls are refused as JOURNAL_FULL. At 2 us a page that is 285 years of steady compaction.
 * - A journal that is kept has the places that it was opened with. It can't be emptied.
 *
 * As long as the caller does what it owes, no call prints, waits, starts a thread or ends the process. Only compactd_open,
 * compactd_open_journal, compactd_open_sized, compactd_open_in, compactd_reserve, compactd_keep and compactd_take_kept ask for memory, as a
 * test counts; the last three give it back before they answer. A signal handler that may interrupt a call on a pool doesn't use that pool. */
#ifndef COMPACTD_H
#define COMPACTD_H

#include <stddef.h>
#include <stdint.h>

/* The version of this header. compactd_version answers COMPACTD_VERSION where the library fits the header. */
#define COMPACTD_VERSION_MAJOR 0
#define COMPACTD_VERSION_MINOR 2
#define COMPACTD_VERSION_PATCH 0
#define COMPACTD_VERSION (COMPACTD_VERSION_MAJOR * 10000 + COMPACTD_VERSION_MINOR * 100 + COMPACTD_VERSION_PATCH)
#define COMPACTD_VERSION_TEXT "0.2.0"

/* What a compiler may warn of: an answer that nobody looks at, and a pointer that is null. COMPACTD_CALL_WITH_WORDS stands where `values`,
 * `firsts` or `requests` may be null. */
#ifdef __GNUC__
#define COMPACTD_NOT_NULL __attribute__((nonnull))
#define COMPACTD_CALL __attribute__((warn_unused_result, nonnull))
#define COMPACTD_CALL_WITH_WORDS __attribute__((warn_unused_result, nonnull(1)))
#else
#define COMPACTD_NOT_NULL
#define COMPACTD_CALL
#define COMPACTD_CALL_WITH_WORDS
#endif

/* A function of a header, which a program needn't call. */
#if defined(__cplusplus)
#define COMPACTD_IN_HEADER inline
#elif defined(__GNUC__)
#define COMPACTD_IN_HEADER static __attribute__((unused))
#else
#define COMPACTD_IN_HEADER static
#endif

/* A pointer as one of another type, and null, as functions of the headers have them in C and in C++. */
#ifdef __cplusplus
#define COMPACTD_AS(type, pointer) reinterpret_cast<type>(pointer)
#else
#define COMPACTD_AS(type, pointer) ((type)(pointer))
#endif

#if defined(__cplusplus) && __cplusplus >= 201103L
#define COMPACTD_NULL nullptr
#else
#define COMPACTD_NULL NULL
#endif

#ifdef __cplusplus
extern "C" {
#endif

/* A bool of C99 and of C++: one byte, 0 or 1. Compilers that have no such type, even as an extension, get a byte: pass 0 or 1 alone. */
#if defined(__cplusplus)
typedef bool compactd_bool;
#elif defined(__STDC_VERSION__) && __STDC_VERSION__ >= 199901L
typedef _Bool compactd_bool;
#elif defined(__GNUC__)
__extension__ typedef _Bool compactd_bool;
#else
typedef unsigned char compactd_bool;
#endif

/* A pool, closed or open. It is closed where it is all zeros: compactd_pool pool = {0}; */
typedef struct compactd_pool {
    void *at;
} compactd_pool;

/* Words in memory: where they begin and how many there are. All zeros where there are none: compactd_words words = {0}; */
typedef struct compactd_words {
    uint64_t *at;
    size_t count;
} compactd_words;

/* Why a call was refused. */
enum compactd_refusal {
    COMPACTD_OK = 0,            /* done */
    COMPACTD_RANGE = 1,         /* an argument is out of its range */
    COMPACTD_JOURNAL_FULL = 2,  /* the journal has no place left but those for the ends of moves */
    COMPACTD_UNMAPPED = 3,      /* the address names no page */
    COMPACTD_MOVING = 4,        /* the page is moving */
    COMPACTD_OCCUPIED = 5,      /* the address names a page already */
    COMPACTD_NO_FRAME = 6,      /* no frame is free, or the given frame isn't */
    COMPACTD_SHARE_FULL = 7,    /* the page has 4 addresses already */
    COMPACTD_PIN_FULL = 8,      /* the page has 255 pins already */
    COMPACTD_NOT_PINNED = 9,    /* the page has no pin */
    COMPACTD_PINNED = 10,       /* the page has a pin and this is its last address */
    COMPACTD_NO_BLOCK = 11,     /* no block of this order has only free frames, or the run can't be emptied or isn't claimed as a whole */
    COMPACTD_NOT_HUGE = 12,     /* no block of this order that begins at this frame is handed out */
    COMPACTD_STRANGER = 13,     /* no such page is moving in this pool, or its words differ or are lent */
    COMPACTD_MEMORY = 14,       /* there isn't enough memory */
    COMPACTD_PAGES_MOVING = 16, /* a page of the pool is moving */
    COMPACTD_MARKED = 17,       /* the pageblock is marked already */
    COMPACTD_NOT_MARKED = 18,   /* the pageblock isn't marked */
    COMPACTD_LENT = 19,         /* the words are lent */
    COMPACTD_OWN_MEMORY = 20,   /* the pool lies in memory of its own */
    COMPACTD_CLOSED = 51,       /* the pool is closed */
    COMPACTD_OPEN = 52,         /* the pool is open already */
    COMPACTD_MET = 53,          /* the scanners of the round have met */
    COMPACTD_NOT_MOVING = 54,   /* no page is moving out of this frame or a higher one */
    COMPACTD_NONE_LEFT = 55     /* no page of the run can move, or no frame is free for it */
};

/* The words for a refusal, for any number. It is a part of this header and not of the library. */
COMPACTD_IN_HEADER const char *compactd_refusal_text(uint32_t refusal)
{
    switch (refusal) {
    case COMPACTD_OK: return "done";
    case COMPACTD_RANGE: return "an argument is out of its range";
    case COMPACTD_JOURNAL_FULL: return "the journal has no place left but those for the ends of moves";
    case COMPACTD_UNMAPPED: return "the address names no page";
    case COMPACTD_MOVING: return "the page is moving";
    case COMPACTD_OCCUPIED: return "the address names a page already";
    case COMPACTD_NO_FRAME: return "no frame is free, or the given frame isn't";
    case COMPACTD_SHARE_FULL: return "the page has 4 addresses already";
    case COMPACTD_PIN_FULL: return "the page has 255 pins already";
    case COMPACTD_NOT_PINNED: return "the page has no pin";
    case COMPACTD_PINNED: return "the page has a pin and this is its last address";
    case COMPACTD_NO_BLOCK: return "no block of this order has only free frames, or the run can't be emptied or isn't claimed as a whole";
    case COMPACTD_NOT_HUGE: return "no block of this order that begins at this frame is handed out";
    case COMPACTD_STRANGER: return "no such page is moving in this pool, or its words differ or are lent";
    case COMPACTD_MEMORY: return "there isn't enough memory";
    case COMPACTD_PAGES_MOVING: return "a page of the pool is moving";
    case COMPACTD_MARKED: return "the pageblock is marked already";
    case COMPACTD_NOT_MARKED: return "the pageblock isn't marked";
    case COMPACTD_LENT: return "the words are lent";
    case COMPACTD_OWN_MEMORY: return "the pool lies in memory of its own";
    case COMPACTD_CLOSED: return "the pool is closed";
    case COMPACTD_OPEN: return "the pool is open already";
    case COMPACTD_MET: return "the scanners of the round have met";
    case COMPACTD_NOT_MOVING: return "no page is moving out of this frame or a higher one";
    case COMPACTD_NONE_LEFT: return "no page of the run can move, or no frame is free for it";
    default: return "unknown refusal";
    }
}

/* The counts of a pool. */
typedef struct compactd_counts {
    uint32_t free;   /* free frames */
    uint32_t pages;  /* pages in use, moving pages included */
    uint32_t moving; /* moving pages */
    uint32_t huge;   /* blocks that are handed out */
    uint32_t whole;  /* pageblocks whose 512 frames are all free */
    uint32_t held;   /* frames of the blocks that are handed out, and claimed frames */
    uint64_t reserved[2];
} compactd_counts;

/* What a pool was opened with. */
typedef struct compactd_geometry {
    uint32_t page_words; /* words of a page: 8 or 512 */
    uint32_t blocks;     /* pageblocks: 1 to 32768 */
    uint64_t places;     /* places of its journal, used or not; 0 where it keeps none */
    uint32_t spaces;     /* address spaces: 1 to 256 */
    uint32_t vpages;     /* virtual pages of each space: 1 to 16777216 */
    uint64_t reserved;
} compactd_geometry;

/* Flags of a page. */
enum compactd_flag {
    COMPACTD_UNMOVABLE = 1,
    COMPACTD_DIRTY = 2 /* it was written since it was mapped */
};

/* What the pool knows of a page. */
typedef struct compactd_page_info {
    uint64_t serial; /* the serial of its move while it is moving, else 0 */
    uint32_t frame;  /* its frame, or 0 while it is moving */
    uint32_t flags;  /* a sum of enum compactd_flag, or 0 while it is moving */
    uint32_t pins;   /* how many pins it has, 0 to 255 */
    uint32_t maps;   /* how many addresses name it, 1 to 4 */
    compactd_bool moving;
    uint64_t reserved[2];
} compactd_page_info;

/* How many pages rounds isolated, and how each of these moves ended. */
typedef struct compactd_round_counts {
    uint64_t isolated;
    uint64_t moved;
    uint64_t back;     /* pages that were put back */
    uint64_t reserved[2];
} compactd_round_counts;

/* A page being moved; its words are in the caller's buffer. compactd_commit and compactd_put_back read its serial and its number alone. */
typedef struct compactd_moving_page {
    uint64_t serial; /* the number of its isolation: 0, 1, 2 and so on since the pool was opened */
    uint32_t number; /* its number in the pool */
    uint32_t flags;  /* a sum of enum compactd_flag */
    uint64_t reserved[2];
} compactd_moving_page;

/* The move of a page whose words are lent. No word is lent where `from` and `to` are all zeros. */
typedef struct compactd_lent_move {
    uint64_t serial;     /* the number of its isolation */
    uint32_t page;       /* its number in the pool */
    uint32_t source;     /* the frame that it leaves */
    uint32_t target;     /* the frame that it goes to */
    uint32_t reserved;
    compactd_words from; /* the words of the first, which are only read */
    compactd_words to;   /* those of the second */
} compactd_lent_move;

/* A page that is to be mapped or unmapped, and what came of it. */
typedef struct compactd_page_request {
    uint32_t space;
    uint32_t vpage;
    uint32_t unmovable; /* of a page that is to be mapped: 0, or any other number where no round may move it */
    uint32_t frame;     /* gets the frame of a page that was mapped, and else stays */
    uint32_t status;    /* gets 0, or why this one was refused, an enum compactd_refusal */
} compactd_page_request;

/* Where a moving page is. */
typedef struct compactd_move {
    uint32_t source; /* the frame that it leaves */
    uint32_t target; /* the frame that it goes to */
    uint32_t space;  /* the lowest of its addresses: first by space, then by vpage */
    uint32_t vpage;
    uint64_t reserved[2];
} compactd_move;

/* What a record is of. */
enum compactd_kind {
    COMPACTD_WAS_MAPPED = 1,
    COMPACTD_WAS_SHARED = 2,
    COMPACTD_WAS_UNMAPPED = 3,
    COMPACTD_WAS_STORED = 4,
    COMPACTD_WAS_LOADED = 5,
    COMPACTD_WAS_PINNED = 6,
    COMPACTD_WAS_UNPINNED = 7,
    COMPACTD_WAS_ISOLATED = 8,
    COMPACTD_WAS_MOVED = 9,
    COMPACTD_WAS_PUT_BACK = 10,
    COMPACTD_WAS_TAKEN = 11, /* a block was handed out */
    COMPACTD_WAS_GIVEN = 12, /* a block was given back */
    COMPACTD_WAS_MARKED = 13,
    COMPACTD_WAS_UNMARKED = 14
};

/* A record of the journal. Fields that don't apply are 0. */
typedef struct compactd_record {
    uint32_t kind;   /* an enum compactd_kind */
    uint32_t client; /* of the first seven kinds, with their address: */
    uint32_t space;
    uint32_t vpage;
    uint64_t number; /* MAPPED: the page. SHARED: the space of the alias. STORED, LOADED: the word. ISOLATED, MOVED, PUT_BACK: the serial.
                        TAKEN, GIVEN: the first frame. MARKED, UNMARKED: the pageblock. */
    uint64_t other;  /* SHARED: the virtual page of the alias. ISOLATED: the page. PUT_BACK: 1 where the page had a pin, 2 where it was put
                        back without a copy. TAKEN, GIVEN: the order. */
    uint64_t value;  /* STORED, LOADED: the value */
    uint64_t reserved[2];
} compactd_record;

/* Opening and closing. */

/* The version of the library. */
uint32_t compactd_version(void);

/* Opens a closed pool. Its pages have 8 words of 64 bits (64 bytes) or 512 (4 KiB); it has 1 to 32,768 pageblocks of 512 frames, and 8 spaces
 * of 4,096 virtual pages. It keeps no records, and has room for 2^53 calls that would be recorded.
 * Refused: OPEN where the pool is open; RANGE; MEMORY. */
uint32_t compactd_open(compactd_pool *pool, uint32_t page_words, uint32_t blocks) COMPACTD_CALL;

/* Like compactd_open, but with 1 to 8 pageblocks, and it journals accepted calls (those documented as unrecorded excepted). The journal has
 * 1 to 65,536 places. When only the places reserved for ending moves are left, one for each moving page, recorded calls are refused as
 * JOURNAL_FULL.
 * Refused: OPEN; RANGE; MEMORY. */
uint32_t compactd_open_journal(compactd_pool *pool, uint32_t page_words, uint32_t blocks, uint32_t places) COMPACTD_CALL;

/* Opens a closed pool of any size, with 1 to 32,768 pageblocks, 1 to 256 spaces and 1 to 16,777,216 virtual pages a space. It has at most
 * 67,108,864 addresses in all, which are 4 for each frame of the largest pool; each takes 4 bytes of memory, whether or not it names a page.
 * With 0 places it keeps no records, as by compactd_open. With 1 to 65,536 places it keeps a journal, as by compactd_open_journal.
 * Refused: OPEN; RANGE; MEMORY. */
uint32_t compactd_open_sized(compactd_pool *pool, uint32_t page_words, uint32_t blocks, uint32_t spaces, uint32_t vpages, uint32_t places)
    COMPACTD_CALL;

/* Like compactd_open_sized, but the frames lie in memory of the caller's, which frame 0 begins: `memory` has blocks * 512 * page_words words.
 * The tables still come from malloc. When the pool is open, `*memory` is all zeros: the pool has the memory until compactd_close_in.
 *
 * `is_blank` says that all these words are 0, as in a fresh mapping. Then no word is written before its frame is first used, so the system
 * needs no memory for frames that aren't. Else each frame is cleared when it is first used. A refused call leaves `*memory` as it was.
 * compactd_memory.h maps such memory.
 * Refused: OPEN; RANGE, also where the count of `memory` is another; MEMORY. */
uint32_t compactd_open_in(compactd_pool *pool, uint32_t page_words, uint32_t blocks, uint32_t spaces, uint32_t vpages, uint32_t places,
                          compactd_words *memory, compactd_bool is_blank) COMPACTD_CALL;

/* Closes a pool and gives back its memory: that of its pages, its blocks and its journal. Memory of the caller's isn't freed: it is the
 * caller's again, but no clause says so. compactd_close_in gives it back.
 * Refused: CLOSED. */
uint32_t compactd_close(compactd_pool *pool) COMPACTD_NOT_NULL;

/* Closes a pool that lies in memory of the caller's, and gets that memory in `*memory`. What its words are isn't told.
 * Refused: CLOSED; OWN_MEMORY where the pool lies in memory of its own; LENT where words of it are lent. */
uint32_t compactd_close_in(compactd_pool *pool, compactd_words *memory) COMPACTD_CALL;

/* Pages and addresses. Each call but the first is made for a client. Its number is stored in the record and has no other meaning. */

/* Sets whether compactd_map puts unmovable pages apart from the others: into a pageblock that has one, and else into the emptiest. Any
 * other page goes into a pageblock that has none, one that isn't whole before one that is, and else into the lowest free frame. So fewer
 * pageblocks have one. In a pool that was just opened each page goes into the lowest free frame. Pages that are mapped already stay. The
 * call is unrecorded.
 * Refused: CLOSED. */
uint32_t compactd_set_apart(compactd_pool *pool, compactd_bool apart) COMPACTD_CALL;

/* Makes an address name a fresh page of zeros, and gets its frame: the lowest free one, or as compactd_set_apart says
 * where it was called. No round moves an unmovable page.
 * Refused: CLOSED; RANGE, also where the pool doesn't have the address; JOURNAL_FULL; OCCUPIED; NO_FRAME. */
uint32_t compactd_map(compactd_pool *pool, uint32_t client, uint32_t space, uint32_t vpage, compactd_bool unmovable, uint32_t *frame)
    COMPACTD_CALL;

/* Like compactd_map, but in the given frame.
 * Refused: CLOSED; RANGE, as compactd_map is; JOURNAL_FULL; OCCUPIED; NO_FRAME where the frame isn't free. */
uint32_t compactd_map_at(compactd_pool *pool, uint32_t client, uint32_t space, uint32_t vpage, compactd_bool unmovable, uint32_t frame)
    COMPACTD_CALL;

/* Reads a word of a page.
 * Refused: CLOSED; RANGE; JOURNAL_FULL; UNMAPPED; MOVING; LENT. */
uint32_t compactd_load(compactd_pool *pool, uint32_t client, uint32_t space, uint32_t vpage, uint32_t word, uint64_t *value) COMPACTD_CALL;

/* Writes a word of a page.
 * Refused: CLOSED; RANGE; JOURNAL_FULL; UNMAPPED; MOVING; LENT. */
uint32_t compactd_store(compactd_pool *pool, uint32_t client, uint32_t space, uint32_t vpage, uint32_t word, uint64_t value) COMPACTD_CALL;

/* Reads `count` words from word `from`, as that many compactd_load calls would. Each word has a record.
 * Refused: CLOSED; RANGE, also where the words go past the page; JOURNAL_FULL where there aren't places for all; UNMAPPED; MOVING; LENT. */
uint32_t compactd_read(compactd_pool *pool, uint32_t client, uint32_t space, uint32_t vpage, uint32_t from, uint64_t *values, size_t count)
    COMPACTD_CALL_WITH_WORDS;

/* Writes `count` words from word `from`, as that many compactd_store calls would.
 * Refused: as compactd_read is. */
uint32_t compactd_write(compactd_pool *pool, uint32_t client, uint32_t space, uint32_t vpage, uint32_t from, const uint64_t *values,
                        size_t count) COMPACTD_CALL_WITH_WORDS;

/* Makes an alias name the page of an address too.
 * Refused: CLOSED; RANGE, also where the pool doesn't have the alias; JOURNAL_FULL; UNMAPPED; MOVING; OCCUPIED where the alias names a page;
 * SHARE_FULL. */
uint32_t compactd_share(compactd_pool *pool, uint32_t client, uint32_t space, uint32_t vpage, uint32_t alias_space, uint32_t alias_vpage)
    COMPACTD_CALL;

/* Makes an address name no page any more. When a page has no address left, it is gone and its frame is free.
 * Refused: CLOSED; RANGE; JOURNAL_FULL; UNMAPPED; MOVING; PINNED. */
uint32_t compactd_unmap(compactd_pool *pool, uint32_t client, uint32_t space, uint32_t vpage) COMPACTD_CALL;

/* Maps `count` pages, one after the other, as that many compactd_map calls would. Each request gets the answer of its map in `status`, and
 * the frame of its page where that is 0. One that is refused doesn't stop the others. Answers 0 where each page was mapped, and else the
 * first refusal of a request, in the order of the requests.
 * Refused: CLOSED. */
uint32_t compactd_map_many(compactd_pool *pool, uint32_t client, compactd_page_request *requests, size_t count) COMPACTD_CALL_WITH_WORDS;

/* Makes `count` addresses name no page any more, one after the other, as that many compactd_unmap calls would. Each request gets the answer
 * of its own in `status`; `unmovable` isn't read and `frame` stays. So the requests by which pages were mapped also unmap them. Answers as
 * compactd_map_many does.
 * Refused: CLOSED. */
uint32_t compactd_unmap_many(compactd_pool *pool, uint32_t client, compactd_page_request *requests, size_t count) COMPACTD_CALL_WITH_WORDS;

/* Pins a page. While a page has a pin, no round isolates it, and a commit of its move puts it back.
 * Refused: CLOSED; RANGE; JOURNAL_FULL; UNMAPPED; PIN_FULL. */
uint32_t compactd_pin(compactd_pool *pool, uint32_t client, uint32_t space, uint32_t vpage) COMPACTD_CALL;

/* Takes a pin off a page.
 * Refused: CLOSED; RANGE; JOURNAL_FULL; UNMAPPED; NOT_PINNED; LENT where this is its last pin and its words are lent. */
uint32_t compactd_unpin(compactd_pool *pool, uint32_t client, uint32_t space, uint32_t vpage) COMPACTD_CALL;

/* Lends the words of a page that has a pin, in a pool that lies in memory of the caller's. Gets where they begin and how many there are: those
 * of a page. The caller reads and writes them by the pointer until compactd_return_page. Meanwhile loads, stores, reads and writes of the
 * page are refused, at each of its addresses, and so is taking its last pin off. All other calls go on as before; none moves or reads these
 * words. The call is unrecorded.
 * Refused: CLOSED; RANGE; UNMAPPED; MOVING; NOT_PINNED; LENT; OWN_MEMORY where the pool lies in memory of its own. */
uint32_t compactd_page_words(compactd_pool *pool, uint32_t space, uint32_t vpage, compactd_words *words) COMPACTD_CALL;

/* Takes the words of a page back that compactd_page_words lent. The page has the words that were left there, as if the client had stored each
 * of them: each has a record, and the page is dirty. Its pins stay, and `*words` is all zeros.
 * Refused: CLOSED; RANGE, also where the count of `words` isn't that of a page; JOURNAL_FULL where there aren't places for all words; UNMAPPED;
 * MOVING. */
uint32_t compactd_return_page(compactd_pool *pool, uint32_t client, uint32_t space, uint32_t vpage, compactd_words *words) COMPACTD_CALL;

/* Pins a page and lends its words: compactd_pin, and then compactd_page_words. Where lending is refused, the pin is taken off again; the two
 * records of it stay. Where there is no place for the second, the pin stays, and JOURNAL_FULL is answered. This is a part of the header and
 * isn't proved; the calls that it makes are.
 * Refused: as compactd_pin is; as compactd_page_words is. */
COMPACTD_IN_HEADER uint32_t compactd_pin_words(compactd_pool *pool, uint32_t client, uint32_t space, uint32_t vpage, compactd_words *words)
{
    uint32_t lent, answer = compactd_pin(pool, client, space, vpage);

    if (answer != COMPACTD_OK)
        return answer;
    lent = compactd_page_words(pool, space, vpage, words);
    if (lent != COMPACTD_OK)
        answer = compactd_unpin(pool, client, space, vpage);
    return answer != COMPACTD_OK ? answer : lent;
}

/* Takes the words of a page back and a pin off it: compactd_return_page, and then compactd_unpin. Where the first is refused, the second isn't
 * made. Where the second is, the words are back, `*words` is all zeros, and the pin stays. This too is a part of the header.
 * Refused: as compactd_return_page is; as compactd_unpin is. */
COMPACTD_IN_HEADER uint32_t compactd_unpin_words(compactd_pool *pool, uint32_t client, uint32_t space, uint32_t vpage, compactd_words *words)
{
    const uint32_t answer = compactd_return_page(pool, client, space, vpage, words);

    return answer != COMPACTD_OK ? answer : compactd_unpin(pool, client, space, vpage);
}

/* Blocks of 2^order frames, 8 to 512, which are aligned to their size. */

/* Hands out the lowest block whose frames are all free, and gets its first frame. Its words are zeros.
 * Refused: CLOSED; RANGE; JOURNAL_FULL; NO_BLOCK. */
uint32_t compactd_take_order(compactd_pool *pool, uint32_t order, uint32_t *first) COMPACTD_CALL;

/* Gives back a block that was handed out, by its first frame and its order.
 * Refused: CLOSED; RANGE, also where the frame isn't a multiple of 2^order or the block goes past the pool; JOURNAL_FULL; NOT_HUGE; LENT. */
uint32_t compactd_give_order(compactd_pool *pool, uint32_t first, uint32_t order) COMPACTD_CALL;

/* Reads `count` words of a block that is handed out, from word `from`. A block has 2^order times the words of a page. The call is
 * unrecorded, so it is accepted also where the journal is full.
 * Refused: CLOSED; RANGE where the frame is above 16777215 or the order out of its range; NOT_HUGE; RANGE where the words go past the
 * block; LENT. */
uint32_t compactd_read_block(compactd_pool *pool, uint32_t first, uint32_t order, size_t from, uint64_t *values, size_t count)
    COMPACTD_CALL_WITH_WORDS;

/* Writes `count` words of a block that is handed out, from word `from`. The call is unrecorded.
 * Refused: as compactd_read_block is. */
uint32_t compactd_write_block(compactd_pool *pool, uint32_t first, uint32_t order, size_t from, const uint64_t *values, size_t count)
    COMPACTD_CALL_WITH_WORDS;

/* Lends the words of a block that is handed out, in a pool that lies in memory of the caller's. Gets where they begin and how many there
 * are: 2^order times the words of a page. The caller reads and writes them by the pointer until compactd_return_block. Meanwhile
 * compactd_read_block, compactd_write_block and compactd_give_order of the block are refused. All other calls go on as before; none moves
 * or reads these words. The call is unrecorded.
 * Refused: CLOSED; RANGE where the frame is above 16777215 or the order out of its range; NOT_HUGE; LENT; OWN_MEMORY where the pool lies in
 * memory of its own. */
uint32_t compactd_block_words(compactd_pool *pool, uint32_t first, uint32_t order, compactd_words *words) COMPACTD_CALL;

/* Takes the words of a block back that compactd_block_words lent. The block has the words that were left there, and `*words` is all zeros.
 * The call is unrecorded.
 * Refused: CLOSED; RANGE where the frame is above 16777215 or the order out of its range, and where the count of `words` isn't that of the
 * block; NOT_HUGE. */
uint32_t compactd_return_block(compactd_pool *pool, uint32_t first, uint32_t order, compactd_words *words) COMPACTD_CALL;

/* Marks a pageblock: rounds isolate no page of it and move none into it.
 * Refused: CLOSED; RANGE; JOURNAL_FULL; MARKED. */
uint32_t compactd_mark(compactd_pool *pool, uint32_t block) COMPACTD_CALL;

/* Takes the mark off a pageblock.
 * Refused: CLOSED; RANGE; JOURNAL_FULL; NOT_MARKED. */
uint32_t compactd_unmark(compactd_pool *pool, uint32_t block) COMPACTD_CALL;

/* Questions. They only read the pool, and they are unrecorded. */

/* Gets the counts.
 * Refused: CLOSED. */
uint32_t compactd_info(compactd_pool *pool, compactd_counts *counts) COMPACTD_CALL;

/* Gets what the pool was opened with.
 * Refused: CLOSED. */
uint32_t compactd_describe(compactd_pool *pool, compactd_geometry *geometry) COMPACTD_CALL;

/* Gets how many free runs of 2^order frames there are, as /proc/buddyinfo counts them: runs that are aligned to their size and lie in no
 * larger free run of the orders up to 9. Frames of marked pageblocks count too. The sum of runs * 2^order over all orders is the number
 * of free frames. For each 64 frames of the pool the call looks at a few words, as the next one does.
 * Refused: CLOSED; RANGE where the order is above 9. */
uint32_t compactd_free_runs(compactd_pool *pool, uint32_t order, uint32_t *runs) COMPACTD_CALL;

/* Gets the fragmentation index of an order in thousandths, as Linux has it in /sys/kernel/debug/extfrag/extfrag_index: -1000 where a run of
 * 2^order frames is free; 0 where no frame is free; else 1000 - (1000 + free * 1000 / 2^order) / runs, with whole divisions, where `free` is
 * the number of free frames and `runs` the sum of compactd_free_runs over the orders 0 to 9. Near 0 frames are lacking, near 1000 the
 * free frames are fragmented.
 * Refused: CLOSED; RANGE where the order is above 9. */
uint32_t compactd_fragmentation(compactd_pool *pool, uint32_t order, int32_t *index) COMPACTD_CALL;

/* Gets what the pool knows of the page that an address names.
 * Refused: CLOSED; RANGE; UNMAPPED. */
uint32_t compactd_look(compactd_pool *pool, uint32_t space, uint32_t vpage, compactd_page_info *info) COMPACTD_CALL;

/* Gets whether a pageblock is marked.
 * Refused: CLOSED; RANGE. */
uint32_t compactd_marked(compactd_pool *pool, uint32_t block, compactd_bool *marked) COMPACTD_CALL;

/* Gets whether the latest round is quiet: it started with no moving page and no obstacle outside marked pageblocks, and only loads, stores
 * and moves of rounds followed. An obstacle is a page that has a pin or is unmovable, a block that is handed out, or a claimed frame. When
 * the scanners of a quiet round have met and no page is moving, the pool is packed: in the pageblocks that aren't marked, each free frame is
 * below each page.
 * Refused: CLOSED. */
uint32_t compactd_quiet(compactd_pool *pool, compactd_bool *quiet) COMPACTD_CALL;

/* Gets how many pages rounds have isolated since the pool was opened, how many of them were moved, and how many put back.
 * Refused: CLOSED; PAGES_MOVING. */
uint32_t compactd_audit(compactd_pool *pool, compactd_round_counts *counts) COMPACTD_CALL;

/* Gets how many moves have ended since the pool was opened: those of pages that were moved, and those of pages that were put back. It answers
 * while pages are moving too.
 * Refused: CLOSED. */
uint32_t compactd_ended(compactd_pool *pool, uint64_t *ended) COMPACTD_CALL;

/* Gets how many records were written since the pool was opened, and how many places are left. A pool that keeps no records counts them
 * too, and has room for 2^53.
 * Refused: CLOSED. */
uint32_t compactd_journal(compactd_pool *pool, uint64_t *records, uint64_t *room) COMPACTD_CALL;

/* Gets a record of a pool that keeps its journal. 0 is the oldest.
 * Refused: CLOSED; RANGE where there is no such record, or none is kept. */
uint32_t compactd_record_at(compactd_pool *pool, size_t place, compactd_record *record) COMPACTD_CALL;

/* Gets the moving page with the lowest source frame, of those whose source is the frame `from` or a higher one. The caller gets all of
 * them from 0, then from the latest source + 1, and so on. So a page whose carrier was lost can be found and put back.
 * Refused: CLOSED; RANGE where `from` is above 16777215; NOT_MOVING. */
uint32_t compactd_next_moving(compactd_pool *pool, uint32_t from, compactd_moving_page *page, compactd_move *move) COMPACTD_CALL;

/* Rounds. A round moves the lowest page that can be moved to the highest free frame, and so on until its two scanners meet. */

/* Makes a whole round on the calling thread, and gets whether its scanners met. They don't where the journal has no room for a further
 * move.
 * Refused: CLOSED. */
uint32_t compactd_compact(compactd_pool *pool, compactd_bool *met) COMPACTD_CALL;

/* A round in slices: compactd_begin_round; then compactd_move_pages until it gets why there were no more pages. Where no other call is made
 * between them, this leaves what compactd_compact leaves. compactd_round.h makes such a round beside other threads.
 *
 * A round whose pages the caller carries: compactd_begin_round; then compactd_isolate until it answers MET; and for each page compactd_commit
 * or compactd_put_back, by any thread and in any order. In a pool that lies in memory of the caller's: compactd_lend_move in place of
 * compactd_isolate, a copy of `from` to `to`, and compactd_commit_lent or compactd_put_back_lent. All of these may be mixed in one round. */

/* Begins a round. A round that was begun before ends; pages that are moving stay so. The call is unrecorded.
 * Refused: CLOSED. */
uint32_t compactd_begin_round(compactd_pool *pool) COMPACTD_CALL;

/* Moves the next pages of the round that was begun last, so many at most, each by one copy from frame to frame. Gets how many were moved, and
 * in `stopped` 0 where they are as many as were asked for, and else why there were no more: JOURNAL_FULL where the journal has no room for a
 * further move; MET, also where no round was begun. With `most` 0 it moves nothing, and both are 0.
 * Refused: CLOSED. */
uint32_t compactd_move_pages(compactd_pool *pool, uint32_t most, uint32_t *moved, uint32_t *stopped) COMPACTD_CALL;

/* Isolates the next page of the round and copies its words. `count` is the number of words of a page, and `words` has room for them. The
 * page is moving until it is committed or put back.
 * Refused: CLOSED; RANGE where the count isn't that of a page; JOURNAL_FULL where there aren't two places; MET, also where no round
 * was begun. */
uint32_t compactd_isolate(compactd_pool *pool, compactd_moving_page *page, uint64_t *words, size_t count) COMPACTD_CALL;

/* Ends the move of a page with a copy of its words, which are compared with those of the page. Gets whether the page was moved to its new
 * frame; else it has a pin and is in its old frame.
 * Refused: CLOSED; RANGE where the count isn't that of a page; STRANGER where no page with this number is moving under this serial, its
 * words differ, or the words of the move are lent. */
uint32_t compactd_commit(compactd_pool *pool, const compactd_moving_page *page, const uint64_t *words, size_t count, compactd_bool *moved)
    COMPACTD_CALL;

/* Ends the move of a page without a copy: the page is in its old frame, with its words.
 * Refused: CLOSED; STRANGER, also where the words of the move are lent. */
uint32_t compactd_put_back(compactd_pool *pool, const compactd_moving_page *page) COMPACTD_CALL;

/* Isolates the next page of the round, as compactd_isolate does, and lends the words of the frame that it leaves and of the one that it goes
 * to, in a pool that lies in memory of the caller's. Nothing is copied. The caller copies `from` to `to`, without its lock too, and ends the
 * move by compactd_commit_lent or compactd_put_back_lent; compactd_commit and compactd_put_back don't end it. Meanwhile the page is moving for
 * all other calls. It may be pinned, and a pin be taken off.
 * Refused: CLOSED; JOURNAL_FULL where there aren't two places; OWN_MEMORY where the pool lies in memory of its own; MET, also where no round
 * was begun. */
uint32_t compactd_lend_move(compactd_pool *pool, compactd_lent_move *move) COMPACTD_CALL;

/* Takes the words of a move back, and ends it as compactd_commit does; nothing is compared or copied. Gets whether the page was moved to its
 * new frame; else it has a pin and is in its old frame. `from` and `to` are all zeros then.
 * Refused: CLOSED; RANGE where the move lacks words or has more of one frame than of the other; STRANGER where no page with this number is
 * moving under this serial from this frame to that one with its words lent. */
uint32_t compactd_commit_lent(compactd_pool *pool, compactd_lent_move *move, compactd_bool *moved) COMPACTD_CALL;

/* Takes the words of a move back, and ends it as compactd_put_back does: the page is in its old frame, with its words. What `to` has doesn't
 * matter. `from` and `to` are all zeros then.
 * Refused: as compactd_commit_lent is. */
uint32_t compactd_put_back_lent(compactd_pool *pool, compactd_lent_move *move) COMPACTD_CALL;

/* Gets the move of a page that is moving, as one that was isolated, where its old frame is `from` or a higher one. This is a part of the
 * header and isn't proved; the calls that it makes are.
 * Refused: CLOSED; RANGE where `from` is above 16777215; NOT_MOVING. */
COMPACTD_IN_HEADER uint32_t compactd_move_of(compactd_pool *pool, const compactd_moving_page *page, uint32_t from, compactd_move *move)
{
    compactd_moving_page found;
    compactd_move way;
    uint32_t answer = compactd_next_moving(pool, from, &found, &way);

    while (answer == COMPACTD_OK && found.serial != page->serial)
        answer = compactd_next_moving(pool, way.source + 1, &found, &way);
    if (answer == COMPACTD_OK)
        *move = way;
    return answer;
}

/* Moves the next pages of the round that was begun last, `most` at most, to where compactd_move_pages moves them, and lists them: `moves` has
 * room for so many, and gets of each page its old frame, its new one and its lowest address, in the order in which they were moved. So who
 * keeps page tables learns which pages a round moved. `words` has room for the words of a page, and `page_words` is their number. Gets how
 * many pages were moved, and in `stopped` 0 where they are as many as were asked for, and else MET or JOURNAL_FULL. Each page is copied
 * twice. This too is a part of the header.
 * Refused: CLOSED; RANGE where `page_words` isn't the number of words of a page. With `most` 0 no call is made. */
COMPACTD_IN_HEADER uint32_t compactd_list_moves(compactd_pool *pool, uint64_t *words, size_t page_words, compactd_move *moves, uint32_t most,
                                                uint32_t *moved, uint32_t *stopped)
{
    compactd_moving_page page;
    compactd_bool is_moved;
    uint32_t count, answer = COMPACTD_OK;

    for (count = 0; count < most; count++) {
        answer = compactd_isolate(pool, &page, words, page_words);
        if (answer == COMPACTD_OK) /* a round goes upwards */
            answer = compactd_move_of(pool, &page, count > 0 ? moves[count - 1].source : 0, &moves[count]);
        if (answer == COMPACTD_OK)
            answer = compactd_commit(pool, &page, words, page_words, &is_moved);
        if (answer != COMPACTD_OK)
            break;
    }
    if (answer == COMPACTD_CLOSED || answer == COMPACTD_RANGE)
        return answer;
    *moved = count;
    *stopped = answer;
    return COMPACTD_OK;
}

/* Isolates the next pages of the round, so many at most, one after the other, as that many compactd_isolate calls would: under one hold of the
 * caller's lock. `pages` has room for so many, and `words` for the words of each, those of the page i from word i * page_words on. Gets how many
 * were isolated, also where it is refused, and answers the refusal that stopped it. This too is a part of the header.
 * Refused: as compactd_isolate is. With `count` 0 no call is made. */
COMPACTD_IN_HEADER uint32_t compactd_isolate_many(compactd_pool *pool, compactd_moving_page *pages, size_t count, uint64_t *words,
                                                  size_t page_words, size_t *isolated)
{
    uint32_t answer = COMPACTD_OK;
    size_t at;

    for (at = 0; at < count; at++) {
        answer = compactd_isolate(pool, &pages[at], words + at * page_words, page_words);
        if (answer != COMPACTD_OK)
            break;
    }
    *isolated = at;
    return answer;
}

/* Ends the moves of pages, one after the other, as that many compactd_commit calls would, with copies of their words that lie as those of
 * compactd_isolate_many do. `statuses` gets the answer for each page, and `moved` whether it was moved, 0 where it was refused. One that is
 * refused doesn't stop the others. Answers 0 where none was, and else the first refusal of a page. This too is a part of the header.
 * Refused: as compactd_commit is. With `count` 0 no call is made. */
COMPACTD_IN_HEADER uint32_t compactd_commit_many(compactd_pool *pool, const compactd_moving_page *pages, size_t count, const uint64_t *words,
                                                 size_t page_words, uint32_t *statuses, compactd_bool *moved)
{
    uint32_t answer = COMPACTD_OK;
    size_t at;

    for (at = 0; at < count; at++) {
        moved[at] = 0;
        statuses[at] = compactd_commit(pool, &pages[at], words + at * page_words, page_words, &moved[at]);
        if (answer == COMPACTD_OK)
            answer = statuses[at];
    }
    return answer;
}

/* Evacuations. */

/* Empties the run of 2^order frames that begins at a frame, and gets how many pages were moved out of it. All frames of the run are free
 * then, so a block may be handed out there. The lowest page goes to the highest free frame that is outside of the run and in no marked
 * pageblock, the next page to the next of these frames below, and so on. Each page is copied once. Where a page is moved, the latest round
 * isn't quiet any more; it may go on.
 * Refused: CLOSED; RANGE, also where the frame isn't a multiple of 2^order or the run goes past the pool; NO_BLOCK where a frame of the run
 * is in a marked pageblock, in a block that is handed out, claimed, or taken up by a page that is moving, pinned or unmovable, or where there
 * are fewer frames to go to than pages; JOURNAL_FULL where there aren't two places for each page, or fewer isolations are left than pages. */
uint32_t compactd_evacuate(compactd_pool *pool, uint32_t first, uint32_t order, uint32_t *moved) COMPACTD_CALL;

/* Evacuations in steps. compactd_claim; then compactd_empty_some until no frame of the run is unclaimed, with other calls between these
 * steps; then compactd_take_claimed. Or compactd_drop_claim, at any time.
 *
 * A claimed frame is empty and kept for a block: it isn't free, so no page is mapped there, moved there or brought there, and
 * compactd_take_order, compactd_evacuate and compactd_reserve pass over each run that has one. Linux isolates the pageblocks of a range so,
 * before it empties them, in alloc_contig_range; here a run of 8 to 512 frames is claimed. A frame of the run that becomes free later, as by
 * compactd_unmap, is free until the next step claims it. Claims are unrecorded, and end with the pool. After each of these calls the latest
 * round isn't quiet; it may go on. */

/* Claims the free frames of the run of 2^order frames that begins at a frame, and gets how many pages are in the run.
 * Refused: CLOSED; RANGE, also where the frame isn't a multiple of 2^order or the run goes past the pool; NO_BLOCK where a frame of the run
 * is in a marked pageblock, in a block that is handed out, claimed already, or taken up by a page that is moving, pinned or unmovable. */
uint32_t compactd_claim(compactd_pool *pool, uint32_t first, uint32_t order, uint32_t *pages) COMPACTD_CALL;

/* Makes a step: claims the free frames of a run, and moves the next of its pages, so many at most, each by one copy. The lowest page goes to
 * the highest free frame that is in no marked pageblock, and the frame that it leaves is claimed, and so on. Gets how many pages were moved,
 * and how many frames of the run aren't claimed yet; where that is 0, compactd_take_claimed takes the run. A page that is moving, pinned or
 * unmovable stays, and a later step may move it. Where fewer pages were moved than were asked for, and frames are unclaimed, such pages are
 * left or no frame is free for them. With `most` 0 it only claims. A run without a claim may be emptied so too, and a mark
 * of its pageblock doesn't matter.
 * Refused: CLOSED; RANGE, as compactd_claim is; JOURNAL_FULL where there aren't two places for each page that may go, or for `most` of them
 * where they are more. */
uint32_t compactd_empty_some(compactd_pool *pool, uint32_t first, uint32_t order, uint32_t most, uint32_t *moved, uint32_t *unclaimed)
    COMPACTD_CALL;

/* Isolates the lowest page of a run that may go, outside of a round, and lends the words of the frame that it leaves and of the one that it goes
 * to, as compactd_lend_move does: the highest free frame that is in no marked pageblock. compactd_empty_some with `most` 0 is made before, so
 * that this isn't a frame of the run. Then compactd_commit_and_claim ends the move, or compactd_put_back_lent. So the pages of a run are copied
 * without the lock; compactd_round.h empties runs so, on threads.
 * Refused: CLOSED; RANGE, as compactd_claim is; JOURNAL_FULL where there aren't two places; OWN_MEMORY where the pool lies in memory of its own;
 * NONE_LEFT where each page of the run is moving, pinned or unmovable, or no frame is free for it. */
uint32_t compactd_lend_move_from(compactd_pool *pool, uint32_t first, uint32_t order, compactd_lent_move *move) COMPACTD_CALL;

/* Takes the words of a move back, and ends it as compactd_commit_lent does, but that the frame that the page left is claimed. One that has a
 * pin is in it again.
 * Refused: as compactd_commit_lent is. */
uint32_t compactd_commit_and_claim(compactd_pool *pool, compactd_lent_move *move, compactd_bool *moved) COMPACTD_CALL;

/* Hands out the block of 2^order frames that begins at a frame, all of which are claimed. Its words are zeros. It is given back by
 * compactd_give_order.
 * Refused: CLOSED; RANGE, as compactd_claim is; JOURNAL_FULL; NO_BLOCK where a frame of it isn't claimed. */
uint32_t compactd_take_claimed(compactd_pool *pool, uint32_t first, uint32_t order) COMPACTD_CALL;

/* Drops the claims of the frames of a run, if it has any: these frames are free.
 * Refused: CLOSED; RANGE, as compactd_claim is. */
uint32_t compactd_drop_claim(compactd_pool *pool, uint32_t first, uint32_t order) COMPACTD_CALL;

/* Reservations. */

/* Hands out `count` blocks of 2^order frames with the fewest moves that there can be. Gets their first frames, for which `firsts` has room,
 * and how many pages were moved. A run is open where compactd_evacuate wouldn't be refused for a frame of it. The open runs with the fewest
 * pages are picked, the lowest first of equals, and `firsts` has them in this order. They are emptied and then handed out, as by
 * compactd_take_order. Their lowest page goes to the highest free frame that is outside of all of them and in no marked pageblock, the next
 * page to the next of these frames below, and so on. Each page is copied once. Where a page is moved, the latest round isn't quiet any more.
 * With `count` 0 nothing is done, and `firsts` may be null.
 * Refused: CLOSED; RANGE; MEMORY where there isn't enough for a list of the blocks; NO_BLOCK where fewer runs are open, or fewer frames
 * of unmarked pageblocks are free than the blocks have; JOURNAL_FULL where there aren't two places for each page and one for each block, or
 * fewer isolations are left than pages. */
uint32_t compactd_reserve(compactd_pool *pool, uint32_t order, uint32_t *firsts, size_t count, uint32_t *moved) COMPACTD_CALL_WITH_WORDS;

/* Gets the run that compactd_reserve would pick for one block: its first frame, and how many pages are in it. So a caller knows what a block
 * costs before it asks for one. The call changes nothing, and is unrecorded.
 * Refused: CLOSED; RANGE; NO_BLOCK where no run is open. */
uint32_t compactd_cheapest_run(compactd_pool *pool, uint32_t order, uint32_t *first, uint32_t *pages) COMPACTD_CALL;

/* Blocks that are kept ready. A block is there at once where its pages were moved beforehand: Linux has the thread kcompactd for that, which
 * compacts in the background. Here the caller is that thread. It makes small steps under its lock, while other calls go on between them: a
 * step claims the cheapest run, or moves some pages out of a run that is claimed. A step undoes none of another, since no page comes to a
 * claimed frame.
 *
 * A keeper is an array of the caller's and a count: `firsts` has a place for each of the `ready` blocks that are to be ready, and its first
 * `count` words are the first frames of the runs that are claimed for them, the one that was claimed first in front. At first the count is 0.
 * Each of these calls gets them and writes them anew. Where the caller has no use for a run any more, it takes it out of the array and gives
 * it up by compactd_drop_claim. A keeper has one order. A pool may have several keepers. */

/* Makes one step of a keeper. It goes on with the first of its runs that isn't finished, as compactd_empty_some does: claims its free frames,
 * and moves at most `most` pages out of it. A run is finished where all its frames are claimed. It counts as finished, until that changes,
 * where each page left in it is moving, pinned or unmovable, or no frame is free for it. Where all are and there is a place for another, the step
 * claims the run of compactd_cheapest_run, if one is open. Gets how many pages were moved, and whether the step did anything; else there is
 * no more to do now. A caller makes steps until `more` is 0, and again after other calls. With `most` 0 it only claims, and `more` stays 1
 * while a page could go.
 * Refused: CLOSED; RANGE, also where a first frame is above 16777215 or the count is above `ready`; MEMORY where there isn't enough for
 * a list of the runs; JOURNAL_FULL, as compactd_empty_some is. */
uint32_t compactd_keep(compactd_pool *pool, uint32_t order, uint32_t most, uint32_t *firsts, size_t ready, size_t *count, uint32_t *moved,
                       compactd_bool *more) COMPACTD_CALL_WITH_WORDS;

/* Hands out a block of a keeper: the first of its runs whose frames are all claimed, as by compactd_take_claimed. No page is moved then, and
 * the keeper has one run less. Where none is so, the block is handed out as by compactd_reserve, and `moved` gets how many pages were moved
 * for it. Gets the first frame of the block, which is given back by compactd_give_order.
 * Refused: CLOSED; RANGE and MEMORY, as compactd_keep is; NO_BLOCK and JOURNAL_FULL, as compactd_take_claimed or compactd_reserve is. */
uint32_t compactd_take_kept(compactd_pool *pool, uint32_t order, uint32_t *firsts, size_t ready, size_t *count, uint32_t *first,
                            uint32_t *moved) COMPACTD_CALL_WITH_WORDS;

#ifdef __cplusplus
}
#endif

#endif
