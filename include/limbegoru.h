/* Limbegoru: sets of free address ranges, for a host in C or C++.
 *
 * Link with liblimbegoru.a (host/c/build makes it). Every call is proved to do what its comment says; the declarations in
 * this file are not: nothing checks them but the tests.
 *
 * A land keeps the free ranges of an arena [base, limit). An address is a number of the host's own choice, at most 2^40:
 * the word at address a is words[(a - base) / 8]. Handles go in by value and the next one comes back: keep the handle that
 * the last call returned. A list land's arena is lent whole at every call, n = (limit - base) / 8 words; a block land's
 * node space always the same, at most 2,097,152 words, two for each range. Every call but the opening reads all of node
 * space, since the words behind the ranges must be 0: each word that is lent and not used makes every call about a tenth
 * of a nanosecond longer.
 *
 * To size an arena, read low water in its handle: the least number of free bytes after any accepted call, from the first
 * that left the land non-empty on. Where that first call made the whole arena free, low water is what was to spare when most
 * was in use; an arena that is made free piece by piece never has more than its first piece as low water. A flush counts as
 * one call on each of its two lands. In a pair each land keeps its own, read after each call on the pair.
 *
 * No call has a precondition on its numbers: every handle, every memory and every number is answered. A refused call
 * returns ranges {0, 0} and the handle that it was given (all zeros from an opening), and changes no word. What must hold:
 * the pointer is aligned to 8 bytes and points to n words (NULL with n 0 is fine), and two memories of one call do not
 * overlap. Memory behind a pointer to const is only read; any other must be writable, also for a call that changes no word,
 * such as a find in mode none. The host may write every word that is not free between two calls, and must leave the free
 * ones and node space.
 *
 * Threads: no call keeps anything outside the memory that it is lent and the result that it returns. Calls on different
 * memories may run at the same time. The host sees to it that no two run at once on the same memory, unless both only read
 * it.
 */
#ifndef LIMBEGORU_H
#define LIMBEGORU_H

/* Also refused: 32-bit pointers, and compilers for Windows (_M_X64 among them), where calls pass structs in another way. The
 * archive is made for x86-64-v2: that the processor has SSE4.2 is not tested here. */
#if !defined(__x86_64__) || defined(__ILP32__) || defined(_WIN32) || defined(__CYGWIN__)
#error "liblimbegoru.a is for x86-64 with 64-bit pointers and the System V calling convention"
#endif

#include <stddef.h>
#include <stdint.h>

/* The number of this interface. lg_version() returns that of the archive: where the two differ, build the host again. It is
 * raised by every change of a struct, a function or the meaning of an answer. */
#define LG_VERSION UINT64_C(2)

#define LG_LIMIT_MAX UINT64_C(1099511627776) /* the highest limit of an arena: 2^40 */
#define LG_ALIGN_MIN UINT64_C(8)             /* the lowest alignment */
#define LG_ALIGN_MAX UINT64_C(4096)          /* the highest alignment */
#define LG_NODE_WORDS_MAX UINT64_C(2097152)  /* the longest node space */

/* A dropped result is warned of: the next handle is lost with it or, from a call on a pointer, the answer. */
#if defined(__cplusplus) && __cplusplus >= 201703L
#define LG_KEEP [[nodiscard]]
#elif defined(__GNUC__)
#define LG_KEEP __attribute__((warn_unused_result))
#else
#define LG_KEEP
#endif

#ifdef __cplusplus
extern "C" {
#endif

/* Answers, checked in the order 5, 6, 4, 1 or 2, 3; on a pair 5, 6, 4, 1 or 2, 7. lg_answer_text says when each is given. */
enum {
    LG_ANSWER_OK = 0,
    LG_ANSWER_OVERLAP = 1,
    LG_ANSWER_NONE = 2,
    LG_ANSWER_FULL = 3,
    LG_ANSWER_REQUEST = 4,
    LG_ANSWER_SET_UP = 5,
    LG_ANSWER_DAMAGED = 6,
    LG_ANSWER_IN_BOTH = 7
};

/* An answer in words; every other number is "no answer". */
static inline const char *lg_answer_text(uint64_t answer) {
    switch (answer) {
    case LG_ANSWER_OK:
        return "accepted";
    case LG_ANSWER_OVERLAP:
        return "insert: some byte is already free; delete: some byte is not free";
    case LG_ANSWER_NONE:
        return "no range qualifies";
    case LG_ANSWER_FULL:
        return "insert, delete: the block land would have more ranges than its capacity";
    case LG_ANSWER_REQUEST:
        return "the range, the size or the mode breaks the rules";
    case LG_ANSWER_SET_UP:
        return "the handle's fixed fields or the lent lengths break the arena rules, or two lands have two arenas";
    case LG_ANSWER_DAMAGED:
        return "the list or table, or the handle's mark or low water, is not sound, or the lands of a pair overlap";
    case LG_ANSWER_IN_BOTH:
        return "delete on a pair: every byte is free, but neither land holds all of them";
    default:
        return "no answer";
    }
}

/* What a find takes out of the range that it finds. Any other number is answered 4. */
enum {
    LG_MODE_NONE = 0,  /* nothing */
    LG_MODE_LOW = 1,   /* size bytes at its low end */
    LG_MODE_HIGH = 2,  /* size bytes at its high end */
    LG_MODE_ENTIRE = 3 /* all of it */
};

typedef struct lg_range {
    uint64_t base, limit; /* limit is the first byte behind it */
} lg_range;

/* The handles, of which the host changes no field. Answered 6, as a list or table that is not sound, are a mark other than
 * 0 and 1, low water above bytes, and a mark of 0 where low water or bytes is not 0. A mark of 1 with both of them 0 is
 * sound: the land is empty again. */
typedef struct lg_list_land {
    uint64_t base, limit, align, head, ranges, bytes;
    uint64_t filled; /* the mark: 1 once an accepted call has left the land non-empty, 0 before */
    uint64_t low;    /* low water: the least of bytes after any accepted call from that one on, 0 before */
} lg_list_land;

typedef struct lg_block_land {
    uint64_t base, limit, align, ranges, bytes;
    uint64_t filled, low; /* the mark and low water, as above */
} lg_block_land;

typedef struct lg_list_opened {
    lg_list_land land;
    uint64_t answer;
} lg_list_opened;

typedef struct lg_list_changed {
    lg_list_land land;
    uint64_t answer;
    lg_range range;
} lg_list_changed;

typedef struct lg_list_found {
    lg_list_land land;
    uint64_t answer;
    lg_range range, old;
} lg_list_found;

typedef struct lg_block_opened {
    lg_block_land land;
    uint64_t answer;
} lg_block_opened;

typedef struct lg_block_changed {
    lg_block_land land;
    uint64_t answer;
    lg_range range;
} lg_block_changed;

typedef struct lg_block_found {
    lg_block_land land;
    uint64_t answer;
    lg_range range, old;
} lg_block_found;

typedef struct lg_flushed {
    lg_list_land list;
    lg_block_land block;
    uint64_t answer, moved, stop;
} lg_flushed;

typedef struct lg_pair {
    lg_list_land list;
    lg_block_land block;
} lg_pair;

typedef struct lg_pair_changed {
    lg_pair pair;
    uint64_t answer;
    lg_range range;
} lg_pair_changed;

typedef struct lg_pair_found {
    lg_pair pair;
    uint64_t answer;
    lg_range range, old;
} lg_pair_found;

/* LG_VERSION of the header for which the archive was made. */
uint64_t lg_version(void);

/* A land with no ranges. Base is not 0, base <= limit <= 2^40, both multiples of align; align is a power of two from 8 to
 * 4,096: of all 64-bit numbers exactly these ten pass, which is proved. No word is written. */
LG_KEEP lg_list_opened lg_list_open(uint64_t base, uint64_t limit, uint64_t align, const uint64_t *words, size_t n);

/* Makes a range free that has no free byte. The range returned is the isolated range that then contains it. */
LG_KEEP lg_list_changed lg_list_insert(lg_list_land land, uint64_t *words, size_t n, lg_range range);

/* Takes out a range that is all free. The range returned is the isolated range that contained it. */
LG_KEEP lg_list_changed lg_list_delete(lg_list_land land, uint64_t *words, size_t n, lg_range range);

/* The isolated range of at least the size with the lowest base; with the highest base; the longest, if it reaches the size,
 * of which low and high take all. The size is a multiple of align, and 0 only for the largest. `range` is what was found,
 * `old` the isolated range in which it was found. */
LG_KEEP lg_list_found lg_list_find_first(lg_list_land land, uint64_t *words, size_t n, uint64_t size, uint64_t mode);
LG_KEEP lg_list_found lg_list_find_last(lg_list_land land, uint64_t *words, size_t n, uint64_t size, uint64_t mode);
LG_KEEP lg_list_found lg_list_find_largest(lg_list_land land, uint64_t *words, size_t n, uint64_t size, uint64_t mode);

/* The isolated range of lowest base at or above a number. Going on from each range's limit meets every range once. */
LG_KEEP lg_list_changed lg_list_walk(lg_list_land land, const uint64_t *words, size_t n, uint64_t from);

/* The same three calls for a host that keeps the handle in a structure of its own: the handle that stands at `land` is used,
 * and the next one is stored there. A refused call leaves it as it was. What is returned is what the call above returns.
 * `land` points to a handle, which does not overlap the words. */
LG_KEEP lg_list_changed lg_list_insert_at(lg_list_land *land, uint64_t *words, size_t n, lg_range range);
LG_KEEP lg_list_changed lg_list_delete_at(lg_list_land *land, uint64_t *words, size_t n, lg_range range);
LG_KEEP lg_list_changed lg_list_walk_at(lg_list_land *land, const uint64_t *words, size_t n, uint64_t from);

/* The same calls on a block land, whose ranges stand in node space. The opening sets all pair words to 0. Only insert and
 * delete may be answered 3: a find leaves no more ranges than it met, and needs no room in node space. */
LG_KEEP lg_block_opened lg_block_open(uint64_t base, uint64_t limit, uint64_t align, uint64_t *nodes, size_t m);
LG_KEEP lg_block_changed lg_block_insert(lg_block_land land, uint64_t *nodes, size_t m, lg_range range);
LG_KEEP lg_block_changed lg_block_delete(lg_block_land land, uint64_t *nodes, size_t m, lg_range range);
LG_KEEP lg_block_found lg_block_find_first(lg_block_land land, uint64_t *nodes, size_t m, uint64_t size, uint64_t mode);
LG_KEEP lg_block_found lg_block_find_last(lg_block_land land, uint64_t *nodes, size_t m, uint64_t size, uint64_t mode);
LG_KEEP lg_block_found lg_block_find_largest(lg_block_land land, uint64_t *nodes, size_t m, uint64_t size, uint64_t mode);
LG_KEEP lg_block_changed lg_block_walk(lg_block_land land, const uint64_t *nodes, size_t m, uint64_t from);

/* Moves the list's ranges, in address order, into the block land of the same arena, until none is left (stop 0) or one is
 * refused (stop 1 or 3). `moved` is their number. No arena word changes. Where the flush itself is refused, both are 0. */
LG_KEEP lg_flushed lg_flush(lg_list_land list, const uint64_t *words, size_t n, lg_block_land block,
                            uint64_t *nodes, size_t m);

/* A pair: a list land and a block land of the same arena, each opened by its own call, with no byte free in both. What has
 * no room in node space is kept in the list, so that no call answers 3. Free means free in either land. Between two calls
 * the host may write the arena's words that are free in neither. A range that is returned is one of the land concerned.
 *
 * Insert: makes a range free that has no free byte. It first flushes the list, then inserts into the block land, and where
 * that has no room into the list. */
LG_KEEP lg_pair_changed lg_pair_insert(lg_pair pair, uint64_t *words, size_t n, uint64_t *nodes, size_t m, lg_range range);

/* Takes a range out of the land that holds all of it. Where the block land has no room for both ends that are left, the
 * lower end stays there and the upper goes to the list. 1 if some byte is not free, else 7 if neither land holds it all. */
LG_KEEP lg_pair_changed lg_pair_delete(lg_pair pair, uint64_t *words, size_t n, uint64_t *nodes, size_t m, lg_range range);

/* The lower of what the two lands find first; the higher of what they find last; the longer of their largest, the lower
 * base among equals. Only the land that has it changes. A run of free bytes that lies in both lands is not found whole. */
LG_KEEP lg_pair_found lg_pair_find_first(lg_pair pair, uint64_t *words, size_t n, uint64_t *nodes, size_t m,
                                         uint64_t size, uint64_t mode);
LG_KEEP lg_pair_found lg_pair_find_last(lg_pair pair, uint64_t *words, size_t n, uint64_t *nodes, size_t m,
                                        uint64_t size, uint64_t mode);
LG_KEEP lg_pair_found lg_pair_find_largest(lg_pair pair, uint64_t *words, size_t n, uint64_t *nodes, size_t m,
                                           uint64_t size, uint64_t mode);

#undef LG_KEEP

#ifdef __cplusplus
}
#endif

#endif
