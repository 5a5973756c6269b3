/* What the two baselines in C share: the rules of document 01, and how lands that are known to be sound are written. */
#ifndef BASELINE_H
#define BASELINE_H

#include <string.h>

#include "limbegoru.h"

#define ADDRESS_MAX ((uint64_t)1 << 40)
#define NODE_WORDS_MAX 2097152u

/* For what has several callers, each with constants of its own. */
#define INLINE static inline __attribute__((always_inline))

/* Not zero. Of the second form clang makes a count of bits, which takes many instructions without one for it. */
#ifdef __clang__
#define POWER_OF_TWO(n) (((n) ^ ((n) - 1)) > (n) - 1)
#else
#define POWER_OF_TWO(n) (((n) & ((n) - 1)) == 0)
#endif

static inline int arena_ok(uint64_t base, uint64_t limit, uint64_t align) {
    uint64_t mask = align - 1;
    return align >= 8 && align <= 4096 && POWER_OF_TWO(align) && base != 0 && base <= limit && limit <= ADDRESS_MAX &&
           ((base | limit) & mask) == 0;
}

static inline int range_ok(uint64_t base, uint64_t limit, uint64_t align, lg_range r) {
    return base <= r.base && r.base < r.limit && r.limit <= limit && ((r.base | r.limit) & (align - 1)) == 0;
}

/* Are a mark and low water sound beside so many free bytes? */
static inline int low_water_ok(uint64_t filled, uint64_t low, uint64_t bytes) {
    return (filled == 1 && low <= bytes) || (filled | low | bytes) == 0;
}

/* Notes the free bytes that an accepted call leaves in a land that was sound: once, when all of the call is done. Bytes that
 * are the same as before change nothing. */
static inline void note(uint64_t *filled, uint64_t *low, uint64_t bytes) {
    if (*filled == 0) {
        *filled = bytes != 0;
        *low = bytes;
    } else if (bytes < *low) {
        *low = bytes;
    }
}

/* The three finds. */
enum { FIRST, LAST, LARGEST };

INLINE int find_ok(uint64_t align, uint64_t size, uint64_t mode, int sort) {
    return (size != 0 || sort == LARGEST) && (size & (align - 1)) == 0 && mode <= LG_MODE_ENTIRE;
}

/* What a find takes out of the range in which it found the size. */
INLINE lg_range part(lg_range old, uint64_t size, uint64_t mode, int sort) {
    if (sort == LARGEST)
        return old;
    if (mode == LG_MODE_LOW)
        return (lg_range){old.base, old.base + size};
    if (mode == LG_MODE_HIGH)
        return (lg_range){old.limit - size, old.limit};
    return old;
}

/* List land. */

typedef struct {
    uint64_t base, limit, next; /* all 0: no range */
} node;

static inline int list_set_up_ok(const lg_list_land *land, size_t n) {
    return arena_ok(land->base, land->limit, land->align) && n == (land->limit - land->base) / 8;
}

/* What is judged of the handle alone. */
static inline int list_handle_ok(const lg_list_land *land) {
    return low_water_ok(land->filled, land->low, land->bytes);
}

static inline void note_list(lg_list_land *land) {
    note(&land->filled, &land->low, land->bytes);
}

static inline void write_node(uint64_t *words, uint64_t arena, uint64_t base, uint64_t limit, uint64_t next) {
    size_t i = (base - arena) / 8;
    if (limit - base == 8) {
        words[i] = next + 1;
    } else {
        words[i] = next;
        words[i + 1] = limit;
    }
}

/* Makes `next` follow the range at `below`, or the head if that is 0. */
static inline void link_to(lg_list_land *land, uint64_t *words, uint64_t below, uint64_t next) {
    if (below == 0) {
        land->head = next;
        return;
    }
    size_t i = (below - land->base) / 8;
    words[i] = next | (words[i] & 1);
}

/* Takes r out of `met`, which contains it and follows the range at `below`. */
static inline void list_take(lg_list_land *land, uint64_t *words, uint64_t below, node met, lg_range r) {
    uint64_t next = met.next;
    land->ranges--;
    land->bytes -= r.limit - r.base;
    if (r.limit < met.limit) {
        write_node(words, land->base, r.limit, met.limit, next);
        next = r.limit;
        land->ranges++;
    }
    if (met.base < r.base) {
        write_node(words, land->base, met.base, r.base, next);
        land->ranges++;
    } else {
        link_to(land, words, below, next);
    }
}

/* Does r overlap one of its two neighbours in the list? */
static inline int list_overlaps(node below, node above, lg_range r) {
    return below.limit > r.base || (above.base != 0 && above.base < r.limit);
}

/* Puts r between two neighbours and joins it with those that it touches. */
static inline lg_range list_put(lg_list_land *land, uint64_t *words, node below, node above, lg_range r) {
    uint64_t next = above.base;
    lg_range all = r;
    land->ranges++;
    land->bytes += r.limit - r.base;
    if (above.base == r.limit) {
        all.limit = above.limit;
        next = above.next;
        land->ranges--;
    }
    if (below.limit == r.base) {
        all.base = below.base;
        land->ranges--;
    } else {
        link_to(land, words, below.base, r.base);
    }
    write_node(words, land->base, all.base, all.limit, next);
    return all;
}
/* The range at an address of a sound list; none at 0. */
static inline node node_at(const lg_list_land *land, const uint64_t *words, uint64_t at) {
    if (at == 0)
        return (node){0, 0, 0};
    const uint64_t *word = words + (at - land->base) / 8;
    if ((word[0] & 1) != 0)
        return (node){at, at + 8, word[0] - 1};
    return (node){at, word[1], word[0]};
}


/* The end of a find in `met`, if any, which follows the range at `below`. */
INLINE lg_list_found list_found(lg_list_land *land, uint64_t *words, uint64_t below, node met, uint64_t size, uint64_t mode,
                                int sort) {
    if (!find_ok(land->align, size, mode, sort))
        return (lg_list_found){*land, LG_ANSWER_REQUEST, {0, 0}, {0, 0}};
    if (met.base == 0)
        return (lg_list_found){*land, LG_ANSWER_NONE, {0, 0}, {0, 0}};
    lg_range old = {met.base, met.limit}, taken = part(old, size, mode, sort);
    if (mode != LG_MODE_NONE) {
        list_take(land, words, below, met, taken);
        note_list(land);
    }
    return (lg_list_found){*land, LG_ANSWER_OK, taken, old};
}

/* The end of a walk that met a range, or none. */
INLINE lg_list_changed list_walked(lg_list_land *land, node met) {
    return (lg_list_changed){*land, met.base == 0 ? LG_ANSWER_NONE : LG_ANSWER_OK, {met.base, met.limit}};
}

/* Block land. */

static inline int block_set_up_ok(const lg_block_land *land, size_t m) {
    return arena_ok(land->base, land->limit, land->align) && m <= NODE_WORDS_MAX;
}

/* What is judged before the table is read. */
static inline int block_handle_ok(const lg_block_land *land, size_t m) {
    return land->ranges <= m / 2 && low_water_ok(land->filled, land->low, land->bytes);
}

static inline void note_block(lg_block_land *land) {
    note(&land->filled, &land->low, land->bytes);
}

static inline void set_pair(uint64_t *nodes, size_t i, uint64_t base, uint64_t limit) {
    nodes[2 * i] = base;
    nodes[2 * i + 1] = limit;
}

/* Opens a place for pair i; the pairs from i on go one up. */
static inline void open_pair(lg_block_land *land, uint64_t *nodes, size_t i) {
    memmove(nodes + 2 * i + 2, nodes + 2 * i, (land->ranges - i) * 16);
    land->ranges++;
}

/* Closes pair i; the pairs behind it go one down. */
static inline void close_pair(lg_block_land *land, uint64_t *nodes, size_t i) {
    land->ranges--;
    memmove(nodes + 2 * i, nodes + 2 * i + 2, (land->ranges - i) * 16);
    set_pair(nodes, land->ranges, 0, 0);
}

/* Takes r out of pair i, which contains it; there is room for one pair more if it is needed. */
static inline void block_take(lg_block_land *land, uint64_t *nodes, size_t i, lg_range old, lg_range r) {
    land->bytes -= r.limit - r.base;
    if (old.base == r.base && old.limit == r.limit) {
        close_pair(land, nodes, i);
    } else if (old.base == r.base) {
        nodes[2 * i] = r.limit;
    } else {
        nodes[2 * i + 1] = r.base;
        if (r.limit < old.limit) {
            open_pair(land, nodes, i + 1);
            set_pair(nodes, i + 1, r.limit, old.limit);
        }
    }
}

/* Does r, whose place is i, overlap the pair below or above? */
static inline int table_overlaps(const lg_block_land *land, const uint64_t *nodes, size_t i, lg_range r) {
    return (i > 0 && nodes[2 * i - 1] > r.base) || (i < land->ranges && nodes[2 * i] < r.limit);
}

/* Puts r at its place i and joins it with the pairs that it touches. Answers 0 if there is no room. */
static inline int block_put(lg_block_land *land, uint64_t *nodes, size_t m, size_t i, lg_range r, lg_range *all) {
    int joins_below = i > 0 && nodes[2 * i - 1] == r.base;
    int joins_above = i < land->ranges && nodes[2 * i] == r.limit;
    if (!joins_below && !joins_above && land->ranges == m / 2)
        return 0;
    *all = (lg_range){joins_below ? nodes[2 * i - 2] : r.base, joins_above ? nodes[2 * i + 1] : r.limit};
    land->bytes += r.limit - r.base;
    if (joins_below && joins_above)
        close_pair(land, nodes, i);
    else if (!joins_below && !joins_above)
        open_pair(land, nodes, i);
    set_pair(nodes, i - (size_t)joins_below, all->base, all->limit);
    return 1;
}

/* The number of pairs of a sound table whose base is below an address. */
static inline size_t pairs_below(const lg_block_land *land, const uint64_t *nodes, uint64_t address) {
    const uint64_t *at = nodes;
    size_t left = land->ranges;
    while (left > 1) {
        size_t half = left / 2;
        at += at[2 * half - 2] < address ? 2 * half : 0;
        left -= half;
    }
    return (size_t)(at - nodes) / 2 + (left == 1 && at[0] < address);
}

/* The end of a delete of r whose bytes are in one pair, the last of `behind`. */
INLINE lg_block_changed block_deleted(lg_block_land *land, uint64_t *nodes, size_t m, size_t behind, lg_range r) {
    if (behind == 0 || nodes[2 * behind - 1] < r.limit)
        return (lg_block_changed){*land, LG_ANSWER_OVERLAP, {0, 0}};
    lg_range old = {nodes[2 * behind - 2], nodes[2 * behind - 1]};
    if (old.base < r.base && r.limit < old.limit && land->ranges == m / 2)
        return (lg_block_changed){*land, LG_ANSWER_FULL, {0, 0}};
    block_take(land, nodes, behind - 1, old, r);
    note_block(land);
    return (lg_block_changed){*land, LG_ANSWER_OK, old};
}

/* The end of an insert of r, whose place is i. */
INLINE lg_block_changed block_inserted(lg_block_land *land, uint64_t *nodes, size_t m, size_t i, lg_range r) {
    lg_range all;
    if (table_overlaps(land, nodes, i, r))
        return (lg_block_changed){*land, LG_ANSWER_OVERLAP, {0, 0}};
    if (!block_put(land, nodes, m, i, r, &all))
        return (lg_block_changed){*land, LG_ANSWER_FULL, {0, 0}};
    note_block(land);
    return (lg_block_changed){*land, LG_ANSWER_OK, all};
}

/* The end of a find: of pair i, or of none if i is the number of ranges. */
INLINE lg_block_found block_found(lg_block_land *land, uint64_t *nodes, size_t i, uint64_t size, uint64_t mode, int sort) {
    if (!find_ok(land->align, size, mode, sort))
        return (lg_block_found){*land, LG_ANSWER_REQUEST, {0, 0}, {0, 0}};
    if (i == land->ranges)
        return (lg_block_found){*land, LG_ANSWER_NONE, {0, 0}, {0, 0}};
    lg_range old = {nodes[2 * i], nodes[2 * i + 1]}, taken = part(old, size, mode, sort);
    if (mode != LG_MODE_NONE) {
        block_take(land, nodes, i, old, taken);
        note_block(land);
    }
    return (lg_block_found){*land, LG_ANSWER_OK, taken, old};
}

/* The end of a walk: of pair i, or of none. */
INLINE lg_block_changed block_walked(lg_block_land *land, const uint64_t *nodes, size_t i) {
    if (i == land->ranges)
        return (lg_block_changed){*land, LG_ANSWER_NONE, {0, 0}};
    return (lg_block_changed){*land, LG_ANSWER_OK, {nodes[2 * i], nodes[2 * i + 1]}};
}

/* Pair. */

static inline int pair_set_up_ok(const lg_pair *pair, size_t n, size_t m) {
    return list_set_up_ok(&pair->list, n) && block_set_up_ok(&pair->block, m) && pair->list.base == pair->block.base &&
           pair->list.limit == pair->block.limit && pair->list.align == pair->block.align;
}

/* What is judged before the lands are read. */
static inline int pair_handle_ok(const lg_pair *pair, size_t m) {
    return list_handle_ok(&pair->list) && block_handle_ok(&pair->block, m);
}

static inline void note_pair(lg_pair *pair) {
    note_list(&pair->list);
    note_block(&pair->block);
}

/* The part of a table that a flush has still to merge stands as far up as the free pairs allow: what is merged never
 * reaches it, and there is room for one pair more as long as the two do not meet. */
typedef struct {
    uint64_t *to;         /* the end of what is merged */
    uint64_t *from, *end; /* what is still to merge */
} gap;

/* Merges a range of the list into the table. Answers as an insert; `apart` says that no byte is in both lands. */
INLINE uint64_t gap_put(gap *g, const uint64_t *nodes, node met, int apart) {
    while (g->from != g->end && g->from[0] < met.base) {
        g->to[0] = g->from[0];
        g->to[1] = g->from[1];
        g->to += 2;
        g->from += 2;
    }
    if (!apart && ((g->to != nodes && g->to[-1] > met.base) || (g->from != g->end && g->from[0] < met.limit)))
        return LG_ANSWER_OVERLAP;
    int joins_below = g->to != nodes && g->to[-1] == met.base;
    int joins_above = g->from != g->end && g->from[0] == met.limit;
    if (!joins_below && !joins_above && g->to == g->from)
        return LG_ANSWER_FULL;
    if (joins_above) {
        met.limit = g->from[1];
        g->from += 2;
    }
    if (!joins_below) {
        g->to[0] = met.base;
        g->to += 2;
    }
    g->to[-1] = met.limit;
    return LG_ANSWER_OK;
}

/* Moves the list's ranges into the table until one is refused. The head's place there is i. Answers the refusal, or 0. */
INLINE uint64_t flush(lg_pair *pair, const uint64_t *words, uint64_t *nodes, size_t m, size_t i, int apart) {
    size_t ranges = pair->block.ranges, room = m / 2 - ranges;
    size_t shift = room < pair->list.ranges ? room : pair->list.ranges;
    uint64_t stop = LG_ANSWER_OK, moved = 0, bytes = 0;
    gap g = {nodes + 2 * i, nodes + 2 * (i + shift), nodes + 2 * (ranges + shift)};
    if (shift != 0)
        memmove(g.from, g.to, (ranges - i) * 16);
    node met = node_at(&pair->list, words, pair->list.head);
    while (met.base != 0 && (stop = gap_put(&g, nodes, met, apart)) == LG_ANSWER_OK) {
        moved++;
        bytes += met.limit - met.base;
        met = node_at(&pair->list, words, met.next);
    }
    pair->list.head = met.base;
    pair->list.ranges -= moved;
    pair->list.bytes -= bytes;
    pair->block.bytes += bytes;
    if (g.to != g.from) {
        size_t rest = (size_t)(g.end - g.from);
        memmove(g.to, g.from, rest * 8);
        memset(g.to + rest, 0, (size_t)(g.end - g.to - rest) * 8);
    }
    pair->block.ranges = (size_t)(g.end - nodes - (g.from - g.to)) / 2;
    return stop;
}

/* A flush of lands that are known to be sound; the head's place in the table is i. */
INLINE lg_flushed flushed(lg_pair *pair, const uint64_t *words, uint64_t *nodes, size_t m, size_t i) {
    uint64_t before = pair->list.ranges;
    uint64_t stop = flush(pair, words, nodes, m, i, 0);
    note_pair(pair);
    return (lg_flushed){pair->list, pair->block, LG_ANSWER_OK, before - pair->list.ranges, stop};
}

/* Flushes, and puts r into the table at i or, where that has no room, into the list between two neighbours. The head's
 * place is head_place. The lands are apart, and r from both. */
INLINE lg_pair_changed pair_put(lg_pair *pair, uint64_t *words, uint64_t *nodes, size_t m, node below, node above,
                                size_t i, size_t head_place, lg_range r) {
    uint64_t before = pair->list.ranges;
    if (before != 0)
        flush(pair, words, nodes, m, head_place, 1);
    if (pair->list.ranges != before) {
        i = pairs_below(&pair->block, nodes, r.base);
        if (pair->list.head == 0 || below.base < pair->list.head) {
            below = (node){0, 0, 0};
            above = node_at(&pair->list, words, pair->list.head);
        }
    }
    lg_range all;
    if (!block_put(&pair->block, nodes, m, i, r, &all))
        all = list_put(&pair->list, words, below, above, r);
    note_pair(pair);
    return (lg_pair_changed){*pair, LG_ANSWER_OK, all};
}

/* Are all bytes of r free? `met` of the list and pair i are the last that do not begin above its base, or the first. */
static int all_free(const lg_pair *pair, const uint64_t *words, const uint64_t *nodes, node met, size_t i, lg_range r) {
    uint64_t at = r.base, before;
    do {
        before = at;
        for (; i < pair->block.ranges && nodes[2 * i] <= at; i++)
            at = nodes[2 * i + 1] > at ? nodes[2 * i + 1] : at;
        for (; met.base != 0 && met.base <= at; met = node_at(&pair->list, words, met.next))
            at = met.limit > at ? met.limit : at;
    } while (before < at && at < r.limit);
    return at >= r.limit;
}

/* Takes r out of the inside of pair i of a full table: the upper end that is left goes to the list, above `met`. */
static inline void hand_over(lg_pair *pair, uint64_t *words, uint64_t *nodes, size_t i, node met, lg_range r) {
    lg_range upper = {r.limit, nodes[2 * i + 1]};
    node above = node_at(&pair->list, words, met.base != 0 ? met.next : pair->list.head);
    nodes[2 * i + 1] = r.base;
    pair->block.bytes -= upper.limit - r.base;
    list_put(&pair->list, words, met, above, upper);
    note_list(&pair->list);
}

/* The end of a delete of r. `met` of the list is the last range that does not begin above it, and follows the range at
 * `below`; `behind` is the number of such pairs. */
INLINE lg_pair_changed pair_deleted(lg_pair *pair, uint64_t *words, uint64_t *nodes, size_t m, uint64_t below, node met,
                                    size_t behind, lg_range r) {
    if (r.limit <= met.limit) {
        list_take(&pair->list, words, below, met, r);
        note_list(&pair->list);
        return (lg_pair_changed){*pair, LG_ANSWER_OK, {met.base, met.limit}};
    }
    if (behind == 0 || nodes[2 * behind - 1] < r.limit) {
        node from = met.base != 0 ? met : node_at(&pair->list, words, pair->list.head);
        int free = all_free(pair, words, nodes, from, behind - (behind > 0), r);
        return (lg_pair_changed){*pair, free ? LG_ANSWER_IN_BOTH : LG_ANSWER_OVERLAP, {0, 0}};
    }
    lg_range old = {nodes[2 * behind - 2], nodes[2 * behind - 1]};
    if (old.base < r.base && r.limit < old.limit && pair->block.ranges == m / 2)
        hand_over(pair, words, nodes, behind - 1, met, r);
    else
        block_take(&pair->block, nodes, behind - 1, old, r);
    note_block(&pair->block);
    return (lg_pair_changed){*pair, LG_ANSWER_OK, old};
}

/* Which of the ranges that a find has met in the list and in the table is the one it is for? 1: the list's. */
INLINE int list_has_it(node met, lg_range tabled, int sort) {
    if (met.base == 0 || tabled.base == 0)
        return met.base != 0;
    if (sort == FIRST)
        return met.base < tabled.base;
    if (sort == LAST)
        return met.base > tabled.base;
    uint64_t listed = met.limit - met.base, other = tabled.limit - tabled.base;
    return listed > other || (listed == other && met.base < tabled.base);
}

/* The end of a find that met `met` in the list, if any, behind the range at `below`, and pair i, if there are so many. */
INLINE lg_pair_found pair_found(lg_pair *pair, uint64_t *words, uint64_t *nodes, uint64_t below, node met, size_t i,
                                uint64_t size, uint64_t mode, int sort) {
    if (!find_ok(pair->list.align, size, mode, sort))
        return (lg_pair_found){*pair, LG_ANSWER_REQUEST, {0, 0}, {0, 0}};
    lg_range tabled = {0, 0};
    if (i < pair->block.ranges)
        tabled = (lg_range){nodes[2 * i], nodes[2 * i + 1]};
    if (met.base == 0 && tabled.base == 0)
        return (lg_pair_found){*pair, LG_ANSWER_NONE, {0, 0}, {0, 0}};
    int in_list = list_has_it(met, tabled, sort);
    lg_range old = in_list ? (lg_range){met.base, met.limit} : tabled, taken = part(old, size, mode, sort);
    if (mode != LG_MODE_NONE && in_list) {
        list_take(&pair->list, words, below, met, taken);
        note_list(&pair->list);
    } else if (mode != LG_MODE_NONE) {
        block_take(&pair->block, nodes, i, old, taken);
        note_block(&pair->block);
    }
    return (lg_pair_found){*pair, LG_ANSWER_OK, taken, old};
}

#endif
