/* The same calls as in baseline.c, made as fast as plain C for this processor's baseline gets. The table is judged by one
 * sweep that is never left and keeps what it has seen, to be judged once at the end; the list by one walk without a branch
 * on the tags. What a call is for is looked up in what is then known to be sound, or where a walk stopped on its way. */
#include "baseline.h"

/* Block land. */

/* The words behind the ranges, or-ed together. */
static inline uint64_t tail_bits(const uint64_t *nodes, size_t from, size_t to) {
    uint64_t bits = 0;
    for (size_t k = from; k < to; k++)
        bits |= nodes[k];
    return bits;
}

/* Is the table sound? Where all words are below 2^63, a difference of two has the top bit exactly if the first is the
 * smaller. Limits ascend, so the last one alone is compared with the arena's. */
static inline int table_ok(const lg_block_land *land, const uint64_t *nodes, size_t m) {
    size_t ranges = land->ranges;
    if (!block_handle_ok(land, m))
        return 0;
    uint64_t apart = UINT64_MAX, bits = 0, bytes = 0, past = land->base - 1;
    for (size_t k = 0; k < ranges; k++) {
        uint64_t base = nodes[2 * k], limit = nodes[2 * k + 1];
        apart &= (past - base) & (base - limit);
        bits |= base | limit;
        bytes += limit - base;
        past = limit;
    }
    return (apart & ~bits) >> 63 != 0 && (bits & (land->align - 1)) == 0 && past <= land->limit && bytes == land->bytes &&
           tail_bits(nodes, 2 * ranges, m & ~(size_t)1) == 0;
}

/* The pair that a find is for, or the number of pairs. */
INLINE size_t table_find(const lg_block_land *land, const uint64_t *nodes, uint64_t size, int sort) {
    size_t ranges = land->ranges, kept = ranges;
    if (sort == LARGEST) {
        uint64_t longest = 0;
        for (size_t i = 0; i < ranges; i++) {
            uint64_t length = nodes[2 * i + 1] - nodes[2 * i];
            if (__builtin_expect(length > longest, 0)) {
                longest = length;
                kept = i;
            }
        }
        return longest >= size ? kept : ranges;
    }
    if (sort == LAST) {
        while (kept > 0 && nodes[2 * kept - 1] - nodes[2 * kept - 2] < size)
            kept--;
        return kept > 0 ? kept - 1 : ranges;
    }
    size_t i = 0;
    while (i < ranges && nodes[2 * i + 1] - nodes[2 * i] < size)
        i++;
    return i;
}

lg_block_changed b_block_insert(lg_block_land land, uint64_t *nodes, size_t m, lg_range r) {
    if (!block_set_up_ok(&land, m))
        return (lg_block_changed){land, LG_ANSWER_SET_UP, {0, 0}};
    if (!table_ok(&land, nodes, m))
        return (lg_block_changed){land, LG_ANSWER_DAMAGED, {0, 0}};
    if (!range_ok(land.base, land.limit, land.align, r))
        return (lg_block_changed){land, LG_ANSWER_REQUEST, {0, 0}};
    return block_inserted(&land, nodes, m, pairs_below(&land, nodes, r.base), r);
}

lg_block_changed b_block_delete(lg_block_land land, uint64_t *nodes, size_t m, lg_range r) {
    if (!block_set_up_ok(&land, m))
        return (lg_block_changed){land, LG_ANSWER_SET_UP, {0, 0}};
    if (!table_ok(&land, nodes, m))
        return (lg_block_changed){land, LG_ANSWER_DAMAGED, {0, 0}};
    if (!range_ok(land.base, land.limit, land.align, r))
        return (lg_block_changed){land, LG_ANSWER_REQUEST, {0, 0}};
    return block_deleted(&land, nodes, m, pairs_below(&land, nodes, r.base + 1), r);
}

lg_block_changed b_block_walk(lg_block_land land, const uint64_t *nodes, size_t m, uint64_t from) {
    if (!block_set_up_ok(&land, m))
        return (lg_block_changed){land, LG_ANSWER_SET_UP, {0, 0}};
    if (!table_ok(&land, nodes, m))
        return (lg_block_changed){land, LG_ANSWER_DAMAGED, {0, 0}};
    return block_walked(&land, nodes, pairs_below(&land, nodes, from));
}

INLINE lg_block_found block_find(lg_block_land *land, uint64_t *nodes, size_t m, uint64_t size, uint64_t mode, int sort) {
    if (!block_set_up_ok(land, m))
        return (lg_block_found){*land, LG_ANSWER_SET_UP, {0, 0}, {0, 0}};
    if (!table_ok(land, nodes, m))
        return (lg_block_found){*land, LG_ANSWER_DAMAGED, {0, 0}, {0, 0}};
    return block_found(land, nodes, table_find(land, nodes, size, sort), size, mode, sort);
}

lg_block_found b_block_find_first(lg_block_land land, uint64_t *nodes, size_t m, uint64_t size, uint64_t mode) {
    return block_find(&land, nodes, m, size, mode, FIRST);
}

lg_block_found b_block_find_last(lg_block_land land, uint64_t *nodes, size_t m, uint64_t size, uint64_t mode) {
    return block_find(&land, nodes, m, size, mode, LAST);
}

lg_block_found b_block_find_largest(lg_block_land land, uint64_t *nodes, size_t m, uint64_t size, uint64_t mode) {
    return block_find(&land, nodes, m, size, mode, LARGEST);
}

/* List land. */

/* A sound table beside which a list is walked: pairs before the next one have their limit at or below the range met. */
typedef struct {
    const uint64_t *next, *end;
    int overlaps; /* has a byte been met in both? */
} beside;

INLINE void go_along(beside *t, uint64_t base, uint64_t limit) {
    while (t->next != t->end && t->next[1] <= base)
        t->next += 2;
    t->overlaps |= t->next != t->end && t->next[0] < limit;
}

typedef struct {
    uintptr_t origin;       /* the word at address a stands at origin + a */
    uint64_t at;            /* the base to go on with, 0 at the end */
    uint64_t past;          /* which must be above this */
    uint64_t below, before; /* the bases of the last range that was read and of the one before it, or 0 */
    uint64_t bits, bytes, ranges;
} list_walk;

static inline list_walk walk_from_head(const lg_list_land *land, const uint64_t *words) {
    return (list_walk){(uintptr_t)words - land->base, land->head, land->base - 1, 0, 0, 0, 0, 0};
}

/* The word at an address of the arena, which need not be a multiple of 8. */
static inline uint64_t word_at(const list_walk *w, uint64_t address) {
    uint64_t word;
    memcpy(&word, (const void *)(w->origin + address), sizeof word);
    return word;
}

INLINE void take(list_walk *w, uint64_t limit, uint64_t next, beside *t) {
    w->bits |= w->at | limit;
    w->bytes += limit - w->at;
    w->ranges++;
    if (t != NULL)
        go_along(t, w->at, limit);
    w->before = w->below;
    w->below = w->at;
    w->past = limit;
    w->at = next;
}

/* Reads the range at w->at, behind which there is a second word. Answers 0, and stays, if that is the end, or it does not
 * begin above the range before, or a block is too short. No branch on the tag: `end` is the limit and the tag. */
INLINE int read_range(list_walk *w, beside *t) {
    if (w->at <= w->past)
        return 0;
    uint64_t first = word_at(w, w->at), second = word_at(w, w->at + 8), tag = first & 1;
    /* Read whatever the tag says: else the compiler makes a branch of the choice. */
    __asm__("" : "+r"(second));
    uint64_t end = tag ? w->at + 9 : second;
    if (end <= w->at + 8)
        return 0;
    take(w, end - tag, first - tag, t);
    return 1;
}

/* Ranges that begin below this have a second word in the arena. */
static inline uint64_t last_start(const lg_list_land *land, size_t n) {
    return n < 2 ? 0 : land->limit - 15;
}

/* The last word of the arena can hold a grain alone, the last of the list. Answers whether there is one. */
INLINE int read_last(list_walk *w, const lg_list_land *land, size_t n, beside *t) {
    if (n == 0 || w->at != land->limit - 8 || w->at <= w->past || word_at(w, w->at) != 1)
        return 0;
    take(w, land->limit, 0, t);
    return 1;
}

/* Was the list sound? Limits ascend, so the last one alone is compared with the arena's. The handle's mark and low water are
 * judged apart, before the walk or behind it, where they take no register of the loop. */
static inline int walked_ok(const list_walk *w, const lg_list_land *land) {
    return w->at == 0 && (w->bits & (land->align - 1)) == 0 && w->past <= land->limit && w->ranges == land->ranges &&
           w->bytes == land->bytes;
}

/* A range of a sound list by its base, and the base of the one before it; 0 where there is none. */
typedef struct {
    uint64_t below, before;
} spot;

/* The last range below an address. Answers 0 if the list is not sound. */
INLINE int list_seek(const lg_list_land *land, const uint64_t *words, size_t n, uint64_t address, beside *t, spot *s) {
    uint64_t stop = last_start(land, n), sooner = address < stop ? address : stop;
    list_walk w = walk_from_head(land, words);
    while (w.at < sooner && read_range(&w, t)) {
    }
    *s = (spot){w.below, w.before};
    while (w.at < stop && read_range(&w, t)) {
    }
    if (read_last(&w, land, n, t) && address > land->limit - 8)
        *s = (spot){land->limit - 8, s->below};
    return walked_ok(&w, land) && list_handle_ok(land);
}

/* The first range that has the size. */
INLINE int list_find_short(const lg_list_land *land, const uint64_t *words, size_t n, uint64_t size, beside *t, spot *s) {
    if (!list_handle_ok(land))
        return 0;
    uint64_t stop = last_start(land, n);
    list_walk w = walk_from_head(land, words);
    int found = 0;
    while (!found && w.at < stop && read_range(&w, t))
        found = w.past - w.below >= size;
    *s = found ? (spot){w.below, w.before} : (spot){0, w.below};
    while (w.at < stop && read_range(&w, t)) {
    }
    if (read_last(&w, land, n, t) && !found && size <= 8)
        s->below = land->limit - 8;
    return walked_ok(&w, land);
}

/* The last range that has the size, or the largest if it has it. On the way the base before it is kept alone. */
INLINE int list_find_long(const lg_list_land *land, const uint64_t *words, size_t n, uint64_t size, int sort, beside *t,
                          spot *s) {
    const uint64_t none = UINT64_MAX;
    uint64_t stop = last_start(land, n), least = size, before = none;
    list_walk w = walk_from_head(land, words);
    while (w.at < stop && read_range(&w, t)) {
        uint64_t length = w.past - w.below;
        if (sort == LAST) {
            before = length >= least ? w.before : before;
        } else if (__builtin_expect(length >= least, 0)) {
            before = w.before;
            least = length + 1;
        }
    }
    if (read_last(&w, land, n, t) && least <= 8)
        before = w.before;
    if (!walked_ok(&w, land) || !list_handle_ok(land))
        return 0;
    *s = (spot){0, 0};
    if (before != none)
        *s = (spot){before == 0 ? land->head : node_at(land, words, before).next, before};
    return 1;
}

INLINE int list_find(const lg_list_land *land, const uint64_t *words, size_t n, uint64_t size, int sort, beside *t,
                     spot *s) {
    return sort == FIRST ? list_find_short(land, words, n, size, t, s) : list_find_long(land, words, n, size, sort, t, s);
}

/* The range above a spot, or none. */
static inline node above_spot(const lg_list_land *land, const uint64_t *words, node below) {
    return node_at(land, words, below.base != 0 ? below.next : land->head);
}

INLINE lg_list_changed list_insert(lg_list_land *land, uint64_t *words, size_t n, lg_range r) {
    spot s;
    if (!list_set_up_ok(land, n))
        return (lg_list_changed){*land, LG_ANSWER_SET_UP, {0, 0}};
    if (!list_seek(land, words, n, r.base, NULL, &s))
        return (lg_list_changed){*land, LG_ANSWER_DAMAGED, {0, 0}};
    if (!range_ok(land->base, land->limit, land->align, r))
        return (lg_list_changed){*land, LG_ANSWER_REQUEST, {0, 0}};
    node below = node_at(land, words, s.below), above = above_spot(land, words, below);
    if (list_overlaps(below, above, r))
        return (lg_list_changed){*land, LG_ANSWER_OVERLAP, {0, 0}};
    lg_range all = list_put(land, words, below, above, r);
    note_list(land);
    return (lg_list_changed){*land, LG_ANSWER_OK, all};
}

INLINE lg_list_changed list_delete(lg_list_land *land, uint64_t *words, size_t n, lg_range r) {
    spot s;
    if (!list_set_up_ok(land, n))
        return (lg_list_changed){*land, LG_ANSWER_SET_UP, {0, 0}};
    if (!list_seek(land, words, n, r.base + 1, NULL, &s))
        return (lg_list_changed){*land, LG_ANSWER_DAMAGED, {0, 0}};
    if (!range_ok(land->base, land->limit, land->align, r))
        return (lg_list_changed){*land, LG_ANSWER_REQUEST, {0, 0}};
    node met = node_at(land, words, s.below);
    if (r.limit > met.limit)
        return (lg_list_changed){*land, LG_ANSWER_OVERLAP, {0, 0}};
    list_take(land, words, s.before, met, r);
    note_list(land);
    return (lg_list_changed){*land, LG_ANSWER_OK, {met.base, met.limit}};
}

INLINE lg_list_changed list_walk_on(lg_list_land *land, const uint64_t *words, size_t n, uint64_t from) {
    spot s;
    if (!list_set_up_ok(land, n))
        return (lg_list_changed){*land, LG_ANSWER_SET_UP, {0, 0}};
    if (!list_seek(land, words, n, from, NULL, &s))
        return (lg_list_changed){*land, LG_ANSWER_DAMAGED, {0, 0}};
    return list_walked(land, above_spot(land, words, node_at(land, words, s.below)));
}

lg_list_changed b_list_insert(lg_list_land land, uint64_t *words, size_t n, lg_range r) {
    return list_insert(&land, words, n, r);
}

lg_list_changed b_list_delete(lg_list_land land, uint64_t *words, size_t n, lg_range r) {
    return list_delete(&land, words, n, r);
}

lg_list_changed b_list_walk(lg_list_land land, const uint64_t *words, size_t n, uint64_t from) {
    return list_walk_on(&land, words, n, from);
}

lg_list_changed b_list_insert_at(lg_list_land *land, uint64_t *words, size_t n, lg_range r) {
    return list_insert(land, words, n, r);
}

lg_list_changed b_list_delete_at(lg_list_land *land, uint64_t *words, size_t n, lg_range r) {
    return list_delete(land, words, n, r);
}

lg_list_changed b_list_walk_at(lg_list_land *land, const uint64_t *words, size_t n, uint64_t from) {
    return list_walk_on(land, words, n, from);
}

INLINE lg_list_found list_find_in(lg_list_land *land, uint64_t *words, size_t n, uint64_t size, uint64_t mode, int sort) {
    spot s;
    if (!list_set_up_ok(land, n))
        return (lg_list_found){*land, LG_ANSWER_SET_UP, {0, 0}, {0, 0}};
    if (!list_find(land, words, n, size, sort, NULL, &s))
        return (lg_list_found){*land, LG_ANSWER_DAMAGED, {0, 0}, {0, 0}};
    return list_found(land, words, s.before, node_at(land, words, s.below), size, mode, sort);
}

lg_list_found b_list_find_first(lg_list_land land, uint64_t *words, size_t n, uint64_t size, uint64_t mode) {
    return list_find_in(&land, words, n, size, mode, FIRST);
}

lg_list_found b_list_find_last(lg_list_land land, uint64_t *words, size_t n, uint64_t size, uint64_t mode) {
    return list_find_in(&land, words, n, size, mode, LAST);
}

lg_list_found b_list_find_largest(lg_list_land land, uint64_t *words, size_t n, uint64_t size, uint64_t mode) {
    return list_find_in(&land, words, n, size, mode, LARGEST);
}

/* Both lands. */

lg_flushed b_flush(lg_list_land list, const uint64_t *words, size_t n, lg_block_land block, uint64_t *nodes, size_t m) {
    lg_pair pair = {list, block};
    spot s;
    if (!pair_set_up_ok(&pair, n, m))
        return (lg_flushed){list, block, LG_ANSWER_SET_UP, 0, 0};
    if (!table_ok(&block, nodes, m) || !list_seek(&list, words, n, 0, NULL, &s))
        return (lg_flushed){list, block, LG_ANSWER_DAMAGED, 0, 0};
    return flushed(&pair, words, nodes, m, pairs_below(&block, nodes, list.head));
}

/* Pair. The table is judged first; then the list is walked once, beside it. */

static inline beside beside_list(const lg_block_land *land, const uint64_t *nodes) {
    return (beside){nodes, nodes + 2 * land->ranges, 0};
}

/* The last range of the list below an address. Answers 0 if a land is not sound or they overlap. */
INLINE int pair_seek(const lg_pair *pair, const uint64_t *words, size_t n, const uint64_t *nodes, size_t m,
                     uint64_t address, spot *s) {
    if (!table_ok(&pair->block, nodes, m))
        return 0;
    beside t = beside_list(&pair->block, nodes);
    return list_seek(&pair->list, words, n, address, &t, s) && !t.overlaps;
}

lg_pair_changed b_pair_insert(lg_pair pair, uint64_t *words, size_t n, uint64_t *nodes, size_t m, lg_range r) {
    spot s;
    if (!pair_set_up_ok(&pair, n, m))
        return (lg_pair_changed){pair, LG_ANSWER_SET_UP, {0, 0}};
    if (!pair_seek(&pair, words, n, nodes, m, r.base, &s))
        return (lg_pair_changed){pair, LG_ANSWER_DAMAGED, {0, 0}};
    if (!range_ok(pair.list.base, pair.list.limit, pair.list.align, r))
        return (lg_pair_changed){pair, LG_ANSWER_REQUEST, {0, 0}};
    node below = node_at(&pair.list, words, s.below), above = above_spot(&pair.list, words, below);
    size_t i = pairs_below(&pair.block, nodes, r.base);
    if (list_overlaps(below, above, r) || table_overlaps(&pair.block, nodes, i, r))
        return (lg_pair_changed){pair, LG_ANSWER_OVERLAP, {0, 0}};
    size_t head_place = pair.list.head == 0 ? 0 : pairs_below(&pair.block, nodes, pair.list.head);
    return pair_put(&pair, words, nodes, m, below, above, i, head_place, r);
}

lg_pair_changed b_pair_delete(lg_pair pair, uint64_t *words, size_t n, uint64_t *nodes, size_t m, lg_range r) {
    spot s;
    if (!pair_set_up_ok(&pair, n, m))
        return (lg_pair_changed){pair, LG_ANSWER_SET_UP, {0, 0}};
    if (!pair_seek(&pair, words, n, nodes, m, r.base + 1, &s))
        return (lg_pair_changed){pair, LG_ANSWER_DAMAGED, {0, 0}};
    if (!range_ok(pair.list.base, pair.list.limit, pair.list.align, r))
        return (lg_pair_changed){pair, LG_ANSWER_REQUEST, {0, 0}};
    node met = node_at(&pair.list, words, s.below);
    size_t behind = pairs_below(&pair.block, nodes, r.base + 1);
    return pair_deleted(&pair, words, nodes, m, s.before, met, behind, r);
}

INLINE lg_pair_found pair_find(lg_pair *pair, uint64_t *words, size_t n, uint64_t *nodes, size_t m, uint64_t size,
                               uint64_t mode, int sort) {
    spot s;
    if (!pair_set_up_ok(pair, n, m))
        return (lg_pair_found){*pair, LG_ANSWER_SET_UP, {0, 0}, {0, 0}};
    if (!table_ok(&pair->block, nodes, m))
        return (lg_pair_found){*pair, LG_ANSWER_DAMAGED, {0, 0}, {0, 0}};
    beside t = beside_list(&pair->block, nodes);
    if (!list_find(&pair->list, words, n, size, sort, &t, &s) || t.overlaps)
        return (lg_pair_found){*pair, LG_ANSWER_DAMAGED, {0, 0}, {0, 0}};
    node met = node_at(&pair->list, words, s.below);
    size_t i = table_find(&pair->block, nodes, size, sort);
    return pair_found(pair, words, nodes, s.before, met, i, size, mode, sort);
}

lg_pair_found b_pair_find_first(lg_pair pair, uint64_t *words, size_t n, uint64_t *nodes, size_t m, uint64_t size,
                                uint64_t mode) {
    return pair_find(&pair, words, n, nodes, m, size, mode, FIRST);
}

lg_pair_found b_pair_find_last(lg_pair pair, uint64_t *words, size_t n, uint64_t *nodes, size_t m, uint64_t size,
                               uint64_t mode) {
    return pair_find(&pair, words, n, nodes, m, size, mode, LAST);
}

lg_pair_found b_pair_find_largest(lg_pair pair, uint64_t *words, size_t n, uint64_t *nodes, size_t m, uint64_t size,
                                  uint64_t mode) {
    return pair_find(&pair, words, n, nodes, m, size, mode, LARGEST);
}
