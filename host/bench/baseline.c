/* The calls that the bench measures, written by hand: same ABI, same checks in the same order and same words as the proved
 * ones, and one pass over the ranges a call, left at the first range that is not sound. */
#include "baseline.h"

/* List land. */

typedef struct {
    const uint64_t *words;
    uint64_t base, limit, mask;
    uint64_t at;   /* the base to go on with, 0 at the end */
    uint64_t past; /* which must be above this */
    uint64_t ranges, bytes;
} list_walk;

static inline list_walk walk_from_head(const lg_list_land *land, const uint64_t *words) {
    return (list_walk){words, land->base, land->limit, land->align - 1, land->head, land->base - 1, 0, 0};
}

/* Reads the range at w->at, not 0. Answers 0 if it is not sound. */
static inline int step(list_walk *w, node *met) {
    uint64_t a = w->at;
    if (a <= w->past || a >= w->limit || (a & w->mask) != 0)
        return 0;
    size_t i = (a - w->base) / 8;
    uint64_t first = w->words[i], limit, next;
    if ((first & 1) != 0) {
        limit = a + 8;
        next = first - 1;
    } else {
        if (w->limit - a < 16)
            return 0;
        limit = w->words[i + 1];
        if (limit < a + 16 || limit > w->limit)
            return 0;
        next = first;
    }
    if ((limit & w->mask) != 0)
        return 0;
    *met = (node){a, limit, next};
    w->at = met->next;
    w->past = limit;
    w->ranges++;
    w->bytes += limit - a;
    return 1;
}

/* Walks to the end and compares the counts. */
static inline int rest_ok(list_walk *w, const lg_list_land *land) {
    node met;
    while (w->at != 0)
        if (!step(w, &met))
            return 0;
    return w->ranges == land->ranges && w->bytes == land->bytes;
}

lg_list_changed c_list_insert(lg_list_land land, uint64_t *words, size_t n, lg_range r) {
    if (!list_set_up_ok(&land, n))
        return (lg_list_changed){land, LG_ANSWER_SET_UP, {0, 0}};
    if (!list_handle_ok(&land))
        return (lg_list_changed){land, LG_ANSWER_DAMAGED, {0, 0}};
    list_walk w = walk_from_head(&land, words);
    node below = {0, 0, 0}, above = {0, 0, 0};
    while (w.at != 0 && w.at < r.base)
        if (!step(&w, &below))
            return (lg_list_changed){land, LG_ANSWER_DAMAGED, {0, 0}};
    if (w.at != 0 && !step(&w, &above))
        return (lg_list_changed){land, LG_ANSWER_DAMAGED, {0, 0}};
    if (!rest_ok(&w, &land))
        return (lg_list_changed){land, LG_ANSWER_DAMAGED, {0, 0}};
    if (!range_ok(land.base, land.limit, land.align, r))
        return (lg_list_changed){land, LG_ANSWER_REQUEST, {0, 0}};
    if (list_overlaps(below, above, r))
        return (lg_list_changed){land, LG_ANSWER_OVERLAP, {0, 0}};
    lg_range all = list_put(&land, words, below, above, r);
    note_list(&land);
    return (lg_list_changed){land, LG_ANSWER_OK, all};
}

lg_list_changed c_list_delete(lg_list_land land, uint64_t *words, size_t n, lg_range r) {
    if (!list_set_up_ok(&land, n))
        return (lg_list_changed){land, LG_ANSWER_SET_UP, {0, 0}};
    if (!list_handle_ok(&land))
        return (lg_list_changed){land, LG_ANSWER_DAMAGED, {0, 0}};
    list_walk w = walk_from_head(&land, words);
    node met = {0, 0, 0};
    uint64_t below = 0;
    while (w.at != 0 && w.at <= r.base) {
        below = met.base;
        if (!step(&w, &met))
            return (lg_list_changed){land, LG_ANSWER_DAMAGED, {0, 0}};
    }
    if (!rest_ok(&w, &land))
        return (lg_list_changed){land, LG_ANSWER_DAMAGED, {0, 0}};
    if (!range_ok(land.base, land.limit, land.align, r))
        return (lg_list_changed){land, LG_ANSWER_REQUEST, {0, 0}};
    if (r.limit > met.limit)
        return (lg_list_changed){land, LG_ANSWER_OVERLAP, {0, 0}};
    list_take(&land, words, below, met, r);
    note_list(&land);
    return (lg_list_changed){land, LG_ANSWER_OK, {met.base, met.limit}};
}

lg_list_changed c_list_walk(lg_list_land land, const uint64_t *words, size_t n, uint64_t from) {
    if (!list_set_up_ok(&land, n))
        return (lg_list_changed){land, LG_ANSWER_SET_UP, {0, 0}};
    if (!list_handle_ok(&land))
        return (lg_list_changed){land, LG_ANSWER_DAMAGED, {0, 0}};
    list_walk w = walk_from_head(&land, words);
    node met = {0, 0, 0};
    while (w.at != 0 && w.at < from)
        if (!step(&w, &met))
            return (lg_list_changed){land, LG_ANSWER_DAMAGED, {0, 0}};
    met = (node){0, 0, 0};
    if ((w.at != 0 && !step(&w, &met)) || !rest_ok(&w, &land))
        return (lg_list_changed){land, LG_ANSWER_DAMAGED, {0, 0}};
    return list_walked(&land, met);
}

lg_list_changed c_list_insert_at(lg_list_land *land, uint64_t *words, size_t n, lg_range r) {
    lg_list_changed changed = c_list_insert(*land, words, n, r);
    *land = changed.land;
    return changed;
}

lg_list_changed c_list_delete_at(lg_list_land *land, uint64_t *words, size_t n, lg_range r) {
    lg_list_changed changed = c_list_delete(*land, words, n, r);
    *land = changed.land;
    return changed;
}

lg_list_changed c_list_walk_at(lg_list_land *land, const uint64_t *words, size_t n, uint64_t from) {
    lg_list_changed changed = c_list_walk(*land, words, n, from);
    *land = changed.land;
    return changed;
}

lg_list_found c_list_find_first(lg_list_land land, uint64_t *words, size_t n, uint64_t size, uint64_t mode) {
    if (!list_set_up_ok(&land, n))
        return (lg_list_found){land, LG_ANSWER_SET_UP, {0, 0}, {0, 0}};
    if (!list_handle_ok(&land))
        return (lg_list_found){land, LG_ANSWER_DAMAGED, {0, 0}, {0, 0}};
    list_walk w = walk_from_head(&land, words);
    node met = {0, 0, 0};
    uint64_t below = 0;
    int found = 0;
    while (w.at != 0 && !found) {
        below = met.base;
        if (!step(&w, &met))
            return (lg_list_found){land, LG_ANSWER_DAMAGED, {0, 0}, {0, 0}};
        found = met.limit - met.base >= size;
    }
    if (!rest_ok(&w, &land))
        return (lg_list_found){land, LG_ANSWER_DAMAGED, {0, 0}, {0, 0}};
    if (!found)
        met = (node){0, 0, 0};
    return list_found(&land, words, below, met, size, mode, FIRST);
}

/* Find last and find largest, which keep a range and go on. */
INLINE lg_list_found list_keep(lg_list_land land, uint64_t *words, size_t n, uint64_t size, uint64_t mode, int sort) {
    if (!list_set_up_ok(&land, n))
        return (lg_list_found){land, LG_ANSWER_SET_UP, {0, 0}, {0, 0}};
    if (!list_handle_ok(&land))
        return (lg_list_found){land, LG_ANSWER_DAMAGED, {0, 0}, {0, 0}};
    list_walk w = walk_from_head(&land, words);
    node met = {0, 0, 0}, kept = {0, 0, 0};
    uint64_t below = 0;
    while (w.at != 0) {
        uint64_t before = met.base;
        if (!step(&w, &met))
            return (lg_list_found){land, LG_ANSWER_DAMAGED, {0, 0}, {0, 0}};
        uint64_t length = met.limit - met.base;
        if (length >= size && (sort == LAST || length > kept.limit - kept.base)) {
            kept = met;
            below = before;
        }
    }
    if (!rest_ok(&w, &land))
        return (lg_list_found){land, LG_ANSWER_DAMAGED, {0, 0}, {0, 0}};
    return list_found(&land, words, below, kept, size, mode, sort);
}

lg_list_found c_list_find_last(lg_list_land land, uint64_t *words, size_t n, uint64_t size, uint64_t mode) {
    return list_keep(land, words, n, size, mode, LAST);
}

lg_list_found c_list_find_largest(lg_list_land land, uint64_t *words, size_t n, uint64_t size, uint64_t mode) {
    return list_keep(land, words, n, size, mode, LARGEST);
}

/* Block land. */

typedef struct {
    const uint64_t *at, *end; /* the pair to go on with, and the end of the pairs */
    uint64_t past;            /* the limit of the pair before */
    uint64_t bits;            /* all addresses or-ed together */
    uint64_t bases, limits;   /* their sums */
} table_scan;

static inline table_scan scan_from_first(const lg_block_land *land, const uint64_t *nodes) {
    return (table_scan){nodes, nodes + 2 * land->ranges, land->base - 1, 0, 0, 0};
}

/* Reads one pair. Answers 0 if it is empty or does not stand apart from the pair before. */
static inline int scan_pair(table_scan *s) {
    uint64_t base = s->at[0], limit = s->at[1];
    if (base <= s->past || limit <= base)
        return 0;
    s->bits |= base | limit;
    s->bases += base;
    s->limits += limit;
    s->past = limit;
    s->at += 2;
    return 1;
}

/* Scans the other pairs and the zero tail. Limits ascend, so the last one alone is compared with the arena's. */
static inline int table_ok(table_scan *s, const lg_block_land *land, const uint64_t *nodes, size_t m) {
    while (s->at != s->end)
        if (!scan_pair(s))
            return 0;
    uint64_t tail = 0;
    for (size_t k = 2 * land->ranges; k < (m & ~(size_t)1); k++)
        tail |= nodes[k];
    return (s->bits & (land->align - 1)) == 0 && s->past <= land->limit &&
           s->limits - s->bases == land->bytes && tail == 0;
}

/* Scans the pairs whose base is below an address. */
static inline int scan_below(table_scan *s, uint64_t address) {
    while (s->at != s->end && s->at[0] < address)
        if (!scan_pair(s))
            return 0;
    return 1;
}

lg_block_changed c_block_insert(lg_block_land land, uint64_t *nodes, size_t m, lg_range r) {
    if (!block_set_up_ok(&land, m))
        return (lg_block_changed){land, LG_ANSWER_SET_UP, {0, 0}};
    if (!block_handle_ok(&land, m))
        return (lg_block_changed){land, LG_ANSWER_DAMAGED, {0, 0}};
    table_scan s = scan_from_first(&land, nodes);
    while (s.at != s.end && s.at[0] < r.base)
        if (!scan_pair(&s))
            return (lg_block_changed){land, LG_ANSWER_DAMAGED, {0, 0}};
    size_t i = (size_t)(s.at - nodes) / 2;
    if (!table_ok(&s, &land, nodes, m))
        return (lg_block_changed){land, LG_ANSWER_DAMAGED, {0, 0}};
    if (!range_ok(land.base, land.limit, land.align, r))
        return (lg_block_changed){land, LG_ANSWER_REQUEST, {0, 0}};
    if (table_overlaps(&land, nodes, i, r))
        return (lg_block_changed){land, LG_ANSWER_OVERLAP, {0, 0}};
    lg_range all;
    if (!block_put(&land, nodes, m, i, r, &all))
        return (lg_block_changed){land, LG_ANSWER_FULL, {0, 0}};
    note_block(&land);
    return (lg_block_changed){land, LG_ANSWER_OK, all};
}

lg_block_changed c_block_delete(lg_block_land land, uint64_t *nodes, size_t m, lg_range r) {
    if (!block_set_up_ok(&land, m))
        return (lg_block_changed){land, LG_ANSWER_SET_UP, {0, 0}};
    if (!block_handle_ok(&land, m))
        return (lg_block_changed){land, LG_ANSWER_DAMAGED, {0, 0}};
    table_scan s = scan_from_first(&land, nodes);
    while (s.at != s.end && s.at[0] <= r.base)
        if (!scan_pair(&s))
            return (lg_block_changed){land, LG_ANSWER_DAMAGED, {0, 0}};
    size_t behind = (size_t)(s.at - nodes) / 2;
    if (!table_ok(&s, &land, nodes, m))
        return (lg_block_changed){land, LG_ANSWER_DAMAGED, {0, 0}};
    if (!range_ok(land.base, land.limit, land.align, r))
        return (lg_block_changed){land, LG_ANSWER_REQUEST, {0, 0}};
    if (behind == 0 || nodes[2 * behind - 1] < r.limit)
        return (lg_block_changed){land, LG_ANSWER_OVERLAP, {0, 0}};
    lg_range old = {nodes[2 * behind - 2], nodes[2 * behind - 1]};
    if (old.base < r.base && r.limit < old.limit && land.ranges == m / 2)
        return (lg_block_changed){land, LG_ANSWER_FULL, {0, 0}};
    block_take(&land, nodes, behind - 1, old, r);
    note_block(&land);
    return (lg_block_changed){land, LG_ANSWER_OK, old};
}

lg_block_changed c_block_walk(lg_block_land land, const uint64_t *nodes, size_t m, uint64_t from) {
    if (!block_set_up_ok(&land, m))
        return (lg_block_changed){land, LG_ANSWER_SET_UP, {0, 0}};
    if (!block_handle_ok(&land, m))
        return (lg_block_changed){land, LG_ANSWER_DAMAGED, {0, 0}};
    table_scan s = scan_from_first(&land, nodes);
    if (!scan_below(&s, from))
        return (lg_block_changed){land, LG_ANSWER_DAMAGED, {0, 0}};
    size_t i = (size_t)(s.at - nodes) / 2;
    if (!table_ok(&s, &land, nodes, m))
        return (lg_block_changed){land, LG_ANSWER_DAMAGED, {0, 0}};
    return block_walked(&land, nodes, i);
}

lg_block_found c_block_find_first(lg_block_land land, uint64_t *nodes, size_t m, uint64_t size, uint64_t mode) {
    if (!block_set_up_ok(&land, m))
        return (lg_block_found){land, LG_ANSWER_SET_UP, {0, 0}, {0, 0}};
    if (!block_handle_ok(&land, m))
        return (lg_block_found){land, LG_ANSWER_DAMAGED, {0, 0}, {0, 0}};
    table_scan s = scan_from_first(&land, nodes);
    while (s.at != s.end && s.at[1] - s.at[0] < size)
        if (!scan_pair(&s))
            return (lg_block_found){land, LG_ANSWER_DAMAGED, {0, 0}, {0, 0}};
    size_t i = (size_t)(s.at - nodes) / 2;
    if (!table_ok(&s, &land, nodes, m))
        return (lg_block_found){land, LG_ANSWER_DAMAGED, {0, 0}, {0, 0}};
    if (!find_ok(land.align, size, mode, FIRST))
        return (lg_block_found){land, LG_ANSWER_REQUEST, {0, 0}, {0, 0}};
    if (i == land.ranges)
        return (lg_block_found){land, LG_ANSWER_NONE, {0, 0}, {0, 0}};
    lg_range old = {nodes[2 * i], nodes[2 * i + 1]}, taken = part(old, size, mode, FIRST);
    if (mode != LG_MODE_NONE) {
        block_take(&land, nodes, i, old, taken);
        note_block(&land);
    }
    return (lg_block_found){land, LG_ANSWER_OK, taken, old};
}

/* What a find of the last or the largest has met in a table. */
typedef struct {
    size_t i; /* its number, or that of all pairs */
    uint64_t length;
} kept_pair;

/* Scans pairs below an address and keeps what the find is for. Answers 0 if one is not sound. */
INLINE int scan_keep(table_scan *s, const uint64_t *nodes, uint64_t address, uint64_t size, int sort, kept_pair *kept) {
    while (s->at != s->end && s->at[0] < address) {
        uint64_t length = s->at[1] - s->at[0];
        if (length >= size && (sort == LAST || length > kept->length))
            *kept = (kept_pair){(size_t)(s->at - nodes) / 2, length};
        if (!scan_pair(s))
            return 0;
    }
    return 1;
}

INLINE lg_block_found block_keep(lg_block_land land, uint64_t *nodes, size_t m, uint64_t size, uint64_t mode, int sort) {
    if (!block_set_up_ok(&land, m))
        return (lg_block_found){land, LG_ANSWER_SET_UP, {0, 0}, {0, 0}};
    if (!block_handle_ok(&land, m))
        return (lg_block_found){land, LG_ANSWER_DAMAGED, {0, 0}, {0, 0}};
    table_scan s = scan_from_first(&land, nodes);
    kept_pair kept = {land.ranges, 0};
    if (!scan_keep(&s, nodes, UINT64_MAX, size, sort, &kept) || !table_ok(&s, &land, nodes, m))
        return (lg_block_found){land, LG_ANSWER_DAMAGED, {0, 0}, {0, 0}};
    return block_found(&land, nodes, kept.i, size, mode, sort);
}

lg_block_found c_block_find_last(lg_block_land land, uint64_t *nodes, size_t m, uint64_t size, uint64_t mode) {
    return block_keep(land, nodes, m, size, mode, LAST);
}

lg_block_found c_block_find_largest(lg_block_land land, uint64_t *nodes, size_t m, uint64_t size, uint64_t mode) {
    return block_keep(land, nodes, m, size, mode, LARGEST);
}

/* Both lands. */

lg_flushed c_flush(lg_list_land list, const uint64_t *words, size_t n, lg_block_land block, uint64_t *nodes, size_t m) {
    lg_pair pair = {list, block};
    if (!pair_set_up_ok(&pair, n, m))
        return (lg_flushed){list, block, LG_ANSWER_SET_UP, 0, 0};
    if (!pair_handle_ok(&pair, m))
        return (lg_flushed){list, block, LG_ANSWER_DAMAGED, 0, 0};
    list_walk w = walk_from_head(&list, words);
    table_scan s = scan_from_first(&block, nodes);
    if (!rest_ok(&w, &list) || !table_ok(&s, &block, nodes, m))
        return (lg_flushed){list, block, LG_ANSWER_DAMAGED, 0, 0};
    return flushed(&pair, words, nodes, m, pairs_below(&block, nodes, list.head));
}

/* Pair. */

/* Both lands, read once and merged in address order. */
typedef struct {
    list_walk list;
    table_scan table;
    const uint64_t *head_place; /* the first pair above the list's first range */
} merge;

static inline merge merge_from_first(const lg_pair *pair, const uint64_t *words, const uint64_t *nodes) {
    return (merge){walk_from_head(&pair->list, words), scan_from_first(&pair->block, nodes), nodes};
}

/* Scans the pairs below a range of the list. Answers 0 if one is not sound or a byte is in both. */
static inline int catch_up(table_scan *s, node met) {
    return scan_below(s, met.base) && s->past <= met.base && (s->at == s->end || s->at[0] >= met.limit);
}

/* Reads the next range of the list, and the pairs below it. */
static inline int merge_step(merge *g, node *met) {
    if (!step(&g->list, met) || !catch_up(&g->table, *met))
        return 0;
    if (g->list.ranges == 1)
        g->head_place = g->table.at;
    return 1;
}

/* Reads both lands to the end and compares the counts. */
static inline int merge_ok(merge *g, const lg_pair *pair, const uint64_t *nodes, size_t m) {
    node met;
    while (g->list.at != 0)
        if (!merge_step(g, &met))
            return 0;
    return g->list.ranges == pair->list.ranges && g->list.bytes == pair->list.bytes &&
           table_ok(&g->table, &pair->block, nodes, m);
}

lg_pair_changed c_pair_insert(lg_pair pair, uint64_t *words, size_t n, uint64_t *nodes, size_t m, lg_range r) {
    if (!pair_set_up_ok(&pair, n, m))
        return (lg_pair_changed){pair, LG_ANSWER_SET_UP, {0, 0}};
    if (!pair_handle_ok(&pair, m))
        return (lg_pair_changed){pair, LG_ANSWER_DAMAGED, {0, 0}};
    merge g = merge_from_first(&pair, words, nodes);
    node below = {0, 0, 0}, above = {0, 0, 0};
    while (g.list.at != 0 && g.list.at < r.base)
        if (!merge_step(&g, &below))
            return (lg_pair_changed){pair, LG_ANSWER_DAMAGED, {0, 0}};
    if (!scan_below(&g.table, r.base))
        return (lg_pair_changed){pair, LG_ANSWER_DAMAGED, {0, 0}};
    size_t i = (size_t)(g.table.at - nodes) / 2;
    if ((g.list.at != 0 && !merge_step(&g, &above)) || !merge_ok(&g, &pair, nodes, m))
        return (lg_pair_changed){pair, LG_ANSWER_DAMAGED, {0, 0}};
    if (!range_ok(pair.list.base, pair.list.limit, pair.list.align, r))
        return (lg_pair_changed){pair, LG_ANSWER_REQUEST, {0, 0}};
    if (list_overlaps(below, above, r) || table_overlaps(&pair.block, nodes, i, r))
        return (lg_pair_changed){pair, LG_ANSWER_OVERLAP, {0, 0}};

    uint64_t before = pair.list.ranges;
    if (before != 0)
        flush(&pair, words, nodes, m, (size_t)(g.head_place - nodes) / 2, 1);
    if (pair.list.ranges != before) {
        i = pairs_below(&pair.block, nodes, r.base);
        if (pair.list.head == 0 || below.base < pair.list.head) {
            below = (node){0, 0, 0};
            above = node_at(&pair.list, words, pair.list.head);
        }
    }
    lg_range all;
    if (!block_put(&pair.block, nodes, m, i, r, &all))
        all = list_put(&pair.list, words, below, above, r);
    note_pair(&pair);
    return (lg_pair_changed){pair, LG_ANSWER_OK, all};
}

lg_pair_changed c_pair_delete(lg_pair pair, uint64_t *words, size_t n, uint64_t *nodes, size_t m, lg_range r) {
    if (!pair_set_up_ok(&pair, n, m))
        return (lg_pair_changed){pair, LG_ANSWER_SET_UP, {0, 0}};
    if (!pair_handle_ok(&pair, m))
        return (lg_pair_changed){pair, LG_ANSWER_DAMAGED, {0, 0}};
    merge g = merge_from_first(&pair, words, nodes);
    node met = {0, 0, 0};
    uint64_t below = 0;
    while (g.list.at != 0 && g.list.at <= r.base) {
        below = met.base;
        if (!merge_step(&g, &met))
            return (lg_pair_changed){pair, LG_ANSWER_DAMAGED, {0, 0}};
    }
    while (g.table.at != g.table.end && g.table.at[0] <= r.base)
        if (!scan_pair(&g.table))
            return (lg_pair_changed){pair, LG_ANSWER_DAMAGED, {0, 0}};
    size_t behind = (size_t)(g.table.at - nodes) / 2;
    if (!merge_ok(&g, &pair, nodes, m))
        return (lg_pair_changed){pair, LG_ANSWER_DAMAGED, {0, 0}};
    if (!range_ok(pair.list.base, pair.list.limit, pair.list.align, r))
        return (lg_pair_changed){pair, LG_ANSWER_REQUEST, {0, 0}};
    if (r.limit <= met.limit) {
        list_take(&pair.list, words, below, met, r);
        note_list(&pair.list);
        return (lg_pair_changed){pair, LG_ANSWER_OK, {met.base, met.limit}};
    }
    if (behind == 0 || nodes[2 * behind - 1] < r.limit) {
        node from = met.base != 0 ? met : node_at(&pair.list, words, pair.list.head);
        int free = all_free(&pair, words, nodes, from, behind - (behind > 0), r);
        return (lg_pair_changed){pair, free ? LG_ANSWER_IN_BOTH : LG_ANSWER_OVERLAP, {0, 0}};
    }
    lg_range old = {nodes[2 * behind - 2], nodes[2 * behind - 1]};
    if (old.base < r.base && r.limit < old.limit && pair.block.ranges == m / 2)
        hand_over(&pair, words, nodes, behind - 1, met, r);
    else
        block_take(&pair.block, nodes, behind - 1, old, r);
    note_block(&pair.block);
    return (lg_pair_changed){pair, LG_ANSWER_OK, old};
}

/* Where a find came to rest: in a range of the list, at a pair, or nowhere. */
typedef struct {
    int in_list;
    uint64_t below; /* the base of the range before `met` */
    node met;
    const uint64_t *pair; /* or NULL */
} found_place;

/* Scans pairs below an address until one has the size: that one, or NULL. */
static inline const uint64_t *scan_shorter(table_scan *s, uint64_t address, uint64_t size, int *sound) {
    while (s->at != s->end && s->at[0] < address) {
        if (s->at[1] - s->at[0] >= size)
            return s->at;
        if (!scan_pair(s)) {
            *sound = 0;
            return NULL;
        }
    }
    return NULL;
}

/* Merges as far as the first range, in either land, that has the size. Answers 0 if something is not sound. */
static inline int merge_shorter(merge *g, uint64_t size, found_place *f) {
    int sound = 1;
    while (g->list.at != 0 && !f->in_list && f->pair == NULL) {
        f->below = f->met.base;
        if (!step(&g->list, &f->met))
            return 0;
        f->pair = scan_shorter(&g->table, f->met.base, size, &sound);
        f->in_list = f->pair == NULL && f->met.limit - f->met.base >= size;
        if (!sound || !catch_up(&g->table, f->met))
            return 0;
    }
    if (!f->in_list && f->pair == NULL)
        f->pair = scan_shorter(&g->table, UINT64_MAX, size, &sound);
    return sound;
}

lg_pair_found c_pair_find_first(lg_pair pair, uint64_t *words, size_t n, uint64_t *nodes, size_t m, uint64_t size,
                                uint64_t mode) {
    if (!pair_set_up_ok(&pair, n, m))
        return (lg_pair_found){pair, LG_ANSWER_SET_UP, {0, 0}, {0, 0}};
    if (!pair_handle_ok(&pair, m))
        return (lg_pair_found){pair, LG_ANSWER_DAMAGED, {0, 0}, {0, 0}};
    merge g = merge_from_first(&pair, words, nodes);
    found_place f = {0, 0, {0, 0, 0}, NULL};
    if (!merge_shorter(&g, size, &f) || !merge_ok(&g, &pair, nodes, m))
        return (lg_pair_found){pair, LG_ANSWER_DAMAGED, {0, 0}, {0, 0}};
    if (!find_ok(pair.list.align, size, mode, FIRST))
        return (lg_pair_found){pair, LG_ANSWER_REQUEST, {0, 0}, {0, 0}};
    if (!f.in_list && f.pair == NULL)
        return (lg_pair_found){pair, LG_ANSWER_NONE, {0, 0}, {0, 0}};
    lg_range old = f.in_list ? (lg_range){f.met.base, f.met.limit} : (lg_range){f.pair[0], f.pair[1]};
    lg_range taken = part(old, size, mode, FIRST);
    if (mode != LG_MODE_NONE && f.in_list) {
        list_take(&pair.list, words, f.below, f.met, taken);
        note_list(&pair.list);
    } else if (mode != LG_MODE_NONE) {
        block_take(&pair.block, nodes, (size_t)(f.pair - nodes) / 2, old, taken);
        note_block(&pair.block);
    }
    return (lg_pair_found){pair, LG_ANSWER_OK, taken, old};
}

/* Reads the next range of the list, and the pairs below it, and keeps what a find of the last or the largest is for. */
INLINE int merge_keep(merge *g, const uint64_t *nodes, uint64_t size, int sort, node *met, kept_pair *kept) {
    return step(&g->list, met) && scan_keep(&g->table, nodes, met->base, size, sort, kept) && catch_up(&g->table, *met);
}

INLINE lg_pair_found pair_keep(lg_pair pair, uint64_t *words, size_t n, uint64_t *nodes, size_t m, uint64_t size,
                               uint64_t mode, int sort) {
    if (!pair_set_up_ok(&pair, n, m))
        return (lg_pair_found){pair, LG_ANSWER_SET_UP, {0, 0}, {0, 0}};
    if (!pair_handle_ok(&pair, m))
        return (lg_pair_found){pair, LG_ANSWER_DAMAGED, {0, 0}, {0, 0}};
    merge g = merge_from_first(&pair, words, nodes);
    node met = {0, 0, 0}, listed = {0, 0, 0};
    uint64_t below = 0;
    kept_pair kept = {pair.block.ranges, 0};
    while (g.list.at != 0) {
        uint64_t before = met.base;
        if (!merge_keep(&g, nodes, size, sort, &met, &kept))
            return (lg_pair_found){pair, LG_ANSWER_DAMAGED, {0, 0}, {0, 0}};
        uint64_t length = met.limit - met.base;
        if (length >= size && (sort == LAST || length > listed.limit - listed.base)) {
            listed = met;
            below = before;
        }
    }
    if (!scan_keep(&g.table, nodes, UINT64_MAX, size, sort, &kept) || !merge_ok(&g, &pair, nodes, m))
        return (lg_pair_found){pair, LG_ANSWER_DAMAGED, {0, 0}, {0, 0}};
    return pair_found(&pair, words, nodes, below, listed, kept.i, size, mode, sort);
}

lg_pair_found c_pair_find_last(lg_pair pair, uint64_t *words, size_t n, uint64_t *nodes, size_t m, uint64_t size,
                               uint64_t mode) {
    return pair_keep(pair, words, n, nodes, m, size, mode, LAST);
}

lg_pair_found c_pair_find_largest(lg_pair pair, uint64_t *words, size_t n, uint64_t *nodes, size_t m, uint64_t size,
                                  uint64_t mode) {
    return pair_keep(pair, words, n, nodes, m, size, mode, LARGEST);
}
