/* A host that gives out parts of its own memory and takes them back, also twice, and reads how much it had to spare. */
#include <inttypes.h>
#include <stdio.h>

#include "limbegoru.h"

#define WORDS 64
#define BASE 4096u

static const lg_range all = {BASE, BASE + 8 * WORDS};
static uint64_t memory[WORDS];
static int failed;

static void expect(const char *what, uint64_t answer, uint64_t wanted) {
    printf("%s: %" PRIu64 "\n", what, answer);
    if (answer != wanted) {
        printf("  expected %" PRIu64 "\n", wanted);
        failed = 1;
    }
}

/* What a find found, and the free range that it was found in, which begins or ends elsewhere. */
static void found(const char *what, uint64_t answer, lg_range range, lg_range old) {
    expect(what, answer, LG_ANSWER_OK);
    printf("  %" PRIu64 " to %" PRIu64 ", of %" PRIu64 " to %" PRIu64 "\n", range.base, range.limit, old.base, old.limit);
    expect("  a part of it", range.limit - range.base < old.limit - old.base, 1);
}

/* Two paragraphs of 40 bytes; the first is released, and released again. */
static lg_list_land release_twice(lg_range *first, lg_range *second) {
    lg_list_opened opened = lg_list_open(all.base, all.limit, 8, memory, WORDS);
    expect("open", opened.answer, LG_ANSWER_OK);
    lg_list_changed changed = lg_list_insert(opened.land, memory, WORDS, all);
    expect("everything free", changed.answer, LG_ANSWER_OK);
    lg_list_found one = lg_list_find_first(changed.land, memory, WORDS, 40, LG_MODE_LOW);
    found("first paragraph", one.answer, one.range, one.old);
    lg_list_found two = lg_list_find_first(one.land, memory, WORDS, 40, LG_MODE_LOW);
    found("second paragraph", two.answer, two.range, two.old);
    expect("they do not overlap", one.range.limit <= two.range.base, 1);
    memory[(one.range.base - BASE) / 8] = UINT64_MAX; /* the host's own bytes */

    lg_list_changed released = lg_list_insert(two.land, memory, WORDS, one.range);
    expect("released", released.answer, LG_ANSWER_OK);
    lg_list_changed again = lg_list_insert(released.land, memory, WORDS, one.range);
    expect("released again", again.answer, LG_ANSWER_OVERLAP);
    expect("its range is empty", again.range.base + again.range.limit, 0);
    expect("low water, both paragraphs being out", again.land.low, all.limit - all.base - 80);
    *first = one.range;
    *second = two.range;
    return again.land;
}

/* No room, a size that is no multiple, an unknown mode, memory that is too short. */
static void refusals(lg_list_land land) {
    expect("too large", lg_list_find_last(land, memory, WORDS, 8 * WORDS, LG_MODE_LOW).answer, LG_ANSWER_NONE);
    expect("13 bytes", lg_list_find_last(land, memory, WORDS, 13, LG_MODE_LOW).answer, LG_ANSWER_REQUEST);
    expect("mode 4", lg_list_find_last(land, memory, WORDS, 8, 4).answer, LG_ANSWER_REQUEST);
    expect("memory cut short", lg_list_walk(land, memory, WORDS - 1, 0).answer, LG_ANSWER_SET_UP);
}

/* The ranges, then the same ranges in node space. */
static void walk_and_flush(lg_list_land land) {
    static uint64_t nodes[8];
    for (uint64_t from = 0;;) {
        lg_list_changed met = lg_list_walk(land, memory, WORDS, from);
        if (met.answer != LG_ANSWER_OK)
            break;
        printf("free: %" PRIu64 " to %" PRIu64 "\n", met.range.base, met.range.limit);
        from = met.range.limit;
    }
    lg_block_opened table = lg_block_open(all.base, all.limit, 8, nodes, 8);
    lg_flushed flushed = lg_flush(land, memory, WORDS, table.land, nodes, 8);
    expect("flushed", flushed.answer, LG_ANSWER_OK);
    expect("ranges moved", flushed.moved, 2);
    expect("the block land has them", flushed.block.ranges, 2);
    lg_block_found there = lg_block_find_last(flushed.block, nodes, 8, 16, LG_MODE_HIGH);
    found("found there", there.answer, there.range, there.old);
}

/* The handle inside a structure of the host's own. */
static lg_list_land release_in_place(lg_list_land land, lg_range paragraph) {
    struct document {
        lg_list_land land;
        lg_range paragraph;
    } document = {land, paragraph};
    expect("released in place", lg_list_insert_at(&document.land, memory, WORDS, document.paragraph).answer, LG_ANSWER_OK);
    lg_list_changed again = lg_list_insert_at(&document.land, memory, WORDS, document.paragraph);
    expect("released in place again", again.answer, LG_ANSWER_OVERLAP);
    expect("all is one range", lg_list_walk_at(&document.land, memory, WORDS, 0).range.limit, all.limit);
    expect("taken out in place", lg_list_delete_at(&document.land, memory, WORDS, document.paragraph).answer, LG_ANSWER_OK);
    expect("the handle counts the bytes", document.land.bytes, land.bytes);
    return document.land;
}

/* A pair with room for one range in node space: what has no room there is kept in the list. */
static void pair_of_lands(void) {
    static uint64_t words[WORDS], nodes[2];
    lg_range low = {BASE, BASE + 40}, gap = {BASE + 40, BASE + 80}, high = {BASE + 80, BASE + 96};
    lg_pair pair = {
        lg_list_open(all.base, all.limit, 8, words, WORDS).land,
        lg_block_open(all.base, all.limit, 8, nodes, 2).land,
    };
    pair = lg_pair_insert(pair, words, WORDS, nodes, 2, low).pair;
    lg_pair_changed kept = lg_pair_insert(pair, words, WORDS, nodes, 2, high);
    expect("released without room", kept.answer, LG_ANSWER_OK);
    expect("it is in the list", kept.pair.list.head, high.base);
    expect("released twice", lg_pair_insert(kept.pair, words, WORDS, nodes, 2, high).answer, LG_ANSWER_OVERLAP);
    kept = lg_pair_insert(kept.pair, words, WORDS, nodes, 2, gap);
    expect("the gap goes to the block land", kept.range.limit, gap.limit);
    lg_range across = {gap.base, high.limit};
    expect("taken across both lands", lg_pair_delete(kept.pair, words, WORDS, nodes, 2, across).answer, LG_ANSWER_IN_BOTH);
    lg_pair_found longest = lg_pair_find_largest(kept.pair, words, WORDS, nodes, 2, 0, LG_MODE_ENTIRE);
    expect("the longest ends at the gap's end", longest.range.limit, gap.limit);
    lg_pair_found first = lg_pair_find_first(longest.pair, words, WORDS, nodes, 2, 8, LG_MODE_LOW);
    found("then the list's is the first", first.answer, first.range, first.old);
    expect("it begins where the list's did", first.range.base, high.base);
    lg_pair_found last = lg_pair_find_last(first.pair, words, WORDS, nodes, 2, 8, LG_MODE_HIGH);
    expect("8 bytes were left", last.pair.list.bytes + last.pair.block.bytes, 0);
}

int main(void) {
    lg_range first, second;
    lg_list_land land = release_twice(&first, &second);
    refusals(land);
    walk_and_flush(land);
    land = release_in_place(land, second);
    pair_of_lands();

    /* A word of a free range is overwritten: the list is refused. */
    memory[(first.base - BASE) / 8] = 3;
    expect("scribbled on", lg_list_walk(land, memory, WORDS, 0).answer, LG_ANSWER_DAMAGED);
    return failed;
}
