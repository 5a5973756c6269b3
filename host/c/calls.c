/* Every function of the header by itself: on memory, so that each field of its result is compared by its name with a number
 * of its own, and on NULL with 0 words. Then low water, the marks that are answered 6, and a full table. */
#include <inttypes.h>
#include <stdio.h>
#include <string.h>

#include "limbegoru.h"

#define WORDS 64

/* The structs that are returned, as lists of words. */
enum kind {
    LIST_OPENED,
    LIST_CHANGED,
    LIST_FOUND,
    BLOCK_OPENED,
    BLOCK_CHANGED,
    BLOCK_FOUND,
    FLUSHED,
    PAIR_CHANGED,
    PAIR_FOUND,
    KINDS
};

static const size_t lengths[KINDS] = {9, 11, 13, 8, 10, 12, 18, 18, 20};
static unsigned char apart[KINDS][20][20]; /* whether two words were expected to differ */
static int failed;

static void expect(const char *what, uint64_t is, uint64_t wanted) {
    if (is != wanted) {
        printf("%s: %" PRIu64 ", expected %" PRIu64 "\n", what, is, wanted);
        failed = 1;
    }
}

static void note_apart(enum kind kind, const uint64_t *wanted) {
    size_t n = lengths[kind];
    for (size_t at = 0; at < n * n; at++)
        if (wanted[at / n] != wanted[at % n])
            apart[kind][at / n][at % n] = 1;
}

static void compare(enum kind kind, const char *call, const uint64_t *got, const uint64_t *wanted, size_t count) {
    expect("the number of words expected", count, lengths[kind]);
    for (size_t at = 0; at < lengths[kind]; at++) {
        if (got[at] != wanted[at])
            printf("%s: word %zu\n", call, at);
        expect("  it", got[at], wanted[at]);
    }
    note_apart(kind, wanted);
}

/* Two words of a struct never differed: then an exchange of their fields would go unseen. An opening leaves all words of a
 * handle from the fourth on 0: the head, the counts, the mark and low water; those of the other structs show them. */
static void expect_apart(enum kind kind) {
    size_t n = lengths[kind], counts = kind == LIST_OPENED ? 8 : kind == BLOCK_OPENED ? 7 : 0;
    for (size_t at = 0; at < n * n; at++) {
        size_t one = at / n, other = at % n;
        int zero = one >= 3 && other >= 3 && one < counts && other < counts;
        if (one != other && !zero && !apart[kind][one][other]) {
            printf("struct %d: words %zu and %zu were alike in every result\n", (int)kind, one, other);
            failed = 1;
        }
    }
}

static uint64_t *put_list(uint64_t *to, lg_list_land land) {
    const uint64_t fields[] = {land.base, land.limit, land.align, land.head, land.ranges, land.bytes, land.filled, land.low};
    memcpy(to, fields, sizeof fields);
    return to + 8;
}

static uint64_t *put_block(uint64_t *to, lg_block_land land) {
    const uint64_t fields[] = {land.base, land.limit, land.align, land.ranges, land.bytes, land.filled, land.low};
    memcpy(to, fields, sizeof fields);
    return to + 7;
}

static uint64_t *put_range(uint64_t *to, lg_range range) {
    to[0] = range.base;
    to[1] = range.limit;
    return to + 2;
}

static uint64_t *put_number(uint64_t *to, uint64_t number) {
    *to = number;
    return to + 1;
}

static lg_list_land list_opened(const char *call, lg_list_opened got, const uint64_t *wanted, size_t count) {
    uint64_t words[9];
    put_number(put_list(words, got.land), got.answer);
    compare(LIST_OPENED, call, words, wanted, count);
    return got.land;
}

static lg_list_land list_changed(const char *call, lg_list_changed got, const uint64_t *wanted, size_t count) {
    uint64_t words[11];
    put_range(put_number(put_list(words, got.land), got.answer), got.range);
    compare(LIST_CHANGED, call, words, wanted, count);
    return got.land;
}

static lg_list_land list_found(const char *call, lg_list_found got, const uint64_t *wanted, size_t count) {
    uint64_t words[13];
    put_range(put_range(put_number(put_list(words, got.land), got.answer), got.range), got.old);
    compare(LIST_FOUND, call, words, wanted, count);
    return got.land;
}

static lg_block_land block_opened(const char *call, lg_block_opened got, const uint64_t *wanted, size_t count) {
    uint64_t words[8];
    put_number(put_block(words, got.land), got.answer);
    compare(BLOCK_OPENED, call, words, wanted, count);
    return got.land;
}

static lg_block_land block_changed(const char *call, lg_block_changed got, const uint64_t *wanted, size_t count) {
    uint64_t words[10];
    put_range(put_number(put_block(words, got.land), got.answer), got.range);
    compare(BLOCK_CHANGED, call, words, wanted, count);
    return got.land;
}

static lg_block_land block_found(const char *call, lg_block_found got, const uint64_t *wanted, size_t count) {
    uint64_t words[12];
    put_range(put_range(put_number(put_block(words, got.land), got.answer), got.range), got.old);
    compare(BLOCK_FOUND, call, words, wanted, count);
    return got.land;
}

static lg_pair flushed(const char *call, lg_flushed got, const uint64_t *wanted, size_t count) {
    uint64_t words[18];
    put_number(put_number(put_number(put_block(put_list(words, got.list), got.block), got.answer), got.moved), got.stop);
    compare(FLUSHED, call, words, wanted, count);
    lg_pair pair = {got.list, got.block};
    return pair;
}

static lg_pair pair_changed(const char *call, lg_pair_changed got, const uint64_t *wanted, size_t count) {
    uint64_t words[18];
    put_range(put_number(put_block(put_list(words, got.pair.list), got.pair.block), got.answer), got.range);
    compare(PAIR_CHANGED, call, words, wanted, count);
    return got.pair;
}

static lg_pair pair_found(const char *call, lg_pair_found got, const uint64_t *wanted, size_t count) {
    uint64_t words[20], *behind = put_block(put_list(words, got.pair.list), got.pair.block);
    put_range(put_range(put_number(behind, got.answer), got.range), got.old);
    compare(PAIR_FOUND, call, words, wanted, count);
    return got.pair;
}

/* Compares a result with the words expected, and keeps the next handle. */
#define EXPECT(handle, kind, call, ...)                                  \
    do {                                                                 \
        static const uint64_t wanted[] = {__VA_ARGS__};                  \
        handle = kind(#call, call, wanted, sizeof wanted / sizeof *wanted); \
    } while (0)

static const lg_range small = {4160, 4176}, large = {4320, 4400}, hole = {4328, 4352}, tail = {4384, 4400};

static void by_list(void) {
    static uint64_t words[WORDS];
    lg_list_land land;
    EXPECT(land, list_opened, lg_list_open(4096, 4608, 24, words, WORDS), 0, 0, 0, 0, 0, 0, 0, 0, 5);
    EXPECT(land, list_opened, lg_list_open(4096, 4608, 8, words, WORDS), 4096, 4608, 8, 0, 0, 0, 0, 0, 0);
    EXPECT(land, list_changed, lg_list_insert(land, words, WORDS, large),
           4096, 4608, 8, 4320, 1, 80, 1, 80, 0, 4320, 4400);
    EXPECT(land, list_changed, lg_list_insert(land, words, WORDS, small),
           4096, 4608, 8, 4160, 2, 96, 1, 80, 0, 4160, 4176);
    EXPECT(land, list_changed, lg_list_walk(land, words, WORDS, 4161),
           4096, 4608, 8, 4160, 2, 96, 1, 80, 0, 4320, 4400);
    EXPECT(land, list_changed, lg_list_delete(land, words, WORDS, hole),
           4096, 4608, 8, 4160, 3, 72, 1, 72, 0, 4320, 4400);
    EXPECT(land, list_found, lg_list_find_first(land, words, WORDS, 24, LG_MODE_LOW),
           4096, 4608, 8, 4160, 3, 48, 1, 48, 0, 4352, 4376, 4352, 4400);
    EXPECT(land, list_found, lg_list_find_last(land, words, WORDS, 16, LG_MODE_HIGH),
           4096, 4608, 8, 4160, 3, 32, 1, 32, 0, 4384, 4400, 4376, 4400);
    EXPECT(land, list_changed, lg_list_insert(land, words, WORDS, tail),
           4096, 4608, 8, 4160, 3, 48, 1, 32, 0, 4376, 4400);
    EXPECT(land, list_found, lg_list_find_largest(land, words, WORDS, 16, LG_MODE_NONE),
           4096, 4608, 8, 4160, 3, 48, 1, 32, 0, 4376, 4400, 4376, 4400);
}

/* The handle behind the pointer becomes the one returned. */
static void by_pointer(void) {
    static uint64_t words[WORDS];
    lg_list_land at, next;
    EXPECT(at, list_opened, lg_list_open(4096, 4608, 8, words, WORDS), 4096, 4608, 8, 0, 0, 0, 0, 0, 0);
    EXPECT(next, list_changed, lg_list_insert_at(&at, words, WORDS, large),
           4096, 4608, 8, 4320, 1, 80, 1, 80, 0, 4320, 4400);
    expect("stored by a first lg_list_insert_at", memcmp(&at, &next, sizeof at) == 0, 1);
    EXPECT(next, list_changed, lg_list_insert_at(&at, words, WORDS, small),
           4096, 4608, 8, 4160, 2, 96, 1, 80, 0, 4160, 4176);
    expect("stored by lg_list_insert_at", memcmp(&at, &next, sizeof at) == 0, 1);
    EXPECT(next, list_changed, lg_list_walk_at(&at, words, WORDS, 4161),
           4096, 4608, 8, 4160, 2, 96, 1, 80, 0, 4320, 4400);
    expect("stored by lg_list_walk_at", memcmp(&at, &next, sizeof at) == 0, 1);
    EXPECT(next, list_changed, lg_list_delete_at(&at, words, WORDS, hole),
           4096, 4608, 8, 4160, 3, 72, 1, 72, 0, 4320, 4400);
    expect("stored by lg_list_delete_at", memcmp(&at, &next, sizeof at) == 0, 1);
}

static void by_block(void) {
    static uint64_t nodes[6];
    lg_block_land land;
    EXPECT(land, block_opened, lg_block_open(4096, 4608, 24, nodes, 6), 0, 0, 0, 0, 0, 0, 0, 5);
    EXPECT(land, block_opened, lg_block_open(4096, 4608, 8, nodes, 6), 4096, 4608, 8, 0, 0, 0, 0, 0);
    EXPECT(land, block_changed, lg_block_insert(land, nodes, 6, large), 4096, 4608, 8, 1, 80, 1, 80, 0, 4320, 4400);
    EXPECT(land, block_changed, lg_block_insert(land, nodes, 6, small), 4096, 4608, 8, 2, 96, 1, 80, 0, 4160, 4176);
    EXPECT(land, block_changed, lg_block_walk(land, nodes, 6, 4161), 4096, 4608, 8, 2, 96, 1, 80, 0, 4320, 4400);
    EXPECT(land, block_changed, lg_block_delete(land, nodes, 6, hole), 4096, 4608, 8, 3, 72, 1, 72, 0, 4320, 4400);
    EXPECT(land, block_found, lg_block_find_first(land, nodes, 6, 24, LG_MODE_LOW),
           4096, 4608, 8, 3, 48, 1, 48, 0, 4352, 4376, 4352, 4400);
    EXPECT(land, block_found, lg_block_find_last(land, nodes, 6, 16, LG_MODE_HIGH),
           4096, 4608, 8, 3, 32, 1, 32, 0, 4384, 4400, 4376, 4400);
    EXPECT(land, block_changed, lg_block_insert(land, nodes, 6, tail), 4096, 4608, 8, 3, 48, 1, 32, 0, 4376, 4400);
    EXPECT(land, block_found, lg_block_find_largest(land, nodes, 6, 16, LG_MODE_NONE),
           4096, 4608, 8, 3, 48, 1, 32, 0, 4376, 4400, 4376, 4400);
}

/* A list of three ranges and a block land with room for five, which holds three. */
static void by_flush(void) {
    static uint64_t words[WORDS], nodes[10] = {4096, 4104, 4112, 4128, 4480, 4600};
    const lg_list_land none = {4096, 4608, 8, 0, 0, 0, 0, 0};
    const lg_block_land block = {4096, 4608, 8, 3, 144, 1, 100}, other = {8192, 16384, 64, 4, 48, 0, 40};
    const lg_range last = {4416, 4440};
    lg_list_land land;
    lg_pair pair;
    EXPECT(land, list_changed, lg_list_insert(none, words, WORDS, large),
           4096, 4608, 8, 4320, 1, 80, 1, 80, 0, 4320, 4400);
    EXPECT(land, list_changed, lg_list_insert(land, words, WORDS, small),
           4096, 4608, 8, 4160, 2, 96, 1, 80, 0, 4160, 4176);
    EXPECT(land, list_changed, lg_list_insert(land, words, WORDS, last),
           4096, 4608, 8, 4160, 3, 120, 1, 80, 0, 4416, 4440);
    EXPECT(pair, flushed, lg_flush(land, words, WORDS, other, nodes, 10),
           4096, 4608, 8, 4160, 3, 120, 1, 80, 8192, 16384, 64, 4, 48, 0, 40, 5, 0, 0);
    EXPECT(pair, flushed, lg_flush(pair.list, words, WORDS, block, nodes, 10),
           4096, 4608, 8, 4416, 1, 24, 1, 24, 4096, 4608, 8, 5, 240, 1, 100, 0, 2, 3);
}

/* Node space for two ranges. A pair of two arenas is refused, and shows the fields of the handles apart. */
static void by_pair(void) {
    static uint64_t words[WORDS], nodes[4];
    const lg_pair two = {{4096, 4608, 8, 4160, 3, 120, 1, 80}, {8192, 16384, 64, 1, 48, 0, 40}};
    const lg_range end = {4480, 4600}, middle = {4496, 4504};
    lg_pair pair = {{4096, 4608, 8, 0, 0, 0, 0, 0}, {4096, 4608, 8, 0, 0, 0, 0}}, refused;
    EXPECT(refused, pair_changed, lg_pair_insert(two, words, WORDS, nodes, 4, small),
           4096, 4608, 8, 4160, 3, 120, 1, 80, 8192, 16384, 64, 1, 48, 0, 40, 5, 0, 0);
    EXPECT(refused, pair_found, lg_pair_find_first(two, words, WORDS, nodes, 4, 8, LG_MODE_LOW),
           4096, 4608, 8, 4160, 3, 120, 1, 80, 8192, 16384, 64, 1, 48, 0, 40, 5, 0, 0, 0, 0);
    expect("refused, the handles come back", memcmp(&refused, &two, sizeof two) == 0, 1);
    EXPECT(pair, pair_changed, lg_pair_insert(pair, words, WORDS, nodes, 4, small),
           4096, 4608, 8, 0, 0, 0, 0, 0, 4096, 4608, 8, 1, 16, 1, 16, 0, 4160, 4176);
    EXPECT(pair, pair_changed, lg_pair_insert(pair, words, WORDS, nodes, 4, end),
           4096, 4608, 8, 0, 0, 0, 0, 0, 4096, 4608, 8, 2, 136, 1, 16, 0, 4480, 4600);
    EXPECT(pair, pair_changed, lg_pair_insert(pair, words, WORDS, nodes, 4, large),
           4096, 4608, 8, 4320, 1, 80, 1, 80, 4096, 4608, 8, 2, 136, 1, 16, 0, 4320, 4400);
    EXPECT(pair, pair_changed, lg_pair_delete(pair, words, WORDS, nodes, 4, middle),
           4096, 4608, 8, 4320, 2, 176, 1, 80, 4096, 4608, 8, 2, 32, 1, 16, 0, 4480, 4600);
    EXPECT(pair, pair_found, lg_pair_find_first(pair, words, WORDS, nodes, 4, 24, LG_MODE_HIGH),
           4096, 4608, 8, 4320, 2, 152, 1, 80, 4096, 4608, 8, 2, 32, 1, 16, 0, 4376, 4400, 4320, 4400);
    EXPECT(pair, pair_found, lg_pair_find_last(pair, words, WORDS, nodes, 4, 40, LG_MODE_LOW),
           4096, 4608, 8, 4320, 2, 112, 1, 80, 4096, 4608, 8, 2, 32, 1, 16, 0, 4504, 4544, 4504, 4600);
    EXPECT(pair, pair_found, lg_pair_find_largest(pair, words, WORDS, nodes, 4, 8, LG_MODE_ENTIRE),
           4096, 4608, 8, 4544, 1, 56, 1, 56, 4096, 4608, 8, 2, 32, 1, 16, 0, 4320, 4376, 4320, 4376);
}

static void list_on_nothing(void) {
    lg_list_land none, at;
    EXPECT(none, list_opened, lg_list_open(4096, 4096, 8, NULL, 0), 4096, 4096, 8, 0, 0, 0, 0, 0, 0);
    EXPECT(none, list_changed, lg_list_insert(none, NULL, 0, small), 4096, 4096, 8, 0, 0, 0, 0, 0, 4, 0, 0);
    EXPECT(none, list_changed, lg_list_delete(none, NULL, 0, small), 4096, 4096, 8, 0, 0, 0, 0, 0, 4, 0, 0);
    EXPECT(none, list_found, lg_list_find_first(none, NULL, 0, 8, 1), 4096, 4096, 8, 0, 0, 0, 0, 0, 2, 0, 0, 0, 0);
    EXPECT(none, list_found, lg_list_find_last(none, NULL, 0, 8, 1), 4096, 4096, 8, 0, 0, 0, 0, 0, 2, 0, 0, 0, 0);
    EXPECT(none, list_found, lg_list_find_largest(none, NULL, 0, 0, 4), 4096, 4096, 8, 0, 0, 0, 0, 0, 4, 0, 0, 0, 0);
    EXPECT(none, list_changed, lg_list_walk(none, NULL, 0, 0), 4096, 4096, 8, 0, 0, 0, 0, 0, 2, 0, 0);
    at = none;
    EXPECT(none, list_changed, lg_list_insert_at(&at, NULL, 0, small), 4096, 4096, 8, 0, 0, 0, 0, 0, 4, 0, 0);
    EXPECT(none, list_changed, lg_list_delete_at(&at, NULL, 0, small), 4096, 4096, 8, 0, 0, 0, 0, 0, 4, 0, 0);
    EXPECT(none, list_changed, lg_list_walk_at(&at, NULL, 0, 0), 4096, 4096, 8, 0, 0, 0, 0, 0, 2, 0, 0);
    expect("stored on no words", memcmp(&at, &none, sizeof at) == 0, 1);
}

static void block_on_nothing(void) {
    lg_block_land none;
    EXPECT(none, block_opened, lg_block_open(4096, 4608, 8, NULL, 0), 4096, 4608, 8, 0, 0, 0, 0, 0);
    EXPECT(none, block_changed, lg_block_insert(none, NULL, 0, small), 4096, 4608, 8, 0, 0, 0, 0, 3, 0, 0);
    EXPECT(none, block_changed, lg_block_delete(none, NULL, 0, small), 4096, 4608, 8, 0, 0, 0, 0, 1, 0, 0);
    EXPECT(none, block_found, lg_block_find_first(none, NULL, 0, 8, 1), 4096, 4608, 8, 0, 0, 0, 0, 2, 0, 0, 0, 0);
    EXPECT(none, block_found, lg_block_find_last(none, NULL, 0, 8, 1), 4096, 4608, 8, 0, 0, 0, 0, 2, 0, 0, 0, 0);
    EXPECT(none, block_found, lg_block_find_largest(none, NULL, 0, 0, 4), 4096, 4608, 8, 0, 0, 0, 0, 4, 0, 0, 0, 0);
    EXPECT(none, block_changed, lg_block_walk(none, NULL, 0, 0), 4096, 4608, 8, 0, 0, 0, 0, 2, 0, 0);
}

static void two_on_nothing(void) {
    lg_pair none = {{4096, 4096, 8, 0, 0, 0, 0, 0}, {4096, 4096, 8, 0, 0, 0, 0}};
    EXPECT(none, flushed, lg_flush(none.list, NULL, 0, none.block, NULL, 0),
           4096, 4096, 8, 0, 0, 0, 0, 0, 4096, 4096, 8, 0, 0, 0, 0, 0, 0, 0);
    EXPECT(none, pair_changed, lg_pair_insert(none, NULL, 0, NULL, 0, small),
           4096, 4096, 8, 0, 0, 0, 0, 0, 4096, 4096, 8, 0, 0, 0, 0, 4, 0, 0);
    EXPECT(none, pair_changed, lg_pair_delete(none, NULL, 0, NULL, 0, small),
           4096, 4096, 8, 0, 0, 0, 0, 0, 4096, 4096, 8, 0, 0, 0, 0, 4, 0, 0);
    EXPECT(none, pair_found, lg_pair_find_first(none, NULL, 0, NULL, 0, 8, 1),
           4096, 4096, 8, 0, 0, 0, 0, 0, 4096, 4096, 8, 0, 0, 0, 0, 2, 0, 0, 0, 0);
    EXPECT(none, pair_found, lg_pair_find_last(none, NULL, 0, NULL, 0, 8, 1),
           4096, 4096, 8, 0, 0, 0, 0, 0, 4096, 4096, 8, 0, 0, 0, 0, 2, 0, 0, 0, 0);
    EXPECT(none, pair_found, lg_pair_find_largest(none, NULL, 0, NULL, 0, 0, 4),
           4096, 4096, 8, 0, 0, 0, 0, 0, 4096, 4096, 8, 0, 0, 0, 0, 4, 0, 0, 0, 0);
}

/* Node space for one range. Each land is read once, after the whole call on the pair: the inner flush of the last insert
 * empties the list, and its low water stays. */
static void low_water_of_a_pair(void) {
    static uint64_t words[WORDS], nodes[2];
    const lg_range one = {4096, 4104}, two = {4112, 4128}, three = {4136, 4152};
    lg_pair pair = {{4096, 4608, 8, 0, 0, 0, 0, 0}, {4096, 4608, 8, 0, 0, 0, 0}};
    EXPECT(pair, pair_changed, lg_pair_insert(pair, words, WORDS, nodes, 2, one),
           4096, 4608, 8, 0, 0, 0, 0, 0, 4096, 4608, 8, 1, 8, 1, 8, 0, 4096, 4104);
    EXPECT(pair, pair_changed, lg_pair_insert(pair, words, WORDS, nodes, 2, two),
           4096, 4608, 8, 4112, 1, 16, 1, 16, 4096, 4608, 8, 1, 8, 1, 8, 0, 4112, 4128);
    EXPECT(pair, pair_changed, lg_pair_delete(pair, words, WORDS, nodes, 2, one),
           4096, 4608, 8, 4112, 1, 16, 1, 16, 4096, 4608, 8, 0, 0, 1, 0, 0, 4096, 4104);
    EXPECT(pair, pair_changed, lg_pair_insert(pair, words, WORDS, nodes, 2, three),
           4096, 4608, 8, 4136, 1, 16, 1, 16, 4096, 4608, 8, 1, 16, 1, 0, 0, 4136, 4152);
}

/* A list that is not empty beside a block land that was just opened: what the inner flush moves and what is inserted are one
 * number of bytes, and the list stays empty. */
static void low_water_of_an_inner_flush(void) {
    static uint64_t words[WORDS], nodes[4];
    const lg_range one = {4096, 4112}, two = {4120, 4128};
    const lg_list_land list = {4096, 4608, 8, 0, 0, 0, 0, 0};
    lg_pair pair = {lg_list_insert(list, words, WORDS, one).land, {4096, 4608, 8, 0, 0, 0, 0}};
    EXPECT(pair, pair_changed, lg_pair_insert(pair, words, WORDS, nodes, 4, two),
           4096, 4608, 8, 0, 0, 0, 1, 0, 4096, 4608, 8, 2, 24, 1, 24, 0, 4120, 4128);
}

/* Node space for one range. Of calls that take bytes out of one land of a pair, only that land's low water sinks; the upper
 * end that goes to the list sets its mark. */
static void low_water_of_each_land(void) {
    static uint64_t words[WORDS], nodes[2];
    const lg_range all = {4096, 4200}, middle = {4112, 4120}, end = {4120, 4128};
    lg_pair pair = {{4096, 4608, 8, 0, 0, 0, 0, 0}, {4096, 4608, 8, 0, 0, 0, 0}};
    EXPECT(pair, pair_changed, lg_pair_insert(pair, words, WORDS, nodes, 2, all),
           4096, 4608, 8, 0, 0, 0, 0, 0, 4096, 4608, 8, 1, 104, 1, 104, 0, 4096, 4200);
    EXPECT(pair, pair_found, lg_pair_find_last(pair, words, WORDS, nodes, 2, 40, LG_MODE_HIGH),
           4096, 4608, 8, 0, 0, 0, 0, 0, 4096, 4608, 8, 1, 64, 1, 64, 0, 4160, 4200, 4096, 4200);
    EXPECT(pair, pair_changed, lg_pair_delete(pair, words, WORDS, nodes, 2, middle),
           4096, 4608, 8, 4120, 1, 40, 1, 40, 4096, 4608, 8, 1, 16, 1, 16, 0, 4096, 4160);
    EXPECT(pair, pair_changed, lg_pair_delete(pair, words, WORDS, nodes, 2, end),
           4096, 4608, 8, 4128, 1, 32, 1, 32, 4096, 4608, 8, 1, 16, 1, 16, 0, 4120, 4160);
    EXPECT(pair, pair_found, lg_pair_find_first(pair, words, WORDS, nodes, 2, 8, LG_MODE_HIGH),
           4096, 4608, 8, 4128, 1, 32, 1, 32, 4096, 4608, 8, 1, 8, 1, 8, 0, 4104, 4112, 4096, 4112);
    EXPECT(pair, pair_found, lg_pair_find_last(pair, words, WORDS, nodes, 2, 8, LG_MODE_LOW),
           4096, 4608, 8, 4136, 1, 24, 1, 24, 4096, 4608, 8, 1, 8, 1, 8, 0, 4128, 4136, 4128, 4160);
    EXPECT(pair, pair_found, lg_pair_find_first(pair, words, WORDS, nodes, 2, 16, LG_MODE_LOW),
           4096, 4608, 8, 4152, 1, 8, 1, 8, 4096, 4608, 8, 1, 8, 1, 8, 0, 4136, 4152, 4136, 4160);
    EXPECT(pair, pair_found, lg_pair_find_largest(pair, words, WORDS, nodes, 2, 0, LG_MODE_ENTIRE),
           4096, 4608, 8, 4152, 1, 8, 1, 8, 4096, 4608, 8, 0, 0, 1, 0, 0, 4096, 4104, 4096, 4104);
}

/* A flush is one call on each land. Three ranges of 8, 16 and 24 bytes fill the table; then a flush moves none, since the
 * list is empty, and none, since the table is full. */
static void low_water_of_a_flush(void) {
    static uint64_t words[WORDS], nodes[6];
    const lg_range ranges[] = {{4096, 4104}, {4112, 4128}, {4136, 4160}, {4176, 4208}};
    const lg_block_land block = {4096, 4608, 8, 0, 0, 0, 0};
    lg_list_land list = {4096, 4608, 8, 0, 0, 0, 0, 0};
    lg_pair pair;
    for (int at = 0; at < 3; at++)
        list = lg_list_insert(list, words, WORDS, ranges[at]).land;
    EXPECT(pair, flushed, lg_flush(list, words, WORDS, block, nodes, 6),
           4096, 4608, 8, 0, 0, 0, 1, 0, 4096, 4608, 8, 3, 48, 1, 48, 0, 3, 0);
    EXPECT(pair, flushed, lg_flush(pair.list, words, WORDS, pair.block, nodes, 6),
           4096, 4608, 8, 0, 0, 0, 1, 0, 4096, 4608, 8, 3, 48, 1, 48, 0, 0, 0);
    list = lg_list_insert(pair.list, words, WORDS, ranges[3]).land;
    EXPECT(pair, flushed, lg_flush(list, words, WORDS, pair.block, nodes, 6),
           4096, 4608, 8, 4176, 1, 32, 1, 0, 4096, 4608, 8, 3, 48, 1, 48, 0, 0, 3);
}

/* Of calls on one handle: 6 is every answer, or none if the handle is sound. */
static void expect_sound(const char *what, const uint64_t *answers, size_t count, int sound) {
    for (size_t at = 0; at < count; at++)
        expect(what, answers[at] == LG_ANSWER_DAMAGED, !sound);
}

static const lg_range empty = {0, 0};

/* Every call on a list land that holds the first 16 bytes of the arena or none of them. No call changes it. */
static void list_marked(lg_list_land land, int sound) {
    static uint64_t words[WORDS] = {0, 4112};
    lg_list_land at = land;
    const uint64_t answers[] = {
        lg_list_insert(land, words, WORDS, empty).answer,
        lg_list_delete(land, words, WORDS, empty).answer,
        lg_list_find_first(land, words, WORDS, 8, LG_MODE_NONE).answer,
        lg_list_find_last(land, words, WORDS, 8, LG_MODE_NONE).answer,
        lg_list_find_largest(land, words, WORDS, 8, LG_MODE_NONE).answer,
        lg_list_walk(land, words, WORDS, 0).answer,
        lg_list_insert_at(&at, words, WORDS, empty).answer,
        lg_list_delete_at(&at, words, WORDS, empty).answer,
        lg_list_walk_at(&at, words, WORDS, 0).answer,
    };
    expect_sound("6 for the mark of a list land", answers, sizeof answers / sizeof *answers, sound);
    expect("a marked handle stored", memcmp(&at, &land, sizeof at) == 0, 1);
}

/* The same of a block land with room for one range. */
static void block_marked(lg_block_land land, int sound) {
    uint64_t nodes[2] = {land.ranges * 4096, land.ranges * 4112};
    const uint64_t answers[] = {
        lg_block_insert(land, nodes, 2, empty).answer,
        lg_block_delete(land, nodes, 2, empty).answer,
        lg_block_find_first(land, nodes, 2, 8, LG_MODE_NONE).answer,
        lg_block_find_last(land, nodes, 2, 8, LG_MODE_NONE).answer,
        lg_block_find_largest(land, nodes, 2, 8, LG_MODE_NONE).answer,
        lg_block_walk(land, nodes, 2, 0).answer,
    };
    expect_sound("6 for the mark of a block land", answers, sizeof answers / sizeof *answers, sound);
}

/* The same of a pair, of which at most one land holds the 16 bytes, and a flush, which may move them. */
static void two_marked(lg_pair pair, int sound) {
    uint64_t words[WORDS] = {0, 4112}, nodes[2] = {pair.block.ranges * 4096, pair.block.ranges * 4112};
    const uint64_t answers[] = {
        lg_pair_insert(pair, words, WORDS, nodes, 2, empty).answer,
        lg_pair_delete(pair, words, WORDS, nodes, 2, empty).answer,
        lg_pair_find_first(pair, words, WORDS, nodes, 2, 8, LG_MODE_NONE).answer,
        lg_pair_find_last(pair, words, WORDS, nodes, 2, 8, LG_MODE_NONE).answer,
        lg_pair_find_largest(pair, words, WORDS, nodes, 2, 8, LG_MODE_NONE).answer,
    };
    expect_sound("6 for the mark of one land of a pair", answers, sizeof answers / sizeof *answers, sound);
    const uint64_t answer = lg_flush(pair.list, words, WORDS, pair.block, nodes, 2).answer;
    expect_sound("6 for the mark of one land of a flush", &answer, 1, sound);
}

/* Marks and low waters beside 0 and 16 free bytes. */
static void marks(void) {
    static const struct {
        uint64_t bytes, filled, low;
        int sound;
    } cases[] = {
        {0, 0, 0, 1}, {0, 1, 0, 1}, {0, 0, 8, 0}, {0, 1, 1, 0}, {0, 2, 0, 0}, {0, UINT64_MAX, 0, 0},
        {16, 1, 0, 1}, {16, 1, 16, 1}, {16, 1, 17, 0}, {16, 1, UINT64_MAX, 0},
        {16, 0, 0, 0}, {16, 0, 16, 0}, {16, 2, 16, 0}, {16, 257, 8, 0},
    };
    const lg_pair opened = {{4096, 4608, 8, 0, 0, 0, 0, 0}, {4096, 4608, 8, 0, 0, 0, 0}};
    for (size_t at = 0; at < sizeof cases / sizeof *cases; at++) {
        uint64_t bytes = cases[at].bytes, ranges = bytes / 16, filled = cases[at].filled, low = cases[at].low;
        lg_list_land list = {4096, 4608, 8, 4096 * ranges, ranges, bytes, filled, low};
        lg_block_land block = {4096, 4608, 8, ranges, bytes, filled, low};
        lg_pair listed = {list, opened.block}, tabled = {opened.list, block};
        list_marked(list, cases[at].sound);
        block_marked(block, cases[at].sound);
        two_marked(listed, cases[at].sound);
        two_marked(tabled, cases[at].sound);
    }
}

/* The handles come back where the mark is refused. */
static void handles_of_refused_marks(void) {
    static uint64_t words[WORDS], nodes[2];
    const lg_list_land list = {4096, 4608, 8, 0, 0, 0, 2, 8};
    const lg_block_land block = {4096, 4608, 8, 0, 0, 3, 16};
    lg_pair pair = {list, block};
    lg_list_land next_list;
    lg_block_land next_block;
    EXPECT(next_list, list_changed, lg_list_insert(list, words, WORDS, small), 4096, 4608, 8, 0, 0, 0, 2, 8, 6, 0, 0);
    EXPECT(next_block, block_changed, lg_block_insert(block, nodes, 2, small), 4096, 4608, 8, 0, 0, 3, 16, 6, 0, 0);
    EXPECT(pair, flushed, lg_flush(next_list, words, WORDS, next_block, nodes, 2),
           4096, 4608, 8, 0, 0, 0, 2, 8, 4096, 4608, 8, 0, 0, 3, 16, 6, 0, 0);
    EXPECT(pair, pair_changed, lg_pair_insert(pair, words, WORDS, nodes, 2, small),
           4096, 4608, 8, 0, 0, 0, 2, 8, 4096, 4608, 8, 0, 0, 3, 16, 6, 0, 0);
}

/* A table with no room for another range: every find is accepted in every mode, an insert apart and a delete inside are not. */
static void full_table(void) {
    const lg_block_land full = {4096, 4608, 8, 1, 64, 1, 64};
    const lg_range inside = {4112, 4128}, away = {4200, 4208};
    for (uint64_t mode = LG_MODE_NONE; mode <= LG_MODE_ENTIRE; mode++) {
        uint64_t first[2] = {4096, 4160}, last[2] = {4096, 4160}, largest[2] = {4096, 4160};
        expect("find first at a full table", lg_block_find_first(full, first, 2, 16, mode).answer, LG_ANSWER_OK);
        expect("find last", lg_block_find_last(full, last, 2, 16, mode).answer, LG_ANSWER_OK);
        expect("find largest", lg_block_find_largest(full, largest, 2, 16, mode).answer, LG_ANSWER_OK);
        expect("what low leaves begins at", first[0], mode == LG_MODE_LOW ? 4112 : mode == LG_MODE_ENTIRE ? 0 : 4096);
        expect("what high leaves ends at", last[1], mode == LG_MODE_HIGH ? 4144 : mode == LG_MODE_ENTIRE ? 0 : 4160);
    }
    uint64_t nodes[2] = {4096, 4160};
    expect("delete inside", lg_block_delete(full, nodes, 2, inside).answer, LG_ANSWER_FULL);
    expect("insert apart", lg_block_insert(full, nodes, 2, away).answer, LG_ANSWER_FULL);
}

/* What is only read may lie in memory that cannot be written: a constant. */
static void on_constants(void) {
    static const uint64_t words[WORDS] = {0, 4112}, nodes[2] = {4096, 4112};
    static uint64_t table[2];
    const lg_list_land list = {4096, 4608, 8, 4096, 1, 16, 1, 16};
    const lg_block_land full = {4096, 4608, 8, 1, 16, 1, 16}, none = {4096, 4608, 8, 0, 0, 0, 0};
    lg_list_land at = list;
    expect("opening on a constant", lg_list_open(4096, 4608, 8, words, WORDS).answer, LG_ANSWER_OK);
    expect("list walk on a constant", lg_list_walk(list, words, WORDS, 0).range.limit, 4112);
    expect("list walk by a pointer on a constant", lg_list_walk_at(&at, words, WORDS, 0).range.limit, 4112);
    expect("block walk on a constant", lg_block_walk(full, nodes, 2, 0).range.limit, 4112);
    expect("flush of a constant", lg_flush(list, words, WORDS, none, table, 2).moved, 1);
}

/* The constants of the header are the last numbers that are accepted. */
static void limits(void) {
    static uint64_t nodes[LG_NODE_WORDS_MAX + 1];
    const uint64_t base = LG_ALIGN_MAX, top = LG_LIMIT_MAX, step = LG_ALIGN_MIN;
    expect("highest limit", lg_block_open(base, top, step, nodes, 2).answer, LG_ANSWER_OK);
    expect("one more", lg_block_open(base, top + step, step, nodes, 2).answer, LG_ANSWER_SET_UP);
    expect("half the lowest alignment", lg_block_open(base, top, step / 2, nodes, 2).answer, LG_ANSWER_SET_UP);
    expect("highest alignment", lg_block_open(base, top, LG_ALIGN_MAX, nodes, 2).answer, LG_ANSWER_OK);
    expect("twice that", lg_block_open(2 * base, top, 2 * LG_ALIGN_MAX, nodes, 2).answer, LG_ANSWER_SET_UP);
    expect("longest node space", lg_block_open(base, top, step, nodes, LG_NODE_WORDS_MAX).answer, LG_ANSWER_OK);
    expect("a word more", lg_block_open(base, top, step, nodes, LG_NODE_WORDS_MAX + 1).answer, LG_ANSWER_SET_UP);
}

static void texts(void) {
    for (uint64_t one = LG_ANSWER_OK; one <= LG_ANSWER_IN_BOTH; one++) {
        expect("an answer has a text", strcmp(lg_answer_text(one), lg_answer_text(UINT64_MAX)) != 0, 1);
        expect("and the next another", strcmp(lg_answer_text(one), lg_answer_text(one + 1)) != 0, 1);
    }
    expect("accepted", strcmp(lg_answer_text(LG_ANSWER_OK), "accepted"), 0);
    expect("no answer", strcmp(lg_answer_text(LG_ANSWER_IN_BOTH + 1), "no answer"), 0);
}

int main(void) {
    expect("lg_version", lg_version(), LG_VERSION);
    by_list();
    by_pointer();
    by_block();
    by_flush();
    by_pair();
    for (int kind = 0; kind < KINDS; kind++)
        expect_apart((enum kind)kind);
    list_on_nothing();
    block_on_nothing();
    two_on_nothing();
    low_water_of_a_pair();
    low_water_of_an_inner_flush();
    low_water_of_each_land();
    low_water_of_a_flush();
    marks();
    full_table();
    handles_of_refused_marks();
    on_constants();
    limits();
    texts();
    puts(failed ? "calls: failed" : "calls: every function, by its fields and on no words; low water, marks, a full table");
    return failed;
}
