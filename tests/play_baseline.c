// A straightforward C program that plays the same requests: lines by getline, fields by hand, a sorted array of ranges, answers by
// printf. tests/play_speed.py measures the proved program against it.
#include <inttypes.h>
#include <stdio.h>
#include <stdlib.h>
#include <string.h>
#include <sys/types.h>

typedef struct {
    uint64_t base, limit;
} range;

static range set[4096];
static size_t count;
static uint64_t arena_base, arena_limit, arena_align;
static int opened;
static const char *at, *end;

static int number(uint64_t *value) {
    if (at == end || *at < '0' || *at > '9')
        return 0;
    uint64_t v = 0;
    for (; at < end && *at >= '0' && *at <= '9'; at++) {
        uint64_t digit = (uint64_t)(*at - '0');
        if (v > (UINT64_MAX - digit) / 10)
            return 0;
        v = v * 10 + digit;
    }
    *value = v;
    return 1;
}

static int text(const char *t) {
    size_t n = strlen(t);
    if ((size_t)(end - at) < n || memcmp(at, t, n) != 0)
        return 0;
    at += n;
    return 1;
}

static int mode(int *m) {
    static const char *const names[] = {"none", "low", "high", "entire"};
    for (*m = 0; *m < 4; (*m)++)
        if (text(names[*m]))
            return 1;
    return 0;
}

static void answer3(int a, uint64_t b, uint64_t l) {
    printf("%d %" PRIu64 " %" PRIu64 "\n", a, b, l);
}

static int good(uint64_t b, uint64_t l) {
    return arena_base <= b && b < l && l <= arena_limit && b % arena_align == 0 && l % arena_align == 0;
}

static void insert(uint64_t b, uint64_t l) {
    if (!good(b, l)) {
        answer3(4, 0, 0);
        return;
    }
    size_t i = 0;
    while (i < count && set[i].limit < b)
        i++;
    size_t j = i;
    range fresh = {b, l};
    if (j < count && set[j].limit == b)
        fresh.base = set[j++].base;
    if (j < count && set[j].base < l) {
        answer3(1, 0, 0);
        return;
    }
    if (j < count && set[j].base == l)
        fresh.limit = set[j++].limit;
    memmove(set + i + 1, set + j, (count - j) * sizeof(range));
    count = count + 1 - (j - i);
    set[i] = fresh;
    answer3(0, fresh.base, fresh.limit);
}

static void cut(size_t i, range part) {
    range r = set[i];
    if (r.base < part.base && part.limit < r.limit) {
        memmove(set + i + 2, set + i + 1, (count - i - 1) * sizeof(range));
        count++;
        set[i].limit = part.base;
        set[i + 1] = (range){part.limit, r.limit};
    } else if (r.base < part.base) {
        set[i].limit = part.base;
    } else if (part.limit < r.limit) {
        set[i].base = part.limit;
    } else {
        memmove(set + i, set + i + 1, (count - i - 1) * sizeof(range));
        count--;
    }
}

static void delete(uint64_t b, uint64_t l) {
    if (!good(b, l)) {
        answer3(4, 0, 0);
        return;
    }
    size_t i = 0;
    while (i < count && set[i].limit < l)
        i++;
    if (i == count || b < set[i].base) {
        answer3(1, 0, 0);
        return;
    }
    range old = set[i];
    cut(i, (range){b, l});
    answer3(0, old.base, old.limit);
}

// which: 0 first, 1 last, 2 largest.
static void find(int which, uint64_t size, int m) {
    if (size % arena_align != 0 || (size == 0 && which != 2)) {
        printf("4 0 0 0 0\n");
        return;
    }
    size_t chosen = count;
    for (size_t i = 0; i < count; i++) {
        uint64_t n = set[i].limit - set[i].base;
        if (n < size || (which == 2 && chosen < count && n <= set[chosen].limit - set[chosen].base))
            continue;
        chosen = i;
        if (which == 0)
            break;
    }
    if (chosen == count) {
        printf("2 0 0 0 0\n");
        return;
    }
    range old = set[chosen], part = old;
    if (which != 2 && m == 1)
        part.limit = part.base + size;
    if (which != 2 && m == 2)
        part.base = part.limit - size;
    if (m != 0)
        cut(chosen, part);
    printf("0 %" PRIu64 " %" PRIu64 " %" PRIu64 " %" PRIu64 "\n", part.base, part.limit, old.base, old.limit);
}

static void walk(uint64_t from) {
    for (size_t i = 0; i < count; i++)
        if (from <= set[i].base) {
            answer3(0, set[i].base, set[i].limit);
            return;
        }
    answer3(2, 0, 0);
}

static void describe(void) {
    uint64_t bytes = 0;
    for (size_t i = 0; i < count; i++)
        bytes += set[i].limit - set[i].base;
    printf("0 %zu %" PRIu64 "\n", count, bytes);
    for (size_t i = 0; i < count; i++)
        printf("%" PRIu64 " %" PRIu64 "\n", set[i].base, set[i].limit);
}

static void arena(uint64_t b, uint64_t l, uint64_t a) {
    int aligned = a >= 8 && a <= 4096 && (a & (a - 1)) == 0 && b % a == 0 && l % a == 0;
    if (!aligned || b == 0 || b > l || l > UINT64_C(1) << 40 || (l - b) / 8 > 4096) {
        puts("5");
        return;
    }
    arena_base = b, arena_limit = l, arena_align = a;
    count = 0;
    opened = 1;
    puts("0");
}

static int play(const char *line) {
    uint64_t x, y, z;
    int m;
    at = line;
    if (text("arena ") && number(&x) && text(" ") && number(&y) && text(" ") && number(&z) && at == end)
        return arena(x, y, z), 1;
    if (!opened)
        return 0;
    at = line;
    if (text("insert ") && number(&x) && text(" ") && number(&y) && at == end)
        return insert(x, y), 1;
    at = line;
    if (text("delete ") && number(&x) && text(" ") && number(&y) && at == end)
        return delete(x, y), 1;
    static const char *const finds[] = {"first ", "last ", "largest "};
    for (int which = 0; which < 3; which++) {
        at = line;
        if (text(finds[which]) && number(&x) && text(" ") && mode(&m) && at == end)
            return find(which, x, m), 1;
    }
    at = line;
    if (text("walk ") && number(&x) && at == end)
        return walk(x), 1;
    at = line;
    if (text("describe") && at == end)
        return describe(), 1;
    return 0;
}

int main(void) {
    char *line = NULL;
    size_t room = 0;
    ssize_t n;
    while ((n = getline(&line, &room, stdin)) > 0) {
        int whole = line[n - 1] == '\n';
        end = line + n - 1;
        if (!whole || !play(line))
            puts("?");
    }
    free(line);
    return 0;
}
