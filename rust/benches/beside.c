/* Every call of several builds of the library, taken in turns in one program on the same inputs: for each call the least time
 * of each build, in nanoseconds, and its ratio to the first one's. Prints markdown; ends with 1 if two results differ. Calls
 * with weights are left out if a build has none; prefix and split are left out, as older builds have none.
 *
 *     beside REPETITIONS BUILD.so...
 */
#define _GNU_SOURCE
#include <dlfcn.h>
#include <stdint.h>
#include <stdio.h>
#include <stdlib.h>
#include <string.h>
#include <time.h>

#include "loes.h"

enum { ROOM = 70000, MOST = 60000, LONGEST = 32, BUILDS = 8, ASKED = 200 };

/* The functions behind the check, which stand in no header: an encoding by the numbers that loes_open told of its bytes. */
typedef struct step {
    loes_answer answer;
    uint64_t state;
} step;
#define ENCODING uint64_t width, uint64_t count, uint64_t bits, const uint8_t *encoding, size_t length
typedef loes_answer key_asked(ENCODING, const uint8_t *key, size_t key_length);
typedef step stepped(ENCODING, uint64_t state, uint64_t *offsets, size_t offset_count, uint8_t *out, size_t room);
key_asked loes_unchecked_contains, loes_unchecked_index_of, loes_unchecked_lower_bound;
loes_answer loes_unchecked_key_at(ENCODING, loes_member_index index, uint8_t *out, size_t room);
loes_answer loes_unchecked_rank(ENCODING, loes_edge_offset offset);
loes_answer loes_unchecked_post(ENCODING, int32_t *weights, size_t weights_length, const uint8_t *key, size_t key_length, int32_t amount);
stepped loes_unchecked_advance, loes_unchecked_next, loes_unchecked_walk;

/* The functions of a build. */
#define FUNCTIONS(F) \
    F(open) F(pack) F(union) F(difference) F(contains) F(index_of) F(lower_bound) F(key_at) F(rank) F(advance) \
    F(unchecked_contains) F(unchecked_index_of) F(unchecked_lower_bound) F(unchecked_key_at) F(unchecked_rank) \
    F(unchecked_advance) F(unchecked_next) F(unchecked_walk) \
    F(post) F(pack_weighted) F(union_weighted) F(difference_weighted) F(unchecked_post)
#define MEMBER(name) __typeof__(loes_##name) *name##_;
struct build {
    FUNCTIONS(MEMBER)
    uint64_t behind; /* what is added to an offset, so that its rank counts the bit at it */
};

static struct build builds[BUILDS];
static int build_count, repetitions, weighted = 1, wrong;
static uint8_t keys[MOST][LONGEST], batch[MOST * LONGEST], first[ROOM], second[ROOM], out[ROOM], expected[ROOM];
static uint8_t asked[ASKED][LONGEST];
static int32_t first_weights[MOST], second_weights[MOST], weights[MOST], expected_weights[MOST];
static loes_member_index indices[ASKED];
static loes_edge_offset offsets[ASKED];
static uint64_t path[LOES_CURSOR_OFFSETS];
static loes_cursor cursor;
static size_t key_bytes, batch_bytes, first_bytes, second_bytes, first_count, second_count;
static loes_opened opened;
static uint64_t state;

/* splitmix64 */
static uint64_t next(void) {
    uint64_t z = state += 0x9E3779B97F4A7C15;
    z = (z ^ z >> 30) * 0xBF58476D1CE4E5B9;
    z = (z ^ z >> 27) * 0x94D049BB133111EB;
    return z ^ z >> 31;
}

static double now(void) {
    struct timespec time;
    clock_gettime(CLOCK_MONOTONIC, &time);
    return time.tv_sec * 1e9 + time.tv_nsec;
}

/* ---- Keys ---- */

static int in_order(const void *x, const void *y) { return memcmp(x, y, key_bytes); }

/* Sorted, each key once: how many. */
static size_t sorted(size_t n) {
    size_t kept = 0;
    qsort(keys, n, LONGEST, in_order);
    for (size_t i = 0; i < n; i++)
        if (kept == 0 || memcmp(keys[i], keys[kept - 1], key_bytes) != 0) memmove(keys[kept++], keys[i], LONGEST);
    return kept;
}

static size_t random_keys(size_t width, size_t n) {
    state = n;
    key_bytes = width / 8;
    for (size_t i = 0; i < n; i++)
        for (size_t k = 0; k < LONGEST; k++) keys[i][k] = (uint8_t)next();
    return sorted(n);
}

/* 96 runs of neighbours, at most 3 apart. */
static size_t clustered_keys(size_t width, size_t each) {
    size_t n = 0;
    state = 3;
    key_bytes = width / 8;
    for (int run = 0; run < 96; run++) {
        uint64_t number = next() >> (64 - width) >> 12 << 12;
        for (size_t i = 0; i < each; i++, n++) {
            number += 1 + next() % 3;
            for (size_t k = 0; k < key_bytes; k++) keys[n][k] = (uint8_t)(number >> (width - 8 - 8 * k));
        }
    }
    return sorted(n);
}

/* Which keys an operand has. */
typedef int chosen(size_t);
static int all(size_t i) { return i + 1 > 0; }
static int none(size_t i) { return i + 1 == 0; }
static int even(size_t i) { return i % 2 == 0; }
static int odd(size_t i) { return i % 2 == 1; }
static int not_third(size_t i) { return i % 3 != 2; }
static int not_first(size_t i) { return i % 3 != 0; }

static size_t packed(size_t n, chosen *has, uint8_t *to) {
    batch_bytes = 0;
    for (size_t i = 0; i < n; i++)
        if (has(i)) {
            memcpy(batch + batch_bytes, keys[i], key_bytes);
            batch_bytes += key_bytes;
        }
    loes_answer a = builds[0].pack_(8 * key_bytes, batch, batch_bytes, to, ROOM);
    if (a.refusal) exit(2);
    return a.value;
}

/* ---- What is timed: each tells a number that must be the same for every build ---- */

typedef uint64_t timed(const struct build *);

static uint64_t told(uint64_t sum, uint64_t x, uint64_t y) { return 31 * (31 * sum + x) + y; }
static uint64_t opening(const struct build *b) {
    loes_opened e = b->open_(first, first_bytes);
    return told(told(e.refusal, e.width, e.count), e.bits, 0);
}
static uint64_t written(loes_answer a) {
    if (a.refusal) exit(3);
    return a.value;
}
static uint64_t packing(const struct build *b) { return written(b->pack_(8 * key_bytes, batch, batch_bytes, out, ROOM)); }
static uint64_t uniting(const struct build *b) { return written(b->union_(first, first_bytes, second, second_bytes, out, ROOM)); }
static uint64_t subtracting(const struct build *b) { return written(b->difference_(first, first_bytes, second, second_bytes, out, ROOM)); }

/* The same with lists. */
static uint64_t packing_weighted(const struct build *b) {
    return written(b->pack_weighted_(8 * key_bytes, batch, batch_bytes, out, ROOM, weights, MOST));
}
static uint64_t uniting_weighted(const struct build *b) {
    return written(b->union_weighted_(first, first_bytes, first_weights, first_count, second, second_bytes, second_weights,
                                      second_count, out, ROOM, weights, MOST));
}
static uint64_t subtracting_weighted(const struct build *b) {
    return written(b->difference_weighted_(first, first_bytes, first_weights, first_count, second, second_bytes, out, ROOM, weights,
                                           MOST));
}

#define OPENED opened.width, opened.count, opened.bits, first, first_bytes

/* A question put to bytes, and the same behind the check ASKED times. */
#define QUESTION(name, ...) \
    static uint64_t name(const struct build *b) { \
        const size_t i = 0; \
        loes_answer a = b->name##_(first, first_bytes, __VA_ARGS__); \
        return told(a.refusal, a.found, a.value); \
    } \
    static uint64_t unchecked_##name(const struct build *b) { \
        uint64_t sum = 0; \
        for (size_t i = 0; i < ASKED; i++) { \
            loes_answer a = b->unchecked_##name##_(OPENED, __VA_ARGS__); \
            sum = told(sum, a.found, a.value); \
        } \
        return sum; \
    }
QUESTION(contains, asked[i], key_bytes)
QUESTION(index_of, asked[i], key_bytes)
QUESTION(lower_bound, asked[i], key_bytes)
QUESTION(key_at, indices[i], out, key_bytes)
/* an older build's rank includes its offset, a newer one's does not: each is asked for the set bits up to the same one, with it */
QUESTION(rank, (loes_edge_offset){offsets[i].offset + b->behind})
/* the amount 0, so that each build finds the same list */
QUESTION(post, first_weights, opened.count, asked[i], key_bytes, 0)

/* The first step, and every step behind the check, with the test of the cursor and without. */
static uint64_t advance(const struct build *b) {
    memset(&cursor, 0, (1 + 8 * key_bytes) * sizeof(uint64_t));
    loes_answer a = b->advance_(first, first_bytes, &cursor, out, key_bytes);
    return told(a.refusal, a.value, cursor.state);
}
#define WALK(name) \
    static uint64_t name(const struct build *b) { \
        step s = {{0, 1, 0}, LOES_BEFORE}; \
        uint64_t sum = 0; \
        memset(path, 0, sizeof path); \
        while (s.answer.found) { \
            s = b->name##_(OPENED, s.state, path, LOES_CURSOR_OFFSETS, out, key_bytes); \
            sum = told(sum, s.answer.found, out[key_bytes - 1]); \
        } \
        return sum; \
    }
WALK(unchecked_advance)
WALK(unchecked_next)

/* Every member, a buffer full of keys at a time. */
static uint64_t iteration(const struct build *b) {
    static uint8_t many[1024];
    step s = {{0, 1, 0}, LOES_BEFORE};
    uint64_t sum = 0;
    memset(path, 0, sizeof path);
    while (s.answer.found) {
        s = b->unchecked_walk_(OPENED, s.state, path, LOES_CURSOR_OFFSETS, many, sizeof many);
        for (size_t at = key_bytes; at <= s.answer.value; at += key_bytes) sum = told(sum, s.answer.found, many[at - 1]);
    }
    return sum;
}

/* 1 if a build's rank counts the bits strictly before its offset: it then takes the one behind the last, here 16. */
static uint64_t counts_before(const struct build *b) {
    static const uint8_t key[1];
    size_t length = written(b->pack_(8, key, 1, out, ROOM));
    return b->rank_(out, length, (loes_edge_offset){16}).refusal == 0;
}

/* ---- Measuring ---- */

/* What a call takes for each of so many things that it does. */
static void measure(const char *name, const char *call, timed *run, size_t things) {
    double least[BUILDS];
    uint64_t result = 0;
    int calls = 1, turns = repetitions;
    run(&builds[0]);
    double start = now();
    run(&builds[0]);
    double once = now() - start;
    while (calls < 20 && once * calls < 20000) calls++;
    if (once * calls < 100000) turns *= 20;
    for (int k = 0; k < build_count; k++) least[k] = 1e18;
    for (int turn = 0; turn < turns; turn++)
        for (int k = 0; k < build_count; k++) {
            uint64_t number = 0;
            memset(out, 0, sizeof out);
            memset(weights, 1, sizeof weights);
            start = now();
            for (int i = 0; i < calls; i++) number = run(&builds[k]);
            double time = (now() - start) / calls;
            if (time < least[k]) least[k] = time;
            if (turn == 0 && k == 0) {
                result = number;
                memcpy(expected, out, sizeof out);
                memcpy(expected_weights, weights, sizeof weights);
            }
            if (number != result || memcmp(out, expected, sizeof out) != 0) wrong = 1;
            if (memcmp(weights, expected_weights, sizeof weights) != 0) wrong = 1;
        }
    printf("| %s | %s | %.1f |", name, call, least[0] / things);
    for (int k = 1; k < build_count; k++) printf(" %.1f | %.3f |", least[k] / things, least[k] / least[0]);
    puts("");
}

static void joins(const char *name, size_t n, chosen *in_first, chosen *in_second) {
    first_bytes = packed(n, in_first, first);
    second_bytes = packed(n, in_second, second);
    measure(name, "union", uniting, 1);
    measure(name, "difference", subtracting, 1);
    if (!weighted) return;
    first_count = builds[0].open_(first, first_bytes).count;
    second_count = builds[0].open_(second, second_bytes).count;
    measure(name, "union_weighted", uniting_weighted, 1);
    measure(name, "difference_weighted", subtracting_weighted, 1);
}

/* Every call but the joins, on all n keys. Half of the questions are for members. */
static void questions(const char *name, size_t n) {
    first_bytes = packed(n, all, first);
    opened = builds[0].open_(first, first_bytes);
    for (size_t i = 0; i < ASKED; i++) {
        for (size_t k = 0; k < key_bytes; k++) asked[i][k] = (uint8_t)next();
        indices[i].index = n ? next() % n : 0;
        offsets[i].offset = n ? next() % opened.bits : 0;
        if (n && i % 2 == 0) memcpy(asked[i], keys[indices[i].index], key_bytes);
    }
    measure(name, "open", opening, 1);
    measure(name, "pack", packing, 1);
    measure(name, "contains", contains, 1);
    measure(name, "index_of", index_of, 1);
    measure(name, "lower_bound", lower_bound, 1);
    measure(name, "key_at", key_at, 1);
    measure(name, "rank", rank, 1);
    measure(name, "advance", advance, 1);
    measure(name, "unchecked_contains", unchecked_contains, ASKED);
    measure(name, "unchecked_index_of", unchecked_index_of, ASKED);
    measure(name, "unchecked_lower_bound", unchecked_lower_bound, ASKED);
    measure(name, "unchecked_key_at", unchecked_key_at, ASKED);
    measure(name, "unchecked_rank", unchecked_rank, ASKED);
    measure(name, "unchecked_advance", unchecked_advance, n + 1);
    measure(name, "unchecked_next", unchecked_next, n + 1);
    measure(name, "iteration", iteration, n + 1);
    if (!weighted) return;
    measure(name, "pack_weighted", packing_weighted, 1);
    measure(name, "post", post, 1);
    measure(name, "unchecked_post", unchecked_post, ASKED);
}

static void both(const char *name, size_t n) {
    questions(name, n);
    joins(name, n, not_third, not_first);
}

static void sized(size_t width, size_t n) {
    char name[64];
    size_t kept = random_keys(width, n);
    snprintf(name, sizeof name, "%zu random keys of %zu bits", kept, width);
    both(name, kept);
}

int main(int count, char **words) {
    repetitions = atoi(words[1]);
    for (build_count = 0; build_count < count - 2; build_count++) {
        void *library = dlopen(words[build_count + 2], RTLD_NOW | RTLD_LOCAL);
        if (!library) return 4;
#define FIND(name) builds[build_count].name##_ = dlsym(library, "loes_" #name);
        FUNCTIONS(FIND)
        if (!builds[build_count].unchecked_post_) weighted = 0;
        builds[build_count].behind = counts_before(&builds[build_count]);
    }
    for (size_t i = 0; i < MOST; i++) first_weights[i] = (int32_t)(i % 1000) - 500, second_weights[i] = 7;
    printf("| keys | call | first, ns |");
    for (int k = 1; k < build_count; k++) printf(" %d, ns | ratio |", k + 1);
    printf("\n|---|---|--:|");
    for (int k = 1; k < build_count; k++) printf("--:|--:|");
    puts("");
    both("clustered, 32 bits", clustered_keys(32, 256));
    both("clustered, 64 bits", clustered_keys(64, 500));
    static const size_t sizes[] = {14000, 4096, 1024, 256, 128, 64, 32, 16, 8, 4, 2, 1};
    for (size_t i = 0; i < sizeof sizes / sizeof *sizes; i++) sized(32, sizes[i]);
    sized(16, 20000);
    sized(64, 4900);
    sized(256, 1030);
    sized(256, 16);
    sized(256, 4);
    sized(256, 2);
    sized(8, 10);
    both("clustered, 64 bits, few", clustered_keys(64, 1));
    both("every key of 8 bits", random_keys(8, 20000));
    sized(32, 0);
    sized(256, 0);
    joins("equal", random_keys(32, 1024), all, all);
    joins("apart", random_keys(32, 1024), even, odd);
    joins("the second empty", random_keys(32, 1024), all, none);
    joins("the first empty", random_keys(32, 1024), none, all);
    return wrong;
}
