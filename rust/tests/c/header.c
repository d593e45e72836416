/* The C header used from C: every call, each kind of answer field by field, a lent cursor and lent lists. */
#include "loes.h"

#include <stdio.h>
#include <string.h>

#define REQUIRE(condition)                                                   \
    do {                                                                     \
        if (!(condition)) {                                                  \
            fprintf(stderr, "line %d: not so: %s\n", __LINE__, #condition);  \
            return 1;                                                        \
        }                                                                    \
    } while (0)

/* Two encodings split into the three buffers, of which so many bytes are lent. */
#define SPLIT(x, y, p, q, r) loes_split(x, sizeof x, y, sizeof y, both, p, only_first, q, only_second, r)

static uint8_t out[LOES_MAX_BYTES], both[LOES_MAX_BYTES], only_first[LOES_MAX_BYTES], only_second[LOES_MAX_BYTES];

/* Whether an answer has these fields. */
static int is(loes_answer answer, uint32_t refusal, uint32_t found, uint64_t value) {
    return answer.refusal == refusal && answer.found == found && answer.value == value;
}

/* Whether a range has these fields. */
static int spans(loes_range range, uint32_t refusal, uint64_t first, uint64_t count) {
    return range.refusal == refusal && range.first.index == first && range.count == count;
}

/* Whether lengths have these fields. */
static int tells(loes_lengths lengths, uint32_t refusal, uint64_t x, uint64_t y, uint64_t z) {
    return lengths.refusal == refusal && lengths.both == x && lengths.only_first == y && lengths.only_second == z;
}

/* Whether a buffer has an encoding in front and the byte behind it untouched. */
static int holds(const uint8_t *buffer, const uint8_t *encoding, size_t length) {
    return memcmp(buffer, encoding, length) == 0 && buffer[length] == 0xEE;
}

int main(void) {
    const uint8_t batch[] = {0x00, 0x60, 0xC0};
    uint8_t set[48], key[LOES_MAX_KEY_BYTES];

    REQUIRE(sizeof(loes_answer) == 16 && sizeof(loes_opened) == 24 && sizeof(loes_range) == 24 && sizeof(loes_lengths) == 32);
    REQUIRE(sizeof(loes_cursor) == (1 + LOES_CURSOR_OFFSETS) * sizeof(uint64_t));
    REQUIRE(sizeof(loes_member_index) == sizeof(uint64_t) && sizeof(loes_edge_offset) == sizeof(uint64_t));

    REQUIRE(is(loes_pack(3, batch, sizeof batch, set, sizeof set), 0, 1, 48));
    REQUIRE(set[30] == 0xF6 && set[31] == 0x60);
    REQUIRE(is(loes_pack(3, batch, sizeof batch, out, 47), LOES_SHORT_BUFFER, 0, 0) && out[0] == 0);
    REQUIRE(is(loes_pack(LOES_MAX_WIDTH + 1, batch, 0, out, sizeof out), LOES_BAD_WIDTH, 0, 0));

    loes_opened opened = loes_open(set, sizeof set);
    REQUIRE(opened.refusal == 0 && opened.width == 3 && opened.count == 3 && opened.bits == 12);
    opened = loes_open(set, 47);
    REQUIRE(opened.refusal == LOES_TRUNCATED && opened.width == 0 && opened.count == 0 && opened.bits == 0);

    key[0] = 0x60;
    REQUIRE(is(loes_contains(set, sizeof set, key, 1), 0, 1, 1));
    REQUIRE(is(loes_index_of(set, sizeof set, key, 1), 0, 1, 1));
    key[0] = 0xE0;
    REQUIRE(is(loes_contains(set, sizeof set, key, 1), 0, 0, 0));
    REQUIRE(is(loes_index_of(set, sizeof set, key, 1), 0, 0, 0));
    REQUIRE(is(loes_lower_bound(set, sizeof set, key, 1), 0, 0, 0));
    REQUIRE(is(loes_contains(set, sizeof set, key, 2), LOES_BAD_KEY, 0, 0));
    REQUIRE(is(loes_rank(set, sizeof set, (loes_edge_offset){0}), 0, 1, 0));
    REQUIRE(is(loes_rank(set, sizeof set, (loes_edge_offset){10}), 0, 1, 7));
    REQUIRE(is(loes_rank(set, sizeof set, (loes_edge_offset){12}), 0, 1, 8));
    REQUIRE(is(loes_rank(set, sizeof set, (loes_edge_offset){13}), LOES_OUT_OF_RANGE, 0, 0));
    key[0] = 0x80;
    REQUIRE(spans(loes_prefix(set, sizeof set, 0, key, 0), 0, 0, 3));
    REQUIRE(spans(loes_prefix(set, sizeof set, 1, key, 1), 0, 2, 1));
    REQUIRE(spans(loes_prefix(set, sizeof set, 2, key, 1), 0, 2, 0));
    REQUIRE(spans(loes_prefix(set, sizeof set, 1, key, 2), LOES_BAD_KEY, 0, 0));
    key[0] = 0xA0;
    REQUIRE(spans(loes_prefix(set, sizeof set, 2, key, 1), LOES_BAD_KEY, 0, 0));
    REQUIRE(spans(loes_prefix(set, sizeof set, 4, key, 0), LOES_OUT_OF_RANGE, 0, 0));
    REQUIRE(spans(loes_prefix(set, 47, 4, key, 0), LOES_TRUNCATED, 0, 0));
    REQUIRE(is(loes_key_at(set, sizeof set, (loes_member_index){2}, key, sizeof key), 0, 1, 1) && key[0] == 0xC0);

    REQUIRE(is(loes_union(set, sizeof set, set, sizeof set, out, sizeof out), 0, 1, 48) && memcmp(out, set, 48) == 0);
    REQUIRE(is(loes_difference(set, sizeof set, set, sizeof set, out, sizeof out), 0, 1, 36) && memcmp(out + 36, set + 36, 12) == 0);

    /* 000 and 011, and 011 and 110: one key in each of the three */
    uint8_t left[47], right[48], part[47];
    REQUIRE(is(loes_pack(3, batch, 2, left, sizeof left), 0, 1, 47));
    REQUIRE(is(loes_pack(3, batch + 1, 2, right, sizeof right), 0, 1, 48));
    memset(both, 0xEE, sizeof both);
    memset(only_first, 0xEE, sizeof only_first);
    memset(only_second, 0xEE, sizeof only_second);
    /* refused, each buffer keeps its bytes, whether none of them are lent or all */
    REQUIRE(tells(SPLIT(left, right, 46, sizeof only_first, sizeof only_second), LOES_SHORT_BUFFER, 0, 0, 0));
    REQUIRE(tells(SPLIT(left, right, sizeof both, 46, sizeof only_second), LOES_SHORT_BUFFER, 0, 0, 0));
    REQUIRE(tells(SPLIT(left, right, sizeof both, sizeof only_first, 46), LOES_SHORT_BUFFER, 0, 0, 0));
    REQUIRE(is(loes_pack(4, batch, 0, out, sizeof out), 0, 1, 40));
    for (size_t n = 0; n <= LOES_MAX_BYTES; n += LOES_MAX_BYTES) {
        REQUIRE(tells(loes_split(left, 46, right, 1, both, n, only_first, n, only_second, n), LOES_TRUNCATED, 0, 0, 0));
        REQUIRE(tells(loes_split(left, 47, right + 1, 47, both, n, only_first, n, only_second, n), LOES_WRONG_TAG, 0, 0, 0));
        REQUIRE(tells(loes_split(left, 47, out, 40, both, n, only_first, n, only_second, n), LOES_TWO_WIDTHS, 0, 0, 0));
    }
    for (size_t i = 0; i < LOES_MAX_BYTES; i++)
        REQUIRE(both[i] == 0xEE && only_first[i] == 0xEE && only_second[i] == 0xEE);
    REQUIRE(tells(SPLIT(left, right, 47, 47, 47), 0, 47, 47, 47));
    REQUIRE(is(loes_pack(3, batch + 1, 1, part, sizeof part), 0, 1, 47) && holds(both, part, 47));
    REQUIRE(is(loes_pack(3, batch, 1, part, sizeof part), 0, 1, 47) && holds(only_first, part, 47));
    REQUIRE(is(loes_pack(3, batch + 2, 1, part, sizeof part), 0, 1, 47) && holds(only_second, part, 47));
    REQUIRE(tells(SPLIT(set, right, sizeof both, sizeof only_first, sizeof only_second), 0, 48, 47, 36) && holds(both, right, 48));
    REQUIRE(tells(SPLIT(set, set, sizeof both, sizeof only_first, sizeof only_second), 0, 48, 36, 36) && holds(both, set, 48));
    REQUIRE(is(loes_pack(3, batch, 0, part, sizeof part), 0, 1, 36));
    REQUIRE(memcmp(only_first, part, 36) == 0 && memcmp(only_second, part, 36) == 0);

    loes_cursor cursor = {LOES_BEFORE, {{0}}};
    for (int i = 0; i < 3; i++) {
        REQUIRE(is(loes_advance(set, sizeof set, &cursor, key, 0), LOES_SHORT_BUFFER, 0, 0));
        REQUIRE(is(loes_advance(set, sizeof set, &cursor, key, sizeof key), 0, 1, 1));
        REQUIRE(cursor.state == LOES_AT && key[0] == batch[i]);
    }
    REQUIRE(cursor.offsets[0].offset == 1 && cursor.offsets[1].offset == 5 && cursor.offsets[2].offset == 10);
    loes_cursor kept = cursor;
    cursor.state = kept.state = 3;
    REQUIRE(is(loes_advance(set, sizeof set, &cursor, key, sizeof key), LOES_BAD_CURSOR, 0, 0));
    REQUIRE(memcmp(&cursor, &kept, sizeof cursor) == 0);
    cursor.state = LOES_AT;
    REQUIRE(is(loes_advance(set, sizeof set, &cursor, key, 0), 0, 0, 0));
    REQUIRE(cursor.state == LOES_AFTER && cursor.offsets[0].offset == 0);

    int32_t weights[] = {7, 7, 7, 7}, sums[] = {7, 7, 7, 7};
    REQUIRE(is(loes_pack_weighted(3, batch, sizeof batch, out, 48, weights, 2), LOES_SHORT_BUFFER, 0, 0) && weights[0] == 7);
    REQUIRE(is(loes_pack_weighted(3, batch, sizeof batch, out, 48, weights, 4), 0, 1, 48) && memcmp(out, set, 48) == 0);
    REQUIRE(weights[0] == 0 && weights[1] == 0 && weights[2] == 0 && weights[3] == 7);
    REQUIRE(is(loes_post(set, sizeof set, weights, 3, batch + 1, 1, -5), 0, 1, 1) && weights[1] == -5);
    REQUIRE(is(loes_post(set, sizeof set, weights, 3, batch + 1, 1, INT32_MIN), LOES_OVERFLOW, 0, 0) && weights[1] == -5);
    REQUIRE(is(loes_post(set, sizeof set, weights, 4, batch + 1, 1, 1), LOES_WRONG_LIST, 0, 0) && weights[1] == -5);
    key[0] = 0xE0;
    REQUIRE(is(loes_post(set, sizeof set, weights, 3, key, 1, INT32_MIN), 0, 0, 0) && weights[2] == 0);
    REQUIRE(is(loes_union_weighted(set, sizeof set, weights, 3, set, sizeof set, weights, 3, out, sizeof out, sums, 4), 0, 1, 48));
    REQUIRE(memcmp(out, set, 48) == 0 && sums[0] == 0 && sums[1] == -10 && sums[2] == 0 && sums[3] == 7);
    uint8_t second[47];
    REQUIRE(is(loes_pack(3, batch, 1, second, sizeof second), 0, 1, 47));
    REQUIRE(is(loes_difference_weighted(set, sizeof set, weights, 3, second, sizeof second, out, sizeof out, sums, 4), 0, 1, 48));
    REQUIRE(sums[0] == -5 && sums[1] == 0 && sums[2] == 0 && sums[3] == 7);

    printf("%u %u %u %u %u %u %u\n", LOES_MAX_WIDTH, LOES_MAX_EDGES, LOES_BLOCK_BITS, LOES_SUB_BLOCK_BITS, LOES_MAX_BYTES,
           LOES_MAX_KEY_BYTES, LOES_CURSOR_OFFSETS);
    puts("right");
    return 0;
}
