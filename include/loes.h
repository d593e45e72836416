/*
 * loes: sets of keys of one width in a succinct byte encoding.
 *
 * A key has `width` bits, 1 to 256, and takes width/8 bytes, rounded up: bit 0 is the most
 * significant bit of the first byte, unused low bits of the last byte are zero. Keys are ordered
 * by their bytes. An encoding is a set of keys of one width in at most LOES_MAX_BYTES bytes; one
 * set has exactly one encoding.
 *
 * A prefix is the first `prefix_bits` bits of a key, 0 to its width, laid out as a key of so many bits:
 * it takes prefix_bits/8 bytes, rounded up, and unused low bits of the last byte are zero. One of 0 bits
 * takes no bytes, and the pointer to it is still not null.
 *
 * Weights of keys stand in a list beside an encoding, as many entries as it has members: entry i is
 * the weight of the key with member index i.
 *
 * Conventions, for every call:
 *
 *   - Any content and any length is legal. Nothing is trusted: an encoding is checked whole before
 *     it is used, and keys, prefixes, indexes, offsets, cursors, lists, sums and outputs are tested.
 *   - A refused call answers with the number of the first refusal that holds, in the order of the
 *     call, and changes nothing: every lent byte, every entry and every offset keeps its value.
 *   - An accepted result stands at the front of its output; the bytes or entries behind it keep
 *     their values.
 *   - No call allocates, keeps a pointer or has state of its own; every call may be made from
 *     several threads at once.
 *
 * Asked of the caller, as C cannot say it otherwise:
 *
 *   - Byte strings and lists are lent as a pointer and a length, cursors as a pointer. A list's length
 *     counts its entries. A pointer is never null, also where the length is 0, and what it points to
 *     is there, as long as the length says. What is lent as `const` is only read; what is lent for
 *     output or to be changed shares no byte with anything else lent to the same call. Two encodings
 *     may be the same bytes, and two lists the same entries.
 *   - What a call works with is on the stack: allow it 704 KiB (measured: a split some 664,000
 *     bytes, every other join some 336,000 at most, every other call less than 12 KiB).
 *
 * Link with target/staticlib/libcapi.a, made by `make target/staticlib/libcapi.a`.
 */
#ifndef LOES_H
#define LOES_H

#include <stddef.h>
#include <stdint.h>

#ifdef __cplusplus
extern "C" {
#endif

/* The numbers of the format. */
#define LOES_MAX_WIDTH 256u      /* the greatest width of a key, in bits */
#define LOES_MAX_EDGES 524280u   /* the most bits that an edge sequence may have */
#define LOES_BLOCK_BITS 65536u   /* the edge bits of a block */
#define LOES_SUB_BLOCK_BITS 512u /* the edge bits of a sub-block */
#define LOES_MAX_BYTES 68695u    /* no encoding is longer: width 256 and 524,280 edge bits */
#define LOES_MAX_KEY_BYTES 32u   /* no key is longer */
#define LOES_CURSOR_OFFSETS 256u /* the offsets of a cursor, one for each level that there can be */

/* What is wrong, in the order of the numbers. */
typedef enum loes_refusal {
    /* whoever sent the encoding */
    LOES_TRUNCATED = 1,       /* fewer than 3 bytes remain for a field's tag and length, or fewer than its length says */
    LOES_WRONG_TAG = 2,       /* a tag outside 1 to 6, or out of its turn */
    LOES_WRONG_LENGTH = 3,    /* a field length other than the one laid down */
    LOES_BAD_WIDTH = 4,       /* width 0 or above 256; also whoever packs */
    LOES_TOO_LARGE = 5,       /* more than 524,280 edge bits; also whoever packs or joins to such a result */
    LOES_TRAILING_BYTES = 6,  /* bytes after the sixth field */
    LOES_NOT_AN_ENCODING = 7, /* well-formed fields that are the encoding of no set */
    /* whoever asks a question, or posts */
    LOES_BAD_KEY = 8,         /* a key or a prefix of another length than its bits take, or with an unused bit set */
    LOES_OUT_OF_RANGE = 9,    /* a member index not below the count, an edge offset above the edge bits, or more prefix bits than the width */
    /* whoever sent a batch */
    LOES_RAGGED_BATCH = 10,   /* a byte count that is no multiple of a key's */
    LOES_UNUSED_BIT_SET = 11, /* a key with an unused bit set */
    LOES_DESCENDING = 12,     /* a key smaller than the one before it */
    /* whoever joins encodings */
    LOES_TWO_WIDTHS = 13,     /* two widths */
    /* whoever lends memory */
    LOES_SHORT_BUFFER = 14,   /* an output buffer or an output list shorter than the accepted result */
    LOES_BAD_CURSOR = 15,     /* a cursor that is neither before, nor after, nor the path of a member, or has an unused offset other than 0 */
    /* whoever keeps weights */
    LOES_WRONG_LIST = 16,     /* a list that is not as long as its encoding has members */
    LOES_OVERFLOW = 17        /* a sum that leaves 32 signed bits */
} loes_refusal;

/* The states of a cursor. */
enum {
    LOES_BEFORE = 0, /* before the first member; every offset is 0 */
    LOES_AT = 1,     /* at a member: one edge offset for each level, and 0 behind them */
    LOES_AFTER = 2   /* after the last member; every offset is 0 */
};

/* Two counts that are not the same: a call that wants one does not take the other. */
typedef struct loes_member_index {
    uint64_t index; /* of a member among the members in order: how many are smaller */
} loes_member_index;

typedef struct loes_edge_offset {
    uint64_t offset; /* in the edge sequence, in bits */
} loes_edge_offset;

/* What a call answers. */
typedef struct loes_answer {
    uint32_t refusal; /* 0: not refused; else a loes_refusal */
    uint32_t found;   /* 1: there is what was asked for; 0: refused, or the key is absent, or there is none */
    uint64_t value;   /* the answer; 0 unless found */
} loes_answer;

/* The numbers of an encoding. */
typedef struct loes_opened {
    uint32_t refusal; /* 0: not refused; else a loes_refusal, and the others are 0 */
    uint32_t width;   /* bits of a key */
    uint64_t count;   /* members */
    uint64_t bits;    /* edge bits */
} loes_opened;

/* The member indexes of a prefix. */
typedef struct loes_range {
    uint32_t refusal;        /* 0: not refused; else a loes_refusal, and the others are 0 */
    loes_member_index first; /* how many members' own first bits are smaller: the member index of the first that begins with the prefix, if one does */
    uint64_t count;          /* how many members begin with the prefix */
} loes_range;

/* The lengths of the three encodings of a split. */
typedef struct loes_lengths {
    uint32_t refusal;     /* 0: not refused; else a loes_refusal, and the others are 0 */
    uint64_t both;        /* of the keys in both sets */
    uint64_t only_first;  /* of the keys in the first set but not in the second */
    uint64_t only_second; /* of the keys in the second set but not in the first */
} loes_lengths;

/* A place in a walk over the members; all 0 is before the first. */
typedef struct loes_cursor {
    uint64_t state;
    loes_edge_offset offsets[LOES_CURSOR_OFFSETS]; /* one for each level; those that it does not use are 0 */
} loes_cursor;

/* ---- Opening ---- */

/* Checks the encoding whole and tells its numbers. Refusals, in order: for each field from the
 * front 1 (head), 2, 3, 1 (body), with 4 after field 1 and 5 after field 3; then 6, then 7. */
loes_opened loes_open(const uint8_t *encoding, size_t length);

/* ---- Building: found, if not refused, and the value is the length of the encoding at the front of `out`; loes_split answers with three lengths ---- */

/* The encoding of the keys of a batch: keys of `width` bits laid end to end in rising order, equal
 * neighbours counting once. Refusals: 4, 10, then key by key 11 and 12, then 5, 14. */
loes_answer loes_pack(uint64_t width, const uint8_t *batch, size_t length, uint8_t *out, size_t room);

/* The keys in either set. Refusals: those of opening the first, of opening the second, 13, 5, 14. */
loes_answer loes_union(const uint8_t *first, size_t first_length, const uint8_t *second, size_t second_length,
                       uint8_t *out, size_t room);

/* The keys in the first set but not in the second. Refusals: as loes_union. */
loes_answer loes_difference(const uint8_t *first, size_t first_length, const uint8_t *second, size_t second_length,
                            uint8_t *out, size_t room);

/* Three sets, each encoding at the front of its own buffer: the keys in both sets, the keys in the
 * first but not in the second, the keys in the second but not in the first. Every key of either set is
 * in exactly one of them; a set split with itself gives itself and twice the empty set of its width.
 * Answers with the three lengths in that order. Room enough is, for `both` and `only_first`, the
 * first's length, for `only_second` the second's, as no part of a set has a longer encoding;
 * LOES_MAX_BYTES always. Refusals: as loes_union (5 cannot arise); 14 is for any of the three, and
 * all three keep their values. */
loes_lengths loes_split(const uint8_t *first, size_t first_length, const uint8_t *second, size_t second_length,
                        uint8_t *both, size_t both_room, uint8_t *only_first, size_t only_first_room,
                        uint8_t *only_second, size_t only_second_room);

/* ---- Questions. Refusals: those of opening, then those named, in their order ---- */

/* Whether the key is a member: found, with value 1, or not. Refusal 8. */
loes_answer loes_contains(const uint8_t *encoding, size_t length, const uint8_t *key, size_t key_length);

/* The key's member index, if it is a member. Refusal 8. */
loes_answer loes_index_of(const uint8_t *encoding, size_t length, const uint8_t *key, size_t key_length);

/* The member index of the smallest member not below the key, if there is one. Refusal 8. */
loes_answer loes_lower_bound(const uint8_t *encoding, size_t length, const uint8_t *key, size_t key_length);

/* Writes the key of a member index to the front of `out`: found, and the value is its length. Refusals 9, 14. */
loes_answer loes_key_at(const uint8_t *encoding, size_t length, loes_member_index index, uint8_t *out, size_t room);

/* The set edge bits strictly before `offset`, which is at most the number of edge bits: found, with their number. Refusal 9. */
loes_answer loes_rank(const uint8_t *encoding, size_t length, loes_edge_offset offset);

/* How many members begin with a prefix of `prefix_bits` bits, and how many have smaller first bits: those that begin with it
 * have the member indexes from first.index on, count of them. Every key begins with the prefix of 0 bits. Refusals 9, 8. */
loes_range loes_prefix(const uint8_t *encoding, size_t length, uint64_t prefix_bits,
                       const uint8_t *prefix, size_t prefix_length);

/* ---- Walking ---- */

/* Moves the cursor on to the next member and writes that member's key to the front of `out`: found,
 * and the value is the key's length. From before it goes to the first member, from the last member
 * to after, and after stays after; going to after writes nothing and is not found. Refusals, after
 * those of opening: 15 (also for a state that is none of the three), 14 (not when going to after).
 *
 *     loes_cursor cursor = {LOES_BEFORE, {{0}}};
 *     loes_answer step;
 *     while ((step = loes_advance(set, length, &cursor, key, sizeof key)).found)
 *         ...;
 *     if (step.refusal)
 *         ...;
 */
loes_answer loes_advance(const uint8_t *encoding, size_t length, loes_cursor *cursor, uint8_t *out, size_t room);

/* ---- Weights ---- */

/* Adds the amount to the key's entry: found, with value 1; not found if the key is absent, and then
 * nothing changes. Refusals, after those of opening: 16, 8, and 17 unless the key is absent. */
loes_answer loes_post(const uint8_t *encoding, size_t length, int32_t *weights, size_t weights_length,
                      const uint8_t *key, size_t key_length, int32_t amount);

/* The others build as their namesakes do, and write the new encoding's list to the front of `weights`:
 * as many entries as it has members, which loes_open tells as `count`. Room enough is, for a pack, one
 * entry for each key of the batch, for a union both lists' lengths together, for a difference the
 * first's. 14 is for either output. */

/* loes_pack, and a zero for each member. Refusals: as loes_pack. */
loes_answer loes_pack_weighted(uint64_t width, const uint8_t *batch, size_t length, uint8_t *out, size_t room,
                               int32_t *weights, size_t weights_room);

/* loes_union; the weight of a key in both sets is the sum of its two, any other key keeps its own.
 * Refusals: those of opening the first, of opening the second, 13, 16, 5, 14, 17. */
loes_answer loes_union_weighted(const uint8_t *first, size_t first_length,
                                const int32_t *first_weights, size_t first_weights_length,
                                const uint8_t *second, size_t second_length,
                                const int32_t *second_weights, size_t second_weights_length,
                                uint8_t *out, size_t room, int32_t *weights, size_t weights_room);

/* loes_difference; each key keeps its weight, and the second set has no list. Refusals: those of
 * opening the first, of opening the second, 13, 16, 5, 14. */
loes_answer loes_difference_weighted(const uint8_t *first, size_t first_length,
                                     const int32_t *first_weights, size_t first_weights_length,
                                     const uint8_t *second, size_t second_length,
                                     uint8_t *out, size_t room, int32_t *weights, size_t weights_room);

#ifdef __cplusplus
}
#endif

#endif
