/*
 * The equivalence engine for quantum gate lists, for C99 and C++11 on x86-64. Link libjorehyi.a, which
 * `tools/build jorehyi` writes.
 *
 * jorehyi_session answers the lines of a session; jorehyi_verdict writes the verdict on two gate lists. Both are
 * proved, for every text, store, cache and output of any length, 0 included, to answer as the definitions say: which
 * bytes come, which stay as they were, the code and the counts. They read and write inside the lent memory only, keep
 * nothing between calls, allocate nothing, and end.
 *
 * The lent memory:
 *   text    the lines; it is only read.
 *   store   the nodes, 16 bytes each: the capacity is store_len / 16, at most 65,535.
 *   cache   remembered results, four words each. Its length changes no answer, only the time.
 *   out     the answers. Bytes after those written are untouched. A session goes on while 16 bytes remain; a verdict
 *           needs 32.
 *
 * What store, cache and out hold before the call changes no answer.
 *
 * The caller owes, for each of the four ranges and for the result, during the whole call:
 *   1. the pointer is not null, also where the length is 0;
 *   2. pointers to uint64_t are multiples of 8, also where the length is 0;
 *   3. the range has at most PTRDIFF_MAX bytes;
 *   4. a range that is written (all but the text) shares no byte with another;
 *   5. every byte of it can be read, and but for the text written;
 *   6. every byte of it has been given a value (calloc, memset or an initialiser does; malloc alone does not);
 *   7. no other thread writes it, nor reads it but for the text.
 * The raw functions test none of this. jorehyi_checked_session and jorehyi_checked_verdict test 1 to 4, or make it so
 * where the length is 0; 5 to 7 cannot be tested and stay with the caller.
 */
#ifndef JOREHYI_H
#define JOREHYI_H

#include <stdbool.h>
#include <stddef.h>
#include <stdint.h>

#ifdef __cplusplus
extern "C" {
#endif

enum {
    JOREHYI_NODE_BYTES = 16,
    JOREHYI_REGISTERS = 16,
    JOREHYI_VERDICT_BYTES = 32, /* the output bytes that a verdict needs */
    JOREHYI_SESSION_WORDS = 52,
    JOREHYI_VERDICT_WORDS = 2
};

/*
 * The raw functions. Lengths count elements. They return false and change nothing at all where result_len is below 52
 * or 2; otherwise they return true. Later words of a longer result are untouched.
 *
 * session: code (0, or 9 where the output was too short for a line), lines answered, bytes written, node count; then
 * for register i, at words 4+3i to 6+3i: 1 where it is filled and 0 where not, its weight, its node (0 and 0 where
 * not).
 *
 * verdict: code (0, or 9 where the output was too short), bytes written.
 */
bool jorehyi_session(const uint8_t *text, size_t text_len, uint8_t *store, size_t store_len, uint64_t *cache,
                     size_t cache_len, uint8_t *out, size_t out_len, uint64_t *result, size_t result_len);
bool jorehyi_verdict(const uint8_t *text, size_t text_len, uint8_t *store, size_t store_len, uint64_t *cache,
                     size_t cache_len, uint8_t *out, size_t out_len, uint64_t *result, size_t result_len);

#ifdef __cplusplus
}
#endif

/* What a checked call says of its arguments. For all but JOREHYI_OK nothing was changed. */
enum jorehyi_status {
    JOREHYI_OK = 0,
    JOREHYI_NULL,       /* a null pointer with a length other than 0, or for the result */
    JOREHYI_MISALIGNED, /* the cache or the result is not a multiple of its alignment */
    JOREHYI_TOO_LONG,   /* more than PTRDIFF_MAX bytes, or beyond the end of the address space */
    JOREHYI_OVERLAP,    /* a range that is written shares a byte with another */
    JOREHYI_MISMATCH    /* the archive wants a longer result: it and this header do not belong together */
};

/* A register: empty (weight and node are 0), or a weight and the number of a node. */
struct jorehyi_register {
    bool filled;
    uint32_t weight;
    uint32_t node;
};

struct jorehyi_session_result {
    unsigned code; /* 0, or 9 */
    size_t lines;  /* lines answered */
    size_t bytes;  /* bytes written */
    size_t count;  /* nodes in the store */
    struct jorehyi_register registers[JOREHYI_REGISTERS];
};

struct jorehyi_verdict_result {
    unsigned code; /* 0, also with `no`; or 9 */
    size_t bytes;  /* bytes written */
};

static inline const char *jorehyi_status_text(enum jorehyi_status status) {
    switch (status) {
    case JOREHYI_OK: return "ok";
    case JOREHYI_NULL: return "a null pointer";
    case JOREHYI_MISALIGNED: return "a misaligned pointer";
    case JOREHYI_TOO_LONG: return "a length that is too large";
    case JOREHYI_OVERLAP: return "overlapping ranges";
    case JOREHYI_MISMATCH: return "an archive of another version";
    }
    return "an unknown status";
}

/* A range of addresses. An empty one meets no other. */
struct jorehyi_range {
    uintptr_t start;
    size_t bytes;
};

/* The range of len elements at p, which are of size bytes and aligned to align; or what is wrong with it. */
static inline enum jorehyi_status jorehyi_range_of(const void *p, size_t len, size_t size, size_t align,
                                                   struct jorehyi_range *range) {
    range->start = (uintptr_t)p;
    range->bytes = 0;
    if (len == 0) return JOREHYI_OK;
    if (p == NULL) return JOREHYI_NULL;
    if (range->start % align != 0) return JOREHYI_MISALIGNED;
    if (len > (size_t)PTRDIFF_MAX / size) return JOREHYI_TOO_LONG;
    range->bytes = len * size;
    if (range->start > UINTPTR_MAX - range->bytes) return JOREHYI_TOO_LONG;
    return JOREHYI_OK;
}

static inline bool jorehyi_ranges_meet(struct jorehyi_range a, struct jorehyi_range b) {
    if (a.bytes == 0 || b.bytes == 0) return false;
    return a.start < b.start + b.bytes && b.start < a.start + a.bytes;
}

/* An aligned place that an empty range may name. Nothing is ever written there. */
static inline uint64_t *jorehyi_nowhere(void) {
    static uint64_t nowhere;
    return &nowhere;
}

/* The duties 1 to 4. Every pair of ranges has one that is written, so none may meet. */
static inline enum jorehyi_status jorehyi_check(const uint8_t *text, size_t text_len, const uint8_t *store,
                                                size_t store_len, const uint64_t *cache, size_t cache_len,
                                                const uint8_t *out, size_t out_len, const void *result,
                                                size_t result_size, size_t result_align) {
    struct jorehyi_range ranges[5];
    enum jorehyi_status found[5];
    int i, j;
    found[0] = jorehyi_range_of(text, text_len, 1, 1, &ranges[0]);
    found[1] = jorehyi_range_of(store, store_len, 1, 1, &ranges[1]);
    found[2] = jorehyi_range_of(cache, cache_len, sizeof *cache, sizeof *cache, &ranges[2]);
    found[3] = jorehyi_range_of(out, out_len, 1, 1, &ranges[3]);
    found[4] = jorehyi_range_of(result, 1, result_size, result_align, &ranges[4]);
    for (i = 0; i < 5; i++)
        if (found[i] != JOREHYI_OK) return found[i];
    for (i = 0; i < 5; i++)
        for (j = i + 1; j < 5; j++)
            if (jorehyi_ranges_meet(ranges[i], ranges[j])) return JOREHYI_OVERLAP;
    return JOREHYI_OK;
}

/* C99 has no alignof. */
struct jorehyi_session_place {
    char before;
    struct jorehyi_session_result result;
};
struct jorehyi_verdict_place {
    char before;
    struct jorehyi_verdict_result result;
};

static inline const uint8_t *jorehyi_readable(const uint8_t *p, size_t len) {
    return len == 0 ? (const uint8_t *)jorehyi_nowhere() : p;
}

static inline uint8_t *jorehyi_writable(uint8_t *p, size_t len) { return len == 0 ? (uint8_t *)jorehyi_nowhere() : p; }

static inline uint64_t *jorehyi_words(uint64_t *p, size_t len) { return len == 0 ? jorehyi_nowhere() : p; }

/* A session, from no nodes and empty registers. */
static inline enum jorehyi_status jorehyi_checked_session(const uint8_t *text, size_t text_len, uint8_t *store,
                                                          size_t store_len, uint64_t *cache, size_t cache_len,
                                                          uint8_t *out, size_t out_len,
                                                          struct jorehyi_session_result *result) {
    uint64_t words[JOREHYI_SESSION_WORDS] = {0};
    int i;
    enum jorehyi_status status = jorehyi_check(text, text_len, store, store_len, cache, cache_len, out, out_len, result,
                                               sizeof *result, offsetof(struct jorehyi_session_place, result));
    if (status != JOREHYI_OK) return status;
    if (!jorehyi_session(jorehyi_readable(text, text_len), text_len, jorehyi_writable(store, store_len), store_len,
                         jorehyi_words(cache, cache_len), cache_len, jorehyi_writable(out, out_len), out_len, words,
                         JOREHYI_SESSION_WORDS))
        return JOREHYI_MISMATCH;
    result->code = (unsigned)words[0];
    result->lines = (size_t)words[1];
    result->bytes = (size_t)words[2];
    result->count = (size_t)words[3];
    for (i = 0; i < JOREHYI_REGISTERS; i++) {
        result->registers[i].filled = words[4 + 3 * i] != 0;
        result->registers[i].weight = (uint32_t)words[5 + 3 * i];
        result->registers[i].node = (uint32_t)words[6 + 3 * i];
    }
    return JOREHYI_OK;
}

/* The verdict on a text: one line in the output, or none where it has fewer than 32 bytes. */
static inline enum jorehyi_status jorehyi_checked_verdict(const uint8_t *text, size_t text_len, uint8_t *store,
                                                          size_t store_len, uint64_t *cache, size_t cache_len,
                                                          uint8_t *out, size_t out_len,
                                                          struct jorehyi_verdict_result *result) {
    uint64_t words[JOREHYI_VERDICT_WORDS] = {0};
    enum jorehyi_status status = jorehyi_check(text, text_len, store, store_len, cache, cache_len, out, out_len, result,
                                               sizeof *result, offsetof(struct jorehyi_verdict_place, result));
    if (status != JOREHYI_OK) return status;
    if (!jorehyi_verdict(jorehyi_readable(text, text_len), text_len, jorehyi_writable(store, store_len), store_len,
                         jorehyi_words(cache, cache_len), cache_len, jorehyi_writable(out, out_len), out_len, words,
                         JOREHYI_VERDICT_WORDS))
        return JOREHYI_MISMATCH;
    result->code = (unsigned)words[0];
    result->bytes = (size_t)words[1];
    return JOREHYI_OK;
}

#endif
