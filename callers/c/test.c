/* What document 01 prints and marks, document 02's masks and lowered sets, the edges of what may be lent, and every
 * misuse that the checked calls reject. */
#include "jorehyi.h"

#include <stdio.h>
#include <string.h>

enum { CAPACITY = 2048, STORE = CAPACITY * JOREHYI_NODE_BYTES, CACHE = 16384, OUT = 256, UNTOUCHED = 0xa5 };

static uint8_t store[STORE];
static uint64_t cache[CACHE];
static uint8_t out[OUT];

static int checks, failures;

#define CHECK(what) check((what), #what, __func__, __LINE__)

static void check(bool holds, const char *what, const char *where, int line) {
    checks++;
    if (holds) return;
    failures++;
    printf("%s, line %d: not so: %s\n", where, line, what);
}

static void reset(void) {
    memset(store, 0, sizeof store);
    memset(cache, 0, sizeof cache);
    memset(out, UNTOUCHED, sizeof out);
}

static const uint8_t *bytes(const char *text) { return (const uint8_t *)text; }

static bool untouched_from(size_t start) {
    for (size_t i = start; i < sizeof out; i++)
        if (out[i] != UNTOUCHED) return false;
    return true;
}

/* Whether the output is this text and then untouched. */
static bool wrote(const char *text) { return memcmp(out, text, strlen(text)) == 0 && untouched_from(strlen(text)); }

static struct jorehyi_session_result session(const char *text, size_t store_len, size_t cache_len, size_t out_len) {
    struct jorehyi_session_result result;
    reset();
    CHECK(jorehyi_checked_session(bytes(text), strlen(text), store, store_len, cache, cache_len, out, out_len,
                                  &result) == JOREHYI_OK);
    CHECK(untouched_from(result.bytes));
    return result;
}

static struct jorehyi_verdict_result verdict(const char *text, size_t store_len, size_t cache_len, size_t out_len) {
    struct jorehyi_verdict_result result;
    reset();
    CHECK(jorehyi_checked_verdict(bytes(text), strlen(text), store, store_len, cache, cache_len, out, out_len,
                                  &result) == JOREHYI_OK);
    CHECK(untouched_from(result.bytes));
    return result;
}

static bool answers(const char *text, size_t store_len, const char *expected) {
    struct jorehyi_session_result result = session(text, store_len, CACHE, OUT);
    return result.code == 0 && result.bytes == strlen(expected) && wrote(expected);
}

static bool judged(const char *text, size_t store_len, const char *expected) {
    struct jorehyi_verdict_result result = verdict(text, store_len, CACHE, OUT);
    return result.code == 0 && result.bytes == strlen(expected) && wrote(expected);
}

static bool is_empty(struct jorehyi_register r) { return !r.filled && r.weight == 0 && r.node == 0; }

static bool holds(struct jorehyi_register r, uint32_t weight, uint32_t node) {
    return r.filled && r.weight == weight && r.node == node;
}

static bool empty_session(struct jorehyi_session_result r) {
    bool empty = r.lines == 0 && r.bytes == 0 && r.count == 0;
    for (int i = 0; i < JOREHYI_REGISTERS; i++) empty = empty && is_empty(r.registers[i]);
    return empty;
}

static const char SAME[] = "lines\t1\nH\t0\nH\t0\n=\n";

/* ---- document 01 */

static void the_printed_session(void) {
    struct jorehyi_session_result r =
        session("gate\t0\tH\t0\nadd\t1\t0\t0\ncmp\t1\t0\nat\t0\t6\nlow\t2\t0\t2\ndrop\t0\ncollect\ncmp\t0\t1\n", STORE,
                CACHE, OUT);
    CHECK(wrote("ok\t2\nok\t2\nfactor\t2\nv\t2040\nno\t7\nok\t2\nok\t2\nno\t3\n"));
    CHECK(r.code == 0 && r.lines == 8 && r.bytes == 46 && r.count == 2);
    /* twice H on qubit 0, whose first value is 2h, root two; H's own node is put in after its high part's */
    CHECK(holds(r.registers[1], 61457, 2));
    for (int i = 0; i < JOREHYI_REGISTERS; i++)
        if (i != 1) CHECK(is_empty(r.registers[i]));
}

static void the_marked_cases(void) {
    CHECK(answers("unit\t0\t1\n", 48, "ok\t3\n"));
    CHECK(answers("unit\t0\t1\n", 32, "no\t8\n"));
    CHECK(answers("gate\t0\tH\t0\n", 32, "ok\t2\n"));
    CHECK(answers("gate\t0\tH\t0\n", 16, "no\t8\n"));
    CHECK(judged(SAME, STORE, "same\n"));
    CHECK(judged("lines\t1\nT\t0\nT\t0\n=\nS\t0\n", STORE, "same\n"));
    CHECK(judged("lines\t1\nX\t0\nZ\t0\nX\t0\n=\nZ\t0\n", STORE, "factor\t65536\n"));
    CHECK(judged("lines\t1\nS\t0\n=\nZ\t0\n", STORE, "differ\n"));
}

/* ---- document 02 */

static void masks(void) {
    /* H on qubit 0 has indices 1 and 2; the unit has every qubit's input and middle, also where a collection has moved
     * its nodes */
    CHECK(answers("put\t0\t7\non\t0\ngate\t0\tH\t0\non\t0\nunit\t1\t8\non\t1\ndrop\t0\ncollect\non\t1\n", STORE,
                  "ok\t0\nm\t0\nok\t2\nm\t6\nok\t26\nm\t7190235\nok\t26\nok\t24\nm\t7190235\n"));
    CHECK(answers("on\t0\t0\non\t16\non\t0\n", STORE, "no\t1\nno\t2\nno\t3\n"));
}

static void lowered_sets(void) {
    /* H on qubit 0 goes from the indices 1 and 2 to 0 and 1, as by two single calls, also after a collection */
    CHECK(answers("gate\t0\tH\t0\nlows\t1\t0\t6\non\t1\nlow\t2\t0\t1\nlow\t2\t2\t2\ncmp\t1\t2\n", STORE,
                  "ok\t2\nok\t4\nm\t3\nok\t5\nok\t5\nsame\n"));
    CHECK(answers("gate\t0\tH\t0\nlows\t1\t0\t6\ndrop\t0\ncollect\ngate\t0\tH\t0\nlows\t0\t0\t6\ncmp\t0\t1\n", STORE,
                  "ok\t2\nok\t4\nok\t4\nok\t2\nok\t4\nok\t4\nsame\n"));
    /* four nodes are enough for the set, not for its indices one after the other */
    CHECK(answers("gate\t0\tH\t0\nlows\t0\t0\t6\n", 64, "ok\t2\nok\t4\n"));
    CHECK(answers("gate\t0\tH\t0\nlow\t0\t0\t1\nlow\t0\t0\t2\n", 64, "ok\t2\nok\t3\nno\t8\n"));
    CHECK(answers("lows\t0\t0\nlows\t16\t0\t1\nlows\t0\t0\t1\nlows\t0\t0\t16777216\nlows\t0\t0\t2\n", 32,
                  "no\t1\nno\t2\nno\t4\nno\t4\nno\t3\n"));
    CHECK(answers("gate\t0\tH\t0\nlows\t0\t0\t4\nlows\t0\t0\t2\nlows\t0\t0\t0\n", 32,
                  "ok\t2\nno\t7\nno\t8\nok\t2\n"));
}

/* ---- the edges */

static void empty_text(void) {
    struct jorehyi_session_result r = session("", STORE, CACHE, OUT);
    CHECK(r.code == 0 && empty_session(r));
    CHECK(judged("", STORE, "no\t10\t1\n"));
}

static void nothing_lent_at_all(void) {
    struct jorehyi_session_result s;
    struct jorehyi_verdict_result v;
    CHECK(jorehyi_checked_session(NULL, 0, NULL, 0, NULL, 0, NULL, 0, &s) == JOREHYI_OK);
    CHECK(s.code == 0 && empty_session(s));
    CHECK(jorehyi_checked_verdict(NULL, 0, NULL, 0, NULL, 0, NULL, 0, &v) == JOREHYI_OK);
    CHECK(v.code == 9 && v.bytes == 0);
}

static void session_output(void) {
    /* an answer has 5 bytes here, and a line is begun while 16 remain */
    static const struct {
        size_t len, lines;
        unsigned code;
    } cases[] = {{0, 0, 9}, {15, 0, 9}, {16, 1, 9}, {21, 2, 9}, {31, 4, 9}, {32, 4, 9}, {36, 5, 0}};
    static const char all[] = "ok\t0\nok\t0\nok\t0\nok\t0\nok\t0\n";
    for (size_t i = 0; i < sizeof cases / sizeof cases[0]; i++) {
        struct jorehyi_session_result r =
            session("put\t0\t1\nput\t1\t1\nput\t2\t1\nput\t3\t1\nput\t4\t1\n", 0, 0, cases[i].len);
        CHECK(r.code == cases[i].code && r.lines == cases[i].lines && r.count == 0);
        CHECK(r.bytes == 5 * r.lines && memcmp(out, all, r.bytes) == 0);
        for (size_t k = 0; k < JOREHYI_REGISTERS; k++)
            CHECK(k < r.lines ? holds(r.registers[k], 1, 0) : is_empty(r.registers[k]));
    }
}

static void verdict_output(void) {
    static const char *const texts[] = {SAME, "", "nonsense"};
    static const size_t short_ones[] = {0, 15, 16, 31};
    for (size_t i = 0; i < 3; i++)
        for (size_t k = 0; k < 4; k++) {
            struct jorehyi_verdict_result r = verdict(texts[i], STORE, CACHE, short_ones[k]);
            CHECK(r.code == 9 && r.bytes == 0);
        }
    for (size_t len = 32; len <= 33; len++) {
        struct jorehyi_verdict_result r = verdict(SAME, STORE, CACHE, len);
        CHECK(r.code == 0 && r.bytes == 5 && wrote("same\n"));
    }
}

static void empty_store(void) {
    CHECK(answers("put\t0\t65536\ngate\t1\tX\t0\nat\t0\t0\n", 0, "ok\t0\nno\t8\nv\t65536\n"));
    CHECK(judged(SAME, 0, "no\t8\t1\n"));
}

static void capacity_is_rounded_down(void) {
    CHECK(answers("unit\t0\t1", 47, "no\t8\n"));
    CHECK(answers("unit\t0\t1", 48, "ok\t3\n"));
    CHECK(answers("unit\t0\t1", 63, "ok\t3\n"));
}

static void the_cache_changes_no_answer(void) {
    static const size_t lengths[] = {0, 1, 3, 4, 5, 8, 4096};
    for (size_t i = 0; i < sizeof lengths / sizeof lengths[0]; i++) {
        (void)verdict(SAME, STORE, lengths[i], OUT);
        CHECK(wrote("same\n"));
    }
}

static void rubbish_in_the_lent_memory(void) {
    static const int rubbish[] = {0xff, 0x01, 0x10};
    static const char text[] = "lines\t2\nCX\t0\t1\n=\nCX\t1\t0\n";
    for (int i = 0; i < 3; i++) {
        struct jorehyi_verdict_result r;
        memset(store, rubbish[i], sizeof store);
        memset(cache, rubbish[i], sizeof cache);
        memset(out, rubbish[i], sizeof out);
        CHECK(jorehyi_checked_verdict(bytes(SAME), strlen(SAME), store, STORE, cache, CACHE, out, OUT, &r) ==
              JOREHYI_OK);
        CHECK(r.bytes == 5 && memcmp(out, "same\n", 5) == 0);
        /* and again on what the first run left */
        CHECK(jorehyi_checked_verdict(bytes(text), strlen(text), store, STORE, cache, CACHE, out, OUT, &r) ==
              JOREHYI_OK);
        CHECK(r.bytes == 7 && memcmp(out, "differ\n", 7) == 0);
    }
}

static void faulty_texts(void) {
    CHECK(judged("\n", STORE, "no\t10\t1\n"));
    CHECK(judged("lines\t0\n=\n", STORE, "no\t10\t1\n"));
    CHECK(judged("lines\t9\n=\n", STORE, "no\t10\t1\n"));
    CHECK(judged("lines 1\n=\n", STORE, "no\t10\t1\n"));
    CHECK(judged("lines\t1\nh\t0\n=\n", STORE, "no\t11\t2\n"));
    CHECK(judged("lines\t1\nH\t00\n=\n", STORE, "no\t11\t2\n"));
    CHECK(judged("lines\t1\n=\nH\t0\r\n", STORE, "no\t11\t3\n"));
    CHECK(judged("lines\t1\n=\n\n", STORE, "no\t11\t3\n"));
    CHECK(judged("lines\t2\nX\t0\nCX\t0\t2\n=\n", STORE, "no\t12\t3\n"));
    CHECK(judged("lines\t2\nCX\t1\t1\n=\n", STORE, "no\t13\t2\n"));
    CHECK(judged("lines\t1\n=\n=\n", STORE, "no\t14\t3\n"));
    CHECK(judged("lines\t1\nH\t0", STORE, "no\t14\t3\n"));
}

/* ---- the raw result */

enum { LONG = 60 };

static void fill(uint64_t *words) {
    for (int i = 0; i < LONG; i++) words[i] = UINT64_MAX;
}

static bool kept_from(const uint64_t *words, int start) {
    for (int i = start; i < LONG; i++)
        if (words[i] != UINT64_MAX) return false;
    return true;
}

static void raw_result_too_short(void) {
    uint64_t words[LONG];
    uint8_t store_before[64];
    reset();
    fill(words);
    memset(store, 0x5a, sizeof store_before);
    memcpy(store_before, store, sizeof store_before);
    CHECK(!jorehyi_session(bytes("unit\t0\t1"), 8, store, 64, cache, 8, out, OUT, words, JOREHYI_SESSION_WORDS - 1));
    CHECK(!jorehyi_verdict(bytes(SAME), strlen(SAME), store, 64, cache, 8, out, OUT, words, JOREHYI_VERDICT_WORDS - 1));
    CHECK(!jorehyi_session(bytes(SAME), 0, store, 0, cache, 0, out, 0, words, 0));
    CHECK(!jorehyi_verdict(bytes(SAME), 0, store, 0, cache, 0, out, 0, words, 0));
    CHECK(kept_from(words, 0) && untouched_from(0) && memcmp(store, store_before, sizeof store_before) == 0);
    for (int i = 0; i < 8; i++) CHECK(cache[i] == 0);
}

static void raw_result_longer(void) {
    uint64_t words[LONG];
    reset();
    fill(words);
    CHECK(jorehyi_session(bytes("put\t15\t7"), 8, store, STORE, cache, CACHE, out, OUT, words, LONG));
    CHECK(words[0] == 0 && words[1] == 1 && words[2] == 5 && words[3] == 0);
    for (int i = 4; i < 49; i++) CHECK(words[i] == 0);
    CHECK(words[49] == 1 && words[50] == 7 && words[51] == 0);
    CHECK(kept_from(words, JOREHYI_SESSION_WORDS));
    fill(words);
    CHECK(jorehyi_verdict(bytes(SAME), strlen(SAME), store, STORE, cache, CACHE, out, OUT, words, LONG));
    CHECK(words[0] == 0 && words[1] == 5);
    CHECK(kept_from(words, JOREHYI_VERDICT_WORDS));
}

/* ---- misuse */

/* The arguments of a call, which each test spoils in one place. */
struct arguments {
    const uint8_t *text;
    size_t text_len;
    uint8_t *store;
    size_t store_len;
    uint64_t *cache;
    size_t cache_len;
    uint8_t *out;
    size_t out_len;
    struct jorehyi_session_result *session;
    struct jorehyi_verdict_result *verdict;
};

static struct jorehyi_session_result session_place;
static struct jorehyi_verdict_result verdict_place;

/* Good arguments, in one block of memory where each range begins at the end of the one before. */
static uint64_t block[512];

static struct arguments good(void) {
    uint8_t *start = (uint8_t *)block;
    struct arguments a = {start, 18,           start + 18, 1030,           block + 131,
                          64,    start + 1560, 40,         &session_place, &verdict_place};
    memset(block, UNTOUCHED, sizeof block);
    memcpy(start, SAME, 18);
    memset(&session_place, UNTOUCHED, sizeof session_place);
    memset(&verdict_place, UNTOUCHED, sizeof verdict_place);
    return a;
}

static enum jorehyi_status call_session(struct arguments a) {
    return jorehyi_checked_session(a.text, a.text_len, a.store, a.store_len, a.cache, a.cache_len, a.out, a.out_len,
                                   a.session);
}

static enum jorehyi_status call_verdict(struct arguments a) {
    return jorehyi_checked_verdict(a.text, a.text_len, a.store, a.store_len, a.cache, a.cache_len, a.out, a.out_len,
                                   a.verdict);
}

/* Whether both calls reject the arguments for this reason and change nothing. */
static bool rejected(struct arguments a, enum jorehyi_status reason) {
    uint8_t before[sizeof block];
    struct jorehyi_session_result s;
    struct jorehyi_verdict_result v;
    memcpy(before, block, sizeof block);
    memcpy(&s, &session_place, sizeof s); /* padding included */
    memcpy(&v, &verdict_place, sizeof v);
    return call_session(a) == reason && call_verdict(a) == reason && memcmp(before, block, sizeof block) == 0 &&
           memcmp(&s, &session_place, sizeof s) == 0 && memcmp(&v, &verdict_place, sizeof v) == 0;
}

#define REJECTED(field, value, reason) \
    do {                               \
        struct arguments a = good();   \
        a.field = (value);             \
        CHECK(rejected(a, (reason)));  \
    } while (0)

static void good_arguments_that_touch(void) {
    struct arguments a = good();
    CHECK(call_verdict(a) == JOREHYI_OK && verdict_place.code == 0 && memcmp(a.out, "same\n", 5) == 0);
    a = good();
    CHECK(call_session(a) == JOREHYI_OK && session_place.code == 0 && session_place.lines == 4);
}

static void null_with_a_length(void) {
    REJECTED(text, NULL, JOREHYI_NULL);
    REJECTED(store, NULL, JOREHYI_NULL);
    REJECTED(cache, NULL, JOREHYI_NULL);
    REJECTED(out, NULL, JOREHYI_NULL);
}

static void null_for_the_result(void) {
    struct arguments a = good();
    a.session = NULL;
    a.verdict = NULL;
    CHECK(rejected(a, JOREHYI_NULL));
}

static void misaligned(void) {
    struct arguments a = good();
    for (size_t by = 1; by < 8; by++)
        REJECTED(cache, (uint64_t *)(void *)((uint8_t *)(block + 131) + by), JOREHYI_MISALIGNED);
    a.session = (struct jorehyi_session_result *)(void *)((uint8_t *)(block + 256) + 1);
    a.verdict = (struct jorehyi_verdict_result *)(void *)((uint8_t *)(block + 256) + 1);
    CHECK(rejected(a, JOREHYI_MISALIGNED));
}

static void misaligned_but_empty(void) {
    struct arguments a = good();
    a.cache = (uint64_t *)(void *)((uint8_t *)block + 1);
    a.cache_len = 0;
    CHECK(call_verdict(a) == JOREHYI_OK && memcmp(a.out, "same\n", 5) == 0);
}

static void too_long(void) {
    size_t longest = (size_t)PTRDIFF_MAX;
    REJECTED(text_len, longest + 1, JOREHYI_TOO_LONG);
    REJECTED(store_len, longest + 1, JOREHYI_TOO_LONG);
    REJECTED(cache_len, longest / 8 + 1, JOREHYI_TOO_LONG);
    REJECTED(cache_len, SIZE_MAX / 8 + 2, JOREHYI_TOO_LONG); /* 8 bytes, if it wrapped */
    REJECTED(out_len, SIZE_MAX, JOREHYI_TOO_LONG);
}

static void beyond_the_address_space(void) { REJECTED(out, (uint8_t *)(UINTPTR_MAX - 20), JOREHYI_TOO_LONG); }

static void overlap_of_the_lent_ranges(void) {
    uint8_t *start = (uint8_t *)block;
    REJECTED(text_len, 19, JOREHYI_OVERLAP);                  /* the text's last byte is the store's first */
    REJECTED(text, start + 1048, JOREHYI_OVERLAP);            /* the text in the cache */
    REJECTED(text, start + 1599, JOREHYI_OVERLAP);            /* the text from the output's last byte on */
    REJECTED(store_len, 1031, JOREHYI_OVERLAP);               /* the store's last byte is the cache's first */
    REJECTED(store, start + 1570, JOREHYI_OVERLAP);           /* the store from within the output */
    REJECTED(cache_len, 65, JOREHYI_OVERLAP);                 /* the cache's last word is the output's first bytes */
    REJECTED(out, start, JOREHYI_OVERLAP);                    /* the output over text and store */
    REJECTED(out, (uint8_t *)(block + 131), JOREHYI_OVERLAP); /* the output in the cache */
}

static void overlap_of_the_result(void) {
    static const size_t places[] = {0, 24, 1048, 1560}; /* in the text, the store, the cache and the output */
    for (size_t i = 0; i < 4; i++) {
        struct arguments a = good();
        a.session = (struct jorehyi_session_result *)(void *)((uint8_t *)block + places[i]);
        a.verdict = (struct jorehyi_verdict_result *)(void *)((uint8_t *)block + places[i]);
        CHECK(rejected(a, JOREHYI_OVERLAP));
    }
}

static void overlap_of_empty_ranges(void) {
    struct arguments a = good();
    a.cache = block;
    a.cache_len = 0;
    a.store = (uint8_t *)block;
    a.store_len = 0;
    CHECK(call_verdict(a) == JOREHYI_OK && memcmp(a.out, "no\t8\t1\n", 7) == 0);
}

int main(void) {
    the_printed_session();
    the_marked_cases();
    masks();
    lowered_sets();
    empty_text();
    nothing_lent_at_all();
    session_output();
    verdict_output();
    empty_store();
    capacity_is_rounded_down();
    the_cache_changes_no_answer();
    rubbish_in_the_lent_memory();
    faulty_texts();
    raw_result_too_short();
    raw_result_longer();
    good_arguments_that_touch();
    null_with_a_length();
    null_for_the_result();
    misaligned();
    misaligned_but_empty();
    too_long();
    beyond_the_address_space();
    overlap_of_the_lent_ranges();
    overlap_of_the_result();
    overlap_of_empty_ranges();
    printf("C: %d checks, %d failed\n", checks, failures);
    return failures == 0 ? 0 : 1;
}
