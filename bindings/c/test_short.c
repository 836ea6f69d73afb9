/* Tests of what is lent too short, from C: every function that takes a task refuses a row of counts or a table that is
 * shorter than needed with 8, whatever the task's edition (a length of 0 with a pointer that leads nowhere too), and
 * moves nothing; what is longer is not read. Ends with status 1 at the first that fails. Reads the text of case A from
 * the file that is named. */
#include "expect.h"

static const uint8_t init[3] = {0, 0, 0};

/* Counts and tables as they are lent, each with its length. */
struct lent {
    const uint32_t *counts;
    size_t counts_len;
    const uint8_t *facts;
    size_t facts_len;
    const uint32_t *costs;
    size_t costs_len;
    const uint32_t *shares;
    size_t shares_len;
};

#define LENT t.counts, t.counts_len, t.facts, t.facts_len, t.costs, t.costs_len, t.shares, t.shares_len

/* Every function that takes a task refuses these with 8, and moves nothing. */
static void all_short(struct lent t)
{
    static uint32_t out[DESK_DISTANCES], words[DESK_RUN_WORDS], zeros[DESK_DISTANCES];
    static uint8_t buffer[DESK_TEXT], best[DESK_BEST_STEPS];
    uint8_t bytes[DESK_RUN_BYTES] = {0};
    const uint32_t all[4] = {0, 1, 2, 3};
    EXPECT(desk_write(LENT, buffer, DESK_TEXT) == SHORT);
    EXPECT(desk_check(LENT) == SHORT);
    EXPECT(desk_distances(LENT, 0, out, DESK_DISTANCES, best, DESK_BEST_STEPS) == SHORT);
    EXPECT(desk_distance_at(LENT, 0, init, 3) == SHORT);
    EXPECT(desk_best_at(LENT, 0, init, 3) == SHORT);
    EXPECT(desk_bound(LENT, init, 3) == SHORT);
    EXPECT(desk_judge(LENT, init, 3, all, 4) == SHORT);
    EXPECT(desk_cheaper(LENT, init, 3, all, 4, all, 4) == SHORT);
    EXPECT(desk_opening(LENT, init, 3, all, 4, all, 4) == word(DESK_FIRST, 0));
    EXPECT(desk_begin(LENT, init, 3, bytes, DESK_RUN_BYTES, words, DESK_RUN_WORDS) == SHORT);
    EXPECT(desk_offer(LENT, bytes, DESK_RUN_BYTES, words, DESK_RUN_WORDS, 1, 0) == SHORT);
    EXPECT(memcmp(out, zeros, sizeof out) == 0 && memcmp(words, zeros, sizeof words) == 0);
    EXPECT(memcmp(bytes, zeros, sizeof bytes) == 0 && memcmp(buffer, zeros, sizeof buffer) == 0);
    EXPECT(memcmp(best, zeros, sizeof best) == 0);
}

/* Each part a place too short, and of no length with a pointer that leads nowhere. */
static void short_parts(struct lent whole)
{
    struct lent t = whole;
    for (t.counts_len = 0; t.counts_len < DESK_COUNTS; t.counts_len++)
        all_short(t);
    t.counts = WILD32, t.counts_len = 0;
    all_short(t);
    t.counts = NULL;
    all_short(t);
    t = whole;
    t.facts_len--;
    all_short(t);
    t.facts = WILD8, t.facts_len = 0;
    all_short(t);
    t.facts = NULL;
    all_short(t);
    t = whole;
    t.costs_len--;
    all_short(t);
    t.costs = WILD32, t.costs_len = 0;
    all_short(t);
    t.costs = NULL;
    all_short(t);
    t = whole;
    t.shares_len--;
    all_short(t);
    t.shares = WILD32, t.shares_len = 0;
    all_short(t);
    t.shares = NULL;
    all_short(t);
}

/* Parts that are a place longer are a task's all the same, and what stands there is not read. */
static void longer_parts(void)
{
    static uint32_t n[DESK_COUNTS + 1], c[DESK_COSTS + 1], s[DESK_SHARES + 1], out[DESK_DISTANCES];
    static uint8_t f[DESK_FACTS + 1], buffer[DESK_TEXT], bytes[DESK_RUN_BYTES], best[DESK_BEST_STEPS];
    static uint32_t words[DESK_RUN_WORDS];
    const struct lent t = {n, DESK_COUNTS + 1, f, DESK_FACTS + 1, c, DESK_COSTS + 1, s, DESK_SHARES + 1};
    const uint32_t all[4] = {0, 1, 2, 3};
    memset(n, 7, sizeof n), memset(f, 7, sizeof f), memset(c, 7, sizeof c), memset(s, 7, sizeof s);
    EXPECT(desk_read(text, text_len, n, DESK_COUNTS + 1, f, DESK_FACTS, c, DESK_COSTS, s, DESK_SHARES) ==
           word(DESK_DONE, 0));
    EXPECT(n[DESK_COUNTS] == 0x07070707);
    EXPECT(desk_write(LENT, buffer, DESK_TEXT) == word(DESK_DONE, text_len));
    EXPECT(memcmp(buffer, text, text_len) == 0);
    EXPECT(desk_check(LENT) == word(DESK_DONE, 0));
    EXPECT(desk_distances(LENT, 0, out, DESK_DISTANCES, best, DESK_BEST_STEPS) == word(DESK_DONE, 2));
    EXPECT(desk_distance_at(LENT, 0, init, 3) == word(DESK_DONE, 1));
    EXPECT(desk_best_at(LENT, 0, init, 3) == word(DESK_DONE, 0));
    EXPECT(desk_bound(LENT, init, 3) == word(DESK_DONE, 4));
    EXPECT(desk_judge(LENT, init, 3, all, 4) == word(DESK_DONE, 4));
    EXPECT(desk_cheaper(LENT, init, 3, all, 4, all, 4) == word(DESK_FIRST, 4));
    EXPECT(desk_opening(LENT, init, 3, all, 4, all, 4) == word(DESK_FIRST, 4));
    EXPECT(desk_begin(LENT, init, 3, bytes, DESK_RUN_BYTES, words, DESK_RUN_WORDS) == word(DESK_DONE, 0));
    EXPECT(desk_offer(LENT, bytes, DESK_RUN_BYTES, words, DESK_RUN_WORDS, 1, 0) == word(DESK_DONE, 0));
}

int main(int argc, char **argv)
{
    if (argc != 2 || !text_from(argv[1])) {
        fprintf(stderr, "test_short TEXT-OF-CASE-A\n");
        return 2;
    }
    EXPECT(desk_read(text, text_len, counts, DESK_COUNTS, TABLES) == word(DESK_DONE, 0));
    for (uint32_t edition = 1; edition <= 3; edition++) { /* in edition 3 too: 8 comes before all else */
        counts[DESK_EDITION_AT] = edition;
        short_parts((struct lent){counts, DESK_COUNTS, facts, DESK_FACTS, costs, DESK_COSTS, shares, DESK_SHARES});
    }
    longer_parts();
    printf("C: %d expectations on what is lent too short hold\n", tried);
    return 0;
}
