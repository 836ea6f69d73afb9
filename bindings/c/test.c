/* Tests of the desk from C: each function on case A (what reads and writes its text is in test_text.c, edition 2 in
 * test_stored.c, best steps in test_best.c), what is lent too short (a length of 0 with a pointer that leads nowhere
 * too; counts and tables in test_short.c), that a refusal leaves lent memory as it was, and what the helpers tell of
 * any run. Ends with status 1 at the first that fails. Reads the text of case A from the file that is named. */
#include "expect.h"

static const uint8_t init[3] = {0, 0, 0};

/* Where the facts say what operator 0 asks of variable 0, and what it sets it to. With 0 at the first it asks nothing
 * of it, and so may always run. */
#define OP0_ASKS 24
#define OP0_SETS 536

/* The initial state stands where the header says, and can be lent from there. */
static void initial_state(void)
{
    static uint8_t other[sizeof text];
    const uint8_t elsewhere[8] = {1, 2, 0};
    memcpy(other, text, text_len);
    char *line = strstr((char *)other, "init=0,0,0\n");
    EXPECT(line != NULL);
    memcpy(line, "init=1,2,0\n", 11);
    EXPECT(desk_read(other, text_len, counts, DESK_COUNTS, TABLES) == word(DESK_DONE, 0));
    EXPECT(memcmp(facts + DESK_INITIAL, elsewhere, 8) == 0);
    EXPECT(desk_bound(TASK, facts + DESK_INITIAL, counts[DESK_VARIABLES_AT]) == word(DESK_DONE, 1));
    EXPECT(desk_read(text, text_len, counts, DESK_COUNTS, TABLES) == word(DESK_DONE, 0));
}

static void checks(void)
{
    EXPECT(desk_check(TASK) == word(DESK_DONE, 0));
    EXPECT(desk_check(COUNTED, facts, DESK_FACTS - 1, costs, DESK_COSTS, shares, DESK_SHARES) == SHORT);
    EXPECT(desk_check(COUNTED, WILD8, 0, costs, DESK_COSTS, shares, DESK_SHARES) == SHORT);
    EXPECT(desk_check(COUNTED, NULL, 0, NULL, 0, NULL, 0) == SHORT);
    EXPECT(desk_check(COUNTED, facts, DESK_FACTS, WILD32, 0, shares, DESK_SHARES) == SHORT);
    EXPECT(desk_check(COUNTED, facts, DESK_FACTS, costs, DESK_COSTS, WILD32, 0) == SHORT);
    EXPECT(desk_check(counts, DESK_COUNTS - 1, TABLES) == SHORT);
    EXPECT(desk_check(WILD32, 0, TABLES) == SHORT);
    EXPECT(desk_check(OF(9, 4, 3), TABLES) == word(3, 2));
    EXPECT(desk_check(OF(3, 65, 3), TABLES) == word(3, 6));
    EXPECT(desk_check(OF(3, 4, 0), TABLES) == word(3, 11));
    shares[128 + 1] = 1; /* case C */
    EXPECT(desk_check(TASK) == word(6, 8));
    EXPECT(desk_bound(TASK, init, 3) == word(6, 8));
    shares[128 + 1] = 0;
    facts[OP0_SETS] = facts[OP0_ASKS]; /* operator 0 sets what it asks for */
    EXPECT(desk_check(TASK) == word(18, 7));
    EXPECT(desk_bound(TASK, init, 3) == word(18, 7));
    facts[OP0_SETS] = 0;
    EXPECT(desk_check(TASK) == word(18, 7));
    facts[OP0_SETS] = 3; /* first of all no value of its variable */
    EXPECT(desk_check(TASK) == word(3, 7));
    facts[OP0_SETS] = 2;
    EXPECT(desk_check(TASK) == word(DESK_DONE, 0));
}

static void distances(void)
{
    static uint32_t out[DESK_DISTANCES + 1];
    static uint8_t best[DESK_BEST_STEPS];
#define BEST best, DESK_BEST_STEPS
    memset(out, 9, sizeof out);
    EXPECT(desk_distances(TASK, 0, out, DESK_DISTANCES - 1, BEST) == SHORT);
    EXPECT(desk_distances(TASK, 0, WILD32, 0, BEST) == SHORT);
    EXPECT(desk_distances(COUNTED, facts, DESK_FACTS, WILD32, 0, shares, DESK_SHARES, 0, out, DESK_DISTANCES, BEST) ==
           SHORT);
    EXPECT(desk_distances(TASK, 3, out, DESK_DISTANCES, BEST) == word(3, 0));
    EXPECT(out[0] == 0x09090909 && out[1] == 0x09090909);
    EXPECT(desk_distances(TASK, 1, out, DESK_DISTANCES, BEST) == word(DESK_DONE, 3));
    EXPECT(out[0] == 2 && out[1] == 1 && out[2] == 0 && out[3] == 0x09090909);
    EXPECT(desk_distances(TASK, 0, out, sizeof out / sizeof *out, BEST) == word(DESK_DONE, 2));
    EXPECT(out[0] == 1 && out[1] == 0 && out[2] == 0 && out[3] == 0x09090909);
    EXPECT(desk_distance_at(TASK, 1, init, 3) == word(DESK_DONE, 2));
    EXPECT(desk_distance_at(TASK, 1, init, 2) == SHORT);
    EXPECT(desk_distance_at(TASK, 1, WILD8, 0) == SHORT);
    EXPECT(desk_distance_at(TASK, 9, init, 3) == word(3, 0));
    EXPECT(desk_distance_at(COUNTED, WILD8, 0, costs, DESK_COSTS, shares, DESK_SHARES, 0, init, 3) == SHORT);
}

static void bounds(void)
{
    const uint8_t ahead[3] = {1, 0, 0}, near[3] = {0, 2, 2}, outside[3] = {0, 3, 9};
    EXPECT(desk_bound(TASK, init, 3) == word(DESK_DONE, 4));
    EXPECT(desk_bound(TASK, ahead, 3) == word(DESK_DONE, 3));
    EXPECT(desk_bound(TASK, outside, 3) == word(9, 1));
    EXPECT(desk_bound(TASK, init, 2) == SHORT);
    EXPECT(desk_bound(TASK, WILD8, 0) == SHORT);
    EXPECT(desk_bound(COUNTED, facts, DESK_FACTS, costs, DESK_COSTS, shares, DESK_SHARES - 1, init, 3) == SHORT);
    /* with no operators only a goal has a distance; the shares of what isn't there aren't read */
    EXPECT(desk_bound(OF(3, 0, 3), TABLES, init, 3) == word(DESK_NONE, 0));
    EXPECT(desk_distance_at(OF(3, 0, 3), TABLES, 0, init, 3) == word(DESK_NONE, 0));
    /* with the first operator alone map 0 has a way and the others have none, which settles the sum */
    EXPECT(desk_distance_at(OF(3, 1, 3), TABLES, 0, init, 3) == word(DESK_DONE, 1));
    EXPECT(desk_distance_at(OF(3, 1, 3), TABLES, 1, init, 3) == word(DESK_NONE, 0));
    EXPECT(desk_bound(OF(3, 1, 3), TABLES, init, 3) == word(DESK_NONE, 0));
    EXPECT(desk_bound(OF(3, 1, 3), TABLES, near, 3) == word(DESK_DONE, 1));
}

static void sequences(void)
{
    const uint32_t all[4] = {0, 1, 2, 3}, stuck[2] = {0, 2}, unknown[2] = {0, 4}, other[5] = {1, 2, 3, 0, 9};
    static uint32_t many[DESK_STEPS + 1];
    EXPECT(desk_judge(TASK, init, 3, all, 4) == word(DESK_DONE, 4));
    EXPECT(desk_judge(TASK, init, 3, stuck, 2) == word(12, 2));
    EXPECT(desk_judge(TASK, init, 3, unknown, 2) == word(10, 2));
    EXPECT(desk_judge(TASK, init, 3, all, 1) == word(16, 1));
    EXPECT(desk_judge(TASK, init, 3, WILD32, 0) == word(16, 0));
    EXPECT(desk_judge(TASK, init, 3, many, DESK_STEPS + 1) == word(11, 0));
    EXPECT(desk_judge(TASK, init, 2, all, 4) == SHORT);
    EXPECT(desk_judge(COUNTED, facts, DESK_FACTS, WILD32, 0, shares, DESK_SHARES, init, 3, all, 4) == SHORT);
    EXPECT(desk_cheaper(TASK, init, 3, stuck, 2, other, 5) == word(DESK_SECOND, 4));
    EXPECT(desk_cheaper(TASK, init, 3, all, 4, other, 5) == word(DESK_FIRST, 4));
    EXPECT(desk_cheaper(TASK, init, 3, stuck, 2, WILD32, 0) == word(DESK_NEITHER, 0));
    EXPECT(desk_cheaper(TASK, WILD8, 0, all, 4, other, 5) == SHORT);
    EXPECT(desk_opening(TASK, init, 3, stuck, 2, other, 5) == word(DESK_SECOND, 4));
    EXPECT(desk_opening(TASK, init, 3, all, 4, other, 5) == word(DESK_FIRST, 4));
    EXPECT(desk_opening(TASK, init, 3, stuck, 2, WILD32, 0) == word(DESK_FIRST, 0));
    EXPECT(desk_opening(TASK, WILD8, 0, all, 4, other, 5) == word(DESK_FIRST, 0));
}

static void runs(void)
{
    static uint8_t bytes[DESK_RUN_BYTES + 1], bytes0[DESK_RUN_BYTES + 1];
    static uint32_t words[DESK_RUN_WORDS + 1], words0[DESK_RUN_WORDS + 1];
    const uint8_t outside[3] = {0, 3, 0};
#define RUN bytes, DESK_RUN_BYTES, words, DESK_RUN_WORDS
#define KEEP (memcpy(bytes0, bytes, sizeof bytes), memcpy(words0, words, sizeof words))
#define KEPT (memcmp(bytes0, bytes, sizeof bytes) == 0 && memcmp(words0, words, sizeof words) == 0)
    memset(bytes, 5, sizeof bytes);
    memset(words, 5, sizeof words);
    KEEP;
    EXPECT(desk_begin(TASK, init, 3, bytes, DESK_RUN_BYTES - 1, words, DESK_RUN_WORDS) == SHORT && KEPT);
    EXPECT(desk_begin(TASK, init, 3, WILD8, 0, words, DESK_RUN_WORDS) == SHORT && KEPT);
    EXPECT(desk_begin(TASK, init, 3, bytes, DESK_RUN_BYTES, words, DESK_RUN_WORDS - 1) == SHORT && KEPT);
    EXPECT(desk_begin(TASK, init, 3, bytes, DESK_RUN_BYTES, WILD32, 0) == SHORT && KEPT);
    EXPECT(desk_begin(COUNTED, WILD8, 0, costs, DESK_COSTS, shares, DESK_SHARES, init, 3, RUN) == SHORT && KEPT);
    EXPECT(desk_begin(TASK, init, 2, RUN) == SHORT && KEPT);
    EXPECT(desk_begin(TASK, WILD8, 0, RUN) == SHORT && KEPT);
    EXPECT(desk_begin(TASK, outside, 3, RUN) == word(9, 1) && KEPT);
    EXPECT(desk_offer(TASK, RUN, 1, 0) == word(17, 0) && KEPT);
    EXPECT(desk_begin(TASK, init, 3, RUN) == word(DESK_DONE, 0));
    EXPECT(bytes[DESK_RUN_BYTES] == 5 && words[DESK_RUN_WORDS] == 0x05050505);
    for (size_t i = 0; i < DESK_RUN_WORDS; i++)
        EXPECT(words[i] == 0);
    EXPECT(desk_offer(TASK, RUN, 1, 0) == word(DESK_DONE, 0));
    EXPECT(desk_run_steps(words) == 1 && desk_run_op(words, 1) == 0 && bytes[DESK_RUN_NOW] == 1);
    EXPECT(desk_run_op(words, 0) == DESK_NO_OPERATOR && desk_run_op(words, 2) == DESK_NO_OPERATOR);
    EXPECT(desk_run_paid(words, 0) == 1 && desk_run_paid(words, 1) == 0 && desk_run_paid(words, 2) == 0);
    EXPECT(desk_run_unshared(words) == 0 && desk_run_stored(words) == 0);
    KEEP;
    EXPECT(desk_offer(TASK, RUN, 1, 0) == word(DESK_REPEATED, 0) && KEPT);
    EXPECT(desk_offer(TASK, RUN, 1, 1) == word(14, 1) && KEPT);
    EXPECT(desk_offer(TASK, RUN, 3, 0) == word(13, 3) && KEPT);
    EXPECT(desk_offer(TASK, RUN, 0, 0) == word(13, 0) && KEPT);
    EXPECT(desk_offer(TASK, RUN, 2, 4) == word(10, 2) && KEPT);
    EXPECT(desk_offer(TASK, RUN, 2, 2) == word(12, 2) && KEPT);
    EXPECT(desk_offer(TASK, RUN, UINT32_MAX, UINT32_MAX) == word(10, UINT32_MAX) && KEPT);
    EXPECT(desk_offer(TASK, bytes, DESK_RUN_BYTES - 1, words, DESK_RUN_WORDS, 2, 1) == SHORT && KEPT);
    EXPECT(desk_offer(TASK, WILD8, 0, words, DESK_RUN_WORDS, 2, 1) == SHORT && KEPT);
    EXPECT(desk_offer(TASK, bytes, DESK_RUN_BYTES, words, DESK_RUN_WORDS - 1, 2, 1) == SHORT && KEPT);
    EXPECT(desk_offer(TASK, bytes, DESK_RUN_BYTES, WILD32, 0, 2, 1) == SHORT && KEPT);
    EXPECT(desk_offer(COUNTED, facts, DESK_FACTS, costs, DESK_COSTS, WILD32, 0, RUN, 2, 1) == SHORT && KEPT);
    words[DESK_STEPS + 1]++; /* a column that no offers could have left */
    KEEP;
    EXPECT(desk_offer(TASK, RUN, 2, 1) == word(17, 0) && KEPT);
    words[DESK_STEPS + 1]--;
    EXPECT(desk_offer(TASK, RUN, 2, 1) == word(DESK_DONE, 0));
    EXPECT(desk_offer(TASK, RUN, 3, 2) == word(DESK_DONE, 0));
    EXPECT(desk_offer(TASK, RUN, 4, 3) == word(DESK_DONE, 0));
    EXPECT(desk_run_steps(words) == 4 && desk_run_stored(words) == 0);
    EXPECT(desk_run_paid(words, 0) == 1 && desk_run_paid(words, 1) == 2 && desk_run_paid(words, 2) == 1);
    EXPECT(desk_bound(TASK, bytes + DESK_RUN_NOW, 3) == word(DESK_DONE, 0));
    EXPECT(desk_judge(TASK, bytes, 3, words, desk_run_steps(words)) == word(DESK_DONE, 4));
    uint8_t from[3]; /* another run in the same memory, from where this one is */
    memcpy(from, bytes + DESK_RUN_NOW, sizeof from);
    EXPECT(desk_begin(TASK, from, 3, RUN) == word(DESK_DONE, 0));
    EXPECT(desk_run_steps(words) == 0 && memcmp(bytes, from, 3) == 0 && memcmp(bytes + DESK_RUN_NOW, from, 3) == 0);
}

/* The most steps of a list: so many pass, as the first list and as the second, and one more is too many. */
static void longest_lists(void)
{
    static uint32_t list[DESK_STEPS], over[DESK_STEPS + 1];
    const size_t lengths[4] = {256, 257, DESK_STEPS - 1, DESK_STEPS};
    const uint32_t rest[3] = {1, 2, 3}; /* after any number of steps by operator 0 these lead to the goal */
    const uint64_t cost = (DESK_STEPS - 3) * UINT64_C(1000000) + 3;
    EXPECT(DESK_STEPS == 1024 && DESK_RUN_WORDS == 1035);
    facts[OP0_ASKS] = 0;
    costs[0] = shares[0] = 1000000;
    for (int i = 0; i < 4; i++) {
        memset(list, 0, sizeof list);
        memcpy(list + lengths[i] - 3, rest, sizeof rest);
        const uint64_t paid = (lengths[i] - 3) * UINT64_C(1000000) + 3;
        EXPECT(desk_judge(TASK, init, 3, list, lengths[i]) == word(DESK_DONE, paid));
        EXPECT(desk_judge(TASK, init, 3, list, lengths[i] - 1) == word(16, lengths[i] - 1));
        EXPECT(desk_opening(TASK, init, 3, list, lengths[i], WILD32, 0) == word(DESK_FIRST, lengths[i]));
    }
    memcpy(over + DESK_STEPS - 2, rest, sizeof rest);
    EXPECT(desk_judge(TASK, init, 3, over, DESK_STEPS + 1) == word(11, 0));
    EXPECT(desk_cheaper(TASK, init, 3, list, DESK_STEPS, over, DESK_STEPS + 1) == word(DESK_FIRST, cost));
    EXPECT(desk_cheaper(TASK, init, 3, over, DESK_STEPS + 1, list, DESK_STEPS) == word(DESK_SECOND, cost));
    EXPECT(desk_cheaper(TASK, init, 3, list, DESK_STEPS, list, DESK_STEPS) == word(DESK_FIRST, cost));
    EXPECT(desk_cheaper(TASK, init, 3, over, DESK_STEPS + 1, over, DESK_STEPS + 1) == word(DESK_NEITHER, 0));
    EXPECT(desk_opening(TASK, init, 3, list, DESK_STEPS, over, DESK_STEPS + 1) == word(DESK_FIRST, DESK_STEPS));
    EXPECT(desk_opening(TASK, init, 3, over, DESK_STEPS + 1, list, DESK_STEPS) == word(DESK_SECOND, DESK_STEPS));
    EXPECT(desk_opening(TASK, init, 3, over, DESK_STEPS + 1, over, DESK_STEPS + 1) == word(DESK_FIRST, 0));
    EXPECT(desk_read(text, text_len, counts, DESK_COUNTS, TABLES) == word(DESK_DONE, 0));
}

/* The most steps of a run, at the highest cost: so many offers are accepted, then 15; the memory of a full run holds
 * what was offered, is left as it was, and is asked for to its last word. */
static void full_run(void)
{
    static uint8_t bytes[DESK_RUN_BYTES + 1], bytes0[DESK_RUN_BYTES + 1];
    static uint32_t words[DESK_RUN_WORDS + 1], words0[DESK_RUN_WORDS + 1];
    const uint8_t ahead[3] = {1, 0, 0};
    facts[OP0_ASKS] = 0;
    costs[0] = costs[1] = shares[0] = shares[1] = 1000000; /* map 0 pays all of operators 0 and 1 */
    shares[64 + 1] = 0;
    memset(bytes, 5, sizeof bytes);
    memset(words, 5, sizeof words);
    EXPECT(desk_begin(TASK, init, 3, RUN) == word(DESK_DONE, 0));
    EXPECT(desk_offer(TASK, RUN, 1, 1) == word(DESK_DONE, 0));
    for (uint32_t number = 2; number <= DESK_STEPS; number++) {
        EXPECT(desk_offer(TASK, RUN, number, 0) == word(DESK_DONE, 0));
        EXPECT(desk_run_steps(words) == number && desk_run_paid(words, 0) == number * 1000000);
    }
    EXPECT(words[DESK_STEPS] == DESK_STEPS && desk_run_op(words, 1) == 1);
    for (uint32_t number = 2; number <= DESK_STEPS; number++)
        EXPECT(desk_run_op(words, number) == 0);
    EXPECT(desk_run_paid(words, 0) == 1024000000);
    EXPECT(desk_run_paid(words, 1) == 0 && desk_run_paid(words, 2) == 0 && desk_run_unshared(words) == 0);
    EXPECT(memcmp(bytes, init, 3) == 0 && bytes[DESK_RUN_NOW] == 1);
    EXPECT(bytes[DESK_RUN_NOW + 1] == 1 && bytes[DESK_RUN_NOW + 2] == 1);
    EXPECT(bytes[DESK_RUN_BYTES] == 5 && words[DESK_RUN_WORDS] == 0x05050505);
    KEEP;
    EXPECT(desk_offer(TASK, RUN, DESK_STEPS + 1, 0) == word(15, DESK_STEPS + 1) && KEPT);
    EXPECT(desk_offer(TASK, RUN, DESK_STEPS + 1, 1) == word(15, DESK_STEPS + 1) && KEPT); /* it may not run either */
    EXPECT(desk_offer(TASK, RUN, DESK_STEPS + 1, 4) == word(10, DESK_STEPS + 1) && KEPT);
    EXPECT(desk_offer(TASK, RUN, DESK_STEPS + 2, 0) == word(13, DESK_STEPS + 2) && KEPT);
    EXPECT(desk_offer(TASK, RUN, DESK_STEPS, 0) == word(DESK_REPEATED, 0) && KEPT);
    EXPECT(desk_offer(TASK, RUN, 257, 0) == word(DESK_REPEATED, 0) && KEPT);
    EXPECT(desk_offer(TASK, RUN, DESK_STEPS, 1) == word(14, DESK_STEPS) && KEPT);
    EXPECT(desk_offer(TASK, bytes, DESK_RUN_BYTES, words, DESK_RUN_WORDS - 1, DESK_STEPS, 0) == SHORT && KEPT);
    EXPECT(desk_offer(TASK, bytes, DESK_RUN_BYTES - 1, words, DESK_RUN_WORDS, DESK_STEPS, 0) == SHORT && KEPT);
    EXPECT(desk_begin(TASK, init, 3, bytes, DESK_RUN_BYTES, words, DESK_RUN_WORDS - 1) == SHORT && KEPT);
    words[DESK_STEPS - 1] = 1; /* another last step than what was booked */
    KEEP;
    EXPECT(desk_offer(TASK, RUN, DESK_STEPS, 1) == word(17, 0) && KEPT);
    words[DESK_STEPS - 1] = 0;
    words[DESK_STEPS] = DESK_STEPS + 1; /* more steps than there are places for */
    KEEP;
    EXPECT(desk_offer(TASK, RUN, DESK_STEPS, 0) == word(17, 0) && KEPT);
    words[DESK_STEPS] = DESK_STEPS;
    EXPECT(desk_offer(TASK, RUN, DESK_STEPS, 0) == word(DESK_REPEATED, 0));
    EXPECT(desk_begin(TASK, ahead, 3, RUN) == word(DESK_DONE, 0)); /* the full run is written over */
    for (size_t i = 0; i < DESK_RUN_WORDS; i++)
        EXPECT(words[i] == 0);
    EXPECT(words[DESK_RUN_WORDS] == 0x05050505);
    EXPECT(desk_read(text, text_len, counts, DESK_COUNTS, TABLES) == word(DESK_DONE, 0));
}

/* A run that is watched, with a retry, a step that may not run and another operator at an old number on its way to the
 * goal: between any two moments the bound falls by at most what the maps were paid in between. */
static void watched(void)
{
    static uint8_t bytes[DESK_RUN_BYTES];
    static uint32_t words[DESK_RUN_WORDS];
    const uint32_t offers[8][2] = {{1, 0}, {1, 0}, {2, 2}, {2, 1}, {1, 1}, {3, 2}, {4, 3}, {4, 3}};
    uint64_t bound[9], paid[9];
    EXPECT(desk_begin(TASK, init, 3, bytes, DESK_RUN_BYTES, words, DESK_RUN_WORDS) == word(DESK_DONE, 0));
    for (int i = 0; i < 9; i++) {
        if (i > 0)
            desk_offer(TASK, bytes, DESK_RUN_BYTES, words, DESK_RUN_WORDS, offers[i - 1][0], offers[i - 1][1]);
        desk_word w = desk_bound(TASK, bytes + DESK_RUN_NOW, 3);
        EXPECT(desk_kind(w) == DESK_DONE);
        bound[i] = desk_number(w);
        paid[i] = 0;
        for (uint32_t map = 0; map < counts[DESK_MAPS_AT]; map++)
            paid[i] += desk_run_paid(words, map);
        for (int j = 0; j <= i; j++)
            EXPECT(bound[j] <= bound[i] + (paid[i] - paid[j]));
    }
    EXPECT(bound[0] == 4 && paid[0] == 0 && bound[8] == 0 && paid[8] == 4);
}

/* What the helpers tell of a run's words, of any contents: nothing beyond its steps, its 8 maps and its words. */
static void run_helpers(void)
{
    static uint32_t words[DESK_RUN_WORDS];
    for (uint32_t i = 0; i < DESK_RUN_WORDS; i++)
        words[i] = 1000 + i;
    words[DESK_STEPS] = 3;
    EXPECT(desk_run_steps(words) == 3);
    EXPECT(desk_run_op(words, 1) == 1000 && desk_run_op(words, 3) == 1002);
    EXPECT(desk_run_op(words, 0) == DESK_NO_OPERATOR && desk_run_op(words, 4) == DESK_NO_OPERATOR);
    EXPECT(desk_run_op(words, DESK_STEPS + 1) == DESK_NO_OPERATOR);
    EXPECT(desk_run_op(words, UINT32_MAX) == DESK_NO_OPERATOR);
    EXPECT(desk_run_paid(words, 0) == 1000 + DESK_STEPS + 1 && desk_run_paid(words, 7) == 1000 + DESK_STEPS + 8);
    EXPECT(desk_run_paid(words, 8) == 0 && desk_run_paid(words, 9) == 0 && desk_run_paid(words, UINT32_MAX) == 0);
    EXPECT(desk_run_unshared(words) == 1000 + DESK_STEPS + 9 && desk_run_stored(words) == 1000 + DESK_STEPS + 10);
    words[DESK_STEPS] = 0;
    EXPECT(desk_run_steps(words) == 0 && desk_run_op(words, 1) == DESK_NO_OPERATOR);
    words[DESK_STEPS] = DESK_STEPS;
    EXPECT(desk_run_steps(words) == DESK_STEPS && desk_run_op(words, DESK_STEPS) == 1000 + DESK_STEPS - 1);
    const uint32_t more[3] = {DESK_STEPS + 1, DESK_RUN_WORDS, UINT32_MAX}; /* more than a run has places for */
    for (int i = 0; i < 3; i++) {
        words[DESK_STEPS] = more[i];
        EXPECT(desk_run_steps(words) == DESK_STEPS && desk_run_op(words, DESK_STEPS + 1) == DESK_NO_OPERATOR);
    }
}

int main(int argc, char **argv)
{
    if (argc != 2 || !text_from(argv[1])) {
        fprintf(stderr, "test TEXT-OF-CASE-A\n");
        return 2;
    }
    EXPECT(desk_read(text, text_len, counts, DESK_COUNTS, TABLES) == word(DESK_DONE, 0));
    initial_state();
    checks();
    distances();
    bounds();
    sequences();
    runs();
    longest_lists();
    full_run();
    watched();
    run_helpers();
    printf("C: %d expectations hold\n", tried);
    return 0;
}
