/* Tests of edition 2 from C: which steps store a test, that each is counted once and the quota kept, and that a task of
 * edition 1 stores nothing, whatever its tables hold. Ends with status 1 at the first that fails. Reads the text of
 * case A, which is of edition 1, from the file that is named. */
#include "expect.h"

/* Case G: mount the coupling (0), torque it and store the test (1), take it off for the next (2). One test may be
 * stored. */
static const char G[] = "edition=2\nvars=2\ndom=2,2\ninit=0,0\ngoal=0:1,1:1\nquota=1\nops=3\n"
                        "op=2;0:0;0:1;0\nop=3;0:1,1:0;1:1;1\nop=1;1:1;1:0;0\n"
                        "maps=1\nmap=0,1/0,1\nshare=2,3,1\n";

/* A task in which each step stores a test. */
static const char ALWAYS[] = "edition=2\nvars=1\ndom=2\ninit=0\ngoal=-\nquota=1024\nops=1\nop=2;-;0:1;1\n"
                             "maps=1\nmap=0,1\nshare=1\n";

/* Where the facts say what operator 0 sets variable 0 to. */
#define OP0_SETS 536

static const uint8_t init[3] = {0, 0, 0};
static uint8_t bytes[DESK_RUN_BYTES], bytes0[DESK_RUN_BYTES];
static uint32_t words[DESK_RUN_WORDS], words0[DESK_RUN_WORDS];
#define RUN bytes, DESK_RUN_BYTES, words, DESK_RUN_WORDS

/* the word of a run that has the number of stored tests */
#define STORED (DESK_RUN_WORDS - 1)

/* Reads a text in which the first words like these are others. */
static desk_word read_with(const char *of, const char *was, const char *is)
{
    const char *at = strstr(of, was);
    EXPECT(at != NULL);
    text_len = (size_t)snprintf((char *)text, sizeof text, "%.*s%s%s", (int)(at - of), of, is, at + strlen(was));
    return desk_read(text, text_len, counts, DESK_COUNTS, TABLES);
}

static void load(const char *of) { EXPECT(read_with(of, "", "") == word(DESK_DONE, 0)); }

/* An offer to the run, which moves if it is accepted and at no other time. */
static desk_word offered(uint32_t number, uint32_t op)
{
    memcpy(bytes0, bytes, sizeof bytes);
    memcpy(words0, words, sizeof words);
    desk_word w = desk_offer(TASK, RUN, number, op);
    int kept = memcmp(bytes0, bytes, sizeof bytes) == 0 && memcmp(words0, words, sizeof words) == 0;
    EXPECT(kept == (desk_kind(w) != DESK_DONE));
    return w;
}

/* A run from the initial state, of operators that are all accepted. */
static void run_of(const uint32_t *ops, uint32_t steps)
{
    EXPECT(desk_begin(TASK, facts + DESK_INITIAL, counts[DESK_VARIABLES_AT], RUN) == word(DESK_DONE, 0));
    for (uint32_t i = 0; i < steps; i++)
        EXPECT(offered(i + 1, ops[i]) == word(DESK_DONE, 0));
}

/* The text of the tables is the one that was read. */
static void written_back(void)
{
    static uint8_t buffer[DESK_TEXT];
    EXPECT(desk_write(TASK, buffer, DESK_TEXT) == word(DESK_DONE, text_len) && memcmp(buffer, text, text_len) == 0);
}

static void reads(void)
{
    const uint32_t quotas[8] = {0, 1, 9, 10, 99, 100, 1000, DESK_QUOTA_MOST}, row[DESK_COUNTS] = {2, 3, 1, 2, 1};
    load(G);
    EXPECT(memcmp(counts, row, sizeof row) == 0);
    EXPECT(DESK_COUNTS == 5 && DESK_MARKS + DESK_COSTS == DESK_FACTS);
    EXPECT(facts[DESK_MARKS] == 0 && facts[DESK_MARKS + 1] == 1 && facts[DESK_MARKS + 2] == 0);
    for (size_t place = DESK_MARKS + 3; place < DESK_FACTS; place++)
        EXPECT(facts[place] == 0);
    written_back();
    EXPECT(read_with(G, "0:1;0\n", "0:1;1\n") == word(DESK_DONE, 0) && facts[DESK_MARKS] == 1);
    written_back();
    for (int i = 0; i < 8; i++) {
        char line[20];
        snprintf(line, sizeof line, "quota=%u\n", (unsigned)quotas[i]);
        EXPECT(read_with(G, "quota=1\n", line) == word(DESK_DONE, 0) && counts[DESK_QUOTA_AT] == quotas[i]);
        written_back();
    }
}

/* Texts are refused at the lines of their edition; an idle operator is told after its fourth field. */
static void texts(const char *a)
{
    const struct {
        const char *was, *is;
        unsigned kind, line;
    } faults[] = {
        {"edition=2", "edition=0", 3, 1},
        {"edition=2", "edition=3", 3, 1},
        {"edition=2", "edition=02", 2, 1},
        {"edition=2", "edition=1", 2, 6},
        {"quota=1\n", "", 2, 6},
        {"quota=1", "quota=", 2, 6},
        {"quota=1", "quota=01", 2, 6},
        {"quota=1", "quota=1025", 3, 6},
        {"ops=3", "ops=65", 3, 7},
        {"0:1;0\n", "0:1\n", 2, 8},
        {"0:1;0\n", "0:1;\n", 2, 8},
        {"0:1;0\n", "0:1;00\n", 2, 8},
        {"0:1;0\n", "0:1;0;0\n", 2, 8},
        {"0:1;0\n", "0:1;2\n", 3, 8},
        {"1:1;1\n", "1:1;257\n", 3, 9},
        {"maps=1", "maps=9", 3, 11},
        {"/0,1", "/1,1", 5, 12},
        {"2,3,1\n", "2,4,1\n", 6, 9},
        {"2,3,1\n", "2,3\n", 2, 13},
        {"2,3,1\n", "2,3,1\n\n", 2, 14},
        {"0:1;0\n", "0:0;0\n", 18, 8},
        {"0:1;0\n", "0:0;1\n", 18, 8},
        {"0:1;0\n", "0:0;1;", 18, 8},
        {"0:1;0\n", "0:0;0,", 18, 8},
        {"0:1;0\n", "0:0;2\n", 3, 8},
        {"0:1;0\n", "0:0\n", 2, 8},
        {"0:1;0\n", "0:0;\n", 2, 8},
    };
    for (size_t i = 0; i < sizeof faults / sizeof *faults; i++)
        EXPECT(read_with(G, faults[i].was, faults[i].is) == word(faults[i].kind, faults[i].line));
    EXPECT(read_with(a, "ops=4\n", "quota=1\nops=4\n") == word(2, 6));
    EXPECT(read_with(a, "0:1\n", "0:1;0\n") == word(2, 7));
}

/* Faulty counts and marks are refused at the lines of their edition, by desk_check and by what rests on it. */
static void refused(desk_word told)
{
    static uint8_t buffer[DESK_TEXT];
    EXPECT(desk_check(TASK) == told && desk_write(TASK, buffer, DESK_TEXT) == told);
    EXPECT(desk_judge(TASK, init, 2, WILD32, 0) == told && desk_bound(TASK, init, 2) == told);
    EXPECT(desk_begin(TASK, init, 2, RUN) == told && desk_offer(TASK, RUN, 1, 0) == told);
    EXPECT(desk_opening(TASK, init, 2, WILD32, 0, WILD32, 0) == word(DESK_FIRST, 0));
}

static void tables(void)
{
    load(G);
    counts[DESK_EDITION_AT] = 3;
    refused(word(3, 1));
    counts[DESK_VARIABLES_AT] = 9; /* the edition stands on an earlier line */
    refused(word(3, 1));
    counts[DESK_EDITION_AT] = 0, counts[DESK_VARIABLES_AT] = 2;
    refused(word(3, 1));
    counts[DESK_EDITION_AT] = 2, counts[DESK_QUOTA_AT] = DESK_QUOTA_MOST + 1;
    refused(word(3, 6));
    counts[DESK_OPERATORS_AT] = 65;
    refused(word(3, 6));
    counts[DESK_QUOTA_AT] = DESK_QUOTA_MOST;
    refused(word(3, 7));
    counts[DESK_OPERATORS_AT] = 3;
    facts[DESK_MARKS + 2] = 2;
    refused(word(3, 10));
    facts[DESK_MARKS] = 255;
    refused(word(3, 8));
    facts[OP0_SETS] = 0; /* idle too, which comes after its mark */
    refused(word(3, 8));
    facts[DESK_MARKS] = 1;
    refused(word(18, 8));
    facts[OP0_SETS] = 2, facts[DESK_MARKS] = 0, facts[DESK_MARKS + 2] = 0, counts[DESK_QUOTA_AT] = 1;
    memset(facts + DESK_MARKS + 3, 7, DESK_FACTS - DESK_MARKS - 3); /* of operators that the task hasn't */
    written_back();
}

/* A list keeps the quota, and each counts from 0. */
static void sequences(void)
{
    const uint32_t list[6] = {0, 1, 2, 1, 2, 1}, early[3] = {0, 1, 1}, unknown[5] = {0, 1, 2, 1, 9};
    const uint8_t ahead[2] = {1, 0};
    load(G);
    for (int i = 0; i < 2; i++)
        EXPECT(desk_judge(TASK, init, 2, list, 2) == word(DESK_DONE, 5));
    EXPECT(desk_judge(TASK, init, 2, list, 3) == word(16, 3));
    EXPECT(desk_judge(TASK, init, 2, list, 4) == word(19, 4));
    EXPECT(desk_judge(TASK, init, 2, unknown, 5) == word(19, 4));
    EXPECT(desk_judge(TASK, init, 2, early, 3) == word(12, 3));
    EXPECT(desk_cheaper(TASK, init, 2, early, 1, list, 4) == word(DESK_SECOND, 5)); /* at the goal before that step */
    EXPECT(desk_opening(TASK, init, 2, list, 4, list, 2) == word(DESK_FIRST, 2));
    EXPECT(desk_bound(TASK, init, 2) == word(DESK_DONE, 5));
    counts[DESK_QUOTA_AT] = 2;
    EXPECT(desk_judge(TASK, init, 2, list, 4) == word(DESK_DONE, 9));
    EXPECT(desk_judge(TASK, init, 2, list, 6) == word(19, 6));
    counts[DESK_QUOTA_AT] = 0;
    EXPECT(desk_judge(TASK, init, 2, list, 2) == word(19, 2));
    EXPECT(desk_cheaper(TASK, init, 2, list, 2, list, 4) == word(DESK_NEITHER, 0));
    EXPECT(desk_opening(TASK, init, 2, list, 2, list, 4) == word(DESK_FIRST, 0));
    EXPECT(desk_bound(TASK, init, 2) == word(DESK_DONE, 5)); /* distances ignore the quota */
    EXPECT(desk_distance_at(TASK, 0, init, 2) == word(DESK_DONE, 5));
    EXPECT(desk_best_at(TASK, 0, ahead, 2) == word(DESK_DONE, 1)); /* and so do best steps: operator 1 stores a test */
}

/* A step that is offered again stores no second test and uses nothing of the quota. */
static void retries(void)
{
    const uint32_t list[4] = {0, 1, 2, 1};
    load(G);
    run_of(list, 1);
    EXPECT(desk_run_stored(words) == 0);
    EXPECT(offered(2, 1) == word(DESK_DONE, 0) && desk_run_stored(words) == 1);
    EXPECT(offered(2, 1) == word(DESK_REPEATED, 0) && offered(2, 1) == word(DESK_REPEATED, 0));
    EXPECT(offered(3, 1) == word(12, 3));
    EXPECT(offered(3, 2) == word(DESK_DONE, 0) && desk_run_stored(words) == 1);
    EXPECT(offered(4, 1) == word(19, 4) && offered(4, 0) == word(12, 4) && offered(4, 3) == word(10, 4));
    EXPECT(offered(5, 1) == word(13, 5) && offered(3, 1) == word(14, 3) && offered(2, 1) == word(DESK_REPEATED, 0));
    EXPECT(desk_run_steps(words) == 3 && desk_run_stored(words) == 1);
    EXPECT(desk_run_paid(words, 0) == 6 && desk_run_unshared(words) == 0);
    counts[DESK_QUOTA_AT] = 2;
    EXPECT(offered(4, 1) == word(DESK_DONE, 0) && desk_run_stored(words) == 2);
    EXPECT(offered(4, 1) == word(DESK_REPEATED, 0) && offered(2, 1) == word(DESK_REPEATED, 0));
    EXPECT(offered(5, 2) == word(DESK_DONE, 0) && offered(6, 1) == word(19, 6));
    counts[DESK_QUOTA_AT] = 0;
    run_of(list, 1);
    EXPECT(offered(2, 1) == word(19, 2));
}

/* A wrong number of stored tests, and a log past the quota, are no run. */
static void no_runs(void)
{
    const uint32_t list[4] = {0, 1, 2, 1}, wrong[3] = {0, 2, UINT32_MAX};
    load(G);
    run_of(list, 2);
    for (int i = 0; i < 3; i++) {
        words[STORED] = wrong[i];
        EXPECT(desk_run_stored(words) == wrong[i]);
        EXPECT(offered(3, 2) == word(17, 0) && offered(2, 1) == word(17, 0));
    }
    words[STORED] = 1;
    EXPECT(offered(3, 2) == word(DESK_DONE, 0));
    counts[DESK_QUOTA_AT] = 2;
    run_of(list, 4);
    counts[DESK_QUOTA_AT] = 1;
    EXPECT(offered(5, 2) == word(17, 0) && offered(4, 1) == word(17, 0));
    words[STORED] = 1;
    EXPECT(offered(5, 2) == word(17, 0));
    counts[DESK_QUOTA_AT] = 2, words[STORED] = 2;
    counts[DESK_EDITION_AT] = 1; /* where nothing is stored */
    EXPECT(offered(5, 2) == word(17, 0));
    words[STORED] = 0;
    EXPECT(offered(5, 2) == word(DESK_DONE, 0));
}

/* Case A answers the same whatever quota and marks stand beside it. */
static void first_edition(const char *a)
{
    const uint32_t quotas[4] = {0, 1, DESK_QUOTA_MOST + 1, UINT32_MAX}, list[4] = {0, 1, 2, 3};
    const uint8_t marks[4] = {0, 1, 2, 255};
    for (int i = 0; i < 16; i++) {
        load(a);
        EXPECT(counts[DESK_EDITION_AT] == 1 && counts[DESK_QUOTA_AT] == 0);
        counts[DESK_QUOTA_AT] = quotas[i / 4];
        memset(facts + DESK_MARKS, marks[i % 4], DESK_FACTS - DESK_MARKS);
        EXPECT(desk_check(TASK) == word(DESK_DONE, 0));
        written_back();
        EXPECT(desk_bound(TASK, init, 3) == word(DESK_DONE, 4));
        EXPECT(desk_judge(TASK, init, 3, list, 4) == word(DESK_DONE, 4));
        EXPECT(desk_cheaper(TASK, init, 3, list, 3, list, 4) == word(DESK_SECOND, 4));
        EXPECT(desk_opening(TASK, init, 3, list, 3, list, 4) == word(DESK_SECOND, 4));
        run_of(list, 4);
        EXPECT(offered(4, 3) == word(DESK_REPEATED, 0) && desk_run_stored(words) == 0);
        facts[OP0_SETS] = 0;
        EXPECT(desk_check(TASK) == word(18, 7));
    }
}

/* As many tests as a run can have steps; the quota that is one lower is met before the last. */
static void most_tests(void)
{
    static const uint32_t list[DESK_STEPS];
    load(ALWAYS);
    EXPECT(DESK_QUOTA_MOST == 1024 && DESK_QUOTA_MOST == DESK_STEPS);
    EXPECT(desk_judge(TASK, init, 1, list, DESK_STEPS) == word(DESK_DONE, 2 * 1024));
    run_of(list, DESK_STEPS);
    EXPECT(desk_run_stored(words) == 1024 && desk_run_paid(words, 0) == 1024 && desk_run_unshared(words) == 1024);
    EXPECT(offered(DESK_STEPS, 0) == word(DESK_REPEATED, 0));
    EXPECT(offered(DESK_STEPS + 1, 0) == word(15, DESK_STEPS + 1)); /* full, which comes before the quota */
    counts[DESK_QUOTA_AT] = DESK_QUOTA_MOST - 1;
    EXPECT(offered(DESK_STEPS, 0) == word(17, 0));
    EXPECT(desk_judge(TASK, init, 1, list, DESK_STEPS) == word(19, DESK_STEPS));
    run_of(list, DESK_STEPS - 1);
    EXPECT(offered(DESK_STEPS, 0) == word(19, DESK_STEPS) && desk_run_stored(words) == 1023);
}

int main(int argc, char **argv)
{
    static char a[sizeof text];
    if (argc != 2 || !text_from(argv[1])) {
        fprintf(stderr, "test_stored TEXT-OF-CASE-A\n");
        return 2;
    }
    memcpy(a, text, text_len);
    reads();
    texts(a);
    tables();
    sequences();
    retries();
    no_runs();
    first_edition(a);
    most_tests();
    printf("C: %d expectations on stored tests hold\n", tried);
    return 0;
}
