/* Tests of a task's text from C: read and refused on case A; written back byte for byte from what was read, and read
 * back as the same tables from what was written, for every text; what is lent too short, and that a refusal leaves lent
 * memory as it was. Ends with status 1 at the first that fails. Reads the texts from the files that are named, the
 * first of them that of case A. */
#include "expect.h"

/* what stands in a byte before it is written, and in a place that isn't read */
#define OTHER 0xa5

static uint8_t buffer[DESK_TEXT + 1];

/* The rows of 8 facts: where the effects of the operators begin, and the classes of the maps. */
#define EFFECTS 67
#define CLASSES 131

static void reads(void)
{
    static uint8_t f[DESK_FACTS + 1];
    static uint32_t c[DESK_COSTS], s[DESK_SHARES], n[DESK_COUNTS];
    memset(f, 7, sizeof f);
    memset(c, 7, sizeof c);
    memset(s, 7, sizeof s);
    memset(n, 7, sizeof n);
    EXPECT(desk_read(text, text_len, n, DESK_COUNTS - 1, f, DESK_FACTS, c, DESK_COSTS, s, DESK_SHARES) == SHORT);
    EXPECT(desk_read(text, text_len, WILD32, 0, f, DESK_FACTS, c, DESK_COSTS, s, DESK_SHARES) == SHORT);
    EXPECT(desk_read(text, text_len, n, DESK_COUNTS, f, DESK_FACTS - 1, c, DESK_COSTS, s, DESK_SHARES) == SHORT);
    EXPECT(desk_read(text, text_len, n, DESK_COUNTS, WILD8, 0, c, DESK_COSTS, s, DESK_SHARES) == SHORT);
    EXPECT(desk_read(text, text_len, n, DESK_COUNTS, f, DESK_FACTS, c, DESK_COSTS - 1, s, DESK_SHARES) == SHORT);
    EXPECT(desk_read(text, text_len, n, DESK_COUNTS, f, DESK_FACTS, WILD32, 0, s, DESK_SHARES) == SHORT);
    EXPECT(desk_read(text, text_len, n, DESK_COUNTS, f, DESK_FACTS, c, DESK_COSTS, s, DESK_SHARES - 1) == SHORT);
    EXPECT(desk_read(text, text_len, n, DESK_COUNTS, f, DESK_FACTS, c, DESK_COSTS, WILD32, 0) == SHORT);
    EXPECT(desk_read(WILD8, 0, n, DESK_COUNTS, f, DESK_FACTS, c, DESK_COSTS, s, DESK_SHARES) == word(2, 1));
    EXPECT(desk_read(text, sizeof text, n, DESK_COUNTS, f, DESK_FACTS, c, DESK_COSTS, s, DESK_SHARES) == word(1, 0));
    EXPECT(desk_read(text, text_len - 1, n, DESK_COUNTS, f, DESK_FACTS, c, DESK_COSTS, s, DESK_SHARES) == word(2, 17));
    for (size_t i = 0; i < sizeof f; i++)
        EXPECT(f[i] == 7);
    for (size_t i = 0; i < DESK_COSTS; i++)
        EXPECT(c[i] == 0x07070707);
    for (size_t i = 0; i < DESK_SHARES; i++)
        EXPECT(s[i] == 0x07070707);
    for (size_t i = 0; i < DESK_COUNTS; i++)
        EXPECT(n[i] == 0x07070707);
    EXPECT(desk_read(text, text_len, n, DESK_COUNTS, f, sizeof f, c, DESK_COSTS, s, DESK_SHARES) == word(DESK_DONE, 0));
    EXPECT(n[DESK_VARIABLES_AT] == 3 && n[DESK_OPERATORS_AT] == 4 && n[DESK_MAPS_AT] == 3);
    EXPECT(n[DESK_EDITION_AT] == 1 && n[DESK_QUOTA_AT] == 0);
    EXPECT(f[0] == 2 && f[1] == 3 && f[2] == 3 && f[3] == 0 && f[DESK_FACTS] == 0);
    EXPECT(c[0] == 1 && c[3] == 1 && c[4] == 0);
    EXPECT(s[0] == 1 && s[64 + 1] == 1 && s[64 + 2] == 1 && s[128 + 3] == 1 && s[128] == 0);
    EXPECT(desk_read(text, text_len, counts, DESK_COUNTS, TABLES) == word(DESK_DONE, 0));
    EXPECT(memcmp(counts, n, sizeof n) == 0 && memcmp(facts, f, DESK_FACTS) == 0);
}

/* Every byte of the buffer from this one on is as it was. */
static int kept_from(size_t from)
{
    for (size_t i = from; i < sizeof buffer; i++)
        if (buffer[i] != OTHER)
            return 0;
    return 1;
}

/* The tables are written as the text, and the bytes after it stay. */
static void written_back(void)
{
    for (size_t len = DESK_TEXT; len <= sizeof buffer; len++) {
        memset(buffer, OTHER, sizeof buffer);
        EXPECT(desk_write(TASK, buffer, len) == word(DESK_DONE, text_len));
        EXPECT(memcmp(buffer, text, text_len) == 0 && kept_from(text_len));
    }
}

/* Whether a place of the facts is the task's own; in edition 1 no mark is. */
static int own_fact(uint32_t place)
{
    uint32_t vars = counts[DESK_VARIABLES_AT], ops = counts[DESK_OPERATORS_AT];
    uint32_t row = place / 8, column = place % 8, map = (row - CLASSES) / 8, variable = (row - CLASSES) % 8;
    if (place >= DESK_MARKS)
        return counts[DESK_EDITION_AT] == 2 && place - DESK_MARKS < ops;
    if (row >= CLASSES)
        return map < counts[DESK_MAPS_AT] && variable < vars && column < facts[variable];
    return column < vars && (row < 3 || (row < EFFECTS ? row - 3 < ops : row - EFFECTS < ops));
}

/* Other numbers in every place of the counts and the tables beyond the task's own. */
static void alter_beyond(void)
{
    for (uint32_t place = 0; place < DESK_FACTS; place++)
        if (!own_fact(place))
            facts[place] = OTHER;
    for (uint32_t op = counts[DESK_OPERATORS_AT]; op < DESK_COSTS; op++)
        costs[op] = OTHER;
    for (uint32_t place = 0; place < DESK_SHARES; place++)
        if (place / 64 >= counts[DESK_MAPS_AT] || place % 64 >= counts[DESK_OPERATORS_AT])
            shares[place] = OTHER;
    if (counts[DESK_EDITION_AT] == 1)
        counts[DESK_QUOTA_AT] = OTHER;
}

/* What was read is written, also with other numbers beyond the task's own; and what was written is read. */
static void round_trips(void)
{
    static uint8_t f[DESK_FACTS];
    static uint32_t c[DESK_COSTS], s[DESK_SHARES], n[DESK_COUNTS];
    memcpy(f, facts, sizeof f);
    memcpy(c, costs, sizeof c);
    memcpy(s, shares, sizeof s);
    memcpy(n, counts, sizeof n);
    written_back();
    alter_beyond();
    if (counts[DESK_OPERATORS_AT] < DESK_COSTS) /* else the task may have every place */
        EXPECT(memcmp(f, facts, sizeof f) != 0 && memcmp(c, costs, sizeof c) != 0 && memcmp(s, shares, sizeof s) != 0);
    written_back();
    EXPECT(desk_read(buffer, text_len, counts, DESK_COUNTS, TABLES) == word(DESK_DONE, 0));
    EXPECT(memcmp(n, counts, sizeof n) == 0 && memcmp(f, facts, sizeof f) == 0);
    EXPECT(memcmp(c, costs, sizeof c) == 0 && memcmp(s, shares, sizeof s) == 0);
}

/* Faulty tables are refused as by desk_check, after a buffer that is too short, and no byte is written. */
static void refused(desk_word told)
{
    memset(buffer, OTHER, sizeof buffer);
    EXPECT(desk_check(TASK) == told && desk_write(TASK, buffer, DESK_TEXT) == told);
    EXPECT(desk_write(TASK, buffer, DESK_TEXT - 1) == SHORT && desk_write(TASK, WILD8, 0) == SHORT);
    EXPECT(kept_from(0));
}

/* What case A is refused with where a place breaks a rule. */
static void refusals(void)
{
    const uint8_t gap[3] = {0, 2, 2}, whole[3] = {0, 0, 0};
    EXPECT(desk_read(text, text_len, counts, DESK_COUNTS, TABLES) == word(DESK_DONE, 0));
    counts[DESK_EDITION_AT] = 3;
    refused(word(3, 1));
    counts[DESK_EDITION_AT] = 1;
    counts[DESK_VARIABLES_AT] = 9;
    refused(word(3, 2));
    counts[DESK_VARIABLES_AT] = 3;
    costs[3] = 1000001;
    refused(word(3, 10));
    costs[3] = 1;
    memcpy(facts + 8 * (CLASSES + 1), gap, 3);
    refused(word(5, 12));
    memcpy(facts + 8 * (CLASSES + 1), whole, 3);
    shares[2 * 64 + 1] = 1; /* case C */
    refused(word(6, 8));
    shares[2 * 64 + 1] = 0;
    facts[8 * EFFECTS] = 0; /* operator 0 has no effect */
    refused(word(18, 7));
    facts[8 * EFFECTS] = 2;
    written_back();
}

/* A map that keeps five variables of eight values apart, in a task without operators. */
static void too_many_states(void)
{
    memset(facts, 0, sizeof facts);
    memset(facts, 8, 5);
    for (uint8_t place = 0; place < 5 * 8; place++)
        facts[8 * CLASSES + place] = place % 8;
    counts[DESK_VARIABLES_AT] = 5, counts[DESK_OPERATORS_AT] = 0, counts[DESK_MAPS_AT] = 1;
    refused(word(7, 8));
}

/* A buffer or a table that is lent too short is refused before all else, and no byte is written. */
static void short_parts(void)
{
    EXPECT(desk_read(text, text_len, counts, DESK_COUNTS, TABLES) == word(DESK_DONE, 0));
    memset(buffer, OTHER, sizeof buffer);
    EXPECT(DESK_TEXT == 16384);
    EXPECT(desk_write(TASK, buffer, DESK_TEXT - 1) == SHORT);
    EXPECT(desk_write(TASK, buffer, text_len) == SHORT);
    EXPECT(desk_write(TASK, WILD8, 0) == SHORT);
    EXPECT(desk_write(TASK, NULL, 0) == SHORT);
#define BUFFER buffer, DESK_TEXT
    EXPECT(desk_write(counts, DESK_COUNTS - 1, TABLES, BUFFER) == SHORT);
    EXPECT(desk_write(COUNTED, facts, DESK_FACTS - 1, costs, DESK_COSTS, shares, DESK_SHARES, BUFFER) == SHORT);
    EXPECT(desk_write(COUNTED, facts, DESK_FACTS, costs, DESK_COSTS - 1, shares, DESK_SHARES, BUFFER) == SHORT);
    EXPECT(desk_write(COUNTED, facts, DESK_FACTS, costs, DESK_COSTS, shares, DESK_SHARES - 1, BUFFER) == SHORT);
    EXPECT(desk_write(OF(9, 65, 0), WILD8, 0, WILD32, 0, WILD32, 0, BUFFER) == SHORT);
    EXPECT(kept_from(0));
}

int main(int argc, char **argv)
{
    int accepted = 0;
    if (argc < 2 || !text_from(argv[1])) {
        fprintf(stderr, "test_text TEXT-OF-CASE-A [TEXT ..]\n");
        return 2;
    }
    reads();
    refusals();
    too_many_states();
    short_parts();
    for (int i = 1; i < argc; i++) {
        EXPECT(text_from(argv[i]));
        if (desk_is_refusal(desk_read(text, text_len, counts, DESK_COUNTS, TABLES)))
            continue;
        round_trips();
        accepted++;
    }
    printf("C: %d expectations on texts hold, %d texts written back\n", tried, accepted);
    return 0;
}
