/* Tests of best steps from C: of the cheapest sequences to a goal those with fewest steps, and of their first operators
 * the lowest number; none at a goal, and where there is no way. What is lent too short, and that a refusal leaves both
 * tables as they were; and the best steps of the tasks in the files that are named, followed to a goal. Ends with
 * status 1 at the first that fails. The first file is that of case A. */
#include "expect.h"

static uint32_t out[DESK_DISTANCES + 1];
static uint8_t best[DESK_BEST_STEPS + 1];
#define OUT out, DESK_DISTANCES
#define BEST best, DESK_BEST_STEPS

#define NONE DESK_NO_DISTANCE
#define HALT DESK_NO_STEP

static desk_word read_text(void) { return desk_read(text, text_len, counts, DESK_COUNTS, TABLES); }

static void load(const char *of)
{
    text_len = (size_t)snprintf((char *)text, sizeof text, "%s", of);
    EXPECT(read_text() == word(DESK_DONE, 0));
}

/* Fills both tables with what neither holds as an answer here. */
static void mark(void)
{
    memset(out, 77, sizeof out);
    memset(best, 77, sizeof best);
}

/* The places of both tables from one on are as they were. */
static int marked_from(size_t place)
{
    for (size_t i = place; i <= DESK_DISTANCES; i++)
        if (out[i] != 0x4d4d4d4d || best[i] != 77)
            return 0;
    return 1;
}

/* The distances and the best steps of a map with so many states, and that the places beyond stay. */
static int are(uint32_t map, size_t states, const uint32_t *distances, const uint8_t *steps)
{
    mark();
    EXPECT(desk_kind(desk_distances(TASK, map, out, DESK_DISTANCES + 1, best, DESK_BEST_STEPS + 1)) == DESK_DONE);
    return memcmp(out, distances, states * sizeof *out) == 0 && memcmp(best, steps, states) == 0 && marked_from(states);
}

#define DISTANCES(...) ((const uint32_t[]){__VA_ARGS__})
#define STEPS(...) ((const uint8_t[]){__VA_ARGS__})

/* THE VIEW OF A MAP, from the tables: classes for values. In a row of facts 0 says nothing, and k + 1 the value k. */

static uint32_t class_of(uint32_t map, uint32_t v, uint32_t value) { return facts[8 * (131 + 8 * map + v) + value]; }

static uint32_t classes(uint32_t map, uint32_t v)
{
    uint32_t most = 0;
    for (uint32_t value = 0; value < facts[v]; value++)
        most = class_of(map, v, value) > most ? class_of(map, v, value) : most;
    return most + 1;
}

static uint32_t states_of(uint32_t map)
{
    uint32_t states = 1;
    for (uint32_t v = 0; v < counts[DESK_VARIABLES_AT]; v++)
        states *= classes(map, v);
    return states;
}

/* Whether a row of facts holds at an abstract state, and the state after another row is set there; variable 0 changes
 * fastest. */
static int leads(uint32_t map, uint32_t state, uint32_t asked, uint32_t set, uint32_t *after)
{
    uint32_t weight = 1;
    int holds = 1;
    *after = 0;
    for (uint32_t v = 0; v < counts[DESK_VARIABLES_AT]; v++) {
        uint32_t class = state / weight % classes(map, v);
        uint8_t asks = facts[8 * asked + v], sets = facts[8 * set + v];
        if (asks != 0 && class_of(map, v, asks - 1) != class)
            holds = 0;
        *after += weight * (sets != 0 ? class_of(map, v, sets - 1) : class);
        weight *= classes(map, v);
    }
    return holds;
}

#define GOAL_ROW 2
#define ASKS_ROW(op) (3 + (op))
#define SETS_ROW(op) (67 + (op))

/* From each state of a map: with a distance the best steps come to a goal, in fewer steps than there are states, and
 * cost just that; without one there is no best step. */
static void follow(uint32_t map)
{
    const uint32_t states = states_of(map);
    mark();
    EXPECT(desk_kind(desk_distances(TASK, map, out, DESK_DISTANCES + 1, best, DESK_BEST_STEPS + 1)) == DESK_DONE);
    EXPECT(marked_from(states));
    for (uint32_t from = 0; from < states; from++) {
        uint32_t state = from, steps = 0, same;
        uint64_t cost = 0;
        for (; best[state] != HALT && steps < states; steps++) {
            uint32_t op = best[state];
            EXPECT(op < counts[DESK_OPERATORS_AT] && leads(map, state, ASKS_ROW(op), SETS_ROW(op), &state));
            cost += shares[64 * map + op];
        }
        EXPECT(steps < states);
        if (out[from] == NONE)
            EXPECT(steps == 0);
        else
            EXPECT(cost == out[from] && leads(map, state, GOAL_ROW, GOAL_ROW, &same));
    }
}

static void follow_all(void)
{
    for (uint32_t map = 0; map < counts[DESK_MAPS_AT]; map++)
        follow(map);
}

/* One variable, of three values but where it is said otherwise, and a map that keeps them apart. */
#define LINE(goal, ops) "edition=1\nvars=1\ndom=3\ninit=0\ngoal=" goal "\nops=" ops "\n"
#define MAP(shares) "maps=1\nmap=0,1,2\nshare=" shares "\n"

static void case_a(void)
{
    const uint8_t init[3] = {0, 0, 0}, near[3] = {1, 1, 1}, goal[3] = {1, 2, 2}, aside[3] = {1, 0, 1};
    const uint32_t list[1] = {1};
    EXPECT(are(0, 2, DISTANCES(1, 0), STEPS(0, HALT)));
    EXPECT(are(1, 3, DISTANCES(2, 1, 0), STEPS(1, 2, HALT)));
    EXPECT(are(2, 3, DISTANCES(1, 1, 0), STEPS(1, 3, HALT)));
    EXPECT(desk_best_at(TASK, 0, init, 3) == word(DESK_DONE, 0));
    EXPECT(desk_best_at(TASK, 1, init, 3) == word(DESK_DONE, 1));
    EXPECT(desk_best_at(TASK, 2, init, 3) == word(DESK_DONE, 1));
    EXPECT(desk_best_at(TASK, 0, near, 3) == word(DESK_NONE, 0)); /* at a goal of the view alone */
    EXPECT(desk_best_at(TASK, 1, near, 3) == word(DESK_DONE, 2));
    EXPECT(desk_best_at(TASK, 2, near, 3) == word(DESK_DONE, 3));
    for (uint32_t map = 0; map < 3; map++)
        EXPECT(desk_best_at(TASK, map, goal, 3) == word(DESK_NONE, 0));
    EXPECT(desk_best_at(TASK, 1, aside, 3) == word(DESK_DONE, 1)); /* best in the view, where it may run */
    EXPECT(desk_judge(TASK, aside, 3, list, 1) == word(12, 1));
    follow_all();
}

/* What is lent too short, a map that isn't there and a faulty table: both tables are as they were. */
static void refused(void)
{
    const uint8_t init[3] = {0, 0, 0}, outside[3] = {0, 3, 9};
    mark();
    EXPECT(DESK_BEST_STEPS == 4096 && DESK_NO_STEP == 255);
    EXPECT(desk_distances(TASK, 0, OUT, best, DESK_BEST_STEPS - 1) == SHORT);
    EXPECT(desk_distances(TASK, 0, OUT, WILD8, 0) == SHORT);
    EXPECT(desk_distances(TASK, 0, OUT, NULL, 0) == SHORT);
    EXPECT(desk_distances(TASK, 0, out, DESK_DISTANCES - 1, BEST) == SHORT);
    EXPECT(desk_distances(TASK, 0, WILD32, 0, BEST) == SHORT);
    EXPECT(desk_distances(TASK, 0, out, DESK_DISTANCES - 1, best, DESK_BEST_STEPS - 1) == SHORT);
    EXPECT(desk_distances(TASK, 0, WILD32, 0, WILD8, 0) == SHORT);
    EXPECT(desk_distances(COUNTED, facts, DESK_FACTS, WILD32, 0, shares, DESK_SHARES, 0, OUT, BEST) == SHORT);
    EXPECT(desk_distances(TASK, 3, OUT, best, DESK_BEST_STEPS - 1) == SHORT); /* before a map that isn't there */
    EXPECT(desk_distances(TASK, 3, OUT, BEST) == word(3, 0));
    EXPECT(desk_distances(TASK, UINT32_MAX, OUT, BEST) == word(3, 0));
    EXPECT(desk_best_at(TASK, 3, init, 3) == word(3, 0) && desk_best_at(TASK, UINT32_MAX, WILD8, 0) == word(3, 0));
    EXPECT(desk_best_at(TASK, 1, init, 2) == SHORT && desk_best_at(TASK, 1, WILD8, 0) == SHORT);
    EXPECT(desk_best_at(TASK, 1, outside, 3) == word(9, 1));
    EXPECT(desk_best_at(COUNTED, facts, DESK_FACTS - 1, costs, DESK_COSTS, shares, DESK_SHARES, 1, init, 3) == SHORT);
    shares[128 + 1] = 1; /* case C */
    EXPECT(desk_distances(TASK, 0, OUT, best, DESK_BEST_STEPS - 1) == SHORT);
    EXPECT(desk_distances(TASK, 0, OUT, BEST) == word(6, 8) && desk_best_at(TASK, 0, init, 3) == word(6, 8));
    shares[128 + 1] = 0;
    EXPECT(marked_from(0));
    EXPECT(desk_distances(TASK, 0, OUT, BEST) == word(DESK_DONE, 2)); /* just long enough */
    EXPECT(best[0] == 0 && best[1] == HALT && out[0] == 1 && out[1] == 0 && marked_from(2));
}

/* Loops that cost nothing: the lowest operator that keeps the distance would go round for ever. */
static void loops(void)
{
    load(LINE("0:2", "3") "op=0;0:0;0:1\nop=0;0:1;0:0\nop=5;0:1;0:2\n" MAP("0,0,5"));
    EXPECT(are(0, 3, DISTANCES(5, 5, 0), STEPS(0, 2, HALT)));
    follow_all();
    load(LINE("0:2", "3") "op=0;0:1;0:0\nop=0;0:0;0:1\nop=0;0:1;0:2\n" MAP("0,0,0"));
    EXPECT(are(0, 3, DISTANCES(0, 0, 0), STEPS(1, 2, HALT)));
    follow_all();
}

static void ties(void)
{
    /* of equal costs the fewest steps */
    load(LINE("0:2", "3") "op=1;0:0;0:1\nop=1;0:1;0:2\nop=2;0:0;0:2\n" MAP("1,1,2"));
    EXPECT(are(0, 3, DISTANCES(2, 1, 0), STEPS(2, 1, HALT)));
    /* a cheaper sequence is taken, however many steps it has */
    load(LINE("0:2", "3") "op=3;0:0;0:2\nop=1;0:0;0:1\nop=1;0:1;0:2\n" MAP("3,1,1"));
    EXPECT(are(0, 3, DISTANCES(2, 1, 0), STEPS(1, 2, HALT)));
    /* of equal costs and steps the lowest operator that does it: neither the first nor the last of all */
    load(LINE("0:2", "5") "op=3;0:0;0:2\nop=2;0:1;0:2\nop=2;0:0;0:2\nop=2;0:0;0:2\nop=2;0:1;0:2\n" MAP("3,2,2,2,2"));
    EXPECT(are(0, 3, DISTANCES(2, 2, 0), STEPS(2, 1, HALT)));
}

static void no_steps(void)
{
    const uint8_t at[3] = {0, 1, 2};
    /* an operator that costs nothing at the goal, and a value from which no step leads */
    load(LINE("0:1", "2") "op=0;0:1;0:2\nop=0;0:0;0:1\n" MAP("0,0"));
    EXPECT(are(0, 3, DISTANCES(0, 0, NONE), STEPS(1, HALT, HALT)));
    EXPECT(desk_best_at(TASK, 0, at, 1) == word(DESK_DONE, 1));
    EXPECT(desk_best_at(TASK, 0, at + 1, 1) == word(DESK_NONE, 0)); /* at the goal, with the distance 0 */
    EXPECT(desk_distance_at(TASK, 0, at + 1, 1) == word(DESK_DONE, 0));
    EXPECT(desk_best_at(TASK, 0, at + 2, 1) == word(DESK_NONE, 0)); /* no way */
    EXPECT(desk_distance_at(TASK, 0, at + 2, 1) == word(DESK_NONE, 0));
    follow_all();
    /* steps that may run, but lead to no goal */
    load(LINE("0:2", "2") "op=0;0:1;0:0\nop=0;0:0;0:1\n" MAP("0,0"));
    EXPECT(are(0, 3, DISTANCES(NONE, NONE, 0), STEPS(HALT, HALT, HALT)));
    /* a goal everywhere */
    load(LINE("-", "2") "op=0;0:1;0:0\nop=0;0:0;0:1\n" MAP("0,0"));
    EXPECT(are(0, 3, DISTANCES(0, 0, 0), STEPS(HALT, HALT, HALT)));
    /* no operators, and one state */
    load("edition=1\nvars=1\ndom=2\ninit=0\ngoal=0:1\nops=0\nmaps=2\nmap=0,1\nmap=0,0\nshare=-\nshare=-\n");
    EXPECT(are(0, 2, DISTANCES(NONE, 0), STEPS(HALT, HALT)) && are(1, 1, DISTANCES(0), STEPS(HALT)));
}

int main(int argc, char **argv)
{
    if (argc < 2 || !text_from(argv[1])) {
        fprintf(stderr, "test_best TEXT-OF-CASE-A [TEXT ..]\n");
        return 2;
    }
    EXPECT(read_text() == word(DESK_DONE, 0));
    case_a();
    refused();
    for (int i = 2; i < argc; i++) {
        EXPECT(text_from(argv[i]));
        if (desk_kind(read_text()) == DESK_DONE)
            follow_all();
    }
    loops();
    ties();
    no_steps();
    printf("C: %d expectations on best steps hold\n", tried);
    return 0;
}
