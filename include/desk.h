/* desk.h: the sequence desk for C.
 *
 * PROVED are the fifteen functions that are declared here without a body, desk_read to desk_offer: whatever is handed
 * in, each answers as its contract says, and a refusal alters nothing that was lent, but that desk_end_text notes in
 * its words that the text has ended (crates/desk_c/src/lib.rt has the contracts, docs/PROMISES.md the map of what is
 * shown). NOT PROVED is what is C: that they are declared here as they are exported, and the eight helpers with a body:
 * desk_kind, desk_number and desk_is_refusal, which take an answer apart, and desk_run_steps, desk_run_op,
 * desk_run_paid, desk_run_unshared and desk_run_stored, which look into a run. bindings/test tries them.
 *
 * Link with libdesk_c.a, which `rt lib` in crates/desk_c writes to crates/desk_c/out/; it is for x86-64 Linux. The
 * functions keep nothing between calls, allocate nothing and may be called from any thread.
 *
 * What is lent is a pointer and a length, counted in places (bytes or words) and not in bytes. The length is what is
 * trusted, so it must not be more than what the pointer has; with a length of 0 the pointer is not looked at. No two
 * lent parts may overlap, unless both are only read. A part that is longer than needed is fine; what is beyond is
 * neither read nor written, except by desk_read and desk_end_text, which set what is beyond in the three tables to 0. A
 * part that is shorter than needed is refusal 8 at place 0, and nothing else happens; desk_opening alone never refuses,
 * and answers the empty part then.
 *
 * A TASK is lent as a row of counts (DESK_COUNTS words at least: the numbers of variables, operators and maps, the
 * edition, the quota) and three tables: facts (DESK_FACTS bytes at least), costs (DESK_COSTS words at least) and shares
 * (DESK_SHARES words at least). desk_read fills them from a text, and desk_write gives the text back;
 * crates/tables/specs/Layout.antt says where each number stands. Each function judges them afresh, so nobody has to
 * have checked them; a row that breaks a rule is among what is called faulty tables below. Variables, values, operators
 * and maps count from 0, lines and steps from 1.
 *
 * A TEXT IN PIECES comes a piece at a time, of any lengths, 0 too: desk_begin_text, then desk_take_piece for each piece
 * in its order, then desk_end_text, which fills counts and tables, or refuses, as desk_read does for the pieces put
 * together, however the text was cut. The text is not kept: what has been read of it stands in its words
 * (DESK_TEXT_WORDS at least) and in a work area (DESK_AREA bytes at least), which are lent to each call. The area is
 * nobody's answer: it may hold anything before the text's first byte is taken, and need not be kept after the end. In
 * between, words and area are to be handed on as they were left; each text has its own. Changed ones get an answer too,
 * but which is not said here: docs/PROMISES.md.
 *
 * In edition 2 an operator STORES A TEST if its mark is 1. The marks stand in the facts, operator 0's at DESK_MARKS and
 * the others' behind it. The quota is how many tests a list of steps, or a run, may store; each counts its own from 0.
 * In edition 1 no operator stores a test, and neither the quota nor a mark is read.
 *
 * A STATE is lent as one byte a variable, its value; further bytes aren't read. The task's INITIAL STATE stands in
 * its facts like that, in places 8 to 15: `facts + DESK_INITIAL` is lent as it is, with the number of variables as
 * its length (it overlaps the facts, but both are only read). A LIST OF STEPS is lent as the numbers of its
 * operators.
 *
 * A RUN is lent as DESK_RUN_BYTES bytes (its start, and from DESK_RUN_NOW on its state now, 8 places each) and
 * DESK_RUN_WORDS words (DESK_STEPS places for the operators of its steps, the number of steps, what each of DESK_MAPS
 * maps was paid, what is unshared, and the number of stored tests). Any contents may be handed in: those that no offers
 * could have left are refusal 17.
 */
#ifndef DESK_H
#define DESK_H

#include <stddef.h>
#include <stdint.h>

#ifdef __cplusplus
extern "C" {
#endif

/* How many places a lent part needs at least. */
#define DESK_COUNTS 5
#define DESK_FACTS 1624
#define DESK_COSTS 64
#define DESK_SHARES 512
#define DESK_TEXT 16384
#define DESK_TEXT_WORDS 20
#define DESK_AREA 8192
#define DESK_DISTANCES 4096
#define DESK_BEST_STEPS 4096
#define DESK_RUN_BYTES 16
#define DESK_RUN_WORDS (DESK_STEPS + 1 + DESK_MAPS + 2)

/* The most steps of a list or a run, the most maps of a task, and the highest quota. */
#define DESK_STEPS 1024
#define DESK_MAPS 8
#define DESK_QUOTA_MOST 1024

/* The places of a task's row of counts. */
enum {
    DESK_VARIABLES_AT = 0,
    DESK_OPERATORS_AT = 1,
    DESK_MAPS_AT = 2,
    DESK_EDITION_AT = 3, /* 1 or 2 */
    DESK_QUOTA_AT = 4    /* in edition 1 it isn't read */
};

/* Where the initial state and the marks begin in a task's facts, and the state now in a run's bytes. */
#define DESK_INITIAL 8
#define DESK_MARKS 1560
#define DESK_RUN_NOW 8

/* In a table of distances: none. */
#define DESK_NO_DISTANCE UINT32_C(4294967295)

/* In a table of best steps: none; no task has an operator of that number. */
#define DESK_NO_STEP 255

/* The operator of a step that a run doesn't have; no task has an operator of that number. */
#define DESK_NO_OPERATOR UINT32_C(4294967295)

/* AN ANSWER is one word: a kind, and a number above it. A kind from 1 to 127 is a refusal: the kind is its number on
 * the list (docs/REFUSALS.md), and the number above it is its place: a line of the text, a variable, a step, a
 * length, or 0. */
typedef uint64_t desk_word;

enum {
    DESK_DONE = 0,       /* done; with the number that the function tells, or 0 */
    DESK_NONE = 128,     /* none: no sequence leads to the goal, in the view or in one of the views; of a best step
                            also: the state is at a goal of the view */
    DESK_REPEATED = 129, /* an offer that was accepted before; nothing moved */
    DESK_FIRST = 130,    /* the first list */
    DESK_SECOND = 131,   /* the second list */
    DESK_NEITHER = 132   /* neither list */
};

static inline uint32_t desk_kind(desk_word w) { return (uint32_t)(w & 255); }
static inline uint64_t desk_number(desk_word w) { return w >> 8; }
static inline int desk_is_refusal(desk_word w) { return desk_kind(w) >= 1 && desk_kind(w) < DESK_NONE; }

/* READS a task text of any bytes into the lent counts and tables.
 * DESK_DONE: counts has the numbers of variables, operators and maps, the edition and the quota; the tables hold the
 * task's numbers, and 0 in every place beyond. In edition 1 the quota and the marks are 0.
 * Refusals: 8 (counts, then a table, too short), 1 (text above 16,384 bytes), then 2 to 7 and 18 (an idle operator:
 * each of its effects, if it has any, stands among its preconditions) as the text has them, at their line. Nothing
 * lent is altered. */
desk_word desk_read(const uint8_t *text, size_t text_len, uint32_t *counts, size_t counts_len, uint8_t *facts,
                    size_t facts_len, uint32_t *costs, size_t costs_len, uint32_t *shares, size_t shares_len);

/* BEGINS a text in pieces. DESK_DONE: the words say that no byte has been taken, whatever they said before.
 * Refusals: 8 (words too short). Then they are as they were. */
desk_word desk_begin_text(uint32_t *text, size_t text_len);

/* TAKES A PIECE, the next bytes of a text that was begun. DESK_DONE: words and area say what has been read so far, and
 * the piece need not be kept. A fault in the text is told at the end, and not here.
 * Refusals: 8 (words or area too short), then 2 at place 0 (the text has ended). Nothing lent is altered. */
desk_word desk_take_piece(uint32_t *text, size_t text_len, uint8_t *area, size_t area_len, const uint8_t *piece,
                          size_t piece_len);

/* ENDS a text in pieces, and answers as desk_read does for all that was taken. DESK_DONE: counts and tables are as
 * desk_read leaves them. The area is only read.
 * Refusals: 8 (words, area, counts or a table too short), which isn't the end: the text may go on, or be ended again;
 * then 2 at place 0 (the text has ended before); then 1 (above 16,384 bytes in all), before any fault in the text; then
 * 2 to 7 and 18 at their line, as desk_read has them. Counts and tables are as they were.
 * DESK_DONE, 1 and the text's own fault are the end: the first of the words is 1 then. No other word is altered. */
desk_word desk_end_text(uint32_t *text, size_t text_len, const uint8_t *area, size_t area_len, uint32_t *counts,
                        size_t counts_len, uint8_t *facts, size_t facts_len, uint32_t *costs, size_t costs_len,
                        uint32_t *shares, size_t shares_len);

/* WRITES the text of the lent tables, in their edition, into buffer (DESK_TEXT bytes at least, whatever the task; no
 * task's text has more than 10,588, in edition 1 10,449). DESK_DONE with the text's length: the text stands in buffer from its
 * first byte on, with no byte 0 behind it; the bytes after it are as they were.
 * Each accepted task has one text. Reading what was written gives the same counts and tables, but for what isn't read
 * here and is 0 then: places beyond the task's own, and in edition 1 the quota and the marks. Writing what was read
 * gives the same bytes.
 * Refusals: 8 (buffer first), then faulty tables, as desk_check says. Then buffer is as it was. */
desk_word desk_write(const uint32_t *counts, size_t counts_len, const uint8_t *facts, size_t facts_len,
                     const uint32_t *costs, size_t costs_len, const uint32_t *shares, size_t shares_len,
                     uint8_t *buffer, size_t buffer_len);

/* CHECKS the lent counts and tables by the rules of the text. DESK_DONE: they are a task's. Refusals: 8, then 3, 5, 6,
 * 7 and 18, at the line that the same task's text would have. (2 and 4 are about text alone.) So an edition other than
 * 1 and 2 is 3 at line 1. In edition 2 a quota above DESK_QUOTA_MOST is 3 at line 6, where the quota stands; the lines
 * after it are one higher than in edition 1; a mark above 1 is 3 at its operator's line.
 * desk_write and each function below refuse faulty tables with the same number and place, first of all but for what
 * else is lent too short and is said to come before. Nothing lent is written. */
desk_word desk_check(const uint32_t *counts, size_t counts_len, const uint8_t *facts, size_t facts_len,
                     const uint32_t *costs, size_t costs_len, const uint32_t *shares, size_t shares_len);

/* The DISTANCES of a map at all its abstract states, into out (DESK_DISTANCES places at least): the least total share
 * of any sequence from there to a goal of the map's view, or DESK_NO_DISTANCE; and the BEST STEP at each, into best
 * (DESK_BEST_STEPS bytes at least): of the sequences with that total those with fewest steps, and of their first
 * operators the lowest number; DESK_NO_STEP at a goal of the view and where the distance is none. Followed in the view
 * from a state with a distance, the best steps come to a goal, and their shares total exactly the distance, also where
 * loops cost 0. Quota and marks count for nothing here, nor in a distance, a best step or a bound. DESK_DONE with the
 * number of rounds; places of out and best beyond the map's abstract states are as they were.
 * Refusals: 8 (out or best first), faulty tables, 3 at place 0 (no such map). Then out and best are as they were. */
desk_word desk_distances(const uint32_t *counts, size_t counts_len, const uint8_t *facts, size_t facts_len,
                         const uint32_t *costs, size_t costs_len, const uint32_t *shares, size_t shares_len,
                         uint32_t map, uint32_t *out, size_t out_len, uint8_t *best, size_t best_len);

/* The DISTANCE of a state's image in one map. DESK_DONE with the distance in seconds; DESK_NONE.
 * Refusals: faulty tables, 3 at place 0 (no such map), 8 (state too short), 9 (a value outside its variable) at the
 * lowest such variable. */
desk_word desk_distance_at(const uint32_t *counts, size_t counts_len, const uint8_t *facts, size_t facts_len,
                           const uint32_t *costs, size_t costs_len, const uint32_t *shares, size_t shares_len,
                           uint32_t map, const uint8_t *state, size_t state_len);

/* The BEST STEP of a state's image in one map. DESK_DONE with the operator's number; DESK_NONE at a goal of the map's
 * view, and where the distance is none. In the view the operator may run; in the state itself it need not.
 * Refusals: as desk_distance_at. */
desk_word desk_best_at(const uint32_t *counts, size_t counts_len, const uint8_t *facts, size_t facts_len,
                       const uint32_t *costs, size_t costs_len, const uint32_t *shares, size_t shares_len,
                       uint32_t map, const uint8_t *state, size_t state_len);

/* The summed BOUND of a state: at most the cost of every sequence from there to the goal, of any length. DESK_DONE
 * with the sum of the maps' distances in seconds; DESK_NONE exactly if at least one map says none, and then there is no
 * such sequence. So if some sequence leads to the goal, every map says a number.
 * Asked at the state now of a run (its bytes from DESK_RUN_NOW on) it falls, from one moment to any later one, by at
 * most what the maps were paid in between (desk_run_paid), and from DESK_NONE it does not come back.
 * Refusals: faulty tables, 8 (state too short), 9. */
desk_word desk_bound(const uint32_t *counts, size_t counts_len, const uint8_t *facts, size_t facts_len,
                     const uint32_t *costs, size_t costs_len, const uint32_t *shares, size_t shares_len,
                     const uint8_t *state, size_t state_len);

/* JUDGES a list of steps from a state. DESK_DONE with its cost: every step may run, the list stores no more tests than
 * the quota, and the end meets the goal.
 * Refusals: faulty tables, 8 (state too short), 9, 11 (more than DESK_STEPS steps), then the steps in order: 10 (no
 * such operator), 12 (it may not run) or 19 (it would store a test, and the steps before it stored as many as the
 * quota) at the step; 16 (the end doesn't meet the goal) at the list's length. */
desk_word desk_judge(const uint32_t *counts, size_t counts_len, const uint8_t *facts, size_t facts_len,
                     const uint32_t *costs, size_t costs_len, const uint32_t *shares, size_t shares_len,
                     const uint8_t *state, size_t state_len, const uint32_t *list, size_t list_len);

/* The CHEAPER of two lists of steps from a state, each judged up to the first moment a goal holds. DESK_FIRST or
 * DESK_SECOND with the cost of that opening part; DESK_NEITHER if both are out (more than DESK_STEPS steps, faulty
 * before that moment with what desk_judge calls 10, 12 or 19, or never at a goal). Equal costs name the first.
 * Refusals: faulty tables, 8 (state too short), 9. */
desk_word desk_cheaper(const uint32_t *counts, size_t counts_len, const uint8_t *facts, size_t facts_len,
                       const uint32_t *costs, size_t costs_len, const uint32_t *shares, size_t shares_len,
                       const uint8_t *state, size_t state_len, const uint32_t *a, size_t a_len, const uint32_t *b,
                       size_t b_len);

/* The OPENING PART of the cheaper list: DESK_FIRST or DESK_SECOND, the list that it is of, with the number of its
 * steps from that list's start. For neither, and for input that desk_cheaper refuses, the empty part of the first
 * list: DESK_FIRST with 0. It refuses nothing. */
desk_word desk_opening(const uint32_t *counts, size_t counts_len, const uint8_t *facts, size_t facts_len,
                       const uint32_t *costs, size_t costs_len, const uint32_t *shares, size_t shares_len,
                       const uint8_t *state, size_t state_len, const uint32_t *a, size_t a_len, const uint32_t *b,
                       size_t b_len);

/* BEGINS a run from a state. DESK_DONE: the lent run has that start, no steps and columns of 0.
 * The start may not lie in the lent run, which is written over: to go on from where a run is, in its own memory, copy
 * its state now first.
 * Refusals: 8 (the run's bytes or words too short), faulty tables, 8 (start too short), 9. Then the lent run is as it
 * was. */
desk_word desk_begin(const uint32_t *counts, size_t counts_len, const uint8_t *facts, size_t facts_len,
                     const uint32_t *costs, size_t costs_len, const uint32_t *shares, size_t shares_len,
                     const uint8_t *start, size_t start_len, uint8_t *run_bytes, size_t run_bytes_len,
                     uint32_t *run_words, size_t run_words_len);

/* OFFERS a step to the lent run: its number and its operator. DESK_DONE: accepted; the run has the step, its shares
 * and what is unshared are booked, and a test that it stores is counted. DESK_REPEATED: this step was accepted before
 * with this operator; the run is as it was, so a repeat never counts as another test. It is safe to send a timed-out
 * offer again.
 * Refusals: 8 (the run's bytes or words too short), faulty tables, 17 (no offers could have left such a run; one that
 * stored more tests than the quota is such a run), and at the offer's number: 10 (no such operator), 13 (number 0 or
 * beyond the next), 14 (an old number with another operator), 15 (the run is full), 12 (the operator may not run now),
 * 19 (it would store a test, and the run has stored as many as the quota). Then the lent run is as it was. */
desk_word desk_offer(const uint32_t *counts, size_t counts_len, const uint8_t *facts, size_t facts_len,
                     const uint32_t *costs, size_t costs_len, const uint32_t *shares, size_t shares_len,
                     uint8_t *run_bytes, size_t run_bytes_len, uint32_t *run_words, size_t run_words_len,
                     uint32_t number, uint32_t op);

/* WHAT A RUN TELLS, of its DESK_RUN_WORDS words; they may have any contents. */

/* The number of its steps; DESK_STEPS where the words say more, so that the words can always be lent as a list of so
 * many steps. */
static inline uint32_t desk_run_steps(const uint32_t *run_words)
{
    return run_words[DESK_STEPS] < DESK_STEPS ? run_words[DESK_STEPS] : DESK_STEPS;
}

/* The operator of a step, which counts from 1; DESK_NO_OPERATOR for 0 and for a number beyond the run's steps. */
static inline uint32_t desk_run_op(const uint32_t *run_words, uint32_t number)
{
    return number >= 1 && number <= desk_run_steps(run_words) ? run_words[number - 1] : DESK_NO_OPERATOR;
}

/* What a map was paid; 0 for a number that no map has, DESK_MAPS or more. */
static inline uint32_t desk_run_paid(const uint32_t *run_words, uint32_t map)
{
    return map < DESK_MAPS ? run_words[DESK_STEPS + 1 + map] : 0;
}

/* What no map was paid. */
static inline uint32_t desk_run_unshared(const uint32_t *run_words) { return run_words[DESK_STEPS + 1 + DESK_MAPS]; }

/* How many tests it has stored. */
static inline uint32_t desk_run_stored(const uint32_t *run_words) { return run_words[DESK_STEPS + 1 + DESK_MAPS + 1]; }

#ifdef __cplusplus
}
#endif

#endif
