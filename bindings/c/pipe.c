/* The desk on a pipe, from C: reads a task from standard input, a piece at a time as they come, and tells the bound of
 * its initial state, or the two lines of a refusal as the desk program writes them.
 *
 *     pipe < TASK
 *
 * Ends with status 0, with 1 if the desk refused the task, and with 2 if standard input can't be read. */
#include <stdio.h>
#include <unistd.h>
#include "desk.h"

/* A text in pieces, and the task that its end fills. */
static uint32_t words[DESK_TEXT_WORDS];
static uint8_t area[DESK_AREA];
static uint32_t counts[DESK_COUNTS], costs[DESK_COSTS], shares[DESK_SHARES];
static uint8_t facts[DESK_FACTS];

#define TASK counts, DESK_COUNTS, facts, DESK_FACTS, costs, DESK_COSTS, shares, DESK_SHARES

/* The bound, or the refusal, as the desk program writes it. */
static int tell(desk_word w)
{
    if (desk_is_refusal(w))
        printf("refused=%u\nplace=%llu\n", (unsigned)desk_kind(w), (unsigned long long)desk_number(w));
    else if (desk_kind(w) == DESK_NONE)
        printf("bound=none\n");
    else
        printf("bound=%llu\n", (unsigned long long)desk_number(w));
    return desk_is_refusal(w);
}

int main(void)
{
    static uint8_t piece[512]; /* of any size: the answer doesn't depend on it */
    ssize_t n = 0;
    desk_word w = desk_begin_text(words, DESK_TEXT_WORDS);
    while (!desk_is_refusal(w) && (n = read(STDIN_FILENO, piece, sizeof piece)) > 0)
        w = desk_take_piece(words, DESK_TEXT_WORDS, area, DESK_AREA, piece, (size_t)n);
    if (n < 0) {
        perror("standard input");
        return 2;
    }
    if (!desk_is_refusal(w))
        w = desk_end_text(words, DESK_TEXT_WORDS, area, DESK_AREA, TASK);
    if (!desk_is_refusal(w))
        w = desk_bound(TASK, facts + DESK_INITIAL, counts[DESK_VARIABLES_AT]);
    return tell(w);
}
