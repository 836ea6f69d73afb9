/* The desk from C: reads a task from a file, tells the bound of its initial state, offers the steps named after it one
 * by one, and tells what is left after each.
 *
 *     bench TASK-FILE [OPERATOR ..]
 *
 * Ends with status 0, with 1 if the desk refused the task or a step, and with 2 if the file can't be read or the words
 * are off. */
#include <stdio.h>
#include <stdlib.h>
#include "desk.h"

/* A task as the desk lends and is lent it. */
struct task {
    uint32_t counts[DESK_COUNTS];
    uint8_t facts[DESK_FACTS];
    uint32_t costs[DESK_COSTS];
    uint32_t shares[DESK_SHARES];
};

/* The parameters that every function about a task begins with. */
#define TABLES(t) (t)->facts, DESK_FACTS, (t)->costs, DESK_COSTS, (t)->shares, DESK_SHARES
#define TASK(t) (t)->counts, DESK_COUNTS, TABLES(t)

/* A run. Its bytes are its start and, from DESK_RUN_NOW on, its state now. */
struct run {
    uint8_t bytes[DESK_RUN_BYTES];
    uint32_t words[DESK_RUN_WORDS];
};

#define RUN(r) (r)->bytes, DESK_RUN_BYTES, (r)->words, DESK_RUN_WORDS

static int refused(const char *what, desk_word w)
{
    printf("%s refused=%u place=%llu\n", what, (unsigned)desk_kind(w), (unsigned long long)desk_number(w));
    return 1;
}

/* The bound of a state, as the desk program writes it. */
static void tell_bound(const struct task *t, const uint8_t *state)
{
    desk_word w = desk_bound(TASK(t), state, t->counts[DESK_VARIABLES_AT]);
    if (desk_kind(w) == DESK_NONE)
        printf("bound=none\n");
    else if (desk_kind(w) == DESK_DONE)
        printf("bound=%llu\n", (unsigned long long)desk_number(w));
    else
        refused("bound", w);
}

static int offer(const struct task *t, struct run *r, uint32_t number, uint32_t op)
{
    desk_word w = desk_offer(TASK(t), RUN(r), number, op);
    if (desk_is_refusal(w))
        return refused("offer", w);
    const char *answer = desk_kind(w) == DESK_REPEATED ? "repeated" : "accepted";
    printf("step %u operator %u %s, ", (unsigned)number, (unsigned)op, answer);
    if (t->counts[DESK_EDITION_AT] == 2)
        printf("stored %u of %u, ", (unsigned)desk_run_stored(r->words), (unsigned)t->counts[DESK_QUOTA_AT]);
    printf("unshared %u, paid", (unsigned)desk_run_unshared(r->words));
    for (uint32_t m = 0; m < t->counts[DESK_MAPS_AT]; m++)
        printf(" %u", (unsigned)desk_run_paid(r->words, m));
    printf("\n");
    tell_bound(t, r->bytes + DESK_RUN_NOW);
    return 0;
}

int main(int argc, char **argv)
{
    static uint8_t text[16385]; /* one byte more than a text may have, so that a longer one is refused as too long */
    static struct task t;
    static struct run r;
    if (argc < 2) {
        fprintf(stderr, "bench TASK-FILE [OPERATOR ..]\n");
        return 2;
    }
    FILE *f = fopen(argv[1], "rb");
    if (!f) {
        perror(argv[1]);
        return 2;
    }
    size_t n = fread(text, 1, sizeof text, f);
    if (ferror(f)) { /* a folder, for one: it can be opened */
        perror(argv[1]);
        return 2;
    }
    fclose(f);
    desk_word w = desk_read(text, n, TASK(&t));
    if (desk_is_refusal(w))
        return refused("read", w);
    const uint8_t *init = t.facts + DESK_INITIAL;
    tell_bound(&t, init);
    w = desk_begin(TASK(&t), init, t.counts[DESK_VARIABLES_AT], RUN(&r));
    if (desk_is_refusal(w))
        return refused("begin", w);
    for (int i = 2; i < argc; i++) {
        char *end;
        unsigned long op = strtoul(argv[i], &end, 10);
        if (*end || end == argv[i] || op > UINT32_MAX) {
            fprintf(stderr, "%s is not an operator's number\n", argv[i]);
            return 2;
        }
        if (offer(&t, &r, (uint32_t)(i - 1), (uint32_t)op))
            return 1;
    }
    return 0;
}
