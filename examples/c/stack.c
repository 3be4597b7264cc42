/* Measures how much stack each call takes: it runs in a thread whose stack was painted before. Fails above THRESHOLD_STACK. */
#define _XOPEN_SOURCE 700
#include <pthread.h>
#include <stdio.h>
#include <stdlib.h>
#include <string.h>

#include "threshold.h"

enum { STACK = 1 << 20, PAINT = 0xa5 };

/* A table of eight inputs that stays open for long, its job after 100,000 corrections and its witness; the AND of eight with its gate; and
 * the first with row 0 not cared for, and its job. */
static const char slow[] = "fffffaaae8a8a0a0eaeaa8a0a0a08000a8a0808080800000a0a0000000000000";
static uint8_t partial[THRESHOLD_ROOM], partial_job[THRESHOLD_ROOM];
static size_t partial_length, partial_job_length;
static uint8_t table[THRESHOLD_ROOM], job[THRESHOLD_ROOM], against[THRESHOLD_ROOM], both[THRESHOLD_ROOM], carried[THRESHOLD_ROOM];
static size_t table_length, job_length, against_length, both_length, carried_length;

/* What the calls write. */
static uint8_t out[THRESHOLD_ROOM];
static uint32_t made, counts[256];
static int32_t weights[8], threshold;
static int64_t returned;

static void from_hex(void) { returned = threshold_from_hex(8, slow, sizeof slow - 1, out, sizeof out); }
static void from_words(void) {
    static const uint64_t words[4] = {1, 2, 3, 4};
    returned = threshold_from_words(8, words, 4, out, sizeof out);
}
static void from_cares(void) {
    static const uint64_t words[4] = {0, 2, 3, 4}, cares[4] = {1, 2, 3, 4};
    returned = threshold_from_cares(8, words, 4, cares, 4, out, sizeof out);
}
static void decide(void) { returned = threshold_decide(table, table_length, out, sizeof out, &made); }
static void carry_on(void) { returned = threshold_carry_on(job, job_length, THRESHOLD_CALL_BUDGET, out, sizeof out, &made); }
static void decide_partial(void) { returned = threshold_decide(partial, partial_length, out, sizeof out, &made); }
static void carry_on_partial(void) { returned = threshold_carry_on(partial_job, partial_job_length, 1, out, sizeof out, &made); }
static void find_gate(void) { returned = threshold_find_gate(both, both_length, THRESHOLD_CALL_BUDGET, weights, 8, &threshold, &made); }
static void find_witness(void) {
    returned = threshold_find_witness(partial_job, partial_job_length, THRESHOLD_CALL_BUDGET, counts, 256, &made);
}
static void fresh(void) { returned = threshold_fresh(table, table_length, out, sizeof out); }
static void corrections(void) { returned = threshold_corrections(job, job_length); }
static void check_of_gate(void) { returned = threshold_check(carried, carried_length); }
static void check_of_witness(void) { returned = threshold_check(against, against_length); }
static void check_gate(void) { returned = threshold_check_gate(partial, partial_length, weights, 8, threshold); }
static void check_witness(void) { returned = threshold_check_witness(partial, partial_length, counts, 256); }
static void gate(void) { returned = threshold_gate(carried, carried_length, weights, 8, &threshold); }
static void witness(void) { returned = threshold_witness(against, against_length, counts, 256); }
static void from_gate(void) { returned = threshold_from_gate(both, both_length, weights, 8, threshold, out, sizeof out); }
static void from_witness(void) { returned = threshold_from_witness(table, table_length, counts, 256, out, sizeof out); }
static void kind(void) { returned = threshold_kind(job, job_length); }
static void kinds(void) { returned = threshold_kinds(table, table_length, out, sizeof out); }
static void chow(void) { returned = threshold_chow(table, table_length, out, sizeof out); }
static void value(void) { returned = threshold_value(carried, carried_length, 255); }

static void (*const calls[])(void) = {from_hex, from_words, from_cares, decide, decide_partial, carry_on, carry_on_partial, fresh,
    corrections, find_gate, find_witness, check_of_gate, check_of_witness, gate, witness, check_gate, check_witness, from_gate,
    from_witness, kind, kinds, chow, value};

/* Ends the program where a call is refused. */
static size_t taken(int64_t length) {
    if (length < 0) {
        printf("refused: %s\n", threshold_refusal_text(length));
        exit(1);
    }
    return (size_t)length;
}

static void *run(void *call) {
    (*(void (**)(void))call)();
    return NULL;
}

/* The bytes of stack that a thread takes that makes one call, with its own start. */
static size_t measured(void (*call)(void)) {
    uint8_t *stack = NULL;
    pthread_attr_t attributes;
    pthread_t thread;
    if (posix_memalign((void **)&stack, 4096, STACK) != 0) {
        exit(1);
    }
    memset(stack, PAINT, STACK);
    if (pthread_attr_init(&attributes) != 0 || pthread_attr_setstack(&attributes, stack, STACK) != 0 ||
        pthread_create(&thread, &attributes, run, &call) != 0 || pthread_join(thread, NULL) != 0) {
        exit(1);
    }
    size_t untouched = 0;
    while (untouched < STACK && stack[untouched] == PAINT) {
        untouched++;
    }
    free(stack);
    return STACK - untouched;
}

int main(int count, char **arguments) {
    (void)arguments;
    size_t most = 0;
    table_length = taken(threshold_from_hex(8, slow, sizeof slow - 1, table, sizeof table));
    job_length = taken(threshold_decide(table, table_length, job, sizeof job, &made));
    against_length = taken(threshold_carry_on(job, job_length, THRESHOLD_CALL_BUDGET, against, sizeof against, &made));
    static const uint64_t all[4] = {0, 0, 0, (uint64_t)1 << 63};
    both_length = taken(threshold_from_words(8, all, 4, both, sizeof both));
    carried_length = taken(threshold_decide(both, both_length, carried, sizeof carried, &made));
    static const uint64_t words[4] = {0xa0a0000000000000, 0xa8a0808080800000, 0xeaeaa8a0a0a08000, 0xfffffaaae8a8a0a0};
    static const uint64_t cares[4] = {~(uint64_t)1, ~(uint64_t)0, ~(uint64_t)0, ~(uint64_t)0};
    partial_length = taken(threshold_from_cares(8, words, 4, cares, 4, partial, sizeof partial));
    partial_job_length = taken(threshold_decide(partial, partial_length, partial_job, sizeof partial_job, &made));
    for (size_t i = 0; i < sizeof calls / sizeof calls[0]; i++) {
        const size_t bytes = measured(calls[i]);
        taken(returned);
        most = bytes > most ? bytes : most;
    }
    if (count > 1) { /* asked for the figure, which differs from machine to machine */
        printf("%zu bytes\n", most);
    }
    puts(most < THRESHOLD_STACK ? "every call takes less than THRESHOLD_STACK bytes of stack" : "a call takes more");
    return most < THRESHOLD_STACK ? 0 : 1;
}
