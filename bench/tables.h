/* Random tables for the benchmarks, by a seed: gates, unate tables, those without a gate, and rows left free. */
#include "machine.h"

static uint64_t state;

/* splitmix64 */
static inline int below(int limit) {
    uint64_t z = (state += 0x9e3779b97f4a7c15u);
    z = (z ^ z >> 30) * 0xbf58476d1ce4e5b9u;
    z = (z ^ z >> 27) * 0x94d049bb133111ebu;
    return (int)((z ^ z >> 31) % (uint64_t)limit);
}

static inline void clear(Job *j, int n) {
    memset(j->table, 0, sizeof j->table);
    j->n = n;
    j->rows = 1 << n;
    care_for_every_row(j);
}

static inline void turn(Job *j, int row) { j->table[row >> 6] ^= (uint64_t)1 << (row & 63); }

static inline int sum_at(int n, const int *weights, int row) {
    int sum = 0;
    for (int i = 0; i < n; i++) sum += row >> i & 1 ? weights[i] : 0;
    return sum;
}

static inline void threshold(Job *j, int n, const int *weights, int t) {
    clear(j, n);
    for (int r = 0; r < j->rows; r++)
        if (sum_at(n, weights, r) >= t) turn(j, r);
}

/* The rows above some random ones of the middle heights, with random inputs turned. */
static inline void unate(Job *j, int n) {
    int least[24], count = 3 + below(n * 2), turned = below(1 << n);
    clear(j, n);
    for (int i = 0; i < count; i++)
        do least[i] = below(1 << n); while (abs(__builtin_popcount((unsigned)least[i]) - n / 2) > 1);
    for (int r = 0; r < j->rows; r++)
        for (int i = 0; i < count; i++)
            if ((r & least[i]) == least[i]) { turn(j, r ^ turned); break; }
}

static inline int uses_all_inputs(const Job *j) {
    for (int i = 0; i < j->n; i++) {
        int r = 0;
        while (r < j->rows && value(j, r) == value(j, r ^ 1 << i)) r++;
        if (r == j->rows) return 0;
    }
    return 1;
}

/* A random gate: weights within 3, 5, 8, 12 or 20, T at a row's sum or one more. */
static inline void small_gate(Job *j, int n) {
    static const int LIMITS[5] = {3, 5, 8, 12, 20};
    int weights[8], limit = LIMITS[below(5)];
    for (int i = 0; i < n; i++) weights[i] = below(2 * limit + 1) - limit;
    int t = sum_at(n, weights, below(1 << n));
    threshold(j, n, weights, t + below(2));
}

static inline void decide(Job *j) {
    fresh(j);
    if (j->stage == OPEN) carry_on(j, CALL_BUDGET);
}

/* A random unate table; whether it uses all inputs and has no gate. */
static inline int unate_without_gate(Job *j, int n) {
    unate(j, n);
    if (!uses_all_inputs(j)) return 0;
    decide(j);
    return j->stage == LOOPED;
}

/* ---- partial tables ---- */

static inline void leave_free(Job *j, int row) {
    uint64_t others = ~((uint64_t)1 << (row & 63));
    j->table[row >> 6] &= others;
    j->care[row >> 6] &= others;
}

/* Leaves the rows free on which two or three random inputs have random values. */
static inline void free_cube(Job *j) {
    int inputs = 0, count = 2 + below(2), values = below(j->rows);
    while (__builtin_popcount((unsigned)inputs) < count) inputs |= 1 << below(j->n);
    for (int r = 0; r < j->rows; r++)
        if (!((r ^ values) & inputs)) leave_free(j, r);
}

/* Leaves some rows of a table of at least three inputs free: one or two cubes, or each row with a chance of 1/16, 1/8, 1/4 or 1/2. */
static inline void free_rows(Job *j) {
    if (below(2)) {
        for (int cubes = 1 + below(2); cubes; cubes--) free_cube(j);
        return;
    }
    int chance = 2 << below(4);
    do
        for (int r = 0; r < j->rows; r++)
            if (!below(chance)) leave_free(j, r);
    while (cares_for_every_row(j, j->n));
}
