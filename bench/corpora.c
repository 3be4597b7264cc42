/* Writes the sets of tables that bench/run times, by a seed: corpora FOLDER SEED

     all4          every table of four inputs
     thr4 to thr8  random gates: weights within 3, 5, 8, 12 or 20, T at a row's sum or one more
     una6 to una8  random unate tables that use all inputs and have no gate
     hard          eight inputs: 300 gates and 100 refusals after at least 4,000 corrections, and 100 gates climbed for many

   Their records are of kind 1. Those of partial tables are of kind 5; but for pall4 their rows are left free by free_rows of tables.h:

     pall4                every table of four inputs, with one random row left free
     pthr4, pthr6, pthr8  random gates as above, with rows left free
     puna8                tables of una8's sort, with rows left free, that still have no gate
     phard                eight inputs, rows left free: 300 gates and 100 refusals after at least 4,000 corrections

   A set is in files of at most 65,536 bytes, as the report takes them: SET-0.bin, SET-1.bin and so on. */
#include "tables.h"

/* ---- files ---- */

static const char *folder;
static char set[8];
static FILE *file;
static int files, length, records;

static void open_set(const char *name, int n, uint64_t first_state) {
    snprintf(set, sizeof set, n ? "%s%d" : "%s", name, n);
    files = length = records = 0;
    state = first_state;
}

static void close_set(void) {
    fclose(file);
    file = 0;
}

static void add(const Job *j) {
    size_t count = (size_t)(j->rows + 7) / 8;
    int partial = !cares_for_every_row(j, j->n), size = 2 + (int)count * (1 + partial);
    if (!file || length + size > INPUT_MOST) {
        char path[4096];
        if (file) fclose(file);
        snprintf(path, sizeof path, "%s/%s-%d.bin", folder, set, files++);
        if (!(file = fopen(path, "wb"))) exit((perror(path), 1));
        length = 0;
    }
    fputc(partial ? 5 : 1, file);
    fputc(j->n, file);
    fwrite(j->table, 1, count, file);
    if (partial) fwrite(j->care, 1, count, file);
    length += size;
    records++;
}

/* ---- tables ---- */

/* A random gate of eight inputs; its T. */
static int random_gate(Job *j, int *weights) {
    int limit = 16 + below(48);
    for (int i = 0; i < 8; i++) {
        int size = 1 + below(limit);
        weights[i] = below(2) ? size : -size;
    }
    int t = sum_at(8, weights, below(256));
    t += below(2);
    threshold(j, 8, weights, t);
    return t;
}

/* ---- sets: with p before the name, of partial tables ---- */

static void all4(uint64_t seed, int partial) {
    static Job j;
    open_set(partial ? "pall" : "all", 4, seed + 500);
    for (int t = 0; t < 65536; t++) {
        clear(&j, 4);
        j.table[0] = (uint64_t)t;
        if (partial) leave_free(&j, below(16));
        add(&j);
    }
    close_set();
}

static void gates(int n, uint64_t seed, int partial) {
    static Job j;
    open_set(partial ? "pthr" : "thr", n, seed + (uint64_t)n + (partial ? 300 : 0));
    while (records < 5000) {
        small_gate(&j, n);
        if (partial) free_rows(&j);
        add(&j);
    }
    close_set();
}

static void refusals(int n, uint64_t seed, int partial) {
    static Job j;
    open_set(partial ? "puna" : "una", n, seed + (uint64_t)n + (partial ? 400 : 100));
    while (records < (n == 6 ? 700 : 650)) {
        if (!unate_without_gate(&j, n)) continue;
        if (partial) {
            free_rows(&j);
            decide(&j);
        }
        if (j.stage == LOOPED) add(&j);
    }
    close_set();
}

/* The gate with the most corrections that 400 small changes of a random one's weights and T lead to. */
static Job climbed(void) {
    static Job j, best;
    int weights[8], t = random_gate(&j, weights);
    decide(&j);
    best = j;
    for (int change = 0; change < 400; change++) {
        int other[8], other_t = t;
        memcpy(other, weights, sizeof other);
        int is_weight = below(3) != 0, by = below(2) ? 1 : -1;
        if (is_weight) other[below(8)] += by;
        else other_t += by;
        if (!below(3)) {
            int x = below(8), y = below(8), held = other[x];
            other[x] = other[y];
            other[y] = held;
        }
        threshold(&j, 8, other, other_t);
        decide(&j);
        if (j.stage == BINATE || j.stage == LOOPED || j.k < best.k) continue;
        memcpy(weights, other, sizeof weights);
        t = other_t;
        best = j;
    }
    return best;
}

static void hard(uint64_t seed, int partial) {
    static Job j;
    open_set(partial ? "phard" : "hard", 0, seed + (partial ? 600 : 200));
    while (records < 400) {
        int weights[8], is_gate = records < 300;
        random_gate(&j, weights);
        if (!is_gate) turn(&j, below(256));
        if (partial) free_rows(&j);
        decide(&j);
        if (j.stage == (is_gate ? FOUND : LOOPED) && j.k >= 4000) add(&j);
    }
    while (!partial && records < 500) {
        j = climbed();
        add(&j);
    }
    close_set();
}

int main(int argc, char **argv) {
    if (argc != 3) return fputs("usage: corpora FOLDER SEED\n", stderr), 2;
    uint64_t seed = 1000 * strtoull(argv[2], 0, 10);
    folder = argv[1];
    make_changes();
    all4(seed, 0);
    for (int n = 4; n <= 8; n++) gates(n, seed, 0);
    for (int n = 6; n <= 8; n++) refusals(n, seed, 0);
    hard(seed, 0);
    all4(seed, 1);
    for (int n = 4; n <= 8; n += 2) gates(n, seed, 1);
    refusals(8, seed, 1);
    hard(seed, 1);
    return 0;
}
