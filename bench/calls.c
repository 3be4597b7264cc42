/* Times each call of include/threshold.h on tables of 4, 6 and 8 inputs: calls [ROUNDS]

   Prints nanoseconds for a call, as a table. The tables are of three sorts, 256 of each for each n, by a fixed seed: random gates that take
   at least two corrections; random unate tables that use all inputs and have no gate; random tables with a binate input. A round times
   every call, one n after another, each over its tables again and again for at least a millisecond of processor time; the median of the
   rounds is printed.

   What the calls give is compared before with bench/machine.h, with what a look at every row gives, and with the way back; what they return
   has to be the same in every pass. A difference ends the run with status 1. */
#define _POSIX_C_SOURCE 199309L
#include <time.h>

#include "tables.h"
#include "threshold.h"

enum { TABLES = 256, SIZES = 3, SORTS = 3, ROUNDS_MOST = 99, PASS_NANOSECONDS = 1000000 };
enum { GATES, LOOPS, BINATES };
static const int INPUTS[SIZES] = {4, 6, 8};

/* A table, as every call takes it. */
typedef struct {
    uint32_t n, row, k;
    char digits[64];
    uint64_t words[4], free_words[4], cares[4]; /* of the table, and of it with about an eighth of the rows not cared for */
    size_t partial_length, digit_count, word_count, record_length, verdict_length, job_length;
    uint8_t record[34], partial[66], verdict[1200], job[1200]; /* kind 1; kind 5; kind 2 or 3; kind 4, at half of the corrections */
    int32_t weights[8], t;
    uint32_t counts[256];
} Item;

static Item items[SIZES][SORTS][TABLES];
static uint8_t out[THRESHOLD_ROOM];
static int32_t weights_out[8], t_out;
static uint32_t counts_out[256], made;

/* ---- the calls ---- */

#define RECORD x->record, x->record_length
#define PARTIAL x->partial, x->partial_length
#define VERDICT x->verdict, x->verdict_length
#define JOB x->job, x->job_length
#define OUT out, sizeof out

static int64_t nothing(const Item *x) { return x->n; }
static int64_t from_hex(const Item *x) { return threshold_from_hex(x->n, x->digits, x->digit_count, OUT); }
static int64_t from_words(const Item *x) { return threshold_from_words(x->n, x->words, x->word_count, OUT); }
static int64_t from_cares(const Item *x) {
    return threshold_from_cares(x->n, x->free_words, x->word_count, x->cares, x->word_count, OUT);
}
static int64_t decided(const Item *x) { return threshold_decide(RECORD, OUT, &made); }
static int64_t made_fresh(const Item *x) { return threshold_fresh(RECORD, OUT); }
static int64_t carried_on(const Item *x) { return threshold_carry_on(JOB, 1, OUT, &made); }
static int64_t corrections(const Item *x) { return threshold_corrections(JOB); }
static int64_t find_gate(const Item *x) { return threshold_find_gate(RECORD, CALL_BUDGET, weights_out, 8, &t_out, &made); }
static int64_t find_partial_gate(const Item *x) { return threshold_find_gate(PARTIAL, CALL_BUDGET, weights_out, 8, &t_out, &made); }
static int64_t find_witness(const Item *x) { return threshold_find_witness(RECORD, CALL_BUDGET, counts_out, 256, &made); }
static int64_t check(const Item *x) { return threshold_check(VERDICT); }
static int64_t check_gate(const Item *x) { return threshold_check_gate(RECORD, x->weights, x->n, x->t); }
static int64_t check_partial_gate(const Item *x) { return threshold_check_gate(PARTIAL, x->weights, x->n, x->t); }
static int64_t check_witness(const Item *x) { return threshold_check_witness(RECORD, x->counts, (size_t)1 << x->n); }
static int64_t gate(const Item *x) { return threshold_gate(VERDICT, weights_out, 8, &t_out); }
static int64_t witness(const Item *x) { return threshold_witness(VERDICT, counts_out, 256); }
static int64_t from_gate(const Item *x) { return threshold_from_gate(RECORD, x->weights, x->n, x->t, OUT); }
static int64_t from_witness(const Item *x) { return threshold_from_witness(RECORD, x->counts, (size_t)1 << x->n, OUT); }
static int64_t kind_of_table(const Item *x) { return threshold_kind(RECORD); }
static int64_t kind_of_job(const Item *x) { return threshold_kind(JOB); }
static int64_t kinds(const Item *x) { return threshold_kinds(RECORD, OUT); }
static int64_t chow(const Item *x) { return threshold_chow(RECORD, OUT); }
static int64_t value_of_table(const Item *x) { return threshold_value(RECORD, x->row); }
static int64_t value_of_gate(const Item *x) { return threshold_value(VERDICT, x->row); }

static const struct {
    const char *call, *given;
    int sort;
    int64_t (*run)(const Item *);
} MEASURES[] = {
    {"`from_hex`", "the digits of a table", GATES, from_hex},
    {"`from_words`", "the words of a table", GATES, from_words},
    {"`from_cares`", "the words of a table and of its cares, an eighth of them 0", GATES, from_cares},
    {"`decide`", "a table that has a gate", GATES, decided},
    {"`decide`", "a unate table that has none", LOOPS, decided},
    {"`decide`", "a table with a binate input", BINATES, decided},
    {"`carry_on`", "a job at half of a gate's corrections, by one", GATES, carried_on},
    {"`fresh`", "a table that has a gate", GATES, made_fresh},
    {"`fresh`", "a table with a binate input", BINATES, made_fresh},
    {"`corrections`", "a job at half of a gate's corrections", GATES, corrections},
    {"`find_gate`", "a table that has a gate", GATES, find_gate},
    {"`find_gate`", "the same with an eighth of the rows not cared for", GATES, find_partial_gate},
    {"`find_witness`", "a unate table that has none", LOOPS, find_witness},
    {"`check`", "a gate", GATES, check},
    {"`check`", "a witness", LOOPS, check},
    {"`check_gate`", "a table, weights and T", GATES, check_gate},
    {"`check_gate`", "the same with an eighth of the rows not cared for", GATES, check_partial_gate},
    {"`check_witness`", "a table and counts", LOOPS, check_witness},
    {"`gate`", "a gate", GATES, gate},
    {"`witness`", "a witness", LOOPS, witness},
    {"`from_gate`", "a table, weights and T", GATES, from_gate},
    {"`from_witness`", "a table and counts", LOOPS, from_witness},
    {"`kind`", "a table", GATES, kind_of_table},
    {"`kind`", "a job at half of a gate's corrections", GATES, kind_of_job},
    {"`kinds`", "a table", GATES, kinds},
    {"`chow`", "a table", GATES, chow},
    {"`value`", "a table and a row", GATES, value_of_table},
    {"`value`", "a gate and a row", GATES, value_of_gate},
    {"none", "an empty function in place of a call", GATES, nothing}};
enum { MEASURED = sizeof MEASURES / sizeof MEASURES[0] };

/* ---- tables, and what is expected of them ---- */

static void must(int holds, const char *what) {
    if (!holds) {
        fprintf(stderr, "calls: %s differs\n", what);
        exit(1);
    }
}

/* Whether a call wrote these bytes. */
static int wrote(int64_t length, const uint8_t *bytes, size_t count) { return length == (int64_t)count && !memcmp(out, bytes, count); }

static size_t kept(uint8_t *bytes, int64_t length) {
    must(length > 0 && length <= 1200, "a length");
    memcpy(bytes, out, (size_t)length);
    return (size_t)length;
}

/* A random table of a sort, decided by bench/machine.h. */
static void make_table(Job *j, int n, int sort) {
    do {
        if (sort == GATES) {
            small_gate(j, n);
        } else if (sort == LOOPS) {
            while (!unate_without_gate(j, n)) {
            }
        } else {
            clear(j, n);
            for (int r = 0; r < j->rows; r++)
                if (below(2)) turn(j, r);
        }
        decide(j);
    } while (sort == GATES ? j->k < 2 : j->stage != (sort == LOOPS ? LOOPED : BINATE));
}

/* A table as record, digits and words. */
static void write_table(Item *x, const Job *j) {
    x->n = (uint32_t)j->n;
    x->k = j->k;
    x->row = (uint32_t)below(j->rows);
    x->digit_count = (size_t)j->rows / 4;
    x->word_count = j->rows <= 64 ? 1 : (size_t)j->rows / 64;
    x->record_length = 2 + (size_t)j->rows / 8;
    x->record[0] = THRESHOLD_RECORD_TABLE;
    x->record[1] = (uint8_t)j->n;
    for (int r = 0; r < j->rows; r++) x->record[2 + r / 8] |= (uint8_t)(value(j, r) << r % 8);
    for (size_t i = 0; i < x->digit_count; i++) {
        size_t at = 4 * (x->digit_count - 1 - i);
        x->digits[i] = "0123456789abcdef"[j->table[at / 64] >> at % 64 & 15];
    }
    memcpy(x->words, j->table, sizeof x->words);
}

/* The table with about an eighth of its rows not cared for, row 0 among them, as words and as the record of these bits. The random numbers
   that it takes are drawn again, so that the tables stay those that they were. */
static void write_partial(Item *x, const Job *j) {
    size_t bytes = x->record_length - 2;
    const uint64_t before = state;
    for (int r = 0; r < j->rows; r++) x->cares[r / 64] |= (uint64_t)(r != 0 && below(8) != 0) << r % 64;
    state = before;
    for (int w = 0; w < 4; w++) x->free_words[w] = x->words[w] & x->cares[w];
    x->partial_length = 2 + 2 * bytes;
    x->partial[0] = THRESHOLD_RECORD_PARTIAL_TABLE;
    x->partial[1] = (uint8_t)x->n;
    for (size_t i = 0; i < bytes; i++) {
        x->partial[2 + i] = (uint8_t)(x->free_words[i / 8] >> i % 8 * 8);
        x->partial[2 + bytes + i] = (uint8_t)(x->cares[i / 8] >> i % 8 * 8);
    }
}

/* The verdict, and its numbers, which lead back to it. */
static void write_verdict(Item *x, const Job *j) {
    x->verdict_length = kept(x->verdict, decided(x));
    must(made == j->k && x->verdict[0] == (j->stage == FOUND ? THRESHOLD_RECORD_GATE : THRESHOLD_RECORD_WITNESS), "a verdict");
    must(check(x) == 1, "a certificate");
    if (j->stage == FOUND) {
        must(gate(x) == j->n, "a gate's n");
        memcpy(x->weights, weights_out, sizeof x->weights);
        x->t = t_out;
        must(!memcmp(x->weights, j->v, sizeof x->weights[0] * x->n) && x->t == j->v[8], "a gate");
        must(wrote(from_gate(x), x->verdict, x->verdict_length), "a gate's record");
        must(find_gate(x) == j->n && made == j->k && t_out == x->t, "a gate found");
        must(!memcmp(weights_out, x->weights, sizeof x->weights[0] * x->n), "a gate's weights found");
        must(check_gate(x) == 1 && check_partial_gate(x) == 1, "a gate's numbers");
        must(find_partial_gate(x) == j->n && threshold_check_gate(PARTIAL, weights_out, x->n, t_out) == 1, "a partial table's gate");
    } else {
        must(witness(x) == j->rows, "a witness's rows");
        memcpy(x->counts, counts_out, sizeof x->counts);
        must(!memcmp(x->counts, j->counts, sizeof x->counts[0] * (size_t)j->rows), "a witness");
        must(wrote(from_witness(x), x->verdict, x->verdict_length), "a witness's record");
        must(find_witness(x) == j->rows && made == j->k && !memcmp(counts_out, x->counts, sizeof x->counts), "a witness found");
        must(check_witness(x) == 1, "a witness's counts");
    }
}

/* The job at half of the corrections, from which the rest leads to the verdict. */
static void write_job(Item *x) {
    uint8_t start[THRESHOLD_ROOM];
    int64_t length = made_fresh(x);
    if (x->k == 0) {
        must(wrote(length, x->verdict, x->verdict_length), "a fresh job's witness");
        return;
    }
    memcpy(start, out, sizeof start);
    x->job_length = kept(x->job, threshold_carry_on(start, (size_t)length, x->k / 2, OUT, &made));
    must(corrections(x) == (int64_t)(x->k / 2) && kind_of_job(x) == THRESHOLD_RECORD_JOB, "a job");
    must(wrote(threshold_carry_on(JOB, CALL_BUDGET, OUT, &made), x->verdict, x->verdict_length) && made == x->k - x->k / 2, "a carried job");
}

/* Kinds, Chow's parameters and a value, by looking at every row. */
static void check_inputs(const Item *x, const Job *j) {
    must(kinds(x) == 8, "the kinds' length");
    uint8_t found[8];
    memcpy(found, out, sizeof found);
    must(chow(x) == 16, "the parameters' length");
    for (int i = 0; i < j->n; i++) {
        int rises = 0, falls = 0, q = 0;
        for (int r = 0; r < j->rows; r++) {
            int with = value(j, r | 1 << i), without = value(j, r & ~(1 << i));
            rises |= with > without;
            falls |= with < without;
            q += value(j, r) ? (r >> i & 1 ? 1 : -1) : 0;
        }
        must(found[i] == rises + 2 * falls, "a kind");
        must((int16_t)(out[2 * i] | out[2 * i + 1] << 8) == q, "a parameter");
    }
    must(value_of_table(x) == value(j, (int)x->row) && kind_of_table(x) == THRESHOLD_RECORD_TABLE, "a value or a kind");
    must(j->stage != FOUND || value_of_gate(x) == value(j, (int)x->row), "a gate's value");
}

static void make_item(Item *x, int n, int sort) {
    static Job j;
    make_table(&j, n, sort);
    write_table(x, &j);
    must(wrote(from_hex(x), RECORD) && wrote(from_words(x), RECORD), "a record");
    write_partial(x, &j);
    must(wrote(from_cares(x), PARTIAL), "a partial table's record");
    write_verdict(x, &j);
    write_job(x);
    check_inputs(x, &j);
}

/* ---- times ---- */

static double nanoseconds(void) {
    struct timespec now;
    clock_gettime(CLOCK_PROCESS_CPUTIME_ID, &now);
    return 1e9 * (double)now.tv_sec + (double)now.tv_nsec;
}

static int64_t pass(int measure, const Item *set) {
    int64_t sum = 0;
    for (int i = 0; i < TABLES; i++) sum += MEASURES[measure].run(&set[i]);
    return sum;
}

/* Nanoseconds for a call, over as many passes as the time asks for. */
static double time_of(int measure, const Item *set) {
    int64_t first = pass(measure, set);
    double start = nanoseconds(), took = 0;
    int passes = 0;
    do {
        must(pass(measure, set) == first, MEASURES[measure].call);
        passes++;
    } while ((took = nanoseconds() - start) < PASS_NANOSECONDS);
    return took / passes / TABLES;
}

static int rising(const void *a, const void *b) {
    double x = *(const double *)a, y = *(const double *)b;
    return (x > y) - (x < y);
}

static double times[MEASURED][SIZES][ROUNDS_MOST];

int main(int count, char **arguments) {
    int rounds = count > 1 ? atoi(arguments[1]) : 15;
    if (rounds < 1 || rounds > ROUNDS_MOST) return fputs("usage: calls [ROUNDS], 1 to 99\n", stderr), 2;
    make_changes();
    state = 1;
    for (int size = 0; size < SIZES; size++)
        for (int sort = 0; sort < SORTS; sort++)
            for (int i = 0; i < TABLES; i++) make_item(&items[size][sort][i], INPUTS[size], sort);
    for (int round = 0; round < rounds; round++)
        for (int m = 0; m < MEASURED; m++)
            for (int size = 0; size < SIZES; size++) times[m][size][round] = time_of(m, items[size][MEASURES[m].sort]);
    printf("Nanoseconds for a call, the median of %d rounds\n\n", rounds);
    puts("| call | given | 4 inputs, ns | 6 inputs, ns | 8 inputs, ns |\n|---|---|---|---|---|");
    for (int m = 0; m < MEASURED; m++) {
        printf("| %s | %s |", MEASURES[m].call, MEASURES[m].given);
        for (int size = 0; size < SIZES; size++) {
            qsort(times[m][size], (size_t)rounds, sizeof times[m][size][0], rising);
            double middle = times[m][size][rounds / 2];
            printf(middle < 100 ? " %.1f |" : " %.0f |", middle);
        }
        putchar('\n');
    }
    puts("\nall results as expected");
    return 0;
}
