/* Decides tables by linear programs of GLPK, with a certificate of each answer: lp < records

   A table with a binate input is refused at once, with document 01's four counts, and one with no row cared for gets the gate of zeros. For
   any other a first program asks for weights and T (true rows: sum - T at least 0, false rows: at most -1), and if there are none a second
   asks for balanced counts whose true rows add up to 1; both have the rows cared for alone. The numbers of a solution are scaled to
   integers, and these are tested on every such row or in every sum before they are printed.

   A line has the position and n, then G, the weights and T; or N and row:count pairs; or ? where no certificate was found. */
#include "machine.h"
#include <glpk.h>

enum { SCALE_MOST = 4096 };

static int rows_of[1 + 256 * 10], columns_of[1 + 256 * 10], entries;
static double values[1 + 256 * 10];

static void entry(int row, int column, double x) {
    entries++;
    rows_of[entries] = row;
    columns_of[entries] = column;
    values[entries] = x;
}

/* Solves a program whose matrix is in the entries; whether there is a solution. */
static int solved(glp_prob *p, int method) {
    glp_smcp options;
    glp_load_matrix(p, entries, rows_of, columns_of, values);
    glp_init_smcp(&options);
    options.msg_lev = GLP_MSG_OFF;
    options.meth = method;
    return !glp_simplex(p, &options) && glp_get_status(p) == GLP_OPT;
}

/* The columns of a solution as integers, at a scale; whether they are close to integers of document 01's range. */
static int scaled(glp_prob *p, int count, int scale, double allowed, int64_t *numbers) {
    for (int i = 0; i < count; i++) {
        double x = glp_get_col_prim(p, i + 1) * scale;
        if (x < -1000000 || x > 1000000) return 0;
        numbers[i] = (int64_t)(x < 0 ? x - 0.5 : x + 0.5);
        double off = x - (double)numbers[i];
        if (off < -allowed || off > allowed) return 0;
    }
    return 1;
}

static int realises(const Job *j, const int64_t *gate) {
    for (int r = 0; r < j->rows; r++) {
        int64_t d = -gate[j->n];
        for (int i = 0; i < j->n; i++) d += r >> i & 1 ? gate[i] : 0;
        if (cared(j, r) && (d >= 0) != value(j, r)) return 0;
    }
    return 1;
}

static int balances(const Job *j, const int64_t *counts) {
    int64_t total = 0, difference[9] = {0};
    for (int r = 0; r < j->rows; r++) {
        int64_t x = value(j, r) ? counts[r] : -counts[r];
        if (counts[r] < 0 || (counts[r] && !cared(j, r))) return 0;
        total += counts[r];
        difference[8] += x;
        for (int i = 0; i < j->n; i++) difference[i] += r >> i & 1 ? x : 0;
    }
    for (int i = 0; i < 9; i++)
        if (difference[i]) return 0;
    return total > 0;
}

/* The rows cared for, rising; how many. */
static int rows_cared(const Job *j, int *rows) {
    int count = 0;
    for (int r = 0; r < j->rows; r++)
        if (cared(j, r)) rows[count++] = r;
    return count;
}

/* Weights and T; 1 if there are some and they were scaled to integers, 0 if there are none, -1 if none were scaled. */
static int gate_of(const Job *j, int64_t *gate) {
    glp_prob *p = glp_create_prob();
    int found = 0, rows[256], count = rows_cared(j, rows);
    glp_add_rows(p, count);
    glp_add_cols(p, j->n + 1);
    entries = 0;
    for (int i = 1; i <= j->n + 1; i++) glp_set_col_bnds(p, i, GLP_FR, 0, 0);
    for (int q = 1; q <= count; q++) {
        int r = rows[q - 1];
        glp_set_row_bnds(p, q, value(j, r) ? GLP_LO : GLP_UP, 0, -1);
        for (int i = 0; i < j->n; i++)
            if (r >> i & 1) entry(q, i + 1, 1);
        entry(q, j->n + 1, -1);
    }
    if (solved(p, GLP_DUALP)) found = -1;
    for (int scale = 1; found < 0 && scale <= SCALE_MOST; scale++)
        if (scaled(p, j->n + 1, scale, scale > 16 ? 1e-5 * scale / 16 : 1e-5, gate) && realises(j, gate)) found = 1;
    glp_delete_prob(p);
    return found;
}

/* Balanced counts; whether there are some and they were scaled to integers. */
static int witness_of(const Job *j, int64_t *counts) {
    glp_prob *p = glp_create_prob();
    int found = 0, rows[256], count = rows_cared(j, rows);
    int64_t numbers[256];
    glp_add_rows(p, j->n + 2);
    glp_add_cols(p, count);
    entries = 0;
    for (int i = 1; i <= j->n + 1; i++) glp_set_row_bnds(p, i, GLP_FX, 0, 0);
    glp_set_row_bnds(p, j->n + 2, GLP_FX, 1, 1);
    for (int q = 1; q <= count; q++) {
        int r = rows[q - 1];
        double sign = value(j, r) ? 1 : -1;
        glp_set_col_bnds(p, q, GLP_LO, 0, 0);
        for (int i = 0; i < j->n; i++)
            if (r >> i & 1) entry(i + 1, q, sign);
        entry(j->n + 1, q, sign);
        if (value(j, r)) entry(j->n + 2, q, 1);
    }
    memset(counts, 0, sizeof counts[0] * 256);
    if (solved(p, GLP_PRIMAL))
        for (int scale = 1; !found && scale <= SCALE_MOST; scale++) {
            if (!scaled(p, count, scale, 1e-6 * scale, numbers)) continue;
            for (int q = 0; q < count; q++) counts[rows[q]] = numbers[q];
            found = balances(j, counts);
        }
    glp_delete_prob(p);
    return found;
}

static void print_gate(const Job *j, const int64_t *gate) {
    putchar('G');
    for (int i = 0; i <= j->n; i++) printf(" %lld", (long long)gate[i]);
}

static void print_witness(const Job *j, const int64_t *counts) {
    putchar('N');
    for (int r = 0; r < j->rows; r++)
        if (counts[r]) printf(" %d:%lld", r, (long long)counts[r]);
}

static void decide(Job *j) {
    int64_t gate[9] = {0}, counts[256];
    fresh(j);
    if (j->stage == BINATE) {
        for (int r = 0; r < j->rows; r++) counts[r] = j->counts[r];
        print_witness(j, counts);
        return;
    }
    int found = j->stage == FOUND ? 1 : gate_of(j, gate);
    if (found > 0) print_gate(j, gate);
    else if (!found && witness_of(j, counts)) print_witness(j, counts);
    else putchar('?');
}

int main(void) {
    static uint8_t input[INPUT_MOST + 1];
    static Job j;
    size_t length = read_input(input), at = 0;
    int kind;
    glp_term_out(GLP_OFF);
    for (int position = 1; !read_head(input, length, &at, KIND(1) | KIND(5), &kind, &j); position++) {
        printf("%d %d ", position, j.n);
        decide(&j);
        putchar('\n');
    }
    return 0;
}
