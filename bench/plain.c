/* Plain C to compare the product with:

     plain lanes < records    the report of tables of kinds 1 and 5, by the form "lanes" of machine.h
     plain naive < records    the report, by the machine as document 01 reads: distances summed anew, searches for step 1 and for step 5
     plain ways < heads       the line of the program bench_main: a head's kind byte is 1 for one call of carry-on, 2 for calls of 64, and 3
                              for calls of 64 with the job saved and read back after each that leaves it open; by the form "lanes",
                              on tables with every row cared for

   Unlike the product, it tests no job for soundness, in no call, and what it reads back is tested for the form of its fields alone. */
#include "machine.h"

/* ---- the machine as document 01 reads ---- */

static int fails(const Job *j, int row) {
    int32_t d = -j->v[8];
    if (!cared(j, row)) return 0;
    for (int i = 0; i < j->n; i++)
        if (row >> i & 1) d += j->v[i];
    return value(j, row) ? d < 1 : d > -1;
}

static int first_failing(const Job *j) {
    for (int r = 0; r < j->rows; r++)
        if (fails(j, r)) return r;
    return -1;
}

static void fresh_naive(Job *j) {
    memset(j->counts, 0, sizeof j->counts);
    memset(j->v, 0, sizeof j->v);
    memset(j->s, 0, sizeof j->s);
    j->k = 0;
    j->stage = first_failing(j) < 0 ? FOUND : OPEN;
    for (int i = 0; i < j->n; i++) {
        int up = -1, down = -1;
        for (int r = 0; r < j->rows; r++) {
            if (r >> i & 1 || !cared(j, r) || !cared(j, r | 1 << i)) continue;
            int off = value(j, r), on = value(j, r | 1 << i);
            if (up < 0 && !off && on) up = r;
            if (down < 0 && off && !on) down = r;
        }
        if (up < 0 || down < 0) continue;
        j->counts[up]++;
        j->counts[up | 1 << i]++;
        j->counts[down]++;
        j->counts[down | 1 << i]++;
        j->stage = BINATE;
        return;
    }
}

static void carry_on_naive(Job *j, uint32_t budget) {
    for (; budget && j->stage == OPEN; budget--) {
        int row = first_failing(j), sign = value(j, row) ? 1 : -1;
        for (int i = 0; i < j->n; i++)
            if (row >> i & 1) j->v[i] += sign;
        j->v[8] -= sign;
        j->k++;
        j->counts[row]++;
        if (!memcmp(j->v, j->s, sizeof j->v)) { j->stage = LOOPED; return; }
        if (!(j->k & (j->k - 1))) {
            memcpy(j->s, j->v, sizeof j->v);
            memset(j->counts, 0, sizeof j->counts);
        }
        if (first_failing(j) < 0) j->stage = FOUND;
    }
}

/* ---- the report ---- */

static char out[1 << 17], *end = out;

static void flush(void) {
    for (char *p = out; p < end;) {
        ssize_t written = write(1, p, (size_t)(end - p));
        if (written <= 0) exit(1);
        p += written;
    }
    end = out;
}

static void put(char before, int64_t number, char after) {
    char digits[24];
    int count = 0;
    if (before) *end++ = before;
    if (number < 0) *end++ = '-', number = -number;
    do digits[count++] = (char)('0' + number % 10); while (number /= 10);
    while (count) *end++ = digits[--count];
    if (after) *end++ = after;
}

static void put_gate(const Job *j) {
    int64_t size = j->v[8];
    for (int i = 0; i < j->n; i++) size += j->v[i];
    *end++ = 'G';
    put(' ', j->k, ' ');
    put(0, size, 0);
    for (int i = 0; i < j->n; i++) put(' ', j->v[i], 0);
    put(' ', j->v[8], '\n');
}

static void put_witness(const Job *j) {
    int64_t height = 0;
    for (int r = 0; r < j->rows; r++)
        if (j->counts[r] && value(j, r)) height += (int64_t)j->counts[r] * __builtin_popcount((unsigned)r);
    *end++ = 'N';
    put(' ', j->k, ' ');
    put(0, height, 0);
    for (int r = 0; r < j->rows; r++)
        if (j->counts[r]) put(' ', r, ':'), put(0, j->counts[r], 0);
    *end++ = '\n';
}

static void put_open(const Job *j) {
    *end++ = 'S';
    put(' ', j->k, '\n');
}

/* The mean in tenths; an exact half goes to the even tenth. */
static uint64_t mean_tenths(uint64_t gates, uint64_t sum) {
    uint64_t below = 10 * sum / gates, twice = 2 * (10 * sum % gates);
    return below + (twice > gates || (twice == gates && below % 2));
}

/* Writes the last line: the records read whole, those found, ended with a witness and open, and the mean K of the gates. */
static void put_last(uint64_t records, const uint64_t *ended, uint64_t sum) {
    put(0, (int64_t)records, ' ');
    put(0, (int64_t)ended[FOUND], ' ');
    put(0, (int64_t)(ended[LOOPED] + ended[BINATE]), ' ');
    put(0, (int64_t)ended[OPEN], ' ');
    if (ended[FOUND]) {
        uint64_t tenths = mean_tenths(ended[FOUND], sum);
        put(0, (int64_t)(tenths / 10), '.');
        put(0, (int64_t)(tenths % 10), '\n');
    } else {
        *end++ = '-';
        *end++ = '\n';
    }
}

typedef struct {
    const char *name;
    void (*fresh)(Job *);
    void (*carry_on)(Job *, uint32_t);
} Form;
static const Form FORMS[] = {{"lanes", fresh, carry_on}, {"naive", fresh_naive, carry_on_naive}};

static void report(const uint8_t *bytes, size_t length, const Form *form) {
    static Job j;
    uint64_t records = 0, ended[4] = {0}, sum = 0;
    for (size_t at = 0; at < length; records++) {
        int kind, refusal = read_head(bytes, length, &at, KIND(1) | KIND(5), &kind, &j);
        if (refusal) {
            put(0, (int64_t)records + 1, ' ');
            *end++ = 'R';
            put(' ', refusal, '\n');
            break;
        }
        form->fresh(&j);
        if (j.stage == OPEN) form->carry_on(&j, CALL_BUDGET);
        put(0, (int64_t)records + 1, ' ');
        put(0, j.n, ' ');
        j.stage == FOUND ? put_gate(&j) : j.stage == OPEN ? put_open(&j) : put_witness(&j);
        ended[j.stage]++;
        if (j.stage == FOUND) sum += j.k;
        if (end - out > 1 << 16) flush();
    }
    put_last(records, ended, sum);
    flush();
}

/* ---- ways: small budgets, and jobs saved and read back ---- */

static uint8_t *put_number(uint8_t *p, uint32_t number) {
    for (; number > 127; number >>= 7) *p++ = (uint8_t)(number | 128);
    *p++ = (uint8_t)number;
    return p;
}

static uint8_t *put_vector(uint8_t *p, const int32_t *v, int n) {
    for (int i = 0; i <= n; i++) {
        int32_t z = v[i < n ? i : 8];
        p = put_number(p, z < 0 ? (uint32_t)(-2 * z - 1) : (uint32_t)(2 * z));
    }
    return p;
}

/* Writes an open job as a record of kind 4; its length. */
static size_t save(const Job *j, uint8_t *bytes) {
    uint8_t *p = bytes;
    size_t count = (size_t)(j->rows + 7) / 8;
    uint32_t pairs = 0;
    *p++ = 4;
    *p++ = (uint8_t)j->n;
    memcpy(p, j->table, count);
    p = put_number(p + count, j->k);
    p = put_vector(p, j->v, j->n);
    p = put_vector(p, j->s, j->n);
    for (int r = 0; r < j->rows; r++) pairs += j->counts[r] != 0;
    p = put_number(p, pairs);
    for (int r = 0; r < j->rows; r++)
        if (j->counts[r]) p = put_number(put_number(p, (uint32_t)r), j->counts[r]);
    return (size_t)(p - bytes);
}

static int read_vector(const uint8_t *bytes, size_t length, size_t *at, int n, int32_t *v) {
    uint32_t code;
    for (int i = 0; i <= n; i++) {
        int refusal = read_number(bytes, length, at, &code);
        if (refusal) return refusal;
        v[i < n ? i : 8] = code & 1 ? -(int32_t)(code / 2) - 1 : (int32_t)(code / 2);
    }
    return 0;
}

/* Reads a record of kind 4; 0, or the number of a refusal. No soundness is tested. */
static int read_back(const uint8_t *bytes, size_t length, Job *j) {
    size_t at = 0;
    uint32_t pairs, row, next = 0;
    int kind, refusal = read_head(bytes, length, &at, KIND(4), &kind, j);
    if (refusal) return refusal;
    memset(j->v, 0, sizeof j->v);
    memset(j->s, 0, sizeof j->s);
    memset(j->counts, 0, sizeof j->counts);
    j->stage = OPEN;
    if ((refusal = read_number(bytes, length, &at, &j->k))) return refusal;
    if ((refusal = read_vector(bytes, length, &at, j->n, j->v))) return refusal;
    if ((refusal = read_vector(bytes, length, &at, j->n, j->s))) return refusal;
    if ((refusal = read_number(bytes, length, &at, &pairs))) return refusal;
    for (; pairs; pairs--) {
        if ((refusal = read_number(bytes, length, &at, &row))) return refusal;
        if (row < next || row >= (uint32_t)j->rows) return 9;
        if ((refusal = read_number(bytes, length, &at, &j->counts[row]))) return refusal;
        next = row + 1;
    }
    return at < length ? 6 : 0;
}

static void ways(const uint8_t *bytes, size_t length) {
    static Job j;
    static uint8_t saved[1300];
    uint64_t tables = 0, ended[4] = {0}, corrections = 0, calls = 0, saved_bytes = 0;
    int way;
    for (size_t at = 0; !read_head(bytes, length, &at, KIND(1) | KIND(2) | KIND(3), &way, &j); tables++) {
        fresh(&j);
        calls += way == 1; /* bench_main calls carry-on once for a binate table too */
        if (way == 1 && j.stage == OPEN) carry_on(&j, CALL_BUDGET);
        for (uint32_t left = CALL_BUDGET, budget; way > 1 && left && j.stage == OPEN; left -= budget) {
            budget = left < 64 ? left : 64;
            carry_on(&j, budget);
            calls++;
            if (way < 3 || j.stage != OPEN) continue;
            size_t count = save(&j, saved);
            if (read_back(saved, count, &j)) exit(1);
            saved_bytes += count;
        }
        ended[j.stage]++;
        corrections += j.k;
    }
    uint64_t line[] = {tables, ended[FOUND], ended[LOOPED], ended[BINATE], ended[OPEN], corrections, calls, saved_bytes};
    for (int i = 0; i < 8; i++) put(0, (int64_t)line[i], i < 7 ? ' ' : '\n');
    flush();
}

int main(int argc, char **argv) {
    static uint8_t input[INPUT_MOST + 1];
    const Form *form = 0;
    for (int f = 0; f < 2; f++)
        if (argc == 2 && !strcmp(argv[1], FORMS[f].name)) form = &FORMS[f];
    if (!form && (argc != 2 || strcmp(argv[1], "ways"))) return fputs("usage: plain lanes|naive|ways\n", stderr), 2;
    size_t length = read_input(input);
    make_changes();
    if (!form) ways(input, length < INPUT_MOST ? length : INPUT_MOST);
    else if (length > INPUT_MOST) puts("R 15");
    else report(input, length, form);
    return 0;
}
