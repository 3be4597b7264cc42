/* Document 01's stepping machine in plain C, with document 02's rows not cared for: a job, the head of a record, the fresh job, and
   carry-on in the form "lanes", one loop for tables with such rows and without.

   Nothing is tested that a caller can get right: a job is taken to be sound, and a budget to be within the cap. Distances have 16 bits, and
   v - s is kept in places of 12 bits, which is enough for 100,000 corrections from the fresh job. */
#include <stdint.h>
#include <stdio.h>
#include <stdlib.h>
#include <string.h>
#include <unistd.h>

enum { OPEN, FOUND, LOOPED, BINATE };
enum { CALL_BUDGET = 100000, INPUT_MOST = 65536, LOW_ROWS = 32 };

typedef struct {
    int n, rows, stage;
    uint64_t table[4], care[4]; /* row r is bit r mod 64 of word r div 64; a row not cared for is false */
    uint32_t k, counts[256];
    int32_t v[9], s[9]; /* a1 to a8, and b */
} Job;

static inline int bit(const uint64_t *words, int row) { return (int)(words[row >> 6] >> (row & 63) & 1); }
static inline int value(const Job *j, int row) { return bit(j->table, row); }
static inline int cared(const Job *j, int row) { return bit(j->care, row); }

static const uint64_t EVERY_ROW[9][4] = {{0x1}, {0x3}, {0xf}, {0xff}, {0xffff}, {0xffffffff}, {UINT64_MAX},
                                         {UINT64_MAX, UINT64_MAX}, {UINT64_MAX, UINT64_MAX, UINT64_MAX, UINT64_MAX}};

static inline void care_for_every_row(Job *j) { memcpy(j->care, EVERY_ROW[j->n], sizeof j->care); }
static inline int cares_for_every_row(const Job *j, int n) { return !memcmp(j->care, EVERY_ROW[n], sizeof j->care); }

/* ---- reading ---- */

/* Reads standard input up to one byte more than the most that counts; its length. */
static inline size_t read_input(uint8_t *bytes) {
    size_t length = 0;
    for (ssize_t got; length <= INPUT_MOST && (got = read(0, bytes + length, INPUT_MOST + 1 - length)) > 0;) length += (size_t)got;
    return length;
}

/* Reads a number of at most three groups; 0, or the number of a refusal. */
static inline int read_number(const uint8_t *bytes, size_t length, size_t *at, uint32_t *number) {
    *number = 0;
    for (int group = 0; group < 3; group++) {
        if (*at == length) return 1;
        uint8_t byte = bytes[(*at)++];
        *number |= (uint32_t)(byte & 127) << 7 * group;
        if (!(byte & 128)) return group && !byte ? 4 : 0;
    }
    return 4;
}

/* Reads the value bytes or the care bytes of n inputs; 0, or the number of a refusal. */
static inline int read_rows(const uint8_t *bytes, size_t length, size_t *at, uint32_t n, uint64_t *rows) {
    size_t count = ((1u << n) + 7) / 8;
    if (length - *at < count) return 1;
    memset(rows, 0, 4 * sizeof *rows);
    memcpy(rows, bytes + *at, count);
    if (n < 3 && rows[0] >> (1u << n)) return 3;
    *at += count;
    return 0;
}

/* Whether a record of kind 5 has a value bit on a row not cared for, or no row that is not cared for. */
static inline int wrong_cares(const Job *j) {
    uint64_t loose = 0;
    for (int w = 0; w < 4; w++) loose |= j->table[w] & ~j->care[w];
    return loose || cares_for_every_row(j, j->n);
}

/* Kinds of records, as a set. */
#define KIND(kind) (1u << (kind))

/* Reads a kind of the set, n, the table and the cares of kind 5; 0, or the number of a refusal. */
static inline int read_head(const uint8_t *bytes, size_t length, size_t *at, unsigned kinds, int *kind, Job *j) {
    uint32_t n;
    if (*at == length) return 1;
    *kind = bytes[(*at)++];
    if (*kind > 7 || !(kinds & KIND(*kind))) return 5;
    int refusal = read_number(bytes, length, at, &n);
    if (refusal) return refusal;
    if (n > 8) return 2;
    j->n = (int)n;
    j->rows = 1 << n;
    if ((refusal = read_rows(bytes, length, at, n, j->table))) return refusal;
    if (*kind != 5) {
        care_for_every_row(j);
        return 0;
    }
    if ((refusal = read_rows(bytes, length, at, n, j->care))) return refusal;
    return wrong_cares(j) ? 16 : 0;
}

/* ---- the fresh job ---- */

static const uint64_t WITHOUT[6] = {0x5555555555555555u, 0x3333333333333333u, 0x0f0f0f0f0f0f0f0fu,
                                    0x00ff00ff00ff00ffu, 0x0000ffff0000ffffu, 0x00000000ffffffffu};

/* The rows without input i where it rises and where it falls, both rows of the pair cared for: `zeros` are the false rows cared for. */
static inline void changes_at(const uint64_t *table, const uint64_t *zeros, int i, int words, uint64_t *rises, uint64_t *falls) {
    for (int w = 0; w < words; w++) {
        int step = i < 6 ? 0 : 1 << (i - 6);
        if (w & step) continue;
        rises[w] = i < 6 ? table[w] >> (1 << i) & zeros[w] & WITHOUT[i] : table[w | step] & zeros[w];
        falls[w] = i < 6 ? zeros[w] >> (1 << i) & table[w] & WITHOUT[i] : zeros[w | step] & table[w];
    }
}

static inline int lowest(const uint64_t *rows) {
    int w = 0;
    while (!rows[w]) w++;
    return 64 * w + __builtin_ctzll(rows[w]);
}

/* Makes the job fresh on its table: open, binate with its four counts, or found if no row is cared for. */
static inline void fresh(Job *j) {
    int words = j->rows <= 64 ? 1 : j->rows >> 6;
    uint64_t zeros[4], any = 0;
    memset(j->counts, 0, sizeof j->counts[0] * (size_t)(j->rows < 16 ? 16 : j->rows));
    memset(j->v, 0, sizeof j->v);
    memset(j->s, 0, sizeof j->s);
    for (int w = 0; w < words; w++) {
        zeros[w] = j->care[w] ^ j->table[w];
        any |= j->care[w];
    }
    j->k = 0;
    j->stage = any ? OPEN : FOUND;
    for (int i = 0; i < j->n; i++) {
        uint64_t rises[4] = {0}, falls[4] = {0};
        changes_at(j->table, zeros, i, words, rises, falls);
        if (!(rises[0] | rises[1] | rises[2] | rises[3]) || !(falls[0] | falls[1] | falls[2] | falls[3])) continue;
        int up = lowest(rises), down = lowest(falls);
        j->counts[up]++;
        j->counts[up | 1 << i]++;
        j->counts[down]++;
        j->counts[down | 1 << i]++;
        j->stage = BINATE;
        return;
    }
}

/* ---- carry-on: sums of the low five inputs in 32 places, of the others by block, stopping at the first block with a failing row ---- */

/* What a correction adds, by 2 * row + value: to the sums of the low inputs, to those of the others, and to v - s in places of 12 bits. */
static int16_t low_change[64][LOW_ROWS] __attribute__((aligned(64))), high_change[16][8] __attribute__((aligned(16)));
static uint64_t difference_change[512][2];

static inline void make_changes(void) {
    for (int c = 0; c < 512; c++) {
        int row = c >> 1, sign = c & 1 ? 1 : -1;
        uint64_t low = -((uint64_t)1 << 48), high = 0;
        for (int i = 0; i < 4; i++) {
            low += (uint64_t)(row >> i & 1) << 12 * i;
            high += (uint64_t)(row >> (i + 4) & 1) << 12 * i;
        }
        difference_change[c][0] = c & 1 ? low : -low;
        difference_change[c][1] = c & 1 ? high : -high;
        for (int q = 0; q < LOW_ROWS && c < 64; q++) low_change[c][q] = (int16_t)(sign * (__builtin_popcount(q & row) + 1));
        for (int q = 0; q < 8 && c < 16; q++) high_change[c][q] = (int16_t)(sign * __builtin_popcount(q & row));
    }
}

/* The places of v - s: a1 to a4 and b, or a5 to a8. */
static inline uint64_t packed(const Job *j, int half) {
    uint64_t places = half ? 0 : (uint64_t)(int64_t)(j->v[8] - j->s[8]) << 48;
    for (int i = 0; i < 4; i++) places += (uint64_t)(int64_t)(j->v[4 * half + i] - j->s[4 * half + i]) << 12 * i;
    return places;
}

/* Takes the lowest place off. */
static inline int32_t unpacked(uint64_t *places) {
    int64_t place = (int64_t)(*places << 52) >> 52;
    *places = (uint64_t)((int64_t)(*places - (uint64_t)place) >> 12);
    return (int32_t)place;
}

/* Sets s from v and the places of v - s. */
static inline void unpack(Job *j, uint64_t w0, uint64_t w1) {
    for (int i = 0; i < 4; i++) {
        j->s[i] = j->v[i] - unpacked(&w0);
        j->s[i + 4] = j->v[i + 4] - unpacked(&w1);
    }
    j->s[8] = j->v[8] - unpacked(&w0);
}

/* Where carry-on starts: the sums of the low inputs less b, those of the others, the places of v - s, the next mark, and the lowest failing
   row as 2 * row + value. */
typedef struct {
    int16_t low[LOW_ROWS], high[8];
    uint64_t w0, w1;
    uint32_t mark;
    unsigned c;
} Start;

static inline int16_t weights(const Job *j, int row) {
    int32_t sum = 0;
    for (int i = 0; i < 8; i++) sum += row >> i & 1 ? j->v[i] : 0;
    return (int16_t)sum;
}

/* The lowest failing row of a fresh open job as 2 * row + value: the lowest cared for. */
static inline unsigned first_code(const Job *j) {
    int row = lowest(j->care);
    return (unsigned)(2 * row + value(j, row));
}

/* Apart from the loop, for a job that is not fresh. */
__attribute__((noinline)) static void start_again(const Job *j, int block, Start *start) {
    int r = 0, d;
    for (int q = 0; q < block; q++) start->low[q] = (int16_t)(weights(j, q) - j->v[8]);
    for (int h = 0; h < 8; h++) start->high[h] = weights(j, h * block & 255);
    start->w0 = packed(j, 0);
    start->w1 = packed(j, 1);
    while (start->mark <= j->k) start->mark *= 2;
    while (d = start->low[r % block] + start->high[r / block], !cared(j, r) || (value(j, r) ? d > 0 : d < 0)) r++;
    start->c = (unsigned)(2 * r + value(j, r));
}

/* The rows are 16 to 256, in blocks of 16 or 32. The code of a row is 2 * row + value, so that a correction's sign needs no look at the
   table, with the sign bit on a false row: (sign of d - value) xor code is negative on failing rows alone, and least on the lowest. A row
   not cared for has FAR in place of its value, which is more than any d, so it never fails. */
enum { FAR = 1 << 14 };
#define INLINE __attribute__((always_inline)) static inline
#define BLOCK(rows) ((rows) < LOW_ROWS ? (rows) : LOW_ROWS)

/* The code of the lowest failing row, which is negative; or 0. */
INLINE int16_t first_failing_code(const int16_t *low, const int16_t *high, const int16_t *one, const int16_t *code, const int rows) {
    const int block = BLOCK(rows), blocks = rows / block;
    for (int h = 0; h < blocks; h++) {
        int16_t x = blocks > 1 ? high[h] : 0, least = INT16_MAX;
        for (int q = 0; q < block; q++) {
            int16_t d = (int16_t)(low[q] + x - one[h * block + q]), z = (int16_t)((d & INT16_MIN) ^ code[h * block + q]);
            least = z < least ? z : least;
        }
        if (least < 0) return least;
    }
    return 0;
}

/* Sets FAR on the rows not cared for, 16 rows at a time. */
INLINE void set_far(const Job *j, int16_t *one, const int rows) {
    for (int h = 0; h < rows; h += 16) {
        int16_t care = (int16_t)(j->care[h >> 6] >> (h & 63));
        for (int q = 0; q < 16; q++) one[h + q] = care & (int16_t)(1 << q) ? one[h + q] : FAR;
    }
}

INLINE void carry_on_rows(Job *j, uint32_t budget, const int rows) {
    const int block = BLOCK(rows), blocks = rows / block;
    int16_t low[LOW_ROWS] __attribute__((aligned(64))), high[8];
    int16_t one[256] __attribute__((aligned(64))), code[256] __attribute__((aligned(64)));
    uint32_t *counts = j->counts, k = j->k, end = k + budget;
    Start start = {.mark = 1, .c = first_code(j)};
    if (k) start_again(j, block, &start);
    for (int q = 0; q < block; q++) low[q] = start.low[q];
    for (int h = 0; h < blocks; h++) high[h] = start.high[h];
    for (int q = 0; q < rows; q++) {
        one[q] = (int16_t)value(j, q);
        code[q] = (int16_t)(2 * q | (one[q] ? 1 : INT16_MIN));
    }
    if (!cares_for_every_row(j, __builtin_ctz((unsigned)rows))) set_far(j, one, rows);
    uint64_t w0 = start.w0, w1 = start.w1;
    uint32_t mark = start.mark;
    unsigned c = start.c;
    while (k < end) {
        w0 += difference_change[c][0];
        w1 += difference_change[c][1];
        k++;
        counts[c >> 1]++;
        if (!(w0 | w1)) { j->stage = LOOPED; break; }
        if (k == mark) {
            mark *= 2;
            w0 = w1 = 0;
            memset(counts, 0, sizeof counts[0] * rows);
        }
        for (int q = 0; q < block; q++) low[q] = (int16_t)(low[q] + low_change[c % (2 * block)][q]);
        for (int h = 0; h < blocks && blocks > 1; h++) high[h] = (int16_t)(high[h] + high_change[c / (2 * block) * 2 + (c & 1)][h]);
        int16_t found = first_failing_code(low, high, one, code, rows);
        if (found >= 0) { j->stage = FOUND; break; }
        c = found & 511;
    }
    j->k = k;
    j->v[8] = -low[0];
    for (int i = 0; i < j->n; i++) j->v[i] = 1 << i < block ? low[(1 << i) % block] - low[0] : high[(1 << i) / block % 8];
    if (j->stage == OPEN) unpack(j, w0, w1);
}

/* Carries an open job on. A table of fewer than four inputs is repeated to 16 rows: an input that changes nothing keeps weight 0, for the
   lowest failing row is never one in which it is true. */
static inline void carry_on(Job *j, uint32_t budget) {
    uint64_t first = j->table[0], first_care = j->care[0];
    switch (j->n) {
    case 8: carry_on_rows(j, budget, 256); return;
    case 7: carry_on_rows(j, budget, 128); return;
    case 6: carry_on_rows(j, budget, 64); return;
    case 5: carry_on_rows(j, budget, 32); return;
    }
    for (int i = j->n; i < 4; i++) {
        j->table[0] |= j->table[0] << (1 << i);
        j->care[0] |= j->care[0] << (1 << i);
    }
    carry_on_rows(j, budget, 16);
    j->table[0] = first;
    j->care[0] = first_care;
}
