/* The threshold cell verdict: whether one threshold gate can carry a Boolean function of up to eight inputs.
 *
 * A record is a table, alone or with a gate, a witness or an open job, as bytes: docs/FORMAT.md describes it byte by byte. Tables come from
 * hex digits or words by threshold_from_hex and threshold_from_words, and the numbers of a gate or a witness from its record by
 * threshold_gate and threshold_witness, so that a caller need not read or write those bytes.
 *
 * Where some rows never occur the function is incompletely specified: a partial table, with a care set of rows, is made of words by
 * threshold_from_cares. A gate carries it if it agrees on the rows cared for, and a witness against it has counts on these alone. Such a
 * table is of kind 5, and its open job of kind 6. No record carries its gate or its witness: these come as numbers, by
 * threshold_find_gate and threshold_find_witness, and are checked as numbers, by threshold_check_gate and threshold_check_witness. These
 * four serve tables with every row cared for too.
 *
 * Where a partial table's job ends in threshold_decide, threshold_carry_on or threshold_fresh, these give -THRESHOLD_REFUSED_CARE. Then call
 * threshold_find_gate with the same record and the same budget (THRESHOLD_CALL_BUDGET after threshold_decide, 1 after threshold_fresh), and
 * where it gives -THRESHOLD_REFUSED_NOT_FOUND, threshold_find_witness with the same. Each runs the job anew. The refusal can also be of the
 * record itself, from reading it; then these calls give it again.
 *
 * Every call returns a number: what it says, 0 or above, or the negative of the number of a refusal; threshold_refusal_text has the words.
 * Any content is answered. The caller sees to the pointers alone: each is valid for its length, or null with length 0; `made` and
 * `threshold` are valid; nothing that a call writes overlaps anything else that is lent to it; and no one else writes what is lent during
 * the call.
 *
 * A call that writes numbers or bytes writes them to the start of what is lent, changes nothing past them, and nothing at all where it
 * refuses. THRESHOLD_ROOM bytes are enough for every answer.
 *
 * Threads: nothing is kept after a call and nothing is shared between calls, so any number may run at once. No call allocates memory,
 * opens a file or ends the program. Stack: a call uses less than THRESHOLD_STACK bytes.
 *
 * Refusals, the first that holds in this order: what reading a record gives (1 to 9 and 16, field by field), then
 * THRESHOLD_REFUSED_OTHER_KIND, then the call's own in the order named at the call.
 */
#ifndef THRESHOLD_H
#define THRESHOLD_H

#include <stddef.h>
#include <stdint.h>

#ifdef __cplusplus
extern "C" {
#endif

/* The version of this header and of the library that it came with. */
#define THRESHOLD_VERSION "0.3.0"

/* Room for every answer, and stack for every call, in bytes. */
#define THRESHOLD_ROOM 2048
#define THRESHOLD_STACK 65536

/* The most corrections of one call, and of one job. */
#define THRESHOLD_CALL_BUDGET 100000
#define THRESHOLD_CAP 1000000

/* Kinds of records: a table alone, with a gate, with a witness, with an open job, each with every row cared for; and a partial table, one
 * with a row that is not cared for, alone and with an open job. */
enum {
    THRESHOLD_RECORD_TABLE = 1,
    THRESHOLD_RECORD_GATE = 2,
    THRESHOLD_RECORD_WITNESS = 3,
    THRESHOLD_RECORD_JOB = 4,
    THRESHOLD_RECORD_PARTIAL_TABLE = 5,
    THRESHOLD_RECORD_PARTIAL_JOB = 6
};

/* Kinds of inputs. */
enum {
    THRESHOLD_INPUT_IDLE = 0,
    THRESHOLD_INPUT_RISING = 1,
    THRESHOLD_INPUT_FALLING = 2,
    THRESHOLD_INPUT_BINATE = 3
};

/* Refusals; a call returns the negative. 1 to 16 are the documents' numbers, of which no call here gives 13 or 15; those from 100 on are
 * this interface's own. */
enum {
    THRESHOLD_REFUSED_ENDS_EARLY = 1,    /* the bytes end early */
    THRESHOLD_REFUSED_INPUTS = 2,        /* n above 8 */
    THRESHOLD_REFUSED_SPARE_BIT = 3,     /* a spare bit of the table set */
    THRESHOLD_REFUSED_NUMBER = 4,        /* a number not in shortest form, or over three groups */
    THRESHOLD_REFUSED_KIND = 5,          /* a kind byte that is not 1 to 6 */
    THRESHOLD_REFUSED_BYTES_LEFT = 6,    /* bytes after the record */
    THRESHOLD_REFUSED_GATE = 7,          /* a weight or T beyond 1,000,000 either way */
    THRESHOLD_REFUSED_ROW_LIST = 8,      /* a row list empty, too long or not rising, a row past the table, or a count out of range */
    THRESHOLD_REFUSED_UNSOUND = 9,       /* a job that is not sound, or whose row list breaks its rules */
    THRESHOLD_REFUSED_BUDGET = 10,       /* a budget of 0, or above THRESHOLD_CALL_BUDGET */
    THRESHOLD_REFUSED_CAP = 11,          /* the job's corrections with the budget above THRESHOLD_CAP */
    THRESHOLD_REFUSED_ROOM = 12,         /* the answer longer than the room */
    THRESHOLD_REFUSED_ENDED = 13,        /* an ended job to be saved */
    THRESHOLD_REFUSED_ROW = 14,          /* a row at or above 2^n */
    THRESHOLD_REFUSED_REPORT_INPUT = 15, /* an input of the report above 65,536 bytes */
    THRESHOLD_REFUSED_CARE = 16,         /* a value bit on a row not cared for, a kind 5 or 6 with every row cared for, or a kind 2 or 3
                                            asked for with a row not cared for */
    THRESHOLD_REFUSED_OTHER_KIND = 100,  /* a record that is whole and right, of a kind that the call does not take */
    THRESHOLD_REFUSED_DIGITS = 101,      /* not as many hex digits as a table of n inputs has */
    THRESHOLD_REFUSED_DIGIT = 102,       /* a character that is not a hex digit */
    THRESHOLD_REFUSED_WORDS = 103,       /* fewer words than a table of n inputs has */
    THRESHOLD_REFUSED_NUMBERS = 104,     /* not a weight for each input of the table, or not a count for each of its rows; of the
                                            wrapper in threshold.hpp also not a care bit for each row */
    THRESHOLD_REFUSED_NOT_FOUND = 105    /* a gate or a witness asked for, to which the job has not come */
};

/* The text of the refusal that a call has returned, which is the negative of its number; "no refusal" of every other number. */
static inline const char *threshold_refusal_text(int64_t returned) {
    switch (returned) {
    case -THRESHOLD_REFUSED_ENDS_EARLY: return "the bytes end early";
    case -THRESHOLD_REFUSED_INPUTS: return "more than eight inputs";
    case -THRESHOLD_REFUSED_SPARE_BIT: return "a spare bit of the table is set";
    case -THRESHOLD_REFUSED_NUMBER: return "a number is not in shortest form, or has over three groups";
    case -THRESHOLD_REFUSED_KIND: return "the kind byte is not 1 to 6";
    case -THRESHOLD_REFUSED_BYTES_LEFT: return "bytes are left after the record";
    case -THRESHOLD_REFUSED_GATE: return "a weight or the threshold is beyond 1,000,000 either way";
    case -THRESHOLD_REFUSED_ROW_LIST: return "the counts are all 0, or one is above 1,000,000, or the row list breaks its rules";
    case -THRESHOLD_REFUSED_UNSOUND: return "the job is not sound";
    case -THRESHOLD_REFUSED_BUDGET: return "the budget is not within 1 to 100,000";
    case -THRESHOLD_REFUSED_CAP: return "the budget passes the cap of 1,000,000 corrections";
    case -THRESHOLD_REFUSED_ROOM: return "the answer is longer than the room";
    case -THRESHOLD_REFUSED_ENDED: return "the job has ended";
    case -THRESHOLD_REFUSED_ROW: return "the row is past the table";
    case -THRESHOLD_REFUSED_REPORT_INPUT: return "the report's input is above 65,536 bytes";
    case -THRESHOLD_REFUSED_CARE:
        return "a row that is not cared for has a value bit, every row of a kind 5 or 6 is cared for, "
               "or a kind 2 or 3 is asked for with a row not cared for";
    case -THRESHOLD_REFUSED_OTHER_KIND: return "a kind of record that the call does not take";
    case -THRESHOLD_REFUSED_DIGITS: return "not as many hex digits as the table has";
    case -THRESHOLD_REFUSED_DIGIT: return "a character is not a hex digit";
    case -THRESHOLD_REFUSED_WORDS: return "fewer words than the table has";
    case -THRESHOLD_REFUSED_NUMBERS: return "not a weight for each input, or not a count or a care bit for each row";
    case -THRESHOLD_REFUSED_NOT_FOUND: return "the job has not come to what is asked for";
    default: return "no refusal";
    }
}

/* ---- tables, as they are written elsewhere */

/* Writes the table (kind 1) of `inputs` inputs that hex digits stand for, as ABC and kitty write them: the digit of the highest rows
 * first, of four rows each, so 2^n / 4 digits, or one where n is below 2. Either case; no prefix. Bits past the rows of a table under two
 * inputs are left out of account. Returns the length. Refusals: 2, 101, 102, 12. */
int64_t threshold_from_hex(uint32_t inputs, const char *digits, size_t length, uint8_t *out, size_t room);

/* Writes the table (kind 1) of `inputs` inputs that words of 64 rows stand for: row r is bit r mod 64 of word r div 64. Bits past the rows
 * of a table under six inputs, as where the rows are replicated, and words past the table, are left out of account. Returns the length.
 * Refusals: 2, 103, 12. */
int64_t threshold_from_words(uint32_t inputs, const uint64_t *words, size_t count, uint8_t *out, size_t room);

/* Writes the table of `inputs` inputs whose row r is bit r mod 64 of word r div 64 of `words`, and is cared for where that bit of `cares`
 * is 1: kind 1 if every row is cared for, else kind 5. Bits past the rows, and words past the table, are left out of account. Returns the
 * length. 103 is for fewer words or fewer care words than the table has, 16 for a value bit on a row that is not cared for.
 * Refusals: 2, 103, 16, 12. */
int64_t threshold_from_cares(uint32_t inputs, const uint64_t *words, size_t count, const uint64_t *cares, size_t care_count, uint8_t *out,
    size_t room);

/* ---- jobs */

/* Decides a table (kind 1 or 5) within 100,000 corrections. Writes the table with its gate (kind 2), with a balanced witness, after which
 * it has no gate (kind 3), or with the open job, given up so far (kind 4). Sets `made` to the corrections made. Returns the length written.
 * Of a partial table (kind 5) the open job is of kind 6; where the job has ended no record carries its gate or its witness, and the call is
 * refused by 16: threshold_find_gate then gives the gate, or is refused by 105, and after that threshold_find_witness gives the witness.
 * Refusals: reading's, 100, 16, 12. */
int64_t threshold_decide(const uint8_t *record, size_t length, uint8_t *out, size_t room, uint32_t *made);

/* Carries an open job (kind 4 or 6) on by at most `budget` corrections. Writes, sets `made` and returns as threshold_decide does; `record`
 * stays as it is, so a refused call can be made again. No call goes from a job to its table, which the checks of numbers take: keep the
 * table's record beside the job. Or, with b = (2^n + 7) / 8 bytes of values, take the job's first 2 + 2b bytes of kind 6, with 05 in place
 * of 06, or its first 2 + b bytes of kind 4, with 01 in place of 04: these are the table's record.
 * Refusals: reading's, 100, 10, 11, 16, 12. */
int64_t threshold_carry_on(const uint8_t *record, size_t length, uint32_t budget, uint8_t *out, size_t room, uint32_t *made);

/* Writes the fresh job of a table (kind 1 or 5), at which no correction is made, to be carried on by budgets of one's own (kind 4 or 6).
 * If an input is binate the job has ended: writes the table with its witness (kind 3). A partial table's fresh job that has ended, with a
 * binate input or without a row cared for, is refused by 16. Returns the length. Refusals: reading's, 100, 16, 12. */
int64_t threshold_fresh(const uint8_t *record, size_t length, uint8_t *out, size_t room);

/* The corrections made so far, K, of an open job (kind 4 or 6). Refusals: reading's, 100. */
int64_t threshold_corrections(const uint8_t *record, size_t length);

/* Carries the fresh job of a table (kind 1 or 5), or an open job (kind 4 or 6), on by at most `budget` corrections. If it has found a gate,
 * writes its weights from input 1 on, sets `threshold` to T and `made` to the corrections made, and returns n; 8 is room for all. 105 if it
 * has not. threshold_check_gate takes the numbers with the table's record: at threshold_carry_on stands how a job has it.
 * Refusals: reading's, 100, 10, 11, 105, 12. */
int64_t threshold_find_gate(const uint8_t *record, size_t length, uint32_t budget, int32_t *weights, size_t room, int32_t *threshold,
    uint32_t *made);

/* The same for a witness: if the job has ended with one, writes the count of each row, from row 0 on, sets `made`, and returns 2^n; 256 is
 * room for all. 105 if it has not. Refusals: reading's, 100, 10, 11, 105, 12. */
int64_t threshold_find_witness(const uint8_t *record, size_t length, uint32_t budget, uint32_t *counts, size_t room, uint32_t *made);

/* ---- certificates */

/* Checks a certificate from anyone: 1 if the gate (kind 2) has the table's value on every row, or the witness (kind 3) balances; 0 if
 * not. Refusals: reading's, 100. */
int64_t threshold_check(const uint8_t *record, size_t length);

/* 1 if the gate of these numbers, from anyone, agrees with a table (kind 1 or 5) on every row that is cared for; 0 if not.
 * Refusals: reading's, 100, 104, 7. */
int64_t threshold_check_gate(const uint8_t *record, size_t length, const int32_t *weights, size_t count, int32_t threshold);

/* 1 if the witness of these counts, from anyone, balances against a table (kind 1 or 5); 0 if not, and so with a count on a row that is
 * not cared for. Refusals: reading's, 100, 104, 8. */
int64_t threshold_check_witness(const uint8_t *record, size_t length, const uint32_t *counts, size_t count);

/* Writes the weights of a table's gate (kind 2), from input 1 on, and sets `threshold` to T. Returns n, the number of weights written; 8 is
 * room for all. Refusals: reading's, 100, 12. */
int64_t threshold_gate(const uint8_t *record, size_t length, int32_t *weights, size_t room, int32_t *threshold);

/* Writes the count of each row of a table's witness (kind 3), from row 0 on. Returns 2^n, the number of counts written; 256 is room for all.
 * Refusals: reading's, 100, 12. */
int64_t threshold_witness(const uint8_t *record, size_t length, uint32_t *counts, size_t room);

/* Writes a table (kind 1) with a gate for it from anyone (kind 2), to be checked: a weight for each input, and T. Returns the length. A
 * partial table (kind 5) is refused by 16. Refusals: reading's, 100, 104, 16, 7, 12. */
int64_t threshold_from_gate(const uint8_t *record, size_t length, const int32_t *weights, size_t count, int32_t threshold, uint8_t *out,
    size_t room);

/* Writes a table (kind 1) with a witness against it from anyone (kind 3), to be checked: a count for each row. Returns the length. A
 * partial table (kind 5) is refused by 16. Refusals: reading's, 100, 104, 16, 8, 12. */
int64_t threshold_from_witness(const uint8_t *record, size_t length, const uint32_t *counts, size_t count, uint8_t *out, size_t room);

/* ---- records and tables */

/* The kind, 1 to 6, of a record that is whole and right. Refusals: reading's. */
int64_t threshold_kind(const uint8_t *record, size_t length);

/* Writes the kind of each of eight inputs of a table (kind 1 or 5), a byte each, past n idle, and returns 8. Only pairs with both rows
 * cared for count. Refusals: reading's, 100, 12. */
int64_t threshold_kinds(const uint8_t *record, size_t length, uint8_t *out, size_t room);

/* Writes Chow's parameter q of each of eight inputs of a table (kind 1 or 5), signed, two bytes each with the low byte first, past n 0, and
 * returns 16. A row that is not cared for counts as a false one. Refusals: reading's, 100, 12. */
int64_t threshold_chow(const uint8_t *record, size_t length, uint8_t *out, size_t room);

/* The value, 0 or 1, of a table (kind 1 or 5) or of a table's gate (kind 2) on a row; a table's is 0 where the row is not cared for.
 * Refusals: reading's, 100, 14. */
int64_t threshold_value(const uint8_t *record, size_t length, uint32_t row);

#ifdef __cplusplus
}
#endif

#endif
