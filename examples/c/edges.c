/* The edges of the calls: null pointers with length 0, which are allowed, and a job at the cap. Prints what each call returns. */
#include <inttypes.h>
#include <stdio.h>

#include "threshold.h"

static const uint8_t both[] = {THRESHOLD_RECORD_TABLE, 2, 0x08};
static const uint8_t xor_table[] = {THRESHOLD_RECORD_TABLE, 2, 0x06};
static const uint8_t xor[] = {THRESHOLD_RECORD_WITNESS, 2, 0x06, 4, 0, 1, 1, 1, 2, 1, 3, 1};
static const uint8_t never[] = {THRESHOLD_RECORD_TABLE, 0, 0x00};
static const uint8_t free_row[] = {THRESHOLD_RECORD_PARTIAL_TABLE, 0, 0x00, 0x00};
static const uint8_t never_gate[] = {THRESHOLD_RECORD_GATE, 0, 0x00, 2};

/* A job of the first table, one correction below the cap: K 999,999; v 0, 0 and b 475,711; s 0; row 0 as often as b says. */
static const uint8_t late[] = {THRESHOLD_RECORD_JOB, 2, 0x08, 0xbf, 0x84, 0x3d, 0, 0, 0xfe, 0x88, 0x3a, 0, 0, 0, 1, 0, 0xbf, 0x84, 0x1d};

static uint8_t out[THRESHOLD_ROOM];
static uint32_t made;
static int32_t threshold;
static const uint64_t word = 0x8, care = 0xc;

static void print(const char *name, int64_t returned) {
    printf("%s: %" PRId64 ", %s\n", name, returned, threshold_refusal_text(returned));
}

/* No bytes, digits, words or numbers to read. */
static void read_nothing(void) {
    print("from_hex, no digits", threshold_from_hex(2, NULL, 0, out, sizeof out));
    print("from_words, no words", threshold_from_words(2, NULL, 0, out, sizeof out));
    print("from_cares, no words", threshold_from_cares(2, NULL, 0, &care, 1, out, sizeof out));
    print("from_cares, no cares", threshold_from_cares(2, &word, 1, NULL, 0, out, sizeof out));
    print("decide, no record", threshold_decide(NULL, 0, out, sizeof out, &made));
    print("carry_on, no record", threshold_carry_on(NULL, 0, 1, out, sizeof out, &made));
    print("fresh, no record", threshold_fresh(NULL, 0, out, sizeof out));
    print("corrections, no record", threshold_corrections(NULL, 0));
    print("find_gate, no record", threshold_find_gate(NULL, 0, 1, NULL, 0, &threshold, &made));
    print("find_witness, no record", threshold_find_witness(NULL, 0, 1, NULL, 0, &made));
    print("check, no record", threshold_check(NULL, 0));
    print("check_gate, no record", threshold_check_gate(NULL, 0, NULL, 0, 0));
    print("check_gate, no weights", threshold_check_gate(both, sizeof both, NULL, 0, 0));
    print("check_gate, no weights of no inputs", threshold_check_gate(free_row, sizeof free_row, NULL, 0, 0));
    print("check_witness, no record", threshold_check_witness(NULL, 0, NULL, 0));
    print("check_witness, no counts", threshold_check_witness(both, sizeof both, NULL, 0));
    print("gate, no record", threshold_gate(NULL, 0, NULL, 0, &threshold));
    print("witness, no record", threshold_witness(NULL, 0, NULL, 0));
    print("from_gate, no record", threshold_from_gate(NULL, 0, NULL, 0, 0, out, sizeof out));
    print("from_gate, no weights", threshold_from_gate(both, sizeof both, NULL, 0, 0, out, sizeof out));
    print("from_gate, no weights of no inputs", threshold_from_gate(never, sizeof never, NULL, 0, 1, out, sizeof out));
    print("from_witness, no record", threshold_from_witness(NULL, 0, NULL, 0, out, sizeof out));
    print("from_witness, no counts", threshold_from_witness(both, sizeof both, NULL, 0, out, sizeof out));
    print("kind, no record", threshold_kind(NULL, 0));
    print("kinds, no record", threshold_kinds(NULL, 0, out, sizeof out));
    print("chow, no record", threshold_chow(NULL, 0, out, sizeof out));
    print("value, no record", threshold_value(NULL, 0, 0));
}

/* No room to write to. */
static void write_nothing(void) {
    static const int32_t weights[] = {1, 1};
    static const uint32_t counts[] = {1, 1, 1, 1};
    print("from_hex, no room", threshold_from_hex(2, "8", 1, NULL, 0));
    print("from_words, no room", threshold_from_words(2, &word, 1, NULL, 0));
    print("from_cares, no room", threshold_from_cares(2, &word, 1, &care, 1, NULL, 0));
    print("decide, no room", threshold_decide(both, sizeof both, NULL, 0, &made));
    print("carry_on, no room", threshold_carry_on(late, sizeof late, 1, NULL, 0, &made));
    print("fresh, no room", threshold_fresh(both, sizeof both, NULL, 0));
    print("find_gate, no room for no weights", threshold_find_gate(free_row, sizeof free_row, 1, NULL, 0, &threshold, &made));
    print("find_gate, no room", threshold_find_gate(both, sizeof both, 100, NULL, 0, &threshold, &made));
    print("find_witness, no room", threshold_find_witness(xor_table, sizeof xor_table, 1, NULL, 0, &made));
    print("gate, no room for no weights", threshold_gate(never_gate, sizeof never_gate, NULL, 0, &threshold));
    print("witness, no room", threshold_witness(xor, sizeof xor, NULL, 0));
    print("from_gate, no room", threshold_from_gate(both, sizeof both, weights, 2, 2, NULL, 0));
    print("from_witness, no room", threshold_from_witness(both, sizeof both, counts, 4, NULL, 0));
    print("kinds, no room", threshold_kinds(both, sizeof both, NULL, 0));
    print("chow, no room", threshold_chow(both, sizeof both, NULL, 0));
}

int main(void) {
    read_nothing();
    write_nothing();
    print("past the cap", threshold_carry_on(late, sizeof late, 2, out, sizeof out, &made));
    int64_t length = threshold_carry_on(late, sizeof late, 1, out, sizeof out, &made);
    print("up to the cap", length);
    print("corrections at the cap", threshold_corrections(out, length < 0 ? 0 : (size_t)length));
    return 0;
}
