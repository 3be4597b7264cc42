/* Decides tables written as hex digits, keeps an open job as bytes and carries it on later, carries a fresh job on by budgets of its own,
 * checks a gate and a witness from elsewhere, and decides tables of which some rows never occur. Each call is tested for a refusal before
 * its length is used. */
#include <inttypes.h>
#include <stdio.h>
#include <string.h>

#include "threshold.h"

/* Eight inputs: settled after 131,076 corrections. */
static const char slow_digits[] = "fffffaaae8a8a0a0eaeaa8a0a0a08000a8a0808080800000a0a0000000000000";

/* A record, or the refusal of the call that was to write it: a length below 0. */
struct record {
    uint8_t bytes[THRESHOLD_ROOM];
    int64_t length;
};

static size_t size(const struct record *record) {
    return record->length < 0 ? 0 : (size_t)record->length;
}

static struct record table(uint32_t inputs, const char *digits) {
    struct record out;
    out.length = threshold_from_hex(inputs, digits, strlen(digits), out.bytes, sizeof out.bytes);
    return out;
}

static void print_weights(const int32_t *weights, int64_t n, int32_t threshold) {
    printf("a gate, weights");
    for (int64_t input = 0; input < n; input++) {
        printf(" %" PRId32, weights[input]);
    }
    printf(", T %" PRId32, threshold);
}

static void print_counts(const uint32_t *counts, int64_t rows) {
    printf("no gate, witness");
    for (int64_t row = 0; row < rows; row++) {
        if (counts[row] != 0) {
            printf(" %" PRId64 ":%" PRIu32, row, counts[row]);
        }
    }
}

static void print_gate(const struct record *record) {
    int32_t weights[8], threshold = 0;
    int64_t n = threshold_gate(record->bytes, size(record), weights, 8, &threshold);
    print_weights(weights, n, threshold);
}

static void print_witness(const struct record *record) {
    uint32_t counts[256];
    int64_t rows = threshold_witness(record->bytes, size(record), counts, 256);
    print_counts(counts, rows);
}

static void print_check(const struct record *record) {
    printf(threshold_check(record->bytes, size(record)) == 1 ? "; checked\n" : "; wrong\n");
}

/* Prints what is in a record, or why there is none. */
static void print(const char *name, const struct record *record) {
    printf("%s: ", name);
    if (record->length < 0) {
        printf("refused by %" PRId64 ", %s\n", -record->length, threshold_refusal_text(record->length));
        return;
    }
    switch (threshold_kind(record->bytes, size(record))) {
    case THRESHOLD_RECORD_GATE:
        print_gate(record);
        print_check(record);
        break;
    case THRESHOLD_RECORD_WITNESS:
        print_witness(record);
        print_check(record);
        break;
    case THRESHOLD_RECORD_JOB:
    case THRESHOLD_RECORD_PARTIAL_JOB:
        printf("open at K %" PRId64 "\n", threshold_corrections(record->bytes, size(record)));
        break;
    default:
        printf("a table\n");
    }
}

static void print_made(const char *name, const struct record *record, uint32_t made) {
    print(name, record);
    if (record->length >= 0) {
        printf("  after %" PRIu32 " corrections\n", made);
    }
}

static struct record decide(const char *name, const struct record *table) {
    struct record out;
    uint32_t made = 0;
    out.length = threshold_decide(table->bytes, size(table), out.bytes, sizeof out.bytes, &made);
    print_made(name, &out, made);
    return out;
}

static void carry_on(const char *name, const struct record *job, uint32_t budget) {
    struct record out;
    uint32_t made = 0;
    out.length = threshold_carry_on(job->bytes, size(job), budget, out.bytes, sizeof out.bytes, &made);
    print_made(name, &out, made);
}

/* Certificates that others hand in for a table: numbers, made into records to be checked. */
static void check_others(const struct record *majority, const struct record *products) {
    static const int32_t weights[] = {1, 1, 1};
    static const uint32_t counts[16] = {[3] = 1, [5] = 1, [10] = 1, [12] = 1};
    struct record out;
    out.length = threshold_from_gate(majority->bytes, size(majority), weights, 3, 2, out.bytes, sizeof out.bytes);
    print("1 1 1, T 2 for the majority", &out);
    out.length = threshold_from_gate(majority->bytes, size(majority), weights, 3, 3, out.bytes, sizeof out.bytes);
    print("1 1 1, T 3 for the majority", &out);
    out.length = threshold_from_gate(majority->bytes, size(majority), weights, 2, 2, out.bytes, sizeof out.bytes);
    print("two weights for the majority", &out);
    out.length = threshold_from_witness(products->bytes, size(products), counts, 16, out.bytes, sizeof out.bytes);
    print("rows 3 12 and 5 10 for x1 x2 + x3 x4", &out);
}

/* Decides the table whose row r is bit r of `values` and is cared for where bit r of `cares` is 1. No record carries its gate or its
 * witness, so these come as numbers, and are checked as such. */
static void decide_partial(const char *name, uint32_t inputs, uint64_t values, uint64_t cares) {
    struct record table, out;
    int32_t weights[8], threshold = 0;
    uint32_t counts[256], made = 0;
    table.length = threshold_from_cares(inputs, &values, 1, &cares, 1, table.bytes, sizeof table.bytes);
    out.length = threshold_decide(table.bytes, size(&table), out.bytes, sizeof out.bytes, &made);
    if (table.length < 0 || out.length != -THRESHOLD_REFUSED_CARE) {
        print_made(name, table.length < 0 ? &table : &out, made);
        return;
    }
    printf("%s: ", name);
    int64_t found = threshold_find_gate(table.bytes, size(&table), THRESHOLD_CALL_BUDGET, weights, 8, &threshold, &made);
    if (found >= 0) {
        print_weights(weights, found, threshold);
        found = threshold_check_gate(table.bytes, size(&table), weights, (size_t)found, threshold);
    } else if ((found = threshold_find_witness(table.bytes, size(&table), THRESHOLD_CALL_BUDGET, counts, 256, &made)) >= 0) {
        print_counts(counts, found);
        found = threshold_check_witness(table.bytes, size(&table), counts, (size_t)found);
    }
    printf(found == 1 ? "; checked\n" : "; wrong\n");
    printf("  after %" PRIu32 " corrections\n", made);
}

int main(void) {
    struct record majority = table(3, "e8"), products = table(4, "f888"), slow = table(8, slow_digits), out;
    decide("the majority", &majority);
    decide("x1 x2 + x3 x4", &products);
    check_others(&majority, &products);

    struct record saved = decide("slow", &slow);
    carry_on("slow, carried on", &saved, THRESHOLD_CALL_BUDGET);
    carry_on("slow, by no budget", &saved, 0);
    carry_on("a table, carried on", &slow, THRESHOLD_CALL_BUDGET);

    out.length = threshold_fresh(majority.bytes, size(&majority), out.bytes, sizeof out.bytes);
    print("the majority, fresh", &out);
    carry_on("the majority, ten on", &out, 10);

    out = table(4, "8");
    print("8 of four inputs", &out);
    out = table(4, "800o");
    print("800o of four inputs", &out);

    decide_partial("x1 xor x2, never both", 2, 0x6, 0x7);
    decide_partial("x1 xor x2, where x3 is false", 3, 0x06, 0x0f);
    decide_partial("no row that occurs", 3, 0x00, 0x00);
    decide_partial("every row, by its cares", 3, 0xe8, 0xff);
    decide_partial("a value on a row that never occurs", 3, 0xe8, 0xf7);
    return 0;
}
