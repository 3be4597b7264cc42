/* Runs every example of docs/FORMAT.md, so that page, header and library cannot part.
 *
 *     format [PAGE HEADER]       from the top of the repository; without arguments docs/FORMAT.md and include/threshold.h
 *
 * An example is a line of the page that is indented by four: a call without its prefix, what it is given, an arrow, what it gives, and
 * after a # why. What a call writes is compared, and all else that is lent to it must stay as it was; nothing at all is null. Then every
 * refusal that the header names at a call must have its example there, and the page's tables of calls and refusals must be the header's.
 * The first difference ends the run with status 1. */
#include <inttypes.h>
#include <stdarg.h>
#include <stdio.h>
#include <stdlib.h>
#include <string.h>

#include "threshold.h"

enum { LINE_MOST = 512, NUMBERS_MOST = 300, TEXT_MOST = 1 << 17, REFUSALS = 128 };

/* ---- what a call is given */

/* Each word but the record and the digits comes before its numbers. */
enum section { RECORD, INPUTS, WORDS, CARES, WEIGHTS, T, COUNTS, BUDGET, ROW, ROOM, KIND, SECTIONS };
static const char *const section_words[SECTIONS] = {[CARES] = "cares", [WEIGHTS] = "weights", [T] = "T", [COUNTS] = "counts",
    [BUDGET] = "budget", [ROW] = "row", [ROOM] = "room"};

typedef struct {
    size_t count;
    uint64_t at[NUMBERS_MOST];
} Numbers;

static struct {
    Numbers numbers[SECTIONS];
    char digits[LINE_MOST];
    uint8_t record[NUMBERS_MOST];
    uint64_t words[NUMBERS_MOST];
    uint64_t cares[NUMBERS_MOST];
    int32_t weights[NUMBERS_MOST];
    uint32_t counts[NUMBERS_MOST];
} given;

/* What is lent to a call for its answer, before it and after. */
typedef struct {
    uint8_t bytes[THRESHOLD_ROOM];
    int32_t weights[8];
    uint32_t counts[256];
    int32_t threshold;
    uint32_t made;
} Lent;
static Lent before, lent;

/* The only number of a section. */
static uint64_t number(enum section section) { return given.numbers[section].at[0]; }

/* The numbers of a section, or null where there are none. */
#define ARRAY(name, section) (given.numbers[section].count ? given.name : NULL), given.numbers[section].count
#define GIVEN_RECORD ARRAY(record, RECORD)
/* As much of what is lent as the example says, or all of it. */
#define ROOM_OF(most) (given.numbers[ROOM].count ? (size_t)number(ROOM) : (most))
#define LENT(name, most) (ROOM_OF(most) ? lent.name : NULL), ROOM_OF(most)
#define LENT_BYTES LENT(bytes, THRESHOLD_ROOM)

/* ---- the calls */

static int64_t from_hex(void) {
    size_t length = strlen(given.digits);
    return threshold_from_hex((uint32_t)number(INPUTS), length ? given.digits : NULL, length, LENT_BYTES);
}
static int64_t from_words(void) { return threshold_from_words((uint32_t)number(INPUTS), ARRAY(words, WORDS), LENT_BYTES); }
static int64_t from_cares(void) {
    return threshold_from_cares((uint32_t)number(INPUTS), ARRAY(words, WORDS), ARRAY(cares, CARES), LENT_BYTES);
}
static int64_t decide(void) { return threshold_decide(GIVEN_RECORD, LENT_BYTES, &lent.made); }
static int64_t carry_on(void) { return threshold_carry_on(GIVEN_RECORD, (uint32_t)number(BUDGET), LENT_BYTES, &lent.made); }
static int64_t fresh(void) { return threshold_fresh(GIVEN_RECORD, LENT_BYTES); }
static int64_t corrections(void) { return threshold_corrections(GIVEN_RECORD); }
static int64_t find_gate(void) {
    return threshold_find_gate(GIVEN_RECORD, (uint32_t)number(BUDGET), LENT(weights, 8), &lent.threshold, &lent.made);
}
static int64_t find_witness(void) {
    return threshold_find_witness(GIVEN_RECORD, (uint32_t)number(BUDGET), LENT(counts, 256), &lent.made);
}
static int64_t check(void) { return threshold_check(GIVEN_RECORD); }
static int64_t check_gate(void) {
    return threshold_check_gate(GIVEN_RECORD, ARRAY(weights, WEIGHTS), (int32_t)(int64_t)number(T));
}
static int64_t check_witness(void) { return threshold_check_witness(GIVEN_RECORD, ARRAY(counts, COUNTS)); }
static int64_t gate(void) { return threshold_gate(GIVEN_RECORD, LENT(weights, 8), &lent.threshold); }
static int64_t witness(void) { return threshold_witness(GIVEN_RECORD, LENT(counts, 256)); }
static int64_t from_gate(void) {
    return threshold_from_gate(GIVEN_RECORD, ARRAY(weights, WEIGHTS), (int32_t)(int64_t)number(T), LENT_BYTES);
}
static int64_t from_witness(void) { return threshold_from_witness(GIVEN_RECORD, ARRAY(counts, COUNTS), LENT_BYTES); }
static int64_t kind(void) { return threshold_kind(GIVEN_RECORD); }
static int64_t kinds(void) { return threshold_kinds(GIVEN_RECORD, LENT_BYTES); }
static int64_t chow(void) { return threshold_chow(GIVEN_RECORD, LENT_BYTES); }
static int64_t value(void) { return threshold_value(GIVEN_RECORD, (uint32_t)number(ROW)); }

/* ---- the longest records */

static size_t put_number(uint8_t *out, uint32_t x) {
    size_t length = 0;
    for (; x >= 128; x >>= 7) {
        out[length++] = (uint8_t)(x | 128);
    }
    out[length++] = (uint8_t)x;
    return length;
}

/* The counts of the longest job, the first of which has what the others leave: of 475,712 corrections since the mark 27 rows can have three
 * groups, and all others two. Row 1 has none where it is not cared for. */
static void make_counts(uint32_t *counts, uint32_t since, int partial) {
    uint32_t left = since;
    for (uint32_t row = 1; row < 256; row++) {
        counts[row] = partial && row == 1 ? 0 : row < (partial ? 28u : 27u) ? 16384 : 128;
        left -= counts[row];
    }
    counts[0] = left;
}

/* The longest job: at the cap, of the table that is nowhere true, with a count of every row, or of every row but one that is not cared for.
 * s is 600,000 for each input and -600,000 for b, so that row 0 fails. */
static size_t put_longest_job(uint8_t *job, int partial) {
    const uint32_t since = THRESHOLD_CAP - (1u << 19), size = 600000;
    uint32_t counts[256], sums[9] = {0};
    make_counts(counts, since, partial);
    for (uint32_t row = 0; row < 256; row++) {
        for (int input = 0; input < 8; input++) {
            sums[input] += row >> input & 1 ? counts[row] : 0;
        }
    }
    size_t at = partial ? 66 : 34;
    memset(job, 0, 34);
    memset(job + 34, 0xff, at - 34);
    job[0] = partial ? THRESHOLD_RECORD_PARTIAL_JOB : THRESHOLD_RECORD_JOB;
    job[1] = 8;
    job[34] = 0xfd; /* row 1 is not cared for; without cares, the first byte of K */
    at += put_number(job + at, THRESHOLD_CAP);
    for (int input = 0; input < 8; input++) {
        at += put_number(job + at, 2 * (size - sums[input]));
    }
    at += put_number(job + at, 2 * (size - since) - 1);
    for (int input = 0; input < 8; input++) {
        at += put_number(job + at, 2 * size);
    }
    at += put_number(job + at, 2 * size - 1);
    at += put_number(job + at, partial ? 255 : 256);
    for (uint32_t row = 0; row < 256; row++) {
        if (counts[row] != 0) {
            at += put_number(job + at, row);
            at += put_number(job + at, counts[row]);
        }
    }
    return at;
}

/* The length of the longest record of a kind, which the library takes. */
static int64_t longest(void) {
    uint8_t table[THRESHOLD_ROOM], record[THRESHOLD_ROOM];
    const uint64_t words[4] = {0}, cares[4] = {0};
    int32_t weights[8];
    uint32_t counts[256];
    for (int input = 0; input < 8; input++) {
        weights[input] = -1000000;
    }
    for (int row = 0; row < 256; row++) {
        counts[row] = 1000000;
    }
    int64_t length = threshold_from_words(8, words, 4, table, sizeof table);
    int64_t kind = (int64_t)number(KIND);
    if (kind == THRESHOLD_RECORD_TABLE) {
        memcpy(record, table, sizeof record);
    } else if (kind == THRESHOLD_RECORD_GATE) {
        length = threshold_from_gate(table, (size_t)length, weights, 8, -1000000, record, sizeof record);
    } else if (kind == THRESHOLD_RECORD_WITNESS) {
        length = threshold_from_witness(table, (size_t)length, counts, 256, record, sizeof record);
    } else if (kind == THRESHOLD_RECORD_PARTIAL_TABLE) {
        length = threshold_from_cares(8, words, 4, cares, 4, record, sizeof record);
    } else {
        length = (int64_t)put_longest_job(record, kind == THRESHOLD_RECORD_PARTIAL_JOB);
    }
    return length > 0 && threshold_kind(record, (size_t)length) == kind ? length : 0;
}

/* ---- a call by its name: what it is given besides a record, and what it writes */

typedef struct {
    const char *name;
    int64_t (*run)(void);
    enum section first; /* where the numbers before any word go */
    enum { VALUE, BYTES, BYTES_AND_MADE, GATE, GATE_AND_MADE, WITNESS, WITNESS_AND_MADE } writes;
    char refusals[64];    /* as the header names them; of "longest", which is no call, none */
    char shown[REFUSALS]; /* whether an example is refused by a number; at 0, whether one is answered */
} Call;
static Call calls[] = {
    {"from_hex", from_hex, INPUTS, BYTES, "", {0}},
    {"from_words", from_words, INPUTS, BYTES, "", {0}},
    {"from_cares", from_cares, INPUTS, BYTES, "", {0}},
    {"decide", decide, RECORD, BYTES_AND_MADE, "", {0}},
    {"carry_on", carry_on, RECORD, BYTES_AND_MADE, "", {0}},
    {"fresh", fresh, RECORD, BYTES, "", {0}},
    {"corrections", corrections, RECORD, VALUE, "", {0}},
    {"find_gate", find_gate, RECORD, GATE_AND_MADE, "", {0}},
    {"find_witness", find_witness, RECORD, WITNESS_AND_MADE, "", {0}},
    {"check", check, RECORD, VALUE, "", {0}},
    {"check_gate", check_gate, RECORD, VALUE, "", {0}},
    {"check_witness", check_witness, RECORD, VALUE, "", {0}},
    {"gate", gate, RECORD, GATE, "", {0}},
    {"witness", witness, RECORD, WITNESS, "", {0}},
    {"from_gate", from_gate, RECORD, BYTES, "", {0}},
    {"from_witness", from_witness, RECORD, BYTES, "", {0}},
    {"kind", kind, RECORD, VALUE, "", {0}},
    {"kinds", kinds, RECORD, BYTES, "", {0}},
    {"chow", chow, RECORD, BYTES, "", {0}},
    {"value", value, RECORD, VALUE, "", {0}},
    {"longest", longest, KIND, VALUE, "", {0}}};
enum { CALLS = sizeof calls / sizeof calls[0] };

static Call *call_named(const char *name, size_t length) {
    for (Call *call = calls; call < calls + CALLS; call++) {
        if (strlen(call->name) == length && !memcmp(call->name, name, length)) {
            return call;
        }
    }
    return NULL;
}

/* ---- reading an example */

static const char *page_path = "docs/FORMAT.md", *header_path = "include/threshold.h";
static char page[TEXT_MOST], header[TEXT_MOST];

/* Ends the run: what is wrong with a line of the page, or, at line 0, with the whole of it. */
static void fail(int line, const char *format, ...) {
    va_list rest;
    va_start(rest, format);
    fprintf(stderr, line ? "format: %s:%d: " : "format: %s: ", page_path, line);
    vfprintf(stderr, format, rest);
    fputc('\n', stderr);
    va_end(rest);
    exit(1);
}

static void load(const char *path, char *text) {
    FILE *file = fopen(path, "rb");
    size_t length = file ? fread(text, 1, TEXT_MOST - 1, file) : 0;
    if (!file || ferror(file) || length == TEXT_MOST - 1) {
        fprintf(stderr, "format: %s cannot be read, or is too long\n", path);
        exit(1);
    }
    text[length] = 0;
    fclose(file);
}

/* Puts a token where the section says: bytes are two hex digits, words start with 0x, all else is decimal. */
static void take(int line, enum section section, const char *token) {
    Numbers *numbers = &given.numbers[section];
    char *end;
    if (numbers->count == NUMBERS_MOST) {
        fail(line, "too many numbers");
    }
    const int is_word = section == WORDS || section == CARES;
    numbers->at[numbers->count++] = strtoull(token, &end, section == RECORD || is_word ? 16 : 10);
    if (*end || (section == RECORD && strlen(token) != 2) || (is_word && strncmp(token, "0x", 2))) {
        fail(line, "'%s' is no number of its place", token);
    }
}

/* Makes the arrays of the numbers, each of its own type. */
static void spread(void) {
    for (size_t i = 0; i < NUMBERS_MOST; i++) {
        given.record[i] = (uint8_t)given.numbers[RECORD].at[i];
        given.words[i] = given.numbers[WORDS].at[i];
        given.cares[i] = given.numbers[CARES].at[i];
        given.weights[i] = (int32_t)(int64_t)given.numbers[WEIGHTS].at[i];
        given.counts[i] = (uint32_t)given.numbers[COUNTS].at[i];
    }
}

/* Reads what a call is given, up to the arrow. */
static Call *read_given(int line, char *text) {
    char *token = strtok(text, " ");
    Call *call = token ? call_named(token, strlen(token)) : NULL;
    if (!call) {
        fail(line, "'%s' is no call", token ? token : "");
    }
    memset(&given, 0, sizeof given);
    enum section section = call->first;
    while ((token = strtok(NULL, " "))) {
        enum section word = 0;
        while (word < SECTIONS && (!section_words[word] || strcmp(section_words[word], token))) {
            word++;
        }
        if (word < SECTIONS) {
            section = word;
        } else if (section == INPUTS && given.numbers[INPUTS].count && call->run == from_hex) {
            strcpy(given.digits, token);
        } else {
            section = section == INPUTS && given.numbers[INPUTS].count ? WORDS : section;
            take(line, section, token);
        }
    }
    spread();
    return call;
}

/* ---- running it */

static void add(char *answer, const char *format, ...) {
    size_t length = strlen(answer);
    va_list rest;
    va_start(rest, format);
    vsnprintf(answer + length, LINE_MOST - length, format, rest);
    va_end(rest);
}

/* Writes the answer as the page has it, and takes over what the call may write, so that all else can be compared. */
static void show(const Call *call, int64_t said, char *answer) {
    *answer = 0;
    if (said < 0) {
        add(answer, "refused by %" PRId64, -said);
    } else if (call->writes == VALUE) {
        add(answer, "%" PRId64, said);
    } else if (call->writes == GATE || call->writes == GATE_AND_MADE) {
        add(answer, "weights");
        for (int64_t i = 0; i < said; i++) {
            add(answer, " %" PRId32, before.weights[i] = lent.weights[i]);
        }
        add(answer, " T %" PRId32, before.threshold = lent.threshold);
    } else if (call->writes == WITNESS || call->writes == WITNESS_AND_MADE) {
        add(answer, "counts");
        for (int64_t i = 0; i < said; i++) {
            add(answer, " %" PRIu32, before.counts[i] = lent.counts[i]);
        }
    } else {
        for (int64_t i = 0; i < said; i++) {
            add(answer, i ? " %02x" : "%02x", before.bytes[i] = lent.bytes[i]);
        }
    }
    if (said >= 0 && (call->writes == BYTES_AND_MADE || call->writes == GATE_AND_MADE || call->writes == WITNESS_AND_MADE)) {
        add(answer, " made %" PRIu32, before.made = lent.made);
    }
}

/* One space between words, none at the ends. */
static void tidy(char *text) {
    char copy[LINE_MOST], *to = text;
    strcpy(copy, text);
    for (char *token = strtok(copy, " "); token; token = strtok(NULL, " ")) {
        to += sprintf(to, to == text ? "%s" : " %s", token);
    }
    *to = 0;
}

/* Runs the example of a line. */
static void run(int line, char *text) {
    char *why = strstr(text, " # "), *arrow = strstr(text, " -> "), answer[LINE_MOST];
    if (why) {
        *why = 0;
    }
    *arrow = 0;
    Call *call = read_given(line, text);
    tidy(arrow + 4);
    memset(&before, 0xa5, sizeof before);
    memcpy(&lent, &before, sizeof lent);
    int64_t said = call->run();
    show(call, said, answer);
    if (strcmp(answer, arrow + 4)) {
        fail(line, "the page has '%s', the library '%s' (%s)", arrow + 4, answer, threshold_refusal_text(said));
    }
    if (memcmp(&before, &lent, sizeof lent)) {
        fail(line, "the call changed more than its answer");
    }
    call->shown[said < 0 ? -said : 0] = 1;
}

/* Runs the examples of the page; how many there are. */
static int run_all(void) {
    int line = 0, examples = 0;
    for (const char *at = page, *end; *at; at = end + 1) {
        char text[LINE_MOST];
        line++;
        if (!(end = strchr(at, '\n')) || end - at >= LINE_MOST) {
            fail(line, "a line without an end, or too long");
        }
        snprintf(text, sizeof text, "%.*s", (int)(end - at), at);
        int is_call = !strncmp(text, "    ", 4) && call_named(text + 4, strcspn(text + 4, " "));
        int has_arrow = !strncmp(text, "    ", 4) && strstr(text, " -> ");
        if (is_call != has_arrow) {
            fail(line, "an example has a call and an arrow");
        }
        if (is_call) {
            run(line, text + 4);
            examples++;
        }
    }
    return examples;
}

/* ---- whether every refusal has its example */

/* Finds the refusals that the header names at each call. */
static void read_header(void) {
    int found = 1; /* "longest" */
    for (const char *at = header; (at = strstr(at, "Refusals: "));) {
        const char *list = at + strlen("Refusals: "), *end = strstr(list, ". */");
        const char *name = end ? strstr(end, "int64_t threshold_") : NULL;
        if (!name) {
            fail(0, "refusals in the header without a call");
        }
        name += strlen("int64_t threshold_");
        Call *call = call_named(name, strcspn(name, "("));
        if (!call || *call->refusals) {
            fail(0, "the header's '%.20s' is not known here", name);
        }
        snprintf(call->refusals, sizeof call->refusals, "%.*s", (int)(end - list), list);
        found++;
        at = name;
    }
    if (found != CALLS) {
        fail(0, "the header has %d calls with refusals, and not %d", found - 1, CALLS - 1);
    }
}

/* Sees that a call has an answered example, one for each of its refusals, and one that reading refuses. */
static void check_call(const Call *call) {
    char row[LINE_MOST];
    snprintf(row, sizeof row, "\n| `%s` | ", call->name);
    const char *at = strstr(page, row), *end = at ? strchr(at + 1, '\n') : NULL;
    snprintf(row, sizeof row, " | %s |", call->refusals);
    if (*call->refusals && (!at || strncmp(end - strlen(row), row, strlen(row)))) {
        fail(0, "the row of `%s` does not end in '%s', as the header has it", call->name, row);
    }
    if (!call->shown[0]) {
        fail(0, "no example of %s that is answered", call->name);
    }
    if (strstr(call->refusals, "reading's") && !memchr(call->shown + 1, 1, 9)) {
        fail(0, "no example of %s that reading refuses", call->name);
    }
    for (const char *list = call->refusals; *list; list += strcspn(list, " ") + (strchr(list, ' ') != NULL)) {
        int refusal = atoi(list);
        if (refusal && !call->shown[refusal]) {
            fail(0, "no example of %s that is refused by %d", call->name, refusal);
        }
    }
}

/* Sees that the page has a row for each refusal of the header, and an example of each that a call gives. */
static void check_refusal(int refusal) {
    char row[LINE_MOST];
    int shown = 0;
    for (const Call *call = calls; call < calls + CALLS; call++) {
        shown |= call->shown[refusal];
    }
    if (!strcmp(threshold_refusal_text(-refusal), "no refusal")) {
        return;
    }
    if (!shown && refusal != THRESHOLD_REFUSED_ENDED && refusal != THRESHOLD_REFUSED_REPORT_INPUT) {
        fail(0, "no example that is refused by %d", refusal);
    }
    snprintf(row, sizeof row, "\n| %d | `", refusal);
    const char *at = strstr(page, row);
    if (at) {
        const char *name = at + strlen(row);
        snprintf(row, sizeof row, "    THRESHOLD_REFUSED_%.*s = %d", (int)strcspn(name, "`"), name, refusal);
    }
    if (!at || !strstr(header, row)) {
        fail(0, "no row of the refusal %d with its name in the header", refusal);
    }
}

int main(int count, char **arguments) {
    if (count == 3) {
        page_path = arguments[1];
        header_path = arguments[2];
    }
    load(page_path, page);
    load(header_path, header);
    int examples = run_all();
    read_header();
    for (const Call *call = calls; call < calls + CALLS; call++) {
        check_call(call);
    }
    for (int refusal = 1; refusal < REFUSALS; refusal++) {
        check_refusal(refusal);
    }
    printf("%d examples of docs/FORMAT.md hold\n", examples);
    return 0;
}
