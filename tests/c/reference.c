#include "reference.h"

#include <stdarg.h>
#include <stdio.h>
#include <string.h>

/* ------------------------------------------------------------ the table */

/* "A table has 1,464 cells, all zero in an empty table" */
ref_table ref_empty_table(void)
{
    ref_table table;
    memset(&table, 0, sizeof table);
    return table;
}

/* "A table is well formed when its counts are within the sizes, its stuck
   values are 0 or 1, no two faults have the same line and value, and every
   unused cell and label is zero." */
bool ref_well_formed(const ref_table *table)
{
    size_t f, g, c, t;

    if (table->tests > REF_MAX_TESTS || table->faults > REF_MAX_FAULTS)
        return false;
    for (f = 0; f < REF_MAX_FAULTS; f++) {
        ref_label label = table->labels[f];
        if (f >= table->faults) {
            if (label.line != 0 || label.stuck != 0)
                return false;
            continue;
        }
        if (label.stuck > 1)
            return false;
        for (g = 0; g < f; g++)
            if (table->labels[g].line == label.line
                && table->labels[g].stuck == label.stuck)
                return false;
    }
    for (c = 0; c < REF_COLUMNS; c++)
        for (t = 0; t < REF_MAX_TESTS; t++)
            if ((c > table->faults || t >= table->tests)
                && table->outputs[c][t] != 0)
                return false;
    return true;
}

/* ----------------------------------------------------------- the reader */

enum { KIND_TEST = 0x54, KIND_FAULT = 0x46, KIND_RESPONSE = 0x52,
       KIND_END = 0x45 };

ref_so_far ref_begin(void)
{
    ref_so_far so_far;
    memset(&so_far, 0, sizeof so_far);
    so_far.stage = REF_TESTS;
    return so_far;
}

/* Whether fault f's response to test t differs from the correct output: "A
   response that is not given equals the correct output", and 10 refuses one
   that repeats it, so it differs exactly when the book gave a response. */
static bool response_given(const ref_table *table, size_t f, size_t t)
{
    return table->outputs[f + 1][t] != table->outputs[0][t];
}

/* "A reading so far that no start of any book gives" is the opposite. */
bool ref_some_start_gives(const ref_so_far *so_far)
{
    const ref_table *table = &so_far->table;
    bool any = false;
    size_t f, t, highest_fault = 0, highest_test = 0;

    if (!ref_well_formed(table))
        return false;
    /* "Responses rise strictly by fault, then by test": the last one of all
       that were given is the highest in that order. */
    for (f = 0; f < table->faults; f++)
        for (t = 0; t < table->tests; t++)
            if (response_given(table, f, t)) {
                any = true;
                highest_fault = f;
                highest_test = t;
            }
    switch (so_far->stage) {
    case REF_TESTS:
        return table->faults == 0;
    case REF_FAULTS:
        return table->faults > 0 && !any;
    case REF_RESPONSES:
        return any && so_far->last_fault == highest_fault
               && so_far->last_test == highest_test;
    case REF_ENDED:
        return true;
    }
    return false;
}

/* The number for one record's body, in the order of the paper's list; the
   record is taken into what has been read so far when it is 0. */
static int take(ref_so_far *so_far, uint8_t kind, const uint8_t *body)
{
    ref_table *table = &so_far->table;
    ref_stage stage = so_far->stage;
    size_t f, t;

    switch (kind) {
    case KIND_TEST:
        if (stage == REF_FAULTS || stage == REF_RESPONSES)
            return 4;   /* "a test after a fault or response" */
        if (table->tests == REF_MAX_TESTS)
            return 5;   /* "a 25th test" */
        table->outputs[0][table->tests] = body[0];
        table->tests++;
        so_far->stage = REF_TESTS;
        return 0;

    case KIND_FAULT:
        if (stage == REF_RESPONSES)
            return 4;   /* "or a fault after a response" */
        if (table->faults == REF_MAX_FAULTS)
            return 5;   /* "or a 61st fault" */
        if (body[1] > 1)
            return 6;   /* "stuck value above 1" */
        for (f = 0; f < table->faults; f++)
            if (table->labels[f].line == body[0]
                && table->labels[f].stuck == body[1])
                return 7;   /* "same line and value as an earlier fault" */
        table->labels[table->faults].line = body[0];
        table->labels[table->faults].stuck = body[1];
        table->faults++;
        for (t = 0; t < table->tests; t++)
            table->outputs[table->faults][t] = table->outputs[0][t];
        so_far->stage = REF_FAULTS;
        return 0;

    case KIND_RESPONSE:
        t = body[0];
        f = body[1];
        if (t >= table->tests || f >= table->faults)
            return 8;   /* "names a test or fault that the book lacks" */
        if (stage == REF_RESPONSES
            && (f < so_far->last_fault
                || (f == so_far->last_fault && t <= so_far->last_test)))
            return 9;   /* "a response is not after the one before it" */
        if (body[2] == table->outputs[0][t])
            return 10;  /* "a response repeats the correct output" */
        table->outputs[f + 1][t] = body[2];
        so_far->stage = REF_RESPONSES;
        so_far->last_fault = f;
        so_far->last_test = t;
        return 0;

    default:            /* KIND_END */
        if (body[0] != table->tests || body[1] != table->faults)
            return 11;  /* "the end's counts are not those read" */
        so_far->stage = REF_ENDED;
        so_far->last_fault = 0;
        so_far->last_test = 0;
        return 0;
    }
}

/* One record at a place up to the length. */
static ref_record step(const uint8_t *book, size_t length, size_t place,
                       const ref_so_far *so_far)
{
    ref_record answer;
    size_t left = length - place;

    memset(&answer, 0, sizeof answer);
    answer.place = place;
    answer.so_far = *so_far;
    if (so_far->stage != REF_RESPONSES) {
        answer.so_far.last_fault = 0;
        answer.so_far.last_test = 0;
    }

    if (so_far->stage == REF_ENDED) {
        if (left == 0)
            answer.outcome = REF_ACCEPTED;
        else
            answer.number = 12;     /* "a byte follows the end" */
    } else if (left == 0) {
        answer.number = 3;          /* "no end record (an empty book too)" */
    } else {
        answer.kind = book[place];
        switch (answer.kind) {
        case KIND_TEST:     answer.body_length = 1; break;
        case KIND_FAULT:    answer.body_length = 2; break;
        case KIND_RESPONSE: answer.body_length = 3; break;
        case KIND_END:      answer.body_length = 2; break;
        default:            answer.number = 1; break;
        }
        if (answer.number == 0 && left - 1 < answer.body_length)
            answer.number = 2;      /* "the body is cut short" */
        if (answer.number == 0) {
            memcpy(answer.body, book + place + 1, answer.body_length);
            answer.number = take(&answer.so_far, answer.kind, answer.body);
            answer.place = place + 1 + answer.body_length;
        }
        answer.outcome = REF_RECORD;
    }

    if (answer.number != 0) {
        int number = answer.number;
        memset(&answer, 0, sizeof answer);
        answer.outcome = REF_REFUSED;
        answer.number = number;
        answer.place = place;
        answer.so_far = ref_begin();
    }
    return answer;
}

ref_record ref_read_record(const uint8_t *book, size_t length, size_t place,
                           const ref_so_far *so_far)
{
    /* "gives 20 with that place and the empty table, before any other
       number" */
    if (place > length || !ref_some_start_gives(so_far)) {
        ref_record answer;
        memset(&answer, 0, sizeof answer);
        answer.outcome = REF_REFUSED;
        answer.number = 20;
        answer.place = place;
        answer.so_far = ref_begin();
        return answer;
    }
    return step(book, length, place, so_far);
}

ref_reading ref_read_book(const uint8_t *book, size_t length)
{
    ref_so_far so_far = ref_begin();
    size_t place = 0;

    for (;;) {
        ref_record record = step(book, length, place, &so_far);
        so_far = record.so_far;
        place = record.place;
        if (record.outcome != REF_RECORD) {
            ref_reading answer;
            memset(&answer, 0, sizeof answer);
            answer.number = record.number;
            answer.place = place;
            if (record.outcome == REF_ACCEPTED)
                answer.table = so_far.table;
            return answer;
        }
    }
}

/* ---------------------------------------------------------------- terms */

/* The set of the tests that separate two columns: "A test separates two
   columns when their outputs differ." */
static uint32_t separating(const ref_table *table, size_t a, size_t b)
{
    uint32_t set = 0;
    size_t t;
    for (t = 0; t < table->tests; t++)
        if (table->outputs[a][t] != table->outputs[b][t])
            set |= (uint32_t)1 << t;
    return set;
}

/* "Columns that no test separates form a class.  Classes are numbered by their
   lowest column". */
ref_classes ref_classify(const ref_table *table)
{
    ref_classes answer;
    size_t lowest[REF_COLUMNS];
    size_t c, k;

    memset(&answer, 0, sizeof answer);
    if (!ref_well_formed(table)) {
        answer.number = 20;
        return answer;
    }
    for (c = 0; c <= table->faults; c++) {
        for (k = 0; k < answer.count; k++)
            if (separating(table, lowest[k], c) == 0)
                break;
        if (k == answer.count) {
            lowest[k] = c;
            answer.count++;
        }
        answer.class_of[c] = (uint8_t)k;
    }
    return answer;
}

/* "A fault is undetectable when no test separates it from column 0." */
ref_fault_set ref_undetectable(const ref_table *table)
{
    ref_fault_set answer = {0, 0};
    size_t f;

    if (!ref_well_formed(table)) {
        answer.number = 20;
        return answer;
    }
    for (f = 0; f < table->faults; f++)
        if (separating(table, 0, f + 1) == 0)
            answer.faults |= (uint64_t)1 << f;
    return answer;
}

/* For each goal pair the set of the tests that separate it.  "Detect: column 0
   with each fault.  Diagnose: every two columns.  Only those count which some
   test of the table separates." Two pairs with the same set ask the same of
   every set of tests, so each set is listed once. */
typedef struct {
    size_t count;
    uint32_t tests[REF_MAX_SHEET];
} pair_sets;

static void list_pairs(const ref_table *table, ref_goal goal, pair_sets *pairs)
{
    size_t a, b, i;

    pairs->count = 0;
    for (a = 0; a <= table->faults; a++) {
        if (goal == REF_DETECT && a != 0)
            break;
        for (b = a + 1; b <= table->faults; b++) {
            uint32_t set = separating(table, a, b);
            for (i = 0; i < pairs->count; i++)
                if (pairs->tests[i] == set)
                    break;
            if (set != 0 && i == pairs->count)
                pairs->tests[pairs->count++] = set;
        }
    }
}

static bool holds(uint32_t set, size_t t)
{
    return (set >> t & 1) != 0;
}

/* "A test is set aside for a goal when it separates no goal pair, or when a
   lower-numbered test separates every goal pair that it does." */
static uint32_t aside_tests(const ref_table *table, const pair_sets *pairs)
{
    uint32_t aside = 0;
    size_t t, lower, i;

    for (t = 0; t < table->tests; t++) {
        bool separates_one = false;
        for (i = 0; i < pairs->count; i++)
            if (holds(pairs->tests[i], t))
                separates_one = true;
        if (!separates_one)
            aside |= (uint32_t)1 << t;
        for (lower = 0; lower < t; lower++) {
            bool every = true;
            for (i = 0; i < pairs->count; i++)
                if (holds(pairs->tests[i], t)
                    && !holds(pairs->tests[i], lower))
                    every = false;
            if (every)
                aside |= (uint32_t)1 << t;
        }
    }
    return aside;
}

ref_test_set ref_set_aside(const ref_table *table, ref_goal goal)
{
    ref_test_set answer = {0, 0};
    pair_sets pairs;

    if (!ref_well_formed(table)) {
        answer.number = 20;
        return answer;
    }
    list_pairs(table, goal, &pairs);
    answer.tests = aside_tests(table, &pairs);
    return answer;
}

/* "A kept test is essential when some fault differs from column 0 in that kept
   test and in no other kept test." */
ref_test_set ref_essential(const ref_table *table, ref_goal goal)
{
    ref_test_set answer = {0, 0};
    pair_sets pairs;
    uint32_t aside;
    size_t f, t;

    if (!ref_well_formed(table)) {
        answer.number = 20;
        return answer;
    }
    list_pairs(table, goal, &pairs);
    aside = aside_tests(table, &pairs);
    for (f = 0; f < table->faults; f++) {
        uint32_t kept = separating(table, 0, f + 1) & ~aside;
        for (t = 0; t < table->tests; t++)
            if (kept == (uint32_t)1 << t)
                answer.tests |= kept;
    }
    return answer;
}

/* ----------------------------------------------------------- the choice */

/* Leave only the sets that hold no other one of the list: a set of tests that
   meets a part meets the whole. */
static void drop_wider(pair_sets *pairs)
{
    pair_sets left;
    size_t i, j;

    left.count = 0;
    for (i = 0; i < pairs->count; i++) {
        bool wider = false;
        for (j = 0; j < pairs->count; j++)
            if (j != i
                && (pairs->tests[j] & pairs->tests[i]) == pairs->tests[j])
                wider = true;
        if (!wider)
            left.tests[left.count++] = pairs->tests[i];
    }
    pairs->count = left.count;
    memcpy(pairs->tests, left.tests, left.count * sizeof left.tests[0]);
}

/* Every way to add `more` tests, none below `from`, to a set, the lowest test
   number first: "the set that holds the lowest test number in which the two
   differ comes first".  The first that separates every pair is given. */
static bool first_of_size(const pair_sets *pairs, size_t tests, size_t from,
                          size_t more, uint32_t set, uint32_t *found)
{
    size_t i, t;

    if (more == 0) {
        for (i = 0; i < pairs->count; i++)
            if ((pairs->tests[i] & set) == 0)
                return false;
        *found = set;
        return true;
    }
    for (t = from; t + more <= tests; t++)
        if (first_of_size(pairs, tests, t + 1, more - 1,
                          set | (uint32_t)1 << t, found))
            return true;
    return false;
}

/* "The choice is the first, in that order, of the smallest sets that separate
   every goal pair." */
ref_test_set ref_choose(const ref_table *table, ref_goal goal, uint64_t cap)
{
    ref_test_set answer = {0, 0};
    pair_sets pairs;
    size_t size;

    if (!ref_well_formed(table)) {
        answer.number = 20;
        return answer;
    }
    if (cap > REF_MAX_TESTS) {
        answer.number = 22;
        return answer;
    }
    list_pairs(table, goal, &pairs);
    drop_wider(&pairs);
    for (size = 0; size <= cap && size <= table->tests; size++)
        if (first_of_size(&pairs, table->tests, 0, size, 0, &answer.tests))
            return answer;
    answer.number = 23;
    return answer;
}

/* ---------------------------------- dictionary, witness sheet, suspects */

/* 21: "a given set holds a test that the table lacks" */
static bool holds_a_stranger(const ref_table *table, uint32_t set)
{
    size_t t;
    for (t = 0; t < 32; t++)
        if (holds(set, t) && t >= table->tests)
            return true;
    return false;
}

static size_t size_of(uint32_t set)
{
    size_t t, n = 0;
    for (t = 0; t < 32; t++)
        if (holds(set, t))
            n++;
    return n;
}

/* A class's lowest column. */
static size_t lowest_of(const ref_classes *classes, size_t k)
{
    size_t c = 0;
    while (classes->class_of[c] != k)
        c++;
    return c;
}

/* "k rows of n bytes in rising class number" */
ref_written ref_dictionary(const ref_table *table, uint32_t set,
                           uint8_t *buffer, size_t length)
{
    ref_written answer = {0, 0};
    ref_classes classes;
    size_t n, k, t, at = 0;

    if (!ref_well_formed(table)) {
        answer.number = 20;
        return answer;
    }
    if (holds_a_stranger(table, set)) {
        answer.number = 21;
        return answer;
    }
    classes = ref_classify(table);
    n = size_of(set);
    if (length < classes.count * n) {
        answer.number = 24;
        return answer;
    }
    for (k = 0; k < classes.count; k++) {
        size_t column = lowest_of(&classes, k);
        for (t = 0; t < table->tests; t++)
            if (holds(set, t))
                buffer[at++] = table->outputs[column][t];
    }
    answer.count = classes.count * n;
    return answer;
}

/* "one byte for each two classes, k(k - 1)/2 in all, ordered by lower class and
   then by higher: the lowest test of the set that separates them, or 255 where
   none does" */
ref_written ref_witness_sheet(const ref_table *table, uint32_t set,
                              uint8_t *buffer, size_t length)
{
    ref_written answer = {0, 0};
    ref_classes classes;
    size_t low, high, t, at = 0;

    if (!ref_well_formed(table)) {
        answer.number = 20;
        return answer;
    }
    if (holds_a_stranger(table, set)) {
        answer.number = 21;
        return answer;
    }
    classes = ref_classify(table);
    if (length < classes.count * (classes.count - 1) / 2) {
        answer.number = 24;
        return answer;
    }
    for (low = 0; low < classes.count; low++)
        for (high = low + 1; high < classes.count; high++) {
            uint32_t both = set & separating(table, lowest_of(&classes, low),
                                             lowest_of(&classes, high));
            uint8_t witness = 255;
            for (t = table->tests; t-- > 0;)
                if (holds(both, t))
                    witness = (uint8_t)t;
            buffer[at++] = witness;
        }
    answer.count = classes.count * (classes.count - 1) / 2;
    return answer;
}

/* "Suspects are all columns whose signature under the set equals the observed
   outputs; there may be none." */
ref_suspects ref_suspects_of(const ref_table *table, uint32_t set,
                             const uint8_t *outputs, size_t length)
{
    ref_suspects answer;
    size_t c, t;

    memset(&answer, 0, sizeof answer);
    if (!ref_well_formed(table)) {
        answer.number = 20;
        return answer;
    }
    if (holds_a_stranger(table, set)) {
        answer.number = 21;
        return answer;
    }
    if (length != size_of(set)) {
        answer.number = 25;
        return answer;
    }
    for (c = 0; c <= table->faults; c++) {
        bool equal = true;
        size_t i = 0;
        for (t = 0; t < table->tests; t++)
            if (holds(set, t))
                if (outputs[i++] != table->outputs[c][t])
                    equal = false;
        if (equal)
            answer.columns[answer.count++] = (uint8_t)c;
    }
    return answer;
}

/* ------------------------------------------------------- the full adder */

static const uint8_t adder_correct[8] = {0, 2, 2, 1, 2, 1, 1, 3};

static const uint8_t adder_responses[36][3] = { /* test, fault, output */
    {0, 0, 2}, {1, 0, 1}, {6, 0, 3}, {7, 0, 1},
    {0, 1, 1}, {1, 1, 3}, {2, 1, 3}, {4, 1, 3},
    {0, 2, 2}, {3, 2, 3}, {5, 2, 3}, {6, 2, 3},
    {0, 3, 1}, {1, 3, 3}, {2, 3, 3}, {4, 3, 3},
    {0, 4, 1}, {1, 4, 3}, {2, 4, 3}, {4, 4, 3},
    {2, 5, 0}, {3, 5, 2}, {4, 5, 0}, {5, 5, 2},
    {6, 6, 0}, {7, 6, 2},
    {1, 7, 0}, {2, 7, 0}, {4, 7, 0}, {7, 7, 1},
    {3, 8, 0}, {5, 8, 0},
    {3, 9, 0}, {5, 9, 0}, {6, 9, 0}, {7, 9, 2}
};

ref_table ref_full_adder(void)
{
    ref_table table = ref_empty_table();
    size_t c, t, f, i;

    table.tests = 8;
    table.faults = 10;
    for (c = 0; c <= 10; c++)
        for (t = 0; t < 8; t++)
            table.outputs[c][t] = adder_correct[t];
    /* "lines 1 to 5 stuck at 1, then lines 1 to 5 stuck at 0" */
    for (f = 0; f < 10; f++) {
        table.labels[f].line = (uint8_t)(f % 5 + 1);
        table.labels[f].stuck = f < 5;
    }
    for (i = 0; i < 36; i++)
        table.outputs[adder_responses[i][1] + 1][adder_responses[i][0]]
            = adder_responses[i][2];
    return table;
}

/* ----------------------------------------------------- the program pick */

static void print(ref_text *out, const char *format, ...)
{
    va_list values;
    int written;

    va_start(values, format);
    written = vsnprintf(out->text + out->length,
                        sizeof out->text - out->length, format, values);
    va_end(values);
    out->length += (size_t)written;
}

static void print_set(ref_text *out, const char *name, uint32_t set)
{
    size_t t;

    print(out, "%s", name);
    for (t = 0; t < 32; t++)
        if (holds(set, t))
            print(out, " %u", (unsigned)t);
    /* "An empty list, an empty signature too, prints "none"." */
    if (set == 0)
        print(out, " none");
    print(out, "\n");
}

void ref_report(const uint8_t *book, size_t length, ref_text *out)
{
    ref_reading reading = ref_read_book(book, length);
    const ref_table *table = &reading.table;
    ref_classes classes;
    uint32_t diagnose;
    size_t k, c, t;

    out->length = 0;
    out->text[0] = '\0';
    if (reading.number != 0) {
        print(out, "refused %d at %lu\n", reading.number,
              (unsigned long)reading.place);
        return;
    }
    classes = ref_classify(table);
    diagnose = ref_choose(table, REF_DIAGNOSE, 24).tests;
    print(out, "tests %u faults %u classes %u\n", (unsigned)table->tests,
          (unsigned)table->faults, (unsigned)classes.count);
    print_set(out, "aside", ref_set_aside(table, REF_DIAGNOSE).tests);
    print_set(out, "essential", ref_essential(table, REF_DIAGNOSE).tests);
    print_set(out, "detect", ref_choose(table, REF_DETECT, 24).tests);
    print_set(out, "diagnose", diagnose);
    for (k = 0; k < classes.count; k++) {
        size_t column = lowest_of(&classes, k);
        print(out, "class %u :", (unsigned)k);
        for (t = 0; t < table->tests; t++)
            if (holds(diagnose, t))
                print(out, " %u", (unsigned)table->outputs[column][t]);
        if (diagnose == 0)
            print(out, " none");
        print(out, " :");
        for (c = 0; c <= table->faults; c++) {
            if (classes.class_of[c] != k)
                continue;
            if (c == 0)
                print(out, " good");
            else
                print(out, " %u/%u", (unsigned)table->labels[c - 1].line,
                      (unsigned)table->labels[c - 1].stuck);
        }
        print(out, "\n");
    }
}
