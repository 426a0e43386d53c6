/* Self-test on the paper's examples and on edge cases of its rules.
   gcc -std=c99 -Wall -Wextra -O2 test_reference.c reference.c */
#include "reference.h"

#include <stdio.h>
#include <string.h>

static unsigned passed, failed;

static void check(const char *name, bool good)
{
    if (good) {
        passed++;
    } else {
        failed++;
        printf("FAILED %s\n", name);
    }
}

static bool same_table(const ref_table *a, const ref_table *b)
{
    return a->tests == b->tests && a->faults == b->faults
           && memcmp(a->labels, b->labels, sizeof a->labels) == 0
           && memcmp(a->outputs, b->outputs, sizeof a->outputs) == 0;
}

static bool same_so_far(const ref_so_far *a, const ref_so_far *b)
{
    return same_table(&a->table, &b->table) && a->stage == b->stage
           && a->last_fault == b->last_fault && a->last_test == b->last_test;
}

static bool is_empty(const ref_table *table)
{
    ref_table empty = ref_empty_table();
    return same_table(table, &empty);
}

static bool is_begin(const ref_so_far *so_far)
{
    ref_so_far begin = ref_begin();
    return same_so_far(so_far, &begin);
}

/* Bytes from hexadecimal text. */
static size_t bytes(const char *text, uint8_t *out)
{
    size_t n = 0;
    unsigned value;
    int used;
    while (sscanf(text, " %2x%n", &value, &used) == 1) {
        out[n++] = (uint8_t)value;
        text += used;
    }
    return n;
}

static size_t book_of(const ref_table *table, uint8_t *out)
{
    size_t n = 0, f, t;
    for (t = 0; t < table->tests; t++) {
        out[n++] = 0x54;
        out[n++] = table->outputs[0][t];
    }
    for (f = 0; f < table->faults; f++) {
        out[n++] = 0x46;
        out[n++] = table->labels[f].line;
        out[n++] = table->labels[f].stuck;
    }
    for (f = 0; f < table->faults; f++)
        for (t = 0; t < table->tests; t++)
            if (table->outputs[f + 1][t] != table->outputs[0][t]) {
                out[n++] = 0x52;
                out[n++] = (uint8_t)t;
                out[n++] = (uint8_t)f;
                out[n++] = table->outputs[f + 1][t];
            }
    out[n++] = 0x45;
    out[n++] = (uint8_t)table->tests;
    out[n++] = (uint8_t)table->faults;
    return n;
}

static void refused(const char *text, int number, size_t place)
{
    uint8_t book[64];
    size_t length = bytes(text, book);
    ref_reading reading = ref_read_book(book, length);
    ref_text report;
    char line[64];

    check(text, reading.number == number && reading.place == place
                    && is_empty(&reading.table));
    ref_report(book, length, &report);
    sprintf(line, "refused %d at %u\n", number, (unsigned)place);
    check(text, strcmp(report.text, line) == 0);
}

static ref_table accepted(const char *text)
{
    uint8_t book[64], again[64];
    size_t length = bytes(text, book);
    ref_reading reading = ref_read_book(book, length);

    check(text, reading.number == 0 && reading.place == length);
    check(text, ref_well_formed(&reading.table));
    check(text, book_of(&reading.table, again) == length
                    && memcmp(book, again, length) == 0);
    return reading.table;
}

static void report_is(const char *text, const char *expected)
{
    uint8_t book[64];
    ref_text report;
    ref_report(book, bytes(text, book), &report);
    check(text, strcmp(report.text, expected) == 0
                    && report.length == strlen(expected));
}

static void chooses(const char *name, const ref_table *table, ref_goal goal,
                    uint64_t cap, int number, uint32_t tests)
{
    ref_test_set answer = ref_choose(table, goal, cap);
    check(name, answer.number == number && answer.tests == tests);
}

static void aside(const char *name, const ref_table *table, ref_goal goal,
                  uint32_t tests)
{
    ref_test_set answer = ref_set_aside(table, goal);
    check(name, answer.number == 0 && answer.tests == tests);
}

static void essential(const char *name, const ref_table *table, ref_goal goal,
                      uint32_t tests)
{
    ref_test_set answer = ref_essential(table, goal);
    check(name, answer.number == 0 && answer.tests == tests);
}

/* A table with lines 0, 1, 2 and so on stuck at 0; correct and each fault's
   outputs as digits, columns parted by a space. */
static ref_table digits(const char *text)
{
    ref_table table = ref_empty_table();
    size_t c = 0, t = 0;
    for (; *text != '\0'; text++) {
        if (*text == ' ') {
            c++;
            t = 0;
            table.labels[c - 1].line = (uint8_t)(c - 1);
            table.faults = c;
        } else {
            table.outputs[c][t++] = (uint8_t)(*text - '0');
            table.tests = t;
        }
    }
    return table;
}

static void small_books(void)
{
    const char *third = "54 00 46 01 00 52 00 00 01 45 01 01";
    ref_table table;
    ref_classes classes;
    ref_fault_set unseen;
    ref_goal goal;

    table = accepted("45 00 00");
    classes = ref_classify(&table);
    check("one class", classes.number == 0 && classes.count == 1);
    check("the empty table", is_empty(&table));
    chooses("empty", &table, REF_DETECT, 24, 0, 0);
    chooses("empty", &table, REF_DIAGNOSE, 24, 0, 0);
    chooses("empty", &table, REF_DIAGNOSE, 0, 0, 0);
    report_is("45 00 00",
              "tests 0 faults 0 classes 1\naside none\nessential none\n"
              "detect none\ndiagnose none\nclass 0 : none : good\n");

    table = accepted("54 07 45 01 00");
    for (goal = REF_DETECT; goal <= REF_DIAGNOSE; goal++) {
        chooses("one test", &table, goal, 24, 0, 0);
        aside("one test", &table, goal, 1);
        essential("one test", &table, goal, 0);
    }

    table = accepted(third);
    for (goal = REF_DETECT; goal <= REF_DIAGNOSE; goal++) {
        chooses("third", &table, goal, 24, 0, 1);
        chooses("third cap 0", &table, goal, 0, 23, 0);
        chooses("third cap 1", &table, goal, 1, 0, 1);
        chooses("third cap 25", &table, goal, 25, 22, 0);
        chooses("third cap", &table, goal, UINT64_MAX, 22, 0);
    }
    report_is(third, "tests 1 faults 1 classes 2\naside none\nessential 0\n"
              "detect 0\ndiagnose 0\nclass 0 : 0 : good\n"
              "class 1 : 1 : 1/0\n");

    table = accepted("54 00 46 01 00 45 01 01");
    classes = ref_classify(&table);
    check("one class", classes.number == 0 && classes.count == 1);
    unseen = ref_undetectable(&table);
    check("unseen", unseen.number == 0 && unseen.faults == 1);
    for (goal = REF_DETECT; goal <= REF_DIAGNOSE; goal++)
        chooses("no response", &table, goal, 24, 0, 0);

    table = digits("00 11 12");
    chooses("a b", &table, REF_DETECT, 24, 0, 1);
    chooses("a b", &table, REF_DIAGNOSE, 24, 0, 2);
    aside("a b", &table, REF_DIAGNOSE, 0);
    aside("a b", &table, REF_DETECT, 2);
    essential("a b", &table, REF_DIAGNOSE, 0);
    essential("a b", &table, REF_DETECT, 1);

    table = digits("55 66");
    for (goal = REF_DETECT; goal <= REF_DIAGNOSE; goal++) {
        chooses("two equal", &table, goal, 24, 0, 1);
        aside("two equal", &table, goal, 2);
    }

    table = digits("000 110 110 010 101 101 001");
    chooses("six faults", &table, REF_DETECT, 24, 0, 6);
    chooses("six faults", &table, REF_DETECT, 1, 23, 0);

    table = digits("000 110 011 001");
    aside("low kept", &table, REF_DETECT, 0);
    chooses("low kept", &table, REF_DETECT, 24, 0, 5);

    refused("", 3, 0);
    refused("45 00", 2, 0);
    refused("45 00 00 45", 12, 3);
    refused("46 01 00 54 00", 4, 3);
    refused("52 00 00 01", 8, 0);
    refused("45 01 00", 11, 0);
    refused("46 01 02", 6, 0);
    refused("46 01", 2, 0);
    refused("54 00 46 01 00 52 00 00 00 45 01 01", 10, 5);
}

static void reader_refusals(void)
{
    static uint8_t book[8192];
    unsigned kind;
    size_t i, n;
    ref_reading reading;
    ref_table longest = ref_empty_table();

    for (kind = 0; kind < 256; kind++) {
        uint8_t record[4] = {0, 0, 0, 0};
        if (kind == 0x54 || kind == 0x46 || kind == 0x52 || kind == 0x45)
            continue;
        record[0] = (uint8_t)kind;
        reading = ref_read_book(record, 4);
        check("kind", reading.number == 1 && reading.place == 0);
    }
    refused("00", 1, 0);
    refused("54 00 00", 1, 2);
    refused("54", 2, 0);
    refused("46", 2, 0);
    refused("52 00 00", 2, 0);
    refused("45", 2, 0);
    refused("54 00", 3, 2);
    refused("46 01 00 54", 2, 3);
    refused("54 00 46 01 00 52 00 00 01 46 02 07", 4, 9);
    refused("54 00 46 01 00 52 00 00 01 54 00", 4, 9);
    refused("54 00 46 01 00 46 01 02", 6, 5);
    refused("54 00 46 01 00 46 01 00", 7, 5);
    refused("54 00 46 01 00 52 01 00 01", 8, 5);
    refused("54 00 46 01 00 52 00 01 01", 8, 5);
    refused("54 00 46 01 00 52 00 00 01 52 00 00 00", 9, 9);
    refused("54 00 54 00 46 01 00 52 01 00 01 52 00 00 01", 9, 11);
    refused("54 00 54 00 46 01 00 46 01 01 52 00 01 01 52 01 00 01", 9, 14);
    accepted("54 00 54 00 46 01 00 46 01 01 52 01 00 01 52 00 01 01 45 02 02");
    refused("54 00 46 01 00 45 01 00", 11, 5);
    refused("45 01 00 45", 11, 0);
    refused("45 00 00 00", 12, 3);

    for (n = 24; n <= 25; n++) {
        for (i = 0; i < n; i++) {
            book[2 * i] = 0x54;
            book[2 * i + 1] = 9;
        }
        book[2 * n] = 0x45;
        book[2 * n + 1] = (uint8_t)n;
        book[2 * n + 2] = 0;
        reading = ref_read_book(book, 2 * n + 3);
        check("tests", n == 24 ? reading.number == 0 && reading.place == 51
                               : reading.number == 5 && reading.place == 48);
    }
    for (n = 60; n <= 61; n++) {
        for (i = 0; i < n; i++) {
            book[3 * i] = 0x46;
            book[3 * i + 1] = (uint8_t)i;
            book[3 * i + 2] = 1;
        }
        book[3 * n] = 0x45;
        book[3 * n + 1] = 0;
        book[3 * n + 2] = (uint8_t)n;
        reading = ref_read_book(book, 3 * n + 3);
        check("faults", n == 60
              ? reading.number == 0 && reading.place == 183
              : reading.number == 5 && reading.place == 180
                && is_empty(&reading.table));
    }

    longest.tests = 24;
    longest.faults = 60;
    for (i = 0; i < 60; i++) {
        longest.labels[i].line = (uint8_t)(i + 190);
        memset(longest.outputs[i + 1], (int)(i + 1), 24);
    }
    n = book_of(&longest, book);
    check("longest", n == 5991 && n == REF_LONGEST_BOOK);
    reading = ref_read_book(book, n);
    check("longest", reading.number == 0 && reading.place == n
                         && same_table(&reading.table, &longest));
    reading = ref_read_book(book, n + 1);
    check("longest and one", reading.number == 12 && reading.place == 5991);
    reading = ref_read_book(book, 5988);
    check("longest cut", reading.number == 3 && reading.place == 5988);
}

static void stage_is(const char *name, const ref_table *table,
                     ref_stage stage, uint64_t last_fault, uint64_t last_test,
                     bool good)
{
    ref_so_far so_far;
    ref_record record;
    uint8_t byte = 0;

    so_far.table = *table;
    so_far.stage = stage;
    so_far.last_fault = last_fault;
    so_far.last_test = last_test;
    check(name, ref_some_start_gives(&so_far) == good);
    record = ref_read_record(&byte, 1, 0, &so_far);
    check(name, record.outcome == REF_REFUSED && record.place == 0
                    && record.number == (!good ? 20
                                         : stage == REF_ENDED ? 12 : 1)
                    && is_begin(&record.so_far));
    record = ref_read_record(&byte, 1, 2, &so_far);
    check(name, record.outcome == REF_REFUSED && record.place == 2
                    && record.number == 20 && is_begin(&record.so_far));
}

static void record_by_record(void)
{
    static const struct { uint8_t kind; size_t next; ref_stage stage; } is[5]
        = { {0x54, 2, REF_TESTS}, {0x54, 4, REF_TESTS}, {0x46, 7, REF_FAULTS},
            {0x52, 11, REF_RESPONSES}, {0x45, 14, REF_ENDED} };
    uint8_t book[64];
    size_t length = bytes("54 07 54 08 46 01 00 52 01 00 09 45 02 01", book);
    size_t i, place = 0;
    ref_so_far so_far = ref_begin();
    ref_record record;
    ref_reading reading = ref_read_book(book, length);
    ref_table one = digits("00 11"), plain = digits("00 00");
    ref_table tests = digits("00"), empty = ref_empty_table(), bad;

    for (i = 0; i < 5; i++) {
        record = ref_read_record(book, length, place, &so_far);
        check("record", record.outcome == REF_RECORD && record.number == 0);
        check("record", record.kind == is[i].kind
                            && record.place == is[i].next
                            && record.body_length == is[i].next - place - 1
                            && memcmp(record.body, book + place + 1,
                                      record.body_length) == 0
                            && record.so_far.stage == is[i].stage);
        if (is[i].stage != REF_ENDED) {
            ref_record end = ref_read_record(book, length, length,
                                             &record.so_far);
            check("no end", end.outcome == REF_REFUSED && end.number == 3
                                && end.place == length
                                && is_begin(&end.so_far));
        }
        place = record.place;
        so_far = record.so_far;
    }
    for (i = 0; i < 2; i++) {
        record = ref_read_record(book, length, place, &so_far);
        check("accepted", record.outcome == REF_ACCEPTED && record.number == 0
                              && record.place == length
                              && same_so_far(&record.so_far, &so_far)
                              && same_table(&so_far.table, &reading.table));
    }
    record = ref_read_record(book, length + 1, place, &so_far);
    check("a byte follows", record.outcome == REF_REFUSED
                                && record.number == 12
                                && record.place == length
                                && is_begin(&record.so_far));

    stage_is("begin", &empty, REF_TESTS, 0, 0, true);
    stage_is("tests", &tests, REF_TESTS, 0, 0, true);
    stage_is("faults", &plain, REF_FAULTS, 0, 0, true);
    stage_is("response", &one, REF_RESPONSES, 0, 1, true);
    stage_is("ended", &empty, REF_ENDED, 0, 0, true);
    stage_is("ended", &tests, REF_ENDED, 0, 0, true);
    stage_is("ended", &plain, REF_ENDED, 0, 0, true);
    stage_is("ended", &one, REF_ENDED, 0, 0, true);
    stage_is("tests with a fault", &plain, REF_TESTS, 0, 0, false);
    stage_is("faults without one", &tests, REF_FAULTS, 0, 0, false);
    stage_is("faults without one", &empty, REF_FAULTS, 0, 0, false);
    stage_is("faults with a response", &one, REF_FAULTS, 0, 0, false);
    stage_is("an earlier last", &one, REF_RESPONSES, 0, 0, false);
    stage_is("no response", &plain, REF_RESPONSES, 0, 1, false);
    stage_is("no such test", &one, REF_RESPONSES, 0, 2, false);
    stage_is("no such fault", &one, REF_RESPONSES, 1, 1, false);
    stage_is("no such fault", &one, REF_RESPONSES, UINT64_MAX, 1, false);
    bad = one;
    bad.outputs[60][23] = 1;
    stage_is("not well formed", &bad, REF_ENDED, 0, 0, false);
    stage_is("not well formed", &bad, REF_RESPONSES, 0, 1, false);
}

static void bad_table(const char *name, const ref_table *table)
{
    uint8_t buffer[4] = {1, 2, 3, 4};
    ref_classes classes = ref_classify(table);
    ref_fault_set unseen = ref_undetectable(table);
    ref_written written;
    ref_suspects suspects;
    ref_test_set set;
    ref_goal goal;
    size_t c;

    check(name, !ref_well_formed(table));
    check(name, classes.number == 20 && classes.count == 0);
    check(name, unseen.number == 20 && unseen.faults == 0);
    for (goal = REF_DETECT; goal <= REF_DIAGNOSE; goal++) {
        set = ref_set_aside(table, goal);
        check(name, set.number == 20 && set.tests == 0);
        set = ref_essential(table, goal);
        check(name, set.number == 20 && set.tests == 0);
        chooses(name, table, goal, 25, 20, 0);
    }
    written = ref_dictionary(table, 1u << 31, buffer, 4);
    check(name, written.number == 20 && written.count == 0);
    written = ref_witness_sheet(table, 1u << 31, buffer, 4);
    check(name, written.number == 20 && written.count == 0);
    check(name, memcmp(buffer, "\1\2\3\4", 4) == 0);
    suspects = ref_suspects_of(table, 1u << 31, buffer, 4);
    check(name, suspects.number == 20 && suspects.count == 0);
    for (c = 0; c < REF_COLUMNS; c++)
        check(name, classes.class_of[c] == 0 && suspects.columns[c] == 0);
}

static void tables(void)
{
    static const uint64_t counts[] = {25, 61, 255, 256, 65536,
                                      (uint64_t)1 << 32, UINT64_MAX};
    ref_table sound = digits("12 11 22"), table;
    size_t i;

    table = ref_empty_table();
    check("empty", ref_well_formed(&table));
    check("sound", ref_well_formed(&sound));
    for (i = 0; i < sizeof counts / sizeof counts[0]; i++) {
        table = sound;
        table.tests = counts[i];
        bad_table("tests", &table);
        table = sound;
        table.faults = counts[i] == 25 ? 62 : counts[i];
        bad_table("faults", &table);
    }
    table = sound; table.tests = 1; bad_table("a test fewer", &table);
    table = sound; table.faults = 1; bad_table("a fault fewer", &table);
    table = sound; table.labels[2].line = 1; bad_table("line", &table);
    table = sound; table.labels[59].stuck = 1; bad_table("value", &table);
    table = sound; table.labels[0].stuck = 2; bad_table("stuck", &table);
    table = sound; table.labels[1].line = 0; bad_table("same", &table);
    table = sound; table.outputs[3][0] = 1; bad_table("column", &table);
    table = sound; table.outputs[0][2] = 1; bad_table("row", &table);
    table = sound; table.outputs[60][23] = 1; bad_table("last", &table);
    table = sound; table.labels[1].line = 0; table.labels[1].stuck = 1;
    check("other value", ref_well_formed(&table));
}

static void both(const ref_table *table, uint32_t set,
                 const char *dictionary, size_t dictionary_length,
                 const char *sheet, size_t sheet_length)
{
    size_t length;
    for (length = 0; length <= 20; length++) {
        uint8_t buffer[20], expected[20];
        ref_written written;

        memset(buffer, 0xaa, 20);
        memset(expected, 0xaa, 20);
        written = ref_dictionary(table, set, buffer, length);
        if (length < dictionary_length) {
            check("24", written.number == 24 && written.count == 0);
        } else {
            check("dictionary", written.number == 0
                                    && written.count == dictionary_length);
            memcpy(expected, dictionary, dictionary_length);
        }
        check("dictionary", memcmp(buffer, expected, 20) == 0);

        memset(buffer, 0xaa, 20);
        memset(expected, 0xaa, 20);
        written = ref_witness_sheet(table, set, buffer, length);
        if (length < sheet_length) {
            check("24", written.number == 24 && written.count == 0);
        } else {
            check("sheet", written.number == 0
                               && written.count == sheet_length);
            memcpy(expected, sheet, sheet_length);
        }
        check("sheet", memcmp(buffer, expected, 20) == 0);
    }
}

static void suspects(const ref_table *table, uint32_t set, const char *outputs,
                     size_t length, int number, const char *columns,
                     size_t count)
{
    ref_suspects answer = ref_suspects_of(table, set,
                                          (const uint8_t *)outputs, length);
    uint8_t expected[REF_COLUMNS] = {0};
    memcpy(expected, columns, count);
    check("suspects", answer.number == number && answer.count == count
                          && memcmp(answer.columns, expected,
                                    sizeof expected) == 0);
}

static void calls(void)
{
    /* Column 1 is as good as 0; 2 and 4 are alike. */
    ref_table table = digits("059 059 159 169 159");
    ref_classes classes = ref_classify(&table);
    ref_fault_set unseen = ref_undetectable(&table);
    uint8_t expected[REF_COLUMNS] = {0, 0, 1, 2, 1};
    uint8_t byte = 9;
    static const uint32_t lacking[] = {8, 9, 1u << 23, 1u << 24, 1u << 31,
                                       0xffffffffu};
    size_t i;

    check("classes", classes.number == 0 && classes.count == 3
                         && memcmp(classes.class_of, expected,
                                   sizeof expected) == 0);
    check("unseen", unseen.number == 0 && unseen.faults == 1);
    aside("aside", &table, REF_DIAGNOSE, 4);
    essential("essential", &table, REF_DIAGNOSE, 1);
    both(&table, 0, "", 0, "\xff\xff\xff", 3);
    both(&table, 1, "\0\1\1", 3, "\0\0\xff", 3);
    both(&table, 2, "\5\5\6", 3, "\xff\1\1", 3);
    both(&table, 3, "\0\5\1\5\1\6", 6, "\0\0\1", 3);
    both(&table, 7, "\0\5\11\1\5\11\1\6\11", 9, "\0\0\1", 3);
    for (i = 0; i < sizeof lacking / sizeof lacking[0]; i++) {
        ref_written written = ref_dictionary(&table, lacking[i], &byte, 0);
        check("21", written.number == 21 && written.count == 0);
        written = ref_witness_sheet(&table, lacking[i], &byte, 1);
        check("21", written.number == 21 && written.count == 0 && byte == 9);
        suspects(&table, lacking[i], "", 0, 21, "", 0);
    }
    suspects(&table, 0, "", 0, 0, "\0\1\2\3\4", 5);
    suspects(&table, 0, "\0", 1, 25, "", 0);
    suspects(&table, 1, "", 0, 25, "", 0);
    suspects(&table, 1, "\0", 1, 0, "\0\1", 2);
    suspects(&table, 1, "\1", 1, 0, "\2\3\4", 3);
    suspects(&table, 1, "\2", 1, 0, "", 0);
    suspects(&table, 3, "\1\5", 2, 0, "\2\4", 2);
    suspects(&table, 3, "\5\1", 2, 0, "", 0);
    suspects(&table, 7, "\1\6\11", 3, 0, "\3", 1);
}

/* Lines 1 to 5 of the paper's adder; stuck_line 0 is the healthy card. */
static unsigned gates(unsigned test, unsigned stuck_line, unsigned value)
{
    unsigned x = test >> 2 & 1, y = test >> 1 & 1, carry = test & 1;
    unsigned line[6] = {0};
    unsigned n;
    for (n = 1; n <= 5; n++) {
        switch (n) {
        case 1: line[1] = x ^ y; break;
        case 2: line[2] = x & y; break;
        case 3: line[3] = line[1] ^ carry; break;
        case 4: line[4] = line[1] & carry; break;
        case 5: line[5] = line[2] | line[4]; break;
        }
        if (n == stuck_line)
            line[n] = value;
    }
    return 2 * line[3] + line[5];
}

static void the_full_adder(void)
{
    static const char text[] =
        "tests 8 faults 10 classes 9\n"
        "aside 4 5\n"
        "essential 3\n"
        "detect 0 3 7\n"
        "diagnose 0 3 7\n"
        "class 0 : 0 1 3 : good\n"
        "class 1 : 2 1 1 : 1/1\n"
        "class 2 : 1 1 3 : 2/1 4/1 5/1\n"
        "class 3 : 2 3 3 : 3/1\n"
        "class 4 : 0 2 3 : 1/0\n"
        "class 5 : 0 1 2 : 2/0\n"
        "class 6 : 0 1 1 : 3/0\n"
        "class 7 : 0 0 3 : 4/0\n"
        "class 8 : 0 0 2 : 5/0\n";
    ref_table built = ref_full_adder(), table = ref_empty_table();
    uint8_t book[256];
    size_t length;
    unsigned t, f;
    ref_reading reading;
    ref_text report;

    table.tests = 8;
    table.faults = 10;
    for (t = 0; t < 8; t++)
        table.outputs[0][t] = (uint8_t)gates(t, 0, 0);
    for (f = 0; f < 10; f++) {
        table.labels[f].line = (uint8_t)(f < 5 ? f + 1 : f - 4);
        table.labels[f].stuck = f < 5 ? 1 : 0;
        for (t = 0; t < 8; t++)
            table.outputs[f + 1][t] = (uint8_t)gates(
                t, table.labels[f].line, table.labels[f].stuck);
    }
    check("built in", same_table(&built, &table));
    check("correct", memcmp(table.outputs[0], "\0\2\2\1\2\1\1\3", 8) == 0);
    length = book_of(&table, book);
    check("193 bytes", length == 193);
    reading = ref_read_book(book, length);
    check("read", reading.number == 0 && reading.place == 193
                      && same_table(&reading.table, &table));
    ref_report(book, length, &report);
    check("pick", strcmp(report.text, text) == 0);
    chooses("cap 2", &table, REF_DIAGNOSE, 2, 23, 0);
    chooses("cap 3", &table, REF_DIAGNOSE, 3, 0, 1 | 8 | 128);
    chooses("cap 3", &table, REF_DETECT, 3, 0, 1 | 8 | 128);
}

int main(void)
{
    small_books();
    reader_refusals();
    record_by_record();
    tables();
    calls();
    the_full_adder();
    printf("%u passed, %u failed\n", passed, failed);
    return failed != 0;
}
