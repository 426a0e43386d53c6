/* differential COUNT SEED [CASE]: the archive's calls against the independent
   implementation in reference.c. Each case reads one book; each tenth makes
   every other call too. With CASE only that one is run. */
#include <inttypes.h>
#include <signal.h>
#include <stdio.h>
#include <stdlib.h>
#include <string.h>

#include "reference.h"
#include "tockbronze.h"

/* ------------------------------------------------- seeded random numbers */

static uint64_t random_state;

static uint64_t random_word(void)
{
    uint64_t z = random_state += 0x9E3779B97F4A7C15u;
    z = (z ^ z >> 30) * 0xBF58476D1CE4E5B9u;
    z = (z ^ z >> 27) * 0x94D049BB133111EBu;
    return z ^ z >> 31;
}

static size_t below(size_t bound)
{
    return (size_t)(random_word() % bound);
}

static bool one_in(size_t n)
{
    return below(n) == 0;
}

static void random_bytes(uint8_t *bytes, size_t length)
{
    uint64_t word;
    size_t i;
    for (i = 0; i + 8 <= length; i += 8) {
        word = random_word();
        memcpy(bytes + i, &word, 8);
    }
    word = random_word();
    memcpy(bytes + i, &word, length - i);
}

/* --------------------------------------------------------- what is lent */

enum { GUARD = 32, MOST_LENT = 16384 };

/* Lent memory between guard bytes, and beside it what it has to hold after the
   call. A lent slice of no bytes may be a null pointer. */
typedef struct {
    uint8_t *given;
    size_t length;
    uint8_t held[GUARD + MOST_LENT + GUARD];
    uint8_t wanted[GUARD + MOST_LENT + GUARD];
} lent;

static uint64_t nulls;

static uint8_t *wanted_of(lent *slice)
{
    return slice->wanted + GUARD;
}

static void lend(lent *slice, size_t length)
{
    size_t whole = GUARD + length + GUARD;
    random_bytes(slice->held, whole);
    memcpy(slice->wanted, slice->held, whole);
    slice->length = length;
    slice->given = slice->held + GUARD;
    if (length == 0 && one_in(2)) {
        slice->given = NULL;
        nulls++;
    }
}

static void lend_bytes(lent *slice, const uint8_t *bytes, size_t length)
{
    lend(slice, length);
    if (length != 0) {
        memcpy(slice->held + GUARD, bytes, length);
        memcpy(slice->wanted + GUARD, bytes, length);
    }
}

static bool kept(const lent *slice)
{
    return memcmp(slice->held, slice->wanted, GUARD + slice->length + GUARD) == 0;
}

/* -------------------------------------------------------- the comparison */

enum { READ, CLASSES, UNDETECTABLE, SET_ASIDE, ESSENTIAL, CHOOSE, DICTIONARY,
       WITNESS_SHEET, SUSPECTS, REPORT, CALLS };

static const char *const call_names[CALLS] = {
    "read", "classes", "undetectable", "set_aside", "essential", "choose",
    "dictionary", "witness_sheet", "suspects", "report"
};

/* The numbers that each call may give. */
static const uint8_t call_numbers[CALLS][16] = {
    {0, 1, 2, 3, 4, 5, 6, 7, 8, 9, 10, 11, 12, 24, 255}, {0, 20, 24, 255},
    {0, 20, 24, 255}, {0, 20, 99, 255}, {0, 20, 99, 255},
    {0, 20, 99, 22, 23, 255}, {0, 20, 21, 24, 255}, {0, 20, 21, 24, 255},
    {0, 20, 21, 25, 24, 255}, {0, 24, 255}
};

static uint64_t seed, case_number, passed, failed;
static uint64_t seen[CALLS][256];

static void differs(int call, const char *what)
{
    printf("seed %" PRIu64 " case %" PRIu64 ": %s: %s\n", seed, case_number,
           call_names[call], what);
}

/* The result's number and value, and every byte of up to three slices. */
static void compare(int call, uint64_t result, unsigned number, uint64_t value,
                    const lent *a, const lent *b, const lent *c)
{
    bool good = true;

    if (result != (value << 8 | number)) {
        good = false;
        differs(call, "another number or value");
        printf("  the archive: %u and %" PRIu64 "; the reference: %u and %" PRIu64 "\n",
               TOCKBRONZE_NUMBER(result), TOCKBRONZE_VALUE(result), number, value);
    }
    if (!kept(a) || (b != NULL && !kept(b)) || (c != NULL && !kept(c))) {
        good = false;
        differs(call, "other bytes in lent memory or around it");
    }
    seen[call][number]++;
    if (good)
        passed++;
    else
        failed++;
}

/* A buffer's length for an answer of so many bytes: just enough, too short, or
   longer. */
static size_t room_for(size_t answer)
{
    switch (below(8)) {
    case 0: return below(answer + 1);
    case 1: return answer == 0 ? 0 : answer - 1;
    case 2: return answer + 1;
    case 3: return answer + below(300);
    case 4: return 0;
    default: return answer;
    }
}

/* ------------------------------------------------- the table as it is lent */

static void bytes_of(const ref_table *table, uint8_t bytes[TOCKBRONZE_TABLE_LENGTH])
{
    size_t t, c, f;
    bytes[0] = (uint8_t)table->tests;
    bytes[1] = (uint8_t)table->faults;
    for (t = 0; t < 24; t++)
        for (c = 0; c < 61; c++)
            bytes[2 + 61 * t + c] = table->outputs[c][t];
    for (f = 0; f < 60; f++) {
        bytes[2 + 61 * 24 + f] = table->labels[f].line;
        bytes[2 + 61 * 24 + 60 + f] = table->labels[f].stuck;
    }
}

static ref_table table_of(const uint8_t bytes[TOCKBRONZE_TABLE_LENGTH])
{
    ref_table table = ref_empty_table();
    size_t t, c, f;
    table.tests = bytes[0];
    table.faults = bytes[1];
    for (t = 0; t < 24; t++)
        for (c = 0; c < 61; c++)
            table.outputs[c][t] = bytes[2 + 61 * t + c];
    for (f = 0; f < 60; f++) {
        table.labels[f].line = bytes[2 + 61 * 24 + f];
        table.labels[f].stuck = bytes[2 + 61 * 24 + 60 + f];
    }
    return table;
}

/* ------------------------------------------------------- random tables */

/* Labels that differ: line and stuck value of 512 in a stride. */
static void random_labels(ref_table *table)
{
    size_t f, at = below(512), stride = 2 * below(256) + 1;
    for (f = 0; f < table->faults; f++) {
        table->labels[f].line = (uint8_t)(at >> 1);
        table->labels[f].stuck = at & 1;
        at = (at + stride) % 512;
    }
}

/* 24 tests and 60 faults, every output other than the correct one: the table of
   a longest book. */
static ref_table full_table(void)
{
    ref_table table = ref_empty_table();
    size_t c, t;

    table.tests = 24;
    table.faults = 60;
    random_labels(&table);
    for (t = 0; t < 24; t++) {
        table.outputs[0][t] = (uint8_t)random_word();
        for (c = 1; c <= 60; c++)
            table.outputs[c][t] = (uint8_t)(table.outputs[0][t] + 1 + below(255));
    }
    return table;
}

/* Few tests and faults mostly, one in so many times nearly as many tests as
   there may be. Columns are copied now and then, so that classes have several. */
static ref_table random_table(size_t many)
{
    ref_table table = ref_empty_table();
    size_t values = one_in(4) ? 256 : 1 + below(4);
    size_t rarity = 1 + below(one_in(3) ? 30 : 4);
    size_t c, t;

    if (one_in(200))
        return full_table();
    table.tests = one_in(many) ? 24 - below(3) : below(one_in(2) ? 8 : 16);
    table.faults = one_in(10) ? 60 - below(3) : below(one_in(3) ? 61 : 12);
    random_labels(&table);
    for (t = 0; t < table.tests; t++)
        table.outputs[0][t] = (uint8_t)below(values);
    for (c = 1; c <= table.faults; c++) {
        size_t from = one_in(5) ? below(c) : 0;
        for (t = 0; t < table.tests; t++)
            table.outputs[c][t] = one_in(rarity) ? (uint8_t)below(values + 1)
                                                 : table.outputs[from][t];
    }
    return table;
}

/* ---------------------------------------------- random and damaged books */

enum { MOST_RECORDS = 1600, MOST_BOOK = 4 * MOST_RECORDS + 64 };

typedef struct {
    uint8_t length;
    uint8_t bytes[4];
} record;

typedef struct {
    size_t count;
    record records[MOST_RECORDS];
} records;

static void add(records *book, size_t length, size_t kind, size_t a, size_t b, size_t c)
{
    record *r = &book->records[book->count++];
    r->length = (uint8_t)length;
    r->bytes[0] = (uint8_t)kind;
    r->bytes[1] = (uint8_t)a;
    r->bytes[2] = (uint8_t)b;
    r->bytes[3] = (uint8_t)c;
}

static void records_of(const ref_table *table, records *book)
{
    size_t t, f;
    book->count = 0;
    for (t = 0; t < table->tests; t++)
        add(book, 2, 0x54, table->outputs[0][t], 0, 0);
    for (f = 0; f < table->faults; f++)
        add(book, 3, 0x46, table->labels[f].line, table->labels[f].stuck, 0);
    for (f = 0; f < table->faults; f++)
        for (t = 0; t < table->tests; t++)
            if (table->outputs[f + 1][t] != table->outputs[0][t])
                add(book, 4, 0x52, t, f, table->outputs[f + 1][t]);
    add(book, 3, 0x45, table->tests, table->faults, 0);
}

static void insert(records *book, size_t at, record new_one)
{
    memmove(&book->records[at + 1], &book->records[at], (book->count - at) * sizeof new_one);
    book->records[at] = new_one;
    book->count++;
}

/* One record changed, taken out, repeated, exchanged with another or added. */
static void damage_records(const ref_table *table, records *book)
{
    static const uint8_t kinds[4] = {0x54, 0x46, 0x52, 0x45};
    size_t at = below(book->count), other = below(book->count), i;
    record *r = &book->records[at], copy = *r;

    switch (below(8)) {
    case 0:
        r->bytes[1 + below(r->length - 1)] = (uint8_t)below(one_in(2) ? 256 : 4);
        break;
    case 1:
        i = 1 + below(r->length - 1);
        r->bytes[i] = (uint8_t)(r->bytes[i] + (one_in(2) ? 1 : 255));
        break;
    case 2:
        memmove(r, r + 1, (book->count - at - 1) * sizeof *r);
        book->count--;
        break;
    case 3:
        insert(book, at, copy);
        break;
    case 4:
        *r = book->records[other];
        book->records[other] = copy;
        break;
    case 5:
        insert(book, other, copy);
        break;
    case 6: /* one that repeats the correct output, or names what is not there */
        if (r->bytes[0] == 0x52 && one_in(2))
            r->bytes[3] = table->outputs[0][r->bytes[1]];
        else if (r->bytes[0] == 0x52)
            r->bytes[1 + below(2)] = (uint8_t)(one_in(2) ? table->tests : table->faults);
        else
            insert(book, at, copy);
        break;
    default:
        i = below(4);
        copy.length = (uint8_t)(i == 0 ? 2 : i == 2 ? 4 : 3);
        copy.bytes[0] = kinds[i];
        copy.bytes[1] = (uint8_t)below(one_in(3) ? 256 : 8);
        copy.bytes[2] = (uint8_t)below(one_in(3) ? 256 : 2);
        copy.bytes[3] = (uint8_t)below(256);
        insert(book, at, copy);
    }
}

/* Bytes changed, cut off, taken out or added. */
static size_t damage_bytes(uint8_t *bytes, size_t length)
{
    size_t at = below(length + 1), count = 1 + below(4);

    switch (below(4)) {
    case 0:
        if (at < length)
            bytes[at] = (uint8_t)random_word();
        return length;
    case 1:
        return at;
    case 2:
        if (at + count > length)
            return length;
        memmove(bytes + at, bytes + at + count, length - at - count);
        return length - count;
    default:
        at = one_in(2) ? length : at;
        memmove(bytes + at + count, bytes + at, length - at);
        random_bytes(bytes + at, count);
        return length + count;
    }
}

/* Bytes that look like records for a while. */
static size_t random_book(uint8_t *bytes)
{
    static const uint8_t likely[8] = {0x54, 0x46, 0x52, 0x45, 0, 1, 2, 0x54};
    size_t length = below(40), i;
    for (i = 0; i < length; i++)
        bytes[i] = one_in(8) ? (uint8_t)random_word() : likely[below(8)];
    return length;
}

static size_t some_book(size_t many, uint8_t bytes[MOST_BOOK])
{
    static records book;
    ref_table table;
    size_t i, length = 0, damages = one_in(2) ? 1 + below(2) : 0;

    if (one_in(20))
        return random_book(bytes);
    table = random_table(many);
    records_of(&table, &book);
    for (i = 0; i < damages && book.count != 0; i++)
        damage_records(&table, &book);
    for (i = 0; i < book.count; i++) {
        memcpy(bytes + length, book.records[i].bytes, book.records[i].length);
        length += book.records[i].length;
    }
    return one_in(4) ? damage_bytes(bytes, length) : length;
}

/* --------------------------------------------------- hand-spoiled tables */

/* A table as it is lent: mostly well formed, otherwise one thing is wrong with
   it, or may be. Its length is given. */
static size_t some_table(uint8_t bytes[TOCKBRONZE_TABLE_LENGTH + 64])
{
    ref_table table = random_table(40);
    size_t faults = (size_t)table.faults;

    bytes_of(&table, bytes);
    switch (below(32)) {
    case 0: bytes[0] = (uint8_t)below(one_in(2) ? 256 : 27); break;
    case 1: bytes[1] = (uint8_t)below(one_in(2) ? 256 : 63); break;
    case 2: bytes[2 + below(1464)] = (uint8_t)below(3); break;
    case 3: bytes[1466 + below(60)] = (uint8_t)below(3); break;
    case 4: bytes[1526 + below(60)] = (uint8_t)below(3); break;
    case 5:
        if (faults > 1) {
            size_t f = below(faults), g = below(faults);
            bytes[1466 + f] = bytes[1466 + g];
            bytes[1526 + f] = bytes[1526 + g];
        }
        break;
    case 6:
        random_bytes(bytes + TOCKBRONZE_TABLE_LENGTH, 64);
        return one_in(2) ? below(TOCKBRONZE_TABLE_LENGTH) : TOCKBRONZE_TABLE_LENGTH + 1 + below(63);
    case 7: return one_in(2) ? 0 : TOCKBRONZE_TABLE_LENGTH - 1;
    case 8: random_bytes(bytes, TOCKBRONZE_TABLE_LENGTH); break;
    case 9: bytes[below(TOCKBRONZE_TABLE_LENGTH)] ^= (uint8_t)(1 << below(8)); break;
    }
    return TOCKBRONZE_TABLE_LENGTH;
}

/* ------------------------------------------------------------- the calls */

static lent book_lent, table_lent, outputs_lent, answer_lent;

static void read_case(size_t many)
{
    static uint8_t book[MOST_BOOK];
    size_t length = some_book(many, book);
    ref_reading reading = ref_read_book(book, length);
    unsigned number = (unsigned)reading.number;
    uint64_t value = reading.place;

    lend_bytes(&book_lent, book, length);
    lend(&answer_lent, room_for(TOCKBRONZE_TABLE_LENGTH));
    if (number == 0 && answer_lent.length < TOCKBRONZE_TABLE_LENGTH) {
        number = 24;
        value = 0;
    }
    if (number == 0)
        bytes_of(&reading.table, wanted_of(&answer_lent));
    compare(READ,
            tockbronze_read(book_lent.given, length, answer_lent.given, answer_lent.length),
            number, value, &book_lent, &answer_lent, NULL);
}

static void report_case(void)
{
    static uint8_t book[MOST_BOOK];
    static ref_text text;
    size_t length = some_book(40, book);
    unsigned number = 0;

    ref_report(book, length, &text);
    lend_bytes(&book_lent, book, length);
    lend(&answer_lent, room_for(text.length));
    if (answer_lent.length < text.length)
        number = 24;
    else
        memcpy(wanted_of(&answer_lent), text.text, text.length);
    compare(REPORT,
            tockbronze_report(book_lent.given, length, answer_lent.given, answer_lent.length),
            number, number == 0 ? text.length : 0, &book_lent, &answer_lent, NULL);
}

/* 20 for the lent table, or 0 and the table. */
static unsigned lend_table(ref_table *table)
{
    static uint8_t bytes[TOCKBRONZE_TABLE_LENGTH + 64];
    size_t length = some_table(bytes);

    lend_bytes(&table_lent, bytes, length);
    if (length != TOCKBRONZE_TABLE_LENGTH)
        return 20;
    *table = table_of(bytes);
    return ref_well_formed(table) ? 0 : 20;
}

static void lend_answer(unsigned *number, size_t answer)
{
    lend(&answer_lent, room_for(*number == 0 ? answer : below(100)));
    if (*number == 0 && answer_lent.length < answer)
        *number = 24;
}

static void classes_case(void)
{
    ref_table table;
    ref_classes classes;
    unsigned number = lend_table(&table);
    uint64_t value = 0;

    lend_answer(&number, number == 0 ? (size_t)table.faults + 1 : 0);
    if (number == 0) {
        classes = ref_classify(&table);
        value = classes.count;
        memcpy(wanted_of(&answer_lent), classes.class_of, (size_t)table.faults + 1);
    }
    compare(CLASSES,
            tockbronze_classes(table_lent.given, table_lent.length, answer_lent.given, answer_lent.length),
            number, value, &table_lent, &answer_lent, NULL);
}

static void undetectable_case(void)
{
    ref_table table;
    unsigned number = lend_table(&table);
    uint64_t value = 0;
    size_t f;

    lend_answer(&number, number == 0 ? (size_t)table.faults : 0);
    if (number == 0) {
        uint64_t faults = ref_undetectable(&table).faults;
        for (f = 0; f < table.faults; f++) {
            wanted_of(&answer_lent)[f] = faults >> f & 1;
            value += faults >> f & 1;
        }
    }
    compare(UNDETECTABLE,
            tockbronze_undetectable(table_lent.given, table_lent.length, answer_lent.given,
                                    answer_lent.length),
            number, value, &table_lent, &answer_lent, NULL);
}

static uint64_t some_goal(void)
{
    switch (below(16)) {
    case 0: return 2;
    case 1: return random_word();
    case 2: return (uint64_t)1 << 32 | below(2);
    case 3: return 256 + below(2);
    default: return below(2);
    }
}

static uint64_t some_cap(void)
{
    switch (below(16)) {
    case 0: return 25;
    case 1: return random_word();
    case 2: return (uint64_t)1 << 32 | below(25);
    case 3: return 256 + below(25);
    case 4: case 5: case 6: case 7: return below(4);
    case 8: case 9: return below(25);
    default: return 24;
    }
}

static void goal_case(int call)
{
    ref_table table;
    ref_test_set set = {0, 0};
    unsigned number = lend_table(&table);
    uint64_t goal = some_goal(), cap = some_cap(), result;
    const uint8_t *given = table_lent.given;
    size_t length = table_lent.length;

    if (number == 0 && goal > 1)
        number = 99;
    if (call == SET_ASIDE) {
        if (number == 0)
            set = ref_set_aside(&table, (ref_goal)goal);
        result = tockbronze_set_aside(given, length, goal);
    } else if (call == ESSENTIAL) {
        if (number == 0)
            set = ref_essential(&table, (ref_goal)goal);
        result = tockbronze_essential(given, length, goal);
    } else {
        if (number == 0)
            set = ref_choose(&table, (ref_goal)goal, cap);
        result = tockbronze_choose(given, length, goal, cap);
    }
    if (number == 0)
        number = (unsigned)set.number;
    compare(call, result, number, set.tests, &table_lent, NULL, NULL);
}

/* A set of the table's tests mostly. */
static uint32_t some_set(const ref_table *table, bool good)
{
    uint32_t all = good ? ((uint32_t)1 << table->tests) - 1 : 0xFFFFFF;
    uint32_t set = (uint32_t)random_word();
    if (one_in(4))
        set &= (uint32_t)random_word();
    if (one_in(12))
        return set;
    if (one_in(12))
        return (set & all) | (uint32_t)1 << below(32);
    return one_in(6) ? all : one_in(6) ? 0 : set & all;
}

static void written_case(int call)
{
    static uint8_t most[REF_MAX_SHEET];
    ref_table table;
    ref_written written = {0, 0};
    unsigned number = lend_table(&table);
    bool good = number == 0;
    uint32_t set = some_set(&table, good);
    uint64_t result;

    if (good) {
        written = call == DICTIONARY ? ref_dictionary(&table, set, most, sizeof most)
                                     : ref_witness_sheet(&table, set, most, sizeof most);
        number = (unsigned)written.number;
    }
    lend_answer(&number, written.count);
    if (good && call == DICTIONARY)
        written = ref_dictionary(&table, set, wanted_of(&answer_lent), answer_lent.length);
    else if (good)
        written = ref_witness_sheet(&table, set, wanted_of(&answer_lent), answer_lent.length);
    result = call == DICTIONARY
        ? tockbronze_dictionary(table_lent.given, table_lent.length, set, answer_lent.given,
                                answer_lent.length)
        : tockbronze_witness_sheet(table_lent.given, table_lent.length, set, answer_lent.given,
                                   answer_lent.length);
    compare(call, result, good ? (unsigned)written.number : number, written.count, &table_lent,
            &answer_lent, NULL);
}

/* The outputs of some column mostly, sometimes one changed, or one too many or
   too few. */
static size_t some_outputs(const ref_table *table, bool good, uint32_t set, uint8_t outputs[40])
{
    size_t column = good ? below((size_t)table->faults + 1) : 0;
    size_t length = 0, t;

    random_bytes(outputs, 40);
    for (t = 0; t < 32; t++)
        if (set >> t & 1)
            outputs[length++] = good && t < table->tests ? table->outputs[column][t] : 0;
    if (length != 0 && one_in(8))
        outputs[below(length)] ^= (uint8_t)(1 + below(3));
    if (one_in(10))
        return one_in(2) ? length + 1 : below(40);
    return length != 0 && one_in(20) ? length - 1 : length;
}

static void suspects_case(void)
{
    uint8_t outputs[40];
    ref_table table;
    ref_suspects suspects;
    unsigned number = lend_table(&table);
    uint32_t set = some_set(&table, number == 0);
    size_t length = some_outputs(&table, number == 0, set, outputs);

    memset(&suspects, 0, sizeof suspects);
    lend_bytes(&outputs_lent, outputs, length);
    if (number == 0) {
        suspects = ref_suspects_of(&table, set, outputs, length);
        number = (unsigned)suspects.number;
    }
    lend_answer(&number, suspects.count);
    if (number == 0)
        memcpy(wanted_of(&answer_lent), suspects.columns, suspects.count);
    compare(SUSPECTS,
            tockbronze_suspects(table_lent.given, table_lent.length, set, outputs_lent.given, length,
                                answer_lent.given, answer_lent.length),
            number, number == 0 ? suspects.count : 0, &table_lent, &outputs_lent, &answer_lent);
}

static void run_case(void)
{
    random_state = seed * 0xD1342543DE82EF95u + case_number;
    random_state = random_word();
    read_case(10);
    if (case_number % 10 != 0)
        return;
    classes_case();
    undetectable_case();
    goal_case(SET_ASIDE);
    goal_case(ESSENTIAL);
    goal_case(CHOOSE);
    written_case(DICTIONARY);
    written_case(WITNESS_SHEET);
    suspects_case();
    report_case();
}

/* Each number that a call may give has to come up in a long run. */
static void print_numbers(bool demand)
{
    int call, i;
    for (call = 0; call < CALLS; call++) {
        printf("%s:", call_names[call]);
        for (i = 0; call_numbers[call][i] != 255; i++) {
            unsigned number = call_numbers[call][i];
            printf(" %u %" PRIu64 " times%s", number, seen[call][number],
                   call_numbers[call][i + 1] == 255 ? "\n" : ",");
            if (demand && seen[call][number] == 0) {
                failed++;
                printf("seed %" PRIu64 ": no case of %s gave %u\n", seed, call_names[call], number);
            }
        }
    }
}

static void crashed(int number)
{
    printf("seed %" PRIu64 " case %" PRIu64 ": ended by signal %d\n", seed, case_number, number);
    printf("%" PRIu64 " passed, %" PRIu64 " failed\n", passed, failed + 1);
    fflush(stdout);
    _Exit(1);
}

int main(int argc, char **argv)
{
    uint64_t count;

    if (argc < 3 || argc > 4) {
        fprintf(stderr, "usage: differential COUNT SEED [CASE]\n");
        return 2;
    }
    signal(SIGSEGV, crashed);
    signal(SIGBUS, crashed);
    signal(SIGILL, crashed);
    signal(SIGABRT, crashed);
    count = strtoull(argv[1], NULL, 10);
    seed = strtoull(argv[2], NULL, 10);
    if (argc == 4) {
        case_number = strtoull(argv[3], NULL, 10);
        run_case();
    } else {
        for (case_number = 0; case_number < count; case_number++)
            run_case();
        print_numbers(count >= 20000);
        printf("null pointers with length 0: %" PRIu64 "\n", nulls);
    }
    printf("%" PRIu64 " passed, %" PRIu64 " failed\n", passed, failed);
    return failed != 0;
}
