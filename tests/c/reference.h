/* The required selection of test vectors and its rules, done plainly in C99.
   Quoted sentences are those of the paper 01-scope.md. */
#ifndef REFERENCE_H
#define REFERENCE_H

#include <stdbool.h>
#include <stddef.h>
#include <stdint.h>

enum {
    REF_MAX_TESTS = 24,
    REF_MAX_FAULTS = 60,
    REF_COLUMNS = 61,       /* the healthy card and the faults */
    REF_LONGEST_BOOK = 5991,
    REF_MAX_DICTIONARY = 61 * 24,
    REF_MAX_SHEET = 61 * 60 / 2
};

typedef struct {
    uint8_t line;
    uint8_t stuck;
} ref_label;

/* "A column is the healthy card (column 0) or fault f (column f + 1)."
   outputs[c][t] is what column c gives under test t. */
typedef struct {
    uint64_t tests;
    uint64_t faults;
    ref_label labels[REF_MAX_FAULTS];
    uint8_t outputs[REF_COLUMNS][REF_MAX_TESTS];
} ref_table;

ref_table ref_empty_table(void);
bool ref_well_formed(const ref_table *table);

/* The whole book. */
typedef struct {
    int number;
    size_t place;
    ref_table table;
} ref_reading;

ref_reading ref_read_book(const uint8_t *book, size_t length);

/* Record by record. */
typedef enum {
    REF_TESTS = 0,      /* nothing yet, or only tests */
    REF_FAULTS = 1,     /* the last record was a fault */
    REF_RESPONSES = 2,  /* the last record was a response: last_* name it */
    REF_ENDED = 3       /* the last record was the end */
} ref_stage;

typedef struct {
    ref_table table;
    ref_stage stage;
    uint64_t last_fault;    /* only looked at for REF_RESPONSES, else given 0 */
    uint64_t last_test;
} ref_so_far;

typedef enum { REF_RECORD = 0, REF_ACCEPTED = 1, REF_REFUSED = 2 } ref_outcome;

typedef struct {
    ref_outcome outcome;
    int number;             /* 0 unless refused */
    uint8_t kind;           /* kind and body are 0 unless a record */
    size_t body_length;
    uint8_t body[3];
    size_t place;
    ref_so_far so_far;
} ref_record;

ref_so_far ref_begin(void);
bool ref_some_start_gives(const ref_so_far *so_far);
ref_record ref_read_record(const uint8_t *book, size_t length, size_t place,
                           const ref_so_far *so_far);

/* Terms, choice.  A set has bit t for test t; a set of faults bit f for f. */
typedef enum { REF_DETECT = 0, REF_DIAGNOSE = 1 } ref_goal;

typedef struct {
    int number;
    size_t count;
    uint8_t class_of[REF_COLUMNS];  /* 0 past the table's columns */
} ref_classes;

typedef struct {
    int number;
    uint64_t faults;
} ref_fault_set;

typedef struct {
    int number;
    uint32_t tests;
} ref_test_set;

ref_classes ref_classify(const ref_table *table);
ref_fault_set ref_undetectable(const ref_table *table);
ref_test_set ref_set_aside(const ref_table *table, ref_goal goal);
ref_test_set ref_essential(const ref_table *table, ref_goal goal);
ref_test_set ref_choose(const ref_table *table, ref_goal goal, uint64_t cap);

/* Dictionary, witness sheet, suspects. */
typedef struct {
    int number;
    size_t count;
} ref_written;

typedef struct {
    int number;
    size_t count;
    uint8_t columns[REF_COLUMNS];   /* 0 past the count */
} ref_suspects;

ref_written ref_dictionary(const ref_table *table, uint32_t set,
                           uint8_t *buffer, size_t length);
ref_written ref_witness_sheet(const ref_table *table, uint32_t set,
                              uint8_t *buffer, size_t length);
ref_suspects ref_suspects_of(const ref_table *table, uint32_t set,
                             const uint8_t *outputs, size_t length);

/* "The full adder's 36 responses are built in as a constant table" */
ref_table ref_full_adder(void);

/* What the program pick prints for a book, with a zero after it. */
typedef struct {
    size_t length;
    char text[16384];
} ref_text;

void ref_report(const uint8_t *book, size_t length, ref_text *out);

#endif
