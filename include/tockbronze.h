/* Tockbronze for C and C++: the fewest tests for a small card of gates, and the
   suspects when a card fails.

   The functions are proved, for every input, to answer as is said here. Link
   target/staticlib/libtockbronze.a, which examples/c/build proves and makes
   (x86-64).

   A slice is passed as a pointer and its length in bytes. The pointer may be
   null where the length is 0. Lent memory must not overlap, and each slice must
   have the length that is given. Nothing is kept between calls and nothing is
   allocated, so calls in several threads need no lock.

   A result is one number: TOCKBRONZE_NUMBER gives the refusal number, 0 where
   the call is accepted, and TOCKBRONZE_VALUE the value. A refused call has the
   value 0 (but for the place where reading stopped) and leaves every buffer as
   it was. An accepted call writes its answer at the start of the buffer, and the
   bytes past the answer stay as they were. The refusals of a call are tested in
   the order in which they are listed with it. */
#ifndef TOCKBRONZE_H
#define TOCKBRONZE_H

#include <stddef.h>
#include <stdint.h>

#ifdef __cplusplus
extern "C" {
#endif

#define TOCKBRONZE_NUMBER(result) ((unsigned)((result) & 255u))
#define TOCKBRONZE_VALUE(result) ((uint64_t)(result) >> 8)

/* A table is 1,586 bytes. Column 0 is the healthy card, column f + 1 is fault f;
   tests and faults are numbered from 0.

     table[0]                              number of tests, at most 24
     table[1]                              number of faults, at most 60
     table[TOCKBRONZE_CELLS + 61 * t + c]  output of column c under test t
     table[TOCKBRONZE_LINES + f]           line of fault f
     table[TOCKBRONZE_STUCK + f]           stuck value of fault f, 0 or 1

   No two faults have the same line and stuck value, and what is not in use is
   zero. tockbronze_read gives such tables, and every call refuses any other with
   TOCKBRONZE_BAD_TABLE. */
#define TOCKBRONZE_TABLE_LENGTH 1586
#define TOCKBRONZE_CELLS 2
#define TOCKBRONZE_LINES 1466
#define TOCKBRONZE_STUCK 1526

/* Lengths that hold every answer. */
#define TOCKBRONZE_MOST_COLUMNS 61
#define TOCKBRONZE_MOST_FAULTS 60
#define TOCKBRONZE_MOST_DICTIONARY 1464
#define TOCKBRONZE_MOST_WITNESS_SHEET 1830
#define TOCKBRONZE_MOST_REPORT 7364

/* The longest book that is accepted. */
#define TOCKBRONZE_LONGEST_BOOK 5991

/* The goals: separate column 0 from each fault, or every two columns; always
   only those that some test of the table separates. */
#define TOCKBRONZE_DETECT 0
#define TOCKBRONZE_DIAGNOSE 1

/* Refusal numbers of a book. */
#define TOCKBRONZE_BAD_KIND 1        /* a kind byte other than 54, 46, 52, 45 hex */
#define TOCKBRONZE_CUT_SHORT 2       /* the body is cut short */
#define TOCKBRONZE_NO_END 3          /* the book stops with no end record */
#define TOCKBRONZE_OUT_OF_PLACE 4    /* a test after a fault or response, or a fault after a response */
#define TOCKBRONZE_TOO_MANY 5        /* a 25th test or a 61st fault */
#define TOCKBRONZE_BAD_STUCK 6       /* stuck value above 1 */
#define TOCKBRONZE_REPEATED_FAULT 7  /* same line and value as an earlier fault */
#define TOCKBRONZE_UNKNOWN 8         /* a response names a test or fault that the book lacks */
#define TOCKBRONZE_NOT_RISING 9      /* a response is not after the one before it */
#define TOCKBRONZE_NO_DIFFERENCE 10  /* a response repeats the correct output */
#define TOCKBRONZE_BAD_COUNTS 11     /* the end's counts are not those read */
#define TOCKBRONZE_AFTER_END 12      /* a byte follows the end */

/* Refusal numbers of a call. */
#define TOCKBRONZE_BAD_TABLE 20      /* the table is not well formed, or its length is not 1,586 */
#define TOCKBRONZE_BAD_SET 21        /* the set holds a test that the table lacks */
#define TOCKBRONZE_BAD_CAP 22        /* a cap above 24 */
#define TOCKBRONZE_NO_SET 23         /* no set within the cap reaches the goal */
#define TOCKBRONZE_SHORT_BUFFER 24   /* the lent buffer is shorter than the answer */
#define TOCKBRONZE_BAD_OUTPUTS 25    /* the observed outputs are not one for each test of the set */
#define TOCKBRONZE_BAD_GOAL 99       /* a goal other than 0 and 1 */

/* Reads a fault book into a table.
   Needs: the whole book, and room for a table.
   Gives: the book's length; the table in the first 1,586 bytes of `table`.
   Refuses: 1 to 12, where the value is the place of the first byte of the record
   that is wrong (for 3 the book's length, for 12 the place of the byte after the
   end record); then 24 where `table` is shorter than 1,586. */
uint64_t tockbronze_read(const uint8_t *book, size_t book_length,
                         uint8_t *table, size_t table_length);

/* Sorts the columns into classes: columns that no test separates are in one
   class. Classes are numbered from 0 by their lowest column.
   Needs: a table, and room for a byte for each column, faults + 1.
   Gives: the number of classes; of[c] is the class of column c.
   Refuses: 20, 24. */
uint64_t tockbronze_classes(const uint8_t *table, size_t table_length,
                            uint8_t *of, size_t of_length);

/* Says which faults no test separates from the healthy card.
   Needs: a table, and room for a byte for each fault.
   Gives: how many are undetectable; faults[f] is 1 where fault f is, otherwise 0.
   Refuses: 20, 24. */
uint64_t tockbronze_undetectable(const uint8_t *table, size_t table_length,
                                 uint8_t *faults, size_t faults_length);

/* The tests that are set aside for a goal: those that separate no goal pair, or
   only such as one lower-numbered test separates too.
   Needs: a table and a goal.
   Gives: the set, bit t for test t.
   Refuses: 20, 99. */
uint64_t tockbronze_set_aside(const uint8_t *table, size_t table_length,
                              uint64_t goal);

/* The essential tests of a goal: a test that is not set aside is essential when
   some fault differs from the healthy card under it and under no other such test.
   Needs: a table and a goal.
   Gives: the set, bit t for test t.
   Refuses: 20, 99. */
uint64_t tockbronze_essential(const uint8_t *table, size_t table_length,
                              uint64_t goal);

/* Chooses a smallest set of tests that separates every goal pair. Of several the
   one is chosen that holds the lowest test number in which they differ.
   Needs: a table, a goal, and a cap: how many tests the set may hold, at most 24.
   Gives: the set, bit t for test t.
   Refuses: 20, 99, 22, 23. */
uint64_t tockbronze_choose(const uint8_t *table, size_t table_length,
                           uint64_t goal, uint64_t cap);

/* Writes the dictionary: for each class in rising number a row, the outputs of
   its columns under the tests of the set in rising test number.
   Needs: a table, a set (bit t for test t), and room for the number of classes
   times the number of tests in the set.
   Gives: the number of bytes written.
   Refuses: 20, 21, 24. */
uint64_t tockbronze_dictionary(const uint8_t *table, size_t table_length,
                               uint32_t set, uint8_t *buf, size_t buf_length);

/* Writes the witness sheet: for each two classes, by the lower and then by the
   higher, the lowest test of the set that separates them, or 255 where none does.
   Needs: a table, a set (bit t for test t), and for k classes room for
   k (k - 1) / 2 bytes.
   Gives: the number of bytes written.
   Refuses: 20, 21, 24. */
uint64_t tockbronze_witness_sheet(const uint8_t *table, size_t table_length,
                                  uint32_t set, uint8_t *buf, size_t buf_length);

/* Names the columns that answer to the tests of the set as was observed.
   Needs: a table, a set (bit t for test t), one output for each test of the set in
   rising test number, and room for a byte for each suspect.
   Gives: the number of suspects, which may be 0; the columns in rising order.
   Refuses: 20, 21, 25, 24. */
uint64_t tockbronze_suspects(const uint8_t *table, size_t table_length,
                             uint32_t set,
                             const uint8_t *outputs, size_t outputs_length,
                             uint8_t *columns, size_t columns_length);

/* Writes what the program pick prints for a book: a refused book too has its
   line, "refused 8 at 0". Each line ends in a newline; no zero byte is written.
   Needs: the whole book, and room for the text.
   Gives: the text's length.
   Refuses: 24. */
uint64_t tockbronze_report(const uint8_t *book, size_t book_length,
                           uint8_t *text, size_t text_length);

#ifdef __cplusplus
}
#endif

#endif
