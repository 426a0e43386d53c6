/* bench BOOK..: medians of repeated runs, the archive beside the independent
   implementation of tests/c, and for the choices beside the quick search. The
   books are those for the choices. */
#define _POSIX_C_SOURCE 199309L
#include <stdio.h>
#include <stdlib.h>
#include <string.h>
#include <time.h>

#include "quick.h"
#include "reference.h"
#include "tockbronze.h"

enum { RUNS = 15, MOST_BOOK = TOCKBRONZE_LONGEST_BOOK + 1 };

/* What is measured, in both forms. */
static uint8_t book[MOST_BOOK], bytes[TOCKBRONZE_TABLE_LENGTH];
static size_t length;
static ref_table table;
static uint8_t buffer[TOCKBRONZE_MOST_REPORT], other[TOCKBRONZE_MOST_REPORT];
static const uint32_t every_test = 0xFFFFFF;

typedef uint64_t (*measured)(void);

static uint64_t our_read(void)
{
    return tockbronze_read(book, length, buffer, sizeof buffer);
}

static uint64_t their_read(void)
{
    static ref_reading reading;
    reading = ref_read_book(book, length);
    return (uint64_t)reading.place << 8 | (uint64_t)reading.number;
}

static uint64_t our_classes(void)
{
    return tockbronze_classes(bytes, sizeof bytes, buffer, sizeof buffer);
}

static uint64_t their_classes(void)
{
    ref_classes classes = ref_classify(&table);
    memcpy(other, classes.class_of, (size_t)table.faults + 1);
    return (uint64_t)classes.count << 8 | (uint64_t)classes.number;
}

static uint64_t our_detect(void)
{
    return tockbronze_choose(bytes, sizeof bytes, TOCKBRONZE_DETECT, 24);
}

static uint64_t their_detect(void)
{
    ref_test_set set = ref_choose(&table, REF_DETECT, 24);
    return (uint64_t)set.tests << 8 | (uint64_t)set.number;
}

static uint64_t our_diagnose(void)
{
    return tockbronze_choose(bytes, sizeof bytes, TOCKBRONZE_DIAGNOSE, 24);
}

static uint64_t their_diagnose(void)
{
    ref_test_set set = ref_choose(&table, REF_DIAGNOSE, 24);
    return (uint64_t)set.tests << 8 | (uint64_t)set.number;
}

static uint64_t quick_detect(void)
{
    return (uint64_t)quick_choose(&table, REF_DETECT) << 8;
}

static uint64_t quick_diagnose(void)
{
    return (uint64_t)quick_choose(&table, REF_DIAGNOSE) << 8;
}

static uint64_t our_dictionary(void)
{
    return tockbronze_dictionary(bytes, sizeof bytes, every_test, buffer, sizeof buffer);
}

static uint64_t their_dictionary(void)
{
    ref_written written = ref_dictionary(&table, every_test, other, sizeof other);
    return (uint64_t)written.count << 8 | (uint64_t)written.number;
}

static uint64_t our_report(void)
{
    return tockbronze_report(book, length, buffer, sizeof buffer);
}

static uint64_t their_report(void)
{
    static ref_text text;
    ref_report(book, length, &text);
    memcpy(other, text.text, text.length);
    return (uint64_t)text.length << 8;
}

/* ------------------------------------------------------------- the clock */

static double seconds_of(measured call, size_t times)
{
    struct timespec from, to;
    volatile uint64_t result;
    size_t i;

    clock_gettime(CLOCK_PROCESS_CPUTIME_ID, &from);
    for (i = 0; i < times; i++)
        result = call();
    clock_gettime(CLOCK_PROCESS_CPUTIME_ID, &to);
    (void)result;
    return (double)(to.tv_sec - from.tv_sec) + 1e-9 * (double)(to.tv_nsec - from.tv_nsec);
}

static int by_size(const void *a, const void *b)
{
    double x = *(const double *)a, y = *(const double *)b;
    return (x > y) - (x < y);
}

/* How many calls take some 5 milliseconds. */
static size_t times_of(measured call)
{
    size_t times = 1;

    while (times < 1000000 && seconds_of(call, times) < 0.005)
        times *= 2;
    return times;
}

/* Microseconds of one call of each, the medians of runs that take turns: what
   else the machine does then hits all alike. */
static void medians(const measured *calls, size_t n, double *result)
{
    double run[3][RUNS];
    size_t times[3], i, k;

    for (k = 0; k < n; k++)
        times[k] = times_of(calls[k]);
    for (i = 0; i < RUNS; i++)
        for (k = 0; k < n; k++)
            run[k][i] = 1e6 * seconds_of(calls[k], times[k]) / (double)times[k];
    for (k = 0; k < n; k++) {
        qsort(run[k], RUNS, sizeof run[k][0], by_size);
        result[k] = run[k][RUNS / 2];
    }
}

/* `quick` is null where there is no third side. */
static void line(const char *what, const char *name, measured ours, measured theirs, measured quick, bool written)
{
    measured calls[3];
    double us[3];
    uint64_t result;

    calls[0] = ours;
    calls[1] = theirs;
    calls[2] = quick;
    memset(buffer, 0, sizeof buffer);
    memset(other, 0, sizeof other);
    result = theirs();
    if (ours() != result || (written && memcmp(buffer, other, sizeof buffer) != 0)
        || (quick != NULL && quick() != result)) {
        fprintf(stderr, "bench: %s, %s: the answers differ\n", what, name);
        exit(1);
    }
    medians(calls, quick == NULL ? 2 : 3, us);
    printf("| %s | %s | %.2f | %.2f | %.2g |", what, name, us[0], us[1], us[0] / us[1]);
    if (quick == NULL)
        printf(" | |\n");
    else
        printf(" %.2f | %.2g |\n", us[2], us[0] / us[2]);
    fflush(stdout);
}

/* ------------------------------------------------------------- the books */

/* The longest book: each fault answers each test with another output. */
static void longest_book(void)
{
    size_t t, f;

    length = 0;
    for (t = 0; t < 24; t++) {
        book[length++] = 0x54;
        book[length++] = 0;
    }
    for (f = 0; f < 60; f++) {
        book[length++] = 0x46;
        book[length++] = (uint8_t)f;
        book[length++] = 0;
    }
    for (f = 0; f < 60; f++)
        for (t = 0; t < 24; t++) {
            book[length++] = 0x52;
            book[length++] = (uint8_t)t;
            book[length++] = (uint8_t)f;
            book[length++] = (uint8_t)(f + 1);
        }
    book[length++] = 0x45;
    book[length++] = 24;
    book[length++] = 60;
}

static void take_book(const char *name)
{
    ref_reading reading = ref_read_book(book, length);
    uint64_t result = tockbronze_read(book, length, bytes, sizeof bytes);

    if (reading.number != 0 || TOCKBRONZE_NUMBER(result) != 0) {
        fprintf(stderr, "bench: %s is not an accepted book\n", name);
        exit(1);
    }
    table = reading.table;
}

static const char *load_book(const char *path)
{
    FILE *file = fopen(path, "rb");
    const char *name = strrchr(path, '/');

    if (file == NULL) {
        fprintf(stderr, "bench: %s could not be read\n", path);
        exit(2);
    }
    length = fread(book, 1, sizeof book, file);
    fclose(file);
    take_book(path);
    return name == NULL ? path : name + 1;
}

int main(int argc, char **argv)
{
    int i;

    printf("| What | Book | Tockbronze, microseconds | C, microseconds | Ratio | Quick C, microseconds | Ratio |\n|---|---|---|---|---|---|---|\n");
    longest_book();
    take_book("the longest book");
    line("reading", "the longest book", our_read, their_read, NULL, false);
    for (i = 1; i < argc; i++) {
        const char *name = load_book(argv[i]);
        line("classes", name, our_classes, their_classes, NULL, true);
        line("choice, detect", name, our_detect, their_detect, quick_detect, false);
        line("choice, diagnose", name, our_diagnose, their_diagnose, quick_diagnose, false);
        line("dictionary, all tests", name, our_dictionary, their_dictionary, NULL, true);
        line("report", name, our_report, their_report, NULL, true);
    }
    return 0;
}
