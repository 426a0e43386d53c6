/* growth BOOK..: how the cost of the choice grows with the number of tests. For
   tables of 6, 12, 18 and 24 tests the nodes that the quick search visits and
   the microseconds of `choose`: random tables, of 100 the one with the most
   nodes, and the given books with their first tests alone. */
#define _POSIX_C_SOURCE 199309L
#include <stdio.h>
#include <stdlib.h>
#include <string.h>
#include <time.h>

#include "quick.h"
#include "reference.h"
#include "tockbronze.h"

enum { RUNS = 15, TABLES = 100, STEP = 6 };

static uint8_t bytes[TOCKBRONZE_TABLE_LENGTH];

/* ------------------------------------------------------------- the clock */

static double seconds_of(ref_goal goal, size_t times)
{
    struct timespec from, to;
    volatile uint64_t result;
    size_t i;

    clock_gettime(CLOCK_PROCESS_CPUTIME_ID, &from);
    for (i = 0; i < times; i++)
        result = tockbronze_choose(bytes, sizeof bytes, (uint64_t)goal, 24);
    clock_gettime(CLOCK_PROCESS_CPUTIME_ID, &to);
    (void)result;
    return (double)(to.tv_sec - from.tv_sec) + 1e-9 * (double)(to.tv_nsec - from.tv_nsec);
}

static int by_size(const void *a, const void *b)
{
    double x = *(const double *)a, y = *(const double *)b;
    return (x > y) - (x < y);
}

/* ------------------------------------------------------------ the tables */

static void lay_table(const ref_table *table)
{
    size_t t, c, f;

    memset(bytes, 0, sizeof bytes);
    bytes[0] = (uint8_t)table->tests;
    bytes[1] = (uint8_t)table->faults;
    for (t = 0; t < table->tests; t++)
        for (c = 0; c <= table->faults; c++)
            bytes[TOCKBRONZE_CELLS + 61 * t + c] = table->outputs[c][t];
    for (f = 0; f < table->faults; f++) {
        bytes[TOCKBRONZE_LINES + f] = table->labels[f].line;
        bytes[TOCKBRONZE_STUCK + f] = table->labels[f].stuck;
    }
}

/* The nodes for the table and the median of the microseconds. */
static void cell(const ref_table *table, ref_goal goal)
{
    double run[RUNS];
    size_t times = 1, i;
    uint32_t set = quick_choose(table, goal);
    uint64_t nodes = quick_nodes();

    lay_table(table);
    if (tockbronze_choose(bytes, sizeof bytes, (uint64_t)goal, 24) != (uint64_t)set << 8) {
        fprintf(stderr, "growth: the two answers differ\n");
        exit(1);
    }
    while (times < 1000000 && seconds_of(goal, times) < 0.005)
        times *= 2;
    for (i = 0; i < RUNS; i++)
        run[i] = 1e6 * seconds_of(goal, times) / (double)times;
    qsort(run, RUNS, sizeof run[0], by_size);
    printf(" %llu, %.1f |", (unsigned long long)nodes, run[RUNS / 2]);
    fflush(stdout);
}

static uint32_t state;

static uint32_t below(uint32_t n)
{
    state ^= state << 13;
    state ^= state >> 17;
    state ^= state << 5;
    return state % n;
}

/* 60 faults, each of which differs from column 0 under `most` random tests. */
static ref_table random_table(uint64_t tests, int most)
{
    ref_table table = ref_empty_table();
    size_t f;
    int k;

    table.tests = tests;
    table.faults = REF_MAX_FAULTS;
    for (f = 0; f < table.faults; f++) {
        table.labels[f].line = (uint8_t)f;
        for (k = 0; k < most;) {
            uint32_t t = below((uint32_t)tests);
            if (table.outputs[f + 1][t] == 0) {
                table.outputs[f + 1][t] = 1;
                k++;
            }
        }
    }
    return table;
}

static ref_table hardest(uint64_t tests, int most, ref_goal goal)
{
    ref_table worst = random_table(tests, most), table;
    uint64_t nodes = 0;
    int i;

    for (i = 0; i < TABLES; i++) {
        table = random_table(tests, most);
        quick_choose(&table, goal);
        if (quick_nodes() > nodes) {
            nodes = quick_nodes();
            worst = table;
        }
    }
    return worst;
}

static void random_line(int most, ref_goal goal)
{
    uint64_t n;

    printf("| random, %d tests a fault, %s |", most, goal == REF_DETECT ? "detect" : "diagnose");
    for (n = STEP; n <= REF_MAX_TESTS; n += STEP) {
        ref_table table = hardest(n, most, goal);
        cell(&table, goal);
    }
    printf("\n");
}

static void book_line(const char *path, ref_goal goal)
{
    static uint8_t book[REF_LONGEST_BOOK + 1];
    const char *name = strrchr(path, '/');
    FILE *file = fopen(path, "rb");
    ref_reading reading;
    uint64_t n;
    size_t c;

    if (file == NULL) {
        fprintf(stderr, "growth: %s could not be read\n", path);
        exit(2);
    }
    reading = ref_read_book(book, fread(book, 1, sizeof book, file));
    fclose(file);
    if (reading.number != 0) {
        fprintf(stderr, "growth: %s is not an accepted book\n", path);
        exit(1);
    }
    printf("| %s, %s |", name == NULL ? path : name + 1, goal == REF_DETECT ? "detect" : "diagnose");
    for (n = STEP; n <= reading.table.tests; n += STEP) {
        ref_table table = reading.table;
        table.tests = n;
        for (c = 0; c < REF_COLUMNS; c++)
            memset(table.outputs[c] + n, 0, REF_MAX_TESTS - n);
        cell(&table, goal);
    }
    printf("\n");
}

int main(int argc, char **argv)
{
    int i;

    state = 2026;
    printf("| Tests | 6 | 12 | 18 | 24 |\n|---|---|---|---|---|\n");
    for (i = 3; i <= 5; i += 2) {
        random_line(i, REF_DETECT);
        random_line(i, REF_DIAGNOSE);
    }
    for (i = 1; i < argc; i++) {
        book_line(argv[i], REF_DETECT);
        book_line(argv[i], REF_DIAGNOSE);
    }
    return 0;
}
