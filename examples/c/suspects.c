/* suspects BOOK TEST=OUTPUT ..: the columns of a fault book that answer to the
   given tests as was observed, a line each. */
#include <stdio.h>
#include <stdlib.h>

#include "tockbronze.h"

/* A whole decimal number up to most, or -1. */
static long decimal(const char *text, char **end, long most)
{
    if (*text < '0' || *text > '9')
        return -1;
    long number = strtol(text, end, 10);
    return number <= most ? number : -1;
}

/* One byte more than the longest book, so that a longer one is refused. */
static size_t read_file(const char *name, uint8_t book[TOCKBRONZE_LONGEST_BOOK + 1])
{
    FILE *file = fopen(name, "rb");
    size_t length = file ? fread(book, 1, TOCKBRONZE_LONGEST_BOOK + 1, file) : 0;
    if (!file || ferror(file)) {
        fprintf(stderr, "suspects: %s could not be read\n", name);
        exit(2);
    }
    fclose(file);
    return length;
}

/* TEST=OUTPUT of the command line: seen[t] is the output of test t. */
static uint32_t read_observed(int count, char **words, uint8_t seen[24])
{
    uint32_t set = 0;
    for (int i = 0; i < count; i++) {
        char *end = words[i];
        long test = decimal(words[i], &end, 23);
        long output = test >= 0 && *end == '=' ? decimal(end + 1, &end, 255) : -1;
        if (output < 0 || *end != '\0' || (set >> test & 1) != 0) {
            fprintf(stderr, "suspects: %s is not TEST=OUTPUT of another test\n", words[i]);
            exit(2);
        }
        set |= (uint32_t)1 << test;
        seen[test] = (uint8_t)output;
    }
    return set;
}

int main(int argc, char **argv)
{
    uint8_t book[TOCKBRONZE_LONGEST_BOOK + 1], table[TOCKBRONZE_TABLE_LENGTH];
    uint8_t seen[24], outputs[24], columns[TOCKBRONZE_MOST_COLUMNS];

    if (argc < 2) {
        fprintf(stderr, "usage: suspects BOOK TEST=OUTPUT ..\n");
        return 2;
    }
    uint64_t result = tockbronze_read(book, read_file(argv[1], book), table, sizeof table);
    if (TOCKBRONZE_NUMBER(result) != 0) {
        printf("refused %u at %lu\n", TOCKBRONZE_NUMBER(result), (unsigned long)TOCKBRONZE_VALUE(result));
        return 1;
    }

    uint32_t set = read_observed(argc - 2, argv + 2, seen);
    size_t observed = 0;
    for (unsigned t = 0; t < 24; t++)
        if (set >> t & 1)
            outputs[observed++] = seen[t];

    result = tockbronze_suspects(table, sizeof table, set, outputs, observed, columns, sizeof columns);
    if (TOCKBRONZE_NUMBER(result) == TOCKBRONZE_BAD_SET) {
        fprintf(stderr, "suspects: the book has %u tests, numbered from 0\n", table[0]);
        return 2;
    }
    size_t count = (size_t)TOCKBRONZE_VALUE(result);
    for (size_t i = 0; i < count; i++)
        if (columns[i] == 0)
            printf("good\n");
        else
            printf("line %u stuck at %u\n", table[TOCKBRONZE_LINES + columns[i] - 1],
                   table[TOCKBRONZE_STUCK + columns[i] - 1]);
    if (count == 0)
        printf("none\n");
    return 0;
}
