/*
 * Prints the pair numbers of the project file that is named on the command line, as crpd does.
 * Ends with 0 after a table, 1 after a refusal, which is also told in words on standard error, and 2 if the file
 * cannot be read.
 */
#include "example.h"

#include <stdio.h>

static void print_table(const struct table *table)
{
    printf("cache %d tasks %d\n", table->cache_blocks, table->tasks);
    for (int i = 0; i < table->tasks; i++) {
        for (int j = 0; j < table->tasks; j++) {
            if (i != j) {
                printf("%d by %d: %d\n", i, j, table->numbers[CRPD_TABLE_WIDTH * i + j]);
            }
        }
    }
}

int main(int count, char **arguments)
{
    struct table table;

    if (count != 2) {
        fprintf(stderr, "usage: table FILE\n");
        return NOT_READ;
    }
    int end = find_table(arguments[1], &table);
    if (end == DONE) {
        print_table(&table);
    }
    return end;
}
