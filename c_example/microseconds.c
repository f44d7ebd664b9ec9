/*
 * Prints the pair numbers of a project file as times, given the miss penalty in cycles and the clock in kHz:
 * whole microseconds, and the remainder over the clock. Nothing is rounded.
 * Ends with 0 after a table, 1 after a refusal, which is also told in words on standard error, and 2 if the file
 * cannot be read or the arguments are not a file and two numbers of 32 bits.
 */
#include "example.h"

#include <inttypes.h>
#include <stdio.h>

/* One line for each two tasks. The penalty and the clock passed check 17, which takes every number of a table. */
static void print_times(const struct table *table, uint32_t penalty, uint32_t clock)
{
    uint32_t answer[CRPD_MICROSECONDS_LENGTH];

    printf("cache %d tasks %d\n", table->cache_blocks, table->tasks);
    for (int i = 0; i < table->tasks; i++) {
        for (int j = 0; j < table->tasks; j++) {
            if (i != j) {
                uint32_t number = table->numbers[CRPD_TABLE_WIDTH * i + j];
                crpd_microseconds(number, penalty, clock, answer, CRPD_MICROSECONDS_LENGTH);
                printf("%d by %d: %" PRIu32 " + %" PRIu32 "/%" PRIu32 " microseconds\n", i, j, answer[1], answer[2], clock);
            }
        }
    }
}

int main(int count, char **arguments)
{
    struct table table;
    uint32_t penalty, clock;
    uint32_t answer[CRPD_MICROSECONDS_LENGTH];

    if (count != 4 || !read_number(arguments[2], &penalty) || !read_number(arguments[3], &clock)) {
        fprintf(stderr, "usage: microseconds FILE PENALTY CLOCK (cycles, kHz)\n");
        return NOT_READ;
    }
    int end = find_table(arguments[1], &table);
    if (end != DONE) {
        return end;
    }
    uint8_t status = crpd_microseconds(0, penalty, clock, answer, CRPD_MICROSECONDS_LENGTH);
    if (status != CRPD_DONE) {
        print_refusal(status, CRPD_NO_TASK);
        return REFUSED;
    }
    print_times(&table, penalty, clock);
    return DONE;
}
