#include "example.h"

#include <errno.h>
#include <stdio.h>
#include <stdlib.h>

/* When a check of a file, of a number, penalty and clock, of two tasks, of a nested sheet or of times fails. */
static const char *meaning(uint8_t check)
{
    switch (check) {
    case CRPD_CHECK_FILE_LENGTH: return "the file has under 8 or over 7,544 bytes";
    case CRPD_CHECK_MARK: return "the first four bytes are not CRPD";
    case CRPD_CHECK_EDITION: return "the edition is not 1";
    case CRPD_CHECK_CACHE_BLOCKS: return "the number of cache blocks is outside 1 to 16";
    case CRPD_CHECK_TASKS: return "the number of tasks is outside 1 to 8, or byte 7 is not 0";
    case CRPD_CHECK_CONTENTS: return "an offset or a length in the contents is wrong";
    case CRPD_CHECK_LAYOUT: return "a body breaks its layout";
    case CRPD_CHECK_COMPLETE_PATHS: return "a block is on no complete path";
    case CRPD_CHECK_STATES: return "a block has 33 or more reaching or live states";
    case CRPD_CHECK_SHEET:
        return "the sheet is too short or too long, or a length, a count, a task or a point is against the rules";
    case CRPD_CHECK_SHEET_PATHS: return "a path isn't complete, or a number of references done is wrong";
    case CRPD_CHECK_MASKED: return "a preemption comes in a masked block";
    case CRPD_CHECK_MICROSECONDS:
        return "the number is over 16, the penalty outside 1 to 1,000 or the clock outside 1 to 1,000,000";
    case CRPD_CHECK_TWO_TASKS: return "the two tasks are equal, or one is not in the file";
    case CRPD_CHECK_NESTED: return "a count is above 0 at depth 7, or a task occurs inside itself";
    case CRPD_CHECK_TIMES:
        return "there is not one record a task, a time is outside 1 to 1,000,000, a deadline over its period, "
               "or the penalty over 1,000";
    default: return "a list is of another length";
    }
}

void print_refusal(uint8_t check, uint8_t task)
{
    printf("refused %d task %d\n", check, task);
    fprintf(stderr, "check %d: %s", check, meaning(check));
    if (task != CRPD_NO_TASK) {
        fprintf(stderr, ", in task %d", task);
    }
    fprintf(stderr, "\n");
}

int read_file(const char *name, uint8_t *file, size_t *length)
{
    FILE *input = fopen(name, "rb");
    if (input == NULL) {
        perror(name);
        return 0;
    }
    *length = fread(file, 1, CRPD_FILE_LENGTH + 1, input);
    int failed = ferror(input);
    if (failed) {
        perror(name);
    }
    fclose(input);
    return !failed;
}

int read_number(const char *text, uint32_t *number)
{
    char *end;

    if (*text < '0' || '9' < *text) {
        return 0;
    }
    errno = 0;
    unsigned long long value = strtoull(text, &end, 10);
    if (errno != 0 || *end != '\0' || UINT32_MAX < value) {
        return 0;
    }
    *number = (uint32_t)value;
    return 1;
}

int find_table(const char *name, struct table *table)
{
    static uint8_t file[CRPD_FILE_LENGTH + 1];
    static uint16_t area[CRPD_AREA_LENGTH];
    uint8_t answer[CRPD_READ_LENGTH];
    uint8_t named[CRPD_NAMED_LENGTH];
    size_t length;

    if (!read_file(name, file, &length)) {
        return NOT_READ;
    }
    uint8_t status = crpd_table(
        file, length, area, CRPD_AREA_LENGTH, table->numbers, CRPD_TABLE_LENGTH, named, CRPD_NAMED_LENGTH);
    if (status != CRPD_DONE) {
        print_refusal(status, named[0]);
        return REFUSED;
    }
    crpd_read(file, length, answer, CRPD_READ_LENGTH);
    table->cache_blocks = answer[1];
    table->tasks = answer[2];
    return DONE;
}
