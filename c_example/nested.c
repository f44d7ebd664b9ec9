/*
 * Prints the misses of all tasks in a nested run of a project file: of a task, of the tasks that preempt it, of those that
 * preempt these, and so on. The arguments after the file are the numbers of the sheet, as crpd_nested takes them.
 * Ends with 0 after the total, 1 after a refusal, which is also told in words on standard error, and 2 if the file cannot
 * be read or the other arguments are not numbers of 16 bits, up to SHEET_LENGTH of them.
 */
#include "example.h"

#include <inttypes.h>
#include <stdio.h>

enum { SHEET_LENGTH = 4096 };

/* Reads the numbers of a sheet, and answers 1, or 0 if there are too many or one is none. */
static int read_sheet(char **texts, int count, uint16_t *sheet)
{
    uint32_t number;

    if (count > SHEET_LENGTH) {
        return 0;
    }
    for (int k = 0; k < count; k++) {
        if (!read_number(texts[k], &number) || number > UINT16_MAX) {
            return 0;
        }
        sheet[k] = (uint16_t)number;
    }
    return 1;
}

int main(int count, char **arguments)
{
    static uint8_t file[CRPD_FILE_LENGTH + 1];
    static uint16_t sheet[SHEET_LENGTH];
    uint64_t answer[CRPD_NESTED_LENGTH];
    size_t file_length;

    if (count < 2 || !read_sheet(arguments + 2, count - 2, sheet)) {
        fprintf(stderr, "usage: nested FILE NUMBER... (the numbers of a nested sheet)\n");
        return NOT_READ;
    }
    if (!read_file(arguments[1], file, &file_length)) {
        return NOT_READ;
    }
    uint8_t status = crpd_nested(file, file_length, sheet, (size_t)(count - 2), answer, CRPD_NESTED_LENGTH);
    if (status != CRPD_DONE) {
        print_refusal(status, (uint8_t)answer[0]);
        return REFUSED;
    }
    printf("misses of all tasks: %" PRIu64 "\n", answer[1]);
    return DONE;
}
