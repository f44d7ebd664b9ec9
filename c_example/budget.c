/*
 * Prints the response times of the tasks of a project file, which come highest priority first, given what one miss costs and
 * then for each task its execution time C, its period T and its deadline D, all in one unit.
 * Ends with 0 after the times, late or not, 1 after a refusal, which is also told in words on standard error, and 2 if the
 * file cannot be read or the other arguments are not a penalty and three numbers a task, of 32 bits each, for up to
 * LIST_LENGTH tasks.
 */
#include "example.h"

#include <inttypes.h>
#include <stdio.h>

/* One more than a file has tasks, so that a longer list is refused. */
enum { LIST_LENGTH = CRPD_TASKS + 1 };

/* Reads the times of some tasks, and answers 1, or 0 if there are too many, some are missing or one is no number. */
static int read_times(char **texts, int count, struct crpd_times *list)
{
    if (count % 3 != 0 || count > 3 * LIST_LENGTH) {
        return 0;
    }
    for (int k = 0; k < count; k += 3) {
        struct crpd_times *times = &list[k / 3];
        if (!read_number(texts[k], &times->c) || !read_number(texts[k + 1], &times->t)
            || !read_number(texts[k + 2], &times->d)) {
            return 0;
        }
    }
    return 1;
}

/* One line for each task. */
static void print_times(const struct crpd_times *list, int tasks)
{
    for (int i = 0; i < tasks; i++) {
        printf("task %d: execution time %" PRIu32 ", period %" PRIu32 ", deadline %" PRIu32 ": ",
               i, list[i].c, list[i].t, list[i].d);
        if (list[i].late) {
            printf("late\n");
        } else {
            printf("response time %" PRIu32 "\n", list[i].r);
        }
    }
}

int main(int count, char **arguments)
{
    static uint8_t file[CRPD_FILE_LENGTH + 1];
    static uint16_t area[CRPD_AREA_LENGTH];
    static struct crpd_times list[LIST_LENGTH];
    uint8_t named[CRPD_NAMED_LENGTH];
    uint32_t penalty;
    size_t length;

    if (count < 3 || !read_number(arguments[2], &penalty) || !read_times(arguments + 3, count - 3, list)) {
        fprintf(stderr, "usage: budget FILE PENALTY C T D.. (execution time, period and deadline of each task)\n");
        return NOT_READ;
    }
    if (!read_file(arguments[1], file, &length)) {
        return NOT_READ;
    }
    int tasks = (count - 3) / 3;
    uint8_t status = crpd_response_times(
        file, length, area, CRPD_AREA_LENGTH, list, (size_t)tasks, penalty, named, CRPD_NAMED_LENGTH);
    if (status != CRPD_DONE) {
        print_refusal(status, named[0]);
        return REFUSED;
    }
    print_times(list, tasks);
    return DONE;
}
