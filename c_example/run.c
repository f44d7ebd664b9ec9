/*
 * Prints the costliest run of two tasks of a project file: along which blocks the first runs, where the second preempts
 * it and along which blocks that runs, and how many hits of the first become misses, which is the pair number.
 * Ends with 0 after a run, 1 after a refusal, which is also told in words on standard error, and 2 if the file cannot
 * be read or the arguments are not a file and two numbers of 32 bits.
 */
#include "example.h"

#include <inttypes.h>
#include <stdio.h>

/* A project file and the sheet of a run of its tasks. */
struct run {
    uint8_t file[CRPD_FILE_LENGTH + 1];
    size_t file_length;
    uint16_t sheet[CRPD_COSTLIEST_SHEET_LENGTH];
    size_t sheet_length;
};

/* The blocks of a path, and the end of the line. */
static void print_blocks(const uint16_t *blocks, int count)
{
    for (int k = 0; k < count; k++) {
        printf(" %d", blocks[k]);
    }
    printf("\n");
}

/* The path up to the preemption, the preempting path, and what is left of the path after the block of the preemption. */
static void print_preempted(int i, const uint16_t *path, int path_length, const uint16_t *preemption)
{
    int position = preemption[0];
    int done = preemption[1];
    int left = path_length - position - 1;

    printf("task %d runs blocks", i);
    print_blocks(path, position + 1);
    printf("at position %d, where %d reference%s of block %d %s done, task %d preempts it and runs blocks",
           position, done, done == 1 ? "" : "s", path[position], done == 1 ? "is" : "are", preemption[2]);
    print_blocks(preemption + 4, preemption[3]);
    printf("task %d goes on in block %d%s", i, path[position], left > 0 ? " and with blocks" : "");
    print_blocks(path + position + 1, left);
}

/* The sheet of the costliest run, which crpd_replay accepts. */
static void print_run(const struct run *run)
{
    int i = run->sheet[0];
    int path_length = run->sheet[1];
    const uint16_t *path = run->sheet + 2;
    const uint16_t *preemptions = path + path_length;
    uint32_t answer[CRPD_REPLAY_LENGTH];

    crpd_replay(run->file, run->file_length, run->sheet, run->sheet_length, answer, CRPD_REPLAY_LENGTH);
    if (preemptions[0] == 0) {
        printf("all blocks of task %d are masked, so it is not preempted; it runs blocks", i);
        print_blocks(path, path_length);
    } else {
        print_preempted(i, path, path_length, preemptions + 1);
    }
    printf("misses of task %d: %" PRIu32 " without a preemption, %" PRIu32 " in this run\n", i, answer[1], answer[2]);
    printf("pair number: %" PRIu32 ", the hits that became misses\n", answer[3]);
}

int main(int count, char **arguments)
{
    static struct run run;
    static uint16_t first[CRPD_AREA_LENGTH], second[CRPD_AREA_LENGTH];
    uint32_t i, j;
    size_t answer[CRPD_COSTLIEST_RUN_LENGTH];

    if (count != 4 || !read_number(arguments[2], &i) || !read_number(arguments[3], &j)) {
        fprintf(stderr, "usage: run FILE TASK TASK (the preempted and the preempting one)\n");
        return NOT_READ;
    }
    if (!read_file(arguments[1], run.file, &run.file_length)) {
        return NOT_READ;
    }
    uint8_t status = crpd_costliest_run(
        run.file, run.file_length, i, j, first, CRPD_AREA_LENGTH, second, CRPD_AREA_LENGTH,
        run.sheet, CRPD_COSTLIEST_SHEET_LENGTH, answer, CRPD_COSTLIEST_RUN_LENGTH);
    if (status != CRPD_DONE) {
        print_refusal(status, (uint8_t)answer[0]);
        return REFUSED;
    }
    run.sheet_length = answer[1];
    print_run(&run);
    return DONE;
}
