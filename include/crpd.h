/*
 * The proved calls, for C and C++. Link with target/staticlib/libcrpd_c.a, which tools/library makes. It
 * is built for x86-64 Linux.
 *
 * Lists. A list is a pointer and its number of elements, not of bytes. The pointer is aligned for its element, and
 * all elements of a list that is only read have been written before. Two lists of one call must not overlap, if the
 * call writes to one of them. The pointer of a list of 0 elements is never followed and may be null, as that of an
 * empty std::vector may be. Any other must not be null.
 *
 * Answers. Each call answers 0 when it is done, or the number of the check that fails first, 1 to 21 but never 10
 * (below). What else it has to say stands in its last list (answer, named or found). A last list of another length than
 * the one named here is refused with 1 before anything else, and then no list is written, the last one too: a caller
 * that prints a task after that prints what the list held before. After every other answer each place of the last list
 * is written.
 *
 * Threads. The calls keep nothing between them, take nothing from the heap and call nothing outside the archive but
 * memcpy, memmove and memset, so they may run in several threads at once, on lists that no other thread writes
 * meanwhile. As an older kit built them, measured on small and large files alike, crpd_costliest_run takes about 51 KiB of stack, crpd_table about 23 KiB,
 * crpd_response_times about 24 KiB and each other call about 9 KiB at most, but for crpd_nested: about 7 KiB, and 0.75 KiB
 * more for each run that comes before or around another in its lists, 91 KiB in all for the deepest run at the end of the
 * longest lists. No proof bounds it.
 */
#ifndef CRPD_H
#define CRPD_H

#include <stddef.h>
#include <stdint.h>

#ifdef __cplusplus
extern "C" {
#endif

/*
 * What the calls answer. Checks run in rising number, but for crpd_states, crpd_costliest_run and crpd_nested; each
 * passes for all tasks before the next. A check names a task where the table says so, and else CRPD_NO_TASK.
 *
 *  No  fails when                                                            names
 *   1  a work area, a table or the last list is of another length
 *   2  the file has under 8 or over 7,544 bytes
 *   3  its first four bytes are not 43 52 50 44 ("CRPD")
 *   4  the edition is not 1
 *   5  n, the number of cache blocks, is outside 1 to 16
 *   6  t, the number of tasks, is outside 1 to 8, or byte 7 is not 0
 *   7  the contents do not place the bodies one after the other, from
 *      8 + 4t to the file's end; in crpd_write: the lengths do not add
 *      up to that of the joined bodies
 *   8  a body breaks its layout                                              the lowest task at fault
 *   9  a block of a task is on no complete path                              the lowest task at fault
 *  10  is never given any more: tasks may share memory blocks
 *  11  a block has 33 or more reaching or live states                        the lowest task at fault; in crpd_states the
 *                                                                            task asked for, in crpd_costliest_run the
 *                                                                            lower of the two that is at fault
 *  12  the run sheet is too short or too long, or a length, a count, a
 *      task or a point in it is against the rules
 *  13  a path in the run sheet isn't complete, or names a block that
 *      isn't there, or the number of references done at a point is wrong
 *  14  the out list is shorter than the file
 *  15  the task is not below t
 *  16  a preemption in the run sheet comes in a masked block
 *  17  a pair number is over 16, a miss penalty outside 1 to 1,000
 *      or a clock outside 1 to 1,000,000
 *  18  the two tasks are equal, or one is not below t
 *  19  the sheet to write is shorter than 2,311 numbers
 *  20  in a nested sheet a count is above 0 at depth 7, or a task occurs
 *      inside itself
 *  21  the list of times has not one record a task, a time is outside 1 to
 *      1,000,000, a deadline over its period, or the penalty over 1,000
 */
enum crpd_status {
    CRPD_DONE = 0,
    CRPD_CHECK_LENGTHS = 1,
    CRPD_CHECK_FILE_LENGTH = 2,
    CRPD_CHECK_MARK = 3,
    CRPD_CHECK_EDITION = 4,
    CRPD_CHECK_CACHE_BLOCKS = 5,
    CRPD_CHECK_TASKS = 6,
    CRPD_CHECK_CONTENTS = 7,
    CRPD_CHECK_LAYOUT = 8,
    CRPD_CHECK_COMPLETE_PATHS = 9,
    CRPD_CHECK_STATES = 11,
    CRPD_CHECK_SHEET = 12,
    CRPD_CHECK_SHEET_PATHS = 13,
    CRPD_CHECK_OUT_LENGTH = 14,
    CRPD_CHECK_TASK = 15,
    CRPD_CHECK_MASKED = 16,
    CRPD_CHECK_MICROSECONDS = 17,
    CRPD_CHECK_TWO_TASKS = 18,
    CRPD_CHECK_SHEET_LENGTH = 19,
    CRPD_CHECK_NESTED = 20,
    CRPD_CHECK_TIMES = 21
};

#define CRPD_NO_TASK 255  /* where a check names no task, and where a call is done */

/* The project file. */
#define CRPD_FILE_LENGTH 7544  /* bytes of the longest file */
#define CRPD_BODY_LENGTH 938   /* bytes of the longest body */
#define CRPD_CACHE_BLOCKS 16   /* the most cache blocks */
#define CRPD_TASKS 8           /* the most tasks */
#define CRPD_BLOCKS 24         /* the most basic blocks of a task */
#define CRPD_MASKED 1          /* the flags of a masked block, in which no preemption comes; those of other blocks are 0 */

/* The work area: reaching rows, live rows, reaching counts, live counts, zeros. */
#define CRPD_AREA_LENGTH 24832      /* numbers of a work area */
#define CRPD_NOTHING 65535          /* in a row: no memory block */
#define CRPD_ROW_LENGTH 16          /* numbers of a row */
#define CRPD_BLOCK_ROWS 32          /* rows of a basic block, reaching and live each */
#define CRPD_LIVE_ROWS 12288        /* where the live rows begin; the reaching rows begin at 0 */
#define CRPD_REACHING_COUNTS 24576  /* where the 24 reaching counts begin */
#define CRPD_LIVE_COUNTS 24600      /* where the 24 live counts begin */
#define CRPD_ZEROS 24624            /* where the 208 zeros begin */

/* The table: the number of task i preempted by task j stands at CRPD_TABLE_WIDTH * i + j. */
#define CRPD_TABLE_LENGTH 64
#define CRPD_TABLE_WIDTH 8

/* The run sheet. */
#define CRPD_PATH_LENGTH 1536             /* the most blocks of a path */
#define CRPD_PREEMPTIONS 16               /* the most preemptions */
#define CRPD_SHEET_LENGTH 26179           /* numbers of the longest sheet: 1,539 for the task, 1,540 for each preemption */
#define CRPD_COSTLIEST_SHEET_LENGTH 2311  /* the fewest numbers of a sheet that crpd_costliest_run takes */

/* The nested sheet: its paths and the list of each of its runs are bounded as those of the run sheet. */
#define CRPD_DEPTH 7  /* the deepest run; the outer run has depth 0 */

/* Microseconds. */
#define CRPD_NUMBER 16      /* the largest pair number */
#define CRPD_PENALTY 1000   /* the largest miss penalty, in cycles; the smallest is 1 */
#define CRPD_CLOCK 1000000  /* the fastest clock, in kHz; the slowest is 1 */

/* Response times, in any unit, the same for all. */
#define CRPD_TIME 1000000           /* the longest execution time, period and deadline; the shortest is 1 */
#define CRPD_RESPONSE_PENALTY 1000  /* the largest miss penalty; the smallest is 0 */

/* The times of a task. */
struct crpd_times {
    uint32_t c;    /* the execution time C, 1 to CRPD_TIME */
    uint32_t t;    /* the period T, 1 to CRPD_TIME */
    uint32_t d;    /* the deadline D, 1 to T */
    uint32_t r;    /* the response time R, 1 to D, or 0 if the task is late */
    uint8_t late;  /* 1 if the task is late, else 0 */
};

/* Lengths of the last list of each call. */
#define CRPD_READ_LENGTH 3           /* answer of crpd_read */
#define CRPD_PLACE_LENGTH 2          /* found of crpd_body and crpd_row */
#define CRPD_NAMED_LENGTH 1          /* named of crpd_states, crpd_table and crpd_response_times */
#define CRPD_REPLAY_LENGTH 4         /* answer of crpd_replay */
#define CRPD_WRITE_LENGTH 2          /* answer of crpd_write */
#define CRPD_MICROSECONDS_LENGTH 3   /* answer of crpd_microseconds */
#define CRPD_COSTLIEST_RUN_LENGTH 2  /* answer of crpd_costliest_run */
#define CRPD_NESTED_LENGTH 2         /* answer of crpd_nested */

/*
 * Reader: n and t of a file. Checks 2 to 9.
 * file: its bytes, any number of them.
 * answer: CRPD_READ_LENGTH places:
 *   0: the task that the check names, or CRPD_NO_TASK
 *   1: n, the cache blocks, 1 to 16; 0 after a refusal
 *   2: t, the tasks, 1 to 8; 0 after a refusal
 */
uint8_t crpd_read(const uint8_t *file, size_t file_length, uint8_t *answer, size_t answer_length);

/*
 * Body: where a task's body stands in a file. Refuses nothing but a found of another length, with 1.
 * file: its bytes, any number of them. task: any number.
 * found: CRPD_PLACE_LENGTH places, both 0 if the file isn't accepted (checks 2 to 9) or the task isn't below t:
 *   0: the offset of the body in the file
 *   1: its length in bytes, up to CRPD_BODY_LENGTH
 */
uint8_t crpd_body(
    const uint8_t *file, size_t file_length, size_t task, size_t *found, size_t found_length);

/*
 * States: the reaching and live states of a task. Checks 1 to 9, 15, and then 11 for this task.
 * file: its bytes, any number of them. task: any number.
 * area: CRPD_AREA_LENGTH places. One of another length is refused with 1 and keeps its contents. After every other
 * refusal each place is 0. When the call is done:
 *   (CRPD_BLOCK_ROWS * b + k) * CRPD_ROW_LENGTH on: the reaching row numbered k of basic block b; its place c has the
 *     memory block in cache block c or CRPD_NOTHING. Rows rise in dictionary order. Places n to 15, the rows from
 *     the block's count on and the rows of absent blocks hold CRPD_NOTHING.
 *   CRPD_LIVE_ROWS + the same: the live row numbered k of basic block b, likewise
 *   CRPD_REACHING_COUNTS + b: the number of reaching rows of basic block b, 0 for an absent one
 *   CRPD_LIVE_COUNTS + b: the number of its live rows, 0 for an absent one
 *   CRPD_ZEROS on: zeros
 * named: CRPD_NAMED_LENGTH place:
 *   0: the task that the check names, or CRPD_NO_TASK
 */
uint8_t crpd_states(
    const uint8_t *file, size_t file_length, size_t task, uint16_t *area, size_t area_length,
    uint8_t *named, size_t named_length);

/*
 * Row: where a row stands in a work area. Refuses nothing but a found of another length, with 1.
 * area: as crpd_states left it; any other contents and lengths are taken too. live: 0 for reaching rows, any other
 * number for live rows. block, number: any numbers.
 * found: CRPD_PLACE_LENGTH places, both 0 if the area has not CRPD_AREA_LENGTH places, the block is 24 or more, its
 * count is over 32, or the number is not below the count:
 *   0: the offset of the row in the area
 *   1: its length, CRPD_ROW_LENGTH
 */
uint8_t crpd_row(
    const uint16_t *area, size_t area_length, uint8_t live, size_t block, size_t number,
    size_t *found, size_t found_length);

/*
 * Table: the pair numbers of a file. Checks 1 to 9 and 11.
 * file: its bytes, any number of them.
 * area: CRPD_AREA_LENGTH places to work in, which may hold anything before. Where named is of the right length they
 * may hold anything afterwards, refused or not.
 * numbers: CRPD_TABLE_LENGTH places, which keep their contents after a refusal. When the call is done:
 *   CRPD_TABLE_WIDTH * i + j: the number of task i preempted by task j, after any single reference in the blocks of i
 *     that are not masked, or in such a block without references: the most cache blocks that are useful in i there and
 *     where j ends with a memory block other than the useful one; 0 where i has no such block, i is j or one of them is
 *     absent
 * named: CRPD_NAMED_LENGTH place:
 *   0: the task that the check names, or CRPD_NO_TASK
 */
uint8_t crpd_table(
    const uint8_t *file, size_t file_length, uint16_t *area, size_t area_length,
    uint16_t *numbers, size_t numbers_length, uint8_t *named, size_t named_length);

/*
 * Replay: the misses of a task's own references in a run, from an empty cache. Checks 2 to 9, 12, 13 and 16.
 * file: its bytes, any number of them.
 * sheet: any number of places, of which check 12 asks, in this order and with nothing after them:
 *   task p, below t
 *   its path's length, 1 to CRPD_PATH_LENGTH
 *   the path's blocks
 *   the number of preemptions, 0 to CRPD_PREEMPTIONS
 *   for each preemption:
 *     the position: where in p's path it comes, from 0; not below the position before. Check 16 asks that the block
 *       there, in p's body, is not masked.
 *     the references done: how many of that block's references come before it. Check 13 asks that they are 1 to all,
 *       or 0 where the block has none; check 12 that they are not below those of the preemption before where that has
 *       the same position.
 *     the task, below t and not p
 *     its path's length, 1 to CRPD_PATH_LENGTH
 *     the path's blocks
 * answer: CRPD_REPLAY_LENGTH places:
 *   0: the task that the check names, or CRPD_NO_TASK
 *   1: U, the misses without the preemptions; 0 after a refusal
 *   2: D, the misses with them; 0 after a refusal. Where tasks share memory blocks D may be below U.
 *   3: the lost hits: the own references that hit without the preemptions and miss with them; 0 after a refusal. They are
 *      at most the sum of the pair numbers of p preempted by the task of each preemption, and D is at most U + that sum.
 */
uint8_t crpd_replay(
    const uint8_t *file, size_t file_length, const uint16_t *sheet, size_t sheet_length,
    uint32_t *answer, size_t answer_length);

/*
 * Writer: the packed file of some bodies. Checks 5, 6 (the number of lengths), 7, 8, 9 and 14.
 * n: the cache blocks. bodies: all bodies, joined. lengths: the length of each body in bytes, 1 to CRPD_TASKS of them.
 * out: any number of places; CRPD_FILE_LENGTH of them always suffice. When the call is done the file stands at the
 * front. The places after the file keep their contents, and after a refusal all do.
 * answer: CRPD_WRITE_LENGTH places:
 *   0: the task that the check names, or CRPD_NO_TASK
 *   1: the length of the file in bytes; 0 after a refusal
 */
uint8_t crpd_write(
    uint8_t n, const uint8_t *bodies, size_t bodies_length, const size_t *lengths, size_t lengths_length,
    uint8_t *out, size_t out_length, size_t *answer, size_t answer_length);

/*
 * Microseconds: the time that the misses of a pair number take: q + r / clock microseconds, where
 * number * penalty * 1000 is q * clock + r and r is below the clock. Nothing is rounded. Check 17 alone, ahead of any
 * arithmetic.
 * number: a pair number, 0 to CRPD_NUMBER, as each place of a table of crpd_table is. penalty: the cycles of one miss,
 * 1 to CRPD_PENALTY. clock: in kHz, 1 to CRPD_CLOCK.
 * answer: CRPD_MICROSECONDS_LENGTH places:
 *   0: the task that the check names, which is always CRPD_NO_TASK
 *   1: q, the whole microseconds; 0 after a refusal
 *   2: r, the remainder; 0 after a refusal
 */
uint8_t crpd_microseconds(uint32_t number, uint32_t penalty, uint32_t clock, uint32_t *answer, size_t answer_length);

/*
 * Costliest run: a run of task i with one preemption by task j that costs as much as any: the lost hits that crpd_replay
 * answers for its sheet are the pair number of i preempted by j. Where several runs cost as much, any of them may be
 * written. Checks 1 to 9, 18, 19, and then 11 for these two tasks alone.
 * file: its bytes, any number of them. i, j: any numbers.
 * first, second: CRPD_AREA_LENGTH places each to work in, which may hold anything before. Where answer is of
 * the right length they may hold anything afterwards, refused or not.
 * sheet: CRPD_COSTLIEST_SHEET_LENGTH places, which always suffice, or more. When the call is done the run stands at the
 * front, as crpd_replay takes it:
 *   task i
 *   its path's length, 1 to CRPD_PATH_LENGTH
 *   the path's blocks
 *   the number of preemptions: 1, or 0 where all blocks of i are masked, and then the run ends here
 *   the position in the path, from 0, where the preemption comes; the block there is not masked
 *   the references done: how many of that block's references come before it
 *   task j
 *   its path's length, 1 to CRPD_PATH_LENGTH
 *   the path's blocks
 * The places after the run keep their contents, and after a refusal all do.
 * answer: CRPD_COSTLIEST_RUN_LENGTH places:
 *   0: the task that the check names, or CRPD_NO_TASK
 *   1: the length of the run in numbers; 0 after a refusal
 */
uint8_t crpd_costliest_run(
    const uint8_t *file, size_t file_length, size_t i, size_t j, uint16_t *first, size_t first_length,
    uint16_t *second, size_t second_length, uint16_t *sheet, size_t sheet_length,
    size_t *answer, size_t answer_length);

/*
 * Nested replay: the misses of all tasks in a run whose preempting tasks may be preempted themselves, from an empty cache.
 * Checks 2 to 9; then 12 and 20, read from the sheet's front: the first number at fault decides, 12 if it is against both,
 * and a sheet that ends too early without such a number is 12; then 13 over all runs, and then 16 over all runs.
 * file: its bytes, any number of them.
 * sheet: any number of places, of which checks 12 and 20 ask, in this order and with nothing after them, the outer run:
 *   its task, below t
 *   its path's length, 1 to CRPD_PATH_LENGTH
 *   the path's blocks
 *   the number of runs that preempt it, 0 to CRPD_PREEMPTIONS
 *   for each of these:
 *     the position: where it comes in the path of the run that it preempts, from 0; not below the position before. Check
 *       16 asks that the block there, in the body of the preempted task, is not masked.
 *     the references done: how many of that block's references come before it. Check 13 asks that they are 1 to all,
 *       or 0 where the block has none; check 12 that they are not below those of the run before in this list where that
 *       has the same position.
 *     the preempting run, in the same way as the outer run: task, path's length, blocks, number of runs that preempt it,
 *       and for each of these the same again
 * Check 20 asks that no task is that of a run around it, and that at depth CRPD_DEPTH the number of runs is 0.
 * answer: CRPD_NESTED_LENGTH places:
 *   0: the task that the check names, or CRPD_NO_TASK
 *   1: the total of the misses of all runs; 0 after a refusal. It is at most the sum of the misses of each run alone from
 *      an empty cache and, for every preempting run, of the pair numbers by its task of the task of each run around it.
 */
uint8_t crpd_nested(
    const uint8_t *file, size_t file_length, const uint16_t *sheet, size_t sheet_length,
    uint64_t *answer, size_t answer_length);

/*
 * Response times: R of each task of a file, whose tasks come highest priority first: task 0 is the highest. R of task i is
 * the least positive number with
 *   R = C + the sum over the tasks j below i of ceil(R / Tj) * (Cj + penalty * g)
 * where C is the execution time of i, Cj that of j and Tj the period of j, ceil rounds up to a whole number, and g is the
 * sum of the pair numbers of the tasks j + 1 to i, each preempted by j, as crpd_table gives them. Nothing more is said of
 * R: that it bounds the times of a real schedule is not claimed. Checks 1 to 9, 11 and 21.
 * file: its bytes, any number of them.
 * area: CRPD_AREA_LENGTH places to work in, which may hold anything before. Where named is of the right length they
 * may hold anything afterwards, refused or not.
 * list: any number of records; check 21 asks for one a task, in the order of the file. r and late may hold anything before,
 * late any byte. c, t and d keep their contents, and after a refusal all of the list does. When the call is done:
 *   r: R, or 0 if there is none up to d
 *   late: 0, or 1 if there is no R up to d
 * The three bytes after late may hold anything afterwards.
 * penalty: what one miss costs, in the unit of the times, 0 to CRPD_RESPONSE_PENALTY.
 * named: CRPD_NAMED_LENGTH place:
 *   0: the task that the check names, or CRPD_NO_TASK
 */
uint8_t crpd_response_times(
    const uint8_t *file, size_t file_length, uint16_t *area, size_t area_length,
    struct crpd_times *list, size_t list_length, uint32_t penalty, uint8_t *named, size_t named_length);

#ifdef __cplusplus
}
#endif

#endif
