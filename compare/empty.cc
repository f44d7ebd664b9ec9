// Every list in turn without elements, its pointer null: each call answers as include/crpd.h says, from C++. And where the
// parts of a record of times stand, and that its late mark may be any byte before the call.
#include "crpd.h"

#include <cstddef>
#include <cstdio>
#include <vector>

static_assert(sizeof(crpd_times) == 20, "the length of a record of times");
static_assert(alignof(crpd_times) == 4, "the alignment of a record of times");
static_assert(offsetof(crpd_times, c) == 0, "the place of c");
static_assert(offsetof(crpd_times, t) == 4, "the place of t");
static_assert(offsetof(crpd_times, d) == 8, "the place of d");
static_assert(offsetof(crpd_times, r) == 12, "the place of r");
static_assert(offsetof(crpd_times, late) == 16, "the place of late");

static int failed = 0;

static void expect(const char *call, int expected, int found)
{
    if (expected != found) {
        std::printf("%s: %d expected, %d found\n", call, expected, found);
        failed = 1;
    }
}

// file E of document 01, and its two bodies
static const uint8_t e[] = {0x43, 0x52, 0x50, 0x44, 1, 2, 2, 0, 16, 0, 10, 0, 26, 0, 7, 0,
                            1, 0, 0, 1, 2, 0, 0, 0, 1, 0, 1, 0, 0, 0, 1, 2, 0};
static const uint8_t *const bodies = e + 16;
static const size_t lengths[] = {10, 7};

static uint8_t *const no_bytes = NULL;
static uint16_t *const no_numbers = NULL;
static uint32_t *const no_words = NULL;
static uint64_t *const no_totals = NULL;
static size_t *const no_counts = NULL;
static crpd_times *const no_times = NULL;

static void read_and_body()
{
    uint8_t answer[CRPD_READ_LENGTH];
    size_t found[CRPD_PLACE_LENGTH];
    expect("read, file", CRPD_CHECK_FILE_LENGTH, crpd_read(no_bytes, 0, answer, CRPD_READ_LENGTH));
    expect("read, answer", CRPD_CHECK_LENGTHS, crpd_read(e, sizeof e, no_bytes, 0));
    expect("body, file", CRPD_DONE, crpd_body(no_bytes, 0, 0, found, CRPD_PLACE_LENGTH));
    expect("body, length", 0, (int)found[1]);
    expect("body, found", CRPD_CHECK_LENGTHS, crpd_body(e, sizeof e, 0, no_counts, 0));
}

static void states_and_row()
{
    std::vector<uint16_t> area(CRPD_AREA_LENGTH);
    uint8_t named[CRPD_NAMED_LENGTH];
    size_t found[CRPD_PLACE_LENGTH];
    expect("states, file", CRPD_CHECK_FILE_LENGTH, crpd_states(no_bytes, 0, 0, &area[0], CRPD_AREA_LENGTH, named, 1));
    expect("states, area", CRPD_CHECK_LENGTHS, crpd_states(e, sizeof e, 0, no_numbers, 0, named, 1));
    expect("states, named", CRPD_CHECK_LENGTHS, crpd_states(e, sizeof e, 0, &area[0], CRPD_AREA_LENGTH, no_bytes, 0));
    expect("row, area", CRPD_DONE, crpd_row(no_numbers, 0, 0, 0, 0, found, CRPD_PLACE_LENGTH));
    expect("row, length", 0, (int)found[1]);
    expect("row, found", CRPD_CHECK_LENGTHS, crpd_row(&area[0], CRPD_AREA_LENGTH, 0, 0, 0, no_counts, 0));
}

static void table()
{
    std::vector<uint16_t> area(CRPD_AREA_LENGTH), numbers(CRPD_TABLE_LENGTH);
    uint16_t *a = &area[0], *t = &numbers[0];
    uint8_t named[CRPD_NAMED_LENGTH];
    expect("table, file", CRPD_CHECK_FILE_LENGTH,
           crpd_table(no_bytes, 0, a, CRPD_AREA_LENGTH, t, CRPD_TABLE_LENGTH, named, 1));
    expect("table, area", CRPD_CHECK_LENGTHS, crpd_table(e, sizeof e, no_numbers, 0, t, CRPD_TABLE_LENGTH, named, 1));
    expect("table, numbers", CRPD_CHECK_LENGTHS, crpd_table(e, sizeof e, a, CRPD_AREA_LENGTH, no_numbers, 0, named, 1));
    expect("table, named", CRPD_CHECK_LENGTHS,
           crpd_table(e, sizeof e, a, CRPD_AREA_LENGTH, t, CRPD_TABLE_LENGTH, no_bytes, 0));
}

static void replay_and_write()
{
    const uint16_t sheet[] = {0, 1, 0, 0};
    uint32_t misses[CRPD_REPLAY_LENGTH];
    uint8_t out[sizeof e];
    size_t answer[CRPD_WRITE_LENGTH];
    expect("replay, file", CRPD_CHECK_FILE_LENGTH, crpd_replay(no_bytes, 0, sheet, 4, misses, CRPD_REPLAY_LENGTH));
    expect("replay, sheet", CRPD_CHECK_SHEET, crpd_replay(e, sizeof e, no_numbers, 0, misses, CRPD_REPLAY_LENGTH));
    expect("replay, answer", CRPD_CHECK_LENGTHS, crpd_replay(e, sizeof e, sheet, 4, no_words, 0));
    expect("write, bodies", CRPD_CHECK_CONTENTS, crpd_write(2, no_bytes, 0, lengths, 2, out, sizeof out, answer, 2));
    expect("write, lengths", CRPD_CHECK_TASKS, crpd_write(2, bodies, 17, no_counts, 0, out, sizeof out, answer, 2));
    expect("write, out", CRPD_CHECK_OUT_LENGTH, crpd_write(2, bodies, 17, lengths, 2, no_bytes, 0, answer, 2));
    expect("write, answer", CRPD_CHECK_LENGTHS, crpd_write(2, bodies, 17, lengths, 2, out, sizeof out, no_counts, 0));
}

static void nested()
{
    const uint16_t sheet[] = {0, 1, 0, 0};
    uint64_t answer[CRPD_NESTED_LENGTH];
    expect("nested, file", CRPD_CHECK_FILE_LENGTH, crpd_nested(no_bytes, 0, sheet, 4, answer, CRPD_NESTED_LENGTH));
    expect("nested, sheet", CRPD_CHECK_SHEET, crpd_nested(e, sizeof e, no_numbers, 0, answer, CRPD_NESTED_LENGTH));
    expect("nested, answer", CRPD_CHECK_LENGTHS, crpd_nested(e, sizeof e, sheet, 4, no_totals, 0));
}

static void microseconds()
{
    expect("microseconds, answer", CRPD_CHECK_LENGTHS, crpd_microseconds(1, 1, 1, no_words, 0));
}

static void costliest_run()
{
    std::vector<uint16_t> first(CRPD_AREA_LENGTH), second(CRPD_AREA_LENGTH), sheet(CRPD_COSTLIEST_SHEET_LENGTH);
    uint16_t *a = &first[0], *b = &second[0], *s = &sheet[0];
    const size_t area_length = CRPD_AREA_LENGTH, sheet_length = CRPD_COSTLIEST_SHEET_LENGTH;
    size_t answer[CRPD_COSTLIEST_RUN_LENGTH];
    expect("costliest run, file", CRPD_CHECK_FILE_LENGTH,
           crpd_costliest_run(no_bytes, 0, 0, 1, a, area_length, b, area_length, s, sheet_length, answer, 2));
    expect("costliest run, first area", CRPD_CHECK_LENGTHS,
           crpd_costliest_run(e, sizeof e, 0, 1, no_numbers, 0, b, area_length, s, sheet_length, answer, 2));
    expect("costliest run, second area", CRPD_CHECK_LENGTHS,
           crpd_costliest_run(e, sizeof e, 0, 1, a, area_length, no_numbers, 0, s, sheet_length, answer, 2));
    expect("costliest run, sheet", CRPD_CHECK_SHEET_LENGTH,
           crpd_costliest_run(e, sizeof e, 0, 1, a, area_length, b, area_length, no_numbers, 0, answer, 2));
    expect("costliest run, answer", CRPD_CHECK_LENGTHS,
           crpd_costliest_run(e, sizeof e, 0, 1, a, area_length, b, area_length, s, sheet_length, no_counts, 0));
}

static const uint32_t penalty = 3;

// Times of the two tasks of E, whose response times are 1 and 6.
static std::vector<crpd_times> times_of_e(uint32_t r, uint8_t late)
{
    const crpd_times first = {1, 10, 10, r, late}, second = {5, 20, 20, r, late};
    return {first, second};
}

static void expect_record(const char *name, const crpd_times &expected, const crpd_times &found)
{
    const bool same = expected.c == found.c && expected.t == found.t && expected.d == found.d && expected.r == found.r
                      && expected.late == found.late;
    expect(name, 1, same);
}

static void response_times()
{
    std::vector<uint16_t> area(CRPD_AREA_LENGTH);
    std::vector<crpd_times> times = times_of_e(7, 0);
    uint16_t *a = &area[0];
    crpd_times *list = &times[0];
    uint8_t named[CRPD_NAMED_LENGTH];
    expect("response times, file", CRPD_CHECK_FILE_LENGTH,
           crpd_response_times(no_bytes, 0, a, CRPD_AREA_LENGTH, list, 2, penalty, named, 1));
    expect("response times, area", CRPD_CHECK_LENGTHS,
           crpd_response_times(e, sizeof e, no_numbers, 0, list, 2, penalty, named, 1));
    expect("response times, area of 5", CRPD_CHECK_LENGTHS,
           crpd_response_times(e, sizeof e, a, 5, list, 2, penalty, named, 1));
    expect("response times, list", CRPD_CHECK_TIMES,
           crpd_response_times(e, sizeof e, a, CRPD_AREA_LENGTH, no_times, 0, penalty, named, 1));
    expect("response times, named", CRPD_CHECK_LENGTHS,
           crpd_response_times(e, sizeof e, a, CRPD_AREA_LENGTH, list, 2, penalty, no_bytes, 0));
    expect("response times, all lists", CRPD_CHECK_LENGTHS,
           crpd_response_times(no_bytes, 0, no_numbers, 0, no_times, 0, penalty, no_bytes, 0));
}

// Each byte as the late mark before the call: an answer sets it, and a refusal keeps it.
static void late_marks()
{
    std::vector<uint16_t> area(CRPD_AREA_LENGTH);
    uint8_t named[CRPD_NAMED_LENGTH];
    for (int mark = 0; mark < 256; mark++) {
        const std::vector<crpd_times> before = times_of_e(UINT32_MAX, (uint8_t)mark);
        std::vector<crpd_times> times = before;
        crpd_times first = before[0], second = before[1];
        expect("late mark, refused", CRPD_CHECK_TIMES,
               crpd_response_times(e, sizeof e, &area[0], CRPD_AREA_LENGTH, &times[0], 2, 1001, named, 1));
        expect_record("late mark, kept in record 0", first, times[0]);
        expect_record("late mark, kept in record 1", second, times[1]);
        times[1].d = second.d = 5;
        expect("late mark, done", CRPD_DONE,
               crpd_response_times(e, sizeof e, &area[0], CRPD_AREA_LENGTH, &times[0], 2, penalty, named, 1));
        first.r = 1;
        first.late = 0;
        second.r = 0;
        second.late = 1;
        expect_record("late mark, in time", first, times[0]);
        expect_record("late mark, late", second, times[1]);
    }
}

int main()
{
    read_and_body();
    states_and_row();
    table();
    replay_and_write();
    nested();
    microseconds();
    costliest_run();
    response_times();
    late_marks();
    return failed;
}
