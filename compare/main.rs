//! Compares each proved call with the independent implementation, on files made from seeds.
mod generate;
mod independent;

use crpd::{calls, Head, Misses, Refusal, Time, Times};
use generate::{
    changed_sheet, crowded, damaged, damaged_nested, damaged_sheet, deadlines, empty_task, longest, loop_sheet, loops, made,
    masked_nested, masked_sheet, nested, nested_loop_sheet, penalty, sheet, slow_times, times, times_at_bounds, tower, Made,
    Nested, Nesting, Random, DAMAGES, NESTED_DAMAGES,
};
use independent::{Analysed, Block, Cost, Record, Tabled, AREA, COSTLIEST_SHEET};
use std::collections::{BTreeMap, BTreeSet};
use std::fmt::Debug;

/// The files that are made if no argument says how many.
const FILES: u64 = 3000;
/// What lent lists hold before a call, so that a kept place can be told from a written one.
const OLD_BYTE: u8 = 0xA5;
const OLD_NUMBER: u16 = 0xA55A;
const OLD_WIDE: u32 = 0xA55A_A55A;
const OLD_COUNT: usize = 0xA55A_A55A;
const OLD_TOTAL: u64 = 0xA55A_A55A_A55A_A55A;
/// Bounds of nested runs, by the depth of the innermost run.
const NESTED_BOUNDS: [&str; 8] = [
    "nested, depth 0", "nested, depth 1", "nested, depth 2", "nested, depth 3", "nested, depth 4", "nested, depth 5",
    "nested, depth 6", "nested, depth 7",
];

/// How many cases each call met by check, and the smallest difference.
#[derive(Default)]
struct Report {
    cases: BTreeMap<&'static str, BTreeMap<u8, usize>>,
    differences: usize,
    smallest: Option<(usize, String)>,
}

impl Report {
    /// One case: `faults` are the places where the proved call and the independent one differ.
    fn add(&mut self, call: &'static str, check: u8, file: &[u8], arguments: String, faults: Vec<Option<String>>) {
        *self.cases.entry(call).or_default().entry(check).or_default() += 1;
        let faults: Vec<String> = faults.into_iter().flatten().collect();
        if faults.is_empty() {
            return;
        }
        self.differences += 1;
        if self.smallest.as_ref().is_none_or(|(length, _)| file.len() < *length) {
            let hex: Vec<String> = file.iter().map(|byte| format!("{byte:02X}")).collect();
            let text = format!("{call} {arguments}\n  {}\n  file: {}", faults.join("\n  "), hex.join(" "));
            self.smallest = Some((file.len(), text));
        }
    }

    fn print(&self) {
        println!("cases by the check that was answered (0: done)");
        for (call, checks) in &self.cases {
            let counts: Vec<String> = checks.iter().map(|(check, count)| format!("{check}: {count}")).collect();
            println!("{call:19} {:7}   {}", checks.values().sum::<usize>(), counts.join(", "));
        }
        let all: usize = self.cases.values().flat_map(BTreeMap::values).sum();
        match &self.smallest {
            None => println!("no differences in {all} cases"),
            Some((_, text)) => println!("the smallest difference: {text}\n{} differences in {all} cases", self.differences),
        }
    }
}

/// The first place where two lists differ.
fn differ<T: PartialEq + Debug>(name: &str, expected: &[T], found: &[T]) -> Option<String> {
    if expected.len() != found.len() {
        return Some(format!("{name}: length {} expected, {} found", expected.len(), found.len()));
    }
    let place = expected.iter().zip(found).position(|(a, b)| a != b)?;
    Some(format!("{name}[{place}]: {:?} expected, {:?} found", expected[place], found[place]))
}

/// The status of an answer, and the task that it names.
fn told<T>(answer: &Result<T, independent::Refusal>) -> (u8, u8) {
    answer.as_ref().err().copied().unwrap_or((0, 255))
}

fn compare_read(report: &mut Report, file: &[u8], places: usize) {
    let mut found = vec![OLD_BYTE; places];
    let status = calls::read(file, &mut found);
    let mut expected = vec![OLD_BYTE; places];
    let mut check = 1;
    let mut faults = vec![];
    if places == 3 {
        let answer = independent::read(file).map(|project| (project.n as u8, project.tasks.len() as u8));
        let (n, t) = answer.unwrap_or((0, 0));
        check = told(&answer).0;
        expected = vec![told(&answer).1, n, t];
        let wrapped = crpd::read(file).map(|Head { cache_blocks, tasks }| (cache_blocks, tasks));
        faults.push(differ("result", &[answer], &[wrapped.map_err(Refusal::numbers)]));
    }
    faults.extend([differ("status", &[check], &[status]), differ("answer", &expected, &found)]);
    report.add("crpd_read", check, file, format!("answer of {places}"), faults);
}

fn compare_body(report: &mut Report, file: &[u8], task: usize, places: usize) {
    let mut found = vec![OLD_COUNT; places];
    let status = calls::body(file, task, &mut found);
    let (mut check, mut expected) = (1, vec![OLD_COUNT; places]);
    let mut faults = vec![];
    if places == 2 {
        let (offset, length) = independent::body(file, task);
        check = 0;
        expected = vec![offset, length];
        faults.push(differ("part", &file[offset..offset + length], crpd::body(file, task)));
    }
    faults.extend([differ("status", &[check], &[status]), differ("found", &expected, &found)]);
    report.add("crpd_body", check, file, format!("task {task}, found of {places}"), faults);
}

/// The area that the call left is handed back.
fn compare_states(report: &mut Report, file: &[u8], task: usize, length: usize, places: usize) -> Vec<u16> {
    let mut area = vec![OLD_NUMBER; length];
    let mut named = vec![OLD_BYTE; places];
    let status = calls::states(file, task, &mut area, &mut named);
    let mut expected_area = vec![OLD_NUMBER; length];
    let (mut check, mut expected_named) = (1, vec![OLD_BYTE; places]);
    let mut faults = vec![];
    if places == 1 {
        let answer = independent::fill(file, task, &mut expected_area);
        check = told(&answer).0;
        expected_named = vec![told(&answer).1];
        let wrapped = crpd::states(file, task, &mut vec![OLD_NUMBER; length]);
        faults.push(differ("result", &[answer], &[wrapped.map_err(Refusal::numbers)]));
    }
    faults.extend([
        differ("status", &[check], &[status]),
        differ("named", &expected_named, &named),
        differ("area", &expected_area, &area),
    ]);
    report.add("crpd_states", check, file, format!("task {task}, area of {length}, named of {places}"), faults);
    area
}

fn compare_row(report: &mut Report, area: &[u16], live: u8, block: usize, number: usize, places: usize) {
    let mut found = vec![OLD_COUNT; places];
    let status = calls::row(area, live, block, number, &mut found);
    let (mut check, mut expected) = (1, vec![OLD_COUNT; places]);
    let mut faults = vec![];
    if places == 2 {
        let (offset, length) = independent::row(area, live != 0, block, number);
        check = 0;
        expected = vec![offset, length];
        faults.push(differ("part", &area[offset..offset + length], crpd::row(area, live != 0, block, number)));
    }
    faults.extend([differ("status", &[check], &[status]), differ("found", &expected, &found)]);
    let counts = area.get(AREA - 256..AREA - 208).unwrap_or(&[]);
    let arguments = format!(
        "area of {}, live {live}, block {block}, number {number}, found of {places}, counts {counts:?}",
        area.len()
    );
    report.add("crpd_row", check, &[], arguments, faults);
}

/// The work area is free afterwards, so it is compared only where `named` is refused. The table that the call left is
/// handed back.
fn compare_table(report: &mut Report, file: &[u8], length: usize, numbers: usize, places: usize) -> Vec<u16> {
    let mut area = vec![OLD_NUMBER; length];
    let mut table = vec![OLD_NUMBER; numbers];
    let mut named = vec![OLD_BYTE; places];
    let status = calls::table(file, &mut area, &mut table, &mut named);
    let mut expected_table = vec![OLD_NUMBER; numbers];
    let (mut check, mut expected_named) = (1, vec![OLD_BYTE; places]);
    let mut faults = vec![];
    if places == 1 {
        let answer = independent::table(file, length, &mut expected_table);
        check = told(&answer).0;
        expected_named = vec![told(&answer).1];
        let wrapped = crpd::table(file, &mut area, &mut vec![OLD_NUMBER; numbers]);
        faults.push(differ("result", &[answer], &[wrapped.map_err(Refusal::numbers)]));
    } else {
        faults.push(differ("area", &vec![OLD_NUMBER; length], &area));
    }
    faults.extend([
        differ("status", &[check], &[status]),
        differ("named", &expected_named, &named),
        differ("table", &expected_table, &table),
    ]);
    let arguments = format!("area of {length}, table of {numbers}, named of {places}");
    report.add("crpd_table", check, file, arguments, faults);
    table
}

fn compare_write(report: &mut Report, n: u8, joined: &[u8], lengths: &[usize], room: usize, places: usize) {
    let mut out = vec![OLD_BYTE; room];
    let mut found = vec![OLD_COUNT; places];
    let status = calls::write(n, joined, lengths, &mut out, &mut found);
    let mut expected_out = vec![OLD_BYTE; room];
    let (mut check, mut expected) = (1, vec![OLD_COUNT; places]);
    let mut faults = vec![];
    if places == 2 {
        let answer = independent::write(n, joined, lengths, &mut expected_out);
        let (status, named) = told(&answer);
        check = status;
        expected = vec![named as usize, answer.unwrap_or(0)];
        let wrapped = crpd::write(n, joined, lengths, &mut vec![OLD_BYTE; room]);
        faults.push(differ("result", &[answer], &[wrapped.map_err(Refusal::numbers)]));
    }
    faults.extend([
        differ("status", &[check], &[status]),
        differ("answer", &expected, &found),
        differ("out", &expected_out, &out),
    ]);
    let arguments = format!("n {n}, lengths {lengths:?}, out of {room}, answer of {places}, the bodies as the file");
    report.add("crpd_write", check, joined, arguments, faults);
}

/// Every call that takes a file, with lists of the right length.
fn compare_file(report: &mut Report, file: &[u8], task: usize) {
    compare_read(report, file, 3);
    compare_body(report, file, task, 2);
    compare_states(report, file, task, AREA, 1);
    compare_table(report, file, AREA, 64, 1);
}

/// Every call, with one list of a wrong length or more.
fn compare_lengths(report: &mut Report, file: &[u8]) {
    for places in [0, 1, 2, 4, 5] {
        compare_read(report, file, places);
    }
    for places in [0, 1, 3, 4] {
        compare_body(report, file, 0, places);
    }
    for length in [0, AREA - 1, AREA + 1] {
        for places in [0, 1, 2] {
            compare_states(report, file, 0, length, places);
        }
        compare_table(report, file, length, 64, 1);
        compare_table(report, file, length, 63, 1);
    }
    for numbers in [0, 63, 65] {
        compare_table(report, file, AREA, numbers, 1);
    }
    for places in [0, 2, 3] {
        compare_states(report, file, 0, AREA, places);
        compare_table(report, file, AREA, 64, places);
    }
    compare_run_lengths(report, file);
    compare_times_lengths(report, file);
}

/// Rows of an area that States left, and of areas with counts of any kind.
fn compare_rows(report: &mut Report, random: &mut Random, area: &[u16]) {
    let mut changed = area.to_vec();
    for count in &mut changed[AREA - 256..AREA - 208] {
        *count = random.pick(&[*count, 0, 1, 31, 32, 33, 65535]);
    }
    let longer = [area, &[0]].concat();
    for area in [area, &changed, &area[..AREA - 1], &longer, &[]] {
        for _ in 0..12 {
            let live = random.pick(&[0, 1, 2, 255]);
            let block = random.pick(&[0, 1, 2, 3, 22, 23, 24, 25, usize::MAX]);
            let number = random.pick(&[0, 1, 2, 3, 30, 31, 32, 33, usize::MAX]);
            let places = random.pick(&[0, 1, 2, 2, 2, 2, 3]);
            compare_row(report, area, live, block, number, places);
        }
    }
}

/// Every row of an area that may be asked for, and those next to them.
fn compare_all_rows(report: &mut Report, area: &[u16]) {
    for live in [0, 1] {
        for block in 0..26 {
            for number in 0..35 {
                compare_row(report, area, live, block, number, 2);
            }
        }
    }
}

/// The writer on the bodies of a file, and with each argument changed.
fn compare_writing(report: &mut Report, random: &mut Random, made: &Made) {
    let bodies = made.bodies();
    let joined = bodies.concat();
    let lengths: Vec<usize> = bodies.iter().map(Vec::len).collect();
    let whole = 8 + 4 * lengths.len() + joined.len();
    for room in [0, whole - 1, whole, whole + 1, whole + 100] {
        compare_write(report, made.n, &joined, &lengths, room, 2);
    }
    for places in [0, 1, 3] {
        compare_write(report, made.n, &joined, &lengths, whole, places);
    }
    for n in [0, 17, 255] {
        compare_write(report, n, &joined, &lengths, whole, 2);
    }
    compare_write(report, made.n, &joined, &[], whole, 2);
    compare_write(report, made.n, &joined, &[1; 9], whole, 2);
    // sums that are wrong, also by 2 to the 64
    compare_write(report, made.n, &joined[1..], &lengths, whole, 2);
    compare_write(report, made.n, &joined, &[usize::MAX, joined.len() + 1], whole, 2);
    // bodies cut elsewhere, and an empty one
    let cut = random.below(joined.len() + 1);
    compare_write(report, made.n, &joined, &[cut, joined.len() - cut], whole, 2);
    if lengths.len() < 8 {
        compare_write(report, made.n, &joined, &[lengths.as_slice(), &[0]].concat(), whole, 2);
    }
}

/// The writer on the bodies of a damaged file.
fn compare_broken_bodies(report: &mut Report, made: &Made, broken: &[u8]) {
    let t = made.tasks.len();
    let Some(joined) = broken.get(8 + 4 * t..) else { return };
    let lengths: Vec<usize> =
        (0..t).map(|i| broken[10 + 4 * i] as usize + 256 * broken[11 + 4 * i] as usize).collect();
    compare_write(report, made.n, joined, &lengths, broken.len(), 2);
}

/// The answer that the call left is handed back.
fn compare_replay(report: &mut Report, file: &[u8], sheet: &[u16], places: usize) -> Vec<u32> {
    let mut found = vec![OLD_WIDE; places];
    let status = calls::replay(file, sheet, &mut found);
    let (mut check, mut expected) = (1, vec![OLD_WIDE; places]);
    let mut faults = vec![];
    if places == 4 {
        let answer = independent::replay(file, sheet);
        let (alone, disturbed, lost) = answer.unwrap_or((0, 0, 0));
        check = told(&answer).0;
        expected = vec![told(&answer).1 as u32, alone, disturbed, lost];
        let wrapped = crpd::replay(file, sheet).map(|Misses { undisturbed, disturbed, lost }| (undisturbed, disturbed, lost));
        faults.push(differ("result", &[answer], &[wrapped.map_err(Refusal::numbers)]));
    }
    faults.extend([differ("status", &[check], &[status]), differ("answer", &expected, &found)]);
    report.add("crpd_replay", check, file, format!("sheet {sheet:?}, answer of {places}"), faults);
    found
}

/// A sheet that was made to fail this check; the independent implementation has to give it too.
fn compare_refused(report: &mut Report, file: &[u8], sheet: &[u16], check: u8) {
    compare_replay(report, file, sheet, 4);
    let found = told(&independent::replay(file, sheet));
    report.add("broken sheet", check, file, format!("{sheet:?}"), vec![differ("status", &[(check, 255)], &[found])]);
}

/// Whether Table filled it: a table that was refused keeps what it held, which is not 0.
fn filled(table: &[u16]) -> bool {
    table[0] == 0
}

/// What a replay's answer breaks of the bounds: `allowed` is the sum of the table's numbers, `shared` whether tasks share.
fn broken_bound(answer: &[u32], allowed: u32, shared: bool) -> Option<String> {
    let (alone, disturbed, lost) = (answer[1], answer[2], answer[3]);
    let kept = lost <= allowed && disturbed <= alone + allowed && (shared || disturbed == alone + lost);
    (!kept).then(|| format!("{answer:?}, and the table allows {allowed} more"))
}

/// Runs of a file by the proved replay, valid and broken ones; none loses more hits than the proved table allows.
fn compare_runs(report: &mut Report, random: &mut Random, made: &Made, file: &[u8], table: &[u16]) {
    let (sheet, preempting) = sheet(random, &made.tasks);
    let answer = compare_replay(report, file, &sheet, 4);
    if filled(table) {
        let p = sheet[0] as usize;
        let allowed: u32 = preempting.iter().map(|&j| table[8 * p + j] as u32).sum();
        let shared = made.shares();
        let fault = broken_bound(&answer, allowed, shared);
        // runs that pass a masked block and are preempted elsewhere are counted apart, and so are files that share, and
        // runs with fewer misses than without the preemptions
        let passed = &sheet[2..2 + sheet[1] as usize];
        let masked = !preempting.is_empty() && passed.iter().any(|&block| made.tasks[p][block as usize].masked);
        let name = match (masked, shared) {
            _ if answer[2] < answer[1] => "bounds, D below U",
            (false, false) => "bounds",
            (true, false) => "bounds, masks",
            (false, true) => "bounds, shared",
            (true, true) => "bounds, masks and shared",
        };
        report.add(name, 0, file, format!("{sheet:?}"), vec![fault]);
    }
    let (broken, check) = damaged_sheet(random, &made.tasks, &sheet);
    compare_refused(report, file, &broken, check);
    if let Some(masked) = masked_sheet(random, &made.tasks) {
        compare_refused(report, file, &masked, 16);
        // 12 and 13 go before 16
        let (broken, check) = damaged_sheet(random, &made.tasks, &masked);
        compare_refused(report, file, &broken, check);
    }
    compare_replay(report, file, &changed_sheet(random, &sheet), 4);
    compare_replay(report, file, &sheet, random.pick(&[0, 1, 2, 3, 5]));
}

/// The answer that the call left is handed back.
fn compare_nested(report: &mut Report, file: &[u8], sheet: &[u16], places: usize) -> Vec<u64> {
    let mut found = vec![OLD_TOTAL; places];
    let status = calls::nested(file, sheet, &mut found);
    let (mut check, mut expected) = (1, vec![OLD_TOTAL; places]);
    let mut faults = vec![];
    if places == 2 {
        let answer = independent::nested(file, sheet);
        check = told(&answer).0;
        expected = vec![told(&answer).1.into(), answer.unwrap_or(0)];
        faults.push(differ("result", &[answer], &[crpd::nested(file, sheet).map_err(Refusal::numbers)]));
    }
    faults.extend([differ("status", &[check], &[status]), differ("answer", &expected, &found)]);
    report.add("crpd_nested", check, file, format!("sheet {sheet:?}, answer of {places}"), faults);
    found
}

/// A nested sheet that was made to fail this check; the independent implementation has to give it too.
fn compare_nested_refused(report: &mut Report, file: &[u8], sheet: &[u16], check: u8) {
    compare_nested(report, file, sheet, 2);
    let found = told(&independent::nested(file, sheet));
    report.add("broken nested", check, file, format!("{sheet:?}"), vec![differ("status", &[(check, 255)], &[found])]);
}

/// What the table allows a nested run: each run's misses alone, and for each preempting run its numbers against the runs around it.
fn nested_bound(file: &[u8], run: &Nested, table: &[u16]) -> u64 {
    let alone = |run: &Nested| {
        let sheet = Nested { task: run.task, path: run.path.clone(), list: vec![] }.numbers();
        independent::replay(file, &sheet).map_or(0, |(alone, _, _)| u64::from(alone))
    };
    let against = |j: usize, around: &[usize]| around.iter().map(|i| u64::from(table[8 * i + j])).sum::<u64>();
    run.runs().iter().map(|(inner, around)| alone(inner) + against(inner.task, around)).sum()
}

/// A nested run of a file, and its sheet with each kind of fault; its misses are no more than the proved table allows.
fn compare_nesting(report: &mut Report, random: &mut Random, made: &Made, nesting: Nesting, table: &[u16]) {
    let file = made.file();
    let run = nested(random, &made.tasks, nesting);
    let sheet = run.numbers();
    let answer = compare_nested(report, &file, &sheet, 2);
    if filled(table) {
        let bound = nested_bound(&file, &run, table);
        let fault = (answer[1] > bound).then(|| format!("{answer:?}, and the bound is {bound}"));
        report.add(NESTED_BOUNDS[run.depth()], 0, &file, format!("{sheet:?}"), vec![fault]);
    }
    let masked = masked_nested(random, &made.tasks, nesting);
    if let Some(masked) = &masked {
        compare_nested_refused(report, &file, &masked.numbers(), 16);
    }
    // 12, 20 and 13 go before 16
    for run in [Some(run), masked].iter().flatten() {
        for kind in 0..NESTED_DAMAGES {
            if let Some((broken, check)) = damaged_nested(random, &made.tasks, run, kind) {
                compare_nested_refused(report, &file, &broken, check);
            }
        }
    }
    for _ in 0..4 {
        compare_nested(report, &file, &changed_sheet(random, &sheet), 2);
    }
    compare_nested(report, &file, &sheet, random.pick(&[0, 1, 3, 4]));
}

/// Runs of every depth, and their sheets cut off at every place.
fn compare_towers(report: &mut Report) {
    for seed in 0..60 {
        let mut random = Random::new(seed);
        let made = tower(&mut random);
        let file = made.file();
        let table = compare_table(report, &file, AREA, 64, 1);
        for nesting in Nesting::ALL {
            for _ in 0..10 {
                compare_nesting(report, &mut random, &made, nesting, &table);
            }
            let sheet = nested(&mut random, &made.tasks, nesting).numbers();
            for end in 0..sheet.len() {
                compare_nested_refused(report, &file, &sheet[..end], 12);
            }
        }
    }
}

/// Nested sheets with a length or a count at its limit or next to it, and all short ones of a few numbers.
fn compare_nested_limits(report: &mut Report) {
    for file in [loops(false).file(), loops(true).file()] {
        for length in [1, 2, 1535, 1536, 1537] {
            for count in [0, 1, 15, 16, 17] {
                for other in [1, 1536, 1537] {
                    compare_nested(report, &file, &nested_loop_sheet(length, count, other), 2);
                }
            }
        }
    }
    let numbers = [0, 1, 2, 17];
    let two = loops(false).file();
    let one = Made { n: 1, tasks: vec![vec![block(&[0], &[])]] }.file();
    let mut sheets = vec![vec![]];
    for _ in 0..7 {
        for sheet in &sheets {
            compare_nested(report, &two, sheet, 2);
            compare_nested(report, &one, sheet, 2);
        }
        sheets = sheets.iter().flat_map(|sheet| numbers.map(|x| [sheet.as_slice(), &[x]].concat())).collect();
    }
}

fn compare_microseconds(report: &mut Report, number: u32, penalty: u32, clock: u32, places: usize) {
    let mut found = vec![OLD_WIDE; places];
    let status = calls::microseconds(number, penalty, clock, &mut found);
    let (mut check, mut expected) = (1, vec![OLD_WIDE; places]);
    let mut faults = vec![];
    if places == 3 {
        let answer = independent::microseconds(number, penalty, clock);
        let (whole, remainder) = answer.unwrap_or((0, 0));
        check = told(&answer).0;
        expected = vec![told(&answer).1 as u32, whole, remainder];
        let wrapped = crpd::microseconds(number, penalty, clock).map(|Time { whole, remainder }| (whole, remainder));
        faults.push(differ("result", &[answer], &[wrapped.map_err(Refusal::numbers)]));
    }
    faults.extend([differ("status", &[check], &[status]), differ("answer", &expected, &found)]);
    let arguments = format!("number {number}, penalty {penalty}, clock {clock}, answer of {places}");
    report.add("crpd_microseconds", check, &[], arguments, faults);
}

/// Numbers 0 to 18 and the two largest of 32 bits, with penalties and clocks at each bound, next to it and at the largest of
/// 32 bits, and lists of a wrong length.
fn compare_times(report: &mut Report) {
    for number in (0..=18).chain([u32::MAX - 1, u32::MAX]) {
        for penalty in [0, 1, 2, 999, 1000, 1001, u32::MAX] {
            for clock in [0, 1, 2, 3, 999_999, 1_000_000, 1_000_001, u32::MAX] {
                compare_microseconds(report, number, penalty, clock, 3);
            }
        }
        for places in [0, 1, 2, 4, 5] {
            compare_microseconds(report, number, 1, 3, places);
        }
    }
}

/// The times of the numbers of a table, none of which is refused.
fn compare_table_times(report: &mut Report, random: &mut Random, file: &[u8], table: &[u16]) {
    for &number in BTreeSet::from_iter(table) {
        let (penalty, clock) = (1 + random.below(1000) as u32, 1 + random.below(1_000_000) as u32);
        compare_microseconds(report, number.into(), penalty, clock, 3);
        let refused = crpd::microseconds(number.into(), penalty, clock).err().map(|refusal| refusal.to_string());
        report.add("table times", 0, file, format!("number {number}, penalty {penalty}, clock {clock}"), vec![refused]);
    }
}

/// What the independent implementation has of a file.
type Analysis = Result<Analysed, independent::Refusal>;

/// A call for a costliest run: the two tasks, and the lengths of the two work areas, the sheet and the answer.
#[derive(Clone, Copy, Debug)]
struct Asked {
    i: usize,
    j: usize,
    areas: [usize; 2],
    room: usize,
    places: usize,
}

impl Asked {
    /// With lists of the right length.
    fn of(i: usize, j: usize) -> Asked {
        Asked { i, j, areas: [AREA, AREA], room: COSTLIEST_SHEET, places: 2 }
    }
}

/// What is answered and written: a run that costs what it has to, with the places after it kept, or a refusal with all kept.
fn run_faults(
    analysed: &Analysis, expected: &Result<Cost, independent::Refusal>, answer: Result<usize, independent::Refusal>,
    sheet: &[u16],
) -> [Option<String>; 3] {
    let (run, after) = sheet.split_at(answer.unwrap_or(0).min(sheet.len()));
    let found = answer.and_then(|_| independent::cost(analysed, run));
    [
        differ("run", &[expected], &[&found]),
        differ("after the run", &vec![OLD_NUMBER; after.len()], after),
        (run.len() > COSTLIEST_SHEET).then(|| format!("a run of {} numbers", run.len())),
    ]
}

/// Which run is written, and with it its length, is left free: the independent implementation replays it. The work areas are
/// free afterwards, so they are compared only where `answer` is refused.
fn compare_costliest_run(report: &mut Report, file: &[u8], analysed: &Analysis, asked: Asked) {
    let Asked { i, j, areas, room, places } = asked;
    let [mut first, mut second] = areas.map(|length| vec![OLD_NUMBER; length]);
    let mut sheet = vec![OLD_NUMBER; room];
    let mut found = vec![OLD_COUNT; places];
    let status = calls::costliest_run(file, i, j, &mut first, &mut second, &mut sheet, &mut found);
    let mut name = "crpd_costliest_run";
    let (mut check, mut expected) = (1, vec![OLD_COUNT; places]);
    let mut faults = vec![];
    if places == 2 {
        let answer = independent::costliest_run(analysed, i, j, areas, room);
        check = told(&answer).0;
        expected = vec![told(&answer).1 as usize, if answer.is_ok() { found[1] } else { 0 }];
        let direct = if status == 0 { Ok(found[1]) } else { Err((status, found[0] as u8)) };
        faults.extend(run_faults(analysed, &answer, direct, &sheet));
        // the wrapper gets the areas with what the call left in them
        let mut other = vec![OLD_NUMBER; room];
        let wrapped = crpd::costliest_run(file, i, j, &mut first, &mut second, &mut other);
        faults.extend(run_faults(analysed, &answer, wrapped.map_err(Refusal::numbers), &other));
        // runs of tasks without an unmasked block are counted apart
        if answer.is_ok_and(|cost| cost.preempting.is_empty()) {
            name = "no unmasked block";
        }
        if status == 0 {
            compare_replay(report, file, &sheet[..found[1].min(room)], 4);
        }
    } else {
        for (name, list) in [("first area", &first), ("second area", &second), ("sheet", &sheet)] {
            faults.push(differ(name, &vec![OLD_NUMBER; list.len()], list));
        }
    }
    faults.extend([differ("status", &[check], &[status]), differ("answer", &expected, &found)]);
    report.add(name, check, file, format!("{asked:?}"), faults);
}

/// The costliest run of every two tasks of a file, and of tasks that aren't there.
fn compare_pairs(report: &mut Report, random: &mut Random, file: &[u8], t: usize) {
    let analysed = independent::analyse(file);
    for i in 0..t + 2 {
        for j in 0..t + 2 {
            let room = random.pick(&[COSTLIEST_SHEET, COSTLIEST_SHEET, COSTLIEST_SHEET + 1, 5000]);
            compare_costliest_run(report, file, &analysed, Asked { room, ..Asked::of(i, j) });
        }
    }
    // numbers that a byte, two bytes or four bytes would cut to 1, too
    for far in [8, 257, 65537, (1 << 32) + 1, usize::MAX] {
        for (i, j) in [(0, far), (far, 0), (far, far)] {
            compare_costliest_run(report, file, &analysed, Asked::of(i, j));
        }
    }
}

/// The costliest run with one list of a wrong length or more, of two tasks, of one task and of one that isn't there.
fn compare_run_lengths(report: &mut Report, file: &[u8]) {
    let analysed = independent::analyse(file);
    for (i, j) in [(0, 1), (1, 0), (0, 0), (0, 8)] {
        let asked = Asked::of(i, j);
        for wrong in [0, AREA - 1, AREA + 1] {
            for areas in [[wrong, AREA], [AREA, wrong], [wrong, wrong]] {
                for (room, places) in [(COSTLIEST_SHEET, 2), (COSTLIEST_SHEET - 1, 2), (COSTLIEST_SHEET, 1), (COSTLIEST_SHEET - 1, 3)] {
                    compare_costliest_run(report, file, &analysed, Asked { areas, room, places, ..asked });
                }
            }
        }
        for room in [0, 1, COSTLIEST_SHEET - 1, COSTLIEST_SHEET, COSTLIEST_SHEET + 1, 5000] {
            compare_costliest_run(report, file, &analysed, Asked { room, ..asked });
        }
        for places in [0, 1, 3, 4] {
            compare_costliest_run(report, file, &analysed, Asked { places, ..asked });
        }
    }
}

/// What the independent implementation has of the table of a file.
type Tabling = Result<Tabled, independent::Refusal>;

/// A call for response times: the list of times, the penalty, and the lengths of the work area and of `named`.
#[derive(Clone, Debug)]
struct AskedTimes {
    list: Vec<Record>,
    penalty: u32,
    area: usize,
    places: usize,
}

impl AskedTimes {
    /// With lists of the right length.
    fn of(list: Vec<Record>, penalty: u32) -> AskedTimes {
        AskedTimes { list, penalty, area: AREA, places: 1 }
    }
}

/// The records as the wrapper has them.
fn lent(list: &[Record]) -> Vec<Times> {
    list.iter().map(|&Record { c, t, d, r, late }| Times { c, t, d, r, late }).collect()
}

/// The work area is free afterwards, so it is compared only where `named` is refused. The list that the call left is handed
/// back where it is done.
fn compare_response_times(report: &mut Report, file: &[u8], tabled: &Tabling, asked: &AskedTimes) -> Option<Vec<Record>> {
    let AskedTimes { list, penalty, area: length, places } = asked;
    let mut area = vec![OLD_NUMBER; *length];
    let mut found = lent(list);
    let mut named = vec![OLD_BYTE; *places];
    let status = calls::response_times(file, &mut area, &mut found, *penalty, &mut named);
    let mut expected = list.clone();
    let (mut check, mut expected_named) = (1, vec![OLD_BYTE; *places]);
    let mut faults = vec![];
    if *places == 1 {
        let answer = independent::response_times(tabled, *length, &mut expected, *penalty);
        check = told(&answer).0;
        expected_named = vec![told(&answer).1];
        // the wrapper gets the area with what the call left in it
        let mut other = lent(list);
        let wrapped = crpd::response_times(file, &mut area, &mut other, *penalty);
        faults.push(differ("result", &[answer], &[wrapped.map_err(Refusal::numbers)]));
        faults.push(differ("list of the wrapper", &lent(&expected), &other));
    } else {
        faults.push(differ("area", &vec![OLD_NUMBER; *length], &area));
    }
    faults.extend([
        differ("status", &[check], &[status]),
        differ("named", &expected_named, &named),
        differ("list", &lent(&expected), &found),
    ]);
    report.add("crpd_response_times", check, file, format!("{asked:?}"), faults);
    let left = |&Times { c, t, d, r, late }: &Times| Record { c, t, d, r, late };
    (status == 0).then(|| found.iter().map(left).collect())
}

/// What task i and the higher tasks ask for in a time of r, by a table.
fn asked_for(list: &[Record], table: &[u16], penalty: u32, i: usize, r: u32) -> u64 {
    let cost = |j: usize| {
        let pairs: u64 = (j + 1..=i).map(|h| u64::from(table[8 * h + j])).sum();
        u64::from(list[j].c) + u64::from(penalty) * pairs
    };
    u64::from(list[i].c) + (0..i).map(|j| u64::from(r.div_ceil(list[j].t)) * cost(j)).sum::<u64>()
}

/// The tasks of an answered list, those in time and those that are late apart; an R meets the equation by the proved table.
fn count_tasks(report: &mut Report, file: &[u8], list: &[Record], table: &[u16], penalty: u32) {
    for (i, &Record { d, r, late, .. }) in list.iter().enumerate() {
        let met = 0 < r && r <= d && asked_for(list, table, penalty, i, r) == u64::from(r);
        let fault = (late == met || late != (r == 0)).then(|| format!("task {i}: R {r}, late {late}"));
        let name = if late { "task late" } else { "task in time" };
        report.add(name, 0, file, format!("{list:?}, penalty {penalty}"), vec![fault]);
    }
}

/// The answer for a list, where there is one, and then for deadlines at R and next to it.
fn compare_list(report: &mut Report, random: &mut Random, file: &[u8], tabled: &Tabling, table: &[u16], list: Vec<Record>) {
    let penalty = penalty(random);
    let Some(answered) = compare_response_times(report, file, tabled, &AskedTimes::of(list, penalty)) else {
        return;
    };
    count_tasks(report, file, &answered, table, penalty);
    let moved = deadlines(random, &answered);
    let Some(again) = compare_response_times(report, file, tabled, &AskedTimes::of(moved, penalty)) else {
        return;
    };
    for (before, after) in answered.iter().zip(&again).filter(|(before, _)| !before.late) {
        let (name, expected) = match after.d {
            d if d + 1 == before.r => ("deadline R - 1", (0, true)),
            d if d == before.r => ("deadline R", (before.r, false)),
            d if d == before.r + 1 => ("deadline R + 1", (before.r, false)),
            _ => continue,
        };
        let fault = differ(name, &[expected], &[(after.r, after.late)]);
        report.add(name, 0, file, format!("{again:?}, penalty {penalty}"), vec![fault]);
    }
}

/// The list with each number of task i at its bounds and next to them, and of other lengths.
fn compare_bounds(report: &mut Report, file: &[u8], tabled: &Tabling, list: &[Record], i: usize) {
    for (list, penalty) in times_at_bounds(list, i) {
        compare_response_times(report, file, tabled, &AskedTimes::of(list, penalty));
    }
}

/// Response times of a file of t tasks, which may have too many states: short, middling and long times, and a few that may be
/// out of bounds; with every eighth seed all bounds.
fn compare_budgets(report: &mut Report, random: &mut Random, file: &[u8], t: usize, table: &[u16], seed: u64) {
    let tabled = independent::tabled(file);
    for longest in [20, 300, 3000, 1_000_000] {
        let list = times(random, t, longest);
        compare_list(report, random, file, &tabled, table, list);
    }
    let list = times(random, t, 40);
    let mut others = times_at_bounds(&list, random.below(t));
    for _ in 0..3 {
        let (list, penalty) = others.swap_remove(random.below(others.len()));
        compare_response_times(report, file, &tabled, &AskedTimes::of(list, penalty));
    }
    // 11 goes before 21
    compare_response_times(report, file, &tabled, &AskedTimes::of(vec![], 0));
    if seed % 8 == 0 {
        compare_bounds(report, file, &tabled, &list_in_time(t), random.below(t));
    }
}

/// Times of t tasks that are in time where a miss costs little.
fn list_in_time(t: usize) -> Vec<Record> {
    (0..t as u32).map(|i| Record { c: 1 + i, t: 500 + 100 * i, d: 400 + 100 * i, r: OLD_WIDE, late: i % 2 == 0 }).collect()
}

/// Response times with one list of a wrong length or more, and with times that are refused too.
fn compare_times_lengths(report: &mut Report, file: &[u8]) {
    let tabled = independent::tabled(file);
    let t = file.get(6).map_or(0, |&t| usize::from(t).min(9));
    for list in [list_in_time(t), vec![]] {
        for (area, places) in [(0, 1), (5, 1), (AREA - 1, 1), (AREA + 1, 1), (5, 0), (AREA, 0), (AREA, 2), (AREA, 3)] {
            compare_response_times(report, file, &tabled, &AskedTimes { area, places, ..AskedTimes::of(list.clone(), 1) });
        }
    }
}

/// Times at all bounds, and times with many numbers to try, on tasks without references.
fn compare_time_limits(report: &mut Report, random: &mut Random) {
    for t in [1, 2, 8] {
        let file = Made { n: 1, tasks: vec![empty_task(); t] }.file();
        for i in 0..t {
            compare_bounds(report, &file, &independent::tabled(&file), &list_in_time(t), i);
        }
    }
    let file = Made { n: 1, tasks: vec![empty_task(); 8] }.file();
    for list in slow_times() {
        compare_list(report, random, &file, &independent::tabled(&file), &[0; 64], list);
    }
}

/// Sheets with a length or a count at its limit or next to it, without and with a masked block.
fn compare_sheet_limits(report: &mut Report) {
    for file in [loops(false).file(), loops(true).file()] {
        for length in [1, 2, 64, 65, 1535, 1536, 1537] {
            for count in [0, 1, 15, 16, 17] {
                for other in [1, 64, 65, 1535, 1536, 1537] {
                    compare_replay(report, &file, &loop_sheet(length, count, other), 4);
                }
            }
        }
    }
}

/// The examples of document 01, the same file with flags, and examples of Points 2, 3 and 5 to 8 hold of the independent
/// implementation.
fn examples() {
    let e = Made { n: 2, tasks: vec![vec![block(&[0], &[0, 1])], vec![block(&[], &[2])]] }.file();
    assert_eq!(e.len(), 33);
    let mut table = [7; 64];
    assert_eq!(independent::table(&e, AREA, &mut table), Ok(()));
    assert_eq!((table[1], table[8], table.iter().sum::<u16>()), (1, 0, 1));
    assert_eq!(independent::replay(&e, &[0, 2, 0, 0, 1, 0, 2, 1, 1, 0]), Ok((2, 3, 1)));
    assert_eq!(independent::replay(&e, &[0, 2, 0, 0, 0]), Ok((2, 2, 0)));
    assert_eq!(independent::replay(&e, &[0, 2, 0, 0, 1, 1, 2, 1, 1, 0]), Ok((2, 2, 0)));
    assert_eq!(independent::replay(&e, &[0, 0]), Err((12, 255)));
    assert_eq!(independent::replay(&e, &[0, 1, 5, 0]), Err((13, 255)));
    // byte 18 has the flags of the block of task 0
    let with_flags = |flags: u8| [&e[..18], &[flags], &e[19..]].concat();
    let masked = with_flags(1);
    assert_eq!(independent::table(&masked, AREA, &mut table), Ok(()));
    assert_eq!(table, [0; 64]);
    assert_eq!(independent::replay(&masked, &[0, 2, 0, 0, 1, 0, 2, 1, 1, 0]), Err((16, 255)));
    assert_eq!(independent::replay(&masked, &[0, 2, 0, 0, 0]), Ok((2, 2, 0)));
    assert_eq!(independent::replay(&masked, &[1, 1, 0, 1, 0, 1, 0, 1, 0]), Ok((1, 1, 0)));
    assert_eq!(independent::table(&with_flags(2), AREA, &mut table), Err((8, 0)));
    assert_eq!(independent::microseconds(1, 1, 3), Ok((333, 1)));
    assert_eq!(independent::microseconds(16, 1000, 1), Ok((16_000_000, 0)));
    assert_eq!(independent::microseconds(17, 1000, 1), Err((17, 255)));
    let analysed = independent::analyse(&e);
    let cost = |i: usize, j: usize, room: usize| independent::costliest_run(&analysed, i, j, [AREA, AREA], room);
    assert_eq!(cost(0, 1, 2311), independent::cost(&analysed, &[0, 2, 0, 0, 1, 0, 2, 1, 1, 0]));
    assert_eq!(cost(1, 0, 2311), independent::cost(&analysed, &[1, 1, 0, 1, 0, 1, 0, 1, 0]));
    assert_eq!(cost(0, 2, 2310), Err((18, 255)));
    assert_eq!(cost(0, 1, 2310), Err((19, 255)));
    shared_examples(&e);
    point_examples(&e);
    nested_examples(&e);
    response_examples(&e);
}

/// A block without a mask.
fn block(successors: &[usize], references: &[u16]) -> Block {
    Block { masked: false, successors: successors.to_vec(), references: references.to_vec() }
}

/// The first two pair numbers of a file of two tasks, and what Replay answers for a sheet.
fn answers(file: &[u8], sheet: &[u16]) -> (u16, u16, Result<(u32, u32, u32), independent::Refusal>) {
    let mut table = [7; 64];
    assert_eq!(independent::table(file, AREA, &mut table), Ok(()));
    (table[1], table[8], independent::replay(file, sheet))
}

/// Files whose tasks share memory blocks: E where task 1 reads 0, and three files where a claim next to Point 5's is false.
fn shared_examples(e: &[u8]) {
    let reads_0 = [&e[..31], &[0], &e[32..]].concat();
    assert_eq!(answers(&reads_0, &[0, 2, 0, 0, 1, 0, 2, 1, 1, 0]), (0, 0, Ok((2, 2, 0))));
    let gain = Made { n: 1, tasks: vec![vec![block(&[1], &[]), block(&[], &[4])], vec![block(&[], &[4])]] }.file();
    assert_eq!(answers(&gain, &[0, 2, 0, 1, 1, 0, 0, 1, 1, 0]), (0, 0, Ok((1, 0, 0))));
    let both = Made { n: 2, tasks: vec![vec![block(&[1], &[0]), block(&[], &[0, 1])], vec![block(&[], &[2, 1])]] }.file();
    assert_eq!(answers(&both, &[0, 2, 0, 1, 1, 0, 1, 1, 1, 0]), (1, 0, Ok((2, 2, 1))));
    assert_eq!(answers(&both, &[0, 2, 0, 1, 1, 1, 1, 1, 1, 0]), (1, 0, Ok((2, 1, 0))));
    assert_eq!(answers(&both, &[0, 2, 0, 1, 1, 1, 2, 1, 1, 0]), (1, 0, Ok((2, 2, 0))));
    let same = Made { n: 1, tasks: vec![vec![block(&[0], &[2])], vec![block(&[], &[2])]] }.file();
    assert_eq!(answers(&same, &[0, 2, 0, 0, 1, 0, 1, 1, 1, 0]), (0, 0, Ok((1, 1, 0))));
}

/// Preemptions between two references: refusals on E, and two files where a claim next to Point 6's is false.
fn point_examples(e: &[u8]) {
    let after = |position: u16, done: u16| [0, 2, 0, 0, 1, position, done, 1, 1, 0];
    assert_eq!(independent::replay(e, &after(0, 1)), Ok((2, 3, 1)));
    for (position, done, check) in [(0, 0, 13), (0, 3, 13), (2, 2, 12)] {
        assert_eq!(independent::replay(e, &after(position, done)), Err((check, 255)));
    }
    let both = |first: u16, second: u16| [0, 2, 0, 0, 2, 0, first, 1, 1, 0, 0, second, 1, 1, 0];
    assert_eq!(independent::replay(e, &both(2, 1)), Err((12, 255)));
    assert_eq!(independent::replay(e, &both(9, 2)), Err((12, 255)));
    let twice = Made { n: 1, tasks: vec![vec![block(&[], &[6, 6])], vec![block(&[], &[4])]] }.file();
    assert_eq!(answers(&twice, &[0, 1, 0, 1, 0, 1, 1, 1, 0]), (1, 0, Ok((1, 2, 1))));
    let first = Block { masked: true, ..block(&[1], &[6]) };
    let entered = Made { n: 1, tasks: vec![vec![first, block(&[], &[6])], vec![block(&[], &[4])]] }.file();
    assert_eq!(answers(&entered, &[0, 2, 0, 1, 1, 1, 0, 1, 1, 0]), (0, 0, Err((13, 255))));
}

/// Nested sheets of E, of a file with one task and of eight tasks of one block, by the readings of Point 7.
fn nested_examples(e: &[u8]) {
    assert_eq!(independent::nested(e, &[0, 2, 0, 0, 0]), Ok(2));
    assert_eq!(independent::nested(e, &[0, 2, 0, 0, 1, 0, 2, 1, 1, 0, 0]), Ok(4));
    assert_eq!(independent::nested(e, &[0, 2, 0, 0, 1, 0, 3, 1, 1, 0, 0]), Err((13, 255)));
    assert_eq!(independent::nested(e, &[0, 2, 0, 0, 1, 0, 2, 0, 1, 0, 0]), Err((20, 255)));
    // the first number at fault decides, and a missing one comes last
    assert_eq!(independent::nested(e, &[0, 2, 0, 0, 1, 0, 2, 0]), Err((20, 255)));
    assert_eq!(independent::nested(e, &[0, 2, 0, 0, 1, 2, 2, 0]), Err((12, 255)));
    assert_eq!(independent::nested(e, &[0, 2, 0, 0, 1, 0, 2, 1, 1, 0, 1, 0, 1, 0]), Err((20, 255)));
    assert_eq!(independent::nested(e, &[0, 2, 0, 0, 1, 0, 2, 1, 1, 0, 0, 0]), Err((12, 255)));
    // with one task a count of 1 is no fault yet
    let one = Made { n: 1, tasks: vec![vec![block(&[], &[])]] }.file();
    assert_eq!(independent::nested(&one, &[0, 1, 0, 1]), Err((12, 255)));
    assert_eq!(independent::nested(&one, &[0, 1, 0, 1, 0, 0, 0]), Err((20, 255)));
    // at depth 7 a count above 0 is check 20, and one above 16 is check 12
    let eight = Made { n: 1, tasks: (0..8).map(|i| vec![block(&[], &[i])]).collect() }.file();
    let tower = |last: u16| {
        let runs = (0..8).map(|i| if i == 7 { [7, 1, 0, last] } else { [i, 1, 0, 1] });
        runs.collect::<Vec<_>>().join(&[0, 1][..])
    };
    assert_eq!(independent::nested(&eight, &tower(0)), Ok(8));
    for (last, check) in [(1, 20), (16, 20), (17, 12)] {
        assert_eq!(independent::nested(&eight, &tower(last)), Err((check, 255)));
    }
}

/// The response times of a file with these times, 0 for a task that is late.
fn responses(file: &[u8], times: &[(u32, u32, u32)], penalty: u32) -> Result<Vec<u32>, independent::Refusal> {
    let mut list: Vec<Record> = times.iter().map(|&(c, t, d)| Record { c, t, d, r: 9, late: true }).collect();
    independent::response_times(&independent::tabled(file), AREA, &mut list, penalty)?;
    assert!(list.iter().all(|record| record.late == (record.r == 0)));
    Ok(list.iter().map(|record| record.r).collect())
}

/// Response times of tasks without references, of E, of E with its tasks exchanged and of three loops; each bound; a file that
/// is refused by 11.
fn response_examples(e: &[u8]) {
    let empty = Made { n: 1, tasks: vec![empty_task(), empty_task()] }.file();
    let two = |first: (u32, u32, u32), second: (u32, u32, u32), penalty: u32| responses(&empty, &[first, second], penalty);
    assert_eq!(two((1, 2, 2), (1, 10, 10), 0), Ok(vec![1, 2]));
    let million = 1_000_000;
    assert_eq!(two((million, million, million), (1, million, million), 0), Ok(vec![million, 0]));
    assert_eq!(responses(e, &[(1, 10, 10), (5, 20, 20)], 3), Ok(vec![1, 6]));
    let exchanged = Made { n: 2, tasks: vec![vec![block(&[], &[2])], vec![block(&[0], &[0, 1])]] }.file();
    for (d, r) in [(20, 9), (9, 9), (8, 0)] {
        assert_eq!(responses(&exchanged, &[(1, 10, 10), (5, 20, d)], 3), Ok(vec![1, r]));
    }
    let three = Made { n: 2, tasks: [vec![5, 0], vec![7, 4], vec![6, 5, 7]].map(|m| vec![block(&[0], &m)]).to_vec() }.file();
    assert_eq!(responses(&three, &[(1, 20, 20), (2, 40, 40), (3, 100, 100)], 2), Ok(vec![1, 7, 14]));
    let last = (1, 10, 10);
    for out in [0, million + 1, u32::MAX] {
        for refused in [two((out, 2, 2), last, 0), two((1, out, 2), last, 0), two((1, 2, out), last, 0), two((1, out, out), last, 0)] {
            assert_eq!(refused, Err((21, 255)));
        }
    }
    assert_eq!(two((1, 2, 3), last, 0), Err((21, 255)));
    assert_eq!(two((1, 2, 2), last, 1000), Ok(vec![1, 2]));
    assert_eq!(two((1, 2, 2), last, 1001), Err((21, 255)));
    for length in [0, 1, 3, 9] {
        assert_eq!(responses(&empty, &vec![last; length], 0), Err((21, 255)));
    }
    let crowded = crowded().pop().map_or(vec![], |made| made.file());
    assert_eq!(responses(&crowded, &[], 0), Err((11, 0)));
}

/// A valid file: every call with lists of the right length, every task and some that aren't there.
fn compare_made(report: &mut Report, random: &mut Random, made: &Made, seed: u64) {
    let file = made.file();
    compare_read(report, &file, 3);
    for task in (0..=made.tasks.len()).chain([8, 256, usize::MAX]) {
        compare_body(report, &file, task, 2);
        let area = compare_states(report, &file, task, AREA, 1);
        if seed % 4 == 0 {
            compare_rows(report, random, &area);
        }
        if seed < 40 {
            compare_all_rows(report, &area);
        }
    }
    let table = compare_table(report, &file, AREA, 64, 1);
    for _ in 0..4 {
        compare_runs(report, random, made, &file, &table);
    }
    if filled(&table) {
        compare_table_times(report, random, &file, &table);
    }
    let nesting = random.pick(&Nesting::ALL);
    compare_nesting(report, random, made, nesting, &table);
    compare_pairs(report, random, &file, made.tasks.len());
    compare_budgets(report, random, &file, made.tasks.len(), &table, seed);
    compare_writing(report, random, made);
    if seed % 8 == 0 {
        compare_lengths(report, &file);
    }
}

/// The same file with each kind of fault.
fn compare_damaged(report: &mut Report, random: &mut Random, made: &Made, seed: u64) {
    for kind in 0..DAMAGES {
        let broken = damaged(random, made, kind);
        compare_file(report, &broken, random.below(made.tasks.len() + 1));
        compare_replay(report, &broken, &sheet(random, &made.tasks).0, 4);
        if let Some(masked) = masked_sheet(random, &made.tasks) {
            compare_replay(report, &broken, &masked, 4);
        }
        compare_nested(report, &broken, &nested(random, &made.tasks, Nesting::Mixed).numbers(), 2);
        let asked = Asked::of(random.below(made.tasks.len() + 1), random.below(made.tasks.len() + 1));
        compare_costliest_run(report, &broken, &independent::analyse(&broken), asked);
        let list = times(random, made.tasks.len(), 300);
        compare_response_times(report, &broken, &independent::tabled(&broken), &AskedTimes::of(list, 1));
        compare_broken_bodies(report, made, &broken);
        if seed % 64 == 0 {
            compare_lengths(report, &broken);
        }
    }
}

fn main() {
    let files = std::env::args().nth(1).map_or(FILES, |count| count.parse().expect("the argument is a number of files"));
    examples();
    let mut report = Report::default();
    let whole = longest();
    let file = whole.file();
    assert_eq!(file.len(), 7544);
    compare_made(&mut report, &mut Random::new(0), &whole, 0);
    compare_file(&mut report, &[file.as_slice(), &[0]].concat(), 0);
    compare_sheet_limits(&mut report);
    compare_nested_limits(&mut report);
    compare_towers(&mut report);
    compare_times(&mut report);
    compare_time_limits(&mut report, &mut Random::new(0));
    for crowded in crowded() {
        let file = crowded.file();
        let table = compare_table(&mut report, &file, AREA, 64, 1);
        compare_pairs(&mut report, &mut Random::new(0), &file, crowded.tasks.len());
        compare_budgets(&mut report, &mut Random::new(0), &file, crowded.tasks.len(), &table, 1);
    }
    for seed in 0..files {
        let mut random = Random::new(seed);
        let made = made(&mut random);
        compare_made(&mut report, &mut random, &made, seed);
        compare_damaged(&mut report, &mut random, &made, seed);
    }
    report.print();
    std::process::exit(i32::from(report.differences > 0));
}
