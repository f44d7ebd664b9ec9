//! Measures the proved calls against plain Rust versions of them, on the same inputs in the same run.
mod files;
mod plain;
mod proved;

use crpd::{Times, AREA_LENGTH, COSTLIEST_SHEET_LENGTH, TABLE_LENGTH};
use files::drawn::{self, Drawn};
use files::{times, Parts};
use std::hint::black_box;
use std::time::Instant;

/// The checks that an input of its own fails: on files, on sheets, on nested sheets, of the writer, of the costliest run, and of response
/// times.
const FILE_CHECKS: [u8; 8] = [2, 3, 4, 5, 6, 7, 8, 9];
const SHEET_CHECKS: [u8; 3] = [12, 13, 16];
const NESTED_CHECKS: [u8; 4] = [12, 13, 16, 20];
const WRITER_CHECKS: [u8; 6] = [5, 6, 7, 8, 9, 14];
const RUN_CHECKS: [u8; 2] = [18, 19];
const TIMES_CHECKS: [u8; 1] = [21];

/// How many calls take about 20 ms.
fn calls_a_round(call: &mut impl FnMut()) -> usize {
    let start = Instant::now();
    call();
    let once = start.elapsed().as_nanos().max(20) as usize;
    (20_000_000 / once).clamp(1, 1_000_000)
}

/// The time of a call in nanoseconds, over a round of calls.
fn round(calls: usize, call: &mut impl FnMut()) -> f64 {
    let start = Instant::now();
    for _ in 0..calls {
        call();
    }
    start.elapsed().as_nanos() as f64 / calls as f64
}

/// The least times of two calls over nine rounds of each, by turns, so that both meet the same load of the machine.
fn measure(mut first: impl FnMut(), mut second: impl FnMut()) -> (f64, f64) {
    let (first_calls, second_calls) = (calls_a_round(&mut first), calls_a_round(&mut second));
    let mut least = (f64::MAX, f64::MAX);
    for _ in 0..9 {
        least.0 = least.0.min(round(first_calls, &mut first));
        least.1 = least.1.min(round(second_calls, &mut second));
    }
    least
}

/// One or several inputs of a kind; several where they are drawn, since one says little.
struct Class<I> {
    name: String,
    inputs: Vec<I>,
}

/// A class of one input.
fn single<I>(name: &str, input: I) -> Class<I> {
    Class { name: name.to_string(), inputs: vec![input] }
}

/// The lines of one call after the other, and the ratios of all.
#[derive(Default)]
struct Lines {
    call: &'static str,
    ratios: Vec<(f64, String)>,
}

impl Lines {
    /// The heading of the lines of a call.
    fn heading(&mut self, call: &'static str) {
        self.call = call;
        println!("{call}, ns a call (the least of nine rounds; where a class has several inputs, their mean)");
        println!("{:18} {:>12} {:>12} {:>8} {:>8}", "class", "plain Rust", "proved", "ratio", "greatest");
    }

    /// Measures both versions on the inputs of a class and prints the means of their times, the ratio of the means, and the greatest ratio of one
    /// input.
    fn line<I, A>(&mut self, class: &Class<I>, mut plain: impl FnMut(&I) -> A, mut proved: impl FnMut(&I) -> A) {
        let (mut plain_sum, mut proved_sum, mut greatest) = (0.0, 0.0, 0.0f64);
        for input in &class.inputs {
            let (plain_time, proved_time) = measure(
                || {
                    black_box(plain(black_box(input)));
                },
                || {
                    black_box(proved(black_box(input)));
                },
            );
            plain_sum += plain_time;
            proved_sum += proved_time;
            greatest = greatest.max(proved_time / plain_time);
        }
        let (count, ratio) = (class.inputs.len() as f64, proved_sum / plain_sum);
        println!("{:18} {:12.1} {:12.1} {ratio:8.4} {greatest:8.4}", class.name, plain_sum / count, proved_sum / count);
        self.ratios.push((ratio, format!("{}, {}", self.call, class.name)));
    }

    /// The least and the greatest ratio.
    fn print_range(&mut self) {
        self.ratios.sort_by(|a, b| a.0.total_cmp(&b.0));
        let ((least, first), (greatest, last)) = (&self.ratios[0], &self.ratios[self.ratios.len() - 1]);
        println!("proved to plain Rust: from {least:.4} ({first}) to {greatest:.4} ({last})");
    }
}

/// A class for each check, of the input that fails it.
fn refused_by<I>(checks: &[u8], inputs: impl IntoIterator<Item = I>) -> Vec<Class<I>> {
    checks.iter().zip(inputs).map(|(check, input)| single(&format!("refused by {check}"), input)).collect()
}

/// A class of drawn files, with what is made of each.
fn several<I>(name: &str, files: Vec<Drawn>, made: impl Fn(&Drawn) -> I) -> Class<I> {
    Class { name: name.to_string(), inputs: files.iter().map(made).collect() }
}

/// The files that Table, States and Costliest run take.
fn file_classes() -> Vec<Class<Vec<u8>>> {
    let mut classes = vec![
        single("tiny", files::tiny()),
        several("typical", drawn::typical(), Drawn::file),
        single("few references", files::few_references()),
        single("few, library", files::few_references_library()),
        single("masked", files::masked()),
        several("hard", drawn::hard(), Drawn::file),
        several("hard, misses", drawn::hard_misses(), Drawn::file),
        several("hard, pairs", drawn::hard_pairs(), Drawn::file),
        several("many predecessors", drawn::many_predecessors(), Drawn::file),
        single("largest", files::largest()),
        single("largest, library", files::largest_library()),
        single("many ends", files::many_ends()),
        single("varied", files::varied()),
        single("long traces", files::long_traces()),
        single("full blocks", files::full_blocks()),
        single("full, library", files::full_blocks_library()),
        single("refused by 11", files::refused_states()),
        several("refused late", drawn::refused_late(), Drawn::file),
    ];
    classes.extend(refused_by(&FILE_CHECKS, files::refused_early()));
    classes
}

fn table(lines: &mut Lines) {
    lines.heading("Table");
    let (mut area, mut other_area) = (vec![0; AREA_LENGTH], vec![0; AREA_LENGTH]);
    for class in &file_classes() {
        let (mut numbers, mut other) = ([7; TABLE_LENGTH], [7; TABLE_LENGTH]);
        for file in &class.inputs {
            let expected = plain::table(file, &mut area, &mut numbers);
            assert_eq!(expected, proved::table(file, &mut other_area, &mut other), "{}", class.name);
            assert_eq!(numbers, other, "{}", class.name);
        }
        lines.line(
            class,
            |file| plain::table(file, &mut area, &mut numbers),
            |file| proved::table(file, &mut other_area, &mut other),
        );
    }
}

/// States of the last task of each file.
fn states(lines: &mut Lines) {
    lines.heading("States");
    let (mut area, mut other) = (vec![0; AREA_LENGTH], vec![0; AREA_LENGTH]);
    for class in &file_classes() {
        for file in &class.inputs {
            area.fill(7);
            other.fill(7);
            let task = files::last_task(file);
            let expected = plain::states(file, task, &mut area);
            assert_eq!(expected, proved::states(file, task, &mut other), "{}", class.name);
            assert!(area == other, "{}", class.name);
        }
        lines.line(
            class,
            |file| plain::states(file, files::last_task(file), &mut area),
            |file| proved::states(file, files::last_task(file), &mut other),
        );
    }
}

/// A file and a sheet.
type Replayed = (Vec<u8>, Vec<u16>);

/// The accepted inputs of Replay.
fn accepted_replays() -> Vec<Class<Replayed>> {
    let with_sheet = |drawn: &Drawn| (drawn.file(), drawn.sheet());
    vec![
        single("tiny", (files::tiny(), files::tiny_sheet())),
        several("typical", drawn::typical(), with_sheet),
        single("few references", (files::few_references(), files::few_references_sheet())),
        several("hard", drawn::hard(), with_sheet),
        several("many predecessors", drawn::many_predecessors(), with_sheet),
        single("largest", (files::largest(), files::largest_sheet())),
        single("longest paths", (files::largest(), files::longest_sheet())),
        single("full blocks", (files::full_blocks(), files::full_blocks_sheet())),
    ]
}

fn replay_classes() -> Vec<Class<Replayed>> {
    let early = files::refused_early().into_iter().map(|file| (file, files::few_references_sheet()));
    let mut classes = accepted_replays();
    classes.extend(refused_by(&FILE_CHECKS, early));
    classes.extend(refused_by(&SHEET_CHECKS, files::refused_sheets()));
    classes
}

fn replay(lines: &mut Lines) {
    lines.heading("Replay");
    for class in &replay_classes() {
        for (file, sheet) in &class.inputs {
            assert_eq!(plain::replay(file, sheet), proved::replay(file, sheet), "{}", class.name);
        }
        lines.line(class, |(file, sheet)| plain::replay(file, sheet), |(file, sheet)| proved::replay(file, sheet));
    }
}

/// The accepted inputs of Nested replay.
fn accepted_nested() -> Vec<Class<Replayed>> {
    let with_sheet = |drawn: &Drawn| (drawn.file(), drawn.nested_sheet());
    let with_short_runs = |drawn: &Drawn| (drawn.file(), drawn.short_runs());
    vec![
        single("tiny", (files::tiny(), files::tiny_nested())),
        several("typical", drawn::typical(), with_sheet),
        several("short runs", drawn::typical(), with_short_runs),
        single("few references", (files::few_references(), files::few_references_nested())),
        single("few, library", (files::few_references_library(), files::few_references_nested())),
        several("hard", drawn::hard(), with_sheet),
        several("many predecessors", drawn::many_predecessors(), with_sheet),
        single("wide", (files::largest(), files::wide_nested())),
        single("deep", (files::largest(), files::deep_nested())),
        single("branching", (files::largest(), files::branching_nested())),
        single("longest paths", (files::largest(), files::longest_nested())),
        single("short paths", (files::largest(), files::short_nested())),
        single("full blocks", (files::full_blocks(), files::full_blocks_nested())),
    ]
}

fn nested_classes() -> Vec<Class<Replayed>> {
    let early = files::refused_early().into_iter().map(|file| (file, files::few_references_nested()));
    let mut classes = accepted_nested();
    classes.extend(refused_by(&FILE_CHECKS, early));
    classes.extend(refused_by(&NESTED_CHECKS, files::refused_nested()));
    classes
}

fn nested(lines: &mut Lines) {
    lines.heading("Nested replay");
    for class in &nested_classes() {
        for (file, sheet) in &class.inputs {
            assert_eq!(plain::nested(file, sheet), proved::nested(file, sheet), "{}", class.name);
        }
        lines.line(class, |(file, sheet)| plain::nested(file, sheet), |(file, sheet)| proved::nested(file, sheet));
    }
}

fn write_classes() -> Vec<Class<Parts>> {
    let mut classes = vec![
        single("tiny", files::parts(&files::tiny())),
        several("typical", drawn::typical(), |drawn| files::parts(&drawn.file())),
        single("few references", files::parts(&files::few_references())),
        several("hard", drawn::hard(), |drawn| files::parts(&drawn.file())),
        single("largest", files::parts(&files::largest())),
    ];
    classes.extend(refused_by(&WRITER_CHECKS, files::refused_parts()));
    classes
}

fn write(lines: &mut Lines) {
    lines.heading("Writer");
    for class in &write_classes() {
        let (mut out, mut other) = (vec![7; 8000], vec![7; 8000]);
        for p in &class.inputs {
            let expected = plain::write(p.n, &p.bodies, &p.lengths, &mut out[..p.room]);
            assert_eq!(expected, proved::write(p.n, &p.bodies, &p.lengths, &mut other[..p.room]), "{}", class.name);
            assert!(out == other, "{}", class.name);
        }
        lines.line(
            class,
            |p| plain::write(p.n, &p.bodies, &p.lengths, &mut out[..p.room]),
            |p| proved::write(p.n, &p.bodies, &p.lengths, &mut other[..p.room]),
        );
    }
}

/// A number, a penalty and a clock each: typical ones, the longest time, and ones that are refused.
fn microseconds(lines: &mut Lines) {
    lines.heading("Microseconds");
    let classes =
        [single("typical", (6, 30, 72_000)), single("largest", (16, 1000, 1)), single("refused by 17", (17, 30, 72_000))];
    for class in &classes {
        let (number, penalty, clock) = class.inputs[0];
        let expected = plain::microseconds(number, penalty, clock);
        assert_eq!(expected, proved::microseconds(number, penalty, clock), "{}", class.name);
        lines.line(class, |&(n, p, c)| plain::microseconds(n, p, c), |&(n, p, c)| proved::microseconds(n, p, c));
    }
}

/// A file, two tasks, and the length of the sheet for the costliest run.
struct Asked {
    file: Vec<u8>,
    i: usize,
    j: usize,
    room: usize,
}

/// Task 0 preempted by the last task of the file.
fn asked(file: Vec<u8>) -> Asked {
    Asked { i: 0, j: files::last_task(&file), room: COSTLIEST_SHEET_LENGTH, file }
}

/// One task given twice, and a sheet that is too short.
fn refused_runs() -> [Asked; 2] {
    let few = || asked(files::few_references());
    [Asked { j: 0, ..few() }, Asked { room: COSTLIEST_SHEET_LENGTH - 1, ..few() }]
}

fn run_classes() -> Vec<Class<Asked>> {
    let mut classes: Vec<Class<Asked>> =
        file_classes().into_iter().map(|c| Class { name: c.name, inputs: c.inputs.into_iter().map(asked).collect() }).collect();
    classes.extend(refused_by(&RUN_CHECKS, refused_runs()));
    classes
}

/// The lost hits of a run that was written, or the refusal.
fn lost(file: &[u8], sheet: &[u16], answer: Result<usize, plain::Refusal>) -> Result<u32, plain::Refusal> {
    let (_, _, lost) = plain::replay(file, &sheet[..answer?])?;
    Ok(lost)
}

/// Which run is written is left free, so the two versions may write different ones of as many lost hits.
fn costliest_run(lines: &mut Lines) {
    lines.heading("Costliest run");
    let (mut first, mut second, mut sheet) = (vec![0; AREA_LENGTH], vec![0; AREA_LENGTH], [7; COSTLIEST_SHEET_LENGTH]);
    let (mut other_first, mut other_second, mut other) = (first.clone(), second.clone(), sheet);
    for class in &run_classes() {
        for Asked { file, i, j, room } in &class.inputs {
            let expected = plain::costliest_run(file, *i, *j, &mut first, &mut second, &mut sheet[..*room]);
            let found = proved::costliest_run(file, *i, *j, &mut other_first, &mut other_second, &mut other[..*room]);
            assert_eq!(lost(file, &sheet, expected), lost(file, &other, found), "{}", class.name);
        }
        lines.line(
            class,
            |a| plain::costliest_run(&a.file, a.i, a.j, &mut first, &mut second, &mut sheet[..a.room]),
            |a| proved::costliest_run(&a.file, a.i, a.j, &mut other_first, &mut other_second, &mut other[..a.room]),
        );
    }
}

/// The lost hits of the run that the plain version writes, or its refusal.
fn plain_lost(a: &Asked) -> Result<u32, plain::Refusal> {
    let mut sheet = vec![7; a.room];
    let answer = plain::costliest_run(&a.file, a.i, a.j, &mut [0; AREA_LENGTH], &mut [0; AREA_LENGTH], &mut sheet);
    lost(&a.file, &sheet, answer)
}

/// A file, the times of its tasks, and the miss penalty.
struct Budget {
    file: Vec<u8>,
    list: Vec<Times>,
    penalty: u32,
}

/// Typical times for the tasks that a file speaks of.
fn budget(file: Vec<u8>) -> Budget {
    Budget { list: times::typical(files::last_task(&file) + 1), penalty: 20, file }
}

/// Times of tasks without references, so that the table takes little of the time.
fn iterations() -> Vec<Class<Budget>> {
    let without_misses = |list: Vec<Times>| Budget { file: files::no_references(), list, penalty: 0 };
    let little_left = times::little_time_left().into_iter().map(without_misses).collect();
    vec![
        single("no references", without_misses(times::typical(8))),
        single("overload", without_misses(times::overload())),
        single("no time left", without_misses(times::no_time_left())),
        Class { name: "little time left".to_string(), inputs: little_left },
    ]
}

/// A deadline over its period.
fn refused_times() -> [Budget; 1] {
    [Budget { list: times::refused(8), ..budget(files::no_references()) }]
}

fn budget_classes() -> Vec<Class<Budget>> {
    let with_times = |c: Class<Vec<u8>>| Class { name: c.name, inputs: c.inputs.into_iter().map(budget).collect() };
    let mut classes: Vec<Class<Budget>> = file_classes().into_iter().map(with_times).collect();
    classes.extend(iterations());
    classes.extend(refused_by(&TIMES_CHECKS, refused_times()));
    classes
}

fn response_times(lines: &mut Lines) {
    lines.heading("Response times");
    let (mut area, mut other_area) = (vec![0; AREA_LENGTH], vec![0; AREA_LENGTH]);
    let (mut list, mut other) = (vec![], vec![]);
    for class in &budget_classes() {
        for b in &class.inputs {
            list.clone_from(&b.list);
            other.clone_from(&b.list);
            let expected = plain::response_times(&b.file, &mut area, &mut list, b.penalty);
            assert_eq!(expected, proved::response_times(&b.file, &mut other_area, &mut other, b.penalty), "{}", class.name);
            assert_eq!(list, other, "{}", class.name);
        }
        lines.line(
            class,
            |b| {
                list.clone_from(&b.list);
                plain::response_times(&b.file, &mut area, &mut list, b.penalty)
            },
            |b| {
                other.clone_from(&b.list);
                proved::response_times(&b.file, &mut other_area, &mut other, b.penalty)
            },
        );
    }
}

/// The answer of the plain version for a budget: the list, or its refusal.
fn plain_times(b: &Budget) -> Result<Vec<Times>, plain::Refusal> {
    let mut list = b.list.clone();
    plain::response_times(&b.file, &mut [0; AREA_LENGTH], &mut list, b.penalty)?;
    Ok(list)
}

/// The inputs that are to be refused fail the checks that they are made for.
fn refused_as_meant() {
    let failed: Vec<u8> = files::refused_early().iter().map(|f| plain::replay(f, &[]).unwrap_err().0).collect();
    assert_eq!(failed, FILE_CHECKS);
    for file in drawn::refused_late().iter().map(Drawn::file).chain([files::refused_states()]) {
        assert_eq!(plain::table(&file, &mut [0; AREA_LENGTH], &mut [0; TABLE_LENGTH]), Err((11, 7)));
    }
    let failed: Vec<u8> = files::refused_sheets().iter().map(|(f, s)| plain::replay(f, s).unwrap_err().0).collect();
    assert_eq!(failed, SHEET_CHECKS);
    let failed: Vec<u8> = files::refused_nested().iter().map(|(f, s)| plain::nested(f, s).unwrap_err().0).collect();
    assert_eq!(failed, NESTED_CHECKS);
    let failed: Vec<u8> = files::refused_parts()
        .iter()
        .map(|p| plain::write(p.n, &p.bodies, &p.lengths, &mut vec![0; p.room]).unwrap_err().0)
        .collect();
    assert_eq!(failed, WRITER_CHECKS);
    assert_eq!(plain::microseconds(17, 30, 72_000), Err((17, 255)));
    let failed: Vec<u8> = refused_runs().iter().map(|a| plain_lost(a).unwrap_err().0).collect();
    assert_eq!(failed, RUN_CHECKS);
    let failed: Vec<u8> = refused_times().iter().map(|b| plain_times(b).unwrap_err().0).collect();
    assert_eq!(failed, TIMES_CHECKS);
}

/// The table of a file that is accepted.
fn table_of(file: &[u8]) -> [u16; TABLE_LENGTH] {
    let mut numbers = [0; TABLE_LENGTH];
    plain::table(file, &mut [0; AREA_LENGTH], &mut numbers).unwrap();
    numbers
}

/// How many tasks of a budget are late.
fn late(b: &Budget) -> usize {
    plain_times(b).unwrap().iter().filter(|times| times.late).count()
}

/// The other inputs are accepted, the writer gives back the files that its parts are made from, masks and a library change the
/// table, the costliest runs reach the numbers of the table, and with typical times no task is late.
fn accepted_as_meant() {
    for (file, sheet) in accepted_replays().into_iter().flat_map(|class| class.inputs) {
        let (without, with, lost) = plain::replay(&file, &sheet).unwrap();
        assert!(without < with && 0 < lost);
        let (parts, mut out) = (files::parts(&file), vec![0; file.len()]);
        assert_eq!(plain::write(parts.n, &parts.bodies, &parts.lengths, &mut out), Ok(file.len()));
        assert_eq!(out, file);
    }
    for (file, sheet) in accepted_nested().into_iter().flat_map(|class| class.inputs) {
        // with the list of the outer run left out there are fewer misses
        let end = 3 + sheet[1] as usize;
        let alone = [&sheet[..end - 1], &[0]].concat();
        assert!(plain::nested(&file, &alone).unwrap() < plain::nested(&file, &sheet).unwrap());
    }
    assert_ne!(table_of(&files::masked()), table_of(&files::few_references()));
    assert_ne!(table_of(&files::few_references_library()), table_of(&files::few_references()));
    assert_ne!(table_of(&files::largest_library()), table_of(&files::largest()));
    assert_ne!(table_of(&files::full_blocks_library()), table_of(&files::full_blocks()));
    let accepted = file_classes().into_iter().filter(|class| !class.name.starts_with("refused"));
    for file in accepted.flat_map(|class| class.inputs) {
        assert_eq!(plain_lost(&asked(file.clone())), Ok(table_of(&file)[files::last_task(&file)] as u32));
        assert_eq!(late(&budget(file)), 0);
    }
    let late_tasks: Vec<usize> = iterations().iter().flat_map(|class| &class.inputs).map(late).collect();
    assert_eq!(late_tasks, [0, 5, 7, 0, 3]);
}

fn main() {
    refused_as_meant();
    accepted_as_meant();
    let mut lines = Lines::default();
    for call in [table, states, replay, nested, write, microseconds, costliest_run, response_times] {
        call(&mut lines);
        println!();
    }
    lines.print_range();
}
