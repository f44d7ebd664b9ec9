//! Times for measuring: lists of execution times, periods and deadlines.
use super::Numbers;
use crpd::Times;

/// A list of tasks with these execution times and periods; each deadline is the period.
fn list(times: &[(u32, u32)]) -> Vec<Times> {
    times.iter().map(|&(c, t)| Times { c, t, d: t, r: 0, late: false }).collect()
}

/// For t tasks, which ask for about half of the time; longer periods have lower tasks.
pub fn typical(t: usize) -> Vec<Times> {
    let mut numbers = Numbers(t as u64);
    let mut task = |j: usize| {
        let period = 50_000 + 100_000 * j + numbers.below(50_000);
        ((period / (2 * t) + numbers.below(1000)) as u32, period as u32)
    };
    list(&(0..t).map(&mut task).collect::<Vec<_>>())
}

/// Tasks that ask for three tenths of the time each, so that the last five are late.
pub fn overload() -> Vec<Times> {
    list(&[(30_000, 100_000); 8])
}

/// Task 0 takes all the time, so that the last seven are late; an iteration that begins below goes up to their deadlines in steps of one to
/// seven.
pub fn no_time_left() -> Vec<Times> {
    let mut times = [(1, 1_000_000); 8];
    times[0] = (1, 1);
    list(&times)
}

/// Five tasks leave the last three little time, in which R is far up, or is over the deadline. Also an iteration that begins at C divided by the
/// part of the time that is left takes many steps: 204,442 for the first list, and 113,095 for the second.
pub fn little_time_left() -> [Vec<Times>; 2] {
    let long = 1_000_000;
    [
        list(&[(2, 4), (2, 6), (2, 14), (2, 86), (2, 3653), (3, long), (1, 999_992), (1, long)]),
        list(&[(2, 4), (2, 6), (2, 14), (2, 86), (2, 3625), (1, 999_512), (1, long), (1, long)]),
    ]
}

/// A typical list whose last deadline is over its period, which fails check 21.
pub fn refused(t: usize) -> Vec<Times> {
    let mut list = typical(t);
    list[t - 1].d += 1;
    list
}
