//! Table the plain way.
use super::{
    left_at_points, live, once, points, predecessors, reaching, read, referred, Refusal, Row, Rows, Task, EMPTY, NOTHING,
};
use std::collections::BTreeSet;

pub fn useful(reached: &Row, next: &Row) -> u32 {
    let mut set = 0;
    for c in 0..16 {
        if reached[c] == next[c] && reached[c] != NOTHING {
            set |= 1 << c;
        }
    }
    set
}

pub fn replaced(end: &Row, reached: &Row) -> u32 {
    let mut set = 0;
    for c in 0..16 {
        if end[c] != NOTHING && end[c] != reached[c] {
            set |= 1 << c;
        }
    }
    set
}

/// The reaching and the live rows of the blocks of a task.
struct States {
    reaching: Vec<BTreeSet<Row>>,
    live: Vec<BTreeSet<Row>>,
}

/// Some rows in rising order, of which nothing more is known.
fn alone(rows: &BTreeSet<Row>) -> Rows<()> {
    rows.iter().map(|&row| (row, ())).collect()
}

/// The rows before a block: those that reach its predecessors, and the empty one for the entry; equal ones once.
fn entering(states: &States, back: &[Vec<usize>], b: usize) -> Rows<()> {
    let first = (b == 0).then_some(EMPTY);
    once(back[b].iter().flat_map(|&c| &states.reaching[c]).copied().chain(first).map(|row| (row, ())))
}

/// The numbers are raised to the most cache blocks that are useful for the row, with one of the rows that are left, and replaced by one
/// of the rows that a task ends with, for each task other than i. Equal useful sets are met once, and so are equal replaced sets.
fn raise(row: &Row, left: &Rows<()>, ends: &[&BTreeSet<Row>], i: usize, numbers: &mut [u16]) {
    let useful_sets = once(left.iter().map(|(l, ())| (useful(row, l), ())));
    for (j, ends) in ends.iter().enumerate() {
        if i == j {
            continue;
        }
        let replaced_sets = once(ends.iter().map(|end| (replaced(end, row), ())));
        for (u, ()) in &useful_sets {
            for (v, ()) in &replaced_sets {
                numbers[j] = numbers[j].max((u & v).count_ones() as u16);
            }
        }
    }
}

/// The pair numbers of task i, over all points of its blocks that aren't masked.
fn pair_numbers(n: usize, task: &Task, states: &States, ends: &[&BTreeSet<Row>], i: usize, numbers: &mut [u16]) {
    let back = predecessors(task);
    for (b, block) in task.iter().enumerate().filter(|(_, block)| !block.masked) {
        let left = left_at_points(n, &block.references, alone(&states.live[b]));
        let mut rows = entering(states, &back, b);
        for done in points(block) {
            if 0 < done {
                rows = referred(n, &rows, block.references[done - 1]);
            }
            for (row, ()) in &rows {
                raise(row, &left[done], ends, i, numbers);
            }
        }
    }
}

/// The pair numbers of a file, by 8 i + j; the work area is there for the lengths' sake alone. All states are gathered before any number
/// is looked for.
#[inline(never)]
pub fn table(file: &[u8], area: &mut [u16], numbers: &mut [u16]) -> Result<(), Refusal> {
    if area.len() != 24832 || numbers.len() != 64 {
        return Err((1, 255));
    }
    let (n, tasks) = read(file)?;
    let mut states = Vec::new();
    for (j, task) in tasks.iter().enumerate() {
        match (reaching(n, task), live(n, task)) {
            (Some(reaching), Some(live)) => states.push(States { reaching, live }),
            _ => return Err((11, j as u8)),
        }
    }
    let ends: Vec<&BTreeSet<Row>> = states.iter().map(|s| &s.reaching[s.reaching.len() - 1]).collect();
    numbers.fill(0);
    for (i, task) in tasks.iter().enumerate() {
        pair_numbers(n, task, &states[i], &ends, i, &mut numbers[8 * i..8 * i + 8]);
    }
    Ok(())
}
