//! The costliest run the plain way.
use super::table::{replaced, useful};
use super::{
    after, before, left_at_points, once, points, predecessors, read, referred, Refusal, Row, Rows, Task, EMPTY, MOST_STATES,
};
use std::collections::BTreeMap;

/// The rows of each block, each with the block and the row that it was first met from; the first row has none.
type Parents = Vec<BTreeMap<Row, Option<(usize, Row)>>>;

/// The reaching and the live rows of a task.
struct Gathered {
    reaching: Parents,
    live: Parents,
}

/// The rows of each block, gathered from one row; none where a block has more than 32.
fn gather(count: usize, first: (usize, Row), next: impl Fn(usize, &Row) -> Vec<(usize, Row)>) -> Option<Parents> {
    let mut rows: Parents = vec![BTreeMap::new(); count];
    rows[first.0].insert(first.1, None);
    let mut waiting = vec![first];
    while let Some((b, row)) = waiting.pop() {
        for (c, new) in next(b, &row) {
            if !rows[c].contains_key(&new) {
                if rows[c].len() == MOST_STATES {
                    return None;
                }
                rows[c].insert(new, Some((b, row)));
                waiting.push((c, new));
            }
        }
    }
    Some(rows)
}

/// The rows of the task numbered k (check 11).
fn gathered(n: usize, tasks: &[Task], k: usize) -> Result<Gathered, Refusal> {
    let task = &tasks[k];
    let back = predecessors(task);
    let reaching = gather(task.len(), (0, after(n, &EMPTY, &task[0])), |b, row| {
        task[b].successors.iter().map(|&c| (c, after(n, row, &task[c]))).collect()
    });
    let live = gather(task.len(), (task.len() - 1, EMPTY), |b, row| {
        let new = before(n, row, &task[b]);
        back[b].iter().map(|&c| (c, new)).collect()
    });
    match (reaching, live) {
        (Some(reaching), Some(live)) => Ok(Gathered { reaching, live }),
        _ => Err((11, k as u8)),
    }
}

/// The blocks from a row's own to that of the first row.
fn trail(rows: &Parents, block: usize, row: &Row) -> Vec<u16> {
    let mut blocks = vec![block as u16];
    let mut parent = &rows[block][row];
    while let Some((b, r)) = parent {
        blocks.push(*b as u16);
        parent = &rows[*b][r];
    }
    blocks
}

/// A path from the entry to a block that reaches the row.
fn path_to(reaching: &Parents, block: usize, row: &Row) -> Vec<u16> {
    let mut blocks = trail(reaching, block, row);
    blocks.reverse();
    blocks
}

/// A row before a block, with the predecessor that it comes from; none for the empty row before the entry.
type Before<'a> = Option<(usize, &'a Row)>;

/// Where a preemption costs most: a block of the task that isn't masked, how many of its references are done, a row before it, a live row
/// of it and a row that the other task ends with.
struct Point<'a> {
    block: usize,
    done: usize,
    before: Before<'a>,
    live: &'a Row,
    end: &'a Row,
}

/// The rows before a block, each with one of those that it comes from.
fn entering<'a>(reaching: &'a Parents, back: &[Vec<usize>], b: usize) -> Rows<Before<'a>> {
    let first = (b == 0).then_some((EMPTY, None));
    once(back[b].iter().flat_map(|&c| reaching[c].keys().map(move |row| (*row, Some((c, row))))).chain(first))
}

/// The point that costs most; none if all blocks are masked. Equal rows at a point are met once, and so are equal useful and equal
/// replaced sets.
fn costliest<'a>(n: usize, task: &Task, own: &'a Gathered, other: &'a Parents) -> Option<Point<'a>> {
    let back = predecessors(task);
    let mut most = 0;
    let mut found = None;
    for (b, block) in task.iter().enumerate().filter(|(_, block)| !block.masked) {
        let left = left_at_points(n, &block.references, own.live[b].keys().map(|row| (*row, row)).collect());
        let mut rows = entering(&own.reaching, &back, b);
        for done in points(block) {
            if 0 < done {
                rows = referred(n, &rows, block.references[done - 1]);
            }
            for (row, before) in &rows {
                let useful_sets = once(left[done].iter().map(|(l, live)| (useful(row, l), *live)));
                let replaced_sets = once(other[other.len() - 1].keys().map(|end| (replaced(end, row), end)));
                for &(u, live) in &useful_sets {
                    for &(v, end) in &replaced_sets {
                        let number = (u & v).count_ones();
                        if found.is_none() || most < number {
                            most = number;
                            found = Some(Point { block: b, done, before: *before, live, end });
                        }
                    }
                }
            }
        }
    }
    found
}

/// The numbers of a run of task i with one preemption by task j that costs as much as any; without the preemption if all blocks of i are
/// masked.
fn run(n: usize, tasks: &[Task], i: usize, j: usize, own: &Gathered, other: &Parents) -> Vec<u16> {
    let end = tasks[i].len() - 1;
    let Some(point) = costliest(n, &tasks[i], own, other) else {
        let (any, _) = own.reaching[end].first_key_value().unwrap();
        let path = path_to(&own.reaching, end, any);
        return [vec![i as u16, path.len() as u16], path, vec![0]].concat();
    };
    let mut path = point.before.map_or(vec![], |(c, row)| path_to(&own.reaching, c, row));
    let position = path.len();
    path.extend(trail(&own.live, point.block, point.live));
    let preempting = path_to(other, tasks[j].len() - 1, point.end);
    let preemption = vec![1, position as u16, point.done as u16, j as u16, preempting.len() as u16];
    [vec![i as u16, path.len() as u16], path, preemption, preempting].concat()
}

/// The costliest run of task i preempted by task j, written to the front of the sheet; answers its length. The work areas are there for
/// the lengths' sake alone.
#[inline(never)]
pub fn costliest_run(
    file: &[u8], i: usize, j: usize, first: &mut [u16], second: &mut [u16], sheet: &mut [u16],
) -> Result<usize, Refusal> {
    if first.len() != 24832 || second.len() != 24832 {
        return Err((1, 255));
    }
    let (n, tasks) = read(file)?;
    if i == j || tasks.len() <= i || tasks.len() <= j {
        return Err((18, 255));
    }
    if sheet.len() < 2311 {
        return Err((19, 255));
    }
    let low = gathered(n, &tasks, i.min(j))?;
    let high = gathered(n, &tasks, i.max(j))?;
    let (own, other) = if i < j { (low, high) } else { (high, low) };
    let numbers = run(n, &tasks, i, j, &own, &other.reaching);
    sheet[..numbers.len()].copy_from_slice(&numbers);
    Ok(numbers.len())
}
