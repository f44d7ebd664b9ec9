//! The calls the plain way: rows in arrays, ordered sets and work lists, as one would write them in an afternoon.
//! Here stands what they share: the reader, the states of a task, and the rows at the points of a block.
mod costliest_run;
mod microseconds;
mod nested;
mod replay;
mod response_times;
mod states;
mod table;
mod write;

pub use costliest_run::costliest_run;
pub use microseconds::microseconds;
pub use nested::nested;
pub use replay::replay;
pub use response_times::response_times;
pub use states::states;
pub use table::table;
pub use write::write;

use std::collections::BTreeSet;

const NOTHING: u16 = 65535;
const MOST_STATES: usize = 32;

/// The check that fails first and the task it names.
pub type Refusal = (u8, u8);
/// A memory block or nothing for each cache block; places from n on hold nothing.
pub type Row = [u16; 16];

const EMPTY: Row = [NOTHING; 16];

pub struct Block {
    masked: bool,
    successors: Vec<usize>,
    references: Vec<u16>,
}

pub type Task = Vec<Block>;

fn number(bytes: &[u8], at: usize) -> usize {
    bytes[at] as usize + 256 * bytes[at + 1] as usize
}

/// The task of a body, or none if the body breaks its layout.
fn decode(body: &[u8]) -> Option<Task> {
    let count = *body.first()? as usize;
    if count < 1 || 24 < count || *body.get(1)? != 0 {
        return None;
    }
    let mut task = Vec::new();
    let mut at = 2;
    for _ in 0..count {
        let head = body.get(at..at + 3)?;
        let (successors, references) = (head[1] as usize, head[2] as usize);
        if 1 < head[0] || 4 < successors || 16 < references {
            return None;
        }
        at += 3;
        let jumps: Vec<usize> = body.get(at..at + successors)?.iter().map(|&b| b as usize).collect();
        at += successors;
        let bytes = body.get(at..at + 2 * references)?;
        at += 2 * references;
        let blocks: Vec<u16> = bytes.chunks(2).map(|b| b[0] as u16 + 256 * b[1] as u16).collect();
        if jumps.windows(2).any(|w| w[1] <= w[0]) || jumps.iter().any(|&b| count <= b) || blocks.contains(&NOTHING) {
            return None;
        }
        task.push(Block { masked: head[0] == 1, successors: jumps, references: blocks });
    }
    if at == body.len() { Some(task) } else { None }
}

/// The blocks that are met when every block that is met adds the blocks that it leads to.
fn met(count: usize, from: usize, leads: impl Fn(usize) -> Vec<usize>) -> Vec<bool> {
    let mut found = vec![false; count];
    let mut waiting = vec![from];
    found[from] = true;
    while let Some(b) = waiting.pop() {
        for c in leads(b) {
            if !found[c] {
                found[c] = true;
                waiting.push(c);
            }
        }
    }
    found
}

fn predecessors(task: &Task) -> Vec<Vec<usize>> {
    let mut back = vec![Vec::new(); task.len()];
    for (b, block) in task.iter().enumerate() {
        for &c in &block.successors {
            back[c].push(b);
        }
    }
    back
}

fn all_on_paths(task: &Task) -> bool {
    let back = predecessors(task);
    let forth = met(task.len(), 0, |b| task[b].successors.clone());
    let leading = met(task.len(), task.len() - 1, |b| back[b].clone());
    (0..task.len()).all(|b| forth[b] && leading[b])
}

/// Checks 2 to 9: n and the tasks of a file.
pub fn read(file: &[u8]) -> Result<(usize, Vec<Task>), Refusal> {
    if file.len() < 8 || 7544 < file.len() {
        return Err((2, 255));
    }
    if &file[..4] != b"CRPD" {
        return Err((3, 255));
    }
    if file[4] != 1 {
        return Err((4, 255));
    }
    let (n, t) = (file[5] as usize, file[6] as usize);
    if n < 1 || 16 < n {
        return Err((5, 255));
    }
    if t < 1 || 8 < t || file[7] != 0 {
        return Err((6, 255));
    }
    let bodies = contents(file, t).ok_or((7, 255))?;
    Ok((n, tasks(&bodies)?))
}

/// The bodies of a file, or none if its contents don't name them one after the other up to the file's end.
fn contents(file: &[u8], t: usize) -> Option<Vec<&[u8]>> {
    let mut at = 8 + 4 * t;
    if file.len() < at {
        return None;
    }
    let mut bodies = Vec::new();
    for j in 0..t {
        let (offset, length) = (number(file, 8 + 4 * j), number(file, 10 + 4 * j));
        if offset != at {
            return None;
        }
        bodies.push(file.get(at..at + length)?);
        at += length;
    }
    if at == file.len() { Some(bodies) } else { None }
}

/// Checks 8 and 9: the tasks of some bodies.
fn tasks(bodies: &[&[u8]]) -> Result<Vec<Task>, Refusal> {
    let mut tasks = Vec::new();
    for (j, body) in bodies.iter().enumerate() {
        tasks.push(decode(body).ok_or((8, j as u8))?);
    }
    for (j, task) in tasks.iter().enumerate() {
        if !all_on_paths(task) {
            return Err((9, j as u8));
        }
    }
    Ok(tasks)
}

/// The rows of each block, gathered from one row; none where a block has more than 32.
fn gather(count: usize, first: (usize, Row), next: impl Fn(usize, &Row) -> Vec<(usize, Row)>) -> Option<Vec<BTreeSet<Row>>> {
    let mut rows = vec![BTreeSet::new(); count];
    rows[first.0].insert(first.1);
    let mut waiting = vec![first];
    while let Some((b, row)) = waiting.pop() {
        for (c, new) in next(b, &row) {
            if rows[c].insert(new) {
                if MOST_STATES < rows[c].len() {
                    return None;
                }
                waiting.push((c, new));
            }
        }
    }
    Some(rows)
}

fn refer(n: usize, row: &mut Row, m: u16) {
    row[m as usize % n] = m;
}

fn after(n: usize, row: &Row, block: &Block) -> Row {
    let mut row = *row;
    for &m in &block.references {
        refer(n, &mut row, m);
    }
    row
}

fn before(n: usize, row: &Row, block: &Block) -> Row {
    let mut row = *row;
    for &m in block.references.iter().rev() {
        refer(n, &mut row, m);
    }
    row
}

pub fn reaching(n: usize, task: &Task) -> Option<Vec<BTreeSet<Row>>> {
    gather(task.len(), (0, after(n, &EMPTY, &task[0])), |b, row| {
        task[b].successors.iter().map(|&c| (c, after(n, row, &task[c]))).collect()
    })
}

pub fn live(n: usize, task: &Task) -> Option<Vec<BTreeSet<Row>>> {
    let back = predecessors(task);
    gather(task.len(), (task.len() - 1, EMPTY), |b, row| {
        let new = before(n, row, &task[b]);
        back[b].iter().map(|&c| (c, new)).collect()
    })
}

/// The items in rising order of their keys, one for each key.
fn once<K: Ord + Copy, T>(items: impl Iterator<Item = (K, T)>) -> Vec<(K, T)> {
    let mut items: Vec<(K, T)> = items.collect();
    items.sort_unstable_by_key(|item| item.0);
    items.dedup_by_key(|item| item.0);
    items
}

/// Rows, each once, with something known of each.
type Rows<T> = Vec<(Row, T)>;

/// The rows after a reference; equal ones once.
fn referred<T: Copy>(n: usize, rows: &Rows<T>, m: u16) -> Rows<T> {
    let with_reference = |&(mut row, known): &(Row, T)| {
        refer(n, &mut row, m);
        (row, known)
    };
    once(rows.iter().map(with_reference))
}

/// For each number of references done the live rows, overlaid by the first references of what is left; equal ones once.
fn left_at_points<T: Copy>(n: usize, references: &[u16], lived: Rows<T>) -> Vec<Rows<T>> {
    let mut left = vec![lived];
    for &m in references.iter().rev() {
        left.push(referred(n, &left[left.len() - 1], m));
    }
    left.reverse();
    left
}

/// The numbers of references done at the points of a block: 1 to all, or 0 where it has none.
fn points(block: &Block) -> std::ops::RangeInclusive<usize> {
    let count = block.references.len();
    count.min(1)..=count
}
