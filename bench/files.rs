//! Project files for measuring.
use crate::plain;

pub mod drawn;
pub mod times;

/// A block: its successors and its references.
pub type Block = (Vec<u8>, Vec<u16>);

/// The body of some blocks, with those masked that `masked` tells.
fn masked_body(blocks: &[Block], masked: impl Fn(usize) -> bool) -> Vec<u8> {
    let mut bytes = vec![blocks.len() as u8, 0];
    for (b, (successors, references)) in blocks.iter().enumerate() {
        bytes.extend([u8::from(masked(b)), successors.len() as u8, references.len() as u8]);
        bytes.extend(successors);
        for m in references {
            bytes.extend(m.to_le_bytes());
        }
    }
    bytes
}

pub fn body(blocks: &[Block]) -> Vec<u8> {
    masked_body(blocks, |_| false)
}

pub fn file(n: u8, bodies: &[Vec<u8>]) -> Vec<u8> {
    let mut bytes = b"CRPD".to_vec();
    bytes.extend([1, n, bodies.len() as u8, 0]);
    let mut at = 8 + 4 * bodies.len();
    for body in bodies {
        bytes.extend((at as u16).to_le_bytes());
        bytes.extend((body.len() as u16).to_le_bytes());
        at += body.len();
    }
    for body in bodies {
        bytes.extend(body);
    }
    bytes
}

/// Memory block number x of cache block c, for task j: no two tasks share one, but for a library that they link.
fn memory(n: usize, j: usize, x: usize, c: usize) -> u16 {
    (n * (64 * j + x) + c) as u16
}

/// A loop over `forks` forks in a row, each of which loads one of two memory blocks of its own cache block, and `chain` blocks after
/// them. The entry loads a memory block into each cache block of a fork and into most others, and so does the end; so each block in the
/// loop has up to 2^forks states of either kind.
fn forks(n: usize, j: usize, forks: usize, chain: usize) -> Vec<Block> {
    let all: Vec<u16> = (0..n).filter(|c| *c < forks || (c + j) % 4 != 3).map(|c| memory(n, j, 0, c)).collect();
    let mut blocks = vec![(vec![1], all.clone())];
    for k in 0..forks {
        let head = 1 + 3 * k as u8;
        blocks.push((vec![head + 1, head + 2], vec![]));
        blocks.push((vec![head + 3], vec![memory(n, j, 0, k)]));
        blocks.push((vec![head + 3], vec![memory(n, j, 1, k)]));
    }
    for k in 0..chain {
        let next = blocks.len() as u8 + 1;
        blocks.push((vec![next], vec![all[forks + k % (all.len() - forks)]]));
    }
    let end = blocks.len() as u8 + 1;
    blocks.push((vec![1, end], vec![]));
    blocks.push((vec![], all));
    blocks
}

/// The same blocks where the last `shared` of n cache blocks have one memory block each of a library, common to all tasks.
fn linked(n: usize, shared: usize, mut blocks: Vec<Block>) -> Vec<Block> {
    for m in blocks.iter_mut().flat_map(|(_, references)| references) {
        let c = *m as usize % n;
        if n - shared <= c {
            *m = (600 * n + c) as u16;
        }
    }
    blocks
}

/// A loop over `loads` optional loads of two cache blocks each, and an end without references: up to 2^loads rows to end with.
fn optional_loads(n: usize, j: usize, loads: usize) -> Vec<Block> {
    let mut blocks = vec![(vec![1], vec![])];
    for k in 0..loads {
        let head = 1 + 2 * k as u8;
        blocks.push((vec![head + 1, head + 2], vec![]));
        blocks.push((vec![head + 2], (0..2).map(|x| memory(n, j, 0, (3 * k + j + x) % n)).collect()));
    }
    let end = blocks.len() as u8 + 1;
    blocks.push((vec![1, end], vec![]));
    blocks.push((vec![], vec![]));
    blocks
}

/// Two tasks of one and of two blocks.
pub fn tiny() -> Vec<u8> {
    file(2, &[body(&[(vec![0], vec![0, 1])]), body(&[(vec![1], vec![2]), (vec![], vec![5])])])
}

/// Eight tasks of one block without references, so that all pair numbers are 0.
pub fn no_references() -> Vec<u8> {
    file(1, &vec![body(&[(vec![], vec![])]); 8])
}

/// Four tasks of about a dozen blocks with two or three forks, most of which have one reference or none.
pub fn few_references() -> Vec<u8> {
    let bodies: Vec<Vec<u8>> = (0..4).map(|j| body(&forks(8, j, 2 + j % 2, 2))).collect();
    file(8, &bodies)
}

/// The same with a library in three of the eight cache blocks.
pub fn few_references_library() -> Vec<u8> {
    let bodies: Vec<Vec<u8>> = (0..4).map(|j| body(&linked(8, 3, forks(8, j, 2 + j % 2, 2)))).collect();
    file(8, &bodies)
}

/// The file of few references with every third block masked, and all blocks of the last task.
pub fn masked() -> Vec<u8> {
    let bodies: Vec<Vec<u8>> =
        (0..4).map(|j| masked_body(&forks(8, j, 2 + j % 2, 2), |b| j == 3 || b % 3 == 2)).collect();
    file(8, &bodies)
}

/// Numbers that look random, always the same.
#[derive(Clone)]
struct Numbers(u64);

impl Numbers {
    fn below(&mut self, bound: usize) -> usize {
        self.0 = self.0.wrapping_mul(6364136223846793005).wrapping_add(1442695040888963407);
        (self.0 >> 33) as usize % bound
    }

    /// `count` of these cache blocks, each at most once.
    fn some_of(&mut self, cells: &[usize], count: usize) -> Vec<usize> {
        let mut left = cells.to_vec();
        (0..count)
            .map(|_| {
                let k = self.below(left.len());
                left.swap_remove(k)
            })
            .collect()
    }

    /// One of two memory blocks of each of `count` different cache blocks, for task j.
    fn references(&mut self, n: usize, j: usize, count: usize) -> Vec<u16> {
        let mut left: Vec<usize> = (0..n).collect();
        (0..count)
            .map(|_| {
                let k = self.below(left.len());
                let c = left.swap_remove(k);
                memory(n, j, self.below(2), c)
            })
            .collect()
    }
}

/// A loop over five forks whose arms load seven memory blocks each, and six blocks that load one.
fn wide_forks(n: usize, j: usize, numbers: &mut Numbers) -> Vec<Block> {
    let all: Vec<u16> = (0..n).map(|c| memory(n, j, 0, c)).collect();
    let mut blocks = vec![(vec![1], all.clone())];
    for k in 0..5 {
        let head = 1 + 3 * k as u8;
        blocks.push((vec![head + 1, head + 2], vec![]));
        blocks.push((vec![head + 3], numbers.references(n, j, 7)));
        blocks.push((vec![head + 3], numbers.references(n, j, 7)));
    }
    for _ in 0..6 {
        let next = blocks.len() as u8 + 1;
        blocks.push((vec![next], numbers.references(n, j, 1)));
    }
    blocks.push((vec![1, 23], vec![]));
    blocks.push((vec![], all));
    blocks
}

/// The mean number of states of either kind of a block, if no block has too many.
fn mean_states(n: u8, body: Vec<u8>) -> Option<f64> {
    let (n, tasks) = plain::read(&file(n, &[body])).unwrap();
    let (reaching, live) = (plain::reaching(n, &tasks[0])?, plain::live(n, &tasks[0])?);
    let rows: usize = reaching.iter().chain(&live).map(|states| states.len()).sum();
    Some(rows as f64 / 48.0)
}

/// Eight tasks of 24 blocks, 16 cache blocks, some 26 states in most blocks of the loops, and useful sets that differ from row pair to row pair.
pub fn varied() -> Vec<u8> {
    let mut numbers = Numbers(1);
    let mut varied_body = |j: usize| loop {
        let bytes = body(&wide_forks(16, j, &mut numbers));
        if mean_states(16, bytes.clone()).is_some_and(|mean| mean > 21.5) {
            return bytes;
        }
    };
    let bodies: Vec<Vec<u8>> = (0..8).map(&mut varied_body).collect();
    file(16, &bodies)
}

/// Eight tasks of 24 blocks, 16 cache blocks, 32 states a block in the loop.
pub fn largest() -> Vec<u8> {
    let bodies: Vec<Vec<u8>> = (0..8).map(|j| body(&forks(16, j, 5, 6))).collect();
    file(16, &bodies)
}

/// The largest file with a library in nine of the 16 cache blocks.
pub fn largest_library() -> Vec<u8> {
    let bodies: Vec<Vec<u8>> = (0..8).map(|j| body(&linked(16, 9, forks(16, j, 5, 6)))).collect();
    file(16, &bodies)
}

/// Eight tasks with 32 rows to end with each, 16 cache blocks, and a library in eight of them.
pub fn many_ends() -> Vec<u8> {
    let bodies: Vec<Vec<u8>> = (0..8).map(|j| body(&linked(16, 8, optional_loads(16, j, 5)))).collect();
    file(16, &bodies)
}

/// Eight tasks of 24 blocks in a loop, 16 cache blocks, 16 references a block: two different ones to each of eight cache blocks,
/// the last of which the next block reads first.
pub fn long_traces() -> Vec<u8> {
    let block = |j: usize, b: usize| {
        let successors = if b == 23 { vec![0] } else { vec![b as u8 + 1] };
        (successors, (0..16).map(|i| memory(16, j, b + i / 8, i % 8)).collect())
    };
    let bodies: Vec<Vec<u8>> = (0..8).map(|j| body(&(0..24).map(|b| block(j, b)).collect::<Vec<Block>>())).collect();
    file(16, &bodies)
}

/// The blocks of the largest file's task j, each filled up to 16 references by those to the cache blocks that no fork loads.
fn full(n: usize, j: usize) -> Vec<Block> {
    let mut blocks = forks(n, j, 5, 6);
    let others: Vec<u16> = blocks[0].1[5..].to_vec();
    for (b, (_, references)) in blocks.iter_mut().enumerate() {
        let filling = (0..16 - references.len()).map(|x| others[(7 * x + b) % others.len()]);
        *references = filling.chain(references.clone()).collect();
    }
    blocks
}

/// Eight tasks of 24 blocks, 16 cache blocks, 32 states a block in the loop, and 16 references in each block.
pub fn full_blocks() -> Vec<u8> {
    let bodies: Vec<Vec<u8>> = (0..8).map(|j| body(&full(16, j))).collect();
    file(16, &bodies)
}

/// The same with a library in six of the 16 cache blocks.
pub fn full_blocks_library() -> Vec<u8> {
    let bodies: Vec<Vec<u8>> = (0..8).map(|j| body(&linked(16, 6, full(16, j)))).collect();
    file(16, &bodies)
}

/// The largest file with the end block of task 0 masked.
fn largest_masked() -> Vec<u8> {
    let bodies: Vec<Vec<u8>> = (0..8).map(|j| masked_body(&forks(16, j, 5, 6), |b| j == 0 && b == 23)).collect();
    file(16, &bodies)
}

/// Files like that of few references, one for each of the checks 2 to 9, which they fail.
pub fn refused_early() -> Vec<Vec<u8>> {
    let whole = few_references();
    let changed = |at: usize, byte: u8| {
        let mut bytes = whole.clone();
        bytes[at] = byte;
        bytes
    };
    let body = 8 + 4 * whole[6] as usize;
    let apart = file(8, &[body_of_two()]);
    vec![
        whole[..7].to_vec(),
        changed(0, b'D'),
        changed(4, 2),
        changed(5, 17),
        changed(6, 9),
        changed(8, 0),
        changed(body + 1, 1),
        apart,
    ]
}

/// A body of two blocks without successors.
fn body_of_two() -> Vec<u8> {
    body(&[(vec![], vec![]), (vec![], vec![])])
}

/// Eight tasks, the last of which has six forks in a row.
pub fn refused_states() -> Vec<u8> {
    let bodies: Vec<Vec<u8>> = (0..8).map(|j| body(&forks(16, j, if j == 7 { 6 } else { 5 }, 3))).collect();
    file(16, &bodies)
}

/// The last task a file speaks of in byte 6.
pub fn last_task(file: &[u8]) -> usize {
    file[6] as usize - 1
}

/// A complete path through the task of `forks` with as many rounds of its loop as `most` blocks allow, taking the sides of the forks by
/// turns.
fn path(forks: usize, chain: usize, most: usize) -> Vec<u16> {
    let rounds = (most - 2) / (2 * forks + chain + 1);
    let mut blocks = vec![0];
    for round in 0..rounds {
        for k in 0..forks {
            blocks.extend([1 + 3 * k, 2 + 3 * k + (round + k) % 2]);
        }
        blocks.extend(1 + 3 * forks..2 + 3 * forks + chain);
    }
    blocks.push(2 + 3 * forks + chain);
    blocks.iter().map(|&b| b as u16).collect()
}

/// A sheet of task 0 and some preemptions, each a position, the references done, a task and a path.
fn sheet(path: &[u16], preemptions: &[(usize, usize, usize, Vec<u16>)]) -> Vec<u16> {
    let mut numbers = vec![0, path.len() as u16];
    numbers.extend(path);
    numbers.push(preemptions.len() as u16);
    for (position, done, task, other) in preemptions {
        numbers.extend([*position as u16, *done as u16, *task as u16, other.len() as u16]);
        numbers.extend(other);
    }
    numbers
}

/// The sheet of the longest path of task 0, of these blocks, with 16 preemptions, spread over the path, by the other tasks in turn; each comes
/// in the middle of its block.
fn full_sheet(tasks: usize, blocks: &[Block], path_of: impl Fn(usize) -> Vec<u16>) -> Vec<u16> {
    let own = path_of(0);
    let preemptions: Vec<(usize, usize, usize, Vec<u16>)> = (0..16)
        .map(|k| {
            let (position, task) = (k * own.len() / 16, 1 + k % (tasks - 1));
            let (_, references) = &blocks[own[position] as usize];
            (position, references.len().div_ceil(2), task, path_of(task))
        })
        .collect();
    sheet(&own, &preemptions)
}

/// For the tiny file: two blocks and one preemption.
pub fn tiny_sheet() -> Vec<u16> {
    sheet(&[0, 0], &[(0, 2, 1, vec![0, 1])])
}

/// For the file of few references, and for the files that are refused early.
pub fn few_references_sheet() -> Vec<u16> {
    full_sheet(4, &forks(8, 0, 2, 2), |j| path(2 + j % 2, 2, 64))
}

/// For the largest file.
pub fn largest_sheet() -> Vec<u16> {
    full_sheet(8, &forks(16, 0, 5, 6), |_| path(5, 6, 64))
}

/// For the largest file, with as many rounds as 1,536 blocks allow.
pub fn longest_sheet() -> Vec<u16> {
    full_sheet(8, &forks(16, 0, 5, 6), |_| path(5, 6, 1536))
}

/// For the file of full blocks.
pub fn full_blocks_sheet() -> Vec<u16> {
    full_sheet(8, &full(16, 0), |_| path(5, 6, 64))
}

/// Files of the largest kind with a sheet each: one with a number too many, which fails check 12, one whose last path doesn't end in the
/// end block, which fails check 13, and one whose last preemption comes in a masked end block, which fails check 16.
pub fn refused_sheets() -> Vec<(Vec<u8>, Vec<u16>)> {
    let mut long = largest_sheet();
    long.push(0);
    let mut broken = largest_sheet();
    let last = broken.len() - 1;
    broken[last] = 1;
    let mut late = largest_sheet();
    let length = late[1] as usize;
    let last_position = late.len() - length - 4;
    late[last_position] = length as u16 - 1;
    late[last_position + 1] = 1;
    vec![(largest(), long), (largest(), broken), (largest_masked(), late)]
}

/// The numbers of a nested run of task j, within runs of the tasks `around`. Its list has as many runs as the first of `counts` says, spread over
/// its path, each in the middle of its block, by the tasks that aren't around in turn; the other counts are those of the lists within.
fn nested(tasks: &[(Vec<Block>, Vec<u16>)], around: &[usize], j: usize, counts: &[usize]) -> Vec<u16> {
    let (blocks, path) = &tasks[j];
    let (count, inner) = counts.split_first().map_or((0, counts), |(count, inner)| (*count, inner));
    let around = [around, &[j]].concat();
    let others: Vec<usize> = (0..tasks.len()).filter(|other| !around.contains(other)).collect();
    let mut numbers = [&[j as u16, path.len() as u16], path.as_slice(), &[count as u16]].concat();
    for k in 0..count {
        let position = k * path.len() / count;
        let (_, references) = &blocks[path[position] as usize];
        numbers.extend([position as u16, references.len().div_ceil(2) as u16]);
        numbers.extend(nested(tasks, &around, others[k % others.len()], inner));
    }
    numbers
}

/// For the tiny file: two blocks and one preempting run.
pub fn tiny_nested() -> Vec<u16> {
    vec![0, 2, 0, 0, 1, 0, 2, 1, 2, 0, 1, 0]
}

/// For the file of few references, and for the files that are refused early: 21 runs down to depth 3.
pub fn few_references_nested() -> Vec<u16> {
    let tasks: Vec<_> = (0..4).map(|j| (forks(8, j, 2 + j % 2, 2), path(2 + j % 2, 2, 64))).collect();
    nested(&tasks, &[], 0, &[4, 2, 1])
}

/// For the largest file, with paths of at most `most` blocks.
fn largest_nested(most: usize, counts: &[usize]) -> Vec<u16> {
    let tasks: Vec<_> = (0..8).map(|j| (forks(16, j, 5, 6), path(5, 6, most))).collect();
    nested(&tasks, &[], 0, counts)
}

/// For the largest file: 16 runs at depth 1.
pub fn wide_nested() -> Vec<u16> {
    largest_nested(64, &[16])
}

/// For the largest file: one run at each depth.
pub fn deep_nested() -> Vec<u16> {
    largest_nested(64, &[1; 7])
}

/// For the largest file: 79 runs down to depth 7.
pub fn branching_nested() -> Vec<u16> {
    largest_nested(64, &[2, 2, 2, 2, 1, 1, 1])
}

/// For the largest file: 49 runs of nearly 1,536 blocks each.
pub fn longest_nested() -> Vec<u16> {
    largest_nested(1536, &[16, 1, 1])
}

/// For the largest file: 273 runs of one round each.
pub fn short_nested() -> Vec<u16> {
    largest_nested(19, &[16, 16])
}

/// For the file of full blocks: 21 runs.
pub fn full_blocks_nested() -> Vec<u16> {
    let tasks: Vec<_> = (0..8).map(|j| (full(16, j), path(5, 6, 64))).collect();
    nested(&tasks, &[], 0, &[4, 2, 1])
}

/// Files of the largest kind with a nested sheet each, with the fault at the end: a number too many, which fails check 12, a last path that
/// doesn't end in the end block, which fails check 13, a last run that comes in a masked end block, which fails check 16, and a count above 0
/// at depth 7, which fails check 20.
pub fn refused_nested() -> Vec<(Vec<u8>, Vec<u16>)> {
    let mut long = wide_nested();
    long.push(0);
    let mut broken = wide_nested();
    let last = broken.len() - 2;
    broken[last] = 1;
    let mut late = wide_nested();
    let length = late[1] as usize;
    let last_position = late.len() - length - 5;
    late[last_position] = length as u16 - 1;
    late[last_position + 1] = 1;
    let mut deep = deep_nested();
    let last = deep.len() - 1;
    deep[last] = 1;
    vec![(largest(), long), (largest(), broken), (largest_masked(), late), (largest(), deep)]
}

/// What the writer takes: n, the joined bodies, their lengths, and the length of the out list.
pub struct Parts {
    pub n: u8,
    pub bodies: Vec<u8>,
    pub lengths: Vec<usize>,
    pub room: usize,
}

/// The parts that give this file; the out list is as long as the file.
pub fn parts(file: &[u8]) -> Parts {
    let t = file[6] as usize;
    let length = |j: usize| u16::from_le_bytes([file[10 + 4 * j], file[11 + 4 * j]]) as usize;
    Parts { n: file[5], bodies: file[8 + 4 * t..].to_vec(), lengths: (0..t).map(length).collect(), room: file.len() }
}

/// Parts of the file of few references, one for each of the checks 5 to 9 and 14, which they fail.
pub fn refused_parts() -> Vec<Parts> {
    let whole = || parts(&few_references());
    let files = refused_early();
    let mut many = whole();
    many.lengths.extend([0; 5]);
    let mut missing = whole();
    missing.bodies.pop();
    let narrow = Parts { room: whole().room - 1, ..whole() };
    vec![
        Parts { n: 17, ..whole() },
        many,
        missing,
        parts(&files[6]),
        parts(&files[7]),
        narrow,
    ]
}
