//! Files that are drawn, several for each class since one says little, and sheets for them.
use super::{body, file, full_sheet, mean_states, memory, nested, Block, Numbers};

/// The memory blocks of the library are task 0's from this number on.
const LIBRARY: usize = 600;

/// Some 150 runs, beside the outer one, of at most so many blocks where the task has such a path.
const SHORT_RUNS: usize = 150;
const SHORT_PATH: usize = 12;

/// A file of drawn tasks, which sheets can be made for.
pub struct Drawn {
    n: usize,
    tasks: Vec<Vec<Block>>,
    numbers: Numbers,
}

/// 4 to 10 references: half of the blocks read memory blocks in a row, once, and half read two to four of them again and again. Task j has two
/// for each cache block; in one of three blocks the last ones are those of a library.
fn code(n: usize, j: usize, numbers: &mut Numbers) -> Vec<u16> {
    let count = 4 + numbers.below(7);
    let round = if numbers.below(2) == 0 { count } else { 2 + numbers.below(3) };
    let linked = if numbers.below(3) == 0 { 2 + numbers.below(3) } else { 0 };
    let (first, called) = (numbers.below(2 * n), numbers.below(n));
    let own = (0..count - linked).map(|x| memory(n, j, 0, (first + x % round) % (2 * n)));
    let library = (0..linked).map(|x| memory(n, 0, LIBRARY, (called + x) % n));
    own.chain(library).collect()
}

/// A task of 11 to 18 blocks: a loop over single blocks, forks with one or two arms, and jumps back.
fn typical_task(n: usize, j: usize, numbers: &mut Numbers) -> Vec<Block> {
    let least = 9 + numbers.below(6);
    let mut jumps: Vec<Vec<u8>> = vec![vec![1]];
    let mut starts = vec![1];
    while jumps.len() < least {
        let next = jumps.len() as u8;
        match numbers.below(5) {
            0 | 1 => jumps.extend([vec![next + 1, next + 2], vec![next + 3], vec![next + 3]]),
            2 => jumps.extend([vec![next + 1, next + 2], vec![next + 2]]),
            3 => jumps.push(vec![starts[numbers.below(starts.len())], next + 1]),
            _ => jumps.push(vec![next + 1]),
        }
        starts.push(jumps.len() as u8);
    }
    let last = jumps.len() as u8;
    jumps.extend([vec![1, last + 1], vec![]]);
    jumps.into_iter().map(|successors| (successors, code(n, j, numbers))).collect()
}

/// How often references hit what their block has loaded: as it is drawn, never, or every other one.
#[derive(Clone, Copy)]
enum Hits {
    Drawn,
    Never,
    Half,
}

/// 16 references to these cache blocks by turns, each to one of four memory blocks.
fn sixteen(n: usize, j: usize, hits: Hits, cells: &[usize], numbers: &mut Numbers) -> Vec<u16> {
    let mut chosen: Vec<usize> = cells.iter().map(|_| 0).collect();
    let mut reference = |i: usize| {
        let last = &mut chosen[i % cells.len()];
        *last = if let Hits::Never = hits { (*last + 1 + numbers.below(3)) % 4 } else { numbers.below(4) };
        memory(n, j, *last, cells[i % cells.len()])
    };
    if let Hits::Half = hits {
        return (0..8).flat_map(|i| [reference(i); 2]).collect();
    }
    (0..16).map(reference).collect()
}

/// How hard tasks differ: the forks in a row, whether the arms of the last fork begin with the same references, and whether the end begins as
/// another round of the loop does.
#[derive(Clone, Copy)]
struct Shape {
    forks: usize,
    alike: bool,
    closed: bool,
}

/// One end row; 32 reaching states in most blocks, and 32 live ones.
const CLOSED: Shape = Shape { forks: 5, alike: false, closed: true };
/// Up to 32 end rows, and as many reaching states; 17 to 32 live ones.
const OPEN: Shape = Shape { forks: 5, alike: true, closed: false };
/// Refused by 11, the one for its reaching states, the other for its live states alone.
const MANY_REACHING: Shape = Shape { forks: 6, alike: false, closed: true };
const MANY_LIVE: Shape = Shape { forks: 5, alike: false, closed: false };

/// For each of these cache blocks the first of the references to it.
fn first_to(n: usize, cells: &[usize], references: impl Iterator<Item = u16> + Clone) -> Vec<u16> {
    cells.iter().filter_map(|&c| references.clone().find(|&m| m as usize % n == c)).collect()
}

/// The two arms of fork k, which load these cache blocks: the first of them, k, with memory blocks of each arm's own.
fn arms(n: usize, j: usize, hits: Hits, cells: &[usize], numbers: &mut Numbers) -> [Vec<u16>; 2] {
    let k = cells[0];
    [0, 1].map(|side| {
        let own = |turn: usize| if let Hits::Never = hits { side + 2 * (turn % 2) } else { side };
        let drawn = sixteen(n, j, hits, cells, numbers).into_iter().enumerate();
        drawn.map(|(i, m)| if m as usize % n == k { memory(n, j, own(i / cells.len()), k) } else { m }).collect()
    })
}

/// A loop over forks and some more blocks, 24 blocks of 16 references each. Both arms of fork k load cache block k, each a memory block of its
/// own, and six more that they share with the rest of the loop. The entry leaves what a round of the loop leaves, so that the first round makes
/// no other rows.
fn hard_task(n: usize, j: usize, hits: Hits, shape: Shape, numbers: &mut Numbers) -> Vec<Block> {
    let all: Vec<usize> = (0..n).collect();
    let shared = &all[shape.forks..];
    let mut blocks = vec![(vec![1], vec![])];
    for k in 0..shape.forks {
        let head = 1 + 3 * k as u8;
        let two = numbers.some_of(shared, 2);
        blocks.push((vec![head + 1, head + 2], sixteen(n, j, hits, &two, numbers)));
        let cells = [vec![k], numbers.some_of(shared, 6)].concat();
        let [one, mut other] = arms(n, j, hits, &cells, numbers);
        if shape.alike && k + 1 == shape.forks {
            let turn = if let Hits::Half = hits { 2 * cells.len() } else { cells.len() };
            other[..turn].copy_from_slice(&one[..turn]);
        }
        blocks.extend([(vec![head + 3], one), (vec![head + 3], other)]);
    }
    while blocks.len() < 23 {
        let next = blocks.len() as u8 + 1;
        let two = numbers.some_of(shared, 2);
        blocks.push((if next == 23 { vec![1, 23] } else { vec![next] }, sixteen(n, j, hits, &two, numbers)));
    }
    // a round by the first arms, and what is in no round
    let taken = (1..23).filter(|b| 3 * shape.forks < *b || b % 3 != 0);
    let round: Vec<u16> = taken.flat_map(|b| blocks[b].1.clone()).collect();
    let rest = all.iter().map(|&c| memory(n, j, 0, c));
    blocks[0].1 = first_to(n, &all, round.iter().rev().copied().chain(rest.clone()));
    let end = if shape.closed {
        first_to(n, &all, round.iter().copied().chain(rest))
    } else {
        let count = 1 + numbers.below(n - 1);
        let some = numbers.some_of(&all, count);
        sixteen(n, j, hits, &some, numbers)
    };
    blocks.push((vec![], end));
    blocks
}

/// A loop over some optional loads, `heads` times four blocks with the same references, of which one is taken, and a block of 16 references that
/// comes after all of these. The entry leaves what the loop leaves, and the end begins as the loop does, but for the optional loads.
fn fan_task(n: usize, j: usize, loads: usize, heads: usize, numbers: &mut Numbers) -> Vec<Block> {
    let all: Vec<usize> = (0..n).collect();
    let (own, shared) = all.split_at(loads);
    let four = numbers.some_of(shared, 4);
    let same: Vec<u16> = four.iter().map(|&c| memory(n, j, numbers.below(2), c)).collect();
    let joined = sixteen(n, j, Hits::Drawn, shared, numbers);
    let unloaded: Vec<u16> = own.iter().map(|&c| memory(n, j, 0, c)).collect();
    let mut blocks = vec![(vec![1], [unloaded, first_to(n, shared, joined.iter().rev().copied())].concat())];
    for &c in own {
        let next = blocks.len() as u8;
        blocks.push((vec![next + 1, next + 2], vec![]));
        blocks.push((vec![next + 2], vec![memory(n, j, 1, c)]));
    }
    let head = blocks.len() as u8 + 1;
    let arm = head + heads as u8;
    let join = arm + 4 * heads as u8;
    blocks.push(((head..arm).collect(), vec![]));
    blocks.extend((arm..join).step_by(4).map(|first| ((first..first + 4).collect(), vec![])));
    blocks.extend((arm..join).map(|_| (vec![join], same.clone())));
    blocks.push((vec![1, join + 1], joined.clone()));
    blocks.push((vec![], first_to(n, shared, same.into_iter().chain(joined))));
    blocks
}

/// The fewest steps from each block of a task to its end.
fn steps_to_end(blocks: &[Block]) -> Vec<usize> {
    let mut steps = vec![blocks.len(); blocks.len()];
    steps[blocks.len() - 1] = 0;
    for _ in 1..blocks.len() {
        for (b, (successors, _)) in blocks.iter().enumerate() {
            let least = successors.iter().map(|&c| 1 + steps[c as usize]).min();
            steps[b] = steps[b].min(least.unwrap_or(steps[b]));
        }
    }
    steps
}

/// A complete path through a task by drawn successors. It goes on while `most` blocks suffice, or as many as the shortest path has.
fn walk(blocks: &[Block], most: usize, numbers: &mut Numbers) -> Vec<u16> {
    let steps = steps_to_end(blocks);
    let most = most.max(1 + steps[0]);
    let mut path = vec![0];
    loop {
        let (successors, _) = &blocks[path[path.len() - 1] as usize];
        let fitting = |c: &u8| path.len() + 1 + steps[*c as usize] <= most;
        let mut next: Vec<u8> = successors.iter().copied().filter(fitting).collect();
        // the end last of all
        if 1 < next.len() {
            next.retain(|&c| 0 < steps[c as usize]);
        }
        if next.is_empty() {
            return path;
        }
        path.push(next[numbers.below(next.len())] as u16);
    }
}

impl Drawn {
    fn new(n: usize, seed: u64, count: usize, mut task: impl FnMut(usize, &mut Numbers) -> Vec<Block>) -> Drawn {
        let mut numbers = Numbers(seed);
        let tasks = (0..count).map(|j| task(j, &mut numbers)).collect();
        Drawn { n, tasks, numbers }
    }

    pub fn file(&self) -> Vec<u8> {
        let bodies: Vec<Vec<u8>> = self.tasks.iter().map(|blocks| body(blocks)).collect();
        file(self.n as u8, &bodies)
    }

    /// The tasks with a path of at most 64 blocks each.
    fn paths(&self) -> Vec<(Vec<Block>, Vec<u16>)> {
        let mut numbers = self.numbers.clone();
        self.tasks.iter().map(|blocks| (blocks.clone(), walk(blocks, 64, &mut numbers))).collect()
    }

    /// A sheet with 16 preemptions.
    pub fn sheet(&self) -> Vec<u16> {
        let paths = self.paths();
        full_sheet(self.tasks.len(), &self.tasks[0], |j| paths[j].1.clone())
    }

    /// A nested sheet of 21 runs, down to depth 3.
    pub fn nested_sheet(&self) -> Vec<u16> {
        nested(&self.paths(), &[], 0, &[4, 2, 1])
    }

    /// A nested sheet of short runs at mixed depths.
    pub fn short_runs(&self) -> Vec<u16> {
        self.short_run(&[], 0, SHORT_RUNS, &mut self.numbers.clone())
    }

    /// The numbers of a short run of task j, within runs of the tasks `around`, with `within` runs inside it. Its own list has at most 16 of them:
    /// as many as there are where it is the outer one or only one task is left to preempt it, and else one to four; the lists within share the
    /// others.
    fn short_run(&self, around: &[usize], j: usize, within: usize, numbers: &mut Numbers) -> Vec<u16> {
        let path = walk(&self.tasks[j], SHORT_PATH, numbers);
        let around = [around, &[j]].concat();
        let others: Vec<usize> = (0..self.tasks.len()).filter(|other| !around.contains(other)).collect();
        let most = within.min(16);
        let count = match others.len() {
            0 => 0,
            1 => most,
            _ if around.len() == 1 || most == 0 => most,
            _ => 1 + numbers.below(most.min(4)),
        };
        let mut points: Vec<(u16, u16)> = (0..count)
            .map(|_| {
                let position = numbers.below(path.len());
                let references = self.tasks[j][path[position] as usize].1.len();
                (position as u16, (1 + numbers.below(references)) as u16)
            })
            .collect();
        points.sort_unstable();
        let mut sheet = [&[j as u16, path.len() as u16], path.as_slice(), &[count as u16]].concat();
        for (k, (position, done)) in points.into_iter().enumerate() {
            sheet.extend([position, done]);
            let other = others[numbers.below(others.len())];
            sheet.extend(self.short_run(&around, other, (within - count + k) / count, numbers));
        }
        sheet
    }
}

/// Five files of four to eight tasks with 16 cache blocks, one of them with eight: 4 to 10 references a block, and a library.
pub fn typical() -> Vec<Drawn> {
    let drawn = |k: usize| {
        let n = if k == 2 { 8 } else { 16 };
        Drawn::new(n, k as u64, 4 + k, |j, numbers| loop {
            let blocks = typical_task(n, j, numbers);
            if mean_states(n as u8, body(&blocks)).is_some() {
                return blocks;
            }
        })
    };
    (0..5).map(drawn).collect()
}

/// Eight hard tasks, with the shape of the last as given; the last cache blocks, as many as `linked`, have memory blocks of a library.
fn hard_file(seed: u64, linked: usize, hits: Hits, last: Shape) -> Drawn {
    Drawn::new(16, seed, 8, |j, numbers| {
        let shape = if j == 7 { last } else { [CLOSED, OPEN][j % 2] };
        let mut blocks = hard_task(16, j, hits, shape, numbers);
        for m in blocks.iter_mut().flat_map(|(_, references)| references) {
            if 16 - linked <= *m as usize % 16 {
                *m += memory(16, 0, LIBRARY, 0) - memory(16, j, 0, 0);
            }
        }
        blocks
    })
}

/// As many files of eight tasks, 16 cache blocks, 24 blocks with 16 references each, and useful sets that nearly all differ; every other one has
/// a library in four of the cache blocks.
fn hard_files(count: u64, hits: Hits) -> Vec<Drawn> {
    (0..count).map(|seed| hard_file(seed, 4 * (seed as usize % 2), hits, OPEN)).collect()
}

pub fn hard() -> Vec<Drawn> {
    hard_files(4, Hits::Drawn)
}

pub fn hard_misses() -> Vec<Drawn> {
    hard_files(2, Hits::Never)
}

pub fn hard_pairs() -> Vec<Drawn> {
    hard_files(2, Hits::Half)
}

/// Two hard files whose last task is refused by 11: the one for its reaching states, the other for its live states alone.
pub fn refused_late() -> Vec<Drawn> {
    [MANY_REACHING, MANY_LIVE].map(|last| hard_file(4, 0, Hits::Drawn, last)).into()
}

/// Three files of eight tasks, 16 cache blocks: in each task a block has eight predecessors with the same 32 rows, or twelve with the same
/// four.
pub fn many_predecessors() -> Vec<Drawn> {
    let task = |j: usize, numbers: &mut Numbers| {
        let (loads, heads) = [(5, 2), (2, 3)][j % 2];
        fan_task(16, j, loads, heads, numbers)
    };
    (0..3).map(|seed| Drawn::new(16, seed, 8, task)).collect()
}
