//! Files, run sheets and times from a seed: valid ones of all shapes, and ones damaged in each check's way.
use crate::independent::{complete, pack, Block, Record, Task};
use std::collections::BTreeSet;

/// xorshift, so that a seed gives the same cases everywhere.
pub struct Random(u64);

impl Random {
    pub fn new(seed: u64) -> Random {
        Random((seed + 1).wrapping_mul(0x9E37_79B9_7F4A_7C15))
    }

    fn next(&mut self) -> u64 {
        self.0 ^= self.0 << 13;
        self.0 ^= self.0 >> 7;
        self.0 ^= self.0 << 17;
        self.0 >> 11
    }

    pub fn below(&mut self, bound: usize) -> usize {
        (self.next() % bound as u64) as usize
    }

    pub fn one_in(&mut self, bound: usize) -> bool {
        self.below(bound) == 0
    }

    pub fn pick<T: Copy>(&mut self, list: &[T]) -> T {
        list[self.below(list.len())]
    }
}

pub struct Made {
    pub n: u8,
    pub tasks: Vec<Task>,
}

pub fn encode(task: &Task) -> Vec<u8> {
    let mut body = vec![task.len() as u8, 0];
    for block in task {
        body.extend([u8::from(block.masked), block.successors.len() as u8, block.references.len() as u8]);
        body.extend(block.successors.iter().map(|&next| next as u8));
        body.extend(block.references.iter().flat_map(|m| m.to_le_bytes()));
    }
    body
}

impl Made {
    pub fn bodies(&self) -> Vec<Vec<u8>> {
        self.tasks.iter().map(encode).collect()
    }

    pub fn file(&self) -> Vec<u8> {
        packed(self.n, &self.bodies())
    }

    /// Two tasks share a memory block.
    pub fn shares(&self) -> bool {
        let memory_blocks = |task: &Task| task.iter().flat_map(|block| block.references.clone()).collect::<BTreeSet<u16>>();
        let all: Vec<BTreeSet<u16>> = self.tasks.iter().map(memory_blocks).collect();
        (0..all.len()).any(|j| (0..j).any(|i| !all[i].is_disjoint(&all[j])))
    }
}

fn packed(n: u8, bodies: &[Vec<u8>]) -> Vec<u8> {
    pack(n, &bodies.iter().map(Vec::as_slice).collect::<Vec<_>>())
}

fn block(successors: &[usize], references: &[u16]) -> Block {
    Block { masked: false, successors: successors.to_vec(), references: references.to_vec() }
}

/// A graph with forks and loops; each block lies on a complete path.
fn graph(random: &mut Random) -> Task {
    // small graphs are as frequent as large ones
    let most = random.pick(&[1, 3, 8, 24]);
    let blocks = 1 + random.below(most);
    let extra = random.below(4);
    loop {
        let mut task = Task::new();
        for b in 0..blocks {
            let mut successors: Vec<usize> = (0..random.below(extra + 1)).map(|_| random.below(blocks)).collect();
            if b + 1 < blocks && !random.one_in(8) {
                successors.push(b + 1);
            }
            successors.sort();
            successors.dedup();
            task.push(block(&successors, &[]));
        }
        if complete(&task) {
            return task;
        }
    }
}

/// The references of task i lie in a range of its own.
fn with_references(random: &mut Random, mut task: Task, i: usize) -> Task {
    let most = random.pick(&[1, 2, 5, 17]);
    let span = random.pick(&[1, 3, 8, 20, 8191]);
    for block in &mut task {
        let count = random.below(most);
        block.references = (0..count).map(|_| (8191 * i + random.below(span)) as u16).collect();
    }
    task
}

/// Forks in a row, each loading one of two memory blocks of its own cache block.
fn forks(count: usize, n: usize, first: usize) -> Task {
    let mut task = Task::new();
    for k in 0..count {
        let b = 3 * k;
        task.push(block(&[b + 1, b + 2], &[]));
        for side in 0..2 {
            task.push(block(&[b + 3], &[(first + k % n + side * n) as u16]));
        }
    }
    task.push(block(&[], &[]));
    task
}

/// Which states a task of two layers has many of.
#[derive(Clone, Copy)]
enum Many {
    Both,
    Reaching,
    Live,
}

/// One of `wide` memory blocks of one cache block and then one of `narrow` of another: wide times narrow states.
fn layers(wide: usize, narrow: usize, n: usize, first: usize, many: Many) -> Task {
    let load = |side: usize, k: usize| {
        let (own, common) = ((first + side + n * (k + 1)) as u16, (first + side) as u16);
        match many {
            Many::Both => vec![own],
            Many::Reaching => vec![common, own],
            Many::Live => vec![own, common],
        }
    };
    let join = 4 + wide;
    let mut task = vec![block(&[1, 2, 3], &[])];
    for group in 0..3 {
        let leaves: Vec<usize> = (0..wide).filter(|k| k % 3 == group).map(|k| 4 + k).collect();
        task.push(block(&leaves, &[]));
    }
    task.extend((0..wide).map(|k| block(&[join], &load(0, k))));
    task.push(block(&(join + 1..=join + narrow).collect::<Vec<_>>(), &[]));
    task.extend((0..narrow).map(|k| block(&[join + narrow + 1], &load(1, k))));
    task.push(block(&[], &[]));
    task
}

/// Blocks in a row, each with one reference more than the one before, so that a mask on a late block lowers the numbers.
fn stairs(count: usize, first: usize) -> Task {
    let step = |b: usize| {
        let references: Vec<u16> = (0..=b).map(|k| (first + k) as u16).collect();
        let next: Vec<usize> = (b + 1..count).take(1).collect();
        block(&next, &references)
    };
    (0..count).map(step).collect()
}

/// A loop over `stations` forks and `chain` blocks. The arm of fork k, which may be passed by, loads the cache blocks k and k + 1.
/// What the end block reads is left there only by the arms in falling order, one in each round, so the costliest run is long.
fn rounds(stations: usize, chain: usize, n: usize, first: usize) -> Task {
    // of the two memory blocks of cache block c, that of the arm of fork c or that of the arm before
    let own = |c: usize| (first + c) as u16;
    let before = |c: usize| (first + n + c) as u16;
    let all = |load: &dyn Fn(usize) -> u16| [vec![own(0)], (1..stations).map(load).collect(), vec![before(stations)]].concat();
    let mut task = vec![block(&[1], &all(&own))];
    for k in 0..stations {
        let fork = 1 + 2 * k;
        task.push(block(&[fork + 1, fork + 2], &[]));
        task.push(block(&[fork + 2], &[own(k), before(k + 1)]));
    }
    for _ in 0..chain {
        task.push(block(&[task.len() + 1], &[]));
    }
    task.push(block(&[1, task.len() + 1], &[]));
    task.push(block(&[], &all(&before)));
    task
}

fn task(random: &mut Random, n: usize, i: usize) -> Task {
    // the ranges of tasks begin at multiples of 8,191
    let first = 8191 * i + (n - 8191 * i % n) % n;
    match random.below(12) {
        0 if n >= 6 => forks(5 + random.below(2), n, first),
        1 if n >= 2 => {
            let many = random.pick(&[Many::Both, Many::Reaching, Many::Live]);
            layers(8 + random.below(5), 3 + random.below(2), n, first, many)
        }
        2 => stairs(1 + random.below(16), first),
        3 if n >= 8 => {
            let stations = 4 + random.below(4);
            rounds(stations, random.below(22 - 2 * stations), n, first)
        }
        _ => {
            let graph = graph(random);
            with_references(random, graph, i)
        }
    }
}

/// Masks no blocks of a task, a few, half of them, most, all but one, or all.
fn mask(random: &mut Random, task: &mut Task) {
    let kind = random.below(6);
    let unmasked = random.below(task.len());
    for (b, block) in task.iter_mut().enumerate() {
        block.masked = match kind {
            0 => false,
            1 => random.one_in(6),
            2 => random.one_in(2),
            3 => !random.one_in(6),
            4 => b != unmasked,
            _ => true,
        };
    }
}

/// The longest file: 7,544 bytes. All blocks of task 0 are masked, and fewer of each later task.
pub fn longest() -> Made {
    let whole = |i: usize, b: usize| Block {
        masked: b >= 3 * i,
        successors: (0..3).chain([(b + 1).clamp(3, 23)]).collect(),
        references: (0..16).map(|k| (1000 * i + k) as u16).collect(),
    };
    Made { n: 16, tasks: (0..8).map(|i| (0..24).map(|b| whole(i, b)).collect()).collect() }
}

/// Files of three tasks, each of which has a few states, 32 in a block, or 33 in a block: reaching ones, live ones or both.
pub fn crowded() -> Vec<Made> {
    let n = 4;
    let kinds = |i: usize| {
        let first = 400 * i;
        [
            stairs(3, first),
            layers(8, 4, n, first, Many::Both),
            layers(11, 3, n, first, Many::Reaching),
            layers(11, 3, n, first, Many::Live),
            layers(11, 3, n, first, Many::Both),
        ]
    };
    let mut files = Vec::new();
    for a in kinds(0) {
        for b in kinds(1) {
            files.extend(kinds(2).map(|c| Made { n: n as u8, tasks: vec![a.clone(), b.clone(), c] }));
        }
    }
    files
}

/// Two tasks of one block each that loop; that of task 0 is masked or not.
pub fn loops(masked: bool) -> Made {
    let own = Block { masked, ..block(&[0], &[0, 1]) };
    Made { n: 2, tasks: vec![vec![own], vec![block(&[0], &[2])]] }
}

/// A sheet of that file: `length` blocks, and `count` preemptions of `other` blocks each, after both references.
pub fn loop_sheet(length: usize, count: usize, other: usize) -> Vec<u16> {
    let mut sheet = [vec![0, length as u16], vec![0; length], vec![count as u16]].concat();
    for k in 0..count {
        sheet.extend([k.min(length - 1) as u16, 2, 1, other as u16]);
        sheet.extend(vec![0; other]);
    }
    sheet
}

/// In some cache blocks all tasks refer to memory blocks of one library, one or two of each.
fn link_library(random: &mut Random, tasks: &mut [Task], n: usize) {
    let start = 60000 / n * n;
    let linked: Vec<bool> = (0..n).map(|_| random.one_in(2)).collect();
    let versions = 1 + random.below(2);
    for m in tasks.iter_mut().flatten().flat_map(|block| &mut block.references) {
        let (version, c) = (*m as usize / n % versions, *m as usize % n);
        if linked[c] {
            *m = (start + n * version + c) as u16;
        }
    }
}

/// A file that passes the checks 2 to 9.
pub fn made(random: &mut Random) -> Made {
    let n = 1 + random.below(16);
    let t = 1 + random.below(8);
    let mut tasks: Vec<Task> = (0..t).map(|i| task(random, n, i)).collect();
    if random.one_in(8) {
        // the highest memory block
        let chosen = random.below(t);
        if let Some(last) = tasks[chosen].iter_mut().find_map(|block| block.references.last_mut()) {
            *last = 65534;
        }
    }
    // the tasks of one file in two share a library, and of one in six whole ranges
    if random.one_in(2) {
        link_library(random, &mut tasks, n);
    }
    if random.one_in(6) {
        tasks = (0..t).map(|i| task(random, n, i / 2)).collect();
    }
    // one file in three is left without masked blocks
    if !random.one_in(3) {
        for task in &mut tasks {
            mask(random, task);
        }
    }
    Made { n: n as u8, tasks }
}

/// How many ways there are to damage a file.
pub const DAMAGES: usize = 25;

/// The file with one fault, of the kind asked for where it has room for that.
pub fn damaged(random: &mut Random, made: &Made, kind: usize) -> Vec<u8> {
    let mut file = made.file();
    let mut bodies = made.bodies();
    let chosen = random.below(bodies.len());
    match kind {
        0..=9 => damage_head(random, &mut file, made.tasks.len(), kind),
        10..=18 => {
            damage_body(random, &made.tasks[chosen], &mut bodies[chosen], kind);
            file = packed(made.n, &bodies);
        }
        19 => {
            // all memory blocks of another task, which is no fault
            bodies[chosen] = random.pick(&bodies.iter().collect::<Vec<_>>()).clone();
            file = packed(made.n, &bodies);
        }
        20..=23 => {
            bodies[chosen] = encode(&with_fault(random, &made.tasks[chosen], kind, chosen));
            file = packed(made.n, &bodies);
        }
        _ => {
            for _ in 0..1 + random.below(3) {
                let place = random.below(file.len());
                file[place] = random.pick(&[0, 1, 2, 255, file[place] ^ 1, file[place].wrapping_add(1)]);
            }
        }
    }
    file
}

/// Faults for the checks 2 to 7.
fn damage_head(random: &mut Random, file: &mut Vec<u8>, t: usize, kind: usize) {
    let bit = 1 << random.below(8);
    match kind {
        0 => file.truncate(random.below(9)),
        1 => file.resize(7543 + random.below(4), 0),
        2 => file[random.below(4)] ^= bit,
        3 => file[4] = random.pick(&[0, 2, 255]),
        4 => file[5] = random.pick(&[0, 17, 255]),
        5 => file[6] = random.pick(&[0, 9, 255]),
        6 => file[7] = bit,
        7 => file[8 + random.below(4 * t)] ^= bit,
        8 => file.truncate(8 + random.below(file.len() - 8)),
        _ => file.push(0),
    }
}

/// Faults for check 8, in the bytes of a body.
fn damage_body(random: &mut Random, task: &Task, body: &mut Vec<u8>, kind: usize) {
    let chosen = random.below(task.len());
    let start = block_starts(task)[chosen];
    let Block { successors, references, .. } = &task[chosen];
    match kind {
        10 => body[0] = random.pick(&[0, 25, 255, body[0] - 1, body[0] + 1]),
        11 => body[1] = 1,
        12 => body[start + 1 + random.below(2)] ^= 1 << random.below(6),
        13 => body.truncate(random.below(body.len())),
        14 => body.push(0),
        15 if !successors.is_empty() => {
            body[start + 3 + random.below(successors.len())] = random.pick(&[0, 23, 24, 255, body[0], body[0] - 1]);
        }
        // two equal successors, or two that fall
        16 if successors.len() > 1 => body[start + 4] = body[start + 3].saturating_sub(random.below(2) as u8),
        17 if !references.is_empty() => {
            let place = start + 3 + successors.len() + 2 * random.below(references.len());
            body[place..place + 2].fill(255);
        }
        18 => body[start] = random.pick(&[2, 3, 128, 254, 255]),
        _ => {}
    }
}

/// The task with a block on no complete path, or with as many references, successors or blocks as it may have or one more.
fn with_fault(random: &mut Random, task: &Task, kind: usize, i: usize) -> Task {
    let mut task = task.clone();
    let over = random.below(2);
    let chosen = random.below(task.len());
    match kind {
        20 if over == 0 => task.push(block(&[], &[])),
        20 => task[chosen].successors.clear(),
        21 => task[chosen].references = vec![8191 * i as u16; 16 + over],
        22 if task.len() > 4 => task[chosen].successors = (0..4 + over).collect(),
        _ => {
            while task.len() < 24 + over {
                let last = task.len() - 1;
                task[last].successors = vec![last + 1];
                task.push(block(&[], &[]));
            }
        }
    }
    task
}

/// Where the blocks of a body begin in it.
fn block_starts(task: &Task) -> Vec<usize> {
    let mut at = 2;
    let mut starts = Vec::new();
    for block in task {
        starts.push(at);
        at += 3 + block.successors.len() + 2 * block.references.len();
    }
    starts
}

/// A complete path of at most 1,536 blocks, most often of at most 64: some steps at random, and then a shortest way to the
/// end, of at most 24 steps.
fn path(random: &mut Random, task: &Task) -> Vec<u16> {
    let end = task.len() - 1;
    let mut far = vec![usize::MAX; task.len()];
    far[end] = 0;
    for _ in 0..task.len() {
        for b in 0..end {
            let nearest = task[b].successors.iter().map(|&next| far[next].saturating_add(1)).min();
            far[b] = nearest.unwrap_or(usize::MAX);
        }
    }
    let wandering = if random.one_in(40) { random.below(1513) } else { random.below(41) };
    let mut blocks = vec![0];
    loop {
        let last = blocks[blocks.len() - 1];
        let successors = &task[last].successors;
        if last == end && (blocks.len() > wandering || successors.is_empty()) {
            return blocks.iter().map(|&b| b as u16).collect();
        }
        let next = if blocks.len() < wandering {
            random.pick(successors)
        } else {
            *successors.iter().min_by_key(|&&next| far[next]).unwrap_or(&end)
        };
        blocks.push(next);
    }
}

/// A position in a path, and how many references of the block there are done.
type Point = (u16, u16);

/// The points of a path in masked blocks, and the others.
fn points(task: &Task, path: &[u16]) -> (Vec<Point>, Vec<Point>) {
    let block = |position: u16| &task[path[position as usize] as usize];
    let all = (0..path.len() as u16).flat_map(|position| {
        let count = block(position).references.len() as u16;
        (count.min(1)..=count).map(move |done| (position, done))
    });
    all.partition(|&(position, _)| block(position).masked)
}

/// The sheet of a path of task p with a preemption at each of these points, and the preempting task of each.
fn preempted(
    random: &mut Random, tasks: &[Task], p: usize, own: &[u16], mut points: Vec<Point>,
) -> (Vec<u16>, Vec<usize>) {
    points.sort();
    let mut sheet = vec![p as u16, own.len() as u16];
    sheet.extend(own);
    sheet.push(points.len() as u16);
    let mut preempting = Vec::new();
    for (position, done) in points {
        let j = (p + 1 + random.below(tasks.len() - 1)) % tasks.len();
        let blocks = path(random, &tasks[j]);
        sheet.extend([position, done, j as u16, blocks.len() as u16]);
        sheet.extend(blocks);
        preempting.push(j);
    }
    (sheet, preempting)
}

/// A run sheet that Replay accepts, and the preempting task of each preemption.
pub fn sheet(random: &mut Random, tasks: &[Task]) -> (Vec<u16>, Vec<usize>) {
    let p = random.below(tasks.len());
    let own = path(random, &tasks[p]);
    let (_, unmasked) = points(&tasks[p], &own);
    let count = if tasks.len() == 1 || unmasked.is_empty() { 0 } else { random.below(17) };
    let chosen = (0..count).map(|_| random.pick(&unmasked)).collect();
    preempted(random, tasks, p, &own, chosen)
}

/// A run sheet that is right but for a preemption in a masked block, or several; none where the path that is drawn
/// passes no masked block or there is no other task.
pub fn masked_sheet(random: &mut Random, tasks: &[Task]) -> Option<Vec<u16>> {
    let p = random.below(tasks.len());
    let own = path(random, &tasks[p]);
    let (masked, unmasked) = points(&tasks[p], &own);
    if tasks.len() == 1 || masked.is_empty() {
        return None;
    }
    let mut chosen = vec![random.pick(&masked)];
    // the others come anywhere, or in unmasked blocks alone
    let others = if unmasked.is_empty() || random.one_in(2) { [masked, unmasked].concat() } else { unmasked };
    chosen.extend((0..random.below(16)).map(|_| random.pick(&others)));
    Some(preempted(random, tasks, p, &own, chosen).0)
}

/// The sheet with one fault, and the check that is at fault.
pub fn damaged_sheet(random: &mut Random, tasks: &[Task], sheet: &[u16]) -> (Vec<u16>, u8) {
    let mut broken = sheet.to_vec();
    let length = sheet[1] as usize;
    if sheet[2 + length] > 0 && random.one_in(2) {
        return damaged_preemption(random, tasks, sheet);
    }
    let (place, number, check) = match random.below(8) {
        0 => {
            broken.truncate(random.below(sheet.len()));
            return (broken, 12);
        }
        1 => {
            broken.push(0);
            return (broken, 12);
        }
        2 => (0, random.pick(&[tasks.len() as u16, 8, 65535]), 12),
        3 => (1, random.pick(&[0, 1537, 65535]), 12),
        4 => (2 + length, random.pick(&[17, 65535]), 12),
        5 => (2 + random.below(length), random.pick(&[24, 256, 65535]), 13),
        6 => (1 + length, tasks[sheet[0] as usize].len() as u16, 13),
        // a path that doesn't begin in block 0
        _ => (2, 1, 13),
    };
    broken[place] = number;
    (broken, check)
}

/// The same, with the fault in the first two preemptions.
fn damaged_preemption(random: &mut Random, tasks: &[Task], sheet: &[u16]) -> (Vec<u16>, u8) {
    let mut broken = sheet.to_vec();
    let length = sheet[1] as usize;
    let first = 3 + length;
    let second = first + 4 + sheet[first + 3] as usize;
    let references = |at: usize| tasks[sheet[0] as usize][sheet[2 + sheet[at] as usize] as usize].references.len() as u16;
    let (place, number, check) = match random.below(9) {
        0 => (first, random.pick(&[length as u16, 1536, 65535]), 12),
        1 => (first + 2, sheet[0], 12),
        2 => (first + 2, random.pick(&[tasks.len() as u16, 8, 65535]), 12),
        3 => (first + 3, random.pick(&[0, 1537, 65535]), 12),
        4 if second < sheet.len() && sheet[second] > 0 => {
            // a position below the one before it
            broken[first] = sheet[second];
            (second, sheet[second] - 1, 12)
        }
        5 if second < sheet.len() => {
            // the same position, and fewer references done, of which both numbers may be wrong
            broken[second] = sheet[first];
            broken[second + 1] = random.below(40) as u16;
            (first + 1, broken[second + 1] + 1 + random.below(3) as u16, 12)
        }
        6 if second >= sheet.len() || sheet[second] > sheet[first] => {
            // too many references done, which a later position may follow
            (first + 1, random.pick(&[references(first) + 1, 255, 65535]), 13)
        }
        7 if references(first) > 0 => (first + 1, 0, 13),
        _ => (first + 4, random.pick(&[1, 24, 256, 65535]), 13),
    };
    broken[place] = number;
    (broken, check)
}

/// The sheet with one to three numbers changed; it may still be valid.
pub fn changed_sheet(random: &mut Random, sheet: &[u16]) -> Vec<u16> {
    let mut changed = sheet.to_vec();
    for _ in 0..1 + random.below(3) {
        let place = random.below(sheet.len());
        let number = changed[place];
        changed[place] = random.pick(&[0, 1, 2, 3, 1536, 65535, number.wrapping_add(1), number.wrapping_sub(1)]);
    }
    changed
}

/// A run of a nested sheet: its task and path, and the runs that preempt it, each at its point.
pub struct Nested {
    pub task: usize,
    pub path: Vec<u16>,
    pub list: Vec<(Point, Nested)>,
}

/// How the runs of a nested sheet lie: one within the other as deep as the tasks allow, many in the outer list, or between.
#[derive(Clone, Copy)]
pub enum Nesting {
    Deep,
    Wide,
    Mixed,
}

impl Nesting {
    pub const ALL: [Nesting; 3] = [Nesting::Deep, Nesting::Wide, Nesting::Mixed];

    /// How many runs the list of a run at this depth has.
    fn count(self, random: &mut Random, depth: usize) -> usize {
        match self {
            Nesting::Deep => random.pick(&[1, 1, 1, 1, 1, 2]),
            Nesting::Wide if depth == 0 => random.below(17),
            Nesting::Wide => random.pick(&[0, 0, 1]),
            Nesting::Mixed => random.pick(&[0, 0, 1, 1, 2, 3]),
        }
    }
}

/// Where the numbers of a run stand in its sheet, and what they are held against.
struct Places {
    /// The position, which the references done follow, and the task, which the path's length follows.
    point: usize,
    task: usize,
    count: usize,
    /// The tasks of the runs around it, the outer one first.
    around: Vec<u16>,
    /// The points of the runs before and after it in the same list.
    before: Option<Point>,
    after: Option<Point>,
    /// The blocks of the path that it preempts, and the references of the block that it comes in.
    preempted: usize,
    references: usize,
}

impl Nested {
    /// The numbers of the sheet.
    pub fn numbers(&self) -> Vec<u16> {
        let mut sheet = vec![self.task as u16, self.path.len() as u16];
        sheet.extend(&self.path);
        sheet.push(self.list.len() as u16);
        for ((position, done), run) in &self.list {
            sheet.extend([*position, *done]);
            sheet.extend(run.numbers());
        }
        sheet
    }

    /// The depth of the innermost run.
    pub fn depth(&self) -> usize {
        self.list.iter().map(|(_, run)| 1 + run.depth()).max().unwrap_or(0)
    }

    /// All runs, each with the tasks of the runs around it.
    pub fn runs(&self) -> Vec<(&Nested, Vec<usize>)> {
        let mut all = vec![(self, vec![])];
        let mut next = 0;
        while next < all.len() {
            let (run, around) = all[next].clone();
            let around = [around, vec![run.task]].concat();
            all.extend(run.list.iter().map(|(_, inner)| (inner, around.clone())));
            next += 1;
        }
        all
    }

    /// The places of all preempting runs of the sheet, where the list of this run begins at `at`.
    fn places(&self, tasks: &[Task], around: &[u16], mut at: usize) -> Vec<Places> {
        let around = [around, &[self.task as u16]].concat();
        let mut all = Vec::new();
        for (k, ((position, _), run)) in self.list.iter().enumerate() {
            let count = at + 4 + run.path.len();
            all.push(Places {
                point: at,
                task: at + 2,
                count,
                around: around.clone(),
                before: k.checked_sub(1).map(|k| self.list[k].0),
                after: self.list.get(k + 1).map(|&(point, _)| point),
                preempted: self.path.len(),
                references: tasks[self.task][self.path[*position as usize] as usize].references.len(),
            });
            all.extend(run.places(tasks, &around, count + 1));
            at += 2 + run.numbers().len();
        }
        all
    }
}

/// A run that preempts the runs of the tasks `around`, or the outer one, and the runs within it. Where `masked` is set, some run
/// may come in a masked block, and then it is no longer set.
fn nested_run(random: &mut Random, tasks: &[Task], around: &[usize], nesting: Nesting, masked: &mut bool) -> Nested {
    let free: Vec<usize> = (0..tasks.len()).filter(|j| !around.contains(j)).collect();
    let task = random.pick(&free);
    let path = path(random, &tasks[task]);
    let (masked_points, unmasked_points) = points(&tasks[task], &path);
    let mut chosen: Vec<Point> = Vec::new();
    if free.len() > 1 {
        if *masked && !masked_points.is_empty() && !random.one_in(3) {
            chosen.push(random.pick(&masked_points));
            *masked = false;
        }
        if !unmasked_points.is_empty() {
            let count = nesting.count(random, around.len());
            chosen.extend((chosen.len()..count).map(|_| random.pick(&unmasked_points)));
        }
    }
    chosen.sort();
    let around = [around, &[task]].concat();
    let list = chosen.into_iter().map(|point| (point, nested_run(random, tasks, &around, nesting, masked))).collect();
    Nested { task, path, list }
}

/// A nested run whose sheet Nested replay accepts.
pub fn nested(random: &mut Random, tasks: &[Task], nesting: Nesting) -> Nested {
    nested_run(random, tasks, &[], nesting, &mut false)
}

/// A nested run that is right but for one that comes in a masked block; none where no such point is drawn.
pub fn masked_nested(random: &mut Random, tasks: &[Task], nesting: Nesting) -> Option<Nested> {
    let mut masked = true;
    let run = nested_run(random, tasks, &[], nesting, &mut masked);
    (!masked).then_some(run)
}

/// How many ways there are to damage a nested sheet.
pub const NESTED_DAMAGES: usize = 18;

/// The sheet of a nested run with a fault of the kind asked for, and the check that decides; none where it has no room for that.
pub fn damaged_nested(random: &mut Random, tasks: &[Task], run: &Nested, kind: usize) -> Option<(Vec<u16>, u8)> {
    let mut sheet = run.numbers();
    let outer = 2 + run.path.len();
    match kind {
        0 => sheet.truncate(random.below(sheet.len())),
        1 => sheet.push(random.pick(&[0, 1, 17, 65535])),
        2 => sheet[0] = random.pick(&[tasks.len() as u16, 8, 65535]),
        3 => sheet[1] = random.pick(&[0, 1537, 65535]),
        4 => sheet[outer] = random.pick(&[17, 65535]),
        _ => {
            let places = run.places(tasks, &[], outer + 1);
            if places.is_empty() {
                return None;
            }
            let chosen = random.below(places.len());
            return damaged_inner(random, tasks, sheet, &places[chosen..], kind);
        }
    }
    Some((sheet, 12))
}

/// The same with the fault in the numbers of the first of these runs, or after them.
fn damaged_inner(
    random: &mut Random, tasks: &[Task], mut sheet: Vec<u16>, places: &[Places], kind: usize,
) -> Option<(Vec<u16>, u8)> {
    let here = &places[0];
    let missing = random.pick(&[tasks.len() as u16, 8, 65535]);
    let enclosing = random.pick(&here.around);
    let (place, number, check) = match kind {
        5 => (here.task, missing, 12),
        6 => (here.task, enclosing, 20),
        7 => (here.task + 1, random.pick(&[0, 1537, 65535]), 12),
        8 => (here.count, random.pick(&[17, 65535]), 12),
        // the innermost run has a list
        9 if here.around.len() == 7 => (here.count, 1 + random.below(16) as u16, 20),
        10 => (here.point, random.pick(&[here.preempted as u16, 1536, 65535]), 12),
        // a position below the one before it, or the same and fewer references done
        11 => (here.point, here.before?.0.checked_sub(1)?, 12),
        12 => {
            sheet[here.point] = here.before?.0;
            (here.point + 1, here.before?.1.checked_sub(1)?, 12)
        }
        // a wrong number of references, in order with those around it
        13 if here.after.is_none_or(|(position, _)| position > sheet[here.point]) => {
            (here.point + 1, random.pick(&[here.references as u16 + 1, 255, 65535]), 13)
        }
        14 if here.references > 0 && here.before.is_none_or(|(position, _)| position < sheet[here.point]) => (here.point + 1, 0, 13),
        15 => (here.task + 2 + random.below(sheet[here.task + 1] as usize), random.pick(&[24, 256, 65535]), 13),
        // of two faults the first decides: a task within itself, and then one that isn't there, or the sheet's end
        16 => {
            match places.get(1 + random.below(places.len())) {
                Some(later) => sheet[later.task] = missing,
                None => sheet.truncate(here.task + 1 + random.below(sheet.len() - here.task)),
            }
            (here.task, enclosing, 20)
        }
        17 => {
            let later = &places[1..];
            let later = later.get(random.below(later.len().max(1)))?;
            sheet[later.task] = random.pick(&later.around);
            (here.task, missing, 12)
        }
        _ => return None,
    };
    sheet[place] = number;
    Some((sheet, check))
}

/// Eight tasks of a few blocks without masks, which share memory blocks in some cache blocks: room for runs of every depth.
pub fn tower(random: &mut Random) -> Made {
    let n = 2 + random.below(8);
    let small = |m: u16| vec![block(&[1], &[m, 40]), block(&[0, 2], &[41, m + 1]), block(&[], &[m + 2])];
    Made { n: n as u8, tasks: (0..8).map(|i| small(3 * i)).collect() }
}

/// The sheet of `loop_sheet` as a nested one: no run of its list has a list.
pub fn nested_loop_sheet(length: usize, count: usize, other: usize) -> Vec<u16> {
    let mut sheet = [vec![0, length as u16], vec![0; length], vec![count as u16]].concat();
    for k in 0..count {
        sheet.extend([k.min(length - 1) as u16, 2, 1, other as u16]);
        sheet.extend(vec![0; other + 1]);
    }
    sheet
}

/// Times of t tasks with periods up to `longest`, which ask for a small part of the time, for about all of it or for more. R and
/// the late mark may be anything before the call.
pub fn times(random: &mut Random, t: usize, longest: usize) -> Vec<Record> {
    let part = random.pick(&[1, t, 2 * t, 8 * t]);
    let mut periods: Vec<usize> = (0..t).map(|_| 1 + random.below(longest)).collect();
    // in half of the lists a task with a shorter period is the higher one
    if random.one_in(2) {
        periods.sort();
    }
    let mut record = |period: usize| {
        let c = 1 + if random.one_in(20) { random.below(longest) } else { random.below(period.div_ceil(part)) };
        let d = if random.one_in(3) { 1 + random.below(period) } else { period };
        Record { c: c as u32, t: period as u32, d: d as u32, r: random.next() as u32, late: random.one_in(2) }
    };
    periods.into_iter().map(&mut record).collect()
}

/// A miss penalty that check 21 takes.
pub fn penalty(random: &mut Random) -> u32 {
    let any = random.below(1001) as u32;
    random.pick(&[0, 1, 2, 3, 10, 100, 1000, any])
}

/// Answered times with each deadline at R, one below it or one above it, where that lies in the period.
pub fn deadlines(random: &mut Random, answered: &[Record]) -> Vec<Record> {
    let mut next_to = |record: &Record| {
        let d = random.pick(&[record.r.saturating_sub(1), record.r, record.r + 1]);
        let right = !record.late && (1..=record.t).contains(&d);
        Record { d: if right { d } else { record.d }, ..*record }
    };
    answered.iter().map(&mut next_to).collect()
}

/// The list with times of task i at a bound or next to it, and of other lengths, with a penalty each; and the list with
/// penalties at a bound or next to it.
pub fn times_at_bounds(list: &[Record], i: usize) -> Vec<(Vec<Record>, u32)> {
    let Record { c, t, d, .. } = list[i];
    let with = |c: u32, t: u32, d: u32| {
        let mut changed = list.to_vec();
        changed[i] = Record { c, t, d, ..list[i] };
        changed
    };
    let mut lists = vec![with(c, t, t), with(c, t, t + 1), with(c, 999_999, 1_000_000), with(c, 1_000_000, 999_999)];
    for x in [0, 1, 1_000_000, 1_000_001, u32::MAX] {
        lists.extend([with(x, t, d), with(c, x, d), with(c, t, x), with(c, x, x), with(x, x, x)]);
    }
    for length in [0, 1, list.len() - 1, list.len() + 1, 8, 9] {
        lists.push(list.iter().cycle().take(length).copied().collect());
    }
    let penalties = [0, 1, 999, 1000, 1001, u32::MAX].map(|penalty| (list.to_vec(), penalty));
    lists.into_iter().map(|list| (list, 1)).chain(penalties).collect()
}

/// A task of one block without references.
pub fn empty_task() -> Task {
    vec![block(&[], &[])]
}

/// Times for eight tasks without references: ones for which many numbers lie between C and R or are tried in vain, ones that ask for
/// more than there is, and the longest.
pub fn slow_times() -> Vec<Vec<Record>> {
    let list = |times: &[(u32, u32)]| times.iter().map(|&(c, t)| Record { c, t, d: t, r: 7, late: true }).collect();
    let one = (1, 1_000_000);
    let longest = (1_000_000, 1_000_000);
    vec![
        list(&[(1, 1), one, one, one, one, one, one, one]),
        list(&[(999_999, 1_000_000), one, one, one, one, one, one, one]),
        list(&[(2, 4), (2, 6), (2, 14), (2, 86), (2, 3625), (1, 999_512), one, one]),
        list(&[(2, 4), (2, 6), (2, 14), (2, 86), (2, 3653), (3, 1_000_000), (1, 999_992), one]),
        list(&[(1, 2), (1, 3), (1, 7), (1, 43), (1, 1807), one, one, one]),
        list(&[longest; 8]),
    ]
}
