//! Document 01 with Points 1 to 3 and 5 to 8 of document 02 once more, in plain Rust: by paths, and with sets of rows. Written from
//! the documents alone, to compare with.
use std::collections::BTreeSet;

pub const AREA: usize = 24832;
const NOTHING: u16 = 65535;
const LIVE: usize = 12288;
const COUNTS: usize = 24576;
/// The most states of either kind that a block may have: check 11.
const MOST_STATES: usize = 32;
/// The most blocks of a path of a sheet.
const LONGEST_PATH: u16 = 1536;
/// The most runs of a list of a nested sheet, and the depth of the innermost run, where the outer one has depth 0.
const LONGEST_LIST: u16 = 16;
const DEEPEST: usize = 7;
/// The least length of the sheet of the costliest run.
pub const COSTLIEST_SHEET: usize = 2311;

/// The check that fails first, and the task that it names.
pub type Refusal = (u8, u8);
pub type Row = [u16; 16];

#[derive(Clone)]
pub struct Block {
    /// No preemption comes in it.
    pub masked: bool,
    pub successors: Vec<usize>,
    pub references: Vec<u16>,
}

pub type Task = Vec<Block>;

pub struct Project {
    pub n: usize,
    pub tasks: Vec<Task>,
    /// Offset and length of each body.
    pub places: Vec<(usize, usize)>,
}

/// The reaching and the live rows of each block.
pub struct States {
    pub reaching: Vec<BTreeSet<Row>>,
    pub live: Vec<BTreeSet<Row>>,
}

fn number(bytes: &[u8], at: usize) -> usize {
    bytes[at] as usize + 256 * bytes[at + 1] as usize
}

/// A body that keeps its layout, block by block.
fn decode(body: &[u8]) -> Option<Task> {
    let mut bytes = body.iter().map(|&byte| byte as usize);
    let blocks = bytes.next()?;
    if !(1..=24).contains(&blocks) || bytes.next()? != 0 {
        return None;
    }
    let mut task = Task::new();
    for _ in 0..blocks {
        let (flags, successor_count, reference_count) = (bytes.next()?, bytes.next()?, bytes.next()?);
        if flags > 1 || successor_count > 4 || reference_count > 16 {
            return None;
        }
        let mut successors = Vec::new();
        for _ in 0..successor_count {
            let next = bytes.next()?;
            if next >= blocks || successors.last().is_some_and(|&last| next <= last) {
                return None;
            }
            successors.push(next);
        }
        let mut references = Vec::new();
        for _ in 0..reference_count {
            let memory_block = bytes.next()? + 256 * bytes.next()?;
            if memory_block == 65535 {
                return None;
            }
            references.push(memory_block as u16);
        }
        task.push(Block { masked: flags == 1, successors, references });
    }
    bytes.next().is_none().then_some(task)
}

/// The blocks on paths from `start`, where `steps` gives the blocks that may come next.
fn on_paths(start: usize, steps: impl Fn(usize) -> Vec<usize>) -> BTreeSet<usize> {
    let mut seen = BTreeSet::from([start]);
    let mut left = vec![start];
    while let Some(block) = left.pop() {
        for next in steps(block) {
            if seen.insert(next) {
                left.push(next);
            }
        }
    }
    seen
}

fn predecessors(task: &Task, block: usize) -> Vec<usize> {
    (0..task.len()).filter(|&before| task[before].successors.contains(&block)).collect()
}

/// Every block lies on a complete path.
pub fn complete(task: &Task) -> bool {
    let from_entry = on_paths(0, |block| task[block].successors.clone());
    let to_end = on_paths(task.len() - 1, |block| predecessors(task, block));
    from_entry.len() == task.len() && to_end.len() == task.len()
}

/// Checks 8 and 9.
fn decode_all(bodies: &[&[u8]]) -> Result<Vec<Task>, Refusal> {
    let mut tasks = Vec::new();
    for (i, body) in bodies.iter().enumerate() {
        tasks.push(decode(body).ok_or((8, i as u8))?);
    }
    if let Some(i) = tasks.iter().position(|task| !complete(task)) {
        return Err((9, i as u8));
    }
    Ok(tasks)
}

/// Reader: checks 2 to 9.
pub fn read(file: &[u8]) -> Result<Project, Refusal> {
    if file.len() < 8 || file.len() > 7544 {
        return Err((2, 255));
    }
    if !file.starts_with(b"CRPD") {
        return Err((3, 255));
    }
    if file[4] != 1 {
        return Err((4, 255));
    }
    let (n, t) = (file[5] as usize, file[6] as usize);
    if !(1..=16).contains(&n) {
        return Err((5, 255));
    }
    if !(1..=8).contains(&t) || file[7] != 0 {
        return Err((6, 255));
    }
    let mut end = 8 + 4 * t;
    if file.len() < end {
        return Err((7, 255));
    }
    let mut places = Vec::new();
    for i in 0..t {
        let (offset, length) = (number(file, 8 + 4 * i), number(file, 10 + 4 * i));
        if offset != end {
            return Err((7, 255));
        }
        end += length;
        places.push((offset, length));
    }
    if end != file.len() {
        return Err((7, 255));
    }
    let bodies: Vec<&[u8]> = places.iter().map(|&(offset, length)| &file[offset..offset + length]).collect();
    Ok(Project { n, tasks: decode_all(&bodies)?, places })
}

/// Body: where it stands and how long it is.
pub fn body(file: &[u8], task: usize) -> (usize, usize) {
    read(file).ok().and_then(|project| project.places.get(task).copied()).unwrap_or((0, 0))
}

/// All pairs of a block and a row that come from `first` by `steps`; none where a block has more than `most` rows.
fn explore(
    blocks: usize, most: usize, first: (usize, Row), steps: impl Fn(usize, &Row) -> Vec<(usize, Row)>,
) -> Option<Vec<BTreeSet<Row>>> {
    let mut rows = vec![BTreeSet::new(); blocks];
    let mut left = vec![first];
    while let Some((block, row)) = left.pop() {
        if rows[block].insert(row) {
            if rows[block].len() > most {
                return None;
            }
            left.extend(steps(block, &row));
        }
    }
    Some(rows)
}

/// The states of a task; none where a block has more than `most` of a kind.
fn states(task: &Task, n: usize, most: usize) -> Option<States> {
    // a later reference replaces an earlier one
    let forward = |block: usize, row: &Row| {
        let mut after = *row;
        for &m in &task[block].references {
            after[m as usize % n] = m;
        }
        after
    };
    // an earlier reference comes first
    let backward = |block: usize, row: &Row| {
        let mut first = *row;
        for &m in task[block].references.iter().rev() {
            first[m as usize % n] = m;
        }
        first
    };
    let empty = [NOTHING; 16];
    let reaching = explore(task.len(), most, (0, forward(0, &empty)), |block, row| {
        task[block].successors.iter().map(|&next| (next, forward(next, row))).collect()
    })?;
    let live = explore(task.len(), most, (task.len() - 1, empty), |block, row| {
        let first = backward(block, row);
        predecessors(task, block).into_iter().map(|before| (before, first)).collect()
    })?;
    Some(States { reaching, live })
}

fn put_rows(part: &mut [u16], rows: &BTreeSet<Row>) {
    for (place, row) in part.chunks_mut(16).zip(rows) {
        place.copy_from_slice(row);
    }
}

/// States: fills the area.
pub fn fill(file: &[u8], task: usize, area: &mut [u16]) -> Result<(), Refusal> {
    if area.len() != AREA {
        return Err((1, 255));
    }
    let found = read(file).and_then(|project| {
        let asked = project.tasks.get(task).ok_or((15, 255))?;
        states(asked, project.n, MOST_STATES).ok_or((11, task as u8))
    });
    area.fill(0);
    let states = found?;
    area[..COUNTS].fill(NOTHING);
    for (b, rows) in states.reaching.iter().enumerate() {
        put_rows(&mut area[512 * b..512 * (b + 1)], rows);
        area[COUNTS + b] = rows.len() as u16;
    }
    for (b, rows) in states.live.iter().enumerate() {
        put_rows(&mut area[LIVE + 512 * b..LIVE + 512 * (b + 1)], rows);
        area[COUNTS + 24 + b] = rows.len() as u16;
    }
    Ok(())
}

/// Row: where it stands and how long it is.
pub fn row(area: &[u16], live: bool, block: usize, number: usize) -> (usize, usize) {
    if area.len() != AREA || block >= 24 {
        return (0, 0);
    }
    let (start, counts) = if live { (LIVE, COUNTS + 24) } else { (0, COUNTS) };
    let count = area[counts + block] as usize;
    if count > 32 || number >= count {
        return (0, 0);
    }
    (start + (32 * block + number) * 16, 16)
}

/// The task with each block that has several references cut into a row of blocks with one reference each, so that every
/// point of the task is the end of a block.
fn cut(task: &Task) -> Task {
    let pieces = |block: &Block| block.references.len().max(1);
    let firsts: Vec<usize> = task.iter().scan(0, |at, block| Some(std::mem::replace(at, *at + pieces(block)))).collect();
    let mut fine = Task::new();
    for block in task {
        for piece in 0..pieces(block) {
            let successors = if piece + 1 < pieces(block) {
                vec![fine.len() + 1]
            } else {
                block.successors.iter().map(|&next| firsts[next]).collect()
            };
            let references = block.references.iter().skip(piece).take(1).copied().collect();
            fine.push(Block { masked: block.masked, successors, references });
        }
    }
    fine
}

/// The useful memory blocks at some point of a task in a block that isn't masked, by cache block, and the rows that it may
/// end with.
struct Rows {
    useful: BTreeSet<Row>,
    ends: BTreeSet<Row>,
}

/// The rows of a task; none by check 11, which counts at the ends of its blocks.
fn rows(task: &Task, n: usize) -> Option<Rows> {
    let ends = states(task, n, MOST_STATES)?.reaching.pop()?;
    let fine = cut(task);
    let points = states(&fine, n, usize::MAX)?;
    let mut useful = BTreeSet::new();
    for p in (0..fine.len()).filter(|&p| !fine[p].masked) {
        for held in &points.reaching[p] {
            for wanted in &points.live[p] {
                useful.insert(std::array::from_fn(|c| if held[c] == wanted[c] { held[c] } else { NOTHING }));
            }
        }
    }
    Some(Rows { useful, ends })
}

/// The pair number of one task preempted by another: a cache block counts where one holds a useful memory block and the other
/// ends with something else.
fn pair_number(preempted: &Rows, preempting: &Rows) -> u16 {
    let replaced = |useful: &Row, end: &Row| {
        (0..16).filter(|&c| useful[c] != NOTHING && end[c] != NOTHING && end[c] != useful[c]).count()
    };
    let most = |useful: &Row| preempting.ends.iter().map(|end| replaced(useful, end)).max();
    preempted.useful.iter().filter_map(most).max().unwrap_or(0) as u16
}

/// Table: the pair numbers.
pub fn table(file: &[u8], area_length: usize, table: &mut [u16]) -> Result<(), Refusal> {
    if area_length != AREA || table.len() != 64 {
        return Err((1, 255));
    }
    let project = read(file)?;
    let mut all = Vec::new();
    for (i, task) in project.tasks.iter().enumerate() {
        all.push(rows(task, project.n).ok_or((11, i as u8))?);
    }
    table.fill(0);
    for i in 0..all.len() {
        for j in (0..all.len()).filter(|&j| j != i) {
            table[8 * i + j] = pair_number(&all[i], &all[j]);
        }
    }
    Ok(())
}

/// A file of bodies that were not looked at.
pub fn pack(n: u8, bodies: &[&[u8]]) -> Vec<u8> {
    let mut file = vec![0x43, 0x52, 0x50, 0x44, 1, n, bodies.len() as u8, 0];
    let mut offset = 8 + 4 * bodies.len();
    for body in bodies {
        file.extend((offset as u16).to_le_bytes());
        file.extend((body.len() as u16).to_le_bytes());
        offset += body.len();
    }
    file.extend(bodies.concat());
    file
}

/// Writer: the length of the file that is put to the front of `out`.
pub fn write(n: u8, joined: &[u8], lengths: &[usize], out: &mut [u8]) -> Result<usize, Refusal> {
    if !(1..=16).contains(&n) {
        return Err((5, 255));
    }
    if !(1..=8).contains(&lengths.len()) {
        return Err((6, 255));
    }
    if lengths.iter().map(|&length| length as u128).sum::<u128>() != joined.len() as u128 {
        return Err((7, 255));
    }
    let mut bodies = Vec::new();
    let mut rest = joined;
    for &length in lengths {
        let (body, after) = rest.split_at(length);
        bodies.push(body);
        rest = after;
    }
    decode_all(&bodies)?;
    let file = pack(n, &bodies);
    let front = out.get_mut(..file.len()).ok_or((14, 255))?;
    front.copy_from_slice(&file);
    Ok(file.len())
}

/// A path of a sheet: a task and its blocks.
struct Path {
    task: usize,
    blocks: Vec<u16>,
}

/// A preemption: a position in the path, how many references of the block there are done, and what comes in.
struct Preemption {
    position: u16,
    done: u16,
    path: Path,
}

struct Sheet {
    run: Path,
    preemptions: Vec<Preemption>,
}

/// Check 12: the sheet, read to its last number.
fn read_sheet(sheet: &[u16], t: usize) -> Option<Sheet> {
    let mut numbers = sheet.iter().copied();
    let path = |numbers: &mut dyn Iterator<Item = u16>| {
        let task = numbers.next().filter(|&task| (task as usize) < t)? as usize;
        let length = numbers.next().filter(|length| (1..=LONGEST_PATH).contains(length))?;
        let blocks = (0..length).map(|_| numbers.next()).collect::<Option<Vec<u16>>>()?;
        Some(Path { task, blocks })
    };
    let run = path(&mut numbers)?;
    let count = numbers.next().filter(|&count| count <= 16)?;
    let mut preemptions = Vec::new();
    let mut last = (0, 0);
    for _ in 0..count {
        let position = numbers.next().filter(|&position| (position as usize) < run.blocks.len())?;
        let done = numbers.next().filter(|&done| last <= (position, done))?;
        let path = path(&mut numbers).filter(|path| path.task != run.task)?;
        preemptions.push(Preemption { position, done, path });
        last = (position, done);
    }
    numbers.next().is_none().then_some(Sheet { run, preemptions })
}

fn is_complete_path(path: &Path, tasks: &[Task]) -> bool {
    let task = &tasks[path.task];
    let inside = path.blocks.iter().all(|&block| (block as usize) < task.len());
    inside
        && path.blocks[0] == 0
        && path.blocks.last().is_some_and(|&block| block as usize == task.len() - 1)
        && path.blocks.windows(2).all(|pair| task[pair[0] as usize].successors.contains(&(pair[1] as usize)))
}

/// Makes a reference on the cache; whether it hits.
fn hits(cache: &mut Row, m: u16, n: usize) -> bool {
    std::mem::replace(&mut cache[m as usize % n], m) == m
}

/// Whether each own reference of a run hits, in order.
fn run(project: &Project, path: &Path, preemptions: &[Preemption]) -> Vec<bool> {
    let mut cache = [NOTHING; 16];
    let mut own = Vec::new();
    for (position, &block) in path.blocks.iter().enumerate() {
        let references = &project.tasks[path.task][block as usize].references;
        // in a block without references 0 are done at its only point
        for done in references.len().min(1)..=references.len() {
            if done > 0 {
                own.push(hits(&mut cache, references[done - 1], project.n));
            }
            let here = |p: &&Preemption| (p.position as usize, p.done as usize) == (position, done);
            for Preemption { path: preempting, .. } in preemptions.iter().filter(here) {
                for &block in &preempting.blocks {
                    for &m in &project.tasks[preempting.task][block as usize].references {
                        hits(&mut cache, m, project.n);
                    }
                }
            }
        }
    }
    own
}

/// Checks 12, 13 and 16: the sheet.
fn checked(project: &Project, sheet: &[u16]) -> Result<Sheet, Refusal> {
    let sheet = read_sheet(sheet, project.tasks.len()).ok_or((12, 255))?;
    let preempting = sheet.preemptions.iter().map(|p| &p.path);
    if !preempting.chain([&sheet.run]).all(|path| is_complete_path(path, &project.tasks)) {
        return Err((13, 255));
    }
    let run_block = |p: &Preemption| &project.tasks[sheet.run.task][sheet.run.blocks[p.position as usize] as usize];
    let right_done = |p: &Preemption| {
        let count = run_block(p).references.len();
        (count.min(1)..=count).contains(&(p.done as usize))
    };
    if !sheet.preemptions.iter().all(right_done) {
        return Err((13, 255));
    }
    if sheet.preemptions.iter().any(|p| run_block(p).masked) {
        return Err((16, 255));
    }
    Ok(sheet)
}

/// U, D and the lost hits: what hits in the undisturbed run and misses in the disturbed one, place by place.
fn counts(project: &Project, sheet: &Sheet) -> (u32, u32, u32) {
    let alone = run(project, &sheet.run, &[]);
    let disturbed = run(project, &sheet.run, &sheet.preemptions);
    let misses = |own: &[bool]| own.iter().filter(|&&hit| !hit).count() as u32;
    let lost = alone.iter().zip(&disturbed).filter(|&(&before, &after)| before && !after).count() as u32;
    (misses(&alone), misses(&disturbed), lost)
}

/// Replay: U, D and the lost hits.
pub fn replay(file: &[u8], sheet: &[u16]) -> Result<(u32, u32, u32), Refusal> {
    let project = read(file)?;
    Ok(counts(&project, &checked(&project, sheet)?))
}

/// A run of a nested sheet, and where it comes in: the run that it preempts, by its place in the sheet's order, and the point.
struct NestedRun {
    path: Path,
    preempts: Option<(usize, u16, u16)>,
    /// The runs of its own list that are still to begin, and the point of the last one that began.
    to_come: u16,
    last: (u16, u16),
}

/// What the next number of a nested sheet is.
enum Next {
    Task,
    Length,
    /// A block, with this many to come.
    Block(u16),
    Count,
    Position,
    /// The references done at this position.
    Done(u16),
    /// The sheet is at its end.
    Nothing,
}

/// A nested sheet, number by number.
struct NestedReader {
    runs: Vec<NestedRun>,
    /// The runs that the next number lies in, the outer one first.
    open: Vec<usize>,
    next: Next,
}

impl NestedReader {
    fn innermost(&mut self) -> &mut NestedRun {
        let place = self.open[self.open.len() - 1];
        &mut self.runs[place]
    }

    /// Where a list begins or a run ends: the innermost list that has a run to come goes on.
    fn goes_on(&mut self) -> Next {
        while self.open.last().is_some_and(|&run| self.runs[run].to_come == 0) {
            self.open.pop();
        }
        if self.open.is_empty() { Next::Nothing } else { Next::Position }
    }

    /// Takes the next number, or answers the check that it is against: 12 goes before 20.
    fn take(&mut self, x: u16, t: usize) -> Result<(), u8> {
        self.next = match self.next {
            Next::Task if x as usize >= t => return Err(12),
            Next::Task if self.open.iter().any(|&run| self.runs[run].path.task == x as usize) => return Err(20),
            Next::Task => {
                let preempts = self.open.last().map(|&run| (run, self.runs[run].last.0, self.runs[run].last.1));
                self.open.push(self.runs.len());
                let path = Path { task: x as usize, blocks: Vec::new() };
                self.runs.push(NestedRun { path, preempts, to_come: 0, last: (0, 0) });
                Next::Length
            }
            Next::Length if !(1..=LONGEST_PATH).contains(&x) => return Err(12),
            Next::Length => Next::Block(x),
            Next::Block(left) => {
                self.innermost().path.blocks.push(x);
                if left == 1 { Next::Count } else { Next::Block(left - 1) }
            }
            Next::Count if x > LONGEST_LIST => return Err(12),
            Next::Count if x > 0 && self.open.len() > DEEPEST => return Err(20),
            Next::Count => {
                self.innermost().to_come = x;
                self.goes_on()
            }
            Next::Position => {
                let run = self.innermost();
                if x as usize >= run.path.blocks.len() || x < run.last.0 {
                    return Err(12);
                }
                Next::Done(x)
            }
            Next::Done(position) => {
                let run = self.innermost();
                if (position, x) < run.last {
                    return Err(12);
                }
                run.last = (position, x);
                run.to_come -= 1;
                Next::Task
            }
            Next::Nothing => return Err(12),
        };
        Ok(())
    }
}

/// Checks 12 and 20: the runs of a nested sheet, in its order.
fn read_nested(sheet: &[u16], t: usize) -> Result<Vec<NestedRun>, u8> {
    let mut reader = NestedReader { runs: Vec::new(), open: Vec::new(), next: Next::Task };
    for &x in sheet {
        reader.take(x, t)?;
    }
    if matches!(reader.next, Next::Nothing) { Ok(reader.runs) } else { Err(12) }
}

/// Checks 13 and 16, each over all runs.
fn check_nested(project: &Project, runs: &[NestedRun]) -> Result<(), u8> {
    if !runs.iter().all(|run| is_complete_path(&run.path, &project.tasks)) {
        return Err(13);
    }
    // the block that each preempting run comes in, and the references done there
    let points = || runs.iter().filter_map(|run| run.preempts).map(|(preempted, position, done)| {
        let Path { task, blocks } = &runs[preempted].path;
        (&project.tasks[*task][blocks[position as usize] as usize], done as usize)
    });
    if points().any(|(block, done)| !(block.references.len().min(1)..=block.references.len()).contains(&done)) {
        return Err(13);
    }
    if points().any(|(block, _)| block.masked) {
        return Err(16);
    }
    Ok(())
}

/// All references of a nested run in order. A run stands in the sheet before those that preempt it, so the last run comes first.
fn nested_references(project: &Project, runs: &[NestedRun]) -> Vec<u16> {
    let mut all = vec![Vec::new(); runs.len()];
    for (place, run) in runs.iter().enumerate().rev() {
        let mut references = Vec::new();
        for (position, &block) in run.path.blocks.iter().enumerate() {
            let own = &project.tasks[run.path.task][block as usize].references;
            for done in own.len().min(1)..=own.len() {
                references.extend(own[..done].last());
                let here = Some((place, position as u16, done as u16));
                for coming in (place + 1..runs.len()).filter(|&coming| runs[coming].preempts == here) {
                    references.append(&mut all[coming]);
                }
            }
        }
        all[place] = references;
    }
    all.swap_remove(0)
}

/// Nested replay: the misses of all runs.
pub fn nested(file: &[u8], sheet: &[u16]) -> Result<u64, Refusal> {
    let project = read(file)?;
    let runs = read_nested(sheet, project.tasks.len()).map_err(|check| (check, 255))?;
    check_nested(&project, &runs).map_err(|check| (check, 255))?;
    let mut cache = [NOTHING; 16];
    let misses = nested_references(&project, &runs).into_iter().filter(|&m| !hits(&mut cache, m, project.n)).count();
    Ok(misses as u64)
}

/// An accepted file with the rows of each task, none for a task by check 11.
pub struct Analysed {
    project: Project,
    rows: Vec<Option<Rows>>,
}

pub fn analyse(file: &[u8]) -> Result<Analysed, Refusal> {
    let project = read(file)?;
    let rows = project.tasks.iter().map(|task| rows(task, project.n)).collect();
    Ok(Analysed { project, rows })
}

/// What a run is judged by: its task, the tasks of its preemptions in order, and the lost hits.
#[derive(Debug, PartialEq)]
pub struct Cost {
    task: usize,
    pub preempting: Vec<usize>,
    lost: u32,
}

/// Costliest run: what the run that is written costs. Which run it is, is left free.
pub fn costliest_run(
    analysed: &Result<Analysed, Refusal>, i: usize, j: usize, areas: [usize; 2], sheet_length: usize,
) -> Result<Cost, Refusal> {
    if areas != [AREA, AREA] {
        return Err((1, 255));
    }
    let Analysed { project, rows } = analysed.as_ref().map_err(|&refusal| refusal)?;
    let t = project.tasks.len();
    if i == j || i >= t || j >= t {
        return Err((18, 255));
    }
    if sheet_length < COSTLIEST_SHEET {
        return Err((19, 255));
    }
    let rows_of = |k: usize| rows[k].as_ref().ok_or((11, k as u8));
    // of two tasks at fault the lower one is named
    rows_of(i.min(j))?;
    let lost = pair_number(rows_of(i)?, rows_of(j)?).into();
    let unmasked = project.tasks[i].iter().any(|block| !block.masked);
    Ok(Cost { task: i, preempting: if unmasked { vec![j] } else { vec![] }, lost })
}

/// What the run of a sheet costs.
pub fn cost(analysed: &Result<Analysed, Refusal>, sheet: &[u16]) -> Result<Cost, Refusal> {
    let Analysed { project, .. } = analysed.as_ref().map_err(|&refusal| refusal)?;
    let sheet = checked(project, sheet)?;
    let (_, _, lost) = counts(project, &sheet);
    Ok(Cost {
        task: sheet.run.task,
        preempting: sheet.preemptions.iter().map(|p| p.path.task).collect(),
        lost,
    })
}

/// Microseconds: whole ones, and the remainder.
pub fn microseconds(number: u32, penalty: u32, clock: u32) -> Result<(u32, u32), Refusal> {
    if number > 16 || !(1..=1000).contains(&penalty) || !(1..=1_000_000).contains(&clock) {
        return Err((17, 255));
    }
    let product = u64::from(number) * u64::from(penalty) * 1000;
    let whole = product / u64::from(clock);
    Ok((whole as u32, (product - whole * u64::from(clock)) as u32))
}

/// The times of a task: its execution time, period and deadline, and what is answered: its response time, and whether it is late.
#[derive(Clone, Copy, Debug, PartialEq)]
pub struct Record {
    pub c: u32,
    pub t: u32,
    pub d: u32,
    pub r: u32,
    pub late: bool,
}

/// The number of tasks of a file, and its pair numbers.
pub struct Tabled {
    tasks: usize,
    numbers: [u16; 64],
}

pub fn tabled(file: &[u8]) -> Result<Tabled, Refusal> {
    let mut numbers = [0; 64];
    table(file, AREA, &mut numbers)?;
    Ok(Tabled { tasks: read(file)?.tasks.len(), numbers })
}

/// Check 21 passes.
fn right_times(list: &[Record], tasks: usize, penalty: u32) -> bool {
    let right = |time: u32| (1..=1_000_000).contains(&time);
    let right_record = |record: &Record| right(record.c) && right(record.t) && right(record.d) && record.d <= record.t;
    list.len() == tasks && list.iter().all(right_record) && penalty <= 1000
}

/// The response time of the last of these tasks, where `costs` are those of one release of each other task: each number up to
/// the deadline is tried. Before the number r there are the releases at 0, at the period, at twice the period and so on.
fn response(list: &[Record], costs: &[u64]) -> Option<u32> {
    let (task, higher) = list.split_last()?;
    let mut asked = u64::from(task.c);
    for r in 1..=task.d {
        let released = higher.iter().zip(costs).filter(|(other, _)| (r - 1) % other.t == 0);
        asked += released.map(|(_, cost)| cost).sum::<u64>();
        if asked == u64::from(r) {
            return Some(r);
        }
        // what is asked for never falls
        if asked > u64::from(task.d) {
            return None;
        }
    }
    None
}

/// Response times: sets R and the late marks.
pub fn response_times(
    tabled: &Result<Tabled, Refusal>, area_length: usize, list: &mut [Record], penalty: u32,
) -> Result<(), Refusal> {
    if area_length != AREA {
        return Err((1, 255));
    }
    let Tabled { tasks, numbers } = tabled.as_ref().map_err(|&refusal| refusal)?;
    if !right_times(list, *tasks, penalty) {
        return Err((21, 255));
    }
    for i in 0..list.len() {
        let cost = |j: usize| {
            let pairs: u64 = (j + 1..=i).map(|h| u64::from(numbers[8 * h + j])).sum();
            u64::from(list[j].c) + u64::from(penalty) * pairs
        };
        let found = response(&list[..=i], &(0..i).map(cost).collect::<Vec<_>>());
        list[i].r = found.unwrap_or(0);
        list[i].late = found.is_none();
    }
    Ok(())
}
