//! Replay the plain way.
use super::{points, read, Refusal, Row, Task, EMPTY};

/// The most blocks of a path.
const LONGEST_PATH: usize = 1536;

struct Preemption<'a> {
    position: usize,
    done: usize,
    task: usize,
    path: &'a [u16],
}

struct Run<'a> {
    task: usize,
    path: &'a [u16],
    preemptions: Vec<Preemption<'a>>,
}

/// The misses of a run without and with its preemptions, and the hits that became misses.
#[inline(never)]
pub fn replay(file: &[u8], sheet: &[u16]) -> Result<(u32, u32, u32), Refusal> {
    let (n, tasks) = read(file)?;
    let run = parse(sheet, tasks.len()).ok_or((12, 255))?;
    let all_complete = complete(&tasks[run.task], run.path)
        && run.preemptions.iter().all(|p| complete(&tasks[p.task], p.path));
    if !all_complete {
        return Err((13, 255));
    }
    let block = |p: &Preemption| &tasks[run.task][run.path[p.position] as usize];
    if !run.preemptions.iter().all(|p| points(block(p)).contains(&p.done)) {
        return Err((13, 255));
    }
    if run.preemptions.iter().any(|p| block(p).masked) {
        return Err((16, 255));
    }
    Ok(misses(n, &tasks, &run))
}

/// The first number of the rest of a sheet.
pub(super) fn take(rest: &mut &[u16]) -> Option<usize> {
    let (first, others) = rest.split_first()?;
    *rest = others;
    Some(*first as usize)
}

/// A path: its length and its blocks.
pub(super) fn take_path<'a>(rest: &mut &'a [u16]) -> Option<&'a [u16]> {
    let length = take(rest)?;
    if length < 1 || LONGEST_PATH < length || rest.len() < length {
        return None;
    }
    let (path, others) = rest.split_at(length);
    *rest = others;
    Some(path)
}

/// The run of a sheet for a file with t tasks, or none if the sheet breaks its rules (check 12).
fn parse(sheet: &[u16], t: usize) -> Option<Run<'_>> {
    let mut rest = sheet;
    let task = take(&mut rest)?;
    let path = take_path(&mut rest)?;
    let count = take(&mut rest)?;
    if t <= task || 16 < count {
        return None;
    }
    let mut preemptions = Vec::with_capacity(count);
    let mut last = (0, 0);
    for _ in 0..count {
        let position = take(&mut rest)?;
        let done = take(&mut rest)?;
        let other = take(&mut rest)?;
        if (position, done) < last || path.len() <= position || t <= other || other == task {
            return None;
        }
        preemptions.push(Preemption { position, done, task: other, path: take_path(&mut rest)? });
        last = (position, done);
    }
    if rest.is_empty() { Some(Run { task, path, preemptions }) } else { None }
}

/// Whether a path goes from the entry to the end of its task.
pub(super) fn complete(task: &Task, path: &[u16]) -> bool {
    path.iter().all(|&b| (b as usize) < task.len())
        && path[0] == 0
        && path[path.len() - 1] as usize == task.len() - 1
        && path.windows(2).all(|w| task[w[0] as usize].successors.contains(&(w[1] as usize)))
}

/// Makes a reference; answers whether it hits.
pub(super) fn hits(n: usize, row: &mut Row, m: u16) -> bool {
    let place = &mut row[m as usize % n];
    let hit = *place == m;
    *place = m;
    hit
}

/// The misses of the run's own references without and with the preemptions, and those that hit without and miss with them.
fn misses(n: usize, tasks: &[Task], run: &Run) -> (u32, u32, u32) {
    let mut alone = EMPTY;
    let mut disturbed = EMPTY;
    let mut counts = (0, 0, 0);
    let mut coming = run.preemptions.iter().peekable();
    for (position, &b) in run.path.iter().enumerate() {
        let block = &tasks[run.task][b as usize];
        for done in points(block) {
            if 0 < done {
                let m = block.references[done - 1];
                let (before, after) = (hits(n, &mut alone, m), hits(n, &mut disturbed, m));
                counts.0 += u32::from(!before);
                counts.1 += u32::from(!after);
                counts.2 += u32::from(before && !after);
            }
            while let Some(p) = coming.next_if(|p| p.position == position && p.done == done) {
                for &c in p.path {
                    for &m in &tasks[p.task][c as usize].references {
                        hits(n, &mut disturbed, m);
                    }
                }
            }
        }
    }
    counts
}
