//! Nested replay the plain way: one function reads a run and its list, one checks them, one replays them.
use super::replay::{complete, hits, take, take_path};
use super::{points, read, Refusal, Row, Task, EMPTY};

/// The most runs of a list, and the most runs that lie one within the other, without the outer one.
const LONGEST_LIST: usize = 16;
const DEEPEST: usize = 7;

/// A run: its task, its path, and the runs that preempt it.
struct Run<'a> {
    task: usize,
    path: &'a [u16],
    list: Vec<Preempting<'a>>,
}

struct Preempting<'a> {
    position: usize,
    done: usize,
    run: Run<'a>,
}

/// The misses of a run and of all runs within it.
#[inline(never)]
pub fn nested(file: &[u8], sheet: &[u16]) -> Result<u64, Refusal> {
    let (n, tasks) = read(file)?;
    let mut rest = sheet;
    let run = parse(&mut rest, tasks.len(), &mut Vec::new()).map_err(|check| (check, 255))?;
    if !rest.is_empty() {
        return Err((12, 255));
    }
    if !right(&tasks, &run) {
        return Err((13, 255));
    }
    if !unmasked(&tasks, &run) {
        return Err((16, 255));
    }
    let mut row = EMPTY;
    let mut misses = 0;
    replay(n, &tasks, &run, &mut row, &mut misses);
    Ok(misses)
}

/// The run at the front of the rest of a sheet, within runs of the tasks `around`, or the check that the first number at fault is
/// against.
fn parse<'a>(rest: &mut &'a [u16], t: usize, around: &mut Vec<usize>) -> Result<Run<'a>, u8> {
    let task = take(rest).ok_or(12)?;
    if t <= task {
        return Err(12);
    }
    if around.contains(&task) {
        return Err(20);
    }
    let path = take_path(rest).ok_or(12)?;
    let count = take(rest).ok_or(12)?;
    if LONGEST_LIST < count {
        return Err(12);
    }
    if 0 < count && around.len() == DEEPEST {
        return Err(20);
    }
    let mut list = Vec::with_capacity(count);
    let mut last = (0, 0);
    around.push(task);
    for _ in 0..count {
        let position = take(rest).ok_or(12)?;
        let done = take(rest).ok_or(12)?;
        if path.len() <= position || (position, done) < last {
            return Err(12);
        }
        last = (position, done);
        list.push(Preempting { position, done, run: parse(rest, t, around)? });
    }
    around.pop();
    Ok(Run { task, path, list })
}

/// The path of a run and of all runs within it is complete, and the numbers of references done are right.
fn right(tasks: &[Task], run: &Run) -> bool {
    let task = &tasks[run.task];
    complete(task, run.path)
        && run.list.iter().all(|p| {
            points(&task[run.path[p.position] as usize]).contains(&p.done) && right(tasks, &p.run)
        })
}

/// No run comes in a masked block.
fn unmasked(tasks: &[Task], run: &Run) -> bool {
    run.list.iter().all(|p| !tasks[run.task][run.path[p.position] as usize].masked && unmasked(tasks, &p.run))
}

/// Makes all references of a run and of those within it, and adds up the misses.
fn replay(n: usize, tasks: &[Task], run: &Run, row: &mut Row, misses: &mut u64) {
    let mut coming = run.list.iter().peekable();
    for (position, &b) in run.path.iter().enumerate() {
        let block = &tasks[run.task][b as usize];
        for done in points(block) {
            if 0 < done {
                *misses += u64::from(!hits(n, row, block.references[done - 1]));
            }
            while let Some(p) = coming.next_if(|p| p.position == position && p.done == done) {
                replay(n, tasks, &p.run, row, misses);
            }
        }
    }
}
