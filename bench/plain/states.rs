//! States the plain way.
use super::{live, reaching, read, Refusal, Row, NOTHING};
use std::collections::BTreeSet;

const ROWS: usize = 24 * 32 * 16;

/// The states of a task, written into the work area; zeros after a refusal, but for that of a wrong length.
#[inline(never)]
pub fn states(file: &[u8], task: usize, area: &mut [u16]) -> Result<(), Refusal> {
    if area.len() != 24832 {
        return Err((1, 255));
    }
    match gathered(file, task) {
        Ok((reached, lived)) => {
            let (rows, counts) = area.split_at_mut(2 * ROWS);
            rows.fill(NOTHING);
            counts.fill(0);
            place(&reached, &mut rows[..ROWS], &mut counts[..24]);
            place(&lived, &mut rows[ROWS..], &mut counts[24..48]);
            Ok(())
        }
        Err(refusal) => {
            area.fill(0);
            Err(refusal)
        }
    }
}

type Sets = Vec<BTreeSet<Row>>;

/// Checks 2 to 9, 15 and 11: the reaching and live states of each block of the task.
fn gathered(file: &[u8], task: usize) -> Result<(Sets, Sets), Refusal> {
    let (n, tasks) = read(file)?;
    let asked = tasks.get(task).ok_or((15, 255))?;
    let full = (11, task as u8);
    Ok((reaching(n, asked).ok_or(full)?, live(n, asked).ok_or(full)?))
}

/// The rows of each block in rising order, 32 places of 16 numbers a block, and their counts.
fn place(sets: &[BTreeSet<Row>], rows: &mut [u16], counts: &mut [u16]) {
    for (b, set) in sets.iter().enumerate() {
        counts[b] = set.len() as u16;
        for (k, row) in set.iter().enumerate() {
            let at = (32 * b + k) * 16;
            rows[at..at + 16].copy_from_slice(row);
        }
    }
}
