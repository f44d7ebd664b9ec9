//! Response times the plain way.
use super::{table, Refusal};
use crpd::Times;

/// Check 21 passes.
fn within_bounds(list: &[Times], tasks: usize, penalty: u32) -> bool {
    let times = |times: &Times| {
        let bounds = 1..=1_000_000;
        bounds.contains(&times.c) && bounds.contains(&times.t) && bounds.contains(&times.d) && times.d <= times.t
    };
    list.len() == tasks && penalty <= 1000 && list.iter().all(times)
}

/// The response time of a task under tasks with these periods and costs: the sum is made again until it stays, or is over the
/// deadline.
fn response(task: &Times, higher: &[(u64, u64)]) -> Option<u64> {
    let (c, d) = (task.c as u64, task.d as u64);
    // each higher task comes once at least
    let mut r = c + higher.iter().map(|&(_, cost)| cost).sum::<u64>();
    while r <= d {
        let next = c + higher.iter().map(|&(period, cost)| r.div_ceil(period) * cost).sum::<u64>();
        if next == r {
            return Some(r);
        }
        r = next;
    }
    None
}

/// Sets the response times of a list and its late marks.
#[inline(never)]
pub fn response_times(file: &[u8], area: &mut [u16], list: &mut [Times], penalty: u32) -> Result<(), Refusal> {
    let mut numbers = [0; 64];
    table(file, area, &mut numbers)?;
    if !within_bounds(list, file[6] as usize, penalty) {
        return Err((21, 255));
    }
    for i in 0..list.len() {
        let cost = |j: usize| {
            let lost: u64 = (j + 1..=i).map(|h| numbers[8 * h + j] as u64).sum();
            (list[j].t as u64, list[j].c as u64 + penalty as u64 * lost)
        };
        let higher: Vec<(u64, u64)> = (0..i).map(cost).collect();
        let found = response(&list[i], &higher);
        list[i].r = found.unwrap_or(0) as u32;
        list[i].late = found.is_none();
    }
    Ok(())
}
