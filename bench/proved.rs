//! The proved calls of the safe wrapper, each with the answers that its plain version has.
use crate::plain;
use crpd::{Misses, Refusal, Time, Times};

pub fn table(file: &[u8], area: &mut [u16], numbers: &mut [u16]) -> Result<(), plain::Refusal> {
    crpd::table(file, area, numbers).map_err(Refusal::numbers)
}

pub fn states(file: &[u8], task: usize, area: &mut [u16]) -> Result<(), plain::Refusal> {
    crpd::states(file, task, area).map_err(Refusal::numbers)
}

pub fn replay(file: &[u8], sheet: &[u16]) -> Result<(u32, u32, u32), plain::Refusal> {
    let Misses { undisturbed, disturbed, lost } = crpd::replay(file, sheet).map_err(Refusal::numbers)?;
    Ok((undisturbed, disturbed, lost))
}

pub fn nested(file: &[u8], sheet: &[u16]) -> Result<u64, plain::Refusal> {
    crpd::nested(file, sheet).map_err(Refusal::numbers)
}

pub fn write(n: u8, bodies: &[u8], lengths: &[usize], out: &mut [u8]) -> Result<usize, plain::Refusal> {
    crpd::write(n, bodies, lengths, out).map_err(Refusal::numbers)
}

pub fn costliest_run(
    file: &[u8], i: usize, j: usize, first: &mut [u16], second: &mut [u16], sheet: &mut [u16],
) -> Result<usize, plain::Refusal> {
    crpd::costliest_run(file, i, j, first, second, sheet).map_err(Refusal::numbers)
}

pub fn response_times(file: &[u8], area: &mut [u16], list: &mut [Times], penalty: u32) -> Result<(), plain::Refusal> {
    crpd::response_times(file, area, list, penalty).map_err(Refusal::numbers)
}

pub fn microseconds(number: u32, penalty: u32, clock: u32) -> Result<(u32, u32), plain::Refusal> {
    let Time { whole, remainder } = crpd::microseconds(number, penalty, clock).map_err(Refusal::numbers)?;
    Ok((whole, remainder))
}
