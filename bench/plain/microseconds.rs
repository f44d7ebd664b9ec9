//! Microseconds the plain way.
use super::Refusal;

/// Whole microseconds and the remainder.
#[inline(never)]
pub fn microseconds(number: u32, penalty: u32, clock: u32) -> Result<(u32, u32), Refusal> {
    if 16 < number || penalty < 1 || 1000 < penalty || clock < 1 || 1_000_000 < clock {
        return Err((17, 255));
    }
    let product = number * penalty * 1000;
    Ok((product / clock, product % clock))
}
