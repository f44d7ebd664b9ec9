//! Writer the plain way.
use super::{tasks, Refusal};

/// The packed file of some bodies, written to the front of the out list; answers its length.
#[inline(never)]
pub fn write(n: u8, bodies: &[u8], lengths: &[usize], out: &mut [u8]) -> Result<usize, Refusal> {
    if n < 1 || 16 < n {
        return Err((5, 255));
    }
    if lengths.is_empty() || 8 < lengths.len() {
        return Err((6, 255));
    }
    let parts = cut(bodies, lengths).ok_or((7, 255))?;
    tasks(&parts)?;
    let start = 8 + 4 * lengths.len();
    let length = start + bodies.len();
    if out.len() < length {
        return Err((14, 255));
    }
    out[..4].copy_from_slice(b"CRPD");
    out[4..8].copy_from_slice(&[1, n, lengths.len() as u8, 0]);
    let mut at = start;
    for (j, part) in parts.iter().enumerate() {
        let entry = &mut out[8 + 4 * j..12 + 4 * j];
        entry[..2].copy_from_slice(&(at as u16).to_le_bytes());
        entry[2..].copy_from_slice(&(part.len() as u16).to_le_bytes());
        at += part.len();
    }
    out[start..length].copy_from_slice(bodies);
    Ok(length)
}

/// The bodies one by one, or none if their lengths don't add up to the joined length.
fn cut<'a>(bodies: &'a [u8], lengths: &[usize]) -> Option<Vec<&'a [u8]>> {
    let mut parts = Vec::new();
    let mut rest = bodies;
    for &length in lengths {
        if rest.len() < length {
            return None;
        }
        let (part, others) = rest.split_at(length);
        parts.push(part);
        rest = others;
    }
    if rest.is_empty() { Some(parts) } else { None }
}
