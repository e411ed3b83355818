//! Copying the kept lines.

use super::judge::judge_length;
use super::kinds::{require, Refusal};

/// Copies the lines of nonzero rank to the front of `room`, in list order; the answer is their number. Tries 2, then 5.
pub fn copy(lines: &[u16], ranks: &[u8], room: &mut [u16]) -> Result<usize, Refusal> {
    judge_length(lines, 0)?;
    require(ranks.len() >= lines.len() / 2, Refusal::of(5))?;
    let ranked = lines.chunks_exact(2).zip(ranks);
    let kept: Vec<u16> = ranked.filter(|(_, &rank)| rank != 0).flat_map(|(ends, _)| ends).copied().collect();
    require(room.len() >= kept.len(), Refusal::of(5))?;
    room[..kept.len()].copy_from_slice(&kept);
    Ok(kept.len() / 2)
}
