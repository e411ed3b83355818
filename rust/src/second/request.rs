//! What an owner asks for, judged: pruning and writing refuse alike.

use super::judge::{judge_length, judge_lines, judge_stations};
use super::kinds::{require, Refusal, Station};

pub const MOST_LEVEL: usize = 16;

/// Tries 1, 2, 3, 4, 5, the lines, 9; the room is asked for once n and k are known to be within limits.
pub fn judge_request(
    n: usize,
    level: usize,
    lines: &[u16],
    starts: &[u16],
    has_room: impl FnOnce() -> bool,
) -> Result<(), Refusal> {
    judge_stations(n)?;
    judge_length(lines, 0)?;
    judge_level(level)?;
    require(starts.len() == level, Refusal::of(4))?;
    require(has_room(), Refusal::of(5))?;
    judge_lines(n, lines, 0)?;
    judge_starts(n, starts)
}

/// Refusal 3: k is not 1 to 16.
pub fn judge_level(level: usize) -> Result<(), Refusal> {
    require((1..=MOST_LEVEL).contains(&level), Refusal::of(3))
}

/// Refusal 9: a starting station is n or more, place its round.
pub fn judge_starts(n: usize, starts: &[u16]) -> Result<(), Refusal> {
    match starts.iter().position(|&start| Station(start).index() >= n) {
        Some(index) => Err(Refusal::at(9, index + 1)),
        None => Ok(()),
    }
}
