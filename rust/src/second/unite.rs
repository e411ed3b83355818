//! The union of two lists.

use super::judge::{judge_length, judge_lines, judge_stations, lines_of, pair, MOST_LINES};
use super::kinds::{require, Refusal};
use std::collections::HashSet;

/// The first list, then those lines of the second that the first lacks; the answer is their number.
/// Tries 1, 2 for each list, the lines of each, 13, 5.
pub fn unite(n: usize, first: &[u16], second: &[u16], room: &mut [u16]) -> Result<usize, Refusal> {
    judge_stations(n)?;
    judge_length(first, 1)?;
    judge_length(second, 2)?;
    judge_lines(n, first, 1)?;
    judge_lines(n, second, 2)?;
    let union = union_of(first, second);
    require(union.len() <= 2 * MOST_LINES, Refusal::of(13))?;
    require(room.len() >= union.len(), Refusal::of(5))?;
    room[..union.len()].copy_from_slice(&union);
    Ok(union.len() / 2)
}

fn union_of(first: &[u16], second: &[u16]) -> Vec<u16> {
    let had: HashSet<_> = lines_of(first).map(|(_, one, two)| pair(one, two)).collect();
    let lacking = lines_of(second).filter(|&(_, one, two)| !had.contains(&pair(one, two)));
    let mut union = first.to_vec();
    union.extend(lacking.flat_map(|(_, one, two)| [one.0, two.0]));
    union
}
