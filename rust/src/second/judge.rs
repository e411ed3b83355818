//! What every routine judges of a network: refusals 1 and 2, and 6, 7 and 8 of each line.

use super::kinds::{require, Place, Refusal, Station};
use std::collections::HashSet;

pub const MOST_STATIONS: usize = 1_024;
pub const MOST_LINES: usize = 8_192;

/// Judges a network of `n` stations and a flat list of line ends: 1, 2, then the lines.
pub fn judge(n: usize, lines: &[u16]) -> Result<(), Refusal> {
    judge_stations(n)?;
    judge_length(lines, 0)?;
    judge_lines(n, lines, 0)
}

/// Refusal 1: n is not 1 to 1,024.
pub fn judge_stations(n: usize) -> Result<(), Refusal> {
    require((1..=MOST_STATIONS).contains(&n), Refusal::of(1))
}

/// Refusal 2: the line list has an odd length or over 16,384 numbers.
pub fn judge_length(lines: &[u16], list: u8) -> Result<(), Refusal> {
    require(lines.len().is_multiple_of(2) && lines.len() <= 2 * MOST_LINES, Refusal::of(2).in_list(list))
}

/// Refusals 6, 7 and 8, in this order for each line in list order.
pub fn judge_lines(n: usize, lines: &[u16], list: u8) -> Result<(), Refusal> {
    let mut stood = HashSet::with_capacity(lines.len() / 2);
    for (place, one, two) in lines_of(lines) {
        let refusal = |number| Refusal::at(number, place.0).in_list(list);
        require(one.index() < n && two.index() < n, refusal(6))?;
        require(one != two, refusal(7))?;
        require(stood.insert(pair(one, two)), refusal(8))?;
    }
    Ok(())
}

/// The lines of a flat list: place and two ends of each.
pub fn lines_of(lines: &[u16]) -> impl Iterator<Item = (Place, Station, Station)> + '_ {
    lines.chunks_exact(2).enumerate().map(|(place, ends)| (Place(place), Station(ends[0]), Station(ends[1])))
}

/// Two ends, the same either way round.
pub fn pair(one: Station, two: Station) -> (Station, Station) {
    (one.min(two), one.max(two))
}
