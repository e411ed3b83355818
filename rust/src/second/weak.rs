//! Weak spots: the first set of few stations whose loss parts two others.

use super::copy::copy;
use super::judge::{judge_length, judge_lines, judge_stations};
use super::kinds::{require, Refusal, Standing, Station, WeakSpot};
use super::neighbours::Neighbours;
use super::prune::prune;

pub const MOST_WEAK_LEVEL: usize = 3;

/// Whether a network stands at a level, else its weak spot, by a search over the lines that pruning keeps.
/// Tries 1, 2, 12, the lines.
pub fn weak(n: usize, level: usize, lines: &[u16]) -> Result<Standing, Refusal> {
    judge_weak(n, level, lines)?;
    Ok(search(n, level, &kept_lines(n, level, lines)?))
}

/// The same by a search over all the lines, as the document defines a weak spot.
pub fn weak_by_all_lines(n: usize, level: usize, lines: &[u16]) -> Result<Standing, Refusal> {
    judge_weak(n, level, lines)?;
    Ok(search(n, level, lines))
}

fn judge_weak(n: usize, level: usize, lines: &[u16]) -> Result<(), Refusal> {
    judge_stations(n)?;
    judge_length(lines, 0)?;
    require((1..=MOST_WEAK_LEVEL).contains(&level), Refusal::of(12))?;
    judge_lines(n, lines, 0)
}

/// The lines kept by pruning at the level from station 0.
fn kept_lines(n: usize, level: usize, lines: &[u16]) -> Result<Vec<u16>, Refusal> {
    let mut ranks = vec![0; lines.len() / 2];
    let mut orders = vec![0; level * n];
    let kept = prune(n, level, lines, &vec![0; level], &mut ranks, &mut orders)?;
    let mut kept_lines = vec![0; 2 * kept];
    copy(lines, &ranks, &mut kept_lines)?;
    Ok(kept_lines)
}

/// The first set that parts two stations: fewest stations, then the smallest first number, then the smallest second.
fn search(n: usize, level: usize, lines: &[u16]) -> Standing {
    let neighbours = Neighbours::new(n, lines);
    let spot = (0..level).flat_map(|size| sets(n, size)).find_map(|away| parted(&neighbours, away));
    spot.map_or(Standing::Stands, Standing::Weak)
}

/// The sets of 0, 1 or 2 stations, in the document's order.
fn sets(n: usize, size: usize) -> Box<dyn Iterator<Item = Vec<Station>>> {
    let station = |index: usize| Station(index as u16);
    match size {
        0 => Box::new(std::iter::once(Vec::new())),
        1 => Box::new((0..n).map(move |first| vec![station(first)])),
        _ => {
            let pairs = (0..n).flat_map(move |first| (first + 1..n).map(move |second| (first, second)));
            Box::new(pairs.map(move |(first, second)| vec![station(first), station(second)]))
        }
    }
}

/// The lowest remaining station and the lowest one not joined to it, if there are two such.
fn parted(neighbours: &Neighbours, away: Vec<Station>) -> Option<WeakSpot> {
    let stations = (0..neighbours.stations()).map(|index| Station(index as u16));
    let mut remaining = stations.filter(|station| !away.contains(station));
    let a = remaining.next()?;
    let reached = neighbours.reached(a, &away);
    let b = remaining.find(|station| !reached[station.index()])?;
    Some(WeakSpot { away, a, b })
}
