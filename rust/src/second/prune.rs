//! The scan rule: k rounds into lent buffers.

use super::kinds::{Place, Refusal, Round, Station};
use super::neighbours::Neighbours;
use super::request::judge_request;

/// Prunes a network: each line's rank goes to `ranks`, each round's order to `orders`, and the count of kept lines is
/// the answer.
pub fn prune(
    n: usize,
    level: usize,
    lines: &[u16],
    starts: &[u16],
    ranks: &mut [u8],
    orders: &mut [u16],
) -> Result<usize, Refusal> {
    let line_count = lines.len() / 2;
    let has_room = || ranks.len() >= line_count && orders.len() >= level * n;
    judge_request(n, level, lines, starts, has_room)?;
    let ranks = &mut ranks[..line_count];
    scan_rounds(&Neighbours::new(n, lines), starts, ranks, &mut orders[..level * n]);
    Ok(ranks.iter().filter(|&&rank| rank != 0).count())
}

/// A round from each starting station, into the ranks of all lines and the rounds' parts of the orders.
fn scan_rounds(neighbours: &Neighbours, starts: &[u16], ranks: &mut [u8], orders: &mut [u16]) {
    ranks.fill(0);
    let parts = orders.chunks_exact_mut(neighbours.stations());
    for ((round, &start), order) in (1..).zip(starts).zip(parts) {
        let mut marked = vec![false; neighbours.stations()];
        marked[Station(start).index()] = true;
        scan_round(neighbours, Round(round), &mut marked, ranks, order);
    }
}

/// Scans every station once, and takes the lines in play that lead to unmarked stations.
fn scan_round(neighbours: &Neighbours, round: Round, marked: &mut [bool], ranks: &mut [u8], order: &mut [u16]) {
    let mut scanned = vec![false; marked.len()];
    for entry in order {
        let station = next_station(marked, &scanned);
        *entry = station.0;
        marked[station.index()] = true;
        scanned[station.index()] = true;
        for &(neighbour, Place(line)) in neighbours.of(station) {
            if ranks[line] == 0 && !marked[neighbour.index()] {
                ranks[line] = round.0;
                marked[neighbour.index()] = true;
            }
        }
    }
}

/// The lowest-numbered marked, unscanned station; if there is none, the lowest-numbered unmarked one.
fn next_station(marked: &[bool], scanned: &[bool]) -> Station {
    let ready = (0..marked.len()).find(|&index| marked[index] && !scanned[index]);
    let next = ready.or_else(|| marked.iter().position(|&mark| !mark));
    Station(next.expect("a station is left to scan") as u16)
}
