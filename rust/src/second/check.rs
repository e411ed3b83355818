//! The check of forests: the first fault of given ranks and orders.

use super::judge::{judge_length, judge_lines, judge_stations, lines_of};
use super::kinds::{require, Fault, FaultKind, Place, Position, Refusal, Round, Station, Verdict};
use super::neighbours::Neighbours;
use super::request::judge_level;
use std::collections::HashSet;

/// Checks ranks and orders, from wherever they come: tries 1, 2, 3, 5, the lines, then the faults.
pub fn check(n: usize, level: usize, lines: &[u16], ranks: &[u8], orders: &[u16]) -> Result<Verdict, Refusal> {
    judge_stations(n)?;
    judge_length(lines, 0)?;
    judge_level(level)?;
    let line_count = lines.len() / 2;
    require(ranks.len() >= line_count && orders.len() >= level * n, Refusal::of(5))?;
    judge_lines(n, lines, 0)?;
    let fault = first_fault(n, level, lines, &ranks[..line_count], orders);
    Ok(fault.map_or(Verdict::Accepted, Verdict::Faulty))
}

/// A over all lines by place, then the faults of each round in turn.
fn first_fault(n: usize, level: usize, lines: &[u16], ranks: &[u8], orders: &[u16]) -> Option<Fault> {
    let above = ranks.iter().position(|&rank| usize::from(rank) > level);
    if let Some(line) = above {
        return Some(Fault { round: Round(0), kind: FaultKind::A(Place(line)) });
    }
    let neighbours = Neighbours::new(n, lines);
    let mut rounds = (1..=level).zip(orders.chunks_exact(n));
    rounds.find_map(|(number, order)| round_fault(&neighbours, lines, ranks, Round(number as u8), order))
}

/// B; then stations in the round's order, C before D; then E by place.
fn round_fault(neighbours: &Neighbours, lines: &[u16], ranks: &[u8], round: Round, order: &[u16]) -> Option<Fault> {
    if let Some(position) = not_each_once(order) {
        return Some(Fault { round, kind: FaultKind::B(position) });
    }
    let forest = Forest::new(neighbours, ranks, round, order);
    let station_fault = || forest.order().find_map(|station| forest.station_fault(station));
    let line_fault = || forest.line_between_trees(lines);
    let kind = station_fault().or_else(line_fault)?;
    Some(Fault { round, kind })
}

/// The first position whose entry is n or more or stood before, n being the number of entries.
fn not_each_once(order: &[u16]) -> Option<Position> {
    let mut stood = HashSet::with_capacity(order.len());
    let first = order.iter().position(|&entry| Station(entry).index() >= order.len() || !stood.insert(entry));
    first.map(Position)
}

/// A round's lines and its order, once that is each station once.
struct Forest<'a> {
    neighbours: &'a Neighbours,
    ranks: &'a [u8],
    round: Round,
    order: &'a [u16],
    /// For each station its position in the order.
    positions: Vec<usize>,
}

impl<'a> Forest<'a> {
    fn new(neighbours: &'a Neighbours, ranks: &'a [u8], round: Round, order: &'a [u16]) -> Forest<'a> {
        let mut positions = vec![0; order.len()];
        for (position, &entry) in order.iter().enumerate() {
            positions[Station(entry).index()] = position;
        }
        Forest { neighbours, ranks, round, order, positions }
    }

    fn order(&self) -> impl Iterator<Item = Station> + 'a {
        self.order.iter().map(|&entry| Station(entry))
    }

    fn position(&self, station: Station) -> usize {
        self.positions[station.index()]
    }

    /// A line is in play if its rank is 0 or at least the round.
    fn in_play(&self, line: Place) -> bool {
        self.ranks[line.0] == 0 || self.ranks[line.0] >= self.round.0
    }

    fn has_rank(&self, line: Place) -> bool {
        self.ranks[line.0] == self.round.0
    }

    /// The station's neighbours in play that stand before it in the order.
    fn earlier(&self, station: Station) -> impl Iterator<Item = (Station, Place)> + '_ {
        let before = move |other| self.position(other) < self.position(station);
        let neighbours = self.neighbours.of(station).iter().copied();
        neighbours.filter(move |&(other, line)| self.in_play(line) && before(other))
    }

    /// C, then D, of one station.
    fn station_fault(&self, station: Station) -> Option<FaultKind> {
        let earliest = self.earlier(station).min_by_key(|&(other, _)| self.position(other))?;
        let lacks_rank = !self.has_rank(earliest.1);
        let has_another = self.earlier(station).any(|found| found != earliest && self.has_rank(found.1));
        let fault_c = lacks_rank.then_some(FaultKind::C(station));
        let fault_d = has_another.then_some(FaultKind::D(station));
        fault_c.or(fault_d)
    }

    /// E: the first line in play whose ends lie in different trees.
    fn line_between_trees(&self, lines: &[u16]) -> Option<FaultKind> {
        let roots = self.roots();
        let parts_trees = |one: Station, two: Station| roots[one.index()] != roots[two.index()];
        let mut found = lines_of(lines).filter(|&(line, one, two)| self.in_play(line) && parts_trees(one, two));
        found.next().map(|(line, _, _)| FaultKind::E(line))
    }

    /// For each station the root of its tree: its parent's, or itself if it has none.
    fn roots(&self) -> Vec<Station> {
        let mut roots = vec![Station(0); self.order.len()];
        for station in self.order() {
            let parent = self.earlier(station).find(|&(_, line)| self.has_rank(line));
            roots[station.index()] = parent.map_or(station, |(other, _)| roots[other.index()]);
        }
        roots
    }
}
