//! The neighbour table of a network.

use super::judge::lines_of;
use super::kinds::{Place, Station};

/// For each station its neighbours, each with the line that leads there.
pub struct Neighbours(Vec<Vec<(Station, Place)>>);

impl Neighbours {
    /// The table of a network that the judge takes.
    pub fn new(n: usize, lines: &[u16]) -> Neighbours {
        let mut table = vec![Vec::new(); n];
        for (place, one, two) in lines_of(lines) {
            table[one.index()].push((two, place));
            table[two.index()].push((one, place));
        }
        Neighbours(table)
    }

    /// How many stations there are.
    pub fn stations(&self) -> usize {
        self.0.len()
    }

    /// The neighbours of a station.
    pub fn of(&self, station: Station) -> &[(Station, Place)] {
        &self.0[station.index()]
    }

    /// Which stations a chain of remaining stations leads to from a remaining one, breadth first.
    pub fn reached(&self, from: Station, away: &[Station]) -> Vec<bool> {
        let mut closed = vec![false; self.stations()];
        away.iter().for_each(|gone| closed[gone.index()] = true);
        let mut reached = vec![false; self.stations()];
        let mut queue = vec![from];
        let mut next = 0;
        closed[from.index()] = true;
        while let Some(&station) = queue.get(next) {
            next += 1;
            reached[station.index()] = true;
            for &(neighbour, _) in self.of(station) {
                if !closed[neighbour.index()] {
                    closed[neighbour.index()] = true;
                    queue.push(neighbour);
                }
            }
        }
        reached
    }
}
