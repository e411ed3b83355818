//! Sound networks of many shapes.

use crate::random::Random;
use std::collections::BTreeSet;

/// The lines of a shape over so many stations, each with its lower end first.
type Draw = fn(&mut Random, u16) -> Vec<[u16; 2]>;

/// The shapes, by name.
pub const SHAPES: [(&str, Draw); 10] = [
    ("random", |random, n| {
        let lines = random.below(3 * usize::from(n));
        drawn(random, n, lines)
    }),
    ("dense", |random, n| {
        let mut lines = every_pair(n);
        random.shuffle(&mut lines);
        lines.truncate(lines.len() - random.below(lines.len() / 4 + 1));
        lines
    }),
    ("sparse", |random, n| {
        let lines = random.below(usize::from(n));
        drawn(random, n, lines)
    }),
    ("path", |_, n| path(n)),
    ("star", |_, n| star(n)),
    ("ring", |_, n| if n < 3 { path(n) } else { ring(n) }),
    ("grid", |random, n| grid(n, random.within(1, usize::from(n)) as u16)),
    ("chain with spare links", |_, n| every_pair(n).into_iter().filter(|[one, two]| two - one <= 2).collect()),
    ("two parts at a few stations", two_parts),
    ("empty", |_, _| Vec::new()),
];

/// The flat list of lines over so many stations: numbered, listed and turned at random.
pub fn flat_list(random: &mut Random, mut lines: Vec<[u16; 2]>, n: u16) -> Vec<u16> {
    let mut numbers: Vec<u16> = (0..n).collect();
    random.shuffle(&mut numbers);
    random.shuffle(&mut lines);
    let turned = |[one, two]: [u16; 2]| if random.one_in(2) { [two, one] } else { [one, two] };
    lines.into_iter().map(|ends| ends.map(|end| numbers[usize::from(end)])).flat_map(turned).collect()
}

pub fn every_pair(n: u16) -> Vec<[u16; 2]> {
    (0..n).flat_map(|one| (one + 1..n).map(move |two| [one, two])).collect()
}

pub fn path(n: u16) -> Vec<[u16; 2]> {
    (1..n).map(|station| [station - 1, station]).collect()
}

pub fn star(n: u16) -> Vec<[u16; 2]> {
    (1..n).map(|station| [0, station]).collect()
}

/// A ring of three stations or more.
pub fn ring(n: u16) -> Vec<[u16; 2]> {
    [path(n), vec![[0, n - 1]]].concat()
}

/// Stations in rows of a width, each beside and over its neighbours.
pub fn grid(n: u16, width: u16) -> Vec<[u16; 2]> {
    let beside = (1..n).filter(|station| station % width != 0).map(|station| [station - 1, station]);
    let over = (width..n).map(|station| [station - width, station]);
    if width == 1 {
        over.collect()
    } else {
        beside.chain(over).collect()
    }
}

/// At most so many lines between random stations.
pub fn drawn(random: &mut Random, n: u16, lines: usize) -> Vec<[u16; 2]> {
    let mut found = BTreeSet::new();
    for _ in 0..lines {
        let (one, two) = (random.below(n.into()) as u16, random.below(n.into()) as u16);
        if one != two {
            found.insert([one.min(two), one.max(two)]);
        }
    }
    found.into_iter().collect()
}

/// Two dense parts that share up to three stations, and nothing else.
fn two_parts(random: &mut Random, n: u16) -> Vec<[u16; 2]> {
    let shared = random.below(4) as u16;
    let middle = random.below(n.into()) as u16;
    let in_one_part = |&[one, two]: &[u16; 2]| two < middle + shared || one >= middle;
    every_pair(n).into_iter().filter(in_one_part).collect()
}
