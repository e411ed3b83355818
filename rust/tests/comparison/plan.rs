//! Plans of ranks and orders for the check: good ones, nearly good ones, and random ones.

use crate::random::Random;
use std::collections::HashMap;
use tapuhzel::second::judge::lines_of;
use tapuhzel::second::kinds::{Place, Station};
use tapuhzel::second::prune::prune;

/// Ranks and orders, as long as the check needs them.
#[derive(Clone, Debug)]
pub struct Plan {
    pub ranks: Vec<u8>,
    pub orders: Vec<u16>,
}

/// A sound network with its level, for a plan to be drawn of.
pub struct Sound<'a> {
    n: usize,
    level: usize,
    lines: &'a [u16],
    starts: &'a [u16],
    /// For each two stations the place of their line.
    between: HashMap<(Station, Station), Place>,
}

impl<'a> Sound<'a> {
    pub fn new(n: usize, level: usize, lines: &'a [u16], starts: &'a [u16]) -> Sound<'a> {
        let between = lines_of(lines).flat_map(|(place, one, two)| [((one, two), place), ((two, one), place)]);
        Sound { n, level, lines, starts, between: between.collect() }
    }

    /// The line between two stations, if it has no rank yet.
    fn line_in_play(&self, ranks: &[u8], station: u16, other: u16) -> Option<Place> {
        let line = self.between.get(&(Station(station), Station(other)));
        line.copied().filter(|line| ranks[line.0] == 0)
    }
}

type Draw = fn(&mut Random, &Sound) -> Plan;

/// The kinds of plans that pruning makes quickly, by name.
pub const PLANS_OF_PRUNING: [(&str, Draw); 4] = [
    ("pruned", |_, sound| pruned(sound)),
    ("pruned, one rank changed", |random, sound| one_rank_changed(random, sound, pruned(sound))),
    ("pruned, one order entry changed", |random, sound| one_entry_changed(random, sound, pruned(sound))),
    ("pruned, two order entries exchanged", |random, sound| two_entries_exchanged(random, sound, pruned(sound))),
];

/// All kinds of plans.
pub const PLANS: [(&str, Draw); 9] = [
    PLANS_OF_PRUNING[0],
    PLANS_OF_PRUNING[1],
    PLANS_OF_PRUNING[2],
    PLANS_OF_PRUNING[3],
    ("search orders, ranks by the rule", |random, sound| ranked(random, sound, search_order)),
    ("the same, one rank changed", |random, sound| {
        let plan = ranked(random, sound, search_order);
        one_rank_changed(random, sound, plan)
    }),
    ("the same, two order entries exchanged", |random, sound| {
        let plan = ranked(random, sound, search_order);
        two_entries_exchanged(random, sound, plan)
    }),
    ("random orders, ranks by the rule", |random, sound| ranked(random, sound, random_order)),
    ("random", random_plan),
];

fn pruned(sound: &Sound) -> Plan {
    let mut ranks = vec![0; sound.lines.len() / 2];
    let mut orders = vec![0; sound.level * sound.n];
    prune(sound.n, sound.level, sound.lines, sound.starts, &mut ranks, &mut orders).expect("the network is sound");
    Plan { ranks, orders }
}

fn one_rank_changed(random: &mut Random, sound: &Sound, mut plan: Plan) -> Plan {
    if !plan.ranks.is_empty() {
        let line = random.below(plan.ranks.len());
        let another = usize::from(plan.ranks[line]) + random.within(1, sound.level + 1);
        plan.ranks[line] = (another % (sound.level + 2)) as u8;
    }
    plan
}

fn one_entry_changed(random: &mut Random, sound: &Sound, mut plan: Plan) -> Plan {
    let entry = random.below(plan.orders.len());
    let another = usize::from(plan.orders[entry]) + random.within(1, sound.n);
    plan.orders[entry] = (another % (sound.n + 1)) as u16;
    plan
}

fn two_entries_exchanged(random: &mut Random, sound: &Sound, mut plan: Plan) -> Plan {
    let round = random.below(sound.level) * sound.n;
    let position = random.below(sound.n);
    let another = (position + random.within(1, sound.n.max(2) - 1)) % sound.n;
    plan.orders.swap(round + position, round + another);
    plan
}

/// Ranks of 0 to k and orders with each station once, but for one rank or entry in some plans.
fn random_plan(random: &mut Random, sound: &Sound) -> Plan {
    let ranks = (0..sound.lines.len() / 2).map(|_| random.below(sound.level + 1) as u8).collect();
    let orders = (0..sound.level).flat_map(|_| random_order(random, sound, &[])).collect();
    let plan = Plan { ranks, orders };
    match random.below(4) {
        0 => one_rank_changed(random, sound, plan),
        1 => one_entry_changed(random, sound, plan),
        _ => plan,
    }
}

/// A plan with an order drawn for each round: each station's line to its earliest earlier neighbour gets the rank.
fn ranked(random: &mut Random, sound: &Sound, draw: fn(&mut Random, &Sound, &[u8]) -> Vec<u16>) -> Plan {
    let mut ranks = vec![0; sound.lines.len() / 2];
    let mut orders = Vec::new();
    for round in 1..=sound.level as u8 {
        let order = draw(random, sound, &ranks);
        for (position, &station) in order.iter().enumerate() {
            let parent = order[..position].iter().find_map(|&other| sound.line_in_play(&ranks, station, other));
            if let Some(line) = parent {
                ranks[line.0] = round;
            }
        }
        orders.extend(order);
    }
    Plan { ranks, orders }
}

/// The stations in any order.
fn random_order(random: &mut Random, sound: &Sound, _: &[u8]) -> Vec<u16> {
    let mut order: Vec<u16> = (0..sound.n as u16).collect();
    random.shuffle(&mut order);
    order
}

/// An order in which a search comes by: each next station has an earlier neighbour, as long as there is such a one.
fn search_order(random: &mut Random, sound: &Sound, ranks: &[u8]) -> Vec<u16> {
    let mut order = Vec::new();
    let mut left = random_order(random, sound, ranks);
    while !left.is_empty() {
        let is_next = |&station: &u16| order.iter().any(|&other| sound.line_in_play(ranks, station, other).is_some());
        let next = left.iter().position(is_next).unwrap_or(0);
        order.push(left.remove(next));
    }
    order
}
