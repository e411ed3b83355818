//! A case: everything that a routine may be lent, drawn from a seed.

use crate::file;
use crate::network::{flat_list, SHAPES};
use crate::plan::{Plan, Sound, PLANS, PLANS_OF_PRUNING};
use crate::random::Random;

/// What the routines are lent: each takes of it what it needs.
#[derive(Clone, Debug)]
pub struct Case {
    pub shape: &'static str,
    pub n: usize,
    pub level: usize,
    pub lines: Vec<u16>,
    pub starts: Vec<u16>,
    /// The second list of a union.
    pub second: Vec<u16>,
    pub plan_kind: &'static str,
    /// Ranks and orders to check, and the ranks to copy by.
    pub plan: Plan,
    pub away: Vec<u16>,
    pub a: u16,
    pub b: u16,
    pub file: Vec<u8>,
    pub spare: Spare,
}

/// How much longer each written buffer is than what is needed; shorter where it is below 0.
#[derive(Clone, Copy, Debug, Default, PartialEq)]
pub struct Spare {
    pub ranks: isize,
    pub orders: isize,
    pub kept: isize,
    pub union: isize,
    pub lines: isize,
    pub starts: isize,
    pub bytes: isize,
}

/// The case of a seed: sound in half of the cases, else damaged once to three times; the file also by itself.
pub fn case(seed: u64) -> Case {
    let random = &mut Random::new(seed);
    let n = station_count(random);
    let level = if random.one_in(6) { random.within(1, 16) } else { random.within(1, 4) };
    let mut case = sound(random, n, level);
    if random.one_in(2) {
        for _ in 0..random.within(1, 3) {
            random.pick(&DAMAGES)(random, &mut case);
        }
    }
    case.file = file::packed(case.n, case.level, &case.lines, &case.starts);
    if random.one_in(2) {
        file::damage(random, &mut case.file);
    }
    case
}

/// Mostly few stations, since small networks show most errors, and soon.
fn station_count(random: &mut Random) -> usize {
    match random.below(100) {
        0 => random.within(17, 60),
        1..=19 => random.within(10, 16),
        20..=79 => random.within(5, 9),
        _ => random.within(1, 4),
    }
}

/// A case that no routine refuses, but for the level of a weak spot.
pub fn sound(random: &mut Random, n: usize, level: usize) -> Case {
    let (shape, draw) = random.pick(&SHAPES);
    let lines = draw(random, n as u16);
    let lines = flat_list(random, lines, n as u16);
    let (_, draw) = random.pick(&SHAPES);
    let second = draw(random, n as u16);
    let second = flat_list(random, second, n as u16);
    sound_with(random, shape, n, level, lines, second)
}

/// A sound case of given lists.
pub fn sound_with(
    random: &mut Random,
    shape: &'static str,
    n: usize,
    level: usize,
    lines: Vec<u16>,
    second: Vec<u16>,
) -> Case {
    let starts: Vec<u16> = (0..level).map(|_| random.below(n) as u16).collect();
    let (plan_kind, draw) = random.pick(if n > 100 { &PLANS_OF_PRUNING } else { &PLANS });
    let mut plan = draw(random, &Sound::new(n, level, &lines, &starts));
    plan.ranks.resize(plan.ranks.len() + random.below(3), 255);
    plan.orders.resize(plan.orders.len() + random.below(3), 65_535);
    let mut stations: Vec<u16> = (0..n as u16).collect();
    random.shuffle(&mut stations);
    let (a, b) = (stations[0], stations[random.below(n.min(2))]);
    let mut away = stations[n.min(2)..].to_vec();
    away.truncate(random.below(5));
    away.sort_unstable();
    let file = file::packed(n, level, &lines, &starts);
    let spare = spare(random);
    Case { shape, n, level, lines, starts, second, plan_kind, plan, away, a, b, file, spare }
}

fn spare(random: &mut Random) -> Spare {
    let mut some = || random.below(4) as isize;
    Spare { ranks: some(), orders: some(), kept: some(), union: some(), lines: some(), starts: some(), bytes: some() }
}

/// A damage done to a case, so that some routine refuses it.
type Damage = fn(&mut Random, &mut Case);

const DAMAGES: [Damage; 17] = [
    // 1
    |random, case| case.n = random.pick(&[0, 1_025, 1_026, 65_536, usize::MAX]),
    // 2
    |random, case| case.lines.push(random.below(8) as u16),
    |random, case| case.second.push(random.below(8) as u16),
    |random, case| {
        if random.one_in(20) {
            case.lines.resize(16_384 + random.below(4), 0);
        }
    },
    // 3
    |random, case| case.level = random.pick(&[0, 17, 18, 256, 65_537, usize::MAX]),
    // 4
    |random, case| {
        let starts = random.pick(&[0, case.starts.len() + 1, case.starts.len().saturating_sub(1), 17]);
        case.starts.resize(starts, 0);
    },
    // 5, of what is written and of what is checked
    |random, case| short_of_room(random, &mut case.spare),
    |random, case| short_of_room(random, &mut case.spare),
    |random, case| case.plan.ranks.truncate(random.below(case.plan.ranks.len() + 1)),
    |random, case| case.plan.orders.truncate(random.below(case.plan.orders.len() + 1)),
    // 6, 7 and 8
    |random, case| damage_first_list(random, case),
    |random, case| damage_first_list(random, case),
    |random, case| damage_line(random, case.n, &mut case.second),
    // 9
    |random, case| {
        let outside = outside(random, case.n);
        replace_one(random, &mut case.starts, outside);
    },
    // 10
    |random, case| {
        let number = random.pick(&[0, 1, case.n.wrapping_sub(1) as u16, case.n as u16, 65_535]);
        let index = random.below(case.away.len() + 1);
        case.away.insert(index, number);
    },
    // 11
    |random, case| {
        let taken = case.away.first().copied();
        let asked = taken.filter(|_| random.one_in(2)).unwrap_or(outside(random, case.n));
        if random.one_in(2) {
            case.a = asked
        } else {
            case.b = asked
        }
    },
    |random, case| {
        let asked = outside(random, case.n);
        (case.a, case.b) = (asked, random.pick(&[asked, case.b]));
    },
];

/// A number that is no station.
fn outside(random: &mut Random, n: usize) -> u16 {
    let first = n.min(65_535) as u16;
    random.pick(&[first, first, first.saturating_add(1), 65_535])
}

/// One buffer or all of them short, by one, by some or by all.
fn short_of_room(random: &mut Random, spare: &mut Spare) {
    let some = random.within(2, 40);
    let short = -(random.pick(&[1, 1, 1, some, some, 20_000]) as isize);
    let Spare { ranks, orders, kept, union, lines, starts, bytes } = spare;
    let mut rooms = [ranks, orders, kept, union, lines, starts, bytes];
    let chosen = random.below(rooms.len() + 1);
    match rooms.get_mut(chosen) {
        Some(room) => **room = short,
        None => rooms.into_iter().for_each(|room| *room = short),
    }
}

/// Damages a line of the first list, and gives the plan a rank for it.
fn damage_first_list(random: &mut Random, case: &mut Case) {
    damage_line(random, case.n, &mut case.lines);
    case.plan.ranks.resize(case.plan.ranks.len().max(case.lines.len() / 2), 0);
}

/// A line with an end outside, with equal ends, or listed again the same or the other way round.
fn damage_line(random: &mut Random, n: usize, lines: &mut Vec<u16>) {
    let line = random.below(lines.len() / 2 + 1);
    let Some(&[one, two]) = lines.get(2 * line..2 * line + 2) else {
        return lines.extend([outside(random, n), 0]);
    };
    match random.below(4) {
        0 => lines[2 * line + random.below(2)] = outside(random, n),
        1 => lines[2 * line] = two,
        2 => insert_line(random, lines, [one, two]),
        _ => insert_line(random, lines, [two, one]),
    }
}

fn insert_line(random: &mut Random, lines: &mut Vec<u16>, ends: [u16; 2]) {
    let at = 2 * random.below(lines.len() / 2 + 1);
    lines.splice(at..at, ends);
}

fn replace_one(random: &mut Random, numbers: &mut [u16], by: u16) {
    if !numbers.is_empty() {
        numbers[random.below(numbers.len())] = by;
    }
}
