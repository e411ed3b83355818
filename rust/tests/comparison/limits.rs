//! Cases at the limits: 1,024 stations, 8,192 lines, level 16, and one past each.

use crate::case::{sound_with, Case};
use crate::file;
use crate::network::{drawn, every_pair, flat_list, grid, path, ring, star};
use crate::random::Random;

const N: u16 = 1_024;
const NUMBERS: usize = 16_384;

/// The cases, each with a name.
pub fn cases() -> impl Iterator<Item = (String, Case)> {
    let random = &mut Random::new(1_024);
    let full = full_list(random);
    let other = full_list(random);
    let half = full[..NUMBERS / 2].to_vec();
    let clique: Vec<u16> = every_pair(129).into_iter().flatten().take(NUMBERS).collect();
    let mut cases = vec![
        ("full, level 16", at_limit(random, 16, full.clone(), half.clone())),
        ("full again, level 16", at_limit(random, 16, other.clone(), full.clone())),
        ("full, level 2", at_limit(random, 2, full.clone(), full[NUMBERS / 2..].to_vec())),
        ("full, level 1", at_limit(random, 1, half.clone(), full[NUMBERS / 2..].to_vec())),
        ("a clique and lone stations, level 16", at_limit(random, 16, clique, half.clone())),
        ("path, level 16", shaped(random, 16, path(N), full.clone())),
        ("star, level 3", shaped(random, 3, star(N), full.clone())),
        ("ring, level 3", shaped(random, 3, ring(N), half.clone())),
        ("grid, level 4", shaped(random, 4, grid(N, 32), full.clone())),
        ("empty, level 16", at_limit(random, 16, Vec::new(), Vec::new())),
    ];
    let sound = at_limit(random, 16, full.clone(), other.clone());
    let too_long = Case { second: lacking_line(&full), ..sound.clone() };
    cases.push(("a union one line too long and its room short", changed(&too_long, |case| case.spare.union = -1)));
    cases.push(("a union one line too long", too_long));
    cases.push(("one number too many", changed(&sound, |case| case.lines.push(0))));
    cases.push(("one line too many", changed(&sound, |case| case.lines.extend(lacking_line(&case.lines)))));
    cases.push(("one number too many in the second list", changed(&sound, |case| case.second.push(0))));
    cases.push(("one station too many", changed(&sound, |case| case.n += 1)));
    cases.push(("one level too many", changed(&sound, |case| case.level += 1)));
    cases.push(("one start too many", changed(&sound, |case| case.starts.push(0))));
    cases.push(("the last start outside", changed(&sound, |case| case.starts[15] = 1_024)));
    cases.push(("the last end outside", changed(&sound, |case| case.lines[NUMBERS - 1] = 1_024)));
    cases.push((
        "the last line turned again",
        changed(&sound, |case| {
            (case.lines[NUMBERS - 2], case.lines[NUMBERS - 1]) = (case.lines[1], case.lines[0]);
        }),
    ));
    cases.push(("one rank short", changed(&sound, |case| case.spare.ranks = -1)));
    cases.push(("one order entry short", changed(&sound, |case| case.spare.orders = -1)));
    cases.push(("one byte short", changed(&sound, |case| case.spare.bytes = -1)));
    cases.into_iter().map(|(name, case)| (name.to_string(), case))
}

fn at_limit(random: &mut Random, level: usize, lines: Vec<u16>, second: Vec<u16>) -> Case {
    sound_with(random, "limit", N.into(), level, lines, second)
}

/// The case with a change, and its file with it.
fn changed(case: &Case, change: fn(&mut Case)) -> Case {
    let mut case = case.clone();
    change(&mut case);
    case.file = file::packed(case.n, case.level, &case.lines, &case.starts);
    case
}

fn shaped(random: &mut Random, level: usize, lines: Vec<[u16; 2]>, second: Vec<u16>) -> Case {
    let lines = flat_list(random, lines, N);
    at_limit(random, level, lines, second)
}

/// 8,192 random lines.
fn full_list(random: &mut Random) -> Vec<u16> {
    let mut lines = drawn(random, N, NUMBERS);
    random.shuffle(&mut lines);
    lines.into_iter().flatten().take(NUMBERS).collect()
}

/// A line that a list lacks, as a list.
fn lacking_line(lines: &[u16]) -> Vec<u16> {
    let lacks = |ends: &[u16; 2]| !lines.chunks(2).any(|line| line == ends || line == [ends[1], ends[0]]);
    every_pair(N).into_iter().find(lacks).into_iter().flatten().collect()
}
