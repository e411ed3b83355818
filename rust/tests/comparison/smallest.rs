//! The smallest case that still shows a difference.

use crate::case::{Case, Spare};
use std::time::{Duration, Instant};

/// A case at the limits may have more smaller ones than are worth the wait.
const LONGEST_WAIT: Duration = Duration::from_secs(3);

/// Drops lines, stations, levels and bytes as long as the smaller case still shows it.
pub fn smallest(case: &Case, shows: impl Fn(&Case) -> bool) -> Case {
    let started = Instant::now();
    let next = |case: &Case| {
        let mut in_time = smaller_cases(case).take_while(|_| started.elapsed() < LONGEST_WAIT);
        in_time.find(|smaller| shows(smaller))
    };
    let mut case = case.clone();
    while let Some(smaller) = next(&case) {
        case = smaller;
    }
    case
}

/// Smaller cases, those that drop most first.
fn smaller_cases(case: &Case) -> impl Iterator<Item = Case> + '_ {
    let fewer_lines = parts(case.lines.len() / 2).map(|(from, to)| without_lines(case, from, to));
    let odd_number = changed(case, |case| {
        case.lines.pop();
    });
    let fewer_second = parts(case.second.len() / 2).map(|(from, to)| {
        let mut case = case.clone();
        case.second.drain(2 * from..2 * to);
        case
    });
    let odd_second = changed(case, |case| {
        case.second.pop();
    });
    let shorter_file = parts(case.file.len()).map(|(from, to)| {
        let mut case = case.clone();
        case.file.drain(from..to);
        case
    });
    let fewer_away = parts(case.away.len()).map(|(from, to)| {
        let mut case = case.clone();
        case.away.drain(from..to);
        case
    });
    let stations = (0..case.n.min(1_025) as u16).rev().take_while(|_| case.n > 1);
    let fewer_starts = changed(case, |case| {
        case.starts.pop();
    });
    let fewer_ranks = changed(case, |case| {
        case.plan.ranks.pop();
    });
    let fewer_entries = changed(case, |case| {
        case.plan.orders.pop();
    });
    fewer_lines
        .chain(fewer_second)
        .chain(shorter_file)
        .chain(fewer_away)
        .chain(stations.map(|gone| without_station(case, gone)))
        .chain(without_last_round(case))
        .chain(with_exact_room(case))
        .chain([fewer_starts, fewer_ranks, fewer_entries, odd_number, odd_second].into_iter().flatten())
}

/// The parts of so many things that may be dropped: halves first, single ones last.
fn parts(count: usize) -> impl Iterator<Item = (usize, usize)> {
    let sizes = std::iter::successors(Some(count.div_ceil(2)), |&size| (size > 1).then(|| size.div_ceil(2)));
    sizes
        .filter(|&size| size > 0)
        .flat_map(move |size| (0..count).step_by(size).map(move |from| (from, count.min(from + size))))
}

/// The case with a change, if that makes it smaller.
fn changed(case: &Case, change: impl Fn(&mut Case)) -> Option<Case> {
    let mut smaller = case.clone();
    change(&mut smaller);
    (size(&smaller) < size(case)).then_some(smaller)
}

fn size(case: &Case) -> usize {
    let lists = case.lines.len() + case.second.len() + case.starts.len() + case.away.len() + case.file.len();
    lists + case.plan.ranks.len() + case.plan.orders.len()
}

fn without_lines(case: &Case, from: usize, to: usize) -> Case {
    let mut case = case.clone();
    case.lines.drain(2 * from..2 * to);
    let ranks = case.plan.ranks.len();
    case.plan.ranks.drain(from.min(ranks)..to.min(ranks));
    case
}

/// The case without a station, the lines that end there and its entries in the lists; higher numbers close up.
fn without_station(case: &Case, gone: u16) -> Case {
    let mut smaller = case.clone();
    smaller.n -= 1;
    for line in (0..case.lines.len() / 2).rev() {
        if case.lines[2 * line..2 * line + 2].contains(&gone) {
            smaller = without_lines(&smaller, line, line + 1);
        }
    }
    smaller.second = case.second.chunks(2).filter(|ends| !ends.contains(&gone)).flatten().copied().collect();
    smaller.plan.orders.retain(|&entry| entry != gone);
    smaller.away.retain(|&entry| entry != gone);
    let close_up = |number: &mut u16| *number -= u16::from(*number > gone);
    let Case { lines, second, starts, away, plan, a, b, .. } = &mut smaller;
    [lines, second, starts, away, &mut plan.orders].into_iter().flatten().for_each(close_up);
    [a, b].into_iter().for_each(close_up);
    smaller
}

/// The case with room that is just enough everywhere.
fn with_exact_room(case: &Case) -> Option<Case> {
    let exact = Spare::default();
    (case.spare != exact).then(|| Case { spare: exact, ..case.clone() })
}

/// The case at one level less.
fn without_last_round(case: &Case) -> Option<Case> {
    let level = case.level.checked_sub(1).filter(|level| (1..16).contains(level))?;
    let mut smaller = case.clone();
    smaller.level = level;
    smaller.starts.truncate(level);
    smaller.plan.orders.truncate(level.saturating_mul(case.n));
    Some(smaller)
}
