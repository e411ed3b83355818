//! How often each answer comes up: the comparison is worth what its cases reach.

use crate::plan::PLANS;
use crate::program::{self, ROUTINES};
use crate::{cases, network::SHAPES};
use std::collections::{BTreeMap, BTreeSet};
use tapuhzel::second::check::check;
use tapuhzel::second::judge::judge;
use tapuhzel::second::kinds::{Fault, FaultKind, Refusal, Verdict};

/// The refusals of each routine, by the document.
const REFUSALS: [(&str, &[u8]); 9] = [
    ("judge", &[1, 2, 6, 7, 8]),
    ("prune", &[1, 2, 3, 4, 5, 6, 7, 8, 9]),
    ("check", &[1, 2, 3, 5, 6, 7, 8]),
    ("copy", &[2, 5]),
    ("unite", &[1, 2, 5, 6, 7, 8, 13]),
    ("joined", &[1, 2, 6, 7, 8, 10, 11]),
    ("weak", &[1, 2, 6, 7, 8, 12]),
    ("read", &[2, 4, 5, 20, 21, 22, 23]),
    ("write", &[1, 2, 3, 4, 5, 6, 7, 8, 9]),
];

#[test]
fn every_refusal_comes_up() {
    let second = program::second();
    let mut found: BTreeMap<&str, BTreeMap<u8, usize>> = BTreeMap::new();
    for (_, case) in cases() {
        for routine in &ROUTINES {
            if let Err(refusal) = (routine.outcome)(&second, &case).answer {
                *found.entry(routine.name).or_default().entry(refusal.number).or_default() += 1;
            }
        }
    }
    println!("| Routine | Refusals, each with how often |\n|---|---|");
    for (routine, expected) in REFUSALS {
        let counts = &found[routine];
        let listed: Vec<String> = counts.iter().map(|(number, count)| format!("{number}: {count}")).collect();
        println!("| {routine} | {} |", listed.join(", "));
        assert_eq!(counts.keys().copied().collect::<BTreeSet<_>>(), expected.iter().copied().collect(), "{routine}");
    }
}

/// What the check may answer, and its column in the table.
const VERDICTS: [&str; 7] = ["accepted", "A", "B", "C", "D", "E", "refused"];

fn column(verdict: &Result<Verdict, Refusal>) -> usize {
    match verdict {
        Ok(Verdict::Accepted) => 0,
        Ok(Verdict::Faulty(Fault { kind, .. })) => match kind {
            FaultKind::A(_) => 1,
            FaultKind::B(_) => 2,
            FaultKind::C(_) => 3,
            FaultKind::D(_) => 4,
            FaultKind::E(_) => 5,
        },
        Err(_) => 6,
    }
}

#[test]
fn every_verdict_comes_up() {
    let mut found: BTreeMap<&str, [usize; 7]> = BTreeMap::new();
    for (_, case) in cases() {
        let verdict = check(case.n, case.level, &case.lines, &case.plan.ranks, &case.plan.orders);
        found.entry(case.plan_kind).or_default()[column(&verdict)] += 1;
    }
    println!("| Plan | {} |\n|---{}|", VERDICTS.join(" | "), "|---:".repeat(7));
    for (kind, _) in PLANS {
        println!("| {kind} | {} |", found[kind].map(|count| count.to_string()).join(" | "));
    }
    for (column, verdict) in VERDICTS.iter().enumerate() {
        let count: usize = found.values().map(|counts| counts[column]).sum();
        assert!(count >= 1_000, "{verdict} comes up {count} times");
    }
}

#[test]
fn enough_networks_of_every_shape_come_up() {
    let mut taken: BTreeMap<&str, BTreeSet<(usize, Vec<u16>)>> = BTreeMap::new();
    let mut refused = BTreeSet::new();
    for (_, case) in cases() {
        let networks = match judge(case.n, &case.lines) {
            Ok(()) => taken.entry(case.shape).or_default(),
            Err(_) => &mut refused,
        };
        networks.insert((case.n, case.lines));
    }
    println!("| Shape | Different networks |\n|---|---:|");
    taken.iter().for_each(|(shape, networks)| println!("| {shape} | {} |", networks.len()));
    println!("| refused | {} |", refused.len());
    assert!(SHAPES.iter().all(|(shape, _)| *shape == "empty" || taken[shape].len() >= 5_000));
    assert!(taken.values().map(BTreeSet::len).sum::<usize>() >= 100_000);
}
