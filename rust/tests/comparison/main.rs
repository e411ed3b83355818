//! The comparison: every routine of the proved program beside the second program, on many networks; and the tests of
//! the comparison itself. docs/COMPARISON.md says what is compared and what comes up.

mod case;
mod file;
mod laws;
mod lengths;
mod limits;
mod network;
mod plan;
mod program;
mod random;
mod smallest;
mod tally;

use case::{case, Case};
use program::{Outcome, Program, Routine, ROUTINES};
use smallest::smallest;

/// So many cases are drawn, beside those with names: enough for 100,000 different networks that the judge takes.
const CASES: u64 = 185_000;

/// The second program with one edit each, and the list of them.
mod broken {
    use crate::program::{program, Program};
    include!(concat!(env!("OUT_DIR"), "/broken.rs"));
}

/// Every case with where it comes from: a seed, or the name of a length or a limit. Those with names stand behind some
/// drawn ones, which are quicker and catch most.
fn cases() -> impl Iterator<Item = (String, Case)> {
    let drawn = |seed| (format!("seed {seed}"), case(seed));
    let named = || lengths::cases().into_iter().chain(limits::cases());
    (0..5_000).map(drawn).chain(std::iter::once_with(named).flatten()).chain((5_000..CASES).map(drawn))
}

/// A case of which two programs make something different by a routine.
struct Difference {
    routine: &'static Routine,
    origin: String,
    case: Case,
}

/// The first routine and case by which two programs differ.
fn first_difference(one: &Program, other: &Program) -> Option<Difference> {
    cases().find_map(|(origin, case)| {
        let routine = ROUTINES.iter().find(|routine| differ(routine, one, other, &case))?;
        Some(Difference { routine, origin, case })
    })
}

fn differ(routine: &Routine, one: &Program, other: &Program, case: &Case) -> bool {
    (routine.outcome)(one, case) != (routine.outcome)(other, case)
}

/// The smallest case that a difference leads to.
fn smallest_shown(found: &Difference, one: &Program, other: &Program) -> Case {
    smallest(&found.case, |case| differ(found.routine, one, other, case))
}

#[test]
fn proved_and_second_agree() {
    let (proved, second) = (program::proved(), program::second());
    let Some(found) = first_difference(&proved, &second) else { return };
    let case = smallest_shown(&found, &proved, &second);
    let [said, right] = [proved, second].map(|program| (found.routine.outcome)(&program, &case));
    let Difference { routine: Routine { name, .. }, origin, .. } = found;
    panic!("{name} differs at {origin}; the smallest case is\n{case:?}\nproved: {said:?}\nsecond: {right:?}");
}

#[test]
fn buffers_keep_what_is_not_written() {
    let second = program::second();
    for (origin, case) in cases() {
        for routine in &ROUTINES {
            let outcome = (routine.outcome)(&second, &case);
            assert!(keeps_the_rest(&outcome), "{} at {origin}", routine.name);
        }
    }
}

/// A refused call leaves every buffer as it was, another leaves what stands behind its answer.
fn keeps_the_rest(outcome: &Outcome) -> bool {
    outcome.buffers.iter().all(|buffer| match outcome.answer {
        Ok(_) => buffer.untouched_from(buffer.needed),
        Err(_) => buffer.untouched_from(0),
    })
}

#[test]
fn wrong_programs_are_caught() {
    let second = program::second();
    println!("| Wrong program | Caught by | At | Smallest case: stations, level, lines, bytes |\n|---|---|---|---|");
    for (name, wrong) in broken::programs() {
        let found = first_difference(&wrong, &second).unwrap_or_else(|| panic!("{name} is not caught"));
        let case = smallest_shown(&found, &wrong, &second);
        let size = [case.n, case.level, case.lines.len() / 2, case.file.len()].map(|part| part.to_string());
        println!("| {name} | {} | {} | {} |", found.routine.name, found.origin, size.join(", "));
    }
}
