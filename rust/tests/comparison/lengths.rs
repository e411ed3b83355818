//! Cases of one network with each buffer of every length.

use crate::case::{sound_with, Case, Spare};
use crate::random::Random;

/// The cases, each with the name of the buffer and how much it is longer than needed.
pub fn cases() -> Vec<(String, Case)> {
    let lines = vec![0, 1, 0, 2, 0, 3, 1, 2, 1, 3, 2, 3];
    let sound = sound_with(&mut Random::new(4), "every length", 4, 2, lines, vec![3, 2, 1, 0]);
    let written = BUFFERS.iter().flat_map(|(name, lengthen)| {
        let sound = sound.clone();
        (-60..=5).map(move |spare| {
            let mut case = sound.clone();
            lengthen(&mut case.spare, spare);
            (format!("{name} longer by {spare}"), case)
        })
    });
    written.chain(plans(&sound)).collect()
}

type Lengthen = fn(&mut Spare, isize);

const BUFFERS: [(&str, Lengthen); 7] = [
    ("ranks", |spare, length| spare.ranks = length),
    ("orders", |spare, length| spare.orders = length),
    ("kept lines", |spare, length| spare.kept = length),
    ("union", |spare, length| spare.union = length),
    ("lines", |spare, length| spare.lines = length),
    ("starts", |spare, length| spare.starts = length),
    ("bytes", |spare, length| spare.bytes = length),
];

/// The plan's ranks and orders of every length.
fn plans(sound: &Case) -> impl Iterator<Item = (String, Case)> + '_ {
    let ranks = (0..10).map(|length| {
        let mut case = sound.clone();
        case.plan.ranks.resize(length, 0);
        (format!("{length} ranks to check"), case)
    });
    let orders = (0..12).map(|length| {
        let mut case = sound.clone();
        case.plan.orders.resize(length, 0);
        (format!("{length} entries to check"), case)
    });
    ranks.chain(orders)
}
