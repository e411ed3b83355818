//! The document's examples.

use super::check::check;
use super::copy::copy;
use super::file::{read, write};
use super::joined::joined;
use super::kinds::{Contents, Fault, FaultKind, Place, Position, Refusal, Round, Standing, Station, Verdict, WeakSpot};
use super::prune::prune;
use super::text::{keep_text, weak_text};
use super::unite::unite;
use super::weak::{weak, weak_by_all_lines};

const Q: [u16; 12] = [0, 1, 0, 2, 0, 3, 1, 2, 1, 3, 2, 3];
const RING: [u16; 8] = [0, 1, 1, 2, 2, 3, 0, 3];
const SEVEN: [u16; 22] = [0, 1, 0, 2, 1, 2, 1, 3, 0, 3, 0, 4, 2, 4, 1, 5, 3, 5, 2, 6, 4, 6];
/// Ranks of the seven's lines: both are spanning forests, and the first is not scan-first.
const BOTH_FORESTS: [u8; 11] = [1, 1, 0, 2, 2, 2, 2, 1, 1, 1, 1];

/// The kept count, the ranks and the orders of a pruning that is taken.
fn pruned(n: usize, lines: &[u16], starts: &[u16]) -> (usize, Vec<u8>, Vec<u16>) {
    let mut ranks = vec![0; lines.len() / 2];
    let mut orders = vec![0; starts.len() * n];
    let kept = prune(n, starts.len(), lines, starts, &mut ranks, &mut orders);
    (kept.expect("the example is taken"), ranks, orders)
}

/// The fault of ranks under orders that all rise.
fn fault(n: usize, lines: &[u16], level: u16, ranks: &[u8]) -> Verdict {
    let orders: Vec<u16> = (0..level).flat_map(|_| 0..n as u16).collect();
    check(n, level.into(), lines, ranks, &orders).expect("the example is taken")
}

fn faulty(round: u8, kind: FaultKind) -> Verdict {
    Verdict::Faulty(Fault { round: Round(round), kind })
}

fn weak_spot(n: usize, level: usize, lines: &[u16]) -> Standing {
    let standing = weak(n, level, lines);
    assert_eq!(standing, weak_by_all_lines(n, level, lines));
    standing.expect("the example is taken")
}

fn parts(away: &[u16], a: u16, b: u16) -> Standing {
    let away = away.iter().map(|&gone| Station(gone)).collect();
    Standing::Weak(WeakSpot { away, a: Station(a), b: Station(b) })
}

/// The file of Q at level 2 from station 0.
fn file_of_q() -> Vec<u8> {
    let mut bytes = vec![0; 54];
    assert_eq!(write(4, 2, &Q, &[0, 0], &mut bytes), Ok(54));
    bytes
}

#[test]
fn prunings() {
    assert_eq!(pruned(4, &Q, &[0, 0]), (5, vec![1, 1, 1, 2, 2, 0], vec![0, 1, 2, 3, 0, 1, 2, 3]));
    assert_eq!(pruned(4, &RING, &[2, 2]), (4, vec![1, 1, 1, 2], vec![2, 1, 0, 3, 2, 0, 3, 1]));
    assert_eq!(pruned(1, &[], &[0]), (0, vec![], vec![0]));
    assert_eq!(pruned(7, &SEVEN, &[0, 0]).1, [1, 1, 2, 2, 1, 1, 2, 1, 2, 1, 2]);
}

#[test]
fn a_line_listed_twice() {
    let refused = prune(2, 1, &[0, 1, 1, 0], &[0], &mut [7; 2], &mut [7; 2]);
    assert_eq!(refused, Err(Refusal { number: 8, place: 1, list: 0 }));
}

#[test]
fn faults() {
    let lines = [0, 2, 1, 2];
    assert_eq!(fault(3, &lines, 1, &[1, 0]), faulty(1, FaultKind::E(Place(1))));
    assert_eq!(fault(3, &lines, 1, &[1, 1]), faulty(1, FaultKind::D(Station(2))));
    assert_eq!(fault(3, &lines, 1, &[1, 2]), faulty(0, FaultKind::A(Place(1))));
    assert_eq!(fault(7, &SEVEN, 2, &BOTH_FORESTS), faulty(1, FaultKind::C(Station(3))));
    assert_eq!(check(3, 1, &lines, &[1, 1], &[2, 1, 2]), Ok(faulty(1, FaultKind::B(Position(2)))));
    assert_eq!(check(3, 1, &lines, &[1, 1], &[2, 0, 1]), Ok(Verdict::Accepted));
}

#[test]
fn the_seven_without_a_relay() {
    let mut kept = [0; 20];
    assert_eq!(copy(&SEVEN, &BOTH_FORESTS, &mut kept), Ok(10));
    assert_eq!(joined(7, &kept, &[0], Station(1), Station(2)), Ok(false));
    assert_eq!(joined(7, &SEVEN, &[0], Station(1), Station(2)), Ok(true));
}

#[test]
fn weak_spots() {
    let star = [0, 1, 0, 2, 0, 3];
    assert_eq!(weak_spot(4, 1, &star), Standing::Stands);
    assert_eq!(weak_spot(4, 2, &star), parts(&[0], 1, 2));
    assert_eq!(weak_spot(4, 3, &RING), parts(&[0, 2], 1, 3));
    assert_eq!(weak_spot(2, 1, &[]), parts(&[], 0, 1));
    assert_eq!(weak_spot(3, 3, &[0, 1, 1, 2, 0, 2]), Standing::Stands);
}

#[test]
fn a_union() {
    let mut room = [9; 7];
    assert_eq!(unite(3, &[0, 1, 1, 2], &[2, 1, 0, 2], &mut room), Ok(3));
    assert_eq!(room, [0, 1, 1, 2, 0, 2, 9]);
}

#[test]
fn limits() {
    let path: Vec<u16> = (1..1_024).flat_map(|station| [station - 1, station]).collect();
    assert_eq!(pruned(1_024, &path, &[0]).0, 1_023);
    assert_eq!(pruned(3, &path[..4], &[0; 16]).0, 2);
    let every_pair = (0..1_024).flat_map(|one| (one + 1..1_024).map(move |two| [one, two]));
    let lines: Vec<u16> = every_pair.take(8_192).flatten().collect();
    assert_eq!(pruned(1_024, &lines, &[0]).0, 1_023);
    let refused = |n, level, starts: &[u16]| prune(n, level, &[], starts, &mut [], &mut [0; 2_000]);
    assert_eq!(refused(1_025, 1, &[0]), Err(Refusal { number: 1, place: 0, list: 0 }));
    assert_eq!(refused(0, 1, &[0]), Err(Refusal { number: 1, place: 0, list: 0 }));
    assert_eq!(refused(3, 17, &[0; 17]), Err(Refusal { number: 3, place: 0, list: 0 }));
}

#[test]
fn the_file_of_q() {
    let mut lines = [9; 16_384];
    let mut starts = [9; 16];
    let contents = Contents { n: 4, level: 2, lines: 6, starts: 2 };
    assert_eq!(read(&file_of_q(), &mut lines, &mut starts), Ok(contents));
    assert_eq!((&lines[..13], &starts[..3]), (&[&Q[..], &[9]].concat()[..], &[0, 0, 9][..]));
}

#[test]
fn the_text_of_q() {
    let text = "stations 4 level 2 lines 6 kept 5\n\
                round 1 line 0 from 0 to 1\n\
                round 1 line 1 from 0 to 2\n\
                round 1 line 2 from 0 to 3\n\
                round 2 line 3 from 1 to 2\n\
                round 2 line 4 from 1 to 3\n";
    assert_eq!(keep_text(&file_of_q()), text);
    assert_eq!(weak_text(&file_of_q()), "stations 4 level 2 lines 6\nstands\n");
}

#[test]
fn the_text_of_refusals_and_weak_spots() {
    assert_eq!(keep_text(b"NW\x02\0\x01\0LN\0\0\x01\0LN\x01\0\0\0RT\0\0EN\x02\0"), "refused 8 at 1\n");
    assert_eq!(weak_text(b"NW\x02\0\x01\0EN\0\0"), "stations 2 level 1 lines 0\nweak parts 0 from 1\n");
    let chain = b"NW\x03\0\x02\0LN\0\0\x01\0LN\x01\0\x02\0EN\x02\0";
    assert_eq!(weak_text(chain), "stations 3 level 2 lines 2\nweak 1 parts 0 from 2\n");
    assert_eq!(weak_text(b"NW\x03\0\x04\0EN\0\0"), "refused 12 at 0\n");
    assert_eq!(keep_text(b"NW\xff\xff\xff\xffEN\0\0"), "refused 1 at 0\n");
    assert_eq!(keep_text(b""), "refused 21 at 0\n");
}
