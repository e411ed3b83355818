//! The limits of the document's last example: what is taken at the limit is refused one past it.

use tapuhzel::{LineList, prune, Refusal};

/// Prunes a path of stations at a level, every round from station 0.
fn prune_path(stations: usize, level: usize) -> Result<usize, Refusal> {
    let lines: Vec<u16> = (1..stations as u16).flat_map(|v| [v - 1, v]).collect();
    let mut ranks = vec![0; lines.len() / 2];
    let mut orders = vec![0; level * stations];
    prune(stations, level, &lines, &vec![0; level], &mut ranks, &mut orders)
}

#[test]
fn stations() {
    assert_eq!(prune_path(1_024, 1), Ok(1_023));
    assert_eq!(prune(1_025, 1, &[], &[0], &mut [], &mut [0; 1_025]), Err(Refusal::StationCount));
    assert_eq!(prune(0, 1, &[], &[0], &mut [], &mut []), Err(Refusal::StationCount));
}

#[test]
fn levels() {
    assert_eq!(prune_path(3, 16), Ok(2));
    assert_eq!(prune_path(3, 17), Err(Refusal::LevelRange));
    assert_eq!(prune_path(3, 0), Err(Refusal::LevelRange));
}

#[test]
fn lines() {
    let every_pair = (0..1_024u16).flat_map(|a| (a + 1..1_024).map(move |b| [a, b]));
    let lines: Vec<u16> = every_pair.take(8_193).flatten().collect();
    let mut ranks = vec![0; 8_193];
    let mut orders = vec![0; 1_024];
    assert_eq!(prune(1_024, 1, &lines[..16_384], &[0], &mut ranks, &mut orders), Ok(1_023));
    assert_eq!(prune(1_024, 1, &lines, &[0], &mut ranks, &mut orders), Err(Refusal::LineCount(LineList::Only)));
    assert_eq!(prune(1_024, 1, &lines[..3], &[0], &mut ranks, &mut orders), Err(Refusal::LineCount(LineList::Only)));
}

#[test]
fn a_refused_call_changes_nothing() {
    let mut ranks = [7; 3];
    let mut orders = [9; 4];
    assert_eq!(prune(4, 1, &[0, 1, 1, 2, 2, 4], &[0], &mut ranks, &mut orders), Err(Refusal::EndOutside(LineList::Only, tapuhzel::Place(2))));
    assert_eq!((ranks, orders), ([7; 3], [9; 4]));
}
