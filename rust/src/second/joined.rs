//! Whether two stations are joined after others fail.

use super::judge::judge;
use super::kinds::{require, Refusal, Station};
use super::neighbours::Neighbours;

/// Whether a chain of remaining stations leads from a to b. Tries 1, 2, the lines, 10, 11 for a, 11 for b.
pub fn joined(n: usize, lines: &[u16], away: &[u16], a: Station, b: Station) -> Result<bool, Refusal> {
    judge(n, lines)?;
    judge_away(n, away)?;
    judge_asked(n, away, a, 0)?;
    judge_asked(n, away, b, 1)?;
    let away: Vec<Station> = away.iter().map(|&gone| Station(gone)).collect();
    Ok(Neighbours::new(n, lines).reached(a, &away)[b.index()])
}

/// Refusal 10: the first index whose number is n or more or does not rise.
fn judge_away(n: usize, away: &[u16]) -> Result<(), Refusal> {
    for (index, &gone) in away.iter().enumerate() {
        let rises = index == 0 || away[index - 1] < gone;
        require(rises && Station(gone).index() < n, Refusal::at(10, index))?;
    }
    Ok(())
}

/// Refusal 11: an asked station is n or more, or taken away; place 0 for the first, 1 for the second.
fn judge_asked(n: usize, away: &[u16], asked: Station, place: usize) -> Result<(), Refusal> {
    require(asked.index() < n && !away.contains(&asked.0), Refusal::at(11, place))
}
