//! What the programs `keep` and `weak` write of a file's bytes.

use super::file::records;
use super::judge::{lines_of, MOST_STATIONS};
use super::kinds::{Refusal, Standing};
use super::prune::prune;
use super::request::MOST_LEVEL;
use super::weak::weak;
use std::fmt::Write;

/// The text of `keep`: a header, then each kept line by place; or the refusal.
pub fn keep_text(bytes: &[u8]) -> String {
    kept_lines_text(bytes).unwrap_or_else(refused_text)
}

/// The text of `weak`: a header, then `stands` or the weak spot; or the refusal.
pub fn weak_text(bytes: &[u8]) -> String {
    standing_text(bytes).unwrap_or_else(refused_text)
}

fn refused_text(refusal: Refusal) -> String {
    format!("refused {} at {}\n", refusal.number, refusal.place)
}

fn kept_lines_text(bytes: &[u8]) -> Result<String, Refusal> {
    let network = records(bytes)?;
    let (n, level) = (usize::from(network.n), usize::from(network.level));
    let line_count = network.lines.len() / 2;
    let mut ranks = vec![0; line_count];
    let mut orders = vec![0; MOST_LEVEL * MOST_STATIONS];
    let kept = prune(n, level, &network.lines, &network.starts, &mut ranks, &mut orders)?;
    let mut text = format!("stations {n} level {level} lines {line_count} kept {kept}\n");
    for (place, one, two) in lines_of(&network.lines) {
        let rank = ranks[place.0];
        if rank != 0 {
            let _ = writeln!(text, "round {rank} line {} from {} to {}", place.0, one.0, two.0);
        }
    }
    Ok(text)
}

fn standing_text(bytes: &[u8]) -> Result<String, Refusal> {
    let network = records(bytes)?;
    let (n, level) = (usize::from(network.n), usize::from(network.level));
    let standing = weak(n, level, &network.lines)?;
    let mut text = format!("stations {n} level {level} lines {}\n", network.lines.len() / 2);
    match standing {
        Standing::Stands => text.push_str("stands\n"),
        Standing::Weak(spot) => {
            text.push_str("weak");
            spot.away.iter().for_each(|gone| text.push_str(&format!(" {}", gone.0)));
            let _ = writeln!(text, " parts {} from {}", spot.a.0, spot.b.0);
        }
    }
    Ok(text)
}
