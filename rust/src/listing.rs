//! A network as a plain text list, to be written by hand, and back to the file of the document.
//!
//! ```text
//! # Three wells in a row.
//! stations 3
//! level 1
//! line 0 1
//! line 1 2
//! start 0
//! ```

use crate::{read, write, Refusal};
use std::fmt;

/// What is wrong with a text or a file, and where.
#[derive(Clone, Debug, PartialEq, Eq)]
pub struct Mistake {
    /// The line of the text, counted from 1, if it is one of them.
    pub text_line: Option<usize>,
    pub message: String,
}

impl fmt::Display for Mistake {
    fn fmt(&self, out: &mut fmt::Formatter) -> fmt::Result {
        match self.text_line {
            Some(number) => write!(out, "text line {number}: {}", self.message),
            None => write!(out, "{}", self.message),
        }
    }
}

/// The file of a text list; what pruning would refuse is a mistake.
///
/// ```
/// let bytes = tapuhzel::listing::pack("stations 2\nlevel 1\nline 0 1\nstart 0\n").unwrap();
/// assert_eq!(bytes, b"NW\x02\0\x01\0LN\0\0\x01\0RT\0\0EN\x01\0");
/// let mistake = tapuhzel::listing::pack("stations 2\nlevel one").unwrap_err();
/// assert_eq!(mistake.to_string(), "text line 2: expected a number from 0 to 65535, found 'one'");
/// ```
pub fn pack(text: &str) -> Result<Vec<u8>, Mistake> {
    let mut listed = Listed::default();
    for (index, line) in text.lines().enumerate() {
        listed.add(index + 1, line)?;
    }
    listed.written()
}

/// The text list of a file.
pub fn unpack(bytes: &[u8]) -> Result<String, Mistake> {
    let (mut lines, mut starts) = (vec![0; 16_384], [0; 16]);
    let found = read(bytes, &mut lines, &mut starts).map_err(|refusal| Mistake { text_line: None, message: refused(refusal) })?;
    Ok(text_of(found.stations, found.level, &lines[..2 * found.lines], &starts[..found.starts]))
}

fn text_of(stations: usize, level: usize, lines: &[u16], starts: &[u16]) -> String {
    let lines = lines.chunks_exact(2).map(|ends| format!("line {} {}\n", ends[0], ends[1]));
    let starts = starts.iter().map(|start| format!("start {start}\n"));
    let header = format!("stations {stations}\nlevel {level}\n");
    std::iter::once(header).chain(lines).chain(starts).collect()
}

/// A number of the text, with the text line that it stands in.
type Found = (u16, usize);

/// What a text lists so far.
#[derive(Default)]
struct Listed {
    stations: Option<Found>,
    level: Option<Found>,
    lines: Vec<u16>,
    starts: Vec<u16>,
    /// The text line of each line of the network, and of each start.
    line_origins: Vec<usize>,
    start_origins: Vec<usize>,
}

impl Listed {
    /// Takes one line of the text; what follows # is a comment.
    fn add(&mut self, text_line: usize, line: &str) -> Result<(), Mistake> {
        let said = line.split('#').next().unwrap_or_default();
        let mut words = said.split_whitespace();
        let Some(word) = words.next() else { return Ok(()) };
        let rest: Vec<&str> = words.collect();
        let added = match word {
            "stations" => once(&mut self.stations, word, text_line, &rest),
            "level" => once(&mut self.level, word, text_line, &rest),
            "line" => numbers::<2>(word, &rest).map(|ends| {
                self.lines.extend(ends);
                self.line_origins.push(text_line);
            }),
            "start" => numbers::<1>(word, &rest).map(|[start]| {
                self.starts.push(start);
                self.start_origins.push(text_line);
            }),
            _ => Err(format!("expected 'stations', 'level', 'line' or 'start', found '{}'", shown(word))),
        };
        added.map_err(|message| Mistake { text_line: Some(text_line), message })
    }

    /// The file of all that is listed.
    fn written(&self) -> Result<Vec<u8>, Mistake> {
        let missing = |word| Mistake { text_line: None, message: format!("expected a line '{word}' with its number") };
        let (stations, _) = self.stations.ok_or_else(|| missing("stations"))?;
        let (level, _) = self.level.ok_or_else(|| missing("level"))?;
        let mut bytes = vec![0; 10 + 3 * self.lines.len() + 4 * self.starts.len()];
        match write(stations.into(), level.into(), &self.lines, &self.starts, &mut bytes) {
            Ok(_) => Ok(bytes),
            Err(refusal) => Err(Mistake { text_line: self.origin(refusal), message: refused(refusal) }),
        }
    }

    /// The text line that a refusal speaks of.
    fn origin(&self, refusal: Refusal) -> Option<usize> {
        match refusal {
            Refusal::StationCount => self.stations.map(|(_, text_line)| text_line),
            Refusal::LevelRange => self.level.map(|(_, text_line)| text_line),
            Refusal::EndOutside(_, place) | Refusal::EndsEqual(_, place) | Refusal::StoodEarlier(_, place) => {
                self.line_origins.get(usize::from(place.0)).copied()
            }
            Refusal::StartOutside(round) => self.start_origins.get(usize::from(round.0) - 1).copied(),
            _ => None,
        }
    }
}

/// Keeps the one number of a word that may stand once.
fn once(found: &mut Option<Found>, word: &str, text_line: usize, rest: &[&str]) -> Result<(), String> {
    let [number] = numbers::<1>(word, rest)?;
    match found.replace((number, text_line)) {
        None => Ok(()),
        Some((_, before)) => Err(format!("expected '{word}' once, and it stands in text line {before}")),
    }
}

/// The numbers after a word, one or two as is asked for.
fn numbers<const COUNT: usize>(word: &str, rest: &[&str]) -> Result<[u16; COUNT], String> {
    let parsed: Result<Vec<u16>, String> = rest.iter().map(|text| number(text)).collect();
    let asked = if COUNT == 1 { "one number" } else { "two numbers" };
    parsed?.try_into().map_err(|found: Vec<u16>| format!("expected {asked} after '{word}', found {}", found.len()))
}

fn number(text: &str) -> Result<u16, String> {
    text.parse().map_err(|_| format!("expected a number from 0 to 65535, found '{}'", shown(text)))
}

/// The beginning of a word, with nothing in it that a terminal takes for more than letters.
fn shown(word: &str) -> String {
    word.chars().take(40).flat_map(char::escape_debug).collect()
}

/// A refusal in words.
fn refused(refusal: Refusal) -> String {
    format!("refused {} at {}: {}", refusal.number(), refusal.place(), reason(refusal.number()))
}

/// The document's words for the refusals of reading and writing.
fn reason(number: u8) -> &'static str {
    match number {
        1 => "the stations are not 1 to 1,024",
        2 => "there are over 8,192 lines",
        3 => "the level is not 1 to 16",
        4 => "the starting stations are not as many as the level",
        6 => "a line end is no station",
        7 => "a line's ends are equal",
        8 => "the same two ends, either way round, stood earlier",
        9 => "a starting station is no station",
        20 => "the bytes are not a mark allowed here",
        21 => "the file ends inside a record or before EN",
        22 => "EN's count is not the number of LN records",
        23 => "bytes follow EN",
        _ => "a buffer is too short",
    }
}

/// A text list drawn from a seed, the same for the same seed. Every second line is drawn from the stations with low
/// numbers, which so become relays. At most a quarter of all pairs become lines, so that drawing ends soon.
pub fn draw(stations: u16, lines: usize, level: u16, seed: u64) -> Result<String, Mistake> {
    let pairs = usize::from(stations) * usize::from(stations).saturating_sub(1) / 2;
    if stations == 0 || lines > pairs / 4 {
        let message = format!("expected at most {} lines between {stations} stations, found {lines}", pairs / 4);
        return Err(Mistake { text_line: None, message });
    }
    let mut state = seed;
    let mut station = || {
        state = state.wrapping_mul(6_364_136_223_846_793_005).wrapping_add(1_442_695_040_888_963_407);
        ((state >> 33) % u64::from(stations)) as u16
    };
    let mut list = Vec::with_capacity(2 * lines);
    let mut stood = std::collections::HashSet::new();
    let mut draws = 1;
    while stood.len() < lines {
        let mut lowest = || (1..draws).fold(station(), |low, _| low.min(station()));
        let (one, two) = (lowest(), lowest());
        if one != two && stood.insert((one.min(two), one.max(two))) {
            list.extend([one, two]);
        }
        draws = 9 - draws;
    }
    let starts: Vec<u16> = (0..level).map(|_| station()).collect();
    Ok(text_of(stations.into(), level.into(), &list, &starts))
}

#[cfg(test)]
mod tests {
    use super::{draw, pack, unpack};

    fn mistake(text: &str) -> String {
        pack(text).expect_err("the text is a mistake").to_string()
    }

    #[test]
    fn a_text_comes_back() {
        let text = "stations 4\nlevel 2\nline 0 1\nline 3 2\nstart 3\nstart 0\n";
        assert_eq!(unpack(&pack(text).unwrap()).unwrap(), text);
        let commented = "# Four.\nstart 3 # first\n\n level 2\nline 0 1\nstations 4\nline 3 2\nstart 0";
        assert_eq!(pack(commented), pack(text));
    }

    #[test]
    fn garbage_is_named() {
        assert_eq!(mistake("relay 3"), "text line 1: expected 'stations', 'level', 'line' or 'start', found 'relay'");
        assert!(mistake("\0\u{1b}[2J").ends_with("found '\\0\\u{1b}[2J'"));
        assert_eq!(mistake("\nline 0"), "text line 2: expected two numbers after 'line', found 1");
        assert_eq!(mistake("line 0 1 2"), "text line 1: expected two numbers after 'line', found 3");
        assert_eq!(mistake("start -1"), "text line 1: expected a number from 0 to 65535, found '-1'");
        assert_eq!(mistake("start 65536"), "text line 1: expected a number from 0 to 65535, found '65536'");
        assert_eq!(mistake("level 1\nlevel 2"), "text line 2: expected 'level' once, and it stands in text line 1");
        assert_eq!(mistake("level 1"), "expected a line 'stations' with its number");
        assert_eq!(mistake(""), "expected a line 'stations' with its number");
    }

    #[test]
    fn what_pruning_refuses_is_named() {
        let twice = "stations 2\nlevel 1\nstart 0\nline 0 1\n\nline 1 0";
        let words = "the same two ends, either way round, stood earlier";
        assert_eq!(mistake(twice), format!("text line 6: refused 8 at 1: {words}"));
        assert_eq!(mistake("stations 0\nlevel 1"), "text line 1: refused 1 at 0: the stations are not 1 to 1,024");
        let outside = "stations 2\nlevel 2\nstart 0\nstart 2";
        assert_eq!(mistake(outside), "text line 4: refused 9 at 2: a starting station is no station");
        let few = "refused 4 at 0: the starting stations are not as many as the level";
        assert_eq!(mistake("stations 2\nlevel 1"), few);
    }

    #[test]
    fn a_damaged_file_is_named() {
        let mistake = unpack(b"NW\x02\0\x01\0XX").unwrap_err().to_string();
        assert_eq!(mistake, "refused 20 at 6: the bytes are not a mark allowed here");
    }

    #[test]
    fn what_is_drawn_can_be_packed() {
        assert!(pack(&draw(40, 100, 3, 1).unwrap()).is_ok());
        assert!(draw(4, 2, 1, 1).is_err());
        assert!(draw(0, 0, 1, 1).is_err());
    }
}
