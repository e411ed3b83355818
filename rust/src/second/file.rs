//! The file: reading and writing a network.

use super::judge::{lines_of, MOST_LINES};
use super::kinds::{require, Contents, Refusal};
use super::request::{judge_request, MOST_LEVEL};

/// A network as a file has it, judged by nobody.
#[derive(Clone, Debug, Default, PartialEq, Eq)]
pub struct Network {
    pub n: u16,
    pub level: u16,
    pub lines: Vec<u16>,
    pub starts: Vec<u16>,
}

/// The kinds of records, by what may stand after each.
#[derive(Clone, Copy, PartialEq, Eq)]
enum Record {
    Network,
    Line,
    Start,
    End,
}

/// Reads a file into lent buffers. Tries 5, then takes records in order; nothing is written before all are looked at.
pub fn read(bytes: &[u8], lines: &mut [u16], starts: &mut [u16]) -> Result<Contents, Refusal> {
    require(lines.len() >= 2 * MOST_LINES && starts.len() >= MOST_LEVEL, Refusal::of(5))?;
    let network = records(bytes)?;
    lines[..network.lines.len()].copy_from_slice(&network.lines);
    starts[..network.starts.len()].copy_from_slice(&network.starts);
    Ok(Contents {
        n: network.n.into(),
        level: network.level.into(),
        lines: network.lines.len() / 2,
        starts: network.starts.len(),
    })
}

/// The network of a file's records, or the first record's refusal.
pub fn records(bytes: &[u8]) -> Result<Network, Refusal> {
    let mut network = Network::default();
    let mut last = None;
    let mut offset = 0;
    loop {
        let refusal = |number| Refusal::at(number, offset).in_list(3);
        let mark = bytes.get(offset..offset + 2).ok_or(refusal(21))?;
        let record = allowed(last, mark).ok_or(refusal(20))?;
        let end = offset + length(record);
        let body = bytes.get(offset + 2..end).ok_or(refusal(21))?;
        let first = number(&body[..2]);
        match record {
            Record::Network => (network.n, network.level) = (first, number(&body[2..])),
            Record::Line => {
                require(network.lines.len() / 2 < MOST_LINES, refusal(2))?;
                network.lines.extend([first, number(&body[2..])]);
            }
            Record::Start => {
                require(network.starts.len() < MOST_LEVEL, refusal(4))?;
                network.starts.push(first);
            }
            Record::End => {
                require(usize::from(first) == network.lines.len() / 2, refusal(22))?;
                require(end == bytes.len(), Refusal::at(23, end).in_list(3))?;
                return Ok(network);
            }
        }
        last = Some(record);
        offset = end;
    }
}

/// The record that a mark begins, if it may stand after the last one.
fn allowed(last: Option<Record>, mark: &[u8]) -> Option<Record> {
    match (mark, last) {
        (b"NW", None) => Some(Record::Network),
        (b"LN", Some(Record::Network | Record::Line)) => Some(Record::Line),
        (b"RT", Some(_)) => Some(Record::Start),
        (b"EN", Some(_)) => Some(Record::End),
        _ => None,
    }
}

/// The mark decides a record's length.
fn length(record: Record) -> usize {
    match record {
        Record::Network | Record::Line => 6,
        Record::Start | Record::End => 4,
    }
}

/// A number of 16 bits, low byte first.
fn number(bytes: &[u8]) -> u16 {
    u16::from_le_bytes([bytes[0], bytes[1]])
}

/// Writes a network to the front of `bytes`; the answer is the number of bytes. Refuses as pruning does.
pub fn write(n: usize, level: usize, lines: &[u16], starts: &[u16], bytes: &mut [u8]) -> Result<usize, Refusal> {
    let needed = 6 + 6 * (lines.len() / 2) + 4 * starts.len() + 4;
    judge_request(n, level, lines, starts, || bytes.len() >= needed)?;
    let file = encoded(n as u16, level as u16, lines, starts);
    bytes[..file.len()].copy_from_slice(&file);
    Ok(file.len())
}

/// The bytes of a network within the limits.
fn encoded(n: u16, level: u16, lines: &[u16], starts: &[u16]) -> Vec<u8> {
    let mut file = Vec::new();
    put(&mut file, b"NW", &[n, level]);
    lines_of(lines).for_each(|(_, one, two)| put(&mut file, b"LN", &[one.0, two.0]));
    starts.iter().for_each(|&start| put(&mut file, b"RT", &[start]));
    put(&mut file, b"EN", &[(lines.len() / 2) as u16]);
    file
}

fn put(file: &mut Vec<u8>, mark: &[u8; 2], numbers: &[u16]) {
    file.extend(mark);
    numbers.iter().for_each(|number| file.extend(number.to_le_bytes()));
}
