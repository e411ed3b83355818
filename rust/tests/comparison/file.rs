//! Files for reading: whole ones, and the damage that comes to files.

use crate::random::Random;

/// The file of a network, sound or not; its records have all bytes of their numbers that fit.
pub fn packed(n: usize, level: usize, lines: &[u16], starts: &[u16]) -> Vec<u8> {
    let mut file = record(b"NW", &[n as u16, level as u16]);
    lines.chunks(2).for_each(|ends| file.extend(record(b"LN", &[ends[0], *ends.last().unwrap_or(&0)])));
    starts.iter().for_each(|&start| file.extend(record(b"RT", &[start])));
    file.extend(record(b"EN", &[lines.len().div_ceil(2) as u16]));
    file
}

fn record(mark: &[u8; 2], numbers: &[u16]) -> Vec<u8> {
    let numbers = numbers.iter().flat_map(|number| number.to_le_bytes());
    mark.iter().copied().chain(numbers).collect()
}

/// A damage done to a file's bytes.
type Damage = fn(&mut Random, &mut Vec<u8>);

const DAMAGES: [Damage; 11] = [
    // The file ends early.
    |random, file| file.truncate(random.below(file.len() + 1)),
    // Bytes follow EN.
    |random, file| (0..random.within(1, 5)).for_each(|_| file.push(random.below(256) as u8)),
    // A byte is another one.
    |random, file| change(random, file, |random, _| random.below(256) as u8),
    // A bit is flipped.
    |random, file| change(random, file, |random, byte| byte ^ (1 << random.below(8))),
    // A byte is missing.
    |random, file| {
        if !file.is_empty() {
            file.remove(random.below(file.len()));
        }
    },
    // A byte is there twice.
    |random, file| {
        if !file.is_empty() {
            let at = random.below(file.len());
            file.insert(at, file[at]);
        }
    },
    // EN's count is another one, and bytes may follow.
    |random, file| {
        let count = file.len().saturating_sub(2)..file.len();
        file[count].iter_mut().for_each(|byte| *byte ^= random.below(3) as u8);
        (0..random.below(3)).for_each(|_| file.push(0));
    },
    // A record stands in the wrong place.
    |random, file| insert_record(random, file, 1),
    // Some starting stations too many.
    |random, file| {
        let starts = random.within(14, 18);
        let end = file.len().saturating_sub(4);
        file.splice(end..end, (0..starts).flat_map(|_| record(b"RT", &[0])));
    },
    // A record is there twice or more often.
    |random, file| {
        let times = random.within(2, 4);
        insert_record(random, file, times);
    },
    // No file at all.
    |random, file| file.iter_mut().for_each(|byte| *byte = random.pick(b"NWLRTE\0\x01\x02")),
];

/// Does one of the damages.
pub fn damage(random: &mut Random, file: &mut Vec<u8>) {
    random.pick(&DAMAGES)(random, file);
}

fn change(random: &mut Random, file: &mut [u8], changed: fn(&mut Random, u8) -> u8) {
    if !file.is_empty() {
        let at = random.below(file.len());
        file[at] = changed(random, file[at]);
    }
}

/// Puts some record, so many times, before a letter, where a record may begin.
fn insert_record(random: &mut Random, file: &mut Vec<u8>, times: usize) {
    let mark = random.pick(&[b"NW", b"LN", b"RT", b"EN", b"SB", b"nw"]);
    let numbers = if matches!(mark, b"NW" | b"LN") { 2 } else { 1 };
    let inserted: Vec<u8> = (0..times).flat_map(|_| record(mark, &[0, 1][..numbers])).collect();
    let marks: Vec<usize> = (0..file.len()).filter(|&at| file[at].is_ascii_uppercase()).collect();
    let at = if marks.is_empty() { 0 } else { random.pick(&marks) };
    file.splice(at..at, inserted);
}
