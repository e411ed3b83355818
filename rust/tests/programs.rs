//! The proved programs `keep` and `weak` themselves, run on files that are whole, damaged or over-long, or that come in
//! pieces: each writes what the second program says of the same bytes. What is proved of a program's `main` says
//! nothing of the bytes that it reads and writes, so these runs hold it.

#[path = "../built.rs"]
mod built;
#[path = "comparison/file.rs"]
mod file;
#[allow(dead_code)] // the comparison uses more of it
#[path = "comparison/random.rs"]
mod random;
mod repository;

use file::{damage, packed};
use random::Random;
use std::io::Write;
use std::process::{ChildStdin, Command, Output, Stdio};
use std::sync::Once;
use std::thread;
use std::time::Duration;
use tapuhzel::second::text::{keep_text, weak_text};

/// What a program writes of its input.
type Text = fn(&[u8]) -> String;

/// Each program by its name, with what the second program says in its place.
const PROGRAMS: [(&str, Text); 2] = [("keep", keep_text), ("weak", weak_text)];

/// No file is longer.
const LONGEST: usize = 49_226;

/// A program reads no more.
const READ: usize = 65_536;

/// The length of a piece that is all of an input.
const WHOLE: usize = usize::MAX;

/// Every sample with its name.
fn samples() -> Vec<(String, Vec<u8>)> {
    let file = |name: &String| repository::bytes(&format!("samples/{name}.net"));
    repository::names("samples", ".net").into_iter().map(|name| (name.clone(), file(&name))).collect()
}

/// The samples that are small enough to be damaged in many ways, and the document's example.
fn small_samples() -> Vec<(String, Vec<u8>)> {
    let example = ("the document's Q".to_string(), repository::bytes("crates/keep/stdin"));
    samples().into_iter().filter(|(_, file)| file.len() < 1_000).chain([example]).collect()
}

/// Asks that each program writes of an input what the second program says of it. The origin names the input.
fn hold(origin: &str, input: &[u8]) {
    for (program, right) in PROGRAMS {
        hold_program(origin, program, input, WHOLE, &right(input));
    }
}

/// Asks that a program writes a text of an input that comes in pieces of a length.
fn hold_program(origin: &str, program: &str, input: &[u8], piece: usize, right: &str) {
    let Output { status, stdout, stderr } = run(program, input, piece);
    let (said, complaint) = (String::from_utf8_lossy(&stdout), String::from_utf8_lossy(&stderr));
    assert!(status.success() && complaint.is_empty(), "{program} of {origin}: {status}, {complaint}");
    let differ = format!("{program} of {origin} writes {} bytes, expected {}", said.len(), right.len());
    assert!(said == right, "{differ}:\n{said:.200}\nexpected:\n{right:.200}");
}

/// Where `rt` leaves a program.
fn built(program: &str) -> String {
    format!("crates/{program}/out/{program}")
}

/// Runs a program. What it writes is read while it is fed, since neither need fit a pipe.
fn run(program: &str, input: &[u8], piece: usize) -> Output {
    static BUILT: Once = Once::new();
    BUILT.call_once(|| {
        for (program, _) in PROGRAMS {
            built::bring_up_to_date(&repository::path(""), &built(program), &format!("crates/{program}"), &["rt", "run"]);
        }
    });
    let mut command = Command::new(repository::path(&built(program)));
    let piped = command.stdin(Stdio::piped()).stdout(Stdio::piped()).stderr(Stdio::piped()).spawn();
    let mut child = piped.expect("the program starts");
    let pipe = child.stdin.take().expect("the input is piped");
    thread::scope(|scope| {
        scope.spawn(|| feed(pipe, input, piece));
        child.wait_with_output().expect("the program ends")
    })
}

/// Writes an input piece by piece, then closes the pipe. A pause after the first piece has the program read it alone.
fn feed(mut pipe: ChildStdin, input: &[u8], piece: usize) {
    for (index, part) in input.chunks(piece).enumerate() {
        if index == 1 {
            thread::sleep(Duration::from_millis(20));
        }
        // A program that has read all it asks for closes the pipe, which is no mistake.
        if pipe.write_all(part).is_err() {
            return;
        }
    }
}

#[test]
fn samples_are_answered_as_stored() {
    for (name, file) in samples() {
        for (program, right) in PROGRAMS {
            let stored = repository::text(&format!("samples/{name}.{program}.txt"));
            assert!(right(&file) == stored, "{name}.{program}.txt is not what the second program says");
            hold_program(&name, program, &file, WHOLE, &stored);
        }
    }
}

#[test]
fn files_are_cut_at_every_byte() {
    for (name, file) in small_samples() {
        (0..file.len()).for_each(|end| hold(&format!("{name} cut at byte {end}"), &file[..end]));
    }
}

#[test]
fn every_bit_is_changed() {
    let file = repository::bytes("crates/keep/stdin");
    for bit in 0..8 * file.len() {
        let mut changed = file.clone();
        changed[bit / 8] ^= 1 << (bit % 8);
        hold(&format!("the document's Q with bit {} of byte {} changed", bit % 8, bit / 8), &changed);
    }
}

#[test]
fn damage_is_drawn() {
    let samples = small_samples();
    for seed in 0..1_000 {
        let random = &mut Random::new(seed);
        let (name, mut file) = samples[random.below(samples.len())].clone();
        (0..random.within(1, 3)).for_each(|_| damage(random, &mut file));
        hold(&format!("{name} damaged by seed {seed}"), &file);
    }
}

#[test]
fn bytes_follow_the_end() {
    for (name, file) in samples() {
        for (what, bytes) in [("a byte", vec![0]), ("a line", b"LN\0\0\x01\0".to_vec()), ("itself", file.clone())] {
            hold(&format!("{name} followed by {what}"), &[&file[..], &bytes].concat());
        }
        hold(&format!("{name} followed by 200,000 bytes"), &[file, vec![0; 200_000]].concat());
    }
}

#[test]
fn input_is_longer_than_any_file() {
    let limits = repository::bytes("samples/limits.net");
    assert_eq!(limits.len(), LONGEST);
    for length in [LONGEST + 1, LONGEST + 7, READ - 1, READ, READ + 1] {
        let mut longer = limits.clone();
        longer.resize(length, b'E');
        hold(&format!("limits followed by bytes, {length} in all"), &longer);
    }
    let random = &mut Random::new(0);
    let noise: Vec<u8> = (0..300_000).map(|_| random.below(256) as u8).collect();
    hold("300,000 random bytes", &noise);
    for (lines, starts) in [(8_192, 17), (8_193, 16), (50_000, 16), (0, 75_000)] {
        let file = packed(1_024, 16, &vec![0; 2 * lines], &vec![0; starts]);
        hold(&format!("a file of {lines} lines and {starts} starts"), &file);
    }
}

#[test]
fn input_comes_in_pieces() {
    for (name, file) in samples() {
        for piece in [1, 7, 4_096] {
            for (program, right) in PROGRAMS {
                hold_program(&format!("{name} in pieces of {piece} bytes"), program, &file, piece, &right(&file));
            }
        }
    }
}
