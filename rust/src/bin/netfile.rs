//! `network-file`: between a plain text list of a network and the file that `keep` and `weak` read.
//!
//! ```text
//! network-file pack   < x.txt > x.net     the file of a text list
//! network-file unpack < x.net > x.txt     the text list of a file
//! network-file keep   < x.net             what `keep` writes of a file
//! network-file weak   < x.net             what `weak` writes of a file
//! network-file draw STATIONS LINES LEVEL SEED > x.txt     a text list drawn from a seed
//! ```
//!
//! A text list has a line `stations N`, a line `level K`, `line A B` for each line of the network, and `start S` for
//! each round's starting station; # begins a comment.

use std::io::{Read, Write};
use std::process::ExitCode;
use tapuhzel::listing::{draw, pack, unpack, Mistake};
use tapuhzel::{keep_text, weak_text};

const USAGE: &str = "expected pack, unpack, keep, weak, or draw STATIONS LINES LEVEL SEED";

fn main() -> ExitCode {
    let arguments: Vec<String> = std::env::args().skip(1).collect();
    let written = answer(&arguments).and_then(|bytes| {
        let written = std::io::stdout().write_all(&bytes);
        written.map_err(|error| format!("standard output: {error}"))
    });
    match written {
        Ok(()) => ExitCode::SUCCESS,
        Err(message) => {
            eprintln!("network-file: {message}");
            ExitCode::FAILURE
        }
    }
}

/// What is to be written for the arguments, or what is wrong.
fn answer(arguments: &[String]) -> Result<Vec<u8>, String> {
    let words: Vec<&str> = arguments.iter().map(String::as_str).collect();
    let said = |mistake: Mistake| mistake.to_string();
    match words[..] {
        ["pack"] => pack(&input_text()?).map_err(said),
        ["unpack"] => unpack(&input()?).map(String::into_bytes).map_err(said),
        ["keep"] => Ok(keep_text(&input()?).into_bytes()),
        ["weak"] => Ok(weak_text(&input()?).into_bytes()),
        ["draw", stations, lines, level, seed] => {
            let text = draw(number(stations)?, number(lines)?, number(level)?, number(seed)?);
            text.map(String::into_bytes).map_err(said)
        }
        _ => Err(USAGE.to_string()),
    }
}

fn number<T: std::str::FromStr>(text: &str) -> Result<T, String> {
    text.parse().map_err(|_| format!("expected a number that fits, found '{text}'; {USAGE}"))
}

fn input() -> Result<Vec<u8>, String> {
    let mut bytes = Vec::new();
    let read = std::io::stdin().read_to_end(&mut bytes);
    read.map(|_| bytes).map_err(|error| format!("standard input: {error}"))
}

fn input_text() -> Result<String, String> {
    String::from_utf8(input()?).map_err(|_| "expected a text list, found bytes that are no UTF-8".to_string())
}
