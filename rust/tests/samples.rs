//! The networks of samples/: each text list packs to its file, and both programs say of it what is stored there.

mod repository;

use std::io::Write;
use std::process::{Command, Stdio};
use tapuhzel::listing::{draw, pack, unpack};
use tapuhzel::{keep_text, second, weak_text};

fn names() -> Vec<String> {
    repository::names("samples", ".net")
}

fn stored(file: &str) -> Vec<u8> {
    repository::bytes(&format!("samples/{file}"))
}

fn stored_text(file: &str) -> String {
    repository::text(&format!("samples/{file}"))
}

#[test]
fn texts_pack_to_their_files_and_back() {
    for name in names() {
        let packed = pack(&stored_text(&format!("{name}.txt"))).expect(&name);
        assert!(packed == stored(&format!("{name}.net")), "{name}");
        let unpacked = unpack(&packed).expect(&name);
        assert!(pack(&unpacked) == Ok(packed), "{name}");
    }
}

#[test]
fn both_programs_say_what_is_stored() {
    for name in names() {
        let file = stored(&format!("{name}.net"));
        let (keep, weak) = (stored_text(&format!("{name}.keep.txt")), stored_text(&format!("{name}.weak.txt")));
        assert_eq!((keep_text(&file), weak_text(&file)), (keep.clone(), weak.clone()), "{name}");
        assert_eq!((second::text::keep_text(&file), second::text::weak_text(&file)), (keep, weak), "{name}");
    }
}

#[test]
fn the_second_program_says_what_the_programs_are_held_to() {
    let held = |program: &str, text: fn(&[u8]) -> String| {
        let input = repository::bytes(&format!("crates/{program}/stdin"));
        assert_eq!(text(&input), repository::text(&format!("crates/{program}/stdout")), "{program}");
    };
    held("keep", second::text::keep_text);
    held("weak", second::text::weak_text);
}

#[test]
fn network_file_answers_or_names_the_mistake() {
    let ring = stored("ring.net");
    let run = |word: &str, input: &[u8]| run_network_file(&[word], input);
    assert_eq!(run("pack", &stored("ring.txt")), Ok(ring.clone()));
    assert_eq!(run("weak", &ring), Ok(stored("ring.weak.txt")));
    let ends_early = "network-file: refused 21 at 0: the file ends inside a record or before EN\n";
    assert_eq!(run("unpack", b"NW").unwrap_err(), ends_early);
    assert!(run("pack", &ring).unwrap_err().starts_with("network-file: text line 1: expected 'stations'"));
    assert!(run("prune", b"").unwrap_err().starts_with("network-file: expected pack"));
}

/// What the program writes, or what it says is wrong.
fn run_network_file(arguments: &[&str], input: &[u8]) -> Result<Vec<u8>, String> {
    let mut program = Command::new(env!("CARGO_BIN_EXE_network-file"))
        .args(arguments)
        .stdin(Stdio::piped())
        .stdout(Stdio::piped())
        .stderr(Stdio::piped())
        .spawn()
        .expect("the program starts");
    // A program that is done before it has read its input closes the pipe, which is no mistake.
    let _ = program.stdin.take().expect("the input is piped").write_all(input);
    let output = program.wait_with_output().expect("the program ends");
    if output.status.success() {
        Ok(output.stdout)
    } else {
        Err(String::from_utf8_lossy(&output.stderr).into_owned())
    }
}

#[test]
fn the_network_at_the_limits_is_drawn() {
    assert_eq!(draw(1_024, 8_192, 16, 7).expect("the limits can be drawn"), stored_text("limits.txt"));
}
