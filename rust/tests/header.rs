//! The C face as its three sources declare it: the proved crate, the header for C and the boundary of Rust have the
//! same routines, with the same parameters in the same order, of the same names and kinds. No compiler sees two of
//! them at once, so that two results exchanged in one of them would go unseen.

mod repository;

use repository::{names, text};
use std::collections::BTreeSet;

/// Routines, each as Rust declares it, in one line.
type Routines = BTreeSet<String>;

/// A routine by its name, what stands in its brackets and the kind of its result.
fn routine(name: &str, given: &str, result: &str, parameter: fn(&str) -> String) -> String {
    let given = given.split(',').map(str::trim).filter(|given| !given.is_empty());
    let parameters: Vec<String> = given.map(parameter).collect();
    format!("{name}({}) -> {result}", parameters.join(", "))
}

/// The routines that a text of Rust or Rattle declares.
fn declared(text: &str, parameter: fn(&str) -> String) -> Routines {
    let read = |declaration: &str| {
        let (name, rest) = declaration.split_once('(')?;
        let (given, rest) = rest.split_once(") -> ")?;
        let result = rest.split(|letter: char| !letter.is_alphanumeric()).next()?;
        Some(routine(&format!("tapuhzel_{name}"), given, result, parameter))
    };
    text.split("fn tapuhzel_").skip(1).filter_map(read).collect()
}

/// The routines of the proved crate.
fn proved() -> Routines {
    let source = |name: String| text(&format!("crates/tapuhzel_c/src/{name}.rt"));
    names("crates/tapuhzel_c/src", ".rt").into_iter().flat_map(|name| declared(&source(name), from_rattle)).collect()
}

/// A parameter of Rattle as it crosses: a slice is a pointer and a length.
fn from_rattle(parameter: &str) -> String {
    let (name, kind) = parameter.split_once(": ").unwrap_or_else(|| panic!("no parameter: {parameter}"));
    let pointer = kind.replace("&mut ", "*mut ").replace("&[", "*const [");
    if pointer.contains('[') {
        format!("{name}: {}, {name}_len: usize", pointer.replace(['[', ']'], ""))
    } else {
        format!("{name}: {pointer}")
    }
}

/// The routines that a header declares: what ends with a semicolon, outside comments.
fn of_header(header: &str) -> Routines {
    let code: String = header.split("/*").map(|part| part.rsplit("*/").next().unwrap_or_default()).collect();
    let read = |declaration: &str| {
        let (head, given) = declaration.strip_suffix(')')?.split_once('(')?;
        let (result, name) = head.lines().last()?.split_once(' ')?;
        Some(routine(name, given, number(result), from_c))
    };
    code.split(';').filter_map(read).collect()
}

/// A parameter of C as Rust writes it.
fn from_c(parameter: &str) -> String {
    let (kind, name) = parameter.rsplit_once(' ').unwrap_or_else(|| panic!("no parameter: {parameter}"));
    match (kind.strip_prefix("const "), name.strip_prefix('*')) {
        (Some(kind), Some(name)) => format!("{name}: *const {}", number(kind)),
        (None, Some(name)) => format!("{name}: *mut {}", number(kind)),
        _ => format!("{name}: {}", number(kind)),
    }
}

/// A kind of numbers of C as Rust writes it.
fn number(kind: &str) -> &str {
    match kind {
        "size_t" => "usize",
        "uint8_t" => "u8",
        "uint16_t" => "u16",
        _ => panic!("{kind} is none of the kinds that cross"),
    }
}

#[test]
fn the_header_and_the_boundary_declare_what_is_proved() {
    let (header, boundary) = (text("include/tapuhzel.h"), text("rust/src/ffi.rs"));
    hold("include/tapuhzel.h", &of_header(&header));
    hold("rust/src/ffi.rs", &declared(&boundary, str::to_string));
}

/// Asks that a file declares every routine as it is proved, and no other.
fn hold(file: &str, declared: &Routines) {
    let proved = proved();
    assert!(!proved.is_empty(), "no routine is found in crates/tapuhzel_c");
    let lacking: Vec<&String> = proved.difference(declared).collect();
    let other: Vec<&String> = declared.difference(&proved).collect();
    assert!(lacking.is_empty() && other.is_empty(), "{file} has\n{other:#?}\nand not, as is proved,\n{lacking:#?}");
}

/// Mistakes in the header that a compiler takes.
const MISTAKES: [(&str, &str); 5] = [
    ("size_t *kept, size_t *place", "size_t *place, size_t *kept"),
    ("uint8_t *kind, uint8_t *round", "uint8_t *round, uint8_t *kind"),
    ("uint16_t one, uint16_t two, uint8_t *joined", "uint16_t one, uint16_t two, uint16_t *joined"),
    ("const uint8_t *bytes, size_t bytes_len, uint8_t *text", "uint8_t *bytes, size_t bytes_len, uint8_t *text"),
    ("uint8_t tapuhzel_copy(", "size_t tapuhzel_copy("),
];

#[test]
fn mistakes_in_the_header_are_seen() {
    let header = text("include/tapuhzel.h");
    for (right, wrong) in MISTAKES {
        assert!(header.contains(right), "{right} does not stand in the header");
        assert_ne!(of_header(&header.replace(right, wrong)), proved(), "{wrong}");
    }
}
