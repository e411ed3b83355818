//! docs/PROMISES.md, the map from each rule to what says it: every promise and every must-fail edit stands in it, and
//! every name that stands in it with its file is there.

mod repository;

use repository::{names, text};
use std::collections::BTreeSet;

fn map() -> String {
    text("docs/PROMISES.md")
}

/// The promises: each field of a record of the file that states them, as Record.field.
fn promises() -> Vec<String> {
    fields("crates/promises/specs/Promises.antt")
}

/// Each field of a file's records, as Record.field.
fn fields(file: &str) -> Vec<String> {
    let mut record = String::new();
    let mut promises = Vec::new();
    for line in text(file).lines() {
        if let Some(rest) = line.strip_prefix("pub record ") {
            record = rest.split(' ').next().unwrap_or_default().to_string();
        } else if let Some((field, _)) = line.strip_prefix("  pub ").and_then(|rest| rest.split_once(" :")) {
            promises.push(format!("{record}.{field}"));
        }
    }
    promises
}

#[test]
fn every_promise_is_in_the_map() {
    let (map, promises) = (map(), promises());
    assert!(promises.len() > 60, "only {} promises are found", promises.len());
    // What the record of all promises has of the others is told by their own fields.
    let told = |promise: &&String| !promise.starts_with("Promises.") || promise.ends_with(".examples");
    for promise in promises.iter().filter(told).chain(&fields("crates/promises/specs/Allowed.antt")) {
        assert!(map.contains(&format!("`{promise}`")), "docs/PROMISES.md does not name {promise}");
    }
}

#[test]
fn every_promise_of_the_map_is_stated() {
    let stated = [promises(), fields("crates/promises/specs/Allowed.antt")].concat();
    let records: BTreeSet<&str> = stated.iter().filter_map(|promise| Some(promise.split_once('.')?.0)).collect();
    let map = map();
    let named = map.split('`').filter(|word| word.split_once('.').is_some_and(|(record, _)| records.contains(record)));
    for name in named {
        assert!(stated.contains(&name.to_string()), "docs/PROMISES.md names {name}, which no record states");
    }
}

/// The names in front of each file that the map names in brackets, with that file.
fn named_in_files(map: &str) -> Vec<(String, String)> {
    let mut named = Vec::new();
    for (at, _) in map.match_indices("(`crates/") {
        let file = map[at + 2..].split('`').next().unwrap_or_default();
        let mut before = map[..at].trim_end();
        while let Some(rest) = before.strip_suffix('`') {
            let (front, name) = rest.rsplit_once('`').unwrap_or_default();
            named.push((name.to_string(), file.to_string()));
            before = front.trim_end().trim_end_matches(',').trim_end_matches(" and").trim_end();
        }
    }
    named
}

#[test]
fn every_name_of_the_map_is_in_its_file() {
    let named = named_in_files(&map());
    assert!(named.len() > 100, "only {} names are found", named.len());
    for (name, file) in named {
        assert!(declares(&text(&file), &name), "docs/PROMISES.md has {name} in {file}, which declares it not");
    }
}

/// Whether a text of Rattle or antt declares a name: a definition, a law, a function, a type.
fn declares(text: &str, name: &str) -> bool {
    let forms = ["record ", "data ", "fn ", "struct ", "enum "];
    let ends = |rest: &str| !rest.starts_with(|letter: char| letter.is_alphanumeric() || "_-'".contains(letter));
    text.lines().any(|line| {
        let line = line.trim_start();
        let law = ["", "pub ", "abbrev pub ", "unfoldable pub ", "abbrev ", "unfoldable "];
        let defined = law.iter().any(|form| line.strip_prefix(form).and_then(|rest| rest.strip_prefix(name)).is_some_and(|rest| rest.starts_with(" :")));
        defined || forms.iter().any(|form| line.split(form).nth(1).and_then(|rest| rest.strip_prefix(name)).is_some_and(ends))
    })
}

/// Each routine of the C face and the value of specs/Calls that all it leaves is equal to.
const CALLS: [(&str, &str); 11] = [
    ("judge", "judge_call"),
    ("prune", "prune_call"),
    ("check", "check_call"),
    ("copy", "copy_call"),
    ("unite", "unite_call"),
    ("joined", "joined_call"),
    ("weak", "weak_call"),
    ("read", "read_call"),
    ("write", "write_call"),
    ("keep_text", "text_call 524416 (keep_output"),
    ("weak_text", "text_call 256 (weak_output"),
];

#[test]
fn every_routine_of_the_c_face_has_its_contract() {
    let sources: String = names("crates/tapuhzel_c/src", ".rt").iter().map(|name| text(&format!("crates/tapuhzel_c/src/{name}.rt"))).collect();
    assert_eq!(sources.matches("pub extern \"C\" fn").count(), CALLS.len(), "the C face has other routines");
    for (routine, value) in CALLS {
        let declared = sources.split(&format!("fn tapuhzel_{routine}(")).nth(1).unwrap_or_default();
        let contract = declared.split("\n{\n").next().unwrap_or_default();
        assert!(contract.contains(&format!("≡ {value} ")), "tapuhzel_{routine} does not say that it leaves {value}");
    }
}

#[test]
fn every_edit_is_in_the_map() {
    let crates = std::fs::read_dir(repository::path("crates")).expect("there are crates").flatten();
    let edits = |name: String| match repository::path(&format!("crates/{name}/must-fail")).exists() {
        true => names(&format!("crates/{name}/must-fail"), ".edit").into_iter().map(|edit| format!("{name}/{edit}")).collect(),
        false => Vec::new(),
    };
    let tried: BTreeSet<String> = crates.flat_map(|entry| edits(entry.file_name().to_string_lossy().into_owned())).collect();
    let map = map();
    let section = map.split("## What each wrong program fails by").nth(1).expect("the map has its last section");
    let told: BTreeSet<String> =
        section.lines().filter_map(|line| line.strip_prefix("| ")?.split_once(" | ")).map(|(edit, _)| edit.to_string()).filter(|edit| edit.contains('/')).collect();
    assert_eq!(told, tried, "docs/PROMISES.md and crates/*/must-fail differ");
}
