//! Links the proved static library, and has `rt` build it first where it is not there or older than its sources. Also
//! writes the wrong programs that the comparison is tried on: the second program with one edit each.
mod built;

use std::path::Path;
use std::{env, fs};

fn main() {
    let package = Path::new(env!("CARGO_MANIFEST_DIR"));
    link_library(package.parent().expect("the crate stands in the repository"));
    let edits = fs::read_to_string(package.join("tests/comparison/edits.txt")).unwrap_or_default();
    write_wrong_programs(&package.join("src/second"), &parse(&edits));
}

fn link_library(top: &Path) {
    built::bring_up_to_date(top, "target/staticlib/libtapuhzel.a", "", &["bash", "tools/staticlib"]);
    let folder = top.join("target/staticlib");
    println!("cargo:rerun-if-changed={}", folder.join("libtapuhzel.a").display());
    for source in built::sources(top) {
        println!("cargo:rerun-if-changed={}", source.display());
    }
    println!("cargo:rustc-link-search=native={}", folder.display());
    println!("cargo:rustc-link-lib=static=tapuhzel");
}

/// The modules of the second program.
const MODULES: [&str; 12] =
    ["check", "copy", "file", "joined", "judge", "kinds", "neighbours", "prune", "request", "text", "unite", "weak"];

/// An error, as an edit of one module of the second program.
struct Edit {
    name: String,
    module: String,
    right: String,
    wrong: String,
}

/// The edits of a text; an empty line ends each.
fn parse(text: &str) -> Vec<Edit> {
    let parts = text.split("\n\n").filter(|part| !part.starts_with('#'));
    parts
        .map(|part| {
            let (name, module) = part.lines().next().and_then(|line| line.split_once(' ')).unwrap_or((part, ""));
            let lines = |sign| part.lines().filter_map(|line| line.strip_prefix(sign)).collect::<Vec<_>>().join("\n");
            Edit { name: name.to_string(), module: module.to_string(), right: lines("- "), wrong: lines("+ ") }
        })
        .collect()
}

/// Writes broken.rs: a module for each edit, and a list of the programs that they make.
fn write_wrong_programs(second: &Path, edits: &[Edit]) {
    let programs: String = edits.iter().map(|edit| wrong_program(second, edit)).collect();
    let list: String = edits.iter().map(|edit| format!("(\"{0}\", program!({0})), ", edit.name)).collect();
    let all = format!("{programs}pub fn programs() -> Vec<(&'static str, Program)> {{\n    vec![{list}]\n}}\n");
    let folder = env::var("OUT_DIR").expect("cargo sets OUT_DIR");
    fs::write(Path::new(&folder).join("broken.rs"), all).expect("OUT_DIR can be written");
    println!("cargo:rerun-if-changed={}", second.display());
    println!("cargo:rerun-if-changed=tests/comparison/edits.txt");
    println!("cargo:rerun-if-changed=build.rs");
}

/// The edited module beside the right ones of the second program. A request is judged for another module, which then
/// stands beside it.
fn wrong_program(second: &Path, edit: &Edit) -> String {
    let written = match edit.module.as_str() {
        "request" => vec!["request", "file"],
        module => vec![module],
    };
    let used: Vec<&str> = MODULES.into_iter().filter(|module| !written.contains(module)).collect();
    let used = format!("pub use tapuhzel::second::{{{}}};\n", used.join(", "));
    let modules: String = written.into_iter().map(|module| module_text(second, edit, module)).collect();
    format!("#[allow(warnings, clippy::all)]\nmod {} {{\n{used}{modules}}}\n", edit.name)
}

/// A module's text, edited where the edit is of this one. An edit that does not fit is an error, but only of the
/// comparison.
fn module_text(second: &Path, edit: &Edit, module: &str) -> String {
    let mut text = fs::read_to_string(second.join(module).with_extension("rs")).unwrap_or_default();
    if edit.module == module {
        if text.matches(&edit.right).count() != 1 {
            return format!("compile_error!(\"the edit {} does not fit {module}.rs\");\n", edit.name);
        }
        text = text.replace(&edit.right, &edit.wrong);
    }
    format!("pub mod {module} {{\n{text}}}\n")
}
