//! What `rt` builds, for whoever needs it: the build script, and the tests that run the programs.

use std::fs;
use std::path::{Path, PathBuf};
use std::process::{Command, Stdio};
use std::time::SystemTime;

/// Has a command run in a folder where a file is not there or older than the sources; folder and file are named from the
/// top of the repository. It gets no input; what went wrong it says on standard error.
pub fn bring_up_to_date(top: &Path, file: &str, folder: &str, words: &[&str]) {
    let sources = sources(top).iter().map(|path| last_written(path)).max();
    if Some(last_written(&top.join(file))) < sources {
        let mut command = Command::new(words[0]);
        command.args(&words[1..]).current_dir(top.join(folder)).stdin(Stdio::null()).stdout(Stdio::null());
        let built = command.status();
        assert!(matches!(built, Ok(status) if status.success()), "{} failed in {folder}/", words.join(" "));
    }
}

/// The sources: what stands in the folder of a crate, but for what `rt` leaves there.
pub fn sources(top: &Path) -> Vec<PathBuf> {
    let inside = |folder: &Path| fs::read_dir(folder).into_iter().flatten().flatten().map(|entry| entry.path());
    let all = inside(&top.join("crates")).flat_map(|folder| inside(&folder));
    all.filter(|path| !path.ends_with("out")).collect()
}

/// When a file, or the newest file below a folder, was written; long ago where there is none.
fn last_written(path: &Path) -> SystemTime {
    match fs::read_dir(path) {
        Ok(entries) => {
            entries.flatten().map(|entry| last_written(&entry.path())).max().unwrap_or(SystemTime::UNIX_EPOCH)
        }
        Err(_) => fs::metadata(path).and_then(|file| file.modified()).unwrap_or(SystemTime::UNIX_EPOCH),
    }
}
