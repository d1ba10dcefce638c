//! The files of the repository that this program makes: the stored input and output of the program entries_try, the sheets of
//! the folder examples/ with their listings, and the bytes of the examples that the crate `sheet_written` proves.

mod calls;
mod written;

use crate::cases::examples::shown;
use crate::listing::listing;
use std::collections::BTreeSet;
use std::path::{Path, PathBuf};

/// Each file, as a path below the repository's root, with what it is to hold. The examples of `sheet_written` are the file's own
/// numbers with the bytes that are computed for them.
pub fn files(root: &Path) -> Vec<(PathBuf, Vec<u8>)> {
    let (input, output) = calls::frames_and_lines();
    let mut files =
        vec![(PathBuf::from("crates/entries_try/stdin"), input), (PathBuf::from("crates/entries_try/stdout"), output)];
    for (name, sheet) in shown() {
        let sheet = sheet.bytes();
        let printed = listing(&sheet).into_bytes();
        files.push((format!("examples/{name}.wkb").into(), sheet));
        files.push((format!("examples/{name}.txt").into(), printed));
    }
    let path = PathBuf::from("crates/sheet_written/specs/Examples.antt");
    let text = std::fs::read_to_string(root.join(&path)).expect("the examples of `sheet_written` can be read");
    files.push((path, written::with_bytes(&text).into_bytes()));
    files
}

/// The sheets and listings in the folder examples/ that this program doesn't make.
pub fn strangers(root: &Path) -> Vec<PathBuf> {
    let made: BTreeSet<PathBuf> = files(root).into_iter().map(|(path, _)| path).collect();
    let entries = std::fs::read_dir(root.join("examples")).expect("the folder examples/ can be read");
    let names = entries.map(|entry| Path::new("examples").join(entry.expect("an entry of it").file_name()));
    let of_sheets = names.filter(|path| path.extension().is_some_and(|end| end == "wkb" || end == "txt"));
    of_sheets.filter(|path| !made.contains(path)).collect()
}
