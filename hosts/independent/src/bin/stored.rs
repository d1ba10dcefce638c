//! `stored --write`, `stored --check`, at the repository's root: writes the files that this program makes, or compares them with
//! what they are to hold, and prints last `N passed, M failed`; the exit status is 1 if any failed.

use independent::stored::{files, strangers};
use std::path::Path;
use std::process::ExitCode;

fn main() -> ExitCode {
    let root = Path::new(".");
    match std::env::args().nth(1).as_deref() {
        Some("--write") => write(root),
        Some("--check") => check(root),
        _ => panic!("usage: stored --write | --check"),
    }
}

fn write(root: &Path) -> ExitCode {
    for (path, content) in files(root) {
        std::fs::write(root.join(path), content).expect("the file can be written");
    }
    ExitCode::SUCCESS
}

fn check(root: &Path) -> ExitCode {
    let files = files(root);
    let wrong = files.iter().filter(|(path, content)| std::fs::read(root.join(path)).ok().as_ref() != Some(content));
    let wrong: Vec<&Path> = wrong.map(|(path, _)| path.as_path()).collect();
    let strangers = strangers(root);
    wrong.iter().for_each(|path| println!("{}: not as computed", path.display()));
    strangers.iter().for_each(|path| println!("{}: no case makes it", path.display()));
    let failed = wrong.len() + strangers.len();
    println!("{} passed, {failed} failed", files.len() - wrong.len());
    ExitCode::from(u8::from(failed > 0))
}
