//! `bench [TABLE..]`: times the library beside the independent program and beside a plain C++ program of the same rules (native.cpp, "native"), all in this one
//! process, and prints tables for docs/: of the tables `entries`, `native`, `hostile` and `growth` those that are named, or all. A figure is the least of
//! several rounds, by processor time. The answers of library and native are compared on every sheet that is measured.
//!
//! `bench compare [SEEDS PART]`: compares answers and times nothing, on so many generated inputs and one in so many of the large hostile sheets. The last line
//! is `N passed, M failed`; the exit status is 1 if any failed.
//!
//! `bench sheets FOLDER`: writes what is measured to a folder, each sheet as NAME.wkb.

mod compare;
mod hostile;
mod native;
mod tables;
mod timing;

use std::path::Path;
use std::process::ExitCode;

fn main() -> ExitCode {
    let words: Vec<String> = std::env::args().skip(1).collect();
    let words: Vec<&str> = words.iter().map(String::as_str).collect();
    let usage = "usage: bench [entries | native | hostile | growth].. | compare [SEEDS PART] | sheets FOLDER";
    match words[..] {
        ["compare"] => compare::compare(4_000, 1),
        ["compare", seeds, part] => compare::compare(seeds.parse().expect(usage), part.parse().expect(usage)),
        ["sheets", folder] => write(Path::new(folder)),
        [] => print(&tables::ALL.map(|(name, _)| name), usage),
        ref names => print(names, usage),
    }
}

/// Prints the tables of these names.
fn print(names: &[&str], usage: &str) -> ExitCode {
    let table = |name: &&str| tables::ALL.into_iter().find(|(known, _)| known == name).expect(usage).1;
    let tables: Vec<fn()> = names.iter().map(table).collect();
    for (place, table) in tables.into_iter().enumerate() {
        if place > 0 {
            println!();
        }
        table();
    }
    ExitCode::SUCCESS
}

/// Writes the hostile sheets, and those of the kinds that have one.
fn write(folder: &Path) -> ExitCode {
    std::fs::create_dir_all(folder).expect("the folder can be made");
    let hostile = hostile::family(hostile::FULL).into_iter().map(|hostile| (hostile.name, hostile.sheet));
    let single = tables::kinds().into_iter().filter(|(_, sheets)| sheets.len() == 1);
    let named = single.map(|(name, mut sheets)| (name.split(':').next().expect("a word").to_string(), sheets.remove(0)));
    for (name, sheet) in hostile.chain(named) {
        std::fs::write(folder.join(name + ".wkb"), sheet).expect("the file can be written");
    }
    ExitCode::SUCCESS
}
