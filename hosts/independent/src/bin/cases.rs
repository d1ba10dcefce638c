//! `cases FOLDER`: writes to a folder each sheet that was made by hand, as NAME.wkb, and each blob, as NAME.gpb, the name saying what
//! it tries.

use independent::cases::all;
use std::path::PathBuf;

fn main() {
    let folder = PathBuf::from(std::env::args_os().nth(1).expect("usage: cases FOLDER"));
    std::fs::create_dir_all(&folder).expect("the folder can be made");
    for case in all().into_iter().filter(|case| case.is_sheet() || case.is_blob()) {
        let end = if case.is_blob() { ".gpb" } else { ".wkb" };
        std::fs::write(folder.join(case.name + end), case.input).expect("the file can be written");
    }
}
