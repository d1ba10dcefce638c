//! `owners_at MODE WAY X Y FILE..`: prints for each file, on a line of its own, who owns the point after repair in the mode and the way of these
//! numbers: `polygon` number, or `refused` code item, with the position behind it where reading refuses.

use independent::entries::{Entry, Input};
use independent::reading::{read_in, Mode};
use std::path::Path;

fn main() {
    let mut words = std::env::args_os().skip(1);
    let mut number = || -> i64 {
        words.next().and_then(|word| word.to_str()?.parse().ok()).expect("usage: owners_at MODE WAY X Y FILE..")
    };
    let (mode, way, x, y) = (number() as u32, number() as u32, number() as i32, number() as i32);
    for path in words {
        let bytes = std::fs::read(&path).unwrap_or_else(|error| panic!("{}: {error}", Path::new(&path).display()));
        match Input::new(&bytes).whole(Entry::At(mode, way, x, y)) {
            Ok(success) => println!("polygon {}", success.item),
            Err(refusal) => {
                let fault = Mode::numbered(mode).ok().and_then(|mode| read_in(mode, &bytes).err());
                let position =
                    fault.filter(|_| refusal.code <= 8).map_or(String::new(), |fault| format!(" {}", fault.position));
                println!("refused {} {}{position}", refusal.code, refusal.item);
            }
        }
    }
}
