//! `answers MODE WAY FILE..`: prints for each file its verdict in the mode of this number, `clean`, `repair` or `refused` code item,
//! with the position behind it where reading refuses, then the listing of the whole file in this way, then an empty line.

use independent::bridge::Function;
use independent::entries::{Entry, Input};
use independent::reading::{read_in, Mode};
use independent::Refusal;
use std::io::Write;
use std::path::Path;

fn main() {
    let mut out = std::io::BufWriter::new(std::io::stdout().lock());
    let mut words = std::env::args_os().skip(1);
    let mut number =
        || words.next().and_then(|word| word.to_str()?.parse().ok()).expect("usage: answers MODE WAY FILE..");
    let (mode, way) = (number(), number());
    for path in words {
        let bytes = std::fs::read(&path).unwrap_or_else(|error| panic!("{}: {error}", Path::new(&path).display()));
        let input = Input::new(&bytes);
        let verdict = match Function::Verdict(mode).whole(&input) {
            Ok(success) if success.bytes == [0] => String::from("clean"),
            Ok(_) => String::from("repair"),
            Err(refusal) => refused(mode, &bytes, refusal),
        };
        let listing =
            input.whole(Entry::ListingBy(mode, way)).expect("a listing is refused for want of room only").bytes;
        writeln!(out, "{verdict}")
            .and_then(|()| out.write_all(&listing))
            .and_then(|()| writeln!(out))
            .expect("the answer is written");
    }
    out.flush().expect("the answers are written");
}

/// A refusal in numbers, with its position where reading gives one of the codes 1 to 8.
fn refused(mode: u32, bytes: &[u8], Refusal { code, item }: Refusal) -> String {
    let fault = Mode::numbered(mode).ok().and_then(|mode| read_in(mode, bytes).err()).filter(|_| code <= 8);
    let position = fault.map_or(String::new(), |fault| format!(" {}", fault.position));
    format!("refused {code} {item}{position}")
}
