//! The examples that the crate `sheet_written` proves, crates/sheet_written/specs/Examples.antt: for each list of numbers `NAME : List ℤ` of the
//! file, the bytes `NAME_bytes : List ℕ` that are written for them.

use crate::entries::{whole, Entry};

/// How long a line of numbers may be, in characters.
const WIDTH: usize = 140;

/// The file with each list of bytes as it is computed.
pub fn with_bytes(text: &str) -> String {
    let mut text = text.to_string();
    for (name, numbers) in numbers_of(&text) {
        let written = whole(Entry::Write, &numbers).unwrap_or_else(|_| panic!("{name} is written"));
        let name = format!("{name}_bytes");
        let body = body_of(&text, &name, "ℕ").unwrap_or_else(|| panic!("there is a {name}"));
        text = text.replace(body, &wrapped(written.bytes.iter().map(u8::to_string)));
    }
    text
}

/// The names of the lists of numbers, each with its numbers form.
fn numbers_of(text: &str) -> Vec<(String, Vec<u8>)> {
    let heads = text.lines().filter_map(|line| line.strip_prefix("abbrev pub ")?.strip_suffix(" : List ℤ"));
    let of = |name: &str| {
        let body = body_of(text, name, "ℤ").unwrap_or_else(|| panic!("{name} has numbers"));
        (name.to_string(), body.split('∷').filter_map(number).flat_map(i32::to_le_bytes).collect())
    };
    heads.map(of).collect()
}

/// What a definition stands for: the lines up to the next blank one.
fn body_of<'a>(text: &'a str, name: &str, of: &str) -> Option<&'a str> {
    let rest = text.split_once(&format!("abbrev pub {name} : List {of}\n{name} =\n"))?.1;
    rest.split("\n\n").next()
}

/// A number; none for the end of the list.
fn number(word: &str) -> Option<i32> {
    match word.split_whitespace().collect::<Vec<_>>()[..] {
        ["pos", digits] => Some(digits.parse().expect("digits")),
        ["negsuc", digits] => Some(-1 - digits.parse::<i32>().expect("digits")),
        ["[]"] => None,
        _ => panic!("a number is pos or negsuc: {word}"),
    }
}

/// The items as a list, in lines.
fn wrapped(items: impl Iterator<Item = String>) -> String {
    let mut lines = vec![String::from("   ")];
    for item in items {
        let line = lines.last_mut().unwrap();
        if line.chars().count() + item.len() + 4 > WIDTH {
            lines.push(format!("    {item} ∷"));
        } else {
            line.push_str(&format!(" {item} ∷"));
        }
    }
    lines.join("\n") + " []"
}
