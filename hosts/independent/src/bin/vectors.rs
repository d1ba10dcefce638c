//! `vectors FILE [BRIDGE]`: compares every `call` and `listing` line of a vectors file with the independent answers, or
//! with those of the library behind a bridge. An entry is named short (`sets`, and the polygon asked for as a number) or as
//! it is exported (`sheet_owner_sets`, and what is asked as NAME=NUMBER,.. of `mode`, `way` and `polygon`, or `-`; an index as
//! `index=` and its bytes); the room is a number, `-` where no bytes are lent. Prints each difference and last `N passed, M failed`; the exit status is 1 if any failed.

use independent::bridge::{start, Call, Function, Room};
use independent::entries::{fit, Entry, Input, Lent, Success};
use independent::listing::LONGEST_INPUT;
use independent::Refusal;
use std::io::{BufReader, Write};
use std::process::{Child, ChildStdin, ChildStdout, ExitCode};

fn main() -> ExitCode {
    let words: Vec<String> = std::env::args().skip(1).collect();
    let path = words.first().expect("usage: vectors FILE [BRIDGE]");
    let mut answers = words.get(1).map(|bridge| Pipes::of(start(bridge)));
    let text = std::fs::read_to_string(path).expect("the vectors file can be read");
    let (mut name, mut input) = (String::new(), Vec::new());
    let (mut passed, mut failed) = (0, 0);
    for line in text.lines() {
        let words: Vec<&str> = line.split_whitespace().collect();
        let (call, given, index) = match words[..] {
            ["input", new_name, hex] => {
                (name, input) = (new_name.to_string(), unhex(hex));
                continue;
            }
            ["call", entry, asked, room, packed, output] => {
                (call(&name, entry, asked, room, packed, output), &input[..], lent(asked))
            }
            ["listing", hex] => (listing(&name, hex), &input[..input.len().min(LONGEST_INPUT)], None),
            [] => continue,
            _ => panic!("unknown line {line}"),
        };
        match difference(&call, given, index.as_deref(), &mut answers) {
            None => passed += 1,
            Some(difference) => {
                failed += 1;
                println!("{}: {difference}", call.name());
            }
        }
    }
    println!("{passed} passed, {failed} failed");
    ExitCode::from(u8::from(failed > 0))
}

/// A bridge's input and output.
struct Pipes {
    frames: ChildStdin,
    answers: BufReader<ChildStdout>,
}

impl Pipes {
    fn of(child: Child) -> Pipes {
        let answers = BufReader::new(child.stdout.expect("the bridge's output"));
        Pipes { frames: child.stdin.expect("the bridge's input"), answers }
    }
}

/// The difference of the answer from the call's line, if any: the bridge's, or the independent one.
fn difference(call: &Call, input: &[u8], index: Option<&[u8]>, pipes: &mut Option<Pipes>) -> Option<String> {
    if let Some(Pipes { frames, answers }) = pipes {
        let framed = index.map(|index| [&(input.len() as u32).to_le_bytes()[..], input, index].concat());
        frames.write_all(&call.frame(framed.as_deref().unwrap_or(input))).expect("the bridge takes a frame");
        return call.difference(answers);
    }
    let Room::Lent(room) = call.room else { panic!("a line has a room") };
    let input = Input::new(input);
    let got = match (call.function, index) {
        (Function::Entry(Entry::OwnerSetsIndexed(_, mode)), Some(index)) => {
            input.with_index(index, mode, Entry::OwnerSetsBy(mode))
        }
        (Function::Entry(Entry::OwnersIndexed(_, mode, way)), Some(index)) => {
            input.with_index(index, mode, Entry::OwnersBy(mode, way))
        }
        (Function::Entry(Entry::BoundaryIndexed(_, mode, way, polygon)), Some(index)) => {
            input.with_index(index, mode, Entry::BoundaryBy(mode, way, polygon))
        }
        (Function::Entry(Entry::RingsIndexed(_, mode, way, polygon)), Some(index)) => {
            input.with_index(index, mode, Entry::Rings(mode, way, polygon))
        }
        _ => call.function.whole(&input),
    };
    let got = fit(got, room);
    (got != call.expected).then(|| format!("file {:?}, independent {got:?}", call.expected))
}

/// The bytes of a hexadecimal word; '.' stands for none.
fn unhex(hex: &str) -> Vec<u8> {
    let hex = if hex == "." { "" } else { hex };
    let byte = |at: usize| u8::from_str_radix(&hex[at..at + 2], 16).expect("hexadecimal digits");
    (0..hex.len()).step_by(2).map(byte).collect()
}

/// The number of this name among what is asked.
fn number(asked: &str, name: &str) -> u32 {
    let mut words = asked.split(',').filter_map(|word| word.split_once('='));
    let (_, number) = words.find(|(word, _)| *word == name).unwrap_or_else(|| panic!("no {name} in {asked}"));
    number.parse().unwrap_or_else(|_| panic!("no number in {asked}"))
}

/// The index among what is asked, if any.
fn lent(asked: &str) -> Option<Vec<u8>> {
    asked.split(',').find_map(|word| word.strip_prefix("index=")).map(unhex)
}

fn entry(name: &str, asked: &str) -> Entry {
    let [mode, way, polygon] = ["mode", "way", "polygon"].map(|name| move || number(asked, name));
    match name {
        "numbers" | "sheet_numbers" => Entry::Numbers,
        "write" | "sheet_write" => Entry::Write,
        "sets" | "sheet_owner_sets" => Entry::OwnerSets,
        "owners" | "sheet_owners" => Entry::Owners,
        "boundary" => Entry::Boundary(asked.parse().expect("a polygon's number")),
        "sheet_boundary" => Entry::Boundary(polygon()),
        "sheet_listing" => Entry::Listing,
        "sheet_position" => Entry::Position(mode()),
        "sheet_numbers_by" => Entry::NumbersBy(mode()),
        "sheet_areas" => Entry::Areas(mode()),
        "sheet_owner_sets_by" => Entry::OwnerSetsBy(mode()),
        "sheet_owners_by" => Entry::OwnersBy(mode(), way()),
        "sheet_boundary_by" => Entry::BoundaryBy(mode(), way(), polygon()),
        "sheet_rings" => Entry::Rings(mode(), way(), polygon()),
        "sheet_ring_room" => Entry::RingRoom(mode(), way(), polygon()),
        "sheet_listing_by" => Entry::ListingBy(mode(), way()),
        "sheet_write_blob" => Entry::WriteBlob,
        "sheet_index" => Entry::Index(mode()),
        "sheet_owner_sets_indexed" => Entry::OwnerSetsIndexed(Lent::Own, mode()),
        "sheet_owners_indexed" => Entry::OwnersIndexed(Lent::Own, mode(), way()),
        "sheet_boundary_indexed" => Entry::BoundaryIndexed(Lent::Own, mode(), way(), polygon()),
        "sheet_rings_indexed" => Entry::RingsIndexed(Lent::Own, mode(), way(), polygon()),
        _ => panic!("unknown entry {name}"),
    }
}

/// The call of a `call` line.
fn call(input: &str, name: &str, asked: &str, room: &str, packed: &str, output: &str) -> Call {
    let packed: u64 = packed.parse().expect("a packed answer");
    let expected = match output.strip_prefix('=') {
        Some(hex) => Ok(Success { item: packed / 256, bytes: unhex(hex) }),
        None => Err(Refusal::new((packed % 256) as u8, packed / 256)),
    };
    let room = if room == "-" { 0 } else { room.parse().expect("a number of lent bytes") };
    Call { input: input.to_string(), function: Function::Entry(entry(name, asked)), room: Room::Lent(room), expected }
}

/// The call of a `listing` line, with more room than it needs.
fn listing(input: &str, hex: &str) -> Call {
    let bytes = unhex(hex);
    let expected = Ok(Success { item: bytes.len() as u64, bytes });
    let function = Function::Entry(Entry::Listing);
    Call { input: input.to_string(), function, room: Room::Lent(7_000), expected }
}
