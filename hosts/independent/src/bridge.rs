//! Calls of the library that stands behind a bridge, a program on the other side of two pipes.
//!
//! A call is the frame u8 function (by its place in `NAMES`), u32 mode, u32 way, u32 polygon, u32 input length, u32 room, then
//! the input, all little-endian. What a function isn't asked for is 0. The bridge calls the entry with so much room, and answers
//! u64 packed answer and exactly `room` bytes: the lent bytes after the call, where lent byte i was (i * 131 + 17) % 256 before
//! it. Before the input of a point's call stand its x and y, i32 each, and count with it. Where an index is lent, the input is a u32 length, so many bytes of the sheet, and then the index.
//!
//! A room of 2^32 - 1 asks for the bridge's wrapper, whose room is its own. The bridge answers u64 packed answer, put
//! together from what the wrapper says; u32 length; and so many bytes, the wrapper's value turned back to bytes, none for a
//! refusal. The wrapper alone has a verdict: its item is 0 and its value one byte, 0 for clean and 1 for repair. A wrapper is
//! asked in known modes and ways only; its functions without a mode are called where a verdict, a position
//! or areas have mode 0, or a point, rings or their room are asked for in mode 0 and way 0.
//!
//! Frames may come without waiting for answers; a bridge that has no frame left to take must have flushed its answers.

use crate::entries::{packed, Entry, Input, Lent, Success};
use crate::Refusal;
use std::io::Read;
use std::process::{Child, Command, Stdio};

/// The functions' names, by the numbers that they have in a frame.
pub const NAMES: [&str; 23] = [
    "numbers",
    "write",
    "owner sets",
    "owners",
    "boundary",
    "listing",
    "verdict",
    "position",
    "numbers in a mode",
    "owner sets in a mode",
    "owners in a mode",
    "boundary in a mode",
    "listing in a mode",
    "write blob",
    "areas",
    "at a point",
    "index",
    "owner sets with an index",
    "owners with an index",
    "boundary with an index",
    "rings",
    "rings with an index",
    "ring room",
];

/// What is called.
#[derive(Clone, Copy, PartialEq, Eq, Debug)]
pub enum Function {
    /// An entry, with what is asked for.
    Entry(Entry),
    /// A wrapper's verdict in the mode of this number.
    Verdict(u32),
}

/// What a function takes.
#[derive(Clone, Copy, PartialEq, Eq, Debug)]
pub enum Takes {
    /// A sheet.
    Sheet,
    /// A sheet's numbers.
    Numbers,
    /// A blob.
    Blob,
    /// A blob's numbers.
    BlobNumbers,
}

impl Takes {
    /// All of them, in this order.
    pub const ALL: [Takes; 4] = [Takes::Sheet, Takes::Numbers, Takes::Blob, Takes::BlobNumbers];
}

impl Function {
    /// The function's number in a frame, and the mode, the way and the polygon asked for.
    fn numbers(self) -> (usize, [u32; 3]) {
        match self {
            Function::Entry(Entry::Numbers) => (0, [0; 3]),
            Function::Entry(Entry::Write) => (1, [0; 3]),
            Function::Entry(Entry::OwnerSets) => (2, [0; 3]),
            Function::Entry(Entry::Owners) => (3, [0; 3]),
            Function::Entry(Entry::Boundary(polygon)) => (4, [0, 0, polygon]),
            Function::Entry(Entry::Listing) => (5, [0; 3]),
            Function::Verdict(mode) => (6, [mode, 0, 0]),
            Function::Entry(Entry::Position(mode)) => (7, [mode, 0, 0]),
            Function::Entry(Entry::NumbersBy(mode)) => (8, [mode, 0, 0]),
            Function::Entry(Entry::OwnerSetsBy(mode)) => (9, [mode, 0, 0]),
            Function::Entry(Entry::OwnersBy(mode, way)) => (10, [mode, way, 0]),
            Function::Entry(Entry::BoundaryBy(mode, way, polygon)) => (11, [mode, way, polygon]),
            Function::Entry(Entry::ListingBy(mode, way)) => (12, [mode, way, 0]),
            Function::Entry(Entry::WriteBlob) => (13, [0; 3]),
            Function::Entry(Entry::Areas(mode)) => (14, [mode, 0, 0]),
            Function::Entry(Entry::At(mode, way, ..)) => (15, [mode, way, 0]),
            Function::Entry(Entry::Index(mode)) => (16, [mode, 0, 0]),
            Function::Entry(Entry::OwnerSetsIndexed(_, mode)) => (17, [mode, 0, 0]),
            Function::Entry(Entry::OwnersIndexed(_, mode, way)) => (18, [mode, way, 0]),
            Function::Entry(Entry::BoundaryIndexed(_, mode, way, polygon)) => (19, [mode, way, polygon]),
            Function::Entry(Entry::Rings(mode, way, polygon)) => (20, [mode, way, polygon]),
            Function::Entry(Entry::RingsIndexed(_, mode, way, polygon)) => (21, [mode, way, polygon]),
            Function::Entry(Entry::RingRoom(mode, way, polygon)) => (22, [mode, way, polygon]),
        }
    }

    /// The bytes that stand before the input: a point's x and y.
    fn point(self) -> Vec<u8> {
        match self {
            Function::Entry(Entry::At(_, _, x, y)) => [x, y].map(i32::to_le_bytes).concat(),
            _ => Vec::new(),
        }
    }

    /// The entry of this number in a frame, asked in this mode and way and for this polygon or point, if the function is an entry.
    pub fn entry(number: usize, [mode, way, polygon]: [u32; 3], (x, y): (i32, i32)) -> Option<Entry> {
        let plain = [Entry::Numbers, Entry::Write, Entry::WriteBlob, Entry::OwnerSets, Entry::Owners, Entry::Listing];
        let asked = [
            Entry::Boundary(polygon),
            Entry::Position(mode),
            Entry::NumbersBy(mode),
            Entry::Areas(mode),
            Entry::OwnerSetsBy(mode),
            Entry::OwnersBy(mode, way),
            Entry::BoundaryBy(mode, way, polygon),
            Entry::Rings(mode, way, polygon),
            Entry::RingRoom(mode, way, polygon),
            Entry::ListingBy(mode, way),
            Entry::At(mode, way, x, y),
            Entry::Index(mode),
        ];
        let mut entries = plain.into_iter().chain(asked);
        entries.find(|entry| Function::Entry(*entry).numbers().0 == number)
    }

    /// The index that it is lent, if any, with the mode.
    pub fn lent(self) -> Option<(Lent, u32)> {
        match self {
            Function::Entry(Entry::OwnerSetsIndexed(lent, mode)) => Some((lent, mode)),
            Function::Entry(Entry::OwnersIndexed(lent, mode, _)) => Some((lent, mode)),
            Function::Entry(Entry::BoundaryIndexed(lent, mode, ..)) => Some((lent, mode)),
            Function::Entry(Entry::RingsIndexed(lent, mode, ..)) => Some((lent, mode)),
            _ => None,
        }
    }

    /// The input of its frame: where an index is lent, the length of the sheet, the sheet and the index.
    pub fn input(self, bytes: &[u8], input: &Input) -> Vec<u8> {
        match self.lent() {
            Some((lent, mode)) => [&(bytes.len() as u32).to_le_bytes()[..], bytes, &input.lent(lent, mode)].concat(),
            None => bytes.to_vec(),
        }
    }

    /// What it takes.
    pub fn takes(self) -> Takes {
        match (self, self.numbers().1[0]) {
            (Function::Entry(Entry::Write), _) => Takes::Numbers,
            (Function::Entry(Entry::WriteBlob), _) => Takes::BlobNumbers,
            (_, 2 | 3) => Takes::Blob,
            _ => Takes::Sheet,
        }
    }

    /// The right answer if there is room enough.
    pub fn whole(self, input: &Input) -> Result<Success, Refusal> {
        match self {
            Function::Entry(entry) => input.whole(entry),
            Function::Verdict(mode) => {
                let clean = input.judged_by(mode)?.owners.iter().all(|set| set.count_ones() == 1);
                Ok(Success { item: 0, bytes: vec![u8::from(!clean)] })
            }
        }
    }
}

/// Whether the function of this number takes a point, whose x and y stand before the input; and the point, and the input itself.
pub fn with_point(number: usize, input: &[u8]) -> ((i32, i32), &[u8]) {
    if number != Function::Entry(Entry::At(0, 0, 0, 0)).numbers().0 {
        return ((0, 0), input);
    }
    let (point, input) = input.split_at(8);
    let [x, y] = [0, 4].map(|at| i32::from_le_bytes(point[at..at + 4].try_into().unwrap()));
    ((x, y), input)
}

/// The room of a call.
#[derive(Clone, Copy, PartialEq, Eq, Debug)]
pub enum Room {
    /// So many lent bytes.
    Lent(usize),
    /// The wrapper's own.
    Own,
}

/// A call and what is to come of it.
pub struct Call {
    /// What stands for the call's input in a message.
    pub input: String,
    /// What is called.
    pub function: Function,
    /// The room that it has.
    pub room: Room,
    /// The right answer with this room.
    pub expected: Result<Success, Refusal>,
}

impl Call {
    /// The function's number in a frame.
    pub fn number(&self) -> usize {
        self.function.numbers().0
    }

    /// The packed answer.
    pub fn packed(&self) -> u64 {
        self.expected.as_ref().map_or_else(|refusal| packed(*refusal), |success| success.item * 256)
    }

    /// The code of the answer; where a position is told, the code that is told with it.
    pub fn code(&self) -> u64 {
        match (self.function, &self.expected) {
            (Function::Entry(Entry::Position(_)), Ok(success)) => u64::from(success.bytes[0]),
            _ => self.packed() % 256,
        }
    }

    /// What stands for the call in a message.
    pub fn name(&self) -> String {
        let (number, [mode, way, polygon]) = self.function.numbers();
        let point = match self.function {
            Function::Entry(Entry::At(_, _, x, y)) => format!(" at {x},{y}"),
            _ => String::new(),
        };
        let lent = self.function.lent().map_or(String::new(), |(lent, _)| format!(" {lent:?}"));
        let asked = format!("mode {mode} way {way} polygon {polygon}{point}{lent}");
        format!("{} {} {asked} room {:?}", self.input, NAMES[number], self.room)
    }

    /// The frame with this input.
    pub fn frame(&self, input: &[u8]) -> Vec<u8> {
        let (number, asked) = self.function.numbers();
        let room = match self.room {
            Room::Lent(room) => room as u32,
            Room::Own => u32::MAX,
        };
        let point = self.function.point();
        let mut frame = vec![number as u8];
        for part in asked.into_iter().chain([(point.len() + input.len()) as u32, room]) {
            frame.extend(part.to_le_bytes());
        }
        frame.extend(point);
        frame.extend(input);
        frame
    }

    /// Reads the bridge's answer: the difference from the right one, if any.
    pub fn difference(&self, answers: &mut impl Read) -> Option<String> {
        let (answer, bytes) = match self.answer(answers) {
            Ok(answer) => answer,
            Err(error) => return Some(format!("no answer from the bridge: {error}")),
        };
        if answer != self.packed() {
            return Some(format!("the bridge answers {}, right is {}", shown(answer), shown(self.packed())));
        }
        let written = self.expected.as_ref().map_or(&[][..], |success| &success.bytes);
        if self.room == Room::Own && bytes.len() != written.len() {
            return Some(format!("{}, {} bytes, right are {}", shown(answer), bytes.len(), written.len()));
        }
        let untouched = (written.len()..bytes.len()).map(before_call);
        let right = written.iter().copied().chain(untouched);
        let place = bytes.iter().copied().zip(right).position(|(got, right)| got != right)?;
        let what = if place < written.len() { "written" } else { "to be left alone" };
        Some(format!("{}, byte {place} ({what}) is {}", shown(answer), bytes[place]))
    }

    /// The packed answer, and the lent bytes or the wrapper's value.
    fn answer(&self, answers: &mut impl Read) -> std::io::Result<(u64, Vec<u8>)> {
        let mut answer = [0; 8];
        answers.read_exact(&mut answer)?;
        let length = match self.room {
            Room::Lent(room) => room,
            Room::Own => {
                let mut length = [0; 4];
                answers.read_exact(&mut length)?;
                u32::from_le_bytes(length) as usize
            }
        };
        let mut bytes = vec![0; length];
        answers.read_exact(&mut bytes)?;
        Ok((u64::from_le_bytes(answer), bytes))
    }
}

fn shown(packed: u64) -> String {
    format!("code {} item {}", packed % 256, packed / 256)
}

/// What lent byte i is before the call.
pub fn before_call(i: usize) -> u8 {
    (i.wrapping_mul(131).wrapping_add(17) % 256) as u8
}

/// Starts a bridge: a program, with its arguments if there are blanks.
pub fn start(bridge: &str) -> Child {
    let mut words = bridge.split_whitespace();
    let program = words.next().expect("the bridge is a program");
    let mut command = Command::new(program);
    command.args(words).stdin(Stdio::piped()).stdout(Stdio::piped());
    command.spawn().expect("the bridge starts")
}
