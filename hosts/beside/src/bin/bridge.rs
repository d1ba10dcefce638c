//! Calls the crate's safe functions, or those on lent bytes, as the frames of standard input say, for a program that has the
//! library on the other side of a pipe. `independent::bridge` has the frames.

use beside::call;
use independent::bridge::{before_call, with_point, Function};
use sheets::{areas, at, at_by, boundary, listing, numbers, owner_sets, owners, position, verdict, write, write_blob};
use sheets::{areas_by, boundary_by, listing_by, numbers_by, owner_sets_by, owners_by, position_by, verdict_by};
use sheets::{boundary_indexed, index, index_by, owner_sets_indexed, owners_indexed, ring_room, ring_room_by, rings, rings_by, rings_indexed};
use sheets::{Mode, Point, Position, Refusal, Sheet, Verdict, Way};
use std::io::{BufRead, BufReader, Read, Write};

/// The item and the value in bytes, or the refusal.
type Answer = Result<(u64, Vec<u8>), Refusal>;

/// The bytes of a frame before its input.
const HEAD: usize = 21;

fn main() {
    let mut frames = BufReader::with_capacity(1 << 16, std::io::stdin().lock());
    let mut answers = Vec::new();
    while !frames.fill_buf().expect("frames can be read").is_empty() {
        answers.extend(answer(&mut frames));
        if frames.buffer().is_empty() {
            let mut out = std::io::stdout().lock();
            out.write_all(&answers).and_then(|()| out.flush()).expect("answers can be written");
            answers.clear();
        }
    }
}

/// Takes a frame, and answers it in bytes.
fn answer(frames: &mut impl Read) -> Vec<u8> {
    let mut head = [0; HEAD];
    frames.read_exact(&mut head).expect("a whole frame");
    let number = |at: usize| u32::from_le_bytes(head[at..at + 4].try_into().unwrap());
    let asked = [1, 5, 9].map(number);
    let mut input = vec![0; number(13) as usize];
    frames.read_exact(&mut input).expect("a whole frame");
    let (point, input) = with_point(head[0].into(), &input);
    match number(17) {
        u32::MAX => own(typed(head[0], asked, point, input)),
        room => lent(head[0], asked, point, input, room as usize),
    }
}

/// The answer of a function on lent bytes, with these bytes after the call.
fn lent(function: u8, asked: [u32; 3], point: Point, input: &[u8], room: usize) -> Vec<u8> {
    let mut lent: Vec<u8> = (0..room).map(before_call).collect();
    let answer = match function {
        17..=19 | 21 => with_index(function, asked, input, &mut lent),
        _ => call(Function::entry(function.into(), asked, point).expect("an entry"), input, &mut lent),
    };
    [&packed(answer).to_le_bytes()[..], &lent].concat()
}

/// The answer of a function on lent bytes that takes an index.
fn with_index(function: u8, [mode, way, polygon]: [u32; 3], input: &[u8], out: &mut [u8]) -> Result<u64, Refusal> {
    let (sheet, index) = parted(input);
    match function {
        17 => sheets::lent::owner_sets_indexed(sheet, index, mode, out),
        18 => sheets::lent::owners_indexed(sheet, index, mode, way, out),
        19 => sheets::lent::boundary_indexed(sheet, index, mode, way, polygon, out),
        _ => sheets::lent::rings_indexed(sheet, index, mode, way, polygon, out),
    }
}

/// The sheet and the index of a frame's input.
fn parted(input: &[u8]) -> (&[u8], &[u8]) {
    let (length, rest) = input.split_at(4);
    rest.split_at(u32::from_le_bytes(length.try_into().unwrap()) as usize)
}

/// The answer of a function that has its own room.
fn own(answer: Answer) -> Vec<u8> {
    let (item, value) = match answer {
        Ok((item, value)) => (Ok(item), value),
        Err(refusal) => (Err(refusal), Vec::new()),
    };
    [&packed(item).to_le_bytes()[..], &(value.len() as u32).to_le_bytes(), &value].concat()
}

/// What a function with ordinary types answers.
fn typed(function: u8, [mode_number, way_number, polygon]: [u32; 3], point: Point, input: &[u8]) -> Answer {
    let (mode, way) = (mode(mode_number), way(way_number));
    match function {
        0 => numbers(input).map(|numbers| counted(bytes(&by_name(&numbers)))),
        1 => write(&whole_numbers(input)).map(counted),
        2 => owner_sets(input).map(of_sets),
        3 => owners(input).map(counted),
        4 => boundary(input, polygon).map(of_sides),
        5 => Ok(counted(listing(input).into_bytes())),
        6 if mode == Mode::Present => of_verdict(verdict(input)),
        6 => of_verdict(verdict_by(input, mode)),
        7 if mode == Mode::Present => Ok(of_position(position(input))),
        7 => Ok(of_position(position_by(input, mode))),
        8 => numbers_by(input, mode).map(|numbers| counted(bytes(&numbers))),
        9 => owner_sets_by(input, mode).map(of_sets),
        10 => owners_by(input, mode, way).map(counted),
        11 => boundary_by(input, mode, way, polygon).map(of_sides),
        12 => Ok(counted(listing_by(input, mode, way).into_bytes())),
        13 => write_blob(&whole_numbers(input)).map(counted),
        14 if mode == Mode::Present => areas(input).map(of_areas),
        14 => areas_by(input, mode).map(of_areas),
        15 if mode == Mode::Present && way == Way::Priority => at(input, point).map(of_owner),
        15 => at_by(input, mode, way, point).map(of_owner),
        16 if mode == Mode::Present => index(input).map(counted),
        16 => index_by(input, mode).map(counted),
        17..=19 | 21 => typed_indexed(function, parted(input), mode, way, polygon),
        20 if mode == Mode::Present && way == Way::Priority => rings(input, polygon).map(counted),
        20 => rings_by(input, mode, way, polygon).map(counted),
        22 if mode == Mode::Present && way == Way::Priority => ring_room(input, polygon).map(of_room),
        22 => ring_room_by(input, mode, way, polygon).map(of_room),
        function => panic!("there is no function {function}"),
    }
}

/// What a function with ordinary types answers that takes an index.
fn typed_indexed(function: u8, (sheet, index): (&[u8], &[u8]), mode: Mode, way: Way, polygon: u32) -> Answer {
    match function {
        17 => owner_sets_indexed(sheet, index, mode).map(of_sets),
        18 => owners_indexed(sheet, index, mode, way).map(counted),
        19 => boundary_indexed(sheet, index, mode, way, polygon).map(of_sides),
        _ => rings_indexed(sheet, index, mode, way, polygon).map(counted),
    }
}

/// The mode of this number.
fn mode(number: u32) -> Mode {
    match number {
        0 => Mode::Present,
        1 => Mode::Older,
        2 => Mode::Blob,
        3 => Mode::OlderBlob,
        _ => panic!("the crate has no mode {number}"),
    }
}

/// The way of this number.
fn way(number: u32) -> Way {
    match number {
        0 => Way::Priority,
        1 => Way::Longest,
        _ => panic!("the crate has no way {number}"),
    }
}

/// The numbers of a sheet by way of the sheet by name.
fn by_name(numbers: &[i32]) -> Vec<i32> {
    Sheet::from_numbers(numbers).expect("the numbers of a sheet").to_numbers()
}

fn of_sets(sets: Vec<u64>) -> (u64, Vec<u8>) {
    (sets.len() as u64, sets.iter().flat_map(|set| set.to_le_bytes()).collect())
}

fn of_areas(areas: Vec<i64>) -> (u64, Vec<u8>) {
    (areas.len() as u64, areas.iter().flat_map(|area| area.to_le_bytes()).collect())
}

fn of_owner(owner: u8) -> (u64, Vec<u8>) {
    (owner.into(), Vec::new())
}

fn of_room(room: usize) -> (u64, Vec<u8>) {
    (room as u64, Vec::new())
}

fn of_sides(sides: Vec<(Point, Point)>) -> (u64, Vec<u8>) {
    let numbers: Vec<i32> = sides.iter().flat_map(|&((ux, uy), (vx, vy))| [ux, uy, vx, vy]).collect();
    (sides.len() as u64, bytes(&numbers))
}

fn of_verdict(verdict: Verdict) -> Answer {
    match verdict {
        Verdict::Clean => Ok((0, vec![0])),
        Verdict::Repair => Ok((0, vec![1])),
        Verdict::Refused(refusal) => Err(refusal),
    }
}

fn of_position(position: Position) -> (u64, Vec<u8>) {
    counted([packed(position.answer), position.byte].map(u64::to_le_bytes).concat())
}

/// The packed answer of an item or a refusal.
fn packed(answer: Result<u64, Refusal>) -> u64 {
    answer.map_or_else(|refusal| refusal.item << 8 | u64::from(refusal.code), |item| item << 8)
}

/// A value whose item is its number of bytes.
fn counted(bytes: Vec<u8>) -> (u64, Vec<u8>) {
    (bytes.len() as u64, bytes)
}

fn bytes(numbers: &[i32]) -> Vec<u8> {
    numbers.iter().flat_map(|number| number.to_le_bytes()).collect()
}

fn whole_numbers(bytes: &[u8]) -> Vec<i32> {
    bytes.chunks_exact(4).map(|four| i32::from_le_bytes(four.try_into().unwrap())).collect()
}
