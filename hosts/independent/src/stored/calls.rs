//! The calls that the program entries_try makes, as its frames, and the lines that it is to print.
//!
//! A frame is a byte for the entry (0 numbers, 1 write, 2 owner sets, 3 owners, 4 boundary, 5 listing, 6 position; 7 numbers, 8
//! owner sets, 9 owners, 10 boundary, 11 listing by a mode and a way; 12 write blob; 13
//! areas; 14 at a point; 15 index; 16 owner sets, 17 owners, 18 boundary with an index; 19 rings, 20 rings with an index; 21 ring room), u32 length of the input, u32 number of lent
//! bytes, and the input, little-endian; before a sheet that the boundary entry takes stands the polygon's number, a u32, before one that the
//! position entry, the areas entry and the index entry take the mode, a u32, before one that those from 7 to 11, 19 and 21 take mode, way and polygon, three u32, before one that is
//! asked at a point mode, way, x and y, and before one that those from 16 to 18 and 20 take mode, way, polygon, the length of the index, a u32, and the index. A line has
//! the packed answer, a blank, and a checksum of all lent bytes after the call, each 170 before it.
//!
//! The calls are few, chosen for what they try; `differ` makes those of all cases, on libsheets.a.

use crate::bridge::Function;
use crate::cases::{self, Case};
use crate::entries::{fit, packed, whole, Entry, Input, Lent, Success};
use crate::Refusal;
use std::collections::BTreeMap;

/// A case that is longer isn't stored.
const LONGEST: usize = 1_000;
/// How many cases of each code that an entry gives are stored, beside the examples. The writer's are short: all are.
const OF_EACH_CODE: usize = 2;

/// A call with so many lent bytes.
struct Call {
    entry: Entry,
    input: Vec<u8>,
    room: usize,
}

/// Cases that the entries in a mode are called with: the strip sheet, and sheets of the older edition.
const IN_MODES: [&str; 4] =
    ["strip", "clean, both polygons clockwise", "two parts clockwise, in collections", "a later ring of double area 0"];

/// Blobs that the entries are called with in the modes of blobs.
const BLOBS: [&str; 3] = [
    "the strip sheet in a little-endian blob with an envelope",
    "the strip sheet in a big-endian blob without one",
    "the strip sheet clockwise in a blob",
];

/// Sheets that are repaired in way 1 besides.
const IN_WAYS: [&str; 3] = [
    "a gap that shares 4 with 1 and with 2 goes to 2",
    "a gap that shares 6 with 1 and 2 with 2 goes to 1",
    "three sides on one line are 3 long, as long as a straight one, which has the larger number",
];

/// Sheets that are called with every index: the strip sheet, and ones whose table or polygon is refused.
const WITH_INDEXES: [&str; 3] = ["strip", "example 9 - without the last triangle", "example 2 - the same clockwise"];

/// Sheets that the rings of both polygons are asked for: areas and holes that touch in corners, and a polygon that owns nothing.
const WITH_RINGS: [&str; 4] = [
    "the ring of a bow-tie",
    "the ring of three areas in one corner",
    "a hole that touches the outer ring",
    "no rings of a polygon that owns nothing",
];

/// The calls: of each entry document 01's examples and the sheets of the folder examples/, the strip sheet with every room; and
/// short cases of each code. The boundary entry is asked for polygon 1, and on the strip sheet for all others; the position entry
/// in mode 0, and on the strip sheet in others. The entries in a mode are called in the older one with the sheets above and the
/// shortest case of each code, and on the strip sheet in the present one, in way 1, and in modes and ways that aren't known. The entries
/// in way 1 are called with the cases of it named above, and the rings entry with those of rings. In the modes of
/// blobs they are called with the blobs above and the shortest of each code, of those that go on from a judged sheet of the codes
/// that blobs alone have. The blob writer has all its cases. The index entry and the set entry with the table's own index are called as the entries in a mode are;
/// the strip sheet with every index, and a table and a polygon that are refused with indexes that aren't theirs.
fn calls() -> Vec<Call> {
    let mut calls = Vec::new();
    let judging = [Entry::OwnerSets, Entry::Owners, Entry::Boundary(1), Entry::Listing];
    for entry in [Entry::Numbers, Entry::Write].into_iter().chain(judging).chain([Entry::Position(0)]) {
        for case in chosen(entry) {
            calls.extend(with_rooms(entry, case));
        }
    }
    for entry in by((1, 0, 1)) {
        for case in chosen_in_modes(entry) {
            calls.extend(with_rooms(entry, case));
        }
    }
    for entry in by((2, 0, 1)).into_iter().chain(by((3, 0, 1))).chain([Entry::Position(2), Entry::Position(3)]) {
        for case in chosen_blobs(entry) {
            calls.extend(with_rooms(entry, case));
        }
    }
    for entry in [Entry::Index(1), Entry::OwnerSetsIndexed(Lent::Own, 1)] {
        for case in chosen_in_modes(entry) {
            calls.extend(with_rooms(entry, case));
        }
    }
    for entry in [Entry::Index(2), Entry::OwnerSetsIndexed(Lent::Own, 2)] {
        for case in shortest(entry, Case::is_blob).into_values() {
            calls.extend(with_rooms(entry, case));
        }
    }
    for case in named(&WITH_INDEXES) {
        let every = Lent::every(5).into_iter().chain([0, 1, 26, 47].map(Lent::Changed));
        let entries = every.flat_map(|lent| [Entry::OwnerSetsIndexed(lent, 0), Entry::OwnersIndexed(lent, 0, 0)]);
        let unknown = [Entry::Index(7), Entry::OwnerSetsIndexed(Lent::Empty, 7)];
        let others = [
            Entry::OwnersIndexed(Lent::Empty, 7, 0),
            Entry::BoundaryIndexed(Lent::Empty, 7, 0, 1),
            Entry::RingsIndexed(Lent::Empty, 7, 0, 1),
        ];
        let asked = [(0, 0), (2, 0), (1, 1), (1, 2)].into_iter().flat_map(|(polygon, way)| {
            [Entry::BoundaryIndexed(Lent::Own, 1, way, polygon), Entry::RingsIndexed(Lent::Own, 1, way, polygon)]
        });
        let asked = asked.chain([
            Entry::BoundaryIndexed(Lent::Longer, 0, 2, 9),
            Entry::RingsIndexed(Lent::Longer, 0, 2, 9),
            Entry::OwnersIndexed(Lent::Own, 0, 2),
        ]);
        calls.extend(entries.chain(unknown).chain(others).chain(asked).map(|entry| Call {
            entry,
            input: case.input.clone(),
            room: 200,
        }));
        calls.extend(
            [
                Entry::OwnersIndexed(Lent::Own, 0, 0),
                Entry::BoundaryIndexed(Lent::Own, 0, 0, 1),
                Entry::RingsIndexed(Lent::Own, 0, 0, 1),
            ]
            .into_iter()
            .flat_map(|entry| with_rooms(entry, case.clone())),
        );
    }
    for case in cases::all().into_iter().filter(|case| case.is_of_blobs() && !case.is_blob()) {
        calls.extend(with_rooms(Entry::WriteBlob, case));
    }
    let strip = cases::named("strip");
    let asked = [0, 2, 3, 65, 257, 1 << 31, u32::MAX].map(Entry::Boundary);
    let modes = [1, 7, 256, u32::MAX].map(Entry::Position);
    for case in named(&IN_WAYS) {
        let entries =
            [Entry::OwnersBy(0, 1), Entry::BoundaryBy(1, 1, 1), Entry::Rings(0, 1, 1), Entry::ListingBy(0, 1)];
        calls.extend(entries.map(|entry| Call { entry, input: case.input.clone(), room: 600 }));
    }
    for case in named(&WITH_RINGS) {
        calls.extend([Entry::Rings(0, 0, 1), Entry::Rings(0, 0, 2)].map(|entry| Call {
            entry,
            input: case.input.clone(),
            room: 600,
        }));
    }
    calls.extend(at_points());
    calls.extend(ring_rooms());
    let by = [(0, 0, 1), (0, 1, 1), (7, 0, 1), (u32::MAX, 2, 1), (0, 2, 1), (1, u32::MAX, 3)].into_iter().flat_map(by);
    let on_strip = asked.into_iter().chain(modes).chain(by);
    calls.extend(on_strip.map(|entry| Call { entry, input: strip.clone(), room: 200 }));
    calls
}

/// The points asked for: on the strip sheet the frame's corners and ends, a corner and a side of the table, and the ends of the range; what
/// is before 55 on the shortest case of each code, in the present mode, and of blobs of the codes that they alone have; and a case of way 1.
fn at_points() -> Vec<Call> {
    let call = |entry, input: &[u8], room| Call { entry, input: input.to_vec(), room };
    let strip = cases::named("strip");
    let points = [(0, 0), (7, 3), (8, 0), (0, 4), (-1, 2), (4, 3)];
    let far = [(i32::MIN, i32::MIN), (i32::MAX, i32::MAX)];
    let on_strip = points.into_iter().chain(far).map(|(x, y)| call(Entry::At(0, 0, x, y), &strip, 0));
    let asked = [(1, 0), (0, 1), (7, 0), (u32::MAX, 2), (0, 2), (0, u32::MAX)];
    let by = asked.map(|(mode, way)| call(Entry::At(mode, way, 7, 3), &strip, 9));
    let of_codes = shortest(Entry::At(0, 0, 0, 0), Case::is_sheet).into_values();
    let sheets = of_codes.map(|case| call(Entry::At(0, 0, 0, 0), &case.input, 9));
    let of_blobs =
        shortest(Entry::At(2, 0, 0, 0), Case::is_blob).into_iter().filter(|(code, _)| (50..=52).contains(code));
    let blobs = of_blobs.map(|(_, case)| call(Entry::At(2, 0, 0, 0), &case.input, 9));
    let in_ways =
        named(&IN_WAYS[1..2]).flat_map(|case| [0, 1].map(|way| call(Entry::At(0, way, 3, 1), &case.input, 9)));
    on_strip.chain(by).chain(sheets).chain(blobs).chain(in_ways).collect()
}

/// The ring rooms asked for: on the strip sheet of both polygons and of others, in modes and ways known and not; on the shortest case of each code, in the present
/// mode, and of blobs of the codes that they alone have; in both ways on a case of way 1, and of both polygons on those of rings.
fn ring_rooms() -> Vec<Call> {
    let call = |entry, input: &[u8], room| Call { entry, input: input.to_vec(), room };
    let strip = cases::named("strip");
    let asked = [(0, 0, 1), (0, 0, 2), (0, 0, 0), (0, 0, 3), (0, 0, 257), (0, 0, u32::MAX)];
    let by = [(1, 0, 1), (0, 1, 1), (7, 0, 1), (u32::MAX, 2, 1), (0, 2, 1), (0, u32::MAX, 3)];
    let of = |(mode, way, polygon): (u32, u32, u32)| Entry::RingRoom(mode, way, polygon);
    let on_strip =
        asked.map(|asked| call(of(asked), &strip, 0)).into_iter().chain(by.map(|by| call(of(by), &strip, 9)));
    let of_codes = shortest(of((0, 0, 1)), Case::is_sheet).into_values();
    let sheets = of_codes.map(|case| call(of((0, 0, 1)), &case.input, 9));
    let of_blobs = shortest(of((2, 0, 1)), Case::is_blob).into_iter().filter(|(code, _)| (50..=52).contains(code));
    let blobs = of_blobs.map(|(_, case)| call(of((2, 0, 1)), &case.input, 9));
    let in_ways = named(&IN_WAYS[1..2]).flat_map(|case| [0, 1].map(|way| call(of((0, way, 1)), &case.input, 9)));
    let rings = named(&WITH_RINGS).flat_map(|case| [1, 2].map(|polygon| call(of((0, 0, polygon)), &case.input, 0)));
    on_strip.chain(sheets).chain(blobs).chain(in_ways).chain(rings).collect()
}

/// The entries in this mode and this way, asked for this polygon.
fn by((mode, way, polygon): (u32, u32, u32)) -> [Entry; 7] {
    let repaired = Entry::BoundaryBy(mode, way, polygon);
    [
        Entry::NumbersBy(mode),
        Entry::Areas(mode),
        Entry::OwnerSetsBy(mode),
        Entry::OwnersBy(mode, way),
        repaired,
        Entry::Rings(mode, way, polygon),
        Entry::ListingBy(mode, way),
    ]
}

/// The cases of an entry in a mode: those named above, and of each code the shortest.
fn chosen_in_modes(entry: Entry) -> Vec<Case> {
    named(&IN_MODES).chain(shortest(entry, Case::is_sheet).into_values()).collect()
}

/// The blobs of an entry: those named above, and in mode 2 of each code the shortest, or of each that blobs alone have.
fn chosen_blobs(entry: Entry) -> Vec<Case> {
    let mut shortest = shortest(entry, Case::is_blob);
    match entry {
        Entry::NumbersBy(2) | Entry::Areas(2) | Entry::OwnerSetsBy(2) | Entry::Position(2) => (),
        Entry::OwnersBy(2, _) | Entry::BoundaryBy(2, ..) | Entry::Rings(2, ..) => {
            shortest.retain(|code, _| (50..=52).contains(code))
        }
        _ => shortest.clear(),
    }
    named(&BLOBS).chain(shortest.into_values()).collect()
}

fn named(names: &'static [&str]) -> impl Iterator<Item = Case> {
    cases::all().into_iter().filter(|case| names.contains(&&case.name[..]))
}

/// Of each code that the entry gives to such cases the shortest one.
fn shortest(entry: Entry, such: fn(&Case) -> bool) -> BTreeMap<u8, Case> {
    let mut shortest: BTreeMap<u8, Case> = BTreeMap::new();
    for case in cases::all().into_iter().filter(|case| such(case) && case.input.len() <= LONGEST) {
        let place = shortest.entry(code(entry, &case.input)).or_insert_with(|| case.clone());
        if case.input.len() < place.input.len() {
            *place = case;
        }
    }
    shortest
}

/// The cases of an entry: the examples, of the position entry's the strip sheet, and short ones of each code.
fn chosen(entry: Entry) -> Vec<Case> {
    let writes = entry == Entry::Write;
    let only_strip = matches!(entry, Entry::Position(_));
    let examples = cases::examples().into_iter().filter(|case| !writes && (!only_strip || case.name == "strip"));
    let mut seen: BTreeMap<u8, usize> = BTreeMap::new();
    let others = cases::all().into_iter().skip(cases::examples().len());
    let fitting = others.filter(|case| !case.is_of_blobs() && case.is_sheet() != writes && case.input.len() <= LONGEST);
    let first = fitting.filter(|case| {
        let times = seen.entry(code(entry, &case.input)).or_default();
        *times += 1;
        writes || *times <= OF_EACH_CODE
    });
    examples.chain(first).collect()
}

/// The code of an entry's answer with room enough; of the position entry's, the code that it tells.
fn code(entry: Entry, input: &[u8]) -> u8 {
    match (entry, whole(entry, input)) {
        (Entry::Position(_), Ok(success)) => success.bytes[0],
        (_, Ok(_)) => 0,
        (_, Err(refusal)) => refusal.code,
    }
}

/// The strip sheet, its numbers, and those of a blob, which are tried with every kind of room.
const WITH_ROOMS: [&str; 3] = ["strip", "the strip sheet's numbers", "a blob's numbers, reference system 7"];

/// The call with just the room that its answer needs, and with 100 bytes where it is refused. Those above: also with one byte
/// less, none, and nine more. Every refusal of an example: also with none.
fn with_rooms(entry: Entry, Case { name, input, .. }: Case) -> Vec<Call> {
    let rooms = match whole(entry, &input) {
        Ok(Success { bytes, .. }) if WITH_ROOMS.contains(&&name[..]) => {
            vec![bytes.len(), bytes.len() - 1, 0, bytes.len() + 9]
        }
        Ok(Success { bytes, .. }) => vec![bytes.len()],
        Err(_) if name.starts_with("example") => vec![100, 0],
        Err(_) => vec![100],
    };
    rooms.into_iter().map(|room| Call { entry, input: input.clone(), room }).collect()
}

impl Call {
    fn frame(&self) -> Vec<u8> {
        let (number, asked): (u8, Vec<u32>) = match self.entry {
            Entry::Numbers => (0, vec![]),
            Entry::Write => (1, vec![]),
            Entry::OwnerSets => (2, vec![]),
            Entry::Owners => (3, vec![]),
            Entry::Boundary(polygon) => (4, vec![polygon]),
            Entry::Listing => (5, vec![]),
            Entry::Position(mode) => (6, vec![mode]),
            Entry::NumbersBy(mode) => (7, vec![mode, 0, 0]),
            Entry::OwnerSetsBy(mode) => (8, vec![mode, 0, 0]),
            Entry::OwnersBy(mode, way) => (9, vec![mode, way, 0]),
            Entry::BoundaryBy(mode, way, polygon) => (10, vec![mode, way, polygon]),
            Entry::ListingBy(mode, way) => (11, vec![mode, way, 0]),
            Entry::WriteBlob => (12, vec![]),
            Entry::Areas(mode) => (13, vec![mode]),
            Entry::At(mode, way, x, y) => (14, vec![mode, way, x as u32, y as u32]),
            Entry::Index(mode) => (15, vec![mode]),
            Entry::OwnerSetsIndexed(_, mode) => (16, vec![mode, 0, 0]),
            Entry::OwnersIndexed(_, mode, way) => (17, vec![mode, way, 0]),
            Entry::BoundaryIndexed(_, mode, way, polygon) => (18, vec![mode, way, polygon]),
            Entry::Rings(mode, way, polygon) => (19, vec![mode, way, polygon]),
            Entry::RingsIndexed(_, mode, way, polygon) => (20, vec![mode, way, polygon]),
            Entry::RingRoom(mode, way, polygon) => (21, vec![mode, way, polygon]),
        };
        let mut asked: Vec<u8> = asked.iter().flat_map(|number| number.to_le_bytes()).collect();
        if let Some((lent, mode)) = Function::Entry(self.entry).lent() {
            let index = Input::new(&self.input).lent(lent, mode);
            asked.extend((index.len() as u32).to_le_bytes());
            asked.extend(index);
        }
        let length = (asked.len() + self.input.len()) as u32;
        let head = [&[number][..], &length.to_le_bytes(), &(self.room as u32).to_le_bytes()].concat();
        [head, asked, self.input.clone()].concat()
    }

    fn answer(&self) -> Result<Success, Refusal> {
        fit(whole(self.entry, &self.input), self.room)
    }

    fn line(&self) -> String {
        let (packed, mut lent) = match self.answer() {
            Ok(Success { item, bytes }) => (item * 256, bytes),
            Err(refusal) => (packed(refusal), Vec::new()),
        };
        lent.resize(self.room, 170);
        format!("{packed} {}\n", checksum(&lent))
    }
}

/// The checksum of all the bytes, so that a change at any place shows.
fn checksum(bytes: &[u8]) -> u64 {
    bytes.iter().fold(0, |sum, byte| (sum * 31 + u64::from(*byte)) % 1_000_000_007)
}

/// The frames of all calls, and their lines.
pub fn frames_and_lines() -> (Vec<u8>, Vec<u8>) {
    let calls = calls();
    let frames = calls.iter().flat_map(Call::frame).collect();
    (frames, calls.iter().map(Call::line).collect::<String>().into_bytes())
}

#[cfg(test)]
mod tests {
    use super::*;
    use std::collections::BTreeSet;

    /// An entry's number in a frame, the code of its answer, and by how many bytes the room is larger than a success, if it is one.
    fn tried() -> Vec<(u8, u8, Option<usize>)> {
        let of = |call: Call| match call.answer() {
            Ok(success) => (call.frame()[0], 0, Some(call.room - success.bytes.len())),
            Err(refusal) => (call.frame()[0], refusal.code, None),
        };
        calls().into_iter().map(of).collect()
    }

    #[test]
    fn every_code_of_every_entry_is_stored() {
        let reading = [0, 1, 2, 3, 4, 5, 6, 7, 8, 40];
        let judging = [&reading[..], &[10, 11, 12, 20, 21]].concat();
        let owners = [&judging[..], &[30]].concat();
        let boundary = [&judging[..], &[41]].concat();
        let without = [&reading[..], &[0, 40, 42], &judging, &owners, &boundary, &[0, 40], &[0, 40]];
        let by = |codes: &[u8], more: &[u8]| [codes, more].concat();
        let blobs = [50, 51, 52, 57];
        let repaired =
            [by(&by(&owners, &blobs), &[54]), by(&by(&boundary, &blobs), &[54]), vec![0, 40], vec![0, 40, 42]];
        let at = by(&by(&owners[..9], &owners[10..]), &[50, 51, 52, 54, 55, 57]);
        let ring_room = repaired[1].iter().copied().filter(|code| *code != 40).collect();
        let index = by(&by(&reading, &blobs), &[10, 11, 12]);
        let indexed =
            [by(&by(&judging, &blobs), &[53]), vec![0, 12, 20, 40, 53, 54, 57], vec![0, 12, 20, 40, 41, 53, 54, 57]];
        let in_modes = [
            &[by(&reading, &blobs), by(&judging, &blobs)][..],
            &repaired,
            &[by(&reading, &blobs), at, index],
            &indexed,
            &[repaired[1].clone(), indexed[2].clone(), ring_room],
        ]
        .concat();
        let wanted: Vec<Vec<u8>> = without.iter().map(|codes| codes.to_vec()).chain(in_modes).collect();
        let stored: BTreeSet<(u8, u8)> = tried().into_iter().map(|(entry, code, _)| (entry, code)).collect();
        let numbered = wanted.iter().enumerate();
        let wanted = numbered.flat_map(|(entry, codes)| codes.iter().map(move |code| (entry as u8, *code)));
        assert_eq!(stored, wanted.collect());
    }

    #[test]
    fn every_room_of_every_entry_is_stored() {
        let tried = tried();
        for entry in 0..22 {
            assert!(tried.contains(&(entry, 0, Some(0))), "exact room for {entry}");
            assert!(tried.contains(&(entry, 0, Some(9))), "lent bytes past the answer for {entry}");
        }
        let short = |call: &Call, less: fn(usize) -> usize| {
            whole(call.entry, &call.input).is_ok_and(|success| call.room == less(success.bytes.len()))
        };
        let of = |less: fn(usize) -> usize| -> BTreeSet<u8> {
            calls().iter().filter(|call| short(call, less)).map(|call| call.frame()[0]).collect()
        };
        let lent_none = [14, 21];
        let lent = (0..22).filter(|entry| !lent_none.contains(entry)).collect();
        assert_eq!((of(|length| length.wrapping_sub(1)), of(|_| 0)), (lent, (0..22).collect()));
    }

    #[test]
    fn the_stored_input_is_small() {
        let (frames, lines) = frames_and_lines();
        assert!(frames.len() < 600_000, "{} bytes", frames.len());
        assert!(lines.split(|byte| *byte == b'\n').count() > 200);
    }
}
