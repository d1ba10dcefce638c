//! The calls of an input, and what the independent program answers.

use crate::inputs::{Given, Inputs};
use independent::blob::Header;
use independent::bridge::{Call, Function, Room, Takes};
use independent::entries::{fit, Entry, Input, Lent, Success};
use independent::points::{in_dispute, to_ask};
use independent::reading::{read_in, Mode};
use independent::repair::WAYS;
use independent::{reading, Refusal};

/// A case that is longer has one room and one polygon asked for: some of them take the library a second. So has a blob that is
/// refused by its flags, since there are hundreds.
const LONG: usize = 20_000;

/// The modes that are known, of sheets and of blobs, and numbers of none.
const MODES: [u32; 2] = [0, 1];
const BLOB_MODES: [u32; 2] = [2, 3];
const NO_MODES: [u32; 8] = [4, 6, 7, 256, 257, 258, 1 << 31, u32::MAX];

/// Numbers that are no way's.
const NO_WAYS: [u32; 5] = [2, 7, 256, 1 << 31, u32::MAX];

/// What an entry answers.
type Answer = Result<Success, Refusal>;

/// What is called.
pub struct Calls {
    /// The inputs.
    pub inputs: Inputs,
    /// Whether a wrapper is called, which has a verdict besides, and not the entries.
    pub wrapped: bool,
}

impl Calls {
    /// Adds the calls of an input and their frames.
    pub fn add(&self, place: u64, calls: &mut Vec<Call>, frames: &mut Vec<u8>) {
        let given = self.given(place);
        let of_blobs = self.inputs.of_blobs(place);
        let inputs = Takes::ALL.map(|takes| Input::new(given.of(takes)));
        let header = Header::read(&given.blob).err().map_or(0, |fault| fault.refusal.code);
        let refused = of_blobs && matches!(header, 50 | 51);
        let every = matches!(self.inputs, Inputs::Cases(_)) && given.sheet.len() < LONG && !refused;
        let own = if of_blobs { Takes::Blob } else { Takes::Sheet };
        let at_points = self.at_points(place, given.of(own), &inputs[own as usize], every);
        let functions =
            self.functions(place, &given.sheet, every).into_iter().chain(at_points.into_iter().map(Function::Entry));
        for (purpose, function) in functions.enumerate() {
            let takes = function.takes();
            let own = of_blobs == matches!(takes, Takes::Blob | Takes::BlobNumbers);
            let answer = function.whole(&inputs[takes as usize]);
            for (room, expected) in self.with_rooms(function, mixed(place, purpose as u64), every && own, answer) {
                let call = Call { input: self.inputs.name(place), function, room, expected };
                frames.extend(call.frame(&function.input(given.of(takes), &inputs[takes as usize])));
                calls.push(call);
            }
        }
    }

    /// The rooms of a call, every kind or one, each with the answer that is right with it; or a wrapper's own. A position has
    /// room enough on every input, a point and a ring room none, and rings have on every input just the room that they need, and one byte less.
    fn with_rooms(&self, function: Function, number: u64, every: bool, answer: Answer) -> Vec<(Room, Answer)> {
        if self.wrapped {
            return vec![(Room::Own, answer)];
        }
        if matches!(function, Function::Entry(Entry::At(..) | Entry::RingRoom(..))) {
            return vec![(Room::Lent(0), answer)];
        }
        let [exact, short, ..] = every_room(&answer);
        let mut rooms = if every { every_room(&answer).to_vec() } else { vec![room(number, &answer)] };
        if matches!(function, Function::Entry(Entry::Position(_))) && rooms[0] < exact {
            rooms.push(exact);
        }
        if matches!(function, Function::Entry(Entry::Rings(..))) && answer.is_ok() {
            rooms.extend([exact, short].into_iter().filter(|room| !rooms.contains(room)).collect::<Vec<usize>>());
        }
        rooms.into_iter().map(|room| (Room::Lent(room), fit(answer.clone(), room))).collect()
    }

    /// The functions that are called on a sheet.
    fn functions(&self, place: u64, sheet: &[u8], every: bool) -> Vec<Function> {
        let polygons = reading::read(sheet).map_or(2, |sheet| sheet.polygons.len() as u32);
        let of_blobs = self.inputs.of_blobs(place);
        if matches!(self.inputs, Inputs::Changes(_)) && of_blobs {
            return self.of_blob(place, 1).into_iter().map(Function::Entry).collect();
        }
        // The changes of a sheet and the long cases are tried as they are: of blobs there are others, and the largest sheets' besides.
        let alone = matches!((&self.inputs, every), (Inputs::Changes(_), _) | (Inputs::Cases(_), false));
        let with_blob = of_blobs || !alone;
        let mut entries = vec![Entry::Numbers, Entry::Write, Entry::OwnerSets, Entry::Owners, Entry::Listing];
        let largest = matches!(self.inputs, Inputs::Largest(_));
        let asked = asked(place, polygons, every || largest);
        entries.extend(asked.iter().copied().map(Entry::Boundary));
        entries.extend(match (&self.inputs, every) {
            (_, true) => [self.by_all(place, &asked), vec![Entry::WriteBlob]].concat(),
            (Inputs::Largest(_), _) => {
                let longest = vec![
                    Entry::OwnersBy(0, 1),
                    Entry::BoundaryBy(0, 1, asked[0]),
                    Entry::Rings(0, 1, asked[0]),
                    Entry::RingRoom(0, 1, asked[0]),
                    Entry::ListingBy(0, 1),
                ];
                let in_mode_0 = vec![Entry::Position(0), Entry::Areas(0), Entry::WriteBlob];
                let indexed = Lent::every(place as u16).map(|lent| with_index(lent, 0, 1, asked[0])).concat();
                [in_mode_0, indexed, vec![Entry::Index(0)], longest, in_mode(1), in_mode(2), in_mode(3)].concat()
            }
            (Inputs::Cases(_), _) if of_blobs => [in_mode(2), in_mode(3)].concat(),
            _ if !with_blob => self.by_some(place, asked[0]),
            _ => [self.by_some(place, asked[0]), self.of_blob(place, asked[0])].concat(),
        });
        let blob_modes = BLOB_MODES.into_iter().filter(|_| with_blob);
        let verdicts = MODES.into_iter().chain(blob_modes).map(Function::Verdict).filter(|_| self.wrapped);
        entries.into_iter().map(Function::Entry).chain(verdicts).collect()
    }

    /// The owner at points of an input: of a case at all that are to be asked for, in its first mode and way, and at one of them in each
    /// mode and way, and in numbers that are none's; else at two, mostly in a known mode and way. And in both ways where they differ.
    fn at_points(&self, place: u64, bytes: &[u8], input: &Input, every: bool) -> Vec<Entry> {
        let modes = if self.inputs.of_blobs(place) { BLOB_MODES } else { MODES };
        let read = Mode::numbered(modes[0]).ok().and_then(|mode| read_in(mode, bytes).ok());
        let disputed = input.judged_by(modes[0]).ok().and_then(in_dispute);
        let in_ways = disputed.into_iter().flat_map(|(x, y)| WAYS.map(|way| Entry::At(modes[0], way, x, y)));
        let points = to_ask(&read.map(|read| read.sheet).unwrap_or_default());
        let at = |mode: u32, way: u32, purpose: u64| {
            let (x, y) = points[mixed(place, purpose) as usize % points.len()];
            Entry::At(mode, way, x, y)
        };
        if !every {
            let (mode, way) = (self.chosen(place, 101, &modes, &NO_MODES), self.chosen(place, 102, &WAYS, &NO_WAYS));
            return [at(modes[0], 0, 107), at(mode, way, 108)].into_iter().chain(in_ways).collect();
        }
        let mut entries: Vec<Entry> = points.iter().map(|(x, y)| Entry::At(modes[0], 0, *x, *y)).collect();
        for mode in modes.into_iter().chain(self.unknown(&NO_MODES, mixed(place, 101))) {
            let ways = WAYS.into_iter().chain(self.unknown(&NO_WAYS, mixed(place, 102)));
            entries.extend(ways.map(|way| at(mode, way, 107 + u64::from(way % 2))));
        }
        entries.extend(in_ways);
        entries
    }

    /// One of these numbers; none for a wrapper, which has known modes and ways only.
    fn unknown(&self, numbers: &[u32], number: u64) -> Option<u32> {
        (!self.wrapped).then_some(numbers[number as usize % numbers.len()])
    }

    /// The entries that take a mode, in the modes of the input's own form and a number that is no mode's; in every way and a number
    /// that is no way's, there with some of the polygons. And each of them once in the modes of the other form.
    fn by_all(&self, place: u64, polygons: &[u32]) -> Vec<Entry> {
        let (own, other) = if self.inputs.of_blobs(place) { (BLOB_MODES, MODES) } else { (MODES, BLOB_MODES) };
        let no_mode = self.unknown(&NO_MODES, mixed(place, 101));
        let no_way = self.unknown(&NO_WAYS, mixed(place, 102));
        let mut entries = other.map(in_mode).concat();
        for mode in own.into_iter().chain(no_mode) {
            entries.extend([
                Entry::NumbersBy(mode),
                Entry::OwnerSetsBy(mode),
                Entry::Position(mode),
                Entry::Areas(mode),
                Entry::Index(mode),
            ]);
            entries.extend(self.indexed(place, mode, no_way, polygons));
            for way in WAYS.into_iter().chain(no_way) {
                entries.extend([Entry::OwnersBy(mode, way), Entry::ListingBy(mode, way)]);
                let known = Some(mode) != no_mode && Some(way) != no_way;
                let some = if known { polygons } else { &polygons[..3] };
                entries.extend(some.iter().map(|polygon| Entry::BoundaryBy(mode, way, *polygon)));
                entries.extend(some.iter().map(|polygon| Entry::Rings(mode, way, *polygon)));
                entries.extend(some.iter().map(|polygon| Entry::RingRoom(mode, way, *polygon)));
            }
        }
        entries
    }

    /// The numbers in the older mode, the position in the present one and in another, the areas in both and that one, and one of the
    /// other entries in that: mostly the older one, and mostly in a known way.
    fn by_some(&self, place: u64, polygon: u32) -> Vec<Entry> {
        let mode = self.chosen(place, 101, &MODES, &NO_MODES);
        let read = [Entry::Position(0), Entry::NumbersBy(1), Entry::Position(mode), Entry::Areas(0), Entry::Areas(1)];
        let unknown = Some(Entry::Areas(mode)).filter(|_| mode > 1);
        let index = [Entry::Index(mode), self.one_indexed(place, 107, mode, polygon)];
        read.into_iter().chain(unknown).chain(index).chain([self.one(place, 103, mode, polygon)]).collect()
    }

    /// The blob writer, and of a blob the numbers, the position and one of the other entries, each in one of both modes, and the areas
    /// in both.
    fn of_blob(&self, place: u64, polygon: u32) -> Vec<Entry> {
        let [first, second] = [104, 105].map(|purpose| BLOB_MODES[mixed(place, purpose) as usize % 2]);
        let other = self.one(place, 106, second, polygon);
        let areas = BLOB_MODES.map(Entry::Areas);
        let index = [Entry::Index(first), self.one_indexed(place, 108, second, polygon)];
        [&[Entry::WriteBlob, Entry::NumbersBy(first), Entry::Position(second), other][..], &areas, &index].concat()
    }

    /// One of the known numbers, mostly the last, or one that isn't known.
    fn chosen(&self, place: u64, purpose: u64, known: &[u32], others: &[u32]) -> u32 {
        let number = mixed(place, purpose);
        let other = self.unknown(others, number / 8).filter(|_| number % 8 == 0);
        other.unwrap_or(known[if number % 8 == 1 { 0 } else { known.len() - 1 }])
    }

    /// One of the entries that judge, in this mode.
    fn one(&self, place: u64, purpose: u64, mode: u32, polygon: u32) -> Entry {
        let way = self.chosen(place, 102, &WAYS, &NO_WAYS);
        match mixed(place, purpose) % 6 {
            0 => Entry::OwnerSetsBy(mode),
            1 => Entry::OwnersBy(mode, way),
            2 => Entry::BoundaryBy(mode, way, polygon),
            3 => Entry::Rings(mode, way, polygon),
            4 => Entry::RingRoom(mode, way, polygon),
            _ => Entry::ListingBy(mode, way),
        }
    }

    /// The entries that take an index, in this mode, each with every index, and with one of them in every way and for
    /// some of the polygons.
    fn indexed(&self, place: u64, mode: u32, no_way: Option<u32>, polygons: &[u32]) -> Vec<Entry> {
        let one = mixed(place, 109);
        let every = Lent::every((one >> 8) as u16);
        let mut entries = every.map(|lent| with_index(lent, mode, 0, polygons[0])).concat();
        let lent = every[one as usize % 3];
        for way in WAYS.into_iter().chain(no_way) {
            entries.push(Entry::OwnersIndexed(lent, mode, way));
            entries.extend(polygons[..3].iter().map(|polygon| Entry::BoundaryIndexed(lent, mode, way, *polygon)));
            entries.extend(polygons[..3].iter().map(|polygon| Entry::RingsIndexed(lent, mode, way, *polygon)));
        }
        entries
    }

    /// One of the entries that take an index, in this mode: mostly with the table's own.
    fn one_indexed(&self, place: u64, purpose: u64, mode: u32, polygon: u32) -> Entry {
        let number = mixed(place, purpose);
        let every = Lent::every((number >> 16) as u16);
        let lent = every.get(number as usize % 12).copied().unwrap_or(Lent::Own);
        let way = self.chosen(place, 102, &WAYS, &NO_WAYS);
        with_index(lent, mode, way, polygon)[(number >> 8) as usize % 4]
    }

    /// What the functions take; of the writers' numbers a wrapper takes whole ones.
    fn given(&self, place: u64) -> Given {
        let mut given = self.inputs.given(place);
        if self.wrapped {
            for numbers in [&mut given.numbers, &mut given.blob_numbers] {
                numbers.truncate(numbers.len() / 4 * 4);
            }
        }
        given
    }
}

/// Each entry that takes a mode, in this one.
fn in_mode(mode: u32) -> Vec<Entry> {
    let read = [Entry::Position(mode), Entry::NumbersBy(mode), Entry::Areas(mode), Entry::OwnerSetsBy(mode)];
    let repaired = [Entry::OwnersBy(mode, 0), Entry::BoundaryBy(mode, 0, 1), Entry::Rings(mode, 0, 1)];
    let judged =
        [&repaired[..], &[Entry::RingRoom(mode, 0, 1), Entry::ListingBy(mode, 0), Entry::Index(mode)]].concat();
    [&read[..], &judged, &with_index(Lent::Own, mode, 0, 1)].concat()
}

/// Each entry that takes an index, with this one.
fn with_index(lent: Lent, mode: u32, way: u32, polygon: u32) -> Vec<Entry> {
    let owners = Entry::OwnersIndexed(lent, mode, way);
    let sides = [Entry::BoundaryIndexed(lent, mode, way, polygon), Entry::RingsIndexed(lent, mode, way, polygon)];
    [&[Entry::OwnerSetsIndexed(lent, mode), owners][..], &sides].concat()
}

/// A number that a place and a purpose fix.
fn mixed(place: u64, purpose: u64) -> u64 {
    let mixed = (place ^ (purpose << 56)).wrapping_mul(0x9e37_79b9_7f4a_7c15);
    let mixed = (mixed ^ (mixed >> 32)).wrapping_mul(0xd6e8_feb8_6659_fd93);
    mixed ^ (mixed >> 32)
}

/// The polygons asked for: the first and the last of the sheet's, and all numbers that it hasn't and that a wrapper might
/// take for one that it has; or one number, mostly of the sheet's, else of those.
fn asked(place: u64, polygons: u32, every: bool) -> Vec<u32> {
    let others = [0, polygons + 1, 65, 257, 1 << 31, (1 << 31) + 1, u32::MAX];
    if every {
        return [1, polygons].into_iter().chain(others).collect();
    }
    let number = mixed(place, 100);
    let one = 1 + (number >> 32) as u32 % polygons.max(1);
    vec![others.get(number as usize % 24).copied().unwrap_or(one)]
}

/// Numbers of lent bytes: exact, one short, none, one more, and eight more.
fn every_room(answer: &Answer) -> [usize; 5] {
    let length = answer.as_ref().map_or(16, |success| success.bytes.len());
    [length, length.saturating_sub(1), 0, length + 1, length + 8]
}

/// One of these, mostly the exact one, or 100,000.
fn room(number: u64, answer: &Answer) -> usize {
    let [exact, short, none, one_more, more] = every_room(answer);
    match number % 128 {
        0..=55 => exact,
        56..=71 => short,
        72..=79 => none,
        80..=95 => one_more,
        96..=126 => more,
        _ => 100_000,
    }
}
