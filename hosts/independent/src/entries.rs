//! The entries: what each answers, and what it writes at the front of the lent bytes.

use crate::ownership::{judge_sheet, member_double_area, Judged};
use crate::reading::{read_in, Mode};
use crate::repair::{boundary_sides, repaired};
use crate::table::{index, Table};
use crate::{listing, points, rings, writing, Point, Refusal, Side};
use std::cell::OnceCell;

/// One of the entries called from outside.
#[derive(Clone, Copy, PartialEq, Eq, Debug)]
pub enum Entry {
    /// The numbers entry: a sheet's numbers form.
    Numbers,
    /// The writer: a sheet's bytes from its numbers form.
    Write,
    /// The blob writer: a blob's bytes from its numbers form.
    WriteBlob,
    /// The set entry: each triangle's owners before repair.
    OwnerSets,
    /// The owner entry: each triangle's number after repair.
    Owners,
    /// The boundary entry, asked for the polygon of this number.
    Boundary(u32),
    /// The printed listing, which answers no refusal but 40.
    Listing,
    /// Where reading stops, in the mode of this number; it answers no refusal but 40.
    Position(u32),
    /// The numbers entry in the mode of this number.
    NumbersBy(u32),
    /// The double areas of the polygons, read in the mode of this number.
    Areas(u32),
    /// The set entry in the mode of this number.
    OwnerSetsBy(u32),
    /// The owner entry in the mode and the way of these numbers.
    OwnersBy(u32, u32),
    /// The boundary entry in the mode and the way of these numbers, asked for the polygon of the third.
    BoundaryBy(u32, u32, u32),
    /// The boundary sides joined into closed rings, in the mode and the way of these numbers, asked for the polygon of the third.
    Rings(u32, u32, u32),
    /// How many bytes the closed rings have, asked as they are; no bytes are lent.
    RingRoom(u32, u32, u32),
    /// The printed listing in the mode and the way of these numbers, which answers no refusal but 40.
    ListingBy(u32, u32),
    /// The owner after repair at a point, in the mode and the way of these numbers, by x and y; no bytes are lent.
    At(u32, u32, i32, i32),
    /// The index of the table, read in the mode of this number.
    Index(u32),
    /// The set entry with this index, in the mode of this number.
    OwnerSetsIndexed(Lent, u32),
    /// The owner entry with this index, in the mode and the way of these numbers.
    OwnersIndexed(Lent, u32, u32),
    /// The boundary entry with this index, in the mode and the way of these numbers, asked for the polygon of the third.
    BoundaryIndexed(Lent, u32, u32, u32),
    /// The closed rings with this index, in the mode and the way of these numbers, asked for the polygon of the third.
    RingsIndexed(Lent, u32, u32, u32),
}

/// Which index is lent, by the table's own; or by 12 zeros where there is none, since reading, the table or the envelope is refused.
#[derive(Clone, Copy, PartialEq, Eq, Debug)]
pub enum Lent {
    /// The table's own.
    Own,
    /// The table's own with another byte at this place, counted round.
    Changed(u16),
    /// Without its last byte.
    Shorter,
    /// With a zero behind it.
    Longer,
    /// With its numbers as those of sides: the first side of each triangle that is named.
    OfSides,
    /// That of the table with its triangles in reverse order.
    OfAnother,
    /// No byte at all.
    Empty,
}

impl Lent {
    /// One of each kind; of changed bytes the one at this place.
    pub fn every(place: u16) -> [Lent; 7] {
        let others = [Lent::Shorter, Lent::Longer, Lent::OfSides, Lent::OfAnother, Lent::Empty];
        [Lent::Own, Lent::Changed(place), others[0], others[1], others[2], others[3], others[4]]
    }
}

/// What an entry would write if enough bytes were lent, and the item of its success.
#[derive(Clone, PartialEq, Eq, Debug)]
pub struct Success {
    /// The number of triangles, of polygons, of sides, or of bytes; of a point its owner, of a ring room the bytes of the rings.
    pub item: u64,
    /// The bytes written at the front of the lent ones.
    pub bytes: Vec<u8>,
}

/// The packed answer, item × 256 + code, with `room` lent bytes; and the bytes written at their front, None on
/// refusal.
pub fn answer(entry: Entry, input: &[u8], room: usize) -> (u64, Option<Vec<u8>>) {
    match fit(whole(entry, input), room) {
        Ok(success) => (success.item * 256, Some(success.bytes)),
        Err(refusal) => (packed(refusal), None),
    }
}

/// A refusal's packed answer.
pub fn packed(refusal: Refusal) -> u64 {
    refusal.item * 256 + u64::from(refusal.code)
}

/// The answer with `room` lent bytes. 40 is every entry's last refusal.
pub fn fit(answer: Result<Success, Refusal>, room: usize) -> Result<Success, Refusal> {
    match answer {
        Ok(success) if success.bytes.len() > room => Err(Refusal::new(40, 0)),
        other => other,
    }
}

/// The answer if enough bytes are lent.
pub fn whole(entry: Entry, input: &[u8]) -> Result<Success, Refusal> {
    Input::new(input).whole(entry)
}

/// The input of entries, whose polygons are judged once in each mode for all of them.
pub struct Input<'a> {
    bytes: &'a [u8],
    judged: [OnceCell<Result<Judged, Refusal>>; Mode::COUNT as usize],
    tables: [OnceCell<Result<Table, Refusal>>; Mode::COUNT as usize],
}

impl<'a> Input<'a> {
    /// The input of these bytes.
    pub fn new(bytes: &'a [u8]) -> Input<'a> {
        Input { bytes, judged: Default::default(), tables: Default::default() }
    }

    /// The sheet judged in this mode, or why there is none.
    pub fn judged(&self, mode: Mode) -> Result<&Judged, Refusal> {
        let judged = &self.judged[mode.number() as usize];
        judged.get_or_init(|| judge_sheet(mode, self.bytes)).as_ref().map_err(|refusal| *refusal)
    }

    /// The sheet judged in the mode of this number: 57 comes before all else.
    pub fn judged_by(&self, mode: u32) -> Result<&Judged, Refusal> {
        self.judged(Mode::numbered(mode)?)
    }

    /// An entry's answer if enough bytes are lent.
    pub fn whole(&self, entry: Entry) -> Result<Success, Refusal> {
        match entry {
            Entry::Numbers => self.numbers(Mode::PRESENT),
            Entry::Write => writing::take_numbers(self.bytes).map(|sheet| counted(writing::write(&sheet))),
            Entry::WriteBlob => writing::write_blob(self.bytes).map(counted),
            Entry::OwnerSets => Ok(owner_sets(self.judged(Mode::PRESENT)?)),
            Entry::Owners => owners(self.judged(Mode::PRESENT)?, 0),
            Entry::Boundary(asked) => boundary(self.judged(Mode::PRESENT)?, 0, asked),
            Entry::Listing => Ok(counted(listing::of(self.judged(Mode::PRESENT), 0).into_bytes())),
            Entry::Position(mode) => Ok(self.position(mode)),
            Entry::NumbersBy(mode) => self.numbers(Mode::numbered(mode)?),
            Entry::Areas(mode) => self.areas(Mode::numbered(mode)?),
            Entry::OwnerSetsBy(mode) => Ok(owner_sets(self.judged_by(mode)?)),
            Entry::OwnersBy(mode, way) => owners(self.judged_by(mode)?, way),
            Entry::BoundaryBy(mode, way, asked) => boundary(self.judged_by(mode)?, way, asked),
            Entry::Rings(mode, way, asked) => rings_of(self.judged_by(mode)?, way, asked),
            Entry::RingRoom(mode, way, asked) => ring_room(self.judged_by(mode)?, way, asked),
            Entry::ListingBy(mode, way) => Ok(counted(listing::of(self.judged_by(mode), way).into_bytes())),
            Entry::At(mode, way, x, y) => at(self.judged_by(mode)?, way, x, y),
            Entry::Index(mode) => self.index(mode).map(counted),
            Entry::OwnerSetsIndexed(lent, mode) => {
                self.with_index(&self.lent(lent, mode), mode, Entry::OwnerSetsBy(mode))
            }
            Entry::OwnersIndexed(lent, mode, way) => {
                self.with_index(&self.lent(lent, mode), mode, Entry::OwnersBy(mode, way))
            }
            Entry::BoundaryIndexed(lent, mode, way, asked) => {
                self.with_index(&self.lent(lent, mode), mode, Entry::BoundaryBy(mode, way, asked))
            }
            Entry::RingsIndexed(lent, mode, way, asked) => {
                self.with_index(&self.lent(lent, mode), mode, Entry::Rings(mode, way, asked))
            }
        }
    }

    /// The numbers of a sheet, and before them a blob's reference-system number. After reading comes 52.
    fn numbers(&self, mode: Mode) -> Result<Success, Refusal> {
        let read = read_in(mode, self.bytes).map_err(|fault| fault.refusal)?;
        read.check_envelope()?;
        let number = read.header.map_or(Vec::new(), |header| header.number.to_le_bytes().to_vec());
        Ok(counted([number, writing::numbers(&read.sheet)].concat()))
    }

    /// The double area of each polygon of a sheet, from its corners alone. After reading comes 52; nothing is judged.
    fn areas(&self, mode: Mode) -> Result<Success, Refusal> {
        let read = read_in(mode, self.bytes).map_err(|fault| fault.refusal)?;
        read.check_envelope()?;
        let areas = read.sheet.polygons.iter().map(member_double_area);
        Ok(Success { item: read.sheet.polygons.len() as u64, bytes: areas.flat_map(i64::to_le_bytes).collect() })
    }

    /// The index of a sheet's table, once the table has passed the rules and the envelope: 57, reading, 10, 11, 12, 52.
    fn index(&self, mode: u32) -> Result<Vec<u8>, Refusal> {
        self.table(mode).map(index)
    }

    fn table(&self, mode: u32) -> Result<&Table, Refusal> {
        let mode = Mode::numbered(mode)?;
        let checked = || {
            let read = read_in(mode, self.bytes).map_err(|fault| fault.refusal)?;
            let table = Table::check(&read.sheet.triangles)?;
            read.check_envelope()?;
            Ok(table)
        };
        self.tables[mode.number() as usize].get_or_init(checked).as_ref().map_err(|refusal| *refusal)
    }

    /// The bytes of an index that is lent in the mode of this number.
    pub fn lent(&self, lent: Lent, mode: u32) -> Vec<u8> {
        let table = self.table(mode);
        let mut own = table.map_or(vec![0; 12], index);
        match lent {
            Lent::Own => {}
            Lent::Changed(place) => {
                let place = usize::from(place) % own.len();
                own[place] = own[place].wrapping_add(1 + (place % 255) as u8);
            }
            Lent::Shorter => own.truncate(own.len() - 1),
            Lent::Longer => own.push(0),
            Lent::OfSides => {
                for pair in own.chunks_exact_mut(2) {
                    let number = u16::from_le_bytes([pair[0], pair[1]]);
                    pair.copy_from_slice(&(3 * number).saturating_sub(2).to_le_bytes());
                }
            }
            Lent::OfAnother => {
                if let Ok(table) = table {
                    let reversed: Vec<_> = table.triangles.iter().rev().copied().collect();
                    own = index(&Table::check(&reversed).expect("the same triangles"));
                }
            }
            Lent::Empty => own.clear(),
        }
        own
    }

    /// An entry's answer in the mode of this number where an index is lent: 53, right before 20, for one that differs from the table's
    /// own in length or content.
    pub fn with_index(&self, lent: &[u8], mode: u32, entry: Entry) -> Result<Success, Refusal> {
        match self.index(mode)? == lent {
            true => self.whole(entry),
            false => Err(Refusal::new(53, 0)),
        }
    }

    /// The packed answer that the numbers entry gives in this mode with room enough, and the position of the field at fault
    /// where reading refuses, 0 for any other answer.
    fn position(&self, mode: u32) -> Success {
        let answer = match self.whole(Entry::NumbersBy(mode)) {
            Ok(success) => success.item * 256,
            Err(refusal) => packed(refusal),
        };
        let fault = Mode::numbered(mode).ok().and_then(|mode| read_in(mode, self.bytes).err());
        let position = fault.map_or(0, |fault| fault.position as u64);
        counted([answer, position].map(u64::to_le_bytes).concat())
    }
}

/// A success whose item is the number of bytes.
fn counted(bytes: Vec<u8>) -> Success {
    Success { item: bytes.len() as u64, bytes }
}

fn owner_sets(judged: &Judged) -> Success {
    let bytes = judged.owners.iter().flat_map(|set| set.to_le_bytes()).collect();
    Success { item: judged.owners.len() as u64, bytes }
}

fn owners(judged: &Judged, way: u32) -> Result<Success, Refusal> {
    Ok(counted(repaired(judged, way)?))
}

/// After 20 and 21 come 54, 30 and 55.
fn at(judged: &Judged, way: u32, x: i32, y: i32) -> Result<Success, Refusal> {
    let owner = points::owner_at(judged, way, Point { x: x.into(), y: y.into() })?;
    Ok(Success { item: owner.into(), bytes: Vec::new() })
}

/// The boundary sides of a polygon after repair: after 20 and 21 come 41, 54 and 30.
fn sides_of(judged: &Judged, way: u32, asked: u32) -> Result<Vec<Side>, Refusal> {
    if asked == 0 || asked as usize > judged.sheet.polygons.len() {
        return Err(Refusal::new(41, 0));
    }
    let repaired = repaired(judged, way)?;
    Ok(boundary_sides(&judged.table, &repaired, asked as u8))
}

fn rings_of(judged: &Judged, way: u32, asked: u32) -> Result<Success, Refusal> {
    Ok(counted(rings::multi_line_string(&rings::rings(&sides_of(judged, way, asked)?))))
}

/// 9 bytes, 16 for each boundary side, and 25 for each ring. There is no 40.
fn ring_room(judged: &Judged, way: u32, asked: u32) -> Result<Success, Refusal> {
    let sides = sides_of(judged, way, asked)?;
    let rings = rings::rings(&sides).len();
    Ok(Success { item: 9 + 16 * sides.len() as u64 + 25 * rings as u64, bytes: Vec::new() })
}

fn boundary(judged: &Judged, way: u32, asked: u32) -> Result<Success, Refusal> {
    let sides = sides_of(judged, way, asked)?;
    let numbers = sides.iter().flat_map(|(u, v)| [u.x, u.y, v.x, v.y]);
    let bytes = numbers.flat_map(|number| (number as i32).to_le_bytes()).collect();
    Ok(Success { item: sides.len() as u64, bytes })
}
