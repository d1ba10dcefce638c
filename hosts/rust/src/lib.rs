//! Safe functions over the sheets library, which reads, checks, repairs and writes land-use sheets. Each entry of the library is proved to do what
//! its description says, for every input; this crate only gives it ordinary Rust types.
//!
//! The library allocates nothing and keeps no state; any number of threads may call any function at once. A call needs 640 KiB of free stack,
//! [`STACK`].
#![warn(missing_docs)]

mod sheet;

use std::fmt;

pub use sheet::{Part, Polygon, Ring, Sheet, Triangle};

extern "C" {
    fn sheet_numbers(sheet: *const u8, sheet_len: usize, out: *mut u8, out_len: usize) -> u64;
    fn sheet_write(numbers: *const u8, numbers_len: usize, out: *mut u8, out_len: usize) -> u64;
    fn sheet_owner_sets(sheet: *const u8, sheet_len: usize, out: *mut u8, out_len: usize) -> u64;
    fn sheet_owners(sheet: *const u8, sheet_len: usize, out: *mut u8, out_len: usize) -> u64;
    fn sheet_boundary(sheet: *const u8, sheet_len: usize, polygon: u32, out: *mut u8, out_len: usize) -> u64;
    fn sheet_listing(sheet: *const u8, sheet_len: usize, out: *mut u8, out_len: usize) -> u64;
    fn sheet_position(sheet: *const u8, sheet_len: usize, mode: u32, out: *mut u8, out_len: usize) -> u64;
    fn sheet_numbers_by(sheet: *const u8, sheet_len: usize, mode: u32, out: *mut u8, out_len: usize) -> u64;
    fn sheet_areas(sheet: *const u8, sheet_len: usize, mode: u32, out: *mut u8, out_len: usize) -> u64;
    fn sheet_owner_sets_by(sheet: *const u8, sheet_len: usize, mode: u32, out: *mut u8, out_len: usize) -> u64;
    fn sheet_owners_by(sheet: *const u8, sheet_len: usize, mode: u32, way: u32, out: *mut u8, out_len: usize) -> u64;
    fn sheet_boundary_by(sheet: *const u8, sheet_len: usize, mode: u32, way: u32, polygon: u32, out: *mut u8, out_len: usize) -> u64;
    fn sheet_rings(sheet: *const u8, sheet_len: usize, mode: u32, way: u32, polygon: u32, out: *mut u8, out_len: usize) -> u64;
    fn sheet_listing_by(sheet: *const u8, sheet_len: usize, mode: u32, way: u32, out: *mut u8, out_len: usize) -> u64;
    fn sheet_write_blob(numbers: *const u8, numbers_len: usize, out: *mut u8, out_len: usize) -> u64;
    fn sheet_ring_room(sheet: *const u8, sheet_len: usize, mode: u32, way: u32, polygon: u32) -> u64;
    fn sheet_at(sheet: *const u8, sheet_len: usize, mode: u32, way: u32, x: i32, y: i32) -> u64;
    fn sheet_index(sheet: *const u8, sheet_len: usize, mode: u32, out: *mut u8, out_len: usize) -> u64;
    fn sheet_owner_sets_indexed(
        sheet: *const u8,
        sheet_len: usize,
        index: *const u8,
        index_len: usize,
        mode: u32,
        out: *mut u8,
        out_len: usize,
    ) -> u64;
    fn sheet_owners_indexed(
        sheet: *const u8,
        sheet_len: usize,
        index: *const u8,
        index_len: usize,
        mode: u32,
        way: u32,
        out: *mut u8,
        out_len: usize,
    ) -> u64;
    fn sheet_boundary_indexed(
        sheet: *const u8,
        sheet_len: usize,
        index: *const u8,
        index_len: usize,
        mode: u32,
        way: u32,
        polygon: u32,
        out: *mut u8,
        out_len: usize,
    ) -> u64;
    fn sheet_rings_indexed(
        sheet: *const u8,
        sheet_len: usize,
        index: *const u8,
        index_len: usize,
        mode: u32,
        way: u32,
        polygon: u32,
        out: *mut u8,
        out_len: usize,
    ) -> u64;
}

/// Room that is always enough for the numbers form of a sheet.
pub const NUMBERS_ROOM: usize = 65_800;
/// Room that is always enough for a written sheet.
pub const WRITE_ROOM: usize = 158_290;
/// Room that is always enough for the owner sets of a sheet.
pub const OWNER_SETS_ROOM: usize = 8_192;
/// Room that is always enough for the owners of a sheet.
pub const OWNERS_ROOM: usize = 1_024;
/// Room that is always enough for the boundary sides of a polygon.
pub const BOUNDARY_ROOM: usize = 49_152;
/// Room that is always enough for the listing of a sheet.
pub const LISTING_ROOM: usize = 6_600;
/// Room for the position of a sheet's fault, with the answer that it belongs to.
pub const POSITION_ROOM: usize = 16;

/// Room that is always enough for the numbers form of a blob.
pub const BLOB_NUMBERS_ROOM: usize = 65_804;
/// Room that is always enough for a written blob.
pub const WRITE_BLOB_ROOM: usize = 158_330;
/// Room that is always enough for the double areas of a sheet's polygons.
pub const AREAS_ROOM: usize = 512;
/// Room that is always enough for the index of a sheet's table.
pub const INDEX_ROOM: usize = 6_144;
/// Room that is always enough for the closed rings of a polygon.
pub const RINGS_ROOM: usize = 74_761;

/// Free stack that a calling thread needs, in bytes.
pub const STACK: usize = 655_360;
/// So many bytes of a file are always enough to read the sheet in it: what the library answers on the first so many of longer ones is what it answers on all.
pub const READ_CAP: usize = 196_608;

/// How a sheet is read.
#[derive(Clone, Copy, Debug, Default, PartialEq, Eq, Hash)]
#[repr(u32)]
pub enum Mode {
    /// As it stands.
    #[default]
    Present = 0,
    /// As one of the older edition, which has rings in either direction: the first ring of each part of a polygon is turned round if its double area is
    /// negative, every later one if its own is positive.
    Older = 1,
    /// As the geometry blob of a GeoPackage table: a header, and the sheet behind it.
    Blob = 2,
    /// As such a blob whose sheet is of the older edition.
    OlderBlob = 3,
}

impl Mode {
    /// Is a blob read, and not a sheet alone?
    pub fn is_blob(self) -> bool {
        matches!(self, Mode::Blob | Mode::OlderBlob)
    }

    /// The same for sheets of the older edition.
    pub fn older(self) -> Mode {
        if self.is_blob() {
            Mode::OlderBlob
        } else {
            Mode::Older
        }
    }

    /// The same for blobs.
    pub fn of_blobs(self) -> Mode {
        match self {
            Mode::Present | Mode::Blob => Mode::Blob,
            Mode::Older | Mode::OlderBlob => Mode::OlderBlob,
        }
    }
}

/// How gaps are filled.
#[derive(Clone, Copy, Debug, Default, PartialEq, Eq, Hash)]
#[repr(u32)]
pub enum Way {
    /// Each goes to the largest number beside it.
    #[default]
    Priority = 0,
    /// Each goes to the number that it shares the longest boundary with, on equal lengths to the larger.
    Longest = 1,
}

/// Why a call was refused: a code, and the member, triangle or polygon that it is about, 0 for none.
#[derive(Clone, Copy, Debug, PartialEq, Eq, Hash)]
pub struct Refusal {
    /// The refusal's number.
    pub code: u8,
    /// What it is about, counted from 1.
    pub item: u64,
}

/// The table of refusals, which the C++ functions have, too: a line SHEETS_REFUSAL(code, what the item is, "sentence") for each.
const REFUSALS: &str = include_str!("../../../include/refusals.def");

/// What the item of a line of the table is, and its sentence, if the line is this code's.
fn told(line: &'static str, code: u8) -> Option<(&'static str, &'static str)> {
    let (number, rest) = line.strip_prefix("SHEETS_REFUSAL(")?.split_once(", ")?;
    let item_and_sentence = rest.strip_suffix("\")")?.split_once(", \"")?;
    (number == code.to_string()).then_some(item_and_sentence)
}

impl Refusal {
    /// Is it a refusal of reading, codes 1 to 8, whose [`position`] can be asked for?
    pub fn of_reading(&self) -> bool {
        (1..=8).contains(&self.code)
    }

    /// The refusal in words.
    pub fn sentence(&self) -> String {
        let Some((item, sentence)) = REFUSALS.lines().find_map(|line| told(line, self.code)) else {
            return format!("the library has no refusal {}", self.code);
        };
        let named = match (item, self.item) {
            ("TRIANGLE", number) => format!("triangle {number}"),
            ("POLYGON", number) => format!("polygon {number}"),
            (_, 0) => "the sheet's own header".to_string(),
            (_, 1) => "member 1, the triangle table".to_string(),
            (_, number) => format!("member {number}"),
        };
        sentence.replace("{}", &named)
    }
}

impl fmt::Display for Refusal {
    fn fmt(&self, f: &mut fmt::Formatter<'_>) -> fmt::Result {
        write!(f, "{} (code {}, item {})", self.sentence(), self.code, self.item)
    }
}

impl std::error::Error for Refusal {}

/// What a packed answer says: its item, or a refusal.
fn unpacked(answer: u64) -> Result<u64, Refusal> {
    match (answer & 255) as u8 {
        0 => Ok(answer >> 8),
        code => Err(Refusal { code, item: answer >> 8 }),
    }
}

/// Calls an entry with lent bytes, and answers the item with them.
fn call(lent: &mut [u8], entry: impl FnOnce(*mut u8, usize) -> u64) -> Result<u64, Refusal> {
    unpacked(entry(lent.as_mut_ptr(), lent.len()))
}

/// The entries on bytes as they stand: the answer is written over the front of the lent bytes, whose others keep their values; the item is answered.
/// A refusal changes none of them.
pub mod lent {
    use super::*;

    /// The numbers form of a sheet; the item is its bytes.
    pub fn numbers(sheet: &[u8], out: &mut [u8]) -> Result<u64, Refusal> {
        call(out, |p, n| unsafe { sheet_numbers(sheet.as_ptr(), sheet.len(), p, n) })
    }
    /// The bytes of the sheet that a numbers form makes up; the item is their number.
    pub fn write(numbers: &[u8], out: &mut [u8]) -> Result<u64, Refusal> {
        call(out, |p, n| unsafe { sheet_write(numbers.as_ptr(), numbers.len(), p, n) })
    }
    /// The owners of each triangle before repair, 8 bytes each; the item is the triangles.
    pub fn owner_sets(sheet: &[u8], out: &mut [u8]) -> Result<u64, Refusal> {
        call(out, |p, n| unsafe { sheet_owner_sets(sheet.as_ptr(), sheet.len(), p, n) })
    }
    /// The number of each triangle after repair, a byte each; the item is the triangles.
    pub fn owners(sheet: &[u8], out: &mut [u8]) -> Result<u64, Refusal> {
        call(out, |p, n| unsafe { sheet_owners(sheet.as_ptr(), sheet.len(), p, n) })
    }
    /// The boundary sides of a polygon after repair, 16 bytes each; the item is the sides.
    pub fn boundary(sheet: &[u8], polygon: u32, out: &mut [u8]) -> Result<u64, Refusal> {
        call(out, |p, n| unsafe { sheet_boundary(sheet.as_ptr(), sheet.len(), polygon, p, n) })
    }
    /// The listing; the item is its bytes.
    pub fn listing(sheet: &[u8], out: &mut [u8]) -> Result<u64, Refusal> {
        call(out, |p, n| unsafe { sheet_listing(sheet.as_ptr(), sheet.len(), p, n) })
    }
    /// The packed answer of reading in the mode of this number and the position of the field at fault, 8 bytes each; the item is 16. For a number that is no
    /// [`Mode`]'s the answer told is 57.
    pub fn position(sheet: &[u8], mode: u32, out: &mut [u8]) -> Result<u64, Refusal> {
        call(out, |p, n| unsafe { sheet_position(sheet.as_ptr(), sheet.len(), mode, p, n) })
    }
    /// [`numbers`] in the mode of this number; 57 for one that is no [`Mode`]'s.
    pub fn numbers_by(sheet: &[u8], mode: u32, out: &mut [u8]) -> Result<u64, Refusal> {
        call(out, |p, n| unsafe { sheet_numbers_by(sheet.as_ptr(), sheet.len(), mode, p, n) })
    }
    /// The double area of each polygon, read in the mode of this number, 8 bytes each; the item is the polygons.
    pub fn areas(sheet: &[u8], mode: u32, out: &mut [u8]) -> Result<u64, Refusal> {
        call(out, |p, n| unsafe { sheet_areas(sheet.as_ptr(), sheet.len(), mode, p, n) })
    }
    /// [`owner_sets`] in the mode of this number.
    pub fn owner_sets_by(sheet: &[u8], mode: u32, out: &mut [u8]) -> Result<u64, Refusal> {
        call(out, |p, n| unsafe { sheet_owner_sets_by(sheet.as_ptr(), sheet.len(), mode, p, n) })
    }
    /// [`owners`] in the mode and the way of these numbers; 54 for one that is no [`Way`]'s.
    pub fn owners_by(sheet: &[u8], mode: u32, way: u32, out: &mut [u8]) -> Result<u64, Refusal> {
        call(out, |p, n| unsafe { sheet_owners_by(sheet.as_ptr(), sheet.len(), mode, way, p, n) })
    }
    /// [`boundary`] in the mode and the way of these numbers.
    pub fn boundary_by(sheet: &[u8], mode: u32, way: u32, polygon: u32, out: &mut [u8]) -> Result<u64, Refusal> {
        call(out, |p, n| unsafe { sheet_boundary_by(sheet.as_ptr(), sheet.len(), mode, way, polygon, p, n) })
    }
    /// The boundary sides of a polygon after repair joined into closed rings, in the mode and the way of these numbers: a WKB MultiLineString; the item is its bytes.
    pub fn rings(sheet: &[u8], mode: u32, way: u32, polygon: u32, out: &mut [u8]) -> Result<u64, Refusal> {
        call(out, |p, n| unsafe { sheet_rings(sheet.as_ptr(), sheet.len(), mode, way, polygon, p, n) })
    }
    /// [`listing`] in the mode and the way of these numbers.
    pub fn listing_by(sheet: &[u8], mode: u32, way: u32, out: &mut [u8]) -> Result<u64, Refusal> {
        call(out, |p, n| unsafe { sheet_listing_by(sheet.as_ptr(), sheet.len(), mode, way, p, n) })
    }
    /// The bytes of the blob that a blob's numbers form makes up; the item is their number.
    pub fn write_blob(numbers: &[u8], out: &mut [u8]) -> Result<u64, Refusal> {
        call(out, |p, n| unsafe { sheet_write_blob(numbers.as_ptr(), numbers.len(), p, n) })
    }
    /// How many bytes [`rings`] writes for the same sheet and numbers, as the item. No bytes are lent.
    pub fn ring_room(sheet: &[u8], mode: u32, way: u32, polygon: u32) -> Result<u64, Refusal> {
        unpacked(unsafe { sheet_ring_room(sheet.as_ptr(), sheet.len(), mode, way, polygon) })
    }
    /// The owner at a point after repair, in the mode and the way of these numbers, as the item. No bytes are lent.
    pub fn at(sheet: &[u8], mode: u32, way: u32, x: i32, y: i32) -> Result<u64, Refusal> {
        unpacked(unsafe { sheet_at(sheet.as_ptr(), sheet.len(), mode, way, x, y) })
    }
    /// The index of the table, read in the mode of this number, 6 bytes for each triangle; the item is the bytes.
    pub fn index(sheet: &[u8], mode: u32, out: &mut [u8]) -> Result<u64, Refusal> {
        call(out, |p, n| unsafe { sheet_index(sheet.as_ptr(), sheet.len(), mode, p, n) })
    }
    /// [`owner_sets_by`] with an index; 53 for one that isn't the table's own.
    pub fn owner_sets_indexed(sheet: &[u8], index: &[u8], mode: u32, out: &mut [u8]) -> Result<u64, Refusal> {
        call(out, |p, n| unsafe { sheet_owner_sets_indexed(sheet.as_ptr(), sheet.len(), index.as_ptr(), index.len(), mode, p, n) })
    }
    /// [`owners_by`] with an index.
    pub fn owners_indexed(sheet: &[u8], index: &[u8], mode: u32, way: u32, out: &mut [u8]) -> Result<u64, Refusal> {
        call(out, |p, n| unsafe { sheet_owners_indexed(sheet.as_ptr(), sheet.len(), index.as_ptr(), index.len(), mode, way, p, n) })
    }
    /// [`boundary_by`] with an index.
    pub fn boundary_indexed(sheet: &[u8], index: &[u8], mode: u32, way: u32, polygon: u32, out: &mut [u8]) -> Result<u64, Refusal> {
        call(out, |p, n| unsafe { sheet_boundary_indexed(sheet.as_ptr(), sheet.len(), index.as_ptr(), index.len(), mode, way, polygon, p, n) })
    }
    /// [`rings`] with an index.
    pub fn rings_indexed(sheet: &[u8], index: &[u8], mode: u32, way: u32, polygon: u32, out: &mut [u8]) -> Result<u64, Refusal> {
        call(out, |p, n| unsafe { sheet_rings_indexed(sheet.as_ptr(), sheet.len(), index.as_ptr(), index.len(), mode, way, polygon, p, n) })
    }
}

/// A point, x and y in millimetres.
pub type Point = (i32, i32);

/// What reading comes to, and where it stops.
#[derive(Clone, Copy, Debug, PartialEq, Eq)]
pub struct Position {
    /// The length of the numbers form in bytes, or why the sheet can't be read.
    pub answer: Result<u64, Refusal>,
    /// For a refusal the position of the field at fault, counted in bytes from 0; 0 where the sheet is read.
    pub byte: u64,
}

/// What a sheet is found to be.
#[derive(Clone, Copy, Debug, PartialEq, Eq)]
pub enum Verdict {
    /// Every triangle has exactly one owner.
    Clean,
    /// There are gaps or overlaps.
    Repair,
    /// The sheet was refused before repair.
    Refused(Refusal),
}

/// What an entry answers in ordinary types, with room that is always enough.
mod typed {
    use super::*;

    type Item = Result<u64, Refusal>;

    fn words(bytes: &[u8]) -> Vec<i32> {
        bytes.chunks_exact(4).map(|b| i32::from_le_bytes(b.try_into().unwrap())).collect()
    }

    pub fn numbers(room: usize, entry: impl FnOnce(&mut [u8]) -> Item) -> Result<Vec<i32>, Refusal> {
        let mut out = vec![0; room];
        let bytes = entry(&mut out)? as usize;
        Ok(words(&out[..bytes]))
    }

    pub fn written(room: usize, numbers: &[i32], entry: impl FnOnce(&[u8], &mut [u8]) -> Item) -> Result<Vec<u8>, Refusal> {
        let given: Vec<u8> = numbers.iter().flat_map(|n| n.to_le_bytes()).collect();
        let mut out = vec![0; room];
        let bytes = entry(&given, &mut out)? as usize;
        out.truncate(bytes);
        Ok(out)
    }

    pub fn owner_sets(entry: impl FnOnce(&mut [u8]) -> Item) -> Result<Vec<u64>, Refusal> {
        let mut out = vec![0; OWNER_SETS_ROOM];
        let triangles = entry(&mut out)? as usize;
        Ok(out[..8 * triangles].chunks_exact(8).map(|b| u64::from_le_bytes(b.try_into().unwrap())).collect())
    }

    pub fn owners(entry: impl FnOnce(&mut [u8]) -> Item) -> Result<Vec<u8>, Refusal> {
        let mut out = vec![0; OWNERS_ROOM];
        let triangles = entry(&mut out)? as usize;
        out.truncate(triangles);
        Ok(out)
    }

    pub fn boundary(entry: impl FnOnce(&mut [u8]) -> Item) -> Result<Vec<(Point, Point)>, Refusal> {
        let mut out = vec![0; BOUNDARY_ROOM];
        let sides = entry(&mut out)? as usize;
        Ok(words(&out[..16 * sides]).chunks_exact(4).map(|s| ((s[0], s[1]), (s[2], s[3]))).collect())
    }

    pub fn rings(entry: impl FnOnce(&mut [u8]) -> Item) -> Result<Vec<u8>, Refusal> {
        let mut out = vec![0; RINGS_ROOM];
        let bytes = entry(&mut out)? as usize;
        out.truncate(bytes);
        Ok(out)
    }

    pub fn listing(entry: impl FnOnce(&mut [u8]) -> Item) -> String {
        let mut out = vec![0; LISTING_ROOM];
        let bytes = entry(&mut out).expect("the room is enough for every listing") as usize;
        out.truncate(bytes);
        String::from_utf8(out).expect("a listing is ASCII")
    }

    pub fn verdict(sets: Result<Vec<u64>, Refusal>) -> Verdict {
        match sets {
            Err(refusal) => Verdict::Refused(refusal),
            Ok(sets) if sets.iter().all(|set| set.count_ones() == 1) => Verdict::Clean,
            Ok(_) => Verdict::Repair,
        }
    }
}

/// The sheet in numbers: the triangle count and six numbers each, the polygon count, then for each its parts, rings and points, every count before
/// what it counts, rings closed. [`Sheet`] has them by name.
pub fn numbers(sheet: &[u8]) -> Result<Vec<i32>, Refusal> {
    typed::numbers(NUMBERS_ROOM, |out| lent::numbers(sheet, out))
}

/// The bytes of the sheet that the numbers make up, in one normal form.
pub fn write(numbers: &[i32]) -> Result<Vec<u8>, Refusal> {
    typed::written(WRITE_ROOM, numbers, lent::write)
}

/// The blob that the numbers make up: the reference-system number first, then those of the sheet. [`numbers_by`] in [`Mode::Blob`] gives them back.
pub fn write_blob(numbers: &[i32]) -> Result<Vec<u8>, Refusal> {
    typed::written(WRITE_BLOB_ROOM, numbers, lent::write_blob)
}

/// The owners of each triangle before repair: bit k - 1 stands for polygon k.
pub fn owner_sets(sheet: &[u8]) -> Result<Vec<u64>, Refusal> {
    typed::owner_sets(|out| lent::owner_sets(sheet, out))
}

/// The number of each triangle after repair.
pub fn owners(sheet: &[u8]) -> Result<Vec<u8>, Refusal> {
    typed::owners(|out| lent::owners(sheet, out))
}

/// The boundary sides of a polygon after repair, each from one point to the other.
pub fn boundary(sheet: &[u8], polygon: u32) -> Result<Vec<(Point, Point)>, Refusal> {
    typed::boundary(|out| lent::boundary(sheet, polygon, out))
}

/// The printed listing; a refused sheet has one, too.
pub fn listing(sheet: &[u8]) -> String {
    typed::listing(|out| lent::listing(sheet, out))
}

/// Where in its bytes a sheet can't be read.
pub fn position(sheet: &[u8]) -> Position {
    position_by(sheet, Mode::Present)
}

/// The double area of each polygon, in number order, in square millimetres: from the corners of its rings alone, whatever the table is, negative where clockwise
/// rings prevail.
pub fn areas(sheet: &[u8]) -> Result<Vec<i64>, Refusal> {
    areas_by(sheet, Mode::Present)
}

/// The verdict on a sheet.
pub fn verdict(sheet: &[u8]) -> Verdict {
    typed::verdict(owner_sets(sheet))
}

/// [`numbers`] in a mode. The first number of a blob is its reference-system number.
pub fn numbers_by(sheet: &[u8], mode: Mode) -> Result<Vec<i32>, Refusal> {
    typed::numbers(BLOB_NUMBERS_ROOM, |out| lent::numbers_by(sheet, mode as u32, out))
}

/// [`areas`] in a mode.
pub fn areas_by(sheet: &[u8], mode: Mode) -> Result<Vec<i64>, Refusal> {
    let mut out = [0; AREAS_ROOM];
    let polygons = lent::areas(sheet, mode as u32, &mut out)? as usize;
    Ok(out[..8 * polygons].chunks_exact(8).map(|b| i64::from_le_bytes(b.try_into().unwrap())).collect())
}

/// [`owner_sets`] in a mode.
pub fn owner_sets_by(sheet: &[u8], mode: Mode) -> Result<Vec<u64>, Refusal> {
    typed::owner_sets(|out| lent::owner_sets_by(sheet, mode as u32, out))
}

/// [`owners`] in a mode and a way.
pub fn owners_by(sheet: &[u8], mode: Mode, way: Way) -> Result<Vec<u8>, Refusal> {
    typed::owners(|out| lent::owners_by(sheet, mode as u32, way as u32, out))
}

/// [`boundary`] in a mode and a way.
pub fn boundary_by(sheet: &[u8], mode: Mode, way: Way, polygon: u32) -> Result<Vec<(Point, Point)>, Refusal> {
    typed::boundary(|out| lent::boundary_by(sheet, mode as u32, way as u32, polygon, out))
}

/// The boundary sides of a polygon after repair joined into closed rings, in a mode and a way: a WKB MultiLineString. Where several sides leave a corner, the sharpest
/// turn to the right follows, so areas that touch in a corner make one ring; a ring begins at the earliest of its sides, and rings stand in the order of these.
pub fn rings_by(sheet: &[u8], mode: Mode, way: Way, polygon: u32) -> Result<Vec<u8>, Refusal> {
    typed::rings(|out| lent::rings(sheet, mode as u32, way as u32, polygon, out))
}

/// [`rings_by`] in the present mode, by priority.
pub fn rings(sheet: &[u8], polygon: u32) -> Result<Vec<u8>, Refusal> {
    rings_by(sheet, Mode::Present, Way::Priority, polygon)
}

/// How many bytes the rings of a polygon have, in a mode and a way: 9, 16 for each boundary side and 25 for each ring, of which each has three sides or more. It is for
/// who lends the bytes, to [`lent::rings`], and takes as long as finding the rings does.
pub fn ring_room_by(sheet: &[u8], mode: Mode, way: Way, polygon: u32) -> Result<usize, Refusal> {
    lent::ring_room(sheet, mode as u32, way as u32, polygon).map(|room| room as usize)
}

/// [`ring_room_by`] in the present mode, by priority.
pub fn ring_room(sheet: &[u8], polygon: u32) -> Result<usize, Refusal> {
    ring_room_by(sheet, Mode::Present, Way::Priority, polygon)
}

/// The index of a sheet's table, to be kept beside the sheet: for each triangle and side the number of the triangle with the reversed side, 0 for none, as
/// little-endian u16 by triangle and then ab, bc, ca. It is lent to [`owner_sets_indexed`], [`owners_indexed`], [`boundary_indexed`] and
/// [`rings_indexed`].
pub fn index(sheet: &[u8]) -> Result<Vec<u8>, Refusal> {
    index_by(sheet, Mode::Present)
}

/// [`index`] in a mode.
pub fn index_by(sheet: &[u8], mode: Mode) -> Result<Vec<u8>, Refusal> {
    let mut out = vec![0; INDEX_ROOM];
    let bytes = lent::index(sheet, mode as u32, &mut out)? as usize;
    out.truncate(bytes);
    Ok(out)
}

/// [`owner_sets_by`] with an index, which is refused 53 where it isn't the one of the sheet's table.
pub fn owner_sets_indexed(sheet: &[u8], index: &[u8], mode: Mode) -> Result<Vec<u64>, Refusal> {
    typed::owner_sets(|out| lent::owner_sets_indexed(sheet, index, mode as u32, out))
}

/// [`owners_by`] with an index.
pub fn owners_indexed(sheet: &[u8], index: &[u8], mode: Mode, way: Way) -> Result<Vec<u8>, Refusal> {
    typed::owners(|out| lent::owners_indexed(sheet, index, mode as u32, way as u32, out))
}

/// [`boundary_by`] with an index.
pub fn boundary_indexed(sheet: &[u8], index: &[u8], mode: Mode, way: Way, polygon: u32) -> Result<Vec<(Point, Point)>, Refusal> {
    typed::boundary(|out| lent::boundary_indexed(sheet, index, mode as u32, way as u32, polygon, out))
}

/// [`rings_by`] with an index.
pub fn rings_indexed(sheet: &[u8], index: &[u8], mode: Mode, way: Way, polygon: u32) -> Result<Vec<u8>, Refusal> {
    typed::rings(|out| lent::rings_indexed(sheet, index, mode as u32, way as u32, polygon, out))
}

/// [`listing`] in a mode and a way.
pub fn listing_by(sheet: &[u8], mode: Mode, way: Way) -> String {
    typed::listing(|out| lent::listing_by(sheet, mode as u32, way as u32, out))
}

/// [`position`] in a mode.
pub fn position_by(sheet: &[u8], mode: Mode) -> Position {
    let mut out = [0; POSITION_ROOM];
    lent::position(sheet, mode as u32, &mut out).expect("the room is enough for every position");
    let number = |at: usize| u64::from_le_bytes(out[at..at + 8].try_into().unwrap());
    Position { answer: unpacked(number(0)), byte: number(8) }
}

/// [`verdict`] in a mode.
pub fn verdict_by(sheet: &[u8], mode: Mode) -> Verdict {
    typed::verdict(owner_sets_by(sheet, mode))
}

/// What is at the point: the number of the polygon that owns it after repair, in a mode and a way, and in the present one by priority. A point belongs to a
/// triangle if it is strictly to the left of each side, or on the line of one that runs downward or level to the right: every point from the frame's least x
/// and y up to but not including the greatest belongs to exactly one, and any other is refused, by 55.
pub fn at_by(sheet: &[u8], mode: Mode, way: Way, (x, y): Point) -> Result<u8, Refusal> {
    lent::at(sheet, mode as u32, way as u32, x, y).map(|owner| owner as u8)
}

/// [`at_by`] in the present mode, by priority.
pub fn at(sheet: &[u8], point: Point) -> Result<u8, Refusal> {
    at_by(sheet, Mode::Present, Way::Priority, point)
}
