//! A case: an input made by hand, its name, and what document 01 says of it.

use crate::made::Geometry;

/// An input made by hand.
#[derive(Clone)]
pub struct Case {
    /// What it tries.
    pub name: String,
    /// Its bytes: a sheet, or the writer's numbers.
    pub input: Vec<u8>,
    /// What document 01 says of it.
    pub outcome: Outcome,
}

/// What document 01 says of an input.
#[derive(Clone, PartialEq, Eq, Debug)]
pub enum Outcome {
    /// It is read as a sheet.
    Read,
    /// Each triangle has these owners before repair, bit k - 1 standing for polygon k.
    Sets(Vec<u64>),
    /// Each triangle has this number after repair.
    Repaired(Vec<u8>),
    /// Each triangle has the first of these numbers after repair by priority, and the second by the longest shared boundary.
    InWays(Vec<u8>, Vec<u8>),
    /// It is refused as a sheet, by this code and item.
    Refused(u8, u64),
    /// It can't be read as a sheet, by this code and item, and the position of the field at fault is this one.
    Unread(u8, u64, u64),
    /// Its polygons have these double areas.
    Areas(Vec<i64>),
    /// At each of these points, by x and y, the owner after repair by priority, 0 where it belongs to no triangle.
    Owned(Vec<(i32, i32, u64)>),
    /// Its index has these numbers, three for each triangle.
    Index(Vec<u16>),
    /// The polygon of this number has these rings after repair by priority, with their closing points.
    Rings(u32, Vec<Vec<(i32, i32)>>),
    /// The first in the present mode, the second in the older one.
    InModes(Box<Outcome>, Box<Outcome>),
    /// These numbers make up a sheet.
    Written,
    /// These numbers are refused: 42.
    NotWritten,
    /// The input is a blob, and this is said of it where it is read as one.
    AsBlob(Box<Outcome>),
    /// It is a blob with this reference-system number and this sheet in it.
    Holds(i32, Vec<u8>),
    /// It is refused by this code and item, but its numbers are refused by 52.
    Unframed(u8, u64),
    /// These numbers make up this blob.
    BlobWritten(Vec<u8>),
    /// These numbers are refused by the blob writer: 42.
    BlobNotWritten,
}

impl Case {
    /// Whether the input is a sheet and neither a blob nor a writer's.
    pub fn is_sheet(&self) -> bool {
        !self.is_of_blobs() && !matches!(self.outcome, Outcome::Written | Outcome::NotWritten)
    }

    /// Whether the input is a blob.
    pub fn is_blob(&self) -> bool {
        matches!(self.outcome, Outcome::AsBlob(_))
    }

    /// Whether the input is a blob or the blob writer's.
    pub fn is_of_blobs(&self) -> bool {
        self.is_blob() || matches!(self.outcome, Outcome::BlobWritten(_) | Outcome::BlobNotWritten)
    }
}

/// Cases as they are put together.
#[derive(Default)]
pub struct Cases(pub Vec<Case>);

impl Cases {
    /// Adds a case.
    pub fn add(&mut self, name: impl Into<String>, input: impl Into<Vec<u8>>, outcome: Outcome) {
        self.0.push(Case { name: name.into(), input: input.into(), outcome });
    }

    /// A sheet that is read.
    pub fn read(&mut self, name: impl Into<String>, sheet: Geometry) {
        self.add(name, sheet, Outcome::Read);
    }

    /// A sheet with these owners before repair.
    pub fn sets(&mut self, name: impl Into<String>, sheet: Geometry, sets: &[u64]) {
        self.add(name, sheet, Outcome::Sets(sets.to_vec()));
    }

    /// A sheet with these numbers after repair.
    pub fn repaired(&mut self, name: impl Into<String>, sheet: Geometry, numbers: &[u8]) {
        self.add(name, sheet, Outcome::Repaired(numbers.to_vec()));
    }

    /// A sheet with these numbers after repair by priority, and those by the longest shared boundary.
    pub fn in_ways(&mut self, name: impl Into<String>, sheet: Geometry, priority: &[u8], longest: &[u8]) {
        self.add(name, sheet, Outcome::InWays(priority.to_vec(), longest.to_vec()));
    }

    /// A sheet with these owners at points.
    pub fn owned(&mut self, name: impl Into<String>, sheet: Geometry, at: &[(i32, i32, u64)]) {
        self.add(name, sheet, Outcome::Owned(at.to_vec()));
    }

    /// A sheet that is refused.
    pub fn refused(&mut self, name: impl Into<String>, sheet: impl Into<Vec<u8>>, (code, item): (u8, u64)) {
        self.add(name, sheet, Outcome::Refused(code, item));
    }

    /// A sheet of which this is said in the present mode, and that in the older one.
    pub fn in_modes(&mut self, name: impl Into<String>, sheet: Geometry, this: Outcome, that: Outcome) {
        self.add(name, sheet, Outcome::InModes(Box::new(this), Box::new(that)));
    }

    /// A blob of which this is said.
    pub fn blob(&mut self, name: impl Into<String>, blob: impl Into<Vec<u8>>, outcome: Outcome) {
        self.add(name, blob, Outcome::AsBlob(Box::new(outcome)));
    }

    /// A sheet that can't be read, with the position of the field at fault.
    pub fn unread(&mut self, name: impl Into<String>, sheet: impl Into<Vec<u8>>, (code, item): (u8, u64), at: u64) {
        self.add(name, sheet, Outcome::Unread(code, item, at));
    }
}
