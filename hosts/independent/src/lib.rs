//! Sheets, triangles and owners: an independent program, written from document 01, the requests of document 02 that
//! docs/document-01.md names, and the choices of open-points.md and open-points-02.md alone, to compare the library's
//! answers with. Nothing here was taken from the library.
//!
//! All arithmetic is in whole numbers and exact. Coordinates are at most 10^7 in size, so that a double area and a
//! ring edge's share of one are below 10^15, and the sum of 4,096 such is below 5·10^18: i64 holds them all.

#![warn(missing_docs)]

pub mod blob;
pub mod bridge;
pub mod cases;
pub mod entries;
pub mod generate;
pub mod listing;
pub mod made;
pub mod ownership;
pub mod plane;
pub mod points;
pub mod reading;
pub mod repair;
pub mod rings;
pub mod stored;
pub mod table;
pub mod turning;
pub mod writing;

#[cfg(test)]
mod definitions;

/// A point in millimetres. Points are ordered by x, then by y.
#[derive(Clone, Copy, PartialEq, Eq, PartialOrd, Ord, Debug)]
pub struct Point {
    /// The first of the point's two numbers.
    pub x: i64,
    /// The second of the point's two numbers.
    pub y: i64,
}

/// An ordered pair (u, v) of points: a triangle's side, or a piece of a ring's edge.
pub type Side = (Point, Point);

/// A triangle of the table, without the closing point.
pub type Triangle = [Point; 3];

/// A ring with its closing point.
pub type Ring = Vec<Point>;

/// One polygon of a member after unfolding: its rings.
pub type Part = Vec<Ring>;

/// A further member of the sheet, "polygon of the sheet": its list of polygons with nesting unfolded.
pub type Member = Vec<Part>;

/// A sheet read in numbers.
#[derive(Clone, PartialEq, Eq, Debug, Default)]
pub struct Sheet {
    /// The triangle table.
    pub triangles: Vec<Triangle>,
    /// The polygons of the sheet; polygon number k stands at k - 1.
    pub polygons: Vec<Member>,
}

/// A refusal: code and item of document 01's table.
#[derive(Clone, Copy, PartialEq, Eq, Debug)]
pub struct Refusal {
    /// The refusal's number.
    pub code: u8,
    /// A member, a triangle, a polygon's number or 0.
    pub item: u64,
}

impl Refusal {
    /// The refusal with this code and item.
    pub fn new(code: u8, item: u64) -> Refusal {
        Refusal { code, item }
    }
}

/// The counts that document 01 allows, from and to.
pub mod limits {
    /// Members of the sheet.
    pub const SHEET_MEMBERS: (u32, u32) = (1, 65);
    /// Members of an inner collection, and parts of a MultiPolygon.
    pub const INNER_MEMBERS: (u32, u32) = (1, 64);
    /// The most polygons under one member, after unfolding.
    pub const POLYGONS_UNDER_MEMBER: usize = 64;
    /// Triangles.
    pub const TRIANGLES: (u32, u32) = (2, 1_024);
    /// Rings of a table piece.
    pub const PIECE_RINGS: (u32, u32) = (1, 1);
    /// Points in the ring of a table piece.
    pub const PIECE_POINTS: (u32, u32) = (4, 4);
    /// Rings of a polygon.
    pub const RINGS: (u32, u32) = (1, 64);
    /// Points in a polygon's ring.
    pub const RING_POINTS: (u32, u32) = (4, 4_096);
    /// The most polygon points in the whole sheet.
    pub const SHEET_POINTS: usize = 4_096;
    /// The deepest collection, the sheet counted as 1.
    pub const DEPTH: u32 = 4;
    /// The greatest coordinate; the smallest is its negative.
    pub const COORDINATE: i64 = 10_000_000;
}
