//! The numbers form, and the writers that take it.

use crate::blob;
use crate::reading::{COLLECTION, MULTI_POLYGON, POLYGON, TIN, TRIANGLE};
use crate::{limits, Member, Part, Point, Refusal, Ring, Sheet, Triangle};

/// The sheet as little-endian i32: every count before what it counts, triangles unclosed, rings closed.
pub fn numbers(sheet: &Sheet) -> Vec<u8> {
    let mut out = Numbers(Vec::new());
    out.count(sheet.triangles.len());
    out.points(sheet.triangles.as_flattened());
    out.count(sheet.polygons.len());
    for member in &sheet.polygons {
        out.count(member.len());
        for part in member {
            out.count(part.len());
            for ring in part {
                out.count(ring.len());
                out.points(ring);
            }
        }
    }
    out.0
}

struct Numbers(Vec<u8>);

impl Numbers {
    fn number(&mut self, number: i64) {
        self.0.extend((number as i32).to_le_bytes());
    }

    fn count(&mut self, count: usize) {
        self.number(count as i64);
    }

    fn points(&mut self, points: &[Point]) {
        for point in points {
            self.number(point.x);
            self.number(point.y);
        }
    }
}

/// The sheet that these numbers make up, or 42.
pub fn take_numbers(bytes: &[u8]) -> Result<Sheet, Refusal> {
    let mut taker = Taker { rest: bytes, points: 0 };
    let sheet = taker.sheet().filter(|_| taker.rest.is_empty());
    sheet.ok_or(Refusal::new(42, 0))
}

/// The numbers not yet taken, and the running total of polygon points. Everything answers None for 42.
struct Taker<'a> {
    rest: &'a [u8],
    points: usize,
}

impl Taker<'_> {
    fn number(&mut self) -> Option<i64> {
        let (number, rest) = self.rest.split_first_chunk::<4>()?;
        self.rest = rest;
        Some(i64::from(i32::from_le_bytes(*number)))
    }

    fn count(&mut self, (from, to): (u32, u32)) -> Option<usize> {
        let count = self.number()?;
        (i64::from(from)..=i64::from(to)).contains(&count).then_some(count as usize)
    }

    fn point(&mut self) -> Option<Point> {
        let point = Point { x: self.number()?, y: self.number()? };
        let in_range = |number: i64| number.abs() <= limits::COORDINATE;
        (in_range(point.x) && in_range(point.y)).then_some(point)
    }

    fn sheet(&mut self) -> Option<Sheet> {
        let triangles = self.count(limits::TRIANGLES)?;
        let triangles = (0..triangles).map(|_| self.triangle()).collect::<Option<_>>()?;
        let (fewest, most) = limits::SHEET_MEMBERS;
        let polygons = self.count((fewest - 1, most - 1))?;
        let polygons = (0..polygons).map(|_| self.member()).collect::<Option<_>>()?;
        Some(Sheet { triangles, polygons })
    }

    fn triangle(&mut self) -> Option<Triangle> {
        Some([self.point()?, self.point()?, self.point()?])
    }

    fn member(&mut self) -> Option<Member> {
        let parts = self.count((1, limits::POLYGONS_UNDER_MEMBER as u32))?;
        (0..parts).map(|_| self.part()).collect()
    }

    fn part(&mut self) -> Option<Part> {
        let rings = self.count(limits::RINGS)?;
        (0..rings).map(|_| self.ring()).collect()
    }

    fn ring(&mut self) -> Option<Ring> {
        let points = self.count(limits::RING_POINTS)?;
        self.points += points;
        if self.points > limits::SHEET_POINTS {
            return None;
        }
        let ring = (0..points).map(|_| self.point()).collect::<Option<Ring>>()?;
        (ring.first() == ring.last()).then_some(ring)
    }
}

/// The blob that these numbers make up, the reference-system number before those of the sheet, or 42.
pub fn write_blob(bytes: &[u8]) -> Result<Vec<u8>, Refusal> {
    let (number, rest) = bytes.split_first_chunk::<4>().ok_or(Refusal::new(42, 0))?;
    let sheet = take_numbers(rest)?;
    Ok([blob::header(i32::from_le_bytes(*number), &sheet), write(&sheet)].concat())
}

/// The sheet in WKB: byte order 1 throughout, pieces of type 17, a Polygon where a member has one polygon and else
/// a MultiPolygon, +0 for zero.
pub fn write(sheet: &Sheet) -> Vec<u8> {
    let mut out = Writer(Vec::new());
    out.header(COLLECTION, 1 + sheet.polygons.len());
    out.header(TIN, sheet.triangles.len());
    for &[a, b, c] in &sheet.triangles {
        out.header(TRIANGLE, 1);
        out.ring(&[a, b, c, a]);
    }
    for member in &sheet.polygons {
        if member.len() != 1 {
            out.header(MULTI_POLYGON, member.len());
        }
        for part in member {
            out.header(POLYGON, part.len());
            part.iter().for_each(|ring| out.ring(ring));
        }
    }
    out.0
}

struct Writer(Vec<u8>);

impl Writer {
    fn number(&mut self, number: u32) {
        self.0.extend(number.to_le_bytes());
    }

    fn header(&mut self, kind: u32, count: usize) {
        self.0.push(1);
        self.number(kind);
        self.number(count as u32);
    }

    fn ring(&mut self, ring: &[Point]) {
        self.number(ring.len() as u32);
        for point in ring {
            self.0.extend((point.x as f64).to_le_bytes());
            self.0.extend((point.y as f64).to_le_bytes());
        }
    }
}
