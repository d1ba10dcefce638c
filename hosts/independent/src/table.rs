//! The triangle table and its rules A, B and C.

use crate::plane::{double_area, sides, Boundary};
use crate::{Point, Refusal, Side, Triangle};

/// A table that keeps rules A, B and C.
pub struct Table {
    /// The triangles in table order.
    pub triangles: Vec<Triangle>,
    /// The table corners, each once, in order.
    pub corners: Vec<Point>,
    /// Every side with its triangle's place, in order of sides.
    sides: Vec<(Side, usize)>,
}

impl Table {
    /// The checked table, or the first of 10, 11 and 12.
    pub fn check(triangles: &[Triangle]) -> Result<Table, Refusal> {
        rule_a(triangles)?;
        let sides = sorted_sides(triangles);
        rule_b(&sides)?;
        let corners = corners(triangles);
        rule_c(triangles, &corners)?;
        Ok(Table { triangles: triangles.to_vec(), corners, sides })
    }

    /// The triangle on the other side of uv: the one with side vu.
    pub fn across(&self, (u, v): Side) -> Option<usize> {
        let found = self.sides.binary_search_by_key(&(v, u), |&(side, _)| side);
        found.ok().map(|place| self.sides[place].1)
    }
}

/// For each triangle and side, by triangle and then ab, bc, ca, the number of the triangle with the reversed side, 0 for none: a little-endian
/// u16 each.
pub fn index(table: &Table) -> Vec<u8> {
    let across = |side| table.across(side).map_or(0, |place| place as u16 + 1);
    table.triangles.iter().flat_map(sides).flat_map(|side| across(side).to_le_bytes()).collect()
}

/// Every side of every triangle with the triangle's place, in order of sides and then of places.
pub fn sorted_sides(triangles: &[Triangle]) -> Vec<(Side, usize)> {
    let numbered = triangles.iter().enumerate();
    let mut all: Vec<_> = numbered.flat_map(|(place, t)| sides(t).map(|side| (side, place))).collect();
    all.sort_unstable();
    all
}

/// The corners of these triangles, each once, in order.
pub fn corners(triangles: &[Triangle]) -> Vec<Point> {
    let mut corners = triangles.concat();
    corners.sort_unstable();
    corners.dedup();
    corners
}

/// The corners of the smallest upright rectangle that holds all these points, anticlockwise.
pub fn frame(corners: &[Point]) -> [Point; 4] {
    let (mut low, mut high) = (corners[0], corners[0]);
    for corner in corners {
        low = Point { x: low.x.min(corner.x), y: low.y.min(corner.y) };
        high = Point { x: high.x.max(corner.x), y: high.y.max(corner.y) };
    }
    [low, Point { x: high.x, y: low.y }, high, Point { x: low.x, y: high.y }]
}

/// Every triangle has a double area above 0; else 10 with the first that hasn't.
fn rule_a(triangles: &[Triangle]) -> Result<(), Refusal> {
    match triangles.iter().position(|t| double_area(t) <= 0) {
        Some(place) => Err(Refusal::new(10, place as u64 + 1)),
        None => Ok(()),
    }
}

/// No ordered pair is a side of two triangles; else 11 with the first triangle that has a side of an earlier one.
fn rule_b(sides: &[(Side, usize)]) -> Result<(), Refusal> {
    let repeated = sides.windows(2).filter(|pair| pair[0].0 == pair[1].0);
    match repeated.map(|pair| pair[1].1).min() {
        Some(place) => Err(Refusal::new(11, place as u64 + 1)),
        None => Ok(()),
    }
}

/// The set of all triangles has the anticlockwise frame as its boundary; else 12.
fn rule_c(triangles: &[Triangle], corners: &[Point]) -> Result<(), Refusal> {
    let mut difference = Boundary::default();
    let [a, b, c, d] = frame(corners);
    for edge in [(a, b), (b, c), (c, d), (d, a)] {
        difference.add_edge(corners, edge);
    }
    for triangle in triangles {
        difference.subtract_triangle(triangle);
    }
    if difference.is_zero() {
        Ok(())
    } else {
        Err(Refusal::new(12, 0))
    }
}
