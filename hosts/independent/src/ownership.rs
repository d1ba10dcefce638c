//! Which set of triangles carries a member, and the owners of each triangle of a sheet.
//!
//! The set is found by winding numbers. Count, for an edge and a point inside a triangle, whether the edge passes the
//! ray from the point to the right: upward 1, downward -1, else 0 (its lower end belongs to it, its upper end not).
//! The count of an edge is the sum over its pieces, that of vu is minus that of uv, and a triangle's sides together
//! count 1 for a point inside it and 0 for one inside another triangle of the table. So if some set of triangles has
//! the member's boundary, the member's edges together count 1 for a point inside a triangle of the set and 0 for one
//! inside any other: only that one set comes into question. Whether it has the member's boundary is then compared at
//! every ordered pair.

use crate::plane::Boundary;
use crate::reading::{read_in, Mode};
use crate::table::Table;
use crate::{Member, Point, Refusal, Sheet, Side, Triangle};

/// A sheet that was read, whose table keeps its rules, and whose members are all carried and have ground.
pub struct Judged {
    /// The sheet in numbers.
    pub sheet: Sheet,
    /// Its checked table.
    pub table: Table,
    /// The owners of each triangle before repair, bit k - 1 standing for polygon k.
    pub owners: Vec<u64>,
}

/// Reads a sheet in this mode, checks its table and a blob's envelope, and judges its polygons in number order: refusals 50, 51, 1 to 8,
/// 10, 11, 12, 52, and 20 or 21 with the number of the first polygon that is refused.
pub fn judge_sheet(mode: Mode, bytes: &[u8]) -> Result<Judged, Refusal> {
    let read = read_in(mode, bytes).map_err(|fault| fault.refusal)?;
    let table = Table::check(&read.sheet.triangles)?;
    read.check_envelope()?;
    let sheet = read.sheet;
    let inside = PointsInside::of(&table.triangles);
    let mut owners = vec![0; table.triangles.len()];
    for (place, member) in sheet.polygons.iter().enumerate() {
        let set = judge(&table, &inside, member).map_err(|code| Refusal::new(code, place as u64 + 1))?;
        for (owner, _) in owners.iter_mut().zip(set).filter(|(_, owned)| *owned) {
            *owner |= 1 << place;
        }
    }
    Ok(Judged { sheet, table, owners })
}

/// The judging of one polygon: the set of triangles with the same boundary at every ordered pair; 20 if there is none, 21 if
/// that boundary is zero everywhere.
pub fn judge(table: &Table, inside: &PointsInside, member: &Member) -> Result<Vec<bool>, u8> {
    let mut boundary = Boundary::default();
    for edge in edges(member) {
        boundary.add_edge(&table.corners, edge);
    }
    let set = wound_round(inside, member).filter(|set| is_boundary_of(table, set, boundary.clone())).ok_or(20)?;
    if boundary.is_zero() {
        return Err(21);
    }
    Ok(set)
}

/// The one set of triangles that comes into question, if there is one.
fn wound_round(inside: &PointsInside, member: &Member) -> Option<Vec<bool>> {
    let once = |number| match number {
        0 => Some(false),
        1 => Some(true),
        _ => None,
    };
    inside.winding_numbers(member).into_iter().map(once).collect()
}

/// The edges of all rings of all polygons of a member.
pub fn edges(member: &Member) -> impl Iterator<Item = Side> + '_ {
    let rings = member.iter().flatten();
    rings.flat_map(|ring| ring.windows(2).map(|edge| (edge[0], edge[1])))
}

/// A member's double area: the sum over its ring edges of px·qy - qx·py.
pub fn member_double_area(member: &Member) -> i64 {
    edges(member).map(|(p, q)| p.x * q.y - q.x * p.y).sum()
}

/// Whether this set of triangles has this boundary at every ordered pair.
fn is_boundary_of(table: &Table, set: &[bool], mut difference: Boundary) -> bool {
    for (triangle, _) in table.triangles.iter().zip(set).filter(|(_, owned)| **owned) {
        difference.subtract_triangle(triangle);
    }
    difference.is_zero()
}

/// A point inside each triangle, three times as large to be whole: the sum of its corners. Ordered by y.
pub struct PointsInside {
    by_height: Vec<(Point, usize)>,
}

impl PointsInside {
    /// The points inside these triangles.
    pub fn of(triangles: &[Triangle]) -> PointsInside {
        let centre = |[a, b, c]: &Triangle| Point { x: a.x + b.x + c.x, y: a.y + b.y + c.y };
        let numbered = triangles.iter().enumerate();
        let mut by_height: Vec<_> = numbered.map(|(place, triangle)| (centre(triangle), place)).collect();
        by_height.sort_unstable_by_key(|(point, place)| (point.y, *place));
        PointsInside { by_height }
    }

    /// How often the member's rings wind round the point inside each triangle, in table order.
    pub fn winding_numbers(&self, member: &Member) -> Vec<i64> {
        let mut numbers = vec![0; self.by_height.len()];
        for (p, q) in edges(member) {
            let (sign, low, high) = if p.y < q.y { (1, p, q) } else { (-1, q, p) };
            for &(point, place) in self.between(low.y, high.y) {
                numbers[place] += sign * i64::from(passes(low, high, point));
            }
        }
        numbers
    }

    /// The points at or above the lower height and below the higher one.
    fn between(&self, low: i64, high: i64) -> &[(Point, usize)] {
        let from = self.by_height.partition_point(|(point, _)| point.y < 3 * low);
        let to = self.by_height.partition_point(|(point, _)| point.y < 3 * high);
        &self.by_height[from..to]
    }
}

/// Whether the upward edge from low to high, at the height of the point (given three times as large), passes to the
/// right of it: the point is strictly on the edge's left.
fn passes(low: Point, high: Point, point: Point) -> bool {
    let (x, y) = (point.x - 3 * low.x, point.y - 3 * low.y);
    (high.x - low.x) * y - x * (high.y - low.y) > 0
}
