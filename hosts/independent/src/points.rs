//! What is at a point: which triangle it belongs to, and who owns that after repair.

use crate::ownership::Judged;
use crate::plane::{double_area, sides};
use crate::repair::{repaired, WAYS};
use crate::{Point, Refusal, Sheet, Side, Triangle};

/// Whether the point is strictly to the left of the side, or on the line of a side that runs downward, or on that of a side that
/// runs level to the right.
fn keeps((u, v): Side, point: Point) -> bool {
    let turn = double_area(&[u, v, point]);
    let (downward, level_to_the_right) = (v.y < u.y, v.y == u.y && v.x > u.x);
    turn > 0 || turn == 0 && (downward || level_to_the_right)
}

/// Whether the point belongs to the triangle.
pub fn belongs(triangle: &Triangle, point: Point) -> bool {
    sides(triangle).into_iter().all(|side| keeps(side, point))
}

/// The owner after repair in the way of this number at the point: after 54 and 30 comes 55, where it belongs to no triangle.
pub fn owner_at(judged: &Judged, way: u32, point: Point) -> Result<u8, Refusal> {
    let repaired = repaired(judged, way)?;
    let place = judged.table.triangles.iter().position(|triangle| belongs(triangle, point));
    place.map(|place| repaired[place]).ok_or(Refusal::new(55, 0))
}

/// A point of a triangle that has one owner after repair by priority and another by the longest shared boundary, if there is one.
pub fn in_dispute(judged: &Judged) -> Option<(i32, i32)> {
    let [priority, longest] = WAYS.map(|way| repaired(judged, way));
    let (priority, longest) = (priority.ok()?, longest.ok()?);
    let disputed =
        judged.table.triangles.iter().zip(priority.iter().zip(longest)).filter(|(_, (one, other))| **one != *other);
    let points = disputed.flat_map(|(triangle @ [a, b, c], _)| {
        let middle = Point { x: (a.x + b.x + c.x).div_euclid(3), y: (a.y + b.y + c.y).div_euclid(3) };
        [middle, *a, *b, *c].into_iter().filter(|point| belongs(triangle, *point))
    });
    points.map(|point| (point.x as i32, point.y as i32)).next()
}

/// A frame with no more grid points in and round it has all of them asked for.
const SMALL: i64 = 120;

/// Points that are asked for on every sheet: the ends of the range, and one behind the coordinates.
const FAR: [(i32, i32); 8] = [
    (i32::MIN, i32::MIN),
    (i32::MIN, i32::MAX),
    (i32::MAX, i32::MIN),
    (i32::MAX, i32::MAX),
    (0, i32::MIN),
    (i32::MAX, 0),
    (10_000_000, 10_000_000),
    (-10_000_001, 0),
];

/// Points to ask for on a sheet. Of a small frame every grid point in it and right round it; of another the corners of its first and last
/// triangles, with the points beside them and in the middle of their sides, and points on and beside the frame's four sides.
pub fn to_ask(sheet: &Sheet) -> Vec<(i32, i32)> {
    let corners = sheet.triangles.concat();
    let least = |of: fn(&Point) -> i64| corners.iter().map(of).min().unwrap_or(0);
    let greatest = |of: fn(&Point) -> i64| corners.iter().map(of).max().unwrap_or(0);
    let (left, right, low, high) = (least(|p| p.x), greatest(|p| p.x), least(|p| p.y), greatest(|p| p.y));
    let mut points: Vec<(i64, i64)> = Vec::new();
    if (right - left + 3).saturating_mul(high - low + 3) <= SMALL {
        points.extend((left - 1..=right + 1).flat_map(|x| (low - 1..=high + 1).map(move |y| (x, y))));
    } else {
        let (middle, half) = ((left + right).div_euclid(2), (low + high).div_euclid(2));
        let [xs, ys] = [[left, middle, right], [low, half, high]];
        let beside = |x: i64, y: i64| [(x, y), (x - 1, y), (x, y - 1), (x + 1, y + 1)];
        points.extend(xs.iter().flat_map(|x| ys.iter().flat_map(move |y| beside(*x, *y))));
        let ends = sheet.triangles.iter().take(2).chain(sheet.triangles.last());
        for (u, v) in ends.flat_map(sides) {
            points.extend([(u.x, u.y), ((u.x + v.x).div_euclid(2), (u.y + v.y).div_euclid(2)), (u.x, u.y + 1)]);
        }
    }
    points.into_iter().map(|(x, y)| (x as i32, y as i32)).chain(FAR).collect()
}
