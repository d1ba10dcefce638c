//! Double areas of polygons from their corners alone: whatever the table is, and whether or not anything carries them.

use super::case::{Cases, Outcome};
use super::ground::*;
use crate::limits::COORDINATE;
use crate::made::{multi_polygon, polygon, Geometry};

pub fn cases(cases: &mut Cases) {
    directions(cases);
    rings_and_parts(cases);
    first_corner(cases);
    not_judged(cases);
    far(cases);
}

fn areas(areas: &[i64]) -> Outcome {
    Outcome::Areas(areas.to_vec())
}

/// One polygon's double area in the present mode and in the older one.
fn of_one(cases: &mut Cases, name: &str, member: Geometry, present: i64, older: i64) {
    cases.in_modes(format!("area: {name}"), on_strip(vec![member]), areas(&[present]), areas(&[older]));
}

/// A ring either way round, and one that runs both ways.
fn directions(cases: &mut Cases) {
    of_one(cases, "a rectangle", one(from_to(0, 4)), 32, 32);
    of_one(cases, "a rectangle clockwise", one(turned(from_to(0, 4))), -32, 32);
    of_one(cases, "a rectangle twice round", one([from_to(0, 2), from_to(0, 2)[1..].to_vec()].concat()), 32, 32);
    let eight = closed(&[(0, 0), (2, 0), (2, 4), (4, 4), (4, 0), (2, 0), (2, 4), (0, 4)]);
    of_one(cases, "an eight", one(eight), 0, 0);
    of_one(cases, "a line drawn twice", one(closed(&[(0, 0), (2, 0), (2, 0)])), 0, 0);
    of_one(cases, "one point", one(closed(&[(3, 3), (3, 3), (3, 3)])), 0, 0);
}

/// Holes and parts add up, each ring with its own sign.
fn rings_and_parts(cases: &mut Cases) {
    let [outer, inner] = [((0, 8), (0, 4)), ((2, 4), (1, 3))].map(|(x, y)| rectangle(x, y));
    let rings = |first: &Way, second: &Way| polygon(vec![first.clone(), second.clone()]);
    of_one(cases, "a hole", rings(&outer, &turned(inner.clone())), 56, 56);
    of_one(cases, "a hole the wrong way", rings(&outer, &inner), 72, 56);
    of_one(cases, "a hole listed first", rings(&turned(inner.clone()), &outer), 56, -56);
    let parts = vec![one(turned(from_to(0, 2))), one(from_to(4, 6))];
    of_one(cases, "two parts, the first clockwise", multi_polygon(parts), 0, 32);
    let many = on_strip(vec![one(from_to(0, 4)), one(turned(from_to(2, 6))), one(from_to(4, 8))]);
    cases.in_modes("areas of three polygons in number order", many, areas(&[32, -32, 32]), areas(&[32, 32, 32]));
    let none = || areas(&[]);
    cases.in_modes("areas of no polygons", on_strip(vec![]), none(), none());
}

/// The last but one of the points comes before the first corner: with the closing point in its place, or the first corner left out,
/// these would have another double area. No two corners of this ring have the same x or the same y.
fn first_corner(cases: &mut Cases) {
    let ring = [(1, 2), (7, 3), (5, 11), (-3, 6)];
    for first in 0..ring.len() {
        let mut ring = ring;
        ring.rotate_left(first);
        of_one(cases, &format!("four corners, from corner {}", first + 1), one(closed(&ring)), 102, 102);
        let moved = ring.map(|(x, y)| (x - 1_000, y + 5_000));
        of_one(cases, &format!("four corners moved, from corner {}", first + 1), one(closed(&moved)), 102, 102);
    }
}

/// Nothing is judged: the table may break each rule, and the polygon may be carried by no set, or have no ground.
fn not_judged(cases: &mut Cases) {
    let flat = [[(0, 0), (1, 1), (2, 2)], [(0, 0), (8, 0), (8, 4)]];
    let twice = [[(0, 0), (8, 0), (8, 4)], [(0, 0), (8, 0), (8, 4)]];
    let half = [[(0, 0), (8, 0), (8, 4)], [(0, 0), (8, 4), (3, 9)]];
    for (name, triangles) in [("A", flat), ("B", twice), ("C", half)] {
        let broken = sheet(&triangles, vec![strip_part(0, 4)]);
        cases.in_modes(format!("area: a table that breaks rule {name}"), broken, areas(&[32]), areas(&[32]));
    }
    of_one(cases, "not carried", one(closed(&[(0, 0), (3, 0), (3, 3), (0, 3)])), 18, 18);
    of_one(cases, "beside the frame", one(closed(&[(100, 100), (103, 100), (100, 104)])), 12, 12);
}

/// The largest coordinates, once round and as often as there are points for it.
fn far(cases: &mut Cases) {
    let most = COORDINATE as i32;
    let corners = [(-most, -most), (most, -most), (most, most), (-most, most)];
    let round = 8 * COORDINATE * COORDINATE;
    of_one(cases, "the largest frame", one(closed(&corners)), round, round);
    of_one(cases, "the largest frame clockwise", one(turned(closed(&corners))), -round, round);
    let often: Vec<(i32, i32)> = corners.into_iter().cycle().take(4_092).collect();
    of_one(cases, "the largest frame 1,023 times round", one(closed(&often)), 1_023 * round, 1_023 * round);
    of_one(
        cases,
        "the largest frame 1,023 times round clockwise",
        one(turned(closed(&often))),
        -1_023 * round,
        1_023 * round,
    );
}
