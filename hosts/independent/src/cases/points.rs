//! Owners at points: on corners, sides and the frame, at the ends of the range, and after repair.

use super::case::Cases;
use super::ground::*;
use crate::limits::COORDINATE;

pub fn cases(cases: &mut Cases) {
    of_strip(cases);
    on_sides(cases);
    round_a_corner(cases);
    far(cases);
    before_55(cases);
}

/// The strip sheet: 1 has the ground up to 4, since the overlap goes to it, and 2 the rest, the gap with it.
fn of_strip(cases: &mut Cases) {
    let owner = |x: i32| if x < 4 { 1 } else { 2 };
    let inside: Vec<(i32, i32, u64)> = (0..8).flat_map(|x| (0..4).map(move |y| (x, y, owner(x)))).collect();
    let upper = (-1..=9).flat_map(|x| [(x, -1, 0), (x, 4, 0), (x, 5, 0)]);
    let beside = (-1..=5).flat_map(|y| [(-1, y, 0), (8, y, 0), (9, y, 0)]);
    let points: Vec<(i32, i32, u64)> = inside.into_iter().chain(upper).chain(beside).collect();
    cases.owned(
        "points of the strip sheet, and right round it",
        on_strip(vec![strip_part(0, 4), strip_part(2, 6)]),
        &points,
    );
}

/// Two triangles with an owner each: a point on their common side belongs to the one on whose side it runs downward, and of the frame's
/// sides the left and the lower one are kept.
fn on_sides(cases: &mut Cases) {
    let (lower, upper) = ([(0, 0), (8, 0), (8, 4)], [(0, 0), (8, 4), (0, 4)]);
    let halves = [lower, upper].map(|corners| one(closed(&corners))).to_vec();
    let points = [
        (0, 0, 1),
        (2, 1, 1),
        (6, 3, 1),
        (3, 1, 1),
        (1, 1, 2),
        (5, 0, 1),
        (7, 0, 1),
        (8, 0, 0),
        (0, 1, 2),
        (0, 3, 2),
        (0, 4, 0),
        (5, 4, 0),
        (8, 2, 0),
        (8, 4, 0),
    ];
    cases.owned("points on the side of two triangles", sheet(&[lower, upper], halves.clone()), &points);
    let turned = [[(8, 4), (0, 0), (8, 0)], [(8, 4), (0, 4), (0, 0)]];
    cases.owned("points on the side of two triangles, listed from other corners", sheet(&turned, halves), &points);
    let falling = [[(0, 0), (8, 0), (0, 4)], [(8, 0), (8, 4), (0, 4)]];
    let halves = falling.map(|corners| one(closed(&corners))).to_vec();
    let points =
        [(0, 0, 1), (4, 2, 2), (2, 3, 2), (3, 2, 1), (5, 2, 2), (0, 3, 1), (0, 4, 0), (8, 0, 0), (7, 0, 1), (7, 1, 2)];
    cases.owned("points on a side that falls to the right", sheet(&falling, halves), &points);
}

/// The corner of four triangles belongs to the one on its right, and a corner of four rectangles to the upper right one.
fn round_a_corner(cases: &mut Cases) {
    let quarters = star((2, 2), &[(0, 0), (4, 0), (4, 4), (0, 4)]);
    let owners = quarters.iter().map(|corners| one(closed(corners))).collect();
    let points = [
        (2, 2, 2),
        (1, 1, 1),
        (3, 1, 2),
        (3, 3, 2),
        (1, 3, 3),
        (2, 1, 1),
        (3, 2, 2),
        (2, 3, 3),
        (1, 2, 4),
        (0, 0, 1),
        (0, 2, 4),
    ];
    cases.owned("points round a corner of four triangles", sheet(&quarters, owners), &points);
    let four = rising(&[0, 2, 4], &[0, 2, 4]);
    let rectangles = [((0, 2), (0, 2)), ((2, 4), (0, 2)), ((0, 2), (2, 4)), ((2, 4), (2, 4))];
    let owners = rectangles.into_iter().map(|(x, y)| one(rectangle(x, y))).collect();
    let points = [(2, 2, 4), (1, 2, 3), (2, 1, 2), (1, 1, 1), (3, 2, 4), (2, 3, 4), (3, 3, 4), (4, 2, 0), (2, 4, 0)];
    cases.owned("points round a corner of four rectangles", sheet(&four, owners), &points);
}

/// The largest frame, and points at the ends of the range.
fn far(cases: &mut Cases) {
    let most = COORDINATE as i32;
    let [a, b, c, d] = [(-most, -most), (most, -most), (most, most), (-most, most)];
    let halves = [[a, b, c], [a, c, d]];
    let owners = halves.map(|corners| one(closed(&corners))).to_vec();
    let inside = [
        (-most, -most, 1),
        (most - 1, most - 1, 1),
        (0, 0, 1),
        (0, 1, 2),
        (1, 0, 1),
        (-most, most - 1, 2),
        (most - 1, -most, 1),
    ];
    let ends = [i32::MIN, i32::MIN + 1, -most - 1, most, most + 1, i32::MAX];
    let outside = ends
        .into_iter()
        .flat_map(|end| [(end, 0, 0), (0, end, 0), (end, end, 0), (end, i32::MIN, 0), (i32::MAX, end, 0)]);
    let points: Vec<(i32, i32, u64)> = inside.into_iter().chain(outside).collect();
    cases.owned("points of the largest frame and behind it", sheet(&halves, owners), &points);
}

/// 30 comes before 55, and so do all codes before it.
fn before_55(cases: &mut Cases) {
    let half = [[(0, 0), (8, 0), (8, 4)], [(0, 0), (8, 4), (3, 9)]];
    cases.refused("a point where rule C is broken", sheet(&half, vec![strip_part(0, 4)]), (12, 0));
}
