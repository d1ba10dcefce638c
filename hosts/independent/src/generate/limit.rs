//! Sheets at a limit of document 01's counts or one past it, and geometries where they can't stand.

use super::dice::Dice;
use super::draft::{Draft, Shape};
use super::mesh;
use crate::reading::{COLLECTION, MULTI_POLYGON, POLYGON, TIN, TRIANGLE};
use crate::{Part, Point, Ring};

/// Changes the draft so that one of its counts is at a limit or past it, or a geometry stands where it can't.
pub fn reach(dice: &mut Dice, draft: &mut Draft) {
    match dice.below(24) {
        0..=4 => depth(dice, draft),
        5..=8 => polygons_under_a_member(dice, draft),
        9 | 10 => parts(dice, draft),
        11 | 12 => rings(dice, draft),
        13 | 14 => ring_points(dice, draft),
        15 | 16 => sheet_points(dice, draft),
        17 | 18 => sheet_members(dice, draft),
        19 => triangles(dice, draft),
        _ => misplaced(dice, draft),
    }
}

/// The greatest number allowed, the next one, or the one before.
fn about(dice: &mut Dice, most: usize) -> usize {
    most - 1 + dice.pick(&[0, 1, 1, 2, 2, 2])
}

/// A ring of zero extent with so many points, at a table corner.
fn still(draft: &Draft, points: usize) -> Ring {
    let [a, b, _] = draft.pieces[0];
    let mut ring: Vec<Point> = vec![a; points];
    if points > 3 {
        ring[1] = b;
    }
    ring
}

/// Gives ground to a shape of still rings, mostly: its first ring, if it has 4 points or more, goes round the table's first piece.
fn with_ground(dice: &mut Dice, draft: &Draft, mut shape: Shape) -> Shape {
    let still = first_ring(&mut shape).filter(|ring| ring.len() > 3 && !dice.chance(20));
    if let Some(ring) = still {
        ring[2] = draft.pieces[0][2];
    }
    shape
}

/// The first ring of a shape, if there is one where its first ring would stand.
fn first_ring(shape: &mut Shape) -> Option<&mut Ring> {
    match shape {
        Shape::Polygon(part) => part.first_mut(),
        Shape::Multi(parts) => parts.first_mut()?.first_mut(),
        Shape::Collection(shapes) | Shape::Strange(_, shapes) => first_ring(shapes.first_mut()?),
    }
}

/// Puts this member, mostly given ground, in the place of another, or after them.
fn put(dice: &mut Dice, draft: &mut Draft, shape: Shape) {
    let shape = with_ground(dice, draft, shape);
    let place = dice.below(draft.members.len() + 1);
    if place < draft.members.len() {
        draft.members[place] = shape;
    } else if draft.members.len() < 64 {
        draft.members.push(shape);
    }
}

/// A member inside so many collections that the deepest is at depth 3 to 6.
fn depth(dice: &mut Dice, draft: &mut Draft) {
    let part: Part = vec![still(draft, 4)];
    let mut shape = match dice.below(4) {
        0 => Shape::Multi(vec![part]),
        _ => Shape::Polygon(part),
    };
    let beside = shape.clone();
    for _ in 0..dice.pick(&[2, 3, 4, 4, 4, 5]) {
        let together = if dice.chance(30) { vec![beside.clone(), shape] } else { vec![shape] };
        shape = Shape::Collection(together);
    }
    put(dice, draft, shape);
}

/// 63 to 65 polygons under a member, unfolded from a MultiPolygon and what stands beside it.
fn polygons_under_a_member(dice: &mut Dice, draft: &mut Draft) {
    let part: Part = vec![still(draft, 4)];
    let first = dice.pick(&[1, 30, 63, 64]);
    let rest = about(dice, 64).saturating_sub(first);
    let mut shapes = vec![Shape::Multi(vec![part.clone(); first])];
    match dice.below(3) {
        0 => shapes.extend(vec![Shape::Polygon(part); rest]),
        1 => shapes.push(Shape::Multi(vec![part; rest.max(1)])),
        _ => shapes.push(Shape::Collection(vec![Shape::Polygon(part); rest.max(1)])),
    }
    if dice.chance(50) {
        shapes.reverse();
    }
    put(dice, draft, Shape::Collection(shapes));
}

/// 63 to 65, or no, parts of a MultiPolygon or members of a collection.
fn parts(dice: &mut Dice, draft: &mut Draft) {
    let count = if dice.chance(20) { 0 } else { about(dice, 64) };
    let part: Part = vec![still(draft, 4)];
    let shape = match dice.below(2) {
        0 => Shape::Multi(vec![part; count]),
        _ => Shape::Collection(vec![Shape::Polygon(part); count]),
    };
    put(dice, draft, shape);
}

/// 63 to 65, or no, rings of a polygon.
fn rings(dice: &mut Dice, draft: &mut Draft) {
    let count = if dice.chance(20) { 0 } else { about(dice, 64) };
    let shape = Shape::Polygon(vec![still(draft, 4); count]);
    put(dice, draft, shape);
}

/// A ring of few points, or of 4,095 to 4,097.
fn ring_points(dice: &mut Dice, draft: &mut Draft) {
    let count = if dice.chance(60) { dice.pick(&[0, 1, 2, 3, 3, 3, 4, 5]) } else { about(dice, 4_096) };
    let shape = Shape::Polygon(vec![still(draft, count)]);
    put(dice, draft, shape);
}

/// 4,095 to 4,097 polygon points in the whole sheet.
fn sheet_points(dice: &mut Dice, draft: &mut Draft) {
    let used: usize = draft.members.iter().map(points).sum();
    let rest = about(dice, 4_096).saturating_sub(used).max(8);
    let first = 4 + dice.below(rest - 7);
    let shape = Shape::Polygon(vec![still(draft, first), still(draft, rest - first)]);
    let shape = with_ground(dice, draft, shape);
    draft.members.truncate(63);
    draft.members.push(shape);
}

/// The points of a shape.
fn points(shape: &Shape) -> usize {
    let of_part = |part: &Part| part.iter().map(Vec::len).sum::<usize>();
    match shape {
        Shape::Polygon(part) => of_part(part),
        Shape::Multi(parts) => parts.iter().map(of_part).sum(),
        Shape::Collection(shapes) | Shape::Strange(_, shapes) => shapes.iter().map(points).sum(),
    }
}

/// 64 to 66 members of the sheet, the table counted.
fn sheet_members(dice: &mut Dice, draft: &mut Draft) {
    let shape = with_ground(dice, draft, Shape::Polygon(vec![still(draft, 4)]));
    draft.members.resize(about(dice, 64), shape);
}

/// 0 to 2 triangles, or 1,022 to 1,026.
fn triangles(dice: &mut Dice, draft: &mut Draft) {
    match dice.below(6) {
        0 => draft.pieces.truncate(dice.below(3)),
        1..=3 => draft.pieces = mesh::grid(dice, 32, 16),
        4 => draft.pieces = mesh::grid(dice, 27, 19),
        _ => {
            draft.pieces = mesh::grid(dice, 27, 19);
            draft.pieces.truncate(about(dice, 1_024));
        }
    }
}

/// A geometry of some type inside one of another, inside so many collections that 3 and 8 may meet.
fn misplaced(dice: &mut Dice, draft: &mut Draft) {
    let kinds = [POLYGON, MULTI_POLYGON, MULTI_POLYGON, COLLECTION, TIN, TRIANGLE, 15];
    let mut shape = Shape::Polygon(vec![still(draft, 4)]);
    for _ in 0..1 + dice.below(2) {
        shape = Shape::Strange(dice.pick(&kinds), vec![shape]);
    }
    for _ in 0..dice.below(5) {
        shape = Shape::Collection(vec![shape]);
    }
    put(dice, draft, shape);
}
