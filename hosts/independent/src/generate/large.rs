//! Large sheets of a given shape: those at the end of a length that document 01 allows, and ones of a given number of
//! triangles.

use super::dice::Dice;
use super::draft::{Draft, Shape};
use super::{mesh, polygons};
use crate::limits::{COORDINATE, SHEET_POINTS};
use crate::{Member, Point, Ring, Sheet, Triangle};

/// 1,024 triangles, and for each of 64 polygons 16 rings, round one triangle each: 4,096 points. In one out of two sheets
/// the polygons share the triangles out; in the others there are overlaps and gaps.
fn sixteen_rings_each(dice: &mut Dice) -> (Vec<Triangle>, Vec<Vec<Ring>>) {
    let mut triangles = mesh::grid(dice, 32, 16);
    dice.shuffle(&mut triangles);
    let shared_out = dice.chance(50);
    let mut polygons = Vec::new();
    for number in 0..64 {
        let first = if shared_out { 16 * number } else { dice.below(triangles.len() - 15) };
        polygons.push(triangles[first..first + 16].iter().map(round).collect());
    }
    (triangles, polygons)
}

fn round(&[a, b, c]: &Triangle) -> Ring {
    vec![a, b, c, a]
}

/// A part for each ring.
fn a_part_each(rings: Vec<Ring>) -> Member {
    rings.into_iter().map(|ring| vec![ring]).collect()
}

/// A sheet of 1,024 triangles, 64 polygons and 4,096 points, each polygon one part.
pub fn largest(dice: &mut Dice) -> Vec<u8> {
    let (triangles, polygons) = sixteen_rings_each(dice);
    let polygons = polygons.into_iter().map(|rings| vec![rings]).collect();
    Draft::of(dice, Sheet { triangles, polygons }).bytes(dice)
}

/// The same with a part for each ring. No sheet has more numbers, 65,800 bytes: every count and every point that there
/// can be. None is written in more bytes, 158,290: every header besides.
pub fn most_numbers(dice: &mut Dice) -> Vec<u8> {
    let (triangles, polygons) = sixteen_rings_each(dice);
    let polygons = polygons.into_iter().map(a_part_each).collect();
    Draft::of(dice, Sheet { triangles, polygons }).bytes(dice)
}

/// The same with two collections and a MultiPolygon round each part, in the collection that is the member. No sheet is
/// longer, 185,938 bytes: every part stands in all the headers that there can be above it.
pub fn longest(dice: &mut Dice) -> Vec<u8> {
    let (pieces, polygons) = sixteen_rings_each(dice);
    let deep = |part| Shape::Collection(vec![Shape::Collection(vec![Shape::Multi(vec![part])])]);
    let members =
        polygons.into_iter().map(|rings| Shape::Collection(a_part_each(rings).into_iter().map(deep).collect()));
    Draft { pieces, members: members.collect() }.bytes(dice)
}

/// The sheet with the most numbers, of the older edition: every ring is clockwise.
pub fn older(dice: &mut Dice) -> Vec<u8> {
    let (triangles, mut polygons) = sixteen_rings_each(dice);
    polygons.iter_mut().flatten().for_each(|ring| ring.reverse());
    let polygons = polygons.into_iter().map(a_part_each).collect();
    Draft::of(dice, Sheet { triangles, polygons }).bytes(dice)
}

/// A sheet with the longest listing, 3,328 bytes. Its 64 polygons overlap on a ground of their own at the left, and each
/// but the first has a strip besides, with a gap to the left of it, which it is given. So every polygon's area and those
/// of gaps and overlaps have 15 digits, as has that of the whole frame, and their numbers of triangles have three. After
/// repair the first polygon has 15 digits and the others 14: a second one of 15 would leave less than 14 to one of them.
pub fn longest_listing(dice: &mut Dice) -> Vec<u8> {
    let (gap, strip, columns) = (100_000, 160_000, 130);
    let strips: Vec<(i64, i64)> =
        (0..63).rev().map(|k| COORDINATE - k * (gap + strip)).map(|right| (right - strip, right)).collect();
    let ground = (-COORDINATE, strips[0].0 - gap);
    let mut xs: Vec<i64> = (0..=columns).map(|k| ground.0 + (ground.1 - ground.0) * k / columns).collect();
    xs.extend(strips.iter().flat_map(|&(left, right)| [left, right]));
    let mut triangles = mesh::on_lines(dice, &xs, &[-COORDINATE, 0, COORDINATE]);
    dice.shuffle(&mut triangles);
    let mut polygons: Vec<Member> = vec![vec![vec![upright(ground)]]];
    polygons.extend(strips.into_iter().map(|strip| vec![vec![upright(ground), upright(strip)]]));
    Draft::of(dice, Sheet { triangles, polygons }).bytes(dice)
}

/// Round the rectangle between two places, as high as can be.
fn upright((left, right): (i64, i64)) -> Ring {
    let at = |x, y| Point { x, y };
    let (low, high) = (-COORDINATE, COORDINATE);
    vec![at(left, low), at(right, low), at(right, high), at(left, high), at(left, low)]
}

/// A sheet on which polygon 1 has the most boundary sides, 1,845: those of 615 triangles of which no two share a side.
/// There can't be more. Each boundary side is on the frame or shared with one of the other n triangles, and only four
/// triangles, at the frame's corners, have two sides on the frame. So the polygon's 1,024 - n triangles have at most
/// 1,024 - n + 4 + 3n boundary sides, and at most 3 (1,024 - n): at most 1,845, for n = 409.
///
/// The sheet is one row. From left to right: two triangles of polygon 1 in the corners, one of polygon 2 between; then
/// 204 times one of polygon 1 that stands on the frame and a cell, whose middle is joined to its corners: the two on the
/// frame are polygon 1's, the two beside them polygon 2's; and one of polygon 1 in a corner. Each has a ring for itself.
pub fn most_sides(dice: &mut Dice) -> Vec<u8> {
    let (scale, shift) = (dice.between(1, 4_000), dice.between(-4_000_000, 4_000_000));
    let at = |x: i64, y: i64| Point { x: scale * x + shift, y: scale * y + shift };
    let (low, high) = (|x| at(x, 0), |x| at(x, 4));
    let mut first = vec![[at(0, 0), low(8), at(0, 2)], [at(0, 2), high(4), high(0)]];
    let mut second = vec![[at(0, 2), low(8), high(4)]];
    let (mut b, mut t) = (8, 4);
    for _ in 0..204 {
        if t <= b {
            first.push([low(b), high(t + 4), high(t)]);
            t += 4;
        } else {
            first.push([low(b), low(b + 4), high(t)]);
            b += 4;
        }
        let middle = at((b + t) / 2 + 2, 2);
        first.extend([[low(b), low(b + 4), middle], [high(t + 4), high(t), middle]]);
        second.extend([[high(t), low(b), middle], [low(b + 4), high(t + 4), middle]]);
        (b, t) = (b + 4, t + 4);
    }
    first.push([low(b), low(t), high(t)]);
    let member = |triangles: &[Triangle]| triangles.chunks(64).map(|some| some.iter().map(round).collect()).collect();
    let polygons: Vec<Member> = vec![member(&first), member(&second)];
    let mut triangles = [first, second].concat();
    dice.shuffle(&mut triangles);
    Draft::of(dice, Sheet { triangles, polygons }).bytes(dice)
}

/// A sheet of so many triangles, a power of 2 from 2 on, and a polygon for each 16 of them, that share them out.
pub fn sized(dice: &mut Dice, triangles: usize) -> Vec<u8> {
    let rows = 1 << ((triangles.ilog2() - 1) / 2);
    let triangles = mesh::grid(dice, triangles / 2 / rows, rows);
    let polygons = polygons::shared_out(dice, &triangles, triangles.len().div_ceil(16));
    Draft::of(dice, Sheet { triangles, polygons }).bytes(dice)
}

/// A sheet of one row of 1,024 triangles and one polygon of 4,096 points, whose edges run along the row and back, each
/// cut at 511 table corners, and at last round it.
pub fn hostile(dice: &mut Dice) -> Vec<u8> {
    let triangles = mesh::grid(dice, 512, 1);
    let [a, b, c, d] = crate::table::frame(&triangles.concat());
    let mut ring = [a, b].repeat((SHEET_POINTS - 4) / 2);
    ring.extend([a, b, c, d, a].iter().skip(1));
    let polygons: Vec<Member> = vec![vec![vec![ring]]];
    Draft::of(dice, Sheet { triangles, polygons }).bytes(dice)
}
