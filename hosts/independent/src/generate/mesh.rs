//! Random triangulations of rectangles.

use super::dice::Dice;
use crate::limits::COORDINATE;
use crate::plane::{double_area, sides};
use crate::table::{corners, frame};
use crate::{Point, Side, Triangle};
use std::collections::BTreeSet;

/// A random triangulation of a rectangle: 2 to 1,024 triangles, mostly few.
pub fn rectangle(dice: &mut Dice) -> Vec<Triangle> {
    let most = match dice.below(200) {
        0..=119 => dice.between(2, 12),
        120..=169 => dice.between(4, 40),
        170..=189 => dice.between(20, 150),
        190..=197 => dice.between(100, 500),
        _ => dice.between(500, 1_024),
    };
    of_at_most(dice, most as usize)
}

/// A random triangulation of at most so many triangles, at least 2.
pub fn of_at_most(dice: &mut Dice, most: usize) -> Vec<Triangle> {
    let cells = 1 + dice.below(most / 2);
    let columns = 1 + dice.below(cells);
    let mut triangles = grid(dice, columns, cells / columns);
    refine(dice, &mut triangles, most);
    mix(dice, &mut triangles);
    triangles
}

/// A grid of cells, each halved by one of its diagonals.
pub fn grid(dice: &mut Dice, columns: usize, rows: usize) -> Vec<Triangle> {
    let (xs, ys) = (lines(dice, columns), lines(dice, rows));
    on_lines(dice, &xs, &ys)
}

/// The grid on these lines.
pub fn on_lines(dice: &mut Dice, xs: &[i64], ys: &[i64]) -> Vec<Triangle> {
    let slant = dice.below(3);
    let mut triangles = Vec::new();
    for x in xs.windows(2) {
        for y in ys.windows(2) {
            let rising = slant == 0 || (slant == 1 && dice.chance(50));
            triangles.extend(halves(x, y, rising));
        }
    }
    triangles
}

fn halves(x: &[i64], y: &[i64], rising: bool) -> [Triangle; 2] {
    let at = |i: usize, j: usize| Point { x: x[i], y: y[j] };
    let [a, b, c, d] = [at(0, 0), at(1, 0), at(1, 1), at(0, 1)];
    if rising {
        [[a, b, c], [a, c, d]]
    } else {
        [[a, b, d], [b, c, d]]
    }
}

/// So many steps' grid lines, evenly spaced or not.
fn lines(dice: &mut Dice, steps: usize) -> Vec<i64> {
    let steps = steps as i64;
    let (low, high) = extent(dice, steps);
    if dice.chance(60) {
        return (0..=steps).map(|step| low + (high - low) * step / steps).collect();
    }
    let mut lines = BTreeSet::from([low, high]);
    while lines.len() as i64 <= steps {
        lines.insert(dice.between(low, high));
    }
    lines.into_iter().collect()
}

/// The ends of the grid lines, scaled and shifted in many ways, up to the ends of the range.
fn extent(dice: &mut Dice, steps: i64) -> (i64, i64) {
    let scale = dice.pick(&[1, 2, 3, 4, 6, 8, 12, 60, 64, 720, 1_000, 9_973]);
    let width = (steps * scale).min(COORDINATE / 2);
    match dice.below(10) {
        0 | 1 => (0, 2 * width),
        2..=4 => from(dice.between(-30, 30), width),
        5 => from(dice.between(-COORDINATE, COORDINATE - width), width),
        6 => (COORDINATE - width, COORDINATE),
        7 => (-COORDINATE, width - COORDINATE),
        8 => (-COORDINATE, COORDINATE),
        _ => from(-width / 2, width),
    }
}

fn from(low: i64, width: i64) -> (i64, i64) {
    (low, low + width)
}

/// Splits, flips and moves at random while the triangles stay at most so many.
fn refine(dice: &mut Dice, triangles: &mut Vec<Triangle>, most: usize) {
    let tries = dice.below(2 * most);
    for _ in 0..tries {
        let room = triangles.len() + 2 <= most;
        match dice.below(5) {
            0 if room => split_inside(dice, triangles),
            1 | 2 if room => split_side(dice, triangles),
            3 => flip(dice, triangles),
            4 if dice.chance(30) => move_corner(dice, triangles),
            _ => (),
        }
    }
}

/// A triangle and one of its sides, turned so that the side is its first.
fn some_side(dice: &mut Dice, triangles: &[Triangle]) -> (usize, Triangle) {
    let place = dice.below(triangles.len());
    let mut triangle = triangles[place];
    triangle.rotate_left(dice.below(3));
    (place, triangle)
}

/// Splits a triangle at a point inside it.
fn split_inside(dice: &mut Dice, triangles: &mut Vec<Triangle>) {
    let (place, [a, b, c]) = some_side(dice, triangles);
    let (i, j) = (dice.between(1, 6), dice.between(1, 6));
    let k = dice.between(1, 6);
    let mean = |a: i64, b: i64, c: i64| (i * a + j * b + k * c).div_euclid(i + j + k);
    let inner = Point { x: mean(a.x, b.x, c.x), y: mean(a.y, b.y, c.y) };
    let split = [[a, b, inner], [b, c, inner], [c, a, inner]];
    if split.iter().all(|triangle| double_area(triangle) > 0) {
        triangles[place] = split[0];
        triangles.extend(&split[1..]);
    }
}

/// A whole point strictly between the ends of a side, if there is one.
pub fn point_on(dice: &mut Dice, (u, v): Side) -> Option<Point> {
    let (x, y) = (v.x - u.x, v.y - u.y);
    let steps = common_divisor(x.abs(), y.abs());
    if steps < 2 {
        return None;
    }
    let step = dice.between(1, steps - 1);
    Some(Point { x: u.x + x / steps * step, y: u.y + y / steps * step })
}

fn common_divisor(a: i64, b: i64) -> i64 {
    if b == 0 {
        a
    } else {
        common_divisor(b, a % b)
    }
}

/// Splits a side at a point on it, with both its triangles.
fn split_side(dice: &mut Dice, triangles: &mut Vec<Triangle>) {
    let (place, [u, v, _]) = some_side(dice, triangles);
    let Some(middle) = point_on(dice, (u, v)) else { return };
    let other = across(triangles, (u, v));
    split_triangle(triangles, place, (u, v), middle);
    if let Some(other) = other {
        split_triangle(triangles, other, (v, u), middle);
    }
}

/// Splits one triangle at a point on its side uv.
fn split_triangle(triangles: &mut Vec<Triangle>, place: usize, (u, v): Side, middle: Point) {
    let apex = apex(&triangles[place], (u, v));
    triangles[place] = [u, middle, apex];
    triangles.push([middle, v, apex]);
}

fn apex(triangle: &Triangle, (u, v): Side) -> Point {
    *triangle.iter().find(|corner| **corner != u && **corner != v).expect("a third corner")
}

/// Exchanges the side between two triangles for the other diagonal, if that lies inside.
fn flip(dice: &mut Dice, triangles: &mut [Triangle]) {
    let (place, [u, v, a]) = some_side(dice, triangles);
    let Some(other) = across(triangles, (u, v)) else { return };
    let d = apex(&triangles[other], (v, u));
    let flipped = [[a, u, d], [d, v, a]];
    if flipped.iter().all(|triangle| double_area(triangle) > 0) {
        triangles[place] = flipped[0];
        triangles[other] = flipped[1];
    }
}

/// Moves an inner corner with all its triangles, if they stay anticlockwise.
fn move_corner(dice: &mut Dice, triangles: &mut Vec<Triangle>) {
    let (_, [corner, other, _]) = some_side(dice, triangles);
    let [low, _, high, _] = frame(&corners(triangles));
    let inner = low.x < corner.x && corner.x < high.x && low.y < corner.y && corner.y < high.y;
    let share = dice.between(3, 12);
    let moved = Point { x: corner.x + (other.x - corner.x) / share, y: corner.y + (other.y - corner.y) / share };
    let mut changed = triangles.clone();
    for point in changed.as_flattened_mut().iter_mut().filter(|point| **point == corner) {
        *point = moved;
    }
    if inner && changed.iter().all(|triangle| double_area(triangle) > 0) {
        *triangles = changed;
    }
}

/// Another order of the triangles, and another first corner for each.
fn mix(dice: &mut Dice, triangles: &mut [Triangle]) {
    if dice.chance(20) {
        return;
    }
    dice.shuffle(triangles);
    for triangle in triangles {
        triangle.rotate_left(dice.below(3));
    }
}

/// The triangles that share a side with this one.
pub fn neighbours(triangles: &[Triangle], place: usize) -> Vec<usize> {
    sides(&triangles[place]).into_iter().filter_map(|side| across(triangles, side)).collect()
}

/// The place of the triangle with side vu, if there is one.
pub fn across(triangles: &[Triangle], (u, v): Side) -> Option<usize> {
    let has = |triangle: &Triangle| sides(triangle).contains(&(v, u));
    triangles.iter().position(has)
}
