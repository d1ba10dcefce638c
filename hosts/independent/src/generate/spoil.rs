//! Members that aren't carried, and tables that break a rule.

use super::dice::Dice;
use super::mesh::{self, across};
use super::polygons;
use crate::limits::COORDINATE;
use crate::table::{corners, frame};
use crate::{Member, Point, Ring, Sheet, Triangle};

/// Changes one of the sheet's members so that, mostly, it isn't carried.
pub fn member(dice: &mut Dice, sheet: &mut Sheet) {
    let corners = corners(&sheet.triangles);
    if sheet.polygons.is_empty() {
        let all = vec![true; sheet.triangles.len()];
        sheet.polygons.push(polygons::member(dice, &sheet.triangles, &corners, &all));
    }
    let place = dice.below(sheet.polygons.len());
    let member = &mut sheet.polygons[place];
    match dice.below(12) {
        0 => reverse_all(member),
        1 => shift(dice, member),
        2 => drop_ring(dice, member),
        3 => twice(dice, member),
        4 => outside(dice, member, &corners),
        _ => spoil_ring(dice, member, &corners),
    }
}

/// One of the member's rings.
fn some_ring<'a>(dice: &mut Dice, member: &'a mut Member) -> &'a mut Ring {
    let part = dice.below(member.len());
    let ring = dice.below(member[part].len());
    &mut member[part][ring]
}

fn reverse_all(member: &mut Member) {
    member.iter_mut().flatten().for_each(|ring| ring.reverse());
}

/// Moves the whole member by a little.
fn shift(dice: &mut Dice, member: &mut Member) {
    let (x, y) = (dice.between(-2, 2), dice.between(-2, 2));
    for point in member.iter_mut().flatten().flatten() {
        *point = clamped(point.x + x, point.y + y);
    }
}

fn clamped(x: i64, y: i64) -> Point {
    Point { x: x.clamp(-COORDINATE, COORDINATE), y: y.clamp(-COORDINATE, COORDINATE) }
}

/// Takes one ring away, unless it is the only one of its polygon.
fn drop_ring(dice: &mut Dice, member: &mut Member) {
    let part = dice.below(member.len());
    if member[part].len() > 1 {
        let ring = dice.below(member[part].len());
        member[part].remove(ring);
    } else {
        member[part][0].reverse();
    }
}

/// A ring twice: in its own polygon, as another one, or walked twice.
fn twice(dice: &mut Dice, member: &mut Member) {
    let part = dice.below(member.len());
    let ring = member[part][dice.below(member[part].len())].clone();
    match dice.below(3) {
        0 if member[part].len() < 64 => member[part].push(ring),
        1 if member.len() < 64 => member.push(vec![ring]),
        _ => member[part][0].extend_from_within(1..),
    }
}

/// A ring more: the other way round the frame, outside it, or round a larger one.
fn outside(dice: &mut Dice, member: &mut Member, corners: &[Point]) {
    let [a, b, c, d] = frame(corners);
    let right = |p: Point| clamped(p.x + 5, p.y);
    let ring = match dice.below(3) {
        0 => vec![a, d, c, b, a],
        1 => vec![c, right(c), clamped(c.x, c.y + 5), c],
        _ => vec![a, right(b), right(c), d, a],
    };
    if member[0].len() < 64 {
        member[0].push(ring);
    }
}

/// Changes one ring.
fn spoil_ring(dice: &mut Dice, member: &mut Member, corners: &[Point]) {
    let ring = some_ring(dice, member);
    match dice.below(6) {
        0 => ring.reverse(),
        1 => replace(dice, ring, |dice, _| dice.pick(corners)),
        2 => replace(dice, ring, |dice, p| clamped(p.x + dice.between(-1, 1), p.y + dice.between(-1, 1))),
        3 => off_the_table(dice, ring),
        4 => leave_out_a_bend(dice, ring),
        _ => out_and_back(dice, ring, corners),
    }
}

/// Moves one corner of a ring, which stays closed.
fn replace(dice: &mut Dice, ring: &mut Ring, new: impl Fn(&mut Dice, Point) -> Point) {
    let place = dice.below(ring.len() - 1);
    ring[place] = new(dice, ring[place]);
    let last = ring.len() - 1;
    ring[last] = ring[0];
}

/// A point more on one of the ring's edges: mostly no table corner.
fn off_the_table(dice: &mut Dice, ring: &mut Ring) {
    let place = dice.below(ring.len() - 1);
    if let Some(point) = mesh::point_on(dice, (ring[place], ring[place + 1])) {
        ring.insert(place + 1, point);
    }
}

/// Leaves out a point where the ring bends.
fn leave_out_a_bend(dice: &mut Dice, ring: &mut Ring) {
    let bends: Vec<usize> =
        (1..ring.len() - 1).filter(|i| !polygons::straight(ring[i - 1], ring[*i], ring[i + 1])).collect();
    if ring.len() > 4 && !bends.is_empty() {
        ring.remove(dice.pick(&bends));
    }
}

/// Out by three points and back by two: cancels only if the middle one is a table corner.
fn out_and_back(dice: &mut Dice, ring: &mut Ring, corners: &[Point]) {
    let place = dice.below(ring.len());
    let (from, to) = (ring[place], dice.pick(corners));
    if let Some(middle) = mesh::point_on(dice, (from, to)) {
        ring.splice(place..=place, [from, middle, to, from]);
    }
}

/// Changes the table so that, mostly, it breaks a rule.
pub fn table(dice: &mut Dice, triangles: &mut Vec<Triangle>) {
    let place = dice.below(triangles.len());
    match dice.below(12) {
        0 => triangles[place].swap(0, 1),
        1 => triangles[place][2] = triangles[place][0],
        2 => flatten(dice, &mut triangles[place]),
        3 | 4 => repeat(dice, triangles),
        5 if triangles.len() > 2 => drop(triangles.swap_remove(place)),
        6 => move_one(dice, &mut triangles[place]),
        7 => move_everywhere(dice, triangles),
        8 => another_rectangle(dice, triangles),
        9 => split_on_one_side(dice, triangles),
        10 => cover_again(dice, triangles),
        _ => side_again(dice, triangles),
    }
}

fn flatten(dice: &mut Dice, triangle: &mut Triangle) {
    let [a, b, c] = *triangle;
    triangle[2] = mesh::point_on(dice, (a, b)).unwrap_or(clamped(2 * b.x - c.x, 2 * b.y - c.y));
}

/// A triangle a second time, in another's place or more.
fn repeat(dice: &mut Dice, triangles: &mut Vec<Triangle>) {
    let mut again = dice.pick(triangles);
    again.rotate_left(dice.below(3));
    let place = dice.below(triangles.len());
    if triangles.len() < 1_024 && dice.chance(60) {
        triangles.insert(place, again);
    } else {
        triangles[place] = again;
    }
}

fn moved(dice: &mut Dice, point: Point) -> Point {
    let reach = dice.pick(&[1, 2, 10, 1_000]);
    clamped(point.x + dice.between(-reach, reach), point.y + dice.between(-reach, reach))
}

fn move_one(dice: &mut Dice, triangle: &mut Triangle) {
    let corner = dice.below(3);
    triangle[corner] = moved(dice, triangle[corner]);
}

/// Moves a corner with all its triangles: on the frame, or so far that one turns over.
fn move_everywhere(dice: &mut Dice, triangles: &mut [Triangle]) {
    let corner = dice.pick(triangles)[0];
    let to = moved(dice, corner);
    for point in triangles.as_flattened_mut().iter_mut().filter(|point| **point == corner) {
        *point = to;
    }
}

/// A second rectangle: apart, next to the first, touching it at a corner, or on top of it.
fn another_rectangle(dice: &mut Dice, triangles: &mut Vec<Triangle>) {
    let [low, _, high, _] = frame(&corners(triangles));
    let mut second = mesh::of_at_most(dice, 12);
    let [from, ..] = frame(&corners(&second));
    let gap = dice.between(0, 3);
    let to = if dice.chance(50) { Point { x: high.x + gap, y: low.y } } else { Point { x: high.x + gap, y: high.y } };
    for point in second.as_flattened_mut() {
        *point = clamped(point.x - from.x + to.x, point.y - from.y + to.y);
    }
    second.truncate(1_024 - triangles.len());
    triangles.extend(second);
}

/// A table corner strictly inside another triangle's side.
fn split_on_one_side(dice: &mut Dice, triangles: &mut Vec<Triangle>) {
    let place = dice.below(triangles.len());
    let [u, v, apex] = triangles[place];
    let inner = across(triangles, (u, v)).is_some() || dice.chance(20);
    if let Some(middle) = mesh::point_on(dice, (u, v)).filter(|_| inner && triangles.len() < 1_024) {
        triangles[place] = [u, middle, apex];
        triangles.push([middle, v, apex]);
    }
}

/// The frame a second time, in two triangles.
fn cover_again(dice: &mut Dice, triangles: &mut Vec<Triangle>) {
    let [a, b, c, d] = frame(&corners(triangles));
    triangles.truncate(1_022);
    let again = if dice.chance(50) { [[a, b, c], [a, c, d]] } else { [[a, b, d], [b, c, d]] };
    triangles.extend(again);
}

/// A further triangle on a side that is one already.
fn side_again(dice: &mut Dice, triangles: &mut Vec<Triangle>) {
    let [a, b, c] = dice.pick(triangles);
    triangles.truncate(1_023);
    let apex = moved(dice, c);
    let place = dice.below(triangles.len());
    triangles.insert(place, [a, b, apex]);
}
