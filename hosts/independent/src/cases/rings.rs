//! Closed rings: areas apart and touching, holes, islands, a fan, a gap, and a polygon that owns nothing after repair.

use super::case::{Cases, Outcome};
use super::ground::*;
use crate::made::{multi_polygon, polygon, Geometry};

pub fn cases(cases: &mut Cases) {
    apart(cases);
    touching(cases);
    holes(cases);
    in_each_other(cases);
    at_the_shore(cases);
    many_areas(cases);
    many_holes(cases);
    fan(cases);
    in_ways(cases);
    nothing(cases);
}

fn rings(polygon: u32, rings: &[&[At]]) -> Outcome {
    Outcome::Rings(polygon, rings.iter().map(|ring| ring.to_vec()).collect())
}

/// The ring along the frame of a square table with a corner at every mark.
fn along_the_frame(size: i32, mark: usize) -> Vec<At> {
    let along = |at: fn(i32, i32) -> At| (0..size).step_by(mark).map(move |k| at(k, size)).collect::<Vec<At>>();
    let sides = [
        along(|k, _| (k, 0)),
        along(|k, size| (size, k)),
        along(|k, size| (size - k, size)),
        along(|k, size| (0, size - k)),
    ];
    [sides.concat(), vec![(0, 0)]].concat()
}

/// Two areas that don't touch have a ring each, in the order of their first triangles, and corners on a straight line stay.
fn apart(cases: &mut Cases) {
    let owners = vec![polygon(vec![from_to(0, 2), from_to(4, 6)]), polygon(vec![from_to(2, 4), from_to(6, 8)])];
    let first: &[At] = &[(0, 0), (2, 0), (2, 4), (0, 4), (0, 0)];
    let second: &[At] = &[(4, 0), (6, 0), (6, 4), (4, 4), (4, 0)];
    cases.add("rings of two areas apart", on_strip(owners), rings(1, &[first, second]));
    let whole: &[At] = &[(0, 0), (2, 0), (4, 0), (6, 0), (8, 0), (8, 4), (6, 4), (4, 4), (2, 4), (0, 4), (0, 0)];
    cases.add("the ring of the whole strip", on_strip(vec![strip_part(0, 8)]), rings(1, &[whole]));
}

/// Areas that touch in a corner make one ring, which goes over from one to the next on its right.
fn touching(cases: &mut Cases) {
    let quarters = star((2, 2), &[(0, 0), (4, 0), (4, 4), (0, 4)]);
    let of = |triangles: &[Corners], first: usize| {
        polygon(triangles.iter().skip(first).step_by(2).map(|corners| closed(corners)).collect())
    };
    let bow_tie: &[At] = &[(2, 2), (0, 0), (4, 0), (2, 2), (4, 4), (0, 4), (2, 2)];
    let members = |triangles: &[Corners]| vec![of(triangles, 0), of(triangles, 1)];
    cases.add("the ring of a bow-tie", sheet(&quarters, members(&quarters)), rings(1, &[bow_tie]));
    let sixths = star((2, 2), &[(0, 0), (4, 0), (4, 2), (4, 4), (0, 4), (0, 2)]);
    let three: &[At] = &[(2, 2), (0, 0), (4, 0), (2, 2), (4, 2), (4, 4), (2, 2), (0, 4), (0, 2), (2, 2)];
    cases.add("the ring of three areas in one corner", sheet(&sixths, members(&sixths)), rings(1, &[three]));
}

/// A hole is a ring of its own, clockwise; where two holes touch in a corner, each is.
fn holes(cases: &mut Cases) {
    let marks = [0, 2, 4, 6, 8];
    let table = rising(&marks, &marks);
    let (lower, upper) = (rectangle((2, 4), (2, 4)), rectangle((4, 6), (4, 6)));
    let round = polygon(vec![rectangle((0, 8), (0, 8)), turned(lower.clone()), turned(upper.clone())]);
    let inner = polygon(vec![lower, upper]);
    let first: &[At] = &[(4, 2), (2, 2), (2, 4), (4, 4), (4, 2)];
    let second: &[At] = &[(6, 4), (4, 4), (4, 6), (6, 6), (6, 4)];
    cases.add(
        "the rings of two holes that touch",
        sheet(&table, vec![round, inner]),
        rings(1, &[&along_the_frame(8, 2), first, second]),
    );
}

/// An island in a lake, with a pond on it: rings in each other, by turns anticlockwise and clockwise.
fn in_each_other(cases: &mut Cases) {
    let marks: Vec<i32> = (0..=14).step_by(2).collect();
    let square = |from: i32| rectangle((from, 14 - from), (from, 14 - from));
    let land = vec![square(0), turned(square(2)), square(4), turned(square(6))];
    let water = vec![square(2), turned(square(4)), square(6)];
    let round = |from: i32| -> Vec<At> {
        along_the_frame(14 - 2 * from, 2).into_iter().map(|(x, y)| (x + from, y + from)).collect()
    };
    // A hole begins with the side to its lower left corner, which is that of the earliest triangle.
    let hole = |from: i32| -> Vec<At> {
        let ring = round(from);
        ring[..2].iter().rev().chain(ring[1..ring.len() - 1].iter().rev()).copied().collect()
    };
    let owners = vec![polygon(land), polygon(water)];
    let outcome = Outcome::Rings(1, vec![round(0), hole(2), round(4), hole(6)]);
    cases.add("an island in a lake, with a pond on it", sheet(&rising(&marks, &marks), owners), outcome);
}

/// Where a hole touches the outer ring in a corner, each is a ring of its own. Where an island touches the shore of its lake in one corner,
/// they are one ring; where in two, the water on each side of it is.
fn at_the_shore(cases: &mut Cases) {
    let hole = closed(&[(2, 0), (4, 2), (2, 2)]);
    let owners = vec![polygon(vec![rectangle((0, 6), (0, 6)), turned(hole.clone())]), one(hole)];
    let inner: &[At] = &[(2, 0), (2, 2), (4, 2), (2, 0)];
    cases.add("a hole that touches the outer ring", sheet(&nine(), owners), rings(1, &[&along_the_frame(6, 2), inner]));
    let lake = |size: i32| {
        let marks: Vec<i32> = (0..=size).step_by(2).collect();
        let (island, shore) = (closed(&[(4, 2), (6, 4), (4, 4)]), rectangle((2, size - 2), (2, size - 2)));
        let land = polygon(vec![rectangle((0, size), (0, size)), turned(shore.clone()), island.clone()]);
        sheet(&rising(&marks, &marks), vec![land, polygon(vec![shore, turned(island)])])
    };
    let round: &[At] = &[
        (4, 2),
        (2, 2),
        (2, 4),
        (2, 6),
        (2, 8),
        (4, 8),
        (6, 8),
        (8, 8),
        (8, 6),
        (8, 4),
        (8, 2),
        (6, 2),
        (4, 2),
        (6, 4),
        (4, 4),
        (4, 2),
    ];
    cases.add("an island that touches the shore in one corner", lake(10), rings(1, &[&along_the_frame(10, 2), round]));
    let west: &[At] = &[(4, 2), (2, 2), (2, 4), (2, 6), (4, 6), (6, 6), (6, 4), (4, 4), (4, 2)];
    let east: &[At] = &[(6, 2), (4, 2), (6, 4), (6, 2)];
    cases.add(
        "an island that touches the shore in two corners",
        lake(8),
        rings(1, &[&along_the_frame(8, 2), west, east]),
    );
}

/// A polygon of these rings, 64 in each part.
fn in_parts(rings: Vec<Way>) -> Geometry {
    multi_polygon(rings.chunks(64).map(|rings| polygon(rings.to_vec())).collect())
}

/// More areas apart than a polygon has parts: as document 01 allows, several stand in a part.
fn many_areas(cases: &mut Cases) {
    let table = strips(&(0..=260).step_by(2).collect::<Vec<i32>>());
    let owners = [0, 1].map(|first| in_parts((first..130).step_by(2).map(|k| from_to(2 * k, 2 * k + 2)).collect()));
    let area = |x: i32| vec![(x, 0), (x + 2, 0), (x + 2, 4), (x, 4), (x, 0)];
    let outcome = Outcome::Rings(1, (0..65).map(|k| area(4 * k)).collect());
    cases.add("65 areas apart", sheet(&table, owners.to_vec()), outcome);
}

/// More holes than a part has rings beside the outer one: those that are too many stand in a part of their own.
fn many_holes(cases: &mut Cases) {
    let marks: Vec<i32> = (0..=18).collect();
    let corners = || (0..64).map(|k| (2 * (k % 8) + 1, 2 * (k / 8) + 1));
    let blocks: Vec<Way> = corners().map(|(x, y)| rectangle((x, x + 1), (y, y + 1))).collect();
    let turned = blocks.iter().cloned().map(turned).collect();
    let owners = vec![in_parts([vec![rectangle((0, 18), (0, 18))], turned].concat()), in_parts(blocks)];
    let hole = |(x, y): At| vec![(x + 1, y), (x, y), (x, y + 1), (x + 1, y + 1), (x + 1, y)];
    let outcome = Outcome::Rings(1, [along_the_frame(18, 1)].into_iter().chain(corners().map(hole)).collect());
    cases.add("64 holes", sheet(&rising(&marks, &marks), owners), outcome);
}

/// Every other one of 1,024 triangles round a corner: one ring, which goes over from each to the next.
fn fan(cases: &mut Cases) {
    let frame = along_the_frame(512, 2);
    let around = &frame[..1_024];
    let triangles = star((256, 256), around);
    let owners = [0, 1].map(|first| {
        let own: Vec<Way> = triangles.iter().skip(first).step_by(2).map(|corners| closed(corners)).collect();
        in_parts(own)
    });
    let ring: Vec<At> = around.chunks(2).flat_map(|ends| [(256, 256), ends[0], ends[1]]).chain([(256, 256)]).collect();
    cases.add("the ring of a fan of 512 areas", sheet(&triangles, owners.to_vec()), rings(1, &[&ring]));
}

/// The ring of a polygon that is given a gap.
fn in_ways(cases: &mut Cases) {
    let owners = vec![strip_part(0, 2), strip_part(6, 8)];
    let ring: &[At] = &[(2, 0), (4, 0), (6, 0), (8, 0), (8, 4), (6, 4), (4, 4), (2, 4), (2, 0)];
    cases.add("the ring of a polygon with the gap beside it", on_strip(owners), rings(2, &[ring]));
}

/// All of its ground went to the polygon before it.
fn nothing(cases: &mut Cases) {
    let covered = on_strip(vec![strip_part(0, 8), strip_part(2, 6)]);
    cases.add("no rings of a polygon that owns nothing", covered, rings(2, &[]));
}
