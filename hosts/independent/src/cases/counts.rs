//! Reading: every count of document 01's list, at its ends and past them.

use super::case::Cases;
use super::ground::*;
use crate::made::{collection, multi_polygon, polygon, tin, Geometry};
use crate::reading::{POLYGON, TRIANGLE};

pub fn cases(cases: &mut Cases) {
    members(cases);
    triangles(cases);
    polygons_under_a_member(cases);
    rings(cases);
    points(cases);
    pieces(cases);
}

/// The smallest polygon.
fn four() -> Geometry {
    one(closed(&[(0, 0), (2, 0), (2, 4)]))
}

fn fours(count: usize) -> Vec<Geometry> {
    vec![four(); count]
}

fn members(cases: &mut Cases) {
    cases.refused("a sheet of no members", collection(vec![]), (4, 0));
    cases.read("65 members of the sheet", on_two(fours(64)));
    cases.refused("66 members of the sheet", on_two(fours(65)), (4, 0));
    cases.refused("a collection of no members", on_two(vec![collection(vec![])]), (4, 2));
    cases.refused("a MultiPolygon of no parts", on_two(vec![multi_polygon(vec![])]), (4, 2));
    cases.refused("a MultiPolygon of 65 parts", on_two(vec![multi_polygon(fours(65))]), (4, 2));
    cases.refused("a collection of 65 members", on_two(vec![four(), collection(fours(65))]), (4, 3));
}

fn triangles(cases: &mut Cases) {
    cases.refused("a table of no triangles", collection(vec![tin(vec![]), four()]), (4, 1));
    cases.refused("a table of one triangle", sheet(&strips(&[0, 2])[..1], vec![four()]), (4, 1));
    let row = strips(&(0..=513).collect::<Vec<i32>>());
    cases.read("a table of 1,024 triangles", sheet(&row[..1_024], vec![]));
    cases.refused("a table of 1,025 triangles", sheet(&row[..1_025], vec![]), (4, 1));
}

/// Polygons under one member, and what may follow the 64th.
fn polygons_under_a_member(cases: &mut Cases) {
    let under = |shapes: Vec<Geometry>| on_two(vec![collection(shapes)]);
    cases.read("64 parts of a MultiPolygon, then another member", on_two(vec![multi_polygon(fours(64)), four()]));
    cases.read("64 members of a collection", on_two(vec![four(), collection(fours(64))]));
    let deep = collection(vec![four(), multi_polygon(fours(23))]);
    cases.read("64 polygons under a member at three depths", under(vec![multi_polygon(fours(40)), deep]));
    let full = || multi_polygon(fours(64));
    let beside = [vec![multi_polygon(fours(40))], fours(25)].concat();
    cases.refused("the 65th polygon under a member, beside a MultiPolygon", under(beside), (4, 2));
    let second = multi_polygon(vec![four()]);
    cases.refused(
        "the 65th polygon under a member, in a second MultiPolygon",
        under(vec![full(), second.clone()]),
        (4, 2),
    );
    cases.refused("the 65th polygon under a member, at depth 4", under(vec![full(), nested(3, second)]), (4, 2));
    let misplaced = multi_polygon(vec![Geometry::holding(TRIANGLE, vec![])]);
    cases.refused(
        "a type that can't stand where the 65th polygon would, 3 before 4",
        under(vec![full(), misplaced]),
        (3, 2),
    );
    let last = under(vec![full(), Geometry::ringed(POLYGON, vec![])]).bytes();
    cases.refused("the 65th polygon under a member, cut after its type", last[..last.len() - 4].to_vec(), (4, 2));
    cases.refused("the 65th polygon under a member, cut in its type", last[..last.len() - 5].to_vec(), (1, 2));
}

fn rings(cases: &mut Cases) {
    let of = |count: i32| on_two(vec![polygon((0..count).map(|i| around(4, i)).collect())]);
    cases.refused("a polygon of no rings", of(0), (4, 2));
    cases.read("a polygon of 64 rings", of(64));
    cases.refused("a polygon of 65 rings", of(65), (4, 2));
}

/// Points in a ring, and in the whole sheet: a ring's count is tested alone, then with the running total.
fn points(cases: &mut Cases) {
    cases.refused("a ring of no points", on_two(vec![one(vec![])]), (4, 2));
    cases.refused("a ring of 3 points", on_two(vec![one(around(3, 0))]), (4, 2));
    cases.read("a ring of 4 points", on_two(vec![one(around(4, 0))]));
    let long = [around(3_163, 0), way(&[(0, 0); 933])].concat();
    cases.read("a ring of 4,096 points", on_two(vec![one(long)]));
    let longer = on_two(vec![one(way(&[(0, 0); 4_097]))]).bytes();
    cases.refused("a ring of 4,097 points, most of them cut off", longer[..longer.len() - 64_000].to_vec(), (4, 2));
    let first = || polygon(vec![around(1_000, 3), around(1_500, 5)]);
    let second = |last| multi_polygon(vec![one(around(1_000, -7)), one(around(last, 0))]);
    cases.read("4,096 polygon points over two members", on_two(vec![first(), second(596)]));
    cases.refused("4,097 polygon points over two members", on_two(vec![first(), second(597)]), (4, 3));
    let before_last = on_two(vec![first(), polygon(vec![around(597, 0), around(1_000, -7)])]).bytes();
    let cut = before_last[..before_last.len() - 16_000].to_vec();
    cases.refused("a ring's count too great with the total, none of its points there", cut, (4, 3));
}

/// The rings of a table piece and the points of its ring, of both types.
fn pieces(cases: &mut Cases) {
    let good = || closed(&[(0, 0), (2, 0), (2, 4)]);
    for (name, kind) in [("Triangle", TRIANGLE), ("Polygon", POLYGON)] {
        let faults = [
            ("no rings", vec![]),
            ("two rings", vec![good(), good()]),
            ("3 points", vec![good()[..3].to_vec()]),
            ("5 points", vec![from_to(0, 2)]),
            ("no points", vec![vec![]]),
        ];
        for (fault, rings) in faults {
            let pieces = vec![Geometry::ringed(kind, rings), piece([(0, 0), (2, 4), (0, 4)])];
            cases.refused(format!("a {name} of the table with {fault}"), collection(vec![tin(pieces)]), (4, 1));
        }
    }
}
