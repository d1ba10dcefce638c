//! Which polygons are carried: holes, parts, nesting, edges that pass corners, and which polygon is refused.

use super::case::Cases;
use super::examples::{story_members, story_table, story_table_without};
use super::ground::*;
use crate::made::{collection, multi_polygon, polygon, tin, triangle, Geometry};

pub fn cases(cases: &mut Cases) {
    story(cases);
    holes(cases);
    diagonals(cases);
    parts(cases);
    nesting(cases);
    which(cases);
    far(cases);
}

/// A polygon's corner on its neighbour's straight boundary, in other ways than the sheets of examples/ have it.
fn story(cases: &mut Cases) {
    let [left, lower, upper] = <[Geometry; 3]>::try_from(story_members()).unwrap_or_else(|_| panic!("three polygons"));
    let without = story_table_without();
    cases.sets("without the corner the left half is carried", sheet(&without, vec![left.clone()]), &[1, 1, 0, 0, 0]);
    cases.refused(
        "without the corner the upper quarter isn't carried",
        sheet(&without, vec![upper.clone(), left.clone()]),
        (20, 1),
    );
    let others = sheet(&story_table(), vec![upper, lower, left]);
    cases.sets("with the corner in another order of members", others, &[4, 4, 4, 4, 4, 2, 2, 1, 1]);
}

fn holes(cases: &mut Cases) {
    let whole = || rectangle((0, 6), (0, 6));
    let hole = || turned(rectangle((2, 4), (2, 4)));
    let filled = || rectangle((2, 4), (2, 4));
    let on = |members| sheet(&nine(), members);
    let around = [1, 1, 1, 1, 1, 1, 1, 1, 0, 0, 1, 1, 1, 1, 1, 1, 1, 1];
    cases.sets("a hole behind its outer ring", on(vec![polygon(vec![whole(), hole()])]), &around);
    cases.sets("a hole before its outer ring", on(vec![polygon(vec![hole(), whole()])]), &around);
    cases.sets("a hole as a part of its own", on(vec![multi_polygon(vec![one(whole()), one(hole())])]), &around);
    let with_two = around.map(|set| if set == 0 { 2 } else { set });
    cases.sets("a hole that another polygon fills", on(vec![polygon(vec![whole(), hole()]), one(filled())]), &with_two);
    cases.sets("a hole filled in the same polygon", on(vec![polygon(vec![whole(), hole(), filled()])]), &[1; 18]);
    cases.refused("a hole that runs anticlockwise", on(vec![polygon(vec![whole(), filled()])]), (20, 1));
    cases.refused("a hole without an outer ring", on(vec![one(hole())]), (20, 1));
    cases.refused("a hole twice", on(vec![polygon(vec![whole(), hole(), hole()])]), (20, 1));
    let at_corner = polygon(vec![rectangle((0, 4), (0, 4)), hole()]);
    let sets = [1, 1, 1, 1, 0, 0, 1, 1, 0, 0, 0, 0, 0, 0, 0, 0, 0, 0];
    cases.sets("a hole that touches the outer ring along two sides", on(vec![at_corner]), &sets);
    let along_one = polygon(vec![rectangle((0, 6), (0, 4)), hole()]);
    let sets = [1, 1, 1, 1, 1, 1, 1, 1, 0, 0, 1, 1, 0, 0, 0, 0, 0, 0];
    cases.sets("a hole that touches the outer ring along a side", on(vec![along_one]), &sets);
}

/// A long diagonal, with its corners in the table and without.
fn diagonals(cases: &mut Cases) {
    let half = || one(closed(&[(0, 0), (6, 0), (6, 6)]));
    let sets = [1, 0, 1, 1, 1, 1, 0, 0, 1, 0, 1, 1, 0, 0, 0, 0, 1, 0];
    cases.sets("a diagonal along three sides", sheet(&nine(), vec![half()]), &sets);
    let marks = [0, 2, 4, 6];
    let crossed = grid(&marks, &marks, |i, j| i == j);
    cases.refused("a diagonal across three sides", sheet(&crossed, vec![half()]), (20, 1));
    cases.refused(
        "a diagonal that passes beside corners",
        sheet(&rising(&[0, 3, 4, 6], &marks), vec![half()]),
        (20, 1),
    );
}

/// Several parts, and rings that together go round what they share out.
fn parts(cases: &mut Cases) {
    let rings = |rings: [(i32, i32); 2]| on_strip(vec![polygon(rings.map(|(a, b)| from_to(a, b)).to_vec())]);
    cases.sets("rings side by side", rings([(0, 4), (4, 6)]), &[1, 1, 1, 1, 1, 1, 0, 0]);
    cases.refused("rings that overlap", rings([(0, 4), (2, 6)]), (20, 1));
    let (low, high) = ([(2, 2), (0, 2), (0, 0), (2, 0)], [(2, 2), (4, 2), (4, 4), (2, 4)]);
    let four = rising(&[0, 2, 4], &[0, 2, 4]);
    let eight = |rest: [At; 4]| sheet(&four, vec![one(closed(&[low, rest].concat()))]);
    cases.sets("a figure of eight by one corner", eight(high), &[1, 1, 0, 0, 0, 0, 1, 1]);
    let [a, b, c, d] = high;
    cases.refused("a figure of eight with one half turned", eight([a, d, c, b]), (20, 1));
}

/// Parts in MultiPolygons and collections of many depths and both byte orders.
fn nesting(cases: &mut Cases) {
    let parts = || vec![strip_part(0, 2).big(), strip_part(4, 6)];
    let sets = [1, 1, 0, 0, 1, 1, 0, 0];
    cases.sets("two parts in a MultiPolygon", on_strip(vec![multi_polygon(parts())]), &sets);
    cases.sets("two parts in a collection", on_strip(vec![collection(parts()).big()]), &sets);
    for depth in 2..=4 {
        let member = nested(depth, multi_polygon(parts()).big());
        cases.sets(
            format!("two parts in a MultiPolygon, in a collection at depth {depth}"),
            on_strip(vec![member]),
            &sets,
        );
    }
    let [first, second] = <[Geometry; 2]>::try_from(parts()).unwrap_or_else(|_| panic!("two parts"));
    let deepest = collection(vec![strip_part(6, 8)]).big();
    let member = collection(vec![first.clone(), collection(vec![multi_polygon(vec![second]), deepest])]);
    let sheet = on_strip(vec![member, strip_part(2, 4)]);
    cases.sets("parts at three depths beside another polygon", sheet, &[1, 1, 2, 2, 1, 1, 1, 1]);
    let twice = collection(vec![first.clone(), nested(3, first)]);
    cases.refused("a part again two collections deeper", on_strip(vec![twice]), (20, 1));
}

/// Which of three polygons is refused, whatever follows it.
fn which(cases: &mut Cases) {
    let of = |good: [bool; 3]| on_strip(good.map(|good| strip_part(0, if good { 4 } else { 3 })).to_vec());
    cases.refused("the second of three not carried", of([true, false, true]), (20, 2));
    cases.refused("the second and the third of three not carried", of([true, false, false]), (20, 2));
    cases.refused("the third of three not carried", of([true, true, false]), (20, 3));
    cases.refused("the first of three not carried", of([false, true, true]), (20, 1));
}

/// Negative zero, and the ends of the range: an edge that passes a corner by the least there is.
fn far(cases: &mut Cases) {
    let zeros = vec![(-0.0, 0.0), (2.0, -0.0), (2.0, 4.0), (0.0, 4.0), (0.0, 0.0)];
    let table =
        tin(vec![triangle([(-0.0, 0.0), (2.0, 0.0), (2.0, 4.0)]), triangle([(-0.0, 0.0), (2.0, 4.0), (-0.0, 4.0)])]);
    cases.sets("-0 and 0 are one corner", collection(vec![table, one(zeros)]), &[1, 1]);
    let far = 10_000_000;
    let corners = [(-far, -far), (far, -far), (far, far), (-far, far)];
    let half = |middle: At| sheet(&star(middle, &corners), vec![one(closed(&corners[..3]))]);
    for middle in [(0, 0), (1, 1), (-far + 1, -far + 1), (far - 1, far - 1)] {
        cases.sets(format!("the longest diagonal passes through {middle:?}"), half(middle), &[1, 1, 0, 0]);
    }
    for middle in [(1, 0), (0, 1), (far - 1, far - 2), (-far + 1, -far + 2)] {
        cases.refused(format!("the longest diagonal passes close by {middle:?}"), half(middle), (20, 1));
    }
}
