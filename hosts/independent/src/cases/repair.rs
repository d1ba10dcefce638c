//! Repair: which number each triangle has after it.

use super::case::Cases;
use super::ground::*;
use crate::made::{multi_polygon, polygon};

pub fn cases(cases: &mut Cases) {
    strips_repaired(cases);
    many_polygons(cases);
    regions(cases);
    longest(cases);
    many_regions(cases);
}

fn strips_repaired(cases: &mut Cases) {
    let (left, right) = (|| strip_part(0, 2), || strip_part(6, 8));
    cases.repaired(
        "the strip sheet repaired",
        on_strip(vec![strip_part(0, 4), strip_part(2, 6)]),
        &[1, 1, 1, 1, 2, 2, 2, 2],
    );
    cases.repaired(
        "a clean sheet keeps its numbers",
        on_strip(vec![strip_part(0, 4), strip_part(4, 8)]),
        &[1, 1, 1, 1, 2, 2, 2, 2],
    );
    cases.repaired("a gap between 1 and 2 goes to 2", on_strip(vec![left(), right()]), &[1, 1, 2, 2, 2, 2, 2, 2]);
    cases.repaired(
        "a gap between 1 and 3 goes to 3",
        on_strip(vec![left(), left(), right()]),
        &[1, 1, 3, 3, 3, 3, 3, 3],
    );
    cases.repaired(
        "a gap between 3 and 1 goes to 3",
        on_strip(vec![right(), right(), left()]),
        &[3, 3, 3, 3, 3, 3, 1, 1],
    );
    let overlap = vec![left(), strip_part(0, 4), left(), left(), strip_part(2, 4)];
    cases.repaired("across a gap's side the settled 2 counts, not 5", on_strip(overlap), &[1, 1, 2, 2, 2, 2, 2, 2]);
    cases.repaired(
        "a gap between 1 and an overlap of 2 and 3 goes to 2",
        on_strip(vec![right(), left(), left()]),
        &[2, 2, 2, 2, 2, 2, 1, 1],
    );
    cases.repaired("all is an overlap", on_strip(vec![strip_part(0, 8), strip_part(0, 8)]), &[1; 8]);
    let parts = multi_polygon(vec![strip_part(0, 2), strip_part(4, 6)]);
    cases.repaired(
        "a gap beside a part goes to its polygon",
        on_strip(vec![parts, strip_part(2, 4)]),
        &[1, 1, 2, 2, 1, 1, 1, 1],
    );
}

fn many_polygons(cases: &mut Cases) {
    let sets = [vec![strip_part(0, 2); 63], vec![strip_part(6, 8)]].concat();
    cases.repaired("an overlap of 63, and a gap between 1 and 64", on_strip(sets), &[1, 1, 64, 64, 64, 64, 64, 64]);
}

/// Regions on a grid: joined through sides and not through corners, and inside a polygon.
fn regions(cases: &mut Cases) {
    let block = |i: i32, j: i32| rectangle((2 * i, 2 * i + 2), (2 * j, 2 * j + 2));
    let low = polygon(vec![block(0, 1), block(1, 0), block(0, 2), block(2, 0), block(1, 2)]);
    let high = polygon(vec![block(2, 1), block(2, 2)]);
    let numbers = [1, 1, 1, 1, 1, 1, 1, 1, 2, 2, 2, 2, 1, 1, 1, 1, 2, 2];
    cases.repaired("two gap regions that touch at a corner", sheet(&nine(), vec![low, high]), &numbers);
    let around = || polygon(vec![rectangle((0, 6), (0, 6)), turned(block(1, 1))]);
    cases.repaired("a gap inside a polygon", sheet(&nine(), vec![around()]), &[1; 18]);
    let members = vec![one(block(2, 2)), around(), one(block(0, 0))];
    let numbers = [2, 2, 2, 2, 2, 2, 2, 2, 2, 2, 2, 2, 2, 2, 2, 2, 1, 1];
    cases.repaired("a gap inside polygon 2, and overlaps with 1 and 3", sheet(&nine(), members), &numbers);
}

/// By the longest shared boundary: lengths are whole roots, taken side by side and then added; on equal lengths the larger number.
fn longest(cases: &mut Cases) {
    let (left, right) = (|| strip_part(0, 2), || strip_part(6, 8));
    let numbers = [1, 1, 2, 2, 2, 2, 2, 2];
    cases.in_ways(
        "a gap that shares 4 with 1 and with 2 goes to 2",
        on_strip(vec![left(), right()]),
        &numbers,
        &numbers,
    );
    let numbers = [2, 2, 2, 2, 2, 2, 1, 1];
    cases.in_ways(
        "a gap that shares 4 with 2 and with 1 goes to 2",
        on_strip(vec![right(), left()]),
        &numbers,
        &numbers,
    );
    let block = |i: i32, j: i32| rectangle((2 * i, 2 * i + 2), (2 * j, 2 * j + 2));
    let around =
        polygon(vec![block(0, 0), block(1, 0), block(2, 0), block(0, 1), block(0, 2), block(1, 2), block(2, 2)]);
    let priority = [1, 1, 1, 1, 1, 1, 1, 1, 2, 2, 2, 2, 1, 1, 1, 1, 1, 1];
    let sharing = [1, 1, 1, 1, 1, 1, 1, 1, 1, 1, 2, 2, 1, 1, 1, 1, 1, 1];
    let members = vec![around, one(block(2, 1))];
    cases.in_ways("a gap that shares 6 with 1 and 2 with 2 goes to 1", sheet(&nine(), members), &priority, &sharing);
    collinear_sides(cases);
    round_a_hole(cases);
}

/// A gap with three sides of a root of 2 on one line, 1 long each, and others: joined they would be 4 long, and rounded up 6.
fn collinear_sides(cases: &mut Cases) {
    let falling = |low: i32| grid(&[0, 1, 2, 3], &(low..=3).collect::<Vec<i32>>(), |_, _| true);
    let upper = || one(closed(&[(3, 0), (3, 3), (0, 3)]));
    let lower = || one(rectangle((0, 3), (-1, 0)));
    let gap = [1, 1, 1, 1, 1, 2, 1, 1, 1, 2, 2, 2, 1, 2, 2, 2, 2, 2];
    let numbers = |given: u8, low: u8, up: u8| -> Vec<u8> {
        [vec![low; 6], gap.iter().map(|half| if *half == 1 { given } else { up }).collect()].concat()
    };
    let name = "three sides on one line are 3 long, as long as a straight one, which has the larger number";
    cases.in_ways(name, sheet(&falling(-1), vec![upper(), lower()]), &numbers(2, 2, 1), &numbers(2, 2, 1));
    let name = "three sides on one line are 3 long, as long as a straight one, and have the larger number";
    cases.in_ways(name, sheet(&falling(-1), vec![lower(), upper()]), &numbers(2, 1, 2), &numbers(2, 1, 2));
}

/// A gap region that runs round a polygon, inside another.
fn round_a_hole(cases: &mut Cases) {
    let marks = [0, 2, 4, 6, 8, 10];
    let around = || polygon(vec![rectangle((0, 10), (0, 10)), turned(rectangle((2, 8), (2, 8)))]);
    let middle = || one(rectangle((4, 6), (4, 6)));
    let numbers = |given: u8, outer: u8, inner: u8| -> Vec<u8> {
        let block = |i: usize, j: usize| match (i.abs_diff(2)).max(j.abs_diff(2)) {
            0 => inner,
            1 => given,
            _ => outer,
        };
        (0..5).flat_map(|j| (0..5).flat_map(move |i| [block(i, j); 2])).collect()
    };
    let name = "a gap round polygon 2 shares 8 with it and 24 with 1";
    cases.in_ways(name, sheet(&rising(&marks, &marks), vec![around(), middle()]), &numbers(2, 1, 2), &numbers(1, 1, 2));
    let name = "a gap round polygon 1 shares 8 with it and 24 with 2";
    cases.in_ways(name, sheet(&rising(&marks, &marks), vec![middle(), around()]), &numbers(2, 2, 1), &numbers(2, 2, 1));
}

/// 512 gap regions of one triangle each, the upper halves of the rectangles of 32 columns and 16 rows. Of the lower halves polygon 64 has
/// those of the first column's lower half, 63 those above, and so on: a gap has its own rectangle's number below, the same above but
/// where the polygon ends, and to the left one larger by 2.
fn many_regions(cases: &mut Cases) {
    let own = |i: i32, j: i32| (64 - (16 * i + j) / 8) as u8;
    let half = |i: i32, j: i32| closed(&[(2 * i, 2 * j), (2 * i + 2, 2 * j), (2 * i + 2, 2 * j + 2)]);
    let halves = |number: u8| {
        let at = 8 * (64 - i32::from(number));
        multi_polygon((at..at + 8).map(|place| one(half(place / 16, place % 16))).collect())
    };
    let repaired = |larger: fn(i32) -> bool| -> Vec<u8> {
        let gap = |i: i32, j: i32| if i > 0 && larger(j) { own(i, j) + 2 } else { own(i, j) };
        (0..16).flat_map(|j| (0..32).flat_map(move |i| [own(i, j), gap(i, j)])).collect()
    };
    let sheet = sheet(&widest(), (1..=64).map(halves).collect());
    cases.in_ways("512 gap regions", sheet, &repaired(|_| true), &repaired(|j| j % 8 == 7));
}
