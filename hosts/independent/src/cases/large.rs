//! Sheets at the ends of the limits: 64 polygons, 1,024 triangles, 4,096 points, and the longest inputs that are looked at.

use super::case::Cases;
use super::ground::*;
use crate::made::{collection, multi_polygon, polygon, Geometry};

pub fn cases(cases: &mut Cases) {
    most_polygons(cases);
    most_triangles(cases);
    blocks_walked_round(cases);
    along_one_line(cases);
    longest(cases);
}

/// Owners fit in one 64-bit set.
fn most_polygons(cases: &mut Cases) {
    let all = u64::MAX;
    cases.sets("64 polygons on one strip", on_strip(vec![strip_part(0, 2); 64]), &[all, all, 0, 0, 0, 0, 0, 0]);
    let last = |end: i32| on_strip([vec![strip_part(0, 2); 63], vec![strip_part(2, end)]].concat());
    let (low, high) = (all >> 1, 1 << 63);
    cases.sets("63 polygons on one strip, the 64th beside it", last(4), &[low, low, high, high, 0, 0, 0, 0]);
    cases.refused("the 64th polygon not carried", last(3), (20, 64));
}

/// The 64 blocks of 8 by 4 on the widest table, row by row.
fn blocks() -> Vec<Way> {
    let block = |k: i32| (8 * (k % 8), 4 * (k / 8));
    (0..64).map(block).map(|(x, y)| rectangle((x, x + 8), (y, y + 4))).collect()
}

/// The lower left corner of the smallest upright rectangle that holds a triangle.
fn lower_left([a, b, c]: &Corners) -> At {
    (a.0.min(b.0).min(c.0), a.1.min(b.1).min(c.1))
}

fn most_triangles(cases: &mut Cases) {
    let widest = widest();
    let owner = |corners: &Corners| {
        let (x, y) = lower_left(corners);
        1 << (x / 8 + 8 * (y / 4))
    };
    let sets: Vec<u64> = widest.iter().map(owner).collect();
    cases.sets("1,024 triangles in 64 blocks", sheet(&widest, blocks().into_iter().map(one).collect()), &sets);
    let again = [&widest[..1_023], &widest[..1]].concat();
    cases.refused("the first of 1,024 triangles again as the last", sheet(&again, vec![]), (11, 1_024));
    let inside = |(x, y): At| (8..56).contains(&x) && (4..28).contains(&y);
    let holes = blocks().into_iter().filter(|block| inside((block[0].0 as i32, block[0].1 as i32))).map(turned);
    let rings = std::iter::once(rectangle((0, 64), (0, 32))).chain(holes).collect();
    let sets: Vec<u64> = widest.iter().map(|corners| u64::from(!inside(lower_left(corners)))).collect();
    cases.sets("a polygon with a hole for each of 36 blocks", sheet(&widest, vec![polygon(rings)]), &sets);
}

/// 64 parts of 64 points each: every block with 29 ways out and back at its first corner.
fn blocks_walked_round(cases: &mut Cases) {
    let walked = |(k, block): (usize, Way)| {
        let out = (66.0, (5 * k % 34) as f64);
        one([[block[0], out].repeat(29), vec![block[0]], block].concat())
    };
    let parts: Vec<Geometry> = blocks().into_iter().enumerate().map(walked).collect();
    let on = |parts| sheet(&widest(), vec![multi_polygon(parts)]);
    let twice = [&parts[..63], &parts[..1]].concat();
    cases.sets("64 blocks with ways out and back, 4,096 points", on(parts), &[1; 1_024]);
    cases.refused("63 blocks with ways out and back, one of them twice", on(twice), (20, 1));
}

/// Thousands of edges along one line of 513 corners.
fn along_one_line(cases: &mut Cases) {
    let (start, end) = ((0, 0), (1_024, 0));
    let ways = [start, end].repeat(2_046);
    let ring = |ways: &[At], rest: &[At]| sheet(&row(), vec![one(way(&[ways, rest].concat()))]);
    let round = ring(&ways, &[(1_024, 4), (0, 4), start, start]);
    cases.sets("4,092 points along one line and back", round, &[1; 1_024]);
    let stray = ring(&ways[..4_091], &[(1_023, 0), end, (1_024, 4), (0, 4), start]);
    cases.refused("4,091 points along one line, and once by a point that is no corner", stray, (20, 1));
    let line: Vec<At> = (0..2_043).map(odd_place).map(|x| (x, 0)).collect();
    let rings = vec![closed(&line), from_to(0, 1_024), turned(closed(&line))];
    cases.sets(
        "every edge another one along one line, out in one ring and back in another",
        sheet(&row(), vec![polygon(rings)]),
        &[1; 1_024],
    );
    let member = |k: i32| {
        let from = (2 * k, 0);
        one(way(&[&[from, end].repeat(30)[..], &[(1_024, 4), (2 * k, 4), from, from]].concat()))
    };
    let sets: Vec<u64> = (0..1_024).map(|k| u64::MAX >> (63 - (k / 2).min(63))).collect();
    cases.sets("64 polygons of 64 points along one line", sheet(&row(), (0..64).map(member).collect()), &sets);
}

/// Odd places below 1,024, up and down, by cubes modulo a prime: no two of the first 2,044 follow each other twice.
fn odd_place(i: i32) -> i32 {
    let k = i % 509;
    2 * ((1 + i / 509) * k * k % 509 * k % 509) + 1
}

/// The triangles of the widest table shared out to so many members, each a polygon as deep as can be.
fn deep_members(count: usize) -> Vec<Geometry> {
    let triangles = widest();
    let within = |corners: &Corners| nested(3, multi_polygon(vec![one(closed(corners))]));
    let member = |k: usize| &triangles[k * 1_024 / count..(k + 1) * 1_024 / count];
    (0..count).map(|k| collection(member(k).iter().map(within).collect())).collect()
}

/// The longest sheet that can be read, 185,938 bytes.
pub fn longest_sheet() -> Geometry {
    sheet(&widest(), deep_members(64))
}

/// The input that is looked at farthest before it is refused, 185,978 bytes: with all points used up, a last member goes as deep
/// as can be, to the count of a ring.
pub fn farthest_fault() -> Vec<u8> {
    let begun = nested(4, multi_polygon(vec![one(way(&[(0, 0); 4]))]));
    let whole = sheet(&widest(), [deep_members(63), vec![begun]].concat()).bytes();
    whole[..whole.len() - 64].to_vec()
}

fn longest(cases: &mut Cases) {
    let sets: Vec<u64> = (0..1_024).map(|place| 1 << (place / 16)).collect();
    cases.sets("the longest sheet", longest_sheet(), &sets);
    let farthest = farthest_fault();
    cases.refused("the farthest fault, cut short by a byte", farthest[..farthest.len() - 1].to_vec(), (1, 65));
    cases.refused("the farthest fault", farthest, (4, 65));
}

#[cfg(test)]
mod tests {
    use crate::cases::named;

    #[test]
    fn the_longest_inputs_are_as_long_as_they_say() {
        assert_eq!(named("the longest sheet").len(), 185_938);
        assert_eq!(named("the farthest fault").len(), 185_978);
    }
}
