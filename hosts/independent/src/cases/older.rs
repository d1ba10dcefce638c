//! Sheets of the older edition: what becomes of rings in either direction where they are turned, and where they aren't.

use super::case::{Cases, Outcome};
use super::ground::*;
use crate::limits::COORDINATE;
use crate::made::{collection, multi_polygon, polygon, tin, Geometry};
use Outcome::{Refused, Sets};

pub fn cases(cases: &mut Cases) {
    holes(cases);
    parts(cases);
    members(cases);
    without_direction(cases);
    spikes(cases);
    twice(cases);
    pieces(cases);
    far(cases);
}

fn sets(sets: &[u64]) -> Outcome {
    Sets(sets.to_vec())
}

/// The ring as it is, or turned.
fn run(ring: Way, clockwise: bool) -> Way {
    if clockwise {
        turned(ring)
    } else {
        ring
    }
}

/// The first of two strips of the strip table, from 0 to 2 and from 4 to 6, and both.
const FIRST: [u64; 8] = [1, 1, 0, 0, 0, 0, 0, 0];
const BOTH: [u64; 8] = [1, 1, 0, 0, 1, 1, 0, 0];

/// A ring and another inside it on the grid of nine, each in both directions, and in the other order.
fn holes(cases: &mut Cases) {
    let names = ["anticlockwise", "clockwise"];
    let mut round_the_middle = [1; 18];
    round_the_middle[8..10].fill(0);
    for outer in [false, true] {
        for inner in [false, true] {
            let [first, second] = [(outer, (0, 6)), (inner, (2, 4))].map(|(turn, at)| run(rectangle(at, at), turn));
            let (name, hole) = (names[usize::from(outer)], names[usize::from(inner)]);
            let right = sets(&round_the_middle);
            let present = if !outer && inner { right.clone() } else { Refused(20, 1) };
            let on_nine = |rings: Vec<Way>| sheet(&nine(), vec![polygon(rings)]);
            let rings = vec![first.clone(), second.clone()];
            let name = format!("a ring {name} with a ring {hole} inside");
            cases.in_modes(&name, on_nine(rings), present.clone(), right);
            cases.in_modes(format!("{name}, listed first"), on_nine(vec![second, first]), present, Refused(20, 1));
        }
    }
}

/// Polygons of one member: the first ring of each of them counts.
fn parts(cases: &mut Cases) {
    let part = |x1: i32, clockwise: bool| one(run(from_to(x1, x1 + 2), clockwise));
    let two = |first: bool, second: bool| vec![part(0, first), part(4, second)];
    let both = || sets(&BOTH);
    let on = |member: Geometry| on_strip(vec![member]);
    let refused = || Refused(20, 1);
    cases.in_modes("two parts anticlockwise", on(multi_polygon(two(false, false))), both(), both());
    cases.in_modes("two parts clockwise", on(multi_polygon(two(true, true))), refused(), both());
    cases.in_modes("two parts, the first clockwise", on(multi_polygon(two(true, false))), refused(), both());
    cases.in_modes("two parts, the second clockwise", on(multi_polygon(two(false, true))), refused(), both());
    let deep = |part: Geometry| nested(3, multi_polygon(vec![part.big()]));
    let collected = collection(two(true, true).into_iter().map(deep).collect());
    cases.in_modes("two parts clockwise, in collections", on(collected), refused(), both());
    let rings = vec![from_to(0, 2), from_to(4, 6)];
    cases.in_modes("two rings anticlockwise in one part", on(polygon(rings)), both(), refused());
    let with_hole = |outer: Way, hole: Way| polygon(vec![outer, hole]);
    let [large, small, alone] = [((0, 4), (0, 4)), ((0, 2), (2, 4)), ((4, 6), (4, 6))].map(|(x, y)| rectangle(x, y));
    let wrong = vec![with_hole(turned(large), small), one(turned(alone))];
    let owned = [1, 1, 1, 1, 0, 0, 0, 0, 1, 1, 0, 0, 0, 0, 0, 0, 1, 1];
    let name = "a part with a hole and a part without, all rings the wrong way";
    cases.in_modes(name, sheet(&nine(), vec![multi_polygon(wrong)]), refused(), sets(&owned));
}

/// Polygons of the sheet, each turned for itself.
fn members(cases: &mut Cases) {
    let member = |x1: i32, clockwise: bool| one(run(from_to(x1, x1 + 4), clockwise));
    let clean = || sets(&[1, 1, 1, 1, 2, 2, 2, 2]);
    let two = |first: bool, second: bool| on_strip(vec![member(0, first), member(4, second)]);
    cases.in_modes("clean, both polygons clockwise", two(true, true), Refused(20, 1), clean());
    cases.in_modes("clean, polygon 2 clockwise", two(false, true), Refused(20, 2), clean());
    let overlap = on_strip(vec![member(0, true), member(2, true)]);
    cases.in_modes("the strip sheet clockwise", overlap, Refused(20, 1), sets(&[1, 1, 3, 3, 2, 2, 0, 0]));
    cases.in_modes("no polygons, in both modes", on_two(vec![]), sets(&[0, 0]), sets(&[0, 0]));
    let late = on_strip(vec![member(0, true), strip_part(4, 7)]);
    cases.in_modes("polygon 1 clockwise, 2 not carried", late, Refused(20, 1), Refused(20, 2));
}

/// Rings of double area 0 stay, first or later. This one runs anticlockwise round the first strip and clockwise round the second;
/// with the second strip it makes up the first.
fn without_direction(cases: &mut Cases) {
    let eight = || closed(&[(0, 0), (2, 0), (2, 4), (4, 4), (4, 0), (2, 0), (2, 4), (0, 4)]);
    let second = || from_to(2, 4);
    let on = |member: Geometry| on_strip(vec![member]);
    for (clockwise, name) in [(false, "double area 0"), (true, "double area 0 the other way round")] {
        let ring = || run(eight(), clockwise);
        let outcome = || if clockwise { Refused(20, 1) } else { sets(&FIRST) };
        let parts = multi_polygon(vec![one(ring()), one(second())]);
        cases.in_modes(format!("a first ring of {name}"), on(parts), outcome(), outcome());
        let rings = polygon(vec![second(), ring()]);
        cases.in_modes(format!("a later ring of {name}"), on(rings), outcome(), outcome());
    }
    let line = || closed(&[(0, 0), (2, 0), (2, 0)]);
    let ground = || from_to(0, 2);
    let first = polygon(vec![line(), ground()]);
    cases.in_modes("a line drawn twice before a ring anticlockwise", on(first), sets(&FIRST), Refused(20, 1));
    let first = polygon(vec![line(), turned(ground())]);
    cases.in_modes("a line drawn twice before a ring clockwise", on(first), Refused(20, 1), Refused(20, 1));
    let later = polygon(vec![turned(ground()), line()]);
    cases.in_modes("a line drawn twice behind a ring clockwise", on(later), Refused(20, 1), sets(&FIRST));
    cases.in_modes("a line drawn twice and nothing else", on(one(line())), Refused(21, 1), Refused(21, 1));
}

/// Spikes turn with their ring.
fn spikes(cases: &mut Cases) {
    let spike = [(0, 0), (2, 0), (4, 0), (2, 0), (2, 4), (0, 4)];
    let sheet = |ring: Way| on_strip(vec![one(ring)]);
    cases.in_modes("example 6 clockwise", sheet(turned(closed(&spike))), Refused(20, 1), sets(&FIRST));
    let far = [(0, 0), (2, 0), (2, 4), (9, 9), (-7, 3), (9, 9), (2, 4), (0, 4)];
    cases.in_modes("a spike off the table, clockwise", sheet(turned(closed(&far))), Refused(20, 1), sets(&FIRST));
    let off = [(0, 0), (1, 0), (2, 0), (2, 4), (0, 4)];
    cases.in_modes("example 5 clockwise", sheet(turned(closed(&off))), Refused(20, 1), Refused(20, 1));
}

/// The same ring twice, as rings of one part and as parts.
fn twice(cases: &mut Cases) {
    let ring = |clockwise: bool| run(from_to(0, 4), clockwise);
    for (first, second, present) in [(false, false, 20), (false, true, 21), (true, false, 21), (true, true, 20)] {
        let name = format!("{first} and {second}").replace("false", "anticlockwise").replace("true", "clockwise");
        let rings = on_strip(vec![polygon(vec![ring(first), ring(second)])]);
        let parts = on_strip(vec![multi_polygon(vec![one(ring(first)), one(ring(second))])]);
        let here = Refused(present, 1);
        cases.in_modes(format!("two rings of one part, {name}"), rings, here.clone(), Refused(21, 1));
        cases.in_modes(format!("two parts of one ring, {name}"), parts, here, Refused(20, 1));
    }
}

/// Table pieces of either type are never turned.
fn pieces(cases: &mut Cases) {
    let [a, b, c] = strips(&[0, 2])[1];
    let kinds: [fn(Corners) -> Geometry; 2] = [piece, piece_of_type_3];
    for (kind, made) in ["17", "3"].into_iter().zip(kinds) {
        let table = tin(vec![made(strips(&[0, 2])[0]), made([a, c, b])]);
        let sheet = collection(vec![table, one(turned(from_to(0, 2)))]);
        let name = format!("a piece of type {kind} clockwise, with a polygon clockwise");
        cases.in_modes(name, sheet, Refused(10, 2), Refused(10, 2));
    }
}

/// Where sums are greatest, and where a double area of -1 is one of great numbers.
fn far(cases: &mut Cases) {
    let end = COORDINATE as i32;
    let corners = [(-end, -end), (end, -end), (end, end), (-end, end)];
    let [a, b, c, d] = corners;
    let on = |ring: Way| sheet(&[[a, b, c], [a, c, d]], vec![one(ring)]);
    cases.in_modes("the largest frame clockwise", on(turned(closed(&corners))), Refused(20, 1), sets(&[1, 1]));
    let round = closed(&corners.repeat(1_023));
    cases.in_modes("1,023 times round the largest frame clockwise", on(turned(round)), Refused(20, 1), Refused(20, 1));
    let thin = [(-end, -end), (end, end - 1), (end - 1, end - 2)];
    cases.in_modes("a double area of -1 from corner to corner", on(closed(&thin)), Refused(20, 1), Refused(20, 1));
}

#[cfg(test)]
mod tests {
    use crate::cases::named;
    use crate::reading::{read_in, Mode};
    use crate::turning::double_area;

    const OLDER: Mode = Mode { older: true, blob: false };

    /// The first ring of polygon 1 in each mode, and its double area in the present one.
    fn rings(name: &str) -> (Vec<crate::Point>, Vec<crate::Point>, i64) {
        let [present, older] =
            [Mode::PRESENT, OLDER].map(|mode| read_in(mode, &named(name)).unwrap().sheet.polygons[0][0][0].clone());
        let area = double_area(&present);
        (present, older, area)
    }

    #[test]
    fn double_areas_are_exact() {
        let far = 8 * 10_i64.pow(14);
        let areas = [
            ("the largest frame clockwise", -far),
            ("1,023 times round the largest frame clockwise", -1_023 * far),
            ("a double area of -1 from corner to corner", -1),
        ];
        for (name, area) in areas {
            let (present, mut older, found) = rings(name);
            older.reverse();
            assert!(found == area && present == older, "{name}");
        }
        for name in ["a first ring of double area 0", "a first ring of double area 0 the other way round"] {
            let (present, older, found) = rings(name);
            assert!(found == 0 && present == older, "{name}");
        }
    }
}
