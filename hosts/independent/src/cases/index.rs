//! The index: for each triangle and side the number of the triangle with the reversed side, whatever the polygons are.

use super::case::{Cases, Outcome};
use super::ground::*;

pub fn cases(cases: &mut Cases) {
    tables(cases);
    polygons(cases);
}

fn index(numbers: &[[u16; 3]]) -> Outcome {
    Outcome::Index(numbers.concat())
}

/// The strip sheet's: across the long side the strip's other triangle, beside it those of the strips before and behind.
const STRIP: [[u16; 3]; 8] = [[0, 4, 2], [1, 0, 0], [0, 6, 4], [3, 0, 1], [0, 8, 6], [5, 0, 3], [0, 0, 8], [7, 0, 5]];

/// Tables, in several orders and with several first corners.
fn tables(cases: &mut Cases) {
    let halves = [[(0, 0), (8, 0), (8, 4)], [(0, 0), (8, 4), (0, 4)]];
    cases.add("index: two triangles", sheet(&halves, vec![]), index(&[[0, 0, 2], [1, 0, 0]]));
    let others = [[(8, 0), (8, 4), (0, 0)], [(0, 4), (0, 0), (8, 4)]];
    cases.add("index: two triangles, other first corners", sheet(&others, vec![]), index(&[[0, 2, 0], [0, 1, 0]]));
    let exchanged = [halves[1], halves[0]];
    cases.add("index: two triangles in the other order", sheet(&exchanged, vec![]), index(&[[2, 0, 0], [0, 0, 1]]));
    let around =
        [[(0, 0), (8, 0), (4, 2)], [(8, 0), (8, 4), (4, 2)], [(8, 4), (0, 4), (4, 2)], [(0, 4), (0, 0), (4, 2)]];
    let round = [[0, 2, 4], [0, 3, 1], [0, 4, 2], [0, 1, 3]];
    cases.add("index: four triangles round a corner", sheet(&around, vec![]), index(&round));
    let cut = [[(0, 0), (4, 0), (8, 4)], [(4, 0), (8, 0), (8, 4)], [(0, 0), (8, 4), (0, 4)]];
    cases.add("index: a corner on the frame's edge", sheet(&cut, vec![]), index(&[[0, 2, 3], [0, 0, 1], [1, 0, 0]]));
    let strip = strips(&[0, 2, 4, 6, 8]);
    cases.add("index: the strip table", sheet(&strip, vec![]), index(&STRIP));
}

/// The index doesn't depend on the polygons: they may be carried by no set, have no ground, or run clockwise.
fn polygons(cases: &mut Cases) {
    let not_carried = one(closed(&[(0, 0), (4, 0), (4, 4)]));
    cases.add("index: a polygon that isn't carried", on_strip(vec![not_carried]), index(&STRIP));
    let line = one(closed(&[(0, 0), (2, 0), (2, 0)]));
    cases.add("index: a polygon without ground", on_strip(vec![line]), index(&STRIP));
    let clockwise = on_strip(vec![one(turned(from_to(0, 4)))]);
    cases.in_modes("index: a polygon clockwise", clockwise, index(&STRIP), index(&STRIP));
}
