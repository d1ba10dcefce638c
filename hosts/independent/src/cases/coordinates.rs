//! Reading: which doubles are coordinates, and what closes a ring.

use super::case::Cases;
use super::ground::*;
use crate::made::{collection, polygon, tin, triangle, Doubles, Geometry};
use crate::reading::{POLYGON, TRIANGLE};

pub fn cases(cases: &mut Cases) {
    read(cases);
    refused(cases);
    unclosed(cases);
    closed_by_zeros(cases);
}

const A: Doubles = (0.0, 0.0);
const B: Doubles = (2.0, 0.0);
const C: Doubles = (2.0, 4.0);

/// A piece for the table beside one that is tried.
fn other_piece() -> Geometry {
    piece([(0, 0), (2, 4), (0, 4)])
}

fn read(cases: &mut Cases) {
    for x in [1.0e7, -1.0e7, -0.0, 1.0, -1.0, 9_999_999.0, 8_388_607.0] {
        let ring = vec![(x, 0.0), (2.0, x), C, (x, 0.0)];
        cases.read(format!("{x:?} as coordinates of a polygon"), on_two(vec![one(ring)]));
        let table = tin(vec![triangle([(x, 0.0), (2.0, x), C]), piece_of_type_3([(0, 0), (2, 4), (0, 4)])]);
        cases.read(format!("{x:?} as coordinates of the table"), collection(vec![table]));
    }
}

/// Doubles that are no coordinates, at five places, in both byte orders. At a ring's last point 5 comes before 6.
fn refused(cases: &mut Cases) {
    let (quiet, signalling) = (f64::from_bits(0x7ff8_0000_0000_0000), f64::from_bits(0xfff0_0000_0000_0001));
    let numbers =
        [10_000_001.0, -10_000_001.0, 3.5, -0.5, 0.1, 5.0e-324, 1.0e300, 10_000_000.000000002, 2.0_f64.powi(63)];
    let numbers = numbers.iter().map(|x| (format!("{x:?}"), *x));
    let others = [
        ("infinity", f64::INFINITY),
        ("-infinity", f64::NEG_INFINITY),
        ("a quiet NaN", quiet),
        ("a signalling NaN", signalling),
    ];
    let others = others.map(|(name, x)| (name.to_string(), x));
    for (name, x) in numbers.chain(others) {
        for (order, little) in [("little", true), ("big", false)] {
            let member = |ring: Vec<Doubles>| one(ring).ordered(little);
            let table = tin(vec![triangle([(1.0, x), B, C]).ordered(little), other_piece()]);
            let tried = [
                ("the x of a ring's first point", on_two(vec![member(vec![(x, 0.0), B, C, (x, 0.0)])]), 2),
                (
                    "a y in member 3",
                    on_two(vec![strip_part(0, 2), member(vec![(1.0, 1.0), (2.0, x), C, (1.0, 1.0)])]),
                    3,
                ),
                ("a y of the table", collection(vec![table]), 1),
                ("the y of a last point, 5 before 6", on_two(vec![member(vec![A, B, C, (0.0, x)])]), 2),
                ("the x of a last point, 5 before 6", on_two(vec![member(vec![A, B, C, (x, 1.0)])]), 2),
            ];
            for (place, sheet, item) in tried {
                cases.refused(format!("{name} as {place}, {order}-endian"), sheet, (5, item));
            }
        }
    }
}

fn unclosed(cases: &mut Cases) {
    for last in [(1, 0), (0, 1), (-1, 0), (0, -1), (2, 4), (0, 10_000_000)] {
        let ring = || [vec![A, B, C], way(&[last])].concat();
        let good = || vec![A, B, C, A];
        let name = |place: &str| format!("a ring from (0, 0) to {last:?} {place}");
        cases.refused(name("in member 2"), on_two(vec![one(ring())]), (6, 2));
        let members = vec![one(good()), polygon(vec![good(), ring()])];
        cases.refused(name("as the second one of member 3"), on_two(members), (6, 3));
        for (kind_name, kind) in [("Triangle", TRIANGLE), ("Polygon", POLYGON)] {
            let table = tin(vec![triangle([A, B, C]), Geometry::ringed(kind, vec![ring()])]);
            cases.refused(name(&format!("as a {kind_name} of the table")), collection(vec![table]), (6, 1));
        }
    }
}

/// 6 compares whole numbers, so that -0 closes against 0.
fn closed_by_zeros(cases: &mut Cases) {
    for (first, last) in
        [((0.0, 0.0), (-0.0, 0.0)), ((0.0, 0.0), (0.0, -0.0)), ((-0.0, -0.0), (0.0, 0.0)), ((-0.0, 5.0), (0.0, 5.0))]
    {
        let ring = || vec![first, B, C, last];
        cases.read(format!("a polygon's ring from {first:?} to {last:?}"), on_two(vec![one(ring())]));
        let table = tin(vec![other_piece(), Geometry::ringed(TRIANGLE, vec![ring()])]);
        cases.read(format!("a table piece's ring from {first:?} to {last:?}"), collection(vec![table]));
    }
}
