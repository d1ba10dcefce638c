//! Reading: byte orders, types, depth, and where the bytes end.

use super::case::Cases;
use super::examples::strip_sheet;
use super::ground::*;
use crate::made::{collection, multi_polygon, polygon, tin, Geometry};
use crate::reading::{MULTI_POLYGON, TIN, TRIANGLE};

pub fn cases(cases: &mut Cases) {
    ends(cases);
    orders(cases);
    types(cases);
    depths(cases);
}

/// What follows the sheet, or is cut off it.
fn ends(cases: &mut Cases) {
    let strip = strip_sheet().bytes();
    let with = |more: &[u8]| [&strip[..], more].concat();
    cases.refused("a byte after the sheet", with(&[0]), (7, 0));
    cases.refused("a byte after a sheet whose table breaks rule A", [broken_table().bytes(), vec![0]].concat(), (7, 0));
    cases.refused("another sheet begins after the sheet", with(&strip[..1]), (7, 0));
    cases.refused("cut after the byte order of the sheet's header", strip[..1].to_vec(), (1, 0));
    cases.refused("cut right after the sheet's header", strip[..9].to_vec(), (1, 1));
    cases.refused("cut inside the table", strip[..300].to_vec(), (1, 1));
    cases.refused("cut right after the table", strip[..634].to_vec(), (1, 2));
    cases.refused("cut right after polygon 1", strip[..727].to_vec(), (1, 3));
    cases.refused("cut in the last point", strip[..819].to_vec(), (1, 3));
}

/// A sheet of a table with a clockwise triangle and a polygon that isn't carried.
fn broken_table() -> Geometry {
    sheet(&[[(0, 0), (2, 0), (2, 4)], [(0, 0), (0, 4), (2, 4)]], vec![strip_part(0, 1)])
}

/// Byte orders: each geometry in another one than its container, and none that is neither 0 nor 1.
fn orders(cases: &mut Cases) {
    for (name, little) in [("little", true), ("big", false)] {
        let other = !little;
        let four = || from_to(-3, 5);
        let mine = |geometry: Geometry| geometry.ordered(little);
        let others = |geometry: Geometry| geometry.ordered(other);
        let pieces = strips(&[0, 2]).into_iter().map(|corners| mine(piece(corners))).collect();
        let parts = vec![mine(one(four())), mine(polygon(vec![four(), four()]))];
        let inner = mine(collection(vec![others(multi_polygon(vec![mine(one(four()))]))]));
        let members = vec![
            others(tin(pieces)),
            others(one(four())),
            others(multi_polygon(parts)),
            others(collection(vec![mine(one(four())), inner])),
        ];
        let name_of = |what: &str| format!("{what}, the sheet {name}-endian");
        cases.read(name_of("each geometry in another byte order than its container"), mine(collection(members)));
        let pieces = strips(&[0, 2, 4]).into_iter().map(|corners| mine(piece(corners))).collect();
        let members = vec![mine(tin(pieces)), mine(one(four()))];
        cases.read(name_of("all in one byte order"), mine(collection(members)));
        mixed_strip(cases, name_of("owners are judged whatever the byte orders"), little);
    }
    let strip = strip_sheet().bytes();
    let with = |place: usize, byte: u8| {
        let mut bytes = strip.clone();
        bytes[place] = byte;
        bytes
    };
    cases.refused("a byte order of 2 in the sheet's header", with(0, 2), (2, 0));
    cases.refused("a byte order of 2 in the table's header", with(9, 2), (2, 1));
    cases.refused("a byte order of 255 in a piece", with(18, 255), (2, 1));
    cases.refused("a byte order of 2 in polygon 2", with(727, 2), (2, 3));
    let alone = [collection(vec![]).bytes()[..5].to_vec(), vec![1, 0, 0, 0, 2]].concat();
    cases.refused("a byte order of 2 with nothing behind it", alone, (2, 1));
}

/// The strip table in both byte orders and types, a polygon, and a MultiPolygon of another byte order than its part.
fn mixed_strip(cases: &mut Cases, name: String, little: bool) {
    let [first, second, rest @ ..] = &strip_table()[..] else { panic!("eight triangles") };
    let mut pieces = vec![piece(*first).ordered(little), piece_of_type_3(*second).ordered(!little)];
    pieces.extend(rest.iter().map(|corners| piece(*corners).ordered(!little)));
    let table = tin(pieces).ordered(!little);
    let parts = multi_polygon(vec![strip_part(2, 4).ordered(little)]).ordered(!little);
    let members = vec![table, strip_part(0, 4).ordered(!little), parts];
    cases.sets(name, collection(members).ordered(little), &[1, 1, 3, 3, 0, 0, 0, 0]);
}

/// Which types stand where.
fn types(cases: &mut Cases) {
    cases.read("a table alone", on_two(vec![]));
    let pieces = strips(&[0, 2, 4]).into_iter().map(piece_of_type_3).collect();
    cases.read("table pieces of type 3", collection(vec![tin(pieces), strip_part(0, 4)]));
    let [one_half, other_half] = strips(&[0, 2])[..] else { panic!("two triangles") };
    let pieces = vec![piece(one_half), piece_of_type_3(other_half).big()];
    cases.read("table pieces of both types and byte orders", collection(vec![tin(pieces), strip_part(0, 2)]));
    let five = || strip_part(0, 2);
    cases.refused("a MultiPolygon as the sheet", multi_polygon(vec![five()]), (3, 0));
    cases.refused("a collection as the table", collection(vec![collection(vec![five()]), five()]), (3, 1));
    let pieces = vec![collection(vec![five()]), collection(vec![five()])];
    cases.refused("a collection as a table piece", collection(vec![tin(pieces)]), (3, 1));
    cases.refused("a collection as a part", on_two(vec![multi_polygon(vec![collection(vec![five()])])]), (3, 2));
    cases.refused("a Triangle as a part", on_two(vec![multi_polygon(vec![piece(one_half)])]), (3, 2));
    cases.refused("a TIN as a member", on_two(vec![five(), table(&strips(&[0, 2]))]), (3, 3));
    cases.refused("a member of type 4", on_strip(vec![Geometry::holding(4, vec![])]), (3, 2));
    cases.refused("a member of type 9", on_two(vec![five(), Geometry::holding(9, vec![])]), (3, 3));
}

/// Collections at depths 2 to 5; at a type field, 3 comes before 8.
fn depths(cases: &mut Cases) {
    let five = || strip_part(0, 2);
    for depth in 2..=4 {
        cases.read(format!("a Polygon in a collection at depth {depth}"), on_two(vec![nested(depth, five())]));
        let several = nested(depth, multi_polygon(vec![five(), five()]));
        cases.read(format!("a MultiPolygon in a collection at depth {depth}"), on_two(vec![several, five()]));
    }
    cases.refused("a collection at depth 5 in member 2", on_two(vec![nested(5, five())]), (8, 2));
    let members = vec![five(), nested(5, multi_polygon(vec![five()]))];
    cases.refused("a collection at depth 5 in member 3", on_two(members), (8, 3));
    cases.refused(
        "a collection at depth 5 with no members",
        on_two(vec![nested(5, Geometry::holding(7, vec![]))]),
        (8, 2),
    );
    let at_5 = |kind| on_two(vec![nested(4, Geometry::holding(kind, vec![five()]))]);
    cases.refused("a TIN where a collection would be at depth 5", at_5(TIN), (3, 2));
    cases.refused("a Triangle where a collection would be at depth 5", at_5(TRIANGLE), (3, 2));
    let parts = Geometry::holding(MULTI_POLYGON, vec![five(), collection(vec![five()])]);
    cases.refused("a collection as a part below depth 4", on_two(vec![five(), nested(4, parts)]), (3, 3));
}
