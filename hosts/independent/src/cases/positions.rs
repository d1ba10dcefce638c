//! Reading: where in the bytes the field at fault stands. Positions are counted by hand, from 0 at the first byte.

use super::case::Cases;
use super::fields::with;
use super::ground::*;
use crate::made::{collection, double_bytes, multi_polygon, number_bytes, polygon, tin, Geometry};

pub fn cases(cases: &mut Cases) {
    for (name, little) in [("little", true), ("big", false)] {
        let strip = Strip { order: name, little, bytes: strip(little).bytes() };
        strip.cuts(cases);
        strip.headers(cases);
        strip.rings(cases);
        strip.points(cases);
        strip.surplus(cases);
        too_deep(cases, name, little);
    }
    nested_places(cases);
    too_many(cases);
    far(cases);
}

/// The strip sheet, every geometry in this byte order. Headers: the sheet's at 0, the table's at 9, those of its pieces at 18,
/// 95 and so on, polygon 1's at 634, polygon 2's at 727; in each the type follows after 1 byte, the count after 5. The ring of
/// the first piece is at 27, with points at 31, 47, 63 and 79; that of polygon 1 at 643, with points at 647, 663, 679, 695 and
/// 711; that of polygon 2 at 736, its last point at 804. 820 bytes.
fn strip(little: bool) -> Geometry {
    let pieces = strip_table().into_iter().map(|corners| piece(corners).ordered(little)).collect();
    let parts = [strip_part(0, 4), strip_part(2, 6)].map(|part| part.ordered(little));
    collection([vec![tin(pieces).ordered(little)], parts.to_vec()].concat()).ordered(little)
}

/// The strip sheet's bytes, with the name of their order.
struct Strip {
    order: &'static str,
    little: bool,
    bytes: Vec<u8>,
}

impl Strip {
    fn name(&self, what: &str) -> String {
        format!("position of {what}, {}-endian", self.order)
    }

    fn number(&self, place: usize, number: u32) -> Vec<u8> {
        with(&self.bytes, place, &number_bytes(number, self.little))
    }

    fn double(&self, place: usize, double: f64) -> Vec<u8> {
        with(&self.bytes, place, &double_bytes(double, self.little))
    }

    /// 1: where the field begins that is cut short. A point is one field.
    fn cuts(&self, cases: &mut Cases) {
        let fields = [
            ("the sheet's type, not there", 1, 0, 1),
            ("the sheet's type, cut", 4, 0, 1),
            ("the sheet's count, not there", 5, 0, 5),
            ("the sheet's count, cut", 8, 0, 5),
            ("the table's byte order, not there", 9, 1, 9),
            ("the table's type, cut", 11, 1, 10),
            ("the table's count, cut", 17, 1, 14),
            ("a piece's byte order, not there", 95, 1, 95),
            ("a piece's type, cut", 22, 1, 19),
            ("a piece's count, cut", 24, 1, 23),
            ("a piece's ring, cut in its count", 30, 1, 27),
            ("a point, not there", 31, 1, 31),
            ("a point, cut in its x", 38, 1, 31),
            ("a point, cut after its x", 39, 1, 31),
            ("a point, cut in its y", 46, 1, 31),
            ("polygon 1, not there", 634, 2, 634),
            ("polygon 1, cut in its count", 642, 2, 639),
            ("polygon 1, its ring not there", 643, 2, 643),
            ("polygon 2, not there", 727, 3, 727),
            ("the last point, not there", 804, 3, 804),
            ("the last point, cut", 819, 3, 804),
        ];
        for (what, end, item, at) in fields {
            cases.unread(self.name(what), self.bytes[..end].to_vec(), (1, item), at);
        }
    }

    /// 2 at the header, 3 at the type, 4 at the count.
    fn headers(&self, cases: &mut Cases) {
        let headers = [("the sheet", 0, 0), ("the table", 9, 1), ("a piece", 172, 1), ("polygon 2", 727, 3)];
        for (what, place, item) in headers {
            let at = place as u64;
            let name = |fault: &str| self.name(&format!("{fault} in the header of {what}"));
            cases.unread(name("a byte order of 2"), with(&self.bytes, place, &[2]), (2, item), at);
            cases.unread(name("a type of 4"), self.number(place + 1, 4), (3, item), at + 1);
            cases.unread(name("a count of 0"), self.number(place + 5, 0), (4, item), at + 5);
            cases.unread(name("a count of 4,097"), self.number(place + 5, 4_097), (4, item), at + 5);
        }
        let all = with(&self.number(728, 4), 732, &[0; 4]);
        cases.unread(self.name("a type of 4 before a count of 0"), all, (3, 3), 728);
    }

    /// 4 at a ring's count.
    fn rings(&self, cases: &mut Cases) {
        cases.unread(self.name("5 points of a piece"), self.number(27, 5), (4, 1), 27);
        cases.unread(self.name("3 points of polygon 1"), self.number(643, 3), (4, 2), 643);
        cases.unread(self.name("4,097 points of polygon 2"), self.number(736, 4_097), (4, 3), 736);
        cases.unread(self.name("4,092 points of polygon 2, 5 before"), self.number(736, 4_092), (4, 3), 736);
    }

    /// 5 at the double, x before y; 6 at the last point.
    fn points(&self, cases: &mut Cases) {
        let nan = f64::NAN;
        cases.unread(self.name("an x of the table"), self.double(31, 0.5), (5, 1), 31);
        cases.unread(self.name("a y of the table"), self.double(55, nan), (5, 1), 55);
        cases.unread(self.name("the x of polygon 1's first point"), self.double(647, nan), (5, 2), 647);
        cases.unread(self.name("the y of polygon 1's first point"), self.double(655, 10_000_001.0), (5, 2), 655);
        let both = with(&self.double(679, 0.5), 687, &double_bytes(nan, self.little));
        cases.unread(self.name("x and y of a point"), both, (5, 2), 679);
        let two = with(&self.double(671, 0.5), 679, &double_bytes(0.5, self.little));
        cases.unread(self.name("the y of a point and the x of the next"), two, (5, 2), 671);
        cases.unread(self.name("the y of a last point, 5 before 6"), self.double(719, 0.5), (5, 2), 719);
        cases.unread(self.name("a piece's last point, its x another"), self.double(79, 1.0), (6, 1), 79);
        cases.unread(self.name("a ring's last point, its x another"), self.double(711, 1.0), (6, 2), 711);
        cases.unread(self.name("a ring's last point, its y another"), self.double(812, 1.0), (6, 3), 804);
    }

    /// 7 at the first surplus byte.
    fn surplus(&self, cases: &mut Cases) {
        for count in [1, 2, 1_000] {
            let more = [&self.bytes[..], &vec![1; count]].concat();
            cases.unread(self.name(&format!("{count} bytes after the sheet")), more, (7, 0), 820);
        }
    }
}

/// 8 at the type of the collection at depth 5: the table ends at 172, and the headers of the collections at depths 2, 3, 4 and 5
/// stand at 172, 181, 190 and 199. A type that can't stand there has the same position, and so has the collection with
/// nothing behind its type.
fn too_deep(cases: &mut Cases, order: &str, little: bool) {
    let fifth = |kind: u32| Geometry::holding(kind, vec![]).ordered(little);
    let sheet = |kind: u32| on_two(vec![(2..=4).fold(fifth(kind), |inner, _| collection(vec![inner]).ordered(little))]);
    let name = |what: &str| format!("position of {what}, {order}-endian");
    cases.unread(name("a collection at depth 5"), sheet(7), (8, 2), 200);
    cases.unread(name("a collection at depth 5, cut after its type"), sheet(7).bytes()[..204].to_vec(), (8, 2), 200);
    cases.unread(name("a collection at depth 5, cut in its type"), sheet(7).bytes()[..203].to_vec(), (1, 2), 200);
    cases.unread(name("a TIN in a collection at depth 4"), sheet(16), (3, 2), 200);
}

/// Places in the sheet examples/nested.wkb, in both byte orders. The table ends at 326; the collections of member 2 begin at 326,
/// 335 (big-endian) and 344, in the last one a MultiPolygon at 353 (big-endian) with its part at 362 (big-endian), whose ring
/// is at 371 with points at 375, 391, 407 and 423; then a MultiPolygon at 439 with parts at 448 and 525 (big-endian); member 3
/// (big-endian) at 602, its ring at 611.
fn nested_places(cases: &mut Cases) {
    let sheet = super::examples::nested_sheet().bytes();
    let big = |place: usize, number: u32| with(&sheet, place, &number_bytes(number, false));
    let little = |place: usize, number: u32| with(&sheet, place, &number_bytes(number, true));
    let double = |place: usize, double: f64| with(&sheet, place, &double_bytes(double, false));
    let name = |what: &str| format!("position of {what}, in nested collections");
    cases.unread(name("a byte order at depth 4"), with(&sheet, 344, &[7]), (2, 2), 344);
    cases.unread(name("a big-endian collection at depth 5"), big(354, 7), (8, 2), 354);
    cases.unread(name("a collection as a part"), big(363, 7), (3, 2), 363);
    cases.unread(name("a type in the other byte order"), little(363, 3), (3, 2), 363);
    cases.unread(name("a big-endian count of members"), big(340, 65), (4, 2), 340);
    cases.unread(name("a little-endian count of parts"), little(444, 0), (4, 2), 444);
    cases.unread(name("a count in the other byte order"), big(444, 2), (4, 2), 444);
    cases.unread(name("a big-endian x"), double(391, 0.5), (5, 2), 391);
    cases.unread(name("a big-endian y"), double(399, 0.5), (5, 2), 399);
    cases.unread(name("a big-endian last point"), double(423, 1.0), (6, 2), 423);
    cases.unread(name("a ring of the last part, cut"), sheet[..537].to_vec(), (1, 2), 534);
    cases.unread(name("member 3, cut in its count"), sheet[..610].to_vec(), (1, 3), 607);
    cases.unread(name("a byte after the sheet"), [&sheet[..], &[0]].concat(), (7, 0), 695);
}

/// 4 at the type of the 65th polygon under a member, and at the count of the ring that is too long with those before it.
fn too_many(cases: &mut Cases) {
    let four = || one(closed(&[(0, 0), (2, 0), (2, 4)]));
    let full = || multi_polygon(vec![four(); 64]);
    for (name, little) in [("little", true), ("big", false)] {
        let last = four().ordered(little);
        let sheet = on_two(vec![collection(vec![full(), last.clone()])]);
        // 172, a header of 9, one of the MultiPolygon's, and 64 polygons of 77.
        cases.unread(format!("position of the 65th polygon, {name}-endian"), sheet.clone(), (4, 2), 5_119);
        let cut = sheet.bytes()[..5_123].to_vec();
        cases.unread(format!("position of the 65th polygon, cut after its type, {name}-endian"), cut, (4, 2), 5_119);
        let deep = on_two(vec![collection(vec![full(), nested(3, multi_polygon(vec![last]))])]);
        // Two collections' headers and a MultiPolygon's besides.
        cases.unread(format!("position of the 65th polygon, at depth 4, {name}-endian"), deep, (4, 2), 5_146);
        let rings = on_two(vec![polygon(vec![around(2_000, 3), around(2_000, 5), around(97, 7)]).ordered(little)]);
        // 172, a header of 9, and two rings of 4 + 32,000.
        cases.unread(format!("position of the ring with point 4,097, {name}-endian"), rings, (4, 2), 64_189);
    }
    cases.unread("position of a count of 66 members", on_two(vec![four(); 65]), (4, 0), 5);
    let pieces = vec![piece([(0, 0), (2, 0), (2, 4)]); 1_025];
    cases.unread("position of a count of 1,025 triangles", collection(vec![tin(pieces)]), (4, 1), 14);
}

/// Far into the longest inputs.
fn far(cases: &mut Cases) {
    let longest = super::large::longest_sheet().bytes();
    cases.unread("position of a byte after the longest sheet", [&longest[..], &[0]].concat(), (7, 0), 185_938);
    cases.unread("position of the longest sheet's last point", longest[..185_937].to_vec(), (1, 65), 185_922);
    let last_y = with(&longest, 185_930, &double_bytes(0.5, true));
    cases.unread("position of the longest sheet's last y", last_y, (5, 65), 185_930);
    cases.unread("position of the farthest fault", super::large::farthest_fault(), (4, 65), 185_974);
}
