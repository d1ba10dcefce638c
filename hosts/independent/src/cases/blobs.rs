//! Blobs: what is said of each field of the header, of the envelope, and of the sheet behind them; and what the blob writer makes.
//! Positions are counted by hand, from 0 at the first byte of the blob: the letters are at 0, the version at 2, the flags at 3, the
//! number at 4, the envelope at 8, and the sheet at 40, or at 8 without an envelope.

use super::case::{Cases, Outcome};
use super::examples::strip_sheet;
use super::ground::*;
use crate::limits::COORDINATE;
use crate::made::{Geometry, Head};
use Outcome::{BlobNotWritten, BlobWritten, Holds, Refused, Sets, Unframed, Unread};

pub fn cases(cases: &mut Cases) {
    flags(cases);
    cuts(cases);
    first_fields(cases);
    numbers(cases);
    for (order, little) in [("little", true), ("big", false)] {
        envelopes(cases, order, little);
        sheets(cases, order, little);
    }
    far_envelopes(cases);
    order_of_refusals(cases);
    other_forms(cases);
    older(cases);
    writing(cases);
}

/// The frame of the strip sheet, that of the smallest table, and a reference-system number.
const STRIP: [f64; 4] = [0.0, 8.0, 0.0, 4.0];
const TWO: [f64; 4] = [0.0, 2.0, 0.0, 4.0];
const NUMBER: i32 = 25_832;

/// The smallest table with all its ground owned.
fn small() -> Geometry {
    on_two(vec![strip_part(0, 2)])
}

/// The owners before repair of the smallest table and of the strip sheet.
fn small_sets() -> Outcome {
    Sets(vec![1, 1])
}

fn strip_sets() -> Outcome {
    Sets(vec![1, 1, 3, 3, 2, 2, 0, 0])
}

/// The little-endian bytes of these numbers.
fn bytes(numbers: &[i32]) -> Vec<u8> {
    numbers.iter().flat_map(|number| number.to_le_bytes()).collect()
}

/// Every flags byte, whole and, some, with nothing behind it: 50 comes before 51, and both before the number.
fn flags(cases: &mut Cases) {
    for flags in 0..=255_u8 {
        let envelope = (flags >> 1 & 7 == 1).then_some(TWO);
        let blob = Head { flags, ..Head::sound(true, NUMBER, envelope) }.before(small());
        let refused = match (flags >> 4, flags >> 1 & 7) {
            (0, 0 | 1) => None,
            (0, _) => Some(51),
            _ => Some(50),
        };
        let whole = refused.map_or(small_sets(), |code| Unread(code, 0, 0));
        let cut = refused.map_or(Unread(1, 0, 4), |code| Unread(code, 0, 0));
        if flags < 32 || flags.count_ones() == 1 || flags > 250 {
            cases.blob(format!("flags {flags:08b}, nothing behind them"), blob[..4].to_vec(), cut);
        }
        cases.blob(format!("flags {flags:08b}"), blob, whole);
    }
}

/// Every length that ends in the header, but that behind the flags: the field that is cut short, and where it begins.
fn cuts(cases: &mut Cases) {
    for (order, little) in [("little", true), ("big", false)] {
        for (name, envelope) in [("with an envelope", Some(TWO)), ("without one", None)] {
            let head = Head::sound(little, NUMBER, envelope);
            let blob = head.before(small());
            let header = head.bytes().len();
            let first = if little && envelope.is_some() { 1 } else { 5 };
            for end in (first..=header).filter(|end| *end != 4) {
                let at = [0, 2, 3, 4, 8, 40].into_iter().rfind(|at| *at <= end).unwrap();
                let name = format!("{end} bytes of a {order}-endian blob {name}");
                cases.blob(name, blob[..end].to_vec(), Unread(1, 0, at as u64));
            }
        }
    }
}

/// Letters and version; what is wrong first is told, and nothing behind it matters.
fn first_fields(cases: &mut Cases) {
    let head = || Head::sound(true, NUMBER, Some(TWO));
    let fifty = || Unread(50, 0, 0);
    for letters in [b"gP", b"Gp", b"PG", b"GG", b"PP", b"\0\0", b"GQ"] {
        let name = |what: &str| format!("letters {:02x} {:02x}{what}", letters[0], letters[1]);
        let head = Head { letters: *letters, ..head() };
        cases.blob(name(""), head.before(small()), fifty());
        cases.blob(name(", nothing behind them"), letters.to_vec(), fifty());
    }
    for letter in [b'g', 0, 1] {
        cases.blob(format!("the byte {letter:02x} alone"), vec![letter], Unread(1, 0, 0));
    }
    for version in [1, 2, 128, 255] {
        let head = Head { version, ..head() };
        cases.blob(format!("version {version}"), head.before(small()), fifty());
        cases.blob(format!("version {version}, nothing behind it"), head.bytes()[..3].to_vec(), fifty());
    }
    let version = Head { version: 1, flags: 0b0000_0101, ..head() };
    cases.blob("version 1, an envelope of kind 2", version.before(small()), fifty());
    let letters = Head { letters: *b"GX", flags: 0b0000_0101, ..head() };
    cases.blob("wrong letters, an envelope of kind 2", letters.before(small()), fifty());
}

/// Any number is one, in both byte orders.
fn numbers(cases: &mut Cases) {
    for number in [0, 1, -1, 4_326, 0x0102_0304, 1 << 24, 10_000_001, i32::MAX, i32::MIN] {
        for (order, little) in [("little", true), ("big", false)] {
            for (name, envelope) in [("with an envelope", Some(TWO)), ("without one", None)] {
                let blob = Head::sound(little, number, envelope).before(small());
                let name = format!("reference system {number}, {order}-endian, {name}");
                cases.blob(name, blob, Holds(number, small().bytes()));
            }
        }
    }
}

/// Envelopes of the strip sheet, which is (0, 8, 0, 4): 52 unless they are the same as numbers.
fn envelopes(cases: &mut Cases, order: &str, little: bool) {
    let mut add = |name: String, envelope: [f64; 4], outcome: Outcome| {
        let blob = Head::sound(little, NUMBER, Some(envelope)).before(strip_sheet());
        cases.blob(format!("an envelope {name}, {order}-endian"), blob, outcome);
    };
    let [x1, x2, y1, y2] = STRIP;
    let refused = || Refused(52, 0);
    add("with -0 for 0".into(), [-0.0, x2, -0.0, y2], strip_sets());
    add("with -0 for the least x".into(), [-0.0, x2, y1, y2], strip_sets());
    add("with -0 for the least y".into(), [x1, x2, -0.0, y2], strip_sets());
    add("with x and y ranges exchanged".into(), [y1, y2, x1, x2], refused());
    add("by corners".into(), [x1, y1, x2, y2], refused());
    add("with greatest before least".into(), [x2, x1, y2, y1], refused());
    add("negated".into(), [x1, -x2, y1, -y2], refused());
    add("of nothing".into(), [0.0; 4], refused());
    add("of infinities".into(), [f64::NEG_INFINITY, f64::INFINITY, f64::NEG_INFINITY, f64::INFINITY], refused());
    add("of NaN".into(), [f64::NAN; 4], refused());
    let other_order = STRIP.map(|double| f64::from_bits(double.to_bits().swap_bytes()));
    add("in the other byte order".into(), other_order, refused());
    let doubles = ["the least x", "the greatest x", "the least y", "the greatest y"];
    let quiet = f64::from_bits(0x7ff8_0000_0000_0001);
    let signalling = f64::from_bits(0xfff0_0000_0000_0001);
    for (place, name) in doubles.into_iter().enumerate() {
        let old = STRIP[place];
        let others = [
            ("1 more", old + 1.0),
            ("1 less", old - 1.0),
            ("half a millimetre more", old + 0.5),
            ("the next double", f64::from_bits(old.to_bits() + 1)),
            ("NaN", f64::NAN),
            ("a NaN with a payload", quiet),
            ("a signalling NaN below 0", signalling),
            ("infinite", f64::INFINITY),
            ("infinite below 0", f64::NEG_INFINITY),
        ];
        for (what, double) in others {
            let mut envelope = STRIP;
            envelope[place] = double;
            add(format!("with {name} {what}"), envelope, refused());
        }
    }
}

/// The sheet behind the header: in a byte order of its own, with its own refusals, whose positions are counted from the blob's
/// first byte.
fn sheets(cases: &mut Cases, order: &str, little: bool) {
    let mixed = super::examples::nested_sheet();
    for (name, envelope, at) in [("with an envelope", Some(STRIP), 40), ("without one", None, 8)] {
        let head = Head::sound(little, NUMBER, envelope);
        let name = |what: &str| format!("{what} in a {order}-endian blob {name}");
        let strip = strip_sheet().bytes();
        let blob = |sheet: &[u8]| head.before(sheet);
        let with = |place: usize, new: &[u8]| blob(&super::fields::with(&strip, place, new));
        cases.blob(name("the strip sheet"), blob(&strip), strip_sets());
        let big = on_strip(vec![strip_part(0, 4), strip_part(2, 6).big()]).big();
        cases.blob(name("the strip sheet big-endian"), head.before(big), strip_sets());
        cases.blob(name("a byte order of 71"), with(0, b"G"), Unread(2, 0, at));
        cases.blob(name("a sheet of type 6"), with(1, &[6]), Unread(3, 0, at + 1));
        cases.blob(name("a sheet of no members"), with(5, &[0]), Unread(4, 0, at + 5));
        cases.blob(name("a sheet cut in its table"), blob(&strip[..38]), Unread(1, 1, at + 31));
        cases.blob(name("a sheet without its last byte"), blob(&strip[..819]), Unread(1, 3, at + 804));
        cases.blob(name("half a millimetre as y"), with(655, &0.5_f64.to_le_bytes()), Unread(5, 2, at + 655));
        cases.blob(name("a ring that is not closed"), with(804, &1_f64.to_le_bytes()), Unread(6, 3, at + 804));
        cases.blob(name("a byte after the sheet"), blob(&[&strip[..], b"G"].concat()), Unread(7, 0, at + 820));
        cases.blob(name("no sheet but a byte"), blob(&[1]), Unread(1, 0, at + 1));
        let deep = on_two(vec![nested(5, strip_part(0, 2))]);
        cases.blob(name("a collection at depth 5"), head.before(deep), Unread(8, 2, at + 200));
    }
    let head = Head::sound(little, NUMBER, Some([-0.0, 4.0, 0.0, 4.0]));
    cases.blob(format!("nested sheet in a {order}-endian blob"), head.before(mixed), Sets(vec![1, 1, 3, 2]));
}

/// The largest frame, one on one side of 0, and one that ends at 0.
fn far_envelopes(cases: &mut Cases) {
    let end = COORDINATE as i32;
    let frame = |x: (i32, i32), y: (i32, i32)| sheet(&rising(&[x.0, x.1], &[y.0, y.1]), vec![one(rectangle(x, y))]);
    let whole = (-end, end);
    let end = f64::from(end);
    for (name, envelope, outcome) in [
        ("the largest frame", [-end, end, -end, end], small_sets()),
        ("the largest frame with the least y 1 less", [-end, end, -end - 1.0, end], Refused(52, 0)),
        (
            "the largest frame with the greatest x the double before",
            [-end, f64::from_bits(end.to_bits() - 1), -end, end],
            Refused(52, 0),
        ),
    ] {
        cases.blob(name, Head::sound(true, NUMBER, Some(envelope)).before(frame(whole, whole)), outcome);
    }
    let below = Head::sound(false, NUMBER, Some([-7.0, -3.0, -20.0, -11.0]));
    cases.blob("a frame below 0", below.before(frame((-7, -3), (-20, -11))), small_sets());
    for (name, envelope) in [("x", [-7.0, -0.0, -20.0, 0.0]), ("y", [-7.0, 0.0, -20.0, -0.0])] {
        for (order, little) in [("little", true), ("big", false)] {
            let blob = Head::sound(little, NUMBER, Some(envelope)).before(frame((-7, 0), (-20, 0)));
            cases.blob(format!("a frame up to 0 with -0 for the greatest {name}, {order}-endian"), blob, small_sets());
        }
    }
}

/// 52 comes after 12 and before 20, 21, 41 and 30; in the numbers entry it comes after reading.
fn order_of_refusals(cases: &mut Cases) {
    let wrong = |sheet: Geometry| Head::sound(true, NUMBER, Some([0.0, 9.0, 0.0, 4.0])).before(sheet);
    let right = |sheet: Geometry| Head::sound(true, NUMBER, Some(STRIP)).before(sheet);
    let strip = strip_table();
    let [a, b, c] = strip[0];
    let rules = [
        ("rule A broken", [&[[a, c, b]], &strip[1..]].concat(), Refused(10, 1), Unframed(10, 1)),
        ("rule B broken", [&strip[..], &strip[..1]].concat(), Refused(11, 9), Unframed(11, 9)),
        ("rule C broken", strip[..7].to_vec(), Refused(12, 0), Unframed(12, 0)),
    ];
    for (name, table, framed, unframed) in rules {
        let sheet = || sheet(&table, vec![strip_part(0, 4)]);
        cases.blob(format!("{name}, the envelope right"), right(sheet()), framed);
        cases.blob(format!("{name}, the envelope wrong"), wrong(sheet()), unframed);
    }
    let line = || one(closed(&[(0, 0), (2, 0), (2, 0)]));
    for (name, members, framed) in [
        ("a polygon not carried", vec![strip_part(0, 3)], Refused(20, 1)),
        ("a polygon without ground", vec![line()], Refused(21, 1)),
        ("no polygons", vec![], Sets(vec![0; 8])),
    ] {
        cases.blob(format!("{name}, the envelope right"), right(on_strip(members.clone())), framed);
        cases.blob(format!("{name}, the envelope wrong"), wrong(on_strip(members)), Refused(52, 0));
    }
    let cut = strip_sheet().bytes()[..819].to_vec();
    let blob = Head::sound(true, NUMBER, Some([f64::NAN; 4])).before(cut);
    cases.blob("a sheet that can't be read, the envelope wrong", blob, Unread(1, 3, 844));
}

/// What is no blob, or too much of one.
fn other_forms(cases: &mut Cases) {
    cases.blob("no bytes for a blob", vec![], Unread(1, 0, 0));
    cases.blob("a sheet for a blob", small(), Unread(50, 0, 0));
    cases.unread("a blob for a sheet", Head::sound(true, NUMBER, Some(TWO)).before(small()), (2, 0), 0);
    let inner = Head::sound(true, NUMBER, Some(TWO));
    let twice = |envelope| Head::sound(true, NUMBER, envelope).before(inner.before(small()));
    cases.blob("a blob in a blob", twice(Some(TWO)), Unread(2, 0, 40));
    cases.blob("a blob in a blob without an envelope", twice(None), Unread(2, 0, 8));
    let unsaid = Head { flags: 1, ..inner.clone() }.before(small());
    cases.blob("an envelope that the flags don't say", unsaid, Unread(3, 0, 9));
    let unset = Head { flags: 3, ..Head::sound(true, NUMBER, None) }.before(small());
    cases.blob("no envelope where the flags say one", unset, Unread(3, 0, 41));
    let other = Head { flags: 2, ..Head::sound(true, NUMBER, None) }.bytes();
    let mixed = [&other[..4], &inner.bytes()[4..], &small().bytes()].concat();
    cases.blob("an envelope in another order than the flags say", mixed, Refused(52, 0));
}

/// Blobs of the older edition: the rings of the sheet are turned, and the envelope is as ever.
fn older(cases: &mut Cases) {
    let clockwise = || on_strip([(0, 4), (2, 6)].map(|(x1, x2)| one(turned(from_to(x1, x2)))).to_vec());
    let in_modes = |present: Outcome, older: Outcome| Outcome::InModes(Box::new(present), Box::new(older));
    let blob = |envelope: Option<[f64; 4]>| Head::sound(false, NUMBER, envelope).before(clockwise());
    for (name, envelope) in [("a blob", Some(STRIP)), ("a blob without an envelope", None)] {
        let outcome = in_modes(Refused(20, 1), strip_sets());
        cases.blob(format!("the strip sheet clockwise in {name}"), blob(envelope), outcome);
    }
    let wrong = in_modes(Refused(52, 0), Refused(52, 0));
    cases.blob("the strip sheet clockwise, the envelope wrong", blob(Some(TWO)), wrong);
}

/// The blob writer. The numbers of the smallest table: 2, six for each triangle, and no polygons.
fn writing(cases: &mut Cases) {
    let table = |corners: [i32; 12]| [&[2][..], &corners, &[0]].concat();
    let corners = [0, 0, 2, 0, 2, 4, 0, 0, 2, 4, 0, 4];
    let sheet = || on_two(vec![]);
    for number in [0, 7, -1, 4_326, i32::MIN, i32::MAX] {
        let given = bytes(&[&[number][..], &table(corners)].concat());
        let written = Head::sound(true, number, Some(TWO)).before(sheet());
        cases.add(format!("a blob's numbers, reference system {number}"), given, BlobWritten(written));
    }
    let given = bytes(&[&[7][..], &table(corners)].concat());
    for end in [0, 1, 2, 3, 4, 5, given.len() - 4, given.len() - 1] {
        cases.add(format!("{end} bytes of a blob's numbers"), given[..end].to_vec(), BlobNotWritten);
    }
    cases.add("a blob's numbers and a byte", [&given[..], &[0]].concat(), BlobNotWritten);
    cases.add("a blob's numbers without the reference system", given[4..].to_vec(), BlobNotWritten);
    let far = bytes(&[&[7][..], &table([10_000_001, 0, 2, 0, 2, 4, 0, 0, 2, 4, 0, 4])].concat());
    cases.add("a blob's numbers out of range", far, BlobNotWritten);
    let broken = [5, -3, -9, -3, 2, -3, 5, 1, 5, 1, 5, 1];
    let at = |k: usize| (broken[k], broken[k + 1]);
    let kept = super::ground::sheet(&[[at(0), at(2), at(4)], [at(6), at(8), at(10)]], vec![]);
    let written = Head::sound(true, 7, Some([-9.0, 5.0, -3.0, 1.0])).before(kept);
    let given = bytes(&[&[7][..], &table(broken)].concat());
    cases.add("a blob's numbers with a table that breaks rules", given, BlobWritten(written));
}
