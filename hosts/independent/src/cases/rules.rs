//! The table rules: each broken in many ways, which comes first, and which item is told.

use super::case::Cases;
use super::ground::*;
use crate::made::{collection, tin, Geometry};

pub fn cases(cases: &mut Cases) {
    rule_a(cases);
    order(cases);
    rule_b(cases);
    rule_b_by_sides(cases);
    corners_in_the_way(cases);
    rule_c(cases);
    kept(cases);
}

/// A sheet of these triangles and one polygon.
fn with_one(triangles: &[Corners]) -> Geometry {
    sheet(triangles, vec![strip_part(0, 2)])
}

const FLAT: Corners = [(0, 0), (4, 0), (2, 0)];
const TURNED: Corners = [(0, 0), (0, 4), (2, 4)];
const END: i32 = 10_000_000;

/// 10, with the first such triangle.
fn rule_a(cases: &mut Cases) {
    let strip = strip_table();
    let faults: [(&str, Corners); 5] = [
        ("flat", FLAT),
        ("clockwise", TURNED),
        ("one point", [(2, 0); 3]),
        ("with a corner twice", [(0, 0), (0, 0), (2, 4)]),
        ("clockwise and as large as can be", [(-END, -END), (-END, END), (END, END)]),
    ];
    for (name, fault) in faults {
        let last = [&strip[..], &[fault]].concat();
        cases.refused(format!("a triangle that is {name}, the last"), with_one(&last), (10, 9));
        let first = [&[fault], &strip[..]].concat();
        cases.refused(format!("a triangle that is {name}, the first"), with_one(&first), (10, 1));
        let between = [&strip[..3], &[fault], &strip[3..], &[FLAT]].concat();
        cases.refused(
            format!("a triangle that is {name}, the fourth, and a flat one behind"),
            with_one(&between),
            (10, 4),
        );
    }
}

/// Reading comes before the rules, 10 before 11 before 12 before 20 and 21.
fn order(cases: &mut Cases) {
    let strip = strip_table();
    let never = || strip_part(0, 1);
    let two = &strip[..2];
    let table = [two, &strip[..1], &[TURNED]].concat();
    cases.refused("rules A, B and C broken and a polygon not carried", sheet(&table, vec![never()]), (10, 4));
    let table = [two, &strip[..1], &strip[4..]].concat();
    cases.refused("rules B and C broken and a polygon not carried", sheet(&table, vec![never()]), (11, 3));
    let table = [two, &strip[4..]].concat();
    cases.refused("rule C broken and a polygon not carried", sheet(&table, vec![never()]), (12, 0));
    cases.refused("a polygon not carried", on_strip(vec![never()]), (20, 1));
    let table = [two, &[TURNED]].concat();
    let open = from_to(0, 1)[..4].to_vec();
    cases.refused("rule A broken and a ring not closed", sheet(&table, vec![never(), one(open)]), (6, 3));
    let after = [sheet(&table, vec![never()]).bytes(), vec![0]].concat();
    cases.refused("rule A broken and a byte after the sheet", after, (7, 0));
}

/// 11, with the smallest triangle that has a side of an earlier one.
fn rule_b(cases: &mut Cases) {
    let (a, b) = ([(0, 0), (2, 0), (2, 4)], [(10, 0), (12, 0), (12, 4)]);
    let table = [a, b, [(10, 0), (12, 0), (11, 9)], [(0, 0), (2, 0), (1, 9)]];
    cases.refused("triangle 3 has a side of 2, triangle 4 one of 1", with_one(&table), (11, 3));
    let mut backwards = strip_table();
    backwards.reverse();
    let mut again = strip_table()[3];
    again.rotate_left(1);
    backwards.push(again);
    cases.refused("a triangle again at the end, from another corner", with_one(&backwards), (11, 9));
}

/// 11, whichever of a triangle's sides it is, and whichever of the earlier one's.
fn rule_b_by_sides(cases: &mut Cases) {
    let (a, b): (Corners, Corners) = ([(0, 0), (2, 0), (2, 4)], [(10, 0), (12, 0), (12, 4)]);
    for (side, apex) in [(0, (1, 9)), (1, (-5, 7)), (2, (9, -1))] {
        let (p, q) = (a[side], a[(side + 1) % 3]);
        for (place, again) in [[p, q, apex], [q, apex, p], [apex, p, q]].into_iter().enumerate() {
            let names = ["ab", "bc", "ca"];
            let place = [0, 2, 1][place];
            let name =
                |order: &str| format!("side {} of one triangle is {} of another, {order}", names[side], names[place]);
            cases.refused(name("1 and 3"), with_one(&[a, b, again]), (11, 3));
            cases.refused(name("4 and 2, while 3 repeats 1"), with_one(&[b, again, b, a]), (11, 3));
        }
    }
}

/// Corners inside another triangle's side, inside another triangle, and frame corners that are no corners of the table: 12.
fn corners_in_the_way(cases: &mut Cases) {
    let square = [(0, 0), (4, 0), (4, 4), (0, 4)];
    let table = [[(0, 0), (4, 0), (2, 2)], [(4, 0), (4, 4), (2, 2)], [(0, 0), (4, 4), (0, 4)]];
    cases.refused("a corner inside another triangle's side", with_one(&table), (12, 0));
    let table = [rising(&[0, 4], &[0, 4]), vec![[(1, 1), (3, 1), (3, 2)]]].concat();
    cases.refused("a triangle inside another", with_one(&table), (12, 0));
    let slanted = star((2, 2), &[(1, 0), (4, 1), (3, 4), (0, 3)]);
    cases.refused("no frame corner is a corner of the table", with_one(&slanted), (12, 0));
    let cut_off = star((2, 2), &[(0, 0), (4, 0), (4, 3), (3, 4), (0, 4)]);
    cases.refused("one frame corner is cut off", with_one(&cut_off), (12, 0));
    cases.refused("a quarter of the frame is missing", with_one(&star((2, 2), &square)[..3]), (12, 0));
    let lower = [rising(&[0, 4], &[0, 4]), rising(&[4, 8], &[0, 2])].concat();
    cases.refused("rectangles of different heights side by side", with_one(&lower), (12, 0));
}

/// Holes, ground covered twice, and rectangles that don't make up one: 12.
fn rule_c(cases: &mut Cases) {
    let nine = nine();
    let square = [(0, 0), (4, 0), (4, 4), (0, 4)];
    let all = || rising(&[0, 4], &[0, 4]);
    cases.refused("a hole of a rectangle", with_one(&[&nine[..8], &nine[10..]].concat()), (12, 0));
    cases.refused("a hole of a triangle", with_one(&[&nine[..9], &nine[10..]].concat()), (12, 0));
    cases.refused(
        "the frame covered again from its middle, by sides of the first",
        with_one(&[all(), star((2, 2), &square)].concat()),
        (11, 3),
    );
    cases.refused(
        "a rectangle over the middle of another",
        with_one(&[all(), rising(&[1, 3], &[1, 3])].concat()),
        (12, 0),
    );
    cases.refused("rectangles that meet at a corner", with_one(&[all(), rising(&[4, 8], &[4, 8])].concat()), (12, 0));
    cases.refused("two separate rectangles", with_one(&[strips(&[0, 2]), strips(&[4, 6])].concat()), (12, 0));
    let one_side = [rising(&[0, 2], &[0, 4]), rising(&[2, 4], &[0, 2, 4])].concat();
    cases.refused("a corner in the table on one side of a long side only", with_one(&one_side), (12, 0));
    let triangle = [(0, 0), (2, 0), (2, 4)];
    cases.refused("a triangle far from another", sheet(&[triangle, [(9, 9), (11, 9), (11, 13)]], vec![]), (12, 0));
}

/// A frame's edge may be many sides, and a triangle may begin at any of its corners.
fn kept(cases: &mut Cases) {
    let mut fan = star((3, 1), &[(0, 0), (1, 0), (5, 0), (7, 0), (7, 3), (7, 4), (0, 4), (0, 1)]);
    fan.iter_mut().enumerate().for_each(|(k, triangle)| triangle.rotate_left(k % 3));
    cases.sets(
        "a frame's edges of many sides, triangles begun at any corner",
        sheet(&fan, vec![strip_part(0, 7)]),
        &[1; 8],
    );
    let table = tin(strip_table().into_iter().map(piece_of_type_3).collect());
    let sheet = collection(vec![table, strip_part(0, 8)]);
    cases.sets("a table of pieces of type 3 keeps the rules", sheet, &[1; 8]);
}
