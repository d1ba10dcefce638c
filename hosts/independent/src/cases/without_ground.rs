//! Polygons without ground: the boundary is zero everywhere, and the polygon is refused by 21 at its turn. Beside each stand
//! those that it could be taken for: what doesn't cancel, and what has ground elsewhere.

use super::case::Cases;
use super::ground::*;
use crate::made::{collection, multi_polygon, polygon, Geometry};

pub fn cases(cases: &mut Cases) {
    lines(cases);
    rings_that_cancel(cases);
    ground_elsewhere(cases);
    which(cases);
    order(cases);
}

/// The strip table with one polygon of one ring, by these points.
fn by(points: &[At]) -> Geometry {
    on_strip(vec![one(closed(points))])
}

/// A polygon without ground: a spike from a corner.
fn spike() -> Geometry {
    one(closed(&[(0, 0), (3, 1), (0, 0)]))
}

/// One ring of points and lines.
fn lines(cases: &mut Cases) {
    let zero: [(&str, &[At]); 9] = [
        ("a spike from a corner and nothing more", &[(0, 0), (3, 1), (0, 0)]),
        ("a spike off the table and nothing more", &[(-9, 9), (-3, 7), (-9, 9)]),
        ("a corner as a polygon", &[(2, 0), (2, 0), (2, 0)]),
        ("a point inside a triangle as a polygon", &[(3, 3), (3, 3), (3, 3), (3, 3)]),
        ("a point off the table as a polygon", &[(-9, 9), (-9, 9), (-9, 9)]),
        ("one line drawn twice", &[(0, 0), (8, 0), (8, 0)]),
        ("one line drawn straight and back by corners", &[(0, 0), (8, 0), (6, 0), (2, 0)]),
        ("one line drawn four times", &[(0, 0), (2, 4), (0, 0), (2, 4)]),
        ("a tree of lines, each there and back", &[(2, 0), (2, 4), (4, 4), (2, 4), (0, 4), (2, 4)]),
    ];
    for (name, points) in zero {
        cases.refused(name, by(points), (21, 1));
    }
    let other: [(&str, &[At]); 3] = [
        ("one line drawn straight and back by a point that is no corner", &[(0, 0), (2, 0), (1, 0)]),
        ("a triangle off the table", &[(-9, 9), (-3, 7), (-3, 9)]),
        ("a triangle as flat as can be between corners", &[(0, 0), (8, 0), (8, 1)]),
    ];
    for (name, points) in other {
        cases.refused(name, by(points), (20, 1));
    }
}

/// Several rings and parts, one against the other.
fn rings_that_cancel(cases: &mut Cases) {
    let left = || from_to(0, 4);
    let back = || turned(from_to(0, 4));
    let on = |member| on_strip(vec![member]);
    cases.refused("a ring and the same the other way round", on(polygon(vec![left(), back()])), (21, 1));
    let parts = || vec![one(left()).big(), one(back())];
    cases.refused("a part and the same the other way round", on(multi_polygon(parts())), (21, 1));
    let [there, again] = <[Geometry; 2]>::try_from(parts()).unwrap_or_else(|_| panic!("two parts"));
    let apart = collection(vec![nested(3, there), multi_polygon(vec![again])]);
    cases.refused("parts that cancel at two depths", on(apart), (21, 1));
    let halves = multi_polygon(vec![strip_part(0, 2), one(back()), strip_part(2, 4)]);
    cases.refused("two halves and their whole the other way round", on(halves), (21, 1));
    let triangles = strip_table().into_iter().take(4).map(|corners| one(turned(closed(&corners))));
    let each = multi_polygon(triangles.chain([one(left())]).collect());
    cases.refused("a rectangle and each of its triangles the other way round", on(each), (21, 1));
    let thrice = multi_polygon(vec![one(left()), one(back()), spike(), one(left()), one(back())]);
    cases.refused("a ring there and back twice, and a spike", on(thrice), (21, 1));
    let off = || closed(&[(-5, -5), (9, 9), (-5, 9)]);
    cases.refused("a ring off the table and back", on(polygon(vec![off(), turned(off())])), (21, 1));
    let beside = multi_polygon(vec![one(left()), one(turned(from_to(4, 8)))]);
    cases.refused("a rectangle and one beside it the other way round, of no area together", on(beside), (20, 1));
    let twice = polygon(vec![left(), back(), back()]);
    cases.refused("a ring once there and twice back", on(twice), (20, 1));
    let members = vec![one(left()), one(back())];
    cases.refused("a polygon and the same the other way round", on_strip(members), (20, 2));
}

/// What has no ground of its own cancels beside ground in the same polygon.
fn ground_elsewhere(cases: &mut Cases) {
    let line = || closed(&[(4, 0), (8, 0), (8, 0)]);
    let on = |member| on_strip(vec![member]);
    let sets = [1, 1, 0, 0, 0, 0, 0, 0];
    cases.sets(
        "a line drawn twice in a polygon with ground elsewhere",
        on(polygon(vec![line(), from_to(0, 2)])),
        &sets,
    );
    let parts = multi_polygon(vec![one(line()), spike(), strip_part(0, 2)]);
    cases.sets("a spike and a line drawn twice as parts beside ground", on(parts), &sets);
    let back = one(turned(from_to(4, 8)));
    let parts = multi_polygon(vec![strip_part(4, 8), back, strip_part(0, 2)]);
    cases.sets("parts that cancel beside ground", on(parts), &sets);
    let triangle = one(closed(&[(0, 0), (2, 0), (0, 0), (2, 0), (2, 4)]));
    cases.sets(
        "the least ground, one triangle, with a line drawn three times",
        on(triangle),
        &[1, 0, 0, 0, 0, 0, 0, 0],
    );
}

/// Which polygon is refused, and by which code, where several would be: polygons are judged in number order.
fn which(cases: &mut Cases) {
    let (good, never) = (|| strip_part(0, 4), || strip_part(0, 3));
    let orders: [(&str, Vec<Geometry>, (u8, u64)); 9] = [
        ("1 without ground, 2 not carried", vec![spike(), never()], (21, 1)),
        ("1 not carried, 2 without ground", vec![never(), spike()], (20, 1)),
        ("1 carried, 2 without ground, 3 not carried", vec![good(), spike(), never()], (21, 2)),
        ("1 carried, 2 not carried, 3 without ground", vec![good(), never(), spike()], (20, 2)),
        ("1 without ground, 2 carried, 3 not carried", vec![spike(), good(), never()], (21, 1)),
        ("1 not carried, 2 carried, 3 without ground", vec![never(), good(), spike()], (20, 1)),
        ("1 carried, 2 without ground", vec![good(), spike()], (21, 2)),
        ("1 without ground, 2 carried", vec![spike(), good()], (21, 1)),
        ("1 and 2 without ground", vec![spike(), spike()], (21, 1)),
    ];
    for (name, members, refusal) in orders {
        cases.refused(format!("polygon {name}"), on_strip(members), refusal);
    }
    let last = [vec![good(); 63], vec![spike()]].concat();
    cases.refused("the 64th polygon without ground", on_strip(last), (21, 64));
    let first = [vec![spike(); 63], vec![good()]].concat();
    cases.refused("63 polygons without ground before one with it", on_strip(first), (21, 1));
}

/// Reading and the table rules come before 21.
fn order(cases: &mut Cases) {
    let strip = strip_table();
    let broken = [&strip[..2], &strip[4..]].concat();
    cases.refused("rule C broken and a polygon without ground", sheet(&broken, vec![spike()]), (12, 0));
    let again = [&strip[..], &strip[..1]].concat();
    cases.refused("rule B broken and a polygon without ground", sheet(&again, vec![spike()]), (11, 9));
    let flat = [&strip[..], &[[(0, 0), (4, 0), (2, 0)]]].concat();
    cases.refused("rule A broken and a polygon without ground", sheet(&flat, vec![spike()]), (10, 9));
    let open = one(from_to(0, 4)[..4].to_vec());
    cases.refused("a polygon without ground and a ring not closed", on_strip(vec![spike(), open]), (6, 3));
}

#[cfg(test)]
mod tests {
    use crate::cases::named;
    use crate::entries::{answer, Entry};
    use crate::listing::listing;

    #[test]
    fn a_spike_beside_ground_is_answered_by_all_entries() {
        let input = named("a spike and a line drawn twice as parts beside ground");
        let sets = [1, 1, 0, 0, 0, 0, 0, 0].map(u64::to_le_bytes).concat();
        assert_eq!(answer(Entry::OwnerSets, &input, 64), (8 * 256, Some(sets)));
        assert_eq!(answer(Entry::Owners, &input, 8), (8 * 256, Some(vec![1; 8])));
        assert_eq!(answer(Entry::Boundary(1), &input, 160).0, 10 * 256);
        assert_eq!(answer(Entry::Boundary(2), &input, 160), (41, None));
        let printed = "sheet 8 1\npolygon 1 16\ngap 6 48\noverlap 0 0\nverdict repair\nafter 1 64\n";
        assert_eq!(listing(&input), printed);
    }

    #[test]
    fn a_polygon_without_ground_is_refused_before_what_is_asked_and_the_room() {
        let input = named("one line drawn twice");
        let entries = [Entry::OwnerSets, Entry::Owners, Entry::Boundary(0), Entry::Boundary(1), Entry::Boundary(2)];
        for entry in entries {
            assert_eq!(answer(entry, &input, 0), (256 + 21, None), "{entry:?}");
        }
        assert_eq!(listing(&input), "refused 21 1\n");
        assert_eq!(answer(Entry::Numbers, &input, 1_000).0 % 256, 0);
    }
}
