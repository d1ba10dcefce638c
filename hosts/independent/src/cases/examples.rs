//! Document 01's examples, and the sheets of the folder examples/, which a newcomer tries first.

use super::case::{Cases, Outcome};
use super::ground::*;
use crate::made::{collection, multi_polygon, tin, triangle, Doubles, Geometry};

/// Document 01's strip sheet.
pub fn strip_sheet() -> Geometry {
    on_strip(vec![strip_part(0, 4), strip_part(2, 6)])
}

/// The sheets of the folder examples/, by name: the strip sheet, a clean one, one with gaps and overlaps, one of nested
/// collections, two that are refused, and the story: a corner of two polygons stands on the straight boundary of the third, with
/// the corner in the table and without it.
pub fn shown() -> Vec<(&'static str, Geometry)> {
    let blocks = [((0, 4), (0, 4)), ((2, 6), (0, 2)), ((0, 2), (2, 6)), ((4, 6), (4, 6))];
    vec![
        ("strip", strip_sheet()),
        ("clean", on_strip(vec![strip_part(0, 4), strip_part(4, 8)])),
        ("gaps-and-overlaps", sheet(&nine(), blocks.map(|(x, y)| one(rectangle(x, y))).to_vec())),
        ("no-polygons", on_strip(vec![])),
        ("not-carried", on_strip(vec![strip_part(0, 4), strip_part(0, 3)])),
        ("no-ground", on_strip(vec![strip_part(0, 4), line_drawn_twice()])),
        ("nested", nested_sheet()),
        ("story", sheet(&story_table(), story_members())),
        ("story-without-the-corner", sheet(&story_table_without(), story_members())),
    ]
}

/// A polygon that is one line drawn twice, along the strip sheet's lower edge from 4 to 8.
fn line_drawn_twice() -> Geometry {
    one(closed(&[(4, 0), (8, 0), (8, 0)]))
}

/// A square in four triangles round its middle. Polygon 1 is three parts of two nested collections, polygon 2 the rest and one
/// triangle of polygon 1; both byte orders, both types of pieces, and -0 for 0.
pub(super) fn nested_sheet() -> Geometry {
    let middle = (2.0, 2.0);
    let square: [Doubles; 5] = [(-0.0, 0.0), (4.0, -0.0), (4.0, 4.0), (0.0, 4.0), (-0.0, 0.0)];
    let ring = |k: usize| vec![square[k], square[k + 1], middle, square[k]];
    let piece = |k: usize| {
        let piece = if k < 2 { triangle([square[k], square[k + 1], middle]) } else { one(ring(k)) };
        piece.ordered(k % 2 == 1)
    };
    let part = |k: usize| one(ring(k)).ordered(k % 2 == 1);
    let first = collection(vec![multi_polygon(vec![part(0)]).big()]);
    let inner = collection(vec![first, multi_polygon(vec![part(1), part(2)])]).big();
    let [a, _, c, d, _] = square;
    let second = one(vec![c, d, a, middle, c]).big();
    collection(vec![tin((0..4).map(piece).collect()).big(), collection(vec![inner]), second])
}

/// The story's table with the corner (2, 2).
pub fn story_table() -> Vec<Corners> {
    [star((1, 2), &[(0, 0), (2, 0), (2, 2), (2, 4), (0, 4)]), rising(&[2, 4], &[0, 2, 4])].concat()
}

/// The story's table without it.
pub fn story_table_without() -> Vec<Corners> {
    let right = vec![[(2, 0), (4, 0), (4, 2)], [(2, 0), (4, 2), (2, 4)], [(4, 2), (4, 4), (2, 4)]];
    [rising(&[0, 2], &[0, 4]), right].concat()
}

/// The story's polygons: the left half, the lower right and the upper right quarter.
pub fn story_members() -> Vec<Geometry> {
    vec![strip_part(0, 2), one(rectangle((2, 4), (0, 2))), one(rectangle((2, 4), (2, 4)))]
}

/// What document 01 says of its examples, and of these sheets.
pub(super) fn cases(cases: &mut Cases) {
    let ring = [(0, 0), (4, 0), (4, 4), (0, 4)];
    let by = |points: &[At]| on_strip(vec![one(closed(points))]);
    cases.sets("example 1 - the rectangle (0,0)(4,0)(4,4)(0,4)", by(&ring), &[1, 1, 1, 1, 0, 0, 0, 0]);
    let clockwise = on_strip(vec![one(turned(closed(&ring)))]);
    let carried = Outcome::Sets(vec![1, 1, 1, 1, 0, 0, 0, 0]);
    cases.in_modes("example 2 - the same clockwise", clockwise, Outcome::Refused(20, 1), carried);
    cases.sets("example 3 - one triangle", by(&[(0, 0), (2, 0), (2, 4)]), &[1, 0, 0, 0, 0, 0, 0, 0]);
    cases.refused("example 4 - a long edge is no chain of sides", by(&[(0, 0), (4, 0), (4, 4)]), (20, 1));
    let off = [(0, 0), (1, 0), (2, 0), (2, 4), (0, 4)];
    cases.refused("example 5 - a point that is no table corner", by(&off), (20, 1));
    let spike = [(0, 0), (2, 0), (4, 0), (2, 0), (2, 4), (0, 4)];
    cases.sets("example 6 - a spike out and back", by(&spike), &[1, 1, 0, 0, 0, 0, 0, 0]);
    cases.refused("example 7 - a line there and back", by(&[(0, 0), (2, 0), (0, 0)]), (21, 1));
    let twice = on_strip(vec![multi_polygon(vec![one(closed(&ring)), one(closed(&ring))])]);
    cases.refused("example 8 - example 1 twice in one MultiPolygon", twice, (20, 1));
    let strip = strip_table();
    cases.refused("example 9 - without the last triangle", sheet(&strip[..7], vec![one(closed(&ring))]), (12, 0));
    let again = sheet(&[&strip[..], &strip[..1]].concat(), vec![one(closed(&ring))]);
    cases.refused("example 10 - the first triangle again at the end", again, (11, 9));
    cases.refused("example 11 - no bytes", vec![], (1, 0));
    let outcomes = shown_outcomes();
    for ((name, sheet), outcome) in shown().into_iter().zip(outcomes) {
        cases.add(name, sheet, outcome);
    }
}

/// What document 01 says of the sheets of the folder examples/, in their order.
fn shown_outcomes() -> [Outcome; 9] {
    use Outcome::{Refused, Sets};
    [
        Sets(vec![1, 1, 3, 3, 2, 2, 0, 0]),
        Sets(vec![1, 1, 1, 1, 2, 2, 2, 2]),
        Sets(vec![1, 1, 3, 3, 2, 2, 5, 5, 1, 1, 0, 0, 4, 4, 0, 0, 8, 8]),
        Sets(vec![0; 8]),
        Refused(20, 2),
        Refused(21, 2),
        Sets(vec![1, 1, 3, 2]),
        Sets(vec![1, 1, 1, 1, 1, 2, 2, 4, 4]),
        Refused(20, 2),
    ]
}

#[cfg(test)]
mod tests {
    use super::*;
    use crate::cases::named;
    use crate::entries::{answer, whole, Entry};
    use crate::listing::listing;

    #[test]
    fn the_strip_sheet_has_820_bytes_and_prints_its_listing() {
        let input = strip_sheet().bytes();
        assert_eq!(input.len(), 820);
        let printed =
            "sheet 8 2\npolygon 1 32\npolygon 2 32\ngap 2 16\noverlap 2 16\nverdict repair\nafter 1 32\nafter 2 32\n";
        assert_eq!(listing(&input), printed);
        assert_eq!(answer(Entry::Listing, &input, printed.len()), (printed.len() as u64 * 256, Some(printed.into())));
        assert_eq!(answer(Entry::Listing, &input, printed.len() - 1), (40, None));
    }

    #[test]
    fn carried_examples_have_the_double_areas_that_document_01_says() {
        let areas = [
            ("example 1 - the rectangle (0,0)(4,0)(4,4)(0,4)", 32),
            ("example 3 - one triangle", 8),
            ("example 6 - a spike out and back", 16),
        ];
        for (name, area) in areas {
            assert!(listing(&named(name)).contains(&format!("\npolygon 1 {area}\n")), "{name}");
        }
        let older = whole(Entry::ListingBy(1, 0), &named("example 2 - the same clockwise")).unwrap().bytes;
        assert!(String::from_utf8(older).unwrap().contains("\npolygon 1 32\n"));
    }

    #[test]
    fn without_polygons_all_is_gap_and_repair_is_refused() {
        let input = named("no-polygons");
        assert_eq!(answer(Entry::OwnerSets, &input, 64), (8 * 256, Some(vec![0; 64])));
        assert_eq!(answer(Entry::Owners, &input, 64), (30, None));
        assert_eq!(answer(Entry::Boundary(1), &input, 64), (41, None));
        assert_eq!(listing(&input), "sheet 8 0\ngap 8 64\noverlap 0 0\nverdict repair\nrefused 30 0\n");
    }
}
