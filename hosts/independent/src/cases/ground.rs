//! Tables and rings that the cases are made of.

use crate::made::{collection, polygon, tin, triangle, Doubles, Geometry};

/// A point in whole numbers.
pub type At = (i32, i32);

/// The corners of a triangle.
pub type Corners = [At; 3];

/// A ring of doubles, or a way.
pub type Way = Vec<Doubles>;

/// The points as doubles.
pub fn way(points: &[At]) -> Way {
    points.iter().map(|&(x, y)| (x.into(), y.into())).collect()
}

/// The ring by these points; the closing one is added.
pub fn closed(points: &[At]) -> Way {
    way(&[points, &points[..1]].concat())
}

/// The other way round.
pub fn turned(mut ring: Way) -> Way {
    ring.reverse();
    ring
}

/// The ring round a rectangle, anticlockwise.
pub fn rectangle((x1, x2): (i32, i32), (y1, y2): (i32, i32)) -> Way {
    closed(&[(x1, y1), (x2, y1), (x2, y2), (x1, y2)])
}

/// The ring round the strip sheet's ground from x1 to x2.
pub fn from_to(x1: i32, x2: i32) -> Way {
    rectangle((x1, x2), (0, 4))
}

/// A ring of so many points, the closing one counted, all of them different.
pub fn around(points: i32, start: i32) -> Way {
    let corners: Vec<At> = (0..points - 1).map(|i| (start + i, start - i * i)).collect();
    closed(&corners)
}

/// A polygon of one ring.
pub fn one(ring: Way) -> Geometry {
    polygon(vec![ring])
}

/// A polygon on the strip sheet's ground from x1 to x2.
pub fn strip_part(x1: i32, x2: i32) -> Geometry {
    one(from_to(x1, x2))
}

/// Strips as the strip sheet has them, between these places.
pub fn strips(xs: &[i32]) -> Vec<Corners> {
    let halves = |x: &[i32]| {
        let (a, b) = (x[0], x[1]);
        [[(a, 0), (b, 0), (b, 4)], [(a, 0), (b, 4), (a, 4)]]
    };
    xs.windows(2).flat_map(halves).collect()
}

/// The strip table.
pub fn strip_table() -> Vec<Corners> {
    strips(&[0, 2, 4, 6, 8])
}

/// Rectangles between these places, row by row, of two triangles each; `falling` says by column and row where the diagonal
/// runs from the upper left.
pub fn grid(xs: &[i32], ys: &[i32], falling: impl Fn(usize, usize) -> bool) -> Vec<Corners> {
    let mut triangles = Vec::new();
    for (j, y) in ys.windows(2).enumerate() {
        for (i, x) in xs.windows(2).enumerate() {
            let [a, b, c, d] = [(x[0], y[0]), (x[1], y[0]), (x[1], y[1]), (x[0], y[1])];
            triangles.extend(if falling(i, j) { [[a, b, d], [b, c, d]] } else { [[a, b, c], [a, c, d]] });
        }
    }
    triangles
}

/// The same with every diagonal from the lower left.
pub fn rising(xs: &[i32], ys: &[i32]) -> Vec<Corners> {
    grid(xs, ys, |_, _| false)
}

/// The grid of nine rectangles on 0, 2, 4 and 6.
pub fn nine() -> Vec<Corners> {
    rising(&[0, 2, 4, 6], &[0, 2, 4, 6])
}

/// 1,024 triangles in 32 columns and 16 rows.
pub fn widest() -> Vec<Corners> {
    let marks: Vec<i32> = (0..=64).step_by(2).collect();
    rising(&marks, &marks[..17])
}

/// 1,024 triangles in one row, with 513 corners on each of its two long edges.
pub fn row() -> Vec<Corners> {
    strips(&(0..=1_024).step_by(2).collect::<Vec<i32>>())
}

/// The triangles from a point to each edge of a ring round it.
pub fn star(middle: At, around: &[At]) -> Vec<Corners> {
    let next = around.iter().cycle().skip(1);
    around.iter().zip(next).map(|(&p, &q)| [middle, p, q]).collect()
}

/// A triangle as a piece of a table.
pub fn piece([a, b, c]: Corners) -> Geometry {
    triangle([a, b, c].map(|(x, y)| (x.into(), y.into())))
}

/// A triangle as a piece of type 3.
pub fn piece_of_type_3(corners: Corners) -> Geometry {
    one(closed(&corners))
}

/// A table of these triangles.
pub fn table(triangles: &[Corners]) -> Geometry {
    tin(triangles.iter().copied().map(piece).collect())
}

/// A sheet of these triangles and members.
pub fn sheet(triangles: &[Corners], members: Vec<Geometry>) -> Geometry {
    collection([vec![table(triangles)], members].concat())
}

/// A sheet on the strip table.
pub fn on_strip(members: Vec<Geometry>) -> Geometry {
    sheet(&strip_table(), members)
}

/// A sheet on the smallest table, of two triangles.
pub fn on_two(members: Vec<Geometry>) -> Geometry {
    sheet(&strips(&[0, 2]), members)
}

/// A geometry below collections as a member of the sheet, the deepest at this depth; the sheet counts as 1.
pub fn nested(depth: u32, inner: Geometry) -> Geometry {
    (1..depth).fold(inner, |inner, _| collection(vec![inner]))
}
