//! The plane: double areas, sides, edges cut at table corners, and boundaries.

use crate::{Point, Side, Triangle};

/// The double area of (a, b, c).
pub fn double_area(&[a, b, c]: &Triangle) -> i64 {
    (b.x - a.x) * (c.y - a.y) - (c.x - a.x) * (b.y - a.y)
}

/// The sides ab, bc, ca.
pub fn sides(&[a, b, c]: &Triangle) -> [Side; 3] {
    [(a, b), (b, c), (c, a)]
}

/// Calls `piece` with the pieces of the edge (p, q), cut at every table corner strictly between p and q on the
/// straight line, from p to q. An edge of no length gives nothing. On a straight line the points' own order is the
/// order along it, so the corners in question stand together in the ordered list.
pub fn cut(corners: &[Point], (p, q): Side, mut piece: impl FnMut(Side)) {
    let after = corners.partition_point(|&corner| corner <= p.min(q));
    let until = corners.partition_point(|&corner| corner < p.max(q)).max(after);
    let on_line = |corner: &&Point| double_area(&[p, q, **corner]) == 0;
    let between = corners[after..until].iter().filter(on_line);
    let mut from = p;
    let mut step = |to: &Point| {
        piece((from, *to));
        from = *to;
    };
    if p < q {
        between.for_each(&mut step);
    } else {
        between.rev().for_each(&mut step);
    }
    if p != q {
        step(&q);
    }
}

/// A boundary: it gives each ordered pair (u, v) the number of times uv is listed, less those of vu.
#[derive(Clone, Default)]
pub struct Boundary {
    listed: Vec<Side>,
}

impl Boundary {
    /// Adds the pieces of an edge.
    pub fn add_edge(&mut self, corners: &[Point], edge: Side) {
        cut(corners, edge, |piece| self.listed.push(piece));
    }

    /// Takes away the sides of a triangle.
    pub fn subtract_triangle(&mut self, triangle: &Triangle) {
        self.listed.extend(sides(triangle).map(|(u, v)| (v, u)));
    }

    /// Whether every ordered pair is given 0.
    pub fn is_zero(self) -> bool {
        let signed = |(u, v): Side| if u < v { (u, v, 1) } else { (v, u, -1) };
        let mut signed: Vec<(Point, Point, i64)> = self.listed.into_iter().map(signed).collect();
        signed.sort_unstable();
        let mut pairs = signed.chunk_by(|one, next| (one.0, one.1) == (next.0, next.1));
        pairs.all(|pair| pair.iter().map(|(_, _, sign)| sign).sum::<i64>() == 0)
    }
}
