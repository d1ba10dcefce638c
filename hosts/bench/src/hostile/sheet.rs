//! The bytes of hostile sheets, all little-endian.

use independent::made::{collection, multi_polygon, polygon, tin, triangle, Doubles, Geometry};
use independent::{Point, Ring, Triangle};

/// The most rings of a part.
const RINGS: usize = 64;

/// The sheet of this table and these polygons, each of one part, or of as many as its rings need.
pub fn bytes(triangles: &[Triangle], polygons: Vec<Vec<Ring>>) -> Vec<u8> {
    let part = |rings: &[Ring]| polygon(rings.iter().map(|ring| ring.iter().map(doubles).collect()).collect());
    let member = |rings: Vec<Ring>| match rings.len() {
        0..=RINGS => part(&rings),
        _ => multi_polygon(rings.chunks(RINGS).map(part).collect()),
    };
    whole(triangles, polygons.into_iter().map(member).collect())
}

/// The triangles shared out to so many polygons, a ring round each of them, alone in its part, that in a MultiPolygon, and that in all the collections that
/// there can be.
pub fn deep(triangles: &[Triangle], polygons: usize) -> Vec<u8> {
    let part = |triangle: &Triangle| polygon(vec![round(triangle).iter().map(doubles).collect()]);
    let deep = |triangle: &Triangle| collection(vec![collection(vec![multi_polygon(vec![part(triangle)])])]);
    let member = |some: &[Triangle]| collection(some.iter().map(deep).collect());
    whole(triangles, triangles.chunks(triangles.len() / polygons).map(member).collect())
}

/// The ring round a triangle.
pub fn round(&[a, b, c]: &Triangle) -> Ring {
    vec![a, b, c, a]
}

fn whole(triangles: &[Triangle], members: Vec<Geometry>) -> Vec<u8> {
    let table = tin(triangles.iter().map(|corners| triangle(corners.each_ref().map(doubles))).collect());
    collection([vec![table], members].concat()).bytes()
}

fn doubles(point: &Point) -> Doubles {
    (point.x as f64, point.y as f64)
}
