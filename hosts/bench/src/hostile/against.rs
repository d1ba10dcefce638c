//! Points and lines against a hash: against that of native's sides, and against the chains of points by a sum of products, as a library that can't let numbers
//! wrap would have them.

use super::grounds::{at, Ground, HEIGHT};
use super::Size;
use crate::native;
use independent::generate::Dice;
use independent::limits::COORDINATE;
use independent::table::frame;
use independent::{Point, Triangle};

/// The factors of x and y, both counted from the least coordinate on; of the sum 12 bits from this one on are the chain.
const FACTORS: [u64; 2] = [2_654_435_761, 2_246_822_519];
const LOWEST: u32 = 22;

/// A coordinate's share of the sum, without what is above the chain's bits.
fn share(coordinate: i64, factor: u64) -> u64 {
    (coordinate + COORDINATE) as u64 * factor % (1 << (LOWEST + 12))
}

/// The chain of a point, one of 4,096.
fn chain(point: Point) -> u64 {
    ((share(point.x, FACTORS[0]) + share(point.y, FACTORS[1])) >> LOWEST) % 4_096
}

/// Corners on a line, and other points between them, all in one chain.
pub struct Chained {
    pub line: Vec<i64>,
    pub misses: Vec<Point>,
}

/// So many of each.
pub fn corners_in_chain(number: usize) -> Chained {
    let chained: Vec<i64> = (-COORDINATE / 2..COORDINATE).filter(|x| chain(at(*x, 0)) == 0).take(2 * number).collect();
    let (line, misses): (Vec<i64>, Vec<i64>) = chained.chunks_exact(2).map(|two| (two[0], two[1])).unzip();
    Chained { line, misses: misses.into_iter().map(|x| at(x, 0)).collect() }
}

/// Coordinates whose shares with this factor are so small that two of them together are no chain's width.
fn small_shares(factor: u64) -> impl Iterator<Item = i64> {
    (-COORDINATE..=COORDINATE).filter(move |coordinate| share(*coordinate, factor) < 1 << (LOWEST - 1))
}

/// Columns and rows of a grid of so many triangles, whose corners are all in one chain.
pub fn lines_in_chain(triangles: usize) -> (Vec<i64>, Vec<i64>) {
    let (rows, columns) = Ground::grid(triangles).cells;
    (small_shares(FACTORS[0]).take(columns + 1).collect(), small_shares(FACTORS[1]).take(rows + 1).collect())
}

/// So many triangles with no corner in common, whose corners are all in one chain.
pub fn apart_in_chain(triangles: usize) -> Vec<Triangle> {
    let xs: Vec<i64> = small_shares(FACTORS[0]).take(2 * triangles).collect();
    let ys: Vec<i64> = small_shares(FACTORS[1]).take(2).collect();
    xs.chunks_exact(2).map(|x| [at(x[0], ys[0]), at(x[1], ys[0]), at(x[0], ys[1])]).collect()
}

/// So many points that are no corners, in chain 0: of a grid's frame, or, by turns, before and behind a fan, and up to a tenth of its height above or below its
/// line.
pub fn misses_in_chain(ground: &Ground, number: usize) -> Vec<Point> {
    let [low, _, high, _] = frame(&ground.triangles.concat());
    let corners = ground.corners();
    let mut dice = Dice::new(7);
    let mut one = |place: usize| loop {
        let (xs, ys) = match (ground.cells, place % 2) {
            ((0, 0), 0) => ((-COORDINATE, low.x - 1), (1, HEIGHT / 10)),
            ((0, 0), _) => ((high.x + 1, COORDINATE), (-HEIGHT / 10, -1)),
            _ => ((low.x, high.x), (low.y, high.y)),
        };
        let point = at(dice.between(xs.0, xs.1), dice.between(ys.0, ys.1));
        if chain(point) == 0 && corners.binary_search(&point).is_err() {
            return point;
        }
    };
    (0..number).map(&mut one).collect()
}

/// A fan whose sides at the apex all hang in one of native's chains, and points below it whose pairs with the apex do so, too.
pub fn sides_in_native_chain(size: Size) -> (Ground, Vec<Point>) {
    let apex = at(0, HEIGHT);
    let chained = |y: i64| (1..=COORDINATE).filter(move |x| native::chain(apex, at(*x, y)) == 0);
    let places: Vec<i64> = [0].into_iter().chain(chained(0)).take(size.triangles).collect();
    let off = (1..).flat_map(|below| chained(-below).map(move |x| at(x, -below)));
    (Ground::fan_on(&places), off.take(size.points / 2).collect())
}
