//! The tables of hostile sheets.

use super::sheet;
use independent::generate::Dice;
use independent::table::{corners, frame};
use independent::{Point, Ring, Triangle};

/// How far corners are from each other, where there are points to be between them.
pub const STEP: i64 = 100;

/// How high the fan is.
pub const HEIGHT: i64 = 1_000_000;

/// A table, with what ways go by.
#[derive(Clone)]
pub struct Ground {
    pub triangles: Vec<Triangle>,
    /// The corners of the line with the most of them, in order along it; of a grid the columns of corners one after the other.
    pub line: Vec<Point>,
    /// A corner that no side of the line begins at.
    pub apex: Point,
    /// Points that are no corners.
    pub others: Vec<Point>,
    /// Of a grid: how many cells it has in a column, and in a row.
    pub cells: (usize, usize),
}

pub fn at(x: i64, y: i64) -> Point {
    Point { x, y }
}

impl Ground {
    /// All corners but two on the lower side of the frame, and each joined to the upper left one.
    pub fn fan(triangles: usize) -> Ground {
        Ground::fan_on(&(0..triangles as i64).map(|k| k * STEP).collect::<Vec<i64>>())
    }

    /// The fan whose corners stand at these places of the lower side.
    pub fn fan_on(places: &[i64]) -> Ground {
        Ground::fan_of(places, 0, HEIGHT)
    }

    /// The same with corners next to each other, and as high as can be.
    pub fn high_fan(triangles: usize) -> Ground {
        Ground::fan_of(&(0..triangles as i64).collect::<Vec<i64>>(), -10_000_000, 10_000_000)
    }

    /// The fan between these heights.
    pub fn fan_of(places: &[i64], low: i64, high: i64) -> Ground {
        let (left, right) = (places[0], places[places.len() - 1]);
        let apex = at(left, high);
        let line: Vec<Point> = places.iter().map(|x| at(*x, low)).collect();
        let mut triangles: Vec<Triangle> = line.windows(2).map(|two| [two[0], two[1], apex]).collect();
        triangles.push([at(right, low), at(right, high), apex]);
        Ground { triangles, line, apex, others: Vec::new(), cells: (0, 0) }
    }

    /// A line from corner to corner of the frame, and each corner on it joined to the other two.
    pub fn slanted(triangles: usize) -> Ground {
        let line: Vec<Point> = (0..=triangles as i64 / 2).map(|k| at(3 * k, 2 * k)).collect();
        let end = line[line.len() - 1];
        let (lower, upper) = (at(end.x, 0), at(0, end.y));
        let triangles = line.windows(2).flat_map(|two| [[two[0], lower, two[1]], [two[1], upper, two[0]]]).collect();
        Ground { triangles, line, apex: upper, others: Vec::new(), cells: (0, 0) }
    }

    /// A grid about twice as wide as high.
    pub fn grid(triangles: usize) -> Ground {
        let rows = 1 << ((triangles.ilog2() - 1) / 2);
        Ground::cells(triangles / 2 / rows, rows, at(STEP, STEP))
    }

    /// Two rows of cells.
    pub fn ladder(triangles: usize) -> Ground {
        Ground::cells(triangles / 4, 2, at(STEP, STEP))
    }

    /// One row of cells, from the right to the left.
    pub fn row(triangles: usize) -> Ground {
        let mut row = Ground::cells(triangles / 2, 1, at(STEP, STEP));
        row.triangles.reverse();
        row
    }

    /// The same grid with rows that are 1 high.
    pub fn parallels(triangles: usize) -> Ground {
        let (rows, columns) = Ground::grid(triangles).cells;
        Ground::cells(columns, rows, at(300_000, 1))
    }

    fn cells(columns: usize, rows: usize, step: Point) -> Ground {
        let steps = |count: usize, step: i64| (0..=count as i64).map(|k| k * step).collect();
        Ground::grid_on(&(steps(columns, step.x), steps(rows, step.y)))
    }

    /// The grid on these lines, each cell halved from its lower left to its upper right corner, the lower half first.
    pub fn grid_on((xs, ys): &(Vec<i64>, Vec<i64>)) -> Ground {
        let mut triangles = Vec::new();
        for x in xs.windows(2) {
            for y in ys.windows(2) {
                let [a, b, c, d] = [at(x[0], y[0]), at(x[1], y[0]), at(x[1], y[1]), at(x[0], y[1])];
                triangles.extend([[a, b, c], [a, c, d]]);
            }
        }
        let line = xs.iter().flat_map(|x| ys.iter().map(|y| at(*x, *y))).collect();
        Ground { triangles, line, apex: at(xs[0], ys[0]), others: Vec::new(), cells: (ys.len() - 1, xs.len() - 1) }
    }

    /// The corner of a grid in this column and this row.
    pub fn corner(&self, column: usize, row: usize) -> Point {
        self.line[column * (self.cells.0 + 1) + row]
    }

    /// The table in the other order.
    pub fn backwards(mut self) -> Ground {
        self.triangles.reverse();
        self.line.reverse();
        self
    }

    /// The table in random order.
    pub fn shuffled(mut self, dice: &mut Dice) -> Ground {
        dice.shuffle(&mut self.triangles);
        self
    }

    /// Turned by a quarter.
    pub fn upright(self) -> Ground {
        self.moved(|point| at(-point.y, point.x))
    }

    /// Turned by a half.
    pub fn upside_down(self) -> Ground {
        self.moved(|point| at(-point.x, -point.y))
    }

    fn moved(self, to: impl Fn(Point) -> Point) -> Ground {
        let all = |points: Vec<Point>| points.into_iter().map(&to).collect();
        let triangles = self.triangles.into_iter().map(|corners| corners.map(&to)).collect();
        Ground { triangles, line: all(self.line), apex: to(self.apex), others: all(self.others), cells: self.cells }
    }

    pub fn with_others(self, others: Vec<Point>) -> Ground {
        Ground { others, ..self }
    }

    /// The table corners, each once.
    pub fn corners(&self) -> Vec<Point> {
        corners(&self.triangles)
    }

    /// The ring round the frame.
    pub fn round(&self) -> Ring {
        let [a, b, c, d] = frame(&self.triangles.concat());
        vec![a, b, c, d, a]
    }

    /// The ring round a grid's frame from corner to corner.
    pub fn walk_round(&self) -> Ring {
        self.walk((0, self.cells.1), (0, self.cells.0))
    }

    /// The ring from corner to corner round these columns and rows of a grid.
    pub fn walk(&self, (left, right): (usize, usize), (low, high): (usize, usize)) -> Ring {
        let lower = (left..right).map(|x| self.corner(x, low));
        let on_the_right = (low..high).map(|y| self.corner(right, y));
        let upper = (left + 1..=right).rev().map(|x| self.corner(x, high));
        let on_the_left = (low..=high).rev().map(|y| self.corner(left, y));
        lower.chain(on_the_right).chain(upper).chain(on_the_left).collect()
    }

    /// The sheet of one polygon with a ring round each triangle.
    pub fn ring_each(&self) -> Vec<u8> {
        sheet::bytes(&self.triangles, vec![self.triangles.iter().map(sheet::round).collect()])
    }
}
