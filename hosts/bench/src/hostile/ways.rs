//! Ways: rings of at most so many points together, whose pieces cancel.

use super::grounds::{at, Ground, STEP};
use independent::generate::Dice;
use independent::table::frame;
use independent::{Point, Ring};

/// How many points a ring along one of many lines has, or more.
const A_RING: usize = 29;

/// The walk, closed.
fn closed(walk: Vec<Point>) -> Ring {
    let first = walk[0];
    [walk, vec![first]].concat()
}

/// A ring of at most so many points, by two functions in turn.
fn in_turn(points: usize, mut one: impl FnMut() -> Point, mut other: impl FnMut() -> Point) -> Vec<Ring> {
    vec![closed((0..(points - 1) / 2).flat_map(|_| [one(), other()]).collect())]
}

/// A ring of at most so many points, out by this function's points and back by the same.
fn there_and_back(points: usize, next: impl FnMut(usize) -> Point) -> Vec<Ring> {
    let out: Vec<Point> = (0..points.div_ceil(2)).map(next).collect();
    let back = out.iter().rev().skip(1).copied().collect();
    vec![[out, back].concat()]
}

/// A ring by random ones of these points.
fn hops_on(dice: &mut Dice, line: &[Point], points: usize) -> Ring {
    closed((1..points).map(|_| dice.pick(line)).collect())
}

/// From one end of the line to the other and back.
pub fn shuttle(_: &mut Dice, ground: &Ground, points: usize) -> Vec<Ring> {
    let (first, last) = (ground.line[0], ground.line[ground.line.len() - 1]);
    in_turn(points, || first, || last)
}

/// From corner to corner of the line, at random.
pub fn hops(dice: &mut Dice, ground: &Ground, points: usize) -> Vec<Ring> {
    vec![hops_on(dice, &ground.line, points)]
}

/// From the apex to random corners of the line and back.
pub fn spikes(dice: &mut Dice, ground: &Ground, points: usize) -> Vec<Ring> {
    in_turn(points, || ground.apex, || dice.pick(&ground.line))
}

/// The lines of a grid that go on by so many columns and rows at a time, and have three corners or more.
fn lines_by(ground: &Ground, columns: i64, rows: i64) -> Vec<Vec<Point>> {
    let within = |x: i64, y: i64| (0..=ground.cells.1 as i64).contains(&x) && (0..=ground.cells.0 as i64).contains(&y);
    let mut lines = Vec::new();
    for x in 0..=ground.cells.1 as i64 {
        for y in (0..=ground.cells.0 as i64).filter(|y| !within(x - columns, y - rows)) {
            let places = (0..).map(|k| (x + k * columns, y + k * rows)).take_while(|&(x, y)| within(x, y));
            lines.push(places.map(|(x, y)| ground.corner(x as usize, y as usize)).collect::<Vec<Point>>());
        }
    }
    lines.retain(|line| line.len() > 2);
    lines
}

/// A ring of random hops along each of these lines, or along as many as there are points for.
fn along_each(dice: &mut Dice, mut lines: Vec<Vec<Point>>, points: usize, a_ring: usize) -> Vec<Ring> {
    dice.shuffle(&mut lines);
    lines.truncate(points / a_ring);
    let share = points / lines.len();
    lines.iter().map(|line| hops_on(dice, line, share)).collect()
}

/// Along rows, columns and diagonals, which are sides.
pub fn grid_lines(dice: &mut Dice, ground: &Ground, points: usize) -> Vec<Ring> {
    let lines = [(1, 0), (0, 1), (1, 1)].map(|(columns, rows)| lines_by(ground, columns, rows));
    along_each(dice, lines.concat(), points, A_RING)
}

/// Along lines through corners that no side joins.
pub fn lines_without_sides(dice: &mut Dice, ground: &Ground, points: usize) -> Vec<Ring> {
    let lines = [(1, -1), (2, 1), (2, -1), (1, 2), (1, -2)].map(|(columns, rows)| lines_by(ground, columns, rows));
    along_each(dice, lines.concat(), points, A_RING)
}

/// Along nine such lines with the most corners.
pub fn nine_lines(dice: &mut Dice, ground: &Ground, points: usize) -> Vec<Ring> {
    let mut lines = [(1, -1), (2, -1)].map(|(columns, rows)| lines_by(ground, columns, rows)).concat();
    lines.sort_by_key(|line| std::cmp::Reverse(line.len()));
    lines.truncate(9);
    along_each(dice, lines, points, 4)
}

/// In two rows of cells, from a lower corner to an upper one, and back by the one in the middle.
pub fn rungs(dice: &mut Dice, ground: &Ground, points: usize) -> Vec<Ring> {
    let mut rung = || {
        let (from, to) = (dice.below(ground.cells.1 + 1), dice.below(ground.cells.1 + 1));
        let to = if (from + to) % 2 == 0 { to } else { to ^ 1 };
        let to = if to > ground.cells.1 { from } else { to };
        vec![ground.corner(from, 0), ground.corner(to, 2), ground.corner((from + to) / 2, 1), ground.corner(from, 0)]
    };
    (0..points / 4).map(|_| rung()).collect()
}

/// By random corners, and back.
pub fn chords(dice: &mut Dice, ground: &Ground, points: usize) -> Vec<Ring> {
    there_and_back(points, |_| dice.pick(&ground.line))
}

/// From a corner of the frame to random corners and back.
pub fn spokes(dice: &mut Dice, ground: &Ground, points: usize) -> Vec<Ring> {
    in_turn(points, || ground.line[0], || dice.pick(&ground.line))
}

/// A corner in the left half of the line, and one in the right half.
fn halves(dice: &mut Dice, line: &[Point]) -> (Point, Point) {
    let half = line.len() / 2;
    (line[dice.below(half)], line[half + dice.below(half)])
}

/// From right before a corner to right behind another and back to a third: each end is turned at, so that its pieces cancel.
pub fn hops_off(dice: &mut Dice, ground: &Ground, points: usize) -> Vec<Ring> {
    turning(dice, &ground.line, points, |dice, low, high| {
        let (before, behind) = (dice.between(1, STEP - 1), dice.between(1, STEP - 1));
        [at(low.x - before, low.y), at(high.x + behind, high.y)]
    })
}

pub fn hops_off_at_one_end(dice: &mut Dice, ground: &Ground, points: usize) -> Vec<Ring> {
    turning(dice, &ground.line, points, |dice, low, high| [at(low.x - dice.between(1, STEP - 1), low.y), high])
}

/// A ring that goes from the left half of the line to the right one and back.
fn turning(dice: &mut Dice, line: &[Point], points: usize, ends: impl Fn(&mut Dice, Point, Point) -> [Point; 2]) -> Vec<Ring> {
    let mut both = |_| {
        let (low, high) = halves(dice, line);
        ends(dice, low, high)
    };
    vec![closed((0..(points - 1) / 2).flat_map(&mut both).collect())]
}

/// From before the line to behind it and back.
pub fn over_the_line(dice: &mut Dice, ground: &Ground, points: usize) -> Vec<Ring> {
    let ends = [ground.line[0], ground.line[ground.line.len() - 1]];
    turning(dice, &ends, points, |dice, low, high| {
        let (before, behind) = (dice.between(1, 1_000_000), dice.between(1, 1_000_000));
        [at(low.x - before, low.y), at(high.x + behind, high.y)]
    })
}

/// From the apex to points below the line and back.
pub fn spikes_out(dice: &mut Dice, ground: &Ground, points: usize) -> Vec<Ring> {
    let (first, last) = (ground.line[0], ground.line[ground.line.len() - 1]);
    in_turn(points, || ground.apex, || at(dice.between(first.x, last.x), first.y - dice.between(1, 1_000)))
}

/// From before the line and above it to behind it and below, and back.
pub fn across(dice: &mut Dice, ground: &Ground, points: usize) -> Vec<Ring> {
    let (first, last) = (ground.line[0], ground.line[ground.line.len() - 1]);
    there_and_back(points, |place| {
        let (far, high) = (dice.between(1, 100_000), dice.between(1, STEP - 1));
        if place % 2 == 0 {
            at(first.x - far, first.y + high)
        } else {
            at(last.x + far, last.y - high)
        }
    })
}

/// From a corner to a point before the line, over all of it to a point behind it, and back to the corner, on one straight line: no edge cancels another as a
/// whole.
pub fn threes_across(dice: &mut Dice, ground: &Ground, points: usize) -> Vec<Ring> {
    let width = ground.line[ground.line.len() - 1].x - ground.line[0].x;
    let mut three = || {
        let (corner, far, high) = (dice.pick(&ground.line), width + dice.between(1, 100_000), dice.between(1, STEP - 1));
        vec![corner, at(corner.x - far, corner.y - high), at(corner.x + far, corner.y + high), corner]
    };
    (0..points / 4).map(|_| three()).collect()
}

/// A point inside a grid's frame that is no corner.
fn off(dice: &mut Dice, ground: &Ground) -> Point {
    let corner = dice.pick(&ground.line[..ground.line.len() - ground.cells.0 - 1]);
    at(corner.x + dice.between(1, STEP - 1), corner.y)
}

/// A point of a grid's frame between columns and rows, so that few lines through it have corners.
fn off_lines(dice: &mut Dice, ground: &Ground) -> Point {
    let point = off(dice, ground);
    at(point.x, point.y + dice.between(1, STEP - 1))
}

pub fn off_table(dice: &mut Dice, ground: &Ground, points: usize) -> Vec<Ring> {
    there_and_back(points, |_| off_lines(dice, ground))
}

pub fn off_at_one_end(dice: &mut Dice, ground: &Ground, points: usize) -> Vec<Ring> {
    there_and_back(points, |place| if place % 2 == 0 { off_lines(dice, ground) } else { dice.pick(&ground.line) })
}

/// Along the middle of the lowest row of cells.
pub fn along_no_corner(dice: &mut Dice, ground: &Ground, points: usize) -> Vec<Ring> {
    there_and_back(points, |_| at(off(dice, ground).x, STEP / 2))
}

/// From the corner across the apex to corners of the line and back.
pub fn near_lines(dice: &mut Dice, ground: &Ground, points: usize) -> Vec<Ring> {
    let [_, _, far, _] = frame(&ground.triangles.concat());
    in_turn(points, || far, || dice.pick(&ground.line))
}

pub fn near_lines_off(dice: &mut Dice, ground: &Ground, points: usize) -> Vec<Ring> {
    let [_, _, far, _] = frame(&ground.triangles.concat());
    in_turn(
        points,
        || far,
        || {
            let below = dice.pick(&ground.line);
            at(below.x, below.y + dice.between(1, 3))
        },
    )
}

/// Random hops along rows, a ring for each; and from row to row up and down, to random corners, and the same way back.
pub fn by_near_rows(dice: &mut Dice, ground: &Ground, points: usize) -> Vec<Ring> {
    let rows = along_each(dice, lines_by(ground, 1, 0), points / 2, A_RING);
    let height = ground.cells.0;
    let row = |place: usize| (place % (2 * height)).min(2 * height - place % (2 * height));
    let near = there_and_back(points / 2, |place| ground.corner(dice.below(ground.cells.1 + 1), row(place)));
    [rows, near].concat()
}

/// Between other points of the line: from one in its left half to one in its right half and back.
pub fn hops_by_others(dice: &mut Dice, ground: &Ground, points: usize) -> Vec<Ring> {
    turning(dice, &ground.others, points, |_, low, high| [low, high])
}

/// By the other points at random, and back.
pub fn between_others(dice: &mut Dice, ground: &Ground, points: usize) -> Vec<Ring> {
    there_and_back(points, |_| dice.pick(&ground.others))
}

/// From the other points before the line to those behind it, and back.
pub fn over_by_others(_: &mut Dice, ground: &Ground, points: usize) -> Vec<Ring> {
    there_and_back(points, |place| ground.others[place % ground.others.len()])
}

/// The same with no way back: nothing cancels.
pub fn over_by_others_once(dice: &mut Dice, ground: &Ground, points: usize) -> Vec<Ring> {
    let both = [0, 1].map(|first| ground.others.iter().skip(first).step_by(2).copied().collect::<Vec<Point>>());
    let place = |place: usize| dice.pick(&both[place % 2]);
    vec![closed((0..(points - 1) / 2 * 2).map(place).collect())]
}

/// From the apex to the other points and back.
pub fn spikes_to_others(_: &mut Dice, ground: &Ground, points: usize) -> Vec<Ring> {
    let mut others = ground.others.iter().copied().cycle();
    in_turn(points, || ground.apex, || others.next().expect("other points"))
}

/// One point again and again.
pub fn still(_: &mut Dice, ground: &Ground, points: usize) -> Vec<Ring> {
    vec![vec![ground.apex; points]]
}
