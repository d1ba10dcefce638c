//! Hostile sheets: each is within all limits of document 01, and is made to cost as much as one kind of work can. Those in two forms have one polygon with
//! all the points, or many that share them out.

mod against;
mod grounds;
mod late;
mod sheet;
mod ways;

use against::{corners_in_chain, misses_in_chain, sides_in_native_chain, Chained};
use grounds::Ground;
use independent::generate::Dice;
use independent::Ring;
use sheet::bytes;

/// How large the sheets are made: at most so many triangles and points, and so many polygons where there are many.
#[derive(Clone, Copy)]
pub struct Size {
    pub triangles: usize,
    pub points: usize,
    pub polygons: usize,
}

/// As large as document 01 allows.
pub const FULL: Size = Size { triangles: 1_024, points: 4_096, polygons: 64 };

/// Small enough for programs that take the square or the cube of it.
pub const SMALL: Size = Size { triangles: 32, points: 256, polygons: 4 };

/// A hostile sheet: its name, what it attacks, its bytes, and the code that it is made to come to.
pub struct Hostile {
    pub name: String,
    pub attacks: &'static str,
    pub sheet: Vec<u8>,
    pub code: u8,
}

/// Rings of at most so many points together, whose pieces cancel.
type Way = fn(&mut Dice, &Ground, usize) -> Vec<Ring>;

/// The family in this size, always the same.
pub fn family(size: Size) -> Vec<Hostile> {
    let mut family = Family { size, sheets: Vec::new() };
    along_a_line(&mut family);
    on_many_lines(&mut family);
    off_the_table(&mut family);
    nearly_one_line(&mut family);
    against_hashes(&mut family);
    much_ground(&mut family);
    late::refusals(&mut family);
    family.sheets
}

/// The family as it is made.
struct Family {
    size: Size,
    sheets: Vec<Hostile>,
}

impl Family {
    fn put(&mut self, name: &str, attacks: &'static str, sheet: Vec<u8>) {
        self.refused(0, name, attacks, sheet);
    }

    fn refused(&mut self, code: u8, name: &str, attacks: &'static str, sheet: Vec<u8>) {
        self.sheets.push(Hostile { name: name.into(), attacks, sheet, code });
    }

    /// The ground under one polygon, and under many: each goes round the frame, and has rings besides that cancel.
    fn both(&mut self, name: &str, attacks: &'static str, ground: &Ground, way: Way) {
        self.one(name, attacks, ground, way);
        let polygons = self.polygons(name, ground, way);
        self.put(&format!("{name}_64"), attacks, bytes(&ground.triangles, polygons));
    }

    /// The ground under one polygon alone.
    fn one(&mut self, name: &str, attacks: &'static str, ground: &Ground, way: Way) {
        let polygon = polygon(&mut dice_of(name), ground, way, self.size.points);
        self.put(name, attacks, bytes(&ground.triangles, vec![polygon]));
    }

    /// Many polygons that share the points out.
    fn polygons(&self, name: &str, ground: &Ground, way: Way) -> Vec<Vec<Ring>> {
        let mut dice = dice_of(name);
        let share = self.size.points / self.size.polygons;
        (0..self.size.polygons).map(|_| polygon(&mut dice, ground, way, share)).collect()
    }
}

/// A sheet of so many triangles, a power of 2 from 8 on, whose quarters are four polygons, each walked round from corner to corner.
pub fn quarters(triangles: usize) -> Vec<u8> {
    let grid = Ground::grid(triangles);
    let (rows, columns) = grid.cells;
    let halves = |cells: usize| [(0, cells / 2), (cells / 2, cells)];
    let quarters = halves(columns).into_iter().flat_map(|x| halves(rows).map(|y| vec![grid.walk(x, y)]));
    bytes(&grid.triangles, quarters.collect())
}

/// A ring round the frame, and rings that cancel.
fn polygon(dice: &mut Dice, ground: &Ground, way: Way, points: usize) -> Vec<Ring> {
    let round = ground.round();
    let rest = points - round.len();
    [vec![round], way(dice, ground, rest)].concat()
}

/// The row of pseudo-random numbers for this name.
fn dice_of(name: &str) -> Dice {
    Dice::new(name.bytes().fold(1, |seed, byte| seed * 131 % 1_000_000_007 + u64::from(byte)))
}

fn along_a_line(family: &mut Family) {
    let fan = Ground::fan(family.size.triangles);
    let (shuttle, hops) = ("edges back and forth over all of 1,024 corners on one line", "random hops along a line of 1,024 corners");
    family.both("fan_shuttle", shuttle, &fan, ways::shuttle);
    family.both("fan_hops", hops, &fan, ways::hops);
    family.both("fan_backwards", "the same, with corners in descending order", &fan.clone().backwards(), ways::hops);
    family.both("fan_spikes", "spikes between one corner and all others, each a side", &fan, ways::spikes);
    family.both("fan_spikes_high", "the same, with that corner above all others", &fan.clone().upside_down(), ways::spikes);
    let upright = fan.upright();
    let sheet = bytes(&upright.triangles, family.polygons("fan_upright", &upright, ways::hops));
    family.put("fan_upright", "random hops along an upright line, which has no slope", sheet);
}

fn on_many_lines(family: &mut Family) {
    let grid = Ground::grid(family.size.triangles);
    let ladder = Ground::ladder(family.size.triangles);
    family.both("grid_lines", "edges back and forth along all rows, columns and diagonals", &grid, ways::grid_lines);
    family.both("nasty_sides", "edges through many corners, whose pieces are no sides and cancel", &grid, ways::lines_without_sides);
    family.both("lines_9_both", "nine lines with many edges in both directions, their pieces no sides", &grid, ways::nine_lines);
    family.both("ladder", "many lines with few corners each", &ladder, ways::rungs);
    family.both("chords", "edges between random corners and back, most on a line of their own", &grid, ways::chords);
    family.both("spokes", "spikes from one corner to random ones, through corners", &grid, ways::spokes);
}

fn off_the_table(family: &mut Family) {
    let fan = Ground::fan(family.size.triangles);
    let grid = Ground::grid(family.size.triangles);
    let (off, one_end) = ("hops between points that are no corners, along a line of 1,024 corners", "the same with a corner at every other end");
    family.both("fan_off", off, &fan, ways::hops_off);
    family.both("fan_off_one_end", one_end, &fan, ways::hops_off_at_one_end);
    family.both("fan_outside", "edges over all of a line's corners, with ends outside the frame", &fan, ways::over_the_line);
    family.both("fan_spikes_off", "spikes out of the frame, most on a line of their own", &fan, ways::spikes_out);
    family.both("fan_across", "edges over all corners, each on a line of its own without a corner", &fan, ways::across);
    family.both("fan_threes", "threes of edges over all corners, each on a line of its own through one corner", &fan, ways::threes_across);
    family.both("off_table", "edges between points that are no corners, each on a line of its own", &grid, ways::off_table);
    family.both("off_both", "the same with a corner at every other end", &grid, ways::off_at_one_end);
    family.both("off_line", "hops along one line that has no corner", &grid, ways::along_no_corner);
}

fn nearly_one_line(family: &mut Family) {
    let (high, slanted) = (Ground::high_fan(family.size.triangles), Ground::slanted(family.size.triangles));
    let parallels = Ground::parallels(family.size.triangles);
    family.both("near_lines", "lines that nearly coincide, from one corner to 512 others", &high, ways::near_lines);
    family.both("near_lines_off", "lines that nearly coincide, from a corner to points that are none", &high, ways::near_lines_off);
    family.both("slant_hops", "random hops along a slanted line of 512 corners", &slanted, ways::hops);
    family.both("parallels", "parallel lines that nearly coincide, with hops from one to the next", &parallels, ways::by_near_rows);
}

fn against_hashes(family: &mut Family) {
    let triangles = family.size.triangles;
    let Chained { line, misses } = corners_in_chain(triangles);
    let (fan, grid) = (Ground::fan_on(&line), Ground::grid_on(&against::lines_in_chain(triangles)));
    let line = fan.clone().with_others(misses);
    let around = fan.clone().with_others(misses_in_chain(&fan, family.size.points / 2));
    let inside = grid.clone().with_others(misses_in_chain(&grid, family.size.points / 2));
    family.both("hash_line", "1,024 corners of a line in one chain", &fan, ways::hops);
    family.both("hash_misses", "points that are no corners in the chain of all corners", &line, ways::hops_by_others);
    family.both("hash_grid", "corners of a grid in one chain, edges between random ones and back", &grid, ways::chords);
    family.both("hash_off", "ends that are no corners, all pairs of them in one chain", &inside, ways::between_others);
    family.both("hash_across", "edges over all corners, each on a line of its own, all in one chain", &around, ways::over_by_others);
    let ring = ways::over_by_others_once(&mut dice_of("hash_across_20"), &around, family.size.points);
    family.refused(20, "hash_across_20", "the same, of which none cancels", bytes(&around.triangles, vec![ring]));
    family.put("hash_sides", "a ring round each triangle, all corners in one chain", grid.ring_each());
    family.refused(12, "hash_apart", "triangles apart, all 3,072 corners in one chain", bytes(&against::apart_in_chain(triangles), Vec::new()));
    let (fan, off) = sides_in_native_chain(family.size);
    family.both("hash_native", "sides at one corner, all in one chain of native", &fan, ways::spikes);
    family.both(
        "hash_native_off",
        "edges from one corner that are no sides, all in one chain of native",
        &fan.with_others(off),
        ways::spikes_to_others,
    );
}

fn much_ground(family: &mut Family) {
    let grid = Ground::grid(family.size.triangles);
    let row = Ground::row(family.size.triangles);
    let all = vec![vec![grid.round()]; family.size.polygons];
    family.put("all_own_all", "64 polygons that own every triangle", bytes(&grid.triangles, all));
    let round = grid.walk_round();
    let all = vec![vec![round.clone()]; (family.size.points / round.len()).min(family.size.polygons)];
    family.put("all_walk_round", "42 polygons that own every triangle, each with all sides on the frame", bytes(&grid.triangles, all));
    family.put("every_side", "one polygon with a ring round each of 1,024 triangles", grid.ring_each());
    let one_gap = |ground: &Ground, owned: usize| bytes(&ground.triangles, vec![vec![sheet::round(&ground.triangles[owned])]]);
    family.put("one_gap", "a gap of 1,023 triangles in a row, against the order of the table", one_gap(&row, row.triangles.len() - 1));
    let shuffled = row.shuffled(&mut dice_of("one_gap_shuffled"));
    family.put("one_gap_shuffled", "the same, with the table in random order", one_gap(&shuffled, 0));
    let lower = grid.triangles.iter().step_by(2).map(sheet::round).collect();
    family.put("gaps", "512 gaps of one triangle", bytes(&grid.triangles, vec![lower]));
    family.one("still", "edges of no length", &grid, ways::still);
    family.put("deep", "the longest sheet: collections to depth 4 round each of 1,024 parts", sheet::deep(&grid.triangles, family.size.polygons));
}
