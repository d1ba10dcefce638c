//! Sheets that are refused late, by a table rule or at the last polygon.

use super::grounds::{at, Ground, STEP};
use super::sheet::bytes;
use super::{dice_of, ways, Family};
use independent::table::frame;
use independent::Triangle;

pub fn refusals(family: &mut Family) {
    table_rules(family);
    polygons(family);
}

fn table_rules(family: &mut Family) {
    let grid = Ground::grid(family.size.triangles).triangles;
    let (last, others) = grid.split_last().expect("triangles");
    let ended = |triangle: Triangle| bytes(&[others, &[triangle]].concat(), Vec::new());
    let [a, b, c] = *last;
    family.refused(10, "late_a", "rule A broken by the last triangle", ended([a, c, b]));
    family.refused(11, "late_b", "rule B broken by the last triangle", ended(grid[0]));
    family.refused(12, "late_c", "rule C broken by a triangle that is missing", bytes(others, Vec::new()));
    let apart = |k: i64| [at(2 * k * STEP, 0), at((2 * k + 1) * STEP, 0), at(2 * k * STEP, 1 + k)];
    let apart: Vec<Triangle> = (0..grid.len() as i64).map(apart).collect();
    let attacks = "rule C broken by 1,024 triangles apart, 2,048 of their 3,072 corners on one line";
    family.refused(12, "late_c_apart", attacks, bytes(&apart, Vec::new()));
}

fn polygons(family: &mut Family) {
    let fan = Ground::fan(family.size.triangles);
    let across = ways::across(&mut dice_of("late_20_across"), &fan, 2 * family.size.points - 3).remove(0);
    let ring = [&across[..family.size.points - 1], &across[..1]].concat();
    let attacks = "edges over all corners, each on a line of its own, of which none cancels";
    family.refused(20, "late_20_across", attacks, bytes(&fan.triangles, vec![vec![ring]]));
    let mut hops = family.polygons("late_20", &fan, ways::hops);
    let last = hops.len() - 1;
    let [a, b, c, _] = frame(&fan.triangles.concat());
    hops[last][0] = vec![a, b, c, a];
    family.refused(20, "late_20", "polygon 64 not carried, after 63 that hop along a line", bytes(&fan.triangles, hops.clone()));
    hops[last].remove(0);
    family.refused(21, "late_21", "polygon 64 without ground, after 63 that hop along a line", bytes(&fan.triangles, hops));
    let mut off = family.polygons("late_20_off", &fan, ways::hops_off);
    let (first, next) = (fan.line[0], fan.line[1]);
    off[last][1] = vec![first, at(next.x - 30, next.y - 10), at(next.x + 30, next.y + 10), first];
    family.refused(
        20,
        "late_20_off",
        "polygon 64 with a ring round points that are no corners, after 63 that hop by such",
        bytes(&fan.triangles, off),
    );
    let grid = Ground::grid(family.size.triangles);
    let mut chords = family.polygons("late_20_chords", &grid, ways::lines_without_sides);
    chords[last][1] = vec![grid.corner(0, 0), grid.corner(2, 1), grid.corner(1, 3), grid.corner(0, 0)];
    family.refused(20, "late_20_chords", "polygon 64 with a ring of no sides, after 63 that hop along lines without", bytes(&grid.triangles, chords));
}
