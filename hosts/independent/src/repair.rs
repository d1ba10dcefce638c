//! Repair: each triangle's one number, and the boundary sides of a member after it.

use crate::ownership::Judged;
use crate::plane::sides;
use crate::table::Table;
use crate::{Refusal, Side};
use std::collections::BTreeMap;

/// The numbers of the ways to fill gaps that are known: 0 is the priority list's, 1 the longest shared boundary's.
pub const WAYS: [u32; 2] = [0, 1];

/// Each triangle's number after repair in the way of this number; 54 if that isn't known, then 30.
pub fn repaired(judged: &Judged, way: u32) -> Result<Vec<u8>, Refusal> {
    if !WAYS.contains(&way) {
        return Err(Refusal::new(54, 0));
    }
    repair(&judged.table, &judged.owners, way)
}

/// Each triangle's number after repair in a known way, in table order; 30 exactly if no triangle has an owner.
pub fn repair(table: &Table, owners: &[u64], way: u32) -> Result<Vec<u8>, Refusal> {
    if owners.iter().all(|set| *set == 0) {
        return Err(Refusal::new(30, 0));
    }
    let settled: Vec<u8> = owners.iter().map(|set| smallest(*set)).collect();
    let mut repaired = settled.clone();
    for start in 0..settled.len() {
        if repaired[start] == 0 {
            fill(table, &settled, &mut repaired, start, way);
        }
    }
    Ok(repaired)
}

/// The smallest owner number of a set, 0 for a gap.
fn smallest(set: u64) -> u8 {
    if set == 0 {
        0
    } else {
        set.trailing_zeros() as u8 + 1
    }
}

/// The length of a side: the largest whole number whose square is at most dx² + dy².
fn length((u, v): Side) -> i64 {
    let square = (v.x - u.x).pow(2) + (v.y - u.y).pow(2);
    let mut root = (square as f64).sqrt() as i64;
    while root * root > square {
        root -= 1;
    }
    while (root + 1) * (root + 1) <= square {
        root += 1;
    }
    root
}

/// What is said for a settled number by the sides that touch it: in way 0 nothing but the number itself, in way 1 the lengths of these
/// sides, added up, and then the number.
type Shares = BTreeMap<u8, i64>;

/// Gives the gap region of the triangle `start` to the settled number found across its sides that the way prefers.
fn fill(table: &Table, settled: &[u8], repaired: &mut [u8], start: usize, way: u32) {
    let mut region = vec![start];
    let mut seen = vec![false; settled.len()];
    seen[start] = true;
    let mut shares = Shares::new();
    let mut next = 0;
    while next < region.len() {
        for side in sides(&table.triangles[region[next]]) {
            let Some(other) = table.across(side) else { continue };
            if settled[other] != 0 {
                *shares.entry(settled[other]).or_default() += i64::from(way) * length(side);
            } else if !seen[other] {
                seen[other] = true;
                region.push(other);
            }
        }
        next += 1;
    }
    let preferred = shares.into_iter().map(|(number, share)| (share, number)).max();
    for triangle in region {
        repaired[triangle] = preferred.map_or(0, |(_, number)| number);
    }
}

/// The boundary sides of polygon `number` after repair: each side uv of its triangles whose vu is no side of those,
/// by triangle and then ab, bc, ca.
pub fn boundary_sides(table: &Table, repaired: &[u8], number: u8) -> Vec<Side> {
    let own = |place: usize| repaired[place] == number;
    let inner = |side: Side| table.across(side).is_some_and(own);
    let places = (0..repaired.len()).filter(|place| own(*place));
    let all = places.flat_map(|place| sides(&table.triangles[place]));
    all.filter(|side| !inner(*side)).collect()
}
