//! Closed rings: the boundary sides of a member after repair, joined, and the rings as a WKB MultiLineString.

use crate::{Point, Ring, Side};
use std::cmp::Ordering;
use std::collections::BTreeMap;

/// The way from one point to another.
fn way((u, v): Side) -> (i64, i64) {
    (v.x - u.x, v.y - u.y)
}

/// Above 0 if the second way turns to the left of the first, below 0 if to its right.
fn turn((ax, ay): (i64, i64), (bx, by): (i64, i64)) -> i64 {
    ax * by - ay * bx
}

/// Of two ways on from an arriving one, which turns sharper to the right: the one to its right, else straight on, else to its left;
/// of two on the same hand the one that has the other to its left.
fn sharper(arriving: (i64, i64), one: (i64, i64), other: (i64, i64)) -> Ordering {
    let hand = |on: (i64, i64)| turn(arriving, on).signum();
    hand(one).cmp(&hand(other)).then(0.cmp(&turn(one, other)))
}

/// For each side the place of the one that follows it: of those that leave where it ends the sharpest turn to the right.
fn followers(sides: &[Side]) -> Vec<usize> {
    let mut leaving: BTreeMap<Point, Vec<usize>> = BTreeMap::new();
    for (place, (u, _)) in sides.iter().enumerate() {
        leaving.entry(*u).or_default().push(place);
    }
    let follower = |side: &Side| {
        let by_turn = |one: &&usize, other: &&usize| sharper(way(*side), way(sides[**one]), way(sides[**other]));
        *leaving[&side.1].iter().min_by(by_turn).expect("as many sides leave a corner as arrive")
    };
    sides.iter().map(follower).collect()
}

/// The rings of boundary sides, each from its earliest side on and in the order of these, with the closing point.
pub fn rings(sides: &[Side]) -> Vec<Ring> {
    let followers = followers(sides);
    let ring = |first: usize| {
        let mut places = vec![first];
        let mut next = followers[first];
        while next != first {
            places.push(next);
            next = followers[next];
        }
        places
    };
    let all = (0..sides.len()).map(ring).filter(|places| places.iter().min() == places.first());
    let closed = |places: Vec<usize>| {
        let begin = sides[places[0]].0;
        [begin].into_iter().chain(places.into_iter().map(|place| sides[place].1)).collect()
    };
    all.map(closed).collect()
}

/// A WKB MultiLineString of LineStrings, little-endian.
pub fn multi_line_string(lines: &[Ring]) -> Vec<u8> {
    let head = |kind: u32, count: usize| [&[1][..], &kind.to_le_bytes(), &(count as u32).to_le_bytes()].concat();
    let mut bytes = head(5, lines.len());
    for line in lines {
        bytes.extend(head(2, line.len()));
        bytes.extend(line.iter().flat_map(|point| [point.x, point.y]).flat_map(|number| (number as f64).to_le_bytes()));
    }
    bytes
}
