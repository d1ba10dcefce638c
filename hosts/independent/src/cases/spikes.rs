//! Ways out and back: what cancels by pieces, and what doesn't.

use super::case::Cases;
use super::ground::*;
use crate::made::{multi_polygon, polygon, Geometry};

pub fn cases(cases: &mut Cases) {
    single(cases);
    longer(cases);
    not_cancelled(cases);
    over_rings(cases);
    no_length(cases);
}

/// The ring round the whole strip table, with a way from its first corner and back to it before.
fn after_start(points: &[At]) -> Geometry {
    let way = [way(&[(0, 0)]), way(points), from_to(0, 8)].concat();
    on_strip(vec![one(way)])
}

const FAR: i32 = 10_000_000;

fn single(cases: &mut Cases) {
    let ends = [
        ("outside the frame", (-3, 9)),
        ("on an edge of the frame, no corner", (1, 0)),
        ("inside a triangle", (3, 1)),
        ("the opposite corner of the frame", (8, 4)),
        ("along the frame and beyond it", (9, 0)),
        ("away from the frame on its line", (-1, 0)),
        ("up along the frame and beyond it", (0, 9)),
        ("as far as can be", (FAR, -FAR)),
        ("through corners and beyond the frame", (16, 8)),
        ("through one corner and beyond the frame", (3, 6)),
    ];
    for (name, end) in ends {
        cases.sets(format!("a spike to {name}"), after_start(&[end]), &[1; 8]);
    }
}

fn longer(cases: &mut Cases) {
    let ways: [(&str, &[At]); 5] = [
        ("out by (1,0) to (5,0) and back by it", &[(1, 0), (5, 0), (1, 0)]),
        ("out by (1,0) to (5,0) and back by a corner and it", &[(1, 0), (5, 0), (2, 0), (1, 0)]),
        ("out by (1,0) to (5,0) and back by two corners and it", &[(1, 0), (5, 0), (4, 0), (2, 0), (1, 0)]),
        ("out beyond the frame and back by its corner", &[(9, 0), (8, 0)]),
        ("out by a corner and back by it", &[(2, 4), (3, 6), (2, 4)]),
    ];
    for (name, points) in ways {
        cases.sets(format!("a way {name}"), after_start(points), &[1; 8]);
    }
}

fn not_cancelled(cases: &mut Cases) {
    let ways: [(&str, &[At]); 6] = [
        ("out by (1,0) to (2,0) and back straight", &[(1, 0), (2, 0)]),
        ("out by (1,0) to (5,0) and back by (3,0)", &[(1, 0), (5, 0), (3, 0), (1, 0)]),
        ("out by (9,0) to (10,0) and back straight", &[(9, 0), (10, 0)]),
        ("out by (1,1) to (2,2) and back straight", &[(1, 1), (2, 2)]),
        ("out by (1,2) to (3,6) and back by the corner", &[(1, 2), (3, 6), (2, 4)]),
        ("round a triangle outside the frame", &[(-1, 0), (-1, 1)]),
    ];
    for (name, points) in ways {
        cases.refused(format!("a way {name}"), after_start(points), (20, 1));
    }
}

/// A way out in one ring, part or polygon and back in another; the same way twice.
fn over_rings(cases: &mut Cases) {
    let whole = || from_to(0, 8);
    let out = || closed(&[(-5, -5), (9, 9), (-5, 9)]);
    let back = || turned(out());
    cases.sets("out in one ring and back in another", on_strip(vec![polygon(vec![out(), whole(), back()])]), &[1; 8]);
    let parts = multi_polygon(vec![one(out()), one(whole()), one(back())]);
    cases.sets("out in one part and back in another", on_strip(vec![parts]), &[1; 8]);
    let members = vec![polygon(vec![out(), whole()]), one(back())];
    cases.refused("out in one polygon and back in another", on_strip(members), (20, 1));
    cases.refused("out twice and never back", on_strip(vec![polygon(vec![whole(), out(), out()])]), (20, 1));
    cases.refused("out and never back", on_strip(vec![polygon(vec![whole(), out()])]), (20, 1));
}

/// Edges of no length.
fn no_length(cases: &mut Cases) {
    let repeated = [way(&[(0, 0), (0, 0)]), from_to(0, 8), way(&[(0, 0)])].concat();
    cases.sets("points that are repeated", on_strip(vec![one(repeated)]), &[1; 8]);
}
