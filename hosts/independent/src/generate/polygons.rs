//! Polygons traced round random sets of triangles.

use super::dice::Dice;
use super::mesh;
use crate::limits::{COORDINATE, SHEET_POINTS};
use crate::plane::double_area;
use crate::table::{corners, sorted_sides};
use crate::turning::double_area as ring_double_area;
use crate::{Member, Point, Ring, Side, Triangle};

/// Members for this table, all carried and with ground: gaps and overlaps of every kind, or a clean sheet.
pub fn members(dice: &mut Dice, triangles: &[Triangle]) -> Vec<Member> {
    let count = match dice.below(100) {
        0..=5 => 0,
        6..=64 => dice.between(1, 4),
        65..=92 => dice.between(2, 10),
        93..=98 => dice.between(5, 40),
        _ => 64,
    };
    let table_corners = corners(triangles);
    let mut points = 0;
    let mut members = Vec::new();
    let sets = sets(dice, triangles, count as usize);
    for set in sets.into_iter().filter(|set| set.contains(&true)) {
        let member = member(dice, triangles, &table_corners, &set);
        points += point_count(&member);
        if points > SHEET_POINTS {
            break;
        }
        members.push(member);
    }
    members
}

/// At most so many members that share the triangles out, traced and nothing more.
pub fn shared_out(dice: &mut Dice, triangles: &[Triangle], count: usize) -> Vec<Member> {
    let sets = partition(dice, triangles, count).into_iter().filter(|set| set.contains(&true));
    sets.collect::<Vec<_>>().iter().map(|set| vec![trace(dice, triangles, set)]).collect()
}

/// Sets of triangles, one for each member; a set may be empty.
fn sets(dice: &mut Dice, triangles: &[Triangle], count: usize) -> Vec<Vec<bool>> {
    match dice.below(20) {
        0..=5 => partition(dice, triangles, count),
        6..=9 => torn_partition(dice, triangles, count),
        _ => (0..count).map(|_| some_set(dice, triangles)).collect(),
    }
}

/// Sets that cover every triangle exactly once.
fn partition(dice: &mut Dice, triangles: &[Triangle], count: usize) -> Vec<Vec<bool>> {
    let scattered = dice.chance(20);
    let seeds: Vec<Point> = (0..count).map(|_| dice.pick(triangles)[0]).collect();
    let mut sets = vec![vec![false; triangles.len()]; count];
    for (place, triangle) in triangles.iter().enumerate().filter(|_| count > 0) {
        let nearest = (0..count).min_by_key(|seed| distance(seeds[*seed], triangle));
        let owner = if scattered { dice.below(count) } else { nearest.unwrap() };
        sets[owner][place] = true;
    }
    sets
}

/// How far a point is from the middle of a triangle, by rows and columns.
fn distance(point: Point, [a, b, c]: &Triangle) -> i64 {
    (3 * point.x - a.x - b.x - c.x).abs() + (3 * point.y - a.y - b.y - c.y).abs()
}

/// A partition with some triangles left out and some covered more than once.
fn torn_partition(dice: &mut Dice, triangles: &[Triangle], count: usize) -> Vec<Vec<bool>> {
    let mut sets = partition(dice, triangles, count);
    let percent = dice.pick(&[2, 5, 15, 40]);
    for owned in sets.iter_mut().flatten() {
        *owned ^= dice.chance(percent);
    }
    sets
}

/// One random set of triangles.
fn some_set(dice: &mut Dice, triangles: &[Triangle]) -> Vec<bool> {
    match dice.below(12) {
        0 => vec![true; triangles.len()],
        1..=3 => noise(dice, triangles.len()),
        4..=6 => window(dice, triangles),
        _ => region(dice, triangles),
    }
}

fn noise(dice: &mut Dice, count: usize) -> Vec<bool> {
    let percent = dice.pick(&[5, 20, 50, 80, 95]);
    (0..count).map(|_| dice.chance(percent)).collect()
}

/// The triangles inside, or those not inside, an upright rectangle with corners of the table.
fn window(dice: &mut Dice, triangles: &[Triangle]) -> Vec<bool> {
    let (p, q) = (dice.pick(triangles)[0], dice.pick(triangles)[1]);
    let inside = !dice.chance(20);
    let holds = |corner: &Point| {
        (p.x.min(q.x)..=p.x.max(q.x)).contains(&corner.x) && (p.y.min(q.y)..=p.y.max(q.y)).contains(&corner.y)
    };
    triangles.iter().map(|triangle| triangle.iter().all(holds) == inside).collect()
}

/// A group of triangles joined through sides, grown from one of them.
fn region(dice: &mut Dice, triangles: &[Triangle]) -> Vec<bool> {
    let mut set = vec![false; triangles.len()];
    let most = 1 + dice.below(triangles.len().min(60));
    let mut grown = vec![dice.below(triangles.len())];
    set[grown[0]] = true;
    for _ in 0..2 * most {
        let from = dice.pick(&grown);
        for place in mesh::neighbours(triangles, from) {
            if grown.len() < most && !set[place] && dice.chance(50) {
                set[place] = true;
                grown.push(place);
            }
        }
    }
    set
}

/// A member carried by this set, which isn't empty.
pub fn member(dice: &mut Dice, triangles: &[Triangle], corners: &[Point], set: &[bool]) -> Member {
    let rings = rings(dice, triangles, set);
    drawn(dice, rings, corners)
}

/// A member without ground: ways out and back, or rings round a set and others the other way round it.
pub fn without_ground(dice: &mut Dice, triangles: &[Triangle]) -> Member {
    let corners = corners(triangles);
    let mut all = Vec::new();
    if dice.chance(50) {
        let set = some_set(dice, triangles);
        all = rings(dice, triangles, &set);
        for mut ring in rings(dice, triangles, &set) {
            ring.reverse();
            all.push(ring);
        }
    }
    while all.is_empty() || dice.chance(20) {
        all.push(nothing(dice, &corners));
    }
    dice.shuffle(&mut all);
    drawn(dice, all, &corners)
}

/// A member of these rings, begun anywhere, with what cancels added and what is straight left out.
fn drawn(dice: &mut Dice, mut rings: Vec<Ring>, corners: &[Point]) -> Member {
    let straight = dice.pick(&[0, 50, 100, 100]);
    let frills = dice.pick(&[0, 0, 0, 20, 60]);
    for ring in &mut rings {
        turn(dice, ring);
        leave_out(dice, ring, corners, straight);
        if dice.chance(frills) {
            frill(dice, ring, corners);
        }
    }
    if dice.chance(frills / 4) {
        rings.push(nothing(dice, corners));
    }
    group(dice, rings)
}

/// Rings that have together the set's boundary: mostly those that run round it.
fn rings(dice: &mut Dice, triangles: &[Triangle], set: &[bool]) -> Vec<Ring> {
    match dice.below(12) {
        0 if triangles.len() < 30 => each_alone(triangles, set),
        1 => less_the_rest(dice, triangles, set),
        2 => in_two(dice, triangles, set),
        _ => trace(dice, triangles, set),
    }
}

/// Each triangle of the set round itself: inner sides cancel.
fn each_alone(triangles: &[Triangle], set: &[bool]) -> Vec<Ring> {
    let owned = triangles.iter().zip(set).filter(|(_, owned)| **owned);
    owned.map(|(&[a, b, c], _)| vec![a, b, c, a]).collect()
}

/// Round a larger set, and the other way round what it has too much.
fn less_the_rest(dice: &mut Dice, triangles: &[Triangle], set: &[bool]) -> Vec<Ring> {
    let extra: Vec<bool> = set.iter().map(|owned| !owned && dice.chance(30)).collect();
    let larger: Vec<bool> = set.iter().zip(&extra).map(|(owned, extra)| *owned || *extra).collect();
    let mut rings = trace(dice, triangles, &larger);
    for mut hole in trace(dice, triangles, &extra) {
        hole.reverse();
        rings.push(hole);
    }
    rings
}

/// Round two halves of the set.
fn in_two(dice: &mut Dice, triangles: &[Triangle], set: &[bool]) -> Vec<Ring> {
    let one: Vec<bool> = set.iter().map(|owned| *owned && dice.chance(50)).collect();
    let other: Vec<bool> = set.iter().zip(&one).map(|(owned, one)| *owned && !one).collect();
    [trace(dice, triangles, &one), trace(dice, triangles, &other)].concat()
}

/// The boundary sides of a set chained into rings: outer ones anticlockwise, holes clockwise, as they come.
pub fn trace(dice: &mut Dice, triangles: &[Triangle], set: &[bool]) -> Vec<Ring> {
    let mut open = boundary(triangles, set);
    let mut rings = Vec::new();
    while let Some((from, to)) = open.pop() {
        let mut ring = vec![from, to];
        while ring.last() != Some(&from) || (dice.chance(30) && !starts(&open, from).is_empty()) {
            let choices = starts(&open, *ring.last().unwrap());
            let choice = choices.start + dice.below(choices.len());
            ring.push(open.remove(choice).1);
        }
        rings.push(ring);
    }
    rings
}

/// The sides of a set's triangles whose opposite is no side of those, in order.
fn boundary(triangles: &[Triangle], set: &[bool]) -> Vec<Side> {
    let owned: Vec<Triangle> = triangles.iter().zip(set).filter(|(_, owned)| **owned).map(|(t, _)| *t).collect();
    let all: Vec<Side> = sorted_sides(&owned).into_iter().map(|(side, _)| side).collect();
    let outer = |(u, v): &Side| all.binary_search(&(*v, *u)).is_err();
    all.iter().copied().filter(outer).collect()
}

/// The places of the sides that start at this point.
fn starts(sides: &[Side], point: Point) -> std::ops::Range<usize> {
    let first = sides.partition_point(|(u, _)| *u < point);
    first..sides.partition_point(|(u, _)| *u <= point)
}

/// A ring of zero extent: out and back by the same points.
fn nothing(dice: &mut Dice, corners: &[Point]) -> Ring {
    let p = somewhere(dice, corners);
    let mut ring = vec![p; 4];
    while dice.chance(70) && ring.len() < 12 {
        spike(dice, &mut ring, corners);
    }
    let mut short = ring.clone();
    short.dedup();
    if short.len() >= 4 && dice.chance(70) {
        short
    } else {
        ring
    }
}

/// A table corner, or now and then any point.
fn somewhere(dice: &mut Dice, corners: &[Point]) -> Point {
    let corner = dice.pick(corners);
    let near = |dice: &mut Dice, at: i64| (at + dice.between(-3, 3)).clamp(-COORDINATE, COORDINATE);
    match dice.below(8) {
        0 => Point { x: near(dice, corner.x), y: near(dice, corner.y) },
        1 => Point { x: dice.between(-COORDINATE, COORDINATE), y: dice.between(-COORDINATE, COORDINATE) },
        _ => corner,
    }
}

/// Another point to start and end at.
fn turn(dice: &mut Dice, ring: &mut Ring) {
    ring.pop();
    let first = dice.below(ring.len());
    ring.rotate_left(first);
    ring.push(ring[0]);
}

/// Leaves table corners out where the ring goes straight on, in so many cases of a hundred.
fn leave_out(dice: &mut Dice, ring: &mut Ring, corners: &[Point], percent: usize) {
    let mut kept = vec![ring[0]];
    for next in ring.windows(2).skip(1) {
        let straight_on = straight(kept[kept.len() - 1], next[0], next[1]);
        if !(straight_on && corners.binary_search(&next[0]).is_ok() && dice.chance(percent)) {
            kept.push(next[0]);
        }
    }
    kept.push(ring[0]);
    if kept.len() >= 4 {
        *ring = kept;
    }
}

/// Whether the way from p by q to r goes straight on.
pub fn straight(p: Point, q: Point, r: Point) -> bool {
    let ahead = (q.x - p.x) * (r.x - q.x) + (q.y - p.y) * (r.y - q.y);
    double_area(&[p, q, r]) == 0 && ahead > 0
}

/// Adds what cancels: spikes, points twice, and table corners on edges.
fn frill(dice: &mut Dice, ring: &mut Ring, corners: &[Point]) {
    for _ in 0..1 + dice.below(3) {
        match dice.below(4) {
            0 => {
                let place = dice.below(ring.len());
                ring.insert(place, ring[place]);
            }
            1 => put_corner_in(dice, ring, corners),
            _ => spike(dice, ring, corners),
        }
    }
}

/// Puts a spike into the ring: from one of its points out by one or two others and back.
fn spike(dice: &mut Dice, ring: &mut Ring, corners: &[Point]) {
    let place = dice.below(ring.len());
    let (p, q, r) = (ring[place], somewhere(dice, corners), somewhere(dice, corners));
    let way = if dice.chance(30) { vec![p, q, r, q, p] } else { vec![p, q, p] };
    ring.splice(place..=place, way);
}

/// Puts a table corner that lies on an edge into it as a point of the ring.
fn put_corner_in(dice: &mut Dice, ring: &mut Ring, corners: &[Point]) {
    let place = dice.below(ring.len() - 1);
    let (p, q) = (ring[place], ring[place + 1]);
    let between: Vec<Point> = corners.iter().copied().filter(|corner| straight(p, *corner, q)).collect();
    if !between.is_empty() {
        ring.insert(place + 1, dice.pick(&between));
    }
}

/// Groups rings into polygons: all in one, each alone, or at random; at most 64 rings each and 64 polygons.
fn group(dice: &mut Dice, rings: Vec<Ring>) -> Member {
    let percent = dice.pick(&[0, 0, 30, 100]);
    let mut member: Member = vec![Vec::new()];
    for ring in rings {
        let (parts, full) = (member.len(), member[member.len() - 1].len());
        if full == 64 || (full > 0 && parts < 40 && dice.chance(percent)) {
            member.push(Vec::new());
        }
        member.last_mut().unwrap().push(ring);
    }
    member
}

/// Groups rings into polygons whose first ring has no negative double area, and the later ones no positive one: a polygon for
/// each ring with a positive one, the others in any of these, and those with none now and then alone or first.
pub fn in_parts(dice: &mut Dice, rings: Vec<Ring>) -> Member {
    let (outer, others): (Vec<Ring>, Vec<Ring>) = rings.into_iter().partition(|ring| ring_double_area(ring) > 0);
    let mut member: Member = outer.into_iter().map(|ring| vec![ring]).collect();
    for ring in others {
        let flat = ring_double_area(&ring) == 0;
        if flat && dice.chance(30) {
            member.insert(dice.below(member.len() + 1), vec![ring]);
        } else {
            let part = dice.below(member.len());
            member[part].push(ring);
        }
    }
    member
}

/// The points of a member, closing points included.
pub fn point_count(member: &Member) -> usize {
    member.iter().flatten().map(Vec::len).sum()
}

/// The points of all members.
pub fn sheet_points(polygons: &[Member]) -> usize {
    polygons.iter().map(point_count).sum()
}
