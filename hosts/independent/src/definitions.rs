//! The definitions of document 01 and of the requests that landed, word by word and slow, to compare the program's ways with on
//! small sheets.

use crate::blob::{Envelope, Header};
use crate::cases::{self, Case};
use crate::entries::{whole, Entry, Success};
use crate::generate::{generate, in_blob};
use crate::made::Head;
use crate::ownership::{edges, judge, judge_sheet, member_double_area, Judged, PointsInside};
use crate::plane::{double_area, sides};
use crate::points::{belongs, to_ask};
use crate::reading::{read, read_in, read_or_fault, Fault, Mode};
use crate::repair::{boundary_sides, repair, WAYS};
use crate::rings::rings;
use crate::table::{frame, Table};
use crate::turning::turned;
use crate::writing::write;
use crate::{Member, Part, Point, Refusal, Ring, Sheet, Side, Triangle};
use std::collections::BTreeMap;

/// The mode of the older edition.
const OLDER: Mode = Mode { older: true, blob: false };

/// What a boundary gives to each ordered pair, where it isn't 0.
type Given = BTreeMap<Side, i64>;

fn add(given: &mut Given, (u, v): Side) {
    *given.entry((u, v)).or_default() += 1;
    *given.entry((v, u)).or_default() -= 1;
}

fn without_zeros(mut given: Given) -> Given {
    given.retain(|_, number| *number != 0);
    given
}

/// The boundary of the triangles whose bit is in the set.
fn boundary_of_set(triangles: &[Triangle], set: usize) -> Given {
    let mut given = Given::new();
    for place in (0..triangles.len()).filter(|place| set >> place & 1 == 1) {
        sides(&triangles[place]).into_iter().for_each(|side| add(&mut given, side));
    }
    without_zeros(given)
}

/// How far along from p a point on the straight line to q stands, if strictly between.
fn along(p: Point, q: Point, corner: Point) -> Option<i64> {
    let (x, y) = (q.x - p.x, q.y - p.y);
    let (dx, dy) = (corner.x - p.x, corner.y - p.y);
    let place = x * dx + y * dy;
    (x * dy == y * dx && 0 < place && place < x * x + y * y).then_some(place)
}

fn add_pieces(given: &mut Given, triangles: &[Triangle], (p, q): Side) {
    let mut stops = BTreeMap::new();
    for corner in triangles.concat() {
        along(p, q, corner).map(|place| stops.insert(place, corner));
    }
    let way: Vec<Point> = [p].into_iter().chain(stops.into_values()).chain([q]).collect();
    for piece in way.windows(2).filter(|_| p != q) {
        add(given, (piece[0], piece[1]));
    }
}

fn boundary_of_rings<'a>(triangles: &[Triangle], rings: impl Iterator<Item = &'a Vec<Point>>) -> Given {
    let mut given = Given::new();
    for ring in rings {
        ring.windows(2).for_each(|edge| add_pieces(&mut given, triangles, (edge[0], edge[1])));
    }
    without_zeros(given)
}

fn table_refusal(triangles: &[Triangle]) -> Option<Refusal> {
    for (place, triangle) in triangles.iter().enumerate() {
        if double_area(triangle) <= 0 {
            return Some(Refusal::new(10, place as u64 + 1));
        }
    }
    for (place, triangle) in triangles.iter().enumerate() {
        let earlier = triangles[..place].iter().flat_map(sides).collect::<Vec<_>>();
        if sides(triangle).iter().any(|side| earlier.contains(side)) {
            return Some(Refusal::new(11, place as u64 + 1));
        }
    }
    let [a, b, c, d] = frame(&triangles.concat());
    let round = boundary_of_rings(triangles, [vec![a, b, c, d, a]].iter());
    let all = boundary_of_set(triangles, usize::MAX >> (64 - triangles.len()));
    (all != round).then_some(Refusal::new(12, 0))
}

/// The judging of one member: 20 if no set has its boundary, 21 if it gives 0 to every ordered pair, else the one set that has it.
fn judging(triangles: &[Triangle], boundaries: &[Given], member: &Member) -> Result<usize, u8> {
    let wanted = boundary_of_rings(triangles, member.iter().flatten());
    match (0..boundaries.len()).filter(|set| boundaries[*set] == wanted).collect::<Vec<usize>>()[..] {
        [] => Err(20),
        [_] if wanted.is_empty() => Err(21),
        [set] => Ok(set),
        _ => panic!("two sets have one boundary"),
    }
}

/// Every member is judged alike; the first that is refused is the sheet's refusal. How many are refused by 20 and by 21, and how
/// many are carried.
fn compare_judgings(name: &str, table: &Table, polygons: &[Member], refusal: Option<Refusal>) -> [usize; 3] {
    let triangles = &table.triangles;
    let boundaries: Vec<Given> = (0..1 << triangles.len()).map(|set| boundary_of_set(triangles, set)).collect();
    let inside = PointsInside::of(triangles);
    let (mut first, mut counts) = (None, [0; 3]);
    for (place, member) in polygons.iter().enumerate() {
        let judged = judging(triangles, &boundaries, member);
        assert_eq!(judge(table, &inside, member).map(|set| bits(set.into_iter())), judged, "{name}");
        first = first.or(judged.err().map(|code| Refusal::new(code, place as u64 + 1)));
        counts[judged.map_or_else(|code| usize::from(code - 20), |_| 2)] += 1;
    }
    assert_eq!(refusal, first, "{name}");
    counts
}

/// The places where it is true as bits.
fn bits(set: impl DoubleEndedIterator<Item = bool>) -> usize {
    set.rev().fold(0, |bits, owned| bits << 1 | usize::from(owned))
}

/// Whether the triangles have a side of which the other has the reverse.
fn share_a_side(one: &Triangle, other: &Triangle) -> bool {
    sides(one).iter().any(|(u, v)| sides(other).contains(&(*v, *u)))
}

/// Each triangle's label: at first its place, then for a gap the smallest label of the gaps that share a side with it, until
/// nothing changes. A gap region has one label.
fn labels(near: &[Vec<usize>], settled: &[u8]) -> Vec<usize> {
    let mut labels: Vec<usize> = (0..near.len()).collect();
    let mut before = Vec::new();
    while labels != before {
        before.clone_from(&labels);
        for place in (0..near.len()).filter(|place| settled[*place] == 0) {
            let gaps = near[place].iter().filter(|other| settled[**other] == 0);
            labels[place] = gaps.map(|other| labels[*other]).fold(labels[place], usize::min);
        }
    }
    labels
}

/// The largest whole number whose square is at most this one, bit by bit.
fn root(square: i64) -> i64 {
    (0..26)
        .rev()
        .fold(0, |root, bit| if (root + (1 << bit)) * (root + (1 << bit)) <= square { root + (1 << bit) } else { root })
}

/// The lengths of the sides of the region that have a triangle of this number across, added up.
fn shared_length(triangles: &[Triangle], settled: &[u8], region: &[usize], number: u8) -> i64 {
    let across = |(u, v): Side| (0..triangles.len()).find(|other| sides(&triangles[*other]).contains(&(v, u)));
    let touches = |side: &Side| across(*side).is_some_and(|other| settled[other] == number);
    let own = region.iter().flat_map(|place| sides(&triangles[*place])).filter(touches);
    own.map(|(u, v)| root((v.x - u.x) * (v.x - u.x) + (v.y - u.y) * (v.y - u.y))).sum()
}

/// Repair by labels: of the numbers of those triangles that share a side with one of its label a gap takes the largest, or in way 1
/// the largest of those with the greatest shared length.
fn repaired(triangles: &[Triangle], owners: &[u64], way: u32) -> Option<Vec<u8>> {
    let smallest = |set: &u64| (1..=64).find(|k| set >> (k - 1) & 1 == 1).unwrap_or(0);
    let settled: Vec<u8> = owners.iter().map(smallest).collect();
    let places = || 0..triangles.len();
    let near = |one: usize| places().filter(|other| share_a_side(&triangles[one], &triangles[*other])).collect();
    let near: Vec<Vec<usize>> = places().map(near).collect();
    let labels = labels(&near, &settled);
    let mut numbers = settled.clone();
    for gap in places().filter(|place| settled[*place] == 0) {
        let region: Vec<usize> = places().filter(|place| labels[*place] == labels[gap]).collect();
        let found: Vec<u8> = region
            .iter()
            .flat_map(|place| &near[*place])
            .map(|other| settled[*other])
            .filter(|number| *number > 0)
            .collect();
        let longest = |number: u8| if way == 0 { 0 } else { shared_length(triangles, &settled, &region, number) };
        let most = found.iter().map(|number| longest(*number)).max()?;
        numbers[gap] = found.into_iter().filter(|number| longest(*number) == most).max()?;
    }
    settled.iter().any(|number| *number > 0).then_some(numbers)
}

/// Repair agrees in each way; whether the two differ.
fn compare_repairs(name: &str, judged: &Judged) -> bool {
    let [priority, longest] = WAYS.map(|way| compare_repair(name, judged, way));
    priority != longest
}

fn compare_repair(name: &str, judged: &Judged, way: u32) -> Option<Vec<u8>> {
    let triangles = &judged.table.triangles;
    let numbers = repair(&judged.table, &judged.owners, way);
    assert_eq!(numbers.clone().ok(), repaired(triangles, &judged.owners, way), "{name}");
    for number in 1..=numbers.iter().flatten().copied().max().unwrap_or(0) {
        let numbers = numbers.as_ref().unwrap();
        let mut listed = boundary_sides(&judged.table, numbers, number);
        listed.sort_unstable();
        let owned = bits(numbers.iter().map(|own| *own == number));
        let given = boundary_of_set(triangles, owned).into_iter().filter(|(_, times)| *times == 1);
        assert_eq!(listed, given.map(|(side, _)| side).collect::<Vec<Side>>(), "{name}");
    }
    numbers.ok()
}

/// Whether, at the end of a side, the way on to the first point comes before that to the second, anticlockwise from the way back.
fn sooner_round((u, v): Side, one: Point, other: Point) -> bool {
    let at = |point: Point| {
        let turn = double_area(&[v, u, point]);
        let ahead = (u.x - v.x) * (point.x - v.x) + (u.y - v.y) * (point.y - v.y);
        (turn < 0 || turn == 0 && ahead < 0, turn < 0)
    };
    at(one) < at(other) || at(one) == at(other) && double_area(&[v, one, other]) > 0
}

/// Of all sides that leave where this one ends, the one that no other is sooner round than.
fn next_round(listed: &[Side], side: Side) -> Side {
    let leaving: Vec<&Side> = listed.iter().filter(|next| next.0 == side.1).collect();
    let first = |next: &&&Side| leaving.iter().all(|other| other == *next || sooner_round(side, next.1, other.1));
    match leaving.iter().filter(first).collect::<Vec<_>>()[..] {
        [next] => **next,
        _ => panic!("no one side is first round the corner"),
    }
}

/// The rings of boundary sides: the earliest side that is in none yet begins one, which goes on until it is at that side again.
fn joined(listed: &[Side]) -> Vec<Vec<Side>> {
    let mut rings: Vec<Vec<Side>> = Vec::new();
    while let Some(first) = listed.iter().find(|side| !rings.iter().flatten().any(|other| other == *side)) {
        let mut ring = vec![*first];
        while next_round(listed, ring[ring.len() - 1]) != *first {
            ring.push(next_round(listed, ring[ring.len() - 1]));
        }
        rings.push(ring);
    }
    rings
}

/// The rings of boundary sides agree; they are closed, of three sides at least, and have each side once. How many there are, and whether
/// several sides leave a corner.
fn compare_rings(name: &str, listed: &[Side]) -> (usize, bool) {
    let right = joined(listed);
    let lines: Vec<Ring> = rings(listed);
    let in_sides = |line: &Ring| line.windows(2).map(|ends| (ends[0], ends[1])).collect::<Vec<Side>>();
    assert_eq!(lines.iter().map(in_sides).collect::<Vec<_>>(), right, "{name}");
    assert!(lines.iter().all(|line| line.len() > 3 && line.first() == line.last()), "{name}");
    let (mut once, mut all) = (right.concat(), listed.to_vec());
    once.sort_unstable();
    all.sort_unstable();
    assert_eq!(once, all, "{name}");
    (right.len(), all.windows(2).any(|sides| sides[0].0 == sides[1].0))
}

#[test]
fn rings_are_the_boundary_sides_joined() {
    let (mut several, mut touching) = (0, 0);
    for (name, input) in inputs() {
        let Ok(judged) = judge_sheet(Mode::PRESENT, &input) else { continue };
        if judged.owners.len() > 300 {
            continue;
        }
        for way in WAYS {
            let Ok(numbers) = repair(&judged.table, &judged.owners, way) else { continue };
            for number in 1..=judged.sheet.polygons.len() as u8 {
                let (rings, touch) = compare_rings(&name, &boundary_sides(&judged.table, &numbers, number));
                several += usize::from(rings > 1);
                touching += usize::from(touch);
            }
        }
    }
    assert!(
        several > 100 && touching > 100,
        "{several} polygons with several rings, {touching} with corners that several sides leave"
    );
}

/// Every polygon has a double area above 0. Their double areas, from their corners, add up to those of the triangles by their
/// number of owners; and the triangles' to the frame's.
fn compare_areas(name: &str, judged: &Judged) {
    let triangles = &judged.table.triangles;
    let areas = || triangles.iter().map(double_area);
    let owned: i64 = areas().zip(&judged.owners).map(|(area, set)| area * i64::from(set.count_ones())).sum();
    let polygons: Vec<i64> = judged.sheet.polygons.iter().map(member_double_area).collect();
    assert!(polygons.iter().all(|area| *area > 0), "{name}");
    assert_eq!(polygons.into_iter().sum::<i64>(), owned, "{name}");
    let [low, _, high, _] = frame(&triangles.concat());
    assert_eq!(areas().sum::<i64>(), 2 * (high.x - low.x) * (high.y - low.y), "{name}");
}

/// Generated inputs, and the cases that are sheets, by name.
fn inputs() -> impl Iterator<Item = (String, Vec<u8>)> {
    let generated = (0..8_000).map(|seed| (format!("seed {seed}"), generate(seed)));
    let cases = cases::all().into_iter().filter(Case::is_sheet).map(|case| (case.name, case.input));
    generated.chain(cases)
}

#[test]
fn rules_and_judging_agree_on_small_sheets() {
    let (mut tables, mut sheets, mut judgings) = (0, 0, [0; 3]);
    for (name, input) in inputs() {
        let Ok(sheet) = read(&input) else { continue };
        if sheet.triangles.len() > 40 {
            continue;
        }
        let table = Table::check(&sheet.triangles);
        assert_eq!(table.as_ref().err().copied(), table_refusal(&sheet.triangles), "{name}");
        tables += 1;
        let Some(table) = table.ok().filter(|_| sheet.triangles.len() <= 9) else { continue };
        for (mode, sheet) in [(Mode::PRESENT, sheet.clone()), (OLDER, older(&sheet))] {
            let counts = compare_judgings(&name, &table, &sheet.polygons, judge_sheet(mode, &input).err());
            counts.iter().zip(&mut judgings).for_each(|(count, all)| *all += count);
            sheets += 1;
        }
    }
    assert!(tables > 3_000 && sheets > 1_000, "{tables} tables, {sheets} sheets");
    assert!(judgings.iter().all(|count| *count > 500), "{judgings:?} polygons not carried, without ground, carried");
}

#[test]
fn repair_and_areas_agree_on_small_sheets() {
    let (mut sheets, mut in_two_ways) = (0, 0);
    for (name, input) in inputs() {
        let Ok(judged) = judge_sheet(Mode::PRESENT, &input) else { continue };
        compare_areas(&name, &judged);
        for way in WAYS {
            assert_eq!(repair(&judged.table, &judged.owners, way).is_err(), judged.sheet.polygons.is_empty(), "{name}");
        }
        if judged.owners.len() <= 40 {
            in_two_ways += usize::from(compare_repairs(&name, &judged));
            sheets += 1;
        }
    }
    assert!(sheets > 3_000, "{sheets} sheets");
    assert!(in_two_ways > 80, "{in_two_ways} sheets repaired in two ways");
}

/// A ring's double area: those of the triangles from its first point to each of its edges, added up.
fn ring_area(ring: &Ring) -> i64 {
    ring.windows(2).map(|edge| double_area(&[ring[0], edge[0], edge[1]])).sum()
}

/// The double areas that the areas entry writes are those of the triangles from each ring's first point, in the present mode and
/// in the older one, whether or not the sheet is refused later.
#[test]
fn areas_agree_on_sheets_that_are_read() {
    let (mut negative, mut refused) = (0, 0);
    for (name, input) in inputs() {
        let Ok(present) = read(&input) else { continue };
        for (mode, sheet) in [(0, present.clone()), (1, older(&present))] {
            let areas: Vec<i64> =
                sheet.polygons.iter().map(|member| member.iter().flatten().map(ring_area).sum()).collect();
            let written = areas.iter().flat_map(|area| area.to_le_bytes()).collect();
            let right = Success { item: areas.len() as u64, bytes: written };
            assert_eq!(whole(Entry::Areas(mode), &input), Ok(right), "{name}");
            negative += areas.iter().filter(|area| **area < 0).count();
        }
        refused += usize::from(judge_sheet(Mode::PRESENT, &input).is_err());
    }
    assert!(negative > 500 && refused > 500, "{negative} negative areas, {refused} sheets refused");
}

/// The sheet as the older mode reads it: in each polygon the first ring with its points in reverse order if its double area is
/// negative, every later one if its own is positive.
fn older(sheet: &Sheet) -> Sheet {
    let ring = |(place, ring): (usize, &Ring)| {
        let wrong = if place == 0 { ring_area(ring) < 0 } else { ring_area(ring) > 0 };
        let last = ring.len() - 1;
        (0..=last).map(|k| ring[if wrong { last - k } else { k }]).collect()
    };
    let part = |part: &Part| part.iter().enumerate().map(ring).collect();
    let polygons = sheet.polygons.iter().map(|member| member.iter().map(part).collect()).collect();
    Sheet { triangles: sheet.triangles.clone(), polygons }
}

/// How many first rings of a sheet's polygons, and how many later ones, have a negative, no, and a positive double area.
fn count_directions(sheet: &Sheet, counts: &mut [[usize; 3]; 2]) {
    for part in sheet.polygons.iter().flatten() {
        for (place, ring) in part.iter().enumerate() {
            counts[place.min(1)][(ring_area(ring).signum() + 1) as usize] += 1;
        }
    }
}

/// The older mode's reading is the turning of the present one's; turning twice is turning once; and both modes read alike what
/// is written of it.
#[test]
fn rings_are_turned_once() {
    let (mut counts, mut changed) = ([[0; 3]; 2], 0);
    for (name, input) in inputs() {
        let Ok(present) = read(&input) else { continue };
        count_directions(&present, &mut counts);
        let right = older(&present);
        changed += usize::from(right != present);
        let sheet = |mode: Mode, bytes: &[u8]| read_in(mode, bytes).map(|read| read.sheet);
        assert_eq!(sheet(OLDER, &input), Ok(right.clone()), "{name}");
        assert_eq!((turned(right.clone()), older(&right)), (right.clone(), right.clone()), "{name}");
        let written = write(&right);
        let again = [Mode::PRESENT, OLDER].map(|mode| sheet(mode, &written));
        assert_eq!(again, [Ok(right.clone()), Ok(right)], "{name}");
    }
    assert!(changed > 1_000 && counts.iter().flatten().all(|count| *count > 300), "{changed} changed, {counts:?}");
}

/// The bytes of the field at fault from its position on.
fn length_at_fault(code: u8, in_y: bool) -> usize {
    match code {
        2 => 1,
        3 | 4 | 8 => 4,
        5 if in_y => 8,
        5 | 6 => 16,
        _ => 0,
    }
}

/// Nothing before the position is at fault: the bytes before it are a sheet's for 7, and else end where the field at fault
/// begins, or in the middle of a point whose y it is. Nothing behind the field matters.
#[test]
fn positions_are_those_of_the_first_fault() {
    let mut times = BTreeMap::new();
    for (name, input) in inputs() {
        let Err(fault @ Fault { refusal: Refusal { code, item }, position }) = read_or_fault(&input) else { continue };
        let before = read_or_fault(&input[..position]).err();
        let begins = |at: usize| Some(Fault { refusal: Refusal::new(1, item), position: at });
        let in_y = code == 5 && before != begins(position);
        let right = if code == 7 { None } else { begins(if in_y { position - 8 } else { position }) };
        assert_eq!(before, right, "{name}");
        let through = &input[..position + length_at_fault(code, in_y)];
        if !matches!(code, 1 | 7) {
            assert_eq!(read_or_fault(through), Err(fault), "{name}");
            assert_eq!(read_or_fault(&[through, &[255; 40]].concat()), Err(fault), "{name}");
        }
        *times.entry((code, in_y)).or_insert(0) += 1;
    }
    assert!(times.len() == 9 && times.values().all(|count| *count > 20), "{times:?}");
}

/// How often the rings of a member wind round a point: the edges that begin at or below its height and end above it, with the point
/// strictly to their left, less those that begin above and end at or below, with the point strictly to their right.
fn winding(member: &Member, point: Point) -> i64 {
    let passes = |(p, q): Side| {
        let turn = double_area(&[p, q, point]);
        let (up, down) = (p.y <= point.y && q.y > point.y, p.y > point.y && q.y <= point.y);
        i64::from(up && turn > 0) - i64::from(down && turn < 0)
    };
    edges(member).map(passes).sum()
}

/// Every grid point from the frame's least x and y up to but not including the greatest belongs to exactly one triangle, and grid points
/// elsewhere to none; and a polygon owns the point's triangle before repair exactly if its rings wind once round the point, and never
/// otherwise than 0 or 1 times. So too where coordinates are large.
#[test]
fn points_belong_to_one_triangle_and_are_owned_by_what_winds_round_them() {
    let mut times = [0; 3];
    for (name, input) in inputs() {
        let Ok(judged) = judge_sheet(Mode::PRESENT, &input) else { continue };
        let triangles = &judged.table.triangles;
        let [least, _, greatest, _] = frame(&triangles.concat());
        for (x, y) in to_ask(&judged.sheet) {
            let point = Point { x: x.into(), y: y.into() };
            let framed = (least.x..greatest.x).contains(&point.x) && (least.y..greatest.y).contains(&point.y);
            let found: Vec<usize> = (0..triangles.len()).filter(|place| belongs(&triangles[*place], point)).collect();
            assert_eq!(found.len(), usize::from(framed), "{name} at {x},{y}");
            let owned = found.first().map_or(0, |place| judged.owners[*place]);
            for (place, member) in judged.sheet.polygons.iter().enumerate() {
                assert_eq!(
                    winding(member, point),
                    (owned >> place & 1) as i64,
                    "{name} at {x},{y}, polygon {}",
                    place + 1
                );
            }
            times[if !framed { 0 } else { 1 + usize::from(owned.count_ones() == 1) }] += 1;
        }
    }
    assert!(times.iter().all(|count| *count > 1_000), "{times:?} off the frame, in gaps and overlaps, owned once");
}

/// A header that is read is the bytes that are made of what it says. One that is cut short ends in its field; and one that is
/// refused otherwise is so by its first four bytes, which no header has that is read.
#[test]
fn headers_are_what_is_made_of_them() {
    let mut times = [0; 3];
    for (seed, (name, input)) in inputs().enumerate() {
        let blob = in_blob(seed as u64, &input);
        let front = &blob[..blob.len().min(4)];
        let begins = (0..4).any(|flags| blob.starts_with(&[b'G', b'P', 0, flags]));
        let kind = match Header::read(&blob) {
            Ok(Header { number, envelope, length }) => {
                let head = Head::sound(blob[3] % 2 == 1, number, envelope.map(|Envelope(doubles)| doubles));
                assert!(begins && head.bytes() == blob[..length], "{name}");
                0
            }
            Err(Fault { refusal: Refusal { code: 1, item: 0 }, position }) => {
                let length = BTreeMap::from([(0, 2), (2, 1), (3, 1), (4, 4), (8, 32)])[&position];
                assert!((position..position + length).contains(&blob.len()), "{name}");
                1
            }
            Err(fault) => {
                assert!(!begins && Header::read(front).err() == Some(fault), "{name}");
                2
            }
        };
        times[kind] += 1;
    }
    assert!(times.iter().all(|count| *count > 100), "{times:?} read, cut short, refused otherwise");
}
