//! A sheet whose polygons are those of another one after repair, by the rings that the library joins, in whole numbers throughout. docs/DECISIONS.md, "Repaired
//! sheets out", says how they are put together. The checker has the same.
use sheets::{Mode, Part, Point, Polygon, Refusal, Ring, Sheet, Triangle, Verdict, Way};

/// How many parts a polygon has at most, and how many rings a part.
const MOST: usize = 64;

/// A sheet after repair.
pub struct Repaired {
    pub bytes: Vec<u8>,
    pub was_clean: bool,
    /// The polygons that no ground is left to, which are left out.
    pub without: Vec<u32>,
    /// Whether others stand behind one of them.
    pub renumbered: bool,
    /// The double areas of the others, by the triangles that each owns.
    pub areas: Vec<i64>,
}

/// Why a sheet isn't repaired: it is refused, or a polygon of it would be over a limit; which, in words.
pub enum Not {
    Refused(Refusal),
    Over(String),
}

/// Twice the area of the triangle by three points; above 0 where it runs anticlockwise.
fn double_area([(ax, ay), (bx, by), (cx, cy)]: [(i64, i64); 3]) -> i64 {
    (bx - ax) * (cy - ay) - (cx - ax) * (by - ay)
}

fn wide((x, y): Point) -> (i64, i64) {
    (x.into(), y.into())
}

fn triangle_area(corners: &Triangle) -> i64 {
    double_area(corners.map(wide))
}

fn ring_area(ring: &Ring) -> i64 {
    ring.windows(2).map(|edge| triangle_area(&[ring[0], edge[0], edge[1]])).sum()
}

/// How often a ring winds round a point of the grid with half the step, by its coordinates doubled; the point is on no edge of it.
fn winding(ring: &Ring, doubled: (i64, i64)) -> i32 {
    let twice = |point: Point| (2 * wide(point).0, 2 * wide(point).1);
    let passes = |edge: &[Point]| {
        let (p, q) = (twice(edge[0]), twice(edge[1]));
        let turn = double_area([p, q, doubled]);
        let (up, down) = (p.1 <= doubled.1 && q.1 > doubled.1, p.1 > doubled.1 && q.1 <= doubled.1);
        i32::from(up && turn > 0) - i32::from(down && turn < 0)
    };
    ring.windows(2).map(passes).sum()
}

/// Does an outer ring hold another ring? No two have a piece of a side in common, so the middle of the other's first side is on none of its sides.
fn holds(outer: &Ring, ring: &Ring) -> bool {
    let (p, q) = (wide(ring[0]), wide(ring[1]));
    winding(outer, (p.0 + q.0, p.1 + q.1)) > 0
}

/// Takes so many bytes from the front.
fn taken<'a>(bytes: &mut &'a [u8], count: usize) -> &'a [u8] {
    let (front, rest) = bytes.split_at(count);
    *bytes = rest;
    front
}

/// Takes a header from the front; its count.
fn count(bytes: &mut &[u8]) -> u32 {
    u32::from_le_bytes(taken(bytes, 9)[5..].try_into().expect("4 bytes"))
}

/// The lines of a MultiLineString as the library writes it.
fn rings_of(mut lines: &[u8]) -> Vec<Ring> {
    let coordinate = |bytes: &[u8]| f64::from_le_bytes(bytes.try_into().expect("8 bytes")) as i32;
    let point = |bytes: &[u8]| (coordinate(&bytes[..8]), coordinate(&bytes[8..]));
    let rest = &mut lines;
    (0..count(rest)).map(|_| (0..count(rest)).map(|_| point(taken(rest, 16))).collect()).collect()
}

/// The polygon that rings make up: each ring that runs anticlockwise opens a part, and each other is a hole of the smallest one whose outer ring holds it.
fn polygon_of(rings: Vec<Ring>) -> Polygon {
    let (outer, holes): (Vec<Ring>, Vec<Ring>) = rings.into_iter().partition(|ring| ring_area(ring) > 0);
    let mut parts: Vec<Part> = outer.into_iter().map(|ring| Part { rings: vec![ring] }).collect();
    for hole in holes {
        let holders = parts.iter_mut().filter(|part| holds(&part.rings[0], &hole));
        let smallest = holders.min_by_key(|part| ring_area(&part.rings[0]));
        smallest.expect("a ring that holds the hole").rings.push(hole);
    }
    Polygon { parts }
}

/// Why a polygon can't be in a sheet; none where it can.
fn over(number: u32, polygon: &Polygon) -> Option<String> {
    let parts = polygon.parts.len();
    if parts > MOST {
        return Some(format!("polygon {number} has {parts} parts after repair, and a polygon has {MOST} at most"));
    }
    let rings = polygon.parts.iter().map(|part| part.rings.len()).find(|rings| *rings > MOST)?;
    Some(format!("polygon {number} has a part of {rings} rings after repair, and a part has {MOST} at most"))
}

/// The numbers before a sheet's own: of a blob its reference system's.
fn before(mode: Mode) -> usize {
    usize::from(mode.is_blob())
}

/// Repairs a sheet that is read in this mode, its gaps filled in this way. What is written is a sheet alone, or a blob where one was read.
pub fn of(bytes: &[u8], mode: Mode, way: Way) -> Result<Repaired, Not> {
    let owners = sheets::owners_by(bytes, mode, way).map_err(Not::Refused)?;
    let index = sheets::index_by(bytes, mode).map_err(Not::Refused)?;
    let numbers = sheets::numbers_by(bytes, mode).map_err(Not::Refused)?;
    let mut sheet = Sheet::from_numbers(&numbers[before(mode)..]).map_err(Not::Refused)?;
    let mut areas = vec![0; sheet.polygons.len()];
    for (triangle, owner) in sheet.triangles.iter().zip(owners) {
        areas[usize::from(owner) - 1] += triangle_area(triangle);
    }
    let was_clean = sheets::verdict_by(bytes, mode) == Verdict::Clean;
    let mut repaired = Repaired { bytes: Vec::new(), was_clean, without: Vec::new(), renumbered: false, areas: Vec::new() };
    sheet.polygons.clear();
    for (polygon, area) in (1..).zip(areas) {
        if area == 0 {
            repaired.without.push(polygon);
            continue;
        }
        let lines = sheets::rings_indexed(bytes, &index, mode, way, polygon).map_err(Not::Refused)?;
        let parts = polygon_of(rings_of(&lines));
        if let Some(why) = over(polygon, &parts) {
            return Err(Not::Over(why));
        }
        sheet.polygons.push(parts);
        repaired.areas.push(area);
        repaired.renumbered |= !repaired.without.is_empty();
    }
    let numbers = [&numbers[..before(mode)], &sheet.to_numbers()].concat();
    let written = if mode.is_blob() { sheets::write_blob(&numbers) } else { sheets::write(&numbers) };
    Ok(Repaired { bytes: written.map_err(Not::Refused)?, ..repaired })
}

/// Are the bytes, read again, those of a clean sheet whose polygons have these double areas?
pub fn is_clean(bytes: &[u8], mode: Mode, areas: &[i64]) -> bool {
    let present = if mode.is_blob() { Mode::Blob } else { Mode::Present };
    sheets::areas_by(bytes, present).is_ok_and(|found| found == areas) && sheets::verdict_by(bytes, present) == Verdict::Clean
}
