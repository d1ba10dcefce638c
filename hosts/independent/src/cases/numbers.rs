//! The writer: numbers that make up a sheet, and numbers that don't (42).

use super::case::{Cases, Outcome};

pub fn cases(cases: &mut Cases) {
    ends(cases);
    shapes(cases);
    coordinates(cases);
    wrong_counts(cases);
    too_many(cases);
    out_of_range(cases);
    unclosed(cases);
}

type Numbers = Vec<i32>;

fn written(cases: &mut Cases, name: impl Into<String>, numbers: &Numbers) {
    cases.add(name, bytes(numbers), Outcome::Written);
}

fn refused(cases: &mut Cases, name: impl Into<String>, numbers: &Numbers) {
    cases.add(name, bytes(numbers), Outcome::NotWritten);
}

fn bytes(numbers: &Numbers) -> Vec<u8> {
    numbers.iter().flat_map(|number| number.to_le_bytes()).collect()
}

/// Their count, and the numbers of each: a ring of points, a polygon of rings, a member of polygons, all members, the table.
fn counted(things: Vec<Numbers>) -> Numbers {
    [vec![things.len() as i32], things.concat()].concat()
}

/// A ring of so many points.
fn ring(points: i32, x: i32) -> Numbers {
    let point = |i: i32| vec![x + i, i * i % 1_000 - 7];
    counted((0..points - 1).chain([0]).map(point).collect())
}

/// A member of one polygon.
fn one(rings: Vec<Numbers>) -> Numbers {
    counted(vec![counted(rings)])
}

/// So many times the table of two triangles.
fn triangles(times: usize) -> Vec<Numbers> {
    vec![[vec![0, 0, 8, 0, 8, 8], vec![0, 0, 8, 8, 0, 8]]; times].concat()
}

/// A sheet of two triangles and these members.
fn on(members: Vec<Numbers>) -> Numbers {
    [counted(triangles(1)), counted(members)].concat()
}

/// A small sheet. Its counts are at 0, 13, 14, 15 and 16; the triangles' coordinates from 1 on, the ring's from 17 on.
fn small() -> Numbers {
    on(vec![one(vec![ring(4, 0)])])
}

/// The numbers of document 01's strip sheet.
fn strip() -> Numbers {
    let corners = |x: i32| [x, 0, x + 2, 0, x + 2, 4, x, 0, x + 2, 4, x, 4];
    let part = |x: i32| [1, 1, 5, x, 0, x + 4, 0, x + 4, 4, x, 4, x, 0];
    [vec![8], [0, 2, 4, 6].map(corners).concat(), vec![2], [0, 2].map(part).concat()].concat()
}

/// What follows the numbers, or is cut off them.
fn ends(cases: &mut Cases) {
    written(cases, "the strip sheet's numbers", &strip());
    refused(cases, "no numbers", &vec![]);
    let form = bytes(&strip());
    for cut in [1, 2, 3, 4] {
        let name = format!("the strip sheet's numbers without their last {cut} bytes");
        cases.add(name, form[..form.len() - cut].to_vec(), Outcome::NotWritten);
        let name = format!("the strip sheet's numbers and {cut} bytes more");
        cases.add(name, [form.clone(), vec![0; cut]].concat(), Outcome::NotWritten);
    }
    for (name, more) in [("a 0", vec![0]), ("a 1", vec![1]), ("another sheet", small())] {
        refused(cases, format!("{name} left over behind a polygon"), &[small(), more.clone()].concat());
        refused(cases, format!("{name} left over behind a table alone"), &[on(vec![]), more].concat());
    }
}

/// Sheets of every shape, up to the limits.
fn shapes(cases: &mut Cases) {
    let part = |points, x| counted(vec![ring(points, x)]);
    written(cases, "numbers of a table alone", &on(vec![]));
    let holed = one(vec![ring(9, -4), ring(5, 2), ring(4, 3)]);
    written(cases, "numbers of a polygon and of one with three rings", &on(vec![one(vec![ring(4, 0)]), holed]));
    let parts = counted(vec![counted(vec![ring(4, 0), ring(5, 0)]), part(7, 0)]);
    let members = vec![counted(vec![part(4, 0), part(4, 0)]), one(vec![ring(6, 0)]), parts];
    written(cases, "numbers of two members of two parts, one between", &on(members));
    written(cases, "numbers of 64 parts", &on(vec![counted((0..64).map(|x| part(4, x)).collect())]));
    written(cases, "numbers of 64 rings", &on(vec![one((0..64).map(|x| ring(4, x)).collect())]));
    written(cases, "numbers of 64 polygons", &on((0..64).map(|x| one(vec![ring(4, -x)])).collect()));
    written(cases, "numbers of 1,024 triangles", &[counted(triangles(512)), vec![0]].concat());
    written(cases, "numbers of a ring of 4,096 points", &on(vec![one(vec![ring(4_096, 0)])]));
    let parts = counted(vec![part(1_000, -3), part(596, 0)]);
    written(
        cases,
        "numbers of 4,096 points over two members",
        &on(vec![one(vec![ring(1_000, 0), ring(1_500, 5)]), parts]),
    );
    let most = largest();
    written(cases, "the most numbers, 16,450", &most);
    refused(cases, "the most numbers and one more", &[most, vec![0]].concat());
}

/// The longest numbers form that a sheet can have.
fn largest() -> Numbers {
    let parts = (0..16).map(|i| counted(vec![ring(4, 9_999_000 - 7 * i)])).collect();
    [counted(triangles(512)), counted(vec![counted(parts); 64])].concat()
}

/// Zero, both ends of the range, and the numbers beside the powers of two.
fn coordinates(cases: &mut Cases) {
    let powers = (1..24).flat_map(|k| [(1 << k) - 1, 1 << k, (1 << k) + 1]);
    let numbers = [0, 10_000_000, 9_999_999].into_iter().chain(powers);
    let points: Vec<Numbers> = numbers.flat_map(|z| [vec![z, -z], vec![-z, z]]).collect();
    let ring = counted([&points[..], &points[..1]].concat());
    written(cases, "coordinates beside the powers of two in a ring", &on(vec![one(vec![ring])]));
    let triangles = points.windows(3).map(<[Numbers]>::concat).collect();
    written(cases, "coordinates beside the powers of two in a table", &[counted(triangles), vec![0]].concat());
}

/// A count that is another at each of its places.
fn wrong_counts(cases: &mut Cases) {
    let counts =
        [("triangles", 0, 1_024), ("polygons", 13, 64), ("parts", 14, 64), ("rings", 15, 64), ("points", 16, 4_096)];
    for (name, at, most) in counts {
        let right = small()[at];
        let mut others = vec![i32::MIN, -right, -1, 0, 1, 2, 3, 5, most, most + 1, i32::MAX];
        others.sort_unstable();
        others.dedup();
        for other in others.into_iter().filter(|other| *other != right) {
            let mut numbers = small();
            numbers[at] = other;
            refused(cases, format!("{other} as the count of {name}"), &numbers);
        }
    }
}

/// Things past the limits, or too few of them.
fn too_many(cases: &mut Cases) {
    let part = |points, x| counted(vec![ring(points, x)]);
    refused(cases, "numbers of one triangle", &[counted(triangles(1)[..1].to_vec()), vec![0]].concat());
    refused(cases, "numbers of 1,025 triangles", &[counted(triangles(513)[..1_025].to_vec()), vec![0]].concat());
    refused(cases, "numbers of 65 polygons", &on(vec![one(vec![ring(4, 0)]); 65]));
    refused(cases, "numbers of no parts", &on(vec![vec![0]]));
    refused(cases, "numbers of no rings", &on(vec![vec![1, 0]]));
    refused(cases, "numbers of no points", &on(vec![vec![1, 1, 0]]));
    refused(cases, "numbers of 65 parts", &on(vec![counted(vec![part(4, 0); 65])]));
    refused(cases, "numbers of 65 rings", &on(vec![one(vec![ring(4, 0); 65])]));
    refused(cases, "numbers of a ring of 3 points", &on(vec![one(vec![ring(3, 0)])]));
    refused(cases, "numbers of a ring of 4,097 points", &on(vec![one(vec![ring(4_097, 0)])]));
    refused(cases, "numbers of 4,098 points over two rings", &on(vec![one(vec![ring(2_049, 0), ring(2_049, 0)])]));
    let members = vec![one(vec![ring(2_049, 0)]), one(vec![ring(2_048, 0)])];
    refused(cases, "numbers of 4,097 points over two members", &on(members));
}

/// Numbers out of range at each place; a ring's first point with its closing one.
fn out_of_range(cases: &mut Cases) {
    for z in [10_000_001, -10_000_001, i32::MAX, i32::MIN] {
        for at in (1..13).chain(17..23) {
            let mut numbers = small();
            numbers[at] = z;
            if (17..19).contains(&at) {
                numbers[at + 6] = z;
            }
            refused(cases, format!("{z} as number {at}"), &numbers);
        }
    }
}

/// A coordinate of a ring's first or last point that is by 1 another.
fn unclosed(cases: &mut Cases) {
    for at in [17, 18, 23, 24] {
        for by in [1, -1] {
            let mut numbers = small();
            numbers[at] += by;
            refused(cases, format!("number {at} of a ring's ends, another by {by}"), &numbers);
        }
    }
}
