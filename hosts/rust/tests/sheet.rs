//! A sheet by name: from the numbers form of the examples and back, and from numbers that make up none.
use sheets::{numbers, write, Part, Point, Polygon, Refusal, Sheet};

fn example(name: &str) -> Vec<u8> {
    std::fs::read(format!("{}/../../examples/{name}", env!("CARGO_MANIFEST_DIR"))).unwrap()
}

const NONE: Refusal = Refusal { code: 42, item: 0 };

/// A polygon of one ring round a rectangle.
fn rectangle((left, bottom): Point, (right, top): Point) -> Polygon {
    let ring = vec![(left, bottom), (right, bottom), (right, top), (left, top), (left, bottom)];
    Polygon { parts: vec![Part { rings: vec![ring] }] }
}

#[test]
fn the_strip_sheet_has_triangles_and_polygons() {
    let sheet = Sheet::from_numbers(&numbers(&example("strip.wkb")).unwrap()).unwrap();
    assert_eq!((sheet.triangles.len(), sheet.triangles[0]), (8, [(0, 0), (2, 0), (2, 4)]));
    assert_eq!(sheet.polygons, [rectangle((0, 0), (4, 4)), rectangle((2, 0), (6, 4))]);
}

#[test]
fn every_example_comes_back_as_the_same_numbers() {
    let names = std::fs::read_dir(concat!(env!("CARGO_MANIFEST_DIR"), "/../../examples")).unwrap().map(|entry| entry.unwrap().file_name());
    let sheets: Vec<String> = names.filter_map(|name| name.into_string().ok()).filter(|name| name.ends_with(".wkb")).collect();
    assert!(sheets.len() >= 8);
    for name in sheets {
        let numbers = numbers(&example(&name)).unwrap();
        assert_eq!(Sheet::from_numbers(&numbers).unwrap().to_numbers(), numbers);
    }
}

#[test]
fn a_sheet_is_made_by_name_and_written() {
    let mut sheet = Sheet::from_numbers(&numbers(&example("clean.wkb")).unwrap()).unwrap();
    let first = sheet.polygons[0].parts.remove(0);
    let second = sheet.polygons.remove(1).parts.remove(0);
    sheet.polygons[0].parts = vec![first, second];
    let written = write(&sheet.to_numbers()).unwrap();
    assert_eq!(numbers(&written).unwrap(), sheet.to_numbers());
    assert_eq!(sheets::owners(&written).unwrap(), [1; 8]);
}

#[test]
fn numbers_that_make_up_no_sheet_are_refused_as_by_writing() {
    let whole = numbers(&example("nested.wkb")).unwrap();
    let mut broken: Vec<Vec<i32>> = (0..whole.len()).map(|length| whole[..length].to_vec()).collect();
    broken.push([&whole[..], &[0]].concat());
    for count in [-1, i32::MIN, i32::MAX] {
        broken.push(vec![count]);
        broken.push(vec![0, count]);
        broken.push([&whole[..whole.len() - 11], &[count]].concat());
    }
    for numbers in broken {
        assert_eq!((Sheet::from_numbers(&numbers), write(&numbers)), (Err(NONE), Err(NONE)));
    }
}

#[test]
fn a_sheet_within_no_limits_is_told_by_writing_alone() {
    let empty = Sheet::default();
    assert_eq!((empty.to_numbers(), Sheet::from_numbers(&[0, 0])), (vec![0, 0], Ok(empty.clone())));
    assert_eq!(write(&empty.to_numbers()), Err(NONE));
}
