//! The crate's numbers and its version are those of the header for C and C++, and the header names refusals in the order of the table.
use std::collections::BTreeMap;

/// What the header defines, by name: each text behind `#define SHEETS_`.
fn defined() -> BTreeMap<String, String> {
    let header = std::fs::read_to_string(concat!(env!("CARGO_MANIFEST_DIR"), "/../../include/sheets.h")).unwrap();
    let lines = header.lines().filter_map(|line| line.strip_prefix("#define SHEETS_")?.split_once(' '));
    lines.filter(|(name, _)| !name.contains('(')).map(|(name, text)| (name.to_string(), text.to_string())).collect()
}

#[test]
fn the_header_defines_the_same() {
    let numbers = [
        ("NUMBERS_ROOM", sheets::NUMBERS_ROOM),
        ("WRITE_ROOM", sheets::WRITE_ROOM),
        ("OWNER_SETS_ROOM", sheets::OWNER_SETS_ROOM),
        ("OWNERS_ROOM", sheets::OWNERS_ROOM),
        ("BOUNDARY_ROOM", sheets::BOUNDARY_ROOM),
        ("LISTING_ROOM", sheets::LISTING_ROOM),
        ("POSITION_ROOM", sheets::POSITION_ROOM),
        ("BLOB_NUMBERS_ROOM", sheets::BLOB_NUMBERS_ROOM),
        ("WRITE_BLOB_ROOM", sheets::WRITE_BLOB_ROOM),
        ("AREAS_ROOM", sheets::AREAS_ROOM),
        ("INDEX_ROOM", sheets::INDEX_ROOM),
        ("RINGS_ROOM", sheets::RINGS_ROOM),
        ("MODE_PRESENT", sheets::Mode::Present as usize),
        ("MODE_OLDER", sheets::Mode::Older as usize),
        ("MODE_BLOB", sheets::Mode::Blob as usize),
        ("MODE_OLDER_BLOB", sheets::Mode::OlderBlob as usize),
        ("WAY_PRIORITY", sheets::Way::Priority as usize),
        ("WAY_LONGEST", sheets::Way::Longest as usize),
        ("STACK", sheets::STACK),
        ("READ_CAP", sheets::READ_CAP),
    ];
    let mut ours: BTreeMap<String, String> = numbers.iter().map(|(name, number)| (name.to_string(), number.to_string())).collect();
    ours.insert("VERSION".to_string(), format!("{:?}", env!("CARGO_PKG_VERSION")));
    assert_eq!(defined(), ours);
}

/// The codes of the table of refusals, in its order.
fn in_order() -> Vec<u32> {
    let table = std::fs::read_to_string(concat!(env!("CARGO_MANIFEST_DIR"), "/../../include/refusals.def")).unwrap();
    table.lines().filter_map(|line| line.strip_prefix("SHEETS_REFUSAL(")?.split_once(',')?.0.parse().ok()).collect()
}

/// The codes that a text names, "1 to 8" by its first and its last one that is looked for.
fn named(text: &str) -> Vec<u32> {
    let text = text.replace("1 to 8", "1, 7");
    text.split(|c: char| !c.is_ascii_digit()).filter_map(|digits| digits.parse().ok()).collect()
}

#[test]
fn the_header_names_refusals_in_the_order_of_the_table() {
    let header = std::fs::read_to_string(concat!(env!("CARGO_MANIFEST_DIR"), "/../../include/sheets.h")).unwrap();
    let order = in_order();
    let place = |code: &u32| order.iter().position(|other| other == code).unwrap();
    let lists: Vec<Vec<u32>> = header.split("Refusals:").skip(1).map(|rest| named(&rest[..rest.find('.').unwrap()])).collect();
    assert!(lists.len() >= 10);
    for codes in lists.into_iter().chain([vec![57, 1, 50, 51, 2, 3, 8, 4, 5, 6, 7, 10]]) {
        assert!(codes.len() >= 2 && codes.iter().map(place).is_sorted(), "{codes:?}");
    }
}
