//! Every entry answers a null pointer with length 0, for its input and for the lent bytes, as it answers any other pointer with that length.
use std::ptr::{null, null_mut};

use sheets::{lent, Refusal};

/// The answers of an entry, called by name: without input or room, without input, and without room.
macro_rules! entries {
    ($($name:ident($($asked:expr),*) on $input:expr;)*) => {{
        extern "C" {
            $(fn $name(input: *const u8, size: usize, $(_: entries!(number $asked),)* out: *mut u8, room: usize) -> u64;)*
        }
        let mut room = [9; 64];
        // SAFETY: each pointer that isn't null is one to so many bytes, which nothing else uses meanwhile.
        vec![$((stringify!($name), unsafe {
            let neither = $name(null(), 0, $($asked,)* null_mut(), 0);
            let no_input = $name(null(), 0, $($asked,)* room.as_mut_ptr(), room.len());
            let no_room = $name($input.as_ptr(), $input.len(), $($asked,)* null_mut(), 0);
            [neither, no_input, no_room]
        }),)*]
    }};
    (number $asked:expr) => { u32 };
}

/// The answers of an entry that takes an index: the same without an index, and without room with the table's own.
macro_rules! indexed {
    ($index:expr; $($name:ident($($asked:expr),*) on $input:expr;)*) => {{
        extern "C" {
            $(fn $name(input: *const u8, size: usize, index: *const u8, length: usize, $(_: entries!(number $asked),)* out: *mut u8, room: usize) -> u64;)*
        }
        let mut room = [9; 64];
        // SAFETY: each pointer that isn't null is one to so many bytes, which nothing else uses meanwhile.
        vec![$((stringify!($name), unsafe {
            let none = $name(null(), 0, null(), 0, $($asked,)* null_mut(), 0);
            let no_index = $name($input.as_ptr(), $input.len(), null(), 0, $($asked,)* room.as_mut_ptr(), room.len());
            let no_room = $name($input.as_ptr(), $input.len(), $index.as_ptr(), $index.len(), $($asked,)* null_mut(), 0);
            [none, no_index, no_room]
        }),)*]
    }};
}

/// The entries that the header declares.
fn declared() -> Vec<String> {
    let header = std::fs::read_to_string(concat!(env!("CARGO_MANIFEST_DIR"), "/../../include/sheets.h")).unwrap();
    let names = header.lines().filter_map(|line| Some(line.strip_prefix("uint64_t ")?.split_once('(')?.0.to_string()));
    names.collect()
}

#[test]
fn every_entry_answers_null_pointers_with_length_0() {
    let sheet = std::fs::read(concat!(env!("CARGO_MANIFEST_DIR"), "/../../examples/strip.wkb")).unwrap();
    let mut numbers = vec![0; sheets::NUMBERS_ROOM];
    let length = lent::numbers(&sheet, &mut numbers).unwrap() as usize;
    let numbers = &numbers[..length];
    let of_blob = [&4_326_i32.to_le_bytes()[..], numbers].concat();
    let (listed, told) = (12 << 8, 16 << 8);
    let answers = entries! {
        sheet_numbers() on sheet;
        sheet_write() on numbers;
        sheet_owner_sets() on sheet;
        sheet_owners() on sheet;
        sheet_boundary(1) on sheet;
        sheet_listing() on sheet;
        sheet_position(0) on sheet;
        sheet_numbers_by(1) on sheet;
        sheet_areas(1) on sheet;
        sheet_owner_sets_by(1) on sheet;
        sheet_owners_by(1, 0) on sheet;
        sheet_boundary_by(1, 0, 1) on sheet;
        sheet_rings(1, 0, 1) on sheet;
        sheet_listing_by(1, 0) on sheet;
        sheet_write_blob() on of_blob;
        sheet_index(1) on sheet;
    };
    let index = sheets::index(&sheet).unwrap();
    let with_index = indexed! { index;
        sheet_owner_sets_indexed(1) on sheet;
        sheet_owners_indexed(1, 0) on sheet;
        sheet_boundary_indexed(1, 0, 1) on sheet;
        sheet_rings_indexed(1, 0, 1) on sheet;
    };
    for (name, answers) in &answers {
        let wanted = match *name {
            "sheet_write" | "sheet_write_blob" => [42, 42, 40],
            "sheet_listing" | "sheet_listing_by" => [40, listed, 40],
            "sheet_position" => [40, told, 40],
            _ => [1, 1, 40],
        };
        assert_eq!((name, answers), (name, &wanted));
    }
    for (name, answers) in &with_index {
        assert_eq!((name, answers), (name, &[1, 53, 40]));
    }
    let names = answers.iter().chain(&with_index).map(|(name, _)| name.to_string());
    assert_eq!(names.chain(["sheet_ring_room", "sheet_at"].map(String::from)).collect::<Vec<_>>(), declared());
}

/// The entries that are lent no bytes.
#[test]
fn a_point_and_a_ring_room_of_a_null_pointer_are_answered() {
    extern "C" {
        fn sheet_ring_room(sheet: *const u8, size: usize, mode: u32, way: u32, polygon: u32) -> u64;
        fn sheet_at(sheet: *const u8, size: usize, mode: u32, way: u32, x: i32, y: i32) -> u64;
    }
    // SAFETY: no byte is read through a null pointer with length 0.
    assert_eq!(unsafe { [sheet_at(null(), 0, 0, 0, 0, 0), sheet_at(null(), 0, 9, 0, -1, 1)] }, [1, 57]);
    // SAFETY: as above.
    assert_eq!(unsafe { [sheet_ring_room(null(), 0, 0, 0, 1), sheet_ring_room(null(), 0, 9, 0, 1)] }, [1, 57]);
}

#[test]
fn an_empty_slice_is_answered_alike() {
    assert_eq!(lent::numbers(&[], &mut []), Err(Refusal { code: 1, item: 0 }));
    assert_eq!(lent::write(&[], &mut []), Err(Refusal { code: 42, item: 0 }));
    assert_eq!(lent::listing(&[], &mut []), Err(Refusal { code: 40, item: 0 }));
}
