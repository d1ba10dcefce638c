//! The tables.

use crate::compare::{of_library, of_native};
use crate::hostile::{family, quarters, Hostile, FULL};
use crate::native;
use crate::timing::least;
use beside::call;
use independent::entries::{whole, Entry};
use independent::generate::{generate, hostile, in_sound_blob, largest, sized};
use std::hint::black_box;

/// The tables by their names.
pub const ALL: [(&str, fn()); 4] = [("entries", entries), ("native", beside_native), ("hostile", hostile_sheets), ("growth", growth)];

/// The most bytes that an entry writes.
const ROOM: usize = sheets::WRITE_BLOB_ROOM;

/// The entries on hostile sheets, those first that have a column.
const ENTRIES: [Entry; 10] = [
    Entry::OwnerSets,
    Entry::Owners,
    Entry::Listing,
    Entry::Boundary(1),
    Entry::Rings(0, 0, 1),
    Entry::OwnerSetsBy(1),
    Entry::Numbers,
    Entry::Position(0),
    Entry::Areas(0),
    Entry::Write,
];

/// The kinds of sheets, by name.
pub fn kinds() -> [(&'static str, Vec<Vec<u8>>); 6] {
    [
        ("tiny: 8 triangles", vec![sized(1, 8)]),
        ("small: 64 triangles", vec![sized(1, 64)]),
        ("medium: 256 triangles", vec![sized(1, 256)]),
        ("largest: 1,024 triangles, 64 polygons, 4,096 points", vec![largest(1)]),
        ("hostile: 1,024 triangles in a row, edges cut 511 times", vec![hostile(1)]),
        ("200 mixed ones", (0..200).map(generate).collect()),
    ]
}

/// Each entry on each kind of sheets.
fn entries() {
    println!("| Sheets | Entry | Bytes in | Library, µs | Independent, µs | Library / independent | Library, MB/s | Independent, MB/s |");
    println!("|---|---|---|---|---|---|---|---|");
    let judging = [Entry::OwnerSets, Entry::Owners, Entry::Boundary(1), Entry::Rings(0, 0, 1), Entry::Listing];
    let reading = [Entry::Numbers, Entry::NumbersBy(0), Entry::NumbersBy(1), Entry::Position(0), Entry::Areas(0), Entry::Index(0), Entry::Write];
    let of_blobs = [Entry::NumbersBy(2), Entry::WriteBlob, Entry::OwnerSetsBy(0), Entry::OwnerSetsBy(2)];
    let entries = [&reading[..], &judging, &of_blobs].concat();
    for (name, sheets) in &kinds() {
        for &entry in &entries {
            let inputs = inputs(entry, sheets);
            let bytes = inputs.iter().map(Vec::len).sum();
            let [library, independent] = least([&mut of_entry(entry, &inputs), &mut of_independent(entry, &inputs)]);
            let (ratio, fast, slow) = (library / independent, speed(bytes, library), speed(bytes, independent));
            println!("| {name} | {} | {bytes} | {library:.1} | {independent:.1} | {ratio:.2} | {fast:.1} | {slow:.1} |", word(entry));
        }
    }
}

/// The set entry beside native on each kind of sheets.
fn beside_native() {
    println!("| Sheets | Bytes in | sheet_owner_sets, µs | Native, µs | Library / native |");
    println!("|---|--:|--:|--:|--:|");
    for (name, sheets) in &kinds() {
        sheets.iter().for_each(|sheet| agree(name, sheet));
        let bytes: usize = sheets.iter().map(Vec::len).sum();
        let [library, native] = least([&mut of_entry(Entry::OwnerSets, sheets), &mut by_native(sheets)]);
        println!("| {name} | {bytes} | {library:.1} | {native:.1} | {:.2} |", library / native);
    }
}

/// The entries that judge on each hostile sheet, and the worst of all entries.
fn hostile_sheets() {
    println!("| Hostile sheet | Attacks | Bytes | Code | sheet_owner_sets, µs | Native, µs | Ratio | sheet_owners, µs | sheet_listing, µs |");
    println!("|---|---|--:|--:|--:|--:|--:|--:|--:|");
    let mut worst = (0.0, String::new());
    for Hostile { name, attacks, sheet, .. } in family(FULL) {
        agree(&name, &sheet);
        let (bytes, code, sheets) = (sheet.len(), of_native(&sheet).0 % 256, [sheet]);
        let [native] = least([&mut by_native(&sheets)]);
        let times = ENTRIES.map(|entry| least([&mut of_entry(entry, &inputs(entry, &sheets))])[0]);
        let [sets, owners, listing, ..] = times;
        println!("| {name} | {attacks} | {bytes} | {code} | {sets:.1} | {native:.1} | {:.2} | {owners:.1} | {listing:.1} |", sets / native);
        for (entry, time) in ENTRIES.into_iter().zip(times) {
            if time > worst.0 {
                worst = (time, format!("{name} in {}, {time:.1} µs", word(entry)));
            }
        }
    }
    println!("\nThe worst of all, {} among them: {}.", ENTRIES.map(word).join("; "), worst.1);
}

/// How the cost of judging grows with the triangles: with a polygon for each 16 of them, and with four polygons.
fn growth() {
    let sized: Vec<Vec<u8>> = (3..=10).map(|power| sized(1, 1 << power)).collect();
    growth_of("Triangles, a polygon for each 16", sized);
    println!();
    growth_of("Triangles, 4 polygons", (3..=10).map(|power| quarters(1 << power)).collect());
}

fn growth_of(what: &str, sheets: Vec<Vec<u8>>) {
    println!("| {what} | sheet_owner_sets, library, µs | Times the half | Independent, µs | Times the half | Native, µs | Times the half |");
    println!("|--:|--:|--:|--:|--:|--:|--:|");
    let mut half = None;
    for (place, sheet) in sheets.into_iter().enumerate() {
        agree(what, &sheet);
        let inputs = [sheet];
        let (mut library, mut independent) = (of_entry(Entry::OwnerSets, &inputs), of_independent(Entry::OwnerSets, &inputs));
        let times = least([&mut library, &mut independent, &mut by_native(&inputs)]);
        let of_half = |which: usize| half.map_or("".into(), |half: [f64; 3]| format!("{:.1}", times[which] / half[which]));
        let cells: Vec<String> = (0..3).map(|which| format!("{:.1} | {}", times[which], of_half(which))).collect();
        println!("| {} | {} |", 8 << place, cells.join(" | "));
        half = Some(times);
    }
}

/// Library and native must answer alike what is measured.
fn agree(name: &str, sheet: &[u8]) {
    assert!(of_library(sheet) == of_native(sheet), "library and native differ on {name}");
}

/// What the entry is given for these sheets: the sheets or blobs of them, or the numbers forms of these.
fn inputs(entry: Entry, sheets: &[Vec<u8>]) -> Vec<Vec<u8>> {
    let numbers = |mode: u32, sheet: &Vec<u8>| whole(Entry::NumbersBy(mode), sheet).map_or(sheet.clone(), |success| success.bytes);
    let blobs = || sheets.iter().map(|sheet| in_sound_blob(1, sheet));
    match entry {
        Entry::Write => sheets.iter().map(|sheet| numbers(0, sheet)).collect(),
        Entry::WriteBlob => blobs().map(|blob| numbers(2, &blob)).collect(),
        Entry::NumbersBy(2) | Entry::OwnerSetsBy(2) => blobs().collect(),
        _ => sheets.to_vec(),
    }
}

/// The entry's name, and the mode of those that take one.
fn word(entry: Entry) -> String {
    let by = |name: &str, mode: u32| format!("{name}, mode {mode}");
    match entry {
        Entry::Numbers => "sheet_numbers".into(),
        Entry::Write => "sheet_write".into(),
        Entry::WriteBlob => "sheet_write_blob".into(),
        Entry::OwnerSets => "sheet_owner_sets".into(),
        Entry::Owners => "sheet_owners".into(),
        Entry::Boundary(_) => "sheet_boundary".into(),
        Entry::Listing => "sheet_listing".into(),
        Entry::Position(mode) => by("sheet_position", mode),
        Entry::NumbersBy(mode) => by("sheet_numbers_by", mode),
        Entry::Areas(mode) => by("sheet_areas", mode),
        Entry::OwnerSetsBy(mode) => by("sheet_owner_sets_by", mode),
        Entry::OwnersBy(mode, _) => by("sheet_owners_by", mode),
        Entry::BoundaryBy(mode, ..) => by("sheet_boundary_by", mode),
        Entry::Rings(mode, ..) => by("sheet_rings", mode),
        Entry::RingRoom(mode, ..) => by("sheet_ring_room", mode),
        Entry::ListingBy(mode, _) => by("sheet_listing_by", mode),
        Entry::At(mode, ..) => by("sheet_at", mode),
        Entry::Index(mode) => by("sheet_index", mode),
        Entry::OwnerSetsIndexed(_, mode) => by("sheet_owner_sets_indexed", mode),
        Entry::OwnersIndexed(_, mode, _) => by("sheet_owners_indexed", mode),
        Entry::BoundaryIndexed(_, mode, ..) => by("sheet_boundary_indexed", mode),
        Entry::RingsIndexed(_, mode, ..) => by("sheet_rings_indexed", mode),
    }
}

/// The library's entry on all these inputs.
fn of_entry(entry: Entry, inputs: &[Vec<u8>]) -> impl FnMut() + '_ {
    let mut out = vec![0; ROOM];
    move || {
        inputs.iter().for_each(|input| {
            black_box(call(entry, input, &mut out)).ok();
        })
    }
}

/// The independent program on all these inputs.
fn of_independent(entry: Entry, inputs: &[Vec<u8>]) -> impl FnMut() + '_ {
    move || inputs.iter().for_each(|input| drop(black_box(whole(entry, input))))
}

/// Native on all these sheets.
fn by_native(sheets: &[Vec<u8>]) -> impl FnMut() + '_ {
    let mut out = vec![0; ROOM];
    move || {
        sheets.iter().for_each(|sheet| {
            black_box(native::owner_sets(sheet, &mut out));
        })
    }
}

/// MB of 10^6 bytes in a second.
fn speed(bytes: usize, micros: f64) -> f64 {
    bytes as f64 / micros
}
