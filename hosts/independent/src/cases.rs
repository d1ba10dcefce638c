//! Cases made by hand: inputs that each try one thing, by a name that says which, with what document 01 says of them,
//! with the requests that landed.
//!
//! What is said of a case stands beside it as a number of document 01's, found by reading and not by this program, which is
//! compared with it in the tests below; the library is compared with this program on every case (`differ`).

mod areas;
mod blobs;
mod carried;
mod case;
mod coordinates;
mod counts;
pub mod examples;
pub mod fields;
mod ground;
mod index;
mod large;
mod numbers;
mod older;
mod points;
mod positions;
mod reading;
mod repair;
mod rings;
mod rules;
mod spikes;
mod without_ground;

pub use case::{Case, Outcome};

use case::Cases;

/// All cases.
pub fn all() -> Vec<Case> {
    let mut cases = Cases::default();
    let groups = [
        examples::cases,
        reading::cases,
        counts::cases,
        coordinates::cases,
        rules::cases,
        carried::cases,
        spikes::cases,
        without_ground::cases,
        repair::cases,
        large::cases,
        numbers::cases,
        positions::cases,
        older::cases,
        blobs::cases,
        areas::cases,
        points::cases,
        index::cases,
        rings::cases,
    ];
    groups.iter().for_each(|group| group(&mut cases));
    cases.0
}

/// The first of these: document 01's examples, and the sheets of the folder examples/.
pub fn examples() -> Vec<Case> {
    let mut cases = Cases::default();
    examples::cases(&mut cases);
    cases.0
}

/// The input of the case with this name.
pub fn named(name: &str) -> Vec<u8> {
    let case = all().into_iter().find(|case| case.name == name);
    case.unwrap_or_else(|| panic!("there is no case \"{name}\"")).input
}

#[cfg(test)]
mod tests {
    use super::*;
    use crate::blob::Envelope;
    use crate::entries::{answer, packed, whole, Entry, Input};
    use crate::made::Head;
    use crate::reading::{read, Mode};
    use crate::repair::WAYS;
    use crate::rings::multi_line_string;
    use crate::{Point, Refusal, Ring};
    use std::collections::BTreeSet;

    /// The entries that take a sheet in a mode and refuse it, asked for polygon 1 and for one that isn't there.
    fn by(mode: u32, way: u32) -> [Entry; 6] {
        let boundary = |polygon| Entry::BoundaryBy(mode, way, polygon);
        let repaired = [Entry::OwnersBy(mode, way), boundary(1), boundary(u32::MAX)];
        let read = [Entry::NumbersBy(mode), Entry::Areas(mode)];
        [&read[..], &[Entry::OwnerSetsBy(mode)], &repaired].concat().try_into().unwrap()
    }

    /// What is printed in this mode and way.
    fn listed(mode: u32, way: u32, input: &[u8]) -> String {
        String::from_utf8(whole(Entry::ListingBy(mode, way), input).unwrap().bytes).unwrap()
    }

    /// The packed answer of an entry with all the room it wants, and what it writes.
    fn answered(entry: Entry, input: &[u8]) -> (u64, Option<Vec<u8>>) {
        answer(entry, input, usize::MAX)
    }

    /// What the position entry tells in this mode: a packed answer and a position.
    fn positioned(mode: u32, input: &[u8]) -> (u64, u64) {
        let told = whole(Entry::Position(mode), input).unwrap();
        let number = |at: usize| u64::from_le_bytes(told.bytes[at..at + 8].try_into().unwrap());
        assert_eq!((told.item, told.bytes.len()), (16, 16));
        (number(0), number(8))
    }

    /// Every entry that judges refuses so, and the listing says it.
    fn is_judged_so(mode: u32, input: &[u8], refusal: Refusal) -> bool {
        let said = format!("refused {} {}\n", refusal.code, refusal.item);
        let all = by(mode, 0)[2..].iter().all(|entry| answered(*entry, input) == (packed(refusal), None));
        all && listed(mode, 0, input) == said
    }

    /// So do those that only read, where reading or the envelope is at fault, and else they answer.
    fn is_refused(mode: u32, input: &[u8], refusal: Refusal) -> bool {
        let read = if (10..50).contains(&refusal.code) { 0 } else { packed(refusal) };
        let reads = by(mode, 0)[..2].iter().all(|entry| {
            let (answer, _) = answered(*entry, input);
            answer == read || read == 0 && answer % 256 == 0
        });
        is_judged_so(mode, input, refusal) && reads
    }

    /// What is read is written by the numbers, and read as the same again, in the mode that it was read in and in the present
    /// one.
    fn is_read(mode: u32, input: &[u8]) -> bool {
        let (write, present) = if mode < 2 { (Entry::Write, 0) } else { (Entry::WriteBlob, 2) };
        let Ok(numbers) = whole(Entry::NumbersBy(mode), input) else { return false };
        let Ok(written) = whole(write, &numbers.bytes) else { return false };
        [present, mode].iter().all(|mode| whole(Entry::NumbersBy(*mode), &written.bytes).as_ref() == Ok(&numbers))
    }

    /// What is written is read as the same numbers.
    fn is_written(numbers: &[u8]) -> bool {
        let Ok(written) = whole(Entry::Write, numbers) else { return false };
        answered(Entry::Numbers, &written.bytes).1.as_deref() == Some(numbers)
    }

    fn is_so(mode: u32, input: &[u8], outcome: &Outcome) -> bool {
        match outcome {
            Outcome::Read => is_read(mode, input),
            Outcome::Sets(sets) => {
                let bytes = sets.iter().flat_map(|set| set.to_le_bytes()).collect();
                let unowned = sets.iter().all(|set| *set == 0);
                let judged = answered(Entry::OwnerSetsBy(mode), input) == (256 * sets.len() as u64, Some(bytes));
                judged && (answered(Entry::OwnersBy(mode, 0), input) == (30, None)) == unowned
            }
            Outcome::Repaired(numbers) => {
                answered(Entry::OwnersBy(mode, 0), input) == (256 * numbers.len() as u64, Some(numbers.clone()))
            }
            Outcome::InWays(priority, longest) => [priority, longest].into_iter().zip(WAYS).all(|(numbers, way)| {
                answered(Entry::OwnersBy(mode, way), input) == (256 * numbers.len() as u64, Some(numbers.clone()))
            }),
            Outcome::Refused(code, item) => is_refused(mode, input, Refusal::new(*code, *item)),
            Outcome::Unread(code, item, position) => {
                let refusal = Refusal::new(*code, *item);
                is_refused(mode, input, refusal) && positioned(mode, input) == (packed(refusal), *position)
            }
            Outcome::InModes(present, older) => is_so(mode, input, present) && is_so(mode + 1, input, older),
            Outcome::Written => is_written(input),
            Outcome::NotWritten => answered(Entry::Write, input) == (42, None),
            Outcome::AsBlob(outcome) => is_so(2, input, outcome),
            Outcome::Areas(areas) => {
                let bytes = areas.iter().flat_map(|area| area.to_le_bytes()).collect();
                answered(Entry::Areas(mode), input) == (256 * areas.len() as u64, Some(bytes))
            }
            Outcome::Owned(points) => points.iter().all(|&(x, y, owner)| {
                let right = if owner == 0 { (55, None) } else { (256 * owner, Some(Vec::new())) };
                answered(Entry::At(mode, 0, x, y), input) == right
            }),
            Outcome::Index(numbers) => {
                let bytes = numbers.iter().flat_map(|number| number.to_le_bytes()).collect();
                answered(Entry::Index(mode), input) == (2 * 256 * numbers.len() as u64, Some(bytes))
            }
            Outcome::Rings(polygon, rings) => {
                let point = |&(x, y): &(i32, i32)| Point { x: x.into(), y: y.into() };
                let rings: Vec<Ring> = rings.iter().map(|ring| ring.iter().map(point).collect()).collect();
                let bytes = multi_line_string(&rings);
                let room = answered(Entry::RingRoom(mode, 0, *polygon), input);
                room == (256 * bytes.len() as u64, Some(Vec::new()))
                    && answered(Entry::Rings(mode, 0, *polygon), input) == (room.0, Some(bytes))
            }
            Outcome::Holds(number, sheet) => {
                let numbers = whole(Entry::Numbers, sheet).unwrap().bytes;
                let held = [&number.to_le_bytes()[..], &numbers].concat();
                is_read(mode, input) && answered(Entry::NumbersBy(mode), input).1 == Some(held)
            }
            Outcome::Unframed(code, item) => {
                let numbers = answered(Entry::NumbersBy(mode), input);
                numbers == (52, None)
                    && answered(Entry::Areas(mode), input) == numbers
                    && is_judged_so(mode, input, Refusal::new(*code, *item))
            }
            Outcome::BlobWritten(blob) => {
                let read = answered(Entry::NumbersBy(2), blob).1;
                read.as_deref() == Some(input) && answered(Entry::WriteBlob, input).1.as_ref() == Some(blob)
            }
            Outcome::BlobNotWritten => answered(Entry::WriteBlob, input) == (42, None),
        }
    }

    #[test]
    fn cases_are_answered_as_document_01_says() {
        let wrong = all().into_iter().filter(|case| !is_so(0, &case.input, &case.outcome)).map(|case| case.name);
        assert_eq!(wrong.collect::<Vec<String>>(), Vec::<String>::new());
    }

    /// The sheets made by hand, and those spoiled at each field, by name.
    fn sheets() -> impl Iterator<Item = (String, Vec<u8>)> {
        let sheets = all().into_iter().filter(Case::is_sheet).map(|case| (case.name, case.input));
        sheets.chain(fields::spoiled())
    }

    #[test]
    fn mode_0_and_way_0_are_those_of_the_entries_without_them() {
        for (name, input) in sheets() {
            let boundaries = [1, u32::MAX].map(Entry::Boundary);
            let without =
                [&[Entry::Numbers, Entry::Areas(0), Entry::OwnerSets, Entry::Owners][..], &boundaries].concat();
            for (entry, without) in by(0, 0).into_iter().zip(without) {
                assert_eq!(whole(entry, &input), whole(without, &input), "{name}");
            }
            assert_eq!(whole(Entry::ListingBy(0, 0), &input), whole(Entry::Listing, &input), "{name}");
        }
    }

    #[test]
    fn reading_and_the_table_are_refused_alike_in_both_modes() {
        for (name, input) in sheets() {
            let refused = |mode: u32| {
                [Entry::NumbersBy(mode), Entry::Areas(mode), Entry::OwnerSetsBy(mode)].map(|entry| whole(entry, &input))
            };
            let before_polygons = refused(0).map(|answer| answer.err().filter(|refusal| refusal.code < 20));
            assert_eq!(
                before_polygons,
                refused(1).map(|answer| answer.err().filter(|refusal| refusal.code < 20)),
                "{name}"
            );
            assert_eq!(positioned(0, &input), positioned(1, &input), "{name}");
        }
    }

    /// A sheet's answers in a blob of its frame, in both byte orders and without an envelope, are those of the sheet, its numbers
    /// behind the reference-system number and its positions behind the header; and written again the blob has its number.
    #[test]
    fn a_sheet_in_a_blob_is_answered_as_the_sheet() {
        for (name, input) in sheets().filter(|(_, input)| input.len() < 20_000) {
            let frame = read(&input).map_or([1.0, 2.0, 3.0, 4.0], |sheet| Envelope::of(&sheet).0);
            for (little, envelope, older) in [(true, Some(frame), 0), (false, Some(frame), 1), (false, None, 0)] {
                let head = Head::sound(little, -77, envelope);
                let (blob, before) = (head.before(&input[..]), head.bytes().len() as u64);
                for (entry, plain) in by(2 + older, 0).into_iter().zip(by(older, 0)).skip(1) {
                    assert_eq!(whole(entry, &blob), whole(plain, &input), "{name}");
                }
                assert_eq!(listed(2 + older, 0, &blob), listed(older, 0, &input), "{name}");
                let [numbers, plain] =
                    [(2 + older, &blob), (older, &input)].map(|(mode, of)| whole(Entry::NumbersBy(mode), of));
                let held = plain.clone().map(|plain| [&(-77_i32).to_le_bytes()[..], &plain.bytes].concat());
                assert_eq!(numbers.map(|success| success.bytes), held, "{name}");
                let (told, position) = positioned(older, &input);
                let shifted = if told % 256 == 0 { (told + 4 * 256, 0) } else { (told, position + before) };
                assert_eq!(positioned(2 + older, &blob), shifted, "{name}");
                assert!(held.is_err() || is_read(2 + older, &blob), "{name}");
            }
        }
    }

    #[test]
    fn a_blob_is_written_as_its_header_and_its_sheet() {
        for case in all().into_iter().filter(|case| matches!(case.outcome, Outcome::Written | Outcome::NotWritten)) {
            let given = [&[1, 2, 3, 4], &case.input[..]].concat();
            let sheet = whole(Entry::Write, &case.input);
            let front = |sheet: &[u8]| Head::sound(true, 0x0403_0201, Some(Envelope::of(&read(sheet).unwrap()).0));
            let right = sheet.map(|sheet| front(&sheet.bytes).before(sheet.bytes));
            assert_eq!(whole(Entry::WriteBlob, &given).map(|success| success.bytes), right, "{}", case.name);
        }
    }

    #[test]
    fn names_differ_and_name_files() {
        let cases = all();
        let names: BTreeSet<&str> = cases.iter().map(|case| &case.name[..]).collect();
        assert_eq!(names.len(), cases.len());
        assert!(names.iter().all(|name| !name.contains('/') && name.len() < 100));
    }

    #[test]
    fn inputs_differ() {
        let cases = all();
        for (place, case) in cases.iter().enumerate() {
            let same = cases[..place].iter().find(|other| other.input == case.input && other.outcome == case.outcome);
            assert!(same.is_none(), "{} is {}", case.name, same.unwrap().name);
        }
    }

    #[test]
    fn a_position_comes_with_the_answer_of_the_numbers_entry() {
        for (name, input) in sheets() {
            let (told, position) = positioned(0, &input);
            assert_eq!(told, answered(Entry::Numbers, &input).0, "{name}");
            assert!(position <= input.len() as u64 && (position == 0 || (1..=8).contains(&(told % 256))), "{name}");
        }
    }

    #[test]
    fn a_position_has_16_bytes_in_every_mode() {
        let strip = named("strip");
        let told = |answer: u64| Some([answer, 0].map(u64::to_le_bytes).concat());
        for (mode, right) in [(0, 304 * 256), (1, 304 * 256), (7, 57), (256, 57), (u32::MAX, 57)] {
            let with = |room: usize| answer(Entry::Position(mode), &strip, room);
            assert_eq!([0, 1, 15].map(with), [(40, None), (40, None), (40, None)]);
            assert_eq!([16, 17].map(with), [(16 * 256, told(right)), (16 * 256, told(right))]);
        }
        assert_eq!(answer(Entry::Position(7), &strip[..300], 16), (16 * 256, told(57)));
        assert_eq!(answer(Entry::Position(0), &[], 15), (40, None));
    }

    /// What a point is answered with comes after all that the owner entry is refused by, whatever the point.
    #[test]
    fn a_point_is_refused_as_the_owner_entry_and_then_by_55() {
        for (name, input) in sheets() {
            let owners = [0, 1, 2].map(|way| whole(Entry::OwnersBy(0, way), &input).err());
            for (x, y) in [(0, 0), (i32::MIN, i32::MIN), (i32::MAX, i32::MAX), (10_000_000, 10_000_000)] {
                let at = [0, 1, 2].map(|way| whole(Entry::At(0, way, x, y), &input).err());
                let passed = at.map(|refusal| refusal.filter(|refusal| refusal.code != 55));
                assert_eq!(passed, owners, "{name}");
                assert!((x, y) == (0, 0) || at.iter().all(Option::is_some), "{name}");
            }
        }
    }

    /// The rings entry is refused as the boundary entry is, whatever is asked for; and has 16 bytes for each side that the boundary entry
    /// lists, 25 for each ring, and 9.
    #[test]
    fn rings_are_refused_as_boundary_sides() {
        for (name, input) in sheets() {
            let given = Input::new(&input);
            for (mode, way, polygon) in
                [(0, 0, 1), (0, 1, 2), (1, 0, 1), (0, 2, 1), (0, 2, 0), (7, 0, 1), (0, 0, u32::MAX)]
            {
                let sides = given.whole(Entry::BoundaryBy(mode, way, polygon));
                let rings = given.whole(Entry::Rings(mode, way, polygon));
                assert_eq!(rings.as_ref().err(), sides.as_ref().err(), "{name}");
                let (Ok(sides), Ok(rings)) = (sides, rings) else { continue };
                let count = u64::from(u32::from_le_bytes(rings.bytes[5..9].try_into().unwrap()));
                assert_eq!(
                    (rings.item, rings.bytes.len() as u64),
                    (9 + 16 * sides.item + 25 * count, rings.item),
                    "{name}"
                );
                assert!(3 * count <= sides.item, "{name}");
            }
        }
    }

    /// The room told for rings is the length of their bytes, at most 9 + 16 S + 25 (S / 3) for S sides, since a ring has three or more; and its refusals are those
    /// of the boundary entry. Lent so many bytes the rings are never refused 40, and lent one less they are.
    #[test]
    fn a_ring_room_is_the_length_of_the_rings() {
        for (name, input) in sheets() {
            for (mode, way, polygon) in
                [(0, 0, 1), (0, 1, 2), (1, 0, 1), (0, 2, 1), (0, 2, 0), (7, 0, 1), (0, 0, u32::MAX)]
            {
                let sides = whole(Entry::BoundaryBy(mode, way, polygon), &input);
                let room = whole(Entry::RingRoom(mode, way, polygon), &input);
                assert_eq!(room.as_ref().err(), sides.as_ref().err(), "{name}");
                let (Ok(sides), Ok(room)) = (sides, room) else { continue };
                let rings = |room: u64| answer(Entry::Rings(mode, way, polygon), &input, room as usize);
                let (packed, bytes) = rings(room.item);
                let bytes = bytes.expect("the room is enough");
                assert_eq!((packed, bytes.len() as u64, room.bytes), (256 * room.item, room.item, vec![]), "{name}");
                let count = u64::from(u32::from_le_bytes(bytes[5..9].try_into().unwrap()));
                assert!(3 * count <= sides.item && room.item == 9 + 16 * sides.item + 25 * count, "{name}");
                assert_eq!(rings(room.item - 1), (40, None), "{name}");
                assert_eq!(rings(9 + 16 * sides.item + 25 * (sides.item / 3)), (packed, Some(bytes)), "{name}");
            }
        }
    }

    /// A request that adds a mode or a way changes these numbers.
    #[test]
    fn four_modes_and_two_ways_are_known() {
        let clean = named("clean");
        let numbers = || (0..600).chain([1 << 16, (1 << 16) + 1, 1 << 31, (1 << 31) + 1, u32::MAX]);
        let modes = numbers().filter(|mode| answered(Entry::NumbersBy(*mode), &clean) != (57, None));
        let ways = numbers().filter(|way| answered(Entry::OwnersBy(0, *way), &clean) != (54, None));
        assert_eq!((modes.collect(), ways.collect()), (vec![0, 1, 2, 3], WAYS.to_vec()));
        assert!(numbers().all(|mode| (mode < 4) == Mode::numbered(mode).is_ok()) && WAYS == [0, 1]);
        assert!((0..4).all(|mode| Mode::numbered(mode).map(Mode::number) == Ok(mode)));
    }

    #[test]
    fn a_mode_that_is_not_known_is_refused_before_everything_else() {
        for input in
            [vec![], named("clean"), named("no-polygons"), named("not-carried"), named("a byte after the sheet")]
        {
            for (mode, way) in [(4, 0), (7, 0), (256, 0), (258, 0), (1 << 31, 0), (u32::MAX, 0), (7, 2), (7, u32::MAX)]
            {
                assert!(by(mode, way).iter().all(|entry| answer(*entry, &input, 0) == (57, None)));
                assert_eq!(listed(mode, way, &input), "refused 57 0\n");
            }
        }
    }

    #[test]
    fn a_way_that_is_not_known_is_refused_after_41_and_before_30_and_40() {
        let lines = "sheet 8 2\npolygon 1 32\npolygon 2 32\ngap 0 0\noverlap 0 0\nverdict clean\nrefused 54 0\n";
        let none = "sheet 8 0\ngap 8 64\noverlap 0 0\nverdict repair\nrefused 54 0\n";
        for (mode, way) in [(0, 2), (1, 2), (0, 256), (1, 1 << 31), (0, u32::MAX)] {
            let code = |entry: Entry, name: &str| answer(entry, &named(name), 0).0;
            let boundary = |polygon| Entry::BoundaryBy(mode, way, polygon);
            for name in ["clean", "strip", "gaps-and-overlaps"] {
                assert_eq!(
                    [Entry::OwnersBy(mode, way), boundary(1)].map(|entry| code(entry, name)),
                    [54, 54],
                    "{name}"
                );
                assert_eq!([0, 5, u32::MAX].map(|polygon| code(boundary(polygon), name)), [41, 41, 41], "{name}");
            }
            let entries = [Entry::OwnersBy(mode, way), boundary(1), boundary(0)];
            assert_eq!(entries.map(|entry| code(entry, "no-polygons")), [54, 41, 41]);
            assert_eq!(entries.map(|entry| code(entry, "not-carried")), [532, 532, 532]);
            assert_eq!(entries.map(|entry| code(entry, "no-ground")), [533, 533, 533]);
            let printed = ["clean", "no-polygons", "not-carried"].map(|name| listed(mode, way, &named(name)));
            assert_eq!(printed, [lines, none, "refused 20 2\n"]);
        }
    }

    #[test]
    fn every_code_of_reading_comes_of_a_spoiled_field() {
        let spoiled = fields::spoiled();
        let codes: BTreeSet<u64> = spoiled.iter().map(|(_, input)| answered(Entry::Numbers, input).0 % 256).collect();
        assert!(is_read(0, &fields::every_place().bytes()));
        assert_eq!(codes, BTreeSet::from([0, 1, 2, 3, 4, 5, 6, 7, 8]));
    }
}
