//! The safe functions on the example sheets, whose listings are stored beside them.
use sheets::{areas, at, at_by, boundary, lent, listing, numbers, owner_sets, owners, position, ring_room, ring_room_by, rings, rings_by, verdict};
use sheets::{areas_by, boundary_by, listing_by, numbers_by, owner_sets_by, owners_by, position_by, verdict_by, write, write_blob};
use sheets::{Mode, Position, Refusal, Verdict, Way};

fn example(name: &str) -> Vec<u8> {
    std::fs::read(format!("{}/../../examples/{name}", env!("CARGO_MANIFEST_DIR"))).unwrap()
}

#[test]
fn the_strip_sheet_is_read_and_written_back() {
    let sheet = example("strip.wkb");
    let numbers = numbers(&sheet).unwrap();
    assert_eq!((numbers[0], &numbers[1..7], numbers[49]), (8, &[0, 0, 2, 0, 2, 4][..], 2));
    assert_eq!(write(&numbers).unwrap(), sheet);
}

#[test]
fn the_strip_sheet_has_gaps_and_overlaps_and_is_repaired() {
    let sheet = example("strip.wkb");
    assert_eq!(owner_sets(&sheet).unwrap(), [1, 1, 3, 3, 2, 2, 0, 0]);
    assert_eq!(owners(&sheet).unwrap(), [1, 1, 1, 1, 2, 2, 2, 2]);
    let sides = boundary(&sheet, 1).unwrap();
    assert_eq!(sides, [((0, 0), (2, 0)), ((2, 4), (0, 4)), ((0, 4), (0, 0)), ((2, 0), (4, 0)), ((4, 0), (4, 4)), ((4, 4), (2, 4))]);
    assert_eq!(verdict(&sheet), Verdict::Repair);
    assert_eq!(listing(&sheet).into_bytes(), example("strip.txt"));
}

#[test]
fn boundary_sides_are_joined_into_a_closed_ring() {
    let sheet = example("strip.wkb");
    let line: [(i32, i32); 7] = [(0, 0), (2, 0), (4, 0), (4, 4), (2, 4), (0, 4), (0, 0)];
    let head = |kind: u8, count: u8| [1, kind, 0, 0, 0, count, 0, 0, 0];
    let points = line.iter().flat_map(|&(x, y)| [x, y]).flat_map(|number| f64::from(number).to_le_bytes());
    let wanted: Vec<u8> = head(5, 1).into_iter().chain(head(2, 7)).chain(points).collect();
    assert_eq!(rings(&sheet, 1), Ok(wanted));
    assert_eq!(rings_by(&sheet, Mode::Older, Way::Longest, 1), rings(&sheet, 1));
    assert_eq!(rings(&sheet, 3), Err(Refusal { code: 41, item: 0 }));
}

#[test]
fn rings_need_exactly_the_room_that_is_told() {
    for name in ["strip.wkb", "clean.wkb", "nested.wkb", "no-polygons.wkb", "not-carried.wkb", "no-ground.wkb"] {
        let sheet = example(name);
        for (mode, way, polygon) in (0..5).flat_map(|mode| (0..3).flat_map(move |way| [0, 1, 2, 3, u32::MAX].map(|polygon| (mode, way, polygon)))) {
            let room = lent::ring_room(&sheet, mode, way, polygon);
            let mut out = vec![9; sheets::RINGS_ROOM];
            assert_eq!(room, lent::rings(&sheet, mode, way, polygon, &mut out));
            let mut sides = vec![0; sheets::BOUNDARY_ROOM];
            let sides = lent::boundary_by(&sheet, mode, way, polygon, &mut sides);
            assert_eq!(room.err(), sides.err());
            let (Ok(room), Ok(sides)) = (room, sides) else { continue };
            let rings = u64::from(u32::from_le_bytes(out[5..9].try_into().unwrap()));
            assert_eq!(room, 9 + 16 * sides + 25 * rings);
            assert!(room <= 9 + 16 * sides + 25 * (sides / 3));
            let mut lent = vec![9; room as usize];
            assert_eq!(lent::rings(&sheet, mode, way, polygon, &mut lent[1..]), Err(Refusal { code: 40, item: 0 }));
            assert!(lent.iter().all(|byte| *byte == 9));
            assert_eq!(lent::rings(&sheet, mode, way, polygon, &mut lent), Ok(room));
            assert_eq!(lent, out[..room as usize]);
        }
    }
    assert_eq!(sheets::RINGS_ROOM, 9 + 16 * 3_072 + 25 * (3_072 / 3));
}

#[test]
fn a_ring_room_is_the_length_of_the_rings() {
    let sheet = example("strip.wkb");
    assert_eq!(ring_room(&sheet, 1), Ok(9 + 16 * 6 + 25));
    assert_eq!(ring_room(&sheet, 1), rings(&sheet, 1).map(|bytes| bytes.len()));
    assert_eq!(ring_room_by(&sheet, Mode::Older, Way::Longest, 2), rings(&sheet, 2).map(|bytes| bytes.len()));
    assert_eq!(ring_room_by(&sheet, Mode::Blob, Way::Priority, 1), Err(Refusal { code: 50, item: 0 }));
    assert_eq!(ring_room(&sheet, 3), Err(Refusal { code: 41, item: 0 }));
    assert_eq!(ring_room(&sheet[..819], 1), Err(Refusal { code: 1, item: 3 }));
}

#[test]
fn verdicts_are_those_of_the_listings() {
    assert_eq!(verdict(&example("clean.wkb")), Verdict::Clean);
    assert_eq!(verdict(&example("not-carried.wkb")), Verdict::Refused(Refusal { code: 20, item: 2 }));
    assert_eq!(verdict(&example("no-ground.wkb")), Verdict::Refused(Refusal { code: 21, item: 2 }));
    assert_eq!(verdict(&[]), Verdict::Refused(Refusal { code: 1, item: 0 }));
}

#[test]
fn each_refusal_says_what_it_is_about() {
    let sheet = example("no-polygons.wkb");
    assert_eq!(owners(&sheet), Err(Refusal { code: 30, item: 0 }));
    assert_eq!(boundary(&sheet, 1), Err(Refusal { code: 41, item: 0 }));
    assert_eq!(write(&[2]), Err(Refusal { code: 42, item: 0 }));
    let refused = Refusal { code: 21, item: 2 };
    let sheet_without_ground = example("no-ground.wkb");
    assert_eq!(owner_sets(&sheet_without_ground), Err(refused));
    assert_eq!(owners(&sheet_without_ground), Err(refused));
    assert_eq!(boundary(&sheet_without_ground, 3), Err(refused));
    assert_eq!(listing(&sheet_without_ground), "refused 21 2\n");
    assert_eq!(refused.to_string(), "polygon 2 has no ground: its lines run there and back and cancel out (code 21, item 2)");
    assert_eq!(
        numbers(&sheet[..600]).unwrap_err().to_string(),
        "the bytes end too early for the next field of member 1, the triangle table (code 1, item 1)"
    );
    let codes = [1, 2, 3, 4, 5, 6, 7, 8, 10, 11, 12, 20, 21, 30, 40, 41, 42, 50, 51, 52, 54, 57];
    let sentences: std::collections::BTreeSet<String> = codes.iter().map(|&code| Refusal { code, item: 7 }.sentence()).collect();
    assert_eq!(sentences.len(), codes.len());
    assert!(sentences.iter().all(|sentence| !sentence.contains("has no refusal")));
    let of_reading = codes.into_iter().filter(|&code| Refusal { code, item: 7 }.of_reading());
    assert_eq!(of_reading.collect::<Vec<u8>>(), [1, 2, 3, 4, 5, 6, 7, 8]);
}

#[test]
fn areas_are_those_of_the_corners() {
    let sheet = example("strip.wkb");
    assert_eq!(areas(&sheet), Ok(vec![32, 32]));
    assert!(areas(&example("not-carried.wkb")).is_ok());
    assert_eq!(areas(&example("no-polygons.wkb")), Ok(vec![]));
    assert_eq!(areas(&sheet[..819]), Err(Refusal { code: 1, item: 3 }));
    let mut lent = [7; 17];
    assert_eq!(lent::areas(&sheet, 0, &mut lent[..15]), Err(Refusal { code: 40, item: 0 }));
    assert_eq!(lent::areas(&sheet, 4, &mut lent), Err(Refusal { code: 57, item: 0 }));
    assert_eq!(lent, [7; 17]);
    assert_eq!(lent::areas(&sheet, 1, &mut lent), Ok(2));
    assert_eq!(lent, [32, 0, 0, 0, 0, 0, 0, 0, 32, 0, 0, 0, 0, 0, 0, 0, 7]);
}

#[test]
fn a_point_has_the_owner_of_its_triangle_after_repair() {
    let sheet = example("strip.wkb");
    let off = Err(Refusal { code: 55, item: 0 });
    assert_eq!([(0, 0), (3, 3), (4, 0), (7, 3)].map(|point| at(&sheet, point)), [Ok(1), Ok(1), Ok(2), Ok(2)]);
    assert_eq!([(8, 0), (0, 4), (-1, 0), (0, -1), (i32::MIN, i32::MAX)].map(|point| at(&sheet, point)), [off; 5]);
    assert_eq!(at_by(&sheet, Mode::Older, Way::Longest, (7, 3)), Ok(2));
    assert_eq!(at(&example("no-polygons.wkb"), (i32::MAX, 0)), Err(Refusal { code: 30, item: 0 }));
    assert_eq!(lent::at(&sheet, 4, 2, 0, 0), Err(Refusal { code: 57, item: 0 }));
    assert_eq!(lent::at(&sheet, 0, 2, -1, -1), Err(Refusal { code: 54, item: 0 }));
    assert_eq!(lent::at(&[], 0, 0, 0, 0), Err(Refusal { code: 1, item: 0 }));
}

#[test]
fn a_position_comes_with_what_reading_answers() {
    let sheet = example("strip.wkb");
    assert_eq!(position(&sheet), Position { answer: Ok(304), byte: 0 });
    assert_eq!(position(&example("not-carried.wkb")).byte, 0);
    let cut = Position { answer: Err(Refusal { code: 1, item: 3 }), byte: 804 };
    assert_eq!(position(&sheet[..819]), cut);
    assert_eq!(cut.answer, numbers(&sheet[..819]).map(|numbers| 4 * numbers.len() as u64));
    assert_eq!(position(&[&sheet[..], &[0]].concat()), Position { answer: Err(Refusal { code: 7, item: 0 }), byte: 820 });
    assert_eq!(position(&[]), Position { answer: Err(Refusal { code: 1, item: 0 }), byte: 0 });
}

#[test]
fn a_position_is_told_in_16_bytes_by_mode() {
    let sheet = &example("strip.wkb")[..819];
    let mut lent = [9; 17];
    assert_eq!(lent::position(sheet, 0, &mut lent[..15]), Err(Refusal { code: 40, item: 0 }));
    assert_eq!(lent, [9; 17]);
    assert_eq!(lent::position(sheet, 0, &mut lent), Ok(16));
    assert_eq!(lent, [1, 3, 0, 0, 0, 0, 0, 0, 36, 3, 0, 0, 0, 0, 0, 0, 9]);
    let first = lent;
    assert_eq!((lent::position(sheet, 1, &mut lent), lent), (Ok(16), first));
    for mode in [7, 256, u32::MAX] {
        assert_eq!(lent::position(sheet, mode, &mut lent), Ok(16));
        assert_eq!(lent, [57, 0, 0, 0, 0, 0, 0, 0, 0, 0, 0, 0, 0, 0, 0, 0, 9]);
    }
}

/// The sheet with the points of all its rings in reverse order: as its numbers, and as its bytes.
fn clockwise(sheet: &[u8]) -> (Vec<i32>, Vec<u8>) {
    let mut numbers = numbers(sheet).unwrap();
    let first = 2 + 6 * numbers[0] as usize;
    assert_eq!(numbers[first - 1..first + 3], [2, 1, 1, 5]);
    for ring in [first + 3, first + 16] {
        let points: Vec<i32> = numbers[ring..ring + 10].chunks(2).rev().flatten().copied().collect();
        numbers[ring..ring + 10].copy_from_slice(&points);
    }
    let bytes = write(&numbers).unwrap();
    (numbers, bytes)
}

#[test]
fn a_sheet_of_the_older_edition_is_read_with_its_rings_turned() {
    let sheet = example("clean.wkb");
    let (turned, older) = clockwise(&sheet);
    assert_eq!(verdict(&older), Verdict::Refused(Refusal { code: 20, item: 1 }));
    assert_eq!((numbers(&older), numbers_by(&older, Mode::Present)), (Ok(turned.clone()), Ok(turned)));
    for older in [&older, &sheet] {
        assert_eq!(numbers_by(older, Mode::Older), numbers(&sheet));
        assert_eq!(owner_sets_by(older, Mode::Older), owner_sets(&sheet));
        assert_eq!(owners_by(older, Mode::Older, Way::Priority), owners(&sheet));
        assert_eq!(boundary_by(older, Mode::Older, Way::Priority, 2), boundary(&sheet, 2));
        assert_eq!(listing_by(older, Mode::Older, Way::Priority), listing(&sheet));
        assert_eq!(verdict_by(older, Mode::Older), Verdict::Clean);
        assert_eq!(position_by(older, Mode::Older), position(&sheet));
        assert_eq!(areas_by(older, Mode::Older), areas(&sheet));
        assert_eq!(position_by(&older[..819], Mode::Older).byte, 804);
    }
}

/// A blob's header: the flags, the number and the envelope little-endian.
fn header(flags: u8, number: i32, envelope: &[f64]) -> Vec<u8> {
    let doubles = envelope.iter().flat_map(|double| double.to_le_bytes());
    [b'G', b'P', 0, flags].into_iter().chain(number.to_le_bytes()).chain(doubles).collect()
}

#[test]
fn a_blob_is_written_and_read_with_its_number() {
    let sheet = example("strip.wkb");
    for number in [4_326, 0, -1, i32::MIN] {
        let of_blob = [vec![number], numbers(&sheet).unwrap()].concat();
        let blob = write_blob(&of_blob).unwrap();
        assert_eq!(blob, [header(3, number, &[0.0, 8.0, 0.0, 4.0]), sheet.clone()].concat());
        assert_eq!(numbers_by(&blob, Mode::Blob), Ok(of_blob.clone()));
        assert_eq!(numbers_by(&[header(1, number, &[]), sheet.clone()].concat(), Mode::OlderBlob), Ok(of_blob));
    }
    assert_eq!([write_blob(&[]), write_blob(&[4_326]), write_blob(&[7, 2])], [(); 3].map(|()| Err(Refusal { code: 42, item: 0 })));
}

#[test]
fn a_blob_is_answered_as_the_sheet_in_it() {
    let sheet = example("clean.wkb");
    let (_, older) = clockwise(&sheet);
    let front = header(3, 25_832, &[-0.0, 8.0, 0.0, 4.0]);
    let (blob, older_blob) = ([&front[..], &sheet].concat(), [&front[..], &older].concat());
    assert_eq!(verdict_by(&older_blob, Mode::Blob), Verdict::Refused(Refusal { code: 20, item: 1 }));
    for (blob, mode) in [(&blob, Mode::Blob), (&blob, Mode::OlderBlob), (&older_blob, Mode::OlderBlob)] {
        assert_eq!(owner_sets_by(blob, mode), owner_sets(&sheet));
        assert_eq!(owners_by(blob, mode, Way::Priority), owners(&sheet));
        assert_eq!(boundary_by(blob, mode, Way::Priority, 2), boundary(&sheet, 2));
        assert_eq!(listing_by(blob, mode, Way::Priority), listing(&sheet));
        assert_eq!(verdict_by(blob, mode), Verdict::Clean);
        assert_eq!(position_by(blob, mode), Position { answer: Ok(308), byte: 0 });
        assert_eq!(position_by(&blob[..859], mode), Position { answer: Err(Refusal { code: 1, item: 3 }), byte: 844 });
    }
}

#[test]
fn a_blob_with_another_header_or_envelope_is_refused() {
    let sheet = example("clean.wkb");
    let refused = |code: u8| Verdict::Refused(Refusal { code, item: 0 });
    let frame = [0.0, 8.0, 0.0, 4.0];
    let judged = |header: Vec<u8>| verdict_by(&[header, sheet.clone()].concat(), Mode::Blob);
    assert_eq!([0, 16, 32, 64, 128].map(|bit| judged(header(3 | bit, 1, &frame)) == refused(50)), [false, true, true, true, true]);
    assert_eq!([2, 3, 4, 5, 6, 7].map(|kind| judged(header(1 | kind << 1, 1, &frame))), [refused(51); 6]);
    assert_eq!(judged(header(3, 1, &[0.0, 8.0, 0.0, f64::NAN])), refused(52));
    assert_eq!(numbers_by(&[header(3, 1, &[0.0, 4.0, 0.0, 8.0]), sheet.clone()].concat(), Mode::Blob), Err(Refusal { code: 52, item: 0 }));
    assert_eq!(verdict_by(&sheet, Mode::Blob), refused(50));
    assert_eq!(verdict_by(&[], Mode::Blob), refused(1));
    assert_eq!(position_by(&header(3, 1, &frame)[..39], Mode::Blob).byte, 8);
}

#[test]
fn modes_of_blobs_and_of_the_older_edition_combine() {
    use Mode::{Blob, Older, OlderBlob, Present};
    assert_eq!([Present, Older, Blob, OlderBlob].map(Mode::older), [Older, Older, OlderBlob, OlderBlob]);
    assert_eq!([Present, Older, Blob, OlderBlob].map(Mode::of_blobs), [Blob, OlderBlob, Blob, OlderBlob]);
    assert_eq!([Present, Older, Blob, OlderBlob].map(Mode::is_blob), [false, false, true, true]);
}

#[test]
fn modes_and_ways_that_are_not_known_are_refused() {
    let sheet = example("clean.wkb");
    let mut lent = [9; 200];
    let refused = |code: u8| Err(Refusal { code, item: 0 });
    for number in [7, 256, u32::MAX] {
        assert_eq!(lent::numbers_by(&[], number, &mut lent), refused(57));
        assert_eq!(lent::owner_sets_by(&sheet, number, &mut lent), refused(57));
        assert_eq!(lent::owners_by(&sheet, number, number, &mut lent), refused(57));
        assert_eq!(lent::owners_by(&sheet, 1, number, &mut lent[..7]), refused(54));
        assert_eq!(lent::boundary_by(&sheet, 0, number, 1, &mut lent), refused(54));
        assert_eq!(lent::boundary_by(&sheet, 0, number, 3, &mut lent), refused(41));
        assert_eq!(lent::rings(&sheet, 0, number, 1, &mut lent), refused(54));
        assert_eq!(lent::rings(&sheet, number, 0, 1, &mut lent), refused(57));
        assert_eq!([lent::ring_room(&sheet, 0, number, 1), lent::ring_room(&sheet, number, 0, 1)], [refused(54), refused(57)]);
        assert_eq!(lent::owners_by(&example("no-polygons.wkb"), 0, number, &mut lent), refused(54));
        assert_eq!(lent, [9; 200]);
        let bytes = lent::listing_by(&sheet, 0, number, &mut lent).unwrap() as usize;
        assert!(lent[..bytes].ends_with(b"verdict clean\nrefused 54 0\n"));
        assert_eq!(lent::listing_by(&sheet, number, 0, &mut lent), Ok(13));
        assert_eq!(lent[..13], b"refused 57 0\n"[..]);
        lent = [9; 200];
    }
}

#[test]
fn a_gap_with_one_neighbour_goes_to_it_in_either_way() {
    // The strip sheet's gap has polygon 2 alone beside it.
    let sheet = example("strip.wkb");
    assert_eq!(owners_by(&sheet, Mode::Present, Way::Longest), owners(&sheet));
    assert_eq!(boundary_by(&sheet, Mode::Present, Way::Longest, 1), boundary(&sheet, 1));
    assert_eq!(listing_by(&sheet, Mode::Present, Way::Longest), listing(&sheet));
    assert_eq!(Way::default(), Way::Priority);
    assert_eq!([Way::Priority as u32, Way::Longest as u32], [0, 1]);
}

#[test]
fn a_refusal_changes_no_lent_byte_and_an_answer_only_its_own() {
    let sheet = example("strip.wkb");
    let mut lent = [9; 10];
    assert_eq!(lent::owners(&sheet, &mut lent[..7]), Err(Refusal { code: 40, item: 0 }));
    assert_eq!(lent, [9; 10]);
    assert_eq!(lent::owners(&sheet, &mut lent), Ok(8));
    assert_eq!(lent, [1, 1, 1, 1, 2, 2, 2, 2, 9, 9]);
}
