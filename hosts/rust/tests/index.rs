//! The index: what it is lent to answers as without it, and every other index is refused 53, right before 20.
use sheets::{
    boundary_by, boundary_indexed, index, owner_sets_by, owner_sets_indexed, owners_by, owners_indexed, rings_by, rings_indexed, Mode, Refusal, Way,
};

const OTHER: Refusal = Refusal { code: 53, item: 0 };

fn example(name: &str) -> Vec<u8> {
    std::fs::read(format!("{}/../../examples/{name}.wkb", env!("CARGO_MANIFEST_DIR"))).unwrap()
}

/// What the four functions refuse this sheet with, lent this index; None where they answer.
fn refusals(sheet: &[u8], index: &[u8]) -> [Option<Refusal>; 4] {
    [
        owner_sets_indexed(sheet, index, Mode::Present).err(),
        owners_indexed(sheet, index, Mode::Present, Way::Longest).err(),
        boundary_indexed(sheet, index, Mode::Present, Way::Priority, 1).err(),
        rings_indexed(sheet, index, Mode::Present, Way::Priority, 1).err(),
    ]
}

#[test]
fn every_byte_of_an_index_counts() {
    let sheet = example("strip");
    let own = index(&sheet).unwrap();
    assert_eq!((own.len(), refusals(&sheet, &own)), (48, [None; 4]));
    for place in 0..own.len() {
        for byte in (0..=255).filter(|byte| *byte != own[place]) {
            let mut other = own.clone();
            other[place] = byte;
            assert_eq!(refusals(&sheet, &other), [Some(OTHER); 4], "byte {place} is {byte}");
        }
    }
}

#[test]
fn every_length_counts() {
    let sheet = example("strip");
    let own = index(&sheet).unwrap();
    for length in 0..own.len() {
        assert_eq!(refusals(&sheet, &own[..length]), [Some(OTHER); 4], "{length} bytes");
    }
    for more in 1..7 {
        assert_eq!(refusals(&sheet, &[&own[..], &vec![0; more]].concat()), [Some(OTHER); 4], "{more} bytes more");
    }
}

#[test]
fn an_index_of_another_table_is_refused() {
    let [strip, nested, story] = ["strip", "nested", "story"].map(example);
    let indexes = [&strip, &nested, &story].map(|sheet| index(sheet).unwrap());
    for sheet in [&strip, &nested, &story] {
        let own = index(sheet).unwrap();
        for other in &indexes {
            let wanted = if *other == own { None } else { Some(OTHER) };
            assert_eq!(refusals(sheet, other), [wanted; 4]);
        }
    }
}

#[test]
fn a_refused_table_comes_before_a_wrong_index_and_that_before_a_polygon() {
    let sheet = example("not-carried");
    let own = index(&sheet).unwrap();
    let not_carried = owner_sets_by(&sheet, Mode::Present).unwrap_err();
    assert_eq!(not_carried.code, 20);
    assert_eq!(refusals(&sheet, &own), [Some(not_carried); 4]);
    assert_eq!(refusals(&sheet, &own[1..]), [Some(OTHER); 4]);
    let cut = &sheet[..sheet.len() - 1];
    let unread = index(cut).unwrap_err();
    assert_eq!(unread.code, 1);
    assert_eq!(refusals(cut, &own), [Some(unread); 4]);
}

#[test]
fn with_the_own_index_the_answers_are_those_without_one() {
    for name in ["strip", "nested", "story"] {
        let sheet = example(name);
        let own = index(&sheet).unwrap();
        for mode in [Mode::Present, Mode::Older] {
            assert_eq!(owner_sets_indexed(&sheet, &own, mode), owner_sets_by(&sheet, mode));
            for way in [Way::Priority, Way::Longest] {
                assert_eq!(owners_indexed(&sheet, &own, mode, way), owners_by(&sheet, mode, way));
                for polygon in 0..5 {
                    assert_eq!(boundary_indexed(&sheet, &own, mode, way, polygon), boundary_by(&sheet, mode, way, polygon));
                    assert_eq!(rings_indexed(&sheet, &own, mode, way, polygon), rings_by(&sheet, mode, way, polygon));
                }
            }
        }
    }
}
