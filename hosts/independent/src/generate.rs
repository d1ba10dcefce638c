//! Test inputs, valid and damaged. Each seed gives one input, always the same.

mod blobs;
mod damage;
mod dice;
mod draft;
mod large;
mod limit;
mod mesh;
mod numbers;
mod polygons;
mod sheets;
mod spoil;

pub use dice::Dice;
use draft::Draft;
use sheets::{not_carried_sheet, older_sheet, sound_or_older_sheet, sound_sheet, without_ground_sheet};

/// The input for this seed: bytes that are, or nearly are, a sheet in WKB.
pub fn generate(seed: u64) -> Vec<u8> {
    let mut dice = Dice::new(seed);
    match dice.below(100) {
        0..=39 => sound(&mut dice),
        40..=51 => older(&mut dice),
        52..=61 => not_carried(&mut dice),
        62..=67 => without_ground(&mut dice),
        68..=76 => broken_table(&mut dice),
        77..=93 => damaged(&mut dice),
        94..=98 => at_a_limit(&mut dice),
        _ => damage::noise(&mut dice),
    }
}

/// The writer's input for this seed: the numbers form of a generated sheet, valid or damaged.
pub fn generate_numbers(seed: u64) -> Vec<u8> {
    numbers::generate(&mut Dice::new(seed ^ 0x6e75_6d62_6572_7321))
}

/// The blob writer's input for this seed: a number before the writer's, which now and then is cut short.
pub fn generate_blob_numbers(seed: u64) -> Vec<u8> {
    let mut dice = Dice::new(seed ^ 0x626c_6f62_6e75_6d73);
    let number = dice.roll().to_le_bytes();
    match dice.below(20) {
        0 => number[..dice.below(5)].to_vec(),
        _ => [&number[..4], &generate_numbers(seed)].concat(),
    }
}

/// These bytes, a sheet's or nearly, in a blob whose header is as it should be.
pub fn in_sound_blob(seed: u64, sheet: &[u8]) -> Vec<u8> {
    blobs::sound(&mut Dice::new(seed ^ 0x736f_756e_6462_6c62), sheet)
}

/// These bytes, a sheet's or nearly, in a blob whose header, mostly, is as it should be.
pub fn in_blob(seed: u64, sheet: &[u8]) -> Vec<u8> {
    blobs::mixed(&mut Dice::new(seed ^ 0x6d69_7865_6462_6c62), sheet)
}

/// One of the largest sheets: 1,024 triangles, 64 polygons, 4,096 points.
pub fn largest(seed: u64) -> Vec<u8> {
    large::largest(&mut Dice::new(seed))
}

/// One of the sheets at the end of a length that document 01 allows, of each kind in turn: the largest; that with the
/// most numbers, 65,800 bytes of them, and written in the most bytes, 158,290; the longest one, 185,938 bytes; that with
/// the longest listing, 3,328 bytes; that with the most boundary sides, 1,845 of polygon 1; and one of the older edition with
/// the most numbers.
pub fn extreme(place: u64) -> Vec<u8> {
    let kinds =
        [large::largest, large::most_numbers, large::longest, large::longest_listing, large::most_sides, large::older];
    kinds[place as usize % kinds.len()](&mut Dice::new(place))
}

/// A clean sheet of so many triangles, a power of 2 from 2 to 1,024, and a polygon for each 16 of them.
pub fn sized(seed: u64, triangles: usize) -> Vec<u8> {
    large::sized(&mut Dice::new(seed), triangles)
}

/// A sheet whose edges are cut into as many pieces as can be.
pub fn hostile(seed: u64) -> Vec<u8> {
    large::hostile(&mut Dice::new(seed))
}

/// A sheet that no entry refuses before 30.
fn sound(dice: &mut Dice) -> Vec<u8> {
    let sheet = sound_sheet(dice);
    Draft::of(dice, sheet).bytes(dice)
}

/// A sheet of the older edition, which in the older mode no entry refuses before 30.
fn older(dice: &mut Dice) -> Vec<u8> {
    let sheet = older_sheet(dice);
    Draft::of(dice, sheet).bytes(dice)
}

/// A sheet of which, mostly, a member isn't carried.
fn not_carried(dice: &mut Dice) -> Vec<u8> {
    let sheet = not_carried_sheet(dice);
    Draft::of(dice, sheet).bytes(dice)
}

/// A sheet of which, mostly, a member has no ground.
fn without_ground(dice: &mut Dice) -> Vec<u8> {
    let sheet = without_ground_sheet(dice);
    Draft::of(dice, sheet).bytes(dice)
}

/// A sheet with a table that breaks a rule.
fn broken_table(dice: &mut Dice) -> Vec<u8> {
    let mut sheet = sound_or_older_sheet(dice);
    for _ in 0..1 + dice.below(2) {
        spoil::table(dice, &mut sheet.triangles);
    }
    Draft::of(dice, sheet).bytes(dice)
}

/// A sheet's bytes with one or two damages.
fn damaged(dice: &mut Dice) -> Vec<u8> {
    let sheet = sound_or_older_sheet(dice);
    let mut encoded = Draft::of(dice, sheet).encode(dice);
    let twice = dice.chance(20);
    damage::apply(dice, &mut encoded);
    if twice {
        damage::apply(dice, &mut encoded);
    }
    encoded.bytes
}

/// A sheet at one of the counts' limits, or one past it; now and then damaged besides.
fn at_a_limit(dice: &mut Dice) -> Vec<u8> {
    let sheet = sound_or_older_sheet(dice);
    let mut draft = Draft::of(dice, sheet);
    limit::reach(dice, &mut draft);
    let mut encoded = draft.encode(dice);
    if dice.chance(20) {
        damage::apply(dice, &mut encoded);
    }
    encoded.bytes
}

#[cfg(test)]
mod tests {
    use super::*;
    use crate::entries::{answer, whole, Entry};
    use crate::ownership::{judge, PointsInside};
    use crate::table::Table;

    #[test]
    fn sound_sheets_are_carried_and_have_ground() {
        for seed in 0..3_000 {
            let input = sound(&mut Dice::new(seed));
            let (packed, _) = answer(Entry::OwnerSets, &input, usize::MAX);
            assert_eq!(packed % 256, 0, "seed {seed}: item {}", packed / 256);
        }
    }

    #[test]
    fn sheets_of_the_older_edition_are_carried_after_turning() {
        let (mut clean, mut refused) = (0, 0);
        let single = |set: &[u8]| set.iter().map(|byte| byte.count_ones()).sum::<u32>() == 1;
        for seed in 0..3_000 {
            let input = older(&mut Dice::new(seed));
            let [present, turned] = [0, 1].map(|mode| whole(Entry::OwnerSetsBy(mode), &input));
            let sets = turned.unwrap_or_else(|refusal| panic!("seed {seed}: {refusal:?}")).bytes;
            clean += usize::from(present.is_err() && sets.chunks(8).all(single));
            refused += usize::from(present.is_err());
        }
        assert!(clean > 300 && refused > 1_500, "{clean} clean and {refused} refused in the present mode alone");
    }

    /// For each polygon of the sheet, in order, the code by which it is refused, 0 for none.
    fn judgings(input: &[u8]) -> Vec<u8> {
        let sheet = crate::reading::read(input).unwrap_or_default();
        let Ok(table) = Table::check(&sheet.triangles) else { return Vec::new() };
        let inside = PointsInside::of(&table.triangles);
        sheet.polygons.iter().map(|member| judge(&table, &inside, member).err().unwrap_or(0)).collect()
    }

    #[test]
    fn polygons_without_ground_stand_before_and_after_all_others() {
        let sheets: Vec<Vec<u8>> = (0..600).map(|seed| judgings(&without_ground(&mut Dice::new(seed)))).collect();
        let times = |wanted: &dyn Fn(&[u8]) -> bool| sheets.iter().filter(|codes| wanted(codes)).count();
        assert!(times(&|codes| codes == [21]) > 20, "alone");
        for pair in [[0, 21], [21, 0], [20, 21], [21, 20], [21, 21]] {
            assert!(times(&|codes| codes.windows(2).any(|two| two == pair)) > 20, "{pair:?}");
        }
    }

    #[test]
    fn large_sheets_are_as_large_as_they_say() {
        let sizes = |input: &[u8]| {
            let sheet = crate::reading::read(input).unwrap();
            assert_eq!(answer(Entry::OwnerSets, input, usize::MAX).0 % 256, 0);
            (sheet.triangles.len(), sheet.polygons.len(), polygons::sheet_points(&sheet.polygons))
        };
        for seed in 0..20 {
            assert_eq!(sizes(&largest(seed)), (1_024, 64, 4_096));
            assert_eq!(sizes(&hostile(seed)), (1_024, 1, 4_096));
            for power in 1..=10 {
                let (triangles, polygons, _) = sizes(&sized(seed, 1 << power));
                assert!(triangles == 1 << power && polygons <= triangles.div_ceil(16));
            }
        }
    }

    #[test]
    fn extreme_sheets_are_as_long_as_they_say() {
        let lengths = |entry, places: &[u64]| -> Vec<usize> {
            places.iter().map(|place| whole(entry, &extreme(*place)).unwrap().bytes.len()).collect()
        };
        let longest = |entry| lengths(entry, &[0, 1, 2, 3, 4, 6, 7, 8, 9, 10]).into_iter().max();
        let written = (0..10).map(|place| whole(Entry::Write, &whole(Entry::Numbers, &extreme(place)).unwrap().bytes));
        assert_eq!(lengths(Entry::NumbersBy(1), &[5, 11]), [65_800, 65_800]);
        assert_eq!(lengths(Entry::OwnerSetsBy(1), &[5, 11]), [8 * 1_024, 8 * 1_024]);
        assert_eq!(longest(Entry::Numbers), Some(65_800));
        assert_eq!(written.map(|success| success.unwrap().bytes.len()).max(), Some(158_290));
        assert_eq!((0..10).map(|place| extreme(place).len()).max(), Some(185_938));
        assert_eq!(longest(Entry::OwnerSets), Some(8 * 1_024));
        assert_eq!(longest(Entry::Owners), Some(1_024));
        assert_eq!(longest(Entry::Boundary(1)), Some(16 * 1_845));
        assert_eq!(longest(Entry::Listing), Some(3_328));
        let blobs: Vec<Vec<u8>> = (0..24).map(|place| in_sound_blob(place, &extreme(place))).collect();
        let numbers: Vec<Vec<u8>> = blobs.iter().map(|blob| whole(Entry::NumbersBy(2), blob).unwrap().bytes).collect();
        let written = numbers.iter().map(|numbers| whole(Entry::WriteBlob, numbers).unwrap().bytes.len());
        assert_eq!(blobs.iter().map(Vec::len).max(), Some(185_978));
        assert_eq!(numbers.iter().map(Vec::len).max(), Some(65_804));
        assert_eq!(written.max(), Some(158_330));
    }

    /// How often each of these codes is given, at least.
    #[test]
    fn every_code_of_blobs_occurs() {
        let mut times = std::collections::BTreeMap::new();
        for seed in 0..6_000 {
            let blob = in_blob(seed, &generate(seed));
            *times.entry(answer(Entry::OwnerSetsBy(2 + seed as u32 % 2), &blob, usize::MAX).0 % 256).or_insert(0) += 1;
            *times.entry(answer(Entry::WriteBlob, &generate_blob_numbers(seed), usize::MAX).0 % 256).or_insert(0) += 1;
        }
        let all = [0, 1, 2, 3, 4, 5, 6, 7, 8, 10, 11, 12, 20, 21, 42, 50, 51, 52];
        assert_eq!(times.keys().copied().collect::<Vec<u64>>(), all);
        assert!([50, 51, 52].iter().all(|code| times[code] > 100), "{times:?}");
    }

    #[test]
    fn every_code_occurs() {
        let (mut codes, mut without_ground) = (std::collections::BTreeSet::new(), 0);
        for seed in 0..6_000 {
            let input = generate(seed);
            without_ground += usize::from(answer(Entry::OwnerSets, &input, 0).0 % 256 == 21);
            let (mode, way) = (seed as u32 % 7, seed as u32 % 11 / 5);
            for entry in [Entry::Owners, Entry::Boundary(seed as u32 % 5), Entry::OwnersBy(mode, way)] {
                codes.insert(answer(entry, &input, 20).0 % 256);
            }
            codes.insert(answer(Entry::Write, &generate_numbers(seed), 1_000).0 % 256);
        }
        let all = [0, 1, 2, 3, 4, 5, 6, 7, 8, 10, 11, 12, 20, 21, 30, 40, 41, 42, 50, 54, 57];
        assert_eq!(codes.into_iter().collect::<Vec<u64>>(), all);
        assert!(without_ground > 240, "{without_ground} sheets refused by 21");
    }
}
