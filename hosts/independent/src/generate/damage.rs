//! Damaged bytes of every kind.

use super::dice::Dice;
use crate::made::{double_bytes, number_bytes, number_of, Encoded, Field, Mark};

/// Damages the bytes once.
pub fn apply(dice: &mut Dice, encoded: &mut Encoded) {
    match dice.below(20) {
        0 | 1 => cut_anywhere(dice, &mut encoded.bytes),
        2 | 3 => cut_at_a_field(dice, encoded),
        4 => change_a_byte(dice, &mut encoded.bytes),
        5 => flip_bits(dice, &mut encoded.bytes),
        6 | 7 => append(dice, &mut encoded.bytes),
        8 | 9 => at_field(dice, encoded, &[Field::Order], order),
        10 | 11 => at_field(dice, encoded, &[Field::Kind], kind),
        12 | 13 => at_field(dice, encoded, &[Field::Count], count),
        14..=16 => at_field(dice, encoded, &[Field::Point, Field::LastPoint], coordinate),
        17 | 18 => at_field(dice, encoded, &[Field::LastPoint], unclose),
        _ => lose_or_put_in(dice, &mut encoded.bytes),
    }
}

/// Bytes that have nothing of a sheet, or little.
pub fn noise(dice: &mut Dice) -> Vec<u8> {
    let length = dice.pick(&[0, 0, 1, 4, 5, 8, 9, 10, 18, 40, 200]);
    let mut bytes: Vec<u8> = (0..length).map(|_| dice.pick(&[0, 0, 1, 1, 2, 3, 6, 7, 16, 17, 64, 255])).collect();
    let header = [1, 7, 0, 0, 0, 2, 0, 0, 0, 0, 0, 0, 0, 16];
    let known = dice.below(header.len() + 1).min(length);
    bytes[..known].copy_from_slice(&header[..known]);
    bytes
}

fn cut_anywhere(dice: &mut Dice, bytes: &mut Vec<u8>) {
    bytes.truncate(dice.below(bytes.len()));
}

fn cut_at_a_field(dice: &mut Dice, encoded: &mut Encoded) {
    let mark = some_mark(dice, encoded, &[Field::Order, Field::Kind, Field::Count, Field::Point, Field::LastPoint]);
    let inside = dice.pick(&[0, 0, 1, 3, 8, 15]);
    encoded.bytes.truncate(mark.place + inside);
}

fn change_a_byte(dice: &mut Dice, bytes: &mut [u8]) {
    if !bytes.is_empty() {
        bytes[dice.below(bytes.len())] = dice.roll() as u8;
    }
}

fn flip_bits(dice: &mut Dice, bytes: &mut [u8]) {
    for _ in 0..1 + dice.below(4) {
        if !bytes.is_empty() {
            bytes[dice.below(bytes.len())] ^= 1 << dice.below(8);
        }
    }
}

fn append(dice: &mut Dice, bytes: &mut Vec<u8>) {
    let count = dice.pick(&[1, 2, 4, 8, 9, 16, 93]);
    let from = dice.below(bytes.len());
    if dice.chance(50) && from + count <= bytes.len() {
        bytes.extend_from_within(from..from + count);
    } else {
        bytes.extend((0..count).map(|_| dice.roll() as u8));
    }
}

fn lose_or_put_in(dice: &mut Dice, bytes: &mut Vec<u8>) {
    let place = dice.below(bytes.len());
    let count = dice.pick(&[1, 4, 8, 9, 16]).min(bytes.len() - place);
    if dice.chance(50) {
        bytes.drain(place..place + count);
    } else {
        let again = bytes[place..place + count].to_vec();
        bytes.splice(place..place, again);
    }
}

/// The mark of a field of one of these kinds; now and then one of the first.
fn some_mark(dice: &mut Dice, encoded: &Encoded, fields: &[Field]) -> Mark {
    let marks: Vec<Mark> = encoded.marks.iter().copied().filter(|mark| fields.contains(&mark.field)).collect();
    match dice.below(4) {
        0 => marks[dice.below(marks.len().min(4))],
        1 => marks[marks.len() - 1 - dice.below(marks.len().min(12))],
        _ => dice.pick(&marks),
    }
}

/// What becomes of a field: where in it new bytes stand, and which.
type Change = fn(&mut Dice, &[u8], bool) -> (usize, Vec<u8>);

/// Changes a field of one of these kinds, if the bytes still reach so far.
fn at_field(dice: &mut Dice, encoded: &mut Encoded, fields: &[Field], change: Change) {
    let Mark { field, place, little } = some_mark(dice, encoded, fields);
    if let Some(old) = encoded.bytes.get_mut(place..place + field.length()) {
        let (at, new) = change(dice, old, little);
        old[at..at + new.len()].copy_from_slice(&new);
    }
}

fn order(dice: &mut Dice, old: &[u8], _: bool) -> (usize, Vec<u8>) {
    let flipped = 1 - old[0].min(1);
    (0, vec![dice.pick(&[2, 3, 7, 64, 128, 255, flipped])])
}

fn number(old: &[u8], little: bool) -> u32 {
    number_of(old.try_into().unwrap(), little)
}

fn kind(dice: &mut Dice, old: &[u8], little: bool) -> (usize, Vec<u8>) {
    let old = number(old, little);
    let kinds = [0, 1, 2, 3, 3, 4, 5, 6, 6, 7, 7, 15, 16, 17, 18, 1_003, 1_007, 2_003, 3_017];
    let high = old | dice.pick(&[0x8000_0000, 0x4000_0000, 0x2000_0000, 0x100]);
    let new = match dice.below(8) {
        0 => high,
        1 => old.swap_bytes(),
        _ => dice.pick(&kinds),
    };
    (0, number_bytes(new, little).to_vec())
}

fn count(dice: &mut Dice, old: &[u8], little: bool) -> (usize, Vec<u8>) {
    let old = number(old, little);
    let counts = [0, 1, 2, 3, 4, 5, 63, 64, 65, 66, 1_023, 1_024, 1_025, 4_095, 4_096, 4_097, 1 << 31, u32::MAX];
    let new = match dice.below(6) {
        0 => old.wrapping_add(1),
        1 => old.wrapping_sub(1),
        2 => old.swap_bytes(),
        _ => dice.pick(&counts),
    };
    (0, number_bytes(new, little).to_vec())
}

/// A double that is no coordinate, or only just one.
fn strange_double(dice: &mut Dice) -> f64 {
    let around = dice.pick(&[1.0e7, -1.0e7]);
    match dice.below(12) {
        0 => dice.pick(&[f64::NAN, -f64::NAN, f64::from_bits(0x7ff0_0000_0000_0001)]),
        1 => dice.pick(&[f64::INFINITY, f64::NEG_INFINITY]),
        2 => dice.between(-1_000, 1_000) as f64 + dice.pick(&[0.5, 0.25, 1.0e-9]),
        3 => dice.pick(&[f64::MIN_POSITIVE, 5.0e-324, -5.0e-324, 0.9999999999999999]),
        4 => around + dice.pick(&[1.0, -1.0, 0.5, -0.5, 0.0]),
        5 => dice.pick(&[10_000_000.000000002, -10_000_000.000000002, 9_999_999.999999998]),
        6 => dice.pick(&[2.0_f64.powi(31), 2.0_f64.powi(53), 2.0_f64.powi(63), 2.0_f64.powi(64), -1.0e300]),
        7 => dice.pick(&[-0.0, 0.0]),
        8 => f64::from_bits(dice.roll()),
        _ => dice.between(-10_000_003, 10_000_003) as f64,
    }
}

fn coordinate(dice: &mut Dice, _: &[u8], little: bool) -> (usize, Vec<u8>) {
    let double = strange_double(dice);
    (dice.pick(&[0, 8]), double_bytes(double, little).to_vec())
}

/// Another last point of a ring: by a whole number, or no coordinate at all.
fn unclose(dice: &mut Dice, old: &[u8], little: bool) -> (usize, Vec<u8>) {
    let at = dice.pick(&[0, 8]);
    let bytes: [u8; 8] = old[at..at + 8].try_into().unwrap();
    let double = if little { f64::from_le_bytes(bytes) } else { f64::from_be_bytes(bytes) };
    let new = match dice.below(5) {
        0 => strange_double(dice),
        1 => -double,
        2 => double + dice.between(-500, 500) as f64,
        _ => double + dice.pick(&[1.0, -1.0]),
    };
    (at, double_bytes(new, little).to_vec())
}
