//! Blobs: headers before the bytes of a sheet, as they should be or not.

use super::dice::Dice;
use crate::blob::Envelope;
use crate::made::Head;
use crate::reading::read;

/// The bytes of a sheet in a blob whose header is as it should be, with an envelope or without one; that of bytes that can't be
/// read is some rectangle.
pub fn sound(dice: &mut Dice, sheet: &[u8]) -> Vec<u8> {
    header(dice, sheet).before(sheet)
}

/// The bytes of a sheet in a blob, mostly as it should be, or with another envelope, or with a damaged header.
pub fn mixed(dice: &mut Dice, sheet: &[u8]) -> Vec<u8> {
    let mut head = header(dice, sheet);
    match dice.below(100) {
        0..=59 => (),
        60..=79 => head.envelope = head.envelope.map(|envelope| another(dice, envelope)),
        80..=82 => return head.bytes()[..dice.below(head.bytes().len())].to_vec(),
        83..=84 => return head.before(head.before(sheet)),
        85 => return sheet.to_vec(),
        _ => damage(dice, &mut head),
    }
    head.before(sheet)
}

fn header(dice: &mut Dice, sheet: &[u8]) -> Head {
    let frame = read(sheet).map_or([-3.0, 8.0, 0.0, 4.0], |sheet| Envelope::of(&sheet).0);
    let envelope =
        dice.chance(80).then_some(frame.map(|double| if dice.chance(20) { minus_zero(double) } else { double }));
    let any = dice.roll() as i32;
    Head::sound(dice.chance(60), dice.pick(&[0, -1, 1, 4_326, 25_832, i32::MIN, i32::MAX, any, any]), envelope)
}

/// -0 for 0, and any other double as it is.
fn minus_zero(double: f64) -> f64 {
    if double == 0.0 {
        -0.0
    } else {
        double
    }
}

/// An envelope that differs, mostly, in one of its doubles or in their order.
fn another(dice: &mut Dice, mut envelope: [f64; 4]) -> [f64; 4] {
    let (one, other) = (dice.below(4), dice.below(4));
    let old = envelope[one];
    match dice.below(4) {
        0 => envelope.swap(one, other),
        1 => envelope[one] = dice.pick(&[old + 1.0, old - 1.0, old + 0.5, f64::from_bits(old.to_bits() ^ 1)]),
        2 => envelope[one] = dice.pick(&[f64::NAN, f64::INFINITY, f64::NEG_INFINITY, -old, 0.0, -0.0]),
        _ => envelope[one] = f64::from_bits(dice.roll()),
    }
    envelope
}

/// Another byte among letters, version and flags; or an envelope that the flags don't say.
fn damage(dice: &mut Dice, head: &mut Head) {
    match dice.below(6) {
        0 => head.letters[dice.below(2)] ^= 1 << dice.below(8),
        1 => head.version ^= 1 << dice.below(8),
        2 => head.flags ^= 16 << dice.below(4),
        3 => head.flags = head.flags & 1 | (2 + dice.below(6) as u8) << 1,
        4 => head.flags = dice.roll() as u8,
        _ => head.flags ^= 1 + dice.below(2) as u8,
    }
}
