//! Inputs for the writer.

use super::dice::Dice;
use super::polygons::sheet_points;
use super::sheets::not_carried_sheet;
use crate::limits::COORDINATE;
use crate::{Member, Point, Sheet};

/// The numbers form of a generated sheet, valid or damaged.
pub fn generate(dice: &mut Dice) -> Vec<u8> {
    let mut sheet = not_carried_sheet(dice);
    match dice.below(100) {
        0..=39 => Numbers::of(&sheet).bytes(),
        40..=54 => {
            at_a_limit(dice, &mut sheet);
            Numbers::of(&sheet).bytes()
        }
        55..=84 => changed(dice, Numbers::of(&sheet)),
        85..=97 => torn(dice, Numbers::of(&sheet).bytes()),
        _ => noise(dice),
    }
}

/// Numbers with the places of the counts, the coordinates and the rings' last points.
#[derive(Default)]
struct Numbers {
    numbers: Vec<i64>,
    counts: Vec<usize>,
    coordinates: Vec<usize>,
    closing: Vec<usize>,
}

impl Numbers {
    fn of(sheet: &Sheet) -> Numbers {
        let mut numbers = Numbers::default();
        numbers.count(sheet.triangles.len());
        numbers.points(sheet.triangles.as_flattened());
        numbers.count(sheet.polygons.len());
        for member in &sheet.polygons {
            numbers.member(member);
        }
        numbers
    }

    fn member(&mut self, member: &Member) {
        self.count(member.len());
        for part in member {
            self.count(part.len());
            for ring in part {
                self.count(ring.len());
                self.points(ring);
                self.closing.push(self.numbers.len() - 1);
            }
        }
    }

    fn count(&mut self, count: usize) {
        self.counts.push(self.numbers.len());
        self.numbers.push(count as i64);
    }

    fn points(&mut self, points: &[Point]) {
        let numbers = points.iter().flat_map(|point| [point.x, point.y]);
        let from = self.numbers.len();
        self.numbers.extend(numbers);
        self.coordinates.extend(from..self.numbers.len());
    }

    fn bytes(&self) -> Vec<u8> {
        self.numbers.iter().flat_map(|number| (*number as i32).to_le_bytes()).collect()
    }
}

/// One number changed: a count, a coordinate or a closing point.
fn changed(dice: &mut Dice, mut numbers: Numbers) -> Vec<u8> {
    let places = match dice.below(4) {
        0 | 1 => &numbers.counts,
        2 if !numbers.closing.is_empty() => &numbers.closing,
        _ => &numbers.coordinates,
    };
    let place = if dice.chance(20) { places[0] } else { dice.pick(places) };
    let counts = [0, -1, 1, 2, 3, 4, 63, 64, 65, 1_024, 1_025, 4_096, 4_097, i32::MAX, i32::MIN];
    let edge = COORDINATE + dice.between(-1, 1);
    let old = numbers.numbers[place];
    numbers.numbers[place] = match dice.below(6) {
        0 => old + 1,
        1 => old - 1,
        2 => edge,
        3 => -edge,
        4 => i64::from(dice.roll() as i32),
        _ => i64::from(dice.pick(&counts)),
    };
    numbers.bytes()
}

/// Bytes cut off, added, lost or put in.
fn torn(dice: &mut Dice, mut bytes: Vec<u8>) -> Vec<u8> {
    let place = dice.below(bytes.len());
    let whole = place / 4 * 4;
    match dice.below(6) {
        0 => bytes.truncate(place),
        1 => bytes.truncate(whole),
        2 => bytes.extend(vec![0; dice.pick(&[1, 2, 3, 4, 4, 8])]),
        3 => drop(bytes.drain(whole..whole + 4)),
        4 => drop(bytes.splice(whole..whole, [0; 4])),
        _ => drop(bytes.remove(place)),
    }
    bytes
}

/// A few numbers, mostly small.
fn noise(dice: &mut Dice) -> Vec<u8> {
    let length = dice.below(60);
    (0..length).map(|_| dice.pick(&[0, 0, 0, 1, 2, 4, 128, 255])).collect()
}

/// The greatest number allowed or the next one.
fn about(dice: &mut Dice, most: usize) -> usize {
    most + dice.below(2)
}

/// Brings one of the sheet's counts to a limit or past it.
fn at_a_limit(dice: &mut Dice, sheet: &mut Sheet) {
    let corner = sheet.triangles[0][0];
    let ring = vec![corner; 4];
    let used = sheet_points(&sheet.polygons);
    match dice.below(8) {
        0 => sheet.polygons.resize(about(dice, 64), vec![vec![ring]]),
        1 => sheet.polygons = vec![vec![vec![ring]; about(dice, 64)]],
        2 => sheet.polygons = vec![vec![vec![ring; about(dice, 64)]]],
        3 => sheet.polygons = vec![vec![vec![vec![corner; about(dice, 4_096)]]]],
        4 => sheet.polygons.push(vec![vec![vec![corner; about(dice, 4_096).saturating_sub(used)]]]),
        5 => sheet.polygons.push(vec![vec![vec![corner; about(dice, 3)]]]),
        6 => sheet.triangles.truncate(about(dice, 1)),
        _ => sheet.triangles.resize(about(dice, 1_024), [corner; 3]),
    }
}
