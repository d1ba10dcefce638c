//! A small sheet with every kind of place, both byte orders mixed, and what becomes of it where one field is spoiled.

use super::ground::*;
use crate::made::{
    collection, double_bytes, multi_polygon, number_bytes, number_of, polygon, tin, Encoded, Field, Geometry, Mark,
};
use std::collections::BTreeSet;

/// A small sheet with every kind of place.
pub fn every_place() -> Geometry {
    let four = || one(closed(&[(0, 0), (2, 0), (2, 4)]));
    let two_rings = polygon(vec![closed(&[(0, 0), (2, 0), (2, 4)]), closed(&[(1, 1), (-1, 1), (7, -7)])]).big();
    let deep = collection(vec![collection(vec![four()])]).big();
    collection(vec![
        tin(vec![piece([(0, 0), (2, 0), (2, 4)]).big(), piece_of_type_3([(0, 0), (2, 4), (0, 4)])]),
        two_rings,
        multi_polygon(vec![four(), four().big()]),
        collection(vec![four(), multi_polygon(vec![four().big()]).big(), deep]),
    ])
}

/// The sheet spoiled at each field, by a name that says how: cut before the field and in it, and with byte orders, types and
/// counts that might be taken for right ones, with another coordinate, and with doubles that are none.
pub fn spoiled() -> Vec<(String, Vec<u8>)> {
    let sheet = every_place().encode();
    sheet.marks.iter().flat_map(|mark| spoiled_at(&sheet, mark)).collect()
}

fn spoiled_at(sheet: &Encoded, mark: &Mark) -> Vec<(String, Vec<u8>)> {
    let Mark { field, place, little } = *mark;
    let old = &sheet.bytes[place..place + field.length()];
    let number =
        |number: u32| (format!("{number} at byte {place}"), with(&sheet.bytes, place, &number_bytes(number, little)));
    let ends = BTreeSet::from([place, place + field.length() - 1]);
    let cut = |end: usize| (format!("cut at byte {end}, field at {place}"), sheet.bytes[..end].to_vec());
    let mut all: Vec<(String, Vec<u8>)> = ends.into_iter().map(cut).collect();
    match field {
        Field::Order => {
            let byte = |byte: u8| (format!("byte order {byte} at byte {place}"), with(&sheet.bytes, place, &[byte]));
            all.extend([2, 255, 1 - old[0]].map(byte));
        }
        Field::Kind => all.extend([0, 1, 3, 4, 6, 7, 8, 16, 17, 1_003, 0x8000_0003, 3 << 24].map(number)),
        Field::Count => {
            let right = number_of(old.try_into().unwrap(), little);
            let others = BTreeSet::from([0, right - 1, right + 1, 65, 1_025, 4_097, 1 << 24, u32::MAX]);
            all.extend(others.into_iter().map(number));
        }
        Field::Point | Field::LastPoint => {
            let double = |(at, z): (usize, f64)| {
                let name = format!("{z} at byte {}", place + at);
                (name, with(&sheet.bytes, place + at, &double_bytes(z, little)))
            };
            all.extend([(0, 3.0), (8, 3.0), (0, 0.5), (8, f64::NAN)].map(double));
        }
    }
    all
}

/// The bytes with others from this place on.
pub(super) fn with(bytes: &[u8], place: usize, new: &[u8]) -> Vec<u8> {
    let mut bytes = bytes.to_vec();
    bytes[place..place + new.len()].copy_from_slice(new);
    bytes
}

#[cfg(test)]
mod tests {
    use super::*;
    use crate::reading::read_or_fault;

    /// The code and the position of the fault.
    fn fault(bytes: &[u8]) -> Option<(u8, usize)> {
        read_or_fault(bytes).err().map(|fault| (fault.refusal.code, fault.position))
    }

    #[test]
    fn a_fault_is_told_where_its_field_was_put() {
        let sheet = every_place().encode();
        for Mark { field, place, little } in sheet.marks {
            let after = |new: &[u8], at: usize| fault(&with(&sheet.bytes, place + at, new));
            let number = |number: u32| after(&number_bytes(number, little), 0);
            let double = |at: usize, double: f64| after(&double_bytes(double, little), at);
            for end in place..place + field.length() {
                assert_eq!(fault(&sheet.bytes[..end]), Some((1, place)));
            }
            match field {
                Field::Order => assert_eq!([2, 255].map(|byte| after(&[byte], 0)), [Some((2, place)); 2]),
                Field::Kind => assert_eq!([0, 4, 1_003].map(number), [Some((3, place)); 3]),
                Field::Count => assert_eq!([0, 4_097, u32::MAX].map(number), [Some((4, place)); 3]),
                Field::Point | Field::LastPoint => {
                    assert_eq!((double(0, 0.5), double(8, f64::NAN)), (Some((5, place)), Some((5, place + 8))));
                }
            }
            if field == Field::LastPoint {
                assert_eq!([double(0, 3.0), double(8, 3.0)], [Some((6, place)); 2]);
            }
        }
    }
}
