//! The geometry blob of a GeoPackage table (OGC 12-128): a header before the sheet. Its fields are the letters `GP`, a version, a
//! flags byte, a reference-system number, and an envelope, which may be left out.

use crate::reading::Fault;
use crate::table::frame;
use crate::{Point, Refusal, Sheet};

/// The bytes of a header with an envelope, which are the most that it has.
pub const LONGEST_HEADER: usize = 40;

/// The least and the greatest x, then the least and the greatest y, as doubles.
#[derive(Clone, Copy, Debug)]
pub struct Envelope(pub [f64; 4]);

/// What a header says.
#[derive(Clone, Copy, Debug)]
pub struct Header {
    /// The reference-system number.
    pub number: i32,
    /// The envelope, if there is one.
    pub envelope: Option<Envelope>,
    /// The bytes of the header, so that the sheet begins behind them.
    pub length: usize,
}

impl Envelope {
    /// That of the sheet's frame.
    pub fn of(sheet: &Sheet) -> Envelope {
        let [low, _, high, _] = frame(&sheet.triangles.concat());
        let Point { x: least_x, y: least_y } = low;
        let Point { x: greatest_x, y: greatest_y } = high;
        Envelope([least_x, greatest_x, least_y, greatest_y].map(|number| number as f64))
    }

    /// Whether both are the same as numbers: -0 is 0, and a NaN is no number.
    pub fn is_same(self, other: Envelope) -> bool {
        self.0.iter().zip(other.0).all(|(one, other)| *one == other)
    }
}

impl Header {
    /// The header that a blob begins with, field by field: at each 1 where it is cut short, told at its first byte; 50 for wrong
    /// letters, another version than 0, or one of the flags' bits 4 to 7; and 51, at the flags too, for an envelope of kind 2 to 7.
    pub fn read(bytes: &[u8]) -> Result<Header, Fault> {
        if field(bytes, 0, 2)? != b"GP" || field(bytes, 2, 1)? != [0] {
            return Err(refused(50, 0));
        }
        let flags = field(bytes, 3, 1)?[0];
        let (little, kind) = (flags & 1 == 1, flags >> 1 & 7);
        match (flags >> 4, kind) {
            (0, 0 | 1) => (),
            (0, _) => return Err(refused(51, 0)),
            _ => return Err(refused(50, 0)),
        }
        let number = field(bytes, 4, 4)?.try_into().unwrap();
        let number = if little { i32::from_le_bytes(number) } else { i32::from_be_bytes(number) };
        if kind == 0 {
            return Ok(Header { number, envelope: None, length: 8 });
        }
        let envelope = field(bytes, 8, 32)?;
        let double = |k: usize| {
            let bytes = envelope[8 * k..8 * k + 8].try_into().unwrap();
            if little {
                f64::from_le_bytes(bytes)
            } else {
                f64::from_be_bytes(bytes)
            }
        };
        Ok(Header { number, envelope: Some(Envelope([0, 1, 2, 3].map(double))), length: LONGEST_HEADER })
    }

    /// 52 if there is an envelope and it isn't that of the sheet's frame.
    pub fn check(&self, sheet: &Sheet) -> Result<(), Refusal> {
        match self.envelope {
            Some(envelope) if !envelope.is_same(Envelope::of(sheet)) => Err(Refusal::new(52, 0)),
            _ => Ok(()),
        }
    }
}

/// A refusal of the header.
fn refused(code: u8, position: usize) -> Fault {
    Fault { refusal: Refusal::new(code, 0), position }
}

/// The field of so many bytes at this place, or 1.
fn field(bytes: &[u8], at: usize, length: usize) -> Result<&[u8], Fault> {
    bytes.get(at..at + length).ok_or(refused(1, at))
}

/// The header that is written: little-endian, with the envelope of the sheet's frame.
pub fn header(number: i32, sheet: &Sheet) -> Vec<u8> {
    let Envelope(envelope) = Envelope::of(sheet);
    let doubles = envelope.iter().flat_map(|double| double.to_le_bytes());
    b"GP\0\x03".iter().copied().chain(number.to_le_bytes()).chain(doubles).collect()
}
