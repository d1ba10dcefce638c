//! From bytes to a sheet in numbers, with refusals 1 to 8, left to right and stopping at the first fault, whose position is
//! told with it.

use crate::blob::Header;
use crate::turning::turned;
use crate::{limits, Part, Point, Refusal, Ring, Sheet, Triangle};

/// The type number of a Polygon.
pub const POLYGON: u32 = 3;
/// The type number of a MultiPolygon.
pub const MULTI_POLYGON: u32 = 6;
/// The type number of a GeometryCollection.
pub const COLLECTION: u32 = 7;
/// The type number of a TIN.
pub const TIN: u32 = 16;
/// The type number of a Triangle.
pub const TRIANGLE: u32 = 17;

/// How a sheet is read.
#[derive(Clone, Copy, PartialEq, Eq, Debug, Default)]
pub struct Mode {
    /// Whether it is of the older edition: the rings of its polygons are turned once all is read.
    pub older: bool,
    /// Whether it stands in a GeoPackage's blob, behind a header.
    pub blob: bool,
}

impl Mode {
    /// As document 01 says.
    pub const PRESENT: Mode = Mode { older: false, blob: false };

    /// How many modes there are.
    pub const COUNT: u32 = 4;

    /// The mode of this number, or 57.
    pub fn numbered(number: u32) -> Result<Mode, Refusal> {
        if number >= Mode::COUNT {
            return Err(Refusal::new(57, 0));
        }
        Ok(Mode { older: number % 2 == 1, blob: number / 2 == 1 })
    }

    /// The mode's number.
    pub fn number(self) -> u32 {
        u32::from(self.older) + 2 * u32::from(self.blob)
    }
}

/// What is read: a sheet, with the header before it where it is a blob's.
#[derive(Clone, Debug)]
pub struct Read {
    /// The header.
    pub header: Option<Header>,
    /// The sheet.
    pub sheet: Sheet,
}

impl Read {
    /// 52 if there is an envelope that isn't that of the sheet's frame.
    pub fn check_envelope(&self) -> Result<(), Refusal> {
        self.header.map_or(Ok(()), |header| header.check(&self.sheet))
    }
}

/// Why a sheet can't be read, and where: the position of the field at fault, counted from 0 at the first byte. It is that of
/// the field's first byte, which is the number of bytes where none of the field is there; of a point that isn't given in
/// coordinates it is that of its x, or of its y if x is a coordinate; of an unclosed ring that of its last point; and of
/// bytes after the sheet that of their first. It is 0 for 50 and 51.
#[derive(Clone, Copy, PartialEq, Eq, Debug)]
pub struct Fault {
    /// Code and item.
    pub refusal: Refusal,
    /// The position.
    pub position: usize,
}

/// Reads a whole sheet, or gives the first refusal.
pub fn read(bytes: &[u8]) -> Result<Sheet, Refusal> {
    read_or_fault(bytes).map_err(|fault| fault.refusal)
}

/// Reads a whole sheet in this mode, or gives the first fault. The positions of a blob's are counted from its first byte.
pub fn read_in(mode: Mode, bytes: &[u8]) -> Result<Read, Fault> {
    let header = if mode.blob { Some(Header::read(bytes)?) } else { None };
    let begins = header.map_or(0, |header| header.length);
    let within = |fault: Fault| Fault { position: begins + fault.position, ..fault };
    let sheet = read_or_fault(&bytes[begins..]).map_err(within)?;
    Ok(Read { header, sheet: if mode.older { turned(sheet) } else { sheet } })
}

/// Reads a whole sheet, or gives the first fault.
pub fn read_or_fault(bytes: &[u8]) -> Result<Sheet, Fault> {
    let mut reader = Reader { bytes, place: 0, field_at: 0, member: 0, points: 0 };
    let order = reader.byte_order()?;
    reader.kind(order, &[COLLECTION])?;
    let members = reader.count(order, limits::SHEET_MEMBERS)?;
    reader.member = 1;
    let mut sheet = Sheet { triangles: reader.table()?, polygons: Vec::new() };
    for member in 2..=u64::from(members) {
        reader.member = member;
        let mut parts = Vec::new();
        reader.geometry(&[POLYGON, MULTI_POLYGON, COLLECTION], 2, &mut parts)?;
        sheet.polygons.push(parts);
    }
    if reader.place < bytes.len() {
        return Err(Fault { refusal: Refusal::new(7, 0), position: reader.place });
    }
    Ok(sheet)
}

/// The whole number that equals this double, if it is a coordinate.
pub fn coordinate(double: f64) -> Option<i64> {
    let in_range = double.abs() <= limits::COORDINATE as f64;
    (in_range && double.fract() == 0.0).then_some(double as i64)
}

#[derive(Clone, Copy, PartialEq)]
enum Order {
    Big,
    Little,
}

/// The bytes with the reading place, where the field read last begins, the member being read, and the sheet's running total
/// of polygon points.
struct Reader<'a> {
    bytes: &'a [u8],
    place: usize,
    field_at: usize,
    member: u64,
    points: usize,
}

impl Reader<'_> {
    /// A fault of the field read last.
    fn refuse<T>(&self, code: u8) -> Result<T, Fault> {
        self.refuse_at(code, self.field_at)
    }

    fn refuse_at<T>(&self, code: u8, position: usize) -> Result<T, Fault> {
        Err(Fault { refusal: Refusal::new(code, self.member), position })
    }

    /// The next field, or 1 if fewer bytes remain than it needs.
    fn field<const N: usize>(&mut self) -> Result<[u8; N], Fault> {
        self.field_at = self.place;
        let Some(field) = self.bytes[self.place..].first_chunk::<N>() else {
            return self.refuse(1);
        };
        self.place += N;
        Ok(*field)
    }

    /// A byte order: 1, then 2.
    fn byte_order(&mut self) -> Result<Order, Fault> {
        match self.field::<1>()? {
            [0] => Ok(Order::Big),
            [1] => Ok(Order::Little),
            _ => self.refuse(2),
        }
    }

    fn number(&mut self, order: Order) -> Result<u32, Fault> {
        let field = self.field::<4>()?;
        Ok(match order {
            Order::Big => u32::from_be_bytes(field),
            Order::Little => u32::from_le_bytes(field),
        })
    }

    /// A type: 1, then 3.
    fn kind(&mut self, order: Order, allowed: &[u32]) -> Result<u32, Fault> {
        let kind = self.number(order)?;
        if allowed.contains(&kind) {
            Ok(kind)
        } else {
            self.refuse(3)
        }
    }

    /// A count: 1, then 4.
    fn count(&mut self, order: Order, (from, to): (u32, u32)) -> Result<u32, Fault> {
        let count = self.number(order)?;
        if (from..=to).contains(&count) {
            Ok(count)
        } else {
            self.refuse(4)
        }
    }

    /// A point, one field of 16 bytes: 1, then 5 of x, then 5 of y.
    fn point(&mut self, order: Order) -> Result<Point, Fault> {
        let field = self.field::<16>()?;
        let double = |at: usize| {
            let bytes: [u8; 8] = field[at..at + 8].try_into().unwrap();
            match order {
                Order::Big => f64::from_be_bytes(bytes),
                Order::Little => f64::from_le_bytes(bytes),
            }
        };
        match (coordinate(double(0)), coordinate(double(8))) {
            (Some(x), Some(y)) => Ok(Point { x, y }),
            (None, _) => self.refuse(5),
            (Some(_), None) => self.refuse_at(5, self.field_at + 8),
        }
    }

    /// The points of a ring whose count was read; after the last one, 6.
    fn ring(&mut self, order: Order, count: u32) -> Result<Ring, Fault> {
        let mut ring = Vec::with_capacity(count as usize);
        for _ in 0..count {
            ring.push(self.point(order)?);
        }
        if ring.first() == ring.last() {
            Ok(ring)
        } else {
            self.refuse(6)
        }
    }

    /// Member 1, the triangle table.
    fn table(&mut self) -> Result<Vec<Triangle>, Fault> {
        let order = self.byte_order()?;
        self.kind(order, &[TIN])?;
        let count = self.count(order, limits::TRIANGLES)?;
        (0..count).map(|_| self.piece()).collect()
    }

    /// A piece of the table, of type 17 or 3.
    fn piece(&mut self) -> Result<Triangle, Fault> {
        let order = self.byte_order()?;
        self.kind(order, &[TRIANGLE, POLYGON])?;
        self.count(order, limits::PIECE_RINGS)?;
        let points = self.count(order, limits::PIECE_POINTS)?;
        let ring = self.ring(order, points)?;
        Ok([ring[0], ring[1], ring[2]])
    }

    /// A geometry at or below a further member, its polygons put after `parts`. A collection standing here has
    /// this depth. At the type field 3 comes first, then 8 for a collection, 4 for the 65th polygon.
    fn geometry(&mut self, allowed: &[u32], depth: u32, parts: &mut Vec<Part>) -> Result<(), Fault> {
        let order = self.byte_order()?;
        match self.kind(order, allowed)? {
            POLYGON if parts.len() == limits::POLYGONS_UNDER_MEMBER => self.refuse(4),
            POLYGON => {
                let part = self.part(order)?;
                parts.push(part);
                Ok(())
            }
            COLLECTION if depth > limits::DEPTH => self.refuse(8),
            COLLECTION => self.members(order, allowed, depth + 1, parts),
            _ => self.members(order, &[POLYGON], depth, parts),
        }
    }

    /// The count and the members of an inner collection, or the parts of a MultiPolygon.
    fn members(&mut self, order: Order, allowed: &[u32], depth: u32, parts: &mut Vec<Part>) -> Result<(), Fault> {
        for _ in 0..self.count(order, limits::INNER_MEMBERS)? {
            self.geometry(allowed, depth, parts)?;
        }
        Ok(())
    }

    /// The rings of a polygon.
    fn part(&mut self, order: Order) -> Result<Part, Fault> {
        let rings = self.count(order, limits::RINGS)?;
        (0..rings).map(|_| self.polygon_ring(order)).collect()
    }

    /// A polygon's ring, its count tested alone and then with the sheet's running total.
    fn polygon_ring(&mut self, order: Order) -> Result<Ring, Fault> {
        let count = self.count(order, limits::RING_POINTS)?;
        self.points += count as usize;
        if self.points > limits::SHEET_POINTS {
            return self.refuse(4);
        }
        self.ring(order, count)
    }
}
