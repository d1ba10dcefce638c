//! Geometries made one by one, each in a byte order of its own, within document 01's limits or not, and their bytes; and headers of
//! blobs.

use crate::reading::{COLLECTION, MULTI_POLYGON, POLYGON, TIN, TRIANGLE};

/// A point as its two doubles, coordinates or not.
pub type Doubles = (f64, f64);

/// A geometry as it will stand in bytes.
#[derive(Clone)]
pub struct Geometry {
    little: bool,
    kind: u32,
    holds: Holds,
}

/// What a geometry counts.
#[derive(Clone)]
enum Holds {
    Rings(Vec<Vec<Doubles>>),
    Geometries(Vec<Geometry>),
}

impl Geometry {
    /// A little-endian geometry of this type that counts rings; no closing point is added.
    pub fn ringed(kind: u32, rings: Vec<Vec<Doubles>>) -> Geometry {
        Geometry { little: true, kind, holds: Holds::Rings(rings) }
    }

    /// A little-endian geometry of this type that counts geometries.
    pub fn holding(kind: u32, geometries: Vec<Geometry>) -> Geometry {
        Geometry { little: true, kind, holds: Holds::Geometries(geometries) }
    }

    /// The same with this byte order of its own.
    pub fn ordered(self, little: bool) -> Geometry {
        Geometry { little, ..self }
    }

    /// The same, big-endian.
    pub fn big(self) -> Geometry {
        self.ordered(false)
    }

    /// The bytes.
    pub fn bytes(&self) -> Vec<u8> {
        self.encode().bytes
    }

    /// The bytes with the places of their fields.
    pub fn encode(&self) -> Encoded {
        let mut encoded = Encoded::default();
        encoded.geometry(self);
        encoded
    }
}

impl From<Geometry> for Vec<u8> {
    fn from(geometry: Geometry) -> Vec<u8> {
        geometry.bytes()
    }
}

/// A Polygon.
pub fn polygon(rings: Vec<Vec<Doubles>>) -> Geometry {
    Geometry::ringed(POLYGON, rings)
}

/// A MultiPolygon.
pub fn multi_polygon(parts: Vec<Geometry>) -> Geometry {
    Geometry::holding(MULTI_POLYGON, parts)
}

/// A GeometryCollection.
pub fn collection(members: Vec<Geometry>) -> Geometry {
    Geometry::holding(COLLECTION, members)
}

/// A table: a TIN of these pieces.
pub fn tin(pieces: Vec<Geometry>) -> Geometry {
    Geometry::holding(TIN, pieces)
}

/// A Triangle: a piece of the table, closed.
pub fn triangle([a, b, c]: [Doubles; 3]) -> Geometry {
    Geometry::ringed(TRIANGLE, vec![vec![a, b, c, a]])
}

/// The kinds of fields.
#[derive(Clone, Copy, PartialEq)]
pub enum Field {
    /// A byte order.
    Order,
    /// A type.
    Kind,
    /// A count.
    Count,
    /// A point that isn't its ring's last.
    Point,
    /// A ring's last point.
    LastPoint,
}

impl Field {
    /// How many bytes the field has.
    pub fn length(self) -> usize {
        match self {
            Field::Order => 1,
            Field::Kind | Field::Count => 4,
            Field::Point | Field::LastPoint => 16,
        }
    }
}

/// Where a field stands, and in which byte order.
#[derive(Clone, Copy)]
pub struct Mark {
    /// The kind of field.
    pub field: Field,
    /// The place of its first byte.
    pub place: usize,
    /// Whether its geometry is little-endian.
    pub little: bool,
}

/// Bytes with the places of their fields.
#[derive(Default)]
pub struct Encoded {
    /// The bytes.
    pub bytes: Vec<u8>,
    /// Their fields, from left to right.
    pub marks: Vec<Mark>,
}

impl Encoded {
    fn mark(&mut self, field: Field, little: bool) {
        let place = self.bytes.len();
        self.marks.push(Mark { field, place, little });
    }

    fn geometry(&mut self, geometry: &Geometry) {
        match &geometry.holds {
            Holds::Rings(rings) => {
                self.header(geometry, rings.len());
                rings.iter().for_each(|ring| self.ring(geometry.little, ring));
            }
            Holds::Geometries(inner) => {
                self.header(geometry, inner.len());
                inner.iter().for_each(|geometry| self.geometry(geometry));
            }
        }
    }

    /// A byte order, a type and a count.
    fn header(&mut self, &Geometry { little, kind, .. }: &Geometry, count: usize) {
        self.mark(Field::Order, little);
        self.bytes.push(u8::from(little));
        self.mark(Field::Kind, little);
        self.bytes.extend(number_bytes(kind, little));
        self.count(little, count);
    }

    fn count(&mut self, little: bool, count: usize) {
        self.mark(Field::Count, little);
        self.bytes.extend(number_bytes(count as u32, little));
    }

    fn ring(&mut self, little: bool, ring: &[Doubles]) {
        self.count(little, ring.len());
        for (place, &(x, y)) in ring.iter().enumerate() {
            let last = place + 1 == ring.len();
            self.mark(if last { Field::LastPoint } else { Field::Point }, little);
            self.bytes.extend(double_bytes(x, little));
            self.bytes.extend(double_bytes(y, little));
        }
    }
}

/// A u32 in one of the byte orders.
pub fn number_bytes(number: u32, little: bool) -> [u8; 4] {
    if little {
        number.to_le_bytes()
    } else {
        number.to_be_bytes()
    }
}

/// The u32 of these bytes in one of the byte orders.
pub fn number_of(bytes: [u8; 4], little: bool) -> u32 {
    if little {
        u32::from_le_bytes(bytes)
    } else {
        u32::from_be_bytes(bytes)
    }
}

/// A double in one of the byte orders.
pub fn double_bytes(double: f64, little: bool) -> [u8; 8] {
    if little {
        double.to_le_bytes()
    } else {
        double.to_be_bytes()
    }
}

/// A blob's header as it will stand in bytes, within the standard or not.
#[derive(Clone, Debug)]
pub struct Head {
    /// The letters.
    pub letters: [u8; 2],
    /// The version.
    pub version: u8,
    /// The flags, whose bit 0 is the byte order of what follows them.
    pub flags: u8,
    /// The reference-system number.
    pub number: i32,
    /// The envelope, there or not, whatever the flags say.
    pub envelope: Option<[f64; 4]>,
}

impl Head {
    /// A header in this byte order, with this envelope or none.
    pub fn sound(little: bool, number: i32, envelope: Option<[f64; 4]>) -> Head {
        let flags = u8::from(little) | u8::from(envelope.is_some()) << 1;
        Head { letters: *b"GP", version: 0, flags, number, envelope }
    }

    /// The bytes.
    pub fn bytes(&self) -> Vec<u8> {
        let little = self.flags & 1 == 1;
        let front = [self.letters[0], self.letters[1], self.version, self.flags];
        let doubles = self.envelope.iter().flatten().flat_map(|double| double_bytes(*double, little));
        front.into_iter().chain(number_bytes(self.number as u32, little)).chain(doubles).collect()
    }

    /// The blob with these bytes behind the header.
    pub fn before(&self, sheet: impl Into<Vec<u8>>) -> Vec<u8> {
        [self.bytes(), sheet.into()].concat()
    }
}
