//! A sheet with its nesting, within the limits or not, and the many styles of its bytes.

use super::dice::Dice;
use crate::made::{Doubles, Encoded, Geometry};
use crate::reading::{COLLECTION, MULTI_POLYGON, POLYGON, TIN, TRIANGLE};
use crate::{Member, Part, Point, Ring, Sheet, Triangle};

/// A geometry at or below a further member.
#[derive(Clone)]
pub enum Shape {
    Polygon(Part),
    Multi(Vec<Part>),
    Collection(Vec<Shape>),
    /// A header with any type, and geometries that needn't be allowed there.
    Strange(u32, Vec<Shape>),
}

/// A sheet with its nesting.
pub struct Draft {
    pub pieces: Vec<Triangle>,
    pub members: Vec<Shape>,
}

impl Draft {
    /// The sheet with its members nested at random, to depth 4.
    pub fn of(dice: &mut Dice, sheet: Sheet) -> Draft {
        let members = sheet.polygons.into_iter().map(|member| shape(dice, member, 2)).collect();
        Draft { pieces: sheet.triangles, members }
    }

    /// The bytes, in one of many styles.
    pub fn bytes(&self, dice: &mut Dice) -> Vec<u8> {
        self.encode(dice).bytes
    }

    /// The bytes with the places of their fields.
    pub fn encode(&self, dice: &mut Dice) -> Encoded {
        Style::new(dice).sheet(self).encode()
    }
}

/// A member as a Polygon, a MultiPolygon or a collection of such; a collection here would have this depth.
pub fn shape(dice: &mut Dice, mut member: Member, depth: u32) -> Shape {
    if member.len() == 1 && !dice.chance(35) {
        return Shape::Polygon(member.remove(0));
    }
    if depth > 4 || dice.chance(55) {
        return Shape::Multi(member);
    }
    let mut shapes = Vec::new();
    while !member.is_empty() {
        let rest = member.split_off(1 + dice.below(member.len()));
        shapes.push(shape(dice, member, depth + 1));
        member = rest;
    }
    Shape::Collection(shapes)
}

/// The style of the bytes: how many in a hundred headers are little-endian, pieces Triangles, and zeros negative.
struct Style<'a> {
    dice: &'a mut Dice,
    little: usize,
    triangles: usize,
    minus_zero: usize,
}

impl Style<'_> {
    fn new(dice: &mut Dice) -> Style<'_> {
        let little = dice.pick(&[100, 100, 50, 0, 90]);
        let triangles = dice.pick(&[100, 100, 50, 0]);
        let minus_zero = dice.pick(&[0, 0, 30, 100]);
        Style { dice, little, triangles, minus_zero }
    }

    fn sheet(&mut self, draft: &Draft) -> Geometry {
        let little = self.order();
        let mut members = vec![self.table(&draft.pieces)];
        members.extend(draft.members.iter().map(|member| self.shape(member)));
        Geometry::holding(COLLECTION, members).ordered(little)
    }

    fn order(&mut self) -> bool {
        self.dice.chance(self.little)
    }

    fn table(&mut self, pieces: &[Triangle]) -> Geometry {
        let little = self.order();
        let pieces = pieces.iter().map(|piece| self.piece(piece)).collect();
        Geometry::holding(TIN, pieces).ordered(little)
    }

    fn piece(&mut self, &[a, b, c]: &Triangle) -> Geometry {
        let kind = if self.dice.chance(self.triangles) { TRIANGLE } else { POLYGON };
        self.ringed(kind, &[vec![a, b, c, a]])
    }

    fn ringed(&mut self, kind: u32, rings: &[Ring]) -> Geometry {
        let little = self.order();
        let rings = rings.iter().map(|ring| self.ring(ring)).collect();
        Geometry::ringed(kind, rings).ordered(little)
    }

    fn ring(&mut self, ring: &[Point]) -> Vec<Doubles> {
        ring.iter().map(|point| (self.coordinate(point.x), self.coordinate(point.y))).collect()
    }

    fn coordinate(&mut self, number: i64) -> f64 {
        let minus = number == 0 && self.dice.chance(self.minus_zero);
        if minus {
            -0.0
        } else {
            number as f64
        }
    }

    fn shape(&mut self, shape: &Shape) -> Geometry {
        match shape {
            Shape::Polygon(part) => self.ringed(POLYGON, part),
            Shape::Multi(parts) => self.holding(MULTI_POLYGON, parts, |style, part| style.ringed(POLYGON, part)),
            Shape::Collection(shapes) => self.holding(COLLECTION, shapes, Style::shape),
            Shape::Strange(kind, shapes) => self.holding(*kind, shapes, Style::shape),
        }
    }

    fn holding<T>(&mut self, kind: u32, inner: &[T], made: impl Fn(&mut Self, &T) -> Geometry) -> Geometry {
        let little = self.order();
        let inner = inner.iter().map(|one| made(self, one)).collect();
        Geometry::holding(kind, inner).ordered(little)
    }
}
