//! A sheet with its triangles, polygons, parts and rings by name, from the numbers form and back.
use crate::{Point, Refusal};

/// A triangle of the table, its corners in order.
pub type Triangle = [Point; 3];
/// The points of a ring in order, the closing point included.
pub type Ring = Vec<Point>;

/// A part of a polygon.
#[derive(Clone, Debug, Default, PartialEq, Eq, Hash)]
pub struct Part {
    /// Its rings in order.
    pub rings: Vec<Ring>,
}

/// A polygon.
#[derive(Clone, Debug, Default, PartialEq, Eq, Hash)]
pub struct Polygon {
    /// Its parts in order.
    pub parts: Vec<Part>,
}

/// What the numbers form of a sheet stands for. Whether it keeps the limits is for [`write`](crate::write) to say.
#[derive(Clone, Debug, Default, PartialEq, Eq, Hash)]
pub struct Sheet {
    /// The triangles of the table; triangle k stands at k - 1.
    pub triangles: Vec<Triangle>,
    /// The polygons; polygon k stands at k - 1.
    pub polygons: Vec<Polygon>,
}

/// Numbers that are taken from the front of a list.
struct Numbers<'a>(&'a [i32]);

impl Numbers<'_> {
    fn number(&mut self) -> Option<i32> {
        let (&first, rest) = self.0.split_first()?;
        self.0 = rest;
        Some(first)
    }

    fn point(&mut self) -> Option<Point> {
        Some((self.number()?, self.number()?))
    }

    fn triangle(&mut self) -> Option<Triangle> {
        Some([self.point()?, self.point()?, self.point()?])
    }

    /// A count, and so many of what it counts.
    fn counted<T>(&mut self, one: impl Fn(&mut Self) -> Option<T>) -> Option<Vec<T>> {
        let count = self.number()?;
        (0..usize::try_from(count).ok()?).map(|_| one(self)).collect()
    }

    fn part(&mut self) -> Option<Part> {
        Some(Part { rings: self.counted(|ring| ring.counted(Numbers::point))? })
    }

    fn polygon(&mut self) -> Option<Polygon> {
        Some(Polygon { parts: self.counted(Numbers::part)? })
    }

    fn sheet(&mut self) -> Option<Sheet> {
        Some(Sheet { triangles: self.counted(Numbers::triangle)?, polygons: self.counted(Numbers::polygon)? })
    }
}

/// Puts a count and what it counts behind other numbers.
fn put<T>(numbers: &mut Vec<i32>, counted: &[T], mut one: impl FnMut(&mut Vec<i32>, &T)) {
    numbers.push(i32::try_from(counted.len()).unwrap_or(i32::MAX));
    counted.iter().for_each(|each| one(numbers, each));
}

fn put_point(numbers: &mut Vec<i32>, &(x, y): &Point) {
    numbers.extend([x, y]);
}

impl Sheet {
    /// The sheet that numbers as those of [`numbers`](crate::numbers) stand for. Numbers that end too early, go on behind the sheet or count less than nothing
    /// are refused with 42, as [`write`](crate::write) refuses them.
    pub fn from_numbers(numbers: &[i32]) -> Result<Sheet, Refusal> {
        let mut left = Numbers(numbers);
        match left.sheet() {
            Some(sheet) if left.0.is_empty() => Ok(sheet),
            _ => Err(Refusal { code: 42, item: 0 }),
        }
    }

    /// The numbers form, for [`write`](crate::write); [`write_blob`](crate::write_blob) takes it behind a reference-system number.
    pub fn to_numbers(&self) -> Vec<i32> {
        let mut numbers = Vec::new();
        put(&mut numbers, &self.triangles, |numbers, triangle| triangle.iter().for_each(|corner| put_point(numbers, corner)));
        put(&mut numbers, &self.polygons, |numbers, polygon| {
            put(numbers, &polygon.parts, |numbers, part| put(numbers, &part.rings, |numbers, ring| put(numbers, ring, put_point)))
        });
        numbers
    }
}
