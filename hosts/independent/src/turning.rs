//! The older edition: rings that older drawing programs left in either direction, turned round.

use crate::{Part, Ring, Sheet};

/// The sheet with the rings of its polygons turned, each polygon of each member for itself. The table stays.
pub fn turned(sheet: Sheet) -> Sheet {
    let polygons = sheet.polygons.into_iter().map(|member| member.into_iter().map(turned_part).collect()).collect();
    Sheet { polygons, ..sheet }
}

/// The first ring is turned round if its double area is negative, every later one if its own is positive.
fn turned_part(part: Part) -> Part {
    let numbered = part.into_iter().enumerate();
    let stays = |place: usize, area: i64| if place == 0 { area >= 0 } else { area <= 0 };
    numbered.map(|(place, ring)| if stays(place, double_area(&ring)) { ring } else { reversed(ring) }).collect()
}

/// A ring's own double area: the sum over its edges of px·qy - qx·py.
pub fn double_area(ring: &Ring) -> i64 {
    ring.windows(2).map(|edge| edge[0].x * edge[1].y - edge[1].x * edge[0].y).sum()
}

/// The ring's points in reverse order.
fn reversed(mut ring: Ring) -> Ring {
    ring.reverse();
    ring
}
