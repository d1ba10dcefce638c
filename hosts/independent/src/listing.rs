//! The printed listing.

use crate::ownership::{judge_sheet, member_double_area, Judged};
use crate::plane::double_area;
use crate::reading::Mode;
use crate::repair::repaired;
use crate::Refusal;

/// The most bytes that `sheetcheck` reads; of a longer input, the first so many are read as the whole.
pub const LONGEST_INPUT: usize = 65_536;

/// What is printed for this sheet. The input is taken whole: cutting it is the caller's.
pub fn listing(bytes: &[u8]) -> String {
    of(judge_sheet(Mode::PRESENT, bytes).as_ref().map_err(|refusal| *refusal), 0)
}

/// What is printed for a judged sheet and the way of this number, or for a refusal.
pub fn of(judged: Result<&Judged, Refusal>, way: u32) -> String {
    match judged {
        Ok(judged) => lines(judged, way),
        Err(refusal) => refused(refusal),
    }
}

fn refused(refusal: Refusal) -> String {
    format!("refused {} {}\n", refusal.code, refusal.item)
}

fn lines(judged: &Judged, way: u32) -> String {
    let polygons = &judged.sheet.polygons;
    let mut text = format!("sheet {} {}\n", judged.owners.len(), polygons.len());
    for (place, member) in polygons.iter().enumerate() {
        text += &format!("polygon {} {}\n", place + 1, member_double_area(member));
    }
    let (gaps, gap_area) = measure(judged, |place| judged.owners[place].count_ones() == 0);
    let (overlaps, overlap_area) = measure(judged, |place| judged.owners[place].count_ones() >= 2);
    text += &format!("gap {gaps} {gap_area}\noverlap {overlaps} {overlap_area}\n");
    let clean = gaps == 0 && overlaps == 0;
    text += if clean { "verdict clean\n" } else { "verdict repair\n" };
    text + &after(judged, way)
}

/// The `after` lines, or the one line that replaces them if repair is refused.
fn after(judged: &Judged, way: u32) -> String {
    let repaired = match repaired(judged, way) {
        Ok(repaired) => repaired,
        Err(refusal) => return refused(refusal),
    };
    let line = |number: usize| {
        let (_, area) = measure(judged, |place| usize::from(repaired[place]) == number);
        format!("after {number} {area}\n")
    };
    (1..=judged.sheet.polygons.len()).map(line).collect()
}

/// The number of the triangles so chosen, and their double area.
fn measure(judged: &Judged, chosen: impl Fn(usize) -> bool) -> (usize, i64) {
    let triangles = &judged.table.triangles;
    let places = (0..triangles.len()).filter(|place| chosen(*place));
    places.fold((0, 0), |(number, area), place| (number + 1, area + double_area(&triangles[place])))
}
