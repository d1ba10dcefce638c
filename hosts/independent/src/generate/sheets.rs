//! Sheets in numbers: sound ones, ones of the older edition, ones of which, mostly, a member isn't carried, and ones of which a
//! member has no ground.

use super::dice::Dice;
use super::{mesh, polygons, spoil};
use crate::limits::SHEET_POINTS;
use crate::Sheet;

/// A sheet whose table keeps the rules and whose members are all carried and have ground.
pub fn sound_sheet(dice: &mut Dice) -> Sheet {
    let triangles = mesh::rectangle(dice);
    let polygons = polygons::members(dice, &triangles);
    Sheet { triangles, polygons }
}

/// A sheet of the older edition: turned, its members are all carried and have ground. Its rings run as they should, mostly, now
/// and then, or never.
pub fn older_sheet(dice: &mut Dice) -> Sheet {
    let mut sheet = sound_sheet(dice);
    for member in &mut sheet.polygons {
        let rings = std::mem::take(member).into_iter().flatten().collect();
        *member = polygons::in_parts(dice, rings);
    }
    sheet.polygons.retain(|member| member.len() <= 64 && member.iter().all(|part| part.len() <= 64));
    let percent = dice.pick(&[10, 50, 90, 100]);
    for ring in sheet.polygons.iter_mut().flatten().flatten() {
        if dice.chance(percent) {
            ring.reverse();
        }
    }
    sheet
}

/// A sound sheet, or one of the older edition.
pub fn sound_or_older_sheet(dice: &mut Dice) -> Sheet {
    if dice.chance(25) {
        older_sheet(dice)
    } else {
        sound_sheet(dice)
    }
}

/// A sheet with members changed so that, mostly, one isn't carried.
pub fn not_carried_sheet(dice: &mut Dice) -> Sheet {
    let mut sheet = sound_sheet(dice);
    for _ in 0..1 + dice.below(2) {
        spoil::member(dice, &mut sheet);
    }
    sheet
}

/// A sheet with members without ground before, between or after the others, of which now and then one isn't carried; or with
/// no others.
pub fn without_ground_sheet(dice: &mut Dice) -> Sheet {
    let mut sheet = if dice.chance(40) { not_carried_sheet(dice) } else { sound_sheet(dice) };
    if dice.chance(15) {
        sheet.polygons.clear();
    }
    for _ in 0..1 + dice.below(3) {
        let member = polygons::without_ground(dice, &sheet.triangles);
        let points = polygons::sheet_points(&sheet.polygons) + polygons::point_count(&member);
        if points <= SHEET_POINTS && sheet.polygons.len() < 64 {
            let place = dice.below(sheet.polygons.len() + 1);
            sheet.polygons.insert(place, member);
        }
    }
    sheet
}
