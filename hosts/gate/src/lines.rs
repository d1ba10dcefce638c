//! The lines that the gate prints: a verdict for each sheet, and a summary, as text or as JSON.
use std::ffi::{OsStr, OsString};
use std::os::unix::ffi::OsStrExt;

use serde_json::{json, Value};
use sheets::{Mode, Refusal, Verdict};

use crate::geopackage::Named;
use crate::names::shown;
use crate::repair::{Not, Repaired};

/// A sheet's name: its file, and in a GeoPackage its row.
pub struct Name<'a> {
    pub file: &'a OsStr,
    pub row: Option<Named>,
}

impl Name<'_> {
    /// The parts of the name as they are printed, each with what it is.
    fn parts(&self) -> Vec<(&'static str, String)> {
        let mut parts = vec![("file", shown(self.file.as_bytes()))];
        if let Some(row) = &self.row {
            parts.push(("table", shown(&row.table)));
            parts.extend(row.id.as_ref().map(|id| ("id", shown(id))));
        }
        parts
    }
}

/// What became of a sheet. A refusal has the position of the field at fault where reading gives it.
pub enum Outcome {
    Clean,
    Repair,
    Refused(Refusal, Option<u64>),
    Unread(String),
    /// It is written after repair, without these polygons, which have no ground left; and whether others are renumbered for it.
    Repaired(Vec<u32>, bool),
    /// A polygon is over a limit after repair; which, in words.
    Over(String),
    /// It could not be written to the file of this name; why.
    Unwritten(OsString, String),
}

impl Outcome {
    /// What becomes of a sheet that is read in this mode.
    pub fn of(sheet: &[u8], mode: Mode) -> Outcome {
        match sheets::verdict_by(sheet, mode) {
            Verdict::Clean => Outcome::Clean,
            Verdict::Repair => Outcome::Repair,
            Verdict::Refused(refusal) => Outcome::refused(sheet, mode, refusal),
        }
    }

    fn refused(sheet: &[u8], mode: Mode, refusal: Refusal) -> Outcome {
        Outcome::Refused(refusal, refusal.of_reading().then(|| sheets::position_by(sheet, mode).byte))
    }

    /// What became of a sheet that was to be repaired.
    pub fn after(sheet: &[u8], mode: Mode, repaired: &Result<Repaired, Not>) -> Outcome {
        match repaired {
            Ok(repaired) if repaired.was_clean => Outcome::Clean,
            Ok(repaired) => Outcome::Repaired(repaired.without.clone(), repaired.renumbered),
            Err(Not::Refused(refusal)) => Outcome::refused(sheet, mode, *refusal),
            Err(Not::Over(why)) => Outcome::Over(why.clone()),
        }
    }

    /// The exit status that it asks for.
    pub fn status(&self) -> usize {
        match self {
            Outcome::Clean => 0,
            Outcome::Repair => 1,
            Outcome::Refused(..) => 2,
            Outcome::Unread(_) | Outcome::Unwritten(..) => 3,
            Outcome::Repaired(without, _) => usize::from(!without.is_empty()),
            Outcome::Over(_) => 2,
        }
    }

    /// The verdict line of the sheet with this name.
    pub fn line(&self, name: &Name, json: bool) -> String {
        let parts = name.parts();
        if json {
            return format!("{}\n", self.object(parts));
        }
        let name = parts.into_iter().map(|(_, part)| part).collect::<Vec<_>>().join("/");
        match self {
            Outcome::Clean => format!("{name}: clean\n"),
            Outcome::Repair => format!("{name}: repair\n"),
            Outcome::Refused(refusal, position) => {
                let place = position.map_or(String::new(), |byte| format!(" at byte {}", grouped(byte)));
                format!("{name}: refused {} {}{place}: {}\n", refusal.code, refusal.item, refusal.sentence())
            }
            Outcome::Unread(why) => format!("{name}: could not be read: {why}\n"),
            Outcome::Repaired(without, renumbered) => format!("{name}: {}\n", written(without, *renumbered)),
            Outcome::Over(why) => format!("{name}: over the limits: {why}\n"),
            Outcome::Unwritten(out, why) => format!("{name}: could not be written to {}: {why}\n", shown(out.as_bytes())),
        }
    }

    /// The JSON object of the sheet whose name has these parts.
    fn object(&self, name: Vec<(&str, String)>) -> Value {
        let mut members = Value::Object(name.into_iter().map(|(what, part)| (what.to_string(), json!(part))).collect());
        match self {
            Outcome::Clean => members["verdict"] = json!("clean"),
            Outcome::Repair => members["verdict"] = json!("repair"),
            Outcome::Refused(refusal, position) => {
                members["verdict"] = json!("refused");
                members["code"] = json!(refusal.code);
                members["item"] = json!(refusal.item);
                if let Some(byte) = *position {
                    members["position"] = json!(byte);
                }
                members["reason"] = json!(refusal.sentence());
            }
            Outcome::Unread(why) => {
                members["verdict"] = json!("unreadable");
                members["reason"] = json!(why);
            }
            Outcome::Repaired(without, renumbered) => {
                members["verdict"] = json!("repaired");
                members["without"] = json!(without);
                members["renumbered"] = json!(renumbered);
            }
            Outcome::Over(why) => {
                members["verdict"] = json!("over the limits");
                members["reason"] = json!(why);
            }
            Outcome::Unwritten(out, why) => {
                members["verdict"] = json!("unwritten");
                members["out"] = json!(shown(out.as_bytes()));
                members["reason"] = json!(why);
            }
        }
        members
    }
}

/// A sheet that is written after repair, in words.
fn written(without: &[u32], renumbered: bool) -> String {
    let numbers = without.iter().map(u32::to_string).collect::<Vec<_>>().join(", ");
    let (polygons, have, them) = if without.len() == 1 { ("polygon", "has", "it") } else { ("polygons", "have", "them") };
    match (without.is_empty(), renumbered) {
        (true, _) => "repaired".to_string(),
        (_, false) => format!("repaired without {polygons} {numbers}, which {have} no ground left"),
        _ => format!("repaired without {polygons} {numbers}, which {have} no ground left; those behind {them} are renumbered"),
    }
}

/// A number, its digits in threes from the right with commas between.
fn grouped(number: u64) -> String {
    let mut digits = number.to_string();
    let mut place = digits.len();
    while place > 3 {
        place -= 3;
        digits.insert(place, ',');
    }
    digits
}

/// How many files came to each status, checked or repaired, and how many were passed over, as the last line.
pub fn summary(counts: [usize; 4], passed: usize, repaired: bool, json: bool) -> String {
    let sheets: usize = counts.iter().sum();
    let names = match repaired {
        false => [("clean", "clean"), ("repair", "to repair"), ("refused", "refused"), ("unreadable", "could not be read")],
        true => [
            ("written", "written"),
            ("without", "written without a polygon"),
            ("not_written", "refused or over the limits"),
            ("unreadable", "could not be read or written"),
        ],
    };
    if json {
        let mut object = json!({ "sheets": sheets });
        names.iter().zip(counts).for_each(|((name, _), count)| object[name] = json!(count));
        object["passed_over"] = json!(passed);
        return format!("{object}\n");
    }
    let noun = if sheets == 1 { "sheet" } else { "sheets" };
    let told: Vec<String> = names.iter().zip(counts).map(|((_, words), count)| format!("{count} {words}")).collect();
    format!("{sheets} {noun}: {}; {passed} passed over\n", told.join(", "))
}
