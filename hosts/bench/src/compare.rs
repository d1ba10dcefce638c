//! Native's answers beside the library's and the independent program's, so that none is trusted blindly: code, item and the bytes of owner sets.

use crate::hostile::{family, Hostile, FULL, SMALL};
use crate::native;
use crate::timing::passed;
use beside::call;
use independent::cases;
use independent::entries::{whole, Entry};
use independent::generate::{extreme, generate, largest, sized};
use std::process::ExitCode;

/// No sheet may take library and native together longer, in µs of processor time, an emulator's among it.
const LONGEST: f64 = 20_000_000.0;

/// A case that is longer is left to the hostile sheets: some of them take the independent program a second.
const LONG: usize = 20_000;

/// A packed answer, and the bytes written.
pub type Answer = (u64, Vec<u8>);

/// How many inputs were answered alike, and how many not.
#[derive(Default)]
struct Tally {
    passed: usize,
    failed: usize,
}

impl Tally {
    fn count(&mut self, name: &str, one: (&str, &Answer), other: (&str, &Answer)) {
        if one.1 == other.1 {
            self.passed += 1;
            return;
        }
        self.failed += 1;
        let told = |(who, (packed, bytes)): (&str, &Answer)| format!("{who} {} {} with {} bytes", packed % 256, packed >> 8, bytes.len());
        println!("{name}: {}, {}", told(one), told(other));
    }

    /// A sheet must come to what it is made for.
    fn expect(&mut self, name: &str, code: u8, (packed, _): &Answer) {
        if *packed as u8 != code {
            self.fail(format!("{name}: native {}, made for {code}", packed % 256));
        }
    }

    fn fail(&mut self, message: String) {
        self.failed += 1;
        println!("{message}");
    }
}

/// What native answers, with room enough.
pub fn of_native(sheet: &[u8]) -> Answer {
    let mut lent = vec![0; sheets::OWNER_SETS_ROOM];
    let packed = native::owner_sets(sheet, &mut lent);
    lent.truncate(if packed as u8 == 0 { 8 * (packed >> 8) as usize } else { 0 });
    (packed, lent)
}

/// What the library's set entry answers, with room enough, on a thread with the stack that a call needs and no more.
pub fn of_library(sheet: &[u8]) -> Answer {
    std::thread::scope(|scope| {
        let builder = std::thread::Builder::new().stack_size(sheets::STACK);
        let thread = builder.spawn_scoped(scope, || on_this_thread(sheet)).expect("a thread can be had");
        thread.join().expect("the library answers")
    })
}

fn on_this_thread(sheet: &[u8]) -> Answer {
    let mut lent = vec![0; sheets::OWNER_SETS_ROOM];
    match call(Entry::OwnerSets, sheet, &mut lent) {
        Ok(item) => {
            lent.truncate(8 * item as usize);
            (item << 8, lent)
        }
        Err(refusal) => (refusal.item << 8 | u64::from(refusal.code), Vec::new()),
    }
}

/// What the independent program answers.
fn of_independent(sheet: &[u8]) -> Answer {
    match whole(Entry::OwnerSets, sheet) {
        Ok(success) => (success.item << 8, success.bytes),
        Err(refusal) => (refusal.item << 8 | u64::from(refusal.code), Vec::new()),
    }
}

/// Compares native with the independent program on the cases made by hand and so many generated inputs, damaged ones among them, and all three on the small
/// hostile sheets; and the library with native on one in so many of the large ones.
pub fn compare(seeds: u64, part: usize) -> ExitCode {
    let mut tally = Tally::default();
    let seeds = (0..seeds).map(|seed| (format!("seed {seed}"), generate(seed)));
    let large = (0..6).flat_map(|seed| [largest(seed), extreme(seed), sized(seed, 8 << seed)]).map(|sheet| ("a large sheet".into(), sheet));
    let cases = cases::all().into_iter().filter(|case| case.is_sheet() && case.input.len() < LONG).map(|case| (case.name, case.input));
    for (name, sheet) in cases.chain(seeds).chain(large) {
        tally.count(&name, ("native", &of_native(&sheet)), ("independent", &of_independent(&sheet)));
    }
    for Hostile { name, sheet, code, .. } in family(SMALL) {
        let (native, name) = (of_native(&sheet), format!("{name}, small"));
        tally.expect(&name, code, &native);
        tally.count(&name, ("native", &native), ("independent", &of_independent(&sheet)));
        tally.count(&name, ("native", &native), ("library", &of_library(&sheet)));
    }
    for Hostile { name, sheet, code, .. } in family(FULL).into_iter().step_by(part) {
        let (begun, native) = (passed(), of_native(&sheet));
        tally.expect(&name, code, &native);
        tally.count(&name, ("native", &native), ("library", &of_library(&sheet)));
        if passed() - begun > LONGEST {
            tally.fail(format!("{name}: took {:.0} µs", passed() - begun));
        }
    }
    println!("{} passed, {} failed", tally.passed, tally.failed);
    ExitCode::from(u8::from(tally.failed > 0))
}
