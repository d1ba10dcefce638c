//! The fuzz target, for libFuzzer. Each input goes to every entry with several numbers of lent bytes: the answer, every byte written and every byte not
//! written must be those of the independent program, whose code guides the fuzzer.

use beside::call;
use independent::entries::{fit, packed, whole, Entry, Lent};

/// What a lent byte is before a call.
const LENT: u8 = 0xa7;

/// One input. A difference ends the process with status 1; the input is left in the file that DIFFERENCE names.
///
/// # Safety
/// `data` has `size` bytes.
#[no_mangle]
pub unsafe extern "C" fn LLVMFuzzerTestOneInput(data: *const u8, size: usize) -> i32 {
    let input = if size == 0 { &[] } else { std::slice::from_raw_parts(data, size) };
    let asked = u32::from(input.last().copied().unwrap_or(0) % 5);
    let reading = [Entry::Numbers, Entry::NumbersBy(1), Entry::NumbersBy(asked), Entry::Position(0), Entry::Position(asked)];
    let areas = [Entry::Areas(asked), Entry::Areas(1)];
    let entries = [Entry::OwnerSets, Entry::Owners, Entry::Boundary(asked), Entry::Listing, Entry::Write];
    let way = asked / 2;
    let older = [Entry::OwnerSetsBy(1), Entry::OwnersBy(1, way), Entry::BoundaryBy(1, way, asked), Entry::ListingBy(1, way)];
    let mode = 2 + asked % 2;
    let of_blobs = [Entry::NumbersBy(mode), Entry::Position(mode), Entry::OwnerSetsBy(mode), Entry::OwnersBy(mode, way)];
    let rings = [Entry::Rings(0, way, asked), Entry::Rings(mode, 0, 1), Entry::RingRoom(0, way, asked), Entry::RingRoom(mode, 0, 1)];
    let more = [Entry::Areas(mode), Entry::BoundaryBy(mode, way, asked), Entry::ListingBy(mode, way), Entry::WriteBlob];
    let coordinate = |back: usize| input.len().checked_sub(back).map_or(0, |at| i32::from(input[at] as i8)) << (7 * asked);
    let (x, y) = (coordinate(2), coordinate(3));
    let points = [Entry::At(0, way, x, y), Entry::At(1, 0, y, x), Entry::At(mode, 1, x, 0), Entry::At(asked, 0, 1, 1)];
    let every = Lent::every(input.len() as u16);
    let lent = every[size % every.len()];
    let index = [Entry::Index(0), Entry::Index(mode), Entry::OwnerSetsIndexed(Lent::Own, 0), Entry::OwnersIndexed(lent, 0, way)];
    let indexed = [Entry::BoundaryIndexed(lent, mode, way, asked), Entry::RingsIndexed(lent, mode, way, asked), Entry::OwnerSetsIndexed(lent, mode)];
    let entries = reading
        .into_iter()
        .chain(areas)
        .chain(entries)
        .chain(older)
        .chain(of_blobs)
        .chain(more)
        .chain(rings)
        .chain(points)
        .chain(index)
        .chain(indexed);
    let mut difference = entries.into_iter().find_map(|entry| compare(entry, input));
    for (mode, write) in [(0, Entry::Write), (1, Entry::Write), (2, Entry::WriteBlob), (3, Entry::WriteBlob)] {
        if let Ok(numbers) = whole(Entry::NumbersBy(mode), input) {
            difference = difference.or_else(|| compare(write, &numbers.bytes));
        }
    }
    if let Some(difference) = difference {
        let file = std::env::var("DIFFERENCE").unwrap_or("difference.wkb".into());
        let kept = std::fs::write(&file, input);
        eprintln!("DIFFERENCE {difference}; its input is in {file} ({kept:?})");
        std::process::exit(1);
    }
    0
}

/// How the entry's answers differ with lent bytes one short, just enough, none and more, if they do.
fn compare(entry: Entry, input: &[u8]) -> Option<String> {
    let answer = whole(entry, input);
    let length = answer.as_ref().map_or(8, |success| success.bytes.len());
    [length.saturating_sub(1), length, 0, length + 9].into_iter().find_map(|room| {
        let mut out = vec![LENT; room];
        let got = call(entry, input, &mut out).map_or_else(|refusal| refusal.item * 256 + u64::from(refusal.code), |item| item * 256);
        let (right, written) = match fit(answer.clone(), room) {
            Ok(success) => (success.item * 256, success.bytes),
            Err(refusal) => (packed(refusal), Vec::new()),
        };
        let lent = out.starts_with(&written) && out[written.len()..].iter().all(|byte| *byte == LENT);
        (got != right || !lent).then(|| format!("{entry:?} with {room}: answers {got}, right is {right}, lent bytes as they should be: {lent}"))
    })
}
