//! What the library answers on the first READ_CAP bytes of a longer input is what it answers on all of it.
use sheets::{listing, numbers, numbers_by, position, position_by, verdict, verdict_by, Mode, Refusal, Verdict, READ_CAP};

const LONGEST: usize = 185_938;
const FARTHEST: usize = 185_978;

fn geometry(kind: u32, members: &[Vec<u8>]) -> Vec<u8> {
    let count = members.len() as u32;
    [vec![1], kind.to_le_bytes().to_vec(), count.to_le_bytes().to_vec(), members.concat()].concat()
}

/// A geometry of one ring round three points.
fn ringed(kind: u32, corners: [(i32, i32); 3]) -> Vec<u8> {
    let points = [corners[0], corners[1], corners[2], corners[0]];
    let doubles = points.iter().flat_map(|&(x, y)| [x, y]).flat_map(|z| f64::from(z).to_le_bytes());
    geometry(kind, &[4_u32.to_le_bytes().into_iter().chain(doubles).collect()])
}

/// The table and the members of a sheet of 1,024 triangles in a row, each a polygon within three containers, shared out to so many members.
fn members(count: usize) -> Vec<Vec<u8>> {
    let strip = |x: i32| [[(x, 0), (x + 1, 0), (x + 1, 1)], [(x, 0), (x + 1, 1), (x, 1)]];
    let triangles: Vec<_> = (0..512).flat_map(strip).collect();
    let within = |&corners: &_| geometry(7, &[geometry(7, &[geometry(6, &[ringed(3, corners)])])]);
    let table = geometry(16, &triangles.iter().map(|&corners| ringed(17, corners)).collect::<Vec<_>>());
    let member = |k: usize| geometry(7, &triangles[k * 1024 / count..(k + 1) * 1024 / count].iter().map(within).collect::<Vec<_>>());
    std::iter::once(table).chain((0..count).map(member)).collect()
}

/// The longest sheet that can be read.
fn longest() -> Vec<u8> {
    geometry(7, &members(64))
}

/// The input that is looked at farthest before it is refused: with all points used up, a last member goes as deep as can be, to the count of a ring.
fn farthest() -> Vec<u8> {
    let begun = geometry(7, &[geometry(7, &[geometry(7, &[geometry(6, &[geometry(3, &[4_u32.to_le_bytes().to_vec()])])])])]);
    geometry(7, &[members(63), vec![begun]].concat())
}

#[test]
fn the_longest_sheet_is_read_and_the_farthest_fault_is_seen() {
    let (sheet, fault) = (longest(), farthest());
    assert_eq!((sheet.len(), verdict(&sheet)), (LONGEST, Verdict::Clean));
    assert_eq!((fault.len(), verdict(&fault)), (FARTHEST, Verdict::Refused(Refusal { code: 4, item: 65 })));
    assert_eq!(verdict(&fault[..FARTHEST - 1]), Verdict::Refused(Refusal { code: 1, item: 65 }));
    assert_eq!([position(&fault).byte, position(&fault[..FARTHEST - 1]).byte], [FARTHEST as u64 - 4; 2]);
    assert_eq!((position(&sheet).byte, position(&sheet[..LONGEST - 1]).byte), (0, LONGEST as u64 - 16));
}

/// A blob with the longest header, whose envelope is the frame of these sheets.
fn in_blob(sheet: &[u8]) -> Vec<u8> {
    let envelope = [0.0_f64, 512.0, 0.0, 1.0].into_iter().flat_map(f64::to_le_bytes);
    b"GP\0\x03\xe6\x10\0\0".iter().copied().chain(envelope).chain(sheet.iter().copied()).collect()
}

#[test]
fn the_longest_blob_is_read_and_its_farthest_fault_is_seen() {
    let (blob, fault) = (in_blob(&longest()), in_blob(&farthest()));
    assert_eq!((blob.len(), verdict_by(&blob, Mode::Blob)), (LONGEST + 40, Verdict::Clean));
    assert_eq!((fault.len(), verdict_by(&fault, Mode::Blob)), (FARTHEST + 40, Verdict::Refused(Refusal { code: 4, item: 65 })));
    for (beginning, byte) in [(blob, LONGEST as u64 + 40), (fault, FARTHEST as u64 + 36)] {
        let input = [beginning, vec![1; 2 * READ_CAP]].concat();
        let first = &input[..READ_CAP];
        assert_eq!((numbers_by(&input, Mode::Blob), verdict_by(&input, Mode::Blob)), (numbers_by(first, Mode::Blob), verdict_by(first, Mode::Blob)));
        assert_eq!([position_by(&input, Mode::Blob), position_by(first, Mode::OlderBlob)].map(|position| position.byte), [byte; 2]);
    }
}

#[test]
fn the_first_bytes_of_a_longer_input_are_enough() {
    let beginnings = [Vec::new(), longest(), farthest(), longest()[..LONGEST - 1].to_vec(), farthest()[..FARTHEST - 1].to_vec()];
    for beginning in beginnings {
        for surplus in [(READ_CAP + 1).saturating_sub(beginning.len()), 2 * READ_CAP, 1 << 24] {
            for byte in [0, 1, 255] {
                let input = [beginning.clone(), vec![byte; surplus]].concat();
                let first = &input[..READ_CAP];
                assert_eq!((numbers(&input), verdict(&input), listing(&input)), (numbers(first), verdict(first), listing(first)));
                assert_eq!(position(&input), position(first));
            }
        }
    }
}
