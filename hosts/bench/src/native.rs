//! The plain C++ program of the same rules, native.cpp.

use independent::Point;

extern "C" {
    fn native_owner_sets(sheet: *const u8, size: usize, lent: *mut u8, room: usize) -> u64;
    fn native_chain(low: u64, high: u64) -> u64;
}

/// The set entry: the packed answer, item × 256 + code. Its lists are fixed, so that no two calls may run at once.
pub fn owner_sets(sheet: &[u8], lent: &mut [u8]) -> u64 {
    // SAFETY: the bytes are read and the lent ones written within their lengths, and this program has one thread.
    unsafe { native_owner_sets(sheet.as_ptr(), sheet.len(), lent.as_mut_ptr(), lent.len()) }
}

/// The chain that the program hangs the side between these points in, in a table of 1,024 triangles: one of 4,096.
pub fn chain(one: Point, other: Point) -> u64 {
    let key = |point: Point| ((point.x + 10_000_000) as u64) << 32 | (point.y + 10_000_000) as u64;
    let (low, high) = (key(one.min(other)), key(one.max(other)));
    // SAFETY: a function of its arguments.
    unsafe { native_chain(low, high) }
}
