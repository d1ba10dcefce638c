//! The library beside the independent program, for the bench and the fuzz target.

use independent::entries::{Entry, Input};
use sheets::{lent, Refusal};

/// Calls the library's entry of that name.
pub fn call(entry: Entry, input: &[u8], out: &mut [u8]) -> Result<u64, Refusal> {
    match entry {
        Entry::Numbers => lent::numbers(input, out),
        Entry::Write => lent::write(input, out),
        Entry::OwnerSets => lent::owner_sets(input, out),
        Entry::Owners => lent::owners(input, out),
        Entry::Boundary(polygon) => lent::boundary(input, polygon, out),
        Entry::Listing => lent::listing(input, out),
        Entry::Position(mode) => lent::position(input, mode, out),
        Entry::NumbersBy(mode) => lent::numbers_by(input, mode, out),
        Entry::Areas(mode) => lent::areas(input, mode, out),
        Entry::OwnerSetsBy(mode) => lent::owner_sets_by(input, mode, out),
        Entry::OwnersBy(mode, way) => lent::owners_by(input, mode, way, out),
        Entry::BoundaryBy(mode, way, polygon) => lent::boundary_by(input, mode, way, polygon, out),
        Entry::Rings(mode, way, polygon) => lent::rings(input, mode, way, polygon, out),
        Entry::RingRoom(mode, way, polygon) => lent::ring_room(input, mode, way, polygon),
        Entry::ListingBy(mode, way) => lent::listing_by(input, mode, way, out),
        Entry::WriteBlob => lent::write_blob(input, out),
        Entry::At(mode, way, x, y) => lent::at(input, mode, way, x, y),
        Entry::Index(mode) => lent::index(input, mode, out),
        Entry::OwnerSetsIndexed(index, mode) => lent::owner_sets_indexed(input, &Input::new(input).lent(index, mode), mode, out),
        Entry::OwnersIndexed(index, mode, way) => lent::owners_indexed(input, &Input::new(input).lent(index, mode), mode, way, out),
        Entry::BoundaryIndexed(index, mode, way, polygon) => {
            lent::boundary_indexed(input, &Input::new(input).lent(index, mode), mode, way, polygon, out)
        }
        Entry::RingsIndexed(index, mode, way, polygon) => lent::rings_indexed(input, &Input::new(input).lent(index, mode), mode, way, polygon, out),
    }
}
