//! Sets: ranges from both ends, canonical lists.
use blaze_table::RangeSetBlaze;
use std::alloc::AllocError;

/// The last and the first range of a borrowed set.
fn borrowed_ends(rt: &HostRuntime, set: &RangeSetBlaze<u8>) {
    let mut ranges = set.ranges();
    let _ = println!(rt; "ranges: {:?} {:?}", ranges.next_back(), ranges.next());
}

/// The last and the first range of an owned set.
fn owned_ends(rt: &HostRuntime, set: RangeSetBlaze<u8>) {
    let mut ranges = set.into_ranges();
    let _ = println!(rt; "into_ranges: {:?} {:?}", ranges.next_back(), ranges.next());
}

/// A set of a canonical list.
fn canonical(rt: &HostRuntime) -> Result<(), AllocError> {
    let ranges = vec![in rt.alloc(); 1u8..=2, 4..=5]?;
    let set = RangeSetBlaze::from_canonical(rt.alloc(), ranges)?;
    let _ = println!(rt; "{set}, {set:?}: {:?}", set.as_table().find(5));
    Ok(())
}

/// Makes all calls of this file.
pub fn all(rt: &HostRuntime) -> Result<(), AllocError> {
    canonical(rt)?;
    let ranges = vec![in rt.alloc(); 8..=9, 1u8..=2, 4..=6]?;
    let set = RangeSetBlaze::from_ranges(rt.alloc(), ranges)?;
    borrowed_ends(rt, &set);
    owned_ends(rt, set);
    Ok(())
}
