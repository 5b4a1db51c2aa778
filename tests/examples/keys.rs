//! Maps whose keys are addresses of IPv6: every address, all but one, a join with a prefix, and keys from both ends. Lengths of ranges,
//! also of empty ones.
use demo_keys::{Ipv6, prefix_range};
use range_map_blaze::{Integer, RangeMapBlaze, range_len};
use std::alloc::AllocError;

/// A map of addresses.
type Addresses = RangeMapBlaze<Ipv6, u8>;

/// The first two keys of a map, and the last two.
fn ends(rt: &HostRuntime, map: &Addresses) {
    let mut keys = map.keys();
    let ends = [keys.next(), keys.next(), keys.next_back(), keys.next_back()];
    for key in ends.iter().flatten() {
        let _ = println!(rt; "{key}");
    }
}

/// The entries of a map of every address that a map of one prefix has too, with the sums of the values.
fn shared(rt: &HostRuntime, map: &Addresses) -> Result<(), AllocError> {
    let mut block = RangeMapBlaze::new(rt.alloc());
    if let Some(range) = prefix_range(Ipv6(0x2001_0db8 << 96), 32) {
        let _ = block.ranges_insert(range, 2u8)?;
    }
    let sums = map.inner_join(&block, |ours: &u8, theirs: &u8| ours.wrapping_add(*theirs))?;
    for (range, sum) in sums.range_values() {
        let _ = println!(rt; "{} {} {sum}", range.start(), range.end());
    }
    Ok(())
}

/// How many keys some ranges have: several, one, none, and all of the key type.
fn lengths(rt: &HostRuntime) {
    let bytes = [3u8..=7, 7..=7, 7..=3, 0..=255];
    for range in &bytes {
        let _ = println!(rt; "{} {}: {}", range.start(), range.end(), range_len(range));
    }
    let every = Ipv6::min_value()..=Ipv6::max_value();
    let _ = println!(rt; "{}", range_len(&every));
}

/// Makes all calls of this file.
pub fn all(rt: &HostRuntime) -> Result<(), AllocError> {
    let every = Ipv6::min_value()..=Ipv6::max_value();
    let map = RangeMapBlaze::from_ranges(rt.alloc(), [(every, 1u8)])?;
    let _ = println!(rt; "{} keys, every key: {}", map.len(), map.is_universal());
    ends(rt, &map);
    let lacking = (!&map)?;
    let _ = println!(rt; "{} keys without a value", lacking.len());
    lengths(rt);
    shared(rt, &map)
}
