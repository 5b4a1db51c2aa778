//! Closures that may fail: how often they are called, and what a failed call leaves.
use crate::maps::{Letters, Numbers, map_of};
use std::alloc::AllocError;

/// Capital letters on a range, and `-` on its gaps: one call for each piece, up to the one that fails.
fn capitals(rt: &HostRuntime, mut map: Letters, failing: u8) {
    let mut calls = 0u8;
    let made = map.ranges_update(2..=10, |old| {
        calls = calls.wrapping_add(1);
        if calls == failing {
            Err(AllocError)
        } else {
            Ok(Some(old.map_or('-', |letter| letter.to_ascii_uppercase())))
        }
    });
    let _ = println!(rt; "ranges_update: {made:?}; {calls} calls; {map}");
}

/// The sums of two maps: one call for each segment, up to the one that fails.
fn sums(rt: &HostRuntime, ones: &Numbers, tens: &Numbers, failing: u8) {
    let mut calls = 0u8;
    let sums = ones.try_full_join(tens, |one, ten| {
        calls = calls.wrapping_add(1);
        let one = one.map_or(0, |one| *one);
        if calls == failing {
            Err(AllocError)
        } else {
            Ok(one.wrapping_add(ten.map_or(0, |ten| *ten)))
        }
    });
    let _ = println!(rt; "try_full_join: {sums:?}; {calls} calls");
}

/// Tens: one call for each entry, up to the one that fails.
fn tens_of(rt: &HostRuntime, map: &Numbers, failing: u8) {
    let mut calls = 0u8;
    let tens = map.try_transform_values(|number| {
        calls = calls.wrapping_add(1);
        if calls == failing {
            Err(AllocError)
        } else {
            Ok(*number / 10)
        }
    });
    let _ = println!(rt; "try_transform_values: {tens:?}; {calls} calls");
}

/// Makes all calls of this file. With 0 no call fails.
pub fn all(rt: &HostRuntime) -> Result<(), AllocError> {
    let alloc = rt.alloc();
    for failing in [1, 3, 5, 0] {
        capitals(
            rt,
            map_of(alloc, &[(0, 3, 'a'), (4, 7, 'b'), (9, 9, 'a')])?,
            failing,
        );
    }
    let (ones, tens) = (map_of(alloc, &[(1, 5, 1)])?, map_of(alloc, &[(4, 8, 10)])?);
    let numbers = map_of(alloc, &[(1, 3, 10), (4, 6, 11), (8, 9, 20)])?;
    for failing in [2, 0] {
        sums(rt, &ones, &tens, failing);
        tens_of(rt, &numbers, failing);
    }
    Ok(())
}
