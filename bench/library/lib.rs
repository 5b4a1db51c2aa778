//! The benchmark's works over the library, for a caller in C. `bench/plain.rs` has the same works in plain Rust.
#![tactic(auto)]

mod changes;
mod draw;
mod makes;
mod many;
mod parts;
mod prepared;
#[cfg(test)]
mod tests;
mod walks;
mod whole;

use crate::changes::{
    Change, change_maps, clumps, fill, get, paint_over_all, paint_over_ten, pop_first, pop_last,
    retain, retain_below,
};
use crate::makes::{make, paint_one_by_one};
use crate::many::{OfThree, combine_three, union_of_many};
use crate::parts::{first_entries, first_pairs, within};
use crate::prepared::Work;
use crate::walks::{Way, walk, walk_by, walk_owned};
use crate::whole::{
    Combination, append, combine, combine_owned, combine_wide, combine_wide_owned, combined,
    halve_values, split_off,
};
use std::alloc::{AllocError, Global};

/// Added to a work's number to include the final entries in the checksum.
const CHECKED: u32 = 200;

/// Runs a work and returns a checksum, which is not 0. It returns 0 if an allocation fails or no work has the number.
#[unsafe(no_mangle)]
pub extern "C" fn library_run(alloc: Global, work: u32, size: u64, count: u64) -> u64 {
    let check = work >= CHECKED;
    let number = if check { work - CHECKED } else { work };
    let work = Work {
        alloc,
        check,
        size,
        count,
    };
    match on_keys(work, number) {
        Some(Ok(sum)) => sum | 1,
        _ => 0,
    }
}

/// Runs a work on single keys and small ranges, or else one of the other works.
fn on_keys(work: Work, number: u32) -> Option<Result<u64, AllocError>> {
    match number {
        0 => Some(change_maps(work, Change::Paint)),
        1 => Some(change_maps(work, Change::Insert)),
        2 => Some(change_maps(work, Change::Remove)),
        3 => Some(clumps(work)),
        4 => Some(get(work)),
        7 => Some(pop_first(work)),
        24 => Some(within(work)),
        25 => Some(fill(work)),
        26 => Some(pop_last(work)),
        27 => Some(retain(work)),
        37 => Some(retain_below(work, 2)),
        38 => Some(retain_below(work, 0)),
        49 => Some(paint_over_ten(work)),
        50 => Some(paint_over_all(work)),
        55 => Some(first_pairs(work)),
        56 => Some(first_entries(work)),
        _ => on_all_keys(work, number),
    }
}

/// Runs a work that visits all keys, or else one on whole maps.
fn on_all_keys(work: Work, number: u32) -> Option<Result<u64, AllocError>> {
    match number {
        15 => Some(walk(work, 100)),
        16 => Some(walk(work, 1)),
        42 => Some(walk_by(work, Way::Pairs)),
        43 => Some(walk_by(work, Way::Keys)),
        44 => Some(walk_by(work, Way::Values)),
        45 => Some(walk_by(work, Way::PairsFromBehind)),
        46 => Some(walk_by(work, Way::KeysFromBehind)),
        47 => Some(walk_by(work, Way::ValuesFromBehind)),
        48 => Some(walk_owned(work)),
        _ => on_maps(work, number),
    }
}

/// Runs a work on whole maps, or else one that combines two maps.
fn on_maps(work: Work, number: u32) -> Option<Result<u64, AllocError>> {
    match number {
        5 => Some(split_off(work)),
        6 => Some(append(work)),
        11 => Some(combine_owned(work, Combination::Union)),
        17 => Some(make(work, false)),
        18 => Some(make(work, true)),
        19 => Some(paint_one_by_one(work)),
        20 => Some(union_of_many(work)),
        23 => Some(combine_owned(work, Combination::Difference)),
        29 => Some(combine_owned(work, Combination::SymmetricDifference)),
        35 => Some(combine_wide(work, Combination::Union)),
        36 => Some(combine_owned(work, Combination::UnionOfMany)),
        39 => Some(combine_wide(work, Combination::Difference)),
        40 => Some(combine_wide_owned(work, Combination::Difference)),
        41 => Some(combine_wide(work, Combination::SymmetricDifference)),
        51 => Some(halve_values(work)),
        53 => Some(combine_three(work, OfThree::Union)),
        54 => Some(combine_three(work, OfThree::SymmetricDifference)),
        _ => {
            let (combination, other) = combined(number, work.size)?;
            Some(combine(work, combination, other))
        }
    }
}
