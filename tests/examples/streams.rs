//! Streams: lists that keep their law, carriers, one stream over another and on the keys of a set.
use crate::maps::{Letters, map_of};
use blaze_int::Integer;
use blaze_streams::{
    CheckSortedDisjoint, CheckSortedDisjointMap, Owned, SortedDisjointMap, ValueCarrier,
    intersect_with_ranges, intersection_of, subtract_ranges, symmetric_difference_of,
};
use std::alloc::AllocError;
use std::fmt::Debug;
use std::rc::Rc;

/// Prints what a stream gives.
pub fn show<T: Integer, VC: ValueCarrier + Debug, I: SortedDisjointMap<T, VC>>(
    rt: &HostRuntime,
    call: &str,
    stream: Result<I, AllocError>,
) -> Result<(), AllocError> {
    let stream = stream?;
    let _ = println!(rt; "{call}");
    for (range, value) in stream {
        let _ = println!(rt; "{range:?} {value:?}");
    }
    Ok(())
}

/// A list as a stream, or the position at which it violates the law.
fn checked(rt: &HostRuntime, items: &[(i64, i64, char)]) -> Result<(), AllocError> {
    let mut list = Vec::new(rt.alloc());
    for (start, end, value) in items {
        list.push((*start..=*end, Owned(*value)))?;
    }
    match CheckSortedDisjointMap::new(list) {
        Ok(stream) => show(rt, "a stream", Ok(stream)),
        Err(fault) => {
            let _ = println!(rt; "{fault:?}: {fault}");
            Ok(())
        }
    }
}

/// A list of ranges as a stream, or the position at which it violates the law.
fn checked_ranges(rt: &HostRuntime, items: &[(i64, i64)]) -> Result<(), AllocError> {
    let mut list = Vec::new(rt.alloc());
    for (start, end) in items {
        list.push(*start..=*end)?;
    }
    match CheckSortedDisjoint::new(list) {
        Ok(stream) => {
            for range in stream {
                let _ = println!(rt; "{range:?}");
            }
        }
        Err(fault) => {
            let _ = println!(rt; "{fault:?}");
        }
    }
    Ok(())
}

/// Lists that violate the law of a stream, and one that keeps it.
fn lists(rt: &HostRuntime) -> Result<(), AllocError> {
    checked(rt, &[(1, 3, 'a'), (3, 5, 'b')])?;
    checked(rt, &[(1, 2, 'a'), (3, 4, 'a')])?;
    checked(rt, &[(5, 4, 'a')])?;
    checked(rt, &[(1, 3, 'a'), (4, 4, 'b')])
}

/// Lists of ranges that violate the law of a stream, and one that keeps it.
fn lists_of_ranges(rt: &HostRuntime) -> Result<(), AllocError> {
    checked_ranges(rt, &[(1, 3), (4, 5)])?;
    checked_ranges(rt, &[(1, 3), (5, 5)])
}

/// Prints whether a carrier stands for the same value as its copy, whether it stands for another than another one, and the value.
fn carry<VC: ValueCarrier<Value: Debug>>(
    rt: &HostRuntime,
    carrier: VC,
    other: VC,
) -> Result<(), AllocError>
    requires { VC.can_carry }
{
    let copy = carrier.carry()?;
    let (same, differs) = (carrier.value_eq(&copy), !carrier.value_eq(&other));
    let value = copy.into_value()?;
    let _ = println!(rt; "{same} {differs} {value:?}");
    Ok(())
}

/// A custom carrier.
#[derive(Debug, Drop)]
pub struct Level(pub u8);

impl ValueCarrier for Level {
    type Value = u8;

    ghost shown = { λ level. level.0 };

    fn value_eq(&self, other: &Self) -> bool {
        self.0 == other.0
    }

    fn into_value(self) -> Result<u8, AllocError> {
        Ok(self.0)
    }

    fn carry(&self) -> Result<Self, AllocError> {
        Ok(Level(self.0))
    }
}

/// Carriers of each kind.
fn carriers(rt: &HostRuntime) -> Result<(), AllocError> {
    carry(rt, Level(3), Level(4))?;
    carry(rt, true, false)?;
    carry(rt, &'a', &'b')?;
    carry(rt, Owned('b'), Owned('c'))?;
    carry(rt, Some(true), None)?;
    carry(rt, (true, Owned('d')), (true, Owned('e')))
}

/// A shared carrier.
fn shared_carrier(rt: &HostRuntime) -> Result<(), AllocError> {
    let shared = Rc::new(rt.alloc(), 'c')?;
    carry(rt, shared, Rc::new(rt.alloc(), 'd')?)
}

/// The values of one stream where both have one.
fn in_both(rt: &HostRuntime, a: &Letters, b: &Letters) -> Result<(), AllocError> {
    let made = intersection_of(rt.alloc(), a.range_values(), b.range_values());
    show(rt, "intersection_of", made)
}

/// The values where exactly one stream has one.
fn in_one(rt: &HostRuntime, a: &Letters, b: &Letters) -> Result<(), AllocError> {
    let made = symmetric_difference_of(rt.alloc(), a.range_values(), b.range_values());
    show(rt, "symmetric_difference_of", made)
}

/// A stream on the keys of a set, and off them.
fn with_sets(rt: &HostRuntime, a: &Letters, b: &Letters) -> Result<(), AllocError> {
    let made = intersect_with_ranges(rt.alloc(), a.range_values(), b.ranges());
    show(rt, "intersect_with_ranges", made)?;
    let made = subtract_ranges(rt.alloc(), a.range_values(), b.ranges());
    show(rt, "subtract_ranges", made)
}

/// Makes all calls of this file.
pub fn all(rt: &HostRuntime) -> Result<(), AllocError> {
    lists(rt)?;
    lists_of_ranges(rt)?;
    carriers(rt)?;
    shared_carrier(rt)?;
    let a = map_of(rt.alloc(), &[(2, 6, 'a')])?;
    let b = map_of(rt.alloc(), &[(1, 2, 'b'), (5, 100, 'b')])?;
    in_both(rt, &a, &b)?;
    in_one(rt, &a, &b)?;
    with_sets(rt, &a, &b)
}
