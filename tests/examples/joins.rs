//! Joins of streams, and the segments of lists.
use crate::maps::{Letters, map_of};
use crate::streams::{Level, show};
use blaze_streams::{
    CheckSortedDisjointMap, JoinKind, Owned, Segment, SortedDisjointMap, join_of, segments,
};
use std::alloc::AllocError;

/// The values of two borrowed streams at the segments of a join.
fn borrowed(
    rt: &HostRuntime,
    kind: JoinKind,
    one: &Letters,
    two: &Letters,
) -> Result<(), AllocError> {
    let made = join_of(rt.alloc(), one.range_values(), two.range_values(), kind);
    let _ = print!(rt; "{kind:?} ");
    show(rt, "join_of", made)
}

/// The values of two owned streams at the segments of a join. The last segment of a range has the value itself, one before it a clone.
fn of_values(rt: &HostRuntime) -> Result<(), AllocError> {
    let levels = vec![in rt.alloc(); (1..=9, Level(3))]?;
    let letters = vec![in rt.alloc(); (4..=5, Owned('a')), (6..=20, Owned('b'))]?;
    let (Ok(one), Ok(two)) = (
        CheckSortedDisjointMap::new(levels),
        CheckSortedDisjointMap::new(letters),
    ) else {
        return Ok(());
    };
    show(rt, "join_of", join_of(rt.alloc(), one, two, JoinKind::Full))
}

/// Prints the number of segments, then each of them.
fn show_segments(rt: &HostRuntime, segments: Vec<Segment<i64>>) {
    let _ = println!(rt; "{} segments", segments.len());
    for segment in segments {
        let _ = println!(rt; "{}..={} {:?}", segment.lo, segment.hi, segment.at);
    }
}

/// The segments of three lists.
fn of_three_lists(rt: &HostRuntime) -> Result<(), AllocError> {
    let alloc = rt.alloc();
    let first = vec![in alloc; (0, 9)]?;
    let second = vec![in alloc; (5, 14)]?;
    let third = vec![in alloc; (7, 8)]?;
    let lists = vec![in alloc; first, second, third]?;
    show_segments(rt, segments(alloc, &lists)?);
    Ok(())
}

/// The segments of a list with touching ranges and an empty list, and of an empty list alone.
fn of_few_lists(rt: &HostRuntime) -> Result<(), AllocError> {
    let alloc = rt.alloc();
    let touching = vec![in alloc; (0, 3), (4, 6)]?;
    let lists = vec![in alloc; touching, Vec::new(alloc)]?;
    show_segments(rt, segments(alloc, &lists)?);
    show_segments(rt, segments(alloc, &[Vec::new(alloc)])?);
    Ok(())
}

/// Makes all calls of this file.
pub fn all(rt: &HostRuntime) -> Result<(), AllocError> {
    let one = map_of(rt.alloc(), &[(1, 5, 'a')])?;
    let two = map_of(rt.alloc(), &[(4, 8, 'b')])?;
    borrowed(rt, JoinKind::Full, &one, &two)?;
    borrowed(rt, JoinKind::Left, &one, &two)?;
    borrowed(rt, JoinKind::Inner, &one, &two)?;
    of_values(rt)?;
    of_three_lists(rt)?;
    of_few_lists(rt)
}
