//! Tables: paints by both bodies, by one walk and by single lookups, and the entry below a key.
ghost use Rattle.blaze_entries.specs.Painted.{ClonesAreAlike};

use blaze_int::Integer;
use blaze_int::compare::is_at_most;
use blaze_table::RangeTable;
use std::alloc::AllocError;
use std::fmt::Debug;

/// Paints ranges in their order on two tables, on one by a walk and on the other by single lookups. Prints what both return, then
/// the entries, and whether both tables have the same entries and as many keys.
pub fn by_both<T: Integer + Debug, V: Eq + Clone + Debug>(
    rt: &HostRuntime,
    ranges: &[(T, T, V)],
) -> Result<(), AllocError>
    requires { ClonesAreAlike V.is_clone V.eq }
{
    let mut walked = RangeTable::new(rt.alloc());
    let mut spliced = RangeTable::new(rt.alloc());
    for (start, end, value) in ranges {
        if is_at_most(*start, *end) {
            let walk = walked.paint(*start, *end, value.clone()?)?;
            let splice = spliced.paint_by_splice(*start, *end, value.clone()?)?;
            let _ = println!(rt; "{start:?}..={end:?} {value:?}: {walk} {splice}");
        }
    }
    for (start, end, value) in walked.iter() {
        let _ = println!(rt; "{start:?}..={end:?} {value:?}");
    }
    let is_same = walked == spliced && walked.len() == spliced.len();
    let _ = println!(rt; "both the same: {is_same}");
    Ok(())
}

/// Ranges that touch, overlap, nest, cover, join up to the greatest key and over the gap of the surrogates.
fn paints(rt: &HostRuntime) -> Result<(), AllocError> {
    by_both(rt, &[(1i64, 2, 'a'), (3, 6, 'b'), (3, 4, 'a')])?;
    by_both(rt, &[(1i64, 2, 'a'), (3, 6, 'b'), (3, 9, 'a')])?;
    by_both(rt, &[(0i64, 9, 'a'), (2, 7, 'b'), (4, 5, 'c')])?;
    by_both(
        rt,
        &[
            (0i64, 9, 'a'),
            (2, 7, 'b'),
            (4, 5, 'c'),
            (4, 5, 'b'),
            (0, 9, 'b'),
        ],
    )?;
    by_both(
        rt,
        &[(0u128, 5, 'a'), (6, u128::MAX, 'b'), (5, u128::MAX, 'a')],
    )?;
    by_both(
        rt,
        &[('\u{D7FF}', '\u{D7FF}', 'a'), ('\u{E000}', '\u{E000}', 'a')],
    )
}

/// Makes all calls.
pub fn all(rt: &HostRuntime) -> Result<(), AllocError> {
    paints(rt)?;
    let mut table = RangeTable::new(rt.alloc());
    let _ = table.paint(2i64, 5, 'a')?;
    let _ = table.paint(5, 6, 'b')?;
    let _ = println!(rt; "{:?} {:?}", table.next_below(5), table.next_below(2));
    Ok(())
}
