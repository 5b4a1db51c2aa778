//! The traits of the libraries' types. The test is that it compiles.
use blaze_int::{Integer, SafeLength, UIntPlusOne};
use blaze_iters::{
    IntoIterMap, IntoKeys, IntoRangeValuesIter, IntoValues, IterMap, Keys, MapIntoRangesIter,
    MapRangesIter, RangeValuesIter, Values,
};
use blaze_streams::{
    BothEnds, CanonIter, CanonMapIter, CheckSortedDisjoint, CheckSortedDisjointMap,
    MultiwayFullJoinMap, MultiwayInnerJoinMap, MultiwayIntersectionMap, MultiwaySweep,
    MultiwaySymmetricDifferenceMap, MultiwayUnionMap, NotSorted, Owned, SortedDisjoint,
    SortedDisjointMap, SweepEvent, ValueCarrier,
};
use blaze_table::{IntoRangesIter, RangeSetBlaze, RangeTable, RangesIter};
use range_map_blaze::RangeMapBlaze;
use range_map_cli::Refused;
use std::alloc::AllocError;
use std::error::Error;
use std::fmt::{Debug, Display};
use std::hash::Hash;
use std::iter::FusedIterator;
use std::ops::Index;
use std::rc::Rc;

fn is_ordered<X: Copy + Ord + Debug>() {}

fn is_key<T: Integer<SafeLen = L>, L: SafeLength + Debug + Display>() {
    is_ordered::<T>();
    is_ordered::<L>();
}

/// Each key type has its type of lengths.
pub fn key_types() {
    is_key::<u8, u16>();
    is_key::<i8, u16>();
    is_key::<u16, u32>();
    is_key::<i16, u32>();
    is_key::<u32, u64>();
    is_key::<i32, u64>();
    is_key::<u64, u128>();
    is_key::<i64, u128>();
    is_key::<u128, UIntPlusOne>();
    is_key::<i128, UIntPlusOne>();
    is_key::<char, u32>();
}

fn is_value<X: Debug + Display + PartialEq + Eq + Hash + PartialOrd + Ord>() {}

fn is_indexed<X: Index<T, Output = V>, T, V>() {}

fn goes_through<X: IntoIterator<Item = P>, P>() {}

/// Maps are printed, compared, hashed, indexed and iterated by `for`.
pub fn maps() {
    is_value::<RangeMapBlaze<i64, String>>();
    is_value::<RangeMapBlaze<char, u8>>();
    is_indexed::<RangeMapBlaze<i64, String>, i64, String>();
    is_indexed::<RangeMapBlaze<char, u8>, char, u8>();
    goes_through::<RangeMapBlaze<i64, String>, Result<(i64, String), AllocError>>();
}

fn is_owned<X: Debug + PartialEq + Eq + Hash>() {}

fn is_same<X: PartialEq + Eq>() {}

fn is_shown<X: Debug + Display>() {}

/// Tables and sets are compared, and sets are printed. An owned carrier is printed, compared and hashed.
pub fn tables() {
    is_owned::<Owned<String>>();
    is_same::<RangeTable<i64, String>>();
    is_same::<RangeSetBlaze<char>>();
    is_shown::<RangeSetBlaze<i64>>();
    is_shown::<RangeSetBlaze<char>>();
}

fn is_fault<X: Error + Debug + Display>() {}

fn is_plain_fault<X: Error + Copy + Eq + Debug>() {}

/// Faults are errors.
pub fn faults() {
    is_fault::<AllocError>();
    is_plain_fault::<NotSorted>();
    is_plain_fault::<Refused>();
}

fn is_carrier<VC: ValueCarrier<Value = V>, V: Eq + Clone>() {}

/// Each carrier has its type of values.
pub fn carriers() {
    is_carrier::<bool, bool>();
    is_carrier::<&'static char, char>();
    is_carrier::<Rc<String>, String>();
    is_carrier::<Owned<String>, String>();
    is_carrier::<Option<Rc<char>>, Option<char>>();
    is_carrier::<(bool, Owned<char>), (bool, char)>();
}

fn is_map_stream<S: SortedDisjointMap<T, VC>, T: Integer, VC: ValueCarrier>() {}

fn has_both_ends<S: BothEnds<T, VC>, T: Integer, VC: ValueCarrier>() {}

/// Each stream of ranges with values, also by the names of the streams of many inputs.
pub fn map_streams() {
    has_both_ends::<RangeValuesIter<'static, u8, String>, u8, &'static String>();
    has_both_ends::<IntoRangeValuesIter<char, String>, char, Rc<String>>();
    is_map_stream::<CheckSortedDisjointMap<u8, bool>, u8, bool>();
    is_map_stream::<CanonMapIter<char, Owned<u8>>, char, Owned<u8>>();
    is_map_stream::<MultiwayUnionMap<u8, bool>, u8, bool>();
    is_map_stream::<MultiwayIntersectionMap<u8, bool>, u8, bool>();
    is_map_stream::<MultiwaySymmetricDifferenceMap<u8, bool>, u8, bool>();
    is_map_stream::<MultiwayInnerJoinMap<u8, char>, u8, Owned<char>>();
    is_map_stream::<MultiwayFullJoinMap<u8, char>, u8, Owned<char>>();
}

fn is_set_stream<S: SortedDisjoint<T>, T: Integer>() {}

/// Each stream of ranges without values.
pub fn set_streams() {
    is_set_stream::<RangesIter<'static, u8>, u8>();
    is_set_stream::<IntoRangesIter<char>, char>();
    is_set_stream::<MapRangesIter<'static, u8, String>, u8>();
    is_set_stream::<MapIntoRangesIter<char, String>, char>();
    is_set_stream::<CheckSortedDisjoint<u8>, u8>();
    is_set_stream::<CanonIter<char>, char>();
}

fn gives<I: Iterator<Item = X> + FusedIterator, X>() {}

fn gives_both_ends<I: DoubleEndedIterator + Iterator<Item = X> + FusedIterator, X>() {}

type Borrowed<'a> = RangeValuesIter<'a, u8, char>;

/// The items of each iterator, and the ends from which it yields them.
pub fn iterators() {
    gives_both_ends::<IterMap<u8, &'static char, Borrowed<'static>>, (u8, &'static char)>();
    gives_both_ends::<Keys<u8, &'static char, Borrowed<'static>>, u8>();
    gives_both_ends::<Values<u8, &'static char, Borrowed<'static>>, &'static char>();
    gives::<Keys<u8, bool, CanonMapIter<u8, bool>>, u8>();
    gives_both_ends::<IntoIterMap<char, String>, Result<(char, String), AllocError>>();
    gives_both_ends::<IntoKeys<char, String>, char>();
    gives_both_ends::<IntoValues<char, String>, Result<String, AllocError>>();
    goes_through::<MultiwaySweep<u8, bool>, SweepEvent<u8, bool>>();
}
