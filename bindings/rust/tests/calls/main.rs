//! Random calls against a `BTreeMap` with a pair for each key, and each public call with a result
//! that was written by hand. Several threads look up in one map, and maps go from thread to thread.
//!
//! No allocation fails here: the library calls the `malloc` of C, which a `#[global_allocator]`
//! does not replace. The tests of the C header make each allocation fail in turn.

mod by_hand;
mod check;
mod plain;
mod random;
mod threads;
