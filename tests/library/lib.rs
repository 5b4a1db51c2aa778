//! Tests of what no program here can show:
//!
//! - lengths and neighbours at the ends of each key type;
//! - the program's engine over readers and writers that fail;
//! - the public items that no program here uses: their results, and the traits of each type.
//!
//! They need no proof: `rt try` runs them.
#![tactic(auto)]

#[cfg(test)]
mod cut;
#[cfg(test)]
mod items;
#[cfg(test)]
mod keys;
#[cfg(test)]
mod serving;
#[cfg(test)]
mod traits;
