//! The iterators over entries, ranges, gaps and keys. See `walk` for the memory of an iterator.

mod entries;
mod keys;
mod pieces;
mod ranges;
mod walk;

pub use entries::{IntoRangeValues, Overlapping, RangeValues};
pub use keys::{KeyValues, Keys, ValuesByKey, ValuesByRange};
pub use pieces::Pieces;
pub use ranges::{Gaps, Ranges};
