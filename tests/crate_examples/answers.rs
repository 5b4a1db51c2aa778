//! Answers, and how they are judged.
use range_map_blaze::RangeMapBlaze;
use std::alloc::{AllocError, Global};
use std::fmt::Display;

/// Whether an example gives what it gives in the Rust crate.
pub type Answer = Result<bool, AllocError>;

/// Prints how many examples of a group give the right answers, and the names of those that don't. Returns whether all do.
pub fn judge(rt: &HostRuntime, group: &str, examples: &[(&'static str, Answer)]) -> bool {
    let mut wrong = 0usize;
    for (name, answer) in examples {
        if *answer != Ok(true) {
            wrong = wrong.saturating_add(1);
            let _ = println!(rt; "wrong: {name}");
        }
    }
    let right = examples.len().saturating_sub(wrong);
    let _ = println!(rt; "{group}: {right} of {}", examples.len());
    wrong == 0
}

/// A map of words.
pub type Words = RangeMapBlaze<i32, &'static str>;

/// A map of numbers.
pub type Numbers = RangeMapBlaze<i32, i32>;

/// Whether the printed text of a value is this text.
pub fn prints<D: Display>(alloc: Global, value: &D, text: &str) -> Answer {
    Ok(format!(in alloc; "{value}")?.as_str() == text)
}

/// Whether an iterator gives these items in their order, and then ends.
pub fn gives<A: PartialEq + Drop, I: Iterator<Item = A> + Drop>(
    mut items: I,
    expected: &[A],
) -> bool {
    for item in expected {
        if items.next().is_none_or(|given| given != *item) {
            return false;
        }
    }
    items.next().is_none()
}

/// Whether an iterator gives these items, called at its front and its back in turn, and then ends.
pub fn gives_in_turn<A: PartialEq + Drop, I: DoubleEndedIterator + Iterator<Item = A> + Drop>(
    mut items: I,
    expected: &[A],
) -> bool {
    let mut is_front = true;
    for item in expected {
        let given = if is_front {
            items.next()
        } else {
            items.next_back()
        };
        if given.is_none_or(|given| given != *item) {
            return false;
        }
        is_front = !is_front;
    }
    items.next_back().is_none() && items.next().is_none()
}
