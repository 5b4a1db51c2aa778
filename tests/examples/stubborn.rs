//! A value whose clone may fail.
ghost use Rattle.std.specs.Prelude.{◌≡◌, nat_eq};
ghost use Rattle.std.proofs.Common.{rules};
ghost use Rattle.std.specs.Cmp.Rules.{comparing};
ghost use Rattle.std.specs.Ordering.{on};

use std::alloc::AllocError;
use std::fmt::{self, Debug, Formatter};

/// A number. Equality is that of the numbers alone, and the clone of a deaf one fails.
#[derive(Drop)]
pub struct Stubborn {
    pub n: u32,
    pub deaf: bool,
}

impl PartialEq for Stubborn {
    ghost eq = { on (λ a. a.n) nat_eq };

    ghost laws = { Prim.search (comparing, rules) };

    fn eq(&self, other: &Self) -> bool {
        self.n == other.n
    }
}

impl Eq for Stubborn {
    ghost laws = { Prim.search (comparing, rules) };
}

impl Clone for Stubborn {
    ghost is_clone = { λ a b. a.n ≡ b.n };

    fn clone(&self) -> Result<Self, AllocError> {
        if self.deaf {
            return Err(AllocError);
        }
        Ok(Stubborn {
            n: self.n,
            deaf: false,
        })
    }
}

/// Writes `7`, and `7!` for a deaf one.
impl Debug for Stubborn {
    fn fmt<W: fmt::Write>(&self, f: &mut Formatter<W>) -> fmt::Result {
        write!(f, "{}{}", self.n, if self.deaf { "!" } else { "" })
    }
}

/// A number that is cloned.
pub fn heard(n: u32) -> Stubborn {
    Stubborn { n, deaf: false }
}

/// A number whose clone fails.
pub fn deaf(n: u32) -> Stubborn {
    Stubborn { n, deaf: true }
}
