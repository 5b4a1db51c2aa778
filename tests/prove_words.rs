//! A function for each clause of the table in docs/PROVE.md. tests/prove_pages.sh proves them as a file of a crate.
ghost use Rattle.std.specs.Prelude.{◌≡◌, ◌≤◌, ◌<◌, ◌≤ℤ◌, ◌<ℤ◌, ◌⊎◌, ◌↔◌, ℕ, ℤ, false, pos, IfOk, IsOk, OnOk, OnErr, IsTrue, IsSome};
ghost use Rattle.range_map_blaze.specs.Words.{at, keys_in, ClonesAreAlike, SameOption};

use range_map_blaze::{Integer, RangeMapBlaze};
use std::alloc::AllocError;

type Map = RangeMapBlaze<u64, u64>;

pub fn insert(map: &mut Map, key: u64, value: u64) -> Result<Option<u64>, AllocError>
    ensures ok { OnOk result (at map.new.entries (pos key) ≡ Some value) }
    ensures old { IfOk result (λ r. r ≡ at map.old.entries (pos key)) }
    ensures err { OnErr result (map.new.entries ≡ map.old.entries) }
{
    map.insert(key, value)
}

pub fn is_taken(map: &Map, key: u64) -> bool
    ensures exact { IsTrue result ↔ IsSome (at map.now.entries (pos key)) }
    ensures free { result ≡ false → at map.now.entries (pos key) ≡ None }
{
    map.contains_key(key)
}

pub fn paint(map: &mut Map, lo: u64, hi: u64, value: u64) -> Result<bool, AllocError>
    ensures inside { OnOk result ((k : ℕ) → lo ≤ k → k ≤ hi → at map.new.entries (pos k) ≡ Some value) }
    ensures outside { OnOk result ((k : ℕ) → (k < lo) ⊎ (hi < k) → at map.new.entries (pos k) ≡ at map.old.entries (pos k)) }
    ensures changed { IfOk result (λ changed. IsTrue changed ↔ (¬ (keys_in map.new.entries ≡ keys_in map.old.entries))) }
{
    map.ranges_insert(lo..=hi, value)
}

pub fn fill(map: &mut Map, lo: u64, hi: u64, value: u64) -> Result<bool, AllocError>
    ensures { OnOk result ((k : ℕ) → IsSome (at map.old.entries (pos k)) → at map.new.entries (pos k) ≡ at map.old.entries (pos k)) }
{
    let grew = map.ranges_insert_absent(lo..=hi, value)?;
    Ok(grew)
}

pub fn remove(map: &mut Map, key: u64) -> Result<Option<u64>, AllocError>
    ensures { at map.old.entries (pos key) ≡ None → IsOk result }
{
    map.remove(key)
}

pub fn has_length(map: &Map, n: u128) -> bool
    ensures { IsTrue result ↔ (keys_in map.now.entries ≡ pos n) }
{
    map.len() == n
}

pub fn is_same(a: &Map, b: &Map) -> bool
    ensures { IsTrue result ↔ ((k : ℤ) → at a.now.entries k ≡ at b.now.entries k) }
{
    *a == *b
}

pub fn signed(map: &mut RangeMapBlaze<i64, u64>, lo: i64, hi: i64, value: u64) -> Result<bool, AllocError>
    ensures { OnOk result ((k : ℤ) → lo ≤ℤ k → k ≤ℤ hi → at map.new.entries k ≡ Some value) }
{
    map.ranges_insert(lo..=hi, value)
}

pub fn any<T: Integer + Drop, V: Clone + Eq + Drop>(map: &mut RangeMapBlaze<T, V>, key: T, value: V) -> Result<Option<V>, AllocError>
    requires { ClonesAreAlike V.is_clone V.eq }
    ensures { OnOk result (SameOption V.eq (at map.new.entries (T.rank key)) (Some value)) }
{
    map.insert(key, value)
}

pub fn is_before<T: Integer>(a: T, b: T) -> bool
    ensures { IsTrue result ↔ (T.rank a <ℤ T.rank b) }
{
    a.in_hand();
    b.in_hand();
    a < b
}
