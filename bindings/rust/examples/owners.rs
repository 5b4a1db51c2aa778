//! Merges two tables of address blocks, and prints the blocks whose owner changed:
//! `owners OLD NEW`, where each file consists of lines `ADDRESS/LENGTH OWNER`.
//!
//! A later line replaces an earlier one. A line that starts with `#` is skipped. A line ends with LF
//! or CRLF. An invalid line ends the program with status 1.

use range_map::RangeMap;
use std::collections::HashMap;
use std::error::Error;
use std::io::{self, BufWriter, Write};
use std::net::Ipv4Addr;
use std::process::exit;

/// The names of the owners. The number of a name is its position.
#[derive(Default)]
struct Owners {
    names: Vec<Vec<u8>>,
    numbers: HashMap<Vec<u8>, u64>,
}

impl Owners {
    fn number_of(&mut self, name: &[u8]) -> u64 {
        if let Some(&number) = self.numbers.get(name) {
            return number;
        }
        let number = self.names.len() as u64;
        self.names.push(name.to_vec());
        self.numbers.insert(name.to_vec(), number);
        number
    }

    fn name_of(&self, number: u64) -> &[u8] {
        &self.names[number as usize]
    }
}

/// The two parts of a text before and after the first byte that is equal to `separator`.
fn parts(text: &[u8], separator: u8) -> Option<(&[u8], &[u8])> {
    let at = text.iter().position(|&byte| byte == separator)?;
    Some((&text[..at], &text[at + 1..]))
}

/// A decimal number without sign and leading zeros.
fn number(text: &[u8], greatest: u32) -> Option<u32> {
    let is_number = (1..=3).contains(&text.len()) && text.iter().all(u8::is_ascii_digit);
    if !is_number || (text.len() > 1 && text[0] == b'0') {
        return None;
    }
    let number = text
        .iter()
        .fold(0, |number, digit| 10 * number + u32::from(digit - b'0'));
    (number <= greatest).then_some(number)
}

/// The four octets of an address.
fn address(text: &[u8]) -> Option<u32> {
    let (first, text) = parts(text, b'.')?;
    let (second, text) = parts(text, b'.')?;
    let (third, fourth) = parts(text, b'.')?;
    [first, second, third, fourth]
        .iter()
        .try_fold(0, |address, octet| Some(address << 8 | number(octet, 255)?))
}

/// The first address, the number of addresses and the owner of a line.
fn block(line: &[u8]) -> Option<(i64, i64, &[u8])> {
    let (block, owner) = parts(line, b' ')?;
    let (start, length) = parts(block, b'/')?;
    let start = i64::from(address(start)?);
    let count = 1_i64 << (32 - number(length, 32)?);
    let is_owner = !owner.is_empty() && owner[0] != b' ';
    (is_owner && start % count == 0).then_some((start, count, owner))
}

/// The table of a file.
fn read(path: &str, owners: &mut Owners) -> Result<RangeMap, Box<dyn Error>> {
    let text = std::fs::read(path).map_err(|error| format!("{path}: {error}"))?;
    let mut table = RangeMap::new();
    for (line, number) in text.split_inclusive(|&byte| byte == b'\n').zip(1_u64..) {
        let line = match line {
            [line @ .., b'\r', b'\n'] | [line @ .., b'\n'] => line,
            line => line,
        };
        if !line.starts_with(b"#") {
            let (start, count, owner) =
                block(line).ok_or_else(|| format!("line {number}: invalid"))?;
            table.ranges_insert(start..start + count, owners.number_of(owner))?;
        }
    }
    Ok(table)
}

fn run() -> Result<(), Box<dyn Error>> {
    let mut paths = std::env::args().skip(1);
    let (old, new) = match (paths.next(), paths.next(), paths.next()) {
        (Some(old), Some(new), None) => (old, new),
        _ => return Err("usage: owners OLD NEW".into()),
    };
    let mut owners = Owners::default();
    let old = read(&old, &mut owners)?;
    let new = read(&new, &mut owners)?;
    let merged = (&old | &new)?;

    let mut out = BufWriter::new(io::stdout().lock());
    let (ranges, addresses) = (merged.ranges_len(), merged.len());
    writeln!(out, "merged: {ranges} ranges, {addresses} addresses")?;
    let mut moved = RangeMap::new();
    for (range, before) in &old {
        for (other, after) in merged.overlapping(range.clone()) {
            if before == after {
                continue;
            }
            let lo = *range.start().max(other.start());
            let hi = *range.end().min(other.end());
            let (first, last) = (Ipv4Addr::from(lo as u32), Ipv4Addr::from(hi as u32));
            write!(out, "{first} to {last}: ")?;
            out.write_all(owners.name_of(before))?;
            out.write_all(b", then ")?;
            out.write_all(owners.name_of(after))?;
            out.write_all(b"\n")?;
            moved.ranges_insert(lo..=hi, 1)?;
        }
    }
    writeln!(out, "changed hands: {} addresses", moved.len())?;
    out.flush()?;
    Ok(())
}

fn main() {
    if let Err(error) = run() {
        eprintln!("owners: {error}");
        exit(1);
    }
}
