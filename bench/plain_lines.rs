//! The program `rangemap` over the plain Rust map, with the same lines and answers. It reads its input in chunks, and writes
//! the answers to a chunk before it reads the next.
mod ranges;

use ranges::RangeMap;
use std::io::{self, Read, Write};
use std::process::ExitCode;

type Map = RangeMap<String>;

const CHUNK: usize = 8192;

/// The error of an invalid line.
struct Bad;

/// Parses a number: an optional minus, and one to nineteen digits.
fn number(text: &[u8]) -> Result<i64, Bad> {
    let (is_negative, digits) = match text {
        [b'-', digits @ ..] => (true, digits),
        digits => (false, digits),
    };
    if digits.is_empty() || digits.len() > 19 {
        return Err(Bad);
    }
    let mut value = 0u64;
    for byte in digits {
        if !byte.is_ascii_digit() {
            return Err(Bad);
        }
        value = value * 10 + u64::from(byte - b'0');
    }
    if is_negative {
        0i64.checked_sub_unsigned(value).ok_or(Bad)
    } else {
        i64::try_from(value).map_err(|_| Bad)
    }
}

/// Parses a word: one to thirty-two letters or digits.
fn word(text: &[u8]) -> Result<String, Bad> {
    if text.is_empty() || text.len() > 32 || !text.iter().all(u8::is_ascii_alphanumeric) {
        return Err(Bad);
    }
    String::from_utf8(text.to_vec()).map_err(|_| Bad)
}

fn word_or_dash(word: Option<&String>) -> &str {
    word.map_or("-", String::as_str)
}

/// Runs a line, and appends its answer to `output`.
fn answer(map: &mut Map, line: &[u8], output: &mut Vec<u8>) -> Result<(), Bad> {
    if line.is_empty() {
        return Ok(());
    }
    let mut words = line.split(|byte| *byte == b' ');
    let asked = (words.next(), words.next(), words.next(), words.next(), words.next());
    let written = match asked {
        (Some(b"paint"), Some(lo), Some(hi), Some(text), None) => {
            let changed = map.paint(number(lo)?, number(hi)?, word(text)?);
            writeln!(output, "{changed}")
        }
        (Some(b"insert"), Some(key), Some(text), None, None) => {
            let old = map.insert(number(key)?, word(text)?);
            writeln!(output, "{}", word_or_dash(old.as_ref()))
        }
        (Some(b"remove"), Some(key), None, None, None) => {
            let old = map.remove(number(key)?);
            writeln!(output, "{}", word_or_dash(old.as_ref()))
        }
        (Some(b"get"), Some(key), None, None, None) => {
            writeln!(output, "{}", word_or_dash(map.get(number(key)?)))
        }
        (Some(b"at"), Some(key), None, None, None) => {
            let (start, end, text) = map.range_or_gap_at(number(key)?);
            writeln!(output, "{start}..={end} {}", word_or_dash(text))
        }
        (Some(b"len"), None, None, None, None) => writeln!(output, "{}", map.len()),
        (Some(b"list"), None, None, None, None) => list(map, output),
        _ => return Err(Bad),
    };
    written.map_err(|_| Bad)
}

fn list(map: &Map, output: &mut Vec<u8>) -> io::Result<()> {
    for (place, (start, end, text)) in map.entries().enumerate() {
        let comma = if place == 0 { "" } else { ", " };
        write!(output, "{comma}({start}..={end}, \"{text}\")")?;
    }
    writeln!(output)
}

/// Answers the lines of standard input. It ends at the first invalid line, and returns the number of that line.
fn serve() -> io::Result<Option<u64>> {
    let (mut input, mut output) = (io::stdin().lock(), io::stdout().lock());
    let mut map = Map::default();
    let mut answers = Vec::with_capacity(CHUNK);
    let mut rest = Vec::new();
    let mut lines = 0;
    let mut chunk = [0; CHUNK];
    let mut take_line = |line: &[u8], answers: &mut Vec<u8>| {
        lines += 1;
        answer(&mut map, line, answers).err().map(|_| lines)
    };
    loop {
        let count = input.read(&mut chunk)?;
        let mut bad = None;
        let mut text = &chunk[..count];
        while let Some(place) = text.iter().position(|byte| *byte == b'\n') {
            bad = if rest.is_empty() {
                take_line(&text[..place], &mut answers)
            } else {
                rest.extend_from_slice(&text[..place]);
                let bad = take_line(&rest, &mut answers);
                rest.clear();
                bad
            };
            if bad.is_some() {
                break;
            }
            text = &text[place + 1..];
        }
        if count == 0 && !rest.is_empty() {
            bad = take_line(&rest, &mut answers);
        } else {
            rest.extend_from_slice(text);
        }
        if let Some(line) = bad {
            writeln!(answers, "error line {line}")?;
        }
        output.write_all(&answers)?;
        output.flush()?;
        answers.clear();
        if count == 0 || bad.is_some() {
            return Ok(bad);
        }
    }
}

fn main() -> ExitCode {
    match serve() {
        Ok(None) => ExitCode::SUCCESS,
        Ok(Some(_)) => ExitCode::from(2),
        Err(_) => ExitCode::from(1),
    }
}
