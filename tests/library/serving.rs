//! The program's engine over readers and writers that fail.
use crate::cut::{CutReader, CutWriter};
use range_map_cli::{End, serve};
use std::alloc::Global;
use std::process::Abort;
use std::test::Fail;

const INPUT: &[u8] =
    b"paint 1 3 red\npaint 7 10 blue\nat 5\nat 2\nget 4\ninsert 8 red\nlen\nlist\n";

const OUTPUT: &[u8] =
    b"true\ntrue\n4..=6 -\n1..=3 red\n-\nblue\n7\n(1..=3, \"red\"), (7..=7, \"blue\"), (8..=8, \"red\"), (9..=10, \"blue\")\n";

/// The lengths of the prefixes of each input line that are valid lines with the same answer as the whole line.
const GOOD_LENGTHS: [usize; 8] = [11, 12, 4, 4, 5, 10, 3, 4];

/// Returns the answers to a text in memory.
fn answers_to(alloc: Global, text: &[u8]) -> (Vec<u8>, End) {
    let mut output = Vec::new(alloc);
    let mut input = text;
    let end = serve(alloc, &mut input, &mut output);
    (output, end)
}

/// Asserts the answers to a text, and how it ends.
fn assert_answers(rt: &impl Abort, alloc: Global, text: &[u8], want: &[u8], end: End) {
    let (output, ended) = answers_to(alloc, text);
    assert_eq!(rt; output.as_slice(), want);
    assert_eq!(rt; ended, end);
}

#[test]
fn texts(rt: HostRuntime) {
    for (input, want, end) in [
        (INPUT, OUTPUT, End::Done),
        (b"".as_slice(), b"".as_slice(), End::Done),
        (
            b"len\npaint 1 x a\nlen\n".as_slice(),
            b"0\nerror line 2\n".as_slice(),
            End::BadLine,
        ),
        (
            b"paint -9223372036854775808 9223372036854775807 all\nlen".as_slice(),
            b"true\n18446744073709551616\n".as_slice(),
            End::Done,
        ),
        (
            b"paint 9 3 a\n\nlist\nget 5\n".as_slice(),
            b"false\n\n-\n".as_slice(),
            End::Done,
        ),
        (
            b"paint -9223372036854775808 -9223372036854775808 abcdefghijklmnopqrstuvwxyzABCDEF".as_slice(),
            b"true\n".as_slice(),
            End::Done,
        ),
        (
            b"insert 5 x\nfill 3 8 y\nfill 4 7 z\nfill 9 3 z\nlist\n".as_slice(),
            b"-\ntrue\nfalse\nfalse\n(3..=4, \"y\"), (5..=5, \"x\"), (6..=8, \"y\")\n".as_slice(),
            End::Done,
        ),
        (
            b"insert 5 x\nremove 5\nremove 5\nlen\nat 0\n".as_slice(),
            b"-\nx\n-\n0\n-9223372036854775808..=9223372036854775807 -\n".as_slice(),
            End::Done,
        ),
    ] {
        assert_answers(&rt, rt.alloc(), input, want, end);
    }
}

#[test]
fn bad_lines(rt: HostRuntime) -> Result<(), Fail> {
    let long = vec![in rt.alloc(); b'a'; 100_000]?;
    for line in [
        b"paint 0 9223372036854775808 a".as_slice(),
        b"paint 0 1 abcdefghijklmnopqrstuvwxyzABCDEFG".as_slice(),
        b"get 00000000000000000001".as_slice(),
        b"get  1".as_slice(),
        b"get 1 ".as_slice(),
        b" get 1".as_slice(),
        b"get +1".as_slice(),
        b"get -".as_slice(),
        b"get".as_slice(),
        b"list\r".as_slice(),
        b"fill 1 a".as_slice(),
        b"insert 1 a b".as_slice(),
        b"insert 1 -".as_slice(),
        b"remove 1 2".as_slice(),
        b"at x".as_slice(),
        long.as_slice(),
    ] {
        assert_answers(&rt, rt.alloc(), line, b"error line 1\n", End::BadLine);
    }
    Ok(())
}

fn cut_writer(alloc: Global, step: usize, room: usize, is_silent: bool) -> CutWriter {
    CutWriter {
        got: Vec::new(alloc),
        step,
        room,
        is_silent,
    }
}

/// Returns the number of line ends in a text.
fn line_count(text: &[u8]) -> usize {
    text.iter().filter(|byte| **byte == b'\n').count()
}

/// Returns the first `count` lines of a text.
fn first_lines(text: &[u8], count: usize) -> &[u8] {
    let mut lines = 0usize;
    for (at, byte) in text.iter().enumerate() {
        if lines == count {
            let (front, _) = text.split_at(at);
            return front;
        }
        if *byte == b'\n' {
            lines = lines.saturating_add(1);
        }
    }
    text
}

#[test]
fn texts_that_are_cut(rt: HostRuntime) -> Result<(), Fail> {
    for count in 0..=INPUT.len() {
        let (text, _) = INPUT.split_at(count);
        let lines = line_count(text);
        let rest = count.saturating_sub(first_lines(text, lines).len());
        let number = lines.saturating_add(1);
        let is_good = GOOD_LENGTHS
            .get(lines)
            .is_some_and(|length| *length <= rest);
        if rest == 0 || is_good {
            let want = first_lines(OUTPUT, if is_good { number } else { lines });
            assert_answers(&rt, rt.alloc(), text, want, End::Done);
            continue;
        }
        let mut want = Vec::new(rt.alloc());
        want.extend_from_slice(first_lines(OUTPUT, lines))?;
        let last = format!(in rt.alloc(); "error line {number}\n")?;
        want.extend_from_slice(last.as_bytes())?;
        assert_answers(&rt, rt.alloc(), text, &want, End::BadLine);
    }
    Ok(())
}

#[test]
fn long_text_byte_by_byte(rt: HostRuntime) -> Result<(), Fail> {
    let mut text = Vec::new(rt.alloc());
    let mut want = Vec::new(rt.alloc());
    text.extend_from_slice(INPUT)?;
    want.extend_from_slice(OUTPUT)?;
    for _ in 0..2000 {
        text.extend_from_slice(b"get 4\nat 2\n")?;
        want.extend_from_slice(b"-\n1..=3 red\n")?;
    }
    let mut input = CutReader {
        text: &text,
        step: 1,
        left: usize::MAX,
    };
    let mut output = Vec::new(rt.alloc());
    let end = serve(rt.alloc(), &mut input, &mut output);
    assert_eq!(rt; end, End::Done);
    assert!(rt; output == want);
    Ok(())
}

#[test]
fn reads_that_fail(rt: HostRuntime) {
    for step in [1, 3, 5000] {
        for left in 0..=INPUT.len() {
            let mut input = CutReader {
                text: INPUT,
                step,
                left,
            };
            let (read, _) = INPUT.split_at(left);
            let lines = line_count(read);
            let mut output = Vec::new(rt.alloc());
            let end = serve(rt.alloc(), &mut input, &mut output);
            assert_eq!(rt; end, End::ReadFault, "after {left}");
            assert_eq!(rt;
                output.as_slice(),
                first_lines(OUTPUT, lines),
                "after {left}"
            );
        }
    }
}

#[test]
fn writes_that_fail(rt: HostRuntime) {
    for step in [1, 3, 5000] {
        for is_silent in [false, true] {
            for room in 0..OUTPUT.len() {
                let mut input = INPUT;
                let mut output = cut_writer(rt.alloc(), step, room, is_silent);
                let end = serve(rt.alloc(), &mut input, &mut output);
                let (front, _) = OUTPUT.split_at(room);
                assert_eq!(rt; end, End::WriteFault);
                assert_eq!(rt; output.got.as_slice(), front);
            }
        }
        let mut input = INPUT;
        let mut output = cut_writer(rt.alloc(), step, OUTPUT.len(), false);
        let end = serve(rt.alloc(), &mut input, &mut output);
        assert_eq!(rt; end, End::Done);
        assert_eq!(rt; output.got.as_slice(), OUTPUT);
    }
}
