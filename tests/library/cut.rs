//! A reader and a writer in memory, both of which fail.
ghost use Rattle.std.specs.Prelude.{Some};

use std::io;
use std::io::{Read, Write};

/// Yields its text in pieces of at most `step` bytes, and fails after `left` bytes.
#[derive(Drop)]
pub struct CutReader<'a> {
    pub text: &'a [u8],
    pub step: usize,
    pub left: usize,
}

impl<'a> Read for CutReader<'a> {
    ghost remaining = { λ r. Some r.text.now };

    fn read(&mut self, buf: &mut [u8]) -> io::Result<usize> {
        if self.left == 0 {
            return Err(io::Error::from(io::ErrorKind::Interrupted));
        }
        let most = self.step.min(self.left).min(buf.len());
        if most == 0 {
            return self.text.read(buf);
        }
        let count = self.text.read(&mut buf[..most])?;
        self.left = self.left.saturating_sub(count);
        Ok(count)
    }
}

/// Accepts at most `step` bytes in one call and `room` in all. Then it fails, or accepts no bytes if it is silent.
#[derive(Drop)]
pub struct CutWriter {
    pub got: Vec<u8>,
    pub step: usize,
    pub room: usize,
    pub is_silent: bool,
}

impl Write for CutWriter {
    ghost contents = { λ w. Some w.got.items };

    fn write(&mut self, buf: &[u8]) -> io::Result<usize> {
        let most = self.step.min(self.room).min(buf.len());
        if most == 0 {
            return if self.is_silent {
                Ok(0)
            } else {
                Err(io::Error::from(io::ErrorKind::Interrupted))
            };
        }
        let count = self.got.write(&buf[..most])?;
        self.room = self.room.saturating_sub(count);
        Ok(count)
    }

    fn flush(&mut self) -> io::Result<()> {
        Ok(())
    }
}
