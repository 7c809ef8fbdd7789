//! Inputs and outputs that don't work smoothly.

use std::io::{self, ErrorKind, Read, Write};

/// Hands out one byte at a time and is interrupted between any two.
pub struct Trickle<'a> {
    bytes: &'a [u8],
    interrupted: bool,
}

impl<'a> Trickle<'a> {
    pub fn of(bytes: &'a [u8]) -> Trickle<'a> {
        Trickle {
            bytes,
            interrupted: false,
        }
    }
}

impl Read for Trickle<'_> {
    fn read(&mut self, buffer: &mut [u8]) -> io::Result<usize> {
        self.interrupted = !self.interrupted;
        if self.interrupted {
            return Err(ErrorKind::Interrupted.into());
        }
        let length = buffer.len().min(1);
        self.bytes.read(&mut buffer[..length])
    }
}

/// An input that breaks off with an error.
pub struct Broken;

impl Read for Broken {
    fn read(&mut self, _: &mut [u8]) -> io::Result<usize> {
        Err(ErrorKind::ConnectionReset.into())
    }
}

/// An output that nobody reads any more.
pub struct Closed;

impl Write for Closed {
    fn write(&mut self, _: &[u8]) -> io::Result<usize> {
        Err(ErrorKind::BrokenPipe.into())
    }

    fn flush(&mut self) -> io::Result<()> {
        Err(ErrorKind::BrokenPipe.into())
    }
}
