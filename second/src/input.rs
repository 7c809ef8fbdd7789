//! Reading an input: its head, then one stretch after the other.

use std::io::{self, ErrorKind, Read};

/// Bytes of a head.
const HEAD_LEN: usize = 2;
/// Stretches read at once: memory stays the same however long the input is.
const PIECE_STRETCHES: usize = 1024;

/// The first two bytes; none if fewer come.
pub(crate) fn read_head(input: &mut impl Read) -> io::Result<Option<[u8; HEAD_LEN]>> {
    let mut head = [0; HEAD_LEN];
    let filled = fill(input, &mut head)?;
    Ok((filled == HEAD_LEN).then_some(head))
}

/// Hands on stretches of this length. The last may be short, any other is whole,
/// since a piece is a whole number of stretches.
pub(crate) fn each_stretch(
    input: &mut impl Read,
    length: usize,
    mut each: impl FnMut(&[u8]) -> io::Result<()>,
) -> io::Result<()> {
    let mut piece = vec![0; PIECE_STRETCHES * length];
    loop {
        let filled = fill(input, &mut piece)?;
        piece[..filled].chunks(length).try_for_each(&mut each)?;
        if filled < piece.len() {
            return Ok(());
        }
    }
}

/// Reads until the buffer is full or the input ends; returns the bytes read.
fn fill(input: &mut impl Read, buffer: &mut [u8]) -> io::Result<usize> {
    let mut filled = 0;
    while filled < buffer.len() {
        match input.read(&mut buffer[filled..]) {
            Ok(0) => break,
            Ok(read) => filled += read,
            Err(error) if error.kind() == ErrorKind::Interrupted => {}
            Err(error) => return Err(error),
        }
    }
    Ok(filled)
}
