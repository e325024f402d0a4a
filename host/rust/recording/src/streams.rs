//! A recording that is read in pieces.

use std::error::Error;
use std::fmt;
use std::io::{self, Read, Write};

use crate::records::{BadRecord, Fault, Record};

/// How many bytes of the recording are asked for at a time.
const PIECE: usize = 1 << 16;

/// Why not all of a recording was shown.
#[derive(Debug)]
pub enum ReadError {
    /// The recording could not be read, or its text not be written.
    Io(io::Error),
    /// A record is bad. The text of all records before it is written.
    Bad(BadRecord),
}

impl fmt::Display for ReadError {
    fn fmt(&self, f: &mut fmt::Formatter) -> fmt::Result {
        match self {
            ReadError::Io(error) => error.fmt(f),
            ReadError::Bad(bad) => bad.fmt(f),
        }
    }
}

impl Error for ReadError {}

impl From<io::Error> for ReadError {
    fn from(error: io::Error) -> ReadError {
        ReadError::Io(error)
    }
}

/// Writes the text of a recording, of any length, as the recording is read.
///
/// # Errors
///
/// A bad record, or an error of reading or writing. What stands before it is written.
pub fn show(mut recording: impl Read, mut text: impl Write) -> Result<(), ReadError> {
    let mut unread = Vec::new();
    let mut place = Place::default();
    loop {
        let kept = unread.len();
        unread.resize(kept + PIECE, 0);
        let count = retried(|| recording.read(&mut unread[kept..]))?;
        unread.truncate(kept + count);
        let shown = show_piece(&unread, count == 0, &mut place, &mut text);
        text.flush()?;
        unread.drain(..shown?);
        if count == 0 {
            return Ok(());
        }
    }
}

/// How many records, and how many bytes of the recording, are shown.
#[derive(Default)]
struct Place {
    records: u64,
    bytes: u64,
}

/// Repeats a call that was interrupted.
fn retried(mut call: impl FnMut() -> io::Result<usize>) -> io::Result<usize> {
    loop {
        match call() {
            Err(error) if error.kind() == io::ErrorKind::Interrupted => {}
            result => return result,
        }
    }
}

/// Writes the text of all whole records of a piece, and gives the number of their bytes. Behind
/// the last piece of a recording nothing comes.
fn show_piece(
    piece: &[u8],
    last: bool,
    place: &mut Place,
    text: &mut impl Write,
) -> Result<usize, ReadError> {
    let mut rest = piece;
    while !rest.is_empty() {
        match Record::decode(rest) {
            Ok((record, behind)) => {
                writeln!(text, "{record}")?;
                place.records += 1;
                place.bytes += (rest.len() - behind.len()) as u64;
                rest = behind;
            }
            Err(Fault::CutShort) if !last => break,
            Err(fault) => {
                return Err(ReadError::Bad(BadRecord {
                    ordinal: place.records + 1,
                    offset: place.bytes,
                    fault,
                }));
            }
        }
    }
    Ok(piece.len() - rest.len())
}
